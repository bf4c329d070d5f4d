#!/usr/bin/env bash
# Every public function of a library has, in the crate promises, a theorem that any two of its outcomes coincide, and no
# two share one: pub fn NAME has same-NAME, with dashes; a method may have its type's name before it (same-TYPE-NAME), and
# the conversion of A into B is same-from-A or same-B-from-A. And no public function asks anything of its caller.
# The functions of rig_c, which no crate can name, have the theorems of rig's: each has its parameters and its clauses,
# word for word, and the words come from the same modules.
set -u
cd "$(dirname "$0")/.." || exit 2
passed=0 failed=0
note() {
    if [ "$1" = 0 ]; then passed=$((passed + 1)); else failed=$((failed + 1)); echo "$2"; fi
}

# exports SOURCE: the names of its public functions.
exports() {
    sed -nE 's/^ *pub (extern "C" )?fn ([a-z_0-9]+).*/\2/p' "$1"
}

# settled SOURCE: of each public function and each conversion, its name and the names that its theorem may have.
settled() {
    awk '
        function dashed(word) { gsub(/[A-Z]/, "-&", word); sub(/^-/, "", word); gsub(/_/, "-", word); return tolower(word) }
        /^impl/ { type = $0; sub(/ *\{.*/, "", type); from = ""
            if (match(type, /From<[A-Za-z0-9]+>/)) { from = substr(type, RSTART + 5, RLENGTH - 6); try = type ~ /TryFrom</ }
            sub(/^impl(<[^>]*>)? */, "", type); sub(/.* for /, "", type); sub(/<.*/, "", type) }
        /^}/ { type = ""; from = "" }
        from != "" && /^ *fn (try_)?from\(/ {
            short = type; sub(/Refusal$/, "", short)
            print "from<" from ">", (try ? "same-try-from" : "same-" (short == "" ? "" : dashed(short) "-") "from-" dashed(from)) }
        match($0, /^ *pub (extern "C" )?fn [a-z_0-9]+/) { name = substr($0, RSTART, RLENGTH); sub(/.* /, "", name)
            print name, (type == "" ? "" : "same-" dashed(type) "-" dashed(name) " ") "same-" dashed(name) }
    ' "$1"
}

used=" "
for source in crates/*/src/*.rt; do
    [ -f "$(dirname "$source")/main.rt" ] && continue
    # rig_c's exports have the theorems of rig's functions
    [ "$source" = crates/rig_c/src/lib.rt ] && continue
    while read -r name laws; do
        found=
        for law in $laws; do
            [ -z "$found" ] && [[ $used != *" $law "* ]] && grep -q "^pub $law :" crates/promises/proofs/*.antt && found=$law
        done
        used="$used$found "
        [ -n "$found" ]
        note $? "$source: no theorem $laws for $name, or only one that is another function's"
    done < <(settled "$source")
done

for source in crates/*/src/*.rt; do
    [ -f "$(dirname "$source")/main.rt" ] && continue
    while read -r name; do
        ! awk -v name="$name" '
            $0 ~ "pub (extern \"C\" )?fn " name "[<(]" { on = 1 }
            on && /requires/ { bad = 1 }
            on && /^ *\{/ { on = 0 }
            END { exit !bad }' "$source"
        note $? "$source: the public function $name has a requires"
    done < <(exports "$source")
done

# promise SOURCE NAME: what stands from a public function's name to its body, in one line.
promise() {
    awk -v name="$2" '
        $0 ~ "pub (extern \"C\" )?fn " name "[<(]" { on = 1; sub(/.*fn /, "") }
        on && /^ *\{/ { exit }
        on' "$1" | tr -s ' \n' ' ' | sed 's/, )/)/; s/( /(/'
}

for name in $(exports crates/rig_c/src/lib.rt); do
    promised=$(promise crates/rig/src/lib.rt "$name")
    [ -n "$promised" ] && [ "$promised" = "$(promise crates/rig_c/src/lib.rt "$name")" ]
    note $? "crates/rig_c/src/lib.rt: $name does not promise what it does in crates/rig/src/lib.rt"
done

# words SOURCE: each name that its clauses take from elsewhere, behind the module that it takes it from.
words() {
    sed -nE 's/^ghost use (.*)\.\{(.*)\};$/\1 \2/p' "$1" | tr -d ',' | awk '{ for (i = 2; i <= NF; i++) print $1 "." $i }' | sort
}

[ -z "$(comm -13 <(words crates/rig/src/lib.rt) <(words crates/rig_c/src/lib.rt))" ]
note $? "crates/rig_c/src/lib.rt: its clauses take a word from where crates/rig/src/lib.rt does not"
[ "$(exports crates/rig/src/lib.rt)" = "$(exports crates/rig_c/src/lib.rt)" ]
note $? "crates/rig_c/src/lib.rt: not the functions of crates/rig/src/lib.rt"

echo "$passed passed, $failed failed"
[ "$failed" = 0 ]
