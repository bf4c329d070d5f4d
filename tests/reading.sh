#!/usr/bin/env bash
# docs/READING.md is kept true: in the part that goes through document 01 sentence by sentence, each definition is in
# specs/ of some crate, each function in src/, each theorem in proofs/, and each wrong edit in must-fail/ of the crate
# that is named after it.
set -u
cd "$(dirname "$0")/.." || exit 2
room=$(mktemp -d) || exit 2
trap 'rm -rf "$room"' EXIT
passed=0 failed=0
note() {
    if [ "$1" = 0 ]; then passed=$((passed + 1)); else failed=$((failed + 1)); echo "$2"; fi
}

# What there is, a name to a line.
declared() { sed -nE 's/^ *((abbrev|unfoldable|pub|record|data) )*([^ :({]+)( [^:]*)? :( .*)?$/\3/p'; }
cat crates/*/specs/*.antt | declared >"$room/definition"
sed -nE 's/^pub (enum|struct) ([A-Za-z]+).*/\2/p' crates/*/src/*.rt >>"$room/definition"
sed -nE 's/^ *(pub )?(extern "C" )?fn ([a-z_0-9]+).*/\3/p' crates/*/src/*.rt >"$room/function"
cat crates/*/proofs/*.antt | declared >"$room/theorem"
for edit in crates/*/must-fail/*.edit; do
    crate=${edit#crates/}
    echo "${crate%%/*}/$(basename "$edit" .edit)"
done >"$room/edit"

# What is named, by the head of its column: KIND NAME to a line. A wrong edit's crate stands in brackets after it.
awk -F' *[|] *' '
    /^## / { on = ($0 ~ /^## Document 01, sentence by sentence/) }
    !on || !/^[|]/ { next }
    $2 == "sentence" || $2 == "slip" || $2 == "empty version" {
        for (i = 2; i < NF; i++) head[i] = $i
        columns = NF
        next
    }
    NF != columns { print "row " $2; next }
    {
        for (i = 3; i < NF; i++) {
            kind = head[i]
            if (kind == "wrong edit") kind = "edit"
            if (kind != "definition" && kind != "function" && kind != "theorem" && kind != "edit") continue
            text = $i; many = 0
            while (match(text, /`[^`]*`|\([a-z]+\)/)) {
                word = substr(text, RSTART + 1, RLENGTH - 2)
                if (substr(text, RSTART, 1) == "`") names[many++] = word
                else if (kind == "edit") { for (j = 0; j < many; j++) print "edit " word "/" names[j]; many = 0 }
                text = substr(text, RSTART + RLENGTH)
            }
            for (j = 0; j < many; j++) print kind " " names[j]
        }
    }' docs/READING.md >"$room/named"

while read -r kind name; do
    if [ "$kind" = row ]; then
        note 1 "docs/READING.md: a row has another number of columns than its head: $name"
        continue
    fi
    grep -qxF -- "$name" "$room/$kind"
    note $? "docs/READING.md names the $kind $name, and there is none"
done < <(sort -u "$room/named")
[ "$(sort -u "$room/named" | wc -l)" -gt 300 ]
note $? "docs/READING.md names less than 300 things: the table was not read"

echo "$passed passed, $failed failed"
[ "$failed" = 0 ]
