#!/usr/bin/env bash
# That the gate refuses what it is there to refuse. Works on a copy cut down to the lowest crate, so it takes seconds.
set -u
cd "$(dirname "$0")/.." || exit 2
copy=$(mktemp -d) || exit 2
trap 'rm -rf "$copy"' EXIT
repo=$copy/repo
passed=0
failed=0

# The copy: the lowest crate, listed, with its definitions and no laws.
fresh() {
    rm -rf "$repo"
    mkdir -p "$repo/crates/counts/proofs"
    cp -r crates/counts/src crates/counts/specs "$repo/crates/counts/"
    : > "$repo/crates/counts/proofs/Lib.antt"
    echo 'counts:' > "$repo/crates.txt"
}

# A law of the copy's, made known to its crate.
law() {
    cat > "$repo/crates/counts/proofs/$1.antt"
    echo "pub mod $1" >> "$repo/crates/counts/proofs/Lib.antt"
}

# The copy with a law and an edit of it, from the one text to the other.
with_edit() {
    law SumLaws << 'ANTT'
use Rattle.std.specs.Prelude.{◌≡◌, ◌+◌, refl}

pub two : 1 + 1 ≡ 2
two = refl
ANTT
    mkdir -p "$repo/crates/counts/must-fail"
    printf 'file: proofs/SumLaws.antt\nold: %s\nnew: %s\n' "$1" "$2" > "$repo/crates/counts/must-fail/two.edit"
}

# The copy with the gate itself and one test that closes with the given line and status.
with_test() {
    fresh
    mkdir -p "$repo/.ci" "$repo/tests"
    cp .ci/run "$repo/.ci/"
    cp KIT "$repo/"
    printf 'echo "%s"\nexit %s\n' "$1" "$2" > "$repo/tests/one.sh"
}

# expect ok|refused WHAT LAST PATTERN COMMAND..: in the copy the command ends so, its last line is LAST (a pattern), and
# PATTERN is in what it prints.
expect() {
    local want=$1 what=$2 last=$3 pattern=$4 got=refused
    shift 4
    if (cd "$repo" && "$@") > "$copy/log" 2>&1; then got=ok; fi
    if [ "$got" = "$want" ] && tail -n 1 "$copy/log" | grep -qx -- "$last" && grep -q -- "$pattern" "$copy/log"; then
        echo "ok: $what: $want"
        passed=$((passed + 1))
    else
        echo "FAILED: $what: wanted $want, got $got"
        tail -n 5 "$copy/log"
        failed=$((failed + 1))
    fi
}

# ---- what `rt ci` refuses

lost='no check reads'
some_failed='[0-9]* passed, [1-9][0-9]* failed'

fresh
expect ok 'the copy as it is' '1 passed, 0 failed' 'counts \(proved\|is kept\)' rt ci

fresh
mkdir -p "$repo/crates/stray/src"
echo '// in no list' > "$repo/crates/stray/src/lib.rt"
expect refused 'a crate that crates.txt does not list' "$some_failed" "$lost.*crates/stray/src/lib.rt" rt ci

fresh
echo '-- in no folder of a crate' > "$repo/crates/counts/Stray.antt"
expect refused 'a file that no crate has' "$some_failed" "$lost.*crates/counts/Stray.antt" rt ci

fresh
echo 'stray:' >> "$repo/crates.txt"
expect refused 'a listed crate that is not there' "$some_failed" 'there is no folder .*crates/stray' rt ci

fresh
law HoleLaws << 'ANTT'
use Rattle.std.specs.Prelude.{◌≡◌, ℕ}

pub hole : (n : ℕ) → n ≡ n
hole n = ?
ANTT
expect refused 'a proof with a hole' "$some_failed" '`hole` is not admitted: has-holes' rt ci

fresh
law WishLaws << 'ANTT'
use Rattle.std.specs.Prelude.{ℕ, ◌<◌}

axiom pub wish : (n : ℕ) → n < 0
ANTT
expect refused 'an axiom' "$some_failed" '`wish` is not admitted: axiom' rt ci

fresh
printf 'fn less(n: u32) -> u32 {\n    n - 1\n}\n' > "$repo/crates/counts/src/lib.rt"
expect refused 'a function that is not proved' "$some_failed" 'counts::less: no proof' rt ci

fresh
with_edit '1 + 1 ≡ 2' '1 + 1 ≡ 3'
expect ok 'an edit that is wrong' '2 passed, 0 failed' 'must-fail edits: 1 refused;' rt ci

fresh
with_edit '1 + 1 ≡ 2' '1 + 2 ≡ 3'
expect refused 'an edit that is proved' "$some_failed" 'counts/two.edit: NOT REFUSED' rt ci

# ---- what the gate makes of its parts

with_test '2 passed, 0 failed' 0
expect ok 'a test that passes' '3 passed, 0 failed' 'the kit is the one that KIT names' bash .ci/run

with_test '1 passed, 1 failed' 1
expect refused 'a test that fails' '2 passed, 1 failed' '1 passed, 1 failed' bash .ci/run

with_test 'no counts' 0
expect refused 'a test that does not say how it went' '1 passed, 1 failed' 'did not close with its counts' bash .ci/run

with_test '2 passed, 0 failed' 3
expect refused 'a test that ends badly whatever it says' '3 passed, 1 failed' 'ended with status 3' bash .ci/run

with_test '2 passed, 0 failed' 0
with_edit '1 + 1 ≡ 2' '1 + 1 ≡ 3'
expect ok 'an edit that is refused' '4 passed, 0 failed' 'gate: 1 of the 1 must-fail edits' bash .ci/run

with_test '2 passed, 0 failed' 0
with_edit '1 + 1 ≡ 4' '1 + 1 ≡ 3'
expect refused 'an edit that cannot be applied' '3 passed, 1 failed' 'gate: 0 of the 1 must-fail edits .* 1 are bad' bash .ci/run

with_test '2 passed, 0 failed' 0
echo 'another kit' > "$repo/KIT"
expect ok 'another kit, which is said' '3 passed, 0 failed' 'ANOTHER KIT RUNS' bash .ci/run

echo "$passed passed, $failed failed"
[ "$failed" -eq 0 ]
