#!/usr/bin/env bash
# That a wrong answer fails the tests. The archive is made anew with functions that spoil one thing, by the name that
# the environment variable SPOIL has (tests/boundary/spoil*.c); the judge and the replay of its tape must pass where it
# has none, and fail by their counts for each of them.
set -uo pipefail
source "$(dirname "$0")/boundary/begin.sh"
spoiled=$PWD/$made/spoiled

# The archive, its functions renamed, with those of spoil.c and spoil_faces.c in their place.
build_spoiled() {
    local renamed=() name source
    for name in $(nm --defined-only --extern-only "$archive" | sed -nE 's/^.* T (bz_[a-z0-9_]+)$/\1/p'); do
        renamed+=(--redefine-sym "$name=sound_$name")
    done
    mkdir -p "$spoiled" && rm -f "$spoiled/librig.a" &&
        objcopy "${renamed[@]}" "$archive" "$spoiled/librig.a" || return 1
    for source in spoil spoil_faces; do
        gcc -std=c99 -O2 -Wall -Wextra -Werror -I include -c -o "$spoiled/$source.o" "tests/boundary/$source.c" &&
            ar rs "$spoiled/librig.a" "$spoiled/$source.o" 2> "$log" || return 1
    done
}

# The judge and the replay, both over the spoiled archive.
build_both() {
    (cd rust && BERZULKA_LIB=$spoiled CARGO_TARGET_DIR=$spoiled/rust cargo build --release -q -p judge) &&
        gcc -std=c99 -O2 -I include -o "$spoiled/stress" tests/boundary/stress.c "$spoiled/librig.a"
}

ask_judge() {
    "$spoiled/rust/release/judge" "$(judge_of "${SPOIL:-}")" 300 1
}

# Which judge asks the function that is spoiled; all of them where none is.
judge_of() {
    case $1 in
        check-* | point-* | corner-* | area-*) echo charts ;;
        faces-*) echo faces ;;
        head-*) echo heads ;;
        join-*) echo joins ;;
        gauge-* | pressure-*) echo gauges ;;
        read-*) echo files ;;
        *) echo all ;;
    esac
}

ask_replay() {
    "$spoiled/stress" < "$scratch/tape"
}

# fails_by_count THING COMMAND: with this spoiled the command ends badly, and says itself how much failed.
fails_by_count() {
    local told=$scratch/told.$1
    SPOIL=$1 "$2" > "$told" 2>&1
    local status=$?
    cat "$told"
    [ "$status" -ne 0 ] && tail -n 1 "$told" | grep -qxE '[0-9]+ passed, [1-9][0-9]* failed'
}

# Both tests of one thing, said to a file of its own: several are tried at once.
try() {
    local log=$scratch/log.$1
    expect "$1 spoiled, the judge" fails_by_count "$1" ask_judge
    expect "$1 spoiled, the replay" fails_by_count "$1" ask_replay
}

unset SPOIL
things=$(grep -ohE 'is_spoiled\("[a-z0-9-]+"' tests/boundary/spoil*.c | cut -d '"' -f 2) || exit 1
build_spoiled && build_both && "$spoiled/rust/release/judge" tape 1000 1 > "$scratch/tape" || exit 1
expect 'nothing spoiled, the judge' ask_judge
expect 'nothing spoiled, the replay' ask_replay
for thing in $things; do
    [ "$(jobs -rp | wc -l)" -lt "$(nproc)" ] || wait -n
    try "$thing" > "$scratch/said.$thing" &
done
wait

# a thing of which nothing was said counts as two that failed
for thing in $things; do
    cat "$scratch/said.$thing"
    ok=$(grep -c '^ok: ' "$scratch/said.$thing")
    passed=$((passed + ok))
    failed=$((failed + 2 - ok))
done

closes
