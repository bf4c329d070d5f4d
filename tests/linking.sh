#!/usr/bin/env bash
# That the archive links from C and from Rust: the header and the wrapper declare what the archive has and no more, both
# examples print what they must, and the wrapper's own tests pass.
set -uo pipefail
source "$(dirname "$0")/boundary/begin.sh"
strict=(-Wall -Wextra -Wpedantic -Wconversion -Werror)

# What the compiler puts in by itself, and every C library has.
allowed='memcpy memmove memset memcmp'

# ---- C

# compiles STANDARD LANGUAGE: the header alone.
compiles() {
    gcc "-std=$1" "${strict[@]}" -fsyntax-only -x "$2" include/berzulka.h
}

# build NAME SOURCE FLAG..
build() {
    gcc "${@:3}" "${strict[@]}" -I include -o "$made/$1" "$2" -x none "$archive"
}

# prints FLAG..: the example in C prints what it must.
prints() {
    build rig examples/rig.c "$@" && "$made/rig" examples/square.chart | diff examples/rig.stdout -
}

takes_null() {
    build empty tests/boundary/empty.c -std=c99 && "$made/empty"
}

expect 'the header alone is C99' compiles c99 c
expect 'the header alone is C11' compiles c11 c
expect 'the example in C99' prints -std=c99
expect 'the null pointer is the empty array' takes_null
if echo 'int main() {}' | gcc -x c++ -fsyntax-only - 2> "$log"; then
    expect 'the header alone is C++' compiles c++11 c++
    expect 'the example as C++' prints -std=c++11 -x c++
else
    echo 'no C++ compiler is here, so the header is not tried as C++'
fi

# ---- Rust

rust_prints() {
    (cd rust && cargo run -q --example rig -- ../examples/square.chart) | diff examples/rig.stdout -
}

in_rust() {
    (cd rust && "$@")
}

# Without the archive a build stops and says what to do.
says_what_is_missing() {
    ! BERZULKA_LIB=$scratch CARGO_TARGET_DIR=$scratch/target in_rust cargo build 2> "$scratch/errors" || return 1
    cat "$scratch/errors"
    grep -qF "$scratch/librig.a is not there" "$scratch/errors" && grep -q 'tests/boundary/librig.sh' "$scratch/errors"
}

expect 'the example in Rust' rust_prints
expect "the wrapper's tests" in_rust cargo test -q --tests
expect "the wrapper's examples in its documents" in_rust cargo test -q --doc
expect 'the build without the archive' says_what_is_missing

# ---- names

# The names that each declares, one to a line.
in_archive() {
    nm --defined-only --extern-only "$archive" | sed -nE 's/^[0-9a-f]+ [A-Z] //p' | sort -u
}

in_header() {
    sed -nE 's/^uint64_t (bz_[a-z0-9_]+)\(.*/\1/p' include/berzulka.h | sort -u
}

in_wrapper() {
    sed -nE 's/^ *pub fn (bz_[a-z0-9_]+)\(.*/\1/p' rust/src/raw.rs | sort -u
}

# same ONE OTHER: two commands print the same, and something.
same() {
    "$1" > "$scratch/one" && [ -s "$scratch/one" ] && "$2" | diff "$scratch/one" -
}

# What the archive asks of others, but for what is allowed.
asks_nothing() {
    local names
    names=$(nm --undefined-only "$archive" | sed -nE 's/^ +[A-Za-z] //p' | sort -u | grep -vxF "${allowed// /$'\n'}")
    echo "$names"
    in_archive > "$scratch/one"
    [ -z "$(grep -vxFf "$scratch/one" <<< "$names")" ]
}

# Nothing that can be written, so nothing is kept from one question to the next.
keeps_nothing() {
    ! nm "$archive" | grep -E ' [bBdDcC] '
}

# The few words for each refusal.
said_in_c() {
    sed -nE 's/^ *case BZ_[A-Z_]+: return "(.*)";/\1/p' include/berzulka.h
}

said_in_rust() {
    sed -nE 's/^ +"(.*)";/\1/p' rust/src/refusal.rs
}

expect 'the header declares what the archive has' same in_archive in_header
expect 'the wrapper declares what the archive has' same in_archive in_wrapper
expect 'the archive asks nothing of others' asks_nothing
expect 'the archive keeps nothing' keeps_nothing
expect 'C and Rust say the same of each refusal' same said_in_c said_in_rust

closes
