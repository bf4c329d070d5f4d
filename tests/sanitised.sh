#!/usr/bin/env bash
# That the archive touches what it is passed and nothing else, and answers as wanted. The judge writes a tape of
# questions with the answers that it wants. It is replayed from C between pages that nothing may touch; with memcheck,
# which follows the archive's own instructions; and with the sanitisers, which see what the header and its callers do.
# Any number of questions by hand: tests/sanitised.sh QUESTIONS SEED
set -uo pipefail
source "$(dirname "$0")/boundary/begin.sh"
questions=${1:-20000}
seed=${2:-1}
build_judge || exit 1

# write_tape NAME QUESTIONS
write_tape() {
    target/rust/release/judge tape "$2" "$seed" > "$scratch/$1" || exit 1
}

# build NAME SOURCE FLAG..
build() {
    gcc -std=c99 -O1 -g "${@:3}" -I include -o "$made/$1" "$2" "$archive"
}

# replays TAPE COMMAND..: every question of the tape is answered as wanted, and there are some of each sort.
replays() {
    "${@:2}" < "$scratch/$1" > "$scratch/replayed"
    local status=$?
    cat "$scratch/replayed"
    [ "$status" -eq 0 ] && grep '^replayed: ' "$scratch/replayed" | grep -qvE '\<0 '
}

# prints COMMAND..: the example in C prints what it must.
prints() {
    "$@" examples/square.chart | diff examples/rig.stdout -
}

# try TAPE NAME WHAT COMMAND..: the programs that were built with a name, run by a command.
try() {
    expect "a tape replayed $3" replays "$1" "${@:4}" "$made/stress-$2" --heap
    grep '^replayed: ' "$log"
    expect "the example in C run $3" prints "${@:4}" "$made/rig-$2"
}

write_tape tape "$questions"
build stress tests/boundary/stress.c -O2 || exit 1
expect 'a tape replayed between pages that nothing may touch' replays tape "$made/stress"
grep '^replayed: ' "$log"

# The sanitisers' libraries come with gcc, but not with every gcc.
sanitisers=(-fsanitize=address,undefined -fno-sanitize-recover=all)
if echo 'int main(void) { return 0; }' | gcc "${sanitisers[@]}" -x c -o "$scratch/none" - 2> "$log"; then
    build stress-sanitised tests/boundary/stress.c "${sanitisers[@]}" || exit 1
    build rig-sanitised examples/rig.c "${sanitisers[@]}" || exit 1
    # looking for leaks needs rights that not every machine gives, and nothing here is about them
    try tape sanitised 'with the address and undefined behaviour sanitisers' env ASAN_OPTIONS=detect_leaks=0
else
    echo 'the sanitisers are not on this machine, so nothing is tried with them'
fi

if command -v valgrind > /dev/null; then
    # memcheck is slow, so its tape stays short whatever is asked for
    write_tape short 3000
    build stress-plain tests/boundary/stress.c || exit 1
    build rig-plain examples/rig.c || exit 1
    try short plain 'with memcheck' valgrind --error-exitcode=9 -q
else
    echo 'valgrind is not on this machine, so nothing is tried with memcheck'
fi

closes
