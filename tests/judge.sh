#!/usr/bin/env bash
# Has the judge of rust/judge ask the proved archive librig.a, which it links, all that the boundary answers, and the
# proved program probe what the boundary does not offer: the judge's lists, then drawn questions with a fixed seed.
# Any number of drawn questions by hand: tests/judge.sh COUNT SEED
set -u
source "$(dirname "$0")/boundary/begin.sh"
bash tests/boundary/program.sh probe || exit 1
build_judge || exit 1

# Runs the judge, shows what it prints, and adds up its closing line. A run that does not close with one has failed.
ask() {
    local counts
    target/rust/release/judge "$@" | tee "$log"
    counts=$(sed -n '$s/^\([0-9][0-9]*\) passed, \([0-9][0-9]*\) failed$/\1 \2/p' "$log")
    if [ -z "$counts" ]; then
        echo "FAILED: judge $* did not close with its counts"
        counts='0 1'
    fi
    passed=$((passed + ${counts% *}))
    failed=$((failed + ${counts#* }))
}

ask all "${1:-10000}" "${2:-1}"
ask nearest crates/probe/out/probe "${1:-10000}" "${2:-1}"
closes
