#!/usr/bin/env bash
# Proves the program of a crate and builds it: program.sh NAME writes crates/NAME/out/NAME. On the way the program runs
# once, with nothing to read.
set -u
cd "$(dirname "$0")/../../crates/$1" || exit 2
log=$(mktemp) || exit 2
trap 'rm -f "$log"' EXIT

# what it prints tells something only where it fails
if ! rt run < /dev/null > "$log" 2>&1; then
    cat "$log" >&2
    exit 1
fi
