#!/usr/bin/env bash
# Proves what C and Rust link, the crate rig_c, and writes the archive target/staticlib/librig.a. One that stays the
# same keeps its time, so that cargo need not build anew what stands on it.
set -u
cd "$(dirname "$0")/../.." || exit 2
log=$(mktemp) || exit 2
trap 'rm -f "$log"' EXIT
made=crates/rig_c/out/librig_c.a
archive=target/staticlib/librig.a

# what it prints tells something only where it fails
if ! (cd crates/rig_c && rt lib) > "$log" 2>&1; then
    cat "$log" >&2
    exit 1
fi
mkdir -p target/staticlib || exit 1
cmp -s "$made" "$archive" || cp "$made" "$archive"
