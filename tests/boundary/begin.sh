# What the tests of the boundary begin with: the archive, folders for what they make, and how they count. Sourced.
cd "$(dirname "${BASH_SOURCE[0]}")/../.." || exit 2
PATH="$PATH:${HOME:-}/.cargo/bin"
# the archive of this repository is asked, and what is built lies where the tests look for it
unset BERZULKA_LIB CARGO_TARGET_DIR
archive=target/staticlib/librig.a
made=target/boundary
mkdir -p "$made" || exit 2
scratch=$(mktemp -d) || exit 2
trap 'rm -rf "$scratch"' EXIT
log=$scratch/log
passed=0
failed=0

# the archive, made anew where it has changed
bash tests/boundary/librig.sh || exit 1

# expect WHAT COMMAND..: a test, which passes where the command does. What the command prints is shown where it fails.
expect() {
    local what=$1
    shift
    if "$@" > "$log" 2>&1; then
        echo "ok: $what"
        passed=$((passed + 1))
    else
        echo "FAILED: $what"
        tail -n 20 "$log"
        failed=$((failed + 1))
    fi
}

# The judge, which stands in target/rust/release then; it asks the archive.
build_judge() {
    (cd rust && cargo build --release -q -p judge)
}

# closes: the closing line, and the status.
closes() {
    echo "$passed passed, $failed failed"
    [ "$failed" -eq 0 ]
}
