#!/usr/bin/env bash
# Has the program chartcheck read stored inputs and holds what it writes to stored lines, byte for byte; makes every
# example of examples/ anew. The lines were worked out from document 01 and not taken from the program. They stand in
# the tables of tests/chartcheck/, one to a line ('\' carries on in the next, '#' starts a comment):
#     WANTED | INPUT | what it shows
# In most tables the INPUT is words that stand for bytes; the other tables say what it is.
#     80           a byte                             square       the file examples/square.chart
#     00x1534      a byte so many times               square:36    its first 36 bytes
#     40=00        the byte at place 40 is 00 instead
set -u
cd "$(dirname "$0")/.." || exit 2
PATH="$PATH:${HOME:-}/.cargo/bin"
bash tests/boundary/program.sh chartcheck || exit 1
mkdir -p target && rustc --edition 2021 -O -o target/make examples/make.rs || exit 1
program=crates/chartcheck/out/chartcheck
scratch=$(mktemp -d) || exit 2
trap 'rm -rf "$scratch"' EXIT
input=$scratch/input
output=$scratch/output
passed=0
failed=0

# note STATUS WHAT: counts a test that passed, where the status is 0, or failed, which is told.
note() {
    if [ "$1" -eq 0 ]; then
        passed=$((passed + 1))
    else
        failed=$((failed + 1))
        echo "FAILED: $2"
    fi
}

# expect WANTED WHAT: the output is the wanted line and nothing else.
expect() {
    printf '%s\n' "$1" | cmp -s - "$output"
    note $? "$2: wanted '$1', got '$(head -c 200 "$output" | tr -d '\0')'"
}

# table TEST NAME: hands each line of a table to a test, as WANTED INPUT WHAT.
table() {
    local wanted given what lines=0
    # no -r: '\' at a line's end carries on in the next line
    while IFS='|' read wanted given what; do
        read -r wanted <<< "$wanted"
        read -r given <<< "$given"
        case $wanted in '' | '#'*) continue ;; esac
        lines=$((lines + 1))
        "$1" "$wanted" "$given" "$2: $given:$what"
    done < "tests/chartcheck/$2.txt"
    [ "$lines" -gt 0 ]
    note $? "$2: no lines"
    echo "$2: $lines lines"
}

# ---- what the INPUT of a line is

# The bytes that words stand for.
put_bytes() {
    local word
    for word in $1; do
        case $word in
            *=*) printf '%b' "\\x${word#*=}" | dd of="$input" bs=1 seek="${word%=*}" conv=notrunc status=none ;;
            *:*) head -c "${word#*:}" "examples/${word%:*}.chart" >> "$input" ;;
            [0-9a-f][0-9a-f]) printf '%b' "\\x$word" >> "$input" ;;
            [0-9a-f][0-9a-f]x*) repeated "${word%x*}" "${word#*x}" >> "$input" ;;
            *) cat "examples/$word.chart" >> "$input" ;;
        esac || return 1
    done
}

# repeated BYTE TIMES
repeated() {
    head -c "$2" /dev/zero | tr '\0' "\\$(printf '%o' "0x$1")"
}

# The lines of a text, which stand with '/' between them; the name of an example stands for its outline.
put_text() {
    local line
    while read -r line; do
        if [ -f "examples/$line.outline" ]; then cat "examples/$line.outline"; else echo "$line"; fi
    done <<< "${1//\//$'\n'}" >> "$input"
}

# ---- tests of a line: WANTED INPUT WHAT

from_bytes() {
    : > "$input"
    if put_bytes "$2"; then
        "$program" < "$input" > "$output"
        expect "$1" "$3"
    else
        note 1 "$3: not an input"
    fi
}

from_outlines() {
    : > "$input"
    put_text "$2"
    target/make < "$input" > "$scratch/chart"
    note $? "$3: not made"
    "$program" < "$scratch/chart" > "$output"
    expect "$1" "$3"
}

# The program must end although its input does not.
from_command() {
    bash -c "$2" < /dev/null 2> /dev/null | timeout 20 "$program" > "$output"
    expect "$1" "$3"
}

# Not made: the tool says why and writes nothing.
not_made() {
    : > "$input"
    put_text "$2"
    ! target/make < "$input" > "$scratch/chart" 2> "$output" && [ ! -s "$scratch/chart" ]
    note $? "$3: made"
    expect "make: $1" "$3"
}

# An example: as its outline makes it, as the examples' own table tells it, and read by the program.
example() {
    target/make < "examples/$2.outline" | cmp -s - "examples/$2.chart"
    note $? "examples/$2.chart is not what its outline makes"
    grep -qF "| \`$2\` | \`$1\` |" examples/README.md
    note $? "examples/README.md does not say '$1' of $2"
    from_bytes "$1" "$2" "$3"
}

# ---- what is tested

table example examples
for file in examples/*.chart examples/*.outline; do
    name=$(basename "${file%.*}")
    grep -qE "\| $name +\|" tests/chartcheck/examples.txt
    note $? "tests/chartcheck/examples.txt has no line for $file"
done

for name in cut numbers long charts; do
    table from_bytes "$name"
done
table from_outlines outlines
table from_command streams
table not_made errors

# One line that ends in a newline, and no more, whether the chart is sound or refused.
for file in examples/square.chart /dev/null; do
    "$program" < "$file" > "$output"
    [ "$(wc -l < "$output")" -eq 1 ] && [ "$(tail -c 1 "$output" | od -An -tx1)" = ' 0a' ]
    note $? "$file: not one line that ends in a newline"
done

echo "$passed passed, $failed failed"
[ "$failed" -eq 0 ]
