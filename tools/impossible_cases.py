#!/usr/bin/env python3
"""Writes the clauses that `rt check` asks of a law for cases that cannot be, such as `mem-map [] x x3 = elim x3 [ ]`.

usage, in a crate's folder, until it asks for none:   rt check >LOG 2>&1; python3 ../../tools/impossible_cases.py LOG

A clause goes behind the last one of the law that the message names, word for word: a name that the check made up, as
x3, stays. This proves nothing: `rt check` decides.
"""
import itertools
import re
import sys
from pathlib import Path

ASKS = re.compile(r"(?:\./)?([^:]+\.antt):\d+:\d+: error: `([^`]+)`: write the clauses?(.*)")


def clauses_of(law, rest, below):
    """What a message asks for: the clauses quoted in the rest of its line, and those below it, each on a line."""
    quoted = re.findall(r"`([^`]+)`", rest)
    indented = itertools.takewhile(lambda line: line.startswith("  "), below)
    listed = [text for line in indented if (text := line.strip().strip("`")).startswith(f"{law} ")]
    return [clause for clause in quoted + listed if "=" in clause]


def asked(log):
    """The clauses by file and law, each once."""
    found = {}
    lines = log.split("\n")
    for place, line in enumerate(lines):
        message = ASKS.fullmatch(line)
        if message:
            path, law, rest = message.groups()
            for clause in clauses_of(law, rest, lines[place + 1 :]):
                found.setdefault((path, law), {})[clause] = None
    return found


def law_end(lines, law):
    """The indent of a law, and the line behind its last clause and what is indented below it. None if it has none."""
    name = re.escape(law)
    indents = [found[1] for line in lines if (found := re.match(rf"(\s*)(?:pub )?{name}\s*:", line))]
    if not indents:
        return None
    indent = indents[0]
    clause = re.compile(rf"{indent}{name}(?![\w'·-]|\s*:)")
    heads = [place for place, line in enumerate(lines) if clause.match(line)]
    if not heads:
        return None
    end = heads[-1] + 1
    for place in range(end, len(lines)):
        if lines[place].startswith(indent + " "):
            end = place + 1
        elif lines[place].strip():
            break
    return indent, end


def write_clauses(path, law, clauses):
    """How many of the clauses the file did not have."""
    lines = path.read_text("utf-8").split("\n")
    found = law_end(lines, law)
    if not found:
        print(f"left: {path}: no clause of {law} found")
        return 0
    indent, end = found
    stated = {" ".join(line.split()) for line in lines}
    new = [clause for clause in clauses if " ".join(clause.split()) not in stated]
    lines[end:end] = [indent + clause for clause in new]
    path.write_text("\n".join(lines), "utf-8")
    for clause in new:
        print(f"{path}: {clause}")
    return len(new)


def main():
    log = Path(sys.argv[1]).read_text("utf-8")
    written = sum(write_clauses(Path(path), law, clauses) for (path, law), clauses in asked(log).items())
    print(f"{written} clauses written")


main()
