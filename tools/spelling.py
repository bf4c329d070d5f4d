#!/usr/bin/env python3
"""Brings the repository's own definitions and laws to the kit's spelling: countedFor to counted_for, the law countedFor-left to
counted_for-left.

usage, once, at the top, after the kit's port.py:   python3 tools/spelling.py

- Definitions, fields and laws of crates/*/specs and crates/*/proofs turn, wherever they are named: clauses, proofs, must-fail
  edits, docs. Functions of src/, their parameters, locals and types keep their names, and so do strings.
- A dash stays between a name and what is said of it, and a fact keeps its capital.
- BESIDE holds what port.py left with a name that a definition gets here: six laws, which take back the dash that they had,
  and the two that no rule gives.
"""
import collections
import glob
import os
import re
import subprocess
import sys
import tempfile

NAME = r"[^\s(){}.;,@\"«»:]+"
STATES = re.compile(
    rf"^\s*(?:(?:abbrev|unfoldable|opaque|inductive|record|data|mut|private)\s+)*(?:pub\s+)?"
    rf"(?:(?:record|data|module|ruleset)\s+)?({NAME})(?:\s+\([^=]*?\))*\s*:(?!=)"
)
HEADS = re.compile(rf"^\s*(?:pub\s+)?(?:record|data|ruleset|module|abbrev|unfoldable)\s+(?:pub\s+)?({NAME})")
WORD = re.compile(r"[A-Za-z_][\w'-]*$")

BESIDE = {
    "at_pin": "at-pin",
    "by_count": "by-count",
    "first_past": "first-past",
    "from_second": "from-second",
    "goes_on": "goes-on",
    "read_answer": "read-answer",
    "getD-mem": "get_or-mem",
}


def turned(name):
    return "-".join(
        part if part[:1].isupper() else re.sub(r"(?<=[a-z0-9])[A-Z]", lambda m: "_" + m[0].lower(), part)
        for part in name.split("-")
    )


def declared():
    """Each name that a file of specs/ or proofs/ states, with those files."""
    names = collections.defaultdict(set)
    files = glob.glob("crates/*/specs/**/*.antt", recursive=True) + glob.glob("crates/*/proofs/*.antt")
    for path in sorted(files):
        with open(path, encoding="utf-8") as file:
            for line in file:
                if line.lstrip().startswith("--"):
                    continue
                stated = STATES.match(line) or HEADS.match(line)
                if stated and WORD.match(stated[1]):
                    names[stated[1]].add(path)
    return names


def table_of(names):
    table = {name: turned(name) for name in names if turned(name) != name}
    table.update({old: new for old, new in BESIDE.items() if old in names})
    back = collections.defaultdict(set)
    for name in names:
        back[table.get(name, name)].add(name)
    fallen = {new: olds for new, olds in back.items() if len(olds) > 1}
    for new, olds in sorted(fallen.items()):
        print(f"fall together: {', '.join(sorted(olds))} -> {new}", file=sys.stderr)
    if fallen:
        sys.exit(1)
    return table


def turn_edits(table):
    """The kit's turner reads no edit. A row of BESIDE is no word of one: there the name is a local's of src/."""
    for path in sorted(glob.glob("crates/*/must-fail/*.edit")):
        with open(path, encoding="utf-8") as file:
            text = file.read()
        lines = [
            re.sub(
                r"(?<![\w'-])[A-Za-z_][\w'-]*",
                lambda m: m[0] if m[0] in BESIDE else table.get(m[0], m[0]),
                line,
            )
            if line.startswith(("old:", "new:"))
            else line
            for line in text.split("\n")
        ]
        if "\n".join(lines) != text:
            with open(path, "w", encoding="utf-8") as file:
                file.write("\n".join(lines))


def main():
    table = table_of(declared())
    start = subprocess.run(["rt", "doc"], check=True, capture_output=True, text=True).stdout.strip()
    turner = os.path.join(os.path.dirname(start), "port/notes/2026-11-18-names-are-in-snake-case/snake.py")
    with tempfile.NamedTemporaryFile("w", suffix=".tsv", encoding="utf-8") as rows:
        rows.write("".join(f"{old}\t{new}\n" for old, new in sorted(table.items())))
        rows.flush()
        places = ["crates", "docs", "README.md"]
        subprocess.run([turner_python(), turner, "--table", rows.name, "--only", "antt,rt,md", "--move"] + places, check=True)
    turn_edits(table)
    print(f"{len(table)} names turned")


def turner_python():
    return sys.executable or "python3"


main()
