#!/usr/bin/env python3
"""Prints what two trees say differently in specs/ and in the laws of proofs/, but for layout, imports and the lines
that are comments. It is for a change that may weaken nothing: a reader looks at what is left.

usage:   python3 tools/statements.py BEFORE AFTER        (the tops of two checkouts)

A file is new, gone or changed; of a changed one, each place is shown as it was (-) and as it is (+), with a few words
around it. Statements and proofs are not told apart. This proves nothing: `rt check` decides what holds.
"""
import difflib
import re
import sys
from pathlib import Path


def stated_in(tree):
    """The files that hold definitions and laws; what lies deeper in proofs/ belongs to one function's proof."""
    crates = tree / "crates"
    return {path.relative_to(tree) for path in [*crates.glob("*/specs/**/*.antt"), *crates.glob("*/proofs/*.antt")]}


def words_of(path):
    text = re.sub(r"^\s*--.*\n", "", path.read_text("utf-8"), flags=re.M)
    text = re.sub(r"^use [^{\n]*(?:\{[^}]*\})?.*\n", "", text, flags=re.M)
    return re.sub(r"\s*([(){}\[\];,])\s*", r"\1", text).split()


def differences(before, after):
    """The places where two files' words differ, as they were and as they are."""
    for tag, was, was_end, now, now_end in difflib.SequenceMatcher(None, before, after, autojunk=False).get_opcodes():
        if tag != "equal":
            yield " ".join(before[max(0, was - 3) : was_end + 2]), " ".join(after[max(0, now - 3) : now_end + 2])


def main():
    before, after = map(Path, sys.argv[1:])
    were, are = stated_in(before), stated_in(after)
    for path in sorted(were | are):
        if path not in were:
            print(f"new {path}")
        elif path not in are:
            print(f"gone {path}")
        else:
            places = list(differences(words_of(before / path), words_of(after / path)))
            if places:
                print(f"changed {path}")
            for was, now in places:
                print(f"   - {was}\n   + {now}")


main()
