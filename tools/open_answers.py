#!/usr/bin/env python3
"""Answers each goal that `rt check` left open by a search: `search (rules, LAWS)` with the laws that the function's
old proof imported, under its `unfolding` line. Where the goal's step joins two branches, a search for each.

usage, at the top, after tools/attribute_lines.py with the same OLD:   python3 tools/open_answers.py OLD CRATE LOG

LOG holds what `rt check` wrote in the crate's folder. A function that has no old proof in OLD/CRATE, or has answers
already, is left. This proves nothing: `rt check` decides.
"""
import re
import sys
from pathlib import Path

from old_proofs import definitions, laws, use_lines


def open_goals(log, crate):
    """The place in proofs/ of each function that is not proved, and its goals that no search proved."""
    line = (
        rf"^fn {crate}::\S+: no proof: expected answers in \./proofs/(\S+)/Answers\.antt; "
        r"`search` did not prove (.*?)(?:; it calls.*)?$"
    )
    return [(function, re.findall(r"`([^`]+)`", goals)) for function, goals in re.findall(line, log, re.M)]


def join(log, function, goal):
    """X where the log's note on the goal ends in a step c.if-X that joins two branches."""
    head = rf"^note: `{re.escape(goal)}` of proofs/{re.escape(function)}/Answers\.antt must prove.*\n((?:  .*\n)*)"
    note = re.search(head, log, re.M)
    joins = re.findall(r"\| c\.if-([^\s.]+): .*\.branch", note[1]) if note else []
    return joins[-1] if joins else None


def answers_file(log, crate, function, goals, proof):
    unfolded = definitions(proof)
    module = ".".join(["Rattle", crate, "proofs", *function.split("/"), "Goals"])
    search = f"search ({', '.join(['rules', *(name for _, name in laws(proof))])})"
    cases, answers = [], []
    for goal in goals:
        answers += ["", f"pub {goal} : goal.{goal}"]
        if unfolded:
            answers.append(f"unfolding {' '.join(name for _, name in unfolded)}")
        joined = join(log, function, goal)
        if joined:
            then, otherwise = f"then-{joined}", f"else-{joined}"
            cases.append(f"use {module}.{{{then}, {otherwise}}}")
            answers.append(f"{goal} c =")
            answers.append(f"    elim c.if-{joined}.branch [ {then} w ↦ {search} | {otherwise} w ↦ {search} ]")
        else:
            answers.append(f"{goal} c = {search}")
    uses = ["use Rattle.std.proofs.Common.{rules}", *use_lines(laws(proof) + unfolded), f"use {module} as goal"]
    return "\n".join([*uses, *dict.fromkeys(cases), *answers]) + "\n"


def main():
    old, crate, log_file = sys.argv[1:]
    log = Path(log_file).read_text("utf-8")
    for function, goals in open_goals(log, crate):
        proof = Path(old, crate, function, "Proof.antt")
        answers = Path(f"crates/{crate}/proofs/{function}/Answers.antt")
        if not proof.exists() or answers.exists():
            print(f"left: {answers}")
            continue
        answers.parent.mkdir(parents=True, exist_ok=True)
        answers.write_text(answers_file(log, crate, function, goals, proof.read_text("utf-8")), "utf-8")
        print(f"{answers}: {', '.join(goals)}")


main()
