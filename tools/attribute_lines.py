#!/usr/bin/env python3
"""Puts a line above each function in the place of the proof that walked its code: the older kit's proofs/F/Proof.antt
becomes `#[tactic(auto, using(..), unfolding(..))]` on F and, where F loops, proofs/F/Invariants.antt.

usage, at the top, with everything committed, after tools/spelling.py:   python3 tools/attribute_lines.py OLD CRATE..

- `unfolding f` of the old file turns into unfolding(crate::specs::M::f), and the laws and rulesets of proofs/ that it
  imports and names into using(crate::proofs::M::law). An attribute can name no dash: laws with one go into a ruleset
  for_F in the crate's proofs/Sets.antt.
- `invariant-loop s n i₀ i = BODY` turns into `invariant-loop-V l = BODY`, of l.s, l.n, l.initial.i and l.i, where V is
  the variable that the loop's test is about. A loop without a test gets i: `rt check` says what it is called.
- `reading` and `scanning`, of loops, turn into `looking` and `summing`, which stand in proofs/StepLaws.antt of counts.
- Each crate gets `#![tactic(auto)]`, and a type that was `Drop` alone is `Clone, Copy`: all of them are values.
- Lemmas of an old file's own are listed, to be moved by hand into a file of proofs/.

The old files go to OLD/CRATE/F, outside the checkout. This proves nothing: `rt check` decides.
"""
import os
import re
import shutil
import sys
from pathlib import Path

from old_proofs import definitions, imports, laws, own_lemmas, says, use_lines

LOOP = re.compile(r"^(invariant|decreases)-loop(\d*)((?: [^\s=]+)*) =(.*(?:\n[ \t]+.*)*)", re.M)
TOKEN = re.compile(r"λ[^.]*\.|[(){}\[\]]|(?<![\w'·.◌-])[\w'·◌-]+")
OLD_STEPS = {("Rattle.counts.proofs.ReadLaws", "reading"), ("Rattle.counts.proofs.LoopLaws", "scanning")}


def tactic_laws(proof):
    """The laws of an old proof, with today's ruleset for the steps of its loop."""
    found = laws(proof)
    others = [law for law in found if law not in OLD_STEPS]
    if len(others) < len(found):
        others.append(("Rattle.counts.proofs.StepLaws", "looking" if says(proof, "Seen") else "summing"))
    return others


def rust_path(crate, module, name):
    _, first, *rest = module.split(".")
    return "::".join(["crate" if first == crate else first, *rest, name])


def attribute(crate, proof, ruleset):
    """The attribute for an old proof, empty where it takes nothing, and the laws that it takes by the ruleset."""
    found = tactic_laws(proof)
    dashed = [law for law in found if not (law[1].isascii() and law[1].isidentifier())]
    using = [rust_path(crate, *law) for law in found if law not in dashed]
    if dashed:
        using.append(f"crate::proofs::Sets::{ruleset}")
    unfolding = [
        rust_path(crate, module, name) for module, name in definitions(proof) if module.startswith("Rattle.")
    ]
    parts = [f"{word}({', '.join(paths)})" for word, paths in (("using", using), ("unfolding", unfolding)) if paths]
    return f"#[tactic(auto, {', '.join(parts)})]\n" if parts else "", dashed


def sets_file(rulesets):
    lines = ["-- The laws that the functions' tactics take, by function. Assumes nothing."]
    lines += use_lines(sorted(law for found in rulesets.values() for law in found))
    for ruleset, found in rulesets.items():
        lines += ["", f"pub ruleset {ruleset} = ({', '.join(name for _, name in found)})"]
    return "\n".join(lines) + "\n"


def loop_variables(function):
    """For each while of a function, the first name of its test that is assigned from there on, else the first."""
    variables = []
    for loop in re.finditer(r"while (.*?) \{", function):
        tested = re.findall(r"[a-z_][a-z0-9_]*", loop[1])
        assigned = re.findall(r"(?<![\w.])(\w+) [-+*]?= ", function[loop.end() :])
        variables.append(next((name for name in tested if name in assigned), tested[0]))
    return variables


def of_loop(body, parameters):
    """A loop's formula with its parameters as fields of l. What a λ binds is none, as far as the bracket around it."""
    bound = [[]]

    def turned(match):
        token = match[0]
        if token in "([{":
            bound.append([])
        elif token in ")]}":
            bound.pop()
        elif token.startswith("λ"):
            bound[-1] += token[1:-1].split()
        elif token in parameters and token not in sum(bound, []):
            return f"l.initial.{token[:-1]}" if token.endswith("₀") else f"l.{token}"
        return token

    return TOKEN.sub(turned, body)


def invariants_file(goals, proof, variables):
    formulas, clauses = "", []
    for kind, number, parameters, body in LOOP.findall(proof):
        place = int(number or 1) - 1
        name = f"{kind}-loop-{variables[place] if place < len(variables) else 'i'}"
        formula = of_loop(body, parameters.split()).rstrip()
        formulas += formula + "\n"
        clauses.append(f"abbrev pub {name} : goal.{name}\n{name} l ={formula}\n")
    lines = use_lines((module, name) for module, name in imports(proof) if says(formulas, name))
    return "\n".join([*lines, f"use {goals}.Given as goal", "", *clauses])


def source_files(crate):
    """The sources by path, with what the crate's first file and its types must say."""
    folder = Path(f"crates/{crate}/src")
    sources = {path: path.read_text("utf-8") for path in folder.rglob("*.rt")}
    sources = {path: text.replace("#[derive(Drop)]", "#[derive(Clone, Copy)]") for path, text in sources.items()}
    first = next(folder / name for name in ("lib.rt", "main.rt") if folder / name in sources)
    if "#![tactic(auto)]" not in sources[first]:
        sources[first] = re.sub(r"\A((?://.*\n)*)", r"\1#![tactic(auto)]\n\n", sources[first])
    return sources


def functions(sources, name):
    """The file of each function of that name, and the match of its head with the attributes above it."""
    head = re.compile(rf'^(?:[ \t]*#\[.*\]\n)*([ \t]*)(?:pub )?(?:extern "C" )?fn {re.escape(name)}[<(]', re.M)
    return [(path, found) for path, text in sources.items() for found in head.finditer(text)]


def turn_proof(crate, folder, sources, rulesets):
    """Whether the old proof in that folder of proofs/ has turned: it has if one function is meant."""
    parts = folder.relative_to(f"crates/{crate}/proofs").parts
    found = functions(sources, folder.name)
    if len(found) != 1:
        print(f"left: {folder}: {len(found)} functions of that name")
        return False
    [(path, head)] = found
    source, at, indent = sources[path], head.start(), head[1]
    proof = (folder / "Proof.antt").read_text("utf-8")
    own = own_lemmas(proof)
    if own:
        print(f"{folder}: lemmas of its own: {', '.join(own)}")
    if LOOP.search(proof):
        variables = loop_variables(source[at : source.index(f"\n{indent}}}", at)])
        goals = ".".join(["Rattle", crate, "proofs", *parts])
        (folder / "Invariants.antt").write_text(invariants_file(goals, proof, variables), "utf-8")
    ruleset = "for_" + "_".join(parts)
    line, dashed = attribute(crate, proof, ruleset)
    if line:
        sources[path] = source[:at] + indent + line + source[at:]
    if dashed:
        rulesets[ruleset] = dashed
    return True


def put_away(folder, kept):
    kept.mkdir(parents=True, exist_ok=True)
    shutil.move(folder / "Proof.antt", kept / "Proof.antt")
    if not any(folder.iterdir()):
        os.removedirs(folder)


def turn_crate(old, crate):
    proofs = Path(f"crates/{crate}/proofs")
    sources, rulesets = source_files(crate), {}
    for file in sorted(proofs.rglob("Proof.antt")):
        if turn_proof(crate, file.parent, sources, rulesets):
            put_away(file.parent, old / crate / file.parent.relative_to(proofs))
    for path, text in sources.items():
        path.write_text(text, "utf-8")
    if rulesets:
        (proofs / "Sets.antt").write_text(sets_file(rulesets), "utf-8")
        with open(proofs / "Lib.antt", "a", encoding="utf-8") as modules:
            modules.write("pub mod Sets\n")


def main():
    for crate in sys.argv[2:]:
        turn_crate(Path(sys.argv[1]), crate)


main()
