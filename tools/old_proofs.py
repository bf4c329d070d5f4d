"""Reads the proofs of the older kit: files proofs/F/Proof.antt, each of which walked the code of the function F.

usage, for attribute_lines.py and open_answers.py:   from old_proofs import laws

`proof` is the text of such a file, and what is found in it is handed out as (module, name).
"""
import re

LAWS = re.compile(r"Rattle\.(?!std\.)\w+\.proofs\.(?!.*\b(?:Statement|Tie)$)")


def imports(proof):
    """What its use lines bring in."""
    lines = re.findall(r"^use ([^\s{]+)\.\{([^}]*)\}", proof, re.M)
    return [(module, name) for module, names in lines for name in re.findall(r"[^\s,]+", names)]


def items(proof):
    """The name and text of each item but the use lines. Clauses go with their signature."""
    found = []
    for line in proof.split("\n"):
        if line and not line[0].isspace() and not line.startswith("--"):
            first, second, *_ = [*line.split(), ""]
            name = second if first in ("abbrev", "pub", "ruleset") else first
            if not found or first != "unfolding" and name != found[-1][0]:
                found.append((name, []))
        if found:
            found[-1][1].append(line)
    return [(name, "\n".join(lines)) for name, lines in found if name != "use"]


def says(text, name):
    """Whether the text has the name: as a word that is no field or, of an operator like ◌&&◌, by its signs."""
    if re.search(rf"(?<![\w'·.◌-]){re.escape(name)}(?![\w'·◌-])", text):
        return True
    return "◌" in name and all(sign in text for sign in name.replace("◌", " ").split())


def laws(proof):
    """The laws and rulesets of this repository that it imports and names."""
    code = "\n".join(text for _, text in items(proof))
    return [
        (module, name)
        for module, name in imports(proof)
        if LAWS.match(module) and name[0].islower() and says(code, name)
    ]


def definitions(proof):
    """What its `unfolding` lines name of what it imports."""
    module_of = {name: module for module, name in imports(proof)}
    named = " ".join(re.findall(r"^unfolding (.*)$", proof, re.M)).split()
    return [(module_of[name], name) for name in dict.fromkeys(named) if name in module_of]


def own_lemmas(proof):
    """The names of what it states beside the function's contract, its loops and its rulesets."""
    return [name for name, text in items(proof) if not re.search(r": *tie\.|tie\.close|^ruleset", text)]


def use_lines(found):
    """A use line for each module of what was found."""
    by_module = {}
    for module, name in dict.fromkeys(found):
        by_module.setdefault(module, []).append(name)
    return [f"use {module}.{{{', '.join(names)}}}" for module, names in by_module.items()]
