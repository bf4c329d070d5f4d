#!/usr/bin/env python3
"""Counts the places of old forms in the source: what docs/DESIGN-PASS.md gives before and after.

    tools/places.py [TOP]      TOP is a checkout; this one where none is named

It goes over crates/*/src/*.rt without comments, and prints each place. The points are the page's.
"""
import collections
import pathlib
import re
import sys

TOP = pathlib.Path(sys.argv[1] if len(sys.argv) > 1 else pathlib.Path(__file__).resolve().parent.parent)
FILES = sorted(TOP.glob("crates/*/src/**/*.rt"))
FUNCTION = re.compile(r"^( *)(?:pub(?:\([a-z]+\))? )?(?:extern \"C\" )?fn ([a-z_0-9]+)")
WORDS = {"fn", "let", "mut", "if", "else", "while", "loop", "for", "in", "match", "return", "pub", "ensures", "requires",
         "Some", "None", "Ok", "Err", "as", "self", "Self", "result", "Result", "Option"}


def lines_of(path):
    return [line.split("//")[0].rstrip() for line in path.read_text().split("\n")]


SOURCES = [(path.relative_to(TOP / "crates").parts[0] + "/" + path.name, lines_of(path)) for path in FILES]


def functions():
    """Each function: its file, its name, its lines."""
    for name, lines in SOURCES:
        at = None
        for number, line in enumerate(lines):
            head = FUNCTION.match(line)
            if head and at is None:
                at, indent, called = number, head.group(1), head.group(2)
            if at is not None and line.startswith(indent + "}"):
                yield name, called, lines[at:number + 1]
                at = None


def grep(pattern, but=None):
    return [f"{name}:{number + 1}: {line.strip()}" for name, lines in SOURCES for number, line in enumerate(lines)
            if re.search(pattern, line) and not (but and re.search(but, line))]


def show(title, places):
    print(f"{title}: {len(places)}")
    for place in places:
        print("      " + place)


def enums():
    for name, lines in SOURCES:
        text = "\n".join(lines)
        for kind, called, body in re.findall(r"\b(enum|struct) ([A-Z]\w*)[^{;]*\{(.*?)\n\}", text, re.S):
            yield name, kind, called, body


def shape(lines):
    """A function with its names replaced in the order in which they come, and its numbers by one sign."""
    seen, said = {}, []
    for word in re.findall(r"[A-Za-z_]\w*(?:::\w+)*|\d+|[^\s\w]", " ".join(lines)):
        if word[0].isdigit():
            said.append("#")
        elif re.match(r"[A-Za-z_]", word) and word not in WORDS:
            said.append(str(seen.setdefault(word, len(seen))))
        else:
            said.append(word)
    return " ".join(said)


def twins():
    groups = collections.defaultdict(list)
    for name, called, lines in functions():
        if len(lines) >= 4:
            groups[shape(lines)].append(f"{name} {called}")
    return [", ".join(group) for group in groups.values() if len(group) > 1]


def facts():
    """Each word of a `requires`, with how many functions ask for it."""
    asked = collections.Counter()
    for name, called, lines in functions():
        text = " ".join(lines)
        words = set()
        for clause in re.findall(r"requires(?: \w+)? \{(.*?)\}", text):
            words |= set(re.findall(r"[A-Z]\w+|is_\w+|sound\b|most_\w+|limit\b", clause))
        asked.update(words)
    return [f"{word} in {times}" for word, times in asked.most_common() if times >= 3]


def together():
    """Three or more parameters with the same names and types, in three or more functions of a crate."""
    groups = collections.Counter()
    for name, called, lines in functions():
        head = re.search(r"\(([^{]*?)\)(?: ->|$| *ensures| *requires)", " ".join(lines))
        given = [p.strip() for p in (head.group(1) if head else "").split(",") if ":" in p]
        for size in range(3, len(given) + 1):
            groups[(name.split("/")[0], ", ".join(given[:size]))] += 1
    return [f"{crate}: ({given}) in {times}" for (crate, given), times in groups.items()
            if times >= 3 and crate not in ("rig", "rig_c")]


said_none = r"^\s*(Refused|Nothing|Neither|Off|Accepted)\b"
show("1a enums with a case that says none or refused", [f"{n} {c}" for n, k, c, b in enums()
                                                        if k == "enum" and re.search(said_none, b, re.M)])
show("1b structs with a flag or a kind beside a value", [f"{n} {c}" for n, k, c, b in enums() if k == "struct"
                                                         and re.search(r"\b(refusal|whole|kind|verdict):", b)])
show("1c refusals and kinds by bare numbers", grep(r"refused\(\d+|number: \d+|refusal: \d+|const [A-Z_]+: usize = \d;"
                                                   r"|=> \(\d+, \w+\)"))
show("1d searches that say none by a number", grep(r"ensures \{ (Found|Highest|Numbered s.now \(outer_in)"
                                                   r"|first_from \(off_corner"))
show("2  functions of one shape (each line a group)", twins())
show("3  loops by while or loop", grep(r"^\s*(while|loop)\b"))
show("3  indices counted by hand", grep(r"^\s*\w+ \+= 1;"))
show("4a comparisons by is_same, is_before", grep(r"points::is_(same|before)\("))
show("4b own min, difference, equality, printing", grep(r"fn (lesser_of|gap_of|past|is_mark|is_record|is_segment|is_same"
                                                        r"|is_before|say\w*|fill)\("))
show("4c tests joined by & or |", grep(r"[\w)] [&|] [\w(!]", r"\|\w+\||=>|^\s*\| "))
show("4d types that do not derive equality", [f"{n} {c}" for n, k, c, b in enums()
                                              if re.search(r"#\[derive\(Clone, Copy\)\]\n(pub(\(crate\))? )?" + k + " "
                                                           + c + r"\b", "\n".join(dict(SOURCES)[n]))])
show("5a facts that three or more functions ask for", facts())
show("5b parameters that go together", together())
show("6  buffers with a length beside them, by their size", grep(r"= \[0\w*; \d+\]|: \[\w+; \d+\]"))
show("6  whole records counted from a length", grep(r"len\(\) / WIDTH"))
show("7  switches on which step to run", grep(r"match (op|k|which|kind|row|i)\b|if i < \d+ \{"))
proofs = [p for p in TOP.glob("crates/*/proofs/*/**/*.antt")]
print(f"8  files of functions' proofs: {len(proofs)}, lines {sum(len(p.read_text().splitlines()) for p in proofs)}")
laws = [p for p in TOP.glob("crates/*/proofs/*.antt")]
print(f"8  lines of law files: {sum(len(p.read_text().splitlines()) for p in laws)}")
