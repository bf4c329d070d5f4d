#!/usr/bin/env python3
"""Lists the laws of crates/*/proofs/*.antt that nothing cites.

    tools/uncited.py [CRATE ..]      those of these crates; of all where none is named

A law is cited where its name stands as a whole word in a .antt or .rt file of any crate, other than in comments, in
`use` lines and at its own definition (its signature and the lines that begin with its name). A name that README.md
or docs/ mention (docs/PORT.md and docs/DESIGN-PASS.md apart) is marked with '*': it stays. What is cited only by laws
that nothing cites shows in the next run.
"""
import pathlib
import re
import sys

ROOT = pathlib.Path(__file__).resolve().parent.parent
WORD = re.compile(r"[^\s(){}\[\],;.:∘]+")
SIGNATURE = re.compile(r"^ *(?:abbrev |unfoldable )?(?:pub )?(?:abbrev |unfoldable )?([^\s(){}:]+) :(?: |$)")
IMPORT = re.compile(r"^ *(?:pub |ghost )*(?:use|open) ")


def without_comments(text):
    return "\n".join(line for line in text.split("\n") if not line.lstrip().startswith(("--", "//")))


def without_imports(text):
    lines, inside = [], False
    for line in text.split("\n"):
        if IMPORT.match(line) or inside:
            inside = "{" in line and "}" not in line or inside and "}" not in line
            continue
        lines.append(line)
    return lines


def main():
    crates = sys.argv[1:]
    files = {p: without_imports(without_comments(p.read_text())) for p in ROOT.glob("crates/*/**/*")
             if p.suffix in (".antt", ".rt") and "/out/" not in str(p)}
    places = {}
    for path, lines in files.items():
        for number, line in enumerate(lines):
            for word in set(WORD.findall(line)):
                places.setdefault(word, []).append((path, number, line))
    said = (ROOT / "README.md").read_text()
    for page in (ROOT / "docs").glob("*.md"):
        if page.name not in ("PORT.md", "DESIGN-PASS.md"):
            said += page.read_text()
    found = 0
    for path, lines in sorted(files.items()):
        parts = path.relative_to(ROOT).parts
        if len(parts) != 4 or parts[2] != "proofs" or crates and parts[1] not in crates:
            continue
        for line in lines:
            law = SIGNATURE.match(line)
            indent = len(line) - len(line.lstrip())
            if not law or indent > 2 or parts[1] == "promises":
                continue
            name = law.group(1)
            own = [p for p in places.get(name, []) if p[0] == path and len(p[2]) - len(p[2].lstrip()) == indent
                   and p[2].lstrip().removeprefix("pub ").split(" ")[0] == name]
            if len(places.get(name, [])) - len(own) == 0:
                mark = "*" if re.search(r"(?<![\w-])" + re.escape(name) + r"(?![\w-])", said) else " "
                print(f"{mark} {'/'.join(parts[1:])}: {name}")
                found += 1
    print(f"{found} laws that nothing cites")


main()
