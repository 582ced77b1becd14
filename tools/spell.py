#!/usr/bin/env python3
"""Spells the repository's own definitions, fields and lemmas as today's Rattle does: words in snake case.

usage: python3 tools/spell.py [--list]      at the top, once, after port.py

A name that a file of specs/ or proofs/ declares, and that begins with a small letter, loses its capitals and dashes: `markedAt` is `marked_at`,
`number-below` is `number_below`. Goals of functions and names of the kit keep their spelling, and so do functions of src/ and strings.
A name that would fall together with another one gets `_lem`. `--list` prints what would be renamed and changes nothing.
"""
import os
import re
import sys

ROOT = os.getcwd()
DELIMS = r"\s(){}\[\];,.·\"`"
TOKEN = re.compile(rf"[^{DELIMS}]+")
HEAD = re.compile(r"^((?:(?:abbrev|unfoldable|pub|record|data|ruleset)\s+)*)([^\s(){}:;,.=]+)((?:\s*\([^\n]*?\)|\s*\{[^\n]*?\})*)\s*:(?!=)")
FIELD = re.compile(r"^\s+(?:pub )?([^\s(){}:;,.=]+)\s*:(?!=)")
USE = re.compile(r"^\s*(?:ghost |pub )?use\s+([^\s;{]+)(\.\{([^}]*)\})?(?:\s+as\s+(\S+))?", re.M)
# Words of antt that a declaration may begin with.
# Names of which one is a lemma in one crate and the other a definition in another, and which no file brings together.
APART = {"size_fits"}
WORDS = {"use", "mod", "let", "in", "where", "elim", "record", "data", "open", "unfolding"}


def files():
    for folder, dirs, names in os.walk(os.path.join(ROOT, "crates")):
        dirs[:] = sorted(d for d in dirs if d != "out")
        for name in sorted(names):
            if name.endswith((".antt", ".rt", ".edit")):
                yield os.path.join(folder, name)


def read(path):
    with open(path, encoding="utf-8") as f:
        return f.read()


def snake(name):
    name = re.sub(r"(?<=[a-z0-9])([A-Z])", lambda m: "_" + m.group(1).lower(), name)
    return name.replace("-", "_").replace("′", "'")


def declared(path, text):
    """The names and the fields of records that a file declares, goals of functions left out."""
    found, fields = set(), set()
    block = None
    for line in text.split("\n"):
        m = HEAD.match(line.lstrip() if line.startswith("  ") and block == "module" else line)
        if line and not line[0].isspace():
            block = next((w for w in ("record", "data") if re.match(rf"(abbrev |unfoldable |pub )*{w}\b", line)), None)
            if re.match(r"(pub )?(module|section)\b", line) or re.search(r"\bwhere$", line) and block is None:
                block = "module"
        if m and m.group(2) not in WORDS:
            after = line[line.index(m.group(2)) + len(m.group(2)):]
            if path.endswith("Proof.antt") and ("tie." in after or "statement M" in after):
                continue
            found.add(m.group(2))
        elif block in ("record", "data"):
            f = FIELD.match(line)
            if f:
                (fields if block == "record" else found).add(f.group(1))
    return found, fields


def main():
    texts = {p: read(p) for p in files()}
    own, fields = set(), set()
    for p, t in texts.items():
        if p.endswith(".antt"):
            names, parts = declared(p, t)
            own |= names
            fields |= parts
    crates = {d for d in os.listdir(os.path.join(ROOT, "crates"))}
    kit = set()
    for p, t in texts.items():
        for m in USE.finditer(t):
            path = m.group(1).split(".")
            mine = path[0] == "Rattle" and len(path) > 1 and path[1] in crates
            if mine and not re.search(r"\.(Statement|Tie|Goals|Given)\b", m.group(1)):
                continue
            for name in re.split(r",\s*", m.group(3) or ""):
                kit.add(name.strip())
            kit.add(path[-1])
    renamed = {}
    for name in sorted(own | fields):
        if name[0].isupper() or name in kit or not re.match(r"[a-z]", name):
            continue
        new = snake(name)
        if new != name:
            renamed[name] = new
    # A definition has the plain name, and a lemma that would have it too gets an ending. A field may be named as either is.
    taken = (own | kit) - set(renamed)
    for name, new in sorted(renamed.items(), key=lambda pair: ("-" in pair[0], pair[0])):
        if name not in own:
            continue
        if new in APART:
            continue
        if "-" not in name and new in own - kit:
            print(f"falls together: {new} -> {new}_lem")
            renamed[new] = new + "_lem"
            taken.discard(new)
        if new in taken:
            print(f"falls together: {name} -> {new}")
            renamed[name] = new = new + "_lem"
        if new in taken:
            raise SystemExit(f"falls together: {name} -> {new}")
        taken.add(new)
    if "--list" in sys.argv:
        for name, new in sorted(renamed.items()):
            print(name, new)
        print(len(renamed), "of", len(own))
        return
    changed = 0
    for p, t in texts.items():
        def turn(m):
            return renamed.get(m.group(0), m.group(0))
        if p.endswith(".antt"):
            new = TOKEN.sub(turn, t)
        else:
            new = "\n".join(line if '"' in line else TOKEN.sub(turn, line) for line in t.split("\n"))
        if new != t:
            changed += 1
            with open(p, "w", encoding="utf-8") as f:
                f.write(new)
    print(f"{len(renamed)} names spelled anew in {changed} files")


main()
