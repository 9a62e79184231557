#!/usr/bin/env python3
"""Brings this repository's own definitions and lemmas to snake case: the script of docs/PORT.md, run once after the kit's port.py.

usage: python3 tools/respell.py [ROOT]      rewrites the .antt and .rt files below ROOT/crates in place, and prints each renaming

A name is this repository's own if a file of specs/ or proofs/ declares it (the answers of one function aside, which the check names),
or if a `ghost use` line gives it by `as`. Capitals within a name and dashes become `_`; the dash of a name that joins the names of two
definitions stays, as in `length-store`; a lemma that would have its definition's name gets `_lem`. Types, modules, functions of src/ and what the library declares keep their names.
"""

import os
import re
import sys

PART = r"[^\s(){}\[\].,;:«»\"|]+"
DECLARED = re.compile(rf"^(\s*)((?:pub |abbrev |unfoldable )*)({PART})\s+:\s")
USED = re.compile(r"(?:ghost\s+)?use\s+([^\s{{};]+?)\.\{([^}]*)\}", re.S)
WORD = re.compile(r"[^\s(){}\[\].,;:«»\"|λ]+")
SKIP = {"Proof.antt", "Answers.antt", "Invariants.antt"}


def files(root):
    for folder, dirs, names in os.walk(os.path.join(root, "crates")):
        dirs[:] = sorted(d for d in dirs if d not in ("out", ".git", "must-fail", "data"))
        for name in sorted(names):
            if name.endswith((".antt", ".rt")):
                yield os.path.join(folder, name)


def snake(name, definitions):
    name = re.sub(r"(?<=[a-z0-9'])([A-Z])", lambda m: "_" + m.group(1).lower(), name)
    parts = name.split("-")
    joint = "-" if len(parts) == 2 and definitions.issuperset(parts) else "_"
    return joint.join(parts)


def main(root):
    texts = {p: open(p, encoding="utf-8").read() for p in files(root)}
    crates = set(os.listdir(os.path.join(root, "crates")))
    own, definitions, foreign, aliases = set(), set(), set(), set()
    for path, text in texts.items():
        for module, names in USED.findall(text):
            head = module.split(".")
            ours = head[0] == "Rattle" and len(head) > 1 and head[1] in crates
            for item in names.split(","):
                first, _, alias = item.strip().partition(" as ")
                if not ours:
                    foreign.add(first.strip())
                if alias.strip():
                    aliases.add(alias.strip())
        if path.endswith(".rt") or os.path.basename(path) in SKIP:
            continue
        for line in text.splitlines():
            m = DECLARED.match(line)
            if m and not m.group(3)[0].isupper() and "◌" not in m.group(3):
                own.add(m.group(3))
                if "/specs/" in path:
                    definitions.add(m.group(3))
    own |= {a for a in aliases if a[:1].islower()}
    definitions |= {f for f in foreign if f[:1].islower() and "-" not in f}
    definitions = {snake(d, set()) for d in definitions} | definitions
    taken = {w for p, t in texts.items() if p.endswith(".antt") for w in WORD.findall(t)}
    to = {}
    for name in sorted(own - foreign):
        if re.search(r"[A-Z]|-", name):
            new = snake(name, definitions)
            if new != name:
                to[name] = new
    for name in to:
        if "-" in name and (to[name] in taken or any(n != name and to[n] == to[name] for n in to)):
            to[name] += "_lem"
    clashes = {n for n in to if to[n] in taken or list(to.values()).count(to[n]) > 1}
    for name in sorted(to):
        print(f"{name} {to[name]}" + (" CLASH" if name in clashes else ""))
    for path, text in texts.items():
        new = WORD.sub(lambda m: to.get(m.group(0), m.group(0)), text)
        new = re.sub(r"(?<=[\s(\[{])([\w'-]+)(?=\.)", lambda m: to.get(m.group(1), m.group(1)), new)
        if new != text:
            with open(path, "w", encoding="utf-8") as f:
                f.write(new)


main(sys.argv[1] if len(sys.argv) > 1 else ".")
