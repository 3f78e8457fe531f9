#!/usr/bin/env python3
"""Brings the names that this repository declares in specs/ and proofs/ to one spelling: types in upper camel case, all
else in snake case. Run once, at the top, after the kit's port.py: python3 tools/respell.py [--list].

It also gives the crate `hex` the name `hex_text`, since the kit has a library named hex.

Only names that a file of specs/ or proofs/ declares are turned, and only where they stand as names: not in comments
of prose, not in strings, not in code. Names that the prover makes from the code (goals, steps) keep their spelling.
A lemma whose new name is that of a definition gets `_lem` behind it.
"""

import os
import re
import sys

TOKEN = re.compile(r'(--[^\n]*|//[^\n]*|"(?:\\.|[^"\\])*")|([^\s(){}\[\],;:.λ"«»⌜⌝]+)')
DECLARED = re.compile(r"^(\s*)(?:(?:abbrev|unfoldable|pub) )*([^\s(){}:,;.λ]+)\s*:\s")
TYPE = re.compile(r"^\s*(?:(?:abbrev|unfoldable|pub) )*(?:record|data)\s+([^\s(){}:,;.λ]+)")
# where the rule alone would give two things one name, or a name that says too little
CHOSEN = {
    "empty-case": "empty_case_read",
    "longest-path": "longest_path_law",
    "look-ahead": "look_ahead_law",
    "larger-of": "larger_of_law",
    "held-arm": "keeps_held_arm",
    "inOrder": "in_ordered",
}
MADE = ("Answers.antt", "Invariants.antt", "Choices.antt", "Proof.antt")


def files(ending):
    for folder, dirs, names in os.walk("crates"):
        dirs[:] = sorted(d for d in dirs if d != "out")
        for name in sorted(names):
            if name.endswith(ending):
                yield os.path.join(folder, name)


def read(path):
    with open(path, encoding="utf-8") as f:
        return f.read()


def declared():
    """Each declared name, with whether a file of specs/ declares it and whether it is a type."""
    found = {}
    for path in files(".antt"):
        if os.path.basename(path) in MADE:
            continue
        specs = "/specs/" in path
        for line in read(path).split("\n"):
            name = None
            m = TYPE.match(line)
            if m:
                name = m.group(1)
            else:
                m = DECLARED.match(line)
                if m and not line.lstrip().startswith(("--", "let ", "|")):
                    name = m.group(2)
            if name:
                was = found.get(name, False)
                found[name] = was or specs
    return found


def spelled(name):
    if name in CHOSEN:
        return CHOSEN[name]
    if name[0].isupper():
        return re.sub(r"[-_](\w)", lambda m: m.group(1).upper(), name)
    name = re.sub(r"(?<=[a-z0-9])([A-Z])(?![A-Z])", lambda m: "_" + m.group(1).lower(), name)
    return name.replace("-", "_").replace("′", "'")


def mapping():
    found = declared()
    new = {}
    for name in found:
        if "◌" in name or not re.search(r"[A-Za-z]", name):
            continue
        to = spelled(name)
        if to != name:
            new[name] = to
    taken = {}
    for name in found:
        taken.setdefault(new.get(name, name), []).append(name)
    together = []
    for to, names in taken.items():
        if len(names) > 1:
            together.append((to, names))
            # the definition keeps the name; a lemma beside it gets an ending
            keeper = [n for n in names if found[n]] or names
            keeper = sorted(keeper, key=lambda n: (n != to, n))[0]
            for n in names:
                if n != keeper:
                    new[n] = to + "_lem"
    return new, together


def turn(path, new):
    text = read(path)
    out = []
    at = 0
    for m in TOKEN.finditer(text):
        out.append(text[at:m.start()])
        at = m.end()
        if m.group(1) is not None:
            piece = m.group(1)
            if path.endswith(".antt") and piece.startswith("--") or piece.startswith("//"):
                # in a comment a name is known by its capital in the middle, or by its quotes
                piece = re.sub(r"`([^`\s]+)`", lambda q: "`" + new.get(q.group(1), q.group(1)) + "`", piece)
                piece = re.sub(r"\b[a-z]+(?:[A-Z][a-z]+)+\b", lambda q: new.get(q.group(0), q.group(0)), piece)
            out.append(piece)
        else:
            out.append(new.get(m.group(2), m.group(2)))
    out.append(text[at:])
    done = "".join(out)
    if done != text:
        with open(path, "w", encoding="utf-8") as f:
            f.write(done)


def rename_crate(old, to):
    if not os.path.isdir(os.path.join("crates", old)):
        return
    os.rename(os.path.join("crates", old), os.path.join("crates", to))
    for ending in (".antt", ".rt"):
        for path in files(ending):
            text = read(path)
            done = re.sub(rf"\bRattle\.{old}\.", f"Rattle.{to}.", text)
            if ending == ".rt":
                done = re.sub(rf"\buse {old}::", f"use {to}::", done)
            if done != text:
                with open(path, "w", encoding="utf-8") as f:
                    f.write(done)
    text = read("crates.txt")
    with open("crates.txt", "w", encoding="utf-8") as f:
        f.write(re.sub(rf"\b{old}\b", to, text))


def main():
    new, together = mapping()
    if "--list" in sys.argv:
        for to, names in sorted(together):
            print("together:", to, names, [new.get(n, n) for n in names])
        for name in sorted(new):
            print(name, "->", new[name])
        return
    for ending in (".antt", ".rt"):
        for path in files(ending):
            turn(path, new)
    rename_crate("hex", "hex_text")


if __name__ == "__main__":
    main()
