#!/usr/bin/env python3
"""The words `All` and `Has` of the older library are AllByRecursion and ContainsAt today, and the gate refuses the
library's `All` as a name for anything else: the files that bring them in under the old words use the new ones. And the
four ghost fields that are not in snake case are spelled so. Run once, at the top, after tools/respell.py."""

import os
import re

WORDS = {"All": "AllByRecursion", "Has": "ContainsAt"}
FIELDS = {
    "fewFixed": "few_fixed",
    "fewPairs": "few_pairs",
    "fixedListed": "fixed_listed",
    "pairsListed": "pairs_listed",
}


def main():
    for folder, dirs, names in os.walk("crates"):
        dirs[:] = sorted(d for d in dirs if d != "out")
        for name in sorted(names):
            if not name.endswith((".antt", ".rt")):
                continue
            path = os.path.join(folder, name)
            with open(path, encoding="utf-8") as f:
                text = f.read()
            done = re.sub(r"\b(" + "|".join(FIELDS) + r")\b", lambda m: FIELDS[m.group(1)], text)
            for old, new in WORDS.items():
                if f"{new} as {old}" in done:
                    done = done.replace(f"{new} as {old}", new)
                    comment = r"(?:--|//)[^\n]*"
                    done = re.sub(
                        rf"({comment})|(?<![\w'.-]){old}(?![\w'-])",
                        lambda m: m.group(1) or new,
                        done,
                    )
            if done != text:
                with open(path, "w", encoding="utf-8") as f:
                    f.write(done)


main()
