#!/usr/bin/env python3
"""Counts the places of the design pass in crates/*/src, at a commit or in the working tree.

    python3 tools/places.py [COMMIT] [--list]

A line for each point with its number of places; with --list the places too. docs/DESIGN-PASS.md says what is looked for.
"""
import difflib
import glob
import re
import subprocess
import sys
from collections import defaultdict

COMMIT = next((a for a in sys.argv[1:] if not a.startswith("-")), None)
LIST = "--list" in sys.argv


def files(pattern):
    """The files that match, as pairs of name and text."""
    if COMMIT is None:
        return [(name, open(name).read()) for name in sorted(glob.glob(pattern, recursive=True))]
    names = subprocess.run(["git", "ls-tree", "-r", "--name-only", COMMIT], capture_output=True, text=True).stdout.split()
    wanted = re.compile(re.escape(pattern).replace(r"\*\*/", "(.*/)?").replace(r"\*", "[^/]*") + "$")
    return [(n, subprocess.run(["git", "show", f"{COMMIT}:{n}"], capture_output=True, text=True).stdout) for n in names if wanted.match(n)]


SOURCES = files("crates/*/src/**/*.rt")


def lines(pattern, skip=None):
    """The lines of the sources that match, comments and clauses left out."""
    found = []
    for name, text in SOURCES:
        for number, line in enumerate(text.split("\n"), 1):
            code = line.split("//")[0]
            if re.match(r"\s*(ghost|requires|ensures)\b", code) or (skip and re.search(skip, name)):
                continue
            if re.search(pattern, code):
                found.append(f"{name}:{number}: {line.strip()}")
    return found


def functions():
    """Each function with its file, name, parameters, clauses and body."""
    out = []
    for name, text in SOURCES:
        for m in re.finditer(r"^( *)(?:pub(?:\(\w+\))? )?fn (\w+)", text, re.M):
            indent = m.group(1)
            end = re.search(rf"^{indent}(\}}|.*;$|\{{.*\}}$)", text[m.end():], re.M)
            whole = text[m.start(): m.end() + (end.end() if end else 0)]
            body = re.search(rf"^{indent}.*\{{$(.*)", whole, re.M | re.S)
            head = whole[: whole.find(")")]
            params = re.findall(r"(?:mut )?(\w+): ([^,()]+)", head)
            clauses = re.findall(r"(?:requires|ensures)(?: \w+)? \{(.*)\}", whole)
            code = "\n".join(l for l in whole.split("\n") if not re.match(r"\s*(requires|ensures)\b", l))
            out.append((name, m.group(2), params, clauses, code))
    return out


FUNCTIONS = functions()


def twins():
    """Pairs of functions whose tokens, with names of their own aside, agree in 85 of 100."""
    found = []
    tokens = [(n, f, re.findall(r"\w+|[^\w\s]", code)) for n, f, _, _, code in FUNCTIONS if "/tests.rt" not in n]
    tokens = [t for t in tokens if len(t[2]) >= 30]
    for i, (n1, f1, a) in enumerate(tokens):
        for n2, f2, b in tokens[i + 1:]:
            if min(len(a), len(b)) * 1.3 < max(len(a), len(b)):
                continue
            if difflib.SequenceMatcher(None, a, b, autojunk=False).ratio() >= 0.85:
                found.append(f"{n1} {f1} ~ {n2} {f2}")
    return found


def together():
    """Facts that stand in the `requires` of three functions or more, and neighbouring parameters of three or more."""
    facts, pairs = defaultdict(list), defaultdict(list)
    for name, fn, params, _, code in FUNCTIONS:
        for left, right in zip(params, params[1:]):
            pairs[(left[0], right[0])].append(f"{name} {fn}")
    for name, text in SOURCES:
        for fact in re.findall(r"requires(?: \w+)? \{ (.*) \}", text):
            facts[fact].append(name)
    return [f"fact {k}: {len(v)}" for k, v in facts.items() if len(v) >= 3] + [
        f"parameters {' '.join(k)}: {len(v)}" for k, v in pairs.items() if len(v) >= 3
    ]


RANGE = r"\bfor \w+ in \(?[^ ]*\.\."
POINTS = [
    ("1 flags beside a value", lines(r"^\s+(pub )?\w+: bool,$")),
    ("1 numbers for refusals and kinds", lines(r"\bfn (layer|cause|place|number|of_number)\(", "/measures/")),
    ("1 numbers for arms and marks", lines(r"\b(arm|mark|before): u8\b")),
    ("1 options and results taken apart by hand", lines(r"None => (None|Err|Ok)\b|Err\(_\) =>|Err\(AllocError\)|\.is_(err|ok)\(\)|-> Option<usize>|Ok\(true\)")),
    ("2 twins", twins()),
    ("3 loops over a range", lines(RANGE)),
    ("4 impls of equality, order, copying, conversion, printing", lines(r"^impl.*\b(Clone|Copy|PartialEq|Eq|PartialOrd|Ord|From<.*>|TryFrom<.*>|FromStr|Display) for")),
    ("4 conversions by functions", lines(r"\bfn (\w+_of|of_\w+|\w+_name|number|number_of)\(", "/(graph|measures|bounds|planner)/")),
    ("5 facts and parameters together", together()),
    ("6 lengths beside a buffer", lines(r"^\s+(pub )?(\w+_len|depth|listed|count|events|from|first): usize\b|\[\w+; \d+\]|\blisted: usize\b", "tests")),
    ("7 switches", lines(r"\bmatch \*?(self\.)?(measure|bound|command|request|after|kind)\b")),
    ("8 answers", [f"{n}: {a}" for n, t in files("crates/*/proofs/**/*.antt") for a in re.findall(r"^pub ([\w+\-]+) : goal\.", t, re.M)]),
    ("8 lines of proofs", [l for _, t in files("crates/*/proofs/**/*.antt") for l in t.split("\n")]),
]

for title, places in POINTS:
    print(f"{title}: {len(places)}")
    if LIST and not title.startswith("8"):
        for place in places:
            print(f"    {place}")
