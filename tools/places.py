#!/usr/bin/env python3
"""Counts the places of docs/DESIGN-PASS.md in crates/*/src: `tools/places.py [FOLDER]`, and `-v` to list them."""
import re
import sys
from collections import defaultdict
from pathlib import Path

VERBOSE = "-v" in sys.argv
FOLDER = next((a for a in sys.argv[1:] if not a.startswith("-")), ".")
FILES = sorted(Path(FOLDER, "crates").glob("*/src/**/*.rt"))


def code(path):
    """The lines of a file without comments, ghost imports and clauses."""
    clause = False
    for number, line in enumerate(path.read_text().split("\n"), 1):
        line = re.sub(r"//.*", "", line)
        if re.match(r"\s*(requires|ensures)\b", line):
            clause = True
        if clause and re.match(r"\s*\{\s*$", line):
            clause = False
        if not clause and not line.startswith("ghost use"):
            yield number, line


def lines(pattern):
    return [f"{p}:{n}: {l.strip()}" for p in FILES for n, l in code(p) if re.search(pattern, l)]


def functions():
    """Each function: crate, name, whether other crates can call it, its parameters, and its contract's text."""
    for path in FILES:
        text = re.sub(r"//.*", "", path.read_text())
        for m in re.finditer(r"(pub(?:\(crate\))? )?(?:extern \"C\" )?fn (\w+)(<[^>]*>)?\(([^)]*)\)((?:(?! \{\n)[^;]|;(?= ))*?)\n\s*\{\n", text):
            yield path, m.group(2), m.group(1) == "pub ", m.group(4), m.group(5)


def enums():
    """Enums of one's own with two or three cases of which at most two hold something, as Option and Result, and not of plain cases alone."""
    found = []
    for path in FILES:
        for m in re.finditer(r"enum (\w+) \{\n(.*?)\n\}", path.read_text(), re.S):
            cases = [c.strip() for c in m.group(2).split("\n") if c.strip() and not c.strip().startswith("//")]
            if len(cases) <= 3 and any("(" in c for c in cases):
                found.append(f"{path}: {m.group(1)}")
    return found


def facts():
    """Facts of values that stand in the `requires` of three or more functions."""
    told = defaultdict(list)
    for path, name, public, _, contract in functions():
        for clause in re.findall(r"requires(?: \w+)? \{(.*?)\}(?=\n|$)", contract, re.S):
            for fact in set(re.findall(r"\b((?:Is|Are|Has|Have|Holds)[A-Z]\w*|white_fits|check_bands)\b", clause)):
                told[fact].append(f"{path.parts[-3] if path.parts[-2] == 'src' else path.parts[-4]}::{name}{'' if public else ' (private)'}")
    return [f"{fact}: {', '.join(sorted(names))}" for fact, names in sorted(told.items()) if len(names) >= 3]


def alike():
    """Bodies of functions that are the same once names and numbers are left out."""
    shapes = defaultdict(list)
    for path in FILES:
        text = re.sub(r"//.*", "", path.read_text())
        for m in re.finditer(r"fn (\w+)(?:<[^>]*>)?\([^)]*\)(?:(?! \{\n)[^;]|;(?= ))*?\n(\s*)\{\n(.*?)\n\2\}", text, re.S):
            shape = re.sub(r"\s+", " ", re.sub(r"[A-Za-z_]\w*|\d+", "x", m.group(3)))
            if len(shape) > 40:
                shapes[shape].append(f"{path}: {m.group(1)}")
    return [" = ".join(names) for names in shapes.values() if len(names) > 1]


POINTS = [
    ("1 own enums of the shape of Option or Result", enums()),
    ("1 their uses", lines(r"\b(Average|Decoded|Extremes|(Header|Row|Tally)OrRefusal|Luminance|Step|StoredRatio|Verdict|White|Channel)::[A-Z]")),
    ("1 flags and numbers beside values", lines(r"^\s*pub (\w*present|over|number): u64")),
    ("2 bodies of one shape", alike()),
    ("2 functions for one element type each", [f"{p}: {n}" for p, n, *_ in functions() if re.search(r"(^|_)(half|single|stored|rgbe)$", n)]),
    ("3 loops that count by hand", lines(r"^\s*while ")),
    ("3 the lesser or the greater by hand", lines(r"\bif (\w+) < (\w+) \{ (\1|\2)( as \w+)? \} else \{ (\1|\2|255) \}")),
    ("4 order and equality by hand", lines(r"fn (at_most|darker|brighter|same_white|lesser|greater|within)\b")),
    ("4 conversions to and from C, and of bytes", lines(r"fn (outcome_of|report|page_header|\w+_answer|white_given|white_present|white_tenths|word_of|index_in|store_index)\b")),
    ("4 printing by hand", lines(r"fn (signed|pair|put\w*|refused\w*|front)\b")),
    ("5 facts in three or more contracts", facts()),
    ("5 functions of six or more parameters", [f"{p}: {n}" for p, n, _, params, _ in functions() if len(re.findall(r"\w: ", params)) >= 6]),
    ("6 counts beside a buffer, and a sentinel for none", lines(r"pub (text|samples|count): usize|const (UNLIT_\w+)")),
    ("7 tables of functions, switches on a step", lines(r"\bfn\(|\bdyn\b|match (kind|mode|which)\b")),
]
for name, places in POINTS:
    print(f"{name}: {len(places)}")
    if VERBOSE:
        for place in places:
            print("   ", place)
proofs = [p for p in Path(FOLDER, "crates").glob("*/proofs/**/*.antt")]
answers = sum(len(re.findall(r"^pub \S+ : goal\.", p.read_text(), re.M)) for p in proofs)
print(f"8 answers: {answers} in {sum(p.name == 'Answers.antt' for p in proofs)} files")
print(f"8 lines below proofs/: {sum(len(p.read_text().splitlines()) for p in proofs)}")
