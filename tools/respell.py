#!/usr/bin/env python3
"""Spells this repository's own definitions and lemmas as today's Rattle does: in snake case, where port.py left a hyphen or a capital.

usage: tools/respell.py        once, at the top, over what port.py has turned

Functions of src/, types, modules, variants, strings, inputs and outputs keep their names, and so do the goals and proofs that Rattle
names. Where a lemma's name falls together with a definition's, the lemma ends in _law. It prints each new name.
"""

import collections
import glob
import re

LEMMAS = glob.glob("crates/*/specs/**/*.antt", recursive=True) + glob.glob("crates/*/proofs/**/*.antt", recursive=True)
TEXTS = sorted(LEMMAS + glob.glob("crates/*/src/**/*.rt", recursive=True) + glob.glob("crates/*/must-fail/*.edit"))
PAGES = ["README.md"] + sorted(glob.glob("docs/*.md"))
SIGNATURE = re.compile(r"^\s*(?:abbrev\s+|unfoldable\s+)?(?:pub\s+)?((?:[^\s(){}:;,.]+\s+)+):\s+(\S*)")
KEYWORDS = {"let", "record", "data", "pub", "abbrev", "unfoldable", "in", "module", "use", "open"}
# a word as antt cuts it
WORD = re.compile(r"[^\s(){}.;,:@\"«»`|]+")


def declared():
    """The names that these files declare, without those that Rattle gives."""
    names = set()
    for path in LEMMAS:
        with open(path, encoding="utf-8") as file:
            for line in file:
                found = SIGNATURE.match(line)
                if not found or line.lstrip().startswith("--") or found[2].startswith("tie."):
                    continue
                names |= {name for name in found[1].split() if name not in KEYWORDS and not name.endswith("-spec")}
    return names


def respelled(name):
    if "-" not in name and name[:1].isupper():
        return name
    plain = re.sub(r"(?<=[a-z0-9])([A-Z])", lambda capital: "_" + capital[1].lower(), name.replace("getD", "get_or"))
    return plain.replace("-", "_")


def spelling(names):
    """Each name that changes, with its new spelling."""
    alike = collections.defaultdict(list)
    for name in sorted(names):
        alike[respelled(name)].append(name)
    new = {}
    for spelled, old in alike.items():
        for name in old:
            is_lemma = len(old) > 1 and "-" in name
            new[name] = spelled + "_law" if is_lemma else spelled
    return {old: spelled for old, spelled in new.items() if old != spelled}


def main():
    new = spelling(declared())
    taken = set(new.values())
    assert len(taken) == len(new), "two names fall together"

    def turn(text):
        return WORD.sub(lambda word: new.get(word[0], word[0]), text)

    for path in TEXTS + PAGES:
        with open(path, encoding="utf-8") as file:
            text = file.read()
        if path in PAGES:
            turned = re.sub(r"`[^`\n]+`", lambda quoted: turn(quoted[0]), text)
        else:
            turned = turn(text)
        if turned != text:
            with open(path, "w", encoding="utf-8") as file:
                file.write(turned)
    for old in sorted(new):
        print(old, new[old])


main()
