#!/usr/bin/env python3
"""Respells the names of this repository's definitions and lemmas: facts in camel case, other words in snake case.

usage: python3 tools/respell_names.py      at the top of the repository, once, after the kit's port.py

A dash stays only where it joins two names, as in length-mask. Names that Rattle makes, as loop-k-init, are left
alone: only what specs/ and the lemma files of proofs/ declare is respelled. It stops where two names would fall together.
"""

import glob
import re
import sys

TYPES = {
    "Act-parts": "ActParts",
    "Act-ranges": "ActRanges",
    "Act-steps": "ActSteps",
    "Acts-on": "ActsOn",
    "At-corner": "AtCorner",
    "Corner-law": "CornerLaw",
    "Read-back": "ReadBack",
}

# Both sides of the dash are names of definitions, here or in the library.
JOINED = {
    "dot-mask": "dot-mask",
    "getD-each": "get_or-each",
    "getD-lowest": "get_or-lowest",
    "getD-mask": "get_or-mask",
    "getD-sums": "get_or-sums",
    "length-each": "length-each",
    "length-lowest": "length-lowest",
    "length-mask": "length-mask",
    "length-sums": "length-sums",
    "length-writing": "length-writing",
    "lowest-corner": "lowest-corner",
    "take-set": "take-set",
}

OTHERS = {"getD-false": "get_or_false"}

# Local names, each in one lemma.
LOCAL = {"low-u", "low-y", "low-z", "rates-more", "rates-only"}

# Labels of clauses in src/ that have these names stand apart from the fields that get them.
LABELS = {"few_parties", "few_slots"}

DECLARES = re.compile(r"^\s*(?:(?:pub|abbrev|unfoldable|data|record|mutual)\s+)*([^\s:(){}]+)\s*(?:\([^)]*\)\s*|\{[^}]*\}\s*)*:\s")
PARTS = r"\w'·-"


def sources():
    for folder in ("specs", "proofs"):
        yield from sorted(glob.glob(f"crates/*/{folder}/**/*.antt", recursive=True))
    yield from sorted(glob.glob("crates/*/src/**/*.rt", recursive=True))


def declared():
    for folder in ("specs", "proofs"):
        for path in sorted(glob.glob(f"crates/*/{folder}/**/*.antt", recursive=True)):
            if path.endswith(("/Answers.antt", "/Invariants.antt")):
                continue
            with open(path, encoding="utf-8") as f:
                for line in f:
                    found = DECLARES.match(line)
                    if found and "-" in found.group(1):
                        yield found.group(1)


def new_name(name):
    for table in (TYPES, JOINED, OTHERS):
        if name in table:
            return table[name]
    return name.replace("-", "_")


def main():
    names = {n: new_name(n) for n in set(declared()) | LOCAL}
    names = {old: new for old, new in names.items() if old != new}
    texts = {}
    for path in sources():
        with open(path, encoding="utf-8") as f:
            texts[path] = f.read()
    together = "\n".join(texts.values())
    taken = {w for w in re.findall(rf"[{PARTS}]+", together)}
    fallen = sorted(f"{old} and {new}" for old, new in names.items() if new in taken - LABELS)
    fallen += sorted(new for new in names.values() if list(names.values()).count(new) > 1)
    if fallen:
        print("names that would fall together: " + ", ".join(fallen))
        return 1
    pattern = re.compile("|".join(rf"«{re.escape(o)}»|(?<![{PARTS}]){re.escape(o)}(?![{PARTS}])" for o in sorted(names, key=len, reverse=True)))
    for path, text in texts.items():
        turned = pattern.sub(lambda m: names[m.group(0).strip("«»")], text)
        if turned != text:
            with open(path, "w", encoding="utf-8") as f:
                f.write(turned)
    print(f"{len(names)} names respelled")
    return 0


if __name__ == "__main__":
    sys.exit(main())
