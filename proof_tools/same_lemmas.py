#!/usr/bin/env python3
"""Lemmas that stand twice: `proof_tools/same_lemmas.py [CRATE ..]`, all that touch one of the crates, or all if none is named.

Prints the lemmas of `proofs/` that have one statement up to the names of variables and white space, those with the most
lines first: the statement as one of them writes it, then each place. The text is compared, not what its names stand for.
One of them may stay: in the lowest crate that all users stand on, or none where the kit has it.
"""

import collections
import os
import re
import sys

from files import TOP, lemmas_of, proof_files, read

PART = re.compile(r"[^\s(){}\[\];,.:]+|[(){}\[\];,.:]")
BOUND = re.compile(r"(?<!record )[({]((?:[^\s(){}\[\];,.:=]+ )+): |λ ((?:[^\s(){}\[\];,.:=]+ ?)+)\.")
BLOCK = re.compile(r"^module _ (.*) where$")


def shape_of(said):
    """The statement with its variables numbered in the order in which they come."""
    names = {name for match in BOUND.finditer(said) for name in (match.group(1) or match.group(2)).split()}
    numbers = {}
    return " ".join(f"v{numbers.setdefault(it, len(numbers))}" if it in names else it for it in PART.findall(said))


def blocks_of(lines):
    """For each line the parameters of the `module` block that it stands in."""
    found, block = [], ""
    for line in lines:
        if line.strip() and not line.startswith(" "):
            match = BLOCK.match(line.rstrip("\n"))
            block = match.group(1) + " → " if match else ""
        found.append(block)
    return found


def main():
    found = collections.defaultdict(list)
    count = 0
    for crate in sorted(os.listdir(os.path.join(TOP, "crates"))):
        for path in proof_files(crate):
            lines = read(path).splitlines(keepends=True)
            blocks = blocks_of(lines)
            for lemma in lemmas_of(lines):
                if re.match(r"(?:goal|given)\.", lemma.type):
                    continue
                count += 1
                said = (blocks[lemma.first] if lemma.depth else "") + lemma.type
                found[shape_of(said)].append((crate, path, lemma, said))
    twice = [it for it in found.values() if len(it) > 1]
    print(f"{sum(len(it) for it in twice) - len(twice)} of {count} lemmas stand again elsewhere")
    named = set(sys.argv[1:])
    for places in sorted(twice, key=lambda it: -sum(lemma.end() - lemma.first for _, _, lemma, _ in it)):
        if named and not named & {crate for crate, _, _, _ in places}:
            continue
        print(f"\n{len(places)} times: {places[0][3]}")
        for _, path, lemma, _ in places:
            size = lemma.end() - lemma.first
            print(f"  {os.path.relpath(path, os.path.join(TOP, 'crates'))}:{lemma.first + 1}: {lemma.name} ({size} lines)")


if __name__ == "__main__":
    main()
