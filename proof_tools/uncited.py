#!/usr/bin/env python3
"""Lemmas that nothing cites: `proof_tools/uncited.py [CRATE ..]`, of all crates if none is named.

Prints each name of a file of proofs that no other text of the repository has, and its lines. Look at each before it goes:
a tactic may find a lemma by itself, and one that another repository cites stays.
"""

import collections
import os
import re
import sys

from files import TOP, USE, WORD, answers_goals, lemmas_of, proof_files, read


def words_of(text):
    kept = "\n".join(line for line in text.splitlines() if not USE.match(line))
    return WORD.findall(kept.replace("::", " "))


def main():
    crates = os.path.join(TOP, "crates")
    named = collections.Counter()
    for at, folders, names in os.walk(crates):
        folders[:] = [it for it in folders if it != "out"]
        for name in names:
            if name.endswith((".antt", ".rt", ".edit")):
                named.update(words_of(read(os.path.join(at, name))))
    for crate in sys.argv[1:] or sorted(os.listdir(crates)):
        for path in proof_files(crate):
            text = read(path)
            if answers_goals(text):
                continue
            lines = text.splitlines(keepends=True)
            for lemma in lemmas_of(lines):
                own = words_of("".join(lines[lemma.first : lemma.end()])).count(lemma.name)
                if named[lemma.name] <= own:
                    size = lemma.end() - lemma.first
                    print(f"{os.path.relpath(path, TOP)}: {re.sub('^pub ', '', lemma.name)} ({size} lines)")


if __name__ == "__main__":
    main()
