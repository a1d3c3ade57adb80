#!/usr/bin/env python3
"""Files that share lines of one shape: `proof_tools/twins.py [--least LINES] [src|specs|proofs ..]`, of `src` if none is named.

A pair is two files, or one with itself, that share a run of eight lines or more (`--least`) which are the same but for
names, numbers and strings; blank lines, comments and imports aside. What stands in more than eight places is left out.
Prints how many pairs there are, and of each its longest run and how many more it has, longest first. A pair is a place to
look: two kinds of one thing, perhaps, or two things that look alike.
"""

import os
import re
import sys
from collections import defaultdict

from files import TOP, read

SKIPPED = re.compile(r"\s*(//|--|#\[|use |pub use |ghost use |pub mod |mod |unfoldable (pub )?use |\}?\s*$)")
KEPT = {"fn", "pub", "let", "mut", "match", "if", "else", "for", "in", "return", "requires", "ensures", "struct", "enum", "impl", "record", "data", "Ok", "Err", "Some", "None"}
PIECE = re.compile(r'"[^"]*"|[0-9]+|[A-Za-z_][A-Za-z0-9_]*')
MOST_PLACES = 8


def shape_of(line):
    return PIECE.sub(lambda it: it.group(0) if it.group(0) in KEPT else "_", " ".join(line.split()))


def sources(part):
    """The files of that part of each crate, but for those that only name others."""
    for at, folders, names in os.walk(os.path.join(TOP, "crates")):
        folders[:] = sorted(it for it in folders if it != "out")
        inside = os.path.relpath(at, os.path.join(TOP, "crates")).split(os.sep)
        if len(inside) > 1 and inside[1] == part:
            yield from (os.path.join(at, it) for it in sorted(names) if it.endswith((".rt", ".antt")) and it not in ("Lib.antt", "Names.antt"))


def runs_of(parts, least):
    """Each run that two places share: how many lines it has, and for both the file with its first and last line."""
    texts, windows = {}, defaultdict(list)
    for path in (it for part in parts for it in sources(part)):
        lines = [(at, shape_of(line)) for at, line in enumerate(read(path).splitlines(), 1) if not SKIPPED.match(line)]
        texts[path] = lines
        for at in range(len(lines) - least + 1):
            windows[tuple(it[1] for it in lines[at : at + least])].append((path, at))
    starts = {(one, other) for found in windows.values() if 1 < len(found) <= MOST_PLACES for one in found for other in found if one < other}
    for (one, at), (other, there) in sorted(starts):
        if ((one, at - 1), (other, there - 1)) in starts:
            continue
        size = least
        while ((one, at + size - least + 1), (other, there + size - least + 1)) in starts:
            size += 1
        if one != other or at + size <= there:
            yield size, [(path, texts[path][first][0], texts[path][first + size - 1][0]) for path, first in ((one, at), (other, there))]


def main():
    words = sys.argv[1:]
    least = int(words.pop(words.index("--least") + 1)) if "--least" in words else 8
    pairs = defaultdict(list)
    for size, places in runs_of([it for it in words if it != "--least"] or ["src"], least):
        pairs[tuple(path for path, _, _ in places)].append((size, places))
    print(f"{len(pairs)} pairs of files share {least} lines or more")
    for runs in sorted(pairs.values(), key=lambda it: (-max(it)[0], it[0][1])):
        size, places = max(runs)
        more = f" (+{len(runs) - 1} more runs)" if len(runs) > 1 else ""
        print(f"{size}: " + " ~ ".join(f"{os.path.relpath(path, TOP)}:{first}-{last}" for path, first, last in places) + more)


if __name__ == "__main__":
    main()
