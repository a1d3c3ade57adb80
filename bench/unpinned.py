#!/usr/bin/env python3
"""Which lines of definitions no slip stands on: `bench/unpinned.py [--count] [CRATE..]`, of these crates or of all.

The definitions are those that a clause of a public function reaches: what its `ensures` and `requires` name, and what these
name in turn. From each the lines are taken that say something: an equation, or a field of a record. A slip of `bench/slips`
stands on a line if the text that it changes does, or a part of it. A line without a slip isn't wrong: it may be pinned by a
worked row or by a law all the same. It is where a wrong program is to be looked for next.

Prints each line with its file, or with `--count` how many there are by crates. It reads text alone, in a second.
"""

import collections
import glob
import os
import re
import sys

from common import TOP
from slips import named

CRATES = os.path.join(TOP, "crates")
IMPORT = re.compile(r"^(?:ghost |pub |unfoldable )*use Rattle\.(\w+)\.specs\.([\w.]+?)\.\{([^}]*)\}", re.M)
WHOLE = re.compile(r"^(?:ghost |pub )*use Rattle\.(\w+)\.specs\.([\w.]+?) as (\w+)", re.M)  # a module, by another name
HEAD = re.compile(r"^\s*(?:pub |abbrev |unfoldable |record )*(?:pub|abbrev|unfoldable|record)\s+(\S+)\s*[:({]")
FIELD = re.compile(r"^\s+pub \S+ : \S+ ")  # one of a type that is more than a word
FUNCTION = re.compile(r"^(\s*)pub (?:const )?fn \w+", re.M)
WORD = re.compile(r"[^\s(){}\[\],;.∷×→λ]+(?:\.\w+)?")

Line = collections.namedtuple("Line", "file number text")


def text_of(path):
    """What stands in a file."""
    with open(path) as file:
        return file.read()


def imported(text):
    """For each name that a file brings in, the crate and the module of specs/ that have it."""
    found = {}
    for crate, module, names in IMPORT.findall(text):
        for name in names.split(","):
            found[name.strip().split(" as ")[-1].strip()] = (crate, module)
    return found


def whole_modules(text):
    """For each name by which a file has a module, the crate and the module."""
    return {name: (crate, module) for crate, module, name in WHOLE.findall(text)}


def definitions_in(path):
    """The definitions of a file of specs/: for each name its lines, and the words that stand in them."""
    found, name = {}, None
    for number, line in enumerate(text_of(path).split("\n"), 1):
        bare = line.split("--")[0].rstrip()
        if not bare or bare.startswith(("use ", "pub use ", "unfoldable use ", "module ")):
            continue
        head = HEAD.match(bare)
        if head and re.search(r"\b(abbrev|unfoldable|record)\b", bare[: head.start(1)]):
            name = head[1]
            found.setdefault(name, ([], set()))
        if not name:
            continue
        lines, words = found[name]
        words.update(WORD.findall(bare))
        if FIELD.match(bare) or (re.search(r"(^|\s)=(\s|$)", bare) and bare.strip().startswith(name)):
            lines.append(Line(os.path.relpath(path, TOP), number, bare.strip()))
    return found


def contracts_of(path):
    """The words of the clauses of the public functions of a file."""
    text, words = text_of(path), set()
    for function in FUNCTION.finditer(text):
        end = re.compile(rf"^{function[1]}\{{", re.M).search(text, function.end())
        part = text[function.end() : end.start() if end else len(text)]
        start = re.search(r"\b(?:ensures|requires)\b", part)
        if start:
            words.update(WORD.findall(part[start.start() :]))
    return words


class Specs:
    """The definitions of all crates, and where each file has its names from."""

    def __init__(self):
        self.found, self.brought = {}, {}
        for path in glob.glob(os.path.join(CRATES, "*", "specs", "*.antt")):
            at = (path.split(os.sep)[-3], os.path.basename(path).removesuffix(".antt"))
            self.found[at] = definitions_in(path)
            self.brought[at] = (imported(text_of(path)), whole_modules(text_of(path)))

    def home(self, at, name):
        """The module that defines a name that a module has, through those that pass it on."""
        for _ in range(8):
            if name in self.found.get(at, {}):
                return at
            at = self.brought.get(at, ({}, {}))[0].get(name)
        return None

    def named_by(self, brought, word):
        """The definition that a word of a file is, by the names that it brings in, or nothing."""
        names, modules = brought
        module, _, name = word.partition(".")
        if module in modules and name:
            at = self.home(modules[module], name)
        else:
            at, name = self.home(names.get(word), word), word
        return {(at, name)} if at else set()

    def reached(self):
        """The definitions that clauses of public functions reach."""
        seen, left = set(), set()
        for path in glob.glob(os.path.join(CRATES, "*", "src", "**", "*.rt"), recursive=True):
            brought = (imported(text_of(path)), whole_modules(text_of(path)))
            left.update(*(self.named_by(brought, word) for word in contracts_of(path)))
        while left:
            at, name = left.pop()
            if (at, name) in seen or at[1].startswith("Worked"):
                continue
            seen.add((at, name))
            for word in self.found[at][name][1] - {name}:
                left |= {(at, word)} if word in self.found[at] else self.named_by(self.brought[at], word)
        return seen


def slipped_lines():
    """The numbers of the lines on which some slip stands, by files."""
    stands = collections.defaultdict(set)
    for change in (change for slip in named([]) for change in slip.changes):
        if not change.file.endswith(".antt") or not os.path.exists(os.path.join(TOP, change.file)):
            continue
        text = text_of(os.path.join(TOP, change.file))
        old = re.compile(r"\s+".join(re.escape(word) for word in change.old.split()))
        for match in old.finditer(text):
            first = text.count("\n", 0, match.start()) + 1
            stands[change.file].update(range(first, first + match[0].count("\n") + 1))
    return stands


def main():
    words = sys.argv[1:]
    wanted = [word for word in words if word != "--count"]
    specs, stands = Specs(), slipped_lines()
    lines = sorted({line for at, name in specs.reached() for line in specs.found[at][name][0]})
    by_crate = collections.defaultdict(list)
    for line in lines:
        by_crate[line.file.split(os.sep)[1]].append(line)
    for crate, own in sorted(by_crate.items()):
        if wanted and crate not in wanted:
            continue
        bare = [line for line in own if line.number not in stands[line.file]]
        if "--count" in words:
            print(f"{crate}: {len(bare)} of {len(own)} lines without a slip")
            continue
        for line in bare:
            print(f"{line.file}:{line.number}: {line.text[:120]}")
    return 0


if __name__ == "__main__":
    sys.exit(main())
