#!/usr/bin/env python3
"""Names that stand in two crates or more: `proof_tools/same_names.py [NAME ..]`, all of them if none is named.

Prints each such name of a type of `src/` (struct, enum, trait or alias), and of a definition of `specs/`, with the
files that have it. Reads the files that git tracks and needs nothing else. A name says nothing of what it stands for: two
definitions that say one thing belong in the lower crate, and two that say different things want names of their own.
"""

import collections
import os
import re
import subprocess
import sys

from files import TOP, read

TYPE = re.compile(r"^(?:pub(?:\(crate\))? )?(?:unsafe )?(?:struct|enum|union|trait|type) (\w+)", re.M)
DEFINITION = re.compile(r"^ *(?:(?:abbrev |unfoldable )(?:pub )?|pub )(?:record |data |ruleset )?([^\s(){}:=]+)(?= *[({:]| where)", re.M)
RECORD = re.compile(r"^( *)(?:abbrev |unfoldable )?pub (?:record|data) ")
KINDS = [("types", "src", ".rt", TYPE), ("definitions", "specs", ".antt", DEFINITION)]


def without_fields(text):
    """The text without what stands inside records and data types."""
    kept, inside = [], None
    for line in text.splitlines():
        depth = len(line) - len(line.lstrip(" "))
        if inside is not None and (not line.strip() or depth > inside):
            continue
        match = RECORD.match(line)
        inside = len(match.group(1)) if match else None
        kept.append(line)
    return "\n".join(kept)


def names_in(path, pattern):
    text = read(os.path.join(TOP, path))
    if path.endswith(".antt"):
        text = without_fields(text)
    return set(pattern.findall(text)) - {"mod", "use"}


def main():
    tracked = subprocess.run(["git", "-C", TOP, "ls-files", "crates"], capture_output=True, text=True, check=True)
    paths = [it for it in tracked.stdout.split() if os.path.exists(os.path.join(TOP, it))]
    for kind, folder, end, pattern in KINDS:
        found = collections.defaultdict(list)
        for path in paths:
            if path.split("/")[2] == folder and path.endswith(end):
                for name in names_in(path, pattern):
                    found[name].append(path)
        twice = {name: at for name, at in found.items() if len({it.split("/")[1] for it in at}) > 1}
        print(f"{len(twice)} of {len(found)} names of {kind} stand in two crates or more")
        for name in sorted(twice):
            if not sys.argv[1:] or name in sys.argv[1:]:
                print(f"  {name}: {' '.join(it.removeprefix('crates/') for it in sorted(twice[name]))}")


if __name__ == "__main__":
    main()
