#!/usr/bin/env python3
"""Whether the examples of the pages show what is so: `bench/pages.py [MTAPI]`, with the script `mtapi` of this repository
if no other is named. Run `./mtapi prove` before. Prints each block that shows something else, and then fails.

The word behind the three backquotes of a block says what it is:

- `workload`: `mtapi run` of it writes the next block, if that is a `report`; `workload NAME` is kept as the file NAME;
- `sh`: commands, run if `./mtapi` is among them; they write the next block, if that is a `report`, or else what stands
  behind `# prints: ` in them, if anything; a file that they write isn't empty;
- `output CRATE`: the stored output of the program of this crate;
- `part FILE`: lines that stand so in this file, one behind the other, but for their indents.
"""

import os
import re
import subprocess
import sys
import tempfile

from common import TOP

BLOCK = re.compile(r"(?ms)^```(\S*) ?(\S*)$\n(.*?)^```$")


def write(folder, command, text=""):
    return subprocess.run(["bash", "-c", command], cwd=folder, input=text, stdout=subprocess.PIPE, text=True).stdout


def without_indents(text):
    return "\n".join(line.strip() for line in text.splitlines())


def is_filled(path):
    return os.path.exists(path) and os.path.getsize(path) > 0


def part_of(name, text):
    """The text, if it is a part of the file."""
    with open(os.path.join(TOP, name)) as file:
        if without_indents(text) in without_indents(file.read()):
            return text
    return f"other lines in {name}\n"


def tried(blocks, folder):
    """What each block that can be tried says, and what is so. All are run in this folder."""
    for (sort, name, text), (next_sort, _, next_text) in zip(blocks, blocks[1:] + [("", "", "")]):
        report = next_text if next_sort == "report" else ""
        if sort == "workload" and name:
            write(folder, f"cat > {name}", text)
        elif sort == "workload" and report:
            yield report, write(folder, "./mtapi run", text)
        elif sort == "sh" and "./mtapi" in text:
            so = write(folder, text)
            yield report or "".join(it + "\n" for it in re.findall(r"# prints: (.*)", text)) or so, so
            for file in re.findall(r"> *(\S+)$", text, re.M):
                yield f"{file}\n", f"{file}\n" if is_filled(os.path.join(folder, file)) else f"{file} is empty\n"
        elif sort == "output":
            yield text, write(folder, f"cat crates/{name}/stdout")
        elif sort == "part":
            yield text, part_of(name, text)


def main():
    count, faults = 0, 0
    mtapi = os.path.abspath(sys.argv[1]) if len(sys.argv) > 1 else "mtapi"
    for page in "README.md", *sorted(f"docs/{it}" for it in os.listdir(f"{TOP}/docs") if it.endswith(".md")):
        with open(f"{TOP}/{page}") as file, tempfile.TemporaryDirectory() as room:
            folder = os.path.join(room, "here")  # what a page writes beside it goes with the room
            os.mkdir(folder)
            for name, place in ("mtapi", mtapi), ("crates", "crates"), ("examples", "examples"):
                os.symlink(os.path.join(TOP, place), os.path.join(folder, name))
            for said, so in tried(BLOCK.findall(file.read()), folder):
                count, faults = count + 1, faults + (said != so)
                if said != so:
                    print(f"{page} shows\n{said}and it is\n{so}")
    print(f"{count} blocks of the pages tried, {faults} show something else")
    sys.exit(1 if faults else 0)


if __name__ == "__main__":
    main()
