#!/usr/bin/env python3
"""What a reader of a contract has to believe: `proof_tools/believed.py [--files] [CRATE::FUNCTION ..]`.

Prints, for each public function named (the five of `ASKED` if none is), how many lines the definitions of `specs/` have
that its clauses cite, and those that these cite, crate by crate; comments, imports and blank lines left out; and how many
the files hold in which they stand. With --files it names each file, too. Types that are declared in `src/`, and words of
the toolchain's library, are not counted.

`--table` prints the table of docs/carrying-on.md, and `--check` fails if the page has another one, or if the files that
the command's contract reaches hold more than `MOST` lines.
"""

import os
import re
import sys
from collections import defaultdict
from dataclasses import dataclass, field

from files import TOP, read

PAGE, MOST = "docs/carrying-on.md", 3600
ASKED = [
    "mtapi_top::command",
    "workload_runners::run_node",
    "node_with_workers::with_callers",
    "typed_pieces::map_pieces",
    "workload_orders::orders",
]
WHAT = {
    "mtapi_values": "names, numbers and ranges",
    "handle_pool": "which handles are issued",
    "mtapi_objects": "what a call on an object is refused for, and what it leaves",
    "history": "rows, entries and legal lists of any machine",
    "byte_io": "what a source gave, and what a sink holds",
    "action_fn": "what each action answers",
    "mtapi_machine": "the machine",
    "history_law": "that each task ends once",
    "node_journals": "the entries of a journal",
    "node_core": "what a journal keeps of a history",
    "number_text": "numbers and lists of them as texts",
    "workload_file": "what a workload's text says, and why it is refused",
    "generated_workload": "the generated workload",
    "journal_text": "the text of a journal, for `run --journal` and `check`",
    "workload_runs": "the call of each statement; what a run is",
    "run_report": "the report and the summary",
    "journal_check": "the verdicts of `check`",
    "settled_runs": "settled workloads and their report",
    "workload_runners": "a run in threads",
    "mtapi_top": "the command",
}

HEAD = re.compile(r"^(?:(?:abbrev|unfoldable|pub|record|data) )+([^\s:({]+)|^([^\s:(){}=]+) : ")
IMPORT = re.compile(r"^(?:ghost )?(?:unfoldable )?(?:pub )?use ([^\s{;]+?)(?:\.\{(.*)\}| as (\S+?))?;?$")
TOKEN = re.compile(r"[^\s(){}\[\],;]+")


def imports_of(text):
    """Each name that the lines import, with its module and its name there; and the modules that have a short name."""
    names, modules = {}, {}
    for line in text.splitlines():
        found = IMPORT.match(line)
        if not found:
            continue
        module, items, alias = found.groups()
        if items is None:
            modules[alias or module.rsplit(".", 1)[-1]] = module
        else:
            for item in items.split(","):
                there, _, here = item.strip().partition(" as ")
                within, _, name = f"{module}.{there}".rpartition(".")
                names[here or name] = (within, name)
    return names, modules


class File:
    """A file of definitions: the lines of each, and what it imports."""

    def __init__(self, path):
        self.path, self.lines, text = path, defaultdict(list), read(path)
        self.names, self.modules = imports_of(text)
        self.infix, current, waiting, inset = {}, None, [], ""
        for line in text.splitlines():
            if not line.startswith("  "):
                inset = "  " if line.startswith("module ") and line.endswith(" where") else inset if not line.strip() else ""
            line = line[len(inset) :]
            if IMPORT.match(line) or not line.strip() or line.startswith("module "):
                continue
            if line.startswith(("infix", "--")):
                waiting.append(line)
                continue
            head = None if line.startswith(" ") else HEAD.match(line)
            if head:
                current = head.group(1) or head.group(2)
            self.lines[current].extend([*waiting, line])
            waiting = []
        for name in [*self.lines, *self.names]:
            for part in filter(None, re.split("◌", name or "")):
                if "◌" in name:
                    self.infix[part] = name

    def size(self, name):
        """How many lines a definition has, its comments aside."""
        return sum(not it.lstrip().startswith("--") for it in self.lines[name])

    def words(self, name):
        """What a definition cites, as words of this file."""
        return words_of("\n".join(it for it in self.lines[name] if not it.startswith("--")), self.infix)


def words_of(text, infix):
    found = set()
    for token in TOKEN.findall(re.sub(r"--.*", "", text)):
        for word in (token, *token.split(".")):
            found.add(infix.get(word, word))
        if "." in token:
            found.add(tuple(token.split(".", 1)))
    return found


FILES = {}


def file_of(module):
    """The file of definitions that a module is, if it is one of this repository."""
    parts = module.split(".")
    if len(parts) < 4 or parts[0] != "Rattle" or parts[2] != "specs" or parts[3] == "declared":
        return None
    path = os.path.join(TOP, "crates", parts[1], "specs", *parts[3:]) + ".antt"
    if path not in FILES:
        FILES[path] = File(path) if os.path.isfile(path) else None
    return FILES[path]


def home_of(module, name):
    """The file in which what a module calls so is defined, and its name there; a module may pass it on."""
    seen = set()
    while (module, name) not in seen:
        seen.add((module, name))
        file = file_of(module)
        if file is None:
            return None
        if name in file.lines:
            return file, name
        if name not in file.names:
            return None
        module, name = file.names[name]
    return None


def cited(words, names, modules):
    """The homes of those words that are imported so."""
    for word in words:
        if isinstance(word, tuple):
            home = home_of(modules[word[0]], word[1]) if word[0] in modules else None
        else:
            home = home_of(*names[word]) if word in names else None
        if home:
            yield home


def contract_of(crate, function):
    """The words of the clauses of a public function, and the imports of its file."""
    top = os.path.join(TOP, "crates", crate, "src")
    for at, _, files in sorted(os.walk(top)):
        for name in sorted(files):
            text = read(os.path.join(at, name)) if name.endswith(".rt") else ""
            found = re.search(rf"^ *pub fn {function}\b.*?^( *)\{{$", text, re.S | re.M)
            if found:
                clauses = "\n".join(re.findall(r"(?:requires|ensures)\b.*?\{(.*?)\}\n(?= *(?:requires|ensures|\{|where))", found.group(0) + "\n", re.S))
                names, modules = imports_of(text)
                infix = {part: it for it in names for part in it.split("◌") if part and "◌" in it}
                return words_of(clauses, infix), names, modules
    sys.exit(f"no public function {crate}::{function}")


def closure(crate, function):
    """Each definition that the contract reaches: its file and its name."""
    reached, todo = set(), list(cited(*contract_of(crate, function)))
    while todo:
        file, name = todo.pop()
        if (file.path, name) in reached:
            continue
        reached.add((file.path, name))
        words = file.words(name)
        todo.extend(cited(words, file.names, file.modules))
        todo.extend((file, it) for it in words if not isinstance(it, tuple) and it in file.lines and it != name)
    return reached


@dataclass
class Count:
    cited: int = 0
    held: int = 0
    files: list = field(default_factory=list)


def counts_of(function):
    """By crate: the lines cited, the lines that their files hold, and each file with both."""
    lines = defaultdict(int)
    for path, name in closure(*function.split("::")):
        lines[path] += FILES[path].size(name)
    crates = defaultdict(Count)
    for path in sorted(lines):
        count = crates[path.split("/crates/")[1].split("/")[0]]
        held = sum(FILES[path].size(name) for name in FILES[path].lines)
        count.cited, count.held = count.cited + lines[path], count.held + held
        count.files.append((os.path.basename(path)[:-5], lines[path], held))
    return crates


def table():
    """The table of the page: what is believed of the command, in the order of the crates, and the sum of the other functions."""
    crates = counts_of(ASKED[0])
    order = [it.split()[0].rstrip(":") for it in read(os.path.join(TOP, "crates.txt")).splitlines() if it.strip() and it[0] != "#"]
    rows = ["| What | Files, in `specs/` of the crate | Lines |", "|---|---|---|"]
    for crate in sorted(crates, key=order.index):
        files = ", ".join(f"`{it[0]}`" for it in crates[crate].files)
        rows.append(f"| {WHAT[crate]} | `{crate}`: {files} | {crates[crate].cited:,} |")
    rows.append(f"| all, for `{ASKED[0]}` | | {sum(it.cited for it in crates.values()):,} |")
    for function in ASKED[1:]:
        rows.append(f"| for `{function}` | | {sum(it.cited for it in counts_of(function).values()):,} |")
    return rows


def check():
    """Whether the page has the table as it is now, and the files of the command hold no more than they may."""
    page = read(os.path.join(TOP, PAGE)).splitlines()
    held = sum(it.held for it in counts_of(ASKED[0]).values())
    if held > MOST:
        sys.exit(f"the files that the contract of {ASKED[0]} reaches hold {held} lines, more than {MOST}: proof_tools/believed.py --files")
    missing = [row for row in table() if row not in page]
    if missing:
        sys.exit(f"{PAGE} lacks these lines of the table of what is believed:\n" + "\n".join(missing))


def main():
    words = sys.argv[1:]
    if words == ["--check"]:
        return check()
    if words == ["--table"]:
        return print("\n".join(table()))
    for function in [it for it in words if it != "--files"] or ASKED:
        crates = counts_of(function)
        sums = [sum(it.cited for it in crates.values()), sum(len(it.files) for it in crates.values()), sum(it.held for it in crates.values())]
        print(f"{function}: {sums[0]} lines, in {sums[1]} files that hold {sums[2]}")
        for crate, count in sorted(crates.items()):
            print(f"    {crate}: {count.cited} lines, in {len(count.files)} files that hold {count.held}")
            for name, cited_lines, held in count.files if "--files" in words else []:
                print(f"        {name}: {cited_lines} of {held}")


if __name__ == "__main__":
    main()
