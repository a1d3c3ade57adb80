#!/usr/bin/env python3
"""What the gate takes, crate by crate: `bench/gate_parts.py [--anew] [LOG]`.

Runs `rt ci` at the top of the repository, with its output in the file LOG (`out/gate.log` of the system's folder for
such files if none is named), and looks once a second at the processes that it started. With `--anew` it proves and tries
all, whatever an earlier run has passed. At the end it prints a table of processor-seconds: for each crate its proof, its
tests, its must-fail edits, and what compiling took; the largest first, then all in all and the time on the clock. A
process that lives for less than a second may be missed. The status is that of `rt ci`.
"""

import os
import subprocess
import sys
import tempfile
import time

from common import TOP

PARTS = ("proof", "tests", "edits", "compile")
TICKS = os.sysconf("SC_CLK_TCK")


def read(path):
    """The bytes of a file of /proc, none where the process has ended."""
    try:
        with open(path, "rb") as it:
            return it.read()
    except OSError:
        return b""


def processes():
    """Each process: its parent, its words, the seconds of the processors that it has had itself, and when it began."""
    found = {}
    for name in os.listdir("/proc"):
        if name.isdigit():
            fields = read(f"/proc/{name}/stat").rpartition(b")")[2].split()
            words = read(f"/proc/{name}/cmdline").decode(errors="replace").split("\0")
            if fields:
                found[int(name)] = int(fields[1]), words, (int(fields[11]) + int(fields[12])) / TICKS, int(fields[19])
    return found


def below(top, found):
    """The processes that this one has started, and those that they have."""
    inside = {top}
    while more := {it for it, (parent, _, _, _) in found.items() if parent in inside and it not in inside}:
        inside |= more
    return inside


def part_of(process, words):
    """The crate that the process works on and which part of the gate that is, or None."""
    if "--crate-name" not in words:
        return None
    crate = words[words.index("--crate-name") + 1]
    try:
        at = os.readlink(f"/proc/{process}/cwd")
    except OSError:
        at = ""
    if "/rt-edit-" in at:
        return crate, "edits"
    if "--crate-checked" in words:
        return crate, "compile"
    return crate, "tests" if "--test" in words else "proof"


def main():
    flags = [it for it in sys.argv[1:] if it == "--anew"]
    logs = [it for it in sys.argv[1:] if it != "--anew"]
    log = logs[0] if logs else os.path.join(tempfile.gettempdir(), "gate.log")
    kind, seconds, began = {}, {}, time.time()
    with open(log, "w") as output:
        gate = subprocess.Popen(["rt", "ci", *flags], cwd=TOP, stdin=subprocess.DEVNULL, stdout=output, stderr=subprocess.STDOUT)
    while gate.poll() is None:
        found = processes()
        for it in below(gate.pid, found):
            if it in found:
                _, words, spent, start = found[it]
                kind.setdefault((it, start), part_of(it, words))
                seconds[it, start] = spent
        time.sleep(1)
    table = {}
    for it, key in kind.items():
        if key:
            row = table.setdefault(key[0], dict.fromkeys(PARTS, 0.0))
            row[key[1]] += seconds[it]
    print(f"{'crate':24}" + "".join(f"{part:>9}" for part in PARTS))
    for crate, row in sorted(table.items(), key=lambda it: -sum(it[1].values())):
        print(f"{crate:24}" + "".join(f"{row[part]:9.0f}" for part in PARTS))
    whole = {part: sum(row[part] for row in table.values()) for part in PARTS}
    print(f"{'all':24}" + "".join(f"{whole[part]:9.0f}" for part in PARTS))
    print(f"{sum(whole.values()) / 60:.0f} processor-minutes, {(time.time() - began) / 60:.0f} minutes on the clock; the output is in {log}")
    return gate.returncode


if __name__ == "__main__":
    sys.exit(main())
