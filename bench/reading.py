#!/usr/bin/env python3
"""How long the command takes to read a workload. Each text is faulty in its last line alone, so it is read whole, and
reading is all that is done.

Prints a line for each text, and fails where one takes longer than its limit, or where twice the bytes take more than
2.2 times the time. Where `valgrind` is installed it also prints how many instructions a line of a task takes. The command
has to be built: run `./mtapi prove` before.
"""

import re
import shutil
import subprocess
import sys
import time

from common import COMMAND, need_command
from generated import workload

LIMIT = 0.1  # seconds for the largest text of a kind
RATIO = 2.2  # of the times, at twice the bytes
LAST = b"faulty\n"  # no word of a statement
FLOOR = 0.002  # seconds below which times say nothing of a ratio
TRIES = 9
FEW, MANY = 1_000, 4_000  # tasks whose instructions are counted


def names(count):
    """As many groups as uses of them."""
    bound = "".join(f"group g{i}\n" for i in range(count))
    used = "".join(f"group_delete g{i}\n" for i in range(count))
    return (bound + used).encode() + LAST


def remarks(count):
    """Comments, and a statement, of so many bytes in all. The last comment ends one byte before the last line."""
    line = b"# " + b"x" * 61 + b"\n"
    head = b"group g\n"
    return head + (line * (count // len(line) + 1))[: count - len(head) - len(LAST) - 1] + b"\n" + LAST


def options(count):
    """Tasks with all options, of about so many bytes in all."""
    line = "start t{} job=65535 args=-9223372036854775808,1,2,3,4,5,6,7,8,9,10,11,12,13,14,15 priority=7 cores=0,1,2,3,5,8,13,21,34,55 detached=yes\n"
    text = b"group g\n"
    i = 0
    while True:
        more = line.format(i).encode()
        if len(text) + len(more) + len(LAST) > count:
            return text + LAST
        text += more
        i += 1


def seconds(text):
    best = None
    for _ in range(TRIES):
        start = time.perf_counter()
        done = subprocess.run([COMMAND, "run"], input=text, capture_output=True)
        took = time.perf_counter() - start
        if done.returncode != 3 or b": unknown word" not in done.stderr:
            sys.exit(f"status {done.returncode}: {done.stderr.decode()}")
        best = took if best is None else min(best, took)
    return best


def instructions(tasks):
    """What the command executes to read so many generated tasks."""
    text = "".join(f"{line}\n" for line in workload(tasks, 1)).encode() + LAST
    words = ["valgrind", "--tool=callgrind", "--callgrind-out-file=/dev/null", COMMAND, "run"]
    told = subprocess.run(words, input=text, capture_output=True).stderr.decode()
    return int(re.search(r"Collected : (\d+)", told)[1])


def main():
    need_command()
    start = seconds(LAST)
    failed = False
    for name, half, whole in (
        ("names", names(5000), names(10000)),
        ("remarks", remarks(524288), remarks(1048576)),
        ("options", options(524288), options(1048576)),
    ):
        small = seconds(half) - start
        large = seconds(whole) - start
        ratio = large / small if small > FLOOR else 0.0
        bad = large > LIMIT or ratio > RATIO
        failed = failed or bad
        print(f"{name}: {len(half)} bytes {small:.4f} s, {len(whole)} bytes {large:.4f} s, ratio {ratio:.2f}{'  TOO SLOW' if bad else ''}")
    if shutil.which("valgrind"):
        print(f"a line of a task: {(instructions(MANY) - instructions(FEW)) / (MANY - FEW):.0f} instructions")
    sys.exit(1 if failed else 0)


if __name__ == "__main__":
    main()
