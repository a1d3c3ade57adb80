#!/usr/bin/env python3
"""How many instructions the command executes for one task, of `mtapi gen` and of `mtapi run` with the same workload.

Counted by callgrind with one worker, of 1,000 and of 19,000 generated tasks; the difference by 18,000 is what a task
takes, without what a run takes once. The figures don't hang on the load of the machine. They do on the processor that
the command was built for, so the script says by its name which program it counted. Needs `valgrind`. Counts the built
command (`./mtapi prove`), or the program whose path is the word behind the script's name.
"""

import os
import re
import shutil
import subprocess
import sys

import common
from generated import workload

FEW, MANY = 1_000, 19_000  # tasks
WORKERS = 1


def instructions(program, words, text):
    """What the program executes with these words on this text. It has to end with the status 0."""
    counted = ["valgrind", "--tool=callgrind", "--callgrind-out-file=/dev/null", program, *words]
    done = subprocess.run(counted, input=text, capture_output=True)
    told = re.search(r"Collected : (\d+)", done.stderr.decode(errors="replace"))
    if done.returncode or told is None:
        sys.exit(f"status {done.returncode} of {' '.join(words)}: {done.stderr.decode(errors='replace')}")
    return int(told[1])


def of_gen(program, tasks):
    return instructions(program, ["gen", str(tasks), str(WORKERS)], b"")


def of_run(program, tasks):
    text = "".join(f"{line}\n" for line in workload(tasks, WORKERS)).encode()
    return instructions(program, ["run"], text)


def main():
    if not shutil.which("valgrind"):
        sys.exit("valgrind is needed")
    if len(sys.argv) > 1:
        program = os.path.abspath(sys.argv[1])
    else:
        common.need_command()
        program = common.COMMAND
    print(f"{program}, instructions a task:")
    for name, count in (("gen", of_gen), ("run", of_run)):
        print(f"{name} {(count(program, MANY) - count(program, FEW)) / (MANY - FEW):7.0f}")


if __name__ == "__main__":
    main()
