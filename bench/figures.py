#!/usr/bin/env python3
"""Measures the figures of docs/performance.md, one script behind the other: `bench/figures.py [NAME..]`, by the scripts whose
names begin so, or all that the page names.

Prints the processor, the date, the commit and the load, and then for each script the load and what it prints, so that what is
put on the page can be told from where it comes. A script that lacks something, as another runtime or a program that isn't
built, is told with its last line, and the others go on; the status is 1 then. The figures are fair only if the processors have
nothing else to do. All take an hour.

Left out are what reads inputs that mean harm, what writes a workload, and what proves all from nothing in a fresh clone.
"""

import datetime
import os
import re
import subprocess
import sys

from common import TOP

PAGE = os.path.join(TOP, "docs", "performance.md")
NO_COSTS = {"hostile.py", "generated.py", "first_answer.py", "figures.py"}


def scripts():
    """The measuring scripts that the page names, in its order."""
    with open(PAGE, encoding="utf-8") as page:
        named = re.findall(r"`bench/(\w+\.py)`", page.read())
    return [name for name in dict.fromkeys(named) if name not in NO_COSTS and os.path.isfile(os.path.join(TOP, "bench", name))]


def output_of(command):
    return subprocess.run(command, cwd=TOP, capture_output=True, text=True).stdout.strip()


def head():
    """What the figures depend on."""
    with open("/proc/cpuinfo") as file:
        processor = next((line.split(":")[1].strip() for line in file if line.startswith("model name")), "an unknown processor")
    changed = " and changes" if output_of(["git", "status", "--porcelain", "--untracked-files=no"]) else ""
    commit = output_of(["git", "rev-parse", "--short", "HEAD"]) or "no"
    return f"{processor}, {os.cpu_count()} processors; {datetime.date.today()}; commit {commit}{changed}; {load()}"


def load():
    return f"load {os.getloadavg()[0]:.1f}"


def measured(name):
    """Runs a script, with what it prints. Whether it ended well."""
    print(f"\n== bench/{name}, {load()}", flush=True)
    command = [sys.executable, os.path.join(TOP, "bench", name)]
    done = subprocess.run(command, cwd=TOP, stdin=subprocess.DEVNULL, stderr=subprocess.PIPE, text=True)
    if done.returncode:
        print(f"status {done.returncode}: {(done.stderr.strip().split(chr(10)) or [''])[-1]}", flush=True)
    return done.returncode == 0


def main():
    words = sys.argv[1:]
    chosen = [name for name in scripts() if not words or any(name.startswith(word) for word in words)]
    if not chosen:
        sys.exit(f"no script that the page names begins so: {' '.join(words)}")
    print(head(), flush=True)
    faults = sum(not measured(name) for name in chosen)
    sys.exit(1 if faults else 0)


if __name__ == "__main__":
    main()
