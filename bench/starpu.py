#!/usr/bin/env python3
"""How long `mtapi gen N W` takes a task beside the same tasks under StarPU (`bench/starpu`), a runtime whose tasks have
handles, priorities and ends. Another program is measured where it is named: `bench/starpu.py [PROGRAM]`.

StarPU keeps no journal and answers nothing but the sum, which has to be the same. It takes long to start, so what is
compared is the slope: the least of some runs of each at 19,000 tasks, less that at 1,000, by 18,000, in nanoseconds on
the clock. Needs `cc` and StarPU with its headers (`libstarpu-dev`), and the command: `./mtapi prove`.
"""

import os
import re
import subprocess
import sys
import tempfile

import common
from tbb import output_of
from threads import best

OTHER = os.path.join(common.TOP, "bench", "starpu", "main.c")
WORKERS = (1, 2, 4)
FEW, MANY = 1_000, 19_000


def slope(program, words, workers):
    """Nanoseconds on the clock for each further task."""
    few, many = (best([program, *words, str(tasks), str(workers)], b"")[0] for tasks in (FEW, MANY))
    return (many - few) * 1e9 / (MANY - FEW)


def build(other):
    """Builds the peer by what pkg-config says of StarPU."""
    flags = output_of(["pkg-config", "--cflags", "--libs", "starpu-1.3"]).split()
    subprocess.run(["cc", "-O2", "-std=gnu11", "-o", other, OTHER, *flags], check=True)


def main():
    program = sys.argv[1] if len(sys.argv) > 1 else common.COMMAND
    os.environ.setdefault("STARPU_SILENT", "1")
    common.go_first()
    with tempfile.TemporaryDirectory() as room:
        os.environ["STARPU_HOME"] = room
        other = os.path.join(room, "starpu")
        build(other)
        print("ns a task, by slope   mtapi gen   StarPU   times")
        for workers in WORKERS:
            sizes = [str(MANY), str(workers)]
            if re.search(r"sum (-?\d+)", output_of([program, "gen", *sizes]))[1] != output_of([other, *sizes]).strip():
                sys.exit(f"the sums on {workers} workers differ")
            ours, theirs = slope(program, ["gen"], workers), slope(other, [], workers)
            print(f"{workers} workers {ours:21.0f} {theirs:8.0f} {ours / theirs:7.2f}", flush=True)


if __name__ == "__main__":
    main()
