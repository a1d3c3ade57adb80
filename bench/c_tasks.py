#!/usr/bin/env python3
"""What a task costs by the library for C (`bench/c`), beside `mtapi gen N W`, StarPU and oneTBB (`bench/starpu`, `bench/tbb`),
as far as these are there.

The first two keep a journal, the others none, and the sums have to be the same. Prints for each number of workers, in turns,
the least of some runs of each by slope: the time at 19,000 tasks less that at 4,750, by the tasks between, in nanoseconds on
the clock and of the processors; then what a start with its wait takes by the library for C. All have the heap that `./mtapi`
gives its programs. Where the system allows it, all run before the other work of the machine (`SCHED_RR`). Needs `cc`, the
command and the library for C: `./mtapi prove`. Another archive than `crates/mtapi_c/out/libmtapi_c.a` is measured where it
is named.
"""

import os
import re
import resource
import subprocess
import sys
import tempfile
import time

import common
import starpu
import tbb

ARCHIVE = os.path.join(common.TOP, "crates", "mtapi_c", "out", "libmtapi_c.a")
WORKERS = (1, 2, 4)
FEW, MANY = 4_750, 19_000
PAIRS = 9_000
RUNS = 15
HEAP = "glibc.malloc.hugetlb=1:glibc.malloc.mmap_threshold=4294967296"


def once(command):
    """What one run takes, in seconds: on the clock, and of the processors."""
    before, start = resource.getrusage(resource.RUSAGE_CHILDREN), time.perf_counter()
    subprocess.run(command, stdin=subprocess.DEVNULL, stdout=subprocess.DEVNULL, check=True)
    took, after = time.perf_counter() - start, resource.getrusage(resource.RUSAGE_CHILDREN)
    return took, after.ru_utime + after.ru_stime - before.ru_utime - before.ru_stime


def slopes(programs, workers):
    """The nanoseconds a task of each of these programs, on the clock and of the processors."""
    least = {}
    for _ in range(RUNS):
        for name, words in programs.items():
            for tasks in (FEW, MANY):
                took = once([*words, str(tasks), str(workers)])
                old = least.get((name, tasks), took)
                least[name, tasks] = tuple(min(pair) for pair in zip(old, took))
    return {name: tuple((many - few) * 1e9 / (MANY - FEW) for few, many in zip(least[name, FEW], least[name, MANY])) for name in programs}


def build(room, archive):
    """The program over the library, in this folder."""
    subprocess.run([os.path.join(common.TOP, "c", "build"), archive, room], check=True)
    program = os.path.join(room, "c")
    source = os.path.join(common.TOP, "bench", "c", "main.c")
    subprocess.run(["cc", "-O2", "-std=c11", "-o", program, source, os.path.join(room, "libmtapi.a"), "-pthread"], check=True)
    return program


def others(room):
    """The programs of other runtimes that can be built here."""
    found = {}
    try:
        starpu.build(os.path.join(room, "starpu"))
        found["StarPU"] = [os.path.join(room, "starpu")]
    except (OSError, subprocess.CalledProcessError):
        print("StarPU isn't here")
    program = os.path.join(room, "tbb")
    done = subprocess.run(["c++", "-O2", "-std=c++17", "-o", program, tbb.OTHER, "-ltbb"], capture_output=True)
    if done.returncode == 0:
        found["oneTBB"] = [program]
    else:
        print("oneTBB isn't here")
    return found


def sum_of(words, workers):
    """What a program says that the tasks answered in all."""
    return re.search(r"(?:sum )?(-?\d+)\s*$", tbb.output_of([*words, str(MANY), str(workers)]))[1]


def main():
    archive = sys.argv[1] if len(sys.argv) > 1 else ARCHIVE
    common.need_command()
    if not os.path.exists(archive):
        sys.exit("build the library for C first: ./mtapi prove")
    os.environ.setdefault("GLIBC_TUNABLES", HEAP)
    os.environ.setdefault("STARPU_SILENT", "1")
    common.go_first()
    with tempfile.TemporaryDirectory() as room:
        os.environ["STARPU_HOME"] = room
        program = build(room, archive)
        programs = {"gen": [common.COMMAND, "gen"], "C": [program], **others(room)}
        print("ns a task, by slope, on the clock and of the processors; a start with its wait")
        for workers in WORKERS:
            if len({sum_of(words, workers) for words in programs.values()}) > 1:
                sys.exit(f"the sums on {workers} workers differ")
            took = slopes(programs, workers)
            pair = min(float(tbb.output_of([program, str(PAIRS), str(workers), "pairs"])) for _ in range(5))
            row = "".join(f"  {name} {clock:.0f}, {busy:.0f}" for name, (clock, busy) in took.items())
            print(f"{workers} workers{row}  C by gen {took['C'][0] / took['gen'][0]:.2f}  pair {pair:.0f}", flush=True)


if __name__ == "__main__":
    main()
