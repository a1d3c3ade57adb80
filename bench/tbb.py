#!/usr/bin/env python3
"""How long `mtapi gen N W` takes beside the same tasks under oneTBB (`bench/tbb`), and `mtapi check` for the journal of such a
run. Another program is measured where it is named: `bench/tbb.py [PROGRAM]`.

oneTBB keeps no journal, gives no handles and answers nothing but the sum, which has to be the same. Prints for each number
of workers the least of some runs of each, whole processes, in nanoseconds a task on the clock and of the processors. Needs
`c++` and oneTBB with its headers (`libtbb-dev`), and the command: `./mtapi prove`.
"""

import os
import re
import subprocess
import sys
import tempfile
import time

import common
from generated import workload
from threads import best

OTHER = os.path.join(common.TOP, "bench", "tbb", "main.cpp")
WORKERS = (1, 2, 4, 16)
TASKS = 19_000
JUDGED = 19_990  # tasks of the run that is judged, which leaves some 60,000 entries
RUNS = 5


def output_of(command, text=b""):
    """What the command writes for this input."""
    return subprocess.run(command, input=text, stdout=subprocess.PIPE, check=True).stdout.decode()


def judged(program):
    """The entries of the journal of a run, the least seconds of a check of it behind its workload, and the verdict."""
    text = "".join(f"{line}\n" for line in workload(JUDGED, 4)).encode()
    told = output_of([program, "run", "--journal"], text)
    journal = told[told.index("mtapi-journal ") :].encode()
    took = []
    for _ in range(RUNS):
        start = time.perf_counter()
        verdict = output_of([program, "check"], text + journal)
        took.append(time.perf_counter() - start)
    return journal.count(b"\n") - 1, min(took), verdict.strip()


def main():
    program = sys.argv[1] if len(sys.argv) > 1 else common.COMMAND
    common.go_first()
    with tempfile.TemporaryDirectory() as room:
        other = os.path.join(room, "tbb")
        subprocess.run(["c++", "-O2", "-std=c++17", "-o", other, OTHER, "-ltbb"], check=True)
        print(f"{TASKS} tasks, ns a task   mtapi gen                 oneTBB")
        print("workers   on the clock processors   on the clock processors   times")
        for workers in WORKERS:
            sizes = [str(TASKS), str(workers)]
            if re.search(r"sum (-?\d+)", output_of([program, "gen", *sizes]))[1] != output_of([other, *sizes]).strip():
                sys.exit(f"the sums on {workers} workers differ")
            ours, theirs = best([program, "gen", *sizes], b""), best([other, *sizes], b"")
            row = "".join(f" {clock * 1e9 / TASKS:14.0f} {busy * 1e9 / TASKS:10.0f}" for clock, busy in (ours, theirs))
            print(f"{workers:7}{row} {ours[0] / theirs[0]:7.1f}", flush=True)
    entries, seconds, verdict = judged(program)
    print(f"check of {entries} entries: {seconds:.3f} s ({verdict})")


if __name__ == "__main__":
    main()
