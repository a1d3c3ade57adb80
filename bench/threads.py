#!/usr/bin/env python3
"""How long `mtapi run` takes for generated workloads, beside a peer in plain Rust with one lock (`bench/peer`).

The peer reads the same text, keeps a journal and writes the same report: the bytes are compared first. The bare peer
runs the tasks alone. Prints for each number of workers and of tasks the least of some runs of each: the nanoseconds a
task on the clock and of the processors; and then how far the times are from the bounds that are aimed at. Where the
system allows it, all run before the other work of the machine (`SCHED_RR`). The command has to be built; another
program is measured where it is named: `bench/threads.py [PROGRAM]`.
"""

import os
import resource
import subprocess
import sys
import tempfile
import time

import common
from generated import workload

PEER = os.path.join(common.TOP, "bench", "peer", "main.rs")
WORKERS = (1, 2, 4, 16)
TASKS = (4_750, 19_000)
PAIRS = 9_000
RUNS = 7


def best(command, text):
    """The least time of the command on this input, in seconds: on the clock, and of the processors."""
    clock, processors = [], []
    for _ in range(RUNS):
        before, start = resource.getrusage(resource.RUSAGE_CHILDREN), time.perf_counter()
        subprocess.run(command, input=text, stdout=subprocess.DEVNULL, check=True)
        took, after = time.perf_counter() - start, resource.getrusage(resource.RUSAGE_CHILDREN)
        clock.append(took)
        processors.append(after.ru_utime + after.ru_stime - before.ru_utime - before.ru_stime)
    return min(clock), min(processors)


def pairs(count, workers):
    """The lines of a workload in which main waits for each task before it starts the next one."""
    yield from list(workload(count, workers))[:4]
    for i in range(count):
        yield f"start t{i} job=1 args={i},7 group=g"
        yield "wait_all g timeout=inf"


def same_report(program, peer, text):
    """Whether both write the same bytes for this workload."""
    both = [subprocess.run([it, "run"], input=text, stdout=subprocess.PIPE, check=True).stdout for it in (program, peer)]
    return both[0] == both[1]


def measured(program, peer):
    """The times on the clock of the program and of the peer, by workers and tasks. Prints each, and those of the bare
    peer."""
    print("ns a task           mtapi                  the peer               the bare peer")
    print("workers   tasks   on the clock processors   on the clock processors   on the clock processors")
    ours, theirs = {}, {}
    for workers in WORKERS:
        for tasks in TASKS:
            text = "".join(f"{line}\n" for line in workload(tasks, workers)).encode()
            if not same_report(program, peer, text):
                sys.exit(f"the reports of {tasks} tasks on {workers} workers differ")
            row = f"{workers:7} {tasks:7}"
            for times, command, given in (
                (ours, [program, "run"], text),
                (theirs, [peer, "run"], text),
                ({}, [peer, "bare", str(tasks), str(workers)], b""),
            ):
                clock, processors = best(command, given)
                times[workers, tasks] = clock
                row += f" {clock * 1e9 / tasks:14.0f} {processors * 1e9 / tasks:10.0f}"
            print(row, flush=True)
    return ours, theirs


def measured_pairs(program, peer):
    """Prints what a pair of a start and the wait for its end takes, beside the peer."""
    for workers in (1, 2, 4):
        text = "".join(f"{line}\n" for line in pairs(PAIRS, workers)).encode()
        if not same_report(program, peer, text):
            sys.exit(f"the reports of {PAIRS} pairs on {workers} workers differ")
        (ours, busy), (theirs, their_busy) = best([program, "run"], text), best([peer, "run"], text)
        print(
            f"{workers} workers: a start and the wait for its end take {ours * 1e9 / PAIRS:.0f} ns ({busy * 1e9 / PAIRS:.0f} of the processors),"
            f" {ours / theirs:.2f} times as long as the peer's {theirs * 1e9 / PAIRS:.0f} ({their_busy * 1e9 / PAIRS:.0f}; at most 2)",
            flush=True,
        )


def main():
    program = sys.argv[1] if len(sys.argv) > 1 else common.COMMAND
    first = common.go_first()
    print(f"load {os.getloadavg()[0]:.1f}, {'before' if first else 'beside'} all other work")
    with tempfile.TemporaryDirectory() as room:
        peer = os.path.join(room, "peer")
        subprocess.run(["rustc", "-O", "--edition", "2021", "-o", peer, PEER], check=True)
        ours, theirs = measured(program, peer)
        measured_pairs(program, peer)
    few, many = TASKS
    for workers in WORKERS:
        print(
            f"{workers} workers: {many} tasks take {ours[workers, many] / ours[workers, few]:.1f} times as long as {few} (at most 5),"
            f" and {ours[workers, many] / theirs[workers, many]:.2f} times as long as the peer (at most 2)"
        )
    print(f"16 workers take {ours[16, many] / ours[4, many]:.1f} times as long as 4 (at most 3)")


if __name__ == "__main__":
    main()
