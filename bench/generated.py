#!/usr/bin/env python3
"""Writes a workload of N tasks on W workers to standard output: `bench/generated.py N [W]`, where W is 4 unless it is
given.

Tasks of even number add two numbers, and those of odd number sum the numbers up to one below 64. All are in one group,
and the workload waits for it.
"""

import sys


def workload(tasks, workers):
    """The lines of the workload."""
    yield f"node workers={workers} max_tasks={tasks}"
    yield "action a job=1 kind=add"
    yield "action b job=2 kind=triangle"
    yield "group g"
    for i in range(tasks):
        yield f"start t{i} job=2 args={i % 64} group=g" if i % 2 else f"start t{i} job=1 args={i},7 group=g"
    yield "wait_all g timeout=inf"


if __name__ == "__main__":
    count, cores = int(sys.argv[1]), int(sys.argv[2]) if len(sys.argv) > 2 else 4
    sys.stdout.write("".join(f"{line}\n" for line in workload(count, cores)))
