#!/usr/bin/env python3
"""What `mtapi gen 19000` takes if the C library gives the program its memory in larger steps: `bench/heap_steps.py [ROUNDS]`.

Prints for each setting of GLIBC_TUNABLES the page faults a task, the peak of memory, and the nanoseconds of the processors a
task, the least of nine rounds in which the settings take turns. The script `mtapi` sets the one that is marked."""

import os
import re
import sys

from common import COMMAND, TOP, need_command

TASKS = 19000
MIB = 1 << 20
SETTINGS = {
    "none": "",
    "top_pad 16 MiB": f"glibc.malloc.top_pad={16 * MIB}",
    "huge pages": "glibc.malloc.hugetlb=1",
    "huge pages, top_pad 4 MiB": f"glibc.malloc.hugetlb=1:glibc.malloc.top_pad={4 * MIB}",
    "huge pages, threshold 4 GiB": f"glibc.malloc.hugetlb=1:glibc.malloc.mmap_threshold={4096 * MIB}",
    "huge pages, threshold, top_pad 4 MiB":
        f"glibc.malloc.hugetlb=1:glibc.malloc.mmap_threshold={4096 * MIB}:glibc.malloc.top_pad={4 * MIB}",
    "huge pages, threshold, top_pad 16 MiB":
        f"glibc.malloc.hugetlb=1:glibc.malloc.mmap_threshold={4096 * MIB}:glibc.malloc.top_pad={16 * MIB}",
    "huge pages, threshold, top_pad 64 MiB":
        f"glibc.malloc.hugetlb=1:glibc.malloc.mmap_threshold={4096 * MIB}:glibc.malloc.top_pad={64 * MIB}",
}


def cost(tunables):
    """The faults, the peak in kB and the processor seconds of one run."""
    child = os.fork()
    if child == 0:
        os.dup2(os.open(os.devnull, os.O_WRONLY), 1)
        os.execve(COMMAND, [COMMAND, "gen", str(TASKS), "1"], {**os.environ, "GLIBC_TUNABLES": tunables})
    _, status, usage = os.wait4(child, 0)
    if status:
        sys.exit(f"gen ended with {status} under {tunables}")
    return usage.ru_minflt, usage.ru_maxrss, usage.ru_utime + usage.ru_stime


def main():
    need_command()
    rounds = int(sys.argv[1]) if len(sys.argv) > 1 else 9
    with open(f"{TOP}/mtapi", encoding="utf-8") as script:
        chosen = re.search(r"(?m)^heap_steps=(\S+)", script.read())[1]
    least = {}
    for _ in range(rounds):
        for name, tunables in SETTINGS.items():
            now = cost(tunables)
            least[name] = tuple(map(min, now, least.get(name, now)))
    for name, (faults, peak, seconds) in least.items():
        mark = "*" if SETTINGS[name] == chosen else " "
        print(f"{mark} {name:40} {faults / TASKS:6.3f} faults a task  {peak:7} kB  {1e9 * seconds / TASKS:6.0f} ns a task")


main()
