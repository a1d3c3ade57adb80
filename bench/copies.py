#!/usr/bin/env python3
"""What `mtapi run` copies for a task, and by which functions, beside the peer of `bench/peer`; page faults; and what idle
workers cost. `bench/copies.py [places] [PROGRAM]`: with `places` it also prints the single places of the code, and another
program is measured where it is named.

1. Calls of memcpy, memmove and memset and their bytes, by a counter that stands in their place (`cc`, `nm`). Copies that the
   compiler writes out in place aren't among them, mostly those of few bytes. A task's part is the difference between the runs
   of `MANY` and of `FEW` tasks of `bench/generated.py`, with one worker, divided by that of the tasks.
2. The page faults of a whole run of `MANY` tasks with one worker.
3. The processor seconds of 1 and of 16 workers that have nothing to do while main looks a thousand times for a semaphore that
   nobody gives back, which takes about a second.

The command has to be built: `./mtapi prove`.
"""

import collections
import os
import resource
import subprocess
import sys
import tempfile
import time

import common
from generated import workload

PEER = os.path.join(common.TOP, "bench", "peer", "main.rs")
FEW, MANY = 4_750, 19_000
SHOWN = 14  # functions that copy most
PLACES = 60  # places that copy most
WORDS = ("copy", "move", "set")
RUNS = 5

# A library that is put before the C library (LD_PRELOAD). At the end it writes to the file that COPIES names a line for each
# place that called one of the three: the word, the file and where it begins, the address behind the call, how many calls, and
# how many bytes.
COUNTER = r"""
#define _GNU_SOURCE
#include <dlfcn.h>
#include <stdatomic.h>
#include <stddef.h>
#include <stdint.h>
#include <stdio.h>
#include <stdlib.h>
#include <sys/syscall.h>
#include <unistd.h>

enum { SITES = 1 << 16 };

struct table {
    const char *word;
    _Atomic uintptr_t site[SITES];
    _Atomic uint64_t calls[SITES], bytes[SITES];
};

static struct table copies = {"copy"}, moves = {"move"}, sets = {"set"};

static void count(struct table *table, void *behind, size_t bytes) {
    uintptr_t site = (uintptr_t)behind;
    size_t at = (site * 0x9E3779B97F4A7C15u) >> 48;
    for (;; at = (at + 1) % SITES) {
        uintptr_t found = table->site[at];
        if (found == 0 && atomic_compare_exchange_strong(&table->site[at], &found, site)) {
            found = site;
        }
        if (found == site) {
            break;
        }
    }
    table->calls[at]++;
    table->bytes[at] += bytes;
}

static void copy_up(void *to, const void *from, size_t bytes) {
    __asm__ volatile("rep movsb" : "+D"(to), "+S"(from), "+c"(bytes) : : "memory");
}

static void copy_down(unsigned char *to, const unsigned char *from, size_t bytes) {
    while (bytes--) {
        ((volatile unsigned char *)to)[bytes] = from[bytes];
    }
}

void *memcpy(void *restrict to, const void *restrict from, size_t bytes) {
    count(&copies, __builtin_return_address(0), bytes);
    copy_up(to, from, bytes);
    return to;
}

void *memmove(void *to, const void *from, size_t bytes) {
    count(&moves, __builtin_return_address(0), bytes);
    if ((uintptr_t)to - (uintptr_t)from >= bytes) {
        copy_up(to, from, bytes);
    } else {
        copy_down(to, from, bytes);
    }
    return to;
}

void *memset(void *to, int value, size_t bytes) {
    count(&sets, __builtin_return_address(0), bytes);
    void *at = to;
    __asm__ volatile("rep stosb" : "+D"(at), "+c"(bytes) : "a"(value) : "memory");
    return to;
}

static void tell(FILE *file, const struct table *table) {
    for (size_t at = 0; at < SITES; at++) {
        Dl_info info;
        if (table->site[at] != 0 && dladdr((void *)table->site[at], &info)) {
            fprintf(file, "%s %s %zu %zu %zu %zu\n", table->word, info.dli_fname, (size_t)info.dli_fbase, (size_t)table->site[at],
                    (size_t)table->calls[at], (size_t)table->bytes[at]);
        }
    }
}

static void tell_all(void) {
    const char *name = getenv("COPIES");
    FILE *file = name ? fopen(name, "w") : NULL;
    if (file) {
        tell(file, &copies);
        tell(file, &moves);
        tell(file, &sets);
        fclose(file);
    }
}

/* One of the two ends a program. */
__attribute__((destructor)) static void at_return(void) { tell_all(); }

void _exit(int status) {
    tell_all();
    syscall(SYS_exit_group, status);
    __builtin_unreachable();
}
"""


def text_of(tasks):
    """The workload of so many tasks on one worker."""
    return "".join(f"{line}\n" for line in workload(tasks, 1)).encode()


def symbols_of(program):
    """The functions of the program, by their addresses."""
    told = subprocess.run(["nm", "-C", "--defined-only", "-n", program], capture_output=True, text=True, check=True).stdout
    rows = [line.split(" ", 2) for line in told.splitlines() if line[:1] != " "]
    return [(int(address, 16), name) for address, kind, name in rows if kind in "tTwW"]


def place_at(symbols, address):
    """The name of the function that this address stands in, and how far behind its start."""
    low, high = 0, len(symbols)
    while high - low > 1:
        middle = (low + high) // 2
        if symbols[middle][0] <= address:
            low = middle
        else:
            high = middle
    return symbols[low][1], address - symbols[low][0]


def is_fixed(program):
    """Whether the program stands at the addresses that are written in its file."""
    with open(program, "rb") as file:
        return file.read(18)[16] == 2


def counted(program, counter, tasks, room):
    """The calls and the bytes of one run, by word, function and place in it."""
    told = os.path.join(room, "told")
    surroundings = dict(os.environ, LD_PRELOAD=counter, COPIES=told)
    subprocess.run([program, "run"], input=text_of(tasks), stdout=subprocess.DEVNULL, env=surroundings, check=True)
    symbols, fixed, found = symbols_of(program), is_fixed(program), collections.Counter()
    with open(told) as lines:
        for line in lines:
            word, file, base, site, calls, size = line.split()
            place = os.path.basename(file), 0
            if os.path.realpath(file) == os.path.realpath(program):
                place = place_at(symbols, int(site) - (0 if fixed else int(base)) - 1)
            found[word, place, "calls"] += int(calls)
            found[word, place, "bytes"] += int(size)
    return found


def a_task(program, counter, room):
    """The calls and the bytes of a task, by word, function and place in it."""
    few, many = counted(program, counter, FEW, room), counted(program, counter, MANY, room)
    return {key: (many[key] - few[key]) / (MANY - FEW) for key in many}


def total(found, words, what):
    """The sum over all places."""
    return sum(value for (word, _, kind), value in found.items() if word in words and kind == what)


def by_function(found):
    """The same, by word and function."""
    sums = collections.Counter()
    for (word, (name, _), kind), value in found.items():
        sums[word, name, kind] += value
    return sums


def show_functions(found):
    """Prints the functions that copy or set most, by bytes."""
    sums = by_function(found)
    size = lambda name: sum(sums[word, name, "bytes"] for word in WORDS)
    for name in sorted({name for _, name, _ in sums}, key=size, reverse=True)[:SHOWN]:
        calls, copied = (sums["copy", name, what] + sums["move", name, what] for what in ("calls", "bytes"))
        print(f"  {copied:7.0f} bytes, {calls:5.1f} calls, {sums['set', name, 'bytes']:6.0f} set  {name}")


def show_places(found):
    """Prints the places that copy or set most, by bytes."""
    rows = [(value, word, place) for (word, place, kind), value in found.items() if kind == "bytes"]
    for value, word, (name, offset) in sorted(rows, reverse=True)[:PLACES]:
        calls = found[word, (name, offset), "calls"]
        print(f"  {value:7.0f} bytes, {calls:5.2f} calls of {value / calls if calls else 0:.0f}  {word}  {name} + {offset:#x}")


def faults(program):
    """The least number of page faults of a run of all tasks."""
    least, text = None, text_of(MANY)
    for _ in range(RUNS):
        before = resource.getrusage(resource.RUSAGE_CHILDREN).ru_minflt
        subprocess.run([program, "run"], input=text, stdout=subprocess.DEVNULL, check=True)
        took = resource.getrusage(resource.RUSAGE_CHILDREN).ru_minflt - before
        least = took if least is None else min(least, took)
    return least


def idle(program, workers):
    """The processor seconds and those on the clock of a run in which so many workers have nothing to do for a second."""
    lines = [f"node workers={workers}", "sem s id=1 limit=1", "sem_lock s timeout=nowait", "sem_lock s timeout=1000", "sem_unlock s"]
    text = "".join(f"{line}\n" for line in lines).encode()
    best = None
    for _ in range(RUNS):
        before, start = resource.getrusage(resource.RUSAGE_CHILDREN), time.perf_counter()
        subprocess.run([program, "run"], input=text, stdout=subprocess.DEVNULL, check=True)
        clock, after = time.perf_counter() - start, resource.getrusage(resource.RUSAGE_CHILDREN)
        busy = after.ru_utime + after.ru_stime - before.ru_utime - before.ru_stime
        best = min(best or (busy, clock), (busy, clock))
    return best


def main():
    words = sys.argv[1:]
    named = [word for word in words if word != "places"]
    program = named[0] if named else common.COMMAND
    with tempfile.TemporaryDirectory() as room:
        peer, counter = os.path.join(room, "peer"), os.path.join(room, "counter.so")
        subprocess.run(["rustc", "-O", "--edition", "2021", "-o", peer, PEER], check=True)
        subprocess.run(["cc", "-O2", "-fno-builtin", "-shared", "-fPIC", "-o", counter, "-xc", "-"], input=COUNTER, text=True, check=True)
        ours, theirs = a_task(program, counter, room), a_task(peer, counter, room)
        print(f"{'of a task, one worker':34} {'mtapi':>9} {'the peer':>9} {'times':>6}")
        rows = [
            ("calls of memcpy and memmove", total(ours, ("copy", "move"), "calls"), total(theirs, ("copy", "move"), "calls")),
            ("bytes that they copy", total(ours, ("copy", "move"), "bytes"), total(theirs, ("copy", "move"), "bytes")),
            ("bytes that memset writes", total(ours, ("set",), "bytes"), total(theirs, ("set",), "bytes")),
            (f"page faults of {MANY} tasks", faults(program), faults(peer)),
        ]
        for name, mine, other in rows:
            print(f"{name:34} {mine:9.0f} {other:9.0f} {mine / other if other >= 1 else float('inf'):6.1f}")
    for workers in (1, 16):
        busy, clock = idle(program, workers)
        print(f"{workers} idle workers: {busy:.4f} s of the processors in {clock:.2f} s")
    print("the functions of mtapi that copy or set most, by bytes a task:")
    show_functions(ours)
    if "places" in words:
        print("the places that do, by bytes a task:")
        show_places(ours)


if __name__ == "__main__":
    main()
