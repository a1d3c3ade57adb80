#!/usr/bin/env python3
"""What a node takes of tasks of 10 µs, 100 µs and 1 ms, and what they gain from workers: one table, with which docs/performance.md
begins: `bench/grains.py page` measures and puts it there.

So many items of equal work, a loop of sums that nothing shortens, are handed to `map_pieces` with 1, 2 and 4 workers, to
the kit's `rayon`, which has a thread for each processor, and to threads of std in plain Rust (`bench/peer/grains.rs`);
beside them one thread makes them one behind the other. *Overhead* is what an item takes longer on one worker than on one
thread. Each figure is the least of some tries, in turns.

Needs `rustc`, and the folder `crates` as checks have passed it: the program below is proved and built over a copy of it by
`rt run`, which begins with what checks kept on this machine. A path behind the script's name is that of the program, where
it was built before, and it may stand behind `page` too; with `keep PATH` the built one is copied there first. The figures are fair only if the processors have
nothing else to do, so the load is printed first, with the processor and the commit.
"""

import os
import re
import shutil
import subprocess
import sys
import tempfile
import textwrap
import time

import common

PAGE = os.path.join(common.TOP, "docs", "performance.md")
SECTION = "## What your tasks gain"
PEER = os.path.join(common.TOP, "bench", "peer", "grains.rs")
TRIES = int(os.environ.get("TRIES", "7"))
NAME = "grains"
LIBRARIES = "typed_pieces mtapi_values rayon"
GRAINS = ((10, 4000), (100, 800), (1000, 160))  # microseconds of an item, and how many items

MAIN = r"""
//! Makes items of equal work. The words are by whom, how many workers, how many items, the rounds of each, and tries.
#![tactic(auto)]

use mtapi_values::NodeAttr;
use rayon::prelude::*;
use std::alloc::Global;
use std::sync::Wait;
use std::thread::Threads;
use std::time::Clock;
use std::{env, io};
use typed_pieces::{Unfinished, map_pieces};

fn clock<K: Clock>(rt: &K) -> u64 {
    match rt.monotonic() {
        Ok(time) => u64::try_from(time.as_nanos()).unwrap_or(u64::MAX),
        Err(_) => 0,
    }
}

// The work of an item: so many sums, each of which needs the one before.
fn work(item: u64, rounds: u64) -> u64 {
    let mut sum = item;
    for round in 0..rounds {
        sum = sum.wrapping_mul(6_364_136_223_846_793_005).wrapping_add(round);
    }
    sum
}

fn by_node<R: Threads + Wait + Sync>(
    rt: &R,
    alloc: Global,
    workers: u64,
    items: Vec<u64>,
    rounds: u64,
) -> Result<Vec<u64>, Unfinished> {
    let mut settings = NodeAttr::new();
    settings.set(NodeAttr::WORKERS, workers)?;
    settings.set(NodeAttr::TASKS, 4_096)?;
    Ok(map_pieces(rt, alloc, settings, items, &|item: u64| work(item, rounds))?.results)
}

fn by_rayon<R: Threads + Wait + Sync>(
    rt: &R,
    alloc: Global,
    items: &[u64],
    rounds: u64,
) -> Result<Vec<u64>, Unfinished> {
    let made = items.par_iter().with_min_len(1).map(|item: &u64| work(*item, rounds));
    Ok(made.collect::<Vec<_>>(rt, alloc)?)
}

fn made_by<R: Threads + Wait + Sync>(
    rt: &R,
    alloc: Global,
    whom: &str,
    workers: u64,
    items: &[u64],
    rounds: u64,
) -> Result<Vec<u64>, Unfinished> {
    match whom {
        "node" => by_node(rt, alloc, workers, items.to_vec(alloc)?, rounds),
        "rayon" => by_rayon(rt, alloc, items, rounds),
        _ => Ok(items.iter().map(|item| work(*item, rounds)).collect(alloc)?),
    }
}

fn main(rt: HostRuntime) -> io::Result<()> {
    let alloc = rt.alloc();
    let mut words = env::args(&rt)?.skip(1);
    let Some(whom) = words.next() else {
        return Ok(());
    };
    let workers = words.next().and_then(|word| word.parse().ok()).unwrap_or(1u64);
    let count = words.next().and_then(|word| word.parse().ok()).unwrap_or(1u64);
    let rounds = words.next().and_then(|word| word.parse().ok()).unwrap_or(1u64);
    let tries = words.next().and_then(|word| word.parse().ok()).unwrap_or(1u64);
    let items: Vec<u64> = (0..count).collect(alloc)?;
    let (mut least, mut figure) = (u64::MAX, 0u64);
    for _ in 0..tries {
        let began = clock(&rt);
        let made = made_by(&rt, alloc, &whom, workers, &items, rounds);
        least = least.min(clock(&rt).saturating_sub(began));
        if let Ok(made) = made {
            figure = made.iter().fold(0u64, |sum, each| sum.wrapping_add(*each));
        }
    }
    println!(rt; "{least} {figure}")
}
"""


def told_by(command):
    """The nanoseconds of the fastest try, and the figure that all have in common."""
    done = subprocess.run(list(map(str, command)), stdin=subprocess.DEVNULL, capture_output=True, text=True)
    words = done.stdout.split()
    if done.returncode or len(words) != 2:
        sys.exit(f"status {done.returncode} of {command}: {done.stdout[:500]}{done.stderr[-500:]}")
    return int(words[0]), words[1]


def least_of(commands):
    """The fastest try of each of these commands, in turns, all of which have one figure."""
    told = {name: [] for name in commands}
    for _ in range(TRIES):
        for name, command in commands.items():
            told[name].append(told_by(command))
    if len({figure for all_told in told.values() for _, figure in all_told}) != 1:
        sys.exit(f"the programs have different figures: {told}")
    return {name: min(span for span, _ in all_told) for name, all_told in told.items()}


def measured(program, room):
    """The whole table."""
    peer = os.path.join(room, "peer")
    subprocess.run(["rustc", "-O", "--edition", "2021", "-o", peer, PEER], check=True)
    first = common.go_first()
    processor = next((line.split(":")[1].strip() for line in open("/proc/cpuinfo") if line.startswith("model name")), "?")
    commit = subprocess.run(["git", "-C", common.TOP, "rev-parse", "--short", "HEAD"], capture_output=True, text=True).stdout.strip()
    load, rows = os.getloadavg()[0], []
    print(f"load {load:.1f}, {'before' if first else 'beside'} all other work; {os.cpu_count()} x {processor}; {time.strftime('%F')}; {commit}")
    rounds_of_1_ms = 1_000_000 * 1_000_000 // max(told_by([program, "one", 1, 1, 1_000_000, TRIES])[0], 1)
    print(f"{'an item of':>10} {'items':>6} {'overhead':>10} {'node x2':>8} {'x4':>6} {'threads x2':>11} {'x4':>6} {'rayon':>6}")
    for micros, items in GRAINS:
        rest = [items, rounds_of_1_ms * micros // 1000, 3]
        names = {("node", it): [program, "node", it, *rest] for it in (1, 2, 4)} | {("threads", it): [peer, it, *rest] for it in (2, 4)}
        least = least_of({**names, "one": [program, "one", 1, *rest], "rayon": [program, "rayon", 1, *rest]})
        one = least["one"]
        gains = [one / least[it] for it in (("node", 2), ("node", 4), ("threads", 2), ("threads", 4), "rayon")]
        print(f"{micros:7} µs {items:6} {(least['node', 1] - one) / items / 1000:7.2f} µs {gains[0]:8.2f} {gains[1]:6.2f} {gains[2]:11.2f} {gains[3]:6.2f} {gains[4]:6.2f}")
        each = (least["node", 1] - one) / items / 1000
        span = f"{micros} µs" if micros < 1000 else f"{micros // 1000} ms"
        rows.append(f"| {span} | {each:.1f} µs | " + " | ".join(f"{gain:.2f}" for gain in gains) + " |")
    told = f"{os.cpu_count()} processors of the kind {processor}, {time.strftime('%F')}, at {commit}, with a load of {load:.1f}"
    return told, rows


def section(told, rows):
    """The part of the page, in lines of at most 120 letters."""
    text = (
        "`map_pieces` over equal items of pure computing, and the same by threads of std in plain Rust and by the kit's rayon: *overhead* is what "
        "an item takes longer on one worker than in a loop on one thread, and the other columns are how many times as fast as that loop it is. "
        f"{told} (`bench/grains.py`). What stands below is the record of how the costs came about."
    )
    head = ["| An item of | Overhead | 2 workers | 4 workers | 2 threads | 4 threads | rayon |", "|---|---|---|---|---|---|---|"]
    return "\n".join([SECTION, "", *head, *rows, "", textwrap.fill(text, 120, break_long_words=False, break_on_hyphens=False), "", ""])


def put_on_page(text):
    """Puts the section before all others, in place of the one that stands there."""
    with open(PAGE) as file:
        page = file.read()
    page = re.sub(re.escape(SECTION) + r"\n.*?(?=^## )", "", page, flags=re.M | re.S)
    place = page.index("## ")
    with open(PAGE, "w") as file:
        file.write(page[:place] + text + page[place:])


def main():
    words = sys.argv[1:]
    on_page = words[:1] == ["page"]
    words = words[1:] if on_page else words
    with tempfile.TemporaryDirectory() as room:
        if not words or words[0] == "keep":
            program = common.built(os.path.join(room, "crates_of_it"), NAME, LIBRARIES, {"main.rt": MAIN})
            if words[1:]:
                shutil.copy2(program, words[1])
        else:
            program = os.path.abspath(words[0])
        told, rows = measured(program, room)
    if on_page:
        put_on_page(section(told, rows))


if __name__ == "__main__":
    main()
