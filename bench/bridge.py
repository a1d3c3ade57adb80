#!/usr/bin/env python3
"""What a task costs whose action runs on a second node, over a bridge, beside one whose action runs on a worker of its own node.

One workload of the command: tasks that add three numbers, on two workers. Either the workers run the actions, or each hands
them over a bridge to a second node with two workers. Prints for both the least of many runs, a task: on the clock, and of the
processors; and how many times as long the bridge takes. Where the system allows it, the program runs before all other work
of the machine (`SCHED_RR`).

Builds the program below over a copy of the repository's crates, with modules of `command_tests`, and begins with what
checks kept on this machine. To prove it takes some minutes; a word behind the script's name is the path of the program, where
it was built before.
"""

import os
import shutil
import sys
import tempfile
import time

import common

TASKS = 2_000  # as in the program
ROUNDS = 40
LIBRARIES = "mtapi_top node_bridge turn_cell turn_looks action_fn mtapi_values workload_file"
MODULES = ("actions", "runs", "seats")

PROGRAM = r"""
//! How many words stand behind the program's name says what is run: 1 one task at home, 2 many; 3 one task over a bridge, 4 many.
#![tactic(auto)]

mod actions;
mod runs;
mod seats;

use crate::runs::{Counts, run_beside};
use crate::seats::two_bridges;
use node_bridge::Served;
use std::alloc::{AllocError, Global};
use std::env;
use std::process::ExitCode;
use std::sync::Wait;
use std::sync::atomic::{AtomicU64, Ordering};
use std::thread::Threads;
use turn_cell::TurnCell;

const TASKS: u32 = 2_000;

fn text(alloc: Global, tasks: u32) -> Result<Vec<u8>, AllocError> {
    let head = "node workers=2 max_tasks=2000\naction a job=1 kind=add\ngroup g\n";
    let mut text = String::from_str(alloc, head)?;
    for n in 0..tasks {
        text.push_str(&format!(in alloc; "start t{n} job=1 args=1,2,3 group=g\n")?)?;
    }
    text.push_str("wait_all g timeout=inf\n")?;
    Ok(text.into_bytes())
}

/// Did the run end well, and was every action asked where it was meant?
fn ran<R: Threads + Wait + Sync>(rt: &R, alloc: Global, bridged: bool, tasks: u32) -> Result<bool, AllocError> {
    let counts = Counts {
        far: AtomicU64::new(0),
        near: AtomicU64::new(0),
    };
    let served = Served::new(alloc, 2, 3, 2)?;
    let (cell, seats) = TurnCell::new(alloc, served)?;
    let mut holders = two_bridges(alloc, &cell, seats, &counts.near)?;
    if !bridged {
        holders.bridges = Vec::new(alloc);
    }
    let (said, stopped) = run_beside(rt, alloc, &cell, holders, &counts, text(alloc, tasks)?, 0);
    let far = counts.far.load(Ordering::SeqCst);
    let near = counts.near.load(Ordering::SeqCst);
    let asked = if bridged { far } else { near };
    Ok(stopped && said?.status == 0 && asked == u64::from(tasks))
}

fn main(rt: HostRuntime) -> ExitCode {
    let right = match words(&rt) {
        1 => ran(&rt, rt.alloc(), false, 1),
        2 => ran(&rt, rt.alloc(), false, TASKS),
        3 => ran(&rt, rt.alloc(), true, 1),
        4 => ran(&rt, rt.alloc(), true, TASKS),
        _ => Ok(true),
    };
    match right {
        Ok(true) => ExitCode::SUCCESS,
        _ => ExitCode::FAILURE,
    }
}
""" + common.WORDS


def files():
    """The program's files."""
    texts = {"main.rt": PROGRAM}
    for module in MODULES:
        with open(os.path.join(common.TOP, "crates", "command_tests", "src", "bridges", f"{module}.rt")) as file:
            texts[f"{module}.rt"] = file.read().replace("crate::bridges::", "crate::")
    return texts


def least(program, words, old):
    """The least of these seconds and those of one more run: on the clock, and of the processors."""
    start = time.perf_counter()
    processors = common.cost([program] + ["x"] * words)[0]
    return min(old[0], time.perf_counter() - start), min(old[1], processors)


def main():
    """Measures the program of the first word, where there is one: it was built before."""
    top = tempfile.mkdtemp(prefix="bridge-")
    try:
        program = sys.argv[1] if len(sys.argv) > 1 else common.built(top, "bridge", LIBRARIES, files())
        first = common.go_first()
        print(f"load {os.getloadavg()[0]:.1f}, {'before' if first else 'beside'} all other work")
        times = {words: (float("inf"), float("inf")) for words in (1, 2, 3, 4)}
        for _ in range(ROUNDS):
            for words in times:
                times[words] = least(program, words, times[words])
        each = {}
        for one, many, what in ((1, 2, "at home"), (3, 4, "over a bridge")):
            each[many] = [(m - o) / (TASKS - 1) for o, m in zip(times[one], times[many])]
            print(f"{what}: {each[many][0] * 1e9:.0f} ns a task on the clock, {each[many][1] * 1e9:.0f} ns of the processors")
        print(f"over a bridge: {each[4][0] / each[2][0]:.1f} times as long, {each[4][1] / each[2][1]:.1f} times the processor time")
    finally:
        shutil.rmtree(top)


if __name__ == "__main__":
    main()
