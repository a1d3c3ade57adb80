#!/usr/bin/env python3
"""What memory a node takes, and when. Proves nothing: it tries a small program over `node_core`, in a copy of the
repository.

1. A program makes a node and then takes memory once itself; another one asks the node every op, thousands of times,
   in between. The number of the allocation that has to fail for the last one to fail is the same in both. So no call
   after `Node::init` takes memory.
2. The largest node: the seconds in which it is made, and the kilobytes that the process held at most. The program is
   built with run-time checks, which take memory and time of their own: both are upper bounds.

Fails where the numbers of 1 differ. About five minutes.
"""

import os
import re
import shutil
import subprocess
import sys
import tempfile

import common

EARLY = (2, 6)  # no memory for the program's words, or for the node

PROGRAM = r"""
//! Makes a node, asks it every op where ASKS says so, and takes memory once. The status is 6 where there is none for the node, and 5
//! where there is none at the end.
#![tactic(auto)]

use action_fn::{Finished, act_add};
use mtapi_machine::{Op, Reply};
use mtapi_values::*;
use node_core::Node;
use std::env;
use std::fs;
use std::process::ExitCode;
use std::time::Instant;

const ASKS: bool = @ASKS@;
const LARGEST: bool = @LARGEST@;

fn ask(node: &mut Node, who: u32, op: Op) -> Reply {
    node.step(who, op)
}

fn made(reply: Reply) -> u64 {
    match reply {
        Reply::Handle(handle) => handle,
        _ => 0,
    }
}

fn start(node: &mut Node, detached: bool, group: Option<GroupHandle>) -> TaskHandle {
    let args = Args::new();
    let cores = Mask(u64::MAX);
    TaskHandle(made(ask(node, 1, Op::TaskStart { job: 1, args, priority: 0, cores, detached, group })))
}

fn enqueue(node: &mut Node, queue: QueueHandle) -> TaskHandle {
    let args = Args::new();
    let cores = Mask(u64::MAX);
    TaskHandle(made(ask(node, 1, Op::TaskEnqueue { queue, args, cores, detached: false, group: None })))
}

fn run_next(node: &mut Node) {
    if let Reply::Picked { task, args, .. } = ask(node, 0, Op::Pick) {
        let end = act_add(&args);
        let _ = ask(node, 0, Op::Finish { task, done: Finished::new(Kind::Add, args, end) });
    }
}

fn tasks(node: &mut Node) {
    let cores = Mask(u64::MAX);
    let action = ActionHandle(made(ask(node, 1, Op::ActionCreate { job: 1, kind: Kind::Add, cores })));
    let watch = ActionHandle(made(ask(node, 1, Op::ActionCreate { job: 2, kind: Kind::Watch, cores })));
    let _ = ask(node, 1, Op::JobGet { job: 1 });
    for _ in 0..3000 {
        let group = GroupHandle(made(ask(node, 1, Op::GroupCreate)));
        let queue = QueueHandle(made(ask(node, 1, Op::QueueCreate { id: 1, job: 1, priority: 0, limit: 9, ordered: true, retain: true })));
        let _ = ask(node, 1, Op::QueueGet { id: 1 });
        let first = start(node, false, None);
        let _ = start(node, true, None);
        let _ = start(node, false, Some(group));
        let _ = start(node, false, Some(group));
        let second = enqueue(node, queue);
        let _ = ask(node, 1, Op::QueueDisable { queue });
        let _ = ask(node, 1, Op::QueueEnable { queue });
        let _ = ask(node, 1, Op::AnyLook { group, last: false });
        for _ in 0..9 {
            run_next(node);
        }
        let _ = ask(node, 1, Op::AnyLook { group, last: true });
        let _ = ask(node, 1, Op::AllLook { group, last: true });
        let _ = ask(node, 1, Op::TaskLook { task: first, last: true });
        let _ = ask(node, 1, Op::TaskLook { task: second, last: false });
        let third = enqueue(node, queue);
        let fourth = enqueue(node, queue);
        let _ = ask(node, 1, Op::TaskCancel { task: third });
        let _ = ask(node, 1, Op::QueueDelete { queue });
        let _ = ask(node, 1, Op::TaskLook { task: third, last: false });
        let _ = ask(node, 1, Op::TaskLook { task: fourth, last: false });
        let _ = ask(node, 1, Op::GroupDelete { group });
    }
    let args = Args::new();
    let task = TaskHandle(made(ask(node, 1, Op::TaskStart { job: 2, args, priority: 0, cores, detached: false, group: None })));
    let _ = ask(node, 0, Op::Pick);
    let _ = ask(node, 0, Op::Asked { task });
    let _ = ask(node, 0, Op::WatchEnd { task });
    let _ = ask(node, 1, Op::ActionDisable { action });
    let _ = ask(node, 1, Op::ActionEnable { action });
    let _ = ask(node, 1, Op::ActionDelete { action });
    let _ = ask(node, 1, Op::ActionDelete { action: watch });
}

fn resources(node: &mut Node) {
    for _ in 0..3000 {
        let mutex = MutexHandle(made(ask(node, 1, Op::MutexCreate { id: 1, recursive: true })));
        let _ = ask(node, 1, Op::MutexGet { id: 1 });
        let _ = ask(node, 1, Op::MutexLook { mutex, last: true });
        let _ = ask(node, 1, Op::MutexUnlock { mutex, key: 1 });
        let _ = ask(node, 1, Op::MutexDelete { mutex });
        let sem = SemHandle(made(ask(node, 1, Op::SemCreate { id: 1, limit: 2 })));
        let _ = ask(node, 1, Op::SemGet { id: 1 });
        let _ = ask(node, 1, Op::SemLook { sem, last: true });
        let _ = ask(node, 1, Op::SemUnlock { sem });
        let _ = ask(node, 1, Op::SemDelete { sem });
        let rwl = RwlHandle(made(ask(node, 1, Op::RwlCreate { id: 1, limit: 2 })));
        let _ = ask(node, 1, Op::RwlGet { id: 1 });
        let _ = ask(node, 1, Op::RwlLook { rwl, writer: true, last: true });
        let _ = ask(node, 1, Op::RwlUnlock { rwl, writer: true });
        let _ = ask(node, 1, Op::RwlDelete { rwl });
        let shmem = ShmemHandle(made(ask(node, 1, Op::ShmemCreate { id: 1, cells: 4096 })));
        let _ = ask(node, 1, Op::ShmemGet { id: 1 });
        let _ = ask(node, 1, Op::ShmemAttach { shmem });
        let _ = ask(node, 1, Op::ShmemWrite { shmem, cell: 4095, value: 1 });
        let _ = ask(node, 1, Op::ShmemRead { shmem, cell: 4095 });
        let _ = ask(node, 1, Op::ShmemDetach { shmem });
        let _ = ask(node, 1, Op::ShmemDelete { shmem });
    }
}

fn all_ops(node: &mut Node) -> bool {
    let _ = ask(node, 1, Op::Initialize);
    let _ = ask(node, 1, Op::Release);
    let _ = ask(node, 1, Op::Enter);
    tasks(node);
    resources(node);
    let _ = ask(node, 1, Op::Close);
    let _ = ask(node, 0, Op::Pick);
    matches!(ask(node, 1, Op::Final), Reply::Ok)
}

fn attributes() -> NodeAttr {
    let mut attr = NodeAttr::new();
    if LARGEST {
        for (number, value) in [(1, 16), (2, 65536), (3, 1024), (4, 1024), (5, 256), (6, 256), (7, 8)] {
            let _ = attr.set(number, value);
        }
    }
    attr
}

fn main(rt: HostRuntime) -> ExitCode {
    // A program that reads its words isn't interpreted as well.
    if env::args(&rt).is_err() {
        return ExitCode::from(2);
    }
    let Ok(start) = Instant::now(&rt) else {
        return ExitCode::from(2);
    };
    let Ok(mut node) = Node::init(rt.alloc(), attributes(), if LARGEST { 9 } else { 1 }) else {
        return ExitCode::from(6);
    };
    let took = start.elapsed(&rt);
    if ASKS && !all_ops(&mut node) {
        return ExitCode::from(1);
    }
    let Ok(probe) = Box::new(rt.alloc(), 7u64) else {
        return ExitCode::from(5);
    };
    if let (true, Ok(took)) = (LARGEST, took) {
        let status = fs::read_to_string(&rt, "/proc/self/status");
        let _ = println!(rt; "nanoseconds {}", took.as_nanos());
        if let Ok(text) = status {
            let _ = println!(rt; "{text}");
        }
    }
    ExitCode::from(if *probe == 7 { 0 } else { 1 })
}
"""

LIBRARIES = "node_core mtapi_machine mtapi_values action_fn"


def tried(crate, asks, largest, *flags):
    """The status and the text of a run of the program, without proof."""
    text = PROGRAM.lstrip().replace("@ASKS@", asks).replace("@LARGEST@", largest)
    with open(os.path.join(crate, "src", "main.rt"), "w") as main:
        main.write(text)
    done = subprocess.run(["rt", "try", *flags], cwd=crate, capture_output=True, text=True)
    if "run=ended" not in done.stdout + done.stderr:
        sys.exit(done.stdout + done.stderr)
    return done.returncode, done.stdout


def last_allocation(crate, asks):
    """The number of the program's own allocation: the least that leaves memory for the node when it fails."""
    known = {}

    def status(number):
        if number not in known:
            known[number] = tried(crate, asks, "false", "--fail-alloc", str(number))[0]
        return known[number]

    low, high = 0, 32
    while status(high) in EARLY:
        low, high = high, 2 * high
    while high - low > 1:
        middle = (low + high) // 2
        if status(middle) in EARLY:
            low = middle
        else:
            high = middle
    return high, status(high)


def main():
    top = tempfile.mkdtemp(prefix="node_memory-")
    try:
        crate = common.with_crate(top, "node_memory", LIBRARIES, {})
        alone, status = last_allocation(crate, "false")
        print(f"a node alone: the program's own is number {alone}, status {status}")
        asked = tried(crate, "true", "false", "--fail-alloc", str(alone))[0]
        print(f"after every op of the node: number {alone}, status {asked}")
        unhindered = tried(crate, "true", "false")[0]
        print(f"every op with ample memory: status {unhindered}")
        largest = tried(crate, "false", "true")[1]
        seconds = int(re.search(r"nanoseconds (\d+)", largest)[1]) / 1e9
        kilobytes = int(re.search(r"VmHWM:\s+(\d+)", largest)[1])
        print(f"the largest node: {seconds:.3f} s, {kilobytes} kB with the memory of the run-time checks")
    finally:
        shutil.rmtree(top)
    sys.exit(0 if (status, asked, unhindered) == (5, 5, 0) else 1)


if __name__ == "__main__":
    main()
