#!/usr/bin/env python3
"""What one task costs a node, beside few waiting tasks and beside many; what an action costs beside waiting tasks; how
large an entry is.

One thread asks a node: start, pick, finish and look of one task together, while 10 other tasks wait and while 60,000
do, each node with room for 65,536. And action_create for one job, while 9,000 and 60,000 tasks of another job wait.
Prints processor time, the least of some runs each, without the time in which the node is made and filled. Then the
largest node: the time in which it is made, with the start of the process, and the memory that the process held at most.
An entry is that of a journal. Where the system allows it, the program runs before all other work of the machine
(`SCHED_RR`).

Builds the program below over a copy of the repository's crates, and begins with what checks kept on this machine. To
prove it takes some minutes; a word behind the script's name is the path of the program, where it was built before.
"""

import os
import shutil
import subprocess
import sys
import tempfile

import common

ROUNDS = 200_000  # tasks, as in the program
ACTIONS = 1_000  # actions, as in the program
TRIES = 7
LIBRARIES = "node_core history mtapi_machine mtapi_values action_fn"

PROGRAM = r"""
//! How many words stand behind the program's name says what is done.
#![tactic(auto)]

mod asked;

use crate::asked::Asked;
use action_fn::{Finished, act_add};
use mtapi_machine::{Entry, Op, Reply};
use mtapi_values::{Args, Kind, Mask, NodeAttr, TaskHandle};
use std::env;
use std::mem::size_of;
use std::process::ExitCode;

const ROUNDS: u32 = 200_000;

const ACTIONS: u32 = 1_000;

const ENTRY: usize = size_of::<Entry>();

const OP: usize = size_of::<Op>();

const REPLY: usize = size_of::<Reply>();

/// What a run does: so many tasks of the priority 1 wait, then so many are run at the priority 0, and so many actions of another job made.
#[derive(Clone, Copy, Drop)]
struct Work {
    waiting: u32,
    rounds: u32,
    actions: u32,
}

fn work_of(words: u64) -> Work {
    let (waiting, rounds, actions) = match words {
        1 => (10, 0, 0),
        2 => (10, ROUNDS, 0),
        3 => (60_000, 0, 0),
        4 => (60_000, ROUNDS, 0),
        5 => (9_000, 0, 0),
        6 => (9_000, 0, ACTIONS),
        7 => (60_000, 0, ACTIONS),
        _ => (0, 0, 0),
    };
    Work {
        waiting,
        rounds,
        actions,
    }
}

fn action(job: u32) -> Op {
    Op::ActionCreate {
        job,
        kind: Kind::Add,
        cores: Mask(u64::MAX),
    }
}

fn start(node: &mut Asked, priority: u32) -> Reply {
    let args = Args::new();
    let cores = Mask(u64::MAX);
    node.ask(1, Op::TaskStart { job: 1, args, priority, cores, detached: false, group: None })
}

/// One task from its start to the look that gives its end. Is it the one that was started?
fn one_task(node: &mut Asked) -> bool {
    let Reply::Handle(handle) = start(node, 0) else {
        return false;
    };
    let Reply::Picked { task, args, .. } = node.ask(0, Op::Pick) else {
        return false;
    };
    let end = act_add(&args);
    let done = Finished::new(Kind::Add, args, end);
    if !matches!(node.ask(0, Op::Finish { task, done }), Reply::Ok) {
        return false;
    }
    let look = Op::TaskLook { task: TaskHandle(handle), last: false };
    task.0 == handle && matches!(node.ask(1, look), Reply::Ended(_))
}

/// Are the replies those that were meant?
fn done(node: &mut Asked, work: Work) -> bool {
    let _ = node.ask(1, Op::Initialize);
    let _ = node.ask(1, action(1));
    let mut right = true;
    for _ in 0..work.waiting {
        right = right && matches!(start(node, 1), Reply::Handle(_));
    }
    for _ in 0..work.rounds {
        right = right && one_task(node);
    }
    for _ in 0..work.actions {
        right = right && matches!(node.ask(1, action(2)), Reply::Handle(_));
    }
    right
}

/// Room for the tasks and the actions; or every setting at its greatest.
fn settings(largest: bool) -> NodeAttr {
    let mut attr = NodeAttr::new();
    let _ = attr.set(2, 65_536);
    let _ = attr.set(3, 1_024);
    if largest {
        let _ = attr.set(1, 16);
        let _ = attr.set(4, 1_024);
        let _ = attr.set(5, 256);
        let _ = attr.set(6, 256);
        let _ = attr.set(7, 8);
    }
    attr
}

fn main(rt: HostRuntime) -> ExitCode {
    let words = words(&rt);
    if words == 0 {
        let _ = println!(rt; "{ENTRY} {OP} {REPLY}");
        return ExitCode::SUCCESS;
    }
    let Ok(mut node) = Asked::new(rt.alloc(), settings(words == 8)) else {
        return ExitCode::from(2);
    };
    if words == 8 {
        return ExitCode::SUCCESS;
    }
    if done(&mut node, work_of(words)) {
        ExitCode::SUCCESS
    } else {
        ExitCode::FAILURE
    }
}
""" + common.WORDS

ASKED = r"""
//! A node, and how often it was asked.

use history::Object;
use mtapi_machine::{Op, Reply};
use mtapi_values::NodeAttr;
use node_core::Node;
use std::alloc::{AllocError, Global};
use std::marker::Model;

const MOST: u64 = 1_000_000_000;

#[derive(Drop)]
pub struct Asked {
    node: Node,
    calls: u64,
}

impl Model for Asked {
    ghost use Rattle.std.specs.Prelude.{◌≤◌, ℕ, List, length};
    ghost use Rattle.mtapi_machine.specs.Legal.{NodeEntry};
    ghost use Rattle.node_core.specs.Stands.{Stands};

    ghost Value = { ℕ };

    ghost view = { λ c. c.calls };

    ghost invariant = { λ c. (L : List NodeEntry) × Stands c.node L × (length L ≤ c.calls) };
}

impl Asked {
    /// A new node of main alone.
    pub fn new(alloc: Global, attr: NodeAttr) -> Result<Asked, AllocError> {
        let node = Node::init(alloc, attr, 1)?;
        Ok(Asked { node, calls: 0 })
    }

    /// One op by this seat. Idle where there is no such seat, or after too many calls.
    pub fn ask(&mut self, who: u32, op: Op) -> Reply {
        if who >= self.node.seats() || self.calls >= MOST {
            return Reply::Idle;
        }
        let reply = self.node.step(who, op);
        self.calls += 1;
        reply
    }
}
"""

# The proof of `ask`, and what it cites.
ANSWERS = r"""
use Rattle.node_tasks.proofs.asked.Asked.ask.Goals as goal
use Rattle.node_tasks.proofs.Asking.{goes_on}

pub invariant_of-self : goal.invariant_of-self
invariant_of-self c = goes_on c.self.inside.node c.step-reply.new.self c.args.who c.args.op c.step-reply.result c.self.inside.calls c.step-reply.ensures.stands c.self.invariant
"""

ASKING = r"""
-- One more call of a node that was asked so often at most.
use Rattle.std.proofs.Common.{ℕ, ◌+◌, ◌≤◌, List, [], ◌∷◌, ◌++◌, length, length-append, arith}
use Rattle.history.specs.Histories.{entry}
use Rattle.mtapi_machine.specs.declared.ops.Op.{Op}
use Rattle.mtapi_machine.specs.declared.replies.Reply.{Reply}
use Rattle.mtapi_machine.specs.Legal.{NodeEntry}
use Rattle.node_core.specs.declared.node.Node.{Node}
use Rattle.node_core.specs.Stands.{Stands}

-- the node stands for some list of at most so many entries
pub goes_on : (n m : Node) (who : ℕ) (op : Op) (r : Reply) (k : ℕ) → ((L : List NodeEntry) → Stands n L → Stands m (L ++ entry who op r ∷ [])) → ((L : List NodeEntry) × Stands n L × (length L ≤ k)) → (L : List NodeEntry) × Stands m L × (length L ≤ k + 1)
goes_on n m who op r k f s = (s.0 ++ entry who op r ∷ [], f s.0 s.1, bound)
  where
    bound : length (s.0 ++ entry who op r ∷ []) ≤ k + 1
    bound = omega (arith, length-append s.0 (entry who op r ∷ []), s.2)
"""


FILES = {
    "main.rt": PROGRAM,
    "asked.rt": ASKED,
    "proofs/Lib.antt": "pub mod Asking\n",
    "proofs/Asking.antt": ASKING,
    "proofs/asked/Asked/ask/Answers.antt": ANSWERS,
}


def run(program, words):
    """The processor time of a run, and the kilobytes that it held at most."""
    return common.cost([program] + ["x"] * words)


def seconds(program, words):
    """The least processor time of some runs."""
    return min(run(program, words)[0] for _ in range(TRIES))


def main():
    """Measures the program of the first word, where there is one: it was built before."""
    top = tempfile.mkdtemp(prefix="node_tasks-")
    try:
        named = sys.argv[1] if len(sys.argv) > 1 else None
        program = named or common.built(top, "node_tasks", LIBRARIES, FILES)
        entry, op, reply = subprocess.run([program], capture_output=True, text=True, check=True).stdout.split()
        first = common.go_first()
        print(f"load {os.getloadavg()[0]:.1f}, {'before' if first else 'beside'} all other work")
        print(f"an entry: {entry} bytes, {op} of them for the op and {reply} for the reply; 8 more for the number beside it")
        for filled, asked, what in [(1, 2, "10"), (3, 4, "60,000")]:
            each = (seconds(program, asked) - seconds(program, filled)) / ROUNDS
            print(f"{what} tasks wait: {each * 1e9:.0f} ns for a start, a pick, a finish and a look")
        for filled, asked, what in [(5, 6, "9,000"), (3, 7, "60,000")]:
            each = (seconds(program, asked) - seconds(program, filled)) / ACTIONS
            print(f"{what} tasks of another job wait: {each * 1e6:.1f} microseconds for an action_create")
        print(f"the largest node: made in {seconds(program, 8) * 1e3:.0f} ms; {run(program, 8)[1]} kB, beside {run(program, 0)[1]} kB of a process without a node")
    finally:
        shutil.rmtree(top)


if __name__ == "__main__":
    main()
