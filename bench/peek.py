#!/usr/bin/env python3
"""What a peek at a board costs beside a look at a task by a turn, with 1, 2 and 4 threads at a time.

Each thread asks for a task of its own, which hasn't ended: by peeks, or by turns of the one cell. Prints for each number
of threads the nanoseconds of one of them on the clock and of the processors, the least of some runs each, without the
time in which the node and the board are made. Where the system allows it, the program runs before all other work of the
machine (`SCHED_RR`).

Builds the program below over a copy of the repository's crates, and begins with what checks kept on this machine. To
prove it takes some minutes; a word behind the script's name is the path of the program, where it was built before.
"""

import os
import shutil
import sys
import tempfile
import time

import common

PEEKS = 20_000_000  # of a thread, as in the program
LOOKS = 200_000  # of a thread, as in the program
TRIES = 7
LIBRARIES = "peek_board turn_cell node_core action_fn mtapi_values"

PROGRAM = r"""
//! How many words stand behind the program's name says what is done: 1 to 3 peeks of 1, 2 or 4 threads, 4 to 6 looks by turns.
#![tactic(auto)]

mod askers;

use crate::askers::{Asker, askers};
use mtapi_values::{Kind, Mask, NodeAttr};
use node_core::{Journaled, Node, Op};
use peek_board::Board;
use std::alloc::{AllocError, Global};
use std::env;
use std::process::ExitCode;
use std::sync::Wait;
use std::thread;
use std::thread::Threads;
use turn_cell::TurnCell;

const PEEKS: u32 = 20_000_000;

const LOOKS: u32 = 200_000;

const SLOTS: u32 = 1_024;

/// Four threads' work by so many threads. Is each answer "not yet"?
fn done<R: Threads + Wait + Sync>(rt: &R, alloc: Global, words: u64) -> Result<bool, AllocError> {
    let mut attr = NodeAttr::new();
    let _ = attr.set(1, 1);
    let node = Node::init(alloc, attr, 4)?;
    let (cell, seats) = TurnCell::new(alloc, Journaled::without(node))?;
    let (board, marks) = Board::new(alloc, SLOTS, 4)?;
    let mut all = askers(alloc, &cell, seats, &board, marks)?;
    if let Some(main) = all.last_mut() {
        main.ask(rt, Op::Initialize);
        main.ask(rt, Op::ActionCreate { job: 1, kind: Kind::Add, cores: Mask::init(true) });
        main.ask(rt, Op::Release);
    }
    for asker in all.iter_mut() {
        asker.start(rt);
    }
    let threads = match words {
        1 | 4 => 1,
        2 | 5 => 2,
        _ => 4,
    };
    all.truncate(threads);
    thread::for_each_mut(rt, all.as_mut_slice(), threads, &|_, asker: &mut Asker| match words {
        0 => {}
        1 | 2 | 3 => asker.peek(PEEKS),
        _ => asker.look(rt, LOOKS),
    });
    Ok(all.iter().all(|asker| asker.is_right()))
}

fn main(rt: HostRuntime) -> ExitCode {
    match done(&rt, rt.alloc(), words(&rt)) {
        Ok(true) => ExitCode::SUCCESS,
        _ => ExitCode::FAILURE,
    }
}
""" + common.WORDS

ASKERS = r"""
//! Who asks for a task that hasn't ended.

ghost use Rattle.std.specs.Prelude.{◌≡◌, replicate};
ghost use Rattle.turn_cell.specs.Seats.{fresh_seats};
ghost use Rattle.peek_board.specs.Seats.{fresh_seat};

use mtapi_values::{Args, Mask, TaskHandle};
use node_core::{Journaled, Op, Reply};
use peek_board::{Board, BoardSeat, Marks, Peek, Peeker};
use std::alloc::{AllocError, Global};
use std::sync::Wait;
use turn_cell::{TurnCell, TurnSeat};

/// A seat of the cell and of the board, and a task.
#[derive(Drop)]
pub struct Asker<'a> {
    peeker: Peeker<'a>,
    task: TaskHandle,
    right: bool,
}

impl<'a> Asker<'a> {
    fn new(peeker: Peeker<'a>) -> Asker<'a> {
        Asker { peeker, task: TaskHandle(0), right: true }
    }

    /// One call.
    pub fn ask<R: Wait>(&mut self, rt: &R, op: Op) {
        let _ = self.peeker.call(rt, op);
    }

    /// Starts its task.
    pub fn start<R: Wait>(&mut self, rt: &R) {
        let start = Op::TaskStart { job: 1, args: Args::new(), priority: 0, cores: Mask::init(true), detached: false, group: None };
        if let Ok(Reply::Handle(handle)) = self.peeker.call(rt, start) {
            self.task = TaskHandle(handle);
        }
    }

    /// So many peeks.
    pub fn peek(&mut self, count: u32) {
        // Kept apart, so that the threads write to no line of the cache in common.
        let mut right = self.right;
        for _ in 0..count {
            right = right && matches!(self.peeker.peek(self.task), Peek::NotYet);
        }
        self.right = right;
    }

    /// So many turns.
    pub fn look<R: Wait>(&mut self, rt: &R, count: u32) {
        for _ in 0..count {
            let reply = self.peeker.call(rt, Op::TaskLook { task: self.task, last: false });
            self.right = self.right && matches!(reply, Ok(Reply::Pending));
        }
    }

    /// Was each answer "not yet"?
    pub fn is_right(&self) -> bool {
        self.right
    }
}

/// One for each caller's seat.
pub fn askers<'a>(
    alloc: Global,
    cell: &'a TurnCell<Journaled>,
    seats: Vec<TurnSeat<Journaled>>,
    board: &'a Board,
    marks: Vec<BoardSeat>,
) -> Result<Vec<Asker<'a>>, AllocError>
    requires seats { seats.items ≡ fresh_seats cell.now.terms cell.now.id 0 5 }
    requires marks { marks.items ≡ replicate 4 (fresh_seat board.now.id) }
{
    let mut seats = seats;
    let mut marks = marks;
    let Some(a) = seats.pop() else {
        unreachable!()
    };
    let Some(b) = seats.pop() else {
        unreachable!()
    };
    let Some(c) = seats.pop() else {
        unreachable!()
    };
    let Some(d) = seats.pop() else {
        unreachable!()
    };
    let Some(e) = marks.pop() else {
        unreachable!()
    };
    let Some(f) = marks.pop() else {
        unreachable!()
    };
    let Some(g) = marks.pop() else {
        unreachable!()
    };
    let Some(h) = marks.pop() else {
        unreachable!()
    };
    let mut all = Vec::with_capacity(alloc, 4)?;
    all.push_reserved(Asker::new(Peeker::new(board, cell, Marks::new(a, e))));
    all.push_reserved(Asker::new(Peeker::new(board, cell, Marks::new(b, f))));
    all.push_reserved(Asker::new(Peeker::new(board, cell, Marks::new(c, g))));
    all.push_reserved(Asker::new(Peeker::new(board, cell, Marks::new(d, h))));
    Ok(all)
}
"""

FILES = {"main.rt": PROGRAM, "askers.rt": ASKERS}


def seconds(program, words):
    """The least time of some runs, in seconds: on the clock, and of the processors."""
    clock, processors = [], []
    for _ in range(TRIES):
        start = time.perf_counter()
        processors.append(common.cost([program] + ["x"] * words)[0])
        clock.append(time.perf_counter() - start)
    return min(clock), min(processors)


def main():
    """Measures the program of the first word, where there is one: it was built before."""
    top = tempfile.mkdtemp(prefix="peek-")
    try:
        named = sys.argv[1] if len(sys.argv) > 1 else None
        program = named or common.built(top, "peek_bench", LIBRARIES, FILES)
        first = common.go_first()
        print(f"load {os.getloadavg()[0]:.1f}, {'before' if first else 'beside'} all other work")
        nothing = seconds(program, 0)
        for words, threads, count, what in [
            (1, 1, PEEKS, "a peek"),
            (2, 2, PEEKS, "a peek"),
            (3, 4, PEEKS, "a peek"),
            (4, 1, LOOKS, "a look by a turn"),
            (5, 2, LOOKS, "a look by a turn"),
            (6, 4, LOOKS, "a look by a turn"),
        ]:
            clock, processors = [now - then for now, then in zip(seconds(program, words), nothing)]
            print(
                f"{threads} threads: {clock * 1e9 / count:.1f} ns on the clock and {processors * 1e9 / count / threads:.1f} ns"
                f" of a processor for {what} of each"
            )
    finally:
        shutil.rmtree(top)


if __name__ == "__main__":
    main()
