#!/usr/bin/env python3
"""What it takes to wake a thread through the node, beside `park` and `unpark` of std in the same program.

1. A start and the wait for its end, of a piece that does nothing, while main and the workers have slept for 30 ms; beside
   an unpark of a thread and a park until it answers.
2. A further pair of a start and the wait for its end, on the clock and of the processors: by the slope between 500 and 4,000
   pairs; beside as many pairs of an unpark and a park.
3. How long after the last piece of a group has ended main is told so, while further pieces keep the workers at work; beside
   an unpark by a thread that goes on with its work.
4. 64 pieces of 1.8 ms, whole with node and threads; beside std's threads that take the pieces by an atomic counter.
5. The processor time of a second in which main looks a thousand times for a semaphore that nobody gives back, and the workers
   sleep; beside a thousand parks of 1 ms while as many threads are parked.

Prints for each row and number of workers the least (in the rows 1 and 3 of all, and in brackets the median) of some
tries, in which both sides take turns, and their ratio. The load is printed first; where the system allows it, the program
runs before the other work of the machine (`SCHED_RR`).

Builds the program below over a copy of the repository's crates, and begins with what checks kept on this machine; a word
behind the script's name is the path of the program, where it was built before. With the word `try` the program isn't
proved, and runs with the toolchain's checks at run time (`rt try`), which takes longer: the figures then only show that
the script works.
"""

import os
import shutil
import statistics
import subprocess
import sys
import tempfile

import common

LIBRARIES = "typed_pieces node_with_workers sched_workers workload_runners mtapi_values"
NAME = "wakes"
TRIES = 5
FEW, MANY = 500, 4_000  # pairs
SHORT = 300_000  # nanoseconds of a piece of the group that is waited for, and of those beside it
PIECE = 1_800_000  # nanoseconds of a piece

PROGRAM = r"""
//! Measures things: three words each, what it is, a number of workers or threads, and a count or nanoseconds of work. Prints a
//! line for each, with the three words and nanoseconds.
#![tactic(auto)]

mod clients;
mod clocks;
mod threads;
mod work;

use crate::clients::{all_pieces, in_pairs, when_asleep, when_told, while_idle};
use crate::clocks::clock;
use crate::threads::{parked, parked_pairs, parked_told, parks, threads_at_work};
use crate::work::spin;
use std::alloc::Global;
use std::env;
use std::io;
use std::sync::Wait;
use std::thread::Threads;
use std::time::{Clock, CpuClock};
use typed_pieces::Unfinished;

// So long a list of figures is at most.
pub const MOST: usize = 20;

// So many rounds of work are measured.
const MILLION: u64 = 1_000_000;

/// Figures, of which the first so many were measured.
#[derive(Clone, Copy, Drop)]
pub struct Figures {
    pub count: usize,
    pub all: [u64; MOST],
}

impl Figures {
    /// Two of them.
    pub fn two(clock: u64, processors: u64) -> Figures {
        let mut all = [0; MOST];
        all[0] = clock;
        all[1] = processors;
        Figures { count: 2, all }
    }
}

// What a word asks for, on a node or beside it.
fn measured<R: Threads + Wait + Sync + Clock + CpuClock>(
    rt: &R,
    alloc: Global,
    what: &str,
    number: u64,
    more: u64,
) -> Result<Figures, Unfinished> {
    match what {
        "asleep" => when_asleep(rt, alloc, number),
        "parked" => Ok(parked(rt)),
        "pairs" => in_pairs(rt, alloc, number, more),
        "parked_pairs" => Ok(parked_pairs(rt, more)),
        "told" => when_told(rt, alloc, number, more),
        "parked_told" => Ok(parked_told(rt, more)),
        "pieces" => all_pieces(rt, alloc, number, more),
        "threads" => Ok(threads_at_work(rt, number, more)),
        "idle" => while_idle(rt, alloc, number),
        _ => Ok(parks(rt, alloc, number)?),
    }
}

// How many rounds of work take so many nanoseconds.
fn rounds_of<K: Clock>(rt: &K, nanoseconds: u64) -> u64 {
    let mut least = u64::MAX;
    let mut sum = 0;
    for _ in 0..5 {
        let began = clock(rt);
        sum ^= spin(MILLION);
        least = least.min(clock(rt).saturating_sub(began));
    }
    // Of the sum nothing is known, so the work can't be left out.
    if sum == 1 { 1 } else { nanoseconds.saturating_mul(MILLION) / least.max(1) }
}

fn main(rt: HostRuntime) -> io::Result<()> {
    let alloc = rt.alloc();
    let mut words = env::args(&rt)?.skip(1);
    for _ in 0..100 {
        let Some(what) = words.next() else {
            return Ok(());
        };
        let number = words.next().and_then(|word| word.parse().ok()).unwrap_or(1);
        let given = words.next().and_then(|word| word.parse().ok()).unwrap_or(1);
        let is_time = matches!(what.as_str(), "told" | "parked_told" | "pieces" | "threads");
        let more = if is_time { rounds_of(&rt, given) } else { given };
        print!(rt; "{what} {number} {given}")?;
        match measured(&rt, alloc, &what, number, more) {
            Ok(figures) => {
                for figure in figures.all.iter().take(figures.count) {
                    print!(rt; " {figure}")?;
                }
                println!(rt; "")?;
            }
            Err(unfinished) => println!(rt; " {unfinished}")?,
        }
    }
    Ok(())
}
"""

CLOCKS = r"""
//! The clock and the time of the processors, in nanoseconds.

use std::time::{Clock, CpuClock, Duration};

fn nanoseconds(time: Duration) -> u64 {
    u64::try_from(time.as_nanos()).unwrap_or(u64::MAX)
}

/// Since some moment.
pub fn clock<K: Clock>(rt: &K) -> u64 {
    match rt.monotonic() {
        Ok(time) => nanoseconds(time),
        Err(_) => 0,
    }
}

/// Of all threads.
pub fn processors<K: CpuClock>(rt: &K) -> u64 {
    match rt.process_cpu_time() {
        Ok(time) => nanoseconds(time),
        Err(_) => 0,
    }
}
"""

WORK = r"""
//! Work that takes a time.

use crate::clocks::clock;
use std::sync::Wait;
use std::time::Clock;
use typed_pieces::{Piece, TaskContext};

/// So many rounds of some numbers.
pub fn spin(rounds: u64) -> u64 {
    let mut sum = rounds;
    for round in 0..rounds {
        sum = (sum ^ round).wrapping_mul(0x9E37_79B9_7F4A_7C15);
    }
    sum
}

/// Work of so many rounds. Its result is when it ended, and the number that came out.
#[derive(Drop)]
pub struct Work<'a, K: Clock> {
    pub rt: &'a K,
    pub rounds: u64,
}

impl<'a, K: Clock> Piece for Work<'a, K> {
    type Done = (u64, u64);

    ghost promise = { λ _ _. Unit {0} };

    fn go<R: Wait>(self, _rt: &R, _task: &TaskContext) -> (u64, u64) {
        let sum = spin(self.rounds);
        (clock(self.rt), sum)
    }
}
"""

CLIENTS = r"""
//! What is measured on a node.

use crate::clocks::{clock, processors};
use crate::work::Work;
use crate::{Figures, MOST};
use mtapi_values::{NodeAttr, TaskAttr, Timeout};
use sched_workers::Caller;
use std::alloc::{AllocError, Global};
use std::sync::Wait;
use std::thread;
use std::thread::Threads;
use std::time::{Clock, CpuClock, Duration};
use typed_pieces::{Handed, Piece, PieceClient, Pieces, Refusal, Unfinished, run_pieces, with_pieces};

// The job of the action.
const JOB: u32 = 1;

// The pieces of the group that is waited for, and those beside it, of each time.
const MEMBERS: u32 = 4;
const OTHERS: u32 = 8;

fn works<'a, K: Clock>(rt: &'a K, alloc: Global, count: u64, rounds: u64) -> Result<Vec<Work<'a, K>>, AllocError> {
    let mut all = Vec::new(alloc);
    for _ in 0..count {
        all.push(Work { rt, rounds })?;
    }
    Ok(all)
}

fn settings(workers: u64) -> Result<NodeAttr, Unfinished> {
    let mut settings = NodeAttr::new();
    settings.set(NodeAttr::WORKERS, workers)?;
    settings.set(NodeAttr::TASKS, 5_000)?;
    Ok(settings)
}

/// Sleeps, and then measures a start and the wait for its end, again and again.
#[derive(Drop)]
struct Asleep<'a, K: Clock + CpuClock>(&'a K);

impl<'a, K: Clock + CpuClock> PieceClient<Work<'a, K>> for Asleep<'a, K> {
    type Told = Result<Figures, Refusal>;

    ghost promise = { λ _ _ _ _ _. Unit {0} };

    #[tactic(auto, using(node_with_workers::proofs::Calls::further_calls))]
    fn call<R: Wait, L: Handed<Work<'a, K>>>(self, rt: &R, caller: &mut Caller, pieces: &Pieces<L, Work<'a, K>>) -> Result<Figures, Refusal> {
        pieces.action(rt, caller, JOB)?;
        let mut all = [0; MOST];
        'tries: for place in 0..MOST as u32 {
            thread::sleep(self.0, Duration::from_millis(30));
            let began = clock(self.0);
            let task = pieces.start(rt, caller, place, JOB, TaskAttr::new(), None)?;
            caller.task_wait(rt, task, Timeout::Infinite)?;
            all[place as usize] = clock(self.0).saturating_sub(began);
        }
        Ok(Figures { count: MOST, all })
    }
}

/// A start and the wait for its end, while all sleep.
pub fn when_asleep<R: Threads + Wait + Sync + Clock + CpuClock>(rt: &R, alloc: Global, workers: u64) -> Result<Figures, Unfinished> {
    let pieces = works(rt, alloc, MOST as u64, 0)?;
    Ok(with_pieces(rt, alloc, settings(workers)?, pieces, Asleep(rt))?.told?)
}

/// Measures so many starts, each followed by the wait for its end.
#[derive(Drop)]
struct Pairs<'a, K: Clock + CpuClock> {
    rt: &'a K,
    count: u32,
}

impl<'a, K: Clock + CpuClock> PieceClient<Work<'a, K>> for Pairs<'a, K> {
    type Told = Result<Figures, Refusal>;

    ghost promise = { λ _ _ _ _ _. Unit {0} };

    #[tactic(auto, using(node_with_workers::proofs::Calls::further_calls))]
    fn call<R: Wait, L: Handed<Work<'a, K>>>(self, rt: &R, caller: &mut Caller, pieces: &Pieces<L, Work<'a, K>>) -> Result<Figures, Refusal> {
        pieces.action(rt, caller, JOB)?;
        let began = clock(self.rt);
        let took = processors(self.rt);
        'pairs: for place in 0..self.count {
            let task = pieces.start(rt, caller, place, JOB, TaskAttr::new(), None)?;
            caller.task_wait(rt, task, Timeout::Infinite)?;
        }
        Ok(Figures::two(clock(self.rt).saturating_sub(began), processors(self.rt).saturating_sub(took)))
    }
}

/// So many starts, each followed by the wait for its end.
pub fn in_pairs<R: Threads + Wait + Sync + Clock + CpuClock>(rt: &R, alloc: Global, workers: u64, count: u64) -> Result<Figures, Unfinished> {
    let count = u32::try_from(count).unwrap_or(0);
    let pieces = works(rt, alloc, u64::from(count), 0)?;
    Ok(with_pieces(rt, alloc, settings(workers)?, pieces, Pairs { rt, count })?.told?)
}

/// Waits for a group while other pieces go on, and measures how long after its last piece it is told so, again and again.
#[derive(Drop)]
struct Told<'a, K: Clock + CpuClock>(&'a K);

impl<'a, K: Clock + CpuClock> PieceClient<Work<'a, K>> for Told<'a, K> {
    type Told = Result<Figures, Refusal>;

    ghost promise = { λ _ _ _ _ _. Unit {0} };

    #[tactic(auto, using(node_with_workers::proofs::Calls::further_calls))]
    fn call<R: Wait, L: Handed<Work<'a, K>>>(self, rt: &R, caller: &mut Caller, pieces: &Pieces<L, Work<'a, K>>) -> Result<Figures, Refusal> {
        pieces.action(rt, caller, JOB)?;
        let group = caller.group_create(rt)?;
        let others = caller.group_create(rt)?;
        let mut all = [0; MOST];
        'times: for time in 0..MOST as u32 {
            let first = time * (MEMBERS + OTHERS);
            'members: for place in first..first + MEMBERS {
                pieces.start(rt, caller, place, JOB, TaskAttr::new(), Some(group))?;
            }
            'others: for place in first + MEMBERS..first + MEMBERS + OTHERS {
                pieces.start(rt, caller, place, JOB, TaskAttr::new(), Some(others))?;
            }
            caller.group_wait_all(rt, group, Timeout::Infinite)?;
            let told = clock(self.0);
            let mut last = 0;
            'ends: for place in first..first + MEMBERS {
                if let Some((end, _)) = pieces.take_done(rt, place) {
                    last = last.max(end);
                }
            }
            caller.group_wait_all(rt, others, Timeout::Infinite)?;
            all[time as usize] = told.saturating_sub(last);
        }
        Ok(Figures { count: MOST, all })
    }
}

/// How long after the last piece of a group main is told so.
pub fn when_told<R: Threads + Wait + Sync + Clock + CpuClock>(rt: &R, alloc: Global, workers: u64, rounds: u64) -> Result<Figures, Unfinished> {
    let count = MOST as u64 * u64::from(MEMBERS + OTHERS);
    let pieces = works(rt, alloc, count, rounds)?;
    Ok(with_pieces(rt, alloc, settings(workers)?, pieces, Told(rt))?.told?)
}

/// 64 pieces, whole.
pub fn all_pieces<R: Threads + Wait + Sync + Clock + CpuClock>(rt: &R, alloc: Global, workers: u64, rounds: u64) -> Result<Figures, Unfinished> {
    let pieces = works(rt, alloc, 64, rounds)?;
    let began = clock(rt);
    let took = processors(rt);
    let mut sum = 0u64;
    for (_, one) in &run_pieces(rt, alloc, settings(workers)?, pieces)?.results {
        sum = sum.wrapping_add(*one);
    }
    let mut figures = Figures::two(clock(rt).saturating_sub(began), processors(rt).saturating_sub(took));
    figures.all[2] = sum;
    Ok(figures)
}

/// Looks for a semaphore that nobody gives back.
#[derive(Drop)]
struct Idle<'a, K: Clock + CpuClock>(&'a K);

impl<'a, K: Clock + CpuClock> PieceClient<Work<'a, K>> for Idle<'a, K> {
    type Told = Result<Figures, Refusal>;

    ghost promise = { λ _ _ _ _ _. Unit {0} };

    #[tactic(auto, using(node_with_workers::proofs::Calls::further_calls))]
    fn call<R: Wait, L: Handed<Work<'a, K>>>(self, rt: &R, caller: &mut Caller, _pieces: &Pieces<L, Work<'a, K>>) -> Result<Figures, Refusal> {
        let held = caller.sem_create(rt, 1, 1)?;
        caller.sem_lock(rt, held, Timeout::NoWait)?;
        let began = clock(self.0);
        let took = processors(self.0);
        let _ = caller.sem_lock(rt, held, Timeout::Looks(1_000));
        let figures = Figures::two(clock(self.0).saturating_sub(began), processors(self.0).saturating_sub(took));
        caller.sem_unlock(rt, held)?;
        Ok(figures)
    }
}

/// A thousand looks of main, while the workers have nothing to do.
pub fn while_idle<R: Threads + Wait + Sync + Clock + CpuClock>(rt: &R, alloc: Global, workers: u64) -> Result<Figures, Unfinished> {
    let pieces = works(rt, alloc, 0, 0)?;
    Ok(with_pieces(rt, alloc, settings(workers)?, pieces, Idle(rt))?.told?)
}
"""

THREADS = r"""
//! The same by std alone: threads that park and unpark one another.

use crate::clocks::{clock, processors};
use crate::work::spin;
use crate::{Figures, MOST};
use std::alloc::{AllocError, Global};
use std::sync::atomic::{AtomicU64, Ordering};
use std::sync::Wait;
use std::thread;
use std::thread::{Parker, Threads};
use std::time::{Clock, CpuClock, Duration};

/// What two threads park on.
#[derive(Drop)]
struct Two {
    there: Parker,
    back: Parker,
    ended: AtomicU64,
}

impl Two {
    fn new() -> Two {
        Two {
            there: Parker::new(),
            back: Parker::new(),
            ended: AtomicU64::new(0),
        }
    }

    // Answers so often.
    fn answer<R: Wait + Clock + CpuClock>(&self, rt: &R, count: u64) {
        for _ in 0..count {
            self.there.park(rt);
            self.back.unpark();
        }
    }

    // Asks once, and waits for the answer.
    fn ask<R: Wait + Clock + CpuClock>(&self, rt: &R) {
        self.there.unpark();
        self.back.park(rt);
    }

    // Asks after a sleep, again and again.
    fn ask_asleep<R: Wait + Clock + CpuClock>(&self, rt: &R) -> Figures {
        let mut all = [0; MOST];
        for time in 0..MOST {
            thread::sleep(rt, Duration::from_millis(30));
            let began = clock(rt);
            self.ask(rt);
            all[time] = clock(rt).saturating_sub(began);
        }
        Figures { count: MOST, all }
    }

    // Asks so often.
    fn ask_often<R: Wait + Clock + CpuClock>(&self, rt: &R, count: u64) -> Figures {
        let began = clock(rt);
        let took = processors(rt);
        for _ in 0..count {
            self.ask(rt);
        }
        Figures::two(clock(rt).saturating_sub(began), processors(rt).saturating_sub(took))
    }

    // Works, tells so, and works on, again and again. The sum keeps the work.
    fn tell<R: Wait + Clock + CpuClock>(&self, rt: &R, rounds: u64) -> Figures {
        let mut sum = 0u64;
        for _ in 0..MOST {
            self.there.park(rt);
            sum = sum.wrapping_add(spin(rounds));
            self.ended.store(clock(rt), Ordering::SeqCst);
            self.back.unpark();
            sum = sum.wrapping_add(spin(rounds));
        }
        Figures::two(sum, sum)
    }

    // How long after the other's work it is told so, again and again.
    fn be_told<R: Wait + Clock + CpuClock>(&self, rt: &R) -> Figures {
        let mut all = [0; MOST];
        for time in 0..MOST {
            self.ask(rt);
            all[time] = clock(rt).saturating_sub(self.ended.load(Ordering::SeqCst));
        }
        Figures { count: MOST, all }
    }
}

/// An unpark of a thread and a park until it answers, while both sleep.
pub fn parked<R: Threads + Wait + Sync + Clock + CpuClock>(rt: &R) -> Figures {
    let two = Two::new();
    let mut sides = [Figures::two(0, 0); 2];
    thread::for_each_mut(rt, &mut sides, 2, &|side, figures: &mut Figures| {
        if side == 0 {
            *figures = two.ask_asleep(rt);
        } else {
            two.answer(rt, MOST as u64);
        }
    });
    sides[0]
}

/// So many of them.
pub fn parked_pairs<R: Threads + Wait + Sync + Clock + CpuClock>(rt: &R, count: u64) -> Figures {
    let two = Two::new();
    let mut sides = [Figures::two(0, 0); 2];
    thread::for_each_mut(rt, &mut sides, 2, &|side, figures: &mut Figures| {
        if side == 0 {
            *figures = two.ask_often(rt, count);
        } else {
            two.answer(rt, count);
        }
    });
    sides[0]
}

/// How long after work of so many rounds the one who waits for it is told so.
pub fn parked_told<R: Threads + Wait + Sync + Clock + CpuClock>(rt: &R, rounds: u64) -> Figures {
    let two = Two::new();
    let mut sides = [Figures::two(0, 0); 2];
    thread::for_each_mut(rt, &mut sides, 2, &|side, figures: &mut Figures| {
        *figures = if side == 0 { two.be_told(rt) } else { two.tell(rt, rounds) };
    });
    sides[0]
}

// Takes pieces until none is left.
fn take_pieces(next: &AtomicU64, rounds: u64) -> u64 {
    let mut sum = 0u64;
    for _ in 0..64 {
        if 64 <= next.fetch_add(1, Ordering::SeqCst) {
            return sum;
        }
        sum = sum.wrapping_add(spin(rounds));
    }
    sum
}

/// 64 pieces by so many threads.
pub fn threads_at_work<R: Threads + Wait + Sync + Clock + CpuClock>(rt: &R, number: u64, rounds: u64) -> Figures {
    let next = AtomicU64::new(0);
    let mut sums = [0u64; 16];
    let threads = number.clamp(1, 16) as usize;
    let began = clock(rt);
    let took = processors(rt);
    thread::for_each_mut(rt, &mut sums[..threads], threads, &|_, sum: &mut u64| *sum = take_pieces(&next, rounds));
    let mut figures = Figures::two(clock(rt).saturating_sub(began), processors(rt).saturating_sub(took));
    figures.all[2] = sums[0];
    figures
}

/// A thousand parks of a millisecond, while so many other threads are parked.
pub fn parks<R: Threads + Wait + Sync + Clock + CpuClock>(rt: &R, alloc: Global, number: u64) -> Result<Figures, AllocError> {
    let mut parkers = Vec::new(alloc);
    for _ in 0..17 {
        parkers.push(Parker::new())?;
    }
    let parkers = parkers.as_slice();
    let mut all = [Figures::two(0, 0); 17];
    let threads = number.clamp(1, 16) as usize + 1;
    thread::for_each_mut(rt, &mut all[..threads], threads, &|place, figures: &mut Figures| {
        if place == 0 {
            let began = clock(rt);
            let took = processors(rt);
            for _ in 0..1_000 {
                if let Some(parker) = parkers.first() {
                    parker.park_timeout(rt, Duration::from_millis(1));
                }
            }
            *figures = Figures::two(clock(rt).saturating_sub(began), processors(rt).saturating_sub(took));
            for parker in parkers {
                parker.unpark();
            }
        } else if let Some(parker) = parkers.get(place) {
            parker.park(rt);
        }
    });
    Ok(all[0])
}
"""

# The head of the proofs of a client's calls; of each loop the caller keeps its seat, and goes on.
HEAD = """
use Rattle.node_with_workers.specs.Clients.{GoesOn}
use Rattle.workload_runners.specs.Turns.{SameSeat}
use Rattle.wakes.proofs.clients.%sPieceClientWork.call.Given as goal
"""
LOOP = """
abbrev pub invariant-%s : goal.invariant-%s
invariant-%s g l = SameSeat l.fn.caller l.caller × GoesOn l.fn.caller l.caller
"""


def loops(client, *names):
    return HEAD % client + "".join(LOOP % ((name,) * 3) for name in names)


FILES = {
    "main.rt": PROGRAM,
    "clocks.rt": CLOCKS,
    "work.rt": WORK,
    "clients.rt": CLIENTS,
    "threads.rt": THREADS,
    "proofs/clients/AsleepPieceClientWork/call/Invariants.antt": loops("Asleep", "tries"),
    "proofs/clients/PairsPieceClientWork/call/Invariants.antt": loops("Pairs", "pairs"),
    "proofs/clients/ToldPieceClientWork/call/Invariants.antt": loops("Told", "times", "members", "others"),
}


# The rows: the name, the numbers of workers, what is asked of the node and of std, and the third word of both.
ROWS = (
    ("a start and the wait for its end, all asleep", (1, 2, 4), "asleep", "parked", 0),
    ("a pair of a start and the wait for its end", (1, 2, 4), "pairs", "parked_pairs", (FEW, MANY)),
    ("a group's end, told after its last piece's", (1, 2), "told", "parked_told", SHORT),
    ("64 pieces of 1.8 ms", (2, 4), "pieces", "threads", PIECE),
    ("a second of looks, all asleep", (1, 16), "idle", "parks", 0),
)


def words():
    """What the program is asked."""
    asked = []
    for _, numbers, ours, theirs, third in ROWS:
        for number in numbers:
            for given in third if isinstance(third, tuple) else (third,):
                asked += [ours, str(number), str(given), theirs, str(number), str(given)]
    return asked


def run(command, folder=None):
    """The figures of one run, by the three words."""
    done = subprocess.run(command, cwd=folder, stdin=subprocess.DEVNULL, capture_output=True, text=True)
    lines = [line.split() for line in done.stdout.splitlines()]
    if done.returncode or not lines or not all(len(line) > 3 and line[-1].isdigit() for line in lines):
        sys.exit(f"status {done.returncode}: {done.stdout}{done.stderr}")
    return {tuple(line[:3]): [int(figure) for figure in line[3:]] for line in lines}


def microseconds(nanoseconds):
    return f"{nanoseconds / 1000:10.1f}"


def show(name, number, mine, other, note=""):
    print(f"{name:57} {number:7} {microseconds(mine)} {microseconds(other)} {mine / max(other, 1):7.2f}{note}")


def show_tries(runs, name, number, ours, theirs, third):
    """A row of which each run has some figures: the least of all, and the median."""
    mine, other = ([figure for of in runs for figure in of[what, str(number), str(third)]] for what in (ours, theirs))
    show(name, number, min(mine), min(other), f"  (median {statistics.median(mine) / 1000:.1f}, {statistics.median(other) / 1000:.1f})")


def show_slope(runs, name, number, ours, theirs, third):
    """A row of the further pairs, on the clock and of the processors."""
    for place, of_what in enumerate((", the clock", ", processors")):
        slopes = []
        for what in (ours, theirs):
            few, many = (min(of[what, str(number), str(count)][place] for of in runs) for count in third)
            slopes.append((many - few) / (third[1] - third[0]))
        show(name + of_what, number, *slopes)


def show_whole(runs, name, number, ours, theirs, third):
    """A row of one figure: on the clock, or of the processors where the clock's is given."""
    place = 1 if ours == "idle" else 0
    mine, other = (min(of[what, str(number), str(third)][place] for of in runs) for what in (ours, theirs))
    show(name + (", processors" if place else ", the clock"), number, mine, other)


def show_all(runs):
    print(f"{'microseconds':57} {'workers':>7} {'the node':>10} {'std':>10} {'times':>7}")
    for name, numbers, ours, theirs, third in ROWS:
        for number in numbers:
            kind = show_slope if isinstance(third, tuple) else show_whole if ours in ("pieces", "idle") else show_tries
            kind(runs, name, number, ours, theirs, third)


def main():
    named = sys.argv[1] if len(sys.argv) > 1 else None
    top = tempfile.mkdtemp(prefix="wakes-")
    try:
        if named == "try":
            crate = common.with_crate(top, NAME, LIBRARIES, FILES)
            show_all([run(["rt", "try", "--", *words()], crate)])
            return
        program = named or common.built(top, NAME, LIBRARIES, FILES)
        first = common.go_first()
        print(f"load {os.getloadavg()[0]:.1f}, {'before' if first else 'beside'} all other work, {os.cpu_count()} processors")
        show_all([run([program, *words()]) for _ in range(TRIES)])
    finally:
        shutil.rmtree(top)


if __name__ == "__main__":
    main()
