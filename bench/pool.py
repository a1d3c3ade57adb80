#!/usr/bin/env python3
"""What a pool costs beside a vector with a list of free places, and what a new one costs. Prints a line for each.

Builds the program below over a copy of the repository in a folder of its own, which takes a minute or two.
"""

import tempfile

import common

PLACES = 65_536
ROUNDS = 200  # fillings and emptyings, as in the program
NEW = 1_000  # new pools, as in the program
TRIES = 5

PROGRAM = r"""
//! Inserts into a pool and removes from it, beside the same over a vector with a list of free places. How many words stand behind
//! the program's name says what is done: 1 the pool, 2 the vector, 3 new pools, 4 new vectors; else nothing.
#![tactic(auto)]

use handle_pool::Pool;
use std::alloc::{AllocError, Global};
use std::env;
use std::process::ExitCode;

const PLACES: u32 = 65_536;

const ROUNDS: u64 = 200;

const POOLS: u64 = 1_000;

/// Fills a pool and empties it, so many times.
fn with_pool(alloc: Global) -> Result<u64, AllocError> {
    let mut pool: Pool<u64> = Pool::new(alloc, PLACES, 4_000_000_000)?;
    let mut handles: Vec<u64> = Vec::new(alloc);
    let mut sum: u64 = 0;
    for _ in 0..ROUNDS {
        for value in 0..PLACES {
            if let Ok(handle) = pool.insert(u64::from(value)) {
                handles.push(handle)?;
            }
        }
        for _ in 0..PLACES {
            if let Some(handle) = handles.pop() {
                if let Some(value) = pool.remove(handle) {
                    sum = sum.wrapping_add(value);
                }
            }
        }
    }
    Ok(sum)
}

/// The same over a vector, with the free places in another one.
fn with_vector(alloc: Global) -> Result<u64, AllocError> {
    let mut places: Vec<Option<u64>> = Vec::new(alloc);
    let mut free: Vec<usize> = Vec::new(alloc);
    for place in 0..PLACES {
        places.push(None)?;
        free.push(place as usize)?;
    }
    let mut handles: Vec<usize> = Vec::new(alloc);
    let mut sum: u64 = 0;
    for _ in 0..ROUNDS {
        for value in 0..PLACES {
            if let Some(place) = free.pop() {
                if let Some(slot) = places.get_mut(place) {
                    *slot = Some(u64::from(value));
                }
                handles.push(place)?;
            }
        }
        for _ in 0..PLACES {
            if let Some(place) = handles.pop() {
                if let Some(slot) = places.get_mut(place) {
                    if let Some(value) = slot.take() {
                        sum = sum.wrapping_add(value);
                    }
                }
                free.push(place)?;
            }
        }
    }
    Ok(sum)
}

fn new_pools(alloc: Global) -> Result<u64, AllocError> {
    let mut sum: u64 = 0;
    for _ in 0..POOLS {
        let pool: Pool<u64> = Pool::new(alloc, PLACES, 4_000_000_000)?;
        sum = sum.wrapping_add(u64::from(pool.live()));
    }
    Ok(sum)
}

fn new_vectors(alloc: Global) -> Result<u64, AllocError> {
    let mut sum: u64 = 0;
    for _ in 0..POOLS {
        let mut places: Vec<Option<u64>> = Vec::new(alloc);
        places.reserve(PLACES as usize)?;
        for _ in 0..PLACES {
            places.push(None)?;
        }
        sum = sum.wrapping_add(places.len() as u64);
    }
    Ok(sum)
}

fn main(rt: HostRuntime) -> ExitCode {
    let alloc = rt.alloc();
    let done = match words(&rt) {
        1 => with_pool(alloc),
        2 => with_vector(alloc),
        3 => new_pools(alloc),
        4 => new_vectors(alloc),
        _ => Ok(0),
    };
    match done {
        Ok(_) => ExitCode::SUCCESS,
        Err(_) => ExitCode::FAILURE,
    }
}
""" + common.WORDS


def seconds(program, words):
    """The least processor time of some runs."""
    return min(common.cost([program] + ["x"] * words)[0] for _ in range(TRIES))


def main():
    with tempfile.TemporaryDirectory() as folder:
        program = common.built(folder, "pool_bench", "handle_pool", {"main.rt": PROGRAM})
        nothing = seconds(program, 0)
        for words, what in [(1, "the pool"), (2, "a vector")]:
            each = (seconds(program, words) - nothing) / (ROUNDS * PLACES)
            print(f"{what}: {each * 1e9:.1f} ns for an insertion and a removal of 8 bytes")
        for words, what in [(3, "the pool"), (4, "a vector")]:
            each = (seconds(program, words) - nothing) / NEW
            print(f"{what}: {each * 1e6:.0f} microseconds for a new one with {PLACES} places of 8 bytes")


if __name__ == "__main__":
    main()
