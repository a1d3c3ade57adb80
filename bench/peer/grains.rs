//! Items of equal work, made by threads of std: what the program of `bench/grains.py` does, without a node. The words are the
//! number of threads, of items, of the rounds of each, and of tries. Prints the nanoseconds of the fastest try, and the sum.

use std::sync::atomic::{AtomicUsize, Ordering};
use std::sync::Mutex;
use std::time::Instant;
use std::{env, thread};

/// The work of an item: so many sums, each of which needs the one before.
fn work(item: u64, rounds: u64) -> u64 {
    let mut sum = item;
    for round in 0..rounds {
        sum = sum.wrapping_mul(6_364_136_223_846_793_005).wrapping_add(round);
    }
    sum
}

/// What came of each item, at its place. Each thread takes the next item that none has taken.
fn made(items: &[u64], rounds: u64, threads: usize) -> Vec<u64> {
    let next = AtomicUsize::new(0);
    let results = Mutex::new(vec![0; items.len()]);
    thread::scope(|scope| {
        for _ in 0..threads {
            scope.spawn(|| loop {
                let place = next.fetch_add(1, Ordering::Relaxed);
                let Some(item) = items.get(place) else { break };
                let sum = work(*item, rounds);
                results.lock().unwrap()[place] = sum;
            });
        }
    });
    results.into_inner().unwrap()
}

fn main() {
    let words: Vec<u64> = env::args().skip(1).map(|word| word.parse().unwrap()).collect();
    let [threads, count, rounds, tries] = words[..] else { panic!("four numbers") };
    let items: Vec<u64> = (0..count).collect();
    let (mut least, mut figure) = (u128::MAX, 0);
    for _ in 0..tries {
        let began = Instant::now();
        let all = made(&items, rounds, threads as usize);
        least = least.min(began.elapsed().as_nanos());
        figure = all.iter().fold(0u64, |sum, each| sum.wrapping_add(*each));
    }
    println!("{least} {figure}");
}
