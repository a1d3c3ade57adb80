//! The letters of a text, counted in 64 parts by threads of std: what `crates/mtapi_letters` does, without a node. The words are
//! the number of threads, how many bytes the text has, and the number of tries. Prints for each try how often one letter stands
//! there, when it began and ended, and the same of each part, in nanoseconds.

use std::sync::atomic::{AtomicUsize, Ordering};
use std::sync::Mutex;
use std::time::Instant;
use std::{env, thread};

/// What came of a part, and when it began and ended.
#[derive(Clone, Copy)]
struct Counted {
    began: u128,
    ended: u128,
    counts: [u64; 256],
}

/// How often each byte stands in this part, where a large letter counts as a small one.
fn count(part: &[u8]) -> [u64; 256] {
    let mut counts = [0u64; 256];
    for byte in part {
        counts[byte.to_ascii_lowercase() as usize] += 1;
    }
    counts
}

/// What came of each part, at its place. Each thread takes the next part that none has taken.
fn counted(start: Instant, parts: &[&[u8]], threads: usize) -> Vec<Counted> {
    let next = AtomicUsize::new(0);
    let none = Counted { began: 0, ended: 0, counts: [0; 256] };
    let results = Mutex::new(vec![none; parts.len()]);
    thread::scope(|scope| {
        for _ in 0..threads {
            scope.spawn(|| loop {
                let place = next.fetch_add(1, Ordering::Relaxed);
                let Some(part) = parts.get(place) else { break };
                let began = start.elapsed().as_nanos();
                let counts = count(part);
                let ended = start.elapsed().as_nanos();
                results.lock().unwrap()[place] = Counted { began, ended, counts };
            });
        }
    });
    results.into_inner().unwrap()
}

fn main() {
    let words: Vec<usize> = env::args().skip(1).map(|word| word.parse().unwrap()).collect();
    let [threads, length, tries] = words[..] else { panic!("three numbers") };
    let text: Vec<u8> = (0..length).map(|at| (at % 61) as u8 + 62).collect();
    let start = Instant::now();
    for _ in 0..tries {
        let began = start.elapsed().as_nanos();
        let parts: Vec<&[u8]> = text.chunks(text.len() / 64 + 1).collect();
        let all = counted(start, &parts, threads);
        let ended = start.elapsed().as_nanos();
        let letters: u64 = all.iter().map(|part| part.counts[97]).sum();
        print!("{letters} {began} {ended}");
        for part in &all {
            print!(" {} {}", part.began, part.ended);
        }
        println!();
    }
}
