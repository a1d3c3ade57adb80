//! What the runtime is measured against, in plain Rust, where one lock and two conditions stand for the node.
//!
//! `peer run` does what `mtapi run` does for the workloads of `bench/generated.py`: it reads the text from standard input, runs it with its
//! workers in threads, keeps a journal entry for each call that is answered, and writes the same report.
//!
//! `peer bare N W` runs N such tasks on W workers and does nothing else.

mod bare;
mod node;
mod report;
mod workload;

use std::env;
use std::hint::black_box;
use std::io::{self, Read};

fn run() -> io::Result<()> {
    let mut text = String::new();
    io::stdin().read_to_string(&mut text)?;
    let load = workload::read(&text);
    let journal = black_box(node::run(&load));
    report::write(&load, &journal, io::stdout().lock())
}

fn main() -> io::Result<()> {
    let words: Vec<String> = env::args().skip(1).collect();
    match words[0].as_str() {
        "run" => run(),
        "bare" => {
            bare::run(words[1].parse().expect("a number"), words[2].parse().expect("a number"));
            Ok(())
        }
        word => panic!("unknown word {word}"),
    }
}
