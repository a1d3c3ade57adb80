#!/usr/bin/env python3
"""What reading and writing journals as text costs, in processor time and in memory. Prints a line for each figure.

Builds the program below over a copy of the repository in a folder of its own, which takes long where the crates below
`journal_text` have not been proved on this machine. Each text is written back and compared. Fails where 60,000 entries
take a second or more to be read or to be written, or where four times the entries or bytes take more than 4.6 times the
time or the memory.
"""

import os
import sys
import tempfile

import common

LIMIT = 1.0  # seconds for 60,000 entries
RATIO = 4.6  # of the times and the memory, at four times the entries or bytes
MOST = 67_108_864  # bytes of the longest text
TRIES = 5
TIMES = 20  # how often a text is made in a run that writes

PROGRAM = r"""
//! Reads a journal from the standard input. Makes its text as often as words stand behind the program's name, and writes it once.
#![tactic(auto)]

use byte_io::{StdSink, StdSource, write_all};
use journal_text::{read_journal, write_journal};
use node_core::Journal;
use std::alloc::{AllocError, Global};
use std::env;
use std::process::ExitCode;

/// The text of a journal, made so many times; empty where never.
fn text_of(alloc: Global, journal: &Journal, times: u64) -> Result<Vec<u8>, AllocError> {
    let mut text = Vec::new(alloc);
    for _ in 0..times {
        text = write_journal(alloc, journal)?;
    }
    Ok(text)
}

fn main(rt: HostRuntime) -> ExitCode {
    let alloc = rt.alloc();
    let mut src = StdSource::new(rt.stdin());
    let Ok(journal) = read_journal(alloc, &mut src) else {
        return ExitCode::FAILURE;
    };
    let Ok(text) = text_of(alloc, &journal, words(&rt)) else {
        return ExitCode::FAILURE;
    };
    let mut out = StdSink::new(rt.stdout());
    match write_all(&mut out, &text) {
        Ok(()) => ExitCode::SUCCESS,
        Err(_) => ExitCode::FAILURE,
    }
}
""" + common.WORDS

HEAD = b"mtapi-journal 2 workers=2 callers=2 tasks=65536 actions=64 groups=128 queues=16 objects=16 priorities=4 generations=4294967295\n"
LINES = (
    b"c0 task_start 1 1,-2,3 0 18446744073709551615 0 g1.0 -> handle t%d.%d\n",
    b"w1 pick -> picked t%d.%d a1.0 add 1,-2,3\n",
    b"w1 finish t%d.%d add 1,-2,3 completed 2 -> ok\n",
    b"c0 task_look t%d.%d 0 -> ended completed 2 after 7\n",
)


def entries(count):
    """A journal of so many entries: tasks that are started, taken, ended and handed out."""
    lines = (LINES[i % 4] % (i // 262_144 + 1, i // 4 % 65_536) for i in range(count))
    return HEAD + b"".join(lines)


def whole_lines(count):
    """A journal of so many bytes at most, and of nearly as many."""
    text = entries(count // 45)
    return text[: text.rindex(b"\n", 0, count) + 1]


def run(program, path, words, wanted):
    """The processor time and the most kilobytes of one run, whose output has to be this."""
    with open(path, "rb") as text, tempfile.TemporaryFile() as out:
        used = common.cost([program] + words, text, out)
        out.seek(0)
        if out.read() != wanted:
            sys.exit("another text was written")
    return used


def cost(program, folder, text, tries=TRIES, times=TIMES):
    """The least processor time to read a text, and to write it, and the most kilobytes that reading it takes."""
    path = os.path.join(folder, "text")
    with open(path, "wb") as file:
        file.write(text)
    read = [run(program, path, [], b"") for _ in range(tries)]
    seconds = min(took for took, _ in read)
    both = min(run(program, path, ["x"] * times, text)[0] for _ in range(tries))
    return seconds, (both - seconds) / times, max(most for _, most in read)


def main():
    failed = False
    with tempfile.TemporaryDirectory() as folder:
        program = common.built(folder, "journals_bench", "journal_text node_core byte_io", {"main.rt": PROGRAM})
        start, _, room = cost(program, folder, HEAD)
        few = cost(program, folder, entries(15_000))
        many = cost(program, folder, entries(60_000))
        for what, small, large in (("reading", few[0] - start, many[0] - start), ("writing", few[1], many[1])):
            bad = large >= LIMIT or large > RATIO * small
            failed = failed or bad
            print(f"{what}: 15,000 entries {small:.4f} s, 60,000 {large:.4f} s, ratio {large / small:.2f}{'  TOO SLOW' if bad else ''}")
        quarter, most = whole_lines(MOST // 4), whole_lines(MOST)
        half = cost(program, folder, quarter, 3, 1)
        full = cost(program, folder, most, 3, 1)
        for what, small, large, unit in (("reading", half[0] - start, full[0] - start, "s"), ("memory", half[2] - room, full[2] - room, "kB")):
            bad = large > RATIO * small
            failed = failed or bad
            print(f"{what}: {len(quarter)} bytes {small:.6g} {unit}, {len(most)} bytes {large:.6g} {unit}, ratio {large / small:.2f}{'  TOO MUCH' if bad else ''}")
    sys.exit(1 if failed else 0)


if __name__ == "__main__":
    main()
