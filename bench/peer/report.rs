//! Writes the report of a run.

use crate::node::{Call, Entry};
use crate::workload::Workload;
use std::io::{self, BufWriter, Write};

/// What each task answered, as the journal tells.
fn results(load: &Workload, journal: &[Entry]) -> Vec<Option<i64>> {
    let mut results = vec![None; load.tasks.len()];
    for entry in journal {
        if let Call::Finished { task, result } = entry.call {
            results[task] = Some(result);
        }
    }
    results
}

/// Writes a line for each task.
pub fn write(load: &Workload, journal: &[Entry], out: impl Write) -> io::Result<()> {
    let mut out = BufWriter::new(out);
    for (name, result) in load.tasks.iter().zip(results(load, journal)) {
        match result {
            Some(result) => writeln!(out, "main.{name} completed {result}")?,
            None => writeln!(out, "main.{name} waiting")?,
        }
    }
    out.flush()
}
