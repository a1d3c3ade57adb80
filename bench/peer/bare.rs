//! The tasks alone: nothing is read, no journal is kept, and one number is written.

use std::collections::VecDeque;
use std::sync::{Condvar, Mutex};
use std::thread;

/// A task: its kind is told by which numbers it has.
enum Task {
    Add(i64, i64),
    Triangle(i64),
}

impl Task {
    fn run(&self) -> i64 {
        match self {
            Task::Add(a, b) => a + b,
            Task::Triangle(n) => n * (n + 1) / 2,
        }
    }
}

#[derive(Default)]
struct Shared {
    ready: VecDeque<Task>,
    ended: u64,
    sum: i64,
    closed: bool,
}

#[derive(Default)]
struct Node {
    shared: Mutex<Shared>,
    starts: Condvar,
    ends: Condvar,
}

impl Node {
    fn start(&self, task: Task) {
        self.shared.lock().unwrap().ready.push_back(task);
        self.starts.notify_one();
    }

    fn pick(&self) -> Option<Task> {
        let mut shared = self.shared.lock().unwrap();
        loop {
            if let Some(task) = shared.ready.pop_front() {
                return Some(task);
            }
            if shared.closed {
                return None;
            }
            shared = self.starts.wait(shared).unwrap();
        }
    }

    fn finish(&self, result: i64) {
        let mut shared = self.shared.lock().unwrap();
        shared.ended += 1;
        shared.sum += result;
        self.ends.notify_one();
    }

    fn wait_for(&self, count: u64) -> i64 {
        let mut shared = self.shared.lock().unwrap();
        while shared.ended < count {
            shared = self.ends.wait(shared).unwrap();
        }
        shared.closed = true;
        self.starts.notify_all();
        shared.sum
    }
}

/// Starts as many tasks as `bench/generated.py` writes, on so many workers, waits for all of them, and prints the sum of what they answered.
pub fn run(tasks: u64, workers: u64) {
    let node = Node::default();
    thread::scope(|scope| {
        for _ in 0..workers {
            scope.spawn(|| {
                while let Some(task) = node.pick() {
                    let result = task.run();
                    node.finish(result);
                }
            });
        }
        for i in 0..tasks as i64 {
            node.start(if i % 2 == 0 { Task::Add(i, 7) } else { Task::Triangle(i % 64) });
        }
        println!("{}", node.wait_for(tasks));
    });
}
