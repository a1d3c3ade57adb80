//! A node behind one lock, and the threads that call it.

use crate::workload::{Kind, Statement, Workload};
use std::collections::VecDeque;
use std::sync::{Condvar, Mutex};
use std::thread;

/// A call that was answered, as the journal keeps it. Main is the caller 0.
#[derive(Debug)]
#[allow(dead_code)] // The report reads the ends of the tasks alone.
pub struct Entry {
    pub who: usize,
    pub call: Call,
}

/// What was asked and answered.
#[derive(Debug)]
#[allow(dead_code)]
pub enum Call {
    ActionMade { job: u32, kind: Kind },
    GroupMade { group: usize },
    Started { task: usize, job: u32, args: Vec<i64>, group: Option<usize> },
    Picked { task: usize, kind: Kind, args: Vec<i64> },
    Finished { task: usize, result: i64 },
    AllEnded { group: usize },
    Closed,
    Stopped,
}

struct Task {
    kind: Kind,
    args: Vec<i64>,
    group: Option<usize>,
}

struct State {
    actions: Vec<(u32, Kind)>,
    /// How many tasks of each group haven't ended.
    groups: Vec<usize>,
    tasks: Vec<Task>,
    ready: VecDeque<usize>,
    closed: bool,
    journal: Vec<Entry>,
}

impl State {
    fn keep(&mut self, who: usize, call: Call) {
        self.journal.push(Entry { who, call });
    }

    fn start(&mut self, job: u32, args: &[i64], group: Option<usize>) {
        let kind = self.actions.iter().find(|action| action.0 == job).expect("an action of the job").1;
        let task = self.tasks.len();
        self.tasks.push(Task { kind, args: args.to_vec(), group });
        if let Some(group) = group {
            self.groups[group] += 1;
        }
        self.ready.push_back(task);
        self.keep(0, Call::Started { task, job, args: args.to_vec(), group });
    }

    fn pick(&mut self, who: usize) -> Option<(usize, Kind, Vec<i64>)> {
        let task = self.ready.pop_front()?;
        let Task { kind, args, .. } = &self.tasks[task];
        let (kind, args) = (*kind, args.clone());
        self.keep(who, Call::Picked { task, kind, args: args.clone() });
        Some((task, kind, args))
    }

    /// True where it was the last of its group.
    fn finish(&mut self, who: usize, task: usize, result: i64) -> bool {
        self.keep(who, Call::Finished { task, result });
        let Some(group) = self.tasks[task].group else { return false };
        self.groups[group] -= 1;
        self.groups[group] == 0
    }
}

struct Node {
    state: Mutex<State>,
    starts: Condvar,
    ends: Condvar,
}

fn computed(kind: Kind, args: &[i64]) -> i64 {
    match kind {
        Kind::Add => args.iter().sum(),
        Kind::Triangle => args[0] * (args[0] + 1) / 2,
    }
}

impl Node {
    fn new(tasks: usize) -> Node {
        let state = State {
            actions: Vec::new(),
            groups: Vec::new(),
            tasks: Vec::with_capacity(tasks),
            ready: VecDeque::new(),
            closed: false,
            journal: Vec::new(),
        };
        Node { state: Mutex::new(state), starts: Condvar::new(), ends: Condvar::new() }
    }

    fn execute(&self, statement: &Statement) {
        let mut state = self.state.lock().unwrap();
        match statement {
            Statement::MakeAction { job, kind } => {
                state.actions.push((*job, *kind));
                state.keep(0, Call::ActionMade { job: *job, kind: *kind });
            }
            Statement::MakeGroup => {
                let group = state.groups.len();
                state.groups.push(0);
                state.keep(0, Call::GroupMade { group });
            }
            Statement::Start { job, args, group } => {
                state.start(*job, args, *group);
                drop(state);
                self.starts.notify_one();
            }
            Statement::WaitAll { group } => {
                while state.groups[*group] > 0 {
                    state = self.ends.wait(state).unwrap();
                }
                state.keep(0, Call::AllEnded { group: *group });
            }
        }
    }

    fn pick(&self, who: usize) -> Option<(usize, Kind, Vec<i64>)> {
        let mut state = self.state.lock().unwrap();
        loop {
            if let Some(picked) = state.pick(who) {
                return Some(picked);
            }
            if state.closed {
                state.keep(who, Call::Stopped);
                return None;
            }
            state = self.starts.wait(state).unwrap();
        }
    }

    fn serve(&self, who: usize) {
        while let Some((task, kind, args)) = self.pick(who) {
            let result = computed(kind, &args);
            if self.state.lock().unwrap().finish(who, task, result) {
                self.ends.notify_one();
            }
        }
    }

    fn close(&self) {
        let mut state = self.state.lock().unwrap();
        state.closed = true;
        state.keep(0, Call::Closed);
        self.starts.notify_all();
    }
}

/// Runs the workload, main on this thread and each worker in one of its own, and gives the journal.
pub fn run(load: &Workload) -> Vec<Entry> {
    let node = Node::new(load.max_tasks);
    thread::scope(|scope| {
        for worker in 0..load.workers {
            let node = &node;
            scope.spawn(move || node.serve(worker + 1));
        }
        for statement in &load.statements {
            node.execute(statement);
        }
        node.close();
    });
    node.state.into_inner().unwrap().journal
}
