//! Reads a workload.

use std::collections::HashMap;

/// What the action of a task computes.
#[derive(Clone, Copy, Debug)]
pub enum Kind {
    Add,
    Triangle,
}

/// A statement of main, whose names are bound: actions, groups and tasks are told by their numbers.
#[derive(Debug)]
pub enum Statement {
    MakeAction { job: u32, kind: Kind },
    MakeGroup,
    Start { job: u32, args: Vec<i64>, group: Option<usize> },
    WaitAll { group: usize },
}

/// A workload, and the names of its tasks in the order of their statements.
#[derive(Debug, Default)]
pub struct Workload {
    pub workers: usize,
    pub max_tasks: usize,
    pub statements: Vec<Statement>,
    pub tasks: Vec<String>,
}

/// What a name is bound to.
enum Bound {
    Action,
    Group(usize),
    Task,
}

#[derive(Default)]
struct Reader {
    load: Workload,
    names: HashMap<String, Bound>,
    groups: usize,
}

/// The options `key=value` of a line.
fn options<'a>(words: impl Iterator<Item = &'a str>) -> impl Iterator<Item = (&'a str, &'a str)> {
    words.map(|word| word.split_once('=').expect("an option"))
}

fn number<T: std::str::FromStr>(word: &str) -> T {
    word.parse().ok().expect("a number")
}

impl Reader {
    fn bind(&mut self, name: &str, bound: Bound) {
        assert!(self.names.insert(name.to_string(), bound).is_none(), "a name stands once");
    }

    fn group(&self, name: &str) -> usize {
        match self.names.get(name) {
            Some(Bound::Group(group)) => *group,
            _ => panic!("no group {name}"),
        }
    }

    fn node<'a>(&mut self, words: impl Iterator<Item = &'a str>) {
        for (key, value) in options(words) {
            match key {
                "workers" => self.load.workers = number(value),
                "max_tasks" => self.load.max_tasks = number(value),
                _ => panic!("unknown option {key}"),
            }
        }
    }

    fn action<'a>(&mut self, words: impl Iterator<Item = &'a str>) -> Statement {
        let (mut job, mut kind) = (0, Kind::Add);
        for (key, value) in options(words) {
            match (key, value) {
                ("job", _) => job = number(value),
                ("kind", "add") => kind = Kind::Add,
                ("kind", "triangle") => kind = Kind::Triangle,
                _ => panic!("unknown option {key}"),
            }
        }
        Statement::MakeAction { job, kind }
    }

    fn start<'a>(&mut self, words: impl Iterator<Item = &'a str>) -> Statement {
        let (mut job, mut args, mut group) = (0, Vec::new(), None);
        for (key, value) in options(words) {
            match key {
                "job" => job = number(value),
                "args" => args = value.split(',').map(number).collect(),
                "group" => group = Some(self.group(value)),
                _ => panic!("unknown option {key}"),
            }
        }
        Statement::Start { job, args, group }
    }

    fn line(&mut self, line: &str) {
        let mut words = line.split_ascii_whitespace();
        let Some(word) = words.next() else { return };
        if word == "node" {
            return self.node(words);
        }
        let name = words.next().expect("a name");
        let statement = match word {
            "action" => {
                self.bind(name, Bound::Action);
                self.action(words)
            }
            "group" => {
                self.bind(name, Bound::Group(self.groups));
                self.groups += 1;
                Statement::MakeGroup
            }
            "start" => {
                self.bind(name, Bound::Task);
                self.load.tasks.push(name.to_string());
                self.start(words)
            }
            "wait_all" => Statement::WaitAll { group: self.group(name) },
            _ => panic!("unknown word {word}"),
        };
        self.load.statements.push(statement);
    }
}

/// Reads the text of a workload, which has only what `bench/generated.py` writes.
pub fn read(text: &str) -> Workload {
    let mut reader = Reader::default();
    for line in text.lines() {
        reader.line(line);
    }
    reader.load
}
