//! The counting of tests and their running on two threads; a test of a program that reads three files and a budget.

use crate::layout;
use crate::model::{self, Answer, Read, Row, Standing};
use crate::process::{Input, Ran, Room, Source, NAMES};
use crate::steps;
use std::collections::{BTreeMap, BTreeSet};
use std::path::Path;
use std::sync::atomic::{AtomicUsize, Ordering};
use std::sync::Mutex;

const THREADS: usize = 2;
const SHOWN_FAILURES: usize = 10;
const SHOWN_BYTES: usize = 3_000;

/// What a program is held to.
pub struct Model {
    /// What it reads of three texts and a standard input, or the number of the refusal.
    pub read: fn([Option<&[u8]>; 3], &[u8]) -> Result<Read, u8>,
    /// Its answer over n variables, rows and a budget.
    pub run: fn(usize, &[Row], u64) -> Answer,
    /// Where a printed count, and whether the verdict is unknown, break the bound by the variables that occur.
    pub bound: fn(&Read, u64, bool) -> Result<(), String>,
}

/// The pair program.
pub const PAIR: Model = Model {
    read: model::pair,
    run: model::run,
    bound: |read, steps, open| steps::hold(&read.rows, read.budget, steps, open),
};

/// The whole program, whose count is the budget.
pub const WHOLE: Model = Model {
    read: model::whole,
    run: model::run_whole,
    bound: |read, _, open| steps::decided(&read.rows, read.budget, open),
};

/// Files and standard input for a program, and what else is known of the answer.
#[derive(Clone)]
pub struct Test {
    pub name: String,
    /// The left, the right and the public file.
    pub files: [Source; 3],
    pub input: Vec<u8>,
    /// The whole output, where it was written by hand.
    pub expected: Option<String>,
    /// All rows as they were made, where the answer is held to them and to another solver.
    pub made: Option<(usize, Vec<Row>)>,
    /// How standard input comes.
    pub way: Input,
}

impl Test {
    /// A test of three texts and a line, with nothing said of what is expected.
    pub fn new(name: String, texts: [Vec<u8>; 3], input: Vec<u8>) -> Test {
        Test { name, files: texts.map(Source::Text), input, expected: None, made: None, way: Input::File }
    }

    /// What can be read of its files.
    pub fn texts(&self) -> [Option<&[u8]>; 3] {
        [0, 1, 2].map(|k| self.files[k].text())
    }
}

/// Tests that are made as they are run: `make(i)` gives those of number i.
pub struct Group<'a> {
    pub title: String,
    pub count: usize,
    pub make: Box<dyn Fn(usize) -> Vec<Test> + Sync + 'a>,
}

#[derive(Clone, Copy, Default)]
pub struct Tally {
    pub passed: usize,
    pub failed: usize,
}

impl Tally {
    /// Adds another tally.
    pub fn add(&mut self, other: Tally) {
        self.passed += other.passed;
        self.failed += other.failed;
    }

    /// Counts one more test.
    pub fn count(&mut self, passed: bool) {
        if passed {
            self.passed += 1;
        } else {
            self.failed += 1;
        }
    }
}

/// What tests came to, from any thread: how many passed, how often each kind of thing occurred, and the failures.
#[derive(Default)]
pub struct Ledger(Mutex<(Tally, BTreeMap<String, usize>)>);

impl Ledger {
    /// Counts a test, and prints what is wrong with it.
    pub fn test(&self, failure: Option<String>) {
        let mut state = self.0.lock().expect("no thread panics while it holds this");
        state.0.count(failure.is_none());
        if let Some(failure) = failure.filter(|_| state.0.failed <= SHOWN_FAILURES) {
            println!("FAILED {failure}");
        }
    }

    /// Counts things of a kind.
    pub fn kind(&self, kind: &str, count: usize) {
        let mut state = self.0.lock().expect("no thread panics while it holds this");
        *state.1.entry(kind.into()).or_default() += count;
    }

    /// Prints what it came to.
    pub fn close(self, title: &str) -> Tally {
        let (tally, kinds) = self.0.into_inner().expect("every thread has ended");
        let kinds: Vec<String> = kinds.iter().map(|(kind, count)| format!("{kind} {count}")).collect();
        let kinds = if kinds.is_empty() { String::new() } else { format!(" ({})", kinds.join(", ")) };
        println!("{title}: {} passed, {} failed{kinds}", tally.passed, tally.failed);
        tally
    }
}

/// Does the work of every number below `count`, each thread in rooms of its own, one for each program. All rooms are there
/// before a thread starts: a process that is started while a program is still being copied could keep the copy open, and it
/// could then not be run.
pub fn spread<const N: usize>(
    programs: [&Path; N],
    count: usize,
    work: impl Fn(usize, &[Room; N]) + Sync,
) -> std::io::Result<()> {
    let next = AtomicUsize::new(0);
    let mut rooms: Vec<[Room; N]> = vec![];
    for thread in 0..THREADS {
        let own = programs.iter().enumerate().map(|(place, program)| Room::new(program, thread * N + place));
        let own = own.collect::<Result<Vec<_>, _>>()?;
        rooms.push(own.try_into().unwrap_or_else(|_| unreachable!("a room for each program")));
    }
    std::thread::scope(|scope| {
        for room in &rooms {
            scope.spawn(|| loop {
                let number = next.fetch_add(1, Ordering::Relaxed);
                if number >= count {
                    break;
                }
                work(number, room);
            });
        }
    });
    Ok(())
}

/// Runs a group's tests and prints what it came to.
pub fn run(group: &Group, program: &Path, model: &Model, solver: &str) -> std::io::Result<Tally> {
    let ledger = Ledger::default();
    spread([program], group.count, |number, [room]| {
        for test in (group.make)(number) {
            let (kind, failure) = judge(&test, room, model, solver);
            ledger.kind(&kind, 1);
            ledger.test(failure.map(|failure| format!("{}: {failure}\n{}", test.name, shown(&test))));
        }
    })?;
    Ok(ledger.close(&group.title))
}

/// The kind of answer that the model gives, and what is wrong with the program's.
fn judge(test: &Test, room: &Room, model: &Model, solver: &str) -> (String, Option<String>) {
    let read = (model.read)(test.texts(), &test.input);
    let answer = read.as_ref().map_err(|&number| number);
    let answer = answer.map(|read| (model.run)(read.size.n, &read.rows, read.budget));
    let (kind, output) = match &answer {
        Ok(answer) => (format!("{:?}", answer.standing).to_lowercase(), model::printed(answer)),
        Err(number) => (format!("refused {number}"), model::refused(*number)),
    };
    let ran = match test.way {
        Input::File => room.run(&test.files, &test.input),
        Input::Held => room.run_held(&test.files, &test.input),
        Input::Closed => room.run_closed(&test.files),
    };
    let failure = match ran {
        Err(error) => Some(format!("it could not be run: {error}")),
        Ok(ran) => wrong(test, &ran, &output).or_else(|| unbounded(model, &read, &ran)).or_else(|| {
            match (&test.made, &answer) {
                (Some(_), Err(number)) => Some(format!("an accepted pair is refused with {number}")),
                (Some(made), Ok(answer)) if answer.standing != Standing::Open => {
                    unlike_others(made, &ran.output, room, solver)
                }
                _ => None,
            }
        }),
    };
    (kind, failure)
}

/// Where the printed count breaks the bound by the variables that occur.
fn unbounded(model: &Model, read: &Result<Read, u8>, ran: &Ran) -> Option<String> {
    let read = read.as_ref().ok()?;
    let output = String::from_utf8_lossy(&ran.output);
    let steps = output.lines().find_map(|line| line.strip_prefix("c steps ")?.parse().ok());
    match steps {
        None => Some("it prints no count".into()),
        Some(steps) => (model.bound)(read, steps, output.contains("UNKNOWN")).err(),
    }
}

/// What is wrong with a run, `output` being the model's.
fn wrong(test: &Test, ran: &Ran, output: &str) -> Option<String> {
    if let Some(fault) = &ran.fault {
        return Some(fault.clone());
    }
    if let Some(expected) = test.expected.as_ref().filter(|expected| *expected != output) {
        return Some(format!("expected {expected:?}, the model gives {output:?}"));
    }
    if ran.output != output.as_bytes() {
        return Some(format!("the program gives \"{}\", the model {output:?}", ran.output.escape_ascii()));
    }
    let line = test.input.iter().position(|&b| b == b'\n').map_or(test.input.len(), |at| at + 1) as u64;
    match ran.taken {
        Some(taken) if taken > line => {
            Some(format!("it took {taken} bytes of standard input, whose first line has {line}"))
        }
        _ => None,
    }
}

/// Where the printed answer of a closed run is not the other solver's, or its model leaves a row false.
fn unlike_others(made: &(usize, Vec<Row>), output: &[u8], room: &Room, solver: &str) -> Option<String> {
    let (n, rows) = made;
    let output = String::from_utf8_lossy(output);
    let satisfiable = output.lines().any(|line| line == "s SATISFIABLE");
    // neither the order of rows nor how often one is there changes the verdict
    let set: BTreeSet<&Row> = rows.iter().collect();
    let set: Vec<Row> = set.into_iter().cloned().collect();
    match room.ask(solver, &layout::plain(*n, &set)) {
        Err(error) => return Some(error),
        Ok(other) if other != satisfiable => return Some(format!("{solver} says that satisfiable is {other}")),
        Ok(_) => (),
    }
    if !satisfiable {
        return None;
    }
    let values = output.lines().find_map(|line| line.strip_prefix("v ")).unwrap_or("");
    let model: Vec<i64> = values.split(' ').filter_map(|value| value.parse().ok()).collect();
    let open =
        rows.iter().position(|row| !row.iter().any(|literal| model.contains(literal) || row.contains(&-literal)));
    open.map(|at| format!("its model leaves row {} false", at + 1))
}

/// A test as it is printed where it fails.
pub fn shown(test: &Test) -> String {
    let text = |source: &Source| match source {
        Source::Text(bytes)
        | Source::Slow(bytes)
        | Source::Breaking(bytes)
        | Source::Faltering(bytes)
        | Source::Piped(bytes) => quoted(bytes),
        other => format!("{other:?}"),
    };
    let files: String =
        NAMES.iter().zip(&test.files).map(|(name, file)| format!("  {name:<10} {}\n", text(file))).collect();
    format!("{files}  stdin      {}", quoted(&test.input))
}

/// Bytes as a string of Rust; what is too long for a page is cut.
pub fn quoted(bytes: &[u8]) -> String {
    match bytes.get(..SHOWN_BYTES) {
        Some(start) if bytes.len() > SHOWN_BYTES => {
            format!("b\"{}\" and {} bytes more", start.escape_ascii(), bytes.len() - SHOWN_BYTES)
        }
        _ => format!("b\"{}\"", bytes.escape_ascii()),
    }
}
