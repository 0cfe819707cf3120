//! Times what a budget costs that is gone through whole: an application of the circuit in `forkhemit_solve_whole` beside one in
//! `forkhemit_repeat`, and the program over the largest tables that it serves beside the pair program. Use: bench-whole WHOLE PAIR
//! Linked with the archive that `make lib` writes.

#[path = "../interface/library.rs"]
mod library;

use forkhemit_tests::clock::{self, median};
use forkhemit_tests::model::{Row, Run, Size};
use forkhemit_tests::process::NAMES;
use forkhemit_tests::random::Random;
use forkhemit_tests::{layout, memory, tables};
use library::*;
use std::fs;
use std::io::Write;
use std::path::Path;
use std::process::{Command, Stdio};

const RUNS: usize = 25;
const SEED: u64 = 1_111_000;
const MOST: u64 = 65_535;

/// Tables and the memory that their circuit needs.
struct Case {
    size: Size,
    words: [Vec<u32>; 3],
    gates: Vec<u32>,
    bytes: Vec<u8>,
    wires: Vec<u8>,
}

impl Case {
    /// Rows of three variables, as three tables.
    fn new(n: usize, m: usize) -> (Case, Vec<Row>) {
        let random = &mut Random::new(SEED + (n << 16 | m) as u64);
        let rows: Vec<Row> = (0..m).map(|_| tables::strict(n, 3, random)).collect();
        let size = Size::split(n, m);
        let (left, others) = rows.split_at(size.left);
        let (right, public) = others.split_at(size.right);
        let inputs = memory::input_wires(size);
        let case = Case {
            size,
            words: [left, right, public].map(memory::row_words),
            gates: vec![0; 3 * size.ceiling()],
            bytes: vec![0; inputs],
            wires: vec![0; inputs + size.ceiling()],
        };
        (case, rows)
    }

    /// As many applications as the budget, whatever the marks say.
    #[rustfmt::skip]
    fn whole(&mut self, budget: u64) {
        let Size { n, left, right, public } = self.size;
        let [a, b, c] = &self.words;
        let mut answer = [0; 3];
        // Each buffer is lent for the call, with its length.
        let number = unsafe { forkhemit_solve_whole(n as u64, left as u64, right as u64, public as u64, a.as_ptr(), a.len(), b.as_ptr(), b.len(),
            c.as_ptr(), c.len(), budget, self.gates.as_mut_ptr(), self.gates.len(), self.bytes.as_mut_ptr(), self.bytes.len(),
            self.wires.as_mut_ptr(), self.wires.len(), &mut answer) };
        assert_eq!((number, answer[0]), (0, budget), "the tables are taken");
    }

    /// As many repeats at most, from the fresh run; how many there were.
    #[rustfmt::skip]
    fn repeat(&mut self, times: u64) -> u64 {
        let Size { n, left, right, public } = self.size;
        let [a, b, c] = &self.words;
        let (mut run, mut repeated) = (memory::run_words(&Run::fresh(n)), [0; 2]);
        // Each buffer is lent for the call, with its length.
        let number = unsafe { forkhemit_repeat(n as u64, left as u64, right as u64, public as u64, a.as_ptr(), a.len(), b.as_ptr(), b.len(),
            c.as_ptr(), c.len(), times, self.gates.as_mut_ptr(), self.gates.len(), self.bytes.as_mut_ptr(), self.bytes.len(),
            self.wires.as_mut_ptr(), self.wires.len(), run.as_mut_ptr().cast(), &mut repeated) };
        assert_eq!(number, 0, "the tables are taken");
        repeated[0]
    }
}

/// An application in each of the two calls, and what is not applications: of as many as the run takes, at most 60, the calls side by side.
fn calls(n: usize, m: usize) {
    let (mut case, _) = Case::new(n, m);
    let count = case.repeat(60);
    let mut times: [Vec<f64>; 4] = Default::default();
    for _ in 0..RUNS {
        times[0].push(clock::of(|| case.whole(0)).1);
        times[1].push(clock::of(|| case.repeat(0)).1);
        times[2].push(clock::of(|| case.whole(count)).1);
        times[3].push(clock::of(|| case.repeat(count)).1);
    }
    let [none, none_repeated, whole, repeated] = times.map(median);
    let [whole, repeated] = [whole - none, repeated - none_repeated].map(|time| time / count as f64);
    println!(
        "whole budget, n = {n}, m = {m}: an application {whole:.2} us, a repeat {repeated:.2} us, ratio {:.2} (of {count}); the call without one {none:.1} us, of repeats {none_repeated:.1} us; {MOST} applications {:.2} s",
        whole / repeated,
        whole * MOST as f64 / 1e6
    );
}

/// The processor time of a program in a folder, in microseconds.
fn process(program: &Path, folder: &Path, line: &str) -> std::io::Result<f64> {
    let mut command = Command::new(program);
    let command = command.current_dir(folder).stdin(Stdio::piped()).stdout(Stdio::null());
    let mut child = command.spawn()?;
    child.stdin.take().expect("a pipe was asked for").write_all(line.as_bytes())?;
    clock::of_process(&child)
}

/// The program over tables of a size it serves, with the greatest budget and with one that is always enough, beside the pair program.
fn programs([whole, pair]: [&Path; 2], folder: &Path, n: usize, m: usize) -> std::io::Result<()> {
    let (case, rows) = Case::new(n, m);
    let (left, others) = rows.split_at(case.size.left);
    let (right, public) = others.split_at(case.size.right);
    for (name, rows) in NAMES.iter().zip([left, right, public]) {
        fs::write(folder.join(name), layout::plain(n, rows))?;
    }
    let enough = (1u64 << (n + 1)) - 1;
    let lines = [format!("{MOST}\n"), format!("{enough}\n")];
    let mut times: [Vec<f64>; 3] = Default::default();
    for _ in 0..RUNS / 3 {
        times[0].push(process(whole, folder, &lines[0])?);
        times[1].push(process(whole, folder, &lines[1])?);
        times[2].push(process(pair, folder, &lines[1])?);
    }
    let [most, enough_time, plain] = times.map(median);
    println!(
        "whole program, n = {n}, m = {m}: budget {MOST} {:.2} s, {enough} {:.2} ms; pair {:.2} ms",
        most / 1e6,
        enough_time / 1e3,
        plain / 1e3
    );
    Ok(())
}

fn main() -> std::io::Result<()> {
    let given: Vec<String> = std::env::args().skip(1).collect();
    let [whole, pair] = [0, 1].map(|k| given.get(k).expect("use: bench-whole WHOLE PAIR"));
    for (n, m) in [(4, 12), (7, 2), (8, 32), (16, 64), (20, 90), (32, 138), (32, 384)] {
        calls(n, m);
    }
    let folder = std::env::temp_dir().join(format!("forkhemit-bench-whole-{}", std::process::id()));
    fs::create_dir_all(&folder)?;
    let [whole, pair] = [fs::canonicalize(whole)?, fs::canonicalize(pair)?];
    for (n, m) in [(1, 40), (2, 25), (3, 17), (4, 12), (5, 8), (6, 5), (7, 2)] {
        programs([&whole, &pair], &folder, n, m)?;
    }
    fs::remove_dir_all(folder)
}
