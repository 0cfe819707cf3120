//! Times whole runs by the scan, by the index and with the weighted choice side by side: their steps and the processor time, on random
//! tables, on the public files and on rosters. Use: bench-weighted DIMACS
//! Linked with the archive that `make lib` writes.

#[path = "../interface/library.rs"]
mod library;

use forkhemit_tests::clock::{self, median};
use forkhemit_tests::memory;
use forkhemit_tests::model::{Row, Size};
use forkhemit_tests::random::Random;
use forkhemit_tests::{published, tables};
use library::*;
use std::path::Path;

/// A budgeted run of the library.
#[rustfmt::skip]
type Solve = unsafe extern "C" fn(u64, u64, u64, u64, *const u32, usize, *const u32, usize, *const u32, usize, u64, *mut [u64; 3]) -> u8;

const RUNS: usize = 25;
const TABLES: usize = 200;
const SEED: u64 = 1_010_000;
const WAYS: [Solve; 3] = [forkhemit_solve, forkhemit_solve_indexed, forkhemit_solve_weighted];

/// Tables to be solved: n, and the words of the three.
type Tables = (usize, [Vec<u32>; 3]);

/// Rows as three tables.
fn split(n: usize, rows: &[Row]) -> Tables {
    let Size { left, right, .. } = Size::split(n, rows.len());
    (n, [&rows[..left], &rows[left..left + right], &rows[left + right..]].map(memory::row_words))
}

/// A whole run.
fn solve(solve: Solve, (n, [left, right, public]): &Tables) -> [u64; 3] {
    let [l, r, p] = [left, right, public].map(|words| words.len() as u64 / 2);
    let [(a, x), (b, y), (c, z)] = [left, right, public].map(|words| (words.as_ptr(), words.len()));
    let mut answer = [0; 3];
    // Tables and answer are lent for the call.
    assert_eq!(
        unsafe { solve(*n as u64, l, r, p, a, x, b, y, c, z, u64::MAX, &mut answer) },
        0,
        "the tables are taken"
    );
    answer
}

/// Steps and time of whole runs in the three ways; a line of the table.
fn runs(what: &str, all: &[Tables]) {
    let mut times = [vec![], vec![], vec![]];
    let mut steps = [0; 3];
    let (mut refuted, mut fewer) = (0, 0);
    for _ in 0..RUNS {
        let made = WAYS.map(|way| clock::of(|| all.iter().map(|tables| solve(way, tables)).collect::<Vec<_>>()));
        let [plain, indexed, weighted] = [0, 1, 2].map(|way| &made[way].0);
        assert_eq!(plain, indexed, "both give the same counts, verdicts and models");
        let verdict = |answers: &[[u64; 3]]| answers.iter().map(|answer| answer[1]).collect::<Vec<_>>();
        assert_eq!(verdict(plain), verdict(weighted), "the verdicts are the same");
        refuted = plain.iter().filter(|answer| answer[1] == 2).count();
        fewer = plain.iter().zip(weighted).filter(|(plain, weighted)| weighted[0] < plain[0]).count();
        for way in 0..WAYS.len() {
            steps[way] = made[way].0.iter().map(|answer| answer[0]).sum();
            times[way].push(made[way].1 / all.len() as f64);
        }
    }
    let [scan, indexed, weighted] = times.map(median);
    let each = |way: usize| steps[way] as f64 / all.len() as f64;
    println!(
        "{what}: steps {:.1}, weighted {:.1}, ratio {:.2}; a run by the scan {scan:.2} us, by the index {indexed:.2} us, weighted {weighted:.2} us, ratios {:.2}, {:.2}; a weighted step {:.0} ns, an indexed one {:.0} ns ({} tables, {refuted} unsatisfiable; fewer steps on {fewer})",
        each(1),
        each(2),
        each(2) / each(1),
        weighted / scan,
        weighted / indexed,
        weighted * 1e3 / each(2),
        indexed * 1e3 / each(1),
        all.len()
    );
}

/// Rows of three different variables.
fn random(n: usize, m: usize) -> Vec<Tables> {
    let table = |k: usize| {
        let random = &mut Random::new(SEED + k as u64);
        split(n, &(0..m).map(|_| tables::strict(n, 3, random)).collect::<Vec<_>>())
    };
    (0..TABLES).map(table).collect()
}

/// The rows of a roster: a pilot is on a watch or not. Every watch has a pilot of each half where there are two, and no pilot has two
/// watches.
fn roster(pilots: i64, watches: i64, halves: i64) -> Vec<Row> {
    let on = |pilot: i64, watch: i64| (pilot - 1) * watches + watch;
    let mut rows = vec![];
    for watch in 1..=watches {
        for half in 0..halves {
            let each = pilots / halves;
            rows.push((half * each + 1..=(half + 1) * each).map(|pilot| on(pilot, watch)).collect());
        }
    }
    for pilot in 1..=pilots {
        for (second, first) in (1..=watches).flat_map(|second| (1..second).map(move |first| (second, first))) {
            rows.push(vec![-on(pilot, first), -on(pilot, second)]);
        }
    }
    rows
}

/// Rosters of eight pilots and four watches with the given number of wishes that only their desks know: two pilots who are not to stand a
/// watch together, or three duties of which one is to be.
fn wished(wishes: usize) -> Vec<Tables> {
    let table = |k: usize| {
        let random = &mut Random::new(SEED + k as u64);
        let mut rows = roster(8, 4, 2);
        for _ in 0..wishes {
            let wish = match random.once_in(2) {
                true => tables::strict(32, 3, random),
                false => {
                    let (watch, pilot, next) = (random.between(1, 4), random.below(8), random.between(1, 7));
                    [pilot, (pilot + next) % 8].iter().map(|pilot| -((pilot * 4 + watch) as i64)).collect()
                }
            };
            rows.insert(random.below(rows.len() + 1), wish);
        }
        split(32, &rows)
    };
    (0..TABLES).map(table).collect()
}

/// The public files that are taken, their rows in thirds.
fn public(folder: &Path) -> std::io::Result<Vec<Tables>> {
    let files = published::files(folder)?;
    let taken = files.iter().filter(|file| file.refused.is_none()).map(|file| published::thirds(&file.text));
    Ok(taken.map(|split| (split.n, split.tables.map(|rows| memory::row_words(&rows)))).collect())
}

fn main() -> std::io::Result<()> {
    let folder = std::env::args().nth(1).expect("use: bench-weighted DIMACS");
    for (n, m) in [(20, 86), (26, 112), (32, 138), (32, 384)] {
        runs(&format!("weighted, random tables, n = {n}, m = {m}"), &random(n, m));
    }
    runs("weighted, public files", &public(Path::new(&folder))?);
    runs("weighted, rosters of 8 pilots and 4 watches, 24 wishes", &wished(24));
    runs("weighted, 60 wishes", &wished(60));
    runs("weighted, 100 wishes", &wished(100));
    runs("weighted, a roster of 5 pilots and 6 watches, which lacks a pilot", &[split(30, &roster(5, 6, 1))]);
    Ok(())
}
