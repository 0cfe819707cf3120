//! Times the pair program beside other solvers on random tables, as whole processes. Use: bench-tables PAIR
//! Rows have three different variables, 4.3 of them a variable, split evenly between the stations; and as many as all tables hold.

use forkhemit_tests::clock::{self, median};
use forkhemit_tests::model::Row;
use forkhemit_tests::process::NAMES;
use forkhemit_tests::random::Random;
use forkhemit_tests::{layout, tables};
use std::fs;
use std::path::{Path, PathBuf};
use std::process::{Command, Stdio};

const TABLES: usize = 200;
const RUNS: usize = 4;
const SEED: u64 = 4_300;
/// Solvers of Debian's packages of the same names, with what keeps them quiet.
const SOLVERS: [(&str, &[&str]); 3] = [("cadical", &["-q"]), ("picosat", &[]), ("minisat", &["-verb=0"])];

/// A program, where it is, and its arguments.
type Contender = (String, PathBuf, Vec<&'static str>);

/// The pair program, then the solvers, each by its whole path.
fn contenders(pair: &Path) -> std::io::Result<Vec<Contender>> {
    let mut all = vec![("pair".into(), pair.canonicalize()?, vec![])];
    let path = std::env::var_os("PATH").unwrap_or_default();
    for (solver, quiet) in SOLVERS {
        let found = std::env::split_paths(&path).map(|folder| folder.join(solver)).find(|file| file.exists());
        let missing = || std::io::Error::new(std::io::ErrorKind::NotFound, format!("apt-get install {solver}"));
        all.push((solver.into(), found.ok_or_else(missing)?, [quiet, &["joined.cnf"]].concat()));
    }
    Ok(all)
}

/// The time from start to end and the processor time of a run, in microseconds.
fn time((_, program, arguments): &Contender, folder: &Path) -> std::io::Result<[f64; 2]> {
    let input = fs::File::open(folder.join("budget"))?;
    let mut command = Command::new(program);
    command.args(arguments).current_dir(folder).stdin(input).stdout(Stdio::null()).stderr(Stdio::null());
    clock::of_run(&mut command)
}

/// The least times of each contender on one table, their runs side by side.
fn table(all: &[Contender], room: &Path, n: usize, m: usize, seed: u64) -> std::io::Result<Vec<[f64; 2]>> {
    let random = &mut Random::new(seed);
    let rows: Vec<Row> = (0..m).map(|_| tables::strict(n, 3, random)).collect();
    let stations = m.min(256);
    let tables = [&rows[..stations / 2], &rows[stations / 2..stations], &rows[stations..]];
    for (name, rows) in NAMES.iter().zip(tables) {
        fs::write(room.join(name), layout::plain(n, rows))?;
    }
    fs::write(room.join("joined.cnf"), layout::plain(n, &rows))?;
    let mut least = vec![[f64::MAX; 2]; all.len()];
    for run in 0..RUNS {
        for place in 0..all.len() {
            let turn = (run + place) % all.len();
            let spent = time(&all[turn], room)?;
            (0..2).for_each(|kind| least[turn][kind] = least[turn][kind].min(spent[kind]));
        }
    }
    Ok(least)
}

/// Times every contender on random tables of four sizes.
fn run(all: &[Contender], room: &Path) -> std::io::Result<()> {
    println!("whole processes on {TABLES} random tables each, microseconds: the median of the tables, each the least of {RUNS} runs");
    for (n, m) in [(20, 86), (26, 112), (32, 138), (32, 384)] {
        let times =
            (0..TABLES).map(|k| table(all, room, n, m, SEED + k as u64)).collect::<std::io::Result<Vec<_>>>()?;
        for (kind, what) in ["time", "processor time"].iter().enumerate() {
            let medians: Vec<f64> =
                (0..all.len()).map(|k| median(times.iter().map(|times| times[k][kind]).collect())).collect();
            let fastest = medians[1..].iter().copied().fold(f64::MAX, f64::min);
            let each: Vec<String> =
                all.iter().zip(&medians).map(|(one, time)| format!("{} {time:.0}", one.0)).collect();
            println!(
                "n = {n}, m = {m}, {what}: {}; ratio to the fastest other {:.2}",
                each.join(", "),
                medians[0] / fastest
            );
        }
    }
    Ok(())
}

fn main() -> std::io::Result<()> {
    let pair = std::env::args().nth(1).map(PathBuf::from).expect("use: bench-tables PAIR");
    let room = std::env::temp_dir().join(format!("forkhemit-bench-tables-{}", std::process::id()));
    fs::create_dir_all(&room)?;
    fs::write(room.join("budget"), format!("{}\n", u64::MAX))?;
    let done = contenders(&pair).and_then(|all| run(&all, &room));
    fs::remove_dir_all(&room)?;
    done
}
