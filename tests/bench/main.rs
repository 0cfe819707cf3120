//! Times the pair program beside other solvers, as whole processes. Use: bench PAIR
//! Every accepted public file is split in halves for the pair program, with no public rows, and given whole to the others, beforehand.

use forkhemit_tests::process::NAMES;
use forkhemit_tests::{clock, layout, published};
use std::fs;
use std::path::{Path, PathBuf};
use std::process::{Command, Stdio};

const RUNS: usize = 30;
/// Solvers of Debian's packages of the same names, with what keeps them quiet.
const SOLVERS: [(&str, &[&str]); 3] = [("cadical", &["-q"]), ("picosat", &[]), ("minisat", &["-verb=0"])];

/// Something that is timed: a label, and how to run it once, which gives its time from start to end and of the processor, in microseconds.
struct Contender {
    label: String,
    run: Box<dyn Fn() -> std::io::Result<[f64; 2]>>,
}

/// The times of each contender in microseconds, from start to end and of the processor, their runs side by side: one of each, then
/// again. In four rounds each of the four follows each other one, since a process leaves the machine's caches to the next.
fn timed(contenders: &[Contender]) -> std::io::Result<Vec<[Vec<f64>; 2]>> {
    let mut times = vec![[vec![], vec![]]; contenders.len()];
    for run in 0..RUNS {
        for place in [0, 1, 3, 2] {
            let turn = (run + place) % contenders.len();
            let [whole, processor] = (contenders[turn].run)()?;
            times[turn][0].push(whole);
            times[turn][1].push(processor);
        }
    }
    Ok(times)
}

/// One line of a table: the contenders' medians, the first one's ratio to the fastest of the others, and the same ratio of processor
/// times, which tells more where other work goes on beside: a process that waits for its turn is not charged.
fn line(name: &str, contenders: &[Contender]) -> std::io::Result<[f64; 2]> {
    let medians: Vec<[f64; 2]> = timed(contenders)?.into_iter().map(|times| times.map(clock::median)).collect();
    let least = |kind: usize| (1..medians.len()).min_by(|&a, &b| medians[a][kind].total_cmp(&medians[b][kind]));
    let fastest = [0, 1].map(|kind| least(kind).expect("two are compared"));
    let ratios = [0, 1].map(|kind| medians[0][kind] / medians[fastest[kind]][kind]);
    let cells: String = medians.iter().map(|median| format!("{:>10.0}", median[0])).collect();
    println!("{name:<28}{cells}{:>8.2}{:>11.2}  {}", ratios[0], ratios[1], contenders[fastest[0]].label);
    Ok(ratios)
}

/// The heading of a table.
fn heading(first: &str, contenders: &[Contender]) {
    let labels: String = contenders.iter().map(|contender| format!("{:>10}", contender.label)).collect();
    println!("{first:<28}{labels}   ratio  processor  to the fastest other (median of {RUNS} runs, microseconds)");
}

/// A program in a folder, its standard input a file of it, its output thrown away.
fn process(label: &str, folder: &Path, program: &Path, arguments: &[&str], input: &str) -> Contender {
    let (folder, program, input) = (folder.to_owned(), program.to_owned(), folder.join(input));
    let arguments: Vec<String> = arguments.iter().map(|argument| argument.to_string()).collect();
    let run = move || {
        let mut command = Command::new(&program);
        command
            .args(&arguments)
            .current_dir(&folder)
            .stdin(fs::File::open(&input)?)
            .stdout(Stdio::null())
            .stderr(Stdio::null());
        clock::of_run(&mut command)
    };
    Contender { label: label.into(), run: Box::new(run) }
}

/// The pair program beside the other solvers, each by its whole path, on every accepted public file.
fn solvers(pair: &Path, others: &[PathBuf], room: &Path) -> std::io::Result<()> {
    let mut ratios = vec![];
    for file in published::files(&Path::new(env!("CARGO_MANIFEST_DIR")).join("dimacs"))? {
        if file.refused.is_some() {
            continue;
        }
        let halves = published::halves(&file.text);
        let folder = room.join(&file.name);
        fs::create_dir_all(&folder)?;
        for (name, text) in NAMES.iter().zip(halves.texts()) {
            fs::write(folder.join(name), text)?;
        }
        fs::write(folder.join("joined.cnf"), layout::plain(halves.n, &halves.tables.concat()))?;
        fs::write(folder.join("budget"), format!("{}\n", u64::MAX))?;
        let mut contenders = vec![process("pair", &folder, pair, &[], "budget")];
        for ((solver, quiet), path) in SOLVERS.iter().zip(others) {
            let arguments = [quiet, &["joined.cnf"][..]].concat();
            contenders.push(process(solver, &folder, path, &arguments, "budget"));
        }
        if ratios.is_empty() {
            heading("public file", &contenders);
        }
        ratios.push(line(&file.name, &contenders)?);
    }
    for (place, kind) in ["time", "processor time"].iter().enumerate() {
        let slower = ratios.iter().filter(|ratio| ratio[place] > 1.0).count();
        let greatest = ratios.iter().map(|ratio| ratio[place]).fold(0.0, f64::max);
        println!(
            "{kind}: slower than the fastest other on {slower} of {} files; greatest ratio {greatest:.2}",
            ratios.len()
        );
    }
    Ok(())
}

/// Where a solver is. The search is done once and not timed, as the pair program is not searched for either.
fn find(solver: &str) -> Option<PathBuf> {
    std::env::split_paths(&std::env::var_os("PATH")?).map(|folder| folder.join(solver)).find(|path| path.is_file())
}

fn main() -> std::io::Result<()> {
    let pair = std::env::args().nth(1).map(PathBuf::from).expect("use: bench PAIR");
    let missing: Vec<&str> = SOLVERS.iter().map(|solver| solver.0).filter(|solver| find(solver).is_none()).collect();
    if !missing.is_empty() {
        println!("apt-get install --no-install-recommends {}", missing.join(" "));
        std::process::exit(1);
    }
    let others: Vec<PathBuf> = SOLVERS.iter().filter_map(|solver| find(solver.0)).collect();
    let room = std::env::temp_dir().join(format!("forkhemit-bench-{}", std::process::id()));
    let done = solvers(&pair.canonicalize()?, &others, &room);
    fs::remove_dir_all(&room)?;
    done
}
