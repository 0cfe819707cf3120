//! What is seen of the whole program from outside, beside what it prints: its system calls, and how many instructions it takes, for two
//! pairs of tables that have the same sizes, public rows, verdict and model and close at different steps. Held to be the same: the output, the
//! list of system calls, and instructions as far as no packing or reading back of levels and no text is in them; the rest is printed. Texts
//! are filled up to one length.

use crate::circuits::size;
use crate::model::{Row, Run, Size, Standing};
use crate::process::{Room, Source};
use crate::random::Random;
use crate::report::{self, Ledger, Tally};
use crate::whole::{filled, pairs, to_pair, Closed};
use std::path::Path;

const SEED: u64 = 1_111_900;
/// How long each text is made.
const LENGTH: usize = 400;
/// Applications after the later of the two closing steps.
const BEHIND: u64 = 40;
const SIZES: [[usize; 4]; 5] = [[2, 2, 2, 1], [3, 7, 7, 3], [4, 5, 5, 2], [5, 4, 4, 0], [6, 2, 2, 1]];

/// What one run shows.
struct Shown {
    output: Vec<u8>,
    calls: Vec<String>,
    instructions: u64,
}

/// A system call as it is compared: its number, and of what reads, writes, opens, closes or ends all but the places in memory. What the C
/// library does before the program starts may go by the process's number and by random bytes, of which nothing is compared.
fn call(line: &str) -> Option<String> {
    let line = line.strip_prefix("SYSCALL[")?.split_once("](")?.1;
    let (number, rest) = line.split_once(')')?;
    if !["0", "1", "3", "231", "257"].contains(&number) {
        return Some(number.into());
    }
    let place = |word: &&str| !word.starts_with("0x") || word.contains('(');
    let words: Vec<&str> = rest.split(|c| c == ' ' || c == ',').filter(place).collect();
    Some(format!("{number}{}", words.join(" ")))
}

/// The number after these words in what the tool says.
fn number(said: &str, before: &str) -> Option<u64> {
    let digits = said.split_once(before)?.1.trim_start();
    let digits: String = digits.chars().take_while(|c| !c.is_whitespace()).filter(char::is_ascii_digit).collect();
    digits.parse().ok()
}

/// Runs the program once.
fn shown(room: &Room, files: &[Source; 3], budget: u64) -> Result<Shown, String> {
    let (ran, said) = room.run_traced(files, format!("{budget:05}\n").as_bytes()).map_err(|error| error.to_string())?;
    if let Some(fault) = ran.fault {
        return Err(fault);
    }
    let calls: Vec<String> = said.lines().filter_map(call).collect();
    let instructions = number(&said, "guest instrs:").ok_or("no instructions are counted")?;
    if calls.iter().filter(|call| call.starts_with("1 ")).count() == 0 {
        return Err(format!("no write is listed: {calls:?}"));
    }
    Ok(Shown { output: ran.output, calls, instructions })
}

/// Whether a run of these rows makes no choice before it closes.
fn forced_alone(size: Size, rows: &[Row]) -> bool {
    let mut run = Run::fresh(size.n);
    while run.standing == Standing::Open {
        run.step(rows);
        if !run.levels.is_empty() {
            return false;
        }
    }
    true
}

/// How many levels are left where a run closes.
fn last_depth(size: Size, rows: &[Row]) -> usize {
    let mut run = Run::fresh(size.n);
    while run.standing == Standing::Open {
        run.step(rows);
    }
    run.levels.len()
}

/// Two pairs of tables side by side, with the budgets 0, just enough for the later one, and more.
fn alike(size: Size, both: &[Closed; 2], [room, pair]: &[Room; 2], ledger: &Ledger) -> Result<(), String> {
    let steps = [&both[0], &both[1]].map(|(_, answer)| answer.steps);
    let most = steps[0].max(steps[1]);
    let files = [&both[0], &both[1]].map(|(rows, _)| filled(size, rows, LENGTH));
    let mut spent = [[0; 3]; 2];
    for (place, budget) in [0, most, most + BEHIND].into_iter().enumerate() {
        let [one, other] = [shown(room, &files[0], budget)?, shown(room, &files[1], budget)?];
        if one.output != other.output {
            return Err(format!("{} and {}", report::quoted(&one.output), report::quoted(&other.output)));
        }
        if one.calls != other.calls {
            return Err(format!("budget {budget}: the system calls are {:?}\n  and {:?}", one.calls, other.calls));
        }
        ledger.kind("system calls alike", one.calls.len());
        spent[0][place] = one.instructions;
        spent[1][place] = other.instructions;
    }
    // what the pair program prints tells the two from each other
    let line = format!("{most}\n").into_bytes();
    let plain = [&files[0], &files[1]].map(|files| pair.run(files, &line).map(|ran| ran.output));
    if matches!(&plain, [Ok(one), Ok(other)] if one == other) {
        return Err("the pair program prints the same, and nothing is shown".into());
    }
    let part = |from: usize, to: usize| spent.map(|spent| spent[to] - spent[from]);
    let [reading, closing, behind] = [spent.map(|spent| spent[0]), part(0, 1), part(1, 2)];
    println!(
        "  {size:?}, {:?} after {steps:?} steps: {reading:?} instructions without an application, {closing:?} more for {most}, {behind:?} more for {BEHIND} behind them",
        both[0].1.standing
    );
    let forced = both.iter().all(|(rows, _)| forced_alone(size, rows));
    if forced && closing[0] != closing[1] {
        return Err(format!("applications without a choice take {closing:?} instructions"));
    }
    let depths = [&both[0], &both[1]].map(|(rows, _)| last_depth(size, rows));
    if depths == [0, 0] && behind[0] != behind[1] {
        return Err(format!("applications behind the close take {behind:?} instructions"));
    }
    ledger.kind("pairs without a choice", usize::from(forced));
    ledger.kind("pairs that close without a level", usize::from(depths == [0, 0]));
    Ok(())
}

/// Document 01's example and tables with its model that close a step earlier: read alike too, since they have the same tokens.
fn example(rooms: &[Room; 2], ledger: &Ledger) -> Result<(), String> {
    let size = size([2, 1, 1, 0]);
    let [three, two]: [Vec<Row>; 2] = [vec![vec![1, 2], vec![-1]], vec![vec![2], vec![1, -1]]];
    let spent = |rows: &[Row]| shown(&rooms[0], &filled(size, rows, LENGTH), 9).map(|shown| shown.instructions);
    let spent = [spent(&three)?, spent(&two)?];
    ledger.kind("instructions of the example", spent[0] as usize);
    match spent[0] == spent[1] {
        true => Ok(()),
        false => Err(format!("the example: {spent:?} instructions")),
    }
}

/// Runs both programs side by side.
pub fn run(program: &Path, pair: &Path) -> std::io::Result<Tally> {
    let ledger = Ledger::default();
    let rooms = [Room::new(program, 0)?, Room::new(pair, 1)?];
    ledger.test(example(&rooms, &ledger).err());
    for size in SIZES.map(size) {
        let random = &mut Random::new(SEED + size.n as u64);
        let public: Vec<Row> = to_pair(Size { left: size.public, right: 0, ..size }, &[], random);
        let mut found = pairs(size, 400, |_| to_pair(size, &public, random));
        found.sort_by_key(|[first, last]| first.1.steps.abs_diff(last.1.steps));
        let forced: Vec<[Closed; 2]> =
            found.iter().filter(|both| both.iter().all(|(rows, _)| forced_alone(size, rows))).cloned().collect();
        ledger.test(found.is_empty().then(|| format!("{size:?}: no two tables close at different steps")));
        for both in found.iter().rev().take(1).chain(forced.iter().rev().take(1)) {
            let failure = alike(size, both, &rooms, &ledger).err();
            ledger.test(failure.map(|failure| format!("{size:?}, {both:?}: {failure}")));
        }
    }
    Ok(ledger.close(&format!("the whole program seen from outside, seeds from {SEED}")))
}
