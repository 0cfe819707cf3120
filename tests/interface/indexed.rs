//! Runs with index and number beside the plain scan's, step by step; damaged indexes and numbers; whole runs.

use crate::calls::{numbers, Call, Function, Lent};
use crate::circuits::Circuits;
use crate::{draw, judge, shown};
use forkhemit_tests::memory::{self, INDEX_WORDS};
use forkhemit_tests::model::{Row, Run, Size, Standing};
use forkhemit_tests::random::Random;
use forkhemit_tests::report::{Ledger, Tally};
use forkhemit_tests::{states, tables};

const SEED: u64 = 303_000;
/// Rows of all tables: few, about one word's 64, and about as many as there may be.
pub const COUNTS: [usize; 7] = [2, 63, 64, 65, 128, 383, 384];
/// How far a run from the fresh state is followed, and one that is handed over.
const STEPS: usize = 150;
const MORE_STEPS: usize = 6;

/// `count` rows as three tables: without public rows where two tables can hold them, with 1, with 63, and with as many as may be.
pub fn sizes(n: usize, count: usize) -> Vec<Size> {
    let most = (count - 2).min(128);
    let mut publics = vec![0, 1, 63, most];
    publics.retain(|&public| public <= most && count - public <= 256);
    publics.dedup();
    let split = |public| {
        let stations = count - public;
        // the stations' tables end within a word of the index, and at its end where that can be
        let left = if stations > 64 && stations <= 192 { 64 } else { stations / 2 };
        Size { n, left, right: stations - left, public }
    };
    publics.into_iter().map(split).collect()
}

/// Rows on which runs take many steps: three variables each, or wide and negative ones, among them padding.
pub fn rows(size: Size, random: &mut Random) -> Vec<Row> {
    let n = size.n;
    let odds = *random.pick(&[1, 2, 4, 50]);
    let deep = random.once_in(4);
    let row = |_| match random.below(8) {
        _ if odds > 1 && random.once_in(odds) => {
            let row = tables::strict(n, 2, random);
            [&row[..], &[-row[0]]].concat()
        }
        0 if deep => (1..=n as i64).map(|v| if v < n as i64 { -v } else { v }).collect(),
        _ if deep => (1..=n as i64).rev().map(|v| -v).collect(),
        0 => tables::strict(n, 2, random),
        _ => tables::strict(n, 3, random),
    };
    (0..size.rows()).map(row).collect()
}

/// What a call gives, where it is taken; `more` are its numbers after the size.
pub fn taken(function: Function, size: Size, more: &[u64], lent: Vec<Lent>, guard: usize) -> Result<Vec<Lent>, String> {
    let call = Call { function, numbers: [&numbers(size), more].concat(), lent };
    let given = call.make(guard)?;
    match given.number {
        0 => Ok(given.lent),
        number => Err(format!("{function:?} is refused with {number}\n  {}", shown(&call))),
    }
}

/// The tables' index, where it is the model's.
pub fn index(size: Size, tables: &[Lent], rows: &[Row], guard: usize) -> Result<Lent, String> {
    let lent = [tables, &[Lent::Numbers(vec![7; INDEX_WORDS])]].concat();
    let mut given = taken(Function::Index, size, &[], lent, guard)?;
    let index = given.pop().expect("an index is lent");
    match index.numbers() == memory::index(rows) && given == tables {
        true => Ok(index),
        false => Err(format!("the index of {rows:?} is {index:?}")),
    }
}

/// The number of a run, which is left as it is.
pub fn number(size: Size, tables: &[Lent], run: &[u32], guard: usize) -> Result<u64, String> {
    let lent = [tables, &[Lent::Run(run.to_vec()), Lent::Numbers(vec![7])]].concat();
    let given = taken(Function::Unsatisfied, size, &[], lent.clone(), guard)?;
    match given[..4] == lent[..4] {
        true => Ok(given[4].numbers()[0]),
        false => Err("a buffer is changed that is only looked at".into()),
    }
}

/// One step with index and number beside the plain scan's and the model's; what is then lent to the next.
fn step(size: Size, lent: Vec<Lent>, run: &mut Run, rows: &[Row], guard: usize) -> Result<Vec<Lent>, String> {
    let plain = [&lent[..3], &lent[4..5]].concat();
    let plain = taken(Function::Step, size, &[], plain, guard)?;
    let given = taken(Function::StepIndexed, size, &[], lent.clone(), guard)?;
    run.step(rows);
    let numbers = [run.unsatisfied(rows), number(size, &lent[..3], plain[3].words(), guard)?];
    if given[..4] != lent[..4] || given[4] != plain[3] || given[4].words() != memory::run_words(run) {
        return Err(format!("after a step from {:?} the run is {:?}", lent[4], given[4]));
    }
    match given[5].numbers() {
        [number] if numbers == [*number; 2] => Ok(given),
        other => Err(format!("after a step from {:?} the number is {other:?} and not {numbers:?}", lent[4])),
    }
}

/// A run followed for some steps, and one more after it is closed.
fn follow(size: Size, rows: &[Row], mut run: Run, steps: usize, ledger: &Ledger, guard: usize, random: &mut Random) {
    let tables = draw::lent_tables(size, rows, random);
    let words = memory::run_words(&run);
    let begun = index(size, &tables, rows, guard).and_then(|index| {
        let number = number(size, &tables, &words, guard)?;
        Ok([&tables[..], &[index, Lent::Run(words), Lent::Numbers(vec![number])]].concat())
    });
    let failed = |failure: String| ledger.test(Some(format!("{size:?}: {failure}\n  {rows:?}")));
    let mut lent = match begun {
        Ok(lent) => lent,
        Err(failure) => return failed(failure),
    };
    ledger.test(None);
    for _ in 0..steps {
        let before = (run.standing, run.levels.len());
        match step(size, lent, &mut run, rows, guard) {
            Ok(given) => lent = given,
            Err(failure) => return failed(failure),
        }
        ledger.kind("levels removed", usize::from(run.levels.len() < before.1));
        ledger.test(None);
        if run.standing == before.0 && run.standing != Standing::Open {
            return ledger.kind("closed", 1);
        }
    }
}

/// A number of tables of each size, for all row counts; of the numbers of variables one is such that runs are long.
pub fn each_table(seed: u64, tables: u64, mut act: impl FnMut(Size, &[Row], &mut Random)) {
    for count in COUNTS {
        let long = (count * 10 / 43).clamp(1, 32);
        for size in [1, 3, long, 32].into_iter().flat_map(|n| sizes(n, count)) {
            for table in 0..tables {
                let random = &mut Random::new(seed + table + (size.public << 24 | size.n << 16 | count << 4) as u64);
                act(size, &rows(size, random), random);
            }
        }
    }
}

/// A run of every depth for several numbers of variables and all row counts, fewer without guards; no run need have reached it.
pub fn each_depth(seed: u64, guard: usize, mut act: impl FnMut(Size, Run, &mut Random)) {
    for n in if guard > 0 { vec![1, 4, 20, 32] } else { vec![32] } {
        for depth in 0..=n {
            for (place, &count) in COUNTS.iter().enumerate().filter(|(place, _)| guard > 0 || depth % 7 == *place) {
                let random = &mut Random::new(seed + (place << 16 | n << 8 | depth) as u64);
                let size = *random.pick(&sizes(n, count));
                act(size, states::at_depth(n, depth, random), random);
            }
        }
    }
}

/// Runs from the fresh state over tables of all row counts; of the numbers of variables one is such that the runs are long.
pub fn runs(guard: usize) -> Tally {
    let ledger = Ledger::default();
    let (tables, steps) = if guard > 0 { (5, STEPS) } else { (1, STEPS / 10) };
    each_table(SEED, tables, |size, rows, random| {
        follow(size, rows, Run::fresh(size.n), steps, &ledger, guard, random)
    });
    ledger.close(&format!("steps with index and number beside the plain scan's, seeds from {SEED}"))
}

/// States of every depth that no run need have reached, and the steps from them.
pub fn handed_over(guard: usize) -> Tally {
    let ledger = Ledger::default();
    each_depth(SEED, guard, |size, run, random| {
        let rows = states::table(size.rows(), &run.values, random);
        follow(size, &rows, run, MORE_STEPS, &ledger, guard, random);
    });
    ledger.close(&format!("steps with index and number from states of every depth, seeds from {SEED}"))
}

/// Tables with their index, a run of n variables and its number.
fn right(size: Size, n: usize, random: &mut Random) -> Vec<Lent> {
    let run = states::random(n, random);
    let rows = states::table(size.rows(), &run.values[..size.n], random);
    let tables = draw::lent_tables(size, &rows, random);
    let besides = draw::indexed(size, &tables, memory::run_words(&run));
    [tables, besides.to_vec()].concat()
}

/// An index with one bit changed, each of its words in turn, and every number of rows that is not the run's, and some beyond.
fn strikes(lent: &[Lent], random: &mut Random) -> Vec<(String, Vec<Lent>)> {
    let struck = |k: usize, at: usize, to: u64| {
        let mut numbers = lent[k].numbers().to_vec();
        numbers[at] = to;
        [&lent[..k], &[Lent::Numbers(numbers)], &lent[k + 1..]].concat()
    };
    let (index, number) = (lent[3].numbers(), lent[5].numbers()[0]);
    let word = |at: usize| {
        let to = index[at] ^ 1 << random.below(64);
        (format!("word {at} of the index is {to}"), struck(3, at, to))
    };
    let mut strikes: Vec<_> = (0..INDEX_WORDS).map(word).collect();
    let beyond = [number.wrapping_sub(1), number ^ 256, number ^ 1 << 32, u64::MAX];
    let others = beyond.into_iter().chain(0..=385).filter(|&other| other != number);
    strikes.extend(others.map(|other| (format!("the number {other}"), struck(5, 0, other))));
    strikes
}

/// Damaged indexes and numbers, over the run of the tables' n and over one of another: 12, and nothing is changed.
pub fn damaged(circuits: &Circuits, guard: usize) -> Tally {
    let ledger = Ledger::default();
    let all = [(32, 384, 32), (5, 65, 5), (5, 64, 6), (1, 2, 32)];
    for (n, count, other) in all.into_iter().take(if guard > 0 { all.len() } else { 1 }) {
        let random = &mut Random::new(SEED + (n << 16 | count) as u64);
        let size = *random.pick(&sizes(n, count));
        for (what, lent) in strikes(&right(size, other, random), random) {
            let call = Call { function: Function::StepIndexed, numbers: numbers(size), lent };
            let failure = match judge(&call, circuits, guard) {
                Ok(given) if given.number == 12 && given.lent == call.lent => None,
                Ok(given) => Some(format!("{} and not 12, or a buffer is changed", given.number)),
                Err(failure) => Some(failure),
            };
            ledger.test(failure.map(|failure| format!("{size:?}, {what}: {failure}\n  {}", shown(&call))));
        }
    }
    ledger.close("damaged indexes and numbers")
}

/// Whole runs by the index and by the scan: budgets of nothing, a step, all steps but one, all, and the greatest.
pub fn solved(guard: usize) -> Tally {
    let ledger = Ledger::default();
    let tables = if guard > 0 { 6 } else { 1 };
    for size in COUNTS.iter().flat_map(|&count| [1, 6, 14, 20].map(|n| sizes(n, count)).concat()) {
        for table in 0..tables {
            let random = &mut Random::new(SEED + table + (size.public << 24 | size.n << 16 | size.rows()) as u64);
            let rows = rows(size, random);
            let mut lent = draw::lent_tables(size, &rows, random);
            lent.push(Lent::Numbers(vec![7; 3]));
            let answers = |budget: u64| {
                let of = |function| taken(function, size, &[budget], lent.clone(), guard);
                Ok((of(Function::Solve)?, of(Function::SolveIndexed)?))
            };
            let steps = answers(u64::MAX).map_or(1, |(answer, _): (Vec<Lent>, _)| answer[3].numbers()[0]);
            for budget in [0, 1, steps - 1, steps, steps + 1, u64::MAX] {
                let failure = match answers(budget) {
                    Err(failure) => Some(failure),
                    Ok((plain, indexed)) if plain != indexed => Some(format!("{:?} and not {:?}", indexed, plain)),
                    Ok((plain, _)) => {
                        ledger.kind(["open", "satisfied", "refuted"][plain[3].numbers()[1] as usize], 1);
                        None
                    }
                };
                ledger.test(failure.map(|failure: String| format!("{size:?}, budget {budget}: {failure}\n  {rows:?}")));
            }
        }
    }
    ledger.close(&format!("whole runs by the index beside the plain ones, seeds from {SEED}"))
}
