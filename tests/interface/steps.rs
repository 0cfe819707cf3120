//! The bound by the variables that occur: every whole run through the library is held to it where its call is made; and the tables that take
//! most steps, all clauses of k variables, with exact counts by each entry, at once and in slices.

use crate::calls::{Call, Function, Given, Lent};
use crate::draw;
use crate::indexed::taken;
use forkhemit_tests::model::{Row, Run, Size};
use forkhemit_tests::random::Random;
use forkhemit_tests::report::{Ledger, Tally};
use forkhemit_tests::{memory, steps};

const SEED: u64 = 1_212_000;

/// Where a call that makes a whole run from the fresh state breaks the bound: its count, or that it is open though as many steps were
/// allowed.
pub fn bounded(call: &Call, given: &Given) -> Result<(), String> {
    let (run, numbers) = match call.function {
        Function::Solve | Function::SolveIndexed | Function::SolveWeighted => (None, 3),
        Function::Continue | Function::ContinueWeighted => (Some(3), 4),
        Function::Repeat => (Some(6), 7),
        Function::SolveWhole => (None, 6),
        _ => return Ok(()),
    };
    let size = match Size::new([0, 1, 2, 3].map(|k| call.numbers[k])) {
        Ok(size) if given.number == 0 => size,
        _ => return Ok(()),
    };
    let fresh = memory::run_words(&Run::fresh(size.n));
    if run.map_or(false, |k: usize| call.lent[k].words() != fresh) {
        return Ok(());
    }
    let rows = memory::accepted(size, [0, 1, 2].map(|k| call.lent[k].words()));
    let rows = rows.map_err(|number| format!("the call is taken, the model refuses its tables with {number}"))?;
    let said = given.lent[numbers].numbers();
    let held = match call.function {
        // its count is the budget
        Function::SolveWhole => steps::decided(&rows, call.numbers[4], said[1] == 0),
        _ => steps::hold(&rows, call.numbers[4], said[0], said[1] == 0),
    };
    held.map_err(|failure| format!("{:?}: {failure}", call.function))
}

/// All clauses of k variables, and a padding row in every variable.
fn full(k: usize, n: usize) -> Vec<Row> {
    let clause =
        |signs: usize| (0..k).map(|v| if signs >> v & 1 == 1 { v as i64 + 1 } else { -(v as i64) - 1 }).collect();
    let padding = (1..=n as i64).flat_map(|variable| [variable, -variable]).collect();
    (0..1 << k).map(clause).chain([padding]).collect()
}

/// A whole run that counts the given number of steps: with as many allowed, more, and one too few.
fn counted(function: Function, size: Size, tables: &[Lent], count: u64, guard: usize) -> Result<(), String> {
    for (budget, expected) in [(count, [count, 2, 0]), (u64::MAX, [count, 2, 0]), (count - 1, [count - 1, 0, 0])] {
        let lent = [tables, &[Lent::Numbers(vec![7; 3])]].concat();
        let given = taken(function, size, &[budget], lent, guard)?;
        if given[3].numbers() != expected {
            return Err(format!("{function:?} with {budget} gives {:?} and not {expected:?}", given[3]));
        }
    }
    Ok(())
}

/// The same run in slices: the sum of their steps once it is closed, and that the slices asked for no more than the bound allows.
fn sliced(function: Function, size: Size, tables: &[Lent], each: u64, k: usize, guard: usize) -> Result<u64, String> {
    let (mut run, mut sum, mut asked) = (Lent::Run(memory::run_words(&Run::fresh(size.n))), 0, 0);
    while asked < steps::bound(k) {
        let times = each.min(steps::bound(k) - asked);
        let lent = [tables, &[run, Lent::Numbers(vec![7; 2])]].concat();
        let mut given = taken(function, size, &[times], lent, guard)?;
        sum += given[4].numbers()[0];
        asked += times;
        run = given.swap_remove(3);
    }
    match run.words()[1] {
        0 => Err(format!("{function:?}: still open after {asked} steps, {each} at a time")),
        _ => Ok(sum),
    }
}

/// One of these tables by each entry.
fn fullest_of(k: usize, n: usize, guard: usize) -> Result<(), String> {
    let rows = full(k, n);
    let size = Size::split(n, rows.len());
    let tables = draw::lent_tables(size, &rows, &mut Random::new(SEED + k as u64));
    let count = steps::best_known(k);
    for function in [Function::Solve, Function::SolveIndexed, Function::SolveWeighted] {
        counted(function, size, &tables, count, guard)?;
    }
    for function in [Function::Continue, Function::ContinueWeighted] {
        for each in [1, 2, 7, 100] {
            let sum = sliced(function, size, &tables, each, k, guard)?;
            if sum != count {
                return Err(format!("{function:?}, {each} at a time: {sum} steps and not {count}"));
            }
        }
    }
    Ok(())
}

/// The tables that take most steps, with as many variables as occur and with 32: 3 * 2^(k-1) - 1 steps, and 1 where k is 0.
pub fn fullest(guard: usize) -> Tally {
    let ledger = Ledger::default();
    for k in 0..=if guard > 0 { 8 } else { 4 } {
        for n in [k.max(1), 32] {
            let failure = fullest_of(k, n, guard).err();
            ledger.test(failure.map(|failure| format!("k {k}, n {n}: {failure}")));
        }
    }
    ledger.close("all clauses of k variables, by each entry and in slices")
}
