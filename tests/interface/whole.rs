//! Runs that go through a whole budget: budgets around the step that closes the run and the greatest one, beside the model, the plain run
//! and as many repeats; and pairs of tables that close at different steps, after which all that was lent is the same.

use crate::calls::{numbers, Call, Function, Lent};
use crate::circuits::Circuits;
use crate::indexed::{self, taken};
use crate::{draw, judge, shown};
use forkhemit_tests::memory;
use forkhemit_tests::model::{self, Row, Run, Size, WHOLE_BUDGET};
use forkhemit_tests::random::Random;
use forkhemit_tests::report::{Ledger, Tally};
use forkhemit_tests::{tables, whole};
use std::collections::BTreeSet;

const SEED: u64 = 1_111_000;
/// Runs that stay open longer are cut: no budget here is much larger.
const PATIENCE: u64 = 400;
/// Elements after those that a call uses: it must leave them.
const MORE: usize = 5;

/// Sizes of few wires, with public rows and without.
#[rustfmt::skip]
const SIZES: [[usize; 4]; 12] = [
    [1, 1, 1, 0], [1, 2, 1, 1], [2, 1, 1, 0], [2, 2, 3, 1], [3, 2, 2, 0], [3, 4, 3, 4], [4, 5, 6, 0], [4, 6, 5, 7], [5, 9, 9, 3], [6, 12, 10, 4],
    [7, 1, 1, 0], [8, 16, 15, 3],
];

/// The size of these numbers.
fn size([n, left, right, public]: [usize; 4]) -> Size {
    Size { n, left, right, public }
}

/// A call over tables with buffers of the given number of elements more than it uses, all of them set to some number.
fn call(size: Size, rows: &[Row], budget: u64, more: usize, circuits: &Circuits) -> Result<Call, String> {
    let mut lent = draw::lent_tables(size, rows, &mut Random::new(SEED));
    let inputs = memory::input_wires(size);
    let wires = inputs + circuits.words(size)?.len() / 3;
    lent.extend([Lent::Words(vec![77; 3 * size.ceiling() + more]), Lent::Bytes(vec![77; inputs + more])]);
    lent.extend([Lent::Bytes(vec![77; wires + more]), Lent::Numbers(vec![77; 3])]);
    Ok(Call { function: Function::SolveWhole, numbers: [numbers(size), vec![budget]].concat(), lent })
}

/// What the other ways to the same verdict give: the plain run under the same budget, and as many repeats of the circuit at most.
fn beside(size: Size, rows: &[Row], budget: u64, circuits: &Circuits, guard: usize) -> Result<Vec<[u64; 2]>, String> {
    let tables = draw::lent_tables(size, rows, &mut Random::new(SEED));
    let lent = [&tables[..], &[Lent::Numbers(vec![7; 3])]].concat();
    let plain = taken(Function::Solve, size, &[budget], lent, guard)?;
    let inputs = memory::input_wires(size);
    let wires = inputs + circuits.words(size)?.len() / 3;
    let room = [Lent::Words(vec![7; 3 * size.ceiling()]), Lent::Bytes(vec![7; inputs]), Lent::Bytes(vec![7; wires])];
    let run = [Lent::Run(memory::run_words(&Run::fresh(size.n))), Lent::Numbers(vec![7; 2])];
    let repeated = taken(Function::Repeat, size, &[budget], [&tables[..], &room, &run].concat(), guard)?;
    let words = repeated[6].words();
    let model = if words[1] == 1 { words[2] } else { 0 };
    let plain = plain[3].numbers();
    Ok(vec![[plain[1], plain[2]], [words[1].into(), model.into()]])
}

/// Makes a call, holds it to the model, and verdict and model to the plain run's and to the repeats'.
fn through(size: Size, rows: &[Row], budget: u64, more: usize, circuits: &Circuits, guard: usize) -> Option<String> {
    let failed = |failure: String| Some(crate::cut(format!("{size:?}, budget {budget}: {failure}\n  {rows:?}")));
    let call = match call(size, rows, budget, more, circuits) {
        Ok(call) => call,
        Err(failure) => return failed(failure),
    };
    let given = match judge(&call, circuits, guard) {
        Ok(given) if given.number == 0 => given,
        Ok(given) => return failed(format!("refused with {}", given.number)),
        Err(failure) => return failed(format!("{failure}\n  {}", shown(&call))),
    };
    let answer = given.lent[6].numbers();
    match beside(size, rows, budget, circuits, guard) {
        Err(failure) => failed(failure),
        Ok(others) if answer[0] != budget || others.iter().any(|other| answer[1..] != *other) => {
            failed(format!("the answer is {answer:?}, other ways give {others:?}"))
        }
        Ok(_) => None,
    }
}

/// Budgets around the step that closes a run: none, one, one less, just enough, one more and many more.
pub fn budgets(circuits: &Circuits, guard: usize) -> Tally {
    let ledger = Ledger::default();
    let tables = if guard > 0 { 12 } else { 1 };
    for (place, size) in SIZES.map(size).into_iter().enumerate() {
        for number in 0..tables {
            let random = &mut Random::new(SEED + (place * 100 + number) as u64);
            let rows = if number % 2 == 0 { indexed::rows(size, random) } else { mixed(size, random) };
            let found = model::run(size.n, &rows, PATIENCE);
            ledger.kind(&format!("{:?}", found.standing).to_lowercase(), 1);
            let steps = found.steps;
            let budgets = BTreeSet::from([0, 1, steps - 1, steps, steps + 1, 2 * steps + 3]);
            for (budget, more) in budgets.into_iter().zip([0, MORE].into_iter().cycle()) {
                ledger.test(through(size, &rows, budget, more, circuits, guard));
            }
        }
    }
    ledger.close(&format!("whole budgets around the closing step, seeds from {SEED}"))
}

/// Rows of any width, empty ones and padding among them.
fn mixed(size: Size, random: &mut Random) -> Vec<Row> {
    let row = |_| match random.below(12) {
        0 => vec![],
        1 => tables::strict(size.n, 2, random).into_iter().flat_map(|literal| [literal, -literal]).collect(),
        _ => {
            let width = random.between(1, 4);
            tables::strict(size.n, width, random)
        }
    };
    (0..size.rows()).map(row).collect()
}

/// The greatest budget, over small tables that close early; one more is refused and changes nothing.
pub fn greatest(circuits: &Circuits, guard: usize) -> Tally {
    let ledger = Ledger::default();
    let sizes = if guard > 0 { &SIZES[..5] } else { &SIZES[..1] };
    for (place, size) in sizes.iter().copied().map(size).enumerate() {
        let rows = mixed(size, &mut Random::new(SEED + place as u64));
        ledger.test(through(size, &rows, WHOLE_BUDGET, MORE, circuits, guard));
        let refused = call(size, &rows, WHOLE_BUDGET + 1, MORE, circuits).and_then(|call| {
            let given = judge(&call, circuits, guard)?;
            Ok((given.number, given.lent == call.lent))
        });
        ledger.test((refused != Ok((23, true))).then(|| format!("{size:?}, 65,536 applications: {refused:?}")));
    }
    ledger.close("the greatest budget, and one more")
}

/// Tables of one size that close at different steps with the same verdict and model: under one budget the calls leave the same in every
/// buffer but the tables, where as many repeats leave different counts.
pub fn alike(circuits: &Circuits, guard: usize) -> Tally {
    let ledger = Ledger::default();
    let sizes = if guard > 0 { &SIZES[2..] } else { &SIZES[3..5] };
    for (place, size) in sizes.iter().copied().map(size).enumerate() {
        let random = &mut Random::new(SEED + place as u64);
        let draw = |number| if number % 2 == 0 { indexed::rows(size, random) } else { mixed(size, random) };
        let mut pairs = whole::pairs(size, 60, draw);
        pairs.truncate(6);
        ledger.test(pairs.is_empty().then(|| format!("{size:?}: no two tables close at different steps")));
        for [first, second] in &pairs {
            let steps = [first, second].map(|(_, answer)| answer.steps);
            for budget in [steps[0].max(steps[1]), steps[0].max(steps[1]) + 9] {
                let left = |rows: &[Row]| -> Result<Vec<Lent>, String> {
                    let given = judge(&call(size, rows, budget, MORE, circuits)?, circuits, guard)?;
                    Ok(given.lent[3..].to_vec())
                };
                let failure = match (left(&first.0), left(&second.0)) {
                    (Ok(one), Ok(other)) if one == other => None,
                    (one, other) => Some(crate::cut(format!("{size:?}, {steps:?} steps: {one:?}\n  {other:?}"))),
                };
                ledger.kind(&format!("{:?}", first.1.standing).to_lowercase(), 1);
                ledger.test(failure);
            }
        }
    }
    ledger.close(&format!("tables that close at different steps, and what their calls leave, seeds from {SEED}"))
}
