//! Steps that tell their rule: states written by hand with what is told of each, then every step of random runs, and steps from states of
//! every depth. Each leaves the run as the plain step does.

use crate::calls::{numbers, Call, Function, Lent};
use crate::circuits::Circuits;
use crate::indexed::{each_depth, each_table};
use crate::{draw, judge, shown};
use forkhemit_tests::memory;
use forkhemit_tests::model::Standing::{self, Open, Refuted, Satisfied};
use forkhemit_tests::model::{Row, Run, Size};
use forkhemit_tests::random::Random;
use forkhemit_tests::report::{Ledger, Tally};
use forkhemit_tests::states;

const SEED: u64 = 707_000;
/// How far a run from the fresh state is followed, and one that is handed over.
const STEPS: usize = 150;
const MORE_STEPS: usize = 6;
const RULES: [&str; 6] = ["closed", "all satisfied", "conflict with a level", "without one", "forced", "chosen"];

/// A state by its standing, the variables that its levels chose in turn from 0, and the literals set besides; the rows of the three
/// tables; and rule, row, variable and value that its step tells.
struct Written {
    what: &'static str,
    n: usize,
    tables: [&'static [&'static [i64]]; 3],
    standing: Standing,
    chosen: &'static [usize],
    set: &'static [i64],
    told: [u64; 4],
}

/// Worked out by hand from document 02.
#[rustfmt::skip]
const WRITTEN: &[Written] = &[
    Written { what: "all rows satisfied, one of them padding", n: 2, tables: [&[&[1]], &[&[2, -2]], &[]], standing: Open, chosen: &[], set: &[1], told: [1, 0, 0, 0] },
    Written { what: "a conflict without a level", n: 1, tables: [&[&[1]], &[&[-1]], &[]], standing: Open, chosen: &[], set: &[1], told: [3, 2, 0, 0] },
    Written { what: "an empty row, which is in conflict at once", n: 1, tables: [&[&[1]], &[&[]], &[]], standing: Open, chosen: &[], set: &[], told: [3, 2, 0, 0] },
    Written { what: "a conflict with a level", n: 3, tables: [&[&[1]], &[&[-1, -3]], &[]], standing: Open, chosen: &[0, 2], set: &[], told: [2, 2, 3, 0] },
    Written { what: "two rows in conflict, behind one that forces", n: 3, tables: [&[&[2]], &[&[-1], &[-1]], &[&[-1]]], standing: Open, chosen: &[0], set: &[], told: [2, 2, 1, 0] },
    Written { what: "a conflict in the last public row", n: 2, tables: [&[&[1]], &[&[1]], &[&[1], &[-1]]], standing: Open, chosen: &[], set: &[1], told: [3, 4, 0, 0] },
    Written { what: "forced true", n: 2, tables: [&[&[1, 2]], &[&[2]], &[]], standing: Open, chosen: &[], set: &[], told: [4, 2, 2, 1] },
    Written { what: "forced false", n: 2, tables: [&[&[1, 2]], &[&[-2]], &[]], standing: Open, chosen: &[], set: &[], told: [4, 2, 2, 0] },
    Written { what: "two rows that force the literal", n: 2, tables: [&[&[1, -2]], &[&[-2]], &[&[-2]]], standing: Open, chosen: &[], set: &[], told: [4, 2, 2, 0] },
    Written { what: "both signs forced, the negative one first", n: 1, tables: [&[&[-1]], &[&[-1]], &[&[1]]], standing: Open, chosen: &[], set: &[], told: [4, 3, 1, 1] },
    Written { what: "a higher variable forced first", n: 3, tables: [&[&[3]], &[&[2]], &[&[-1]]], standing: Open, chosen: &[], set: &[], told: [4, 3, 1, 0] },
    Written { what: "forced by what the state makes of a row", n: 3, tables: [&[&[1, 3]], &[&[-1, 2, 3]], &[&[-2, 3]]], standing: Open, chosen: &[0], set: &[-2], told: [4, 2, 3, 1] },
    Written { what: "padding that holds the literal comes first", n: 2, tables: [&[&[2, -2]], &[&[2]], &[]], standing: Open, chosen: &[], set: &[], told: [4, 2, 2, 1] },
    Written { what: "a satisfied row with the literal comes first", n: 2, tables: [&[&[1, 2]], &[&[-1, 2]], &[]], standing: Open, chosen: &[], set: &[1], told: [4, 2, 2, 1] },
    Written { what: "the highest variable of all", n: 32, tables: [&[&[32]], &[&[32]], &[]], standing: Open, chosen: &[], set: &[], told: [4, 1, 32, 1] },
    Written { what: "chosen", n: 3, tables: [&[&[2, 3]], &[&[-3, 2]], &[]], standing: Open, chosen: &[], set: &[], told: [5, 0, 2, 1] },
    Written { what: "chosen below a level", n: 4, tables: [&[&[1, 2]], &[&[-3, -4]], &[]], standing: Open, chosen: &[0], set: &[], told: [5, 0, 3, 1] },
    Written { what: "satisfied already", n: 1, tables: [&[&[1]], &[&[1]], &[]], standing: Satisfied, chosen: &[], set: &[1], told: [0, 0, 0, 0] },
    Written { what: "satisfied already, over rows in conflict", n: 1, tables: [&[&[]], &[&[]], &[]], standing: Satisfied, chosen: &[], set: &[], told: [0, 0, 0, 0] },
    Written { what: "refuted already", n: 1, tables: [&[&[-1]], &[&[1]], &[]], standing: Refuted, chosen: &[0], set: &[], told: [0, 0, 0, 0] },
];

impl Written {
    /// The state, its literals being set before the first level.
    fn run(&self) -> Run {
        let value = |v: i64| self.set.iter().find(|literal| literal.abs() == v).map(|&literal| (0, literal > 0));
        let others: Vec<_> = (1..=self.n as i64).map(value).collect();
        states::state(self.standing, self.chosen, &others)
    }
}

/// One step that tells its rule, beside the plain step, both as the model has them; what is told.
fn step(size: Size, tables: &[Lent], run: &Run, circuits: &Circuits, guard: usize) -> Result<[u64; 4], String> {
    let made = |function: Function, besides: &[Lent]| {
        let lent = [tables, &[Lent::Run(memory::run_words(run))], besides].concat();
        let call = Call { function, numbers: numbers(size), lent };
        match judge(&call, circuits, guard) {
            Ok(given) if given.number == 0 => Ok(given.lent),
            Ok(given) => Err(format!("refused with {}\n  {}", given.number, shown(&call))),
            Err(failure) => Err(format!("{failure}\n  {}", shown(&call))),
        }
    };
    let plain = made(Function::Step, &[])?;
    let told = made(Function::StepExplained, &[Lent::Numbers(vec![7; 4])])?;
    if told[..4] != plain[..] {
        return Err(format!("from {run:?} the step that tells leaves {:?} and not {:?}", told[3], plain[3]));
    }
    Ok([0, 1, 2, 3].map(|k| told[4].numbers()[k]))
}

/// The states written by hand: what is told is what was written.
pub fn written(circuits: &Circuits, guard: usize) -> Tally {
    let ledger = Ledger::default();
    for written in WRITTEN {
        let [left, right, public] = written.tables.map(<[_]>::len);
        let size = Size { n: written.n, left, right, public };
        let rows: Vec<Row> = written.tables.concat().iter().map(|row| row.to_vec()).collect();
        let tables = draw::lent_tables(size, &rows, &mut Random::new(SEED));
        let failure = match step(size, &tables, &written.run(), circuits, guard) {
            Ok(told) if told == written.told => None,
            Ok(told) => Some(format!("{told:?} is told and not {:?}", written.told)),
            Err(failure) => Some(failure),
        };
        ledger.test(failure.map(|failure| format!("{}: {failure}", written.what)));
    }
    ledger.close("steps that tell their rule, written by hand")
}

/// A run followed for some steps, and one more after it is closed: a test a step.
fn follow(size: Size, rows: &[Row], mut run: Run, steps: usize, circuits: &Circuits, guard: usize, ledger: &Ledger) {
    let tables = draw::lent_tables(size, rows, &mut Random::new(SEED));
    for _ in 0..steps {
        match step(size, &tables, &run, circuits, guard) {
            Err(failure) => return ledger.test(Some(format!("{size:?}: {failure}\n  {rows:?}"))),
            Ok(told) => ledger.kind(RULES[told[0] as usize], 1),
        }
        ledger.test(None);
        if run.standing != Open {
            return;
        }
        run.step(rows);
    }
}

/// Runs from the fresh state over tables of all row counts; of the numbers of variables one is such that the runs are long.
pub fn runs(circuits: &Circuits, guard: usize) -> Tally {
    let ledger = Ledger::default();
    let (tables, steps) = if guard > 0 { (3, STEPS) } else { (1, STEPS / 10) };
    each_table(SEED, tables, |size, rows, _| follow(size, rows, Run::fresh(size.n), steps, circuits, guard, &ledger));
    ledger.close(&format!("steps that tell their rule, of whole runs, seeds from {SEED}"))
}

/// States of every depth that no run need have reached, the steps from them, and states in which several literals are forced.
pub fn handed_over(circuits: &Circuits, guard: usize) -> Tally {
    let ledger = Ledger::default();
    each_depth(SEED, guard, |size, run, random| {
        let rows = states::table(size.rows(), &run.values, random);
        follow(size, &rows, run, MORE_STEPS, circuits, guard, &ledger);
        let (rows, run) = states::tied(size.n, size.rows(), random);
        follow(size, &rows, run, 1, circuits, guard, &ledger);
    });
    ledger.close(&format!("steps that tell their rule from states of every depth, seeds from {SEED}"))
}
