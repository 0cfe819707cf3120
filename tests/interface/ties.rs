//! Steps from states in which several literals are forced: plain, with index and number, and by one repeat of the circuit.

use crate::calls::{numbers, Call, Function, Lent};
use crate::circuits::Circuits;
use crate::{draw, judge, shown};
use forkhemit_tests::memory;
use forkhemit_tests::model::{Row, Run, Size};
use forkhemit_tests::random::Random;
use forkhemit_tests::report::{Ledger, Tally};
use forkhemit_tests::{states, ties};

const SEED: u64 = 505_000;
/// How many variables, and how many rows in the three tables; with how many states each.
#[rustfmt::skip]
const SIZES: [([usize; 4], usize); 14] = [
    ([1, 1, 1, 0], 40), ([1, 1, 1, 1], 40), ([2, 1, 1, 0], 100), ([2, 1, 2, 2], 100), ([3, 2, 1, 0], 100), ([4, 2, 3, 2], 100), ([5, 3, 3, 0], 100),
    ([8, 9, 4, 4], 100), ([9, 1, 1, 7], 100), ([16, 30, 30, 4], 60), ([17, 30, 30, 5], 60), ([31, 1, 1, 128], 30), ([32, 64, 64, 64], 30), ([32, 128, 128, 128], 30),
];

/// One step in three ways, each with the place of the run among its buffers.
fn steps(
    size: Size,
    rows: &[Row],
    run: &Run,
    circuits: &Circuits,
    random: &mut Random,
) -> Result<[(Call, usize); 3], String> {
    let tables = draw::lent_tables(size, rows, random);
    let words = memory::run_words(run);
    let indexed = draw::indexed(size, &tables, words.clone());
    let (inputs, gates) = (memory::input_wires(size), circuits.words(size)?.len() / 3);
    let room =
        [Lent::Words(vec![7; 3 * size.ceiling()]), Lent::Bytes(vec![7; inputs]), Lent::Bytes(vec![7; inputs + gates])];
    let repeated = [&room[..], &[Lent::Run(words.clone()), Lent::Numbers(vec![7; 2])]].concat();
    let call = |function: Function, more: &[u64], besides: &[Lent]| Call {
        function,
        numbers: [&numbers(size), more].concat(),
        lent: [&tables, besides].concat(),
    };
    Ok([
        (call(Function::Step, &[], &[Lent::Run(words)]), 3),
        (call(Function::StepIndexed, &[], &indexed), 4),
        (call(Function::Repeat, &[1], &repeated), 6),
    ])
}

/// A test for each of the three: it is taken, gives what the model gives, and leaves the run `after`.
fn try_each(size: Size, rows: &[Row], run: &Run, after: &Run, circuits: &Circuits, guard: usize, ledger: &Ledger) {
    let calls = match steps(size, rows, run, circuits, &mut Random::new(SEED)) {
        Ok(calls) => calls,
        Err(fault) => return ledger.test(Some(fault)),
    };
    for (call, place) in &calls {
        let failure = match judge(call, circuits, guard) {
            Ok(given) if given.number != 0 => Some(format!("refused with {}", given.number)),
            Ok(given) if given.lent[*place].words() != memory::run_words(after) => Some(format!("not {after:?}")),
            judged => judged.err(),
        };
        let told = |failure| format!("{:?} from {run:?} over {rows:?}: {failure}\n  {}", call.function, shown(call));
        ledger.test(failure.map(told));
    }
}

/// States written by hand, then random ones of each size; for a memory checker, which is slow, a few of the smaller sizes.
pub fn stepped(circuits: &Circuits, guard: usize) -> Tally {
    let ledger = Ledger::default();
    for tied in ties::WRITTEN {
        try_each(tied.size(), &tied.rows(), &tied.run(), &tied.after(), circuits, guard, &ledger);
    }
    for ([n, left, right, public], count) in SIZES.into_iter().filter(|([n, ..], _)| guard > 0 || *n < 16) {
        let size = Size { n, left, right, public };
        let random = &mut Random::new(SEED + (public << 24 | n << 16 | left << 8 | right) as u64);
        for _ in 0..if guard > 0 { count } else { 4 } {
            let (rows, run) = states::tied(n, size.rows(), random);
            let mut after = run.clone();
            after.step(&rows);
            ledger.kind("told from the earlier rule", usize::from(ties::tells(&rows, &run)));
            try_each(size, &rows, &run, &after, circuits, guard, &ledger);
        }
    }
    ledger.close(&format!("steps with several forced literals, three ways, seeds from {SEED}"))
}
