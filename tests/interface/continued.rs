//! Runs continued: any slicing of a run beside the plain steps one by one and beside the whole run's answer; closed runs; and states that no
//! run need have reached, continued in two parts and at once.

use crate::calls::{Call, Function, Lent};
use crate::indexed::{each_depth, each_table, taken};
use crate::{draw, indexed};
use forkhemit_tests::memory;
use forkhemit_tests::model::{Row, Run, Size};
use forkhemit_tests::random::Random;
use forkhemit_tests::report::{Ledger, Tally};
use forkhemit_tests::{states, steps};

const SEED: u64 = 1_707_000;
/// How many plain steps go beside a run from the fresh state, and beside one that is handed over.
const STEPS: u64 = 150;
const MORE_STEPS: u64 = 12;
/// Numbers of steps that look like few when they are cut to fewer bits.
const MANY: [u64; 6] = [256, 65_537, 1 << 32, (1 << 32) + 1, 1 << 63, u64::MAX];

/// Tables and the states that plain steps lead to, one after the other: the last is closed, or as many steps away as are asked for.
struct Steps<'a> {
    size: Size,
    rows: &'a [Row],
    tables: Vec<Lent>,
    states: Vec<Vec<u32>>,
    ledger: &'a Ledger,
    guard: usize,
}

impl<'a> Steps<'a> {
    /// The plain steps from a run on.
    fn new(
        size: Size,
        rows: &'a [Row],
        run: &Run,
        most: u64,
        ledger: &'a Ledger,
        guard: usize,
    ) -> Result<Steps<'a>, String> {
        let tables = draw::lent_tables(size, rows, &mut Random::new(SEED));
        let mut states = vec![memory::run_words(run)];
        let mut run = run.clone();
        while states[states.len() - 1][1] == 0 && (states.len() as u64) <= most {
            let lent = [&tables[..], &[Lent::Run(states[states.len() - 1].clone())]].concat();
            let given = taken(Function::Step, size, &[], lent, guard)?;
            run.step(rows);
            if given[3].words() != memory::run_words(&run) {
                return Err(format!("after {} plain steps the run is {:?} and not {run:?}", states.len(), given[3]));
            }
            states.push(given[3].words().to_vec());
        }
        Ok(Steps { size, rows, tables, states, ledger, guard })
    }

    /// How many steps there are.
    fn count(&self) -> u64 {
        self.states.len() as u64 - 1
    }

    /// Whether the last state is closed.
    fn closes(&self) -> bool {
        self.states[self.states.len() - 1][1] != 0
    }

    /// The run after some steps, continued: as many more steps as were asked for or as there are, and the plain steps' run. The tables stay.
    fn slice(&self, from: u64, times: u64) -> Result<u64, String> {
        let run = Lent::Run(self.states[from as usize].clone());
        let lent = [&self.tables[..], &[run, Lent::Numbers(vec![7; 2])]].concat();
        let given = taken(Function::Continue, self.size, &[times], lent, self.guard)?;
        let to = from.saturating_add(times).min(self.count());
        let state = &self.states[to as usize];
        let numbers = [to - from, u64::from(state[1] != 0)];
        if given[..3] != self.tables[..] || given[3].words() != state || given[4].numbers() != numbers {
            return Err(format!("from step {from} on {times} times: {:?} and not {numbers:?} {state:?}", &given[3..]));
        }
        Ok(to)
    }

    /// The whole run in slices, each of the next number of steps: a test a slice.
    fn sliced(&self, mut next: impl FnMut() -> u64) {
        let mut at = 0;
        loop {
            // no slice passes the last state that is known, unless the run is closed there
            let times = if self.closes() { next() } else { next().min(self.count() - at) };
            match self.slice(at, times) {
                Err(failure) => return self.failed(&failure),
                Ok(to) => at = to,
            }
            self.ledger.test(None);
            self.ledger.kind("slices", 1);
            if at == self.count() {
                return;
            }
        }
    }

    /// The run from its first state in one call: as many times as there are steps, one fewer, one more, none, and many.
    fn at_once(&self) {
        let count = self.count();
        let mut all = vec![0, 1, count.saturating_sub(1), count];
        if self.closes() {
            all.push(count + 1);
            all.extend(MANY.iter().filter(|&&times| times > count));
        }
        for times in all.into_iter().filter(|&times| times <= count || self.closes()) {
            match self.slice(0, times) {
                Err(failure) => self.failed(&failure),
                Ok(_) => self.ledger.test(None),
            }
        }
    }

    /// The answer of whole runs, which are fresh at the start: count and verdict are those of the steps, the model is the last state's.
    fn answers(&self) -> Result<(), String> {
        let last = &self.states[self.states.len() - 1];
        let model = match last[1] {
            1 => {
                let lent = vec![Lent::Run(last.clone()), Lent::Numbers(vec![7])];
                Call { function: Function::Model, numbers: vec![], lent }.make(self.guard)?.lent[1].numbers()[0]
            }
            _ => 0,
        };
        let expected = [self.count(), last[1].into(), model];
        steps::hold(self.rows, self.count(), self.count(), !self.closes())?;
        let budgets = if self.closes() { vec![self.count(), u64::MAX] } else { vec![self.count()] };
        for (function, budget) in budgets.iter().flat_map(|&b| [(Function::Solve, b), (Function::SolveIndexed, b)]) {
            let lent = [&self.tables[..], &[Lent::Numbers(vec![7; 3])]].concat();
            let given = taken(function, self.size, &[budget], lent, self.guard)?;
            if given[3].numbers() != expected {
                return Err(format!("{function:?} with {budget} gives {:?} and not {expected:?}", given[3]));
            }
        }
        Ok(())
    }

    /// Counts a failed test.
    fn failed(&self, failure: &str) {
        self.ledger.test(Some(crate::cut(format!("{:?}: {failure}\n  {:?}", self.size, self.rows))));
    }
}

/// A fresh run: at once, in slices of one number of steps, in slices of any, with some of none, and its answer.
fn fresh(size: Size, rows: &[Row], ledger: &Ledger, guard: usize, random: &mut Random) {
    let most = if guard > 0 { STEPS } else { STEPS / 10 };
    let steps = match Steps::new(size, rows, &Run::fresh(size.n), most, ledger, guard) {
        Ok(steps) => steps,
        Err(failure) => return ledger.test(Some(format!("{size:?}: {failure}\n  {rows:?}"))),
    };
    ledger.kind(if steps.closes() { "closed" } else { "left open" }, 1);
    match steps.answers() {
        Err(failure) => steps.failed(&failure),
        Ok(()) => ledger.test(None),
    }
    steps.at_once();
    for each in if guard > 0 { vec![1, 2, 3, 10, 64] } else { vec![1, 7] } {
        steps.sliced(|| each);
    }
    let widest = *random.pick(&[3, 9, 40]);
    steps.sliced(|| random.below(widest) as u64);
}

/// Fresh runs over tables of all row counts; of the numbers of variables one is such that the runs are long.
pub fn runs(guard: usize) -> Tally {
    let ledger = Ledger::default();
    let tables = if guard > 0 { 3 } else { 1 };
    each_table(SEED, tables, |size, rows, random| fresh(size, rows, &ledger, guard, random));
    ledger.close(&format!("runs continued in slices beside plain steps and whole runs, seeds from {SEED}"))
}

/// States of every depth that no run need have reached, closed ones too, in one call and in two.
pub fn handed_over(guard: usize) -> Tally {
    let ledger = Ledger::default();
    each_depth(SEED, guard, |size, run, random| {
        let rows = states::table(size.rows(), &run.values, random);
        let steps = match Steps::new(size, &rows, &run, MORE_STEPS, &ledger, guard) {
            Ok(steps) => steps,
            Err(failure) => return ledger.test(Some(format!("{size:?}: {failure}\n  {rows:?}"))),
        };
        ledger.kind("closed at the start", usize::from(steps.count() == 0));
        steps.at_once();
        let most = steps.count() as usize + 1;
        steps.sliced(|| random.between(1, most) as u64);
    });
    ledger.close(&format!("states of every depth continued, seeds from {SEED}"))
}

/// Whole runs over larger tables by the index: at once and by thousands, the sum of steps being the count; from a budget that ended on.
pub fn summed(guard: usize) -> Tally {
    let ledger = Ledger::default();
    let (tables, counts) = if guard > 0 { (3, &indexed::COUNTS[1..]) } else { (1, &indexed::COUNTS[2..3]) };
    for size in counts.iter().flat_map(|&count| [14, 20].map(|n| indexed::sizes(n, count)).concat()) {
        for table in 0..tables {
            let random = &mut Random::new(SEED + table + (size.public << 24 | size.n << 16 | size.rows()) as u64);
            let rows = indexed::rows(size, random);
            let tables = draw::lent_tables(size, &rows, random);
            let each = *random.pick(&[10, 100, 1_000]);
            let failure = sum(size, &tables, each, guard).err();
            ledger
                .test(failure.map(|failure| crate::cut(format!("{size:?}, {each} at a time: {failure}\n  {rows:?}"))));
        }
    }
    ledger.close(&format!("whole runs by so many steps at a time, seeds from {SEED}"))
}

/// A whole run, the given number of steps at a time: the sum of steps, the verdict and the model are the whole run's; each call but the
/// last takes all steps that it may, and the last alone says that the run is closed.
fn sum(size: Size, tables: &[Lent], each: u64, guard: usize) -> Result<(), String> {
    let lent = [tables, &[Lent::Numbers(vec![7; 3])]].concat();
    let answer = taken(Function::Solve, size, &[u64::MAX], lent, guard)?[3].numbers().to_vec();
    let (mut run, mut steps) = (Lent::Run(memory::run_words(&Run::fresh(size.n))), 0);
    loop {
        let lent = [tables, &[run, Lent::Numbers(vec![7; 2])]].concat();
        let mut given = taken(Function::Continue, size, &[each], lent, guard)?;
        let numbers = given.pop().expect("numbers are lent").numbers().to_vec();
        run = given.pop().expect("a run is lent");
        steps += numbers[0];
        let closed = u64::from(run.words()[1] != 0);
        if numbers[1] != closed || numbers[0] > each || closed == 0 && numbers[0] < each {
            return Err(format!("after {steps} steps {numbers:?} with {run:?}"));
        }
        if closed == 1 {
            break;
        }
    }
    let verdict = u64::from(run.words()[1]);
    let model = if verdict == 1 { u64::from(run.words()[2]) } else { 0 };
    match answer == [steps, verdict, model] {
        true => Ok(()),
        false => Err(format!("{:?} and not {answer:?}", [steps, verdict, model])),
    }
}
