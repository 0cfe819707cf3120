//! Late conditions: runs in which stations replace padding rows, plain, with index and number, by one repeat of the circuit at a time, and
//! continued from one replacement to the next, side by side and beside the model's. The verdict at the close is held to all assignments or to another solver, on the tables as they are then.

use crate::calls::{numbers, Call, Function, Lent};
use crate::circuits::Circuits;
use crate::draw;
use crate::indexed::{index, number, taken};
use forkhemit_tests::memory;
use forkhemit_tests::model::{self, Condition, Row, Run, Size, Standing};
use forkhemit_tests::process;
use forkhemit_tests::random::Random;
use forkhemit_tests::report::{Ledger, Tally};
use forkhemit_tests::{layout, states, steps, tables};

const SEED: u64 = 606_000;
/// How many variables, and how many rows in the three tables; with how many runs each, followed for how many steps.
#[rustfmt::skip]
const SIZES: [([usize; 4], usize, usize); 10] = [
    ([1, 2, 2, 1], 40, 9), ([3, 6, 6, 0], 150, 99), ([4, 12, 9, 1], 150, 99), ([5, 1, 30, 4], 150, 99), ([6, 30, 1, 0], 150, 99),
    ([8, 30, 20, 6], 120, 300), ([10, 40, 40, 10], 40, 300), ([12, 60, 50, 0], 20, 300), ([32, 64, 64, 64], 1, 12), ([32, 128, 128, 128], 1, 6),
];

/// Tables and a run over them, in four ways, and the model's rows and run.
#[derive(Clone)]
struct Ways<'a> {
    size: Size,
    rows: Vec<Row>,
    run: Run,
    steps: u64,
    /// The three tables, which the plain run and the circuit's read.
    tables: Vec<Lent>,
    plain: Lent,
    /// Gates, inputs, wires, the run and the repeats' numbers.
    repeated: Vec<Lent>,
    /// Tables of its own, index, run and number.
    indexed: Vec<Lent>,
    /// The run that is continued, and how many steps it is behind.
    continued: Lent,
    behind: u64,
    ledger: &'a Ledger,
    guard: usize,
}

impl<'a> Ways<'a> {
    /// The fresh run over these rows.
    fn new(
        size: Size,
        rows: Vec<Row>,
        circuits: &Circuits,
        ledger: &'a Ledger,
        guard: usize,
        random: &mut Random,
    ) -> Result<Ways<'a>, String> {
        let (tables, run) = (draw::lent_tables(size, &rows, random), Run::fresh(size.n));
        let plain = Lent::Run(memory::run_words(&run));
        let (inputs, gates) = (memory::input_wires(size), circuits.words(size)?.len() / 3);
        let room = [Lent::Words(vec![7; 3 * size.ceiling()]), Lent::Bytes(vec![7; inputs])];
        let repeated =
            [&room[..], &[Lent::Bytes(vec![7; inputs + gates]), plain.clone(), Lent::Numbers(vec![7; 2])]].concat();
        let indexed = [&tables[..], &draw::indexed(size, &tables, memory::run_words(&run))].concat();
        let continued = plain.clone();
        Ok(Ways { size, rows, run, steps: 0, tables, plain, repeated, indexed, continued, behind: 0, ledger, guard })
    }

    /// A call, and what it gives.
    fn call(&self, function: Function, more: &[u64], lent: Vec<Lent>) -> Result<(u8, Vec<Lent>, Vec<Lent>), String> {
        let call = Call { function, numbers: [&numbers(self.size), more].concat(), lent };
        let given = call.make(self.guard)?;
        Ok((given.number, call.lent, given.lent))
    }

    /// A row replaced, plain and with index and number: the refusal is the model's and leaves all memory; else the row's two words are
    /// the new ones and all others as they were, and index and number are those that the new tables have.
    fn replace(&mut self, late: &[u64]) -> Result<u8, String> {
        self.catch_up()?;
        let row = memory::row(late[2] as u32, late[3] as u32);
        let condition = Condition { station: late[0], number: late[1], row };
        let after = model::replaced(self.size, &self.rows, &self.run, &condition);
        let expected = after.as_ref().err().copied().unwrap_or(0);
        let plain = [&self.tables[..], &[self.plain.clone()]].concat();
        let (refusal, plain, mut given) = self.call(Function::Replace, late, plain)?;
        let [index_now, run, number_now] = [3, 4, 5].map(|k| self.indexed[k].clone());
        let indexed = [&self.indexed[..3], &[run, index_now, number_now]].concat();
        let (other, indexed, mut given_indexed) = self.call(Function::ReplaceIndexed, late, indexed)?;
        if [refusal, other] != [expected; 2] {
            return Err(format!(
                "{late:?} is refused with {refusal} and, indexed, {other}, by the model with {expected}"
            ));
        }
        match after {
            Err(_) if given != plain || given_indexed != indexed => return Err(format!("{late:?} changed a buffer")),
            Err(refusal) => return Ok(refusal),
            Ok(rows) => self.rows = rows,
        }
        let words = [late[2] as u32, late[3] as u32];
        self.two_words(late[1] as usize, words, &plain, &given)?;
        self.two_words(late[1] as usize, words, &indexed, &given_indexed)?;
        given.truncate(3);
        self.tables = given;
        let of_tables = index(self.size, &self.tables, &self.rows, self.guard)?;
        let of_run = number(self.size, &self.tables, self.plain.words(), self.guard)?;
        if given_indexed[4] != of_tables || given_indexed[5].numbers() != [of_run] {
            return Err(format!("after {late:?} index or number is not that of the tables: {:?}", given_indexed[5]));
        }
        given_indexed.swap(3, 4);
        self.indexed = given_indexed;
        Ok(0)
    }

    /// Whether of tables and run those two words alone are other ones, the row's of a number.
    fn two_words(&self, number: usize, words: [u32; 2], before: &[Lent], after: &[Lent]) -> Result<(), String> {
        let (k, place) = if number <= self.size.left { (0, number - 1) } else { (1, number - 1 - self.size.left) };
        let mut expected = before[..4].to_vec();
        if let Lent::Words(table) = &mut expected[k] {
            table[2 * place..2 * place + 2].copy_from_slice(&words);
        }
        match expected == after[..4] {
            true => Ok(()),
            false => Err(format!("row {number} by {words:?}: {:?} became {:?}", &before[..4], &after[..4])),
        }
    }

    /// The run that is continued goes on to where the others are, over the tables as they have been since it stopped; if that closes it,
    /// whatever number of steps is allowed. Half of them first, where there are several.
    fn catch_up(&mut self) -> Result<(), String> {
        let closed = u64::from(self.closed());
        let half = self.behind / 2;
        let rest = if self.closed() { u64::MAX } else { self.behind - half };
        for (times, steps, mark) in [(half, half, None), (rest, self.behind - half, Some(closed))] {
            let lent = [&self.tables[..], &[self.continued.clone(), Lent::Numbers(vec![7; 2])]].concat();
            let mut given = taken(Function::Continue, self.size, &[times], lent, self.guard)?;
            let numbers = given.pop().expect("numbers are lent");
            self.continued = given.pop().expect("a run is lent");
            let mark = mark.unwrap_or_else(|| u64::from(self.continued.words()[1] != 0));
            if numbers.numbers() != [steps, mark] || given != self.tables {
                return Err(format!("continued {times} times: {numbers:?} and not {:?}", [steps, mark]));
            }
        }
        self.ledger.kind("continued", 1);
        self.behind = 0;
        match self.continued.words() == memory::run_words(&self.run) {
            true => Ok(()),
            false => Err(format!("after step {} the run is, continued, {:?}", self.steps, self.continued)),
        }
    }

    /// One step in the three ways that step: the model's run each time, and its number.
    fn step(&mut self) -> Result<(), String> {
        let (size, guard) = (self.size, self.guard);
        let plain = [&self.tables[..], &[self.plain.clone()]].concat();
        let indexed = std::mem::take(&mut self.indexed);
        let repeated = [&self.tables[..], &self.repeated[..]].concat();
        let plain = taken(Function::Step, size, &[], plain, guard)?;
        let indexed = taken(Function::StepIndexed, size, &[], indexed, guard)?;
        let repeated = taken(Function::Repeat, size, &[1], repeated, guard)?;
        self.run.step(&self.rows);
        self.steps += 1;
        self.behind += 1;
        let words = memory::run_words(&self.run);
        for (way, run) in [("plain", &plain[3]), ("indexed", &indexed[4]), ("by the circuit", &repeated[6])] {
            if run.words() != words {
                return Err(format!("after step {} the run is, {way}, {run:?} and not {:?}", self.steps, self.run));
            }
        }
        let mark = u64::from(self.run.standing != Standing::Open);
        let unsatisfied = self.run.unsatisfied(&self.rows);
        if indexed[5].numbers() != [unsatisfied] || repeated[7].numbers() != [1, mark] || indexed[..3] != self.tables {
            return Err(format!(
                "after step {} the number is {:?}, the mark {:?}",
                self.steps, indexed[5], repeated[7]
            ));
        }
        self.plain = plain[3].clone();
        self.indexed = indexed;
        self.repeated = repeated[3..].to_vec();
        Ok(())
    }

    /// Whether the run is closed.
    fn closed(&self) -> bool {
        self.run.standing != Standing::Open
    }

    /// At the close: the verdict on the rows as they are, a model of them, and no more steps than their variables allow.
    fn close(&mut self, satisfiable: bool) -> Result<(), String> {
        self.catch_up()?;
        let live: Vec<&Row> = self.rows.iter().filter(|row| !model::padding(row)).collect();
        steps::hold(&self.rows, self.steps, self.steps, false)?;
        if satisfiable != (self.run.standing == Standing::Satisfied) {
            return Err(format!("{:?}, and that they are satisfiable is {satisfiable}", self.run.standing));
        }
        if satisfiable {
            let given = Call {
                function: Function::Model,
                numbers: vec![],
                lent: vec![self.plain.clone(), Lent::Numbers(vec![7])],
            };
            let model = given.make(self.guard)?.lent[1].numbers()[0];
            if let Some(row) = live.iter().find(|row| !holds(row, model)) {
                return Err(format!("the model {model:#b} leaves {row:?} false"));
            }
        }
        Ok(())
    }

    /// Counts what was done, with what can be told of it where it went wrong.
    fn tell<T>(&self, done: Result<T, String>, what: &str) -> Option<T> {
        let told = |failure: &String| format!("{what}, {:?}: {failure}\n  over {:?}", self.size, self.rows);
        self.ledger.test(done.as_ref().err().map(told));
        done.ok()
    }
}

/// Whether an assignment, as a word, makes the row true.
fn holds(row: &[i64], model: u64) -> bool {
    row.iter().any(|&literal| (model >> (literal.abs() - 1) & 1 == 1) == (literal > 0))
}

/// Whether some assignment of n variables makes all rows true.
fn satisfiable(n: usize, rows: &[Row]) -> bool {
    (0..1 << n).any(|model| rows.iter().all(|row| holds(row, model)))
}

/// A row's two words as a call takes them.
fn words(row: &Row) -> [u64; 2] {
    let words = memory::row_words(std::slice::from_ref(row));
    [words[0].into(), words[1].into()]
}

// ---- One replacement, wherever it may fall

/// From a state on, every row in the place of either station's padding row, and the run to its close.
fn every_row(ways: &Ways, new: &[Row]) {
    for (station, number) in [(0, 2), (1, 3)] {
        for row in new {
            let mut ways = ways.clone();
            let [positive, negative] = words(row);
            let done = ways.replace(&[station, number, positive, negative]);
            let refused = if ways.closed() { 16 } else { 0 };
            let done = done.and_then(|number| match number == refused {
                true => Ok(number),
                false => Err(format!("{number} and not {refused}")),
            });
            ways.ledger.kind("replaced", usize::from(done == Ok(0)));
            ways.ledger.kind("refused 16", usize::from(done == Ok(16)));
            if ways.tell(done, &format!("row {number} by {row:?} after {} steps", ways.steps)) != Some(0) {
                continue;
            }
            let ended = to_close(&mut ways).and_then(|()| ways.close(satisfiable(ways.size.n, &ways.rows)));
            ways.ledger.kind(&format!("{:?}", ways.run.standing).to_lowercase(), 1);
            ways.tell(ended, &format!("row {number} by {row:?}"));
        }
    }
}

/// Steps until the run is closed; that it closes within its bound is told by the count.
fn to_close(ways: &mut Ways) -> Result<(), String> {
    let bound = 2u64.pow(ways.size.n as u32 + 1) - 1;
    while !ways.closed() && ways.steps <= bound {
        ways.step()?;
    }
    Ok(())
}

/// All rows of 1 and of 2 variables beside a padding row at each station, and one replacement at every step: with the public row that is
/// given too, and without one. Which padding is there goes in turn.
pub fn every(circuits: &Circuits, guard: usize) -> Tally {
    let ledger = Ledger::default();
    let random = &mut Random::new(SEED);
    for (n, public) in [(1, vec![]), (1, vec![vec![1]]), (2, vec![]), (2, vec![vec![1, 2]])] {
        let rows = states::rows(n);
        let padding: Vec<Row> = rows.iter().filter(|row| model::padding(row)).cloned().collect();
        let size = Size { n, left: 2, right: 2, public: public.len() };
        // for a memory checker, which is slow, a few pairs of rows
        let pairs = (0..rows.len() * rows.len()).filter(|pair| guard > 0 || pair % 37 == 5);
        for pair in pairs {
            let (first, second) = (&rows[pair / rows.len()], &rows[pair % rows.len()]);
            let pads = [pair, pair / padding.len()].map(|k| padding[k % padding.len()].clone());
            let [left, right] = pads;
            let table = [vec![first.clone(), left, right, second.clone()], public.clone()].concat();
            let mut ways = match Ways::new(size, table, circuits, &ledger, guard, random) {
                Ok(ways) => ways,
                Err(fault) => return fail(ledger, fault),
            };
            every_row(&ways, &rows);
            while !ways.closed() {
                let done = ways.step();
                if ways.tell(done, "before a replacement").is_none() {
                    break;
                }
                every_row(&ways, &rows);
            }
        }
    }
    ledger.close("one row replaced at every step, over all rows of 1 and 2 variables")
}

/// The tally of what could not be begun.
fn fail(ledger: Ledger, fault: String) -> Tally {
    ledger.test(Some(fault));
    ledger.close("late conditions")
}

// ---- Random runs

/// Rows on which runs are long, of them at a station every other one padding.
fn rows(size: Size, random: &mut Random) -> Vec<Row> {
    let odds = *random.pick(&[1, 2, 2, 3]);
    let row = |k: usize| {
        let row = tables::strict(size.n, 3, random);
        match k < size.left + size.right && random.once_in(odds) {
            true => [&row[..], &[-row[0]]].concat(),
            false => row,
        }
    };
    (0..size.rows()).map(row).collect()
}

/// A late condition: mostly a station's own padding by a clause of up to three literals, else whatever is drawn for random calls.
fn drawn(ways: &Ways, random: &mut Random) -> Vec<u64> {
    let mut late = draw::condition(ways.size, &ways.rows, random);
    if !random.once_in(4) {
        let width = *random.pick(&[1, 2, 2, 3, 3, 3, 3]);
        late[2..].copy_from_slice(&words(&tables::strict(ways.size.n, width, random)));
    }
    late
}

/// A run with replacements at random steps, now and then several before a step, and one more try after the close.
fn follow(ways: &mut Ways, most: usize, solver: &str, random: &mut Random) -> Result<(), String> {
    let odds = *random.pick(&[1, 2, 5, 20]);
    for _ in 0..most {
        while random.once_in(odds + 1) {
            let late = drawn(ways, random);
            let number = ways.replace(&late)?;
            ways.ledger.kind(&if number == 0 { "replaced".into() } else { format!("refused {number}") }, 1);
        }
        if ways.closed() {
            break;
        }
        ways.step()?;
        ways.ledger.kind("steps", 1);
    }
    if !ways.closed() {
        ways.ledger.kind("left open", 1);
        return Ok(());
    }
    ways.ledger.kind(&format!("{:?}", ways.run.standing).to_lowercase(), 1);
    let late = drawn(ways, random);
    ways.replace(&late)?;
    let satisfiable = process::asked(solver, &layout::plain(ways.size.n, &ways.rows))?;
    ways.close(satisfiable)
}

/// Random runs of each size; for a memory checker, which is slow, one of each of the smaller.
pub fn runs(circuits: &Circuits, guard: usize) -> Tally {
    let ledger = Ledger::default();
    let solver = match process::solver() {
        Ok(solver) => solver,
        Err(error) => return fail(ledger, error.to_string()),
    };
    for ([n, left, right, public], count, most) in SIZES.into_iter().filter(|([n, ..], ..)| guard > 0 || *n < 6) {
        let size = Size { n, left, right, public };
        for number in 0..if guard > 0 { count } else { 1 } {
            let random = &mut Random::new(SEED + (number << 32 | public << 24 | n << 16 | left << 8 | right) as u64);
            let rows = rows(size, random);
            let mut ways = match Ways::new(size, rows, circuits, &ledger, guard, random) {
                Ok(ways) => ways,
                Err(fault) => return fail(ledger, fault),
            };
            let done = follow(&mut ways, most, solver, random);
            ways.tell(done, &format!("run {number}"));
        }
    }
    ledger
        .close(&format!("runs with rows replaced, in four ways, verdicts beside those of {solver}, seeds from {SEED}"))
}
