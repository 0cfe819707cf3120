//! Ties between forced literals: states written by hand in which several are forced, with the one to take, and the test of the
//! tests themselves, which the model of the earlier rule must fail.

use crate::model::{self, Answer, Row, Run, Size, Standing, Ties};
use crate::random::Random;
use crate::report::{Ledger, Tally, Test};
use crate::{cases, published, states, tables};
use std::path::Path;

/// A state with several forced literals: the rows of the three tables, the variables that its levels chose in turn, the literals
/// that are set besides, the literal to take, and the one of the lowest row, which the earlier rule took.
pub struct Tied {
    pub what: &'static str,
    n: usize,
    tables: [&'static [&'static [i64]]; 3],
    chosen: &'static [usize],
    set: &'static [i64],
    taken: i64,
    earlier: i64,
}

/// Worked out by hand from document 02: of all rows that are unsatisfied with one free literal, the lowest variable; positive
/// where some such row holds it so.
#[rustfmt::skip]
pub const WRITTEN: &[Tied] = &[
    Tied { what: "a lower variable in a later row", n: 3, tables: [&[&[3], &[2]], &[&[1]], &[]], chosen: &[], set: &[], taken: 1, earlier: 3 },
    Tied { what: "a lower variable that is forced false", n: 3, tables: [&[&[3]], &[&[-2]], &[]], chosen: &[], set: &[], taken: -2, earlier: 3 },
    Tied { what: "both signs of the only variable", n: 1, tables: [&[&[-1]], &[&[1]], &[]], chosen: &[], set: &[], taken: 1, earlier: -1 },
    Tied { what: "both signs, the positive one first", n: 1, tables: [&[&[1]], &[&[-1]], &[]], chosen: &[], set: &[], taken: 1, earlier: 1 },
    Tied { what: "both signs behind a higher variable", n: 3, tables: [&[&[3]], &[&[-2], &[2]], &[]], chosen: &[], set: &[], taken: 2, earlier: 3 },
    Tied { what: "both signs of a higher variable, the lowest false alone", n: 2, tables: [&[&[2], &[-2]], &[&[-1]], &[]], chosen: &[], set: &[], taken: -1, earlier: 2 },
    Tied { what: "false at the left station, true at the right", n: 2, tables: [&[&[-1]], &[&[1, 2, -2], &[1]], &[]], chosen: &[], set: &[], taken: 1, earlier: -1 },
    Tied { what: "false at both stations, true in public", n: 2, tables: [&[&[-2]], &[&[-2]], &[&[2]]], chosen: &[], set: &[], taken: 2, earlier: -2 },
    Tied { what: "the lowest variable in the last public row", n: 4, tables: [&[&[4]], &[&[3]], &[&[2], &[-1]]], chosen: &[], set: &[], taken: -1, earlier: 4 },
    Tied { what: "the lowest variable in public, true at the right station too", n: 3, tables: [&[&[3]], &[&[2]], &[&[-2]]], chosen: &[], set: &[], taken: 2, earlier: 3 },
    Tied { what: "units that the state makes", n: 5, tables: [&[&[-1, 5], &[-1, 2, 3]], &[&[-2, -4], &[-2, 4]], &[]], chosen: &[0, 1], set: &[], taken: 4, earlier: 5 },
    Tied { what: "a satisfied row forces nothing", n: 4, tables: [&[&[1, 2]], &[&[-1, 4]], &[&[3]]], chosen: &[0], set: &[], taken: 3, earlier: 4 },
    Tied { what: "padding forces nothing", n: 3, tables: [&[&[1, -1]], &[&[2, -2, 1]], &[&[3], &[-3]]], chosen: &[], set: &[], taken: 3, earlier: 3 },
    Tied { what: "two free literals force nothing", n: 4, tables: [&[&[1, 2]], &[&[4]], &[&[3, -4], &[-3]]], chosen: &[], set: &[], taken: -3, earlier: 4 },
    Tied { what: "a lower variable that is true in wider rows only", n: 3, tables: [&[&[3]], &[&[-1]], &[&[1, 2]]], chosen: &[], set: &[], taken: -1, earlier: 3 },
    Tied { what: "positive in a row that another literal satisfies", n: 3, tables: [&[&[-2]], &[&[2, 1]], &[&[2, -3]]], chosen: &[0], set: &[-3], taken: -2, earlier: -2 },
    Tied { what: "a literal forced by the variable set false", n: 4, tables: [&[&[1, 4]], &[&[1, 3]], &[&[1, -3]]], chosen: &[], set: &[-1], taken: 3, earlier: 4 },
    Tied { what: "the highest variable of all with both signs", n: 32, tables: [&[&[-32]], &[&[-32]], &[&[32]]], chosen: &[30], set: &[-1], taken: 32, earlier: -32 },
    Tied { what: "variables 32, 17, 16 and 2", n: 32, tables: [&[&[32], &[17]], &[&[-16], &[16]], &[&[-2]]], chosen: &[], set: &[], taken: -2, earlier: 32 },
    Tied { what: "variables 17 and 16", n: 32, tables: [&[&[17]], &[&[-17]], &[&[-16]]], chosen: &[], set: &[], taken: -16, earlier: 17 },
];

impl Tied {
    /// The size of its tables.
    pub fn size(&self) -> Size {
        let [left, right, public] = self.tables.map(<[_]>::len);
        Size { n: self.n, left, right, public }
    }

    /// The rows of all tables in order.
    pub fn rows(&self) -> Vec<Row> {
        self.tables.concat().iter().map(|row| row.to_vec()).collect()
    }

    /// The state, its literals being set before the first level.
    pub fn run(&self) -> Run {
        let value = |v: i64| self.set.iter().find(|literal| literal.abs() == v).map(|&literal| (0, literal > 0));
        let others: Vec<_> = (1..=self.n as i64).map(value).collect();
        states::state(Standing::Open, self.chosen, &others)
    }

    /// The state with one literal more.
    fn with(&self, literal: i64) -> Run {
        let mut run = self.run();
        run.values[literal.unsigned_abs() as usize - 1] = Some(literal > 0);
        run
    }

    /// The state after one step.
    pub fn after(&self) -> Run {
        self.with(self.taken)
    }
}

/// Whether a step from this state comes out otherwise by the earlier rule.
pub fn tells(rows: &[Row], run: &Run) -> bool {
    let after = |ties: Ties| {
        let mut run = run.clone();
        run.step_by(ties, rows);
        run
    };
    after(Ties::LowestVariable) != after(Ties::LowestRow)
}

/// Where a model takes another literal of a written state than was worked out by hand.
fn unlike(tied: &Tied) -> Option<String> {
    let by = |ties: Ties| {
        let mut run = tied.run();
        run.step_by(ties, &tied.rows());
        run
    };
    if by(Ties::LowestVariable) != tied.after() {
        return Some(format!("{}: the model gives {:?}", tied.what, by(Ties::LowestVariable)));
    }
    (by(Ties::LowestRow) != tied.with(tied.earlier))
        .then(|| format!("{}: the earlier model gives {:?}", tied.what, by(Ties::LowestRow)))
}

/// The answers of both rules' models to a test whose files are read.
fn answers(test: &Test) -> Option<[Answer; 2]> {
    let read = model::pair(test.texts(), &test.input).ok()?;
    Some([Ties::LowestVariable, Ties::LowestRow].map(|ties| model::run_by(ties, read.size.n, &read.rows, read.budget)))
}

/// How many tests the earlier rule's model would fail, and how many there are. What one rule forces the other forces in the end, or
/// both meet a conflict: where both close, verdict and model are the same, and only the steps may differ.
fn failed(tests: &[Test], ledger: &Ledger) -> (usize, usize) {
    let mut failed = 0;
    for (test, [now, earlier]) in tests.iter().filter_map(|test| Some((test, answers(test)?))) {
        failed += usize::from(now != earlier);
        let closed = now.standing != Standing::Open && earlier.standing != Standing::Open;
        let same = (now.standing, &now.model) == (earlier.standing, &earlier.model);
        ledger.test((closed && !same).then(|| format!("{}: {now:?}, by the earlier rule {earlier:?}", test.name)));
    }
    (failed, tests.len())
}

/// Where a run comes out otherwise with its rows in another order, as it did by the earlier rule.
fn by_order(test: &Test) -> Option<String> {
    let read = model::pair(test.texts(), &test.input).ok()?;
    let (turned, halves) = (read.rows.iter().rev().cloned().collect::<Vec<Row>>(), read.rows.len() / 2);
    let exchanged = [&read.rows[halves..], &read.rows[..halves]].concat();
    let answers = [&read.rows, &turned, &exchanged].map(|rows| model::run(read.size.n, rows, read.budget));
    (answers[0] != answers[1] || answers[0] != answers[2]).then(|| format!("{}: {answers:?}", test.name))
}

/// Counts what the earlier rule's model fails: it must be at least one in a given number.
fn must_fail(what: &str, (failed, all): (usize, usize), share: usize, ledger: &Ledger) {
    ledger.kind(&format!("{what}: fails"), failed);
    ledger.kind(&format!("{what}: all"), all);
    ledger.test((failed * share < all).then(|| format!("{what}: the earlier rule fails {failed} of {all} alone")));
}

const STATES: usize = 4_000;
const TABLES: usize = 400;
const SEED: u64 = 50_505;

/// Holds both models to the written states, and the tests to the model of the earlier rule. `own` is the folder of the tests.
pub fn run(own: &Path) -> std::io::Result<Tally> {
    let ledger = Ledger::default();
    WRITTEN.iter().for_each(|tied| ledger.test(unlike(tied)));
    let told = WRITTEN.iter().filter(|tied| tied.taken != tied.earlier).count();
    must_fail("written states", (told, WRITTEN.len()), 2, &ledger);
    let random = &mut Random::new(SEED);
    let told = |_: &usize| {
        let (n, count) = (random.between(1, 32), random.between(2, 40));
        let (rows, run) = states::tied(n, count, random);
        tells(&rows, &run)
    };
    must_fail("random states", ((0..STATES).filter(told).count(), STATES), 2, &ledger);
    let group = cases::group(own, |_| true)?;
    let written: Vec<Test> = (0..group.count).flat_map(|number| (group.make)(number)).collect();
    for name in ["case lowest-forced-variable-first", "case forced-in-public-first", "case harbour"] {
        let tells = |test: &&Test| test.name == name && answers(test).map_or(false, |[now, earlier]| now != earlier);
        ledger.test(written.iter().find(tells).is_none().then(|| format!("{name} does not tell the rules apart")));
    }
    failed(&written, &ledger);
    let files = published::files(&own.join("dimacs"))?;
    let group = published::group(&files);
    let tests: Vec<Test> = (0..group.count).flat_map(|number| (group.make)(number)).collect();
    must_fail("public files", failed(&tests, &ledger), 40, &ledger);
    let group = tables::group();
    let tests: Vec<Test> = (0..TABLES).flat_map(|number| (group.make)(number)).collect();
    must_fail("random tables", failed(&tests, &ledger), 4, &ledger);
    tests.iter().for_each(|test| ledger.test(by_order(test)));
    Ok(ledger.close(&format!("the earlier rule's model, seeds from {SEED}")))
}
