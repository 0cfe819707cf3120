//! The whole program, which goes through its whole budget: answers written by hand, refusals in every combination, the pair program's
//! texts and lines, every size that it serves beside the pair program, and what is seen of it from outside.

use crate::circuits::{size, sizes};
use crate::model::{self, Answer, Row, Size, Standing, WHOLE_BUDGET};
use crate::process::{self, Room, Source};
use crate::random::Random;
use crate::report::{self, Group, Ledger, Tally, Test};
use crate::{cases, damage, layout, seen, tables};
use std::collections::BTreeMap;
use std::path::Path;

const SEED: u64 = 1_111_500;
/// The pair program reads texts by the same functions: of its many damaged texts these are enough.
const DAMAGES: usize = 1_500;

// ---- Written answers

/// Rows of the three tables: closed by the third step with the model −1 2, as document 01's example; by the second with the same model; by the
/// second without one; by the first, with padding alone.
type Tables = (usize, [&'static [&'static [i64]]; 3]);
const THREE: Tables = (2, [&[&[1, 2]], &[&[-1]], &[]]);
const TWO: Tables = (2, [&[&[2]], &[&[1, -1]], &[]]);
const NONE: Tables = (1, [&[&[1]], &[&[-1]], &[]]);
const PADDING: Tables = (3, [&[&[1, -1]], &[&[2, -2]], &[&[3, -3]]]);

/// Tables, standard input, and the whole output, worked out by hand from documents 01 and 02.
#[rustfmt::skip]
const WRITTEN: &[(Tables, &str, &str)] = &[
    (THREE, "0\n", "c steps 0\ns UNKNOWN\n"), (THREE, "000\n", "c steps 0\ns UNKNOWN\n"), (THREE, "1\n", "c steps 1\ns UNKNOWN\n"),
    (THREE, "2\n", "c steps 2\ns UNKNOWN\n"), (THREE, "3\n", "c steps 3\ns SATISFIABLE\nv -1 2 0\n"), (THREE, "4\n", "c steps 4\ns SATISFIABLE\nv -1 2 0\n"),
    (THREE, "9\n", "c steps 9\ns SATISFIABLE\nv -1 2 0\n"), (THREE, "0009\n", "c steps 9\ns SATISFIABLE\nv -1 2 0\n"),
    (THREE, "10\nmore", "c steps 10\ns SATISFIABLE\nv -1 2 0\n"), (THREE, "65535\n", "c steps 65535\ns SATISFIABLE\nv -1 2 0\n"),
    (THREE, "00000000000000000000065535\n", "c steps 65535\ns SATISFIABLE\nv -1 2 0\n"), (THREE, "65536\n", "c refused 23\ns UNKNOWN\n"),
    (THREE, "0000065536\n", "c refused 23\ns UNKNOWN\n"), (THREE, "65537\n", "c refused 23\ns UNKNOWN\n"), (THREE, "131072\n", "c refused 23\ns UNKNOWN\n"),
    (THREE, "4294967305\n", "c refused 23\ns UNKNOWN\n"), (THREE, "18446744073709551615\n", "c refused 23\ns UNKNOWN\n"),
    (THREE, "18446744073709551616\n", "c refused 8\ns UNKNOWN\n"), (THREE, "9", "c refused 8\ns UNKNOWN\n"), (THREE, "", "c refused 8\ns UNKNOWN\n"),
    (TWO, "1\n", "c steps 1\ns UNKNOWN\n"), (TWO, "2\n", "c steps 2\ns SATISFIABLE\nv -1 2 0\n"), (TWO, "9\n", "c steps 9\ns SATISFIABLE\nv -1 2 0\n"),
    (NONE, "0\n", "c steps 0\ns UNKNOWN\n"), (NONE, "1\n", "c steps 1\ns UNKNOWN\n"), (NONE, "2\n", "c steps 2\ns UNSATISFIABLE\n"),
    (NONE, "77\n", "c steps 77\ns UNSATISFIABLE\n"), (PADDING, "0\n", "c steps 0\ns UNKNOWN\n"), (PADDING, "1\n", "c steps 1\ns SATISFIABLE\nv -1 -2 -3 0\n"),
    (PADDING, "5\n", "c steps 5\ns SATISFIABLE\nv -1 -2 -3 0\n"),
];

/// Sizes at the greatest ceiling that is served, and just above it.
const SERVED: [[usize; 4]; 6] =
    [[1, 20, 20, 0], [2, 10, 10, 5], [3, 6, 6, 5], [4, 6, 6, 0], [6, 2, 2, 1], [7, 1, 1, 0]];
#[rustfmt::skip]
const NOT_SERVED: [[usize; 4]; 8] = [
    [1, 20, 20, 1], [2, 10, 10, 6], [3, 6, 6, 6], [4, 6, 6, 1], [6, 2, 2, 2], [7, 1, 1, 1], [8, 1, 1, 0], [32, 128, 128, 128],
];

/// The texts of rows, which are in the order of the tables.
fn texts(size: Size, rows: &[Row]) -> [Vec<u8>; 3] {
    let (left, others) = rows.split_at(size.left);
    let (right, public) = others.split_at(size.right);
    [left, right, public].map(|rows| layout::plain(size.n, rows))
}

/// Answers written by hand; all rows of padding at the limit of what is served; the same just above it.
fn written() -> Group<'static> {
    let mut tests = vec![];
    for ((n, tables), line, expected) in WRITTEN {
        let texts = tables.map(|rows| {
            let rows: Vec<Row> = rows.iter().map(|row| row.to_vec()).collect();
            layout::plain(*n, &rows)
        });
        let test = Test::new(format!("{tables:?}, {line:?}"), texts, line.as_bytes().to_vec());
        tests.push(Test { expected: Some(expected.to_string()), ..test });
    }
    let padded = |size: Size, line: &str, expected: String| {
        let test = Test::new(format!("{size:?}, {line:?}"), texts(size, &vec![vec![1, -1]; size.rows()]), line.into());
        Test { expected: Some(expected), ..test }
    };
    for size in SERVED.map(size) {
        let model: String = (1..=size.n).map(|v| format!(" -{v}")).collect();
        tests.push(padded(size, "7\n", format!("c steps 7\ns SATISFIABLE\nv{model} 0\n")));
    }
    for size in NOT_SERVED.map(size) {
        tests.push(padded(size, "7\n", model::refused(7)));
        tests.push(padded(size, "65536\n", model::refused(23)));
    }
    let title = format!("{} answers of the whole program, written by hand", tests.len());
    Group { title, count: tests.len(), make: Box::new(move |number| vec![tests[number].clone()]) }
}

// ---- Refusals

/// What a text is refused with, or 0: the text as it should be, of n variables; n and row count out of range; a letter; no file.
const TEXTS: [u8; 5] = [0, 1, 2, 5, 5];

/// A text of such a kind. As it should be, the public one has no rows.
fn refused_text(kind: usize, n: usize, public: bool) -> Source {
    Source::Text(
        match kind {
            0 if public => format!("p cnf {n} 0\n"),
            0 => format!("p cnf {n} 1\n1 -2 0\n"),
            1 => "p cnf 33 1\n1 0\n".into(),
            2 => format!("p cnf {n} 129\n1 0\n"),
            3 => format!("p cnf {n} 1\n1 x 0\n"),
            _ => return Source::Missing,
        }
        .into_bytes(),
    )
}

/// Every combination: each text of each kind, one of them of another n or none, a line that is right, malformed or too large, and tables that
/// are served or not. The first of left, right, public text, 6, 8, 23, 7 is printed.
fn refused() -> Group<'static> {
    let test = |number: usize| {
        let kinds = [number % 5, number / 5 % 5, number / 25 % 5];
        let (other, line, large) = (number / 125 % 4, number / 500 % 3, number / 1_500);
        let n = [2, 8][large];
        let files = [0, 1, 2].map(|k| refused_text(kinds[k], n + usize::from(other == k), k == 2));
        let (input, of_line) = [("9\n", 0), ("9 \n", 8), ("65536\n", 23)][line];
        let of_texts = if other < 3 && kinds[other] == 0 { 6 } else { 0 };
        let numbers = [TEXTS[kinds[0]], TEXTS[kinds[1]], TEXTS[kinds[2]], of_texts, of_line, [0, 7][large]];
        let first = numbers.into_iter().find(|&number| number > 0);
        let test = Test::new(format!("combination {number}"), Default::default(), input.into());
        vec![Test { files, expected: first.map(model::refused), ..test }]
    };
    let title = "refusals of the whole program in every combination".into();
    Group { title, count: 3_000, make: Box::new(test) }
}

// ---- The pair program's tests

/// A test of the pair program for this one: what is written there of answers and counts is not for it, refusals are.
fn as_whole(test: Test) -> Test {
    let served = model::whole(test.texts(), &test.input).is_ok();
    Test {
        expected: test.expected.filter(|expected| expected.starts_with("c refused")),
        made: test.made.filter(|_| served),
        ..test
    }
}

/// The same for a group of them, at most a given number.
fn as_whole_of(group: Group<'static>, most: usize) -> Group<'static> {
    let Group { title, count, make } = group;
    let make = move |number| make(number).into_iter().map(as_whole).collect();
    let title = if most < count { format!("{most} of {title}") } else { title };
    Group { title: format!("the whole program on {title}"), count: count.min(most), make: Box::new(make) }
}

// ---- Every size

/// Rows for a whole run: of any width, now and then empty or padding; every other time one assignment makes all of them true.
fn rows(size: Size, random: &mut Random) -> Vec<Row> {
    let planted = random.once_in(2).then(|| random.number());
    let shortest = if planted.is_some() { 1 } else { *random.pick(&[0, 1, 1, 2, 2]) };
    let row = |_| {
        let width = random.between(shortest, 3.max(size.n));
        let mut row = tables::strict(size.n, width, random);
        if let Some(model) = planted {
            let v = row[0].abs();
            row[0] = if model >> v & 1 == 1 { v } else { -v };
        }
        match random.below(6) {
            0 => row.into_iter().flat_map(|literal| [literal, -literal]).collect(),
            _ => row,
        }
    };
    (0..size.rows()).map(row).collect()
}

/// Runs both programs on the same files and line: verdict and model are the same, the count is the budget.
fn beside(size: Size, rows: &[Row], budget: u64, zeros: usize, [whole, pair]: &[Room; 2]) -> Option<String> {
    let files = texts(size, rows).map(Source::Text);
    let line = format!("{}{budget}\n", "0".repeat(zeros)).into_bytes();
    let [ran, plain] = match (whole.run(&files, &line), pair.run(&files, &line)) {
        (Ok(ran), Ok(plain)) => [ran, plain],
        (Err(error), _) | (_, Err(error)) => return Some(format!("it could not be run: {error}")),
    };
    if let Some(fault) = ran.fault.or(plain.fault) {
        return Some(fault);
    }
    let rest = |output: &[u8]| model::line(output).1.to_vec();
    let (steps, model) = (model::line(&ran.output).0, model::run_whole(size.n, rows, budget));
    let right = steps == format!("c steps {budget}").as_bytes()
        && rest(&ran.output) == rest(&plain.output)
        && ran.output == model::printed(&model).as_bytes();
    (!right).then(|| {
        let [ran, plain] = [ran.output, plain.output].map(|output| report::quoted(&output));
        format!("{size:?}, budget {budget}, rows {rows:?}: {ran}, the pair program {plain}, the model {model:?}")
    })
}

/// Every size that the program serves with a budget around the closing step; the largest size of each n with the greatest budget.
fn every_size(program: &Path, pair: &Path) -> std::io::Result<Tally> {
    let (ledger, sizes) = (Ledger::default(), sizes());
    report::spread([program, pair], sizes.len(), |number, rooms| {
        let random = &mut Random::new(SEED + number as u64);
        let rows = rows(sizes[number], random);
        let found = model::run(sizes[number].n, &rows, u64::MAX);
        let steps = found.steps;
        let budget = *random.pick(&[0, 1, steps - 1, steps, steps, steps + 1, 3 * steps + 40]);
        ledger.kind(&format!("{:?}", found.standing).to_lowercase(), usize::from(budget >= steps));
        ledger.kind("cut", usize::from(budget < steps));
        let zeros = *random.pick(&[0, 0, 0, 1, 17]);
        ledger.test(beside(sizes[number], &rows, budget, zeros, rooms));
    })?;
    report::spread([program, pair], SERVED.len(), |number, rooms| {
        let size = size(SERVED[number]);
        let rows = rows(size, &mut Random::new(SEED + number as u64));
        ledger.test(beside(size, &rows, WHOLE_BUDGET, 0, rooms));
    })?;
    Ok(ledger.close(&format!("the whole program beside pair, {} sizes, seeds from {SEED}", sizes.len())))
}

// ---- Tables that close at different steps

pub type Closed = (Vec<Row>, Answer);

/// Tables that close with one answer but for its count, two and two: for each verdict and model that many draws meet the one of the fewest
/// steps and the one of the most.
pub fn pairs(size: Size, draws: usize, mut draw: impl FnMut(usize) -> Vec<Row>) -> Vec<[Closed; 2]> {
    const PATIENCE: u64 = 400;
    let mut met: BTreeMap<(bool, Vec<bool>), Vec<Closed>> = BTreeMap::new();
    for number in 0..draws {
        let rows = draw(number);
        let answer = model::run(size.n, &rows, PATIENCE);
        if answer.standing != Standing::Open {
            let key = (answer.standing == Standing::Satisfied, answer.model.clone());
            met.entry(key).or_default().push((rows, answer));
        }
    }
    let mut pairs = vec![];
    for mut closed in met.into_values() {
        closed.sort_by_key(|(_, answer)| answer.steps);
        let last = closed.pop().expect("one was met");
        match closed.into_iter().next() {
            Some(first) if first.1.steps < last.1.steps => pairs.push([first, last]),
            _ => (),
        }
    }
    pairs
}

/// All tests of the program; of the one that is linked statically, those that were written by hand and what is seen from outside.
pub fn run(program: &Path, pair: &Path, own: &Path, linked_statically: bool) -> std::io::Result<Tally> {
    let solver = process::solver()?;
    let mut groups = vec![written()];
    if linked_statically {
        groups.push(as_whole_of(cases::group(own, Source::is_whole)?, usize::MAX));
    } else {
        let [listed, damaged] = damage::groups();
        let cases = cases::group(own, |_| true)?;
        let groups_of = [(cases, usize::MAX), (listed, usize::MAX), (damaged, DAMAGES)];
        groups.push(refused());
        groups.extend(groups_of.map(|(group, most)| as_whole_of(group, most)));
    }
    let mut total = Tally::default();
    for group in groups {
        total.add(report::run(&group, program, &report::WHOLE, solver)?);
    }
    total.add(if linked_statically { seen::run(program, pair)? } else { every_size(program, pair)? });
    Ok(total)
}

/// Rows over which runs are short or long, for pairs; public ones are the same for all.
pub fn to_pair(size: Size, public: &[Row], random: &mut Random) -> Vec<Row> {
    let shortest = *random.pick(&[1, 1, 2, 2, 3]);
    let row = |_| tables::strict(size.n, random.between(shortest, 3), random);
    let mut rows: Vec<Row> = (0..size.left + size.right).map(row).collect();
    rows.extend_from_slice(public);
    rows
}

/// The three files of rows, each filled up with line ends to the given number of bytes.
pub fn filled(size: Size, rows: &[Row], length: usize) -> [Source; 3] {
    texts(size, rows).map(|mut text| {
        text.resize(length, b'\n');
        Source::Text(text)
    })
}
