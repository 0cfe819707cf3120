//! Random tables of all sizes and kinds, each kind with no public rows, one, 128 and some.

use crate::layout;
use crate::model::{self, Row, Standing};
use crate::random::Random;
use crate::report::{Group, Test};

pub const COUNT: usize = 2_400;
const SEED: u64 = 20_261_115;
/// Tables that stay open longer are run for fewer steps and end unknown.
const PATIENCE: u64 = 4_000;

/// A clause of `width` literals drawn one by one: repeated literals and padding occur.
fn loose(n: usize, width: usize, random: &mut Random) -> Row {
    (0..width).map(|_| literal(random.between(1, n), random)).collect()
}

/// A clause over `width` different variables.
pub fn strict(n: usize, width: usize, random: &mut Random) -> Row {
    let mut variables: Vec<usize> = (1..=n).collect();
    let mut draw = || {
        let variable = variables.swap_remove(random.below(variables.len()));
        literal(variable, random)
    };
    (0..width.min(n)).map(|_| draw()).collect()
}

/// A literal of the variable.
fn literal(variable: usize, random: &mut Random) -> i64 {
    let sign = if random.once_in(2) { -1 } else { 1 };
    sign * variable as i64
}

/// Everything mixed: any size, widths 0 to 8, padding and empty rows.
fn mixed(public: usize, random: &mut Random) -> (usize, Vec<Row>) {
    let n = random.between(1, 32);
    let count = random.between(1, 128) + random.between(1, 128) + public;
    let shortest = *random.pick(&[0, 1, 2, 2, 3, 3]);
    let row = |_| {
        let width = random.between(shortest, 8);
        loose(n, width, random)
    };
    (n, (0..count).map(row).collect())
}

/// Three different variables a row, 4.3 rows a variable: the hardest tables.
fn hard(public: usize, random: &mut Random) -> (usize, Vec<Row>) {
    let n = random.between(5, 32);
    let count = n * 43 / 10 + random.below(5);
    (n, (0..count.max(public + 2)).map(|_| strict(n, 3, random)).collect())
}

/// Two literals a row and some units: chains of forced literals.
fn chains(public: usize, random: &mut Random) -> (usize, Vec<Row>) {
    let n = random.between(2, 32);
    let count = random.between(2, 3 * n) + public;
    let mut rows: Vec<Row> = (0..count).map(|_| strict(n, 2, random)).collect();
    while random.once_in(2) {
        let at = random.below(count);
        rows[at] = strict(n, 1, random);
    }
    (n, rows)
}

/// Wide rows of negative literals: many levels, up to one for each variable but the last.
fn deep(public: usize, random: &mut Random) -> (usize, Vec<Row>) {
    let n = if random.once_in(2) { 32 } else { random.between(4, 32) };
    let count = random.between(2, 12) + public;
    let most = random.below(3);
    let row = |_| {
        let cut = random.between(0, most);
        let mut row: Row = (1..=n - cut).map(|v| -(v as i64)).collect();
        if random.once_in(2) {
            let last = row.len() - 1;
            row[last] = -row[last];
        }
        row
    };
    (n, (0..count).map(row).collect())
}

/// As many rows as there may be at the stations, mostly padding.
fn padded(public: usize, random: &mut Random) -> (usize, Vec<Row>) {
    let n = random.between(1, 32);
    let row = |_| {
        let variable = random.between(1, n) as i64;
        if random.once_in(10) {
            strict(n, 3, random)
        } else {
            vec![variable, -variable]
        }
    };
    (n, (0..256 + public).map(row).collect())
}

/// Numbers small enough that every combination of signs, widths and rows turns up.
fn small(public: usize, random: &mut Random) -> (usize, Vec<Row>) {
    let n = random.between(1, 4);
    let count = random.between(2, 10) + public;
    let row = |_| {
        let width = *random.pick(&[0, 1, 1, 2, 2, 2, 3, 3]);
        loose(n, width, random)
    };
    (n, (0..count).map(row).collect())
}

/// Rows laid before the stations and the public, which gets the given number of them.
fn laid(rows: &[Row], public: usize, random: &mut Random) -> [Vec<Row>; 3] {
    let stations = rows.len() - public;
    let left = random.between(stations.saturating_sub(128).max(1), stations.min(129) - 1);
    [&rows[..left], &rows[left..stations], &rows[stations..]].map(<[Row]>::to_vec)
}

/// The tests of random table `number`: one with a budget in which it closes, one with a lower budget.
fn tests(number: usize) -> Vec<Test> {
    let seed = SEED + number as u64;
    let random = &mut Random::new(seed);
    let kinds = [mixed, mixed, hard, hard, chains, deep, padded, small];
    let counts = [0, 1, 128, random.between(0, 128)];
    let public = counts[number / kinds.len() % counts.len()];
    let (n, rows) = kinds[number % kinds.len()](public, random);
    let texts = laid(&rows, public, random).map(|rows| match random.once_in(2) {
        true => layout::plain(n, &rows),
        false => layout::spaced(n, &rows, random),
    });
    let read = model::pair([0, 1, 2].map(|k| Some(&texts[k][..])), b"0\n").expect("the tables are within the limits");
    let found = model::run(n, &read.rows, PATIENCE);
    let mut budgets = vec![random.below(found.steps as usize + 1).to_string()];
    if found.standing != Standing::Open {
        let enough = [found.steps, found.steps + 1, 2 * found.steps, u64::MAX];
        budgets = vec![random.pick(&enough).to_string(), (found.steps - 1).to_string()];
    }
    let test = |budget: String| Test {
        made: Some((n, rows.clone())),
        ..Test::new(format!("random table {number}, seed {seed}"), texts.clone(), format!("{budget}\n").into_bytes())
    };
    budgets.into_iter().map(test).collect()
}

/// The tests of random tables.
pub fn group() -> Group<'static> {
    Group { title: format!("{COUNT} random tables, seeds from {SEED}"), count: COUNT, make: Box::new(tests) }
}
