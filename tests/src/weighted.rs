//! The weighted run as document 02 describes it: the model's step with another variable in a choice. Weights are whole numbers of 2^-32, so
//! that no sum is rounded; nothing here is a float but what shows that rounded sums would choose otherwise.

use crate::model::{padding, Answer, Row, Run, Standing};

/// What a row of that many free literals adds, in 2^-32: 2 to the power minus their number.
fn gain(free: usize) -> u64 {
    1 << (32 - free)
}

/// The free variables of a row, from 0 on, each once.
fn free_variables(run: &Run, row: &[i64]) -> Vec<usize> {
    let mut variables: Vec<usize> = row.iter().map(|literal| literal.unsigned_abs() as usize - 1).collect();
    variables.retain(|&v| run.values[v].is_none());
    variables.sort_unstable();
    variables.dedup();
    variables
}

/// Whether a row is padding or has a true literal.
fn satisfied(run: &Run, row: &[i64]) -> bool {
    padding(row) || row.iter().any(|&l| run.values[l.unsigned_abs() as usize - 1] == Some(l > 0))
}

/// What every variable weighs, in 2^-32.
pub fn weights(run: &Run, rows: &[Row]) -> Vec<u64> {
    let mut weights = vec![0; run.values.len()];
    for row in rows.iter().filter(|row| !satisfied(run, row)) {
        let free = free_variables(run, row);
        free.iter().for_each(|&v| weights[v] += gain(free.len()));
    }
    weights
}

/// The first place of the greatest number.
fn first_greatest<T: PartialOrd>(numbers: &[T]) -> usize {
    (1..numbers.len()).fold(0, |best, v| if numbers[v] > numbers[best] { v } else { best })
}

/// The run with the level of a choice.
fn chosen(run: &Run, v: usize) -> Run {
    let mut after = run.clone();
    after.levels.push((run.values.clone(), v));
    after.values[v] = Some(true);
    after
}

/// Whether the step from here is a choice.
pub fn chooses(run: &Run, rows: &[Row]) -> bool {
    let mut after = run.clone();
    after.step(rows);
    after.levels.len() > run.levels.len()
}

/// One step: rules 1 to 3 as they are, and for a choice the first of the heaviest variables.
pub fn step(run: &mut Run, rows: &[Row]) {
    if chooses(run, rows) {
        *run = chosen(run, first_greatest(&weights(run, rows)));
    } else {
        run.step(rows);
    }
}

/// Steps through the one that closes the run, at most a given number; how many they were.
pub fn go_on(run: &mut Run, rows: &[Row], times: u64) -> u64 {
    let mut steps = 0;
    while steps < times && run.standing == Standing::Open {
        step(run, rows);
        steps += 1;
    }
    steps
}

/// The budgeted run from fresh.
pub fn solve(n: usize, rows: &[Row], budget: u64) -> Answer {
    let mut run = Run::fresh(n);
    let steps = go_on(&mut run, rows, budget);
    run.answer(steps)
}

// ---- Choices that are wrong

/// What wrong programs do.
pub const WRONG: [&str; 7] = [
    "sums in 24 bits",
    "the last among equals",
    "the lightest",
    "satisfied rows weigh",
    "padding weighs",
    "the row's length",
    "the lowest free variable",
];

/// The variables that they choose here: only to count where tests tell them from the right one.
pub fn wrong(run: &Run, rows: &[Row]) -> Vec<(&'static str, usize)> {
    let right = weights(run, rows);
    let by = |counts: &dyn Fn(&Row) -> bool, length: &dyn Fn(&Row, usize) -> usize| {
        let mut sums = vec![0.0; run.values.len()];
        for row in rows.iter().filter(|row| counts(row)) {
            let free = free_variables(run, row);
            free.iter().for_each(|&v| sums[v] += 0.5f64.powi(length(row, free.len()) as i32));
        }
        first_greatest(&sums)
    };
    let open = |row: &Row| !satisfied(run, row);
    let free = |_: &Row, free: usize| free;
    // a sum with 24 bits of its own, as f32 has
    let mut short = vec![0.0f32; right.len()];
    for row in rows.iter().filter(|row| open(row)) {
        let free = free_variables(run, row);
        free.iter().for_each(|&v| short[v] += 0.5f32.powi(free.len() as i32));
    }
    let last = right.len() - 1 - first_greatest(&right.iter().rev().collect::<Vec<_>>());
    let lightest = (0..right.len()).filter(|&v| right[v] > 0).min_by_key(|&v| right[v]).unwrap_or(0);
    let chosen = [
        first_greatest(&short),
        last,
        lightest,
        by(&|row| !padding(row), &free),
        by(&|row| padding(row) || open(row), &free),
        by(&open, &|row, _| row.len()),
        (0..right.len()).find(|&v| right[v] > 0).unwrap_or(0),
    ];
    WRONG.into_iter().zip(chosen).collect()
}
