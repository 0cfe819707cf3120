//! Document 02, "Fewer variables, fewer steps": each run from the fresh state takes at most 2^(k+1) − 1 steps, and as many close it, k being
//! the number of variables in rows that are no padding at its close. All runs of the tests are held to it here, and the greatest count for
//! each k is kept.

use crate::model::{padding, Row};
use crate::report::{Ledger, Tally};
use std::sync::Mutex;

/// For each k how many runs were held to the bound, and the most steps that one of them took.
static SEEN: Mutex<[(usize, u64); 33]> = Mutex::new([(0, 0); 33]);

/// The number of variables in rows that are no padding.
pub fn variables(rows: &[Row]) -> usize {
    let live = || rows.iter().filter(|row| !padding(row)).flatten();
    (1..=32).filter(|&variable| live().any(|literal| literal.abs() == variable)).count()
}

/// 2^(k+1) − 1.
pub fn bound(k: usize) -> u64 {
    (2 << k) - 1
}

/// What all clauses of k variables take: of the last free variable two unit rows are left, so that it is never chosen.
pub fn best_known(k: usize) -> u64 {
    match k {
        0 => 1,
        _ => (3 << (k - 1)) - 1,
    }
}

/// A run from the fresh state that was allowed these steps, over the rows at its close: says where it is open though they are enough.
pub fn decided(rows: &[Row], allowed: u64, open: bool) -> Result<(), String> {
    let k = variables(rows);
    match open && allowed >= bound(k) {
        true => Err(format!("open after {allowed} steps with {k} variables: {} are enough", bound(k))),
        false => Ok(()),
    }
}

/// The same of a run that stops where it is closed, and took the given number of steps: says where these are more than the bound.
pub fn hold(rows: &[Row], allowed: u64, steps: u64, open: bool) -> Result<(), String> {
    let k = variables(rows);
    let mut seen = SEEN.lock().expect("no thread panics while it holds this");
    seen[k].0 += 1;
    seen[k].1 = seen[k].1.max(steps);
    match steps > bound(k) {
        true => Err(format!("{steps} steps with {k} variables: at most {}", bound(k))),
        false => decided(rows, allowed, open),
    }
}

/// Prints the greatest count for each k beside the bound: a test for each, whether it is within the best known count too.
pub fn close() -> Tally {
    let (ledger, seen) = (Ledger::default(), SEEN.lock().expect("every thread has ended"));
    let mut told = vec![];
    for (k, &(runs, most)) in seen.iter().enumerate().filter(|(_, seen)| seen.0 > 0) {
        let more = most > best_known(k);
        ledger.test(more.then(|| format!("{most} steps with {k} variables: the best known is {}", best_known(k))));
        ledger.kind("runs", runs);
        told.push(format!("{k}: {most} of {}", bound(k)));
    }
    println!("greatest count for each k, of 2^(k+1) - 1: {}", told.join(", "));
    ledger.close("runs held to the bound by the variables that occur")
}
