//! Tests of the library as hosts call it. Use: interface CALLS [exact]
//!
//! Every refusal as it was written by hand, alone and two at once, then calls at the limits of size, then rows of every shape judged and
//! counted, then runs with index and number beside the plain ones, then runs continued in slices, then runs with the weighted choice, then
//! the tables that take most steps, then runs whose steps tell their rules, then clauses by their own bytes, then steps where several
//! literals are forced, then runs in which rows are replaced, whose verdicts are held to another solver's, then proofs that other solvers
//! wrote, as they are and damaged, then runs through a whole budget, then games of two sides, held to all their plans and to another
//! solver's verdicts, then tables by columns and back, then watch pages made, read and damaged, then random calls over all functions: each
//! result and every lent buffer is held to the model. With `exact` each buffer has an allocation of its own of exactly its length, for a
//! memory checker; else it is between guards. The last line is `N passed, M failed`, and the status 0 where M is 0.

mod calls;
mod circuits;
mod clauses;
mod columns;
mod continued;
mod draw;
mod expected;
mod explained;
mod extremes;
mod game;
mod indexed;
mod judged;
mod late;
mod library;
mod page;
mod proofs;
mod refusals;
mod steps;
mod ties;
mod weighted;
mod whole;

use calls::{Call, Given, ALL};
use circuits::Circuits;
use forkhemit_tests::random::Random;
use forkhemit_tests::report::{Ledger, Tally};
use std::process::ExitCode;

const SEED: u64 = 1_115_000_000;
const GUARD: usize = 16;
const SHOWN: usize = 6_000;

/// The model's answer, and where the library's is another.
fn judge(call: &Call, circuits: &Circuits, guard: usize) -> Result<Given, String> {
    let expected = expected::expected(call, circuits)?;
    let given = call.make(guard)?;
    if given.number != expected.number {
        return Err(format!("the library gives {}, the model {}", given.number, expected.number));
    }
    match (0..given.lent.len()).find(|&k| given.lent[k] != expected.lent[k]) {
        None => Ok(given),
        Some(k) => Err(cut(format!(
            "with {}, buffer {k} holds\n  {:?}\nand not\n  {:?}",
            given.number, given.lent[k], expected.lent[k]
        ))),
    }
}

/// A text's first characters.
fn cut(text: String) -> String {
    text.chars().take(SHOWN).collect()
}

/// The written refusals: the number is the one written, and a refusal leaves every buffer as it was.
fn refused(circuits: &Circuits, guard: usize) -> Tally {
    let ledger = Ledger::default();
    match refusals::cases(ALL, circuits) {
        Err(fault) => ledger.test(Some(fault)),
        Ok(cases) => {
            for case in &cases {
                let failure = match judge(&case.call, circuits, guard) {
                    Err(failure) => Some(failure),
                    Ok(given) if given.number != case.number => {
                        Some(format!("{} and not {}", given.number, case.number))
                    }
                    Ok(given) if given.number != 0 && given.lent != case.call.lent => {
                        Some("a buffer is changed".into())
                    }
                    Ok(_) => None,
                };
                ledger.kind(&format!("refused {}", case.number), 1);
                ledger.test(failure.map(|failure| format!("{}: {failure}\n  {}", case.what, shown(&case.call))));
            }
            let missing = (0..=27).find(|&number| !cases.iter().any(|case| case.number == number));
            ledger.test(missing.map(|number| format!("no case is refused with {number}")));
        }
    }
    ledger.close("every refusal of the library, written by hand")
}

/// A call as a failed test shows it.
fn shown(call: &Call) -> String {
    cut(format!("{:?} {:?} {:?}", call.function, call.numbers, call.lent))
}

/// Makes a call, if it could be put together, and holds it to the model.
fn tried(call: Result<Call, String>, what: &str, circuits: &Circuits, guard: usize, ledger: &Ledger) {
    let call = match call {
        Ok(call) => call,
        Err(fault) => return ledger.test(Some(fault)),
    };
    let judged = judge(&call, circuits, guard);
    if let Ok(given) = &judged {
        ledger.kind(&if given.number == 0 { "taken".into() } else { format!("refused {}", given.number) }, 1);
    }
    ledger.test(judged.err().map(|failure| format!("call {what}: {failure}\n  {}", shown(&call))));
}

/// Calls at the limits of size; for a memory checker, which is slow, those with both stations' tables as long.
fn largest(circuits: &Circuits, guard: usize) -> Tally {
    let (ledger, mut sizes) = (Ledger::default(), extremes::sizes());
    sizes.retain(|size| guard > 0 || size.left == size.right);
    for &size in &sizes {
        match extremes::calls(size, circuits) {
            Err(fault) => ledger.test(Some(fault)),
            Ok(calls) => {
                let what = format!("over {size:?}");
                calls.into_iter().for_each(|call| tried(Ok(call), &what, circuits, guard, &ledger));
            }
        }
    }
    for call in extremes::evaluations(guard) {
        tried(Ok(call), "of many gates", circuits, guard, &ledger);
    }
    ledger.close(&format!("calls over {} sizes at the limits, and evaluations where the way changes", sizes.len()))
}

/// Random calls, the functions in turn.
fn drawn(count: usize, circuits: &Circuits, guard: usize) -> Tally {
    let ledger = Ledger::default();
    for number in 0..count {
        let (seed, function) = (SEED + number as u64, ALL[number % ALL.len()]);
        let call = draw::call(function, circuits, &mut Random::new(seed));
        tried(call, &format!("of seed {seed}"), circuits, guard, &ledger);
    }
    let way = if guard == 0 { "buffers of exact length" } else { "guarded buffers" };
    ledger.close(&format!("{count} random calls over {} functions, seeds from {SEED}, {way}", ALL.len()))
}

fn main() -> ExitCode {
    let arguments: Vec<String> = std::env::args().skip(1).collect();
    let count: usize = arguments.first().and_then(|count| count.parse().ok()).expect("use: interface CALLS [exact]");
    let guard = if arguments.get(1).map_or(false, |way| way == "exact") { 0 } else { GUARD };
    let circuits = Circuits::new();
    let mut total = refused(&circuits, guard);
    total.add(largest(&circuits, guard));
    total.add(judged::shapes());
    total.add(judged::bytes(guard));
    total.add(judged::counted(&circuits, guard));
    total.add(indexed::runs(guard));
    total.add(indexed::handed_over(guard));
    total.add(indexed::damaged(&circuits, guard));
    total.add(indexed::solved(guard));
    total.add(continued::runs(guard));
    total.add(continued::handed_over(guard));
    total.add(continued::summed(guard));
    total.add(weighted::written(guard));
    total.add(weighted::exact(guard));
    total.add(weighted::runs(guard));
    total.add(weighted::handed_over(guard));
    total.add(weighted::solved(guard));
    total.add(steps::fullest(guard));
    total.add(explained::written(&circuits, guard));
    total.add(explained::runs(&circuits, guard));
    total.add(explained::handed_over(&circuits, guard));
    total.add(clauses::written(&circuits, guard));
    total.add(clauses::longest(&circuits, guard));
    total.add(clauses::made(&circuits, guard));
    total.add(clauses::replaced(&circuits, guard));
    total.add(clauses::followed(&circuits, guard));
    total.add(ties::stepped(&circuits, guard));
    total.add(late::every(&circuits, guard));
    total.add(late::runs(&circuits, guard));
    total.add(proofs::stored(&circuits, guard));
    total.add(proofs::made(&circuits, guard));
    total.add(proofs::fullest(&circuits, guard));
    total.add(whole::budgets(&circuits, guard));
    total.add(whole::greatest(&circuits, guard));
    total.add(whole::alike(&circuits, guard));
    total.add(game::all(&circuits, guard));
    total.add(game::drawn(&circuits, guard));
    total.add(game::refused(&circuits, guard));
    total.add(game::damaged(&circuits, guard));
    total.add(columns::sizes(&circuits, guard));
    total.add(columns::wires(&circuits, guard));
    total.add(columns::bits(&circuits, guard));
    total.add(columns::lengths(&circuits, guard));
    total.add(columns::refused(&circuits, guard));
    total.add(page::made(&circuits, guard));
    total.add(page::every(&circuits, guard));
    total.add(page::refused(&circuits, guard));
    total.add(page::damaged(&circuits, guard));
    if guard > 0 {
        total.add(circuits.known());
    }
    total.add(drawn(count, &circuits, guard));
    total.add(circuits.close());
    total.add(forkhemit_tests::steps::close());
    println!("{} passed, {} failed", total.passed, total.failed);
    if total.failed == 0 {
        ExitCode::SUCCESS
    } else {
        ExitCode::FAILURE
    }
}
