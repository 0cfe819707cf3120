//! What the must-fail edits were refused for, read from what `rt ci` says of each: the first error is a fact that fails, and not a goal, a name
//! or a field that is not there, or a text that does not parse. A right program of the same shape would be refused for these too.

use crate::contracts;
use crate::report::Tally;
use std::fs;
use std::path::Path;

/// What `rt ci` said, from the project's folder on. The gate keeps it there.
pub const LOG: &str = "target/log/ci";

/// Words by which the checker says that something is not there.
#[rustfmt::skip]
const SHAPES: &[&str] = &[
    "can be named from here", "not in scope", "has no field", "is a method, not a field", "exports no", "has no such", "unbound", "was not admitted", "was rejected",
    "is not a constructor", "does not define it", "is still open", "does not parse", "unexpected token", "unexpected character", "expected a term, found", "expected a name",
];
/// What `rt` says of an edit that the prover refuses, before the first error.
const REFUSED: &str = "refused, as it must be";
/// Where a proof that was searched for is not found.
const UNPROVED: &str = "it is not proved that";

/// What a log of `rt ci` says of an edit, `crate/label`.
fn said<'a>(log: &'a str, edit: &str) -> Option<&'a str> {
    let start = format!("rt: must-fail {edit}.edit: ");
    log.lines().find_map(|line| line.strip_prefix(start.as_str()))
}

/// What is wrong with an edit of which this is said.
fn fault(said: &str) -> Option<String> {
    let shown = |text: &str| text.chars().take(200).collect::<String>();
    let Some(behind) = said.strip_prefix(REFUSED) else {
        return Some(format!("is not refused: {}", shown(said)));
    };
    let Some(cause) = behind.strip_prefix(": ") else {
        return Some(match behind {
            "" => "was refused without an error or an unproved goal".into(),
            _ => format!("was refused{}", shown(behind)),
        });
    };
    let error = cause.split_once(": error: ").map(|(_, error)| error);
    if error.is_none() && !(cause.starts_with("note: ") && cause.contains(UNPROVED)) {
        return Some(format!("was refused without an error or an unproved goal: {}", shown(cause)));
    }
    // a goal may be long, and has words of its own; rt cuts what it says, within a goal too
    let error = error.unwrap_or(cause);
    let outside: String = error.split('`').step_by(2).collect::<Vec<_>>().join("`");
    let shape = SHAPES.iter().find(|shape| outside.contains(*shape))?;
    Some(format!("was refused for its shape ({shape}): {}", shown(error)))
}

/// What `rt ci` says of the edit `a/b`, and what is wrong with it, "" where nothing is: what this check is held to.
#[rustfmt::skip]
const SAMPLES: &[(&str, &str)] = &[
    ("rt: must-fail a/b.edit: refused, as it must be: ./proofs/number/Answers.antt:84:15: error: `returns-9`: computed as far as they go, the two types differ only where one has `10` (expected) and the other has `9` (found)", ""),
    ("rt: must-fail a/b.edit: refused, as it must be: ./proofs/count/Answers.antt:44:29: error: `overflow_add-low`: `omega`: the goal does not follow from what it read. All of that holds, and the goal fails, at `bo", ""),
    ("rt: must-fail a/b.edit: refused, as it must be: note: src/lib.rt:75:5: it is not proved that what the function ensures holds when it returns (`returns`); `search` gave up at one of its limits", ""),
    ("rt: must-fail a/b.edit: refused, as it must be: ./proofs/Laws.antt:4:2: error: `law`: expected type `x has no field y`", ""),
    ("rt: must-fail a/b.edit: refused, as it must be: ./proofs/Laws.antt:4:2: error: `law`: as printed, the two types differ only where one has `x is not in sc", ""),
    ("rt: must-fail a/bb.edit: refused, as it must be: note: src/lib.rt:1:1: it is not proved that it holds\nrt: must-fail a/b.edit: refused, as it must be: ./proofs/Laws.antt:36:11: error: `law`: expected type `0`, but this has type `1`", ""),
    ("rt: must-fail a/b.edit: refused, as it must be: ./proofs/below/Answers.antt:13:89: error: `returns`: record `a.below.Lts.Start` has no field `if1`", "was refused for its shape (has no field): `returns`: record `a.below.Lts.Start` has no field `if1`"),
    ("rt: must-fail a/b.edit: refused, as it must be: ./proofs/below/Answers.antt:15:14: error: `shr-result`: `goal.shr-result`: module `a.below.Goals` has no `shr-result` that can be named from here", "was refused for its shape (can be named from here): `shr-result`: `goal.shr-result`: module `a.below.Goals` has no `shr-result` that can be named from here"),
    ("rt: must-fail a/b.edit: refused, as it must be: ./specs/Sets.antt:33:1: error: `lowest_of`: this clause follows the signature of `lowest_of` but does not define it", "was refused for its shape (does not define it): `lowest_of`: this clause follows the signature of `lowest_of` but does not define it"),
    ("rt: must-fail a/b.edit: refused, as it must be: ./proofs/Laws.antt:4:2: error: `x` was not admitted, so this cannot be checked", "was refused for its shape (was not admitted): `x` was not admitted, so this cannot be checked"),
    ("rt: must-fail a/b.edit: refused, as it must be: ./proofs/Sets.antt:33:1: error: it does not parse: expected a term, found `)`", "was refused for its shape (does not parse): it does not parse: expected a term, found `)`"),
    ("rt: must-fail a/b.edit: refused, as it must be (only because a proof file names what the edit took away): ./proofs/f/Answers.antt:1:1: error: `x` has no field `y`", "was refused (only because a proof file names what the edit took away): ./proofs/f/Answers.antt:1:1: error: `x` has no field `y`"),
    ("rt: must-fail a/b.edit: refused, as it must be (only by a limit of the prover, which gave no verdict): antt ran out of stack", "was refused (only by a limit of the prover, which gave no verdict): antt ran out of stack"),
    ("rt: must-fail a/b.edit: refused, as it must be", "was refused without an error or an unproved goal"),
    ("rt: must-fail a/b.edit: refused, as it must be: note: src/lib.rt:7:1: something else", "was refused without an error or an unproved goal: note: src/lib.rt:7:1: something else"),
    ("rt: must-fail a/b.edit: BAD EDIT: an 'old:' text is in src/lib.rt 0 times, and not once", "is not refused: BAD EDIT: an 'old:' text is in src/lib.rt 0 times, and not once"),
    ("rt: must-fail a/b.edit: NOT REFUSED: the crate is still proved with this edit", "is not refused: NOT REFUSED: the crate is still proved with this edit"),
    ("rt: must-fail c/b.edit: refused, as it must be: note: src/lib.rt:1:1: it is not proved that it holds", "was not tried"),
    ("", "was not tried"),
];

/// What is wrong with an edit by a log.
fn judged(log: &str, edit: &str) -> Option<String> {
    said(log, edit).map_or(Some("was not tried".into()), fault)
}

/// Checks the check on the samples, then what was said of every edit.
pub fn run(crates: &Path) -> std::io::Result<Tally> {
    let mut tally = Tally::default();
    for (log, expected) in SAMPLES {
        let found = judged(log, "a/b").unwrap_or_default();
        tally.count(found == *expected);
        if found != *expected {
            println!("FAILED sample of logs: {found:?} for {log:?}");
        }
    }
    let log = fs::read_to_string(crates.join("..").join(LOG))?;
    let edits = contracts::files(crates, "edit")?;
    for edit in &edits {
        let within = edit.strip_prefix(crates).unwrap_or(edit).with_extension("");
        let name = within.to_string_lossy().replace("/must-fail/", "/");
        let fault = judged(&log, &name);
        tally.count(fault.is_none());
        if let Some(fault) = fault {
            println!("FAILED edit: {name} {fault}");
        }
    }
    let (edits, samples) = (edits.len(), SAMPLES.len());
    println!(
        "first errors of {edits} edits, {samples} samples first: {} passed, {} failed",
        tally.passed, tally.failed
    );
    Ok(tally)
}
