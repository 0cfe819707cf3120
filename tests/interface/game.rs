//! Who can force the roster: every prefix over 1 to 3 variables with every function of them and with every few rows, held to all plans; random
//! games of up to 12 variables, held to the model and to depqbf, where it is installed; every refusal in each order; texts damaged byte by
//! byte.

use crate::calls::{Call, Function, Lent};
use crate::circuits::Circuits;
use crate::{judge, shown};
use forkhemit_tests::game::{self, Turn};
use forkhemit_tests::model::{self, Row, TEXT_LIMIT};
use forkhemit_tests::random::Random;
use forkhemit_tests::report::{Ledger, Tally};
use forkhemit_tests::{process, states};

const SEED: u64 = 909_000;
/// How many random games of how many variables and rows.
#[rustfmt::skip]
const SIZES: [([usize; 2], usize); 9] = [
    ([1, 2], 40), ([2, 4], 100), ([4, 9], 300), ([6, 12], 400), ([8, 20], 400), ([10, 30], 400), ([12, 12], 100), ([12, 40], 200), ([12, 128], 60),
];
/// How many games of each size depqbf is asked about.
const ASKED: usize = 40;

/// A call with a text.
fn call(text: Vec<u8>) -> Call {
    Call { function: Function::Game, numbers: vec![], lent: vec![Lent::Bytes(text), Lent::Numbers(vec![7; 3])] }
}

/// What the library gives, where the model gives the same: the three numbers, or the refusal, after which all that was lent is as it was.
fn played(text: Vec<u8>, circuits: &Circuits, guard: usize) -> Result<Result<[u64; 3], u8>, String> {
    let call = call(text);
    let given = judge(&call, circuits, guard).map_err(|failure| format!("{failure}\n  {}", shown(&call)))?;
    if given.lent[0] != call.lent[0] || given.number > 0 && given.lent != call.lent {
        return Err(format!("a buffer is changed\n  {}", shown(&call)));
    }
    Ok(if given.number > 0 { Err(given.number) } else { Ok([0, 1, 2].map(|k| given.lent[1].numbers()[k])) })
}

/// The answer to a game that must be played, and what it is kept under.
fn won(text: Vec<u8>, circuits: &Circuits, guard: usize, ledger: &Ledger) -> Result<[u64; 3], String> {
    let told = text.escape_ascii().to_string();
    match played(text, circuits, guard)? {
        Err(number) => Err(format!("refused with {number}: {told}")),
        Ok(answer) => {
            let side = if answer[0] == 1 { "existential" } else { "universal" };
            ledger.kind(&format!("{side} {}", if answer[1] > 0 { "with a value" } else { "moving second" }), 1);
            Ok(answer)
        }
    }
}

// ---- All small games

/// Tables over n variables: every function of them, by its clauses of full width, and every table of few rows.
fn tables(n: usize) -> Vec<Vec<Row>> {
    let full: Vec<Row> = (0..1 << n)
        .map(|signs| (1..=n as i64).map(|v| if signs >> (v - 1) & 1 == 1 { -v } else { v }).collect())
        .collect();
    let functions = (0..1u32 << full.len()).map(|set| {
        let rows: Vec<Row> = (0..full.len()).filter(|k| set >> k & 1 == 1).map(|k| full[k].clone()).collect();
        // true whatever is fixed
        if rows.is_empty() {
            vec![vec![1, -1]]
        } else {
            rows
        }
    });
    let rows = states::rows(n);
    let single = rows.iter().map(|row| vec![row.clone()]);
    let other: Vec<&Row> = rows.iter().filter(|row| n < 3 || !model::padding(row)).collect();
    let pairs = other.iter().enumerate().flat_map(|(k, a)| other[..k].iter().map(|b| vec![a.to_vec(), b.to_vec()]));
    functions.chain(single).chain(pairs).collect()
}

/// Every prefix over 1 to 3 variables with each of these tables; for a memory checker, which is slow, a few. Lines of one letter are one
/// line or several in turn.
pub fn all(circuits: &Circuits, guard: usize) -> Tally {
    let ledger = Ledger::default();
    let mut number = 0;
    for n in 1..=3 {
        let (prefixes, tables) = (game::prefixes(n), tables(n as usize));
        for rows in &tables {
            for listed in &prefixes {
                number += 1;
                if guard > 0 || number % 97 == 0 {
                    let text = game::plain(n, rows, listed, number % 2 == 0);
                    let made = game::Game { rows: rows.clone(), turns: game::turns(n, listed) };
                    ledger.test(won(text, circuits, guard, &ledger).map_or_else(Some, |answer| {
                        let expected = game::by_plans(&made);
                        (Some(answer) != expected).then(|| format!("{answer:?} and not {expected:?}: {made:?}"))
                    }));
                }
            }
        }
    }
    ledger.close("all games of 1 to 3 variables, beside every plan of both sides")
}

// ---- Random games

/// Whether depqbf finds the formula of a game true: every variable is on a line there.
fn asked(n: i64, rows: &[Row], listed: &[Turn]) -> Result<bool, String> {
    process::asked("depqbf", &game::plain(n, rows, &game::turns(n, listed), true))
}

/// Random games in any layout; for a memory checker a few of the smaller and of the largest.
pub fn drawn(circuits: &Circuits, guard: usize) -> Tally {
    let ledger = Ledger::default();
    let there = guard > 0 && process::installed("depqbf");
    for ([n, m], count) in SIZES.into_iter().filter(|([n, m], _)| guard > 0 || *n < 10 || *m == 128) {
        let random = &mut Random::new(SEED + (n << 8 | m) as u64);
        for number in 0..if guard > 0 { count } else { 5 } {
            let m = if random.once_in(2) { m } else { random.between(1, m) };
            let (rows, listed) = game::drawn(n as i64, m, random);
            let text = game::spaced(n as i64, &rows, &listed, random);
            let failure = won(text, circuits, guard, &ledger).and_then(|answer| {
                if !there || number >= ASKED {
                    return Ok(());
                }
                ledger.kind("asked", 1);
                match asked(n as i64, &rows, &listed)? == (answer[0] == 1) {
                    true => Ok(()),
                    false => Err(format!("{answer:?}, and depqbf says otherwise: {rows:?} {listed:?}")),
                }
            });
            ledger.test(failure.err());
        }
    }
    let beside = if there { " and beside depqbf" } else { "; depqbf is not asked" };
    ledger.close(&format!("random games of up to 12 variables{beside}, seeds from {SEED}"))
}

// ---- Refusals

/// A number of variables or of rows as the header has it, with the refusal that it leads to.
const VARIABLES: [(&str, u8); 7] =
    [("2", 0), ("0", 1), ("33", 1), ("-1", 1), ("99999999999999999999", 1), ("13", 21), ("32", 21)];
const ROWS: [(&str, u8); 4] = [("1", 0), ("0", 2), ("129", 2), ("-1", 2)];
/// A prefix that is proper, or has a variable twice or outside 1 to n.
const LINES: [(&str, u8); 8] = [
    ("a 1 0\ne 2 0\n", 0),
    ("", 0),
    ("a 1 1 0\n", 22),
    ("a 1 0\ne 2 1 0\n", 22),
    ("e 34 0\n", 22),
    ("a 2 -1 0\n", 22),
    ("a 18446744073709551617 0\n", 22),
    ("e 4294967297 2 0\na 1 0\n", 22),
];
/// One line or clause more, or none, with which the text is malformed or not.
const MORE: [(&str, u8); 13] = [
    ("1 2 0\n", 0),
    ("\n \t\r\n1 2 0", 0),
    ("a 0\n1 2 0\n", 5),
    ("a\n1 2 0\n", 5),
    ("e 2\n1 2 0\n", 5),
    ("e 2\n0\n1 2 0\n", 5),
    ("e 2 0 0\n1 2 0\n", 5),
    ("e2 0\n1 2 0\n", 5),
    (" e 2 0\n1 2 0\n", 5),
    ("e 02 0\n1 2 0\n", 5),
    ("1 2 0\ne 2 0\n", 5),
    ("1 2\n", 5),
    ("1 2 0 0\n", 5),
];

/// Every number in the header with every prefix and everything after it, as long as it may be or overlong; the refusal is the first of 5
/// for an overlong text, 1, 2, 21, 5 and 22.
pub fn refused(circuits: &Circuits, guard: usize) -> Tally {
    let ledger = Ledger::default();
    for (k, (n, first)) in VARIABLES.into_iter().enumerate() {
        for (m, second) in ROWS {
            for (lines, last) in LINES {
                for (more, malformed) in MORE {
                    let text = format!("c game\np cnf {n} {m}\n{lines}{more}").into_bytes();
                    let header = [first, second].into_iter().find(|&number| [1, 2].contains(&number));
                    let later = [first, malformed, last].into_iter().find(|&number| number > 0);
                    let expected = header.or(later).unwrap_or(0);
                    let long = |length: usize| [&text[..], b"\nc", &vec![b'1'; length - text.len() - 2]].concat();
                    let mut tried = vec![(text.clone(), expected)];
                    // each kind of header once with the longest text, and with one that is too long
                    if k % 2 == 0 && guard > 0 {
                        tried.extend([(long(TEXT_LIMIT), expected), (long(TEXT_LIMIT + 1), 5)]);
                    }
                    for (text, expected) in tried {
                        let start = text[..text.len().min(80)].escape_ascii().to_string();
                        let length = text.len();
                        ledger.kind(&format!("refused {expected}"), 1);
                        let failure = played(text, circuits, guard).and_then(|given| match given.err().unwrap_or(0) {
                            number if number == expected => Ok(()),
                            number => Err(format!("{number} and not {expected}, {length} bytes: {start}")),
                        });
                        ledger.test(failure.err());
                    }
                }
            }
        }
    }
    ledger.close("refusals of a game's text in each order")
}

// ---- Damage

/// Texts with all that a game's text may have.
const TEXTS: [&[u8]; 4] = [
    b"c two\np cnf 3 2\ne 2 0\n\na 1 3 0 \r\n1 -2 0\n2 3 0\n",
    b"p cnf 12 1\na 12 1 0\nc\ne 11 0\n-12 11\n0",
    b"p\tcnf 2 2\r\n\t\ne\t1 0\na 2\t0\n1 -1 0 -2\nc\n0",
    b"p cnf 2 3\n1 2 0\n-1 0 -2 1 0",
];
const BYTES: &[u8] = b"\0 \t\r\n0123456789-+acepx\x0b\xff";

/// Each text with a byte left out, put in, changed, or with all from a place on left out; for a memory checker a few of these.
pub fn damaged(circuits: &Circuits, guard: usize) -> Tally {
    let ledger = Ledger::default();
    let mut texts = vec![];
    for text in TEXTS {
        for at in 0..=text.len() {
            let (front, back) = text.split_at(at);
            texts.push(front.to_vec());
            texts.extend(BYTES.iter().map(|&byte| [front, &[byte], back].concat()));
            if let Some((_, behind)) = back.split_first() {
                texts.push([front, behind].concat());
                texts.extend(BYTES.iter().map(|&byte| [front, &[byte], behind].concat()));
            }
        }
    }
    for text in texts.into_iter().enumerate().filter(|(k, _)| guard > 0 || k % 29 == 0).map(|(_, text)| text) {
        let given = played(text, circuits, guard);
        if let Ok(given) = &given {
            ledger.kind(&given.map_or_else(|number| format!("refused {number}"), |_| "played".into()), 1);
        }
        ledger.test(given.err());
    }
    ledger.close("texts of games damaged byte by byte")
}
