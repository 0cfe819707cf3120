//! Times the check of proofs beside the same check in plain Rust: the dearest text that was found, and what cadical writes of random tables.
//! All times are the processor's. Linked with the archive that `make lib` writes.

#[path = "../interface/library.rs"]
mod library;

use forkhemit_tests::clock::{self, median};
use forkhemit_tests::model::{Row, Size};
use forkhemit_tests::proofs;
use forkhemit_tests::random::Random;
use forkhemit_tests::{layout, memory, tables};
use library::*;

const RUNS: usize = 25;
const TABLES: usize = 200;
const SEED: u64 = 8_800;

/// Tables, and a text to be checked against them.
struct Case {
    n: usize,
    tables: [Vec<u32>; 3],
    text: Vec<u8>,
}

impl Case {
    /// Rows as three tables.
    fn new(n: usize, rows: &[Row], text: Vec<u8>) -> Case {
        let Size { left, right, .. } = Size::split(n, rows.len());
        let tables = [&rows[..left], &rows[left..left + right], &rows[left + right..]].map(memory::row_words);
        Case { n, tables, text }
    }

    /// The library's answer.
    fn proved(&self) -> u8 {
        let [left, right, public] = &self.tables;
        let [l, r, p] = [left, right, public].map(|words| words.len() as u64 / 2);
        let [(a, x), (b, y), (c, z)] = [left, right, public].map(|words| (words.as_ptr(), words.len()));
        let (text, length) = (self.text.as_ptr(), self.text.len());
        // Tables and text are lent for the call.
        unsafe { forkhemit_check_proof(self.n as u64, l, r, p, a, x, b, y, c, z, text, length) }
    }

    /// The answer of plain Rust.
    fn plain(&self) -> u8 {
        plain(self.n, self.tables.concat().chunks_exact(2).map(|row| [row[0], row[1]]).collect(), &self.text)
    }
}

// ---- Plain Rust

/// The clause of a line's bytes, as two words; None where it is malformed.
fn clause(n: usize, bytes: &[u8]) -> Option<[u32; 2]> {
    let (mut row, mut closed) = ([0; 2], false);
    for word in bytes.split(|&b| b == b' ' || b == b'\t').filter(|word| !word.is_empty()) {
        let (sign, digits) = match word {
            [b'-', digits @ ..] => (1, digits),
            digits => (0, digits),
        };
        let well_formed = !closed && !digits.is_empty() && digits.len() < 3 && digits.iter().all(u8::is_ascii_digit);
        let value = digits.iter().take(3).fold(0, |value, digit| 10 * value + usize::from(digit.wrapping_sub(b'0')));
        if !well_formed || value > n || (digits[0] == b'0' && word != b"0") {
            return None;
        }
        closed = value == 0;
        if !closed {
            row[sign] |= 1 << (value - 1);
        }
    }
    closed.then_some(row)
}

/// Whether a clause follows: passes over the rows, each of which is read with what those before it forced.
fn follows(rows: &[[u32; 2]], [positive, negative]: [u32; 2]) -> bool {
    if positive & negative != 0 {
        return true;
    }
    let (mut t, mut f) = (negative, positive);
    loop {
        let before = (t, f);
        for &[p, q] in rows {
            // neither satisfied nor with two free literals: one branch, which is seldom taken
            let open = (p | q) & !(t | f);
            if (p & q | p & t | q & f) | (open & open.wrapping_sub(1)) == 0 {
                if open == 0 {
                    return true;
                }
                t |= open & p;
                f |= open & q;
            }
        }
        if before == (t, f) {
            return false;
        }
    }
}

/// 0, 18, 19 or 20 for a text against accepted rows.
fn plain(n: usize, mut rows: Vec<[u32; 2]>, text: &[u8]) -> u8 {
    if text.len() > 65_536 {
        return 18;
    }
    let (mut additions, mut answer) = (0, 20);
    for line in text.split(|&b| b == b'\n') {
        let line = line.strip_suffix(b"\r").unwrap_or(line);
        let start = line.iter().position(|&b| b != b' ' && b != b'\t').unwrap_or(line.len());
        let line = &line[start..];
        if line.is_empty() {
            continue;
        }
        let rest = line.strip_prefix(b"d ");
        let row = match clause(n, rest.unwrap_or(line)) {
            Some(row) => row,
            None => return 18,
        };
        if rest.is_some() {
            if let Some(place) = rows.iter().position(|other| *other == row) {
                rows.remove(place);
            }
            continue;
        }
        additions += 1;
        if additions > 256 {
            return 18;
        }
        if answer == 20 {
            answer = match (follows(&rows, row), row) {
                (false, _) => 19,
                (true, [0, 0]) => 0,
                (true, _) => 20,
            };
            rows.push(row);
        }
    }
    answer
}

// ---- Texts

/// A chain of implications against the order of the rows, so that each pass forces one literal, and 255 clauses that follow by all of it and
/// by nothing less; then deletions of rows that are not there, up to 65,536 bytes; then the empty clause. 384 rows, and 640 at the end.
fn dearest() -> Case {
    let mut rows: Vec<Row> = vec![vec![-23, 24], vec![-23, -24]];
    rows.extend((1..23).rev().map(|v| vec![-v, v + 1]));
    rows.extend([vec![1, 24], vec![1, -24]]);
    let random = &mut Random::new(SEED);
    while rows.len() < 384 {
        rows.push(tables::strict(23, 3, random).into_iter().map(i64::abs).collect());
    }
    let mut text = String::new();
    for signs in 0..254 {
        let literal = |k: i64| if signs >> k & 1 == 1 { -(25 + k) } else { 25 + k };
        let literals: String = (0..8).map(|k| format!("{} ", literal(k))).collect();
        text += &format!("-1 {literals}0\n");
    }
    text += "-1 0\n";
    let end = "0";
    while text.len() + 6 + end.len() <= 65_536 {
        text += "d 3 0\n";
    }
    Case::new(32, &rows, (text + end).into_bytes())
}

/// Cadical's proofs of random unsatisfiable tables.
fn by_cadical(n: usize, m: usize) -> Vec<Case> {
    let random = &mut Random::new(SEED);
    let mut cases = vec![];
    while cases.len() < TABLES {
        let rows: Vec<Row> = (0..m).map(|_| tables::strict(n, 3, random)).collect();
        if let Some(text) = proofs::cadical(&[], &layout::plain(n, &rows)).expect("cadical is installed") {
            cases.push(Case::new(n, &rows, text));
        }
    }
    cases
}

/// The check of each case beside plain Rust; medians over repeated rounds, of all cases and of the case in the middle.
fn time(what: &str, cases: &[Case]) {
    let (mut proved, mut plain) = (vec![], vec![]);
    for case in cases {
        let (mut times, mut others) = (vec![], vec![]);
        for _ in 0..RUNS {
            let (answer, time) = clock::of(|| case.proved());
            let (other, beside) = clock::of(|| case.plain());
            assert_eq!((answer, other), (0, 0), "both accept the proof");
            times.push(time);
            others.push(beside);
        }
        proved.push(median(times));
        plain.push(median(others));
    }
    let most = proved.iter().copied().fold(0.0, f64::max);
    let (a, b) = (median(proved), median(plain));
    let bytes = median(cases.iter().map(|case| case.text.len() as f64).collect());
    println!(
        "a proof checked, {what}: {a:.1} us, plain Rust {b:.1} us, ratio {:.2} (median of {}, {bytes:.0} bytes; the longest {most:.1} us)",
        a / b,
        cases.len()
    );
}

fn main() {
    time("the dearest", &[dearest()]);
    for (n, m) in [(20, 120), (32, 192), (32, 384)] {
        time(&format!("cadical's, n = {n}, m = {m}"), &by_cadical(n, m));
    }
}
