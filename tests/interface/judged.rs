//! Rows judged one by one, of every shape, and the free literals of all rows counted side by side.

use crate::calls::{self, numbers, Call, Function, Lent};
use crate::circuits::Circuits;
use crate::indexed::each_depth;
use crate::{draw, judge, shown};
use forkhemit_tests::memory;
use forkhemit_tests::model::{Row, Run, Size};
use forkhemit_tests::random::Random;
use forkhemit_tests::report::{Ledger, Tally};
use forkhemit_tests::states;

const SEED: u64 = 404_000;
const EVERY: u32 = u32::MAX;
const ODD: u32 = 0x5555_5555;
/// T and F under which pairs of bytes are judged: as a run has them, and with variables in both.
const VALUES: [(u32, u32); 8] = [
    (0, 0),
    (EVERY, 0),
    (0, EVERY),
    (ODD, !ODD),
    (ODD, 0),
    (0, !ODD),
    (0x0f0f_0f0f, 0x3030_3030),
    (0x3c3c_3c3c, 0x6666_6666),
];

/// A row's two words, T and F, and what is expected of the judging.
type Shape = (String, [u32; 4], [u64; 4]);

/// The lowest k variables.
fn lowest(k: u32) -> u32 {
    ((1 << k) - 1u64) as u32
}

/// Rows of all 64 literals, of 63 and of 32, with the given number free. A row of 64 has each variable twice, so that an even number is.
fn wide() -> Vec<Shape> {
    let mut shapes = vec![];
    for k in 0..=32 {
        let (free, set) = (u64::from(lowest(k)), !lowest(k));
        for (t, f) in [(set, 0), (0, set), (set & ODD, set & !ODD), (set, set)] {
            shapes.push((
                format!("64 literals, {k} variables free"),
                [EVERY, EVERY, t, f],
                [1, 2 * u64::from(k), free, 1],
            ));
        }
    }
    for v in 0..32 {
        let (one, others) = (1 << v, !(1 << v));
        let (this, other) = (v + 1, if v == 0 { 2 } else { 1 });
        for (what, words, expected) in [
            ("63 literals, all free", [EVERY, others, 0, 0], [1, 63, EVERY, other]),
            ("63 literals, all free", [others, EVERY, 0, 0], [1, 63, EVERY, other]),
            ("63 literals, all but one free", [EVERY, others, one, 0], [1, 62, others, other]),
            ("63 literals, one free", [EVERY, others, 0, others], [1, 1, one, other]),
            ("63 literals, one free", [others, EVERY, others, 0], [1, 1, one, other]),
            ("63 literals, none free", [others, EVERY, others, one], [1, 0, 0, other]),
            ("32 positive literals, one free", [EVERY, 0, 0, others], [0, 1, one, this]),
            ("32 positive literals, one free, satisfied", [EVERY, 0, others, 0], [1, 1, one, other]),
            ("32 positive literals, all but one free", [EVERY, 0, 0, one], [0, 31, others, other]),
            ("32 positive literals, all but one free, satisfied", [EVERY, 0, one, 0], [1, 31, others, this]),
            ("32 negative literals, one free", [0, EVERY, others, 0], [0, 1, one, this]),
            ("32 negative literals, one free, satisfied", [0, EVERY, 0, others], [1, 1, one, other]),
            ("32 negative literals, all but one free", [0, EVERY, one, 0], [0, 31, others, other]),
            ("32 negative literals, all but one free, satisfied", [0, EVERY, 0, one], [1, 31, others, this]),
        ] {
            shapes.push((format!("{what}, by variable {this}"), words, expected.map(u64::from)));
        }
    }
    shapes
}

/// Empty rows, rows of each single literal and of both literals of a variable, whatever the other variables are.
fn narrow() -> Vec<Shape> {
    let mut shapes = vec![];
    for (t, f) in VALUES {
        shapes.push(("an empty row".into(), [0, 0, t, f], [0, 0, 0, 0]));
        for v in 0..32 {
            let one: u32 = 1 << v;
            let (free, this) = (u64::from(one), v + 1);
            let (t, f) = (t & !one, f & !one);
            for (what, words, expected) in [
                ("a free literal", [one, 0, t, f], [0, 1, free, this]),
                ("a true literal", [one, 0, t | one, f], [1, 0, 0, this]),
                ("a false literal", [one, 0, t, f | one], [0, 0, 0, 0]),
                ("a literal both true and false", [one, 0, t | one, f | one], [1, 0, 0, this]),
                ("a free negation", [0, one, t, f], [0, 1, free, this]),
                ("a false negation", [0, one, t | one, f], [0, 0, 0, 0]),
                ("a true negation", [0, one, t, f | one], [1, 0, 0, this]),
                ("a negation both true and false", [0, one, t | one, f | one], [1, 0, 0, this]),
                ("padding, free", [one, one, t, f], [1, 2, free, this]),
                ("padding, true", [one, one, t | one, f], [1, 0, 0, this]),
                ("padding, false", [one, one, t, f | one], [1, 0, 0, this]),
            ] {
                shapes.push((format!("{what} of variable {this}"), words, expected));
            }
        }
    }
    shapes
}

/// Rows of 0 to 64 literals, all of them free: with as few variables in both words as can be, and with as many.
fn counts() -> Vec<Shape> {
    let mut shapes = vec![];
    for k in 0..=64u32 {
        let first = u64::from(k > 0);
        let (one, other) = (lowest(k.min(32)), lowest(k.saturating_sub(32)));
        let padding = u64::from(k > 32);
        shapes.push((format!("{k} free literals"), [one, other, 0, 0], [padding, k.into(), one.into(), first]));
        let (one, other) = (lowest(k / 2), lowest(k - k / 2));
        let padding = u64::from(k > 1);
        shapes.push((
            format!("{k} free literals in pairs"),
            [one, other, 0, 0],
            [padding, k.into(), other.into(), first],
        ));
    }
    for k in 0..=32 {
        let (all, first) = (lowest(k), u64::from(k > 0));
        shapes.push((
            format!("{k} variables, each once"),
            [all & ODD, all & !ODD, 0, 0],
            [0, k.into(), all.into(), first],
        ));
    }
    shapes
}

/// Rows of two variables, each pair of them, with two reasons to look at one: which variable it is.
fn looks() -> Vec<Shape> {
    let mut shapes = vec![];
    for (v, w) in (0..32).flat_map(|w| (0..w).map(move |v| (v, w))) {
        let (low, high): (u32, u32) = (1 << v, 1 << w);
        let (both, lower, higher) = (low | high, v + 1, w + 1);
        for (what, words, expected) in [
            ("padding by both", [both, both, 0, 0], [1, 4, both, lower]),
            ("padding by both, the higher set", [both, both, high, 0], [1, 2, low, lower]),
            ("padding by the higher, the lower free", [both, high, 0, 0], [1, 3, both, higher]),
            ("padding by the higher, the lower true", [both, high, low, 0], [1, 2, high, higher]),
            ("padding by the higher, the negated lower true", [high, both, high, low], [1, 0, 0, higher]),
            ("both true", [both, 0, both, 0], [1, 0, 0, lower]),
            ("the lower and the negated higher true", [low, high, low, high], [1, 0, 0, lower]),
            ("the negated lower and the higher true", [high, low, high, low], [1, 0, 0, lower]),
            ("the lower free, the higher true", [both, 0, high, 0], [1, 1, low, higher]),
            ("the negated lower free, the negated higher true", [0, both, 0, high], [1, 1, low, higher]),
            ("the lower true, the higher free", [both, 0, low, 0], [1, 1, high, lower]),
            ("the lower false, the higher true", [both, 0, high, low], [1, 0, 0, higher]),
            ("the lower and the negated higher free", [low, high, 0, 0], [0, 2, both, lower]),
            ("the negated lower and the higher free", [high, low, 0, 0], [0, 2, both, lower]),
            ("the lower false, the higher free", [both, 0, 0, low], [0, 1, high, higher]),
            ("the lower free, the higher false", [both, 0, 0, high], [0, 1, low, lower]),
            ("both false", [low, high, high, low], [0, 0, 0, 0]),
        ] {
            shapes.push((format!("{what}, of {lower} and {higher}"), words, expected.map(u64::from)));
        }
    }
    shapes
}

/// A row judged, held to what is expected.
fn tried(words: [u32; 4], expected: [u64; 4]) -> Option<String> {
    let given = calls::judge(words);
    (given != (0, expected)).then(|| format!("{words:x?} gives {given:x?} and not {expected:x?}"))
}

/// Rows of every shape, with what was said of each beforehand; the model says the same.
pub fn shapes() -> Tally {
    let ledger = Ledger::default();
    for (what, words, expected) in [wide(), narrow(), counts(), looks()].concat() {
        let failure = tried(words, expected).or_else(|| tried(words, memory::judged(words)));
        ledger.test(failure.map(|failure| format!("{what}: {failure}")));
    }
    ledger.close("rows of every shape")
}

/// All pairs of a positive and a negative byte, at each place of the words, alone and with other literals beside them; a test is all
/// 65,536 of them. For a memory checker, which is slow, the lowest bytes alone.
pub fn bytes(guard: usize) -> Tally {
    let ledger = Ledger::default();
    let random = &mut Random::new(SEED);
    for (t, f) in VALUES {
        for place in [0, 8, 16, 24] {
            let some = [(); 2].map(|()| random.number() as u32 & !(255 << place));
            for [positive, negative] in [[0, 0], some] {
                if guard == 0 && (place > 0 || [positive, negative] == some) {
                    continue;
                }
                let pair = |k: u32| [positive | (k & 255) << place, negative | (k >> 8) << place, t, f];
                ledger.test((0..=65_535).map(pair).find_map(|words| tried(words, memory::judged(words))));
            }
        }
    }
    ledger.close(&format!("all pairs of bytes as a row, seed {SEED}"))
}

/// Rows in every relation to the run, among them empty ones and ones of all literals, of all positive and of all negative ones.
fn rows(size: Size, run: &Run, random: &mut Random) -> Vec<Row> {
    let n = size.n as i64;
    let widest: [Row; 4] =
        [vec![], (1..=n).collect(), (1..=n).map(|v| -v).collect(), (1..=n).flat_map(|v| [v, -v]).collect()];
    let mut rows = states::table(size.rows(), &run.values, random);
    for row in &mut rows {
        if random.once_in(4) {
            *row = random.pick(&widest).clone();
        }
    }
    rows
}

/// The counts of all rows of a run, as the model counts them and as each row's own judging does; what is lent besides stays.
fn side_by_side(size: Size, run: &Run, circuits: &Circuits, guard: usize, random: &mut Random) -> Option<String> {
    let rows = rows(size, run, random);
    let words = memory::run_words(run);
    let (t, f) = (words[2], words[3]);
    let more = *random.pick(&[0, 0, 1, 200]);
    let mut lent = draw::lent_tables(size, &rows, random);
    lent.extend([Lent::Run(words), Lent::Bytes(vec![0xee; rows.len() + more])]);
    let call = Call { function: Function::CountFree, numbers: numbers(size), lent };
    let given = match judge(&call, circuits, guard) {
        Ok(given) if given.number == 0 => given,
        Ok(given) => return Some(format!("refused with {}\n  {}", given.number, shown(&call))),
        Err(failure) => return Some(format!("{failure}\n  {}", shown(&call))),
    };
    let row_words = memory::row_words(&rows);
    let judged = row_words.chunks(2).map(|row| calls::judge([row[0], row[1], t, f]).1[1]);
    let counts = given.lent[4].bytes()[..rows.len()].iter().map(|&count| u64::from(count));
    judged.zip(counts).position(|(judged, count)| judged != count).map(|row| format!("row {row} of {rows:?}"))
}

/// Counts over tables of all row counts, of runs of every depth.
pub fn counted(circuits: &Circuits, guard: usize) -> Tally {
    let ledger = Ledger::default();
    each_depth(SEED, guard, |size, run, random| {
        let failure = side_by_side(size, &run, circuits, guard, random);
        ledger.test(failure.map(|failure| format!("{size:?}, depth {}: {failure}", run.levels.len())));
    });
    ledger.close(&format!("free literals of all rows side by side, seeds from {SEED}"))
}
