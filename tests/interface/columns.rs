//! Tables by columns and back: every row count with every n, both ways; the wires that a back end loads from planes; every bit of planes and of tables changed; every length of both
//! buffers; every refusal with every later one.

use crate::calls::{numbers, Call, Function, Lent};
use crate::circuits::Circuits;
use crate::{draw, judge, shown};
use forkhemit_tests::columns::squares;
use forkhemit_tests::memory;
use forkhemit_tests::model::{Run, Size};
use forkhemit_tests::random::Random;
use forkhemit_tests::report::{Ledger, Tally};

const SEED: u64 = 1_313_000;
/// Variables and rows for changes of single bits: at the ends of a square, within one and with a full last one.
const SIZES: [(usize, usize); 7] = [(1, 1), (5, 31), (32, 32), (31, 33), (17, 64), (2, 97), (32, 127)];

/// A call over the words that are read and those that are written.
fn call(function: Function, n: u64, rows: u64, from: Vec<u32>, to: Vec<u32>) -> Call {
    Call { function, numbers: vec![n, rows], lent: vec![Lent::Words(from), Lent::Words(to)] }
}

/// What the library leaves in the words that it writes, or the refusal, where the model gives the same; words that are read, and all words of a
/// refused call, are as they were.
fn made(call: &Call, circuits: &Circuits, guard: usize) -> Result<Result<Vec<u32>, u8>, String> {
    let given = judge(call, circuits, guard).map_err(|failure| format!("{failure}\n  {}", shown(call)))?;
    if given.lent[0] != call.lent[0] || given.number > 0 && given.lent != call.lent {
        return Err(format!("a buffer is changed\n  {}", shown(call)));
    }
    Ok(if given.number > 0 { Err(given.number) } else { Ok(given.lent[1].words().to_vec()) })
}

/// The same where the call must be taken.
fn taken(call: &Call, circuits: &Circuits, guard: usize) -> Result<Vec<u32>, String> {
    made(call, circuits, guard)?.map_err(|number| format!("refused with {number}\n  {}", shown(call)))
}

/// What is wrong where a call must be refused with a number, or taken.
fn other(call: &Call, expected: Option<u8>, circuits: &Circuits, guard: usize) -> Option<String> {
    match made(call, circuits, guard) {
        Ok(given) if given.as_ref().err() == expected.as_ref() => None,
        Ok(given) => Some(format!("{:?} and not {expected:?}\n  {}", given.err(), shown(call))),
        Err(failure) => Some(failure),
    }
}

// ---- Every size

/// A table to its planes and back, and those planes to a table and back again, in buffers with the given number of spare words.
fn round(
    n: usize,
    rows: usize,
    more: usize,
    circuits: &Circuits,
    guard: usize,
    random: &mut Random,
) -> Result<(), String> {
    let table = draw::row_words(n, rows, random);
    let (words, planes) = (2 * rows + more, 64 * squares(rows) + more);
    let filled = |length: usize, random: &mut Random| (0..length).map(|_| random.number() as u32).collect::<Vec<_>>();
    let [n, rows] = [n, rows].map(|number| number as u64);
    let there = taken(&call(Function::Columns, n, rows, table.clone(), filled(planes, random)), circuits, guard)?;
    let back = taken(&call(Function::Rows, n, rows, there.clone(), filled(words, random)), circuits, guard)?;
    if back[..table.len()] != table[..] {
        return Err(format!("another table comes back: {back:?} and not {table:?}"));
    }
    let again = taken(&call(Function::Columns, n, rows, back, filled(planes, random)), circuits, guard)?;
    match again[..planes - more] == there[..planes - more] {
        true => Ok(()),
        false => Err(format!("other planes come back: {again:?} and not {there:?}")),
    }
}

/// Every row count with every n, in buffers of exact length and in longer ones; for a memory checker, which is slow, a few.
pub fn sizes(circuits: &Circuits, guard: usize) -> Tally {
    let ledger = Ledger::default();
    let random = &mut Random::new(SEED);
    for (rows, n) in (0..=128).flat_map(|rows| (1..=32).map(move |n| (rows, n))) {
        if guard > 0 || (33 * rows + n) % 67 == 0 {
            for more in [0, 3] {
                ledger.test(round(n, rows, more, circuits, guard, random).err());
            }
        }
    }
    ledger.close(&format!("tables of 0 to 128 rows and 1 to 32 variables by columns and back, seed {SEED}"))
}

// ---- Wires

/// The left rows' wires as a back end loads them, one variable over 32 rows at a time, are those that are packed.
pub fn wires(circuits: &Circuits, guard: usize) -> Tally {
    let ledger = Ledger::default();
    let random = &mut Random::new(SEED + 2);
    for rows in (1..=128).filter(|rows| guard > 0 || rows % 17 == 0) {
        let n = random.between(1, 32);
        ledger.test(loaded(n, rows, circuits, guard, random).err());
    }
    ledger.close(&format!("wires loaded by columns beside packed ones, seed {}", SEED + 2))
}

/// The same for one table.
fn loaded(n: usize, rows: usize, circuits: &Circuits, guard: usize, random: &mut Random) -> Result<(), String> {
    let table = draw::row_words(n, rows, random);
    let columns = call(Function::Columns, n as u64, rows as u64, table.clone(), vec![7; 64 * squares(rows)]);
    let planes = taken(&columns, circuits, guard)?;
    let size = Size { n, left: rows, right: 1, public: 0 };
    let packed = Call {
        function: Function::Pack,
        numbers: numbers(size),
        lent: vec![
            Lent::Words(table),
            Lent::Words(vec![0, 0]),
            Lent::Words(vec![]),
            Lent::Run(memory::run_words(&Run::fresh(n))),
            Lent::Bytes(vec![7; memory::input_wires(size)]),
        ],
    };
    let given = judge(&packed, circuits, guard)?;
    let mut wires = vec![7; 2 * n * rows];
    for (at, word) in planes.iter().enumerate().filter(|(at, _)| at % 32 < n) {
        for row in (0..32).filter(|row| 32 * (at / 64) + row < rows) {
            wires[2 * n * (32 * (at / 64) + row) + n * (at % 64 / 32) + at % 32] = (word >> row & 1) as u8;
        }
    }
    match given.lent[4].bytes()[..wires.len()] == wires[..] {
        true => Ok(()),
        false => Err(format!("the wires are not the packed ones\n  {}", shown(&packed))),
    }
}

// ---- Every bit

/// Each bit of the words that are read changed in turn, and of two words after them; both ways.
pub fn bits(circuits: &Circuits, guard: usize) -> Tally {
    let ledger = Ledger::default();
    let random = &mut Random::new(SEED + 1);
    let mut refused = [0; 2];
    for (n, rows) in SIZES {
        let table = draw::row_words(n, rows, random);
        let space = 64 * squares(rows);
        let made_planes =
            taken(&call(Function::Columns, n as u64, rows as u64, table.clone(), vec![7; space]), circuits, guard);
        let planes = match made_planes {
            Ok(planes) => planes,
            Err(failure) => {
                ledger.test(Some(failure));
                continue;
            }
        };
        for (way, (function, words, room)) in
            [(Function::Columns, table, space), (Function::Rows, planes, 2 * rows)].into_iter().enumerate()
        {
            let end = 32 * (words.len() + 2);
            for bit in (0..end).filter(|bit| guard > 0 || bit % 131 == 0) {
                let mut changed = [&words[..], &[5, 6]].concat();
                changed[bit / 32] ^= 1 << (bit % 32);
                let given = made(&call(function, n as u64, rows as u64, changed, vec![7; room]), circuits, guard);
                if let Ok(Err(number)) = given {
                    ledger.kind(&format!("refused {number}"), 1);
                    refused[way] += 1;
                }
                ledger.test(given.err());
            }
        }
    }
    // a word of a table has 32 − n bits too many; a square has 2,048 bits, of which 2 × n × rows are literals
    let beyond = |(n, rows): (usize, usize)| [2 * rows * (32 - n), 2_048 * squares(rows) - 2 * n * rows];
    let expected = SIZES.map(beyond).iter().fold([0, 0], |sum, size| [sum[0] + size[0], sum[1] + size[1]]);
    if guard > 0 {
        ledger.test((refused != expected).then(|| format!("{refused:?} bits are refused and not {expected:?}")));
    }
    ledger.close(&format!("every bit of tables and of planes changed, seed {}", SEED + 1))
}

// ---- Every length

/// Each length of either buffer up to one word more than is needed.
pub fn lengths(circuits: &Circuits, guard: usize) -> Tally {
    let ledger = Ledger::default();
    for (n, rows) in SIZES.into_iter().chain([(3, 0), (32, 128)]) {
        let need = [2 * rows, 64 * squares(rows)];
        for function in [Function::Columns, Function::Rows] {
            for (k, length) in [0, 1].into_iter().flat_map(|k| (0..=need[k] + 1).map(move |length| (k, length))) {
                if guard == 0 && length % 13 > 0 && length + 1 < need[k] {
                    continue;
                }
                let mut lengths = need;
                lengths[k] = length;
                if function == Function::Rows {
                    lengths.reverse();
                }
                let call = call(function, n as u64, rows as u64, vec![0; lengths[0]], vec![7; lengths[1]]);
                let expected = if length < need[k] { Some(4) } else { None };
                ledger.test(other(&call, expected, circuits, guard));
            }
        }
    }
    ledger.close("tables and planes of every length up to one word more than is needed")
}

// ---- Every refusal with every other

/// 1, 2, 4 and then 3 or 24, each with all later ones: the first is returned.
pub fn refused(circuits: &Circuits, guard: usize) -> Tally {
    let ledger = Ledger::default();
    let n = [4, 0, 33, 256, 260, (1 << 32) + 4, (1 << 63) + 4, u64::MAX];
    let rows = [40, 129, 168, 256, 296, (1 << 32) + 40, (1 << 63) + 40, u64::MAX];
    for (&n, &rows) in n.iter().flat_map(|n| rows.iter().map(move |rows| (n, rows))) {
        for set in 0..8 {
            let [short_table, short_planes, stray] = [0, 1, 2].map(|k| set >> k & 1 == 1);
            for function in [Function::Columns, Function::Rows] {
                let (table, planes) = (80 - usize::from(short_table), 128 - usize::from(short_planes));
                let (last, read, written) = match function {
                    Function::Columns => (3, table, planes),
                    _ => (24, planes, table),
                };
                // variable 6 in row 3, or variable 5 in row 6
                let mut from = vec![0; read];
                from[4] = if stray { 1 << 5 } else { 0 };
                let holds = [(n != 4, 1), (rows != 40, 2), (short_table || short_planes, 4), (stray, last)];
                let expected = holds.iter().find(|(holds, _)| *holds).map(|(_, number)| *number);
                let call = call(function, n, rows, from, vec![7; written]);
                ledger.kind(&expected.map_or("taken".into(), |number| format!("refused {number}")), 1);
                ledger.test(other(&call, expected, circuits, guard));
            }
        }
    }
    ledger.close("refusals of tables by columns in each order")
}
