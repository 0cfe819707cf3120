//! Watch pages: of random runs of every number of variables with all its numbers of pilots and watches, read again; every model of few
//! variables; every refusal in each order, with products that are right as machine words alone; pages damaged byte by byte, cut and longer.

use crate::calls::{Call, Function, Lent};
use crate::circuits::Circuits;
use crate::{judge, shown};
use forkhemit_tests::random::Random;
use forkhemit_tests::report::{Ledger, Tally};
use forkhemit_tests::watch_page::{self, LINE};
use forkhemit_tests::{memory, states};

const SEED: u64 = 1_400_000;
/// What a lent page holds before.
const BEFORE: u8 = 7;

/// A call that makes a page of the run in the words, over the given number of bytes.
fn making(run: Vec<u32>, shape: [u64; 2], room: usize) -> Call {
    let lent = vec![Lent::Run(run), Lent::Bytes(vec![BEFORE; room])];
    Call { function: Function::Page, numbers: shape.to_vec(), lent }
}

/// A call that reads a page of n variables.
fn reading(n: u64, [pilots, watches]: [u64; 2], page: Vec<u8>) -> Call {
    let lent = vec![Lent::Bytes(page), Lent::Numbers(vec![u64::MAX])];
    Call { function: Function::ReadPage, numbers: vec![n, pilots, watches], lent }
}

/// What the library gives, where the model gives the same: the buffers, or the refusal, after which all that was lent is as it was.
fn told(call: &Call, circuits: &Circuits, guard: usize) -> Result<Result<Vec<Lent>, u8>, String> {
    let given = judge(call, circuits, guard).map_err(|failure| format!("{failure}\n  {}", shown(call)))?;
    // the first buffer is only read
    if given.lent[0] != call.lent[0] || given.number > 0 && given.lent != call.lent {
        return Err(format!("a buffer is changed\n  {}", shown(call)));
    }
    Ok(if given.number > 0 { Err(given.number) } else { Ok(given.lent) })
}

/// The refusal's number, or 0.
fn number(call: &Call, circuits: &Circuits, guard: usize) -> Result<u8, String> {
    told(call, circuits, guard).map(|given| given.err().unwrap_or(0))
}

/// The model that is read off a page.
fn read(n: u64, shape: [u64; 2], page: Vec<u8>, circuits: &Circuits, guard: usize) -> Result<Result<u64, u8>, String> {
    told(&reading(n, shape, page), circuits, guard).map(|given| given.map(|lent| lent[1].numbers()[0]))
}

// ---- Made and read again

/// The page of a satisfied run, read again, is its model, and nothing else changes.
fn round(run: &[u32], shape: [u64; 2], more: usize, circuits: &Circuits, guard: usize) -> Result<(), String> {
    let size = LINE * shape[0] as usize;
    let made = told(&making(run.to_vec(), shape, size + more), circuits, guard)?;
    let lent = made.map_err(|number| format!("refused with {number}: {shape:?} {run:?}"))?;
    let page = lent[1].bytes().to_vec();
    let lines: Vec<&[u8]> = page[..size].split_inclusive(|&byte| byte == b'\n').collect();
    if lines.len() != shape[0] as usize || lines.iter().any(|line| line.len() != LINE) {
        return Err(format!("{} lines and not {}: {shape:?} {run:?}", lines.len(), shape[0]));
    }
    match read(u64::from(run[0]), shape, page, circuits, guard)? {
        Ok(model) if model == u64::from(run[2]) => Ok(()),
        other => Err(format!("{other:?} is read off the page of {:b}: {shape:?}", run[2])),
    }
}

/// Random runs of 1 to 32 variables with all numbers of pilots and watches: satisfied ones in as many bytes and in more, open ones, refuted
/// ones and such as are none; for a memory checker a few.
pub fn made(circuits: &Circuits, guard: usize) -> Tally {
    let ledger = Ledger::default();
    for n in 1..=32 {
        let random = &mut Random::new(SEED + n as u64);
        for shape in watch_page::shapes(n) {
            for turn in 0..if guard > 0 { 60 } else { 1 } {
                let mut run = memory::run_words(&states::random(n, random));
                let exact = LINE * shape[0] as usize;
                for (standing, expected) in [(0, 14), (1, 0), (2, 14), (3, 12)] {
                    run[1] = standing;
                    ledger.kind(&format!("refused {expected}"), 1);
                    let given = number(&making(run.clone(), shape, exact), circuits, guard);
                    ledger.test(given.map_or_else(Some, |number| {
                        (number != expected).then(|| format!("{number} and not {expected}: {shape:?} {run:?}"))
                    }));
                }
                run[1] = 1;
                ledger.test(round(&run, shape, [0, 1, LINE, 200][turn % 4], circuits, guard).err());
            }
        }
    }
    ledger.close(&format!("watch pages of random runs of every size, read again, seeds from {SEED}"))
}

/// Every model of 1 to 8 variables, as a run that chose nothing, with all numbers of pilots and watches; for a memory checker a few.
pub fn every(circuits: &Circuits, guard: usize) -> Tally {
    let ledger = Ledger::default();
    for n in 1..=8 {
        for model in (0..1u32 << n).filter(|model| guard > 0 || model % 37 == 1) {
            let mut run = vec![n, 1, model, !model & ((1 << n) - 1), 0];
            run.resize(memory::RUN_WORDS, 0);
            for shape in watch_page::shapes(n as usize) {
                ledger.test(round(&run, shape, 0, circuits, guard).err());
            }
        }
    }
    ledger.close("watch pages of every model of 1 to 8 variables")
}

// ---- Refusals

/// Numbers of pilots and watches for 6 variables, and whether they are right: products that are not 6, and such as are 6, or 0, as machine
/// words of 64 or 32 bits.
const SHAPES: [([u64; 2], bool); 17] = [
    ([2, 3], true),
    ([6, 1], true),
    ([1, 6], true),
    ([0, 0], false),
    ([0, 6], false),
    ([6, 0], false),
    ([2, 2], false),
    ([7, 1], false),
    ([6, 6], false),
    ([1 << 63, 2], false),
    ([2, 1 << 63], false),
    ([(1 << 63) + 3, 2], false),
    ([2, (1 << 63) + 3], false),
    ([u64::MAX, u64::MAX - 5], false),
    ([(1 << 32) + 2, 3], false),
    ([1 << 32, 1 << 32], false),
    ([u64::MAX, u64::MAX], false),
];

/// Runs of 6 variables with T = {1, 2, 6} and F = {3}, by their standing, and one of them with a variable in both; the refusal of each.
fn runs() -> Vec<(Vec<u32>, u8)> {
    let run = |standing: u32, f: u32| {
        let mut words = vec![6, standing, 0b100011, f, 0];
        words.resize(memory::RUN_WORDS, 0);
        words
    };
    vec![(run(1, 4), 0), (run(0, 4), 14), (run(2, 4), 14), (run(1, 1), 12), (run(0, 1), 12), (run(3, 4), 12)]
}

/// Rooms about that of a page of the given number of pilots, and whether they are enough.
fn rooms(pilots: u64) -> Vec<(usize, bool)> {
    let exact = LINE * pilots.min(32) as usize;
    vec![(exact, true), (exact + 1, true), (exact.saturating_sub(1), exact == 0), (0, exact == 0)]
}

/// The first refusal of a list.
fn first(numbers: &[u8]) -> u8 {
    numbers.iter().copied().find(|&number| number > 0).unwrap_or(0)
}

/// Every run with every shape and every room; every n with every shape and room, and a page or none; then random products that are n as
/// machine words.
pub fn refused(circuits: &Circuits, guard: usize) -> Tally {
    let ledger = Ledger::default();
    let tried = |call: &Call, expected: u8| {
        ledger.kind(&format!("refused {expected}"), 1);
        let failure = number(call, circuits, guard).map_or_else(Some, |number| {
            (number != expected).then(|| format!("{number} and not {expected}: {}", shown(call)))
        });
        ledger.test(failure);
    };
    for (shape, right) in SHAPES {
        let shaped = if right { 0 } else { 25 };
        for (room, enough) in rooms(shape[0]) {
            let fits = if enough { 0 } else { 26 };
            for (run, refusal) in runs() {
                tried(&making(run, shape, room), first(&[refusal, shaped, fits]));
            }
            let page =
                if right { watch_page::page(shape.map(|number| number as usize), 0b100011) } else { vec![b' '; room] };
            for n in [6, 0, 33, 262, (1 << 32) + 6, u64::MAX] {
                let outside = u8::from(n != 6);
                let lent = |fill: u8| page.iter().copied().chain(vec![fill; LINE]).take(room).collect::<Vec<u8>>();
                tried(&reading(n, shape, lent(b'x')), first(&[outside, shaped, fits]));
                tried(&reading(n, shape, vec![b' '; room]), first(&[outside, shaped, fits, 27]));
            }
        }
    }
    let random = &mut Random::new(SEED);
    for _ in 0..if guard > 0 { 2_000 } else { 20 } {
        let n = random.between(1, 32);
        let shape = watch_page::wrapped(n, random);
        let mut run = vec![n as u32, 1];
        run.resize(memory::RUN_WORDS, 0);
        tried(&making(run, shape, LINE), 25);
        tried(&reading(n as u64, shape, vec![b' '; LINE]), 25);
    }
    ledger.close("refusals of watch pages in each order, and products that wrap")
}

// ---- Damage

/// Pages that are damaged: pilots, watches, model.
const PAGES: [([usize; 2], u64); 6] = [
    ([2, 3], 0b100011),
    ([1, 1], 1),
    ([1, 32], 0x8000_0001),
    ([10, 1], 0b10_0000_0001),
    ([3, 4], 0b1001_0110_0000),
    ([11, 2], 0x15_5555),
];
const BYTES: &[u8] = b" #.\n\r\t\x000123456789-x\xa0\xff";

/// Each page with each byte replaced by every other of the list: 27, or the page of another model; then each page read with other numbers
/// of pilots and watches, cut at each place, and with more after it. For a memory checker some of these.
pub fn damaged(circuits: &Circuits, guard: usize) -> Tally {
    let ledger = Ledger::default();
    for (number, (shape, model)) in PAGES.into_iter().enumerate().filter(|(k, _)| guard > 0 || *k < 2) {
        let (n, asked) = ((shape[0] * shape[1]) as u64, shape.map(|number| number as u64));
        let page = watch_page::page(shape, model);
        for at in (0..page.len()).filter(|at| guard > 0 || at % 7 == 4) {
            for &byte in BYTES.iter().filter(|&&byte| byte != page[at]) {
                let mut other = page.clone();
                other[at] = byte;
                let given = read(n, asked, other.clone(), circuits, guard);
                if let Ok(given) = &given {
                    ledger.kind(given.map_or("refused 27", |_| "another model"), 1);
                }
                ledger.test(given.map_or_else(Some, |given| match given {
                    Err(27) => None,
                    Ok(read) if read != model && watch_page::page(shape, read) == other => None,
                    given => Some(format!("{given:?}, page {number} with {byte} at {at}")),
                }));
            }
        }
        for other in watch_page::shapes(n as usize).into_iter().filter(|&other| other != asked) {
            let expected = if page.len() < LINE * other[0] as usize { 26 } else { 27 };
            ledger.kind("with other numbers", 1);
            ledger.test(read(n, other, page.clone(), circuits, guard).map_or_else(Some, |given| {
                (given != Err(expected)).then(|| format!("{given:?}, page {number} read as {other:?}"))
            }));
        }
        for length in (0..page.len() + 40).filter(|length| guard > 0 || length % 16 == 15) {
            let lent = page.iter().copied().chain(vec![b'#'; 40]).take(length).collect();
            let expected = if length < page.len() { Err(26) } else { Ok(model) };
            let given = read(n, asked, lent, circuits, guard);
            ledger.kind(if expected.is_ok() { "longer" } else { "cut" }, 1);
            ledger.test(given.map_or_else(Some, |given| {
                (given != expected).then(|| format!("{given:?}, page {number} in {length} bytes"))
            }));
        }
    }
    ledger.close("watch pages damaged byte by byte, cut and longer")
}
