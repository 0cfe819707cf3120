//! Every refusal of every function, written by hand: a call that is taken, one change to it or two, and the number that it then gets.

use crate::calls::{numbers, Call, Function, Lent};
use crate::circuits::Circuits;
use forkhemit_tests::memory::{self, INDEX_WORDS, RUN_WORDS};
use forkhemit_tests::model::{Size, TEXT_LIMIT};
use std::rc::Rc;

/// A call to be made: what was changed, and the number expected.
pub struct Case {
    pub what: String,
    pub call: Call,
    pub number: u8,
}

/// What a change touches: a number or a buffer.
#[derive(Clone, Copy, PartialEq)]
enum Place {
    Number(usize),
    Lent(usize),
}

/// A change to a call, all that it touches, and whether it makes a text overlong.
#[derive(Clone)]
struct Change {
    places: Vec<Place>,
    overlong: bool,
    make: Rc<dyn Fn(&mut Call)>,
}

/// What is changed, the number that it leads to, and the change.
type Changes = Vec<(String, u8, Change)>;

/// Document 01's example, (1 2) on the left and (−1) on the right, with (−1 2) public.
const SIZE: Size = Size { n: 2, left: 1, right: 1, public: 1 };
const TABLES: [[u32; 2]; 3] = [[0b11, 0], [0, 0b01], [0b10, 0b01]];
const TEXTS: [&[u8]; 3] = [b"p cnf 2 1\n1 2 0\n", b"p cnf 2 1\n-1 0\n", b"p cnf 2 1\n-1 2 0\n"];
const NAMES: [&str; 3] = ["left", "right", "public"];

/// A run at depth 1: variable 1 was chosen, and is true.
fn run() -> Vec<u32> {
    let mut words = vec![2, 0, 0b01, 0, 1];
    words.resize(RUN_WORDS, 0);
    words
}

/// The index of the tables: variable 1 is in row 0, variable 2 in rows 0 and 2, the negation of variable 1 in rows 1 and 2.
fn index() -> Vec<u64> {
    let mut words = vec![0; INDEX_WORDS];
    words[0] = 0b001;
    words[6] = 0b101;
    words[192] = 0b110;
    words
}

/// The same tables with a padding row more each, for late conditions: rows 2, 4 and 6.
const LATE_SIZE: Size = Size { n: 2, left: 2, right: 2, public: 2 };
const LATE_TABLES: [[u32; 4]; 3] = [[0b11, 0, 0b01, 0b01], [0, 0b01, 0b10, 0b10], [0b10, 0b01, 0b11, 0b01]];

/// The index of those tables.
fn late_index() -> Vec<u64> {
    let mut words = vec![0; INDEX_WORDS];
    words[0] = 0b100011;
    words[6] = 0b111001;
    words[192] = 0b110110;
    words[198] = 0b001000;
    words
}

/// Tables with the stations' texts, for clauses: (1 2) and padding on the left; (−1), an empty row and (2 −1) on the right.
const CLAUSE_SIZE: Size = Size { n: 2, left: 2, right: 3, public: 2 };
const CLAUSE_TABLES: [&[u32]; 3] = [&[0b11, 0, 0b01, 0b01], &[0, 0b01, 0, 0, 0b10, 0b01], &[0b10, 0b01, 0b11, 0b01]];
const CLAUSE_TEXTS: [&[u8]; 2] =
    [b"c left\np cnf 2 2\n1 2 0\nc padding\n1 -1 0\n", b"p cnf 2 3\n-1 0 0\n2\nc inside\n-1 0"];

/// Tables that are unsatisfiable without the public one, for proofs: (1 2) and (1 −2) on the left, (−1 2) and (−1 −2) on the right.
const PROOF_SIZE: Size = Size { n: 2, left: 2, right: 2, public: 1 };
const PROOF_TABLES: [&[u32]; 3] = [&[0b11, 0, 0b01, 0b10], &[0b10, 0b01, 0, 0b11], &[0b11, 0b01]];
const PROOF: &[u8] = b"1 0\nd 1 2 0\n0\n";

/// A game's text.
const GAME_TEXT: &[u8] = b"p cnf 2 2\na 1 0\ne 2 0\n1 -2 0\n-1 2 0\n";

/// A table of 33 rows by columns: (1 −2) and (2) first, and (−1) as row 33.
const COLUMN_ROWS: u64 = 33;

/// Its words.
fn column_table() -> Vec<u32> {
    let mut words = vec![0; 66];
    words[..3].copy_from_slice(&[0b01, 0b10, 0b10]);
    words[65] = 0b01;
    words
}

/// Its two squares: in the first variable 1 is positive in row 1, variable 2 positive in row 2 and negative in row 1.
fn column_planes() -> Vec<u32> {
    let mut words = vec![0; 128];
    words[..2].copy_from_slice(&[0b01, 0b10]);
    words[33] = 0b01;
    words[96] = 0b01;
    words
}
/// The page of two pilots with a watch each, the first one's on.
fn page_text() -> Vec<u8> {
    let spaces = " ".repeat(74);
    format!("  1 #{spaces}\n  2 .{spaces}\n").into_bytes()
}

/// A call of the function that is taken.
fn base(function: Function, circuits: &Circuits) -> Result<Call, String> {
    let d = numbers(SIZE);
    let and = |last: u64| [numbers(SIZE), vec![last]].concat();
    let inputs = memory::input_wires(SIZE);
    let tables = || TABLES.map(|table| Lent::Words(table.to_vec())).to_vec();
    let late_tables = || LATE_TABLES.map(|table| Lent::Words(table.to_vec())).to_vec();
    let late = || [numbers(LATE_SIZE), vec![1, 4, 0, 0b10]].concat();
    let clause_numbers = [numbers(CLAUSE_SIZE), vec![5]].concat();
    let proof_numbers = numbers(PROOF_SIZE);
    let bytes = |count: usize| Lent::Bytes(vec![7; count]);
    let words = |count: usize| Lent::Words(vec![7; count]);
    let numbers = |count: usize| Lent::Numbers(vec![7; count]);
    let gates = circuits.words(SIZE)?;
    let wires = inputs + gates.len() / 3;
    let packed = memory::packed(SIZE, [0, 1, 2].map(|k| &TABLES[k][..]), &run(), inputs);
    let packed = packed.map_err(|number| number.to_string())?;
    let state = packed[inputs - forkhemit_tests::wires::state_width(2)..].to_vec();
    let mut satisfied = run();
    satisfied[1] = 1;
    let (numbers, lent) = match function {
        Function::Sizes => (d, vec![numbers(4)]),
        Function::ReadTables => {
            let texts = TEXTS.map(|text| Lent::Bytes(text.to_vec()));
            (vec![], [texts.to_vec(), vec![words(2), words(2), words(2), numbers(4)]].concat())
        }
        Function::Accept => (d, tables()),
        Function::Judge => (vec![0b10, 0b01, 0b01, 0], vec![numbers(4)]),
        Function::Fresh => (vec![2], vec![Lent::Run(vec![7; RUN_WORDS])]),
        Function::Step | Function::StepWeighted => (d, [tables(), vec![Lent::Run(run())]].concat()),
        Function::Solve | Function::SolveIndexed | Function::SolveWeighted => {
            (and(9), [tables(), vec![numbers(3)]].concat())
        }
        Function::Continue | Function::ContinueWeighted => {
            (and(9), [tables(), vec![Lent::Run(run()), numbers(2)]].concat())
        }
        Function::CountFree => (d, [tables(), vec![Lent::Run(run()), bytes(3)]].concat()),
        Function::Index => (d, [tables(), vec![numbers(INDEX_WORDS)]].concat()),
        Function::Unsatisfied => (d, [tables(), vec![Lent::Run(run()), numbers(1)]].concat()),
        // rows 1 and 2 are not satisfied
        Function::StepIndexed => {
            (d, [tables(), vec![Lent::Numbers(index()), Lent::Run(run()), Lent::Numbers(vec![2])]].concat())
        }
        // the right station puts (−2) in the place of row 4; rows 3 and 5 are not satisfied
        Function::Replace => (late(), [late_tables(), vec![Lent::Run(run())]].concat()),
        Function::ReplaceIndexed => {
            let besides = vec![Lent::Run(run()), Lent::Numbers(late_index()), Lent::Numbers(vec![2])];
            (late(), [late_tables(), besides].concat())
        }
        Function::StepExplained => (d, [tables(), vec![Lent::Run(run()), numbers(4)]].concat()),
        // row 5 is the last right one, and has 15 bytes
        Function::Clause | Function::Excerpt => {
            let tables = CLAUSE_TABLES.map(|table| Lent::Words(table.to_vec())).to_vec();
            let texts = CLAUSE_TEXTS.map(|text| Lent::Bytes(text.to_vec())).to_vec();
            let room = if function == Function::Clause { vec![numbers(3)] } else { vec![bytes(15), numbers(1)] };
            (clause_numbers, [tables, texts, room].concat())
        }
        // the universal side fixes 1, then the existential one 2
        Function::Game => (vec![], vec![Lent::Bytes(GAME_TEXT.to_vec()), numbers(3)]),
        Function::Columns => (vec![2, COLUMN_ROWS], vec![Lent::Words(column_table()), words(128)]),
        Function::Rows => (vec![2, COLUMN_ROWS], vec![Lent::Words(column_planes()), words(66)]),
        Function::Model => (vec![], vec![Lent::Run(satisfied), numbers(1)]),
        // two pilots with a watch each
        Function::Page => (vec![2, 1], vec![Lent::Run(satisfied), bytes(160)]),
        Function::ReadPage => (vec![2, 2, 1], vec![Lent::Bytes(page_text()), numbers(1)]),
        Function::CheckProof => {
            let tables = PROOF_TABLES.map(|table| Lent::Words(table.to_vec())).to_vec();
            (proof_numbers, [tables, vec![Lent::Bytes(PROOF.to_vec())]].concat())
        }
        Function::Generate => (d, vec![words(3 * SIZE.ceiling()), numbers(1)]),
        Function::Pack => (d, [tables(), vec![Lent::Run(run()), bytes(inputs)]].concat()),
        Function::Evaluate => (vec![], vec![Lent::Words(gates), Lent::Bytes(packed), bytes(wires)]),
        Function::ReadBack => (vec![2], vec![Lent::Bytes(state), Lent::Run(vec![7; RUN_WORDS])]),
        Function::Repeat => {
            let lent = vec![words(3 * SIZE.ceiling()), bytes(inputs), bytes(wires), Lent::Run(run()), numbers(2)];
            (and(9), [tables(), lent].concat())
        }
        Function::SolveWhole => {
            let lent = vec![words(3 * SIZE.ceiling()), bytes(inputs), bytes(wires), numbers(3)];
            (and(9), [tables(), lent].concat())
        }
        Function::WriteLine => (and(4), vec![Lent::Words(gates), bytes(64), numbers(1)]),
        Function::WriteLines => (and(0), vec![Lent::Words(gates), bytes(64), numbers(2)]),
        Function::ReadBudget => (vec![], vec![Lent::Bytes(b"18446744073709551615\n".to_vec()), numbers(1)]),
        Function::Answer => (vec![2, 3, 1, 0b10], vec![Lent::Text(vec![7; 256]), numbers(1)]),
    };
    Ok(Call { function, numbers, lent })
}

// ---- Changes

impl Change {
    /// One place changed.
    fn new(place: Place, make: impl Fn(&mut Call) + 'static) -> Change {
        Change { places: vec![place], overlong: false, make: Rc::new(make) }
    }
}

/// Another number at k.
fn number(k: usize, to: u64) -> Change {
    Change::new(Place::Number(k), move |call| call.numbers[k] = to)
}

/// A buffer that ends after the given number of elements.
fn cut(k: usize, length: usize) -> Change {
    Change::new(Place::Lent(k), move |call| match &mut call.lent[k] {
        Lent::Bytes(bytes) => bytes.truncate(length),
        Lent::Words(words) => words.truncate(length),
        _ => panic!("an array has its length"),
    })
}

/// A buffer an element shorter.
fn shorter(k: usize) -> Change {
    Change::new(Place::Lent(k), move |call| match &mut call.lent[k] {
        Lent::Bytes(bytes) => drop(bytes.pop()),
        Lent::Words(words) => drop(words.pop()),
        _ => panic!("an array has its length"),
    })
}

/// A buffer of words with more after them.
fn longer(k: usize, more: &'static [u32]) -> Change {
    Change::new(Place::Lent(k), move |call| match &mut call.lent[k] {
        Lent::Words(words) => words.extend(more),
        _ => panic!("an array has its length"),
    })
}

/// Another word in buffer k.
fn word(k: usize, at: usize, to: u32) -> Change {
    Change::new(Place::Lent(k), move |call| match &mut call.lent[k] {
        Lent::Words(words) | Lent::Run(words) => words[at] = to,
        _ => panic!("the buffer holds no words"),
    })
}

/// Another number in buffer k.
fn entry(k: usize, at: usize, to: u64) -> Change {
    Change::new(Place::Lent(k), move |call| match &mut call.lent[k] {
        Lent::Numbers(numbers) => numbers[at] = to,
        _ => panic!("the buffer holds no numbers"),
    })
}

/// Another byte in buffer k.
fn byte(k: usize, at: usize, to: u8) -> Change {
    Change::new(Place::Lent(k), move |call| match &mut call.lent[k] {
        Lent::Bytes(bytes) => bytes[at] = to,
        _ => panic!("the buffer holds no bytes"),
    })
}

/// Another text as buffer k.
fn text(k: usize, text: Vec<u8>) -> Change {
    let overlong = text.len() > TEXT_LIMIT;
    Change { overlong, ..Change::new(Place::Lent(k), move |call| call.lent[k] = Lent::Bytes(text.clone())) }
}

/// Two changes, one after the other.
fn both(first: Change, second: Change) -> Change {
    let places = [first.places, second.places].concat();
    let overlong = first.overlong || second.overlong;
    let make = move |call: &mut Call| {
        (first.make)(call);
        (second.make)(call);
    };
    Change { places, overlong, make: Rc::new(make) }
}

/// 1 and 2, at numbers that a cut to fewer bits would make right.
fn sizes(changes: &mut Changes) {
    for n in [0, 33, 34, 255, 256, 257, 258, 65_538, (1 << 32) + 2, u64::MAX] {
        changes.push((format!("n {n}"), 1, number(0, n)));
    }
    for rows in [0, 129, 255, 256, 257, 65_537, (1 << 32) + 1, u64::MAX] {
        for (k, name) in NAMES.iter().enumerate().filter(|(k, _)| rows > 0 || *k < 2) {
            changes.push((format!("{name} rows {rows}"), 2, number(1 + k, rows)));
        }
    }
}

/// 4 and 3 of each table.
fn tables(changes: &mut Changes) {
    for (k, name) in NAMES.iter().enumerate() {
        for length in [1, 0] {
            changes.push((format!("{length} {name} words"), 4, cut(k, length)));
        }
        for at in [0, 1] {
            changes.push((format!("bit 2 in {name} word {at}"), 3, word(k, at, 0b100)));
            changes.push((format!("bit 31 in {name} word {at}"), 3, word(k, at, 1 << 31)));
        }
    }
}

/// 12 by every clause of well-formed, in the run at place k.
fn states(k: usize, changes: &mut Changes) {
    for (what, at, to) in [
        ("n 0", 0, 0),
        ("n 33", 0, 33),
        ("n 258", 0, 258),
        ("standing 3", 1, 3),
        ("standing 256", 1, 256),
        ("T at n", 2, 0b101),
        ("T without the chosen variable", 2, 0),
        ("F with a variable of T", 3, 0b01),
        ("F at n", 3, 0b100),
        ("depth 0 with a used level", 4, 0),
        ("depth 3", 4, 3),
        ("depth 33", 4, 33),
        ("depth 257", 4, 257),
        ("depth at its greatest", 4, u32::MAX),
        ("a level's T beyond the next", 5, 0b10),
        ("a level's F beyond the next", 6, 0b10),
        ("the chosen variable set before", 5, 0b01),
        ("the other variable chosen", 7, 1),
        ("a variable at n chosen", 7, 2),
        ("a variable chosen at 32", 7, 32),
        ("an unused level's T", 8, 1),
        ("an unused level's F", 9, 1),
        ("an unused level's variable", 10, 1),
        ("the last word", 100, 1),
    ] {
        let at_depth_0 = what.starts_with("depth 0");
        let change = if at_depth_0 { both(word(k, 4, 0), word(k, 7, 1)) } else { word(k, at, to) };
        changes.push((format!("run with {what}"), 12, change));
    }
}

/// 9, in gates at place k.
fn gates(k: usize, inputs: usize, changes: &mut Changes) {
    let first = inputs as u32;
    changes.push(("a gate of two words".into(), 9, cut(k, 2)));
    changes.push(("a gate of one word".into(), 9, cut(k, 4)));
    changes.push(("kind 3".into(), 9, word(k, 0, 3)));
    changes.push(("the greatest kind".into(), 9, word(k, 0, u32::MAX)));
    changes.push(("a gate's own wire first".into(), 9, word(k, 1, first)));
    changes.push(("a gate's own wire second".into(), 9, word(k, 2, first)));
    changes.push(("the greatest wire".into(), 9, word(k, 1, u32::MAX)));
    changes.push(("INV with a second word".into(), 9, both(word(k, 0, 2), word(k, 2, 1))));
}

/// One change more.
fn add(list: &mut Changes, what: &str, number: u8, change: Change) {
    list.push((what.into(), number, change));
}

/// A text of another n than the others.
const OTHER_N: &[u8] = b"p cnf 3 1\n1 0\n";

/// The 1, 2 and 5 of the text at place k, then 6; `base` is the text that is taken. A header's 1 or 2 comes before 5, an overlong text is 5
/// before all else.
fn text_at(k: usize, name: &str, base: &[u8], list: &mut Changes) {
    let overlong = |text: &[u8]| [text, &vec![b'\n'; TEXT_LIMIT + 1 - text.len()]].concat();
    // a station must have a row; the public table need not, and then no clause may follow
    let rowless = if name == "public" { 5 } else { 2 };
    for (what, number, to) in [
        ("n 33", 1, &b"p cnf 33 1\n1 0\n"[..]),
        ("n 0", 1, b"p cnf 0 1\n1 0\n"),
        ("n 0 and no rows", 1, b"p cnf 0 0\n"),
        ("n 33 and 129 rows", 1, b"p cnf 33 129\n1 0\n"),
        ("n 33 and a literal above n", 1, b"p cnf 33 1\n34 0\n"),
        ("129 rows", 2, b"p cnf 2 129\n1 0\n"),
        ("a row fewer than none", 2, b"p cnf 2 -1\n"),
        ("no rows and one", rowless, b"p cnf 2 0\n1 0\n"),
        ("no rows and an empty one", rowless, b"p cnf 2 0\n0\n"),
        ("no rows and no last 0", rowless, b"p cnf 2 0\n1\n"),
        ("no last 0", 5, b"p cnf 2 1\n1 2\n"),
        ("nothing", 5, b""),
        ("n 3", 6, OTHER_N),
    ] {
        add(list, &format!("{name} text with {what}"), number, text(k, to.to_vec()));
    }
    add(list, &format!("{name} text overlong"), 5, text(k, overlong(base)));
    add(list, &format!("{name} text overlong with n 33"), 5, text(k, overlong(b"p cnf 33 1\n1 0\n")));
    if name != "public" {
        add(list, &format!("{name} text without rows"), 2, text(k, b"p cnf 2 0\n".to_vec()));
    }
}

/// The 1, 2 and 5 of each text, then 4 and 6.
fn read_tables(list: &mut Changes) {
    for (k, name) in NAMES.iter().enumerate() {
        text_at(k, name, TEXTS[k], list);
        add(list, &format!("{name} words short"), 4, cut(3 + k, 1));
        add(list, &format!("{name} no words"), 4, cut(3 + k, 0));
        let others = both(text((k + 1) % 3, OTHER_N.to_vec()), text((k + 2) % 3, OTHER_N.to_vec()));
        add(list, &format!("two texts with n 3, not the {name} one"), 6, others);
    }
}

/// 1.
fn variables(list: &mut Changes) {
    for n in [0, 33, 255, 256, 257, 258, (1 << 32) + 2, u64::MAX] {
        add(list, &format!("n {n}"), 1, number(0, n));
    }
}

/// 13, and a run's 12, in the run at place k.
fn run_at(k: usize, list: &mut Changes) {
    add(list, "a run of n 3", 13, word(k, 0, 3));
    add(list, "a run of n 3 with standing 3", 12, both(word(k, 0, 3), word(k, 1, 3)));
    states(k, list);
}

/// A run's 12 and 13.
fn step(list: &mut Changes) {
    run_at(3, list);
}

/// 10, and a run's 12 and 13.
fn count_free(list: &mut Changes) {
    add(list, "a byte short", 10, shorter(4));
    add(list, "a byte for the left row alone", 10, cut(4, 1));
    add(list, "no bytes", 10, cut(4, 0));
    run_at(3, list);
}

/// 12 by the index and by the number, and a run's 12 and 13.
fn step_indexed(list: &mut Changes) {
    for (what, at, to) in [
        ("without a row of variable 1", 0, 0),
        ("with a row more of variable 1", 0, 0b011),
        ("without the public row of variable 2", 6, 0b001),
        ("without the public row of variable 1's negation", 192, 0b010),
        ("with a row past the last", 6, 0b1101),
        ("with a row in the second word", 1, 1),
        ("with a row in a sixth word", 11, 1 << 63),
        ("with a row of variable 3", 12, 1),
        ("with a row of variable 32", 191, 1 << 63),
        ("with a row of variable 2's negation", 198, 0b001),
        ("with a last word", 383, 1 << 63),
    ] {
        add(list, &format!("an index {what}"), 12, entry(3, at, to));
    }
    add(list, "an index with two variables exchanged", 12, both(entry(3, 0, 0b101), entry(3, 6, 0b001)));
    for number in [0, 1, 3, 4, 258, (1 << 32) + 2, u64::MAX] {
        add(list, &format!("the number {number}"), 12, entry(5, 0, number));
    }
    // the index and the number are then another table's or another run's
    add(list, "another left row", 12, word(0, 0, 0b01));
    add(list, "padding as the public row", 12, word(2, 0, 0b11));
    add(list, "no public rows, and an index with one", 12, both(no_public_rows(), entry(5, 0, 1)));
    add(list, "no public rows, and the number with one", 12, both(no_public_rows(), without_public_row()));
    add(list, "a run with variable 2 true", 12, word(4, 2, 0b11));
    add(list, "a closed run and another number", 12, both(word(4, 1, 2), entry(5, 0, 1)));
    add(list, "a run of n 3 and another number", 12, both(word(4, 0, 3), entry(5, 0, 1)));
    run_at(4, list);
}

/// 15, 16 and the new row's 3, after a run's 12 and 13; the run is at place 3 and stays as it is in T and F.
fn condition(list: &mut Changes) {
    for station in [0, 2, 3, 255, 256, 257, 65_537, 1 << 32, (1 << 32) + 1, u64::MAX] {
        add(list, &format!("station {station} and a row of the right one"), 15, number(4, station));
    }
    for (row, whose) in [
        (0, "none"),
        (1, "the left one's"),
        (2, "the left one's padding"),
        (3, "its own, no padding"),
        (5, "public"),
        (6, "public padding"),
        (7, "past the last"),
        (260, "4 in a byte"),
        ((1 << 32) + 4, "4 in a word"),
        (u64::MAX, "past all"),
    ] {
        add(list, &format!("row {row} ({whose})"), 15, number(5, row));
    }
    for (row, whose) in [(0, "none"), (1, "its own, no padding"), (3, "the other one's"), (6, "public padding")] {
        add(list, &format!("the left station, row {row} ({whose})"), 15, both(number(4, 0), number(5, row)));
    }
    for station in [2, u64::MAX] {
        let public = both(number(4, station), number(5, 6));
        add(list, &format!("station {station} and public padding"), 15, public);
    }
    for (standing, what) in [(1, "satisfied"), (2, "refuted")] {
        add(list, &format!("a {what} run"), 16, word(3, 1, standing));
        add(list, &format!("a {what} run of n 3"), 13, both(word(3, 0, 3), word(3, 1, standing)));
        add(list, &format!("a {what} run with a last word"), 12, both(word(3, 100, 1), word(3, 1, standing)));
    }
    for (k, sign) in [(6, "positive"), (7, "negative")] {
        for bits in [0b100, 0b111, 1 << 31, u64::from(u32::MAX)] {
            add(list, &format!("a new row with {sign} bits {bits:#b}"), 3, number(k, bits));
        }
    }
    run_at(3, list);
}

/// Rows that are no padding now, or not the row that was meant.
fn replace(list: &mut Changes) {
    add(list, "row 4 without its negative literal", 15, word(1, 3, 0));
    add(list, "row 4 with another variable's", 15, word(1, 3, 0b01));
    add(list, "row 4 empty", 15, both(word(1, 2, 0), word(1, 3, 0)));
    add(list, "a left row more, so that row 4 is no padding", 15, both(number(1, 3), longer(0, &[0b01, 0b01])));
    condition(list);
}

/// 12 by the index and by the number; a run's 12 and 13, 15, 16 and the new row's 3.
fn replace_indexed(list: &mut Changes) {
    for (what, at, to) in [
        ("without a row of variable 1", 0, 0b100010),
        ("without the row that is replaced", 198, 0),
        ("as it is afterwards", 6, 0b110001),
        ("without a public row", 192, 0b010110),
        ("with a row past the last", 6, 0b1111001),
        ("with a row in a sixth word", 203, 1 << 63),
        ("with a row of variable 3", 12, 1),
        ("with a last word", 383, 1 << 63),
    ] {
        add(list, &format!("an index {what}"), 12, entry(4, at, to));
    }
    for number in [0, 1, 3, 258, (1 << 32) + 2, u64::MAX] {
        add(list, &format!("the number {number}"), 12, entry(5, 0, number));
    }
    add(list, "another right row", 12, word(1, 3, 0));
    add(list, "no public rows, and index and number with some", 12, no_public_rows());
    add(list, "a closed run and another number", 12, both(word(3, 1, 2), entry(5, 0, 1)));
    add(list, "a run of n 3 and another number", 12, both(word(3, 0, 3), entry(5, 0, 1)));
    condition(list);
}

/// Index and number of those tables without public rows.
fn late_without_public_rows() -> Change {
    let index = both(entry(4, 0, 0b000011), both(entry(4, 6, 0b001001), entry(4, 192, 0b000110)));
    both(no_public_rows(), both(index, entry(5, 0, 1)))
}

/// An overlong text's 5, the 1, 2 and 5 of both texts and 6, then 17: a row that is no station's, and a text whose n or row count is not its table's.
fn clause(list: &mut Changes) {
    for (k, base) in CLAUSE_TEXTS.iter().enumerate() {
        text_at(3 + k, NAMES[k], base, list);
    }
    let overlong = || vec![b'\n'; TEXT_LIMIT + 1];
    add(list, "both texts overlong", 5, both(text(3, overlong()), text(4, overlong())));
    for (row, whose) in [
        (0, "none"),
        (6, "the first public one"),
        (7, "the last public one"),
        (8, "past the last"),
        (256, "0 in a byte"),
        (261, "5 in a byte"),
        (65_541, "5 in two bytes"),
        ((1 << 32) + 5, "5 in a word"),
        ((1 << 63) + 5, "5 below the last bit"),
        (u64::MAX, "past all"),
    ] {
        add(list, &format!("row {row} ({whose})"), 17, number(4, row));
    }
    add(list, "row 6 without public rows", 17, both(no_public_rows(), number(4, 6)));
    for row in [1, 2, 3, 5] {
        add(list, &format!("left rows 1, row {row}"), 17, both(number(1, 1), number(4, row)));
        add(list, &format!("right rows 2, row {row}"), 17, both(number(2, 2), number(4, row)));
    }
    add(list, "a left row more", 17, both(number(1, 3), longer(0, &[0b01, 0])));
    add(list, "a right row more", 17, both(number(2, 4), longer(1, &[0b01, 0])));
    let split = both(number(1, 1), both(number(2, 4), longer(1, &[0b01, 0])));
    add(list, "a left row fewer and a right one more", 17, split);
    // with n 3 rows may have bit 2, so what touches the tables is no second change
    let wider =
        || Change { places: [vec![Place::Number(0)], [0, 1, 2].map(Place::Lent).to_vec()].concat(), ..number(0, 3) };
    add(list, "tables of n 3", 17, wider());
    add(list, "tables of n 3 with bit 3", 3, both(wider(), word(1, 1, 0b1000)));
    let [left, right] = [b"p cnf 3 2\n1 2 0\n1 -1 0\n".to_vec(), b"p cnf 3 3\n-1 0 0\n2 -1 0\n".to_vec()];
    add(list, "both texts with n 3", 17, both(text(3, left), text(4, right)));
    let [left, right] = CLAUSE_TEXTS;
    add(list, "the texts exchanged", 17, both(text(3, right.to_vec()), text(4, left.to_vec())));
    add(list, "the left text twice", 17, text(4, left.to_vec()));
    add(list, "the right text twice", 17, text(3, right.to_vec()));
    for (k, to) in [
        (3, &b"p cnf 2 1\n1 2 0\n"[..]),
        (3, b"p cnf 2 3\n1 2 0\n1 -1 0\n0"),
        (4, b"p cnf 2 2\n-1 0 0\n"),
        (4, b"p cnf 2 4\n-1 0 0\n2 -1 0 0\n"),
    ] {
        for row in [1, 5] {
            let what = format!("{} text \"{}\", row {row}", NAMES[k - 3], to.escape_ascii());
            add(list, &what, 17, both(text(k, to.to_vec()), number(4, row)));
        }
    }
}

/// A clause's refusals, then 11: fewer bytes than the clause has, a remark inside it too.
fn excerpt(list: &mut Changes) {
    clause(list);
    add(list, "a byte short", 11, shorter(5));
    add(list, "bytes for what stands before the remark", 11, cut(5, 2));
    add(list, "no bytes", 11, cut(5, 0));
    for (row, length) in [(1, 5), (2, 6), (3, 4), (4, 1)] {
        add(list, &format!("row {row}, a byte short"), 11, both(number(4, row), cut(5, length - 1)));
    }
}

/// A public row count of 0, after which the public words are not looked at.
fn no_public_rows() -> Change {
    Change { places: vec![Place::Number(3), Place::Lent(2)], ..number(3, 0) }
}

/// The index as it is without public rows.
fn without_public_row() -> Change {
    both(entry(3, 6, 0b001), entry(3, 192, 0b010))
}

/// 18, 19 and 20, and two or three of them at once.
fn check_proof(list: &mut Changes) {
    let additions = |count: usize, end: &str| ["1 2 0\n".repeat(count), end.into()].concat();
    let long = |length: usize| [PROOF, &vec![b'\n'; length - PROOF.len()]].concat();
    for (number, line) in [
        (18, "x"),
        (18, "c 1 0"),
        (18, "1 0 0"),
        (18, "1 0 2 0"),
        (18, "1"),
        (18, "d"),
        (18, "d "),
        (18, "d1 0"),
        (18, "d\t1 0"),
        (18, "D 1 0"),
        (18, "dd 1 0"),
        (18, "d d 1 0"),
        (18, "d 1"),
        (18, "1 d 0"),
        (18, "3 0"),
        (18, "-3 0"),
        (18, "d 3 0"),
        (18, "33 0"),
        (18, "4294967297 0"),
        (18, "18446744073709551617 0"),
        (18, "-0"),
        (18, "00"),
        (18, "01 0"),
        (18, "1 00"),
        (18, "+1 0"),
        (18, "--1 0"),
        (18, "1\r0"),
        (18, "1 \r 0"),
        (18, "1 0\r\r"),
        (18, "1 0\r "),
        (18, "\r1 0"),
        (18, "\r\r"),
        (18, "\x0b"),
        (18, "1\x0b0"),
        (18, "1,0"),
        (18, "\0"),
        (18, "\u{a0}"),
        (18, "p cnf 2 5"),
        (19, "0"),
        (19, "2 0\nd 2 0\nd 2 -1 0\nd 1 2 0\n2 0"),
        (19, "d 1 2 0\n1 0"),
        (19, "d 2 1 0\n1 0"),
        (19, "d 1 -2 0\n1 0"),
        (19, "d -2 1 0\n1 0\n0"),
    ] {
        for (place, around) in [("first", ["", "\n"]), ("last", ["1 2 -2 0\n", ""])] {
            let to = format!("{}{line}{}", around[0], around[1]);
            add(list, &format!("the line {line:?} {place}"), number, text(3, to.into_bytes()));
        }
    }
    for (what, to) in [
        ("behind the empty clause", "1 0\n0\nx".into()),
        ("behind what does not follow", "0\nx".into()),
        ("behind 20 lines", additions(20, "-1 -2 0 0")),
        ("before what does not follow", "x\n0".into()),
        ("without an empty clause", "1 0\n1 x 0\n".into()),
    ] {
        add(list, &format!("a malformed line {what}"), 18, text(3, to.into_bytes()));
    }
    add(list, "257 additions", 18, text(3, additions(257, "").into()));
    add(list, "257 additions, the last empty", 18, text(3, additions(255, "1 0\n0\n").into()));
    add(
        list,
        "257 additions, most behind the empty clause",
        18,
        text(3, format!("1 0\n0\n{}", additions(255, "")).into()),
    );
    add(list, "257 additions of padding", 18, text(3, "1 -1 0\n".repeat(257).into()));
    add(
        list,
        "257 additions, the first of which does not follow",
        18,
        text(3, format!("0\n{}", additions(256, "")).into()),
    );
    add(list, "65,537 bytes", 18, text(3, long(TEXT_LIMIT + 1)));
    add(list, "65,537 bytes of nothing", 18, text(3, vec![b'\n'; TEXT_LIMIT + 1]));
    for (what, to) in [
        ("no empty clause behind it", "d 1 2 0\n1 0\n"),
        ("the empty clause behind it", "d 1 2 0\n1 0\n0\n"),
        ("a deleted row wanted by the empty clause", "1 0\nd 1 0\n0\n"),
        ("both unit clauses deleted", "1 0\n-1 0\nd 1 0\nd -1 0\n0\n"),
    ] {
        add(list, &format!("an addition that does not follow, {what}"), 19, text(3, to.into()));
    }
    for (what, to) in [
        ("nothing", String::new()),
        ("an LF", "\n".into()),
        ("blanks", " \t\r\n \n".into()),
        ("one addition", "1 0\n".into()),
        ("a deletion", "d 1 2 0".into()),
        ("the empty clause deleted", "d 0\n1 0\nd 0".into()),
        ("256 additions", additions(256, "")),
        ("padding", "1 -1 0\n".into()),
    ] {
        add(list, &format!("no empty clause: {what}"), 20, text(3, to.into_bytes()));
    }
}

/// 14, and a run's 12.
fn model_wanted(list: &mut Changes) {
    add(list, "an open run", 14, word(0, 1, 0));
    add(list, "a refuted run", 14, word(0, 1, 2));
    add(list, "an open run with a variable true and false", 12, both(word(0, 1, 0), word(0, 3, 1)));
    states(0, list);
}

/// 25 of pilots and watches, the numbers at k and after it: products that are not 2, or are 2 as machine words alone; then 26 of the page
/// at place p.
fn page_shape(k: usize, p: usize, list: &mut Changes) {
    for to in [0, 1, 3, 258, (1 << 32) + 2, (1 << 63) + 2, u64::MAX] {
        add(list, &format!("{to} pilots"), 25, number(k, to));
    }
    for to in [0, 2, 257, (1 << 32) + 1, (1 << 63) + 1, u64::MAX] {
        add(list, &format!("{to} watches"), 25, number(k + 1, to));
    }
    add(list, "2^63 pilots with two watches", 25, both(number(k, 1 << 63), number(k + 1, 2)));
    add(list, "2^32 pilots with as many watches", 25, both(number(k, 1 << 32), number(k + 1, 1 << 32)));
    add(list, "a page a byte short", 26, shorter(p));
    add(list, "a page of one line", 26, cut(p, 80));
    add(list, "no page", 26, cut(p, 0));
}

/// 25 and 26.
fn page(list: &mut Changes) {
    page_shape(0, 1, list);
}

/// 25, 26 and 27.
fn read_page(list: &mut Changes) {
    add(list, "n 1", 25, number(0, 1));
    add(list, "n 3", 25, number(0, 3));
    page_shape(1, 0, list);
    for (what, at, to) in [
        ("a digit in the first column", 0, b'0'),
        ("a zero before the number", 1, b'0'),
        ("another number", 2, b'2'),
        ("no number", 82, b' '),
        ("no space before the mark", 3, b'.'),
        ("another mark", 4, b'x'),
        ("no mark", 84, b' '),
        ("a mark more", 6, b'.'),
        ("a tab", 40, b'\t'),
        ("a carriage return", 78, b'\r'),
        ("a line feed in column 79", 158, b'\n'),
        ("no line feed", 79, b' '),
        ("no last line feed", 159, 0),
    ] {
        add(list, what, 27, byte(0, at, to));
    }
    let crossed = |page: Vec<u8>| [&page[80..], &page[..80]].concat();
    add(list, "the lines exchanged", 27, text(0, crossed(page_text())));
}

/// 7.
fn generate(list: &mut Changes) {
    add(list, "a word short", 7, shorter(0));
    add(list, "no words", 7, cut(0, 0));
}

/// 10, and a run's 12 and 13.
fn pack(list: &mut Changes) {
    add(list, "a byte short", 10, shorter(4));
    add(list, "no bytes", 10, cut(4, 0));
    run_at(3, list);
}

/// 7 and 10, in room for gates, inputs and wires.
fn room_to_repeat(list: &mut Changes) {
    add(list, "a gate word short", 7, shorter(3));
    add(list, "no gate words", 7, cut(3, 0));
    add(list, "an input byte short", 10, shorter(4));
    add(list, "a wire short", 10, shorter(5));
    add(list, "room for the inputs alone", 10, cut(5, memory::input_wires(SIZE)));
}

/// 7 and 10, and a run's 12 and 13.
fn repeat(list: &mut Changes) {
    room_to_repeat(list);
    run_at(6, list);
}

/// 7, 23 and 10; 23 at numbers that a cut to fewer bits would make small.
fn solve_whole(list: &mut Changes) {
    room_to_repeat(list);
    add(list, "no input bytes", 10, cut(4, 0));
    for budget in [65_536, 65_537, 131_072, (1 << 32) + 9, u64::MAX] {
        add(list, &format!("the budget {budget}"), 23, number(4, budget));
    }
}

/// 10, and 9 by every clause of it.
fn evaluate(list: &mut Changes) {
    let inputs = memory::input_wires(SIZE);
    add(list, "a wire short", 10, shorter(2));
    add(list, "no wires", 10, cut(2, 0));
    add(list, "an input of 2", 10, byte(1, 0, 2));
    add(list, "a last input of 255", 10, byte(1, inputs - 1, 255));
    add(list, "inputs cut off", 9, cut(1, 1));
    gates(0, inputs, list);
}

/// 10, then 12 by every clause of it.
fn read_back(list: &mut Changes) {
    let state = forkhemit_tests::wires::state_width(2);
    add(list, "a byte short", 10, shorter(0));
    add(list, "n 3", 10, number(0, 3));
    add(list, "a byte of 2", 12, byte(0, 0, 2));
    add(list, "two depth wires", 12, byte(0, 4, 1));
    add(list, "no depth wire", 12, byte(0, 5, 0));
    add(list, "both closing bits", 12, both(byte(0, state - 2, 1), byte(0, state - 1, 1)));
    add(list, "a variable true and false", 12, byte(0, 2, 1));
    add(list, "an unused level", 12, byte(0, 13, 1));
    add(list, "two variables chosen", 12, byte(0, 12, 1));
}

/// 11, and 9 by every clause of it.
fn write(list: &mut Changes) {
    add(list, "a byte for a line", 11, cut(1, 1));
    add(list, "no bytes", 11, cut(1, 0));
    gates(0, memory::input_wires(SIZE), list);
}

/// 8.
fn read_budget(list: &mut Changes) {
    for line in ["", "\n", "9", "9\r\n", " 9\n", "9 \n", "-9\n", "+9\n", "0x9\n", "18446744073709551616\n"] {
        add(list, &format!("the line {line:?}"), 8, text(0, line.into()));
    }
    add(list, "101 bytes", 8, text(0, [&b"0".repeat(100)[..], b"\n"].concat()));
    add(list, "no LF in 101 bytes", 8, text(0, b"0".repeat(101)));
}

/// 1, 2, 5, 21 and 22 of a game's text; `game.rs` tries them in each order.
fn game(list: &mut Changes) {
    let overlong = [GAME_TEXT, &vec![b'\n'; TEXT_LIMIT + 1 - GAME_TEXT.len()]].concat();
    for (what, number, to) in [
        ("overlong", 5, overlong),
        ("of n 33", 1, b"p cnf 33 1\na 34 0\n1 0\n".to_vec()),
        ("without rows", 2, b"p cnf 13 0\n".to_vec()),
        ("of n 13", 21, b"p cnf 13 1\nx".to_vec()),
        ("with a line without a variable", 5, b"p cnf 2 1\na 0\n1 0\n".to_vec()),
        ("with a variable twice", 22, b"p cnf 2 1\na 1 0\ne 1 0\n1 0\n".to_vec()),
    ] {
        add(list, &format!("a text {what}"), number, text(0, to));
    }
}

/// 1, 2 and 4 of a table and its planes: a row count from 0 on is taken.
fn by_columns(list: &mut Changes) {
    variables(list);
    for rows in [129, 255, 256, 289, 65_569, (1 << 32) + 33, (1 << 63) + 33, u64::MAX] {
        add(list, &format!("{rows} rows"), 2, number(1, rows));
    }
    for k in [0, 1] {
        add(list, &format!("buffer {k} a word short"), 4, shorter(k));
        add(list, &format!("buffer {k} with room for 32 rows"), 4, cut(k, 64));
        add(list, &format!("buffer {k} empty"), 4, cut(k, 0));
    }
}

/// 3, in the rows and not after them.
fn columns(list: &mut Changes) {
    for at in [0, 1, 63, 64, 65] {
        for bit in [2, 31] {
            add(list, &format!("bit {bit} in word {at}"), 3, word(0, at, 1 << bit));
        }
    }
}

/// 24: a row past the last one, a variable past n.
fn rows(list: &mut Changes) {
    for (what, at, to) in [
        ("variable 3 in the first row", 2, 0b01),
        ("variable 3 negative in row 32", 34, 1 << 31),
        ("variable 32 in the first row", 31, 0b01),
        ("variable 32 negative in row 33", 127, 0b01),
        ("variable 3 in row 33", 66, 0b01),
        ("variable 1 in row 34", 64, 0b10),
        ("variable 2 in row 64", 65, 1 << 31),
        ("variable 1 negative in row 34", 96, 0b11),
        ("variable 32 in row 64", 95, 1 << 31),
    ] {
        add(list, what, 24, word(0, at, to));
    }
    add(list, "a variable past n of a row past the last", 24, both(word(0, 2, 1), word(0, 64, 0b10)));
}

/// The changes of a function, with the number that each leads to.
fn changes(function: Function) -> Changes {
    let groups: &[fn(&mut Changes)] = match function {
        Function::Sizes => &[sizes],
        Function::ReadTables => &[read_tables],
        Function::Accept | Function::Solve | Function::Index | Function::SolveIndexed | Function::SolveWeighted => {
            &[sizes, tables]
        }
        Function::Judge => &[],
        Function::Fresh | Function::Answer => &[variables],
        Function::Step
        | Function::Unsatisfied
        | Function::StepExplained
        | Function::Continue
        | Function::StepWeighted
        | Function::ContinueWeighted => &[sizes, tables, step],
        Function::CountFree => &[sizes, tables, count_free],
        Function::StepIndexed => &[sizes, tables, step_indexed],
        Function::Replace => &[sizes, tables, replace],
        Function::ReplaceIndexed => &[sizes, tables, replace_indexed],
        Function::Clause => &[sizes, tables, clause],
        Function::Excerpt => &[sizes, tables, excerpt],
        Function::Game => &[game],
        Function::Columns => &[by_columns, columns],
        Function::Rows => &[by_columns, rows],
        Function::Model => &[model_wanted],
        Function::Page => &[model_wanted, page],
        Function::ReadPage => &[variables, read_page],
        Function::CheckProof => &[sizes, tables, check_proof],
        Function::Generate => &[sizes, generate],
        Function::Pack => &[sizes, tables, pack],
        Function::Evaluate => &[evaluate],
        Function::ReadBack => &[variables, read_back],
        Function::Repeat => &[sizes, tables, repeat],
        Function::SolveWhole => &[sizes, tables, solve_whole],
        Function::WriteLine | Function::WriteLines => &[sizes, write],
        Function::ReadBudget => &[read_budget],
    };
    let mut list = vec![];
    groups.iter().for_each(|group| group(&mut list));
    list
}

/// Changes after which a clause is still asked for: another row, or other words in one.
fn asked_clauses() -> Vec<(&'static str, Change)> {
    vec![
        ("the first left row", number(4, 1)),
        ("the last left row", number(4, 2)),
        ("the first right row", number(4, 3)),
        ("an empty row", number(4, 4)),
        ("the row with a literal more", word(1, 4, 0b11)),
        ("the row with its signs exchanged", both(word(1, 4, 0b01), word(1, 5, 0b10))),
        ("the row by another", both(word(1, 4, 0), word(1, 5, 0b10))),
        ("padding by other padding", both(number(4, 2), both(word(0, 2, 0b11), word(0, 3, 0b11)))),
        ("another row by another", word(1, 2, 0b10)),
        ("words behind the tables", both(longer(0, &[7, u32::MAX]), longer(1, &[7, u32::MAX]))),
    ]
}

/// No public rows, with words of some, with words that would be refused and with none, where the call has tables.
fn without_public_rows(function: Function) -> Vec<(&'static str, Change)> {
    let none = || match function {
        Function::StepIndexed => both(no_public_rows(), both(without_public_row(), entry(5, 0, 1))),
        Function::ReplaceIndexed => late_without_public_rows(),
        _ => number(3, 0),
    };
    let has_tables = changes(function).iter().any(|(what, _, _)| what == "bit 2 in public word 0");
    // bytes are lent for each row there
    if !has_tables || function == Function::CountFree {
        return vec![];
    }
    vec![
        ("no public rows, and words of some", none()),
        ("no public rows, and words that would be refused", both(none(), word(2, 1, u32::MAX))),
        ("no public rows and no words", both(none(), cut(2, 0))),
    ]
}

/// Changes after which the call is still taken.
fn harmless(function: Function) -> Vec<(String, Change)> {
    let none = || text(2, b"p cnf 2 0\n".to_vec());
    let other = |k: usize| text(k, OTHER_N.to_vec());
    let list = match function {
        Function::Sizes | Function::Generate => vec![("no public rows", number(3, 0))],
        Function::SolveWhole => vec![
            ("no application", number(4, 0)),
            ("one application", number(4, 1)),
            ("two applications", number(4, 2)),
            ("the closing one the last", number(4, 3)),
            ("one behind the closing one", number(4, 4)),
            ("256 applications", number(4, 256)),
            ("more of each buffer", both(longer(3, &[7]), both(text(4, vec![7; 90]), text(5, vec![7; 9_000])))),
        ],
        Function::CountFree => vec![
            ("no public rows, and words of some", number(3, 0)),
            ("no public rows, no words and no byte for one", both(number(3, 0), both(cut(2, 0), cut(4, 2)))),
            ("more bytes than rows", text(4, vec![7; 9])),
            ("a satisfied run", word(3, 1, 1)),
            ("a refuted run", word(3, 1, 2)),
        ],
        Function::StepIndexed => {
            vec![("a satisfied run", word(4, 1, 1)), ("a refuted run", word(4, 1, 2))]
        }
        Function::Replace | Function::ReplaceIndexed => {
            vec![
                ("the left station's padding", both(number(4, 0), number(5, 2))),
                ("an empty new row", number(7, 0)),
                ("padding as the new row", both(number(6, 0b11), number(7, 0b11))),
                ("the row as it is", number(6, 0b10)),
                ("words behind the tables", both(longer(0, &[7, u32::MAX]), longer(1, &[7, u32::MAX]))),
            ]
        }
        Function::Continue | Function::ContinueWeighted => vec![
            ("no steps", number(4, 0)),
            ("one step", number(4, 1)),
            ("two steps", number(4, 2)),
            ("256 steps", number(4, 256)),
            ("2^32 steps", number(4, 1 << 32)),
            ("as many steps as a number holds", number(4, u64::MAX)),
            ("a satisfied run", word(3, 1, 1)),
            ("a refuted run", word(3, 1, 2)),
            ("a refuted run and no steps", both(number(4, 0), word(3, 1, 2))),
            ("words behind the tables", both(longer(0, &[7, u32::MAX]), longer(1, &[7, u32::MAX]))),
        ],
        Function::Page => vec![
            ("a longer page", text(1, vec![7; 161])),
            ("one pilot with two watches", both(number(0, 1), number(1, 2))),
            ("one pilot with two watches in 80 bytes", both(both(number(0, 1), number(1, 2)), cut(1, 80))),
        ],
        Function::ReadPage => vec![
            ("something behind the page", text(0, [page_text(), vec![b'x'; 9]].concat())),
            ("no watch", byte(0, 4, b'.')),
            ("both watches", byte(0, 84, b'#')),
        ],
        Function::Clause => asked_clauses(),
        Function::Excerpt => {
            let exact = |row: u64, length: usize| both(number(4, row), cut(5, length));
            let mut list = asked_clauses();
            list.extend([
                ("more bytes than the clause has", text(5, vec![7; 40])),
                ("the first left row in as many bytes", exact(1, 5)),
                ("the last left row in as many bytes", exact(2, 6)),
                ("the first right row in as many bytes", exact(3, 4)),
                ("an empty row in one byte", exact(4, 1)),
                ("another row's words, and no bytes", both(word(1, 4, 0b11), cut(5, 0))),
            ]);
            list
        }
        Function::CheckProof => {
            let proof = |bytes: &str| text(3, bytes.as_bytes().to_vec());
            let additions = |count: usize| "1 2 0\n".repeat(count);
            let long = |bytes: &[u8]| text(3, [bytes, &vec![b'\n'; TEXT_LIMIT - bytes.len()]].concat());
            vec![
                ("no last LF", proof("1 0\n0")),
                ("blanks, tabs, CRs and empty lines", proof("\r\n \t1 \t 0\t \r\n\n \t\n d \t1\t2 0 \r\n\t0\r")),
                ("a literal twice", proof("1 1 0\nd 2 1 2 0\n0\n")),
                ("another literal first", proof("-2 0\n0\n")),
                ("padding added and deleted", proof("2 -2 0\nd -2 2 0\n1 0\n0\n")),
                ("a row that is not there deleted", proof("d 1 0\nd 1 -1 2 -2 0\nd 0\n1 0\n0\n")),
                ("a row added twice and deleted once", proof("1 0\n1 0\nd 1 0\n0\n")),
                ("a row deleted and added again", proof("1 0\nd 1 2 0\n1 2 0\n0\n")),
                ("one word of a row deleted", proof("d 1 0\nd -2 0\nd 2 0\n1 0\n0\n")),
                ("lines behind the empty clause", proof("1 0\n0\n2 0\n-2 0\nd 1 0\n0\n")),
                ("256 additions, the last one empty", proof(&["1 0\n", &additions(254), "0\n"].concat())),
                ("256 additions, most behind the empty clause", proof(&["1 0\n0\n", &additions(254)].concat())),
                (
                    "256 additions and 2,000 deletions",
                    proof(&["1 0\n", &additions(254), &"d 2 0\n".repeat(2_000), "0"].concat()),
                ),
                ("65,536 bytes", long(PROOF)),
                ("65,536 bytes of a line", text(3, [&vec![b' '; TEXT_LIMIT - 5][..], b"1 0\n0"].concat())),
            ]
        }
        Function::Columns => vec![
            ("no rows and no words", both(number(1, 0), both(cut(0, 0), cut(1, 0)))),
            ("no rows, and words of some", number(1, 0)),
            (
                "32 rows, one square and a bit at n behind them",
                both(number(1, 32), both(cut(1, 64), word(0, 65, 1 << 31))),
            ),
            ("words behind rows and squares", both(longer(0, &[7, u32::MAX]), longer(1, &[7, u32::MAX]))),
            ("n 32 and a full row", both(number(0, 32), word(0, 64, u32::MAX))),
        ],
        Function::Rows => vec![
            ("no rows and no words", both(number(1, 0), both(cut(0, 0), cut(1, 0)))),
            ("no rows, and planes of some", number(1, 0)),
            ("32 rows, and a square behind them", both(number(1, 32), both(cut(1, 64), word(0, 64, u32::MAX)))),
            ("words behind squares and rows", both(longer(0, &[7, u32::MAX]), longer(1, &[7, u32::MAX]))),
            ("n 32 and variable 32 in row 33", both(number(0, 32), word(0, 95, 0b01))),
            ("64 rows and a row 64", both(number(1, 64), both(longer(1, &[7; 62]), word(0, 64, 1 << 31)))),
        ],
        Function::ReadTables => vec![
            ("no public rows", none()),
            ("no public rows and no words", both(none(), cut(5, 0))),
            ("three texts with n 3", both(other(0), both(other(1), other(2)))),
        ],
        _ => vec![],
    };
    let list = without_public_rows(function).into_iter().chain(list);
    list.map(|(what, change)| (what.into(), change)).collect()
}

// ---- Two changes at once

/// Which of two refusals comes first: the lower number, but 4 before 3, a new row's 3 last, and 23 before 10; of texts whatever refuses the
/// left one, then whatever refuses the right one, then the public one, then 4 and 6. Where tables and texts are lent, an overlong text's 5
/// comes first, the texts' other refusals come after the tables' 3 and before 6, and a clause's 11 comes last.
fn order(function: Function, number: u8, change: &Change) -> u8 {
    match (function, number) {
        (Function::ReadTables, 1 | 2 | 5) => {
            let text = (0..3).find(|&k| change.places == [Place::Lent(usize::from(k))]);
            text.expect("one of three texts is refused")
        }
        (Function::Clause | Function::Excerpt, 5) if change.overlong => 0,
        (Function::Clause | Function::Excerpt, 1 | 2 | 5) if change.places == [Place::Lent(3)] => 5,
        (Function::Clause | Function::Excerpt, 1 | 2 | 5) if change.places == [Place::Lent(4)] => 6,
        (Function::Clause | Function::Excerpt, 6) => 7,
        (Function::Excerpt, 11) => u8::MAX,
        (Function::Replace | Function::ReplaceIndexed, 3)
            if change.places.iter().any(|place| matches!(place, Place::Number(_))) =>
        {
            u8::MAX
        }
        // directly after 8
        (Function::SolveWhole, 23) => 8,
        (_, 4) => 3,
        (_, 3) => 4,
        (_, number) => number,
    }
}

/// Two changes at different places, where the first one's refusal comes first.
fn pairs(function: Function, single: &Changes) -> Changes {
    let mut list = vec![];
    for (what, number, first) in single {
        for (other, later, second) in single {
            let apart = !first.places.iter().any(|place| second.places.contains(place));
            let before = order(function, *number, first) < order(function, *later, second);
            if apart && before {
                list.push((format!("{what}, {other}"), *number, both(first.clone(), second.clone())));
            }
        }
    }
    list
}

/// Every function's call that is taken, every change to it, every two changes at once, and changes that do no harm.
pub fn cases(functions: &[Function], circuits: &Circuits) -> Result<Vec<Case>, String> {
    let mut cases = vec![];
    for &function in functions {
        let call = base(function, circuits)?;
        cases.push(Case { what: format!("{function:?}: the call that is changed"), call: call.clone(), number: 0 });
        let single = changes(function);
        let double = pairs(function, &single);
        let taken = harmless(function).into_iter().map(|(what, change)| (what, 0, change));
        for (what, number, change) in single.into_iter().chain(double).chain(taken) {
            let mut call = call.clone();
            (change.make)(&mut call);
            cases.push(Case { what: format!("{function:?}: {what}"), call, number });
        }
    }
    Ok(cases)
}
