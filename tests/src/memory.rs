//! Tables, runs and gates as words and bytes in memory, and what each function of the library gives and leaves there, as
//! documents 01 and 02 and the header for hosts describe them. A run in words is 101 of them: n, standing, T, F, depth, and 32
//! levels of T, F and the chosen variable from 0.

use crate::bristol::Gate;
use crate::model::{self, Row, Run, Size, Standing, Value};
use crate::wires;

pub const RUN_WORDS: usize = 101;
pub const INDEX_WORDS: usize = 384;
const LEVELS: usize = 32;

/// A number of variables within the limits, or 1.
pub fn variables(n: u64) -> Result<usize, u8> {
    model::VARIABLES.contains(&n).then_some(n as usize).ok_or(1)
}

/// The wires of all rows and a state.
pub fn input_wires(size: Size) -> usize {
    2 * size.n * size.rows() + wires::state_width(size.n)
}

// ---- Tables

/// Whether a variable is in a word.
fn holds(word: u32, variable: usize) -> bool {
    word >> variable & 1 == 1
}

/// A row of two words: its positive literals, then its negative ones.
pub fn row(positive: u32, negative: u32) -> Row {
    let literals = |word: u32| (0..32).filter(move |&v| holds(word, v)).map(|v| v as i64 + 1);
    literals(positive).chain(literals(negative).map(|literal| -literal)).collect()
}

/// The words of rows, positive before negative.
pub fn row_words(rows: &[Row]) -> Vec<u32> {
    let word = |row: &Row, sign: i64| row.iter().filter(|&&l| l * sign > 0).fold(0, |w, l| w | 1 << (l.abs() - 1));
    rows.iter().flat_map(|row| [word(row, 1), word(row, -1)]).collect()
}

/// The rows of three accepted tables, left, right, public: 4, then 3.
pub fn accepted(size: Size, tables: [&[u32]; 3]) -> Result<Vec<Row>, u8> {
    let counted = tables.iter().zip([size.left, size.right, size.public]);
    let fronts = counted.map(|(words, rows)| words.get(..2 * rows)).collect::<Option<Vec<&[u32]>>>();
    let words = fronts.ok_or(4)?.concat();
    if words.iter().any(|&word| (size.n..32).any(|v| holds(word, v))) {
        return Err(3);
    }
    Ok(words.chunks(2).map(|pair| row(pair[0], pair[1])).collect())
}

/// What T and F make of a row of two words, variable by variable: whether it is satisfied, how many of its literals are free, the set
/// of their variables, and the variable to look at, from 1, or 0. A free variable in both words is two free literals; one in both T and
/// F is not free. From the highest variable down, so that the lowest of a kind is the last one met.
pub fn judged([positive, negative, t, f]: [u32; 4]) -> [u64; 4] {
    let [mut literals, mut variables] = [0; 2];
    let [mut in_both, mut set_right, mut free] = [None; 3];
    for v in (0..32).rev() {
        let signs = (holds(positive, v), holds(negative, v));
        if signs == (true, true) {
            in_both = Some(v as u64 + 1);
        }
        if signs.0 && holds(t, v) || signs.1 && holds(f, v) {
            set_right = Some(v as u64 + 1);
        }
        if (signs.0 || signs.1) && !holds(t, v) && !holds(f, v) {
            literals += u64::from(signs.0) + u64::from(signs.1);
            variables += 1 << v;
            free = Some(v as u64 + 1);
        }
    }
    let satisfied = u64::from(in_both.is_some() || set_right.is_some());
    [satisfied, literals, variables, in_both.or(set_right).or(free).unwrap_or(0)]
}

/// For each literal the set of rows that hold it, six words each: variables 1 to 32, then their negations. Row r from 0 is bit r mod 64 of
/// word r / 64.
pub fn index(rows: &[Row]) -> Vec<u64> {
    let literals = (1..=32).chain((1..=32).map(|variable: i64| -variable));
    let bit = |literal: i64, row: usize| rows.get(row).map_or(false, |row| row.contains(&literal));
    let word = |literal: i64, w: usize| (0..64).filter(|b| bit(literal, 64 * w + b)).fold(0, |word, b| word | 1 << b);
    literals.flat_map(|literal| (0..INDEX_WORDS / 64).map(move |w| word(literal, w))).collect()
}

// ---- Runs

/// The variables that have this value, as a word.
fn word(values: &[Value], to: bool) -> u32 {
    values.iter().enumerate().filter(|(_, &value)| value == Some(to)).fold(0, |word, (v, _)| word | 1 << v)
}

/// The 101 words of a run.
pub fn run_words(run: &Run) -> Vec<u32> {
    let standing = match run.standing {
        Standing::Open => 0,
        Standing::Satisfied => 1,
        Standing::Refuted => 2,
    };
    let mut words = vec![run.values.len() as u32, standing, word(&run.values, true), word(&run.values, false)];
    words.push(run.levels.len() as u32);
    for (before, chosen) in &run.levels {
        words.extend([word(before, true), word(before, false), *chosen as u32]);
    }
    words.resize(RUN_WORDS, 0);
    words
}

/// The values of n variables, where no variable is in both words and none lies past n.
fn values(n: usize, t: u32, f: u32) -> Option<Vec<Value>> {
    let beyond = (n..32).any(|v| holds(t | f, v));
    let value = |v| (holds(t, v) || holds(f, v)).then_some(holds(t, v));
    (t & f == 0 && !beyond).then(|| (0..n).map(value).collect())
}

/// The well-formed state that the front of some words is, or 12.
pub fn run_of(words: &[u32]) -> Result<Run, u8> {
    let words = words.get(..RUN_WORDS).ok_or(12)?;
    let (n, depth) = (words[0] as usize, words[4] as usize);
    let standing = match words[1] {
        0 => Standing::Open,
        1 => Standing::Satisfied,
        2 => Standing::Refuted,
        _ => return Err(12),
    };
    if !(1..=LEVELS).contains(&n) || depth > n {
        return Err(12);
    }
    let (used, unused) = words[5..].split_at(3 * depth);
    let level = |level: &[u32]| {
        let chosen = level[2] as usize;
        values(n, level[0], level[1]).filter(|_| chosen < n).map(|before| (before, chosen))
    };
    let levels = used.chunks(3).map(level).collect::<Option<Vec<_>>>().ok_or(12)?;
    let run = Run { standing, values: values(n, words[2], words[3]).ok_or(12)?, levels };
    if unused.iter().any(|&word| word != 0) || !run.well_formed() {
        return Err(12);
    }
    Ok(run)
}

/// The same, of n variables: 12, then 13.
pub fn run_for(n: usize, words: &[u32]) -> Result<Run, u8> {
    let run = run_of(words)?;
    if run.values.len() != n {
        return Err(13);
    }
    Ok(run)
}

// ---- Gates

/// The gates after the given number of inputs, or 9.
pub fn gates(words: &[u32], inputs: usize) -> Result<Vec<Gate>, u8> {
    if words.len() % 3 != 0 {
        return Err(9);
    }
    let gate = |(g, words): (usize, &[u32])| {
        let earlier = |wire: u32| Some(wire as usize).filter(|&wire| wire < inputs + g);
        let (first, second) = (earlier(words[1]), earlier(words[2]));
        match words[0] {
            0 => Some(Gate::Xor(first?, second?)),
            1 => Some(Gate::And(first?, second?)),
            2 if words[2] == 0 => Some(Gate::Inv(first?)),
            _ => None,
        }
    };
    words.chunks(3).enumerate().map(gate).collect::<Option<_>>().ok_or(9)
}

/// The value of every wire: 9, then 10.
pub fn evaluated(words: &[u32], inputs: &[u8], room: usize) -> Result<Vec<u8>, u8> {
    let gates = gates(words, inputs.len())?;
    if room < inputs.len() + gates.len() || inputs.iter().any(|&byte| byte > 1) {
        return Err(10);
    }
    let mut wires = inputs.to_vec();
    for gate in gates {
        wires.push(match gate {
            Gate::Xor(first, second) => u8::from(wires[first] != wires[second]),
            Gate::And(first, second) => u8::from(wires[first] + wires[second] == 2),
            Gate::Inv(operand) => 1 - wires[operand],
        });
    }
    Ok(wires)
}

/// A byte a wire.
fn bytes(wires: Vec<bool>) -> Vec<u8> {
    wires.into_iter().map(u8::from).collect()
}

/// Rows and run, a byte a wire, in the given number of lent bytes: 4, 3, then 10, 12, 13.
pub fn packed(size: Size, tables: [&[u32]; 3], run: &[u32], room: usize) -> Result<Vec<u8>, u8> {
    let rows = accepted(size, tables)?;
    if room < input_wires(size) {
        return Err(10);
    }
    let run = run_for(size.n, run)?;
    Ok([bytes(wires::rows(size.n, &rows)), bytes(wires::state(&run))].concat())
}

/// The state of n variables at the front of some bytes: 10, then 12.
pub fn read_back(n: usize, bytes: &[u8]) -> Result<Run, u8> {
    let bytes = bytes.get(..wires::state_width(n)).ok_or(10)?;
    let wires: Vec<bool> = bytes.iter().map(|&byte| byte == 1).collect();
    wires::read_back(n, &wires).filter(|_| bytes.iter().all(|&byte| byte < 2)).ok_or(12)
}

// ---- Texts

/// The lines of a circuit's text from the one of a number on, each with its LF.
pub fn lines(size: Size, gates: &[Gate], from: usize) -> impl Iterator<Item = String> + '_ {
    (from..4 + gates.len()).map(move |number| line(size, gates, number))
}

/// One of them: the gates and wires, the input values, the output values, a blank line, then a gate.
fn line(size: Size, gates: &[Gate], number: usize) -> String {
    let inputs = input_wires(size);
    let g = match number {
        0 => return format!("{} {}\n", gates.len(), inputs + gates.len()),
        1 => {
            let widths = wires::input_widths(size);
            let values: String = widths.iter().map(|width| format!(" {width}")).collect();
            return format!("{}{values}\n", widths.len());
        }
        2 => return format!("2 {} 1\n", wires::state_width(size.n)),
        3 => return "\n".into(),
        _ => number - 4,
    };
    let wire = inputs + g;
    match gates[g] {
        Gate::Xor(first, second) => format!("2 1 {first} {second} {wire} XOR\n"),
        Gate::And(first, second) => format!("2 1 {first} {second} {wire} AND\n"),
        Gate::Inv(operand) => format!("1 1 {operand} {wire} INV\n"),
    }
}

/// The composed answer of these numbers: a verdict that is none of 0, 1 and 2 is unknown, and the model is a word.
pub fn answer(n: usize, count: u64, verdict: u64, model: u64) -> Vec<u8> {
    let standing = match verdict {
        1 => Standing::Satisfied,
        2 => Standing::Refuted,
        _ => Standing::Open,
    };
    let model = (0..n).map(|v| model >> v & 1 == 1).collect();
    model::printed(&model::Answer { steps: count, standing, model }).into_bytes()
}
