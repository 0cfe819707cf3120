//! The circuit program. For every size that it serves its text is read, its gates are counted, and its circuit is held to the model on
//! states of every kind and on whole runs; for the smallest sizes on every state and every table.

use crate::bristol::{self, Circuit};
use crate::model::{self, Answer, Read, Row, Run, Size, Standing};
use crate::netlists::{self, Known};
use crate::process::{Room, Source, NAMES, NO_FILES};
use crate::random::Random;
use crate::report::{self, Ledger, Tally};
use crate::ties::{self, Tied};
use crate::{counts, damage, states, steps, tables, wires};
use std::collections::BTreeMap;
use std::fs;
use std::path::Path;
use std::time::Duration;

/// States, states with several forced literals and whole runs for each circuit without public rows, and for each of the many more
/// with some.
const STATES: [usize; 2] = [512, 64];
const TIES: [usize; 2] = [192, 64];
const RUNS: [usize; 2] = [64, 8];
const SEED: u64 = 30_511;
const DAMAGES: usize = 2_000;
const DAMAGE_SEED: u64 = 8_127;
/// Sizes small enough for every well-formed state and all tables.
#[rustfmt::skip]
const SMALLEST: [[usize; 4]; 15] = [
    [1, 1, 1, 0], [1, 1, 2, 0], [1, 2, 1, 0], [1, 2, 2, 0], [2, 1, 1, 0], [2, 1, 2, 0], [2, 2, 1, 0], [3, 1, 1, 0],
    [1, 1, 1, 1], [1, 1, 1, 2], [1, 1, 1, 3], [1, 1, 2, 1], [1, 2, 1, 1], [1, 2, 2, 1], [2, 1, 1, 1],
];

/// Sizes of long texts.
const LONG: [[usize; 4]; 4] = [[1, 20, 20, 0], [1, 13, 13, 14], [3, 8, 8, 1], [7, 1, 1, 0]];
const NARROW: usize = 1_500;

/// The size of these numbers.
pub fn size([n, left, right, public]: [usize; 4]) -> Size {
    Size { n, left, right, public }
}

/// The size as it is in a line.
fn shown(Size { n, left, right, public }: Size) -> String {
    format!("{n} {left} {right} {public}")
}

/// The dimension line of a size.
fn line(size: Size) -> Vec<u8> {
    (shown(size) + "\n").into_bytes()
}

/// Whether the program serves the circuit of a size.
fn served(size: &Size) -> bool {
    size.ceiling() <= model::SERVED
}

/// Every size whose ceiling the program serves.
pub fn sizes() -> Vec<Size> {
    let mut sizes = vec![];
    for (n, left) in (1..=32).flat_map(|n| (1..=128).map(move |left| (n, left))) {
        for right in (1..=128).take_while(|&right| served(&size([n, left, right, 0]))) {
            sizes.extend((0..=128).map(|public| size([n, left, right, public])).take_while(served));
        }
    }
    sizes
}

/// What the program prints for this standard input, of which it reads the first line and no more.
fn printed(room: &Room, input: &[u8], brought: &Source) -> Result<Vec<u8>, String> {
    let files = [brought.clone(), Source::Missing, Source::Missing];
    let ran = room.run(&files, input).map_err(|error| format!("it could not be run: {error}"))?;
    let line = input.iter().position(|&b| b == b'\n').map_or(input.len(), |at| at + 1) as u64;
    match (ran.fault, ran.taken) {
        (Some(fault), _) => Err(fault),
        (_, Some(taken)) if taken > line => Err(format!("it took {taken} bytes of standard input, not {line}")),
        _ => Ok(ran.output),
    }
}

/// The circuit that the program prints for a size, its values being as wide as documents 01 and 02 say.
fn circuit(room: &Room, size: Size) -> Result<Circuit, String> {
    let text = printed(room, &line(size), &Source::Missing)?;
    let circuit = bristol::read(&text).map_err(|fault| format!("{fault}; the text is {}", report::quoted(&text)))?;
    if circuit.inputs != wires::input_widths(size) || circuit.outputs != [wires::state_width(size.n), 1] {
        return Err(format!("values as wide as {:?} give {:?}", circuit.inputs, circuit.outputs));
    }
    Ok(circuit)
}

// ---- One giant step

/// The wires of a state and its closing wire.
fn closing(run: &Run) -> Vec<bool> {
    let mut wires = wires::state(run);
    wires.push(run.standing != Standing::Open);
    wires
}

/// What a giant step did.
fn rule(before: &Run, after: &Run) -> &'static str {
    match (before.standing, after.standing) {
        (Standing::Open, Standing::Satisfied) => "satisfied",
        (Standing::Open, Standing::Refuted) => "refuted",
        (Standing::Open, Standing::Open) if after.levels.len() < before.levels.len() => "popped",
        (Standing::Open, Standing::Open) if after.levels.len() > before.levels.len() => "chosen",
        (Standing::Open, Standing::Open) => "forced",
        _ => "closed before",
    }
}

/// Where a circuit's outputs are not the model's giant step of this state.
fn unlike_step(rows: &[Row], before: &Run, after: &Run, outputs: &[bool]) -> Option<String> {
    if outputs == closing(after) {
        return None;
    }
    let (n, bits) = (before.values.len(), |wires: &[bool]| wires.iter().map(|&w| if w { '1' } else { '0' }).collect());
    let (state, expected): (String, String) = (bits(outputs), bits(&closing(after)));
    let read = wires::read_back(n, &outputs[..outputs.len() - 1]);
    Some(format!(
        "rows {rows:?}, state {before:?}\n  the model gives {after:?}, wires {expected}\n  the circuit gives {}, wires {state}",
        read.map_or("no well-formed state".into(), |read| format!("{read:?}")),
    ))
}

/// Holds the circuit to the model on each of these tables with a state; counts the rules that applied.
pub fn steps(circuit: &Circuit, cases: &[(Vec<Row>, Run)], ledger: &Ledger) -> Option<String> {
    let input = |(rows, run): &(Vec<Row>, Run)| [wires::rows(run.values.len(), rows), wires::state(run)].concat();
    let inputs: Vec<Vec<bool>> = cases.iter().map(input).collect();
    let mut rules = BTreeMap::<&str, usize>::new();
    for ((rows, before), outputs) in cases.iter().zip(circuit.evaluate(&inputs)) {
        let mut after = before.clone();
        after.step(rows);
        *rules.entry(rule(before, &after)).or_default() += 1;
        if let Some(failure) = unlike_step(rows, before, &after, &outputs) {
            return Some(failure);
        }
    }
    rules.iter().for_each(|(rule, count)| ledger.kind(rule, *count));
    None
}

// ---- Whole runs

/// Repeats the circuit from the fresh state, each time on the wires that the last repeat gave, until the closing wire is set or the budget
/// is reached; each repeat is held to the model. The answers that the last wires give.
fn repeats(circuit: &Circuit, n: usize, cases: &[(Vec<Row>, u64)]) -> Result<Vec<Answer>, String> {
    let mut runs = vec![Run::fresh(n); cases.len()];
    let mut given: Vec<Vec<bool>> = runs.iter().map(closing).collect();
    let mut counts = vec![0; cases.len()];
    let width = wires::state_width(n);
    loop {
        let goes = |k: &usize| counts[*k] < cases[*k].1 && !given[*k][width];
        let going: Vec<usize> = (0..cases.len()).filter(goes).collect();
        if going.is_empty() {
            break;
        }
        let input = |&k: &usize| [&wires::rows(n, &cases[k].0)[..], &given[k][..width]].concat();
        let inputs: Vec<Vec<bool>> = going.iter().map(input).collect();
        for (k, outputs) in going.into_iter().zip(circuit.evaluate(&inputs)) {
            let before = runs[k].clone();
            runs[k].step(&cases[k].0);
            counts[k] += 1;
            if let Some(failure) = unlike_step(&cases[k].0, &before, &runs[k], &outputs) {
                return Err(format!("repeat {}: {failure}", counts[k]));
            }
            given[k] = outputs;
        }
    }
    let answer = |(wires, count): (&Vec<bool>, u64)| wires::read_back(n, &wires[..width]).map(|run| run.answer(count));
    given.iter().zip(counts).map(answer).collect::<Option<_>>().ok_or_else(|| "no well-formed state".into())
}

/// Holds whole runs to the model's.
fn runs(circuit: &Circuit, n: usize, cases: &[(Vec<Row>, u64)], ledger: &Ledger) -> Option<String> {
    let answers = match repeats(circuit, n, cases) {
        Ok(answers) => answers,
        Err(failure) => return Some(failure),
    };
    for ((rows, budget), answer) in cases.iter().zip(answers) {
        let expected = model::run(n, rows, *budget);
        if answer != expected {
            return Some(format!(
                "rows {rows:?}, budget {budget}: the repeats give {answer:?}, the model {expected:?}"
            ));
        }
        if let Err(failure) = steps::hold(rows, *budget, answer.steps, answer.standing == Standing::Open) {
            return Some(failure);
        }
        ledger.kind(&format!("runs {:?}", answer.standing).to_lowercase(), 1);
    }
    None
}

/// Rows for a whole run, and a budget that is enough or one too few.
fn table(size: Size, random: &mut Random) -> (Vec<Row>, u64) {
    let n = size.n;
    let shortest = *random.pick(&[0, 1, 2, 2, 3]);
    let row = |_| {
        let width = random.between(shortest, n.max(shortest));
        match random.below(6) {
            0 => tables::strict(n, width, random).into_iter().flat_map(|l| [l, -l]).collect(),
            _ => tables::strict(n, width, random),
        }
    };
    let rows: Vec<Row> = (0..size.rows()).map(row).collect();
    let steps = model::run(n, &rows, u64::MAX).steps;
    (rows, *random.pick(&[steps, steps, u64::MAX, steps - 1]))
}

// ---- Groups

/// Text, ceiling, counts, states, ties and runs of one size, a test each.
fn size_tests(size: Size, room: &Room, ledger: &Ledger) {
    let (n, m, some) = (size.n, size.rows(), usize::from(size.public > 0));
    let seed = SEED + (size.public << 24 | n << 16 | size.left << 8 | size.right) as u64;
    let told = |failure: String| format!("circuit \"{}\", seed {seed}: {failure}", shown(size));
    let circuit = match circuit(room, size) {
        Ok(circuit) => circuit,
        Err(failure) => return (0..7).for_each(|_| ledger.test(Some(told(failure.clone())))),
    };
    ledger.test(None);
    let counts = circuit.counts();
    ledger.test((counts.gates > size.ceiling()).then(|| told(format!("{} gates", counts.gates))));
    let law = counts::now(n, m);
    ledger.test((counts != law).then(|| told(format!("{counts:?}, and not {law:?}"))));
    let random = &mut Random::new(seed);
    let state = |_| {
        let run = states::random(n, random);
        (states::table(m, &run.values, random), run)
    };
    let cases: Vec<(Vec<Row>, Run)> = (0..STATES[some]).map(state).collect();
    ledger.test(steps(&circuit, &cases, ledger).map(told));
    let cases: Vec<(Vec<Row>, Run)> = (0..TIES[some]).map(|_| states::tied(n, m, random)).collect();
    ledger.test(steps(&circuit, &cases, ledger).map(told));
    let tell = cases.iter().filter(|(rows, run)| ties::tells(rows, run)).count();
    ledger.kind("ties", tell);
    ledger.test((2 * tell < cases.len()).then(|| told(format!("only {tell} states tell the earlier rule"))));
    let cases: Vec<(Vec<Row>, u64)> = (0..RUNS[some]).map(|_| table(size, random)).collect();
    ledger.test(runs(&circuit, n, &cases, ledger).map(told));
    ledger.kind("gates", counts.gates);
    ledger.kind("AND gates", counts.ands);
}

/// The circuit takes the literal of a state that was written by hand, where the program serves its size.
fn tied_test(tied: &Tied, room: &Room) -> Option<String> {
    let told = |failure: String| format!("{}: {failure}", tied.what);
    let circuit = match circuit(room, tied.size()) {
        Ok(circuit) => circuit,
        Err(failure) => return Some(told(failure)),
    };
    let (rows, run) = (tied.rows(), tied.run());
    let outputs = circuit.evaluate(&[[wires::rows(run.values.len(), &rows), wires::state(&run)].concat()]);
    unlike_step(&rows, &run, &tied.after(), &outputs[0]).map(told)
}

/// Every state with all tables, a test for each left table's first row.
fn exhaustive(size: Size, room: &Room, ledger: &Ledger) {
    let n = size.n;
    let told = |failure: String| format!("circuit \"{}\", every state: {failure}", shown(size));
    let circuit = match circuit(room, size) {
        Ok(circuit) => circuit,
        Err(failure) => return ledger.test(Some(told(failure))),
    };
    let states = states::all(n);
    let rows = states::rows(n);
    let odd = states.iter().find(|state| wires::read_back(n, &wires::state(state)).as_ref() != Some(*state));
    ledger.test(odd.map(|state| told(format!("{state:?} is not read back"))));
    for first in &rows {
        let mut failure = None;
        for rest in states::ways(rows.len(), size.rows() - 1) {
            let table: Vec<Row> = [first].into_iter().chain(rest.iter().map(|&k| &rows[k])).cloned().collect();
            let cases: Vec<(Vec<Row>, Run)> = states.iter().map(|run| (table.clone(), run.clone())).collect();
            failure = failure.or_else(|| steps(&circuit, &cases, ledger));
        }
        ledger.test(failure.map(told));
    }
}

/// A case of folder cases whose answer the repeats of a circuit can give: its name, tables and budget, and the whole output.
struct Written {
    name: String,
    read: Read,
    expected: String,
}

/// A written case whose circuit the program serves.
fn written(case: &Path) -> Option<Written> {
    let text = |name: &str| fs::read(case.join(name)).ok();
    let texts = NAMES.map(text);
    let read = model::pair([0, 1, 2].map(|k| texts[k].as_deref()), &text("stdin")?).ok()?;
    let expected = String::from_utf8(text("expected")?).ok()?;
    served(&read.size).then(|| Written { name: case.display().to_string(), read, expected })
}

/// The repeats of a circuit give the answer that was written by hand.
fn written_test(case: &Written, room: &Room) -> Option<String> {
    let Read { size, rows, budget } = &case.read;
    let repeated = circuit(room, *size)
        .and_then(|circuit| repeats(&circuit, size.n, &[(rows.clone(), *budget)]))
        .map(|answers| answers.iter().map(model::printed).collect::<String>());
    match repeated {
        Ok(printed) if printed == case.expected => None,
        Ok(printed) => Some(format!("{}: the repeats give {printed:?}, not {:?}", case.name, case.expected)),
        Err(failure) => Some(format!("{}: {failure}", case.name)),
    }
}

/// Sizes with the second and third line of their texts, worked out by hand.
const HEADERS: [([usize; 4], &str); 6] = [
    ([1, 1, 1, 0], "3 2 2 9\n2 9 1\n"),
    ([1, 1, 1, 1], "4 2 2 2 9\n2 9 1\n"),
    ([1, 13, 13, 14], "4 26 26 28 9\n2 9 1\n"),
    ([2, 1, 3, 4], "4 4 12 16 21\n2 21 1\n"),
    ([3, 8, 9, 0], "3 48 54 39\n2 39 1\n"),
    ([7, 1, 1, 0], "3 14 14 171\n2 171 1\n"),
];

/// The text has these lines, with no number written otherwise.
fn header_test(([n, left, right, public], lines): ([usize; 4], &str), room: &Room) -> Option<String> {
    let input = line(Size { n, left, right, public });
    let text = match printed(room, &input, &Source::Missing) {
        Ok(text) => String::from_utf8_lossy(&text).into_owned(),
        Err(failure) => return Some(failure),
    };
    let found: String = text.split_inclusive('\n').skip(1).take(2).collect();
    (found != lines).then(|| format!("line {}: the text has {found:?} and not {lines:?}", report::quoted(&input)))
}

/// The text has the gates that another program gave the circuit.
fn known_test(known: &Known, room: &Room) -> Option<String> {
    let text = match printed(room, &line(known.size), &Source::Missing) {
        Ok(text) => text,
        Err(failure) => return Some(failure),
    };
    let lines: Vec<&[u8]> = text.split_inclusive(|&byte| byte == b'\n').skip(4).collect();
    known.unlike(&lines.concat())
}

// ---- Lines

/// What is on standard input.
#[rustfmt::skip]
const LINES: &[&[u8]] = &[
    b"", b"\n", b" \n", b"1\n", b"1 1\n", b"1 1 1\n", b"1 1 1 0", b"1 1 1 0\n", b"1 1 1 1\n", b"1 1 1 0 \n", b"1 1 1 \n", b" 1 1 1 0\n", b"1  1 1 0\n",
    b"1 1  1 0\n", b"1 1 1  0\n", b"1\t1\t1\t0\n", b"1 1\t1 0\n", b"1\t1 1 0\n", b"1 1 1\t0\n", b"1 1 1 0\r\n", b"1 1 1\r 0\n", b"1 1 1 0\t\n",
    b"1 1 1 0 0\n", b"1 1 1 1 1\n", b"1 1 1 0\0\n", b"\x001 1 1 0\n", b"1 1 1 0\n\n", b"1 1 1 1\n2 2 2 2\n", b"1 1 1 0\nx\0\xff", b"\n1 1 1 0\n",
    b"01 1 1 0\n", b"1 001 1 0\n", b"1 1 0000000001 0\n", b"1 1 1 00\n", b"1 1 1 0000000002\n", b"002 001 003 004\n", b"+1 1 1 0\n", b"1 +1 1 0\n",
    b"1 1 +1 0\n", b"1 1 1 +0\n", b"-1 1 1 0\n", b"1 -1 1 0\n", b"1 1 -1 0\n", b"1 1 1 -1\n", b"-0 1 1 0\n", b"1 1 1 -0\n", b"1,1,1,0\n", b"1 1,1 0\n",
    b"1 1 1,0\n", b"1.0 1 1 0\n", b"0x1 1 1 0\n", b"1e0 1 1 0\n", b"a 1 1 0\n", b"1 a 1 0\n", b"1 1 a 0\n", b"1 1 1 a\n", b"/ 1 1 0\n", b": 1 1 0\n",
    b"1 1 : 0\n", b"1 1 1 /\n", b"1 1 1 0a\n", b"1 1 1a 0\n", b"p cnf 1 1\n", b"\xd9\xa1 1 1 0\n", b"1\xc2\xa01 1 0\n", b"1\x0b1 1 0\n", b"1 1 1\x0b0\n",
    b"1 1 1\n0\n", b"1 1\n1 0\n", b"1\n1 1 0\n", b"1 1 1 \n0\n", b"1 \n", b"1 1 \n", b"   \n", b"1    1\n", b"   1\n", b"1 1  \n",
    b"18446744073709551615 1 1 0\n", b"18446744073709551616 1 1 0\n", b"18446744073709551617 1 1 0\n", b"1 18446744073709551617 1 0\n",
    b"1 1 18446744073709551617 0\n", b"1 1 1 18446744073709551617\n", b"1 18446744073709551615 1 0\n", b"1 1 18446744073709551615 0\n",
    b"1 1 1 18446744073709551615\n", b"1 18446744073709551616 1 0\n", b"1 1 18446744073709551616 0\n", b"1 1 1 18446744073709551616\n",
    b"33 18446744073709551616 1 0\n", b"0 0 18446744073709551616 0\n", b"0 0 0 18446744073709551616\n", b"33 1 1 18446744073709551616\n",
    b"018446744073709551615 1 1 0\n", b"1 1 1 018446744073709551616\n", b"99999999999999999999 1 1 0\n", b"340282366920938463463374607431768211457 1 1 0\n",
    b"18446744073709551615 18446744073709551615 18446744073709551615 18446744073709551615\n", b"0 0 0 0 \n", b"0 0 0 0\n", b"33 129 129 129 1\n",
    b"33 129 129\n", b"33 129 129 129\n", b"33 x 129 0\n", b"33 1 1 x\n",
];

/// The lines of the list, lines around 100 bytes, and sizes at every limit and around it.
fn lines() -> Vec<Vec<u8>> {
    let mut lines: Vec<Vec<u8>> = LINES.iter().map(|line| line.to_vec()).collect();
    for length in [99, 100, 101, 102, 103, 255, 256, 257, 65_536] {
        for end in [
            &b"1 1 1 0\n"[..],
            b"1 1 1 2\n",
            b"1 1 1 0\nmore\n",
            b"1 1 1 0",
            b"33 1 1 0\n",
            b"1 129 1 0\n",
            b"1 1 1 129\n",
            b"8 1 1 0\n",
        ] {
            let line = end.iter().position(|&b| b == b'\n').map_or(end.len(), |at| at + 1);
            lines.push([&vec![b'0'; length - line][..], end].concat());
            let (front, back) = end.split_at(line - 2);
            lines.push([front, &vec![b'0'; length - line], back].concat());
            lines.push([front, &vec![b' '; length - line], back].concat());
        }
    }
    lines.extend(odd_sizes());
    lines.extend(first_refused().into_iter().map(line));
    lines
}

/// Lines of numbers at the limits and around them: three together, the public row count with each other one, and all four.
fn odd_sizes() -> Vec<Vec<u8>> {
    let wide = [0, 1, 2, 32, 33, 128, 129, 255, 256, 257, 258, 65_537, (1 << 32) + 1, u64::MAX];
    let few = [0, 1, 33, 129, 257];
    let mut sizes: Vec<[u64; 4]> = vec![];
    for a in wide {
        for b in wide {
            sizes.extend(wide.map(|c| [a, b, c, 0]));
            sizes.extend([[a, 1, 1, b], [1, a, 1, b], [1, 1, a, b]]);
        }
    }
    for a in few {
        for b in few {
            sizes.extend(few.iter().flat_map(|&c| few.map(|d| [a, b, c, d])));
        }
    }
    sizes.into_iter().map(|[a, b, c, d]| format!("{a} {b} {c} {d}\n").into_bytes()).collect()
}

/// For every n and left row count the first right one that makes a circuit too large, and the first public one.
fn first_refused() -> Vec<Size> {
    let mut sizes = vec![];
    for n in 1..=32 {
        for left in 1..=128 {
            let right = (1..=128).find(|&right| !served(&size([n, left, right, 0]))).unwrap_or(128);
            let public = (0..=128).find(|&public| !served(&size([n, left, 1, public]))).unwrap_or(128);
            if left < 5 || right > 1 {
                sizes.push(size([n, left, right, 0]));
            }
            if public > 0 {
                sizes.push(size([n, left, 1, public]));
            }
        }
    }
    sizes
}

/// A size that is served, with one to three strokes of damage.
fn damaged(number: usize) -> Vec<u8> {
    let random = &mut Random::new(DAMAGE_SEED + number as u64);
    let numbers = [random.between(1, 3), random.between(1, 6), random.between(1, 6), random.between(0, 5)];
    let mut line = line(size(numbers));
    for _ in 0..*random.pick(&[1, 1, 2, 3]) {
        damage::strike(&mut line, random);
    }
    line
}

/// A line gives the text of its size, or the refusal alone.
fn line_test(input: &[u8], brought: &Source, room: &Room, ledger: &Ledger) {
    let expected = match model::dimensions(input) {
        Ok(size) => {
            ledger.kind("served", 1);
            printed(room, &line(size), &Source::Missing)
        }
        Err(number) => {
            ledger.kind(&format!("refused {number}"), 1);
            Ok(model::refused_alone(number).into_bytes())
        }
    };
    let failure = match (printed(room, input, brought), expected) {
        (Ok(output), Ok(expected)) if output == expected && !output.is_empty() => None,
        (Ok(output), Ok(expected)) => {
            Some(format!("{} and not {}", report::quoted(&output), report::quoted(&expected)))
        }
        (Err(failure), _) | (_, Err(failure)) => Some(failure),
    };
    ledger.test(failure.map(|failure| format!("line {}: {failure}", report::quoted(input))));
}

/// Standard input that stays open, and brings the line in two parts.
fn held_test(room: &Room) -> Option<String> {
    let held = room.run_held(&NO_FILES, b"2 1 3 00000000004\nmore\n");
    match (held, printed(room, b"2 1 3 4\n", &Source::Missing)) {
        (Ok(ran), Ok(expected)) if ran.fault.is_none() && ran.output == expected => None,
        (Ok(ran), _) => Some(format!("held input gives {} {:?}", report::quoted(&ran.output), ran.fault)),
        (Err(error), _) => Some(format!("held input: {error}")),
    }
}

/// A standard output that is often full: what comes through is a front of the text, never a text with a hole.
fn narrow_test(number: usize, room: &Room, ledger: &Ledger) {
    let input = line(size(LONG[number % LONG.len()]));
    let pause = Duration::from_micros(number as u64 % 50);
    let failure = match (room.run_narrow(&input, pause), printed(room, &input, &Source::Missing)) {
        (Ok(output), Ok(text)) if !output.is_empty() && text.starts_with(&output) => {
            ledger.kind(if output == text { "whole" } else { "cut" }, 1);
            None
        }
        (Ok(output), Ok(_)) => Some(format!("the {} bytes that came are no front of the text", output.len())),
        (Err(error), _) => Some(error.to_string()),
        (_, Err(failure)) => Some(failure),
    };
    ledger.test(failure.map(|failure| format!("line {}, narrow output: {failure}", report::quoted(&input))));
}

/// All tests of the program; `own` is the folder of the tests.
pub fn run(program: &Path, own: &Path) -> std::io::Result<Tally> {
    let mut total = bristol::run();

    let (ledger, sizes) = (Ledger::default(), sizes());
    report::spread([program], sizes.len(), |number, [room]| {
        size_tests(sizes[sizes.len() - 1 - number], room, &ledger)
    })?;
    total.add(ledger.close(&format!(
        "{} circuits, {} without public rows, on {STATES:?} random states, {TIES:?} with ties and {RUNS:?} whole runs each, seeds from {SEED}",
        sizes.len(),
        sizes.iter().filter(|size| size.public == 0).count()
    )));

    let ledger = Ledger::default();
    report::spread([program], SMALLEST.len(), |number, [room]| exhaustive(size(SMALLEST[number]), room, &ledger))?;
    total.add(ledger.close(&format!("every state and all tables of {} sizes", SMALLEST.len())));

    let tied: Vec<&Tied> = ties::WRITTEN.iter().filter(|tied| served(&tied.size())).collect();
    let ledger = Ledger::default();
    report::spread([program], tied.len(), |number, [room]| ledger.test(tied_test(tied[number], room)))?;
    total.add(ledger.close(&format!("circuits on {} states with ties, worked out by hand", tied.len())));

    let cases =
        fs::read_dir(own.join("cases"))?.map(|case| Ok(written(&case?.path()))).collect::<std::io::Result<Vec<_>>>()?;
    let cases: Vec<Written> = cases.into_iter().flatten().collect();
    let ledger = Ledger::default();
    report::spread([program], cases.len(), |number, [room]| ledger.test(written_test(&cases[number], room)))?;
    total.add(ledger.close(&format!("circuits repeated on {} cases with written answers", cases.len())));

    let ledger = Ledger::default();
    report::spread([program], HEADERS.len(), |number, [room]| ledger.test(header_test(HEADERS[number], room)))?;
    total.add(ledger.close("header lines worked out by hand"));

    let known: Vec<Known> = netlists::known(own)?.into_iter().filter(|known| served(&known.size)).collect();
    let ledger = Ledger::default();
    report::spread([program], known.len(), |number, [room]| ledger.test(known_test(&known[number], room)))?;
    total.add(ledger.close(&format!("gates of {} circuits beside those of another program", known.len())));

    let (ledger, lines) = (Ledger::default(), lines());
    report::spread([program], lines.len(), |number, [room]| {
        line_test(&lines[number], &Source::Missing, room, &ledger)
    })?;
    report::spread([program], 1, |_, [room]| line_test(b"2 1 3 1\n", &Source::Slow(vec![]), room, &ledger))?;
    report::spread([program], 1, |_, [room]| ledger.test(held_test(room)))?;
    total.add(ledger.close(&format!("{} listed dimension lines", lines.len() + 2)));

    let ledger = Ledger::default();
    report::spread([program], DAMAGES, |number, [room]| line_test(&damaged(number), &Source::Missing, room, &ledger))?;
    total.add(ledger.close(&format!("{DAMAGES} damaged dimension lines, seeds from {DAMAGE_SEED}")));

    let ledger = Ledger::default();
    report::spread([program], NARROW, |number, [room]| narrow_test(number, room, &ledger))?;
    total.add(ledger.close(&format!("{NARROW} texts to a narrow standard output")));
    Ok(total)
}
