//! Rows and states as a circuit's wires, in the order of documents 01 and 02, and states read back.

use crate::model::{Row, Run, Size, Standing};

/// How many wires a state of n variables has.
pub fn state_width(n: usize) -> usize {
    3 * n * n + 3 * n + 3
}

/// How wide each input value is: left rows, right rows, public rows where there are some, state.
pub fn input_widths(size: Size) -> Vec<usize> {
    let rows = |count: usize| 2 * size.n * count;
    let mut widths = vec![rows(size.left), rows(size.right)];
    if size.public > 0 {
        widths.push(rows(size.public));
    }
    widths.push(state_width(size.n));
    widths
}

/// A row's positive wires, then its negative ones, from variable 1; the rows in order.
pub fn rows(n: usize, rows: &[Row]) -> Vec<bool> {
    let variables = 1..=n as i64;
    let row = |row: &Row| {
        let positive = variables.clone().map(|v| row.contains(&v));
        positive.chain(variables.clone().map(|v| row.contains(&-v))).collect::<Vec<bool>>()
    };
    rows.iter().flat_map(row).collect()
}

/// T, then F.
fn assignment(values: &[Option<bool>]) -> Vec<bool> {
    let set = |to: bool| values.iter().map(move |&value| value == Some(to));
    set(true).chain(set(false)).collect()
}

/// T, F, the depth with one wire set, n levels of T, F and the chosen variable, then satisfied and refuted.
pub fn state(run: &Run) -> Vec<bool> {
    let n = run.values.len();
    let mut wires = assignment(&run.values);
    wires.extend((0..=n).map(|depth| depth == run.levels.len()));
    for level in 0..n {
        match run.levels.get(level) {
            None => wires.extend(vec![false; 3 * n]),
            Some((before, chosen)) => {
                wires.extend(assignment(before));
                wires.extend((0..n).map(|v| v == *chosen));
            }
        }
    }
    wires.extend([run.standing == Standing::Satisfied, run.standing == Standing::Refuted]);
    wires
}

/// The well-formed state of n variables that these wires are, if they are one.
pub fn read_back(n: usize, wires: &[bool]) -> Option<Run> {
    if wires.len() != state_width(n) {
        return None;
    }
    let values = |wires: &[bool]| (0..n).map(|v| (wires[v] || wires[n + v]).then_some(wires[v])).collect();
    let set = |wires: &[bool]| wires.iter().position(|&wire| wire);
    let (assignment, rest) = wires.split_at(2 * n);
    let (depth, rest) = rest.split_at(n + 1);
    let (levels, closing) = rest.split_at(3 * n * n);
    let level = |wires: &[bool]| Some((values(wires), set(&wires[2 * n..])?));
    let levels = levels.chunks(3 * n).take(set(depth)?).map(level).collect::<Option<_>>()?;
    let standing = match closing {
        [true, _] => Standing::Satisfied,
        [_, true] => Standing::Refuted,
        _ => Standing::Open,
    };
    // what was passed over here, as a second depth wire or a level that is not used, is seen by packing again
    let run = Run { standing, values: values(assignment), levels };
    (run.well_formed() && state(&run) == wires).then_some(run)
}
