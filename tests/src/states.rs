//! Well-formed states, all of them or at random, and rows in every relation to a state.

use crate::model::{Row, Run, Standing, Value};
use crate::random::Random;

/// Standings in the order in which they are gone through.
pub const STANDINGS: [Standing; 3] = [Standing::Open, Standing::Satisfied, Standing::Refuted];

/// The state whose levels choose these variables in turn. Each other variable is free, or has a value from the level of a number on, the
/// number of levels meaning the state alone. Every well-formed state is one of these, once.
pub fn state(standing: Standing, chosen: &[usize], others: &[Option<(usize, bool)>]) -> Run {
    let values_at = |level: usize| -> Vec<Value> {
        let value = |v: usize| match chosen.iter().position(|&c| c == v) {
            Some(place) => (place < level).then_some(true),
            None => others[v].filter(|(since, _)| *since <= level).map(|(_, value)| value),
        };
        (0..others.len()).map(value).collect()
    };
    let levels = chosen.iter().enumerate().map(|(level, &c)| (values_at(level), c)).collect();
    Run { standing, values: values_at(chosen.len()), levels }
}

/// A state of n variables: any depth, one in four closed.
pub fn random(n: usize, random: &mut Random) -> Run {
    let depth = random.between(0, n);
    at_depth(n, depth, random)
}

/// The same at a depth.
pub fn at_depth(n: usize, depth: usize, random: &mut Random) -> Run {
    let mut variables: Vec<usize> = (0..n).collect();
    let chosen: Vec<usize> = (0..depth).map(|_| variables.swap_remove(random.below(variables.len()))).collect();
    let scarce = random.between(1, 4);
    let other = |_| (!random.once_in(scarce)).then(|| (random.between(0, depth), random.once_in(2)));
    let others: Vec<_> = (0..n).map(other).collect();
    let standing = if random.once_in(4) { *random.pick(&STANDINGS[1..]) } else { Standing::Open };
    state(standing, &chosen, &others)
}

/// Every way to draw one value after another from lists of this length.
pub fn ways(length: usize, times: usize) -> Vec<Vec<usize>> {
    let longer = |ways: Vec<Vec<usize>>| {
        ways.iter().flat_map(|way| (0..length).map(|next| [&way[..], &[next]].concat())).collect()
    };
    (0..times).fold(vec![vec![]], |ways, _| longer(ways))
}

/// Every well-formed state of n variables.
pub fn all(n: usize) -> Vec<Run> {
    let mut states = vec![];
    for depth in 0..=n {
        let distinct = |way: &Vec<usize>| (0..depth).all(|k| !way[..k].contains(&way[k]));
        for chosen in ways(n, depth).into_iter().filter(distinct) {
            // 0 is free, and else a value and the level since when
            for way in ways(2 * depth + 3, n - depth) {
                let mut rest = way.iter();
                let mut other = |v: usize| match chosen.contains(&v) {
                    true => None,
                    false => rest.next().filter(|&&k| k > 0).map(|&k| ((k - 1) / 2, k % 2 == 0)),
                };
                let others: Vec<_> = (0..n).map(&mut other).collect();
                states.extend(STANDINGS.iter().map(|&standing| state(standing, &chosen, &others)));
            }
        }
    }
    states
}

/// Every row of n variables.
pub fn rows(n: usize) -> Vec<Row> {
    let literals: Vec<i64> = (1..=n as i64).flat_map(|v| [v, -v]).collect();
    let row = |way: Vec<usize>| literals.iter().zip(way).filter(|(_, taken)| *taken == 1).map(|(&l, _)| l).collect();
    ways(2, 2 * n).into_iter().map(row).collect()
}

/// What a row is under a state.
#[derive(Clone, Copy)]
enum Kind {
    Any,
    Padding,
    Satisfied,
    Conflict,
    Unit,
    Wide,
}

/// What a table's rows are drawn from.
const MIXES: &[&[Kind]] = &[
    &[Kind::Any],
    &[Kind::Satisfied, Kind::Padding],
    &[Kind::Satisfied, Kind::Padding, Kind::Wide],
    &[Kind::Padding, Kind::Wide],
    &[Kind::Satisfied, Kind::Padding, Kind::Wide, Kind::Unit],
    &[Kind::Padding, Kind::Unit],
    &[Kind::Any, Kind::Satisfied, Kind::Padding, Kind::Conflict, Kind::Unit, Kind::Wide],
];

/// The row as padding, by both literals of a variable.
fn padding(row: Row, variable: i64) -> Row {
    row.into_iter().filter(|literal| literal.abs() != variable).chain([variable, -variable]).collect()
}

/// The literal of a variable that counts from 0.
fn signed(v: usize, positive: bool) -> i64 {
    if positive {
        v as i64 + 1
    } else {
        -(v as i64) - 1
    }
}

/// Some literals that the state makes false, and as many free ones, up to all, as are asked for.
fn unsatisfied(values: &[Value], free: usize, random: &mut Random) -> Row {
    let mut row: Row = vec![];
    let mut open: Vec<usize> = vec![];
    for (v, value) in values.iter().enumerate() {
        match value {
            Some(value) if random.once_in(2) => row.push(signed(v, !value)),
            None => open.push(v),
            _ => (),
        }
    }
    for _ in 0..free.min(open.len()) {
        let v = open.swap_remove(random.below(open.len()));
        row.push(signed(v, random.once_in(2)));
    }
    row
}

/// A row of a kind; where the state leaves no such row, padding.
fn row(kind: Kind, values: &[Value], random: &mut Random) -> Row {
    let n = values.len();
    let (set, free): (Vec<usize>, Vec<usize>) = (0..n).partition(|&v| values[v].is_some());
    let more = random.below(n + 1);
    match kind {
        Kind::Any => {
            let some = random.between(1, 3);
            let kept = |_: &i64| random.once_in(some + 1);
            (1..=n as i64).flat_map(|v| [v, -v]).filter(kept).collect()
        }
        Kind::Satisfied if !set.is_empty() => {
            let v = *random.pick(&set);
            let literal = signed(v, values[v] == Some(true));
            let row = unsatisfied(values, more, random);
            row.into_iter().filter(|l| l.abs() != literal.abs()).chain([literal]).collect()
        }
        Kind::Conflict => unsatisfied(values, 0, random),
        Kind::Unit if !free.is_empty() => unsatisfied(values, 1, random),
        Kind::Wide if free.len() > 1 => unsatisfied(values, 2 + more, random),
        _ => padding(unsatisfied(values, more, random), random.between(1, n) as i64),
    }
}

/// Rows drawn from one mix; in half of the tables one row is of any kind.
pub fn table(count: usize, values: &[Value], random: &mut Random) -> Vec<Row> {
    let mix = *random.pick(MIXES);
    let mut rows: Vec<Row> = (0..count).map(|_| row(*random.pick(mix), values, random)).collect();
    if random.once_in(2) {
        let kind = *random.pick(MIXES[MIXES.len() - 1]);
        rows[random.below(count)] = row(kind, values, random);
    }
    rows
}

/// At most the given number of literals of free variables, to be forced all at once: of different variables, the lowest last; of one
/// variable with both signs, the negative one first; these two together; or any. In all but the last the first literal is not the one to
/// take.
fn forced(free: &[usize], count: usize, random: &mut Random) -> Vec<i64> {
    let mut falling: Vec<usize> = free.to_vec();
    while falling.len() > count {
        falling.swap_remove(random.below(falling.len()));
    }
    falling.sort_by(|a, b| b.cmp(a));
    let lowest = falling[falling.len() - 1];
    let both = [signed(lowest, false), signed(lowest, true)];
    match random.below(4) {
        _ if falling.len() == 1 => both.to_vec(),
        0 => falling.into_iter().map(|v| signed(v, random.once_in(2))).collect(),
        1 => (0..count).map(|_| signed(*random.pick(&falling), random.once_in(2))).collect(),
        2 => both.to_vec(),
        _ => {
            let others = falling[..falling.len() - 1].iter().take(count - 2);
            others.map(|&v| signed(v, random.once_in(2))).chain(both).collect()
        }
    }
}

/// An open state of n variables and the given number of rows, two at least, of which several force a literal; the rest force none. Once in
/// eight times one of the rest is in conflict.
pub fn tied(n: usize, count: usize, random: &mut Random) -> (Vec<Row>, Run) {
    let (mut run, mut free) = (Run::fresh(n), vec![]);
    while free.len() < n.min(2) {
        let depth = random.between(0, n.saturating_sub(2));
        run = Run { standing: Standing::Open, ..at_depth(n, depth, random) };
        free = (0..n).filter(|&v| run.values[v].is_none()).collect();
    }
    let most = random.between(2, count.min(6));
    let literals = forced(&free, most, random);
    let mut places: Vec<usize> = (0..count).collect();
    while places.len() > literals.len() {
        places.remove(random.below(places.len()));
    }
    let quiet = [Kind::Satisfied, Kind::Padding, Kind::Wide];
    let mut rows: Vec<Row> = (0..count).map(|_| row(*random.pick(&quiet), &run.values, random)).collect();
    if random.once_in(8) {
        rows[random.below(count)] = row(Kind::Conflict, &run.values, random);
    }
    for (place, literal) in places.into_iter().zip(literals) {
        rows[place] = [unsatisfied(&run.values, 0, random), vec![literal]].concat();
    }
    (rows, run)
}
