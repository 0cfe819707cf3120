//! Who can force the roster, as document 02 has it, in plain Rust and for the tests only: how a QDIMACS text is read, and the game by trying
//! every value and, for few variables, every plan. And games with their texts, drawn at random.

use crate::model::{blank, headed, line, number, rows, separator, Row, STATION};
use crate::random::Random;
use crate::{layout, tables};

/// The most variables of a game.
pub const MOST: i64 = 12;

/// A turn: which variable is fixed, and whether the universal side fixes it.
#[derive(Clone, Copy, Debug, PartialEq)]
pub struct Turn {
    pub variable: i64,
    pub universal: bool,
}

/// Rows, and a turn for each variable, in the order in which they are fixed.
#[derive(Clone, Debug, PartialEq)]
pub struct Game {
    pub rows: Vec<Row>,
    pub turns: Vec<Turn>,
}

// ---- Texts

/// The numbers of a line that begins with a letter: the letter by itself, numbers and a last 0, set off by spaces and tabs; these and CRs
/// may follow.
fn listed(line: &[u8]) -> Option<Vec<i64>> {
    let end = line.iter().rposition(|&b| !blank(b) && b != b'\r')? + 1;
    let mut parts = line[..end].split(|&b| blank(b)).filter(|part| !part.is_empty());
    if parts.next()?.len() != 1 {
        return None;
    }
    let numbers: Vec<i64> = parts.map(number).collect::<Option<_>>()?;
    match numbers.split_last() {
        Some((0, variables)) if !variables.is_empty() && !variables.contains(&0) => Some(variables.to_vec()),
        _ => None,
    }
}

/// The turns of the lines before the clauses, and what follows them, or None where a line is malformed.
fn prefix(body: &[u8]) -> Option<(Vec<Turn>, &[u8])> {
    let (mut turns, mut rest) = (vec![], body);
    while !rest.is_empty() {
        let (first, behind) = line(rest);
        if let Some(letter @ (b'a' | b'e')) = first.first() {
            turns.extend(listed(first)?.into_iter().map(|variable| Turn { variable, universal: *letter == b'a' }));
        } else if !first.iter().all(|&b| separator(b)) {
            break;
        }
        rest = behind;
    }
    Some((turns, rest))
}

/// All turns: variables on no line come first, by number, and are the existential side's.
pub fn turns(n: i64, listed: &[Turn]) -> Vec<Turn> {
    let unlisted = (1..=n).filter(|&v| listed.iter().all(|turn| turn.variable != v));
    unlisted.map(|variable| Turn { variable, universal: false }).chain(listed.iter().copied()).collect()
}

/// The game of a text, or the number of the refusal.
pub fn read(text: &[u8]) -> Result<Game, u8> {
    let (n, m, body) = headed(text, STATION)?;
    if n > MOST {
        return Err(21);
    }
    let (listed, clauses) = prefix(&body).ok_or(5)?;
    let rows = rows(clauses, n, m).ok_or(5)?;
    let outside = listed.iter().any(|turn| !(1..=n).contains(&turn.variable));
    let twice = (1..listed.len()).any(|k| listed[..k].iter().any(|turn| turn.variable == listed[k].variable));
    if outside || twice {
        return Err(22);
    }
    Ok(Game { rows, turns: turns(n, &listed) })
}

// ---- The game

/// Whether all rows are true under values of the variables, the first one's first.
fn workable(rows: &[Row], values: &[bool]) -> bool {
    rows.iter().all(|row| row.iter().any(|literal| values[literal.unsigned_abs() as usize - 1] == (*literal > 0)))
}

/// Whether all rows are true at the end, for every way in which the variables can be fixed: the first turn's true before its false, and
/// so on.
fn ends(game: &Game) -> Vec<bool> {
    let n = game.turns.len();
    let mut values = vec![false; n];
    let end = |play: usize| {
        for (k, turn) in game.turns.iter().enumerate() {
            values[turn.variable as usize - 1] = play >> (n - 1 - k) & 1 == 0;
        }
        workable(&game.rows, &values)
    };
    (0..1 << n).map(end).collect()
}

/// Whether the existential side reaches its aim over these turns: of the two ends of each last turn its owner takes the better, then of
/// those of the turn before.
fn best(ends: &[bool], turns: &[Turn]) -> bool {
    let mut ends = ends.to_vec();
    for turn in turns.iter().rev() {
        let better = |pair: &[bool]| if turn.universal { pair[0] && pair[1] } else { pair[0] || pair[1] };
        ends = ends.chunks(2).map(better).collect();
    }
    ends[0]
}

/// The winner (1 existential, 2 universal), and where it moves first the first variable and a value with which it still wins, true if both
/// serve; else 0 and 0.
fn numbers(universal_wins: bool, first: Turn, true_serves: bool) -> [u64; 3] {
    let side = 1 + u64::from(universal_wins);
    match universal_wins == first.universal {
        true => [side, first.variable as u64, u64::from(true_serves)],
        false => [side, 0, 0],
    }
}

/// The answer, all values tried.
pub fn answer(game: &Game) -> [u64; 3] {
    let (ends, (first, later)) = (ends(game), game.turns.split_first().expect("there is a variable"));
    let (after_true, after_false) = ends.split_at(ends.len() / 2);
    let [yes, no] = [after_true, after_false].map(|ends| best(ends, later));
    let reached = if first.universal { yes && no } else { yes || no };
    numbers(!reached, *first, yes != first.universal)
}

// ---- Plans

/// Every part of a set of bits.
fn parts(set: u32) -> impl Iterator<Item = u32> {
    (0..=set).filter(move |part| part & !set == 0)
}

/// How a game ends that both sides play by their plans: a bit for each turn and all values fixed before it. Bit 1 is the first turn's;
/// after bit k come bit 2k for false and bit 2k + 1 for true.
fn played(game: &Game, plans: u32) -> bool {
    let (mut values, mut at) = (vec![false; game.turns.len()], 1);
    for turn in &game.turns {
        let value = plans >> at & 1 == 1;
        values[turn.variable as usize - 1] = value;
        at = 2 * at + usize::from(value);
    }
    workable(&game.rows, &values)
}

/// The answer, all plans tried: a side can force its aim if one of its plans reaches it against every plan of the other. At most 4 variables.
/// None where not exactly one side can.
pub fn by_plans(game: &Game) -> Option<[u64; 3]> {
    let mut plans = [0u32; 2];
    for (k, turn) in game.turns.iter().enumerate() {
        plans[usize::from(turn.universal)] |= (1 << (2 << k)) - (1 << (1 << k));
    }
    let forces = |universal: bool, firsts: u32| {
        let [own, other] = [universal, !universal].map(|side| plans[usize::from(side)]);
        let reached = |plan: u32| parts(other).all(|against| played(game, plan | against) != universal);
        parts(own).any(|plan| plan & firsts == firsts && reached(plan))
    };
    let wins = [false, true].map(|side| forces(side, 0));
    let first = game.turns[0];
    (wins[0] != wins[1]).then(|| numbers(wins[1], first, forces(wins[1], 2)))
}

// ---- Games and their texts

/// Every prefix over n variables: some of them in some order, each with either letter.
pub fn prefixes(n: i64) -> Vec<Vec<Turn>> {
    let (mut all, mut at) = (vec![vec![]], 0);
    while at < all.len() {
        for variable in 1..=n {
            let before: Vec<Turn> = all[at].clone();
            if before.iter().all(|turn| turn.variable != variable) {
                all.extend([false, true].map(|universal| [&before[..], &[Turn { variable, universal }]].concat()));
            }
        }
        at += 1;
    }
    all
}

/// The lines of a prefix: neighbours of one letter are on one line, or each by itself.
fn lines(listed: &[Turn], together: bool) -> Vec<(u8, Vec<i64>)> {
    let mut lines: Vec<(u8, Vec<i64>)> = vec![];
    for turn in listed {
        let letter = if turn.universal { b'a' } else { b'e' };
        match lines.last_mut() {
            Some((last, variables)) if together && *last == letter => variables.push(turn.variable),
            _ => lines.push((letter, vec![turn.variable])),
        }
    }
    lines
}

/// Puts lines between header and clauses.
fn behind_header(text: &[u8], lines: &[u8]) -> Vec<u8> {
    let mut end = 0;
    for line in text.split_inclusive(|&b| b == b'\n') {
        end += line.len();
        if line[0] != b'c' {
            break;
        }
    }
    [&text[..end], lines, &text[end..]].concat()
}

/// A text with single spaces and a line a clause.
pub fn plain(n: i64, rows: &[Row], listed: &[Turn], together: bool) -> Vec<u8> {
    let mut text = String::new();
    for (letter, variables) in lines(listed, together) {
        let variables: String = variables.iter().map(|variable| format!("{variable} ")).collect();
        text.push_str(&format!("{} {variables}0\n", char::from(letter)));
    }
    behind_header(&layout::plain(n as usize, rows), text.as_bytes())
}

/// The same in any of the layouts that document 02 allows.
pub fn spaced(n: i64, rows: &[Row], listed: &[Turn], random: &mut Random) -> Vec<u8> {
    let mut text = vec![];
    let some = |bytes: &[u8], least: usize, random: &mut Random| -> Vec<u8> {
        let count = if random.once_in(3) { random.between(least, least + 3) } else { least };
        (0..count).map(|_| *random.pick(bytes)).collect()
    };
    for (letter, variables) in lines(listed, random.once_in(2)) {
        if random.once_in(4) {
            text.extend(some(b" \t\r\n", 0, random));
            text.push(b'\n');
        }
        text.push(letter);
        for number in variables.iter().chain(&[0]) {
            text.extend(some(b" \t", 1, random));
            text.extend(number.to_string().bytes());
        }
        text.extend(some(b" \t\r", 0, random));
        text.push(b'\n');
    }
    let all = behind_header(&layout::spaced(n as usize, rows, random), &text);
    if random.once_in(2) {
        return all;
    }
    layout::remarked(&all, random)
}

/// m rows over n variables, and some of the variables on lines in some order: all of them, some or none; each side has as many or few.
pub fn drawn(n: i64, m: usize, random: &mut Random) -> (Vec<Row>, Vec<Turn>) {
    let widest = random.between(1, n.min(6) as usize);
    let least = random.between(1, widest).max(random.between(1, widest));
    let mut rows = vec![];
    for _ in 0..m {
        let width = random.between(least, widest);
        let mut row = tables::strict(n as usize, width, random);
        if random.once_in(16) {
            row.push(-row[0]);
        }
        rows.push(row);
    }
    let few = if random.once_in(2) { 0 } else { random.between(0, n as usize) };
    let odds = random.between(1, 4);
    let mut variables: Vec<i64> = (1..=n).collect();
    let mut listed = vec![];
    while variables.len() > few {
        let variable = variables.remove(random.below(variables.len()));
        listed.push(Turn { variable, universal: random.once_in(odds) });
    }
    (rows, listed)
}
