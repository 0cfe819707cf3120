//! Proofs from other solvers as document 02 describes them: a DRAT text against rows. Literals stay numbers, and rows are taken away from
//! the list that they are in.

use crate::model::{self, Row, TEXT_LIMIT};
use crate::random::Random;
use std::io::Write;
use std::process::{Command, Stdio};

/// How many additions a text may have.
pub const ADDITIONS: usize = 256;

/// A line of a text: a clause added, or one deleted.
#[derive(Clone, Debug, PartialEq)]
pub enum Line {
    Added(Row),
    Deleted(Row),
}

/// A clause's literals in order, each once.
fn clause(mut literals: Row) -> Row {
    literals.sort_unstable();
    literals.dedup();
    literals
}

/// What a line says, nothing being `Some(None)`; None where it is malformed.
fn line(bytes: &[u8], n: usize) -> Option<Option<Line>> {
    let bytes = bytes.strip_suffix(b"\r").unwrap_or(bytes);
    let start = bytes.iter().position(|&b| b != b' ' && b != b'\t').unwrap_or(bytes.len());
    let (deleted, rest) = match bytes[start..].strip_prefix(b"d ") {
        Some(rest) => (true, rest),
        None => (false, &bytes[start..]),
    };
    let words: Vec<&[u8]> = rest.split(|&b| b == b' ' || b == b'\t').filter(|word| !word.is_empty()).collect();
    let (last, literals) = match words.split_last() {
        Some(words) => words,
        None => return (!deleted).then_some(None),
    };
    let literals = literals.iter().map(|word| model::number(word)).collect::<Option<Row>>()?;
    let within = literals.iter().all(|&literal| literal != 0 && literal.unsigned_abs() <= n as u64);
    if *last != b"0" || !within {
        return None;
    }
    let clause = clause(literals);
    Some(Some(if deleted { Line::Deleted(clause) } else { Line::Added(clause) }))
}

/// The lines of a text, or 18.
pub fn read(text: &[u8], n: usize) -> Result<Vec<Line>, u8> {
    if text.len() > TEXT_LIMIT {
        return Err(18);
    }
    let lines = text.split(|&b| b == b'\n').map(|bytes| line(bytes, n)).collect::<Option<Vec<_>>>().ok_or(18)?;
    let lines: Vec<Line> = lines.into_iter().flatten().collect();
    if lines.iter().filter(|line| matches!(line, Line::Added(_))).count() > ADDITIONS {
        return Err(18);
    }
    Ok(lines)
}

/// Whether a clause follows from rows: with its negation assumed, forced literals lead to a row that has no literal left. One literal is
/// taken at a time, that of the last row which forces one.
pub fn follows(rows: &[Row], clause: &Row) -> bool {
    if model::padding(clause) {
        return true;
    }
    let mut held: Row = clause.iter().map(|literal| -literal).collect();
    loop {
        let left = |row: &Row| {
            let open: Row = row.iter().copied().filter(|literal| !held.contains(&-literal)).collect();
            (!model::padding(row) && !open.iter().any(|literal| held.contains(literal))).then_some(open)
        };
        let open: Vec<Row> = rows.iter().filter_map(left).collect();
        if open.iter().any(Vec::is_empty) {
            return true;
        }
        match open.iter().rev().find(|row| row.len() == 1) {
            Some(row) => held.push(row[0]),
            None => return false,
        }
    }
}

/// What a text comes to against rows: 18, 19, 20, or accepted.
pub fn check(n: usize, rows: &[Row], text: &[u8]) -> Result<(), u8> {
    let mut rows: Vec<Row> = rows.iter().cloned().map(clause).collect();
    for line in read(text, n)? {
        match line {
            Line::Added(clause) if !follows(&rows, &clause) => return Err(19),
            Line::Added(clause) if clause.is_empty() => return Ok(()),
            Line::Added(clause) => rows.push(clause),
            Line::Deleted(clause) => {
                if let Some(place) = rows.iter().position(|row| *row == clause) {
                    rows.remove(place);
                }
            }
        }
    }
    Err(20)
}

// ---- Texts

/// A line as text, without its LF.
pub fn spelled(line: &Line) -> String {
    let (sign, clause) = match line {
        Line::Added(clause) => ("", clause),
        Line::Deleted(clause) => ("d ", clause),
    };
    let literals: String = clause.iter().map(|literal| format!("{literal} ")).collect();
    format!("{sign}{literals}0")
}

/// A text of these lines.
pub fn text(lines: &[Line]) -> Vec<u8> {
    lines.iter().map(|line| spelled(line) + "\n").collect::<String>().into_bytes()
}

/// A proof by cases, variable by variable, each case closed where its clause follows: right for tables that are unsatisfiable, and else
/// with a last case that does not follow. No more than a given number of lines.
pub fn by_cases(n: usize, rows: &[Row], most: usize) -> Vec<Line> {
    fn close(n: usize, path: &mut Row, rows: &mut Vec<Row>, lines: &mut Vec<Line>, most: usize) {
        if lines.len() >= most {
            return;
        }
        let clause: Row = clause(path.iter().map(|literal| -literal).collect());
        if path.len() < n && !follows(rows, &clause) {
            let next = path.len() as i64 + 1;
            for literal in [next, -next] {
                path.push(literal);
                close(n, path, rows, lines, most);
                path.pop();
            }
        }
        rows.push(clause.clone());
        lines.push(Line::Added(clause));
    }
    let (mut lines, mut rows) = (vec![], rows.to_vec());
    close(n, &mut vec![], &mut rows, &mut lines, most);
    lines
}

/// The text with other blanks, CRs and empty lines where they may be.
pub fn spaced(text: &[u8], random: &mut Random) -> Vec<u8> {
    let mut all = vec![];
    let blanks = |least: usize, random: &mut Random| -> Vec<u8> {
        let count = if random.once_in(3) { random.between(least, 3) } else { least };
        (0..count).map(|_| *random.pick(b" \t")).collect()
    };
    for line in text.split_inclusive(|&b| b == b'\n') {
        if random.once_in(8) {
            all.extend(random.pick(&[&b"\n"[..], b" \n", b"\t\r\n", b"\r\n"]).iter());
        }
        all.extend(blanks(0, random));
        let line = line.strip_suffix(b"\n").unwrap_or(line);
        let (sign, rest) = match line.strip_prefix(b"d ") {
            Some(rest) => (&b"d "[..], rest),
            None => (&b""[..], line),
        };
        all.extend(sign);
        all.extend(if sign.is_empty() { vec![] } else { blanks(0, random) });
        for (k, word) in rest.split(|&b| b == b' ').enumerate() {
            all.extend(if k > 0 { blanks(1, random) } else { vec![] });
            all.extend(word);
        }
        all.extend(blanks(0, random));
        all.extend(*random.pick(&[&b"\n"[..], b"\n", b"\r\n"]));
    }
    if random.once_in(4) {
        all.pop();
    }
    all
}

/// A text that one thing has happened to: a literal is another one or has the other sign, a line is lost, doubled, exchanged with another,
/// deleted for added or added for deleted, a clause is lengthened or cut; a byte is lost, or a CR, a tab, a blank, a letter or a digit put in.
pub fn damaged(text: &[u8], n: usize, random: &mut Random) -> (&'static str, Vec<u8>) {
    let mut lines: Vec<String> = String::from_utf8_lossy(text).lines().map(String::from).collect();
    if lines.is_empty() {
        return ("a line put in", b"0\n".to_vec());
    }
    let (at, other, kind) = (random.below(lines.len()), random.below(lines.len()), random.below(14));
    let literal = random.between(1, n) as i64 * if random.once_in(2) { 1 } else { -1 };
    let words: Vec<String> = lines[at].split(' ').map(String::from).collect();
    let place = random.below(words.len());
    let with = |word: String| [&words[..place], &[word], &words[place + 1..]].concat().join(" ");
    let what = match kind {
        0 => {
            lines[at] = with(literal.to_string());
            "a literal changed"
        }
        1 => {
            lines[at] = with(words[place].strip_prefix('-').map_or(format!("-{}", words[place]), String::from));
            "a sign turned"
        }
        2 => {
            lines.remove(at);
            "a line lost"
        }
        3 => {
            lines.insert(other, lines[at].clone());
            "a line doubled"
        }
        4 => {
            lines.swap(at, other);
            "two lines exchanged"
        }
        5 => {
            lines[at] = lines[at].strip_prefix("d ").map_or(format!("d {}", lines[at]), String::from);
            "added for deleted"
        }
        6 => {
            lines.insert(other, format!("d {}", lines[at].trim_start_matches("d ")));
            lines.insert(other, format!("d {}", lines[at].trim_start_matches("d ")));
            "a deletion doubled"
        }
        7 => {
            lines[at] = words[..place].iter().chain(&words[place + 1..]).cloned().collect::<Vec<_>>().join(" ");
            "a word lost"
        }
        8 => {
            lines[at] = with(format!("{literal} {}", words[place]));
            "a literal put in"
        }
        9 => {
            lines.truncate(at);
            "an end lost"
        }
        _ => return strike(text, random),
    };
    (what, lines.into_iter().map(|line| line + "\n").collect::<String>().into_bytes())
}

/// The text with a byte lost, changed or put in.
fn strike(text: &[u8], random: &mut Random) -> (&'static str, Vec<u8>) {
    let mut text = text.to_vec();
    let at = random.below(text.len());
    let odd = *random.pick(b"\r\t \n-+0123456789dc\0\x0b\xff");
    match random.below(3) {
        0 => drop(text.remove(at)),
        1 => text[at] = odd,
        _ => text.insert(at, odd),
    }
    ("a byte lost, changed or put in", text)
}

/// Cadical's proof that a DIMACS text is unsatisfiable, with these options; None where it is satisfiable.
pub fn cadical(options: &[&str], text: &[u8]) -> Result<Option<Vec<u8>>, String> {
    let fault = |error: std::io::Error| format!("cadical: {error}");
    let mut command = Command::new("cadical");
    command.args(["-q", "--no-binary"]).args(options).args(["-", "/dev/stderr"]);
    let piped = command.stdin(Stdio::piped()).stdout(Stdio::piped()).stderr(Stdio::piped());
    let mut child = piped.spawn().map_err(fault)?;
    child.stdin.take().expect("standard input is a pipe").write_all(text).map_err(fault)?;
    let ended = child.wait_with_output().map_err(fault)?;
    match ended.status.code() {
        Some(10) => Ok(None),
        Some(20) => Ok(Some(ended.stderr)),
        _ => Err(format!("cadical gave no verdict: {}", String::from_utf8_lossy(&ended.stderr))),
    }
}
