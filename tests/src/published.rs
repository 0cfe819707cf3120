//! The DIMACS files of folder dimacs, which others have published, each split over the two stations and the public table in
//! several ways.

use crate::layout;
use crate::model::{self, Row, Standing};
use crate::report::{Group, Test};
use std::fs;
use std::path::Path;

/// A published file: its name, its text, and what dimacs/refused.txt has for it, if anything: the refusal as a station's text, and the one
/// as the public text.
pub struct File {
    pub name: String,
    pub text: Vec<u8>,
    pub refused: Option<[u8; 2]>,
}

/// The files in the order of their names.
pub fn files(folder: &Path) -> std::io::Result<Vec<File>> {
    let refused = fs::read_to_string(folder.join("refused.txt"))?;
    let numbers = |name: &str| {
        let line = refused.lines().find_map(|line| line.strip_prefix(name)?.strip_prefix(' '))?;
        let numbers: Vec<u8> = line.split(' ').filter_map(|number| number.parse().ok()).collect();
        Some(numbers.try_into().expect("two numbers behind each name"))
    };
    let mut files = vec![];
    for entry in fs::read_dir(folder)? {
        let name = entry?.file_name().to_string_lossy().into_owned();
        if name.ends_with(".cnf") {
            files.push(File { text: fs::read(folder.join(&name))?, refused: numbers(&name), name });
        }
    }
    files.sort_by(|a, b| a.name.cmp(&b.name));
    Ok(files)
}

/// The rows of a file as a plain reading of its numbers gives them: remarks and the header are lines of letters.
pub fn numbers(text: &[u8]) -> (usize, Vec<Row>) {
    let text = String::from_utf8_lossy(text);
    let (letters, body): (Vec<&str>, Vec<&str>) = text.lines().partition(|line| line.starts_with(['c', 'p']));
    let header = letters.iter().find(|line| line.starts_with('p')).map_or("", |line| line);
    let n = header.split_whitespace().nth(2).and_then(|n| n.parse().ok()).unwrap_or(0);
    let all: Vec<i64> = body.join(" ").split_whitespace().filter_map(|word| word.parse().ok()).collect();
    let mut rows: Vec<Row> = all.split(|&literal| literal == 0).map(|row| row.to_vec()).collect();
    rows.pop();
    (n, rows)
}

/// Rows laid before the left station, the right one and the public.
pub struct Split {
    pub way: &'static str,
    pub n: usize,
    pub tables: [Vec<Row>; 3],
}

impl Split {
    /// The three tables as texts.
    pub fn texts(&self) -> [Vec<u8>; 3] {
        [0, 1, 2].map(|k| layout::plain(self.n, &self.tables[k]))
    }
}

/// The first half of the rows left, the others right, none public. A single row is on both sides.
pub fn halves(text: &[u8]) -> Split {
    let (n, rows) = numbers(text);
    let (left, right) = if rows.len() == 1 { (&rows[..], &rows[..]) } else { rows.split_at(rows.len() / 2) };
    Split { way: "halves", n, tables: [left.to_vec(), right.to_vec(), vec![]] }
}

/// A third of the rows left, a third right, the others public. One row or two are in each table.
pub fn thirds(text: &[u8]) -> Split {
    let (n, rows) = numbers(text);
    let third = rows.len() / 3;
    let parts = match third {
        0 => [&rows[..], &rows[..], &rows[..]],
        _ => [&rows[..third], &rows[third..2 * third], &rows[2 * third..]],
    };
    Split { way: "thirds", n, tables: parts.map(<[Row]>::to_vec) }
}

/// Ways to lay rows before the stations alone; each side has a row at least.
fn in_two(text: &[u8]) -> Vec<(&'static str, [Vec<Row>; 3])> {
    let (_, rows) = numbers(text);
    let (padding, filled) = (vec![vec![1, -1]], filled(&rows));
    let [left, right, _] = halves(text).tables;
    let mut ways = vec![
        ("all left, padding right", [rows.clone(), padding.clone(), vec![]]),
        ("padding left, all right", [padding, rows.clone(), vec![]]),
        ("all left, its first again right", [rows.clone(), rows[..1].to_vec(), vec![]]),
        ("all on both sides", [rows.clone(), rows.clone(), vec![]]),
        ("last half first, turned round", [turned(&right), turned(&left), vec![]]),
        ("filled up with padding", [filled.clone(), filled, vec![]]),
    ];
    if rows.len() > 1 {
        let end = rows.len() - 1;
        ways.push(("odd left, even right", [every(2, 0, &rows), every(2, 1, &rows), vec![]]));
        ways.push(("all but the last left", [rows[..end].to_vec(), rows[end..].to_vec(), vec![]]));
        ways.push(("the first left", [rows[..1].to_vec(), rows[1..].to_vec(), vec![]]));
    }
    ways
}

/// Ways to lay rows before the stations and the public.
fn in_three(text: &[u8]) -> Vec<(&'static str, [Vec<Row>; 3])> {
    let (_, rows) = numbers(text);
    let (padding, filled) = (vec![vec![1, -1]], filled(&rows));
    let [left, right, _] = halves(text).tables;
    let [first, second, last] = thirds(text).tables;
    let mut ways = vec![
        ("all public, padding left and right", [padding.clone(), padding.clone(), rows.clone()]),
        ("halves, padding public", [left.clone(), right.clone(), padding.clone()]),
        ("half left, half public, padding right", [left.clone(), padding.clone(), right.clone()]),
        ("half right, half public, padding left", [padding.clone(), left, right]),
        ("all left, its first again public", [rows.clone(), padding, rows[..1].to_vec()]),
        ("all in each", [rows.clone(), rows.clone(), rows.clone()]),
        ("last third first, turned round", [turned(&last), turned(&second), turned(&first)]),
        ("each filled up with padding", [filled.clone(), filled.clone(), filled]),
    ];
    if rows.len() > 2 {
        let end = rows.len() - 1;
        ways.push(("every third", [every(3, 0, &rows), every(3, 1, &rows), every(3, 2, &rows)]));
        ways.push(("all but two public", [rows[..1].to_vec(), rows[end..].to_vec(), rows[1..end].to_vec()]));
        ways.push(("the last public", [rows[..1].to_vec(), rows[1..end].to_vec(), rows[end..].to_vec()]));
    }
    ways
}

/// Rows in the opposite order.
fn turned(rows: &[Row]) -> Vec<Row> {
    rows.iter().rev().cloned().collect()
}

/// One row of n, from the row of a number on.
fn every(count: usize, from: usize, rows: &[Row]) -> Vec<Row> {
    rows.iter().skip(from).step_by(count).cloned().collect()
}

/// As many rows as a table may have, those that are missing being padding.
fn filled(rows: &[Row]) -> Vec<Row> {
    [rows, &vec![vec![1, -1]; 128 - rows.len()]].concat()
}

/// Every way to split a file.
fn splits(text: &[u8]) -> Vec<Split> {
    let n = numbers(text).0;
    let ways = in_two(text).into_iter().chain(in_three(text));
    let more = ways.map(|(way, tables)| Split { way, n, tables });
    [halves(text), thirds(text)].into_iter().chain(more).collect()
}

/// A file as it is, in each place and in all, the other tables having padding or nothing.
fn whole(file: &File) -> Vec<Test> {
    let (n, rows) = numbers(&file.text);
    let (padding, none) = (layout::plain(n.max(1), &[vec![1, -1]]), layout::plain(n.max(1), &[]));
    let text = || file.text.clone();
    let test = |what: &str, refused: Option<u8>, texts: [Vec<u8>; 3]| Test {
        expected: refused.map(model::refused),
        made: file.refused.is_none().then(|| (n, rows.clone())),
        ..Test::new(format!("{}, {what}", file.name), texts, b"1000000\n".to_vec())
    };
    let [station, public] = [0, 1].map(|place| file.refused.map(|numbers| numbers[place]));
    vec![
        test("left", station, [text(), padding.clone(), none.clone()]),
        test("right", station, [padding.clone(), text(), none.clone()]),
        test("public", public, [padding.clone(), padding, text()]),
        test("left and right", station, [text(), text(), none]),
        test("in each place", station, [text(), text(), text()]),
    ]
}

/// The tests of one file: as it is, and each split with budgets around its step count.
fn tests(file: &File) -> Vec<Test> {
    let mut tests = whole(file);
    if file.refused.is_some() {
        return tests;
    }
    for split in splits(&file.text) {
        let rows = split.tables.concat();
        let found = model::run(split.n, &rows, 1_000_000);
        assert!(found.standing != Standing::Open, "{} stays open for very long", file.name);
        for budget in [found.steps, found.steps - 1, u64::MAX, found.steps / 2, 0] {
            let name = format!("{}, {}, budget {budget}", file.name, split.way);
            let test = Test::new(name, split.texts(), format!("{budget}\n").into_bytes());
            tests.push(Test { made: Some((split.n, rows.clone())), ..test });
        }
    }
    tests
}

/// The tests of the published files.
pub fn group(files: &[File]) -> Group<'_> {
    Group {
        title: format!("{} public files", files.len()),
        count: files.len(),
        make: Box::new(|number| tests(&files[number])),
    }
}
