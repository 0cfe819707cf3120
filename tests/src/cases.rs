//! Cases with the whole output written by hand from documents 01 and 02, and the ways in which a file or standard input can
//! reach the program.

use crate::process::{Input, Source, NAMES};
use crate::published;
use crate::report::{Group, Test};
use std::fs;
use std::path::Path;

/// A file as a case's folder has it: a text, a folder, or nothing.
fn source(path: &Path) -> std::io::Result<Source> {
    if path.is_dir() {
        return Ok(Source::Directory);
    }
    if !path.exists() {
        return Ok(Source::Missing);
    }
    fs::read(path).map(Source::Text)
}

/// The test that a folder holds: the three files, and files of these names with standard input and the whole output. Where the answer is no
/// refusal, it is held to another solver too.
fn written(case: &Path, input: &str, output: &str) -> std::io::Result<Test> {
    let [left, right, public] = NAMES.map(|name| source(&case.join(name)));
    let files = [left?, right?, public?];
    let expected = fs::read_to_string(case.join(output))?;
    let tables = files.iter().map(|file| published::numbers(file.text().unwrap_or_default()));
    let made = tables.fold((0, vec![]), |(_, rows), (n, more)| (n, [rows, more].concat()));
    Ok(Test {
        name: format!("case {}", case.file_name().unwrap_or_default().to_string_lossy()),
        files,
        input: fs::read(case.join(input))?,
        made: (!expected.starts_with("c refused")).then_some(made),
        expected: Some(expected),
        way: Input::File,
    })
}

const ANSWER: &str = "c steps 3\ns SATISFIABLE\nv -1 2 0\n";
const UNREADABLE: &str = "c refused 5\ns UNKNOWN\n";
const NO_LINE: &str = "c refused 8\ns UNKNOWN\n";

/// The example of document 01, one of its rows public.
fn example() -> [Vec<u8>; 3] {
    [&b"p cnf 2 1\n1 2 0\n"[..], b"p cnf 2 1\n1 -1 0\n", b"p cnf 2 1\n-1 0\n"].map(<[u8]>::to_vec)
}

/// The same, longer than the program's small buffers by a remark.
fn long() -> [Vec<u8>; 3] {
    example().map(|text| [b"c ", &b"x".repeat(5_000)[..], b"\n", &text].concat())
}

/// A test of these files with the budget 9.
fn test(name: &str, files: [Source; 3], expected: &str) -> Test {
    Test { files, expected: Some(expected.into()), ..Test::new(name.into(), example(), b"9\n".to_vec()) }
}

/// The test with another standard input.
fn with_input(way: Input, input: &[u8], test: Test) -> Test {
    Test { way, input: input.to_vec(), ..test }
}

/// The example with all of its files and its line brought in other ways.
fn all_brought() -> Vec<Test> {
    let whole = || example().map(Source::Text);
    let slow = |texts: [Vec<u8>; 3], place: usize| {
        let mut files = whole();
        files[place] = Source::Slow(texts[place].clone());
        files
    };
    let held = test("standard input that stays open", whole(), ANSWER);
    let late = test("a budget line in two parts", whole(), ANSWER);
    let mut tests = vec![
        with_input(Input::Held, b"9\n", held),
        with_input(Input::Held, b"00000000000000000009\nand more\n", late),
        with_input(Input::Closed, b"", test("no standard input", whole(), NO_LINE)),
        with_input(Input::Closed, b"", test("no standard input, long files", long().map(Source::Text), NO_LINE)),
        test("named pipes", example().map(Source::Piped), ANSWER),
        test("named pipes, long texts", long().map(Source::Piped), ANSWER),
        test("texts and answer a byte at a time", example().map(Source::Slow), ANSWER),
        test("long texts a byte at a time", long().map(Source::Slow), ANSWER),
    ];
    for (place, name) in NAMES.iter().enumerate() {
        tests.push(test(&format!("long {name}, the others short"), slow(long(), place), ANSWER));
    }
    tests
}

/// The example with one of its files not to be had, in every way and with every standard input.
fn one_unreadable(place: usize) -> Vec<Test> {
    let name = NAMES[place];
    let overlong = || b" ".repeat(200_000);
    let but = |texts: fn(Vec<u8>) -> Source, source: Source| {
        let mut files = example().map(texts);
        files[place] = source;
        files
    };
    let one = |what: &str, source: Source| test(&format!("{name} {what}"), but(Source::Text, source), UNREADABLE);
    let [text, long] = [example(), long()].map(|texts| texts[place].clone());
    let mut tests = vec![
        one("that breaks off", Source::Breaking(text)),
        one("that is long and breaks off", Source::Breaking(long.clone())),
        one("with a hole in a remark", Source::Faltering(long)),
        one("locked", Source::Locked),
        one("that cannot be read", Source::Failing),
        test(&format!("named pipes, overlong {name}"), but(Source::Piped, Source::Piped(overlong())), UNREADABLE),
    ];
    for (input, way) in [("silent", Input::Held), ("no", Input::Closed)] {
        for (what, source) in [
            ("missing", Source::Missing),
            ("a folder", Source::Directory),
            ("that cannot be read", Source::Failing),
            ("overlong", Source::Text(overlong())),
        ] {
            tests.push(with_input(way, b"", one(&format!("{what}, {input} standard input"), source)));
        }
    }
    tests
}

/// The example of document 01, its files and line brought in other ways, or not to be had.
fn brought() -> Vec<Test> {
    all_brought().into_iter().chain((0..NAMES.len()).flat_map(one_unreadable)).collect()
}

/// The cases of folder cases, the examples of the repository, and the example of document 01 brought in other ways; those alone
/// whose files `fit`.
pub fn group(own: &Path, fit: impl Fn(&Source) -> bool) -> std::io::Result<Group<'static>> {
    let mut tests = brought();
    for (folder, input, output) in [("cases", "stdin", "expected"), ("../examples", "budget", "answer")] {
        for case in fs::read_dir(own.join(folder))? {
            let case = case?.path();
            if case.join(output).exists() {
                tests.push(written(&case, input, output)?);
            }
        }
    }
    tests.retain(|test| test.files.iter().all(&fit));
    tests.sort_by(|a, b| a.name.cmp(&b.name));
    let title = format!("{} cases with written answers", tests.len());
    Ok(Group { title, count: tests.len(), make: Box::new(move |number| vec![tests[number].clone()]) })
}
