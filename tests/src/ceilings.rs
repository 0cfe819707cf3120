//! What makes sources, proofs and docs/DECISIONS.md hard to read, counted: long lines and files, long ways back to a place of the code,
//! words that say nothing, laws without a word, long cells of tables, and blocks of lines that occur in two places. Each number is held to
//! its ceiling in tests/ceilings.txt.

use crate::antt;
use crate::contracts;
use crate::exports::EXPORTS;
use crate::report::Tally;
use crate::source;
use std::collections::{BTreeSet, HashMap};
use std::fs;
use std::path::Path;

const CEILINGS: &str = "tests/ceilings.txt";
const DECISIONS: &str = "docs/DECISIONS.md";

/// Characters of a line of code or of a definition, and of a line of a proof.
const LINE: usize = 140;
const PROOF_LINE: usize = 160;
/// Lines of a file.
const FILE: usize = 400;
/// This many steps back, one after the other, are a way that should have a name.
const STEPS_BACK: usize = 6;
/// Characters of a table's cell.
const CELL: usize = 300;
/// This many lines that occur elsewhere too are a block.
const BLOCK: usize = 8;
/// A line with fewer letters and digits, as a bracket or a short parameter, is no part of a block.
const LETTERS: usize = 8;
/// The places that are shown where there are more than the ceiling says.
const SHOWN_PLACES: usize = 10;

/// A file, by its path from the project's folder on.
struct File {
    path: String,
    text: String,
}

impl File {
    /// The folder within its crate, `src`, `specs` or `proofs`; nothing for a file of no crate.
    fn part(&self) -> &str {
        self.path.strip_prefix("crates/").and_then(|path| path.split('/').nth(1)).unwrap_or("")
    }

    /// Its crate.
    fn home(&self) -> &str {
        self.path.strip_prefix("crates/").and_then(|path| path.split('/').next()).unwrap_or("")
    }
}

/// A place where something is that is counted, how much it counts, and what to say of it; the worst has the greatest size.
struct Place {
    count: usize,
    size: usize,
    path: String,
    line: usize,
    said: String,
}

/// A kind of thing that is counted, and where it is in these files.
struct Kind {
    name: &'static str,
    places: fn(&[File]) -> Vec<Place>,
}

const KINDS: [Kind; 9] = [
    Kind { name: "lines over 140 characters in src", places: |files| long_lines(files, "src", LINE) },
    Kind { name: "lines over 140 characters in specs", places: |files| long_lines(files, "specs", LINE) },
    Kind { name: "lines over 160 characters in proofs", places: |files| long_lines(files, "proofs", PROOF_LINE) },
    Kind { name: "chains of six or more .before in proofs", places: ways_back },
    Kind { name: "files with \"Assumes nothing\"", places: empty_words },
    Kind { name: "cells over 300 characters in docs/DECISIONS.md", places: long_cells },
    Kind { name: "lines in blocks of eight that stood before", places: repeated },
    Kind { name: "laws that another crate uses with no sentence above", places: unexplained },
    Kind { name: "files over 400 lines", places: long_files },
];

/// A place that counts as one.
fn single(file: &File, line: usize, size: usize, said: String) -> Place {
    Place { count: 1, size, path: file.path.clone(), line, said }
}

/// Lines over a number of characters in a folder of every crate.
fn long_lines(files: &[File], part: &str, most: usize) -> Vec<Place> {
    let mut found = vec![];
    for file in files.iter().filter(|file| file.part() == part) {
        let lines = file.text.lines().enumerate().map(|(at, line)| (at + 1, line.chars().count()));
        let long = lines.filter(|(_, size)| *size > most);
        found.extend(long.map(|(line, size)| single(file, line, size, format!("{size} characters"))));
    }
    found
}

/// Chains of `.before` in proofs, each a way back from one place of the code to another. Brackets and line ends between them end no chain.
fn ways_back(files: &[File]) -> Vec<Place> {
    const STEP: &str = ".before";
    let mut found = vec![];
    for file in files.iter().filter(|file| file.part() == "proofs") {
        // where the last step ended, where its chain began and how long it is
        let (mut end, mut start, mut size) = (0, 0, 0);
        let text = &file.text;
        let ends =
            |at: usize| text[at..].chars().next().map_or(true, |sign| sign.is_whitespace() || "().;,{}".contains(sign));
        let steps = text.match_indices(STEP).map(|(at, _)| at).filter(|at| ends(at + STEP.len()));
        for at in steps.chain([text.len()]) {
            let goes_on = at < text.len() && text[end..at].chars().all(|sign| sign.is_whitespace() || sign == ')');
            if size > 0 && goes_on {
                size += 1;
            } else {
                if size >= STEPS_BACK {
                    let line = text[..start].matches('\n').count() + 1;
                    found.push(single(file, line, size, format!("{size} one behind the other")));
                }
                (start, size) = (at, 1);
            }
            end = (at + STEP.len()).min(text.len());
        }
    }
    found
}

/// Files of crates that say that they assume nothing: the gate reads off each check what it assumes.
fn empty_words(files: &[File]) -> Vec<Place> {
    let mut found = vec![];
    for file in files.iter().filter(|file| !file.part().is_empty()) {
        let line = file.text.lines().position(|line| line.to_lowercase().contains("assumes nothing"));
        found.extend(line.map(|at| single(file, at + 1, 1, "says that it assumes nothing".into())));
    }
    found
}

/// Cells of tables over 300 characters in the page of decisions. A `|` after a backslash is one of the cell's own.
fn long_cells(files: &[File]) -> Vec<Place> {
    let mut found = vec![];
    for file in files.iter().filter(|file| file.path == DECISIONS) {
        for (at, line) in file.text.lines().enumerate().filter(|(_, line)| line.trim_start().starts_with('|')) {
            let line = line.replace("\\|", "/");
            let sizes = line.split('|').map(|cell| cell.trim().chars().count());
            let long = sizes.filter(|size| *size > CELL);
            found.extend(long.map(|size| single(file, at + 1, size, format!("a cell of {size} characters"))));
        }
    }
    found
}

/// The laws that files of another crate bring by name and that have no comment above.
fn unexplained(files: &[File]) -> Vec<Place> {
    let mut used = BTreeSet::new();
    for file in files.iter().filter(|file| file.path.ends_with(".antt")) {
        for source::Import { module, name, .. } in source::imports(&file.text) {
            let place =
                source::own_module(&module).and_then(|(owner, path)| Some((owner, path.strip_prefix("proofs.")?)));
            if let Some((owner, within)) = place {
                if owner != file.home() && !name.is_empty() {
                    used.insert((format!("crates/{owner}/proofs/{}.antt", within.replace('.', "/")), name));
                }
            }
        }
    }
    let mut found = vec![];
    // what a function's check makes by itself has no file
    let laws = used.iter().filter_map(|(path, name)| Some((files.iter().find(|file| file.path == *path)?, name)));
    for (file, name) in laws {
        let lines: Vec<&str> = file.text.lines().collect();
        let defines =
            |line: &&str| line.contains("pub ") && antt::definitions(line).iter().any(|law| law.name == *name);
        let at = lines.iter().position(defines);
        if !at.map_or(false, |at| at > 0 && lines[at - 1].trim_start().starts_with("--")) {
            found.push(single(file, at.map_or(0, |at| at + 1), 1, format!("{name} has no sentence above")));
        }
    }
    found
}

/// Files of crates with more lines than a reader finds the way through.
fn long_files(files: &[File]) -> Vec<Place> {
    let sizes = files.iter().filter(|file| !file.part().is_empty()).map(|file| (file, file.text.lines().count()));
    sizes.filter(|(_, size)| *size > FILE).map(|(file, size)| single(file, 1, size, format!("{size} lines"))).collect()
}

/// The lines of a file of a crate that can be part of a block, with their numbers: no comments, no `use`, no line of few letters.
fn telling(file: &File) -> Vec<(usize, &str)> {
    let other = ["--", "//", "use ", "ghost use ", "pub use ", "mod ", "pub mod "];
    let lines = file.text.lines().enumerate().map(|(at, line)| (at + 1, line.trim()));
    let said = lines.filter(|(_, line)| !other.iter().any(|start| line.starts_with(start)));
    let said = said.filter(|(_, line)| !line.contains(": goal.") && !line.ends_with("= search rules"));
    said.filter(|(_, line)| line.chars().filter(|sign| sign.is_alphanumeric()).count() >= LETTERS).collect()
}

/// Lines of crates in blocks of eight or more that were there before, in an earlier file or further up: what could be said once. Indents,
/// comments and lines of few letters make no difference, nor do goals that the prover names and finds by itself: `rt` prints them. Exports
/// state their functions' contracts again, which `exports` compares. The place of a block is that of the lines that are there again.
fn repeated(files: &[File]) -> Vec<Place> {
    let counted = files.iter().filter(|file| !file.part().is_empty() && file.home() != EXPORTS);
    let all: Vec<(&File, Vec<(usize, &str)>)> = counted.map(|file| (file, telling(file))).collect();
    let mut first: HashMap<Vec<&str>, (usize, usize)> = HashMap::new();
    let mut found = vec![];
    for (number, (file, lines)) in all.iter().enumerate() {
        // the block that goes on, by its lines' places, and up to where lines are taken in
        let (mut block, mut taken) = (None::<Place>, 0);
        for (at, window) in lines.windows(BLOCK).enumerate() {
            let (earlier, place) = *first.entry(window.iter().map(|line| line.1).collect()).or_insert((number, at));
            if earlier == number && place + BLOCK > at {
                continue;
            }
            if at > taken {
                found.extend(block.take());
            }
            let (other, line) = (&all[earlier], all[earlier].1[place].0);
            let begun = block.get_or_insert_with(|| {
                taken = at;
                Place { said: format!("{}:{line}", other.0.path), ..single(file, lines[at].0, 0, String::new()) }
            });
            begun.size += at + BLOCK - taken;
            begun.count = begun.size;
            taken = at + BLOCK;
        }
        found.extend(block);
    }
    for place in &mut found {
        place.said = format!("{} lines as from {} on", place.size, place.said);
    }
    found
}

/// The ceilings of a file, by the names of their kinds, and what is wrong with it.
fn ceilings(text: &str) -> (Vec<(&str, usize)>, Vec<String>) {
    let (mut known, mut faults): (Vec<(&str, usize)>, _) = (vec![], vec![]);
    for line in text.lines().filter(|line| !line.is_empty() && !line.starts_with('#')) {
        match line.rsplit_once(": ").map(|(name, number)| (name, number.parse::<usize>())) {
            Some((name, _)) if known.iter().any(|other| other.0 == name) => {
                faults.push(format!("{name:?} stands there twice"))
            }
            Some((name, Ok(number))) if KINDS.iter().any(|kind| kind.name == name) => known.push((name, number)),
            Some((name, Ok(_))) => faults.push(format!("nothing counts {name:?}")),
            _ => faults.push(format!("{line:?} has no number")),
        }
    }
    (known, faults)
}

/// What is wrong with what these files have of each kind, by a file of ceilings; and a line for each kind.
fn judged(files: &[File], text: &str) -> (Vec<String>, Vec<String>) {
    let (known, mut faults) = ceilings(text);
    let mut said = vec![];
    for kind in &KINDS {
        let mut places = (kind.places)(files);
        let count: usize = places.iter().map(|place| place.count).sum();
        let most = known.iter().find(|(name, _)| *name == kind.name).map(|known| known.1);
        said.push(format!("{}: {count}, at most {}", kind.name, most.map_or("?".into(), |most| most.to_string())));
        match most {
            None => faults.push(format!("{:?} has no line", kind.name)),
            Some(most) if count > most => {
                faults.push(format!("{}: {count}, at most {most}", kind.name));
                places.sort_by_key(|place| std::cmp::Reverse(place.size));
                let shown = places.iter().take(SHOWN_PLACES);
                said.extend(shown.map(|place| format!("  {}:{}: {}", place.path, place.line, place.said)));
            }
            Some(_) => (),
        }
    }
    (faults, said)
}

/// Ceilings of nothing at all, but for one kind.
fn none_but(name: &str, most: usize) -> String {
    KINDS.iter().map(|kind| format!("{}: {}\n", kind.name, if kind.name == name { most } else { 0 })).collect()
}

/// Eight lines that a block can have, each with a word of its own.
fn eight(word: &str) -> String {
    (1..=8).map(|number| format!("  let {word}-{number} = something {number}\n")).collect()
}

/// Files, the kind that they have something of, by its place in the list, and how much. The limits are here as numerals, so that none of
/// them can be moved alone.
#[rustfmt::skip]
fn samples() -> Vec<(Vec<(&'static str, String)>, usize, usize)> {
    let (code, other_code, law, other_law) = ("crates/a/src/lib.rt", "crates/b/src/deep/below.rt", "crates/a/proofs/Laws.antt", "crates/b/proofs/f/Answers.antt");
    let long = |size: usize| format!("{}\n", "λ".repeat(size));
    let back = |steps: usize| format!("returns c = c{} .inv\n", " .before".repeat(steps));
    let row = |size: usize| format!("| point | choice |\n|---|---|\n| a | {} |\n", "x".repeat(size));
    let laid_out = format!("-- why\n\n{}", eight("a").replace("  let", "      let"));
    vec![
        (vec![(code, long(140) + &long(140))], 0, 0),
        (vec![(code, long(141) + &long(140) + &long(200)), (other_code, long(141))], 0, 3),
        (vec![("tests/src/main.rs", long(300)), ("docs/PROOFS.md", long(300) + &row(301))], 0, 0),
        (vec![("crates/a/specs/M.antt", long(140))], 1, 0),
        (vec![("crates/a/specs/M.antt", long(141))], 1, 1),
        (vec![(law, long(160))], 2, 0),
        (vec![(law, long(161)), (other_law, long(300))], 2, 2),
        (vec![(law, back(5) + &back(5))], 3, 0),
        (vec![(law, back(6) + &back(14))], 3, 2),
        (vec![(law, format!("f c = g (c{} .x) (c{} .y)\n", " .before".repeat(6), ".before".repeat(7)))], 3, 2),
        (vec![(law, format!("f c = (c{})\n  {} .x\n", " .before".repeat(3), " .before".repeat(3)))], 3, 1),
        (vec![(law, format!("f c = c{}", " .before".repeat(6)))], 3, 1),
        (vec![(law, format!("f c = c{} .before-this\n", " .before".repeat(5)))], 3, 0),
        (vec![(law, format!("f c = g (c{}) (c{})\n", " .before".repeat(3), " .before".repeat(3)))], 3, 0),
        (vec![(law, "-- By induction.\n-- Assumes nothing.\n".into()), (code, "// It assumes nothing.".into())], 4, 2),
        (vec![("docs/GUIDE.md", "It assumes nothing.".into())], 4, 0),
        (vec![(DECISIONS, row(300) + &long(900))], 5, 0),
        (vec![(DECISIONS, row(301) + "\n" + &row(900))], 5, 2),
        (vec![(DECISIONS, format!("| a \\| {} | b |", "x".repeat(297)))], 5, 1),
        (vec![(law, eight("a")), (other_law, eight("b"))], 6, 0),
        (vec![(law, eight("a")), (other_code, eight("b") + &eight("a"))], 6, 8),
        (vec![(law, eight("a")), ("crates/b/specs/M.antt", laid_out)], 6, 8),
        (vec![(law, eight("a")), (other_law, eight("a").replacen("let", "refl\n  let", 3))], 6, 8),
        (vec![(law, eight("a")), (other_law, eight("a").replace("a-5", "b-5"))], 6, 0),
        (vec![(law, eight("a") + &eight("b")), (other_law, eight("a") + &eight("b"))], 6, 16),
        (vec![(law, eight("a") + &eight("b")), (other_law, eight("b") + &eight("c") + &eight("a"))], 6, 16),
        (vec![(law, eight("a") + &eight("a") + &eight("a"))], 6, 16),
        (vec![(law, eight("a")), (other_law, eight("a").replacen("  let", "pub f : goal.f\nf c = search rules\n  let", 3))], 6, 8),
        (vec![(law, "pub f-name : goal.f-name\nf-name c = search rules\n".repeat(30))], 6, 0),
        (vec![(law, "  said the same once\n".repeat(15))], 6, 0),
        (vec![(law, "  said the same once\n".repeat(16))], 6, 8),
        (vec![(law, "use lib.ListN.{length}\n".repeat(30)), (other_code, "    }\n".repeat(30))], 6, 0),
        (vec![("tests/src/a.rs", eight("a")), ("tests/src/b.rs", eight("a"))], 6, 0),
        (vec![(code, eight("a")), ("crates/forkhemit/src/a.rt", eight("a"))], 6, 0),
        (vec![(law, "-- why\npub one : A\none = a\n".into()), (other_law, "use Rattle.a.proofs.Laws.{one}\n".into())], 7, 0),
        (vec![(law, "pub one two : A\n".into()), (other_law, "use Rattle.a.proofs.Laws.{one as first, two}\n".into())], 7, 2),
        (vec![(law, "-- why\n\npub one : A\n".into()), (other_law, "use Rattle.a.proofs.Laws.{one}\n".into())], 7, 1),
        (vec![(law, "pub one : A\n".into()), ("crates/a/specs/M.antt", "use Rattle.a.proofs.Laws.{one}\n".into())], 7, 0),
        (vec![(law, "pub one : A\n".into()), (other_law, "use Rattle.a.proofs.f.Met.{met}\nuse lib.Laws.{one}\n".into())], 7, 0),
        (vec![(law, "-- why\none : A\n".into()), (other_law, "use Rattle.a.proofs.Laws.{one}\n".into())], 7, 1),
        (vec![(law, "\n".repeat(400)), (code, "\n".repeat(400)), ("tests/src/a.rs", "\n".repeat(900))], 8, 0),
        (vec![(law, "\n".repeat(401)), (code, "\n".repeat(900))], 8, 2),
    ]
}

/// Ceilings that are refused where there is nothing to count, with what is wrong with them.
fn refused() -> Vec<(String, String)> {
    let (whole, name) = (none_but("", 0), KINDS[0].name);
    vec![
        (whole.replace(&format!("{name}: 0\n"), ""), format!("{name:?} has no line")),
        (format!("{whole}{name}: 9\n"), format!("{name:?} stands there twice")),
        (format!("{whole}lines of no kind: 3\n"), "nothing counts \"lines of no kind\"".into()),
        (whole.replacen(": 0", ": -1", 1), format!("\"{name}: -1\" has no number; {name:?} has no line")),
        (whole.replacen(": 0", ":", 1), format!("\"{name}:\" has no number; {name:?} has no line")),
    ]
}

/// What is wrong with the check itself: each sample passes with a ceiling of what it has and no other, and fails with one less.
fn samples_missed(tally: &mut Tally) {
    let mut held = |right: bool, what: String| {
        tally.count(right);
        if !right {
            println!("FAILED sample of what is counted: {what}");
        }
    };
    for (number, (files, kind, count)) in samples().into_iter().enumerate() {
        let files: Vec<File> = files.into_iter().map(|(path, text)| File { path: path.into(), text }).collect();
        let name = KINDS[kind].name;
        let faults = judged(&files, &none_but(name, count)).0;
        held(faults.is_empty(), format!("{number}, at most {count}: {faults:?}"));
        if count > 0 {
            let faults = judged(&files, &none_but(name, count - 1)).0;
            let expected = format!("{name}: {count}, at most {}", count - 1);
            held(faults == [expected], format!("{number}, at most {}: {faults:?}", count - 1));
        }
    }
    for (number, (text, expected)) in refused().into_iter().enumerate() {
        let faults = judged(&[], &text).0.join("; ");
        held(faults == expected, format!("ceilings {number}: {faults}"));
    }
}

/// Checks the check on the samples, then counts.
pub fn run(crates: &Path) -> std::io::Result<Tally> {
    let mut tally = Tally::default();
    samples_missed(&mut tally);
    let first = tally.passed + tally.failed;
    let root = crates.join("..");
    let mut files = vec![File { path: DECISIONS.into(), text: fs::read_to_string(root.join(DECISIONS))? }];
    for path in [contracts::files(crates, "rt")?, contracts::files(crates, "antt")?].concat() {
        let within = path.strip_prefix(crates).unwrap_or(&path).to_string_lossy().into_owned();
        files.push(File { path: format!("crates/{within}"), text: fs::read_to_string(&path)? });
    }
    let (faults, said) = judged(&files, &fs::read_to_string(root.join(CEILINGS))?);
    said.iter().for_each(|line| println!("{line}"));
    faults.iter().for_each(|fault| println!("FAILED {CEILINGS}: {fault}"));
    tally.passed += KINDS.len().saturating_sub(faults.len());
    tally.failed += faults.len();
    println!(
        "{} kinds counted in {} files, {first} samples first: {} passed, {} failed",
        KINDS.len(),
        files.len(),
        tally.passed,
        tally.failed
    );
    Ok(tally)
}
