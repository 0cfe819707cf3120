//! Demand 1 is said of every function of include/forkhemit.h: each is named in crates/demand1/specs/Every.antt, and the refusals that its
//! comment ends with are those of its entry there, in the same order.

use crate::report::Tally;
use std::collections::{BTreeMap, BTreeSet};
use std::fs;
use std::path::Path;

/// The functions whose comment says the order of several texts' refusals in words: of these the numbers alone are compared.
const IN_WORDS: [&str; 3] = ["forkhemit_read_tables", "forkhemit_clause", "forkhemit_excerpt"];

/// A function of the header, with the numbers of its comment's last sentence.
struct Declared {
    name: String,
    numbers: Vec<u32>,
}

/// A text without what is in brackets.
fn unbracketed(text: &str) -> String {
    let mut depth = 0;
    let mut kept = String::new();
    for letter in text.chars() {
        match letter {
            '(' => depth += 1,
            ')' => depth -= 1,
            _ if depth == 0 => kept.push(letter),
            _ => {}
        }
    }
    kept
}

/// The numbers of a text, in order; digits within a name are none.
fn numbers(text: &str) -> Vec<u32> {
    let words = text.split(|letter: char| !(letter.is_alphanumeric() || letter == '_'));
    words.filter_map(|word| word.parse().ok()).collect()
}

/// The last sentence of a comment, which lists the refusals or refers to those of another function.
fn last_sentence(comment: &str) -> String {
    let plain = unbracketed(&comment.replace("\n *", " ")).split_whitespace().collect::<Vec<_>>().join(" ");
    plain.trim_end_matches('.').rsplit(". ").next().unwrap_or("").to_string()
}

/// The functions that a header declares.
fn declared(header: &str) -> Vec<Declared> {
    let mut found: Vec<Declared> = vec![];
    for part in header.split("uint8_t forkhemit_").skip(1).zip(header.split("uint8_t forkhemit_")) {
        let (after, before) = part;
        let name = format!("forkhemit_{}", after.split('(').next().unwrap_or(""));
        let comment = before.rsplit("/*").next().unwrap_or("").split("*/").next().unwrap_or("");
        let said = last_sentence(comment);
        let referred = found.iter().find(|other| said.contains(&format!("refusals of {}", other.name)));
        let mut all = referred.map_or(vec![], |other| other.numbers.clone());
        all.extend(numbers(&said));
        found.push(Declared { name, numbers: all });
    }
    found
}

/// The entry of each function, as a text of `Every` names it.
fn named(every: &str) -> BTreeMap<String, String> {
    let fields = every.lines().filter_map(|line| line.trim().strip_prefix("pub "));
    let pairs = fields.filter_map(|field| field.split_once(" : Demand1 "));
    pairs.map(|(name, entry)| (name.to_string(), entry.trim().to_string())).collect()
}

/// The numbers of each entry that some definitions have; one that comes twice in a row counts once.
fn judged(definitions: &str) -> BTreeMap<String, Vec<u32>> {
    let mut found = BTreeMap::new();
    let mut entry = None;
    for line in definitions.lines() {
        if let Some(rest) = line.strip_prefix("abbrev pub ") {
            entry = rest.split_once(" : Entry ").map(|(name, _)| name.to_string());
        }
        if let (Some(name), Some(list)) = (&entry, line.trim().strip_prefix("numbers = ")) {
            let mut list = numbers(list);
            list.dedup();
            found.insert(name.clone(), list);
        }
    }
    found
}

/// What is wrong with a header, beside `Every` and the definitions of its entries: a line each.
fn faults(header: &str, every: &str, definitions: &str) -> Vec<String> {
    let (fields, entries) = (named(every), judged(definitions));
    let fault = |function: &Declared| {
        let name = &function.name;
        let entry = fields.get(name).ok_or(format!("{name} is not in crates/demand1/specs/Every.antt"));
        let list =
            entry.and_then(|entry| entries.get(entry).ok_or(format!("{name}: the entry {entry} has no numbers")));
        let same = |list: &Vec<u32>| {
            let sets = [list, &function.numbers].map(|list| list.iter().collect::<BTreeSet<_>>());
            IN_WORDS.contains(&name.as_str()) && sets[0] == sets[1] || *list == function.numbers
        };
        match list {
            Err(missing) => Some(missing),
            Ok(list) if same(list) => None,
            Ok(list) => Some(format!("{name}: the header says {:?}, demand 1 {list:?}", function.numbers)),
        }
    };
    declared(header).iter().filter_map(fault).collect()
}

/// A header, `Every` and definitions that agree, and others that do not, with the number of faults.
const SAMPLES: [(&str, &str, &str, usize); 4] = [
    (
        "/* a: b. 1, 2 (c. 7). */\nuint8_t forkhemit_a(int n);",
        "  pub forkhemit_a : Demand1 a\n",
        "abbrev pub a : Entry ℕ\n  numbers = 1 ∷ 2 ∷ 2 ∷ [];\n",
        0,
    ),
    (
        "/* a. 1, 2. */\nuint8_t forkhemit_a(int n);",
        "  pub forkhemit_b : Demand1 a\n",
        "abbrev pub a : Entry ℕ\n  numbers = 1 ∷ 2 ∷ [];\n",
        1,
    ),
    (
        "/* a. 1, 2. */\nuint8_t forkhemit_a(int n);",
        "  pub forkhemit_a : Demand1 a\n",
        "abbrev pub a : Entry ℕ\n  numbers = 2 ∷ 1 ∷ [];\n",
        1,
    ),
    (
        "/* a. 1, 2. */\nuint8_t forkhemit_a(int n);",
        "  pub forkhemit_a : Demand1 a\n",
        "abbrev pub a : Entry ℕ\n  numbers = 1 ∷ [];\n",
        1,
    ),
];

/// Reads the samples and then the project's own header.
pub fn run(crates: &Path) -> std::io::Result<Tally> {
    let mut tally = Tally::default();
    for (header, every, definitions, count) in SAMPLES {
        let found = faults(header, every, definitions);
        if found.len() != count {
            println!("FAILED demand 1's sample: {found:?}");
        }
        tally.count(found.len() == count);
    }
    let header = fs::read_to_string(crates.join("../include/forkhemit.h"))?;
    let specs = crates.join("demand1/specs");
    let mut definitions = String::new();
    for file in fs::read_dir(&specs)? {
        definitions.push_str(&fs::read_to_string(file?.path())?);
    }
    let found = faults(&header, &fs::read_to_string(specs.join("Every.antt"))?, &definitions);
    for fault in &found {
        println!("FAILED {fault}");
    }
    let count = declared(&header).len();
    (found.len()..count).for_each(|_| tally.count(true));
    found.iter().for_each(|_| tally.count(false));
    println!(
        "functions of the header in demand 1, {} samples first: {} passed, {} failed",
        SAMPLES.len(),
        tally.passed,
        tally.failed
    );
    Ok(tally)
}
