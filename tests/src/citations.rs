//! What docs/PROOFS.md says of contracts: the functions of a row of its tables of entries and of enums cite the definitions that the row names,
//! in their `ensures` or by another definition of the row.

use crate::claims::{self, Named};
use crate::page;
use crate::report::Tally;
use crate::source::Function;
use crate::statements::Tree;
use std::collections::BTreeSet;
use std::fs;
use std::path::Path;

/// The heads of the two tables.
const ENTRIES: [&str; 2] = ["entry", "contract's definition"];
const ENUMS: [&str; 2] = ["number; values", "functions whose contracts cite them"];

/// A function, with the file that it is in.
type Placed = (String, Function);

/// The functions that a cell names, those that are joined by `with` together. A name without an outer one has that of the name before it.
fn functions<'a>(cell: &str, tree: &'a Tree) -> Vec<(String, Vec<&'a Placed>)> {
    let (mut found, mut outer): (Vec<(String, Vec<&Placed>)>, _) = (vec![], String::new());
    for item in page::items(cell).iter().filter(|item| !is_by(item) && !item.before.ends_with('(')) {
        let mut name = item.text.to_string();
        if let Some((first, rest)) = item.text.split_once("::") {
            (outer, name) = (format!("{first}::"), rest.into());
        } else if item.text.starts_with("forkhemit_") {
            outer = "forkhemit_".into();
        } else if outer == "forkhemit_" {
            name = format!("{outer}{name}");
        }
        let home = if outer == "forkhemit_" { "" } else { outer.trim_end_matches(':') };
        let named = tree.functions(home, &name);
        match found.last_mut().filter(|_| item.before.trim() == "with") {
            Some((names, functions)) => {
                names.push_str(&format!(" with {name}"));
                functions.extend(named);
            }
            None => found.push((name, named)),
        }
    }
    found
}

/// Whether an item is a definition by which a function cites others.
fn is_by(item: &page::Item) -> bool {
    ["by", "over"].iter().any(|word| item.before.trim_end().ends_with(word))
}

/// The definitions that a text names, files aside.
fn definitions(text: &str, tree: &Tree) -> Vec<String> {
    let mut named = Named::default();
    claims::unknown(text, &tree.index, &mut named);
    let plain = named.items.into_iter().filter(|item| !item.contains('/'));
    plain.map(|item| item.split(' ').next().unwrap_or("").to_string()).collect()
}

/// Those of some definitions that functions cite, directly or by another of them.
fn cited(functions: &[&Placed], names: &[String], tree: &Tree) -> BTreeSet<String> {
    let clauses =
        functions.iter().flat_map(|(path, function)| function.clauses.iter().map(move |clause| (path, clause)));
    let ensures = clauses.filter(|(_, (kind, _))| kind == "ensures");
    let mut texts: Vec<(&str, String)> = ensures.map(|(path, (_, text))| (path.as_str(), text.clone())).collect();
    let mut found = BTreeSet::new();
    while let Some((path, text)) = texts.pop() {
        let mentioned = tree.cites(path, &text);
        for name in names.iter().filter(|name| mentioned.contains(*name)) {
            if found.insert(name.clone()) {
                texts.extend(tree.definitions(name).into_iter().map(|(path, item)| (path, item.meaning())));
            }
        }
    }
    found
}

/// What is wrong with a row of the table of entries: each definition is cited by some function, and each function cites one.
fn entry_faults(cells: &[&str], tree: &Tree) -> Vec<String> {
    let (functions, names) = (functions(cells[1], tree), definitions(cells[2], tree));
    let (mut faults, mut all) = (vec![], BTreeSet::new());
    for (function, found) in &functions {
        let cited = cited(found, &names, tree);
        if cited.is_empty() {
            faults.push(format!("`{function}` cites none of {}", names.join(", ")));
        }
        all.extend(cited);
    }
    let missing = names.iter().filter(|name| !all.contains(*name));
    faults.extend(missing.map(|name| format!("no function of {} cites `{name}`", cells[1])));
    faults
}

/// What is wrong with a row of the table of enums: each function cites a definition of its number, and one of its values where these are apart.
fn enum_faults(cells: &[&str], tree: &Tree) -> Vec<String> {
    let groups: Vec<Vec<String>> = cells[2].split(';').map(|part| definitions(part, tree)).collect();
    let by = page::items(cells[3]).into_iter().filter(is_by).map(|item| item.text.to_string());
    let names: Vec<String> = groups.iter().flatten().cloned().chain(by).collect();
    let mut faults = vec![];
    for (function, found) in functions(cells[3], tree) {
        let cited = cited(&found, &names, tree);
        let missing = groups.iter().filter(|group| !group.is_empty() && !group.iter().any(|name| cited.contains(name)));
        faults.extend(missing.map(|group| format!("`{function}` cites none of {}", group.join(", "))));
    }
    faults
}

/// The rows of both tables, each with what is wrong with it.
fn rows(page: &str, tree: &Tree) -> Vec<(String, Vec<String>)> {
    let mut found = vec![];
    for (head, cells) in page::rows(page) {
        let has = |titles: [&str; 2]| titles.iter().all(|title| head.contains(title));
        if has(ENTRIES) {
            found.push((cells[1].into(), entry_faults(&cells, tree)));
        } else if has(ENUMS) {
            found.push((cells[1].into(), enum_faults(&cells, tree)));
        }
    }
    found
}

/// The samples' files, and rows of tables with what is wrong with them.
#[rustfmt::skip]
const FILES: &[(&str, &str, &str)] = &[
    ("a/specs/Said", "antt", "pub model_of : ℕ → ℕ\nmodel_of r = r\npub model_code : ℕ → ℕ\nmodel_code r = 0\npub model_numbers : ℕ → List ℕ\nmodel_numbers r = r ∷ []\n"),
    ("b/specs/Host", "antt", "use Rattle.a.specs.Said.{model_numbers as numbers}\npub numbers_then : ℕ → List ℕ\nnumbers_then r = numbers r\n"),
    ("a/src/lib", "rt", "ghost use Rattle.a.specs.Said.{model_of, model_code, model_numbers};\npub fn model(x: u8) -> u8\n    ensures { result ≡ model_of x }\n    ensures { model_code result ∷ model_numbers result ≡ x }\n{ x }\npub fn half(x: u8) -> u8\n    ensures { result ≡ model_code x }\n{ x }\npub fn other(x: u8) -> u8\n    ensures { result ≡ x }\n{ x }"),
    ("b/src/lib", "rt", "ghost use Rattle.a.specs.Said as Said;\nghost use Rattle.b.specs.Host.{numbers_then};\npub extern \"C\" fn forkhemit_model(x: u8) -> u8\n    ensures { result ≡ Said.model_code x }\n    ensures { x.new ≡ numbers_then x }\n{ x }\npub extern \"C\" fn forkhemit_half(x: u8) -> u8\n    ensures { result ≡ Said.model_code x }\n{ x }"),
];
#[rustfmt::skip]
const SAMPLES: &[(&str, &str, &[&str])] = &[
    ("`a::model`", "`model_of` (`a/specs/Said`)", &[]),
    ("`a::model`, `half`", "`model_of`, `model_code`", &[]),
    ("`a::model`, `half`", "`model_of`", &["`half` cites none of model_of"]),
    ("`a::half`, `other`", "`model_code`, `model_of`", &["`other` cites none of model_code, model_of", "no function of `a::half`, `other` cites `model_of`"]),
    ("`forkhemit_model`, `half`", "`model_code`, `model_numbers` by `numbers_then`", &[]),
    ("`a::gone`", "`model_of`", &["`gone` cites none of model_of", "no function of `a::gone` cites `model_of`"]),
];
#[rustfmt::skip]
const ENUM_SAMPLES: &[(&str, &str, &[&str])] = &[
    ("`model_code`; `model_numbers`: the model", "`a::model`", &[]),
    ("`model_code`; `model_numbers`", "`a::model`, `half`", &["`half` cites none of model_numbers"]),
    ("`model_code`, or `model_numbers`", "`a::model`, `half`", &[]),
    ("`model_code`; `model_numbers`", "`a::model`, `forkhemit_model`", &["`forkhemit_model` cites none of model_numbers"]),
    ("`model_code`; `model_numbers`", "`a::model`, `forkhemit_model`, by `numbers_then`", &[]),
    ("`model_code`; `model_numbers`", "`forkhemit_half`, by `numbers_then`", &["`forkhemit_half` cites none of model_numbers"]),
    ("`model_of`; `model_code`", "`a::half` with `model`", &[]),
];

/// Checks the check on the samples.
fn run_samples(tally: &mut Tally) {
    let tree = Tree::small(FILES);
    let entries = SAMPLES.iter().map(|(functions, names, said)| (entry_faults(&["", functions, names], &tree), said));
    let enums =
        ENUM_SAMPLES.iter().map(|(names, functions, said)| (enum_faults(&["", "", names, functions], &tree), said));
    for (number, (found, said)) in entries.chain(enums).enumerate() {
        tally.count(found == **said);
        if found != **said {
            println!("FAILED sample {number} of citations: {found:?}");
        }
    }
}

/// Checks the check on the samples, then each row of the page.
pub fn run(crates: &Path) -> std::io::Result<Tally> {
    let mut tally = Tally::default();
    run_samples(&mut tally);
    let page = fs::read_to_string(crates.join("../docs/PROOFS.md"))?;
    for (row, faults) in rows(&page, &Tree::new(crates)?) {
        tally.count(faults.is_empty());
        faults.iter().for_each(|fault| println!("FAILED docs/PROOFS.md: {row}: {fault}"));
    }
    let (samples, passed, failed) = (SAMPLES.len() + ENUM_SAMPLES.len(), tally.passed, tally.failed);
    println!("rows of functions that cite definitions, {samples} samples first: {passed} passed, {failed} failed");
    Ok(tally)
}
