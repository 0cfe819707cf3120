//! What docs/PROOFS.md names is there: files, must-fail edits, definitions and laws, functions. A name before a
//! file, as in "`sized` (`dimensions/specs/Sizes`)", "(`held`, `solver/proofs/HeldRules`)" or "`pack-read` in `readback/proofs/RoundTrip`", is
//! defined in that file; any other is defined somewhere in the crates. And the page names every name of the kit's that files of definitions
//! bring. Of what must be believed no name is in two crates, and of the code's types none. Which files and types must be believed is found by
//! `believed` and listed by `made`.

use crate::antt;
use crate::contracts;
use crate::made;
use crate::page::{blocks, chain, items, lists, Item};
use crate::report::Tally;
use crate::source;
use std::collections::{BTreeMap, BTreeSet};
use std::fs;
use std::path::Path;

/// Words that the page has in quotes and that name nothing of the project's.
#[rustfmt::skip]
const WORDS: &[&str] = &[
    "rt ci", "make statements", "make docs", "make lib", "c", "requires", "ensures", "cc", "memcpy", "memmove", "memset", "read", "write", "axioms=32", "axioms=5", "logic-built=trusted", "libraries-built=trusted", "statements=trusted", "crates/NAME/src", "crates/NAME/specs",
    "crates/NAME/proofs", "crates/NAME/must-fail", "×", "→", "⊥", "result", ".now", ".old", ".new", ".entry", ".exit", "use", "out",
];

/// What a page names: files by their paths, all else as it is; and the names that come with their file or folder.
#[derive(Default)]
pub struct Named {
    pub items: Vec<String>,
    pub placed: Vec<(String, String)>,
}

/// What can be named: the names that each file defines, by its path in the crates' folder without its ending; all else that has a path.
#[derive(Default)]
pub struct Index {
    pub defined: BTreeMap<String, BTreeSet<String>>,
    paths: BTreeSet<String>,
    /// What a file of definitions defines, fields of records aside.
    meant: BTreeMap<String, BTreeSet<String>>,
    /// What files of definitions bring from the kit, operators without the places of their arguments; and the types of the code that they bring.
    kit: BTreeSet<String>,
    pub types: BTreeSet<String>,
}

impl Index {
    /// Reads all crates, and the folders beside them.
    pub fn new(crates: &Path) -> std::io::Result<Index> {
        let mut index = Index::default();
        let root = crates.join("..");
        for folder in ["crates", "docs", "tests", "examples", "include"] {
            index.add_paths(&root.join(folder), folder)?;
        }
        index.paths.extend(["crates.txt", "README.md", "Makefile"].map(String::from));
        for ending in ["antt", "rt"] {
            for path in contracts::files(crates, ending)? {
                let text = fs::read_to_string(&path)?;
                let within = path.strip_prefix(crates).unwrap_or(&path).with_extension("");
                index.define(&within.to_string_lossy(), ending, &text);
            }
        }
        Ok(index)
    }

    fn add_paths(&mut self, folder: &Path, name: &str) -> std::io::Result<()> {
        self.paths.insert(name.into());
        for entry in fs::read_dir(folder)? {
            let path = entry?.path();
            let name = format!("{name}/{}", path.file_name().unwrap_or_default().to_string_lossy());
            // what is compiled is none of it
            if path.is_dir() && !name.ends_with("/target") {
                self.add_paths(&path, &name)?;
            } else {
                self.paths.insert(name);
            }
        }
        Ok(())
    }

    /// Adds a file's names.
    pub fn define(&mut self, path: &str, ending: &str, text: &str) {
        let names = if ending == "antt" {
            antt::definitions(text).into_iter().map(|definition| definition.name).collect()
        } else {
            source::declared(text).into_iter().collect()
        };
        self.paths.insert(format!("crates/{path}.{ending}"));
        self.defined.insert(path.into(), names);
        if path.contains("/specs/") && !path.ends_with("/Lib") {
            self.believe(path, text);
        }
    }

    /// Adds what a file of definitions asks a reader to believe.
    fn believe(&mut self, path: &str, text: &str) {
        let text = source::uncommented(text);
        let meant = antt::definitions(&text).into_iter().filter(|definition| !definition.field);
        self.meant.insert(path.into(), meant.map(|definition| definition.name).collect());
        for source::Import { module, name, .. } in source::imports(&text) {
            if source::own_module(&module).is_none() {
                self.kit.insert(name.trim_matches('◌').into());
            } else if module.contains(".declared.") && !module.ends_with(".TheVariants") {
                self.types.insert(name);
            }
        }
    }

    /// The files, among those whose path this fits, that define the name; `*` at its end means any end.
    fn defines(&self, name: &str, fits: impl Fn(&str) -> bool) -> bool {
        let is = |defined: &String| match name.strip_suffix('*') {
            Some(start) => defined.starts_with(start),
            None => defined == name,
        };
        self.defined.iter().any(|(path, names)| fits(path) && names.iter().any(is))
    }

    /// Whether there is such a file or folder in a crate, or an edit, or something else in the repository.
    fn is_path(&self, item: &str) -> bool {
        let edit = item.split_once('/').map(|(name, label)| format!("crates/{name}/must-fail/{label}.edit"));
        let ways = ["", ".antt", ".rt", ".edit"].map(|ending| format!("crates/{item}{ending}"));
        let others = [item.to_string(), format!("docs/{item}"), edit.unwrap_or_default()];
        ways.iter().chain(&others).any(|path| self.paths.contains(path))
    }

    /// Whether a name without a path means something: a function, a file, a definition or law, a field after its record or file.
    fn is_name(&self, item: &str) -> bool {
        let anywhere = |_: &str| true;
        let first = item.split(' ').next().unwrap_or("");
        let ends = |path: &str, file: &str| path.ends_with(&format!("/{file}"));
        if let Some((outer, function)) = item.split_once("::") {
            let of_type = |path: &str| self.defined[path].contains(outer);
            return self.defines(function, |path| path.starts_with(&format!("{outer}/src/")) || of_type(path));
        }
        if let Some((outer, law)) = first.split_once('.') {
            return self.defines(law, |path| ends(path, outer) || self.defined[path].contains(outer));
        }
        self.defines(first, anywhere)
            || self.defines(&format!("forkhemit_{first}"), anywhere)
            || self.defined.keys().any(|path| ends(path, item))
            || self.paths.contains(&format!("crates/{item}"))
    }
}

/// Where an item is: its path, or the name itself, and the law after the path of its file.
struct Place {
    path: String,
    law: Option<String>,
    is_path: bool,
    /// Whether it is in the folder that the item before is in.
    listed: bool,
}

impl Place {
    fn of(text: &str, folder: Option<&str>, index: &Index) -> Place {
        let listed = folder.map(|folder| format!("{folder}/{text}")).filter(|path| index.is_path(path));
        let whole = listed.clone().unwrap_or_else(|| text.into());
        let (path, law) = match whole.rsplit_once('.') {
            Some((file, law)) if file.contains('/') && index.is_path(file) => (file.to_string(), Some(law.to_string())),
            _ => (whole, None),
        };
        Place { is_path: path.contains('/') && index.is_path(&path), path, law, listed: listed.is_some() }
    }

    /// Whether the item means something.
    fn is_known(&self, text: &str, index: &Index) -> bool {
        match &self.law {
            Some(law) => index.defines(law, |file| file == self.path),
            None if WORDS.contains(&text) || index.kit.contains(text) => true,
            None if self.path.contains('/') => self.is_path,
            None => index.is_path(text) || index.is_name(text),
        }
    }

    /// The folder that it is, or is in.
    fn folder(&self, index: &Index) -> Option<String> {
        let leaf =
            ["antt", "edit"].iter().any(|ending| index.paths.contains(&format!("crates/{}.{ending}", self.path)));
        let end = if leaf { self.path.rfind('/')? } else { self.path.len() };
        Some(self.path[..end].into())
    }
}

/// What a block names and is not there; all that it names, files by their paths, goes to `named`.
pub fn unknown(block: &str, index: &Index, named: &mut Named) -> Vec<String> {
    let items = items(block);
    let (mut faults, mut folder, mut beside) = (vec![], None::<String>, vec![]);
    for (at, item) in items.iter().enumerate() {
        folder = folder.filter(|_| lists(item.before));
        let place = Place::of(item.text, folder.as_deref(), index);
        if !place.is_known(item.text, index) {
            faults.push(format!("`{}` is nothing that is there", item.text));
        }
        named.items.push(place.path.clone());
        named.placed.extend(place.law.clone().map(|law| (law, place.path.clone())));
        if !place.is_path {
            continue;
        }
        let path = &place.path;
        // names come before their file, or before the first of several
        let inside = item.before == ", " && at > 0 && items[at - 1].before.ends_with('(');
        if !place.listed && (item.before.trim_start().starts_with('(') || item.before.trim() == "in" || inside) {
            beside = chain(&items[..at]);
        }
        let within = |file: &str| file == path || file.starts_with(&format!("{path}/"));
        let (here, elsewhere) = beside.into_iter().partition(|name| index.defines(name, within));
        let here: Vec<&str> = here;
        named.placed.extend(here.into_iter().map(|name| (name.into(), path.clone())));
        beside = elsewhere;
        let more = |next: &Item| lists(next.before) && next.text.starts_with(char::is_uppercase);
        if !items.get(at + 1).map_or(false, more) {
            faults.extend(beside.drain(..).map(|name| format!("`{name}` is not defined in `{path}`")));
        }
        folder = place.folder(index);
    }
    faults
}

/// The files of definitions that a cell names.
pub fn files_of(cell: &str, index: &Index) -> Vec<String> {
    let mut named = Named::default();
    unknown(cell, index, &mut named);
    named.items.into_iter().filter(|path| index.meant.contains_key(path)).collect()
}

/// Names that mean two things: of definitions that must be believed, and of types of the code, those that are in two crates.
fn homonyms(believed: &BTreeSet<&String>, index: &Index) -> Vec<String> {
    let mut homes: BTreeMap<&String, BTreeSet<&str>> = BTreeMap::new();
    let meant = index.meant.iter().filter(|(path, _)| believed.contains(path));
    let code = index.defined.iter().filter(|(path, _)| path.contains("/src/"));
    for (path, names) in meant.chain(code) {
        let crate_name = path.split('/').next().unwrap_or("");
        // of code only the types: functions are called by their crate's name
        let of_code = path.contains("/src/");
        for name in names.iter().filter(|name| !of_code || name.starts_with(char::is_uppercase)) {
            homes.entry(name).or_default().insert(crate_name);
        }
    }
    let twice = homes.into_iter().filter(|(_, crates)| crates.len() > 1);
    twice.map(|(name, crates)| format!("`{name}` means two things, in {crates:?}")).collect()
}

/// All that is wrong with a page, and how many names it has.
fn faults(page: &str, believed: &BTreeSet<&String>, index: &Index) -> (Vec<String>, usize) {
    let mut named = Named::default();
    let mut faults: Vec<String> = blocks(page).iter().flat_map(|block| unknown(block, index, &mut named)).collect();
    let missing = index.kit.iter().filter(|name| !named.items.contains(name));
    faults.extend(missing.map(|name| format!("`{name}` must be believed, and is not named")));
    faults.extend(homonyms(believed, index));
    (faults, named.items.len())
}

/// Two crates and an edit for the samples.
fn small() -> Index {
    let mut index = Index::default();
    index.define("a/specs/Sizes", "antt", "pub sized : ℕ\npub record Two : Type 0 where\n  pub left-one : ℕ\n");
    index.define(
        "a/specs/Sums",
        "antt",
        "-- a sum\nuse Rattle.std.specs.Prelude.{◌+◌, ℕ}\nuse Rattle.b.specs.declared.Box.{Box}\n\npub sum : ℕ\nsum = 1 + 1\n",
    );
    index.define("b/specs/Other", "antt", "pub sum : ℕ\npub record Three : Type 0 where\n  pub left-one : ℕ\n");
    index.define("b/proofs/Laws", "antt", "module _ (n : ℕ) where\n  pub sum-zero : sum 0 ≡ 0\n");
    index.define("b/src/lib", "rt", "pub struct Box { }\nimpl Box { pub fn new() { } }\npub fn forkhemit_open() { }");
    index
        .paths
        .extend(["crates/a/specs", "crates/a/must-fail/wrong.edit", "crates/b", "docs/GUIDE.md"].map(String::from));
    index
}

/// What the sample pages must name.
const BELIEVED: &str = "\n\n`+`, `ℕ`";

/// Pages, each before what they must name, with what is wrong with them.
#[rustfmt::skip]
const SAMPLES: &[(&str, &[&str])] = &[
    ("| `sized`, `Two` (`a/specs/Sizes`) | `a/specs/Sizes`, `Sums`, `a/must-fail/wrong` | (`a/wrong`) | `b`, `GUIDE.md` |", &[]),
    ("`sum-zero` in `b/proofs/Laws`, `sized 32` and\n`sum` (`a/specs/Sizes`, `Sums`), `sum` (`a/specs`)\n\n`Laws.sum-zero`, `Two.left-*`, `b/proofs/Laws.sum-zero`", &[]),
    ("`Box::new`, `b::new`, `forkhemit_open`, `open`, `new`, `Laws`, `rt ci`", &[]),
    ("`a/specs/Size`", &["`a/specs/Size` is nothing that is there"]),
    ("| `a/specs/Sizes`, `Sum` |", &["`Sum` is nothing that is there"]),
    ("| `a/must-fail/right` | `a/right` |", &["`a/must-fail/right` is nothing that is there", "`a/right` is nothing that is there"]),
    ("`a/must-fail/wrong`, `right`", &["`right` is nothing that is there"]),
    ("`size`", &["`size` is nothing that is there"]),
    ("`sized`, `sum` (`a/specs/Sizes`)", &["`sum` is not defined in `a/specs/Sizes`"]),
    ("that (`sum-zero`, `b/proofs/Laws`), and this (`sized`, `b/proofs/Laws`)", &["`sized` is not defined in `b/proofs/Laws`"]),
    ("`sum-zero` in `a/specs/Sizes`", &["`sum-zero` is not defined in `a/specs/Sizes`"]),
    ("`sum-zero` (`a/specs/Sizes`, `Sums`)", &["`sum-zero` is not defined in `a/specs/Sums`"]),
    ("`Laws.sum-one`", &["`Laws.sum-one` is nothing that is there"]),
    ("`b/proofs/Laws.sum-one`", &["`b/proofs/Laws.sum-one` is nothing that is there"]),
    ("`Two.right-*`", &["`Two.right-*` is nothing that is there"]),
    ("`b::old`, `Box::old`, `a::new`", &["`b::old` is nothing that is there", "`Box::old` is nothing that is there", "`a::new` is nothing that is there"]),
];

/// Checks the check on the samples, then the page.
pub fn run(crates: &Path) -> std::io::Result<Tally> {
    let mut tally = Tally::default();
    let index = small();
    let all = ["`+`", "`ℕ`"].map(|name| format!("{name} must be believed, and is not named"));
    let mut samples: Vec<(String, Vec<String>)> = vec![(String::new(), all.to_vec())];
    for (page, expected) in SAMPLES {
        samples.push((format!("{page}{BELIEVED}"), expected.iter().map(|fault| fault.to_string()).collect()));
    }
    for (number, (page, expected)) in samples.iter().enumerate() {
        let found = faults(page, &BTreeSet::new(), &index).0;
        tally.count(found == *expected);
        if found != *expected {
            println!("FAILED sample {number} of names: {found:?}");
        }
    }
    let mut two_types = Index::default();
    two_types.define("a/src/lib", "rt", "pub struct Box { }\npub fn open() { }");
    two_types.define("b/src/deep/below", "rt", "enum Box { }\npub fn open() { }");
    tally.count(homonyms(&BTreeSet::new(), &two_types) == ["`Box` means two things, in {\"a\", \"b\"}"]);
    let two = ["a/specs/Sums", "b/specs/Other"].map(String::from);
    tally.count(homonyms(&two.iter().collect(), &index) == ["`sum` means two things, in {\"a\", \"b\"}"]);
    let page = fs::read_to_string(crates.join("../docs/PROOFS.md"))?;
    let believed = made::believed(crates, &page)?;
    let (faults, named) = faults(&page, &believed.files(), &Index::new(crates)?);
    faults.iter().for_each(|fault| println!("FAILED docs/PROOFS.md: {fault}"));
    tally.passed += usize::from(faults.is_empty());
    tally.failed += faults.len();
    println!(
        "{named} names in docs/PROOFS.md, {} samples first: {} passed, {} failed",
        samples.len() + 2,
        tally.passed,
        tally.failed
    );
    Ok(tally)
}
