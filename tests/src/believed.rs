//! What must be believed: the definitions that entries' contracts and theorems' statements come to, by the names that these mention. And of
//! every other file of definitions, which exported functions come to it.

use crate::exports::EXPORTS;
use crate::source::{self, Function};
use crate::statements::Tree;
use std::collections::{BTreeMap, BTreeSet};

/// The programs' functions; those that hosts call are known by their name's beginning.
const PROGRAMS: [(&str, &str); 5] = [
    ("reply", "reply"),
    ("whole_reply", "reply_whole"),
    ("listing", "list"),
    ("input", "read_line"),
    ("input", "fill"),
];

/// A text in a file, and a name in a file.
type Within = (String, String);

/// What is known of the definitions.
#[derive(Default)]
pub struct Believed {
    /// What must be believed, by file and name; and the types of the code that it is over, by crate.
    pub items: BTreeSet<Within>,
    pub types: BTreeSet<Within>,
    /// Of all other files the exported functions that come to them, by crate.
    pub cited_by: BTreeMap<String, Vec<Within>>,
}

/// Whether a path, without its ending, is that of a file of definitions.
pub fn is_definitions(path: &str) -> bool {
    path.contains("/specs/") && !path.ends_with("/Lib")
}

/// The crate that a path is in.
pub fn crate_of(path: &str) -> &str {
    path.split('/').next().unwrap_or("")
}

/// The type of the code that a module of a crate's definitions declares.
fn declared(path: &str) -> Option<Within> {
    let (crate_name, behind) = path.split_once("/specs/declared/")?;
    Some((crate_name.into(), behind.split('/').find(|part| part.starts_with(char::is_uppercase))?.into()))
}

/// Whether hosts or programs call it.
fn is_entry(path: &str, name: &str) -> bool {
    name.starts_with("forkhemit_") || PROGRAMS.contains(&(crate_of(path), name))
}

/// The clauses of a function's contract, with its file.
fn clauses((path, function): &(String, Function)) -> Vec<Within> {
    function.clauses.iter().map(|(_, text)| (path.clone(), text.clone())).collect()
}

/// What a way through definitions has met: definitions by file and name, and types.
#[derive(Default)]
struct Met {
    items: BTreeSet<Within>,
    types: BTreeSet<Within>,
}

impl Met {
    /// The files of the definitions.
    fn files(&self) -> BTreeSet<&String> {
        self.items.iter().map(|(file, _)| file).collect()
    }

    /// Goes on with what texts mention, with what that mentions, and so on; what theorems characterise is not entered.
    fn go_on(&mut self, tree: &Tree, mut open: Vec<Within>, characterised: &BTreeSet<String>) {
        while let Some((path, text)) = open.pop() {
            for token in source::tokens(&text) {
                let place = tree.place(&path, &token).or_else(|| tree.place(&path, &format!("◌{token}◌")));
                let (file, name) = match place.filter(|(file, _)| !characterised.contains(file)) {
                    Some(place) => place,
                    None => continue,
                };
                self.types.extend(declared(&file));
                let items = if is_definitions(&file) { tree.named_in(&file, &name) } else { vec![] };
                for item in items {
                    if self.items.insert((file.clone(), item.name.clone())) {
                        open.push((file.clone(), item.meaning()));
                    }
                }
            }
        }
    }
}

impl Believed {
    pub fn new(tree: &Tree, characterised: &BTreeSet<String>) -> Believed {
        let entries = tree.all.iter().filter(|(path, function)| is_entry(path, &function.name));
        let mut met = Met::default();
        met.go_on(tree, entries.flat_map(clauses).collect(), characterised);
        // What no code comes to is there for theorems. Crates without a function have laws alone, and all their definitions are what these say.
        let mut by_code = Met::default();
        by_code.go_on(tree, tree.all.iter().flat_map(clauses).collect(), characterised);
        let with_code: BTreeSet<&str> = tree.all.iter().map(|(path, _)| crate_of(path)).collect();
        let (cited, files) = (by_code.files(), tree.definition_files());
        let of_theorems = |file: &&String| {
            let stated = tree.items_of(file).iter().any(|item| item.is_statement());
            !characterised.contains(*file) && (!with_code.contains(crate_of(file)) || stated && !cited.contains(file))
        };
        let theirs: BTreeSet<&String> = files.iter().filter(of_theorems).collect();
        for file in &theirs {
            met.add(tree, file, characterised, |_| true);
        }
        // a statement beside definitions that must be believed is part of what theorems say
        for file in met.files().into_iter().cloned().collect::<Vec<_>>() {
            met.add(tree, &file, characterised, |item| item.is_statement());
        }
        let believed = met.files();
        let rest = files.iter().filter(|file| !believed.contains(file) && !characterised.contains(*file));
        let reach = exported(tree);
        let citing = |file: &String| -> Vec<Within> {
            reach.iter().filter(|(_, files)| files.contains(file)).map(|(name, _)| name.clone()).collect()
        };
        let cited_by = rest.map(|file| (file.clone(), citing(file))).collect();
        Believed { items: met.items, types: met.types, cited_by }
    }

    /// The files of what must be believed.
    pub fn files(&self) -> BTreeSet<&String> {
        self.items.iter().map(|(file, _)| file).collect()
    }
}

impl Met {
    /// Adds some definitions of a file, and what they come to.
    fn add(&mut self, tree: &Tree, file: &str, not: &BTreeSet<String>, chosen: impl Fn(&crate::antt::Item) -> bool) {
        let items: Vec<_> = tree.items_of(file).iter().filter(|item| chosen(item)).collect();
        self.items.extend(items.iter().map(|item| (file.to_string(), item.name.clone())));
        self.go_on(tree, items.iter().map(|item| (file.to_string(), item.meaning())).collect(), not);
    }
}

/// The exported functions by crate and name, each with the files that its contract comes to. What the crate for hosts exports is there by its
/// own crate.
fn exported(tree: &Tree) -> Vec<(Within, BTreeSet<String>)> {
    let mut found = vec![];
    let once = |path: &str| crate_of(path) != EXPORTS;
    for function in tree.all.iter().filter(|(path, function)| function.exported && once(path)) {
        let mut met = Met::default();
        met.go_on(tree, clauses(function), &BTreeSet::new());
        let name = (crate_of(&function.0).to_string(), function.1.name.clone());
        found.push((name, met.files().into_iter().cloned().collect()));
    }
    found
}

/// The samples' files: an entry and what it comes to, a type of the code, a function that others see and one that none sees, a statement, and
/// what a theorem characterises.
#[rustfmt::skip]
const FILES: &[(&str, &str, &str)] = &[
    ("a/specs/Sums", "antt", "use Rattle.b.specs.Shown.{rows}\npub sum : ℕ → ℕ\nsum n = n ⊕ rows n\npub ◌⊕◌ : ℕ → ℕ → ℕ\nn ⊕ m = n\npub spare : ℕ\nspare = 0\n"),
    ("b/specs/Shown", "antt", "unfoldable pub use Rattle.b.specs.Rows.{rows}\n"),
    ("b/specs/Rows", "antt", "use Rattle.c.specs.Gates.{gates}\nuse Rattle.b.specs.declared.deep.Row.{Row}\npub rows : Row → ℕ\nrows r = gates\n"),
    ("b/specs/Held", "antt", "pub held : ℕ\nheld = 1\n"),
    ("b/specs/Own", "antt", "pub own : ℕ\nown = 1\n"),
    ("b/specs/Stated", "antt", "pub record Stated (n : ℕ) : Type 0 where\n  pub said : n ≡ 0\n"),
    ("c/specs/Gates", "antt", "pub gates : ℕ\ngates = 3\n"),
    ("d/specs/Laws", "antt", "pub law : ℕ\nlaw = 0\n"),
    ("a/src/lib", "rt", "ghost use Rattle.a.specs.Sums.{sum};\npub extern \"C\" fn forkhemit_sum(n: u8) -> u8\n    ensures { result ≡ sum n }\n{ n }"),
    ("b/src/lib", "rt", "ghost use Rattle.b.specs.Held as Held;\nghost use Rattle.b.specs.Own.{own};\npub fn hold() -> u8\n    ensures { result ≡ Held.held }\n{ 1 }\nfn keep() -> u8\n    ensures { result ≡ own.size }\n{ 1 }"),
];

/// Whether what is found in the samples is what is to be found.
pub fn samples() -> bool {
    let found = Believed::new(&Tree::small(FILES), &["c/specs/Gates".to_string()].into());
    let within =
        |pairs: &[(&str, &str)]| pairs.iter().map(|(a, b)| (a.to_string(), b.to_string())).collect::<BTreeSet<_>>();
    let believed = [
        ("a/specs/Sums", "◌⊕◌"),
        ("a/specs/Sums", "sum"),
        ("b/specs/Rows", "rows"),
        ("b/specs/Stated", "Stated"),
        ("d/specs/Laws", "law"),
    ];
    let cited: Vec<(&str, usize)> = found.cited_by.iter().map(|(file, citing)| (file.as_str(), citing.len())).collect();
    found.items == within(&believed)
        && found.types == within(&[("b", "Row")])
        && cited == [("b/specs/Held", 1), ("b/specs/Own", 0), ("b/specs/Shown", 0)]
}
