//! What is said does not change unseen. tests/statements.txt holds the type of every theorem that docs/PROOFS.md names, with the
//! parameters of the modules around it and the statements and values that it is about, all statements of files of definitions, all cases
//! of the files of pins, the contract of every exported function and the ghost members of impls. A statement changes in a commit that
//! changes that file, or the gate fails.

use crate::antt::{self, Item};
use crate::believed;
use crate::claims::{self, Index, Named};
use crate::contracts;
use crate::page;
use crate::report::Tally;
use crate::source::{self, Function, Import};
use std::collections::{BTreeMap, BTreeSet};
use std::fs;
use std::path::Path;

const FILE: &str = "tests/statements.txt";
const HEAD: &str = "\
# What is proved, word for word: the theorems that docs/PROOFS.md names, each with the parameters of the modules around it and with the statements
# and values that it is about; the cases that the files of pins compute; the contract of every exported function; which words these bring from where.
# One line each, comments left out.
# The gate compares them with the tree (tests/src/statements.rs). Written by `make statements`, in the commit that changes a statement.
";

/// A file: its items, of antt alone, and what it brings.
struct File {
    items: Vec<Item>,
    imports: Vec<Import>,
}

/// The crates: what can be named, antt's files by their paths without ending, and the exported functions.
#[derive(Default)]
pub struct Tree {
    pub index: Index,
    files: BTreeMap<String, File>,
    functions: Vec<(String, Function)>,
    /// The ghost members of impls.
    members: Vec<(String, String)>,
    /// All functions, those that a crate keeps to itself too.
    pub all: Vec<(String, Function)>,
}

impl Tree {
    /// Reads all crates.
    pub fn new(crates: &Path) -> std::io::Result<Tree> {
        let mut tree = Tree { index: Index::new(crates)?, ..Tree::default() };
        for ending in ["antt", "rt"] {
            for path in contracts::files(crates, ending)? {
                let within = path.strip_prefix(crates).unwrap_or(&path).with_extension("");
                tree.read(&within.to_string_lossy(), ending, &fs::read_to_string(&path)?);
            }
        }
        Ok(tree)
    }

    /// A small tree: paths without ending, endings and texts.
    pub fn small(files: &[(&str, &str, &str)]) -> Tree {
        let mut tree = Tree::default();
        for (path, ending, text) in files {
            tree.index.define(path, ending, text);
            tree.read(path, ending, text);
        }
        tree
    }

    /// Reads a file's items or functions.
    fn read(&mut self, path: &str, ending: &str, text: &str) {
        if ending == "antt" {
            let imports = source::imports(&source::uncommented(text));
            self.files.insert(path.into(), File { items: antt::items(text), imports });
        } else {
            let uses = source::ghost_uses(text);
            let imports = uses.iter().flat_map(|item| source::imports(&format!("use {item}"))).collect();
            self.files.insert(path.into(), File { items: vec![], imports });
            self.members.extend(members(text).into_iter().map(|member| (path.into(), member)));
            self.all.extend(source::functions(text).into_iter().map(|function| (path.into(), function)));
            let exported = source::functions(text).into_iter().filter(|function| function.exported);
            self.functions.extend(exported.filter(|function| function.name != "main").map(|f| (path.into(), f)));
        }
    }

    /// The exported functions of this name: in a crate, beside a type that a file declares, or anywhere.
    pub fn functions(&self, outer: &str, name: &str) -> Vec<&(String, Function)> {
        let of_type = |path: &str| self.index.defined.get(path).map_or(false, |names| names.contains(outer));
        let within = |path: &str| outer.is_empty() || path.starts_with(&format!("{outer}/")) || of_type(path);
        self.functions.iter().filter(|(path, function)| function.name == name && within(path)).collect()
    }

    /// The definitions of this name in files of definitions.
    pub fn definitions(&self, name: &str) -> Vec<(&str, &Item)> {
        let files = self.files.keys().filter(|path| path.contains("/specs/"));
        files.flat_map(|path| self.items(path, name)).collect()
    }

    /// The names that a text of a file mentions, by their own names where it brings them under others.
    pub fn cites(&self, path: &str, text: &str) -> BTreeSet<String> {
        let own = |name: String| self.origin(path, &name).map_or(name.clone(), |(_, there)| there.into());
        self.mentioned(path, text).into_iter().map(own).collect()
    }

    /// Whether a file brings a module under this name.
    fn is_module(&self, path: &str, name: &str) -> bool {
        let brings = |file: &File| file.imports.iter().any(|import| import.name.is_empty() && import.local == name);
        self.files.get(path).map_or(false, brings)
    }

    /// What a token of a file names, the module before it left out and the fields behind it too.
    fn name<'a>(&self, path: &str, token: &'a str) -> &'a str {
        let first = token.split('.').next().unwrap_or(token);
        if self.is_module(path, first) || first.starts_with(char::is_uppercase) {
            token.rsplit('.').next().unwrap_or(token)
        } else {
            first
        }
    }

    /// The names that a text of a file mentions, but for fields and for those that its parameters have.
    fn mentioned(&self, path: &str, text: &str) -> BTreeSet<String> {
        let tokens = source::tokens(text);
        let (mut names, mut bound) = (BTreeSet::new(), BTreeSet::new());
        for (at, token) in tokens.iter().enumerate() {
            if token == "(" || token == "{" {
                let inner =
                    tokens[at + 1..].iter().take_while(|token| !["(", ")", "{", "}", ":"].contains(&token.as_str()));
                let binders: Vec<&String> = inner.collect();
                let colon = tokens.get(at + 1 + binders.len()).map_or(false, |token| token == ":");
                bound.extend(binders.into_iter().filter(|_| colon).cloned());
            }
            if !token.starts_with('.') {
                names.insert(self.name(path, token).to_string());
            }
        }
        names.retain(|name| !bound.contains(name));
        names
    }

    /// The file and the name there that a name in a file means, which may follow a module's; files that only hand it on are passed by.
    pub fn place(&self, path: &str, token: &str) -> Option<(String, String)> {
        if !self.named_in(path, token).is_empty() {
            return Some((path.into(), token.into()));
        }
        let (file, name) = match token.split_once('.') {
            Some((module, rest)) if self.is_module(path, module) => {
                let import = self.files.get(path)?.imports.iter().find(|import| import.local == module)?;
                (module_path(&import.module)?, rest.split('.').next()?)
            }
            // what is behind the name of a value is a field of it
            Some((name, _)) => return self.place(path, name),
            None => self.origin(path, token)?,
        };
        self.place(&file, name).or_else(|| Some((file, name.into())))
    }

    /// The files of definitions.
    pub fn definition_files(&self) -> Vec<String> {
        self.files.keys().filter(|path| believed::is_definitions(path)).cloned().collect()
    }

    /// The items of a file.
    pub fn items_of(&self, path: &str) -> &[Item] {
        self.files.get(path).map_or(&[], |file| &file.items)
    }

    /// The items of a file with this name, or the types that have it as a constructor or a field.
    pub fn named_in(&self, path: &str, name: &str) -> Vec<&Item> {
        let items = self.items_of(path).iter();
        let own: Vec<&Item> = items.clone().filter(|item| item.name == name).collect();
        let of_type = |item: &&Item| item.is_type && source::tokens(&item.said).iter().any(|token| token == name);
        if own.is_empty() {
            items.filter(of_type).collect()
        } else {
            own
        }
    }

    /// The items of a file with this name.
    fn items(&self, path: &str, name: &str) -> Vec<(&str, &Item)> {
        let file = self.files.get_key_value(path).into_iter();
        let all = file.flat_map(|(path, file)| file.items.iter().map(move |item| (path.as_str(), item)));
        all.filter(|(_, item)| item.name == name).collect()
    }

    /// The file of the project's that a name is brought from, and the name there.
    fn origin(&self, path: &str, name: &str) -> Option<(String, &str)> {
        let import = self.files.get(path)?.imports.iter().find(|import| import.local == name)?;
        Some((module_path(&import.module)?, &import.name))
    }

    /// The items that a name in a file means: its own, or those that it brings from another file.
    fn meant(&self, path: &str, name: &str) -> Vec<(&str, &Item)> {
        let own = self.items(path, name);
        match self.origin(path, name).filter(|_| own.is_empty()) {
            Some((from, name)) => self.items(&from, name),
            None => own,
        }
    }

    /// Whether an item has a value that statements can be about; else its clauses are a proof.
    fn is_value(&self, path: &str, item: &Item) -> bool {
        let states = |head: String| self.meant(path, &head).iter().any(|(_, item)| item.is_statement());
        item.seen || item.gives_type() || item.result().map_or(false, |head| !states(head))
    }

    /// What is recorded of an item.
    fn said(&self, path: &str, item: &Item) -> String {
        if self.is_value(path, item) {
            item.meaning()
        } else {
            item.statement()
        }
    }

    /// All lines for a page, in order: what it names and all contracts, what these are about, and from where their words are brought.
    fn lines(&self, page: &str) -> Vec<String> {
        let mut open: Vec<(&str, String)> =
            self.functions.iter().map(|(path, f)| (path.as_str(), contract(f))).collect();
        open.extend(self.members.iter().map(|(path, member)| (path.as_str(), member.clone())));
        open.extend(self.named(page).into_iter().map(|(path, item)| (path, self.said(path, item))));
        let (mut lines, mut words) = (BTreeSet::new(), BTreeMap::<String, BTreeSet<String>>::new());
        while let Some((path, said)) = open.pop() {
            if !lines.insert(format!("crates/{path}: {said}")) {
                continue;
            }
            for name in self.mentioned(path, &said) {
                let value = |path: &str, item: &Item| path.contains("/proofs/") && self.is_value(path, item);
                let about =
                    self.meant(path, &name).into_iter().filter(|(path, item)| item.gives_type() || value(path, item));
                open.extend(about.map(|(path, item)| (path, self.said(path, item))));
                if let Some((from, there)) = self.origin(path, &name).filter(|_| self.items(path, &name).is_empty()) {
                    let word = if there == name { name } else { format!("{there} as {name}") };
                    words.entry(from).or_default().insert(word);
                }
            }
        }
        let listed = |words: BTreeSet<String>| words.into_iter().collect::<Vec<_>>().join(", ");
        lines
            .extend(words.into_iter().map(|(from, words)| format!("crates/{from}: words brought : {}", listed(words))));
        lines.into_iter().collect()
    }

    /// What a page names of theorems and statements.
    fn named(&self, page: &str) -> Vec<(&str, &Item)> {
        let mut named = Named::default();
        page::blocks(page).iter().for_each(|block| drop(claims::unknown(block, &self.index, &mut named)));
        let pins: Vec<String> = self.pins(page);
        let all = self.files.iter().flat_map(|(path, file)| file.items.iter().map(move |item| (path.as_str(), item)));
        let placed = |path: &str, item: &Item| {
            let within = |place: &str| path == place || path.starts_with(&format!("{place}/"));
            named.placed.iter().any(|(name, place)| fits(name, &item.name) && within(place))
        };
        let plain: BTreeSet<&str> = named.items.iter().map(|text| text.split(' ').next().unwrap_or("")).collect();
        all.filter(|(path, item)| {
            let law = path.contains("/proofs/") || item.gives_type();
            let stated = path.contains("/specs/") && item.is_statement();
            stated
                || law && (pins.iter().any(|pin| pin == path) || placed(path, item) || self.by_name(&plain, path, item))
        })
        .collect()
    }

    /// Whether an item is named without its path: with its file or, of a record, its field; or alone, where it is another crate's too and means nothing else.
    fn by_name(&self, plain: &BTreeSet<&str>, path: &str, item: &Item) -> bool {
        let file = path.rsplit('/').next().unwrap_or(path);
        let with_outer = |text: &&str| match text.split_once('.') {
            Some((outer, law)) => outer == file && fits(law, &item.name) || item.is_type && outer == item.name,
            None => false,
        };
        let other = |path: &String| path.contains("/src/") || path.contains("/specs/");
        let elsewhere = || self.index.defined.iter().any(|(path, names)| other(path) && names.contains(&item.name));
        let alone = plain.contains(item.name.as_str()) && (item.gives_type() || item.public && !elsewhere());
        alone || plain.iter().any(with_outer)
    }

    /// The files of pins: those of the table that is headed `file` and `computes`.
    fn pins(&self, page: &str) -> Vec<String> {
        let mut named = Named::default();
        for (_, cells) in page::rows(page).iter().filter(|(head, _)| head.contains(&"computes")) {
            claims::unknown(cells[1], &self.index, &mut named);
        }
        named.items
    }
}

/// The path of the file that a module of the project's is.
fn module_path(module: &str) -> Option<String> {
    let (crate_name, rest) = source::own_module(module)?;
    Some(format!("{crate_name}/{}", rest.replace('.', "/")))
}

/// Whether a name is this one; `*` at its end means any end.
fn fits(pattern: &str, name: &str) -> bool {
    pattern.strip_suffix('*').map_or(pattern == name, |start| name.starts_with(start))
}

/// A function's line: its parameters' names, and the clauses of its contract.
fn contract(function: &Function) -> String {
    let parameters: Vec<&str> = function.parameters.iter().map(|(name, _)| name.as_str()).collect();
    let folded = |text: &str| text.split_whitespace().collect::<Vec<_>>().join(" ");
    let clauses: Vec<String> =
        function.clauses.iter().map(|(kind, text)| format!("{kind} {{ {} }}", folded(text))).collect();
    format!("{}({}) : {}", function.name, parameters.join(", "), clauses.join(" "))
}

/// The ghost members of a source's impls, which say what the trait's methods give.
fn members(text: &str) -> Vec<String> {
    let mut head = "";
    let mut found = vec![];
    for line in text.lines() {
        if line.starts_with("impl") {
            head = line.trim_end_matches('{').trim_end();
        }
        if let Some((name, said)) = line.trim_start().strip_prefix("ghost ").and_then(|member| member.split_once(" = "))
        {
            found.push(format!("{head}, {name} : {}", said.trim_end_matches(';')));
        }
    }
    found
}

/// What a line is about: its file and name.
fn about(line: &str) -> &str {
    line.split(" : ").next().unwrap_or(line).split('(').next().unwrap_or(line)
}

/// The lines that are in one list alone, by what they are about: those of the first with `-`, those of the second with `+`.
fn differences(old: &[String], new: &[String]) -> BTreeMap<String, Vec<String>> {
    let mut found: BTreeMap<String, Vec<String>> = BTreeMap::new();
    for (sign, lines, others) in [('-', old, new), ('+', new, old)] {
        let others: BTreeSet<&String> = others.iter().collect();
        for line in lines.iter().filter(|line| !others.contains(line)) {
            found.entry(about(line).into()).or_default().push(format!("{sign} {line}"));
        }
    }
    found
}

/// The file as the tree has it.
pub fn text(crates: &Path) -> std::io::Result<String> {
    let page = fs::read_to_string(crates.join("../docs/PROOFS.md"))?;
    let lines = Tree::new(crates)?.lines(&page);
    Ok(format!("{HEAD}{}\n", lines.join("\n")))
}

/// The samples' page and files, and the lines that they have.
const PAGE: &str = "`law`\n\n| file | computes |\n|---|---|\n| `a/proofs/Pins` | a case |\n";
#[rustfmt::skip]
const FILES: &[(&str, &str, &str)] = &[
    ("a/proofs/Laws", "antt", "use Rattle.a.specs.Said.{Holds, sum}\nmodule _ (n : ℕ) where\n  abbrev total : ℕ\n  total = sum n n\n\n  module _ (few : n ≤ 9) where\n    -- why\n    pub law : (m : ℕ)\n        → Holds n m → total ≡ m\n    law m h = h.even\n"),
    ("a/proofs/Pins", "antt", "two : ℕ\ntwo = 2\nfirst-case : two + two ≡ 4\nfirst-case = refl\n"),
    ("a/specs/Said", "antt", "pub sum : ℕ → ℕ → ℕ\nsum a b = a + b\npub record Holds (n m : ℕ) : Type 0 where\n  -- both\n  pub even : sum n n ≡ m\n  pub low : n ≤ m\n"),
    ("a/src/lib", "rt", "pub fn f(x: u8) -> u8\n    ensures value { result ≡ x }\n    ensures low { result\n        ≤ 9 }\n{ x }\nfn g() { }\nimpl From<u8> for u16 {\n    ghost from_gives = { λ x y. y ≡ x };\n}"),
];
#[rustfmt::skip]
const LINES: &[&str] = &[
    "crates/a/proofs/Laws: law : (n : ℕ) (few : n ≤ 9) → (m : ℕ) → Holds n m → total ≡ m",
    "crates/a/proofs/Laws: total : (n : ℕ) → ℕ; total = sum n n",
    "crates/a/proofs/Pins: first-case : two + two ≡ 4",
    "crates/a/proofs/Pins: two : ℕ; two = 2",
    "crates/a/specs/Said: Holds : record Holds (n m : ℕ) : Type 0 where pub even : sum n n ≡ m pub low : n ≤ m",
    "crates/a/specs/Said: words brought : Holds, sum",
    "crates/a/src/lib: f(x) : ensures { result ≡ x } ensures { result ≤ 9 }",
    "crates/a/src/lib: impl From<u8> for u16, from_gives : { λ x y. y ≡ x }",
];
/// A text of the samples' files, what takes its place, and what then differs: nothing where it says the same.
#[rustfmt::skip]
const SAMPLES: &[(&str, &str, &[&str])] = &[
    ("→ total ≡ m", "→ total ≡ total", &["crates/a/proofs/Laws: law"]),
    ("→ total ≡ m", "→ m ≡ 0 → total ≡ m", &["crates/a/proofs/Laws: law"]),
    ("(few : n ≤ 9)", "(few : n ≤ 9) (odd : n ≡ 3)", &["crates/a/proofs/Laws: law"]),
    ("module _ (n : ℕ) where", "module _ (n : ℕ) (e : n ≡ 0) where", &["crates/a/proofs/Laws: law", "crates/a/proofs/Laws: total"]),
    ("total = sum n n", "total = sum n 0", &["crates/a/proofs/Laws: total"]),
    ("{Holds, sum}", "{sum as Holds, sum}", &["crates/a/specs/Said: words brought"]),
    ("  pub even : sum n n ≡ m\n", "  pub even : m ≡ m\n", &["crates/a/specs/Said: Holds"]),
    ("  pub low : n ≤ m\n", "", &["crates/a/specs/Said: Holds"]),
    ("two = 2", "two = 1 + 1", &["crates/a/proofs/Pins: two"]),
    ("first-case : two + two ≡ 4\nfirst-case = refl\n", "", &["crates/a/proofs/Pins: first-case"]),
    ("    ensures value { result ≡ x }\n", "", &["crates/a/src/lib: f"]),
    ("f(x: u8)", "f(y: u8, x: u8)", &["crates/a/src/lib: f"]),
    ("pub fn f", "fn f", &["crates/a/src/lib: f"]),
    ("λ x y. y ≡ x", "λ x y. y ≡ 0", &["crates/a/src/lib: impl From<u8> for u16, from_gives"]),
    ("(m : ℕ)\n        → Holds", "(m : ℕ) → Holds", &[]),
    ("    -- why\n", "", &[]),
    ("law m h = h.even", "law m h = sym (sym h.even)", &[]),
    ("sum a b = a + b", "sum a b = b + a", &[]),
    ("{ x }", "{ x + 0 }", &[]),
];

/// The lines of the samples' files, a text in them replaced.
fn small(old: &str, new: &str) -> Vec<String> {
    let texts: Vec<String> = FILES.iter().map(|(_, _, text)| text.replacen(old, new, 1)).collect();
    let files: Vec<(&str, &str, &str)> =
        FILES.iter().zip(&texts).map(|(file, text)| (file.0, file.1, text.as_str())).collect();
    Tree::small(&files).lines(PAGE)
}

/// Checks the check on the samples, then the tree: each line of the file, and each that it has not, is a test.
pub fn run(crates: &Path) -> std::io::Result<Tally> {
    let mut tally = Tally::default();
    let before = small("", "");
    tally.count(before == LINES);
    if before != LINES {
        println!("FAILED samples of statements: {before:#?}");
    }
    for (old, new, expected) in SAMPLES {
        let found = differences(&before, &small(old, new));
        let right = found.keys().eq(expected.iter());
        tally.count(right);
        if !right {
            println!("FAILED sample of statements: {new:?} for {old:?}: {found:?}");
        }
    }
    let kept = fs::read_to_string(crates.join("..").join(FILE))?;
    let lines = |text: &str| text.lines().filter(|line| !line.starts_with('#')).map(String::from).collect::<Vec<_>>();
    let (kept, found) = (lines(&kept), lines(&text(crates)?));
    let differences = differences(&kept, &found);
    for lines in differences.values() {
        println!("FAILED statement: {FILE} (-) and the tree (+) differ\n{}", lines.join("\n"));
    }
    tally.failed += differences.len();
    tally.passed += found.iter().filter(|line| !differences.contains_key(about(line))).count();
    let (samples, passed, failed) = (SAMPLES.len() + 1, tally.passed, tally.failed);
    println!("statements of {FILE}, {samples} samples first: {passed} passed, {failed} failed");
    Ok(tally)
}
