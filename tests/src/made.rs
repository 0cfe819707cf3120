//! The parts of documents that are made: tables of what must be believed, from the heads of the files of definitions, of types, from the
//! comments above them, and of crates, from crates.txt and the heads of their code; and counts. A part stands between
//! `<!-- made by make docs: NAME -->` and `<!-- end -->`, a count between `<!--NAME-->` and `<!---->`. `make docs` writes them, the gate compares.

use crate::believed::{self, crate_of, Believed};
use crate::claims;
use crate::contracts;
use crate::page;
use crate::report::Tally;
use crate::statements::Tree;
use std::collections::{BTreeMap, BTreeSet};
use std::fs;
use std::path::Path;

/// The documents that have made parts.
const DOCUMENTS: [&str; 4] = ["README.md", "docs/PROOFS.md", "docs/ARCHITECTURE.md", "docs/GUIDE.md"];
/// How many lines a reader is taken to read in a minute.
const PACE: usize = 25;

/// A group of crates: its name, what it holds, and the crates in order.
struct Group {
    name: String,
    holds: String,
    crates: Vec<String>,
}

/// The groups that crates.txt has.
fn groups(text: &str) -> Vec<Group> {
    let mut groups: Vec<Group> = vec![];
    for line in text.lines() {
        if let Some((name, holds)) = line.strip_prefix("## ").and_then(|line| line.split_once(": ")) {
            groups.push(Group { name: name.into(), holds: holds.into(), crates: vec![] });
        } else if let Some((name, _)) = line.split_once(':').filter(|_| !line.starts_with('#')) {
            // `staticlib` may follow the name
            let name = name.split_whitespace().next().unwrap_or("");
            groups.last_mut().expect("a group begins before its crates").crates.push(name.into());
        }
    }
    groups
}

/// The comment that a text begins with, its lines joined.
fn head(text: &str, mark: &str) -> String {
    let lines = text.lines().map_while(|line| line.strip_prefix(mark)).map(str::trim);
    lines.collect::<Vec<_>>().join(" ")
}

/// The parts of a file's head: what it says, what to read of it, and what to ask.
#[derive(Default)]
struct Head {
    says: String,
    read: String,
    ask: String,
}

impl Head {
    fn of(text: &str) -> Head {
        let head = head(text, "--");
        let (front, ask) = head.split_once(" Ask: ").unwrap_or((&head, ""));
        let (says, read) = front.split_once(" Read: ").unwrap_or((front, ""));
        Head { says: says.into(), read: read.into(), ask: ask.into() }
    }
}

/// The first sentence, without what is in brackets about a document and without its full stop.
fn first_sentence(text: &str) -> String {
    let mut text = text.strip_prefix("For hosts in C and Rust: ").unwrap_or(text).to_string();
    while let Some(start) = text.find(" (document ") {
        let end = text[start..].find(')').map_or(text.len(), |end| start + end + 1);
        text.replace_range(start..end, "");
    }
    let end = text.find(". ").unwrap_or(text.len());
    let sentence = text[..end].trim_end_matches('.');
    sentence.chars().take(1).flat_map(char::to_uppercase).chain(sentence.chars().skip(1)).collect()
}

/// All that the parts are made from.
struct Sources {
    groups: Vec<Group>,
    /// The head of each file of definitions, and the first sentence of each crate's code.
    heads: BTreeMap<String, Head>,
    sentences: BTreeMap<String, String>,
    /// The files of definitions of each crate, in order.
    files: BTreeMap<String, Vec<String>>,
    /// The types of each crate's code, each with its file and the comment above it.
    types: BTreeMap<String, Vec<[String; 3]>>,
    tree: Tree,
    believed: Believed,
    counts: BTreeMap<&'static str, usize>,
}

/// The files that theorems characterise, by the page's table of them.
fn characterised(page: &str, tree: &Tree) -> BTreeSet<String> {
    let rows = page::rows(page).into_iter().filter(|(head, _)| head.contains(&"known by"));
    rows.flat_map(|(_, cells)| claims::files_of(cells[1], &tree.index)).collect()
}

/// The types that a source declares, each with the comment above it.
fn types(text: &str) -> Vec<[String; 2]> {
    let (mut found, mut comment) = (vec![], vec![]);
    for line in text.lines() {
        let words: Vec<&str> = line.split(' ').filter(|word| !["pub", "pub(crate)"].contains(word)).collect();
        if let Some(text) = line.strip_prefix("//") {
            comment.push(text.trim());
        } else if ["struct", "enum"].contains(&words[0]) && words.len() > 1 {
            found.push([words[1].to_string(), comment.join(" ")]);
        } else if !line.starts_with("#[") {
            comment.clear();
        }
    }
    found
}

impl Sources {
    fn new(root: &Path) -> std::io::Result<Sources> {
        let crates = root.join("crates");
        let tree = Tree::new(&crates)?;
        let page = fs::read_to_string(root.join("docs/PROOFS.md"))?;
        let believed = Believed::new(&tree, &characterised(&page, &tree));
        let groups = groups(&fs::read_to_string(root.join("crates.txt"))?);
        let mut sources = Sources {
            groups,
            heads: BTreeMap::new(),
            sentences: BTreeMap::new(),
            files: BTreeMap::new(),
            types: BTreeMap::new(),
            tree,
            believed,
            counts: BTreeMap::new(),
        };
        for ending in ["antt", "rt"] {
            for path in contracts::files(&crates, ending)? {
                let within = path.strip_prefix(&crates).unwrap_or(&path).with_extension("");
                sources.read(&within.to_string_lossy(), &fs::read_to_string(&path)?);
            }
        }
        sources.count(root)?;
        Ok(sources)
    }

    /// Reads a file of definitions, the order of those of a crate, or code.
    fn read(&mut self, path: &str, text: &str) {
        let crate_name = crate_of(path).to_string();
        if path.ends_with("/specs/Lib") {
            let files = text.lines().filter_map(|line| line.strip_prefix("pub mod "));
            let files = files.map(|file| format!("{crate_name}/specs/{}", file.trim())).collect();
            self.files.insert(crate_name, files);
        } else if path.contains("/specs/") {
            self.heads.insert(path.into(), Head::of(text));
        } else if path.contains("/src/") {
            let placed = types(text).into_iter().map(|[name, comment]| [name, path.to_string(), comment]);
            self.types.entry(crate_name.clone()).or_default().extend(placed);
            if ["src/lib", "src/main"].iter().any(|end| path.ends_with(end)) {
                self.sentences.insert(crate_name, first_sentence(&head(text, "//")));
            }
        }
    }

    /// The counts that documents may have.
    fn count(&mut self, root: &Path) -> std::io::Result<()> {
        let crates: Vec<&String> = self.groups.iter().flat_map(|group| &group.crates).collect();
        let mut edits = 0;
        for name in &crates {
            edits += fs::read_dir(root.join("crates").join(name).join("must-fail")).map_or(0, Iterator::count);
        }
        let header = fs::read_to_string(root.join("include/forkhemit.h"))?;
        let functions = header.lines().filter(|line| line.starts_with("uint") && line.contains(" forkhemit_")).count();
        let refusals = header.lines().filter(|line| line.starts_with("    X(")).count();
        let minutes = minutes(self.lines_read());
        self.counts.extend([("crates", crates.len()), ("edits", edits), ("functions", functions)]);
        self.counts.extend([("refusals", refusals), ("minutes", minutes)]);
        Ok(())
    }

    /// The files of a crate that must be believed, in order.
    fn believed_files(&self, crate_name: &str) -> Vec<&String> {
        let believed = self.believed.files();
        self.files.get(crate_name).into_iter().flatten().filter(|file| believed.contains(file)).collect()
    }

    /// How many lines of a file must be believed, and how many of them the walk reads.
    fn lines(&self, file: &String) -> (usize, usize) {
        let must = |name: &str| self.believed.items.contains(&(file.clone(), name.to_string()));
        let items: Vec<usize> =
            self.tree.items_of(file).iter().filter(|item| must(&item.name)).map(|item| item.lines).collect();
        let all = items.iter().sum();
        let read = match self.heads[file].read.split([' ', ',', ';']).next() {
            Some("the") => items.first().copied().unwrap_or(0),
            Some("none") => 0,
            _ => all,
        };
        (all, read)
    }

    /// How many lines the walk reads.
    fn lines_read(&self) -> usize {
        let crates = self.groups.iter().flat_map(|group| &group.crates);
        crates.flat_map(|name| self.believed_files(name)).map(|file| self.lines(file).1).sum()
    }

    /// The same, those that are read whole and those of which the walk reads less apart.
    fn rows(&self, crate_name: &str) -> Vec<Vec<&String>> {
        let mut rows: Vec<Vec<&String>> = vec![];
        for file in self.believed_files(crate_name) {
            let alike =
                |last: &&mut Vec<&String>| self.heads[last[0]].read.is_empty() == self.heads[file].read.is_empty();
            match rows.last_mut().filter(alike) {
                Some(row) => row.push(file),
                None => rows.push(vec![file]),
            }
        }
        rows
    }

    /// The walk: what must be believed in the order in which to read it, and how much that is.
    fn walk(&self) -> String {
        let mut table = "| definitions | say | ask | lines | minutes so far |\n|---|---|---|---|---|\n".to_string();
        let (mut all, mut read) = (0, 0);
        for group in &self.groups {
            table += &format!("| **{}** | **{}** | | | |\n", group.name, group.holds);
            for files in group.crates.iter().flat_map(|name| self.rows(name)) {
                let join = |part: fn(&Head) -> &String| {
                    let parts = files.iter().map(|file| part(&self.heads[*file]).as_str());
                    parts.filter(|part| !part.is_empty()).collect::<Vec<_>>().join(" ")
                };
                let lines: usize = files.iter().map(|file| self.lines(file).0).sum();
                all += lines;
                read += files.iter().map(|file| self.lines(file).1).sum::<usize>();
                let (says, asks, so_far) = (join(|head| &head.says), join(|head| &head.ask), minutes(read));
                let asks = if asks.is_empty() { asks } else { cell(&asks) + " " };
                table += &format!("| {} | {} | {asks}| {lines} | {so_far} |\n", listed(&files), cell(&says));
            }
        }
        let form: Vec<&String> =
            self.heads.iter().filter(|(_, head)| !head.read.is_empty()).map(|(file, _)| file).collect();
        let first: Vec<&String> = form.iter().filter(|file| self.lines(file).1 > 0).copied().collect();
        let of_form: usize = form.iter().map(|file| self.lines(file).0).sum();
        table
            + &format!(
                "\n{} lines of definitions must be believed. {of_form} of them are entries of demand 1, one form repeated ({}): the walk \
                 reads the first entry of {}. That makes {} lines and {} minutes at {PACE} lines a minute, a pace to plan with and no \
                 measurement.\n",
                thousands(all),
                listed(&form),
                listed(&first),
                thousands(read),
                minutes(read)
            )
    }

    /// The files that are read with the exported functions that come to them.
    fn read_with(&self) -> String {
        let mut table = "| definitions | say | cited by |\n|---|---|---|\n".to_string();
        for name in self.groups.iter().flat_map(|group| &group.crates) {
            for file in self.files.get(name).into_iter().flatten() {
                let citing = self.believed.cited_by.get(file).filter(|citing| !citing.is_empty());
                if let Some(citing) = citing {
                    let says = cell(&self.heads[file].says);
                    table += &format!("| `{file}` | {says} | {} |\n", functions(citing));
                }
            }
        }
        table
    }

    /// The files that only functions cite which their crate keeps to itself.
    fn own(&self) -> String {
        let crates = self.groups.iter().flat_map(|group| &group.crates);
        let files = crates.flat_map(|name| self.files.get(name).into_iter().flatten());
        let alone = |file: &&String| self.believed.cited_by.get(*file).map_or(false, Vec::is_empty);
        format!(
            "Only functions that their crate keeps to itself cite {}.\n",
            listed(&files.filter(alone).collect::<Vec<_>>())
        )
    }

    /// The types that definitions are over: those of what must be believed with what they are, then the others.
    fn types_of_code(&self) -> String {
        let mut table = "| types | are |\n|---|---|\n".to_string();
        let mut others = vec![];
        for name in self.groups.iter().flat_map(|group| &group.crates) {
            for [type_name, file, comment] in self.types.get(name).into_iter().flatten() {
                if self.believed.types.contains(&(name.clone(), type_name.clone())) {
                    table += &format!("| `{type_name}` (`{file}`) | {} |\n", cell(comment));
                } else if self.tree.index.types.contains(type_name) {
                    others.push(format!("`{type_name}` (`{file}`)"));
                }
            }
        }
        format!(
            "{table}\nOther definitions are over {}: they are read with the functions that cite these.\n",
            others.join(", ")
        )
    }

    /// The crates by groups.
    fn crates(&self) -> String {
        let mut table = "| crate | holds |\n|---|---|\n".to_string();
        for group in &self.groups {
            table += &format!("| **{}** | **{}** |\n", group.name, group.holds);
            for name in &group.crates {
                let sentence = self.sentences.get(name).map_or("", |sentence| sentence.as_str());
                table += &format!("| `{name}` | {} |\n", cell(sentence));
            }
        }
        table
    }

    /// A made part by its name.
    fn part(&self, name: &str) -> Option<String> {
        match name {
            "walk" => Some(self.walk()),
            "read with functions" => Some(self.read_with()),
            "own functions" => Some(self.own()),
            "types" => Some(self.types_of_code()),
            "crates" => Some(self.crates()),
            _ => None,
        }
    }

    /// A document with its parts and counts made.
    fn filled(&self, text: &str) -> Result<String, String> {
        let mut made = String::new();
        let mut rest = text;
        while let Some((before, behind)) = rest.split_once("<!-- made by make docs: ") {
            let (name, behind) = behind.split_once(" -->\n").ok_or("a part's name is not closed")?;
            let (_, behind) = behind.split_once("<!-- end -->").ok_or_else(|| format!("the part {name} has no end"))?;
            let part = self.part(name).ok_or_else(|| format!("there is no part {name}"))?;
            made += &format!("{before}<!-- made by make docs: {name} -->\n{part}<!-- end -->");
            rest = behind;
        }
        made += rest;
        for (name, count) in &self.counts {
            made = counted(&made, &format!("<!--{name}-->"), &count.to_string());
        }
        Ok(made)
    }
}

/// A text with a count behind each of its marks.
fn counted(text: &str, mark: &str, count: &str) -> String {
    let mut parts = text.split(mark);
    let mut made = parts.next().unwrap_or("").to_string();
    for part in parts {
        let behind = part.find("<!---->").map_or(part, |end| &part[end..]);
        made += &format!("{mark}{count}{behind}");
    }
    made
}

/// So many lines in minutes, a part of one as a whole one.
fn minutes(lines: usize) -> usize {
    (lines + PACE - 1) / PACE
}

/// A number below a million, with a comma behind its thousands.
fn thousands(number: usize) -> String {
    match number {
        0..=999 => number.to_string(),
        _ => format!("{},{:03}", number / 1000, number % 1000),
    }
}

/// A text in a cell of a table.
fn cell(text: &str) -> String {
    text.replace('|', "\\|").trim_end_matches('.').into()
}

/// Files, the folder said once for those of one folder.
fn listed(files: &[&String]) -> String {
    let (mut folder, mut listed) = ("", vec![]);
    for file in files {
        let (own, name) = file.rsplit_once('/').unwrap_or(("", file));
        listed.push(if own == folder { format!("`{name}`") } else { format!("`{file}`") });
        folder = own;
    }
    listed.join(", ")
}

/// Functions, the crate said once for those of one crate.
fn functions(citing: &[(String, String)]) -> String {
    let (mut last, mut listed) = ("", vec![]);
    for (crate_name, name) in citing {
        listed.push(if crate_name == last { format!("`{name}`") } else { format!("`{crate_name}::{name}`") });
        last = crate_name;
    }
    listed.join(", ")
}

/// The documents as they are to be, each with its path.
fn documents(root: &Path) -> std::io::Result<Vec<(&'static str, String, String)>> {
    let sources = Sources::new(root)?;
    let invalid = |fault| std::io::Error::new(std::io::ErrorKind::InvalidData, fault);
    let mut documents = vec![];
    for file in DOCUMENTS {
        let text = fs::read_to_string(root.join(file))?;
        let made = sources.filled(&text).map_err(|fault| invalid(format!("{file}: {fault}")))?;
        documents.push((file, text, made));
    }
    Ok(documents)
}

/// Writes what is made.
pub fn write(root: &Path) -> std::io::Result<()> {
    documents(root)?
        .into_iter()
        .filter(|(_, text, made)| text != made)
        .try_for_each(|(file, _, made)| fs::write(root.join(file), made))
}

/// Whether heads, sentences, types and counts are read as they are to be.
fn samples() -> bool {
    let head = Head::of("-- Rows:\n-- two words.\n-- Read: none.\n-- Ask: Which?\nuse a\n-- more\n");
    [head.says, head.read, head.ask] == ["Rows: two words.", "none.", "Which?"]
        && first_sentence("For hosts in C and Rust: a row (document 01, \"Tables\"), read. More.") == "A row, read"
        && types("// One.\n#[derive(Copy)]\npub enum A {\n}\n\nstruct B {\n")
            == [["A", "One."], ["B", ""]].map(|pair| pair.map(String::from))
        && counted("<!--crates-->80<!----> and <!--crates--><!---->.", "<!--crates-->", "81")
            == "<!--crates-->81<!----> and <!--crates-->81<!---->."
        && listed(&["a/specs/B", "a/specs/C", "d/specs/E"].map(String::from).iter().collect::<Vec<_>>())
            == "`a/specs/B`, `C`, `d/specs/E`"
}

/// Whether each document is as it is made.
pub fn run(root: &Path) -> std::io::Result<Tally> {
    let mut tally = Tally::default();
    for (sample, right) in [("definitions", believed::samples()), ("texts", samples())] {
        tally.count(right);
        if !right {
            println!("FAILED samples of {sample} for made parts");
        }
    }
    for (file, text, made) in documents(root)? {
        tally.count(text == made);
        if let Some((line, _)) = made.lines().zip(text.lines()).find(|(made, text)| made != text) {
            println!("FAILED: {file} is not current, make docs writes it; it is to have: {line}");
        }
    }
    println!("documents with made parts: {} passed, {} failed", tally.passed, tally.failed);
    Ok(tally)
}

/// What must be believed, by the crates and by the page's table of what theorems characterise.
pub fn believed(crates: &Path, page: &str) -> std::io::Result<Believed> {
    let tree = Tree::new(crates)?;
    Ok(Believed::new(&tree, &characterised(page, &tree)))
}
