//! The pages in Markdown: every link leads to a file, and to a heading where it names one; and prose is wrapped at one width.

use crate::report::Tally;
use std::collections::BTreeMap;
use std::fs;
use std::path::{Component, Path, PathBuf};

/// Characters of a line of prose. Tables, code, parts that `make docs` makes and lines that are one link have as many as they need.
const WIDTH: usize = 120;

/// Where pages are, from the project's folder on.
const FOLDERS: [&str; 5] = ["docs", "examples", "python", "tools", "tests"];

/// Pages by their paths.
type Pages = BTreeMap<PathBuf, String>;

/// A page's lines with their numbers, those of code left out.
fn prose(page: &str) -> Vec<(usize, &str)> {
    let mut fenced = false;
    let lines = page.lines().enumerate().map(|(at, line)| (at + 1, line));
    lines
        .filter(|(_, line)| {
            fenced ^= line.starts_with("```");
            !fenced && !line.starts_with("```") && !line.starts_with("    ")
        })
        .collect()
}

/// A line without what is quoted in it as code.
fn unquoted(line: &str) -> String {
    line.split('`').step_by(2).collect::<Vec<_>>().join("")
}

/// A heading's anchor: its letters and digits in lower case, its spaces as hyphens.
fn anchor(heading: &str) -> String {
    let kept = heading.trim().to_lowercase();
    let kept = kept.chars().filter(|sign| sign.is_alphanumeric() || [' ', '-', '_'].contains(sign));
    kept.map(|sign| if sign == ' ' { '-' } else { sign }).collect()
}

/// The anchors of a page. A heading that was there before ends with its number.
fn anchors(page: &str) -> Vec<String> {
    let mut found: Vec<String> = vec![];
    for (_, line) in prose(page).into_iter().filter(|(_, line)| line.starts_with('#')) {
        let plain = anchor(line.trim_start_matches('#'));
        let before = (0..).map(|k| if k == 0 { plain.clone() } else { format!("{plain}-{k}") });
        found.extend(before.filter(|name| !found.contains(name)).take(1).collect::<Vec<_>>());
    }
    found
}

/// The targets of a page's links, with the line of each.
fn targets(page: &str) -> Vec<(usize, String)> {
    let mut found = vec![];
    for (at, line) in prose(page) {
        let line = unquoted(line);
        let links = line.split("](").skip(1).filter_map(|rest| rest.split(')').next());
        found.extend(links.map(|target| (at, target.to_string())));
    }
    found
}

/// A path without `.` and `..`.
fn plain(path: &Path) -> PathBuf {
    let mut kept = PathBuf::new();
    for part in path.components() {
        match part {
            Component::ParentDir => drop(kept.pop()),
            Component::CurDir => {}
            other => kept.push(other),
        }
    }
    kept
}

/// What is wrong with a link of a page, if anything. `exists` says whether there is a file or a folder.
fn broken(pages: &Pages, from: &Path, target: &str, exists: impl Fn(&Path) -> bool) -> Option<String> {
    if target.contains("://") {
        return None;
    }
    let (file, heading) = target.split_once('#').unwrap_or((target, ""));
    let path = if file.is_empty() { from.to_path_buf() } else { plain(&from.parent()?.join(file)) };
    if !exists(&path) {
        return Some(format!("{target} is not there"));
    }
    let page = pages.get(&path).filter(|_| !heading.is_empty())?;
    let known = anchors(page).iter().any(|anchor| anchor == heading);
    (!known).then(|| format!("{target}: the page has no such heading"))
}

/// The lines of prose that are too long.
fn wide(page: &str) -> Vec<usize> {
    let mut made = false;
    let lines = prose(page).into_iter().filter(|(_, line)| {
        made = line.starts_with("<!-- made by") || made && !line.starts_with("<!-- end");
        !made
    });
    let lines = lines.filter(|(_, line)| !line.starts_with('|') && !line.starts_with("![") && !line.starts_with('#'));
    let lines = lines.filter(|(_, line)| line.chars().count() > WIDTH && line.trim_start_matches("- ").contains(' '));
    lines.map(|(at, _)| at).collect()
}

/// Adds the pages of a folder.
fn add(root: &Path, folder: &Path, pages: &mut Pages) -> std::io::Result<()> {
    for entry in fs::read_dir(root.join(folder))? {
        let entry = entry?;
        let path = folder.join(entry.file_name());
        if entry.file_type()?.is_dir() {
            // what is compiled is none of it
            if entry.file_name() != "target" {
                add(root, &path, pages)?;
            }
        } else if path.extension().map_or(false, |ending| ending == "md") {
            pages.insert(plain(&path), fs::read_to_string(root.join(&path))?);
        }
    }
    Ok(())
}

/// Two pages, and what is wrong with each link and line of the first.
const SAMPLE: [(&str, &str); 2] = [
    ("README.md", "# One\n[a](docs/A.md) [b](docs/B.md) [c](docs/A.md#the-first-step)\n\n[d](docs/A.md#another) `[e](none)` [f](#one)\n\n    [g](none)\n"),
    ("docs/A.md", "# The first step!\n[up](../README.md#one)\n```\n# no heading\n[h](none)\n```\n## One\n## One\n[i](#one-1) [j](#one-2)\n"),
];
const SAMPLE_FAULTS: [&str; 3] = [
    "README.md:2: docs/B.md is not there",
    "README.md:4: docs/A.md#another: the page has no such heading",
    "docs/A.md:9: #one-2: the page has no such heading",
];

/// What is wrong with pages.
fn faults(pages: &Pages, exists: impl Fn(&Path) -> bool) -> Vec<String> {
    let mut found = vec![];
    for (path, page) in pages {
        let name = path.display();
        for (line, target) in targets(page) {
            found.extend(broken(pages, path, &target, &exists).map(|fault| format!("{name}:{line}: {fault}")));
        }
        found.extend(wide(page).iter().map(|line| format!("{name}:{line}: over {WIDTH} characters")));
    }
    found
}

/// Checks the check on the sample, then every page: each link and each page's width is a test.
pub fn run(root: &Path) -> std::io::Result<Tally> {
    let mut tally = Tally::default();
    let sample: Pages = SAMPLE.iter().map(|(path, page)| (PathBuf::from(path), page.to_string())).collect();
    let found = faults(&sample, |path| sample.contains_key(path));
    tally.count(found == SAMPLE_FAULTS);
    if found != SAMPLE_FAULTS {
        println!("FAILED sample of pages: {found:#?}");
    }
    for (length, long) in [(WIDTH, 0), (WIDTH + 1, 1)] {
        let line = format!("a {}\n", "x".repeat(length - 2));
        let page = format!("{line}| {line}    {line}```\n{line}```\n<!-- made by m -->\n{line}<!-- end -->\n");
        tally.count(wide(&page).len() == long);
    }
    let mut pages = Pages::new();
    for page in ["README.md", "CHANGES.md"] {
        pages.insert(page.into(), fs::read_to_string(root.join(page))?);
    }
    for folder in FOLDERS {
        add(root, Path::new(folder), &mut pages)?;
    }
    let found = faults(&pages, |path| root.join(path).exists());
    found.iter().for_each(|fault| println!("FAILED {fault}"));
    let links: usize = pages.values().map(|page| targets(page).len()).sum();
    tally.failed += found.len();
    tally.passed += (links + pages.len()).saturating_sub(found.len());
    println!(
        "{links} links in {} pages, 3 samples first: {} passed, {} failed",
        pages.len(),
        tally.passed,
        tally.failed
    );
    Ok(tally)
}
