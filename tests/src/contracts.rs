//! The contracts of exported functions: none has a `requires`; each equates the result, and every buffer lent to be written, with something
//! that does not mention it. What is private or `pub(crate)` is free, and so is `main`. What the symbols mean is held to by `symbols`.

use crate::report::Tally;
use crate::source::{self, Function};
use std::fs;
use std::path::{Path, PathBuf};

/// The crate of the functions that cannot say what they give, which bytes come from outside, and these functions.
const UNKNOWN_INPUT: (&str, [&str; 3]) = ("input", ["read_line", "begin", "read_on"]);

/// The fields of the one struct of references, `Tables`: a function that returns it equates what each of them refers to.
const SLICES: [&str; 3] = ["left", "right", "public"];

/// Words that make several statements of one.
const CONNECTIVES: [&str; 9] = ["→", "↔", "×", "⊎", "∨₁", "≡", "≢", "∀", "¬"];
/// Statements that say nothing.
const EMPTY: [&str; 4] = ["⊤", "Unit", "⊤₀", "True"];

/// The tokens without brackets around all of them.
fn bare(mut tokens: &[String]) -> &[String] {
    while tokens.len() > 1 && tokens[0] == "(" && closing(tokens) == tokens.len() - 1 {
        tokens = &tokens[1..tokens.len() - 1];
    }
    tokens
}

/// Where the bracket closes that the tokens begin with.
fn closing(tokens: &[String]) -> usize {
    let mut depth = 0;
    for (at, token) in tokens.iter().enumerate() {
        match token.as_str() {
            "(" | "{" => depth += 1,
            ")" | "}" => depth -= 1,
            _ => (),
        }
        if depth == 0 {
            return at;
        }
    }
    tokens.len()
}

/// The parts between the places of a sign that is in no bracket.
fn parts<'a>(tokens: &'a [String], sign: &str) -> Vec<&'a [String]> {
    let (mut parts, mut start, mut at) = (vec![], 0, 0);
    while at < tokens.len() {
        if tokens[at] == sign {
            parts.push(&tokens[start..at]);
            start = at + 1;
        }
        at += closing(&tokens[at..]) + 1;
    }
    parts.push(&tokens[start..]);
    parts
}

/// Whether a statement is true whatever the function does: one of those that say nothing, two sides of the same tokens, or an implication,
/// a choice or a product with such a part.
fn says_nothing(statement: &[String]) -> bool {
    let statement = bare(statement);
    if let [single] = statement {
        return EMPTY.contains(&single.as_str());
    }
    for sign in ["→", "⊎", "∨₁", "×"] {
        let split = parts(statement, sign);
        if split.len() > 1 {
            let last = split.len() - 1;
            return split.iter().enumerate().any(|(at, part)| (sign != "→" || at == last) && says_nothing(part));
        }
    }
    ["≡", "≤"].iter().any(|sign| {
        let sides = parts(statement, sign);
        sides.len() == 2 && (bare(sides[0]) == bare(sides[1]) || *sign == "≤" && sides[0] == ["0"])
    })
}

/// The word for what a function gives.
const RESULT: &str = "result";

/// Whether a token is of the result, or of what is left in a buffer.
fn is_of_after(token: &String) -> bool {
    let mut parts = token.split('.');
    parts.next() == Some(RESULT) || parts.any(|part| ["new", "exit"].contains(&part))
}

/// Whether a statement equates a token with others that mention neither the result nor what is left in a buffer.
fn equates(statement: &[String], token: &str) -> bool {
    let sides = parts(statement, "≡");
    let single = |side: &[String]| CONNECTIVES.iter().all(|sign| parts(side, sign).len() == 1);
    sides.len() == 2 && sides[0] == [token] && single(sides[1]) && !sides[1].iter().any(is_of_after)
}

/// What is wrong with the contract of an exported function.
fn fault(function: &Function) -> Option<String> {
    let kind = |kind: &'static str| function.clauses.iter().filter(move |clause| clause.0 == kind);
    if kind("requires").next().is_some() || kind("requires*").next().is_some() {
        return Some("has a requires".into());
    }
    if kind("ensures*").next().is_some() {
        return Some("has an ensures that is no plain fact".into());
    }
    if kind("ensures").next().is_none() {
        return Some("has no ensures".into());
    }
    if function.parameters.iter().any(|(name, _)| name == RESULT) {
        return Some("has a parameter with the result's name".into());
    }
    if function.clauses.iter().any(|(_, text)| ["--", "{-", "//", "/*"].iter().any(|sign| text.contains(sign))) {
        return Some("has a comment in its contract".into());
    }
    let statements: Vec<Vec<String>> = kind("ensures").map(|(_, text)| source::tokens(text)).collect();
    if statements.iter().any(|statement| says_nothing(statement)) {
        return Some("has an ensures that says nothing".into());
    }
    let equated = |token: &str| statements.iter().any(|statement| equates(statement, token));
    let each = |fields: &[&str]| fields.iter().all(|field| equated(&format!("{RESULT}.{field}.now")));
    if function.result && !equated(RESULT) && !equated(&format!("{RESULT}.now")) && !each(&SLICES) {
        return Some("does not equate its result".into());
    }
    let mut lent = function.parameters.iter().filter(|parameter| parameter.1);
    let unequated = lent.find(|(name, _)| !equated(&format!("{name}.new")));
    unequated.map(|(name, _)| format!("does not equate what it leaves in {name}"))
}

/// Each exported function of a source, methods too, with what is wrong with its contract.
fn exported(source: &str) -> Vec<(String, Option<String>)> {
    let functions = source::functions(source);
    let exported = functions.iter().filter(|function| function.exported && function.name != "main");
    exported.map(|function| (function.name.clone(), fault(function))).collect()
}

/// Sources with what is wrong with each exported function, "" where nothing is: what this check is held to.
#[rustfmt::skip]
const SAMPLES: &[(&str, &[(&str, &str)])] = &[
    ("pub fn f(x: u8) -> u8\n    ensures { result ≡ x }\n{\n    x\n}", &[("f", "")]),
    ("pub fn f(x: u8) -> u8 { x }", &[("f", "has no ensures")]),
    ("pub fn f(x: T<'_>) -> T<'_>\n    ensures l { result.left.now ≡ x.entry.left.now }\n    ensures r { result.right.now ≡ [] }\n    ensures p { result.public.now ≡ [] }\n{ x }", &[("f", "")]),
    ("pub fn f(x: T<'_>) -> T<'_>\n    ensures l { result.left.now ≡ x.entry.left.now }\n    ensures r { result.right.now ≡ [] }\n{ x }", &[("f", "does not equate its result")]),
    ("pub fn f(x: u8) -> [u8; 4]\n    ensures { result ≡ replicate 4 x }\n{ [x; 4] }", &[("f", "")]),
    ("pub fn f(x: u8) -> [u8; 4]\n{ [x; 4] }", &[("f", "has no ensures")]),
    ("pub fn f(x: u8) -> u8\n    requires { x < 9 }\n    ensures { result ≡ x }\n{ x }", &[("f", "has a requires")]),
    ("pub fn f(x: u8) -> u8\n    ensures { result ≡ record { a = x } }\n    requires { x < 9 }\n{ x }", &[("f", "has a requires")]),
    ("pub fn f(x: u8) -> u8\n    // ensures { result ≡ x }\n{ x }", &[("f", "has no ensures")]),
    ("pub fn f(x: u8) -> u8\n    /* ensures { result ≡ x } */\n{ x }", &[("f", "has no ensures")]),
    ("pub fn f(x: u8) -> u8\n    /* a /* b */ ensures { result ≡ x } */\n{ x }", &[("f", "has no ensures")]),
    ("pub fn f(x: u8) -> u8\n    /* // */ ensures { result ≡ x }\n{ x }", &[("f", "")]),
    ("pub fn f(x: u8) -> u8\n    // /*\n    ensures { result ≡ x } // */\n{ x }", &[("f", "")]),
    ("const A: &[u8] = b\"/*\";\npub fn f(x: u8) -> u8 { b'\"' }\nconst B: &[u8] = b\"*/\\\" ensures { }\";\npub fn g() { '/' }", &[("f", "has no ensures"), ("g", "has no ensures")]),
    ("const A: &str = r#\"\" /* \"#;\npub fn f(x: u8) -> u8 { x }", &[("f", "has no ensures")]),
    ("/* pub fn f(x: u8) { } */ pub fn g<'a>(x: &'a u8) -> &'a u8 { x }", &[("g", "has no ensures")]),
    ("pub fn f(x: u8) -> u8\n    ensures { result ≡ 1 -- + 6\n }\n{ 1 }", &[("f", "has a comment in its contract")]),
    ("pub fn f(x: u8) -> u8\n    ensures { result ≡ {- 7 -} 1 }\n{ 1 }", &[("f", "has a comment in its contract")]),
    ("pub fn f(x: u8) -> u8\n    ensures { result ≡ result }\n{ x }", &[("f", "has an ensures that says nothing")]),
    ("pub fn f(x: u8) -> u8\n    ensures { result ≡ (result) }\n{ x }", &[("f", "has an ensures that says nothing")]),
    ("pub fn f(x: u8) -> u8\n    ensures { result ≡ x }\n    ensures { (x + 1) ≡ x + 1 }\n{ x }", &[("f", "has an ensures that says nothing")]),
    ("pub fn f(x: u8) -> u8\n    ensures { ⊤ }\n{ x }", &[("f", "has an ensures that says nothing")]),
    ("pub fn f(x: u8) -> u8\n    ensures { (Unit) }\n{ x }", &[("f", "has an ensures that says nothing")]),
    ("pub fn f(x: u8) -> u8\n    ensures { result ≡ x → (x ≡ 1 → result ≡ result) }\n{ x }", &[("f", "has an ensures that says nothing")]),
    ("pub fn f(x: u8) -> u8\n    ensures { (result ≡ x) ⊎ ⊤ }\n{ x }", &[("f", "has an ensures that says nothing")]),
    ("pub fn f(x: u8) -> u8\n    ensures { 0 ≤ result }\n{ x }", &[("f", "has an ensures that says nothing")]),
    ("pub fn f(x: u8) -> u8\n    ensures { result ≡ cond true result x }\n{ x }", &[("f", "does not equate its result")]),
    ("pub fn f(x: u8) -> u8\n    ensures { result ≤ x }\n{ x }", &[("f", "does not equate its result")]),
    ("pub fn f(x: u8) -> u8\n    ensures { x ≡ 1 → result ≡ x }\n{ x }", &[("f", "does not equate its result")]),
    ("pub fn f(x: u8) -> u8\n    ensures { result ≡ x → x ≡ 1 }\n{ x }", &[("f", "does not equate its result")]),
    ("pub fn f(x: u8) -> u8\n    ensures { 1 ≡ 2 }\n{ x }", &[("f", "does not equate its result")]),
    ("pub fn f(x: u8) -> u8\n    ensures { True }\n{ x }", &[("f", "has an ensures that says nothing")]),
    ("pub fn f(x: u8) -> u8\n    ensures* { result ≡ x }\n{ x }", &[("f", "has an ensures that is no plain fact")]),
    ("pub fn f(x: u8) -> u8\n    ensures* value { result ≡ x }\n{ x }", &[("f", "has an ensures that is no plain fact")]),
    ("pub fn f(result: u8) -> u8\n    ensures { result ≡ 1 }\n{ 1 }", &[("f", "has a parameter with the result's name")]),
    ("pub fn f(x: u8) -> Two\n    ensures { result ≡ swap result.left x }\n{ x }", &[("f", "does not equate its result")]),
    ("pub fn f(x: u8, b: &mut [u8]) -> u8\n    ensures value { result ≡ x }\n    ensures after { b.new ≡ take 2 b.old }\n{ x }", &[("f", "")]),
    ("pub fn f(x: u8, b: &mut [u8]) -> u8\n    ensures value { result ≡ length b.new }\n    ensures after { b.new ≡ b.old }\n{ x }", &[("f", "does not equate its result")]),
    ("pub fn f<F: Fn(u8) -> u8, I: Read>(f: F, b: &mut I) -> u8\n    ensures { result ≡ 7 }\n{ 7 }", &[("f", "does not equate what it leaves in b")]),
    ("pub fn f(b: &[u8]) -> &[u8]\n    ensures { result.now ≡ take 2 b.old }\n{ b }", &[("f", "")]),
    ("pub fn f(b: &mut [u8])\n    ensures { b.new ≡ cleared b.old }\n{ }", &[("f", "")]),
    ("pub fn f(b: &mut [u8]) -> u8\n    ensures { result ≡ 0 }\n{ 0 }", &[("f", "does not equate what it leaves in b")]),
    ("pub fn f(b: &mut [u8])\n    ensures { b.new ≡ drop 0 b.new }\n{ }", &[("f", "does not equate what it leaves in b")]),
    ("pub fn f(b: &'a mut [u8])\n    ensures { b.new ≡ b.exit.now }\n{ }", &[("f", "does not equate what it leaves in b")]),
    ("pub fn f(b: &'a mut [u8]) -> u8\n    ensures value { result ≡ length b.exit.now }\n    ensures after { b.new ≡ b.old }\n{ 0 }", &[("f", "does not equate its result")]),
    ("pub fn f(a: &mut [u8; 4], c: u8, b: &'a mut [u8])\n    ensures { a.new ≡ a.old }\n{ }", &[("f", "does not equate what it leaves in b")]),
    ("pub fn f()\n    ghost { ℕ }\n    ensures kept { length m ≡ 0 }\n{ }\nfn g() { }\npub(crate) fn h() requires { ⊥ } { }", &[("f", "")]),
    ("#[unsafe(no_mangle)]\npub extern \"C\" fn f(x: u8) -> u8 { x }", &[("f", "has no ensures")]),
    ("pub struct S { pub at: usize }\nimpl S {\n    const N: u8 = 3;\n    pub fn new() -> S { S { at: 0 } }\n    fn own(self) -> u8 { 1 }\n}", &[("new", "has no ensures")]),
    ("impl S {\n    pub fn a<'a>(s: &'a [u8; 4]) -> &'a [u8]\n        ensures kept { result ≡ s }\n    { s }\n    pub fn b(&mut self)\n        ensures { self.new ≡ s }\n    { }\n    pub fn c(self) { }\n}",
        &[("a", ""), ("b", ""), ("c", "has no ensures")]),
    ("pub fn main() { }\nfn f() { }", &[]),
];

/// The files below a folder with this ending, in the order of their paths. What `rt` makes, `out` beside a crate's `src`, is none of it.
pub fn files(folder: &Path, ending: &str) -> std::io::Result<Vec<PathBuf>> {
    let (mut folders, mut found) = (vec![folder.to_owned()], vec![]);
    while let Some(folder) = folders.pop() {
        for entry in fs::read_dir(folder)? {
            let path = entry?.path();
            if path.is_dir() {
                let made = path.ends_with("out") && path.with_file_name("src").is_dir();
                folders.extend(Some(path).filter(|_| !made));
            } else if path.extension().map_or(false, |extension| extension == ending) {
                found.push(path);
            }
        }
    }
    found.sort();
    Ok(found)
}

/// Checks the check on the samples, then every source of every crate.
pub fn run(crates: &Path) -> std::io::Result<Tally> {
    let mut tally = Tally::default();
    for (number, (source, expected)) in SAMPLES.iter().enumerate() {
        let found = exported(source);
        let faults = found.iter().map(|(name, fault)| (name.as_str(), fault.as_deref().unwrap_or("")));
        let right = faults.eq(expected.iter().copied());
        tally.count(right);
        if !right {
            println!("FAILED contract sample {}: {found:?}", number + 1);
        }
    }
    let (exempt, functions) = UNKNOWN_INPUT;
    for path in files(crates, "rt")? {
        for (name, fault) in exported(&fs::read_to_string(&path)?) {
            let known = functions.contains(&name.as_str()) && path.starts_with(crates.join(exempt));
            let fault = match fault {
                Some(fault) if known && fault == "does not equate its result" => None,
                None if known => Some("is no exception any more".into()),
                fault => fault,
            };
            tally.count(fault.is_none());
            if let Some(fault) = fault {
                println!("FAILED contract: {}: pub fn {name} {fault}", path.display());
            }
        }
    }
    println!(
        "contracts of exported functions, {} samples first: {} passed, {} failed",
        SAMPLES.len(),
        tally.passed,
        tally.failed
    );
    Ok(tally)
}
