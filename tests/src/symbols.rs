//! What symbols mean: every operator, and every name of the library that contracts and definitions use, has the library's
//! meaning. With an own `◌≡◌` that is always true a function that gives 1 would ensure that it gives 7.

use crate::antt;
use crate::contracts;
use crate::report::Tally;
use crate::source::{self, Import};
use std::fs;
use std::path::Path;

/// The modules of the library that give symbols their meaning: one that contracts take nearly all from, and others that pass some on.
#[rustfmt::skip]
const HOMES: &[(&str, &[&str])] = &[
    ("Rattle.std.specs.Prelude", &[
        "◌≡◌", "◌≢◌", "◌⊎◌", "◌↔◌", "Bool", "true", "false", "not", "cond", "◌&&◌", "◌||◌", "eqb", "ltb", "leb",
        "ℕ", "zero", "suc", "min", "max", "◌+◌", "◌-◌", "◌*◌", "◌/◌", "◌%◌", "◌^◌", "◌<◌", "◌≤◌", "bit_and", "bit_or", "bit_xor",
        "List", "[]", "◌∷◌", "◌++◌", "map", "reverse", "length", "get_or", "set", "take", "drop", "replicate",
        "IfSome", "IsSomeAnd", "if◌then◌else◌", "◌==◌",
    ]),
    ("mathlib.Core.List", &["List", "[]", "◌∷◌", "◌++◌", "flatten"]),
    ("Rattle.std.proofs.Math.ListN", &["length"]),
    ("Rattle.std.proofs.lemmas.List.Edits", &["sets"]),
    ("Rattle.std.specs.Int.Bits", &["bit_and", "bit_or", "bit_xor"]),
];
/// Words that contracts have without a module: what a function gives. What is behind a reference has a dot before its word.
const BUILT_IN: [&str; 1] = ["result"];
/// Signs that contracts have without a module.
const SIGNS: [&str; 13] = ["(", ")", "{", "}", ".", ";", ",", ":", "=", "λ", "→", "×", "\""];
/// Operators of the project's own, none of which is in a contract, and where each is defined.
const OWN: [(&str, &str); 2] = [("◌⊕◌", "words/specs/Booleans.antt"), ("◌·◌", "demand2/proofs/Marked.antt")];
/// A name of the library that a crate has for something else, and cites with its module in front.
const SECOND: (&str, &str, &str) = ("sets", "state/specs/WellFormed.antt", "Rattle.state.specs.WellFormed");

/// The modules that give a symbol its meaning, the usual one first.
fn homes(name: &str) -> Vec<&'static str> {
    HOMES.iter().filter(|(_, names)| names.contains(&name)).map(|(module, _)| *module).collect()
}

/// Whether a name has a meaning of the library's.
fn is_symbol(name: &str) -> bool {
    !homes(name).is_empty()
}

/// Whether a name is that of an operator.
fn is_operator(name: &str) -> bool {
    name.contains('◌')
}

/// Whether a module is the project's.
fn is_own(module: &str) -> bool {
    source::own_module(module).is_some()
}

/// What is wrong with what a file brings. Proofs may take a name of the library's from another module of the kit.
fn import_fault(import: &Import, proof: bool) -> Option<String> {
    let Import { module, name, local } = import;
    let renamed = name != local && !name.is_empty();
    let second = proof && (local.as_str(), module.as_str()) == (SECOND.0, SECOND.2);
    let homes = homes(local);
    match homes.first() {
        Some(_) if homes.contains(&module.as_str()) && !renamed => return None,
        Some(_) if second || proof && !is_own(module) && !renamed => return None,
        Some(home) => return Some(format!("{local} is brought from {module} {name} and not from {home}")),
        None => (),
    }
    if self::homes(name).contains(&module.as_str()) && renamed {
        return Some(format!("{name} is brought under the name {local}"));
    }
    if !proof && BUILT_IN.contains(&local.as_str()) {
        return Some(format!("{local} is brought from {module}"));
    }
    let known = OWN.iter().any(|own| own.0 == local);
    if is_operator(local) && is_own(module) && (renamed || !known) {
        return Some(format!("the operator {local} is brought from {module}"));
    }
    None
}

/// What is wrong with the symbols of a Rattle source.
fn source_faults(text: &str) -> Vec<String> {
    let imports: Vec<Import> =
        source::ghost_uses(text).iter().flat_map(|item| source::imports(&format!("use {item}"))).collect();
    let mut faults: Vec<String> = imports.iter().filter_map(|import| import_fault(import, false)).collect();
    for function in source::functions(text) {
        let parameters: Vec<&str> = function.parameters.iter().map(|(name, _)| name.as_str()).collect();
        for name in parameters.iter().filter(|_| !function.clauses.is_empty()) {
            let brought = imports.iter().any(|import| import.local == *name);
            if BUILT_IN.contains(name) || is_symbol(name) && brought {
                faults.push(format!("{name} is a parameter of {}", function.name));
            }
        }
        for (_, clause) in &function.clauses {
            let tokens = source::tokens(&source::uncommented(clause));
            faults.extend(tokens.iter().filter_map(|token| use_fault(token, &imports, &parameters)));
            faults.extend(binder_faults(&tokens));
        }
    }
    faults
}

/// What is wrong with a token of a contract: a symbol must be brought, and a name with a module in front must not be a symbol's.
fn use_fault(token: &str, imports: &[Import], parameters: &[&str]) -> Option<String> {
    if let Some((first, rest)) = token.split_once('.').filter(|(first, _)| !first.is_empty()) {
        let module = imports.iter().find(|import| import.name.is_empty() && import.local == first);
        if module.is_none() && !first.starts_with(char::is_uppercase) {
            // what is behind a name is a field of it
            return use_fault(first, imports, parameters);
        }
        let module = module.map_or(first, |import| import.module.as_str());
        let last = rest.rsplit('.').next().unwrap_or("");
        let homes = homes(last);
        let symbol = if homes.is_empty() { is_operator(last) } else { !homes.contains(&module) };
        let second = (last, module) == (SECOND.0, SECOND.2);
        return (symbol && !second && !parameters.contains(&first)).then(|| format!("a contract has {token}"));
    }
    let infix = format!("◌{token}◌");
    let name = if is_symbol(&infix) { &infix } else { token };
    let brought = imports.iter().any(|import| import.local == name);
    let signs = !token.chars().any(|sign| sign.is_alphanumeric() || "_.".contains(sign));
    if parameters.contains(&token) {
        return None;
    }
    let missing = is_symbol(name) || is_operator(token) || signs && !SIGNS.contains(&token);
    (missing && !brought).then(|| format!("a contract has {token}, which no ghost use brings"))
}

/// Names that a contract binds and that are symbols.
fn binder_faults(tokens: &[String]) -> Vec<String> {
    let mut faults = vec![];
    for (at, _) in tokens.iter().enumerate().filter(|(_, token)| ["λ", "∀", "let"].contains(&token.as_str())) {
        let bound = tokens[at + 1..].iter().take_while(|token| ![".", "="].contains(&token.as_str()));
        let symbols = bound.filter(|name| is_symbol(name) || BUILT_IN.contains(&name.as_str()) || is_operator(name));
        faults.extend(symbols.map(|name| format!("a contract binds {name}")));
    }
    faults
}

/// What is wrong with the symbols of a file of definitions or proofs; `path` from the crates' folder on.
fn definition_faults(path: &str, text: &str) -> Vec<String> {
    let proof = path.contains("/proofs/");
    let imports = source::imports(&source::uncommented(text));
    let mut faults: Vec<String> = imports.iter().filter_map(|import| import_fault(import, proof)).collect();
    for antt::Definition { name, field } in antt::definitions(text) {
        let second = (name.as_str(), path) == (SECOND.0, SECOND.1);
        let own = second || OWN.contains(&(name.as_str(), path));
        let symbol = is_symbol(&name) || !proof && BUILT_IN.contains(&name.as_str());
        if is_operator(&name) && !own || symbol && !field && !own {
            faults.push(format!("{name} is given a meaning"));
        }
    }
    faults
}

/// What is in a file, by its path from the crates' folder on.
fn faults(path: &str, text: &str) -> Vec<String> {
    if path.ends_with(".rt") {
        source_faults(text)
    } else {
        definition_faults(path, text)
    }
}

/// Files, and what is wrong with them, "" where nothing is: what this check is held to.
#[rustfmt::skip]
const SAMPLES: &[(&str, &str, &str)] = &[
    ("a/src/lib.rt", "ghost use Rattle.std.specs.Prelude.{◌≡◌};\nfn f() -> u8 ensures { result ≡ 7 } { 7 }", ""),
    ("a/src/lib.rt", "ghost use Rattle.a.specs.M.{◌≡◌};\nfn f() -> u8 ensures { result ≡ 7 } { 1 }", "◌≡◌ is brought from Rattle.a.specs.M ◌≡◌ and not from Rattle.std.specs.Prelude"),
    ("a/src/lib.rt", "ghost use Rattle.std.specs.Prelude.{◌≤◌ as ◌≡◌};\nfn f() -> u8 ensures { result ≡ 7 } { 1 }", "◌≡◌ is brought from Rattle.std.specs.Prelude ◌≤◌ and not from Rattle.std.specs.Prelude"),
    ("a/src/lib.rt", "ghost use Rattle.std.specs.Prelude.{◌≡◌ as ◌≤◌};", "◌≤◌ is brought from Rattle.std.specs.Prelude ◌≡◌ and not from Rattle.std.specs.Prelude"),
    ("a/src/lib.rt", "ghost use Rattle.std.specs.Prelude.{◌≤◌ as ◌below◌};", "◌≤◌ is brought under the name ◌below◌"),
    ("a/src/lib.rt", "// ghost use Rattle.std.specs.Prelude.{◌≡◌};\nfn f() -> u8 ensures { result ≡ 7 } { 1 }", "a contract has ≡, which no ghost use brings"),
    ("a/src/lib.rt", "/* ghost use Rattle.std.specs.Prelude.{◌≡◌}; */\nfn f() -> u8 ensures { result ≡ 7 } { 1 }", "a contract has ≡, which no ghost use brings"),
    ("a/src/lib.rt", "ghost use Rattle.std.specs.Prelude.{◌≡◌};\nghost use Rattle.std.specs.Prelude.{length, take};\nfn f(s: &[u8]) -> u8 ensures { result ≡ length (take 2 s.now) } { 1 }", ""),
    ("a/src/lib.rt", "ghost use Rattle.std.specs.Prelude.{◌≡◌};\nghost use Rattle.std.specs.Prelude.{take};\nghost use Rattle.a.specs.M.{length};\nfn f() { }", "length is brought from Rattle.a.specs.M length and not from Rattle.std.specs.Prelude"),
    ("a/src/lib.rt", "ghost use Rattle.std.specs.Prelude.{◌≡◌};\nghost use Rattle.a.specs.M.{size as length};", "length is brought from Rattle.a.specs.M size and not from Rattle.std.specs.Prelude"),
    ("a/src/lib.rt", "ghost use Rattle.std.specs.Prelude.{◌≡◌};\nghost use Rattle.std.specs.Prelude as Prelude;\nfn f(s: &[u8]) -> u8 ensures { result ≡ Prelude.length s.now } { 1 }", ""),
    ("a/src/lib.rt", "ghost use Rattle.std.specs.Prelude.{◌≡◌};\nghost use Rattle.a.specs.M as M;\nfn f(s: &[u8]) -> u8 ensures { result ≡ M.size s.now } { 1 }", ""),
    ("a/src/lib.rt", "ghost use Rattle.std.specs.Prelude.{◌≡◌};\nghost use Rattle.a.specs.M as M;\nfn f(s: &[u8]) -> u8 ensures { result ≡ M.length s.now } { 1 }", "a contract has M.length"),
    ("a/src/lib.rt", "ghost use Rattle.std.specs.Prelude.{◌≡◌};\nghost use Rattle.a.specs.M as ListN;\nfn f(s: &[u8]) -> u8 ensures { result ≡ ListN.length s.now } { 1 }", "a contract has ListN.length"),
    ("a/src/lib.rt", "ghost use Rattle.std.specs.Prelude.{◌≡◌};\nghost use Rattle.std.specs.Prelude.{length};\nfn f(length: u8) -> u8 ensures { result ≡ 7 } { 1 }", "length is a parameter of f"),
    ("a/src/lib.rt", "ghost use Rattle.std.specs.Prelude.{◌≡◌};\nfn f(length: u8) -> u8 ensures { result ≡ length } { 1 }", ""),
    ("a/src/lib.rt", "ghost use Rattle.std.specs.Prelude.{◌≡◌};\nfn f(s: &[u8]) -> u8 ensures { result ≡ length s.now } { 1 }", "a contract has length, which no ghost use brings"),
    ("a/src/lib.rt", "ghost use Rattle.std.specs.Prelude.{◌≡◌};\nfn f(now: u8) -> u8 ensures { result ≡ now } { now }", ""),
    ("a/src/lib.rt", "ghost use Rattle.std.specs.Prelude.{◌≡◌};\nfn f(s: S) -> u8 ensures { result ≡ s.length } { 1 }", ""),
    ("a/src/lib.rt", "ghost use Rattle.std.specs.Prelude.{◌≡◌};\nfn f() -> u8 ensures { (λ ◌≡◌. result ≡ 7) always } { 1 }", "a contract binds ◌≡◌"),
    ("a/src/lib.rt", "ghost use Rattle.std.specs.Prelude.{◌≡◌};\nfn f() -> u8 ensures { let true = false in result ≡ 7 } { 1 }", "a contract has true, which no ghost use brings; a contract has false, which no ghost use brings; a contract binds true"),
    ("a/src/lib.rt", "ghost use Rattle.std.specs.Prelude.{◌≡◌};\nghost use Rattle.a.specs.M.{◌≐◌};\nfn f() -> u8 ensures { result ≐ 7 } { 1 }", "the operator ◌≐◌ is brought from Rattle.a.specs.M; a contract has ≐, which no ghost use brings"),
    ("a/src/lib.rt", "ghost use Rattle.std.specs.Prelude.{◌≡◌};\nfn f() -> u8 ensures { result ≐ 7 } { 1 }", "a contract has ≐, which no ghost use brings"),
    ("a/src/lib.rt", "ghost use Rattle.a.specs.M.{result};", "result is brought from Rattle.a.specs.M"),
    ("a/src/lib.rt", "ghost use Rattle.a.specs.M.{seven as result};\nfn f() -> u8 ensures { result ≡ 7 } { 1 }", "result is brought from Rattle.a.specs.M; a contract has ≡, which no ghost use brings"),
    ("a/src/lib.rt", "ghost use Rattle.std.specs.Prelude.{◌≡◌};\nfn f(result: u8) -> u8 ensures { result ≡ 7 } { 1 }", "result is a parameter of f"),
    ("a/src/lib.rt", "ghost use Rattle.std.specs.Prelude.{◌≡◌};\nfn f() -> u8 ensures { result ≡ length.size } { 1 }", "a contract has length, which no ghost use brings"),
    ("a/src/lib.rt", "ghost use Rattle.std.specs.Int.Bits.{bit_and};\nghost use Rattle.std.specs.Prelude.{bit_or};\nghost use Rattle.std.specs.Float.{bit_xor};", "bit_xor is brought from Rattle.std.specs.Float bit_xor and not from Rattle.std.specs.Prelude"),
    ("a/src/lib.rt", "ghost use Rattle.std.specs.Prelude.{◌≡◌};\nfn f(left_rows: u8) -> u8 ensures { result ≡ left_rows } { 1 }", ""),
    ("a/specs/M.antt", "use Rattle.std.specs.Prelude.{ℕ}\n-- all of them\nabbrev pub filled : ℕ → ℕ\nfilled n = n", ""),
    ("a/specs/M.antt", "use Rattle.std.specs.Prelude.{ℕ}\npub ◌≡◌ : ℕ → ℕ → Type 0\na ≡ b = record {}", "◌≡◌ is given a meaning"),
    ("a/specs/M.antt", "use Rattle.std.specs.Prelude.{ℕ}\n  abbrev ◌<◌ : ℕ → ℕ → Type 0", "◌<◌ is given a meaning"),
    ("a/proofs/M.antt", "pub ◌≤◌ {ℓ} : ℕ → ℕ → Type ℓ", "◌≤◌ is given a meaning"),
    ("a/proofs/M.antt", "pub data ◌⊎◌ (A B : Type 0) : Type 0 where", "◌⊎◌ is given a meaning"),
    ("a/specs/M.antt", "data Two : Type 0 where\n  true : Two", "true is given a meaning"),
    ("a/specs/M.antt", "-- abbrev pub length : ℕ\n{- abbrev pub\nlength : ℕ -}", ""),
    ("a/specs/M.antt", "unfoldable pub length : List ℕ → ℕ\nlength words = 0", "length is given a meaning"),
    ("a/specs/M.antt", "length : List ℕ → ℕ\nlength words = 0", "length is given a meaning"),
    ("a/specs/M.antt", "pub record Text : Type 0 where\n  pub length : ℕ", ""),
    ("a/specs/M.antt", "pub record Text : Type 0 where\n  pub size : ℕ\nlength : ℕ", "length is given a meaning"),
    ("a/specs/M.antt", "open Text t using (size as length)", "length is given a meaning"),
    ("a/specs/M.antt", "abbrev pub result : ℕ → ℕ", "result is given a meaning"),
    ("a/specs/M.antt", "use Rattle.std.specs.Prelude.{take as drop}", "drop is brought from Rattle.std.specs.Prelude take and not from Rattle.std.specs.Prelude"),
    ("a/specs/M.antt", "use Rattle.b.specs.M.{◌≡◌}", "◌≡◌ is brought from Rattle.b.specs.M ◌≡◌ and not from Rattle.std.specs.Prelude"),
    ("a/specs/M.antt", "use types.Kit.{drop}", "drop is brought from types.Kit drop and not from Rattle.std.specs.Prelude"),
    ("a/proofs/M.antt", "use types.Kit.{drop}", ""),
    ("a/proofs/M.antt", "use Rattle.b.specs.M.{drop}", "drop is brought from Rattle.b.specs.M drop and not from Rattle.std.specs.Prelude"),
    ("a/specs/M.antt", "pub ◌⊕◌ : Bool → Bool → Bool", "◌⊕◌ is given a meaning"),
    ("words/specs/Booleans.antt", "pub ◌⊕◌ : Bool → Bool → Bool", ""),
];

/// Checks the check on the samples, then every source, definition and proof.
pub fn run(crates: &Path) -> std::io::Result<Tally> {
    let mut tally = Tally::default();
    for (number, (path, text, expected)) in SAMPLES.iter().enumerate() {
        let found = faults(path, text).join("; ");
        tally.count(found == *expected);
        if found != *expected {
            println!("FAILED symbol sample {}: {found}", number + 1);
        }
    }
    let (paths, mut wrong) = ([contracts::files(crates, "rt")?, contracts::files(crates, "antt")?].concat(), 0);
    for path in &paths {
        let within = path.strip_prefix(crates).unwrap_or(path).to_string_lossy().into_owned();
        for fault in faults(&within, &fs::read_to_string(path)?) {
            println!("FAILED symbols: {within}: {fault}");
            wrong += 1;
        }
    }
    tally.passed += usize::from(wrong == 0);
    tally.failed += wrong;
    let (files, samples) = (paths.len(), SAMPLES.len());
    println!("symbols of {files} files, {samples} samples first: {} passed, {} failed", tally.passed, tally.failed);
    Ok(tally)
}
