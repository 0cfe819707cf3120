//! The crate that is compiled for hosts, `forkhemit`, exports each function of the crates `host_*` that hosts call, and adds nothing: the same
//! parameters and types, the same contract over the same definitions, and a body that is one call of it.

use crate::contracts;
use crate::report::Tally;
use crate::source::{self, Function, Import};
use std::collections::BTreeMap;
use std::fs;
use std::path::Path;

/// The crate that exports.
pub const EXPORTS: &str = "forkhemit";
/// How the names of the functions begin.
const START: &str = "forkhemit_";

/// A function, the path by which code calls it, and what its file imports for contracts.
struct Placed {
    path: String,
    function: Function,
    imports: Vec<Import>,
}

/// Functions by their names.
type Functions = BTreeMap<String, Placed>;

/// The functions for hosts in a source; `path` is from the crates' folder on, without ending.
fn of_hosts(path: &str, text: &str) -> Functions {
    let path = path.replace("/src/lib", "").replace("/src/", "::").replace('/', "::");
    let imports = || source::ghost_uses(text).iter().flat_map(|item| source::imports(&format!("use {item}"))).collect();
    let functions = source::functions(text).into_iter().filter(|f| f.exported && f.name.starts_with(START));
    let placed = |function: Function| Placed { path: path.clone(), function, imports: imports() };
    functions.map(|function| (function.name.clone(), placed(function))).collect()
}

/// A contract without the spaces and line ends that layout has, each imported name with the module that it is from.
fn contract(placed: &Placed) -> Vec<(&str, Vec<String>)> {
    let whole = |token: String| {
        let (first, fields) = token.split_once('.').unwrap_or((&token, ""));
        match placed.imports.iter().find(|import| import.local == first) {
            Some(import) => {
                let parts = [import.module.as_str(), &import.name, fields];
                parts.into_iter().filter(|part| !part.is_empty()).collect::<Vec<_>>().join(".")
            }
            None => token,
        }
    };
    let clauses = placed.function.clauses.iter();
    clauses.map(|(kind, text)| (kind.as_str(), source::tokens(text).into_iter().map(whole).collect())).collect()
}

/// What is wrong with an export of a host crate's function.
fn fault(own: &Placed, export: &Placed) -> Option<String> {
    let path = &own.path;
    let parameters: Vec<&str> = own.function.parameters.iter().map(|(name, _)| name.as_str()).collect();
    let call = format!("{path}::{}({})", own.function.name, parameters.join(","));
    // a call may be laid out on lines of its own, with a comma behind the last argument
    let body = export.function.body.concat().replace(",)", ")");
    if export.function.signature != own.function.signature {
        Some("has other parameters".into())
    } else if contract(export) != contract(own) {
        Some("has another contract".into())
    } else if body != call {
        Some(format!("is not one call of {path}"))
    } else {
        None
    }
}

/// What is wrong with exports, beside the functions of host crates: a line each.
fn faults(own: &Functions, exports: &Functions) -> Vec<String> {
    let mut found = vec![];
    for (name, function) in own {
        let fault = exports.get(name).map_or(Some("is not exported".into()), |export| fault(function, export));
        found.extend(fault.map(|fault| format!("{name} {fault}")));
    }
    let others = exports.keys().filter(|name| !own.contains_key(*name));
    found.extend(others.map(|name| format!("{name} is no function of a host crate")));
    found
}

/// A host crate's source, an export, and what is wrong with it.
#[rustfmt::skip]
const SAMPLES: &[(&str, &str, &[&str])] = &[
    ("pub extern \"C\" fn forkhemit_f(a: u8, b: &mut [u8]) -> u8\n    ensures value { result ≡ f a }\n    ensures after { b.new ≡ b.old }\n{ 1 }",
        "pub extern \"C\" fn forkhemit_f(\n    a: u8,\n    b: &mut [u8],\n) -> u8\n    ensures value { result\n        ≡ f a }\n    ensures after { b.new ≡ b.old }\n{\n    host_a::deep::forkhemit_f(\n        a,\n        b,\n    )\n}", &[]),
    ("pub fn forkhemit_f(a: u8) -> u8 ensures { result ≡ f a } { a }", "pub fn forkhemit_f(a: u8) -> u8 ensures { result ≡ f 0 } { host_a::deep::forkhemit_f(a) }", &["forkhemit_f has another contract"]),
    ("pub fn forkhemit_f(a: u8) -> u8 ensures { result ≡ f a } { a }", "pub fn forkhemit_f(a: u8) -> u8 { host_a::deep::forkhemit_f(a) }", &["forkhemit_f has another contract"]),
    ("pub fn forkhemit_f(a: u8, b: u8) -> u8 { a }", "pub fn forkhemit_f(b: u8, a: u8) -> u8 { host_a::deep::forkhemit_f(a, b) }", &["forkhemit_f has other parameters"]),
    ("pub fn forkhemit_f(a: u8, b: u8) -> u8 { a }", "pub fn forkhemit_f(a: u8, b: u8) -> u8 { host_a::deep::forkhemit_f(b, a) }", &["forkhemit_f is not one call of host_a::deep"]),
    ("pub fn forkhemit_f(a: &[u32]) -> u8 { a }", "pub fn forkhemit_f(a: &[u32; 101]) -> u8 { host_a::deep::forkhemit_f(a) }", &["forkhemit_f has other parameters"]),
    ("pub fn forkhemit_f(a: u8) -> u8 { a }", "pub fn forkhemit_f(a: u8) -> u64 { host_a::deep::forkhemit_f(a) }", &["forkhemit_f has other parameters"]),
    ("ghost use Rattle.a.specs.F.{f};\npub fn forkhemit_f(a: u8) -> u8 ensures { result ≡ f a } { a }",
        "ghost use Rattle.b.specs.F.{f};\npub fn forkhemit_f(a: u8) -> u8 ensures { result ≡ f a } { host_a::deep::forkhemit_f(a) }", &["forkhemit_f has another contract"]),
    ("ghost use Rattle.a.specs.F.{f};\npub fn forkhemit_f(a: u8) -> u8 ensures { result ≡ f a } { a }",
        "ghost use Rattle.a.specs.F as F;\npub fn forkhemit_f(a: u8) -> u8 ensures { result ≡ F.f a } { host_a::deep::forkhemit_f(a) }", &[]),
    ("pub fn forkhemit_f(a: u8) { }", "pub fn forkhemit_f(a: u8) { host_a::deep::forkhemit_g(a) }", &["forkhemit_f is not one call of host_a::deep"]),
    ("pub fn forkhemit_f(a: u8) { }\npub fn give() { }\nfn forkhemit_own() { }", "pub fn forkhemit_g(a: u8) { }", &["forkhemit_f is not exported", "forkhemit_g is no function of a host crate"]),
];

/// Checks the check on the samples, then each function of the host crates.
pub fn run(crates: &Path) -> std::io::Result<Tally> {
    let mut tally = Tally::default();
    for (own, export, expected) in SAMPLES {
        let found = faults(&of_hosts("host_a/src/deep", own), &of_hosts("forkhemit/src/a", export));
        tally.count(found == *expected);
        if found != *expected {
            println!("FAILED sample of exports: {found:?}");
        }
    }
    let (mut own, mut exports) = (Functions::new(), Functions::new());
    for path in contracts::files(crates, "rt")? {
        let within = path.strip_prefix(crates).unwrap_or(&path).with_extension("");
        let within = within.to_string_lossy();
        let functions = of_hosts(&within, &fs::read_to_string(&path)?);
        let exporting = within.starts_with(&format!("{EXPORTS}/"));
        (if exporting { &mut exports } else { &mut own }).extend(functions);
    }
    let found = faults(&own, &exports);
    found.iter().for_each(|fault| println!("FAILED export: {fault}"));
    tally.passed += own.len().saturating_sub(found.len());
    tally.failed += found.len();
    let (samples, passed, failed) = (SAMPLES.len(), tally.passed, tally.failed);
    println!("exports of functions for hosts, {samples} samples first: {passed} passed, {failed} failed");
    Ok(tally)
}
