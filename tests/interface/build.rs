//! Where the library for hosts is once `make lib` has written it, and its functions in Rust, written from include/forkhemit.h: each
//! declaration, a name for each function that returns a number of refusal, and how a call as data is handed to it.

use std::collections::BTreeMap;
use std::fmt::Write;
use std::{env, fs, path::Path};

/// A parameter: a number, a buffer with its length, or an array.
enum Kind {
    Number,
    Buffer,
    Array,
}

/// A function of the header: its name, the type of its result, and each parameter in Rust with its kind.
struct Declared {
    name: String,
    result: &'static str,
    parameters: Vec<(String, Kind)>,
}

/// The text without comments and without lines for the preprocessor.
fn bare(header: &str) -> String {
    let mut text = String::new();
    for part in header.split("/*") {
        text += part.split_once("*/").map_or(part, |(_, behind)| behind);
    }
    let mut goes_on = false;
    let mut kept = |line: &&str| {
        let of_preprocessor = goes_on || line.starts_with('#');
        goes_on = of_preprocessor && line.ends_with('\\');
        !of_preprocessor
    };
    text.lines().filter(|line| kept(line)).collect::<Vec<_>>().join(" ")
}

/// The numbers that the header defines, by name.
fn constants(header: &str) -> BTreeMap<&str, &str> {
    let defined = header.lines().filter_map(|line| line.strip_prefix("#define ")?.split_once(' '));
    defined.map(|(name, value)| (name, value.split(' ').next().unwrap_or(""))).collect()
}

/// A type of C's in Rust.
fn rust_type(name: &str) -> &'static str {
    match name {
        "uint8_t" => "u8",
        "uint32_t" => "u32",
        "uint64_t" => "u64",
        "size_t" => "usize",
        other => panic!("the header has the type {other}, which the tests do not know"),
    }
}

/// A parameter as C declares it.
fn parameter(text: &str, constants: &BTreeMap<&str, &str>) -> (String, Kind) {
    let (mutable, text) = text.trim().strip_prefix("const ").map_or(("mut", text.trim()), |behind| ("const", behind));
    let (of, name) = text.split_once(' ').expect("a parameter has a type and a name");
    let of = rust_type(of);
    if let Some(name) = name.strip_prefix('*') {
        return (format!("{name}: *{mutable} {of}"), Kind::Buffer);
    }
    match name.strip_suffix(']').and_then(|name| name.split_once('[')) {
        Some((name, length)) => {
            let length = constants.get(length).unwrap_or(&length);
            (format!("{name}: *{mutable} [{of}; {length}]"), Kind::Array)
        }
        None => (format!("{name}: {of}"), Kind::Number),
    }
}

/// All functions, in the order of the header.
fn declared(header: &str) -> Vec<Declared> {
    let constants = constants(header);
    let mut functions = vec![];
    for statement in bare(header).split(';') {
        let (front, parameters) = match statement.split_once('(') {
            Some((front, behind)) => (front, behind.trim_end().trim_end_matches(')')),
            None => continue,
        };
        let mut words = front.split_whitespace().rev();
        let (name, result) = (words.next().expect("a name"), words.next().expect("a type"));
        let parameters = parameters.split(',').filter(|text| text.trim() != "void");
        let parameters = parameters.map(|text| parameter(text, &constants)).collect();
        functions.push(Declared { name: name.into(), result: rust_type(result), parameters });
    }
    functions
}

/// The function's name in the tests: `StepIndexed` for `forkhemit_step_indexed`.
fn short(name: &str) -> String {
    let words = name.trim_start_matches("forkhemit_").split('_');
    words.map(|word| word[..1].to_uppercase() + &word[1..]).collect()
}

/// The arguments of a call as data: its numbers and its buffers, each in the order of the header.
fn arguments(parameters: &[(String, Kind)]) -> String {
    let (mut numbers, mut lent, mut arguments) = (0, 0, vec![]);
    for (text, kind) in parameters {
        match kind {
            Kind::Number if text.ends_with("usize") => arguments.push(format!("lent[{}].1", lent - 1)),
            Kind::Number => {
                arguments.push(format!("numbers[{numbers}]{}", if text.ends_with("u32") { " as u32" } else { "" }));
                numbers += 1;
            }
            Kind::Buffer | Kind::Array => {
                let array = matches!(kind, Kind::Array);
                arguments.push(if array { format!("array(lent[{lent}])") } else { format!("lent[{lent}].0.cast()") });
                lent += 1;
            }
        }
    }
    arguments.join(", ")
}

/// The declarations, the names and the calls.
fn written(functions: &[Declared]) -> (String, String) {
    let (mut extern_block, mut names, mut calls) = (String::new(), String::new(), String::new());
    for Declared { name, result, parameters } in functions {
        let listed: Vec<&str> = parameters.iter().map(|(text, _)| text.as_str()).collect();
        writeln!(extern_block, "    pub fn {name}({}) -> {result};", listed.join(", ")).expect("a string takes it");
        if *result == "u8" {
            let (short, arguments) = (short(name), arguments(parameters));
            writeln!(names, "    {short},").expect("a string takes it");
            writeln!(calls, "        Function::{short} => {name}({arguments}),").expect("a string takes it");
        }
    }
    let all = names.replace("    ", "    Function::");
    let library = format!("#[link(name = \"forkhemit\", kind = \"static\")]\nextern \"C\" {{\n{extern_block}}}\n");
    let passed = format!(
        "/// A function that takes numbers and lent buffers and returns a number of refusal, by its name in the header.\n\
         #[derive(Clone, Copy, Debug, PartialEq)]\npub enum Function {{\n{names}}}\n\n\
         pub const ALL: &[Function] = &[\n{all}];\n\n\
         unsafe fn passed(function: Function, numbers: &[u64], lent: &[(*mut u8, usize)]) -> u8 {{\n    \
         match function {{\n{calls}    }}\n}}\n"
    );
    (library, passed)
}

fn main() {
    let root = env::var("CARGO_MANIFEST_DIR").expect("cargo says where the package is");
    println!("cargo:rustc-link-search=native={root}/../target/lib");
    println!("cargo:rerun-if-changed={root}/../target/lib/libforkhemit.a");
    println!("cargo:rerun-if-changed={root}/../include/forkhemit.h");
    let header = fs::read_to_string(format!("{root}/../include/forkhemit.h")).expect("the header can be read");
    let (library, passed) = written(&declared(&header));
    let out = env::var("OUT_DIR").expect("cargo says where to write");
    fs::write(Path::new(&out).join("library.rs"), library).expect("the declarations can be written");
    fs::write(Path::new(&out).join("passed.rs"), passed).expect("the calls can be written");
}
