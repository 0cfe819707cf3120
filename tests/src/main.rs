//! The project's own tests. Use: check CRATES [PROGRAM..], or check edits CRATES, or check statements CRATES
//! CRATES is the folder of crates, whose contracts and symbols are looked at, with what their checks said they assume, what the
//! page of proofs names and how much there is that is hard to read; each PROGRAM is a compiled program, known by its name,
//! `pair`, `circuit`, `whole`, `host-c` or `host-rust`. `whole` and the hosts are held to the pair program, which must be given too. A
//! program in a folder `static` is linked statically: nothing can be loaded before it that cuts what it reads into parts, and those
//! tests are left out.
//! `edits` reads what each must-fail edit was refused for, in what `rt ci` said (target/log/ci); `statements` prints tests/statements.txt as the crates have it.
//! The last line is `N passed, M failed`, and the status 0 where M is 0.

use forkhemit_tests::process::{self, Source};
use forkhemit_tests::report::{self, Tally};
use forkhemit_tests::{
    assumed, cases, ceilings, circuits, citations, claims, contracts, damage, demand1, edits, exports, hosts, links,
    made, pictures, published, statements, steps, symbols, tables, ties, whole,
};
use std::path::Path;
use std::process::ExitCode;

/// Whether a program is linked statically: it is then in a folder `static`.
fn linked_statically(program: &Path) -> bool {
    program.parent().map_or(false, |folder| folder.ends_with("static"))
}

/// The tests of the pair program; of the one that is linked statically, those that were written by hand and the public files.
fn pair_tests(program: &Path, own: &Path) -> std::io::Result<Tally> {
    let solver = process::solver()?;
    println!("verdicts are compared with {solver}");
    let files = published::files(&own.join("dimacs"))?;
    let [listed, damaged] = damage::groups();
    let groups = if linked_statically(program) {
        vec![cases::group(own, Source::is_whole)?, published::group(&files)]
    } else {
        vec![cases::group(own, |_| true)?, published::group(&files), tables::group(), listed, damaged]
    };
    let mut total = Tally::default();
    for group in groups {
        total.add(report::run(&group, program, &report::PAIR, solver)?);
    }
    Ok(total)
}

/// The tests of a program, which its file's name tells.
fn program_tests(program: &Path, pair: Option<&Path>) -> std::io::Result<Tally> {
    let fault = |kind, fault: &str| std::io::Error::new(kind, format!("{}: {fault}", program.display()));
    let full = program.canonicalize().map_err(|error| fault(error.kind(), &error.to_string()))?;
    let pair = || match pair {
        Some(pair) => pair.canonicalize(),
        None => Err(fault(std::io::ErrorKind::NotFound, "no pair program to compare with")),
    };
    let own = Path::new(env!("CARGO_MANIFEST_DIR"));
    match program.file_name().and_then(|name| name.to_str()) {
        Some("pair") => pair_tests(&full, own),
        Some("circuit") => circuits::run(&full, own),
        Some("whole") => whole::run(&full, &pair()?, own, linked_statically(program)),
        Some("host-c" | "host-rust") => hosts::run(&full, &pair()?, own),
        _ => Err(fault(std::io::ErrorKind::InvalidInput, "no program of the project")),
    }
}

/// What is read of the crates, and the pictures; then each program that is named.
fn all(arguments: &[String]) -> std::io::Result<Tally> {
    let usage = || std::io::Error::new(std::io::ErrorKind::InvalidInput, "use: check CRATES [PROGRAM..]");
    let (crates, programs) = arguments.split_first().ok_or_else(usage)?;
    let mut total = contracts::run(Path::new(crates))?;
    total.add(symbols::run(Path::new(crates))?);
    total.add(assumed::run(Path::new(crates))?);
    total.add(claims::run(Path::new(crates))?);
    total.add(statements::run(Path::new(crates))?);
    total.add(citations::run(Path::new(crates))?);
    total.add(demand1::run(Path::new(crates))?);
    total.add(exports::run(Path::new(crates))?);
    total.add(ceilings::run(Path::new(crates))?);
    let own = Path::new(env!("CARGO_MANIFEST_DIR"));
    total.add(pictures::run(&own.join(".."))?);
    total.add(links::run(&own.join(".."))?);
    total.add(made::run(&own.join(".."))?);
    total.add(ties::run(own)?);
    let pair = programs.iter().map(Path::new).find(|program| program.ends_with("pair"));
    for program in programs {
        total.add(program_tests(Path::new(program), pair)?);
    }
    if !programs.is_empty() {
        total.add(steps::close());
    }
    Ok(total)
}

/// Prints a text, or says why there is none.
fn printed(text: std::io::Result<String>) -> ExitCode {
    match text {
        Ok(text) => {
            print!("{text}");
            ExitCode::SUCCESS
        }
        Err(error) => {
            eprintln!("{error}");
            ExitCode::FAILURE
        }
    }
}

/// What the first argument asks for.
fn asked(arguments: &[String]) -> std::io::Result<Tally> {
    match arguments {
        [first, crates] if first == "edits" => edits::run(Path::new(crates)),
        _ => all(arguments),
    }
}

fn main() -> ExitCode {
    let arguments: Vec<String> = std::env::args().skip(1).collect();
    if let [first, crates] = arguments.as_slice() {
        match first.as_str() {
            "statements" => return printed(statements::text(Path::new(crates))),
            "docs" => return printed(made::write(&Path::new(crates).join("..")).map(|()| String::new())),
            _ => (),
        }
    }
    let total = asked(&arguments).unwrap_or_else(|error| {
        println!("FAILED: {error}");
        Tally { passed: 0, failed: 1 }
    });
    println!("{} passed, {} failed", total.passed, total.failed);
    if total.failed == 0 {
        ExitCode::SUCCESS
    } else {
        ExitCode::FAILURE
    }
}
