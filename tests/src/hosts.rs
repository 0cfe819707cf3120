//! The example hosts: each prints what the pair program prints for the same texts and budget, and says on standard error why texts were
//! refused. What they do with a wrong use is tried by tests/hosts.sh.

use crate::model::{self, Standing};
use crate::process::{Input, Room, Source, NAMES};
use crate::report::{self, Ledger, Tally, Test};
use crate::{cases, published, tables};
use std::path::Path;

/// How many random tables.
const TABLES: usize = 150;
/// Runs of the published files are cut at this many steps.
const PATIENCE: u64 = 300;

/// A case as the pair program takes it, where its standard input is a budget line.
fn written(own: &Path) -> std::io::Result<Vec<Test>> {
    let plain = |source: &Source| matches!(source, Source::Text(_) | Source::Missing | Source::Directory);
    let group = cases::group(own, plain)?;
    let tests = (0..group.count).flat_map(|number| (group.make)(number));
    Ok(tests.filter(|test| test.way == Input::File && model::budget(&test.input).is_ok()).collect())
}

/// The published files in halves and in thirds, closed or cut off.
fn published_files(own: &Path) -> std::io::Result<Vec<Test>> {
    let mut tests = vec![];
    for file in published::files(&own.join("dimacs"))?.into_iter().filter(|file| file.refused.is_none()) {
        for split in [published::halves(&file.text), published::thirds(&file.text)] {
            let found = model::run(split.n, &split.tables.concat(), PATIENCE);
            let short = if found.standing == Standing::Open { PATIENCE } else { found.steps - 1 };
            for budget in [found.steps, short] {
                tests.push(Test::new(file.name.clone(), split.texts(), format!("{budget}\n").into_bytes()));
            }
        }
    }
    Ok(tests)
}

/// What the host's words on standard error begin with, given what the pair program prints; None where it says nothing.
fn words(printed: &[u8]) -> Option<String> {
    let line = String::from_utf8_lossy(printed);
    line.lines().next()?.strip_prefix("c ").filter(|rest| rest.starts_with("refused ")).map(|rest| format!("{rest}: "))
}

/// What is wrong with what the host does, `pair` being a room of the pair program.
fn wrong(test: &Test, host: &Room, pair: &Room) -> std::io::Result<Option<String>> {
    let budget = String::from_utf8_lossy(&test.input);
    let budget = budget.lines().next().unwrap_or("");
    let [left, right, public] = NAMES;
    let ran = host.run_with(&[left, right, public, budget], &test.files, b"")?;
    let printed = pair.run(&test.files, &test.input)?;
    let told = match words(&printed.output) {
        Some(words) => ran.said.starts_with(words.as_bytes()) && ran.said.len() > words.len() + 1,
        None => ran.said.is_empty(),
    };
    Ok(match ran.ended.or(printed.fault) {
        Some(fault) => Some(fault),
        None if !told => Some(format!("the host says {}", report::quoted(&ran.said))),
        None if ran.output == printed.output => None,
        None => Some(format!(
            "the host prints {}, the pair program {}",
            report::quoted(&ran.output),
            report::quoted(&printed.output)
        )),
    })
}

/// Runs a host and the pair program on every case.
pub fn run(host: &Path, pair: &Path, own: &Path) -> std::io::Result<Tally> {
    let mut tests = written(own)?;
    tests.extend(published_files(own)?);
    let group = tables::group();
    tests.extend((0..TABLES).flat_map(|number| (group.make)(number)));
    let ledger = Ledger::default();
    report::spread([host, pair], tests.len(), |number, [host, pair]| {
        let test = &tests[number];
        let failure = wrong(test, host, pair).unwrap_or_else(|error| Some(error.to_string()));
        ledger.test(failure.map(|failure| format!("{}: {failure}\n{}", test.name, report::shown(test))));
    })?;
    let name = host.file_name().unwrap_or_default().to_string_lossy().into_owned();
    Ok(ledger.close(&format!("{name} beside pair on {} texts with budgets", tests.len())))
}
