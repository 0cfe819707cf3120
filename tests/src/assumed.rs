//! What checks assume: nothing but the contracts of C's functions that a program can reach. `.ci/compile` compiles the programs and the static
//! library, and lists these contracts for all code below; of each crate `rt ci` says that it is proved, now or by an earlier run.

use crate::edits::LOG;
use crate::report::Tally;
use std::fs;
use std::path::Path;

/// The functions of C whose contracts are assumed, by what is compiled. No other crate assumes anything.
const ASSUMED: [(&str, &[&[&str]]); 4] =
    [("circuit", &[STREAMS]), ("forkhemit", &[]), ("pair", &[FILES, STREAMS]), ("whole", &[FILES, STREAMS])];
/// What the kit's library calls for standard input and output.
const STREAMS: &[&str] = &["libc::lseek", "libc::read", "libc::write", "os::c::rattle_errno"];
/// What its trait of files has functions for. Of these the programs call those that open, read and close.
#[rustfmt::skip]
const FILES: &[&str] = &[
    "libc::chmod", "libc::chown", "libc::close", "libc::fchmod", "libc::fdatasync", "libc::flock", "libc::fsync", "libc::ftruncate",
    "libc::futimens", "libc::lchown", "libc::link", "libc::mkdir", "libc::net::bind", "libc::pipe2", "libc::readlink", "libc::realpath",
    "libc::rename", "libc::rmdir", "libc::statx", "libc::symlink", "libc::unlink",
    "os::c::fcntl", "os::c::getdents64", "os::c::open", "os::c::rattle_open_dir_at", "os::c::rattle_set_errno", "os::c::unlinkat",
];
/// What the line of the verdict says.
#[rustfmt::skip]
const KEYS: [&str; 11] = [
    "logic", "functions", "axioms", "target", "cpu", "sum", "native", "logic-built", "libraries-built", "statements", "incremental",
];

/// What is assumed by a name.
fn expected(name: &str) -> Vec<&'static str> {
    let lists = ASSUMED.iter().find(|(program, _)| *program == name).map_or(&[][..], |(_, lists)| lists);
    let mut all = lists.concat();
    all.sort_unstable();
    all
}

/// How many contracts a verdict assumes, or what is wrong with it.
fn number(said: &str) -> Result<String, String> {
    let verdict = match said.lines().filter(|line| line.starts_with("logic=")).last() {
        Some(verdict) if verdict.starts_with("logic=proved ") => verdict,
        _ => return Err("is not proved".into()),
    };
    let words: Vec<(&str, &str)> = verdict.split(' ').map(|word| word.split_once('=').unwrap_or((word, ""))).collect();
    if let Some((key, _)) = words.iter().find(|(key, _)| !KEYS.contains(key)) {
        return Err(format!("says {key}, which is not known"));
    }
    Ok(words.iter().find(|(key, _)| *key == "axioms").map_or("0", |(_, number)| number).into())
}

/// What is wrong with what the check of something that is compiled said, with its list.
fn fault(name: &str, said: &str) -> Option<String> {
    let number = match number(said) {
        Ok(number) => number,
        Err(fault) => return Some(fault),
    };
    // below a line as `axioms libc: 2 reached of the 50 declared`
    let mut named: Vec<&str> = said.lines().filter_map(|line| line.strip_suffix("   reached").map(str::trim)).collect();
    named.sort_unstable();
    let expected = expected(name);
    (named != expected || number != expected.len().to_string()).then(|| format!("assumes {number}: {named:?}"))
}

/// What is wrong with what `rt ci` says of a crate. It lists no more than three contracts, and of a crate that it proved earlier nothing.
fn judged(name: &str, log: &str) -> Option<String> {
    let kept =
        format!("rt: {name} is kept: an earlier run on this machine proved the same files over the same libraries");
    if log.lines().any(|line| line == kept) {
        return None;
    }
    let Some((_, behind)) = log.split_once(&format!("== {name}\n")) else {
        return Some("is not there".into());
    };
    let Some((said, _)) = behind.split_once(&format!("rt: {name} proved\n")) else {
        return Some("is not proved".into());
    };
    match number(said) {
        Ok(number) => (number != expected(name).len().to_string()).then(|| format!("assumes {number}")),
        Err(fault) => Some(fault),
    }
}

/// What checks of what is compiled say, with what is wrong with it.
#[rustfmt::skip]
const SAMPLES: &[(&str, &str, &str)] = &[
    ("forkhemit", "fn forkhemit::f: proved\naxioms libc: none reached of the 3 declared\n  libc::read\nlogic=proved functions=7 target=x cpu=y sum=09 native=nat,char,string logic-built=trusted libraries-built=trusted statements=trusted\n", ""),
    ("circuit", "axioms libc: 3 reached of the 50 declared\n  libc::lseek   reached\n  libc::open\n  libc::read   reached\n  libc::write   reached\naxioms os: 1 reached of the 9 declared\n  os::c::__xpg_strerror_r\n  os::c::rattle_errno   reached\nlogic=proved functions=5 axioms=4 target=x sum=09\nlinked target=x\n", ""),
    ("forkhemit", "axioms libc: 1 reached of the 50 declared\n  libc::read   reached\nlogic=proved functions=5 axioms=1 sum=09\n", "assumes 1: [\"libc::read\"]"),
    ("forkhemit", "logic=proved functions=5 axioms=1 sum=09\n", "assumes 1: []"),
    ("circuit", "  libc::lseek   reached\n  libc::read   reached\n  libc::write   reached\n  os::c::rattle_errno   reached\n  own::f   reached\nlogic=proved functions=5 axioms=5 sum=09\n",
        "assumes 5: [\"libc::lseek\", \"libc::read\", \"libc::write\", \"os::c::rattle_errno\", \"own::f\"]"),
    ("circuit", "logic=proved functions=5 sum=09\n", "assumes 0: []"),
    ("forkhemit", "logic=proved functions=5 foreign=1 sum=09\n", "says foreign, which is not known"),
    ("forkhemit", "logic=not-proved\n", "is not proved"),
    ("forkhemit", "logic=proved functions=5 sum=09\nlogic=not-proved\n", "is not proved"),
    ("forkhemit", "", "is not proved"),
];
/// What `rt ci` says, with what is wrong with crate `a`.
#[rustfmt::skip]
const LOGS: &[(&str, &str)] = &[
    ("rt: b is kept\n== a\nfn a::f: proved\nlogic=proved functions=7 sum=09\nrt: a proved\n== b\nlogic=not-proved\nrt: b NOT PROVED\n", ""),
    ("rt: a is kept: an earlier run on this machine proved the same files over the same libraries\n", ""),
    ("== a\nlogic=proved functions=7 axioms=1 sum=09\nrt: a proved\n", "assumes 1"),
    ("== a\nlogic=proved functions=7 may-abort=1 sum=09\nrt: a proved\n", "says may-abort, which is not known"),
    ("== a\nlogic=proved functions=7 sum=09\nrt: run rt fmt in the crate's folder\nrt: a NOT PROVED\n", "is not proved"),
    ("== a\nlogic=not-proved\nrt: a proved\n", "is not proved"),
    ("== aa\nlogic=proved functions=7 sum=09\nrt: aa proved\n", "is not there"),
    ("", "is not there"),
];

/// Checks the check on the samples, then what was said of every crate and of what is compiled.
pub fn run(crates: &Path) -> std::io::Result<Tally> {
    let mut tally = Tally::default();
    let compiled = SAMPLES.iter().map(|(name, said, expected)| (fault(name, said), expected));
    let proved = LOGS.iter().map(|(log, expected)| (judged("a", log), expected));
    for (number, (found, expected)) in compiled.chain(proved).enumerate() {
        let found = found.unwrap_or_default();
        tally.count(found == *expected);
        if found != *expected {
            println!("FAILED sample {} of what is assumed: {found}", number + 1);
        }
    }
    let mut names = vec![];
    for entry in fs::read_dir(crates)? {
        names.push(entry?.file_name().to_string_lossy().into_owned());
    }
    names.extend(
        ASSUMED.map(|(program, _)| program.to_string()).into_iter().filter(|program| !crates.join(program).is_dir()),
    );
    names.sort();
    let root = crates.join("..");
    let log = fs::read_to_string(root.join(LOG)).unwrap_or_default();
    let of_crates = names.iter().map(|name| (name.as_str(), judged(name, &log)));
    let of_compiled = ASSUMED.iter().map(|(name, _)| {
        let said = fs::read_to_string(root.join(format!("target/log/{name}.say")));
        (*name, said.map_or_else(|error| Some(error.to_string()), |said| fault(name, &said)))
    });
    for (name, fault) in of_crates.chain(of_compiled) {
        tally.count(fault.is_none());
        if let Some(fault) = fault {
            println!("FAILED: the check of crate {name} {fault}");
        }
    }
    println!(
        "what {} crates assume, {} samples first: {} passed, {} failed",
        names.len(),
        SAMPLES.len() + LOGS.len(),
        tally.passed,
        tally.failed
    );
    Ok(tally)
}
