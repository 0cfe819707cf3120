//! A host in Rust. It reads two stations' texts and the public one, repeats the giant step's circuit from the fresh state until the
//! closing mark or the budget, and prints the answer as the pair program does. It then steps a plain run as often, solves at once, and
//! compares. Use: host-rust LEFT RIGHT PUBLIC BUDGET. `make examples` builds it.

use std::ffi::{OsStr, OsString};
use std::fs::File;
use std::io::{Read, Write};
use std::os::unix::ffi::OsStrExt;
use std::process::ExitCode;

/// The library, as include/forkhemit.h has it: an array passes as a reference, a slice as its pointer and then its length.
#[rustfmt::skip]
mod library {
    #[link(name = "forkhemit", kind = "static")]
    extern "C" {
        pub fn forkhemit_sizes(n: u64, left_rows: u64, right_rows: u64, public_rows: u64, sizes: &mut [u64; 4]) -> u8;
        pub fn forkhemit_read_tables(left_text: *const u8, left_text_length: usize, right_text: *const u8, right_text_length: usize,
            public_text: *const u8, public_text_length: usize, left: *mut u32, left_length: usize, right: *mut u32, right_length: usize,
            public_table: *mut u32, public_length: usize, sizes: &mut [u64; 4]) -> u8;
        pub fn forkhemit_fresh(n: u64, run: &mut [u32; 101]) -> u8;
        pub fn forkhemit_step(n: u64, left_rows: u64, right_rows: u64, public_rows: u64, left: *const u32, left_length: usize,
            right: *const u32, right_length: usize, public_table: *const u32, public_length: usize, run: &mut [u32; 101]) -> u8;
        pub fn forkhemit_solve(n: u64, left_rows: u64, right_rows: u64, public_rows: u64, left: *const u32, left_length: usize,
            right: *const u32, right_length: usize, public_table: *const u32, public_length: usize,
            budget: u64, answer: &mut [u64; 3]) -> u8;
        pub fn forkhemit_model(run: &[u32; 101], model: &mut [u64; 1]) -> u8;
        pub fn forkhemit_repeat(n: u64, left_rows: u64, right_rows: u64, public_rows: u64, left: *const u32, left_length: usize,
            right: *const u32, right_length: usize, public_table: *const u32, public_length: usize, times: u64,
            gates: *mut u32, gates_length: usize, bytes: *mut u8, bytes_length: usize, wires: *mut u8, wires_length: usize,
            run: &mut [u32; 101], repeated: &mut [u64; 2]) -> u8;
        pub fn forkhemit_read_budget(line: *const u8, line_length: usize, budget: &mut [u64; 1]) -> u8;
        pub fn forkhemit_answer(n: u64, count: u64, verdict: u64, model: u64, text: &mut [u8; 256], length: &mut [u64; 1]) -> u8;
    }
}
use library::*;

const TEXT_LIMIT: usize = 65_536;
const SATISFIABLE: u64 = 1;
type Run = [u32; 101]; // word 1 is the standing

/// Why there is no answer: a refusal's number, or what a proved library never brings about.
enum Fault {
    Refused(u8),
    Wrong(&'static str),
}

/// What a call returned: 0 where it was taken.
fn taken(number: u8) -> Result<(), Fault> {
    (number == 0).then_some(()).ok_or(Fault::Refused(number))
}

/// Both stations' tables and the public one, two words a row, with n and the row counts. In each method the library reads and
/// writes what it is lent here and nothing else, so the calls are safe.
struct Tables {
    d: [u64; 4], // n, left rows, right rows, public rows
    left: [u32; 256],
    right: [u32; 256],
    public: [u32; 256],
}

#[rustfmt::skip]
impl Tables {
    /// The tables of three texts.
    fn read([left, right, public]: [&[u8]; 3]) -> Result<Tables, Fault> {
        let mut read = Tables { d: [0; 4], left: [0; 256], right: [0; 256], public: [0; 256] };
        let (l, r, p, d) = (&mut read.left, &mut read.right, &mut read.public, &mut read.d);
        taken(unsafe {
            forkhemit_read_tables(left.as_ptr(), left.len(), right.as_ptr(), right.len(), public.as_ptr(), public.len(),
                l.as_mut_ptr(), 256, r.as_mut_ptr(), 256, p.as_mut_ptr(), 256, d)
        })?;
        Ok(read)
    }

    /// The run to start from.
    fn fresh(&self) -> Result<Run, Fault> {
        let mut run = [0; 101];
        taken(unsafe { forkhemit_fresh(self.d[0], &mut run) }).map(|()| run)
    }

    /// One giant step of the plain run.
    fn step(&self, run: &mut Run) -> Result<(), Fault> {
        let ([n, l, r, p], left, right, public) = (self.d, &self.left, &self.right, &self.public);
        taken(unsafe { forkhemit_step(n, l, r, p, left.as_ptr(), 256, right.as_ptr(), 256, public.as_ptr(), 256, run) })
    }

    /// The circuit repeated on the run: how many times it was, until the run was closed or the budget spent.
    fn repeat(&self, budget: u64, run: &mut Run) -> Result<u64, Fault> {
        let ([n, l, r, p], left, right, public) = (self.d, &self.left, &self.right, &self.public);
        let mut sizes = [0; 4]; // gate ceiling, words for its gates, input wires, state wires
        taken(unsafe { forkhemit_sizes(n, l, r, p, &mut sizes) })?;
        let [ceiling, words, inputs, _] = sizes.map(|size| size as usize);
        let (mut gates, mut bytes, mut wires) = (vec![0; words], vec![0; inputs], vec![0; inputs + ceiling]);
        let mut repeated = [0; 2]; // repeats, last mark
        taken(unsafe {
            forkhemit_repeat(n, l, r, p, left.as_ptr(), 256, right.as_ptr(), 256, public.as_ptr(), 256, budget, gates.as_mut_ptr(), words,
                bytes.as_mut_ptr(), bytes.len(), wires.as_mut_ptr(), wires.len(), run, &mut repeated)
        })?;
        Ok(repeated[0])
    }

    /// The budgeted run's count, verdict and model.
    fn solve(&self, budget: u64) -> Result<[u64; 3], Fault> {
        let ([n, l, r, p], left, right, public, mut answer) = (self.d, &self.left, &self.right, &self.public, [0; 3]);
        taken(unsafe { forkhemit_solve(n, l, r, p, left.as_ptr(), 256, right.as_ptr(), 256, public.as_ptr(), 256, budget, &mut answer) })?;
        Ok(answer)
    }
}

/// The printed answer: repeats of the circuit, as many plain steps beside them, and the budgeted run to compare with.
fn answer_of(texts: [&[u8]; 3], budget: u64) -> Result<Vec<u8>, Fault> {
    let tables = Tables::read(texts)?;
    let (mut run, mut plain) = (tables.fresh()?, tables.fresh()?);
    let repeats = tables.repeat(budget, &mut run)?;
    for _ in 0..repeats {
        tables.step(&mut plain)?;
    }
    if run != plain {
        return Err(Fault::Wrong("the circuit's state is not the plain run's"));
    }
    let (verdict, mut model) = (u64::from(run[1]), [0]);
    if verdict == SATISFIABLE {
        taken(unsafe { forkhemit_model(&run, &mut model) })?;
    }
    if tables.solve(budget)? != [repeats, verdict, model[0]] {
        return Err(Fault::Wrong("the budgeted run answers otherwise"));
    }
    let (mut text, mut length) = ([0; 256], [0]);
    taken(unsafe { forkhemit_answer(tables.d[0], repeats, verdict, model[0], &mut text, &mut length) })?;
    Ok(text[..length[0] as usize].to_vec())
}

/// The number that an argument gives, judged by the library as it judges a budget line.
fn budget_of(argument: &OsStr) -> Result<u64, Fault> {
    let (line, mut budget) = ([argument.as_bytes(), b"\n"].concat(), [0]);
    taken(unsafe { forkhemit_read_budget(line.as_ptr(), line.len(), &mut budget) }).map(|()| budget[0])
}

/// At most one byte more of a file than a text may have. A file that cannot be read counts as so long too, which the library refuses with 5.
fn text_of(path: &OsStr) -> Vec<u8> {
    let mut text = vec![];
    let read = File::open(path).and_then(|file| file.take(TEXT_LIMIT as u64 + 1).read_to_end(&mut text));
    read.map_or_else(|_| vec![0; TEXT_LIMIT + 1], |_| text)
}

/// Prints the answer, a refusal too.
fn print_answer(paths: [&OsStr; 3], budget: u64) -> Result<(), String> {
    let [left, right, public] = paths.map(text_of);
    let printed = match answer_of([&left, &right, &public], budget) {
        Ok(text) => text,
        Err(Fault::Refused(number)) => {
            eprintln!("refused {number}: include/forkhemit.h has the sentence");
            format!("c refused {number}\ns UNKNOWN\n").into_bytes()
        }
        Err(Fault::Wrong(what)) => return Err(what.into()),
    };
    let mut output = std::io::stdout();
    let written = output.write_all(&printed).and_then(|()| output.flush());
    written.map_err(|error| format!("the output cannot be written: {error}"))
}

/// What the arguments ask for; else what is wrong with them, with the library or with the output.
fn host(arguments: &[OsString]) -> Result<(), String> {
    match arguments {
        [_, left, right, public, budget] => match budget_of(budget) {
            Ok(number) => print_answer([left, right, public], number),
            Err(_) => Err(format!("BUDGET {budget:?}: refused 8: a number is digits alone, up to {}", u64::MAX)),
        },
        _ => Err("use: host-rust LEFT RIGHT PUBLIC BUDGET".into()),
    }
}

fn main() -> ExitCode {
    match host(&std::env::args_os().collect::<Vec<_>>()) {
        Ok(()) => ExitCode::SUCCESS,
        Err(what) => {
            eprintln!("{what}");
            ExitCode::FAILURE
        }
    }
}
