//! The library's circuits. Document 01 leaves their gates free: the first one of a size is judged by what it carries out and by its
//! counts, and every later one must be the same.

use crate::calls::{self, Call, Function, Lent};
use forkhemit_tests::bristol::Circuit;
use forkhemit_tests::circuits;
use forkhemit_tests::counts;
use forkhemit_tests::memory;
use forkhemit_tests::model::{Row, Run, Size};
use forkhemit_tests::random::Random;
use forkhemit_tests::report::{Ledger, Tally};
use forkhemit_tests::sections::{self, Section};
use forkhemit_tests::{netlists, states, wires};
use std::cell::RefCell;
use std::collections::BTreeMap;
use std::path::Path;

const STATES: usize = 64;
const SEED: u64 = 77_003;

pub struct Circuits {
    known: RefCell<BTreeMap<Size, Vec<u32>>>,
    /// The sections as the documents list them: their gates are all gates.
    sections: Vec<Section>,
    ledger: Ledger,
}

impl Circuits {
    /// No circuit yet, and the sections of the documents.
    pub fn new() -> Circuits {
        let list = concat!(env!("CARGO_MANIFEST_DIR"), "/../docs/pictures/circuit.txt");
        let list = std::fs::read_to_string(list).expect("the documents list the circuit's sections");
        let sections = sections::read(&list).unwrap_or_else(|fault| panic!("{fault}"));
        Circuits { known: RefCell::default(), sections, ledger: Ledger::default() }
    }

    /// Holds circuits up to the largest to the gates that another program gave them.
    pub fn known(&self) -> Tally {
        let ledger = Ledger::default();
        let known = netlists::known(Path::new(env!("CARGO_MANIFEST_DIR"))).expect("the folder of circuits can be read");
        for known in &known {
            let size = known.size;
            let gates = self.words(size).and_then(|words| {
                memory::gates(&words, memory::input_wires(size)).map_err(|_| "words that are no gates".into())
            });
            let lines = gates.map(|gates| memory::lines(size, &gates, 4).collect::<String>());
            ledger.test(lines.map_or_else(Some, |lines| known.unlike(lines.as_bytes())));
        }
        ledger.close(&format!("gates of {} circuits beside those of another program", known.len()))
    }

    /// What the circuits' steps came to, and how many circuits there were.
    pub fn close(self) -> Tally {
        let title =
            format!("{} circuits, each on {STATES} random states, seeds from {SEED}", self.known.borrow().len());
        self.ledger.close(&title)
    }

    /// The gate words of a size.
    pub fn words(&self, size: Size) -> Result<Vec<u32>, String> {
        if let Some(words) = self.known.borrow().get(&size) {
            return Ok(words.clone());
        }
        let words = generated(size).and_then(|words| self.judge(size, &words).map(|()| words));
        let words = words.map_err(|fault| format!("the circuit of {size:?}: {fault}"))?;
        self.known.borrow_mut().insert(size, words.clone());
        Ok(words)
    }

    /// Whether the words are gates, no more than allowed, that carry out the giant step on random states.
    fn judge(&self, size: Size, words: &[u32]) -> Result<(), String> {
        let Size { n, left, right, public } = size;
        let m = size.rows();
        let gates = memory::gates(words, memory::input_wires(size)).map_err(|_| "words that are no gates")?;
        let outputs = vec![wires::state_width(n), 1];
        let circuit = Circuit { inputs: wires::input_widths(size), outputs, gates };
        let counts = circuit.counts();
        let listed = sections::totals(&self.sections, n, m);
        if counts.gates > size.ceiling() || counts != counts::now(n, m) || (counts.gates, counts.ands) != listed {
            return Err(format!("{counts:?}"));
        }
        let random = &mut Random::new(SEED + (public << 24 | n << 16 | left << 8 | right) as u64);
        let case = |_| {
            let run = states::random(n, random);
            (states::table(m, &run.values, random), run)
        };
        let cases: Vec<(Vec<Row>, Run)> = (0..STATES).map(case).collect();
        let failure = circuits::steps(&circuit, &cases, &self.ledger);
        self.ledger.test(failure.clone());
        failure.map_or(Ok(()), Err)
    }
}

/// The gates as the library first gives them.
fn generated(size: Size) -> Result<Vec<u32>, String> {
    let room = 3 * size.ceiling();
    let call = Call {
        function: Function::Generate,
        numbers: calls::numbers(size),
        lent: vec![Lent::Words(vec![0; room]), Lent::Numbers(vec![0])],
    };
    let given = call.make(0)?;
    match (given.number, &given.lent[..]) {
        (0, [Lent::Words(words), Lent::Numbers(count)]) => words
            .get(..3 * count[0] as usize)
            .map(<[u32]>::to_vec)
            .ok_or_else(|| format!("{} gates in {room} words", count[0])),
        (number, _) => Err(format!("refused with {number}")),
    }
}
