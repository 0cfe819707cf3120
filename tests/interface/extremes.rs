//! Calls at the limits of size: n 1 and 32, tables of 1 row and of 128 at the stations, no public row, one and 128.

use crate::calls::{numbers, Call, Function, Lent, ALL};
use crate::circuits::Circuits;
use crate::draw;
use forkhemit_tests::memory;
use forkhemit_tests::model::{Row, Run, Size};
use forkhemit_tests::random::Random;
use forkhemit_tests::tables;

const SEED: u64 = 384_000;
/// How often each function is called with each size.
const DRAWS: usize = 2;
/// How often a circuit is repeated from the fresh state.
const REPEATS: u64 = 12;

/// Numbers of wires at which the evaluator goes over to another way.
const WAYS: [usize; 3] = [8_192, 221_184, 319_488];

/// Every size at the limits; the last is the largest.
pub fn sizes() -> Vec<Size> {
    let mut sizes = vec![];
    for n in [1, 32] {
        for (left, right) in [(1, 1), (1, 128), (128, 1), (128, 128)] {
            sizes.extend([0, 1, 128].map(|public| Size { n, left, right, public }));
        }
    }
    sizes
}

/// Right calls of every function over a size, and its circuit repeated from the fresh state.
pub fn calls(size: Size, circuits: &Circuits) -> Result<Vec<Call>, String> {
    let random = &mut Random::new(SEED + (size.public << 24 | size.n << 16 | size.left << 8 | size.right) as u64);
    let mut calls = vec![repeated(size, circuits, random)?];
    for &function in ALL {
        for _ in 0..DRAWS {
            calls.push(draw::of_size(function, size, circuits, random)?);
        }
    }
    Ok(calls)
}

/// The circuit repeated from the fresh state over rows of three variables.
fn repeated(size: Size, circuits: &Circuits, random: &mut Random) -> Result<Call, String> {
    let rows: Vec<Row> = (0..size.rows()).map(|_| tables::strict(size.n, 3, random)).collect();
    let mut lent = draw::lent_tables(size, &rows, random);
    let (inputs, gates) = (memory::input_wires(size), circuits.words(size)?.len() / 3);
    lent.extend([Lent::Words(vec![7; 3 * size.ceiling()]), Lent::Bytes(vec![7; inputs])]);
    lent.extend([Lent::Bytes(vec![7; inputs + gates]), Lent::Run(memory::run_words(&Run::fresh(size.n)))]);
    lent.push(Lent::Numbers(vec![7; 2]));
    Ok(Call { function: Function::Repeat, numbers: [numbers(size), vec![REPEATS]].concat(), lent })
}

/// Random gates with as many wires as the evaluator goes over at, one less and one more: as they are, with a last gate that reads its own
/// wire, with an input that is no bit, and with a byte too few for the wires. For a memory checker the fewest alone.
pub fn evaluations(guard: usize) -> Vec<Call> {
    let random = &mut Random::new(SEED);
    let mut calls = vec![];
    for wires in
        WAYS.into_iter().take(if guard > 0 { WAYS.len() } else { 1 }).flat_map(|wires| [wires - 1, wires, wires + 1])
    {
        let inputs: Vec<u8> = (0..random.between(1, 9)).map(|_| random.below(2) as u8).collect();
        let gates = draw::some_gates(inputs.len(), wires - inputs.len(), random);
        let mut own = gates.clone();
        let last = own.len() - 3;
        own[last..].copy_from_slice(&[0, wires as u32 - 1, 0]);
        let two = [&inputs[1..], &[2]].concat();
        let call = |gates: &[u32], inputs: &[u8], room: usize| Call {
            function: Function::Evaluate,
            numbers: vec![],
            lent: vec![Lent::Words(gates.to_vec()), Lent::Bytes(inputs.to_vec()), Lent::Bytes(vec![7; room])],
        };
        calls.extend([call(&gates, &inputs, wires), call(&own, &inputs, wires)]);
        calls.extend([call(&gates, &two, wires), call(&gates, &inputs, wires - 1)]);
    }
    calls
}
