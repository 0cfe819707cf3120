//! Times the proved evaluator beside its own gate loop in Rust without checks, beside other forms of that loop, and beside two passes that
//! judge too, on circuits of 200,000 gates and on the largest circuit of the giant step, of n = 32 and m = 384. All times are the processor's. Linked with the library
//! that `make lib` writes.

#[path = "../interface/library.rs"]
mod library;

use forkhemit_tests::clock::{self, median};
use forkhemit_tests::random::Random;
use library::*;

const INPUTS: usize = 2_000;
const GATES: usize = 200_000;
const RUNS: usize = 1_000;

/// The library's evaluator.
fn proved(gates: &[u32], inputs: &[u8], wires: &mut [u8]) -> u8 {
    // Each slice passes as its pointer and its length; the function reads and writes nothing else.
    unsafe {
        forkhemit_evaluate(gates.as_ptr(), gates.len(), inputs.as_ptr(), inputs.len(), wires.as_mut_ptr(), wires.len())
    }
}

/// The values of a kind on two wires: bit 4 × kind + 2a + b.
const VALUES: u32 = 0b0011_1000_0110;

/// The same as bytes.
static TABLE: [u8; 12] = [0, 1, 1, 0, 0, 0, 0, 1, 1, 1, 0, 0];

/// The same passes in Rust, which judges words and bytes too but does not check an index.
fn same_passes(gates: &[u32], inputs: &[u8], wires: &mut [u8]) -> bool {
    let n = inputs.len();
    let judged = gates.chunks_exact(3).enumerate().all(|(g, gate)| {
        let bound = if gate[2] == 0 && gate[0] == 2 { 1 } else { n + g };
        gate[0] <= 2 && (gate[1] as usize) < n + g && (gate[2] as usize) < bound
    });
    if !judged || inputs.iter().any(|&byte| byte > 1) {
        return false;
    }
    wires[..n].copy_from_slice(inputs);
    for (g, gate) in gates.chunks_exact(3).enumerate() {
        // The words were judged: each names an earlier wire, and the buffer has a byte for each.
        unsafe {
            let a = u32::from(*wires.get_unchecked(gate[1] as usize));
            let b = u32::from(*wires.get_unchecked(gate[2] as usize));
            *wires.get_unchecked_mut(n + g) = (VALUES >> (4 * gate[0] + 2 * a + b) & 1) as u8;
        }
    }
    true
}

/// The gate loop, the values shifted out of a word, with nothing judged and no index checked: the quickest form found.
fn by_a_shift(gates: &[u32], inputs: &[u8], wires: &mut [u8]) {
    wires[..inputs.len()].copy_from_slice(inputs);
    for (g, gate) in gates.chunks_exact(3).enumerate() {
        // The gates of `circuit` name earlier wires alone, and the buffer has a byte for each.
        unsafe {
            let a = u32::from(*wires.get_unchecked(gate[1] as usize));
            let b = u32::from(*wires.get_unchecked(gate[2] as usize));
            *wires.get_unchecked_mut(inputs.len() + g) = (VALUES >> (4 * gate[0] + 2 * a + b) & 1) as u8;
        }
    }
}

/// The gate loop, the values looked up in bytes as the proved evaluator does, with nothing judged and no index checked.
fn same_loop(gates: &[u32], inputs: &[u8], wires: &mut [u8]) {
    wires[..inputs.len()].copy_from_slice(inputs);
    for (g, gate) in gates.chunks_exact(3).enumerate() {
        // The gates of `circuit` name known kinds and earlier wires alone, and the buffer has a byte for each.
        unsafe {
            let a = usize::from(*wires.get_unchecked(gate[1] as usize));
            let b = usize::from(*wires.get_unchecked(gate[2] as usize));
            *wires.get_unchecked_mut(inputs.len() + g) = *TABLE.get_unchecked(4 * gate[0] as usize + 2 * a + b);
        }
    }
}

/// The gates alone, by a match on the kind, with nothing judged and no index checked.
fn gates_alone(gates: &[u32], inputs: &[u8], wires: &mut [u8]) {
    wires[..inputs.len()].copy_from_slice(inputs);
    for (g, gate) in gates.chunks_exact(3).enumerate() {
        // The gates of `circuit` name earlier wires alone, and the buffer has a byte for each.
        unsafe {
            let a = *wires.get_unchecked(gate[1] as usize);
            let b = *wires.get_unchecked(gate[2] as usize);
            *wires.get_unchecked_mut(inputs.len() + g) = match gate[0] {
                0 => a ^ b,
                1 => a & b,
                _ => a ^ 1,
            };
        }
    }
}

/// Gates of these kinds, over and over or at random, that read any of the `near` wires before them.
fn circuit(kinds: &[u32], at_random: bool, near: usize, random: &mut Random) -> Vec<u32> {
    let mut words = vec![];
    for g in 0..GATES {
        let wire = INPUTS + g;
        let kind = if at_random { random.below(3) as u32 } else { kinds[g % kinds.len()] };
        let a = wire - 1 - random.below(near.min(wire));
        let b = if kind == 2 { 0 } else { wire - 1 - random.below(near.min(wire)) };
        words.extend([kind, a as u32, b as u32]);
    }
    words
}

/// The giant step's circuit of n = 32 and 128 rows in each table, and how many inputs it has.
fn largest() -> (Vec<u32>, usize) {
    let (n, m) = (32, 384);
    let mut words = vec![0; 3 * 64 * (m + n + 1) * (n + 1)];
    let mut count = [0];
    // The words and the count are lent for the call.
    assert_eq!(unsafe { forkhemit_generate(32, 128, 128, 128, words.as_mut_ptr(), words.len(), &mut count) }, 0);
    words.truncate(3 * count[0] as usize);
    (words, 2 * n * m + 3 * n * n + 3 * n + 3)
}

/// Times all forms on a circuit with random inputs, side by side, and prints a line.
fn compared(label: &str, gates: &[u32], inputs: usize, random: &mut Random) {
    let inputs: Vec<u8> = (0..inputs).map(|_| random.below(2) as u8).collect();
    let mut wires = vec![vec![7; inputs.len() + gates.len() / 3]; 5];
    let mut times = vec![vec![]; 5];
    for _ in 0..RUNS {
        times[0].push(clock::of(|| assert_eq!(proved(gates, &inputs, &mut wires[0]), 0)).1);
        times[1].push(clock::of(|| by_a_shift(gates, &inputs, &mut wires[1])).1);
        times[2].push(clock::of(|| gates_alone(gates, &inputs, &mut wires[2])).1);
        times[3].push(clock::of(|| assert!(same_passes(gates, &inputs, &mut wires[3]))).1);
        times[4].push(clock::of(|| same_loop(gates, &inputs, &mut wires[4])).1);
    }
    assert!(wires.iter().all(|filled| filled == &wires[0]), "all fill the same wires");
    let [p, l, g, s, t] = [0, 1, 2, 3, 4].map(|k| median(times[k].clone()));
    println!("{label:<30}{p:>5.0} us{:>11.2}{:>12.2}{:>13.2}{:>13.2}", p / t, p / l, p / g, p / s);
}

fn main() {
    // The literal cell of the giant step's circuit, as a sequence of kinds.
    let cell = [0, 0, 1, 0, 0, 1, 0, 0, 0, 1, 0, 0];
    let mut random = Random::new(2026);
    println!("time of the proved evaluator on 200,000 gates, the other's being 1 (median of {RUNS} runs side by side)");
    println!(
        "{:<30}{:>8}{:>11}{:>12}{:>13}{:>13}",
        "", "proved", "same loop", "by a shift", "gates alone", "same passes"
    );
    for (label, at_random, near) in [
        ("kinds at random, any wire", true, usize::MAX),
        ("kinds at random, near wires", true, 200),
        ("a cell's kinds, near wires", false, 200),
    ] {
        let gates = circuit(&cell, at_random, near, &mut random);
        compared(label, &gates, INPUTS, &mut random);
    }
    let (gates, inputs) = largest();
    compared(&format!("n = 32, m = 384: {} gates", gates.len() / 3), &gates, inputs, &mut random);
}
