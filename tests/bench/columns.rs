//! Times a table by columns and back beside the same work in plain Rust, with the same checks: five steps of masks, in the proved code's
//! form, in which the words of a pair are 16 apart in every step, and in the textbook's, which exchanges bits in place. Linked with the
//! library that `make lib` writes. Times are the processor's.

#[path = "../interface/library.rs"]
mod library;

use forkhemit_tests::clock;
use forkhemit_tests::random::Random;
use library::*;
use std::hint::black_box;

const TABLES: usize = 200;
const RUNS: usize = 101;
const SEED: u64 = 1_313_500;

/// The columns of 32 words.
type Turn = fn([u32; 32]) -> [u32; 32];

/// One step in the proved code's form.
fn step(words: [u32; 32], d: u32, mask: u32) -> [u32; 32] {
    let mut next = [0; 32];
    for j in 0..16 {
        let (a, b) = (words[j], words[j + 16]);
        next[2 * j] = (a & mask) | (b & mask) << d;
        next[2 * j + 1] = (a >> d & mask) | (b & !mask);
    }
    next
}

/// All five.
fn same_steps(words: [u32; 32]) -> [u32; 32] {
    let words = step(step(words, 16, 0xffff), 8, 0xff00ff);
    step(step(step(words, 4, 0xf0f0f0f), 2, 0x33333333), 1, 0x55555555)
}

/// In the textbook's (Hacker's Delight, 7–3).
fn in_place(mut words: [u32; 32]) -> [u32; 32] {
    for (d, mask) in [(16, 0xffff), (8, 0xff00ff), (4, 0xf0f0f0f), (2, 0x33333333), (1, 0x55555555)] {
        let mut k = 0;
        while k < 32 {
            let exchanged = (words[k] >> d ^ words[k + d]) & mask;
            words[k] ^= exchanged << d;
            words[k + d] ^= exchanged;
            k = (k + d + 1) & !d;
        }
    }
    words
}

/// 1, 2 or 4, or how many squares there are.
fn squares(n: usize, rows: usize, table: usize, planes: usize) -> Result<usize, u8> {
    let squares = (rows + 31) / 32;
    match (n, rows) {
        (0 | 33.., _) => Err(1),
        (_, 129..) => Err(2),
        _ if table < 2 * rows || planes < 64 * squares => Err(4),
        _ => Ok(squares),
    }
}

/// The bits below n.
fn below(n: usize) -> u32 {
    if n < 32 {
        (1 << n) - 1
    } else {
        u32::MAX
    }
}

/// A table's planes.
fn to_planes(turn: Turn, n: usize, rows: usize, table: &[u32], planes: &mut [u32]) -> u8 {
    let squares = match squares(n, rows, table.len(), planes.len()) {
        Ok(squares) => squares,
        Err(number) => return number,
    };
    let table = &table[..2 * rows];
    if table.iter().any(|word| word & !below(n) != 0) {
        return 3;
    }
    for (part, square) in table.chunks(64).zip(planes[..64 * squares].chunks_exact_mut(64)) {
        for sign in 0..2 {
            let mut words = [0; 32];
            for (row, word) in part.chunks_exact(2).zip(&mut words) {
                *word = row[sign];
            }
            square[32 * sign..][..32].copy_from_slice(&turn(words));
        }
    }
    0
}

/// The rows of planes.
fn to_rows(turn: Turn, n: usize, rows: usize, planes: &[u32], table: &mut [u32]) -> u8 {
    let squares = match squares(n, rows, table.len(), planes.len()) {
        Ok(squares) => squares,
        Err(number) => return number,
    };
    for (s, plane) in planes[..64 * squares].chunks_exact(32).enumerate() {
        let held = below((rows - 32 * (s / 2)).min(32));
        if plane[..n].iter().any(|word| word & !held != 0) || plane[n..].iter().any(|&word| word != 0) {
            return 24;
        }
    }
    for (square, part) in planes[..64 * squares].chunks_exact(64).zip(table[..2 * rows].chunks_mut(64)) {
        for sign in 0..2 {
            let mut words = [0; 32];
            words.copy_from_slice(&square[32 * sign..][..32]);
            for (row, word) in part.chunks_exact_mut(2).zip(turn(words)) {
                row[sign] = word;
            }
        }
    }
    0
}

/// The library's two functions.
fn proved_planes(n: usize, rows: usize, table: &[u32], planes: &mut [u32]) -> u8 {
    // Both slices pass as their pointer and their length.
    unsafe { forkhemit_columns(n as u64, rows as u64, table.as_ptr(), table.len(), planes.as_mut_ptr(), planes.len()) }
}

fn proved_rows(n: usize, rows: usize, planes: &[u32], table: &mut [u32]) -> u8 {
    unsafe { forkhemit_rows(n as u64, rows as u64, planes.as_ptr(), planes.len(), table.as_mut_ptr(), table.len()) }
}

/// The three ways side by side, on the same words: what each writes, and its median time in nanoseconds.
fn timed(
    from: &[Vec<u32>],
    room: usize,
    ways: [&dyn Fn(&[u32], &mut [u32]) -> u8; 3],
) -> ([Vec<Vec<u32>>; 3], [f64; 3]) {
    let mut written = [0, 1, 2].map(|_| vec![vec![7; room]; from.len()]);
    let mut times = [vec![], vec![], vec![]];
    for run in 0..RUNS {
        for way in [0, 1, 2].map(|k| (k + run) % 3) {
            let work = || from.iter().zip(&mut written[way]).all(|(from, to)| ways[way](black_box(from), to) == 0);
            let (taken, time) = clock::of(work);
            assert!(taken, "the words are accepted");
            times[way].push(time * 1e3 / from.len() as f64);
        }
    }
    (written, times.map(clock::median))
}

/// Both ways for a size.
fn columns(n: usize, rows: usize) {
    let random = &mut Random::new(SEED);
    let table = |_| (0..2 * rows).map(|_| random.number() as u32 & below(n)).collect();
    let tables: Vec<Vec<u32>> = (0..TABLES).map(table).collect();
    let (planes, there) = timed(
        &tables,
        64 * ((rows + 31) / 32),
        [
            &|from, to| proved_planes(n, rows, from, to),
            &|from, to| to_planes(same_steps, n, rows, from, to),
            &|from, to| to_planes(in_place, n, rows, from, to),
        ],
    );
    assert!(planes[0] == planes[1] && planes[0] == planes[2], "all write the same planes");
    let (back, again) = timed(
        &planes[0],
        2 * rows,
        [
            &|from, to| proved_rows(n, rows, from, to),
            &|from, to| to_rows(same_steps, n, rows, from, to),
            &|from, to| to_rows(in_place, n, rows, from, to),
        ],
    );
    assert!(back.iter().all(|back| *back == tables), "all give the tables back");
    for (what, [proved, same, textbook]) in [("to planes", there), ("to rows", again)] {
        println!(
            "a table by columns, n = {n}, {rows} rows, {what}: {proved:.0} ns, the same steps in plain Rust {same:.0} ns, ratio {:.2}; exchanged in place {textbook:.0} ns, ratio {:.2}",
            proved / same, proved / textbook
        );
    }
}

fn main() {
    columns(32, 128);
    columns(20, 100);
    columns(12, 40);
}
