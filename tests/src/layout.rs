//! Tables as DIMACS text: plain, or in any of the layouts that document 01 allows.

use crate::model::Row;
use crate::random::Random;

/// The text with single spaces and a line a clause.
pub fn plain(n: usize, rows: &[Row]) -> Vec<u8> {
    let mut text = format!("p cnf {n} {}\n", rows.len());
    for row in rows {
        for literal in row {
            text.push_str(&format!("{literal} "));
        }
        text.push_str("0\n");
    }
    text.into_bytes()
}

/// At least the given number of some bytes, now and then a few more.
fn some(random: &mut Random, bytes: &[u8], least: usize) -> Vec<u8> {
    let many = if random.once_in(4) { 3 } else { 0 };
    let count = random.between(least, least + many);
    (0..count).map(|_| *random.pick(bytes)).collect()
}

#[rustfmt::skip]
pub const REMARKS: &[&[u8]] = &[b"c", b"c p cnf 1 1", b"c\t1 0 \r", b"cc \0\xff", b"c 12 -3", b"c-1 0\r1 0", b"c0", b"c\x80\rc\0"];

/// The same text with remarks where a line may start, at a few of these places or at every one; one may be its last line, and without an LF.
pub fn remarked(text: &[u8], random: &mut Random) -> Vec<u8> {
    let seldom = *random.pick(&[1, 2, 5]);
    let mut all = vec![];
    for line in text.split_inclusive(|&b| b == b'\n') {
        if random.once_in(seldom) {
            for _ in 0..random.between(1, 2) {
                all.extend(random.pick(REMARKS).iter());
                all.push(b'\n');
            }
        }
        all.extend(line);
    }
    if text.last() == Some(&b'\n') && random.once_in(seldom) {
        all.extend(random.pick(REMARKS).iter());
        all.extend(&b"\n"[..random.below(2)]);
    }
    all
}

/// The same table with any separators between the numbers, and often with remarks.
pub fn spaced(n: usize, rows: &[Row], random: &mut Random) -> Vec<u8> {
    let mut text = vec![];
    for (i, part) in ["p", "cnf", &n.to_string(), &rows.len().to_string()].iter().enumerate() {
        if i > 0 {
            text.extend(some(random, b" \t", 1));
        }
        text.extend_from_slice(part.as_bytes());
    }
    text.extend(some(random, b" \t\r", 0));
    text.push(b'\n');
    text.extend(some(random, b" \t\r\n", 0));
    for row in rows {
        for literal in row.iter().chain(&[0]) {
            text.extend_from_slice(literal.to_string().as_bytes());
            text.extend(some(random, if *literal == 0 { b"\n\n\n " } else { b"   \t\r\n" }, 1));
        }
    }
    if random.once_in(4) {
        while text.last().map_or(false, u8::is_ascii_whitespace) {
            text.pop();
        }
    }
    if random.once_in(2) {
        return text;
    }
    remarked(&text, random)
}
