//! Texts and lines that are damaged, or as odd as documents 01 and 02 allow: a list thought out, and random damage.

use crate::layout;
use crate::model::{self, Row, TEXT_LIMIT};
use crate::process::NAMES;
use crate::random::Random;
use crate::report::{Group, Test};

pub const COUNT: usize = 6_000;
const SEED: u64 = 1_965;

/// First lines, each before the clause `1 0`.
#[rustfmt::skip]
const HEADERS: &[&[u8]] = &[
    b"", b"c", b"c\n", b"\n", b" ", b"p", b"p ", b"p cnf", b"p cnf 1", b"p cnf 1 1", b"p cnf 1 1 ", b"p cnf 1 1\t", b"p cnf 1 1\r",
    b"p cnf 1 1 \t\r \r", b"p\tcnf\t1\t1", b"p \t cnf  1\t\t1", b"p\rcnf 1 1", b"p cnf\r1 1", b"p cnf 1\r1", b"p cnf 1 \r1", b"p\x0bcnf 1 1",
    b"p cnf 1 1\x0b", b"p cnf 1 1\x0c", b"p cnf 1 1\0", b"p cnf 1 1 1", b"p cnf 1 1 c", b"p cnf 1 1c", b" p cnf 1 1", b"\tp cnf 1 1",
    b"\np cnf 1 1", b"\r\np cnf 1 1", b"\xef\xbb\xbfp cnf 1 1", b"pcnf 1 1", b"p cnf1 1", b"p CNF 1 1", b"P cnf 1 1", b"p dnf 1 1", b"p cn 1 1",
    b"p cnff 1 1", b"pp cnf 1 1", b"cnf 1 1", b"1 1", b"p cnf +1 1", b"p cnf 01 1", b"p cnf 1 01", b"p cnf -0 1", b"p cnf 1 -0", b"p cnf 1 +1",
    b"p cnf -1 1", b"p cnf 1 -1", b"p cnf -1 -1", b"p cnf 0 1", b"p cnf 1 0", b"p cnf 0 0", b"p cnf 33 1", b"p cnf 1 129", b"p cnf 33 129",
    b"p cnf 00 1", b"p cnf 1 00", b"p cnf 1 2", b"p cnf 32 1", b"p cnf 1 128", b"p cnf 257 1", b"p cnf 1 257", b"p cnf 65537 1", b"p cnf 1 65537",
    b"p cnf 4294967297 1", b"p cnf 1 4294967297", b"p cnf 18446744073709551617 1", b"p cnf 1 18446744073709551617",
    b"p cnf 100000000000000000000000000001 1", b"p cnf 1 100000000000000000000000000001", b"p cnf -100000000000000000000000000001 1",
    b"p cnf 000000000000000000000000000001 1", b"p cnf 1 1x", b"p cnf x 1", b"p cnf 1 x", b"p cnf - 1", b"p cnf 1 -", b"p cnf 33 x", b"p cnf 0 01", b"p cnf 33 1x", b"p cnf 1 129x",
    b"p cnf 33 1 1", b"p cnf 0 0 0", b"p cnf 33 129 \x0b",
    b"p cnf --1 1", b"p cnf 1- 1", b"p cnf 1 1\np cnf 1 1", b"c p cnf 1 1", b"c\np cnf 1 1", b"c\n\np cnf 1 1", b"c\n c\np cnf 1 1",
    b"c\r\np cnf 1 1", b"c\rp cnf 1 1", b"cp cnf 1 1\np cnf 1 1", b"C\np cnf 1 1", b"c\0\xff\np cnf 1 1", b"c\nc\nc\np cnf 1 1", b"%\np cnf 1 1",
    b"1 0\np cnf 1 1", b"p cnf 1 1\r\r", b"p cnf 1 1\n\n\n", b"p cnf 1 1\nc", b"p cnf 1 1\nc\n", b"p cnf 1 1\n c\n",
    b"p cnf 1 1\nc\nc 1 0\r", b"p cnf 1 1\n\nc\n\nc", b"c\np cnf 33 1\nc", b"p cnf 1 1\r\nc", b"p cnf 1 1c\nc", b"p cnf 1\nc\n1", b"p\nc\ncnf 1 1",
    b"p cnf 1 0 \t\r", b"p cnf 1 0x", b"p cnf 1 0 0", b"p cnf 32 0", b"p cnf 33 0", b"p cnf 1 0\n\n", b"p cnf 1 0\nc", b"p cnf 1 0\n0", b"p cnf 1 0\nc\n-1",
];

/// What comes after `p cnf 2 2`, the second clause being right in most.
#[rustfmt::skip]
const BODIES: &[&[u8]] = &[
    b"", b"\n", b"1 0 2 0", b"1 0 2 0\n", b"1 0\n2 0\n", b"1\n0\n2\n0", b"1\r0\r2\r0\r", b"1\t0\t2\t0", b"\r\n1 0\r\n2 0\r\n", b"1 2 0 0", b"0 0", b"0",
    b"0 0 0", b"1 0 2", b"1 0 2 ", b"1 0 2 -", b"1 0", b"1 0 2 0 1", b"1 0 2 0 0", b"1 0 2 0 1 0", b"-1 0 -2 0", b"- 1 0 2 0", b"-0 2 0", b"1 -0 2 0",
    b"+1 0 2 0", b"1 +0 2 0", b"01 0 2 0", b"1 00 2 0", b"1 0 2 00", b"-01 0 2 0", b"3 0 2 0", b"-3 0 2 0", b"1 0 3 0", b"33 0 2 0", b"c\n1 0 2 0",
    b"1\nc 2 0\n0 2 0", b"1 0\n c\n2 0", b"1 0\n\tc\n2 0", b"1 0\nxc\n2 0", b"1 0 2\nc", b"1 0 2\nc\n", b"1 0 2\nc 0", b"1 0\nc\r2 0", b"1 0\nc\0\xff\n2 0", b"1 0\rc\n2 0",
    b"1 0\nc\n\nc\nc\n2 0", b"1-\nc\n2 0", b"-\nc\n1 0 2 0", b"1\nc\n2\nc\n0\nc\n0", b"1 0 2 0c\n", b"1 0\nc\np cnf 2 2\n2 0", b"1 0\nC\n2 0", b"c\nc\nc 1 0 2 0\n",
    b"1 0\nc\n2 0", b"1 0\nc 7\n2 0\n", b"1\nc\n0 2 0", b"1 0 2 0\nc", b"1 0 2 0\nc end\n", b"1 c 0 2 0", b"1 0 c\n2 0", b"1 0 2 0 c", b"1c 0 2 0",
    b"1 0 2 0\n%\n0\n", b"1 0 2 0\0", b"1\x000 2 0", b"1 0 2 0\x0b", b"1\x0b0 2 0", b"1\x0c0 2 0", b"1,0 2 0", b"1.0 0 2 0", b"1e0 0 2 0", b"0x1 0 2 0",
    b"1-0 2 0", b"1-1 0 2 0", b"--1 0 2 0", b"-1- 0 2 0", b"\xe2\x88\x921 0 2 0", b"1\xa00 2 0", b"1 0\x85 2 0", b"1 1 1 0 2 0", b"1 -1 0 2 0",
    b"1 -1 1 -1 0 2 2 2 0", b"1 2 -1 -2 0 0", b"100000000000000000000000000001 0 2 0", b"-100000000000000000000000000001 0 2 0",
    b"000000000000000000000000000001 0 2 0", b"1 000000000000000000000000000000 2 0", b"257 0 2 0", b"1 256 2 0", b"-257 0 2 0", b"-256 1 0 2 0",
    b"65537 0 2 0", b"1 65536 2 0", b"4294967297 0 2 0", b"1 4294967296 2 0", b"-4294967297 0 2 0", b"18446744073709551617 0 2 0",
    b"1 18446744073709551616 2 0", b"-18446744073709551615 0 2 0", b"9223372036854775809 0 2 0", b"1 0 2 340282366920938463463374607431768211456",
    b"p cnf 2 2\n1 0 2 0", b"1 0 p 2 0", b"a 1 0\n1 0 2 0", b"e 1 0\n1 0 2 0", b"d 1 0\n1 0 2 0", b"\xff", b"1 0 2 0 \xff", b"/ 1 0 2 0", b": 0 2 0", b"1: 0",
];

/// What is on standard input.
#[rustfmt::skip]
const LINES: &[&[u8]] = &[
    b"", b"\n", b"9", b"9\n", b"0\n", b"00\n", b"-0\n", b"+9\n", b"-9\n", b" 9\n", b"9 \n", b"\t9\n", b"9\t\n", b"9\r\n", b"\r9\n", b"9\0\n", b"\09\n",
    b"9\x0b\n", b"0x9\n", b"9.\n", b"9,0\n", b"1 2\n", b"1e1\n", b"a\n", b"9a\n", b"c\n", b"\xd9\xa9\n", b"/\n", b":\n", b"9:\n", b"000000000000000000000000000009\n",
    b"9\n\n", b"9\n8\n", b"9\nx\0\xff", b"9\n\n\n\n", b"\n9\n", b"2\n3\n", b"3\n", b"4\n", b"18446744073709551614\n", b"18446744073709551615\n",
    b"18446744073709551616\n", b"18446744073709551617\n", b"018446744073709551615\n", b"018446744073709551616\n", b"18446744073709551624\n",
    b"28446744073709551615\n", b"99999999999999999999\n", b"100000000000000000000\n", b"36893488147419103232\n", b"100000000000000000000000000000\n",
    b"340282366920938463463374607431768211457\n", b"18446744073709551615", b"18446744073709551615 \n",
];

/// A text in the place of each of three in turn. The others are right: a station's has this row over as many variables, the
/// public one has none.
fn each(what: &str, row: &[i64], text: &[u8], tests: &mut Vec<Test>) {
    let n = row.len();
    let station = layout::plain(n, &[row.to_vec()]);
    let right = [station.clone(), station, layout::plain(n, &[])];
    for (place, name) in NAMES.iter().enumerate() {
        let mut texts = right.clone();
        texts[place] = text.to_vec();
        let name = format!("{what} \"{}\", {name}", text[..text.len().min(60)].escape_ascii());
        tests.push(Test::new(name, texts, b"9\n".to_vec()));
    }
}

/// Every text of the lists in each place, and every line, on tables that close within a few steps.
fn listed() -> Vec<Test> {
    let mut tests = vec![];
    for header in HEADERS {
        for clause in [&b"\n1 0\n"[..], b"", b"\nx"] {
            each("header", &[1], &[header, clause].concat(), &mut tests);
        }
    }
    for body in BODIES {
        each("body", &[-2, 1], &[b"p cnf 2 2\n", *body].concat(), &mut tests);
        each("body behind no rows", &[-2, 1], &[b"p cnf 2 0\n", *body].concat(), &mut tests);
    }
    for text in sized() {
        each(&format!("{} bytes", text.len()), &[1], &text, &mut tests);
    }
    tests.extend(overlong());
    for line in lines() {
        for other in [[2, 2, 2], [2, 3, 2], [2, 2, 3]] {
            let [left, right, public] = other.map(|n| format!("p cnf {n} "));
            let texts = [left + "1\n1 2 0\n", right + "1\n-1 0\n", public + "0\n"].map(String::into_bytes);
            let name = format!("line \"{}\"", line[..line.len().min(120)].escape_ascii());
            tests.push(Test::new(name, texts, line.clone()));
        }
    }
    tests
}

/// A text that its last remark, which does not change the table, makes as long as it may be, and a byte longer; in each place.
fn overlong() -> Vec<Test> {
    let mut tests = vec![];
    let right: [&[u8]; 3] = [b"p cnf 1 1\n1 0\n", b"p cnf 1 1\n1 0\n", b"p cnf 1 0\n"];
    let answer: String = "c steps 2\ns SATISFIABLE\nv 1 0\n".into();
    for (length, expected) in [(TEXT_LIMIT, answer), (TEXT_LIMIT + 1, model::refused(5))] {
        for (place, name) in NAMES.iter().enumerate() {
            let mut texts = right.map(<[u8]>::to_vec);
            texts[place].push(b'c');
            texts[place].resize(length, b'1');
            let name = format!("{name} of {length} bytes with a last remark");
            let test = Test::new(name, texts, b"9\n".to_vec());
            tests.push(Test { expected: Some(expected.clone()), ..test });
        }
    }
    tests
}

/// The lines of the list, and lines around each limit of length: of zeros, with another digit first or last, or with a letter last.
fn lines() -> Vec<Vec<u8>> {
    let mut lines: Vec<Vec<u8>> = LINES.iter().map(|line| line.to_vec()).collect();
    for length in [20, 21, 64, 98, 99, 100, 101, 127, 128, 255, 256, 65_535, 65_536, 70_000] {
        for (first, last) in [(b'0', b'0'), (b'0', b'7'), (b'7', b'0'), (b'0', b'x')] {
            let mut line = vec![b'0'; length];
            line[0] = first;
            line[length - 1] = last;
            lines.push(line.clone());
            lines.push([&line[..], b"\n"].concat());
            lines.push([&line[..], b"\nmore\n"].concat());
        }
    }
    lines
}

/// Texts around the limit of 65,536 bytes, and around the 4,096 up to which the program reads into small buffers, filled up in each
/// place where a text can grow.
fn sized() -> Vec<Vec<u8>> {
    let shapes: [(&[u8], u8, &[u8]); 19] = [
        (b"p cnf 1 0\n", b'\r', b"\n"),
        (b"p cnf 1 0\nc", b'0', b""),
        (b"p cnf 1 1\nc", b'x', b"\n1 0\n"),
        (b"p cnf 1 1\n1\nc 2", b' ', b"\n0"),
        (b"p cnf 1 1\n1 0\nc", b'0', b""),
        (b"c ", b'x', b"\np cnf 1 1\n1 0\n"),
        (b"c\n", b'c', b"\np cnf 1 1\n1 0\n"),
        (b"p cnf", b' ', b"1 1\n1 0\n"),
        (b"p cnf 1 1", b'\r', b"\n1 0\n"),
        (b"p cnf 1 1\n", b'\n', b"1 0"),
        (b"p cnf 1 1\n1", b'\t', b"0"),
        (b"p cnf 1 1\n1 0", b' ', b""),
        (b"p cnf 1 1\n1 0", b' ', b"x"),
        (b"p cnf 1 1\n", b'1', b" 0\n"),
        (b"p cnf ", b'1', b" 1\n1 0\n"),
        (b"p cnf 0 1\n1 0", b'\n', b""),
        (b"p cnf 1 0\n1 0", b'\n', b""),
        (b"p cnf 33 129\nx", b'x', b""),
        (b"", b'c', b""),
    ];
    let mut texts = vec![];
    for length in [4_095, 4_096, 4_097, TEXT_LIMIT - 1, TEXT_LIMIT, TEXT_LIMIT + 1, 2 * TEXT_LIMIT] {
        for (start, filler, end) in shapes {
            let middle = vec![filler; length - start.len() - end.len()];
            texts.push([start, &middle, end].concat());
        }
        // as many clauses' worth of one literal as there is room for
        let room = length - b"p cnf 1 1\n0".len();
        texts.push([b"p cnf 1 1\n", &b"1 ".repeat(room / 2)[..], &b" ".repeat(room % 2), b"0"].concat());
        // as many remarks
        texts.push([b"p cnf 1 1\n", &b"c\n".repeat(room / 2)[..], &b" ".repeat(room % 2), b"0"].concat());
    }
    texts
}

/// Bytes and words that damage puts in.
#[rustfmt::skip]
const PIECES: &[&[u8]] = &[
    b"\r", b"\t", b"\0", b" ", b"\n", b"\x0b", b"\x0c", b"\xff", b"0", b"-", b"+", b"c", b"p", b"%", b"1", b"9", b" 0 ", b" -0 ", b" +1 ", b" 007 ", b" 00 ", b" 33 ",
    b" 100000000000000000000000000001 ", b" -4294967295 ", b"c note\n", b"\nc note\n", b"\nc\n", b"p cnf 2 2\n", b"\r\n", b" 1 -1 0 ", b" 2 0\n", b"\n0\n", b"18446744073709551616",
];

/// The place of some byte of this kind, or the end.
fn place(text: &[u8], kind: fn(&u8) -> bool, random: &mut Random) -> usize {
    let places: Vec<usize> = (0..text.len()).filter(|&at| kind(&text[at])).chain([text.len()]).collect();
    *random.pick(&places)
}

/// One stroke of damage. Some do none: a separator more, a digit that is as good as the one it replaces.
pub fn strike(text: &mut Vec<u8>, random: &mut Random) {
    let at = random.below(text.len() + 1);
    let end = (at + random.between(1, 4)).min(text.len());
    match random.below(14) {
        0..=2 => {
            let at = place(text, u8::is_ascii_whitespace, random);
            text.insert(at, *random.pick(b" \t\r\n"));
        }
        3..=5 => {
            let at = place(text, u8::is_ascii_digit, random);
            drop(text.splice(at..(at + 1).min(text.len()), [*random.pick(b"0123456789")]));
        }
        6 | 7 => drop(text.splice(at..at, random.pick(PIECES).iter().copied())),
        8 => drop(text.splice(at..end, random.pick(PIECES).iter().copied())),
        9 => drop(text.drain(at..end)),
        10 => text.truncate(at),
        11 => {
            let again = text[at..end].to_vec();
            drop(text.splice(at..at, again));
        }
        12 => {
            if let Some(last) = text.iter().rposition(|&b| b == b'0') {
                text.remove(last);
            }
        }
        _ => {
            if let Some(byte) = text.get_mut(at) {
                *byte ^= 1 << random.below(8);
            }
        }
    }
}

/// Small tables in some layout, then one to three strokes on a text or the line.
fn tests(number: usize) -> Vec<Test> {
    let seed = SEED + number as u64;
    let random = &mut Random::new(seed);
    let n = random.between(1, 6);
    let mut parts: Vec<Vec<u8>> = vec![];
    for least in [1, 1, 0] {
        let count = random.between(least, 4);
        let rows: Vec<Row> = (0..count)
            .map(|_| {
                let width = *random.pick(&[0, 1, 2, 2, 2, 3, 3, 3]);
                (0..width).map(|_| random.between(1, n) as i64 * if random.once_in(2) { -1 } else { 1 }).collect()
            })
            .collect();
        parts.push(if random.once_in(2) { layout::spaced(n, &rows, random) } else { layout::plain(n, &rows) });
    }
    parts.push(format!("{}\n", random.below(40)).into_bytes());
    for _ in 0..*random.pick(&[1, 1, 1, 2, 3]) {
        let part = *random.pick(&[0, 0, 0, 1, 1, 1, 2, 2, 2, 3]);
        strike(&mut parts[part], random);
    }
    let line = parts.pop().expect("the line comes last");
    let texts = [0, 1, 2].map(|k| parts[k].clone());
    // with remarks put in the answer stays
    let remarked = [0, 1, 2].map(|k| layout::remarked(&texts[k], random));
    let remarked = Test {
        expected: Some(model::output([0, 1, 2].map(|k| Some(&texts[k][..])), &line)),
        ..Test::new(format!("damage {number} and remarks, seed {seed}"), remarked, line.clone())
    };
    vec![Test::new(format!("damage {number}, seed {seed}"), texts, line), remarked]
}

/// The listed tests, and the random ones.
pub fn groups() -> [Group<'static>; 2] {
    let list = listed();
    let count = list.len();
    [
        Group {
            title: format!("{count} listed texts and lines"),
            count,
            make: Box::new(move |number| vec![list[number].clone()]),
        },
        Group {
            title: format!("{COUNT} damaged texts and lines, seeds from {SEED}"),
            count: COUNT,
            make: Box::new(tests),
        },
    ]
}
