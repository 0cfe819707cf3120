//! Times the library as a host calls it: the giant step, runs in one call and in many, free literals counted, the reader, the game, the
//! watch page and the writer beside plain Rust, and the making of circuits. All times are the processor's. Linked with the archive that
//! `make lib` writes.

#[path = "../interface/library.rs"]
mod library;
mod plain;

use forkhemit_tests::bristol::Circuit;
use forkhemit_tests::clock::{self, median};
use forkhemit_tests::counts::{self, Counts};
use forkhemit_tests::memory;
use forkhemit_tests::model::{self, Row, Size};
use forkhemit_tests::random::Random;
use forkhemit_tests::{layout, tables, wires};
use library::*;

const RUNS: usize = 25;
const TABLES: usize = 200;
const SEED: u64 = 4_300;

// ---- The giant step

/// Rows of three different variables, and padding after them; as words of three tables.
fn hard(n: usize, m: usize, padding: usize, seed: u64) -> [Vec<u32>; 3] {
    let random = &mut Random::new(seed);
    let mut rows: Vec<Row> = (0..m - padding).map(|_| tables::strict(n, 3, random)).collect();
    rows.extend(vec![vec![1, -1]; padding]);
    let Size { left, right, .. } = Size::split(n, m);
    [&rows[..left], &rows[left..left + right], &rows[left + right..]].map(memory::row_words)
}

/// A budgeted run of the library.
#[rustfmt::skip]
type Solve = unsafe extern "C" fn(u64, u64, u64, u64, *const u32, usize, *const u32, usize, *const u32, usize, u64, *mut [u64; 3]) -> u8;

/// The library's run by the scan, its budget the greatest.
fn solve(n: usize, tables: &[Vec<u32>; 3]) -> [u64; 3] {
    solve_by(forkhemit_solve, n, tables, u64::MAX)
}

/// Calls a function of the library over three tables, which are lent for the call, and over what follows them.
macro_rules! lent {
    ($function:expr, $n:expr, $tables:expr, $($more:expr),+) => {{
        let [left, right, public] = $tables;
        let [l, r, p] = [left, right, public].map(|words| words.len() as u64 / 2);
        let [(a, x), (b, y), (c, z)] = [left, right, public].map(|words| (words.as_ptr(), words.len()));
        unsafe { $function($n as u64, l, r, p, a, x, b, y, c, z, $($more),+) }
    }};
}

/// A run of the library within a budget.
fn solve_by(solve: Solve, n: usize, tables: &[Vec<u32>; 3], budget: u64) -> [u64; 3] {
    let mut answer = [0; 3];
    assert_eq!(lent!(solve, n, tables, budget, &mut answer), 0, "the tables are accepted");
    answer
}

/// The library's run beside the plain one, over all tables; the median over repeated rounds.
fn steps(n: usize, m: usize, padding: usize) {
    let all: Vec<[Vec<u32>; 3]> = (0..TABLES).map(|k| hard(n, m, padding, SEED + k as u64)).collect();
    let joined: Vec<Vec<u32>> = all.iter().map(|tables| tables.concat()).collect();
    let (mut proved, mut plain) = (vec![], vec![]);
    let mut count = 0;
    for _ in 0..RUNS {
        let (answers, time) = clock::of(|| all.iter().map(|tables| solve(n, tables)).collect::<Vec<_>>());
        let (others, other) = clock::of(|| joined.iter().map(|rows| plain::solve(rows, u64::MAX)).collect::<Vec<_>>());
        assert_eq!(answers, others, "both give the same counts, verdicts and models");
        count = answers.iter().map(|answer| answer[0]).sum();
        proved.push(time * 1e3 / count as f64);
        plain.push(other * 1e3 / count as f64);
    }
    let (a, b) = (median(proved), median(plain));
    let padded = if padding > 0 { format!(", {padding} of them padding") } else { String::new() };
    println!(
        "giant step, n = {n}, m = {m}{padded}: {a:.0} ns, plain Rust {b:.0} ns, ratio {:.2} ({count} steps of {TABLES} tables)",
        a / b
    );
}

/// The run by the index beside the one by the scan: whole runs, judging and the making of the index included; the same divided by the
/// steps; and steps alone, without what a run of no steps takes.
fn indexed(n: usize, m: usize, padding: usize) {
    let all: Vec<[Vec<u32>; 3]> = (0..TABLES).map(|k| hard(n, m, padding, SEED + k as u64)).collect();
    let ways: [(Solve, u64); 4] = [
        (forkhemit_solve_indexed, u64::MAX),
        (forkhemit_solve, u64::MAX),
        (forkhemit_solve_indexed, 0),
        (forkhemit_solve, 0),
    ];
    let mut times = [vec![], vec![], vec![], vec![]];
    let mut count = 0;
    for _ in 0..RUNS {
        let made = ways.map(|(way, budget)| {
            clock::of(|| all.iter().map(|tables| solve_by(way, n, tables, budget)).collect::<Vec<_>>())
        });
        assert_eq!(made[0].0, made[1].0, "both give the same counts, verdicts and models");
        count = made[0].0.iter().map(|answer| answer[0]).sum();
        times.iter_mut().zip(&made).for_each(|(times, (_, time))| times.push(time * 1e3));
    }
    let [a, b, c, d] = times.map(median);
    let padded = if padding > 0 { format!(", {padding} of them padding") } else { String::new() };
    let each = |time: f64| time / count as f64;
    let whole = |time: f64| time / TABLES as f64 / 1e3;
    println!("a step of the indexed run, n = {n}, m = {m}{padded}: {:.0} ns, the scan's {:.0} ns, ratio {:.2}; without what a run of no steps takes {:.0} ns, {:.0} ns, ratio {:.2} ({count} steps of {TABLES} tables)",
        each(a), each(b), a / b, each(a - c), each(b - d), (a - c) / (b - d));
    println!("a whole indexed run, n = {n}, m = {m}{padded}: {:.2} us, the scan's {:.2} us, ratio {:.2}; the index is made in {:.2} us",
        whole(a), whole(b), a / b, whole(c - d));
}

/// Steps that are called one by one beside plain Rust that judges tables and run before each step too.
fn single_steps(n: usize, m: usize, padding: usize) {
    let all: Vec<[Vec<u32>; 3]> = (0..TABLES).map(|k| hard(n, m, padding, SEED + k as u64)).collect();
    let joined: Vec<Vec<u32>> = all.iter().map(|tables| tables.concat()).collect();
    let counts: Vec<u64> = joined.iter().map(|rows| plain::solve(rows, 50)[0]).collect();
    let total: u64 = counts.iter().sum();
    let mut fresh = [0; 101];
    fresh[0] = n as u32;
    let (mut proved, mut plain) = (vec![], vec![]);
    for _ in 0..RUNS {
        let (mut runs, mut others) = (vec![fresh; TABLES], vec![fresh; TABLES]);
        let (_, time) = clock::of(|| {
            for ((tables, run), &count) in all.iter().zip(&mut runs).zip(&counts) {
                (0..count).for_each(|_| assert_eq!(lent!(forkhemit_step, n, tables, run), 0));
            }
        });
        let (_, other) = clock::of(|| {
            for ((rows, run), &count) in joined.iter().zip(&mut others).zip(&counts) {
                (0..count).for_each(|_| assert!(plain::step(n as u32, rows, run)));
            }
        });
        assert_eq!(runs, others, "both leave the same runs");
        proved.push(time * 1e3 / total as f64);
        plain.push(other * 1e3 / total as f64);
    }
    let (a, b) = (median(proved), median(plain));
    println!("a step by itself, n = {n}, m = {m}: {a:.0} ns, plain Rust {b:.0} ns, ratio {:.2} ({total} steps)", a / b);
}

/// The calls that a whole run is made of.
#[derive(Clone, Copy)]
enum Calls {
    AtOnce,
    /// This many steps a call.
    Continued(u64),
    Steps,
    /// With an index that is lent to each.
    IndexedSteps,
}

/// Steps and standing of a whole run from the fresh state.
fn made_of(calls: Calls, n: usize, tables: &[Vec<u32>; 3]) -> [u64; 2] {
    let (mut run, mut steps, mut continued) = ([0; 101], 0, [0; 2]);
    run[0] = n as u32;
    match calls {
        Calls::AtOnce => {
            let answer = solve_by(forkhemit_solve_indexed, n, tables, u64::MAX);
            return [answer[0], answer[1]];
        }
        Calls::Continued(times) => {
            while continued[1] == 0 {
                assert_eq!(lent!(forkhemit_continue, n, tables, times, &mut run, &mut continued), 0);
                steps += continued[0];
            }
        }
        Calls::Steps => {
            while run[1] == 0 {
                assert_eq!(lent!(forkhemit_step, n, tables, &mut run), 0);
                steps += 1;
            }
        }
        Calls::IndexedSteps => {
            let (mut index, mut number) = ([0; 384], [0]);
            assert_eq!(lent!(forkhemit_index, n, tables, &mut index), 0);
            assert_eq!(lent!(forkhemit_unsatisfied, n, tables, &run, &mut number), 0);
            while run[1] == 0 {
                assert_eq!(lent!(forkhemit_step_indexed, n, tables, &index, &mut run, &mut number), 0);
                steps += 1;
            }
        }
    }
    [steps, run[1].into()]
}

/// Whole runs in one call, by the given number of steps a call, and by single steps, side by side.
fn in_calls(n: usize, m: usize) {
    let all: Vec<[Vec<u32>; 3]> = (0..TABLES).map(|k| hard(n, m, 0, SEED + k as u64)).collect();
    let by = |times: u64| (format!("{times} steps a call"), Calls::Continued(times));
    let ways = [
        ("at once".to_string(), Calls::AtOnce),
        by(1_000),
        by(100),
        by(10),
        by(1),
        ("single steps".to_string(), Calls::Steps),
        ("single steps with an index".to_string(), Calls::IndexedSteps),
    ];
    let mut times = vec![vec![]; ways.len()];
    let mut count = 0;
    for _ in 0..RUNS {
        let mut first = None;
        for ((_, calls), times) in ways.iter().zip(&mut times) {
            let (made, time) = clock::of(|| all.iter().map(|tables| made_of(*calls, n, tables)).collect::<Vec<_>>());
            count = made.iter().map(|[steps, _]| steps).sum();
            assert_eq!(first.get_or_insert(made.clone()), &made, "all ways give the same counts and verdicts");
            times.push(time * 1e3 / count as f64);
        }
    }
    let shown: Vec<String> =
        ways.iter().zip(times).map(|((way, _), times)| format!("{way} {:.0} ns", median(times))).collect();
    println!("a run in calls, n = {n}, m = {m}: {} ({count} steps of {TABLES} tables)", shown.join(", "));
}

/// Free literals counted side by side, a byte a row, after some steps, beside plain Rust that judges tables and run too.
fn counts(n: usize, m: usize) {
    let all: Vec<[Vec<u32>; 3]> = (0..TABLES).map(|k| hard(n, m, 0, SEED + k as u64)).collect();
    let joined: Vec<Vec<u32>> = all.iter().map(|tables| tables.concat()).collect();
    let mut runs = vec![[0; 101]; TABLES];
    for (rows, run) in joined.iter().zip(&mut runs) {
        run[0] = n as u32;
        (0..6).for_each(|_| assert!(plain::step(n as u32, rows, run)));
    }
    let (mut counts, mut others) = (vec![7; TABLES * m], vec![7; TABLES * m]);
    let (mut proved, mut plain) = (vec![], vec![]);
    for _ in 0..RUNS {
        let (_, time) = clock::of(|| {
            for ((tables, run), counts) in all.iter().zip(&runs).zip(counts.chunks_mut(m)) {
                assert_eq!(lent!(forkhemit_count_free, n, tables, run, counts.as_mut_ptr(), counts.len()), 0);
            }
        });
        let (_, other) = clock::of(|| {
            for ((rows, run), counts) in joined.iter().zip(&runs).zip(others.chunks_mut(m)) {
                assert!(plain::count_free(n as u32, rows, run, counts));
            }
        });
        assert_eq!(counts, others, "both count the same literals");
        proved.push(time * 1e3 / (TABLES * m) as f64);
        plain.push(other * 1e3 / (TABLES * m) as f64);
    }
    let (a, b) = (median(proved), median(plain));
    println!("free literals, n = {n}, m = {m}: {a:.2} ns a row, plain Rust {b:.2} ns, ratio {:.2}", a / b);
}

// ---- The reader

/// A text of nearly 65,536 bytes: rows whose literals come again and again.
fn repeated(random: &mut Random) -> Vec<u8> {
    let rows: Vec<Row> = (0..128).map(|_| (0..148).map(|_| literal(random)).collect()).collect();
    layout::plain(32, &rows)
}

/// A random literal.
fn literal(random: &mut Random) -> i64 {
    random.between(1, 32) as i64 * if random.once_in(2) { -1 } else { 1 }
}

/// The same with little in it: three literals a row, and many separators.
fn spaced(random: &mut Random) -> Vec<u8> {
    let rows: Vec<Row> = (0..128).map(|_| tables::strict(32, 3, random)).collect();
    let mut text = vec![];
    for line in String::from_utf8_lossy(&layout::plain(32, &rows)).lines() {
        text.extend(line.bytes());
        text.extend(vec![b' '; 490]);
        text.push(b'\n');
    }
    text
}

/// The same with a long remark.
fn remarked(random: &mut Random) -> Vec<u8> {
    let rows: Vec<Row> = (0..128).map(|_| tables::strict(32, 3, random)).collect();
    [b"c ".to_vec(), vec![b'x'; 63_000], b"\n".to_vec(), layout::plain(32, &rows)].concat()
}

/// The same with a remark before every clause, and longer clauses.
fn amid(random: &mut Random) -> Vec<u8> {
    let rows: Vec<Row> = (0..128).map(|_| (0..100).map(|_| literal(random)).collect()).collect();
    let mut text = vec![];
    for (k, line) in layout::plain(32, &rows).split_inclusive(|&byte| byte == b'\n').enumerate() {
        if k > 0 {
            text.extend([b"c Row ", &b"x".repeat(170)[..], b"\n"].concat());
        }
        text.extend(line);
    }
    text
}

/// The library's reader of texts: two, and a public one without rows.
fn read_tables(left: &[u8], right: &[u8], words: &mut [Vec<u32>; 2], sizes: &mut [u64; 4]) -> u8 {
    let public = b"p cnf 32 0\n";
    let [l, r] = words;
    // The texts, words and sizes are lent for the call.
    unsafe {
        forkhemit_read_tables(
            left.as_ptr(),
            left.len(),
            right.as_ptr(),
            right.len(),
            public.as_ptr(),
            public.len(),
            l.as_mut_ptr(),
            l.len(),
            r.as_mut_ptr(),
            r.len(),
            [].as_mut_ptr(),
            0,
            sizes,
        )
    }
}

/// Times both readers on random texts of a kind.
fn reader(what: &str, make: fn(&mut Random) -> Vec<u8>) {
    let random = &mut Random::new(SEED);
    let texts: Vec<[Vec<u8>; 2]> = (0..20).map(|_| [make(random), make(random)]).collect();
    let bytes: usize = texts.iter().map(|pair| pair[0].len() + pair[1].len()).sum();
    assert!(texts.iter().flatten().all(|text| text.len() <= model::TEXT_LIMIT), "a text is not overlong");
    let (mut words, mut sizes) = ([vec![0; 256], vec![0; 256]], [0; 4]);
    let mut others = [Vec::with_capacity(256), Vec::with_capacity(256)];
    let (mut proved, mut plain) = (vec![], vec![]);
    for _ in 0..RUNS {
        let mut round = (0.0, 0.0);
        for [left, right] in &texts {
            let (number, time) = clock::of(|| read_tables(left, right, &mut words, &mut sizes));
            assert_eq!(number, 0, "the texts are read");
            let (n, other) = clock::of(|| (plain::read(left, &mut others[0]), plain::read(right, &mut others[1])));
            assert_eq!((n, &others), ((Ok(32), Ok(32)), &words), "both give the same rows");
            round.0 += time;
            round.1 += other;
        }
        proved.push(bytes as f64 / round.0);
        plain.push(bytes as f64 / round.1);
    }
    let (a, b) = (median(proved), median(plain));
    println!("reader, {what}: {a:.0} MB/s, plain Rust {b:.0} MB/s, ratio {:.2}", b / a);
}

// ---- The game

/// Every clause over the last seven variables: of any values the last fixed of them leaves exactly one row false, so that nothing is known
/// before.
fn last_seven() -> Vec<Row> {
    (0..128).map(|signs: i64| (0..7).map(|k| if signs >> k & 1 == 1 { -6 - k } else { 6 + k }).collect()).collect()
}

/// The same but for those with 12 as it is: whatever is fixed before, 12 false makes all true.
fn last_answer() -> Vec<Row> {
    (0..128)
        .map(|signs: i64| {
            [5, 6, 7, 8, 9, 10, 11]
                .iter()
                .enumerate()
                .map(|(k, v)| if signs >> k & 1 == 1 { -v } else { *v })
                .chain([-12])
                .collect()
        })
        .collect()
}

/// Times the game of 12 variables and 128 rows beside plain Rust.
fn game(what: &str, lines: &str, rows: &[Row]) {
    let plain = layout::plain(12, rows);
    let end = plain.iter().position(|&byte| byte == b'\n').expect("the header is a line") + 1;
    let text = [&plain[..end], lines.as_bytes(), &plain[end..]].concat();
    let (mut buffer, mut words) = (vec![], vec![]);
    let (mut proved, mut others) = (vec![], vec![]);
    let mut answer = [0; 3];
    for _ in 0..RUNS {
        // The text and the three numbers are lent for the call.
        let (number, time) = clock::of(|| unsafe { forkhemit_game(text.as_ptr(), text.len(), &mut answer) });
        let (other, took) = clock::of(|| plain::game(&text, &mut buffer, &mut words));
        assert_eq!((number, Ok(answer)), (0, other), "both give the same answer");
        proved.push(time);
        others.push(took);
    }
    let (a, b) = (median(proved), median(others));
    println!("game, n = 12, m = 128, {what}: {a:.0} us, plain Rust {b:.0} us, ratio {:.2} (answer {answer:?})", a / b);
}

// ---- The watch page

/// How many pages are timed at once.
const PAGES: usize = 2_000;

/// Times pages of random models, made and read, beside plain Rust.
fn page(shape: [usize; 2]) {
    let (n, [pilots, watches]) = (shape[0] * shape[1], shape.map(|number| number as u64));
    let random = &mut Random::new(SEED);
    let mut run = [0; 101];
    (run[0], run[1]) = (n as u32, 1);
    let (mut made, mut other) = (vec![0; 80 * shape[0]], vec![0; 80 * shape[0]]);
    let mut times = [vec![], vec![], vec![], vec![]];
    for _ in 0..RUNS {
        run[2] = (random.number() & u64::MAX >> (64 - n)) as u32;
        let model = std::hint::black_box(u64::from(run[2]));
        let mut read = [0];
        // The run, the page and the number are lent for the call.
        let make = || {
            (0..PAGES).for_each(|_| {
                assert_eq!(unsafe { forkhemit_page(&run, pilots, watches, made.as_mut_ptr(), made.len()) }, 0);
            })
        };
        times[0].push(clock::of(make).1);
        let make =
            || (0..PAGES).for_each(|_| assert_eq!(plain::page(model, n, std::hint::black_box(shape), &mut other), 0));
        times[1].push(clock::of(make).1);
        assert_eq!(made, other, "both make the same page");
        let back = || {
            (0..PAGES).for_each(|_| {
                let number =
                    unsafe { forkhemit_read_page(n as u64, pilots, watches, made.as_ptr(), made.len(), &mut read) };
                assert_eq!((number, read), (0, [model]));
            })
        };
        times[2].push(clock::of(back).1);
        let back = || {
            (0..PAGES).for_each(|_| {
                assert_eq!(plain::read_page(n, std::hint::black_box(shape), std::hint::black_box(&other)), Ok(model));
            })
        };
        times[3].push(clock::of(back).1);
    }
    let [a, b, c, d] = times.map(|times| median(times) / PAGES as f64 * 1e3);
    println!("page of {pilots} pilots and {watches} watches: {a:.0} ns, plain Rust {b:.0} ns, ratio {:.2}; read: {c:.0} ns, plain Rust {d:.0} ns, ratio {:.2}", a / b, c / d);
}

// ---- Circuits

/// Makes the circuit of a size into words that have room for it; how many gates.
fn generate(size: Size, gates: &mut [u32]) -> usize {
    let Size { n, left, right, public } = size;
    let [n, left, right, public] = [n, left, right, public].map(|number| number as u64);
    let mut count = [0];
    // The words and the count are lent for the call.
    let number = unsafe { forkhemit_generate(n, left, right, public, gates.as_mut_ptr(), gates.len(), &mut count) };
    assert_eq!(number, 0, "there is room for the gates");
    count[0] as usize
}

/// The heading of the circuits' table.
fn circuit_heading() {
    println!(
        "circuit{:>19}{:>9}{:>9}{:>8}{:>8}{:>7}{:>7}{:>9}   AND for each row times variable, of 72 (before: rule 3 by the lowest row)",
        "gates", "before", "AND", "before", "ratio", "depth", "before", "made in"
    );
}

/// Times the generator for a size, and prints its gates, AND gates and AND depth beside those of the circuit of the earlier rule 3.
fn circuit(n: usize, m: usize) {
    let size = Size::split(n, m);
    let mut words = vec![0u32; 3 * size.ceiling()];
    let mut made = 0;
    let mut times = vec![];
    for _ in 0..RUNS {
        let (count, time) = clock::of(|| generate(size, &mut words));
        made = count;
        times.push(time);
    }
    let gates = memory::gates(&words[..3 * made], memory::input_wires(size)).expect("the words are gates");
    let outputs = vec![wires::state_width(n), 1];
    let Counts { gates, ands, depth } = Circuit { inputs: wires::input_widths(size), outputs, gates }.counts();
    let (before, each) = (counts::before(n, m), ands as f64 / (n * m) as f64);
    println!(
        "n = {n:>2}, m = {m:>3}{gates:>12}{:>9}{ands:>9}{:>8}{:>8.2}{depth:>7}{:>7}{:>6.0} us   {each:.1}, {:.2}",
        before.gates,
        before.ands,
        ands as f64 / before.ands as f64,
        before.depth,
        median(times),
        each / 72.0
    );
}

/// Writes a circuit's text with one call; how many bytes.
fn write(size: Size, gates: &[u32], bytes: &mut [u8]) -> usize {
    let Size { n, left, right, public } = size;
    let [n, left, right, public] = [n, left, right, public].map(|number| number as u64);
    let mut written = [0; 2];
    // The gates, the bytes and the numbers are lent for the call.
    let number = unsafe {
        let (words, room) = (gates.len(), bytes.len());
        forkhemit_write_lines(n, left, right, public, gates.as_ptr(), words, 0, bytes.as_mut_ptr(), room, &mut written)
    };
    assert_eq!((number, written[0] as usize), (0, 4 + gates.len() / 3), "there is room for all lines");
    written[1] as usize
}

/// Times the writer of a circuit's text beside plain Rust that judges the gates too.
fn text(n: usize, m: usize) {
    let size = Size::split(n, m);
    let mut gates = vec![0u32; 3 * size.ceiling()];
    let count = generate(size, &mut gates);
    gates.truncate(3 * count);
    let widths = wires::input_widths(size);
    let mut bytes = vec![0; 40 * (4 + count)];
    let mut others = Vec::with_capacity(bytes.len());
    let (mut proved, mut plain) = (vec![], vec![]);
    let mut length = 0;
    for _ in 0..RUNS {
        let (written, time) = clock::of(|| write(size, &gates, &mut bytes));
        let (judged, other) = clock::of(|| plain::text(&widths, wires::state_width(n), &gates, &mut others));
        assert!(judged && bytes[..written] == others[..], "both write the same text");
        length = written;
        proved.push(written as f64 / time);
        plain.push(written as f64 / other);
    }
    let (a, b) = (median(proved), median(plain));
    println!("text, n = {n}, m = {m}: {length} bytes, {a:.0} MB/s, plain Rust {b:.0} MB/s, ratio {:.2}", b / a);
}

fn main() {
    for (n, m) in [(20, 86), (26, 112), (32, 138), (32, 384)] {
        steps(n, m, 0);
    }
    steps(32, 384, 246);
    for (n, m, padding) in
        [(20, 86, 0), (26, 112, 0), (32, 138, 0), (32, 256, 0), (32, 384, 0), (32, 256, 118), (32, 384, 246)]
    {
        indexed(n, m, padding);
    }
    single_steps(32, 138, 0);
    single_steps(32, 384, 0);
    in_calls(20, 86);
    in_calls(32, 138);
    in_calls(32, 384);
    counts(32, 138);
    counts(32, 384);
    reader("literals again and again", repeated);
    reader("mostly separators", spaced);
    reader("a long remark", remarked);
    reader("a remark before every clause", amid);
    let all = "1 2 3 4 5 6 7 8 9 10 11";
    game("no line, every value tried", "", &last_seven());
    game("12 behind eleven universal ones", &format!("a {all} 0\ne 12 0\n"), &last_answer());
    game(
        "the sides by turns",
        "e 1 0\na 2 0\ne 3 0\na 4 0\ne 5 0\na 6 0\ne 7 0\na 8 0\ne 9 0\na 10 0\ne 11 0\na 12 0\n",
        &last_seven(),
    );
    page([4, 3]);
    page([8, 4]);
    page([32, 1]);
    circuit_heading();
    for (n, m) in [(1, 2), (2, 4), (4, 12), (8, 32), (16, 64), (20, 91), (32, 256), (32, 384)] {
        circuit(n, m);
    }
    for (n, m) in [(20, 91), (32, 256), (32, 384)] {
        text(n, m);
    }
}
