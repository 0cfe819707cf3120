//! The clause of a row by its own bytes: texts written by hand with a mark before and after each clause, and random ones written clause by
//! clause. Where a clause is, is known from how its text was made; no reader is asked. Its place is asked for and its bytes, in buffers of
//! just their length, longer ones and a byte shorter. The bytes handed back are read again.

use crate::calls::{numbers, Call, Function, Lent};
use crate::circuits::Circuits;
use crate::indexed::taken;
use crate::{judge, shown};
use forkhemit_tests::memory;
use forkhemit_tests::model::{padding, Row, Run, Size, TEXT_LIMIT};
use forkhemit_tests::random::Random;
use forkhemit_tests::report::{Ledger, Tally};
use forkhemit_tests::{layout, tables};
use std::ops::Range;

const SEED: u64 = 717_000;
/// How many variables, and how many rows in the three tables; with how many pairs of random texts each.
#[rustfmt::skip]
const SIZES: [([usize; 4], usize); 9] = [
    ([1, 1, 1, 0], 100), ([2, 3, 2, 1], 400), ([3, 1, 6, 0], 300), ([5, 7, 4, 2], 300), ([9, 12, 15, 3], 120), ([32, 9, 9, 0], 120), ([20, 40, 1, 128], 12),
    ([32, 1, 128, 1], 8), ([32, 128, 128, 128], 8),
];
/// How far a run is followed whose steps name clauses.
const STEPS: usize = 60;

/// A clause as it is in a text: its literals as they were written, and the bytes from the first one through the 0.
type Clause = (Row, Range<usize>);

/// A station's text and its clauses.
#[derive(Clone, Debug)]
struct Made {
    text: Vec<u8>,
    clauses: Vec<Clause>,
}

// ---- Texts written by hand

/// `<` is before each clause and `>` after it; the text is without these marks.
struct Written {
    what: &'static str,
    n: usize,
    text: &'static str,
    rows: &'static [&'static [i64]],
}

#[rustfmt::skip]
const WRITTEN: &[Written] = &[
    Written { what: "a line a clause", n: 3, text: "p cnf 3 2\n<1 -2 3 0>\n<-1 0>\n", rows: &[&[1, -2, 3], &[-1]] },
    Written { what: "all on one line, which is the last", n: 2, text: "p cnf 2 4\n<1 0> <0> <-1 2 0>  <2 0>", rows: &[&[1], &[], &[-1, 2], &[2]] },
    Written { what: "a literal a line, and lines without any", n: 3, text: "p cnf 3 2\n\n\n<1\n\n2\n3\n0>\n\n\n<-1\n-2\n\n0>\n\n", rows: &[&[1, 2, 3], &[-1, -2]] },
    Written { what: "clauses that begin and end within a line", n: 2, text: "p cnf 2 3\n<1\n0> <2\n0> <-1\n-2 0>\n", rows: &[&[1], &[2], &[-1, -2]] },
    Written { what: "tabs and CRs", n: 2, text: "p\tcnf \t2  2\t\r\r\n\r\n\t <1\t\r-2\r\n\r0>\r<2\r0>\r\n", rows: &[&[1, -2], &[2]] },
    Written { what: "lines that end in CR and LF", n: 2, text: "c\r\np cnf 2 2\r\nc\r\n<1\r\nc\r\n2 0>\r\n<-2 0>\r\n", rows: &[&[1, 2], &[-2]] },
    Written { what: "remarks before the header", n: 2, text: "c p cnf 1 1\nc 1 0\nc\np cnf 2 1\n<1 2 0>\n", rows: &[&[1, 2]] },
    Written { what: "remarks between clauses and behind the last", n: 2, text: "p cnf 2 2\nc 2 0\n<1 0>\nc 1 0\nc 0\n<-2 0>\nc 0", rows: &[&[1], &[-2]] },
    Written { what: "remarks inside clauses", n: 2, text: "p cnf 2 2\n<1\nc 0\nc\n-2\nc -2 0\n0>\n<2\ncnf 0\n0>", rows: &[&[1, -2], &[2]] },
    Written { what: "a remark behind a line that a clause begins on", n: 2, text: "p cnf 2 2\n<1 0> <-2\nc 0 1 0\n-1 0>", rows: &[&[1], &[-2, -1]] },
    Written { what: "a remark whose CRs end nothing", n: 2, text: "p cnf 2 1\nc\r1 0\r\n<2\nc\r0\r\n1 0>", rows: &[&[2, 1]] },
    Written { what: "empty clauses", n: 1, text: "p cnf 1 4\n<0> <0>\n<0>\n\t\r<0>", rows: &[&[], &[], &[], &[]] },
    Written { what: "an empty clause behind a remark", n: 1, text: "p cnf 1 2\nc 1 0\n<0>\nc 0\n<0>", rows: &[&[], &[]] },
    Written { what: "literals that are repeated", n: 2, text: "p cnf 2 2\n<1 1 1 -2 1 0>\n<-2 -2\n-2 0>\n", rows: &[&[1, -2], &[-2]] },
    Written { what: "padding", n: 3, text: "p cnf 3 3\n<1 -1 0>\n<2 1 -1 -1 2 0>\n<-3 3 0>\n", rows: &[&[1, -1], &[2, 1, -1], &[-3, 3]] },
    Written { what: "one clause several times, spelled in other ways", n: 2, text: "p cnf 2 4\n<1 2 0>\n<2 1 0>\n<1\t2 2 0>\n<1 2 0>\n", rows: &[&[1, 2], &[1, 2], &[1, 2], &[1, 2]] },
    Written { what: "numbers that hold a 0", n: 32, text: "p cnf 32 3\n<10 -20 30 0>\n<-10 0>\n<20 1 0>\n", rows: &[&[10, -20, 30], &[-10], &[20, 1]] },
    Written { what: "the highest variables", n: 32, text: "p cnf 32 2\n<32 -31 0>\n<-32 32 0>\n", rows: &[&[32, -31], &[32, -32]] },
];

/// A text without its marks, and where they were.
fn unmarked(marked: &[u8], rows: &[&[i64]]) -> Made {
    let (mut text, mut starts, mut ends) = (vec![], vec![], vec![]);
    for &byte in marked {
        match byte {
            b'<' => starts.push(text.len()),
            b'>' => ends.push(text.len()),
            _ => text.push(byte),
        }
    }
    let places = starts.iter().zip(&ends).map(|(&start, &end)| start..end);
    let clauses: Vec<Clause> = rows.iter().map(|row| row.to_vec()).zip(places).collect();
    assert!([starts.len(), ends.len()] == [rows.len(); 2], "each clause has its two marks");
    Made { text, clauses }
}

// ---- Texts written clause by clause

/// How a text is spelled: which bytes are between numbers, how many at most, and at one in how many starts of a line a remark.
struct Spelling {
    separators: &'static [u8],
    most: usize,
    seldom: usize,
}

impl Spelling {
    /// Plain, odd in one thing, or odd in all.
    fn drawn(random: &mut Random) -> Spelling {
        let separators: [&[u8]; 7] = [b" ", b" \t", b"\n", b" \n", b"\r\n", b"   \t\r\n", b" \t\r\n\n\n"];
        Spelling {
            separators: *random.pick(&separators),
            most: *random.pick(&[1, 1, 2, 4, 9]),
            seldom: *random.pick(&[2, 3, 8, usize::MAX]),
        }
    }

    /// Remarks, if a line starts here.
    fn remarks(&self, text: &mut Vec<u8>, random: &mut Random) {
        while text.last().map_or(true, |&byte| byte == b'\n') && random.once_in(self.seldom) {
            text.extend(random.pick(layout::REMARKS).iter());
            text.push(b'\n');
        }
    }

    /// At least the given number of separators, and remarks among them.
    fn gap(&self, least: usize, text: &mut Vec<u8>, random: &mut Random) {
        for _ in 0..random.between(least, self.most) {
            text.push(*random.pick(self.separators));
            self.remarks(text, random);
        }
    }

    /// The header, and what may come before it and after.
    fn header(&self, n: usize, count: usize, text: &mut Vec<u8>, random: &mut Random) {
        self.remarks(text, random);
        text.push(b'p');
        for part in ["cnf", &n.to_string(), &count.to_string()] {
            (0..random.between(1, self.most)).for_each(|_| text.push(*random.pick(b" \t")));
            text.extend(part.bytes());
        }
        (0..random.between(0, self.most - 1)).for_each(|_| text.push(*random.pick(b" \t\r")));
        text.push(b'\n');
        self.remarks(text, random);
        self.gap(0, text, random);
    }

    /// A text of these clauses, each place noted as it is written. At its end there may be an LF or none, or a remark without one.
    fn text(&self, n: usize, rows: Vec<Row>, random: &mut Random) -> Made {
        let (mut text, mut clauses) = (vec![], vec![]);
        self.header(n, rows.len(), &mut text, random);
        for row in rows {
            let start = text.len();
            for literal in &row {
                text.extend(literal.to_string().bytes());
                self.gap(1, &mut text, random);
            }
            text.push(b'0');
            clauses.push((row, start..text.len()));
            self.gap(1, &mut text, random);
        }
        match random.below(3) {
            0 => text.truncate(clauses.last().map_or(text.len(), |(_, place)| place.end)),
            1 => text.extend(b"\nc 1 0"),
            _ => text.push(b'\n'),
        }
        Made { text, clauses }
    }
}

/// Clauses, as many as asked for: empty ones, ones of all widths, literals more than once, padding, and again one that is there already.
fn clauses(n: usize, count: usize, random: &mut Random) -> Vec<Row> {
    let mut rows: Vec<Row> = vec![];
    for k in 0..count {
        let width = *random.pick(&[1, 2, 3, n.min(6), n]);
        let row = tables::strict(n, width, random);
        rows.push(match random.below(8) {
            0 => vec![],
            1 => [&row[..], &[row[0], row[row.len() - 1], row[0]]].concat(),
            2 | 3 => [&row[..], &[-row[random.below(row.len())]]].concat(),
            4 if k > 0 => rows[random.below(k)].clone(),
            5 if k > 0 => rows[random.below(k)].iter().rev().copied().collect(),
            _ => row,
        });
    }
    rows
}

// ---- The desk

/// Both texts with the tables that the library read from them.
struct Desk<'a> {
    size: Size,
    texts: [Made; 2],
    /// The two words that each left and right row has now.
    words: Vec<[u32; 2]>,
    /// The tables, then the texts.
    lent: Vec<Lent>,
    circuits: &'a Circuits,
    ledger: &'a Ledger,
    guard: usize,
}

/// A row's two words.
fn words(row: &Row) -> [u32; 2] {
    let words = memory::row_words(&[row.clone()]);
    [words[0], words[1]]
}

/// The tables that the library reads from three texts of the given number of rows.
fn read(texts: [&[u8]; 3], counts: [usize; 3], guard: usize) -> Result<Vec<Lent>, String> {
    let texts = texts.map(|text| Lent::Bytes(text.to_vec()));
    let room = counts.map(|count| Lent::Words(vec![7; 2 * count]));
    let lent = [&texts[..], &room, &[Lent::Numbers(vec![7; 4])]].concat();
    let call = Call { function: Function::ReadTables, numbers: vec![], lent };
    let given = call.make(guard)?;
    match given.number {
        0 => Ok(given.lent[3..6].to_vec()),
        number => Err(format!("reading is refused with {number}\n  {}", shown(&call))),
    }
}

impl<'a> Desk<'a> {
    /// The texts of two stations and public rows; the tables read from them are those of the clauses as they were written.
    fn new(
        n: usize,
        texts: [Made; 2],
        public: &[Row],
        circuits: &'a Circuits,
        ledger: &'a Ledger,
        guard: usize,
    ) -> Result<Desk<'a>, String> {
        let [left, right] = [0, 1].map(|k| texts[k].clauses.len());
        let size = Size { n, left, right, public: public.len() };
        let public_text = layout::plain(n, public);
        let mut lent = read([&texts[0].text, &texts[1].text, &public_text], [left, right, size.public], guard)?;
        let words: Vec<[u32; 2]> = texts.iter().flat_map(|made| &made.clauses).map(|(row, _)| words(row)).collect();
        if [lent[0].words(), lent[1].words()].concat() != words.concat() {
            return Err(format!("of {texts:?} was read {lent:?}"));
        }
        lent.extend([0, 1].map(|k| Lent::Bytes(texts[k].text.clone())));
        Ok(Desk { size, texts, words, lent, circuits, ledger, guard })
    }

    /// A call over tables and texts with room for what it writes: that room afterwards, or the refusal. The model's answer is the same, and
    /// no other buffer is changed.
    fn call(&self, function: Function, number: u64, room: &[Lent]) -> Result<Result<Vec<Lent>, u8>, String> {
        let lent = [&self.lent[..], room].concat();
        let call = Call { function, numbers: [numbers(self.size), vec![number]].concat(), lent };
        let given =
            judge(&call, self.circuits, self.guard).map_err(|failure| format!("{failure}\n  {}", shown(&call)))?;
        if given.number > 0 && given.lent != call.lent || given.lent[..5] != call.lent[..5] {
            return Err(format!("a buffer is changed\n  {}", shown(&call)));
        }
        Ok(if given.number == 0 { Ok(given.lent[5..].to_vec()) } else { Err(given.number) })
    }

    /// Asks for the clause of a row: the place, or the refusal.
    fn ask(&self, number: u64) -> Result<Result<[u64; 3], u8>, String> {
        let given = self.call(Function::Clause, number, &[Lent::Numbers(vec![7; 3])])?;
        Ok(given.map(|given| [0, 1, 2].map(|k| given[0].numbers()[k])))
    }

    /// Asks for its bytes, the given number being lent: they are in front and all others are as they were; or the refusal.
    fn bytes(&self, number: u64, room: usize) -> Result<Result<Vec<u8>, u8>, String> {
        let room = [Lent::Bytes(vec![7; room]), Lent::Numbers(vec![7])];
        let given = match self.call(Function::Excerpt, number, &room)? {
            Ok(given) => given,
            Err(refusal) => return Ok(Err(refusal)),
        };
        let (front, rest) = given[0].bytes().split_at(given[1].numbers()[0] as usize);
        match rest.iter().all(|&byte| byte == 7) {
            true => Ok(Ok(front.to_vec())),
            false => Err(format!("behind the clause {front:?} stand {rest:?}")),
        }
    }

    /// Whether a row's clause has these bytes: where as many are lent, and where more or, if it has some, one fewer, which is 11.
    fn has_bytes(&self, number: usize, expected: &[u8]) -> Result<(), String> {
        let fewer = expected.len().checked_sub(1).filter(|_| number % 2 == 0);
        for room in [expected.len(), fewer.unwrap_or(expected.len() + number % 9)] {
            let given = self.bytes(number as u64, room)?;
            let right = if room < expected.len() { Err(11) } else { Ok(expected) };
            if given.as_deref().map_err(|refusal| *refusal) != right {
                return Err(format!("row {number} in {room} bytes is {given:?} and not {right:?}"));
            }
            self.ledger.kind("bytes handed back", usize::from(right.is_ok()));
            self.ledger.kind("refused 11", usize::from(right.is_err()));
        }
        Ok(())
    }

    /// The station and the clause of a row from 1, as it was written.
    fn written(&self, number: usize) -> (usize, &Clause) {
        let station = usize::from(number > self.size.left);
        (station, &self.texts[station].clauses[number - 1 - station * self.size.left])
    }

    /// The bytes of a row's clause, where they are as they were written, or none where the row has other words now; read again as a text of
    /// one clause they give the row's words.
    fn clause(&self, number: usize) -> Result<&[u8], String> {
        let (station, (row, place)) = self.written(number);
        let same = self.words[number - 1] == words(row);
        let place = if same { place.clone() } else { 0..0 };
        let expected = [station, place.start, place.len()].map(|number| number as u64);
        match self.ask(number as u64)? {
            Ok(given) if given == expected => (),
            given => return Err(format!("row {number} is at {given:?} and not at {expected:?}")),
        }
        let bytes = &self.texts[station].text[place];
        self.has_bytes(number, bytes)?;
        self.ledger.kind(if same { "shown" } else { "by number only" }, 1);
        self.ledger.kind("empty clauses", usize::from(bytes == b"0"));
        self.ledger.kind("with remarks", usize::from(bytes.windows(2).any(|pair| pair == b"\nc")));
        if same {
            let alone = [format!("p cnf {} 1\n", self.size.n).as_bytes(), bytes].concat();
            let none = layout::plain(self.size.n, &[]);
            let again = read([&alone, &alone, &none], [1, 1, 0], self.guard)?;
            if [again[0].words(), again[1].words()] != [self.words[number - 1]; 2] {
                return Err(format!("row {number}, read again from {alone:?}, is {again:?}"));
            }
        }
        Ok(bytes)
    }

    /// Counts a test.
    fn tell<T>(&self, what: &str, done: Result<T, String>) -> Option<T> {
        let failed = |failure| format!("{what}, {:?}: {failure}\n  {:?}", self.size, self.texts);
        match done {
            Ok(done) => {
                self.ledger.test(None);
                Some(done)
            }
            Err(failure) => {
                self.ledger.test(Some(crate::cut(failed(failure))));
                None
            }
        }
    }

    /// The clause of every row, a test a row.
    fn all(&self, what: &str) {
        for number in 1..=self.words.len() {
            self.tell(what, self.clause(number));
        }
    }

    /// Numbers of no station's row are refused with 17: none, public ones, past the last, and numbers that look like a row's when they are
    /// cut to fewer bits.
    fn others(&self, what: &str) {
        let (last, all) = (self.words.len() as u64, self.size.rows() as u64);
        let cut = [8, 16, 32, 63].map(|bits| last + (1 << bits));
        let public = [last + 1, (last + all) / 2 + 1, all].into_iter().filter(|&number| number > last);
        for number in [0, all + 1, u64::MAX].into_iter().chain(cut).chain(public) {
            let asked = self.ask(number).and_then(|place| Ok((place, self.bytes(number, 4)?)));
            let refused = asked.and_then(|asked| match asked {
                (Err(17), Err(17)) => Ok(()),
                other => Err(format!("row {number} gives {other:?}")),
            });
            self.ledger.kind("refused 17", 1);
            self.tell(what, refused);
        }
    }

    /// Words in the place of a row, put there by the host itself.
    fn put(&mut self, number: usize, new: [u32; 2]) -> Result<(), String> {
        self.words[number - 1] = new;
        let (left, right) = self.words.split_at(self.size.left);
        self.lent[..2].clone_from_slice(&[left, right].map(|rows| Lent::Words(rows.concat())));
        Ok(())
    }

    /// A padding row replaced by a late condition, the run being fresh.
    fn replace(&mut self, number: usize, new: [u32; 2]) -> Result<(), String> {
        let run = Lent::Run(memory::run_words(&Run::fresh(self.size.n)));
        let condition = [u64::from(number > self.size.left), number as u64, new[0].into(), new[1].into()];
        let lent = [&self.lent[..3], &[run]].concat();
        let given = taken(Function::Replace, self.size, &condition, lent, self.guard)?;
        self.lent[..3].clone_from_slice(&given[..3]);
        self.words[number - 1] = new;
        Ok(())
    }
}

/// The desk of n variables, two texts and public rows, or a failed test.
fn desk<'a>(
    what: &str,
    (n, texts, public): (usize, [Made; 2], Vec<Row>),
    circuits: &'a Circuits,
    ledger: &'a Ledger,
    guard: usize,
) -> Option<Desk<'a>> {
    let made = Desk::new(n, texts, &public, circuits, ledger, guard);
    made.map_err(|failure| ledger.test(Some(crate::cut(format!("{what}: {failure}"))))).ok()
}

// ---- Tests

/// The texts written by hand, at the left, at the right and at both, with no public row and with some.
pub fn written(circuits: &Circuits, guard: usize) -> Tally {
    let ledger = Ledger::default();
    for Written { what, n, text, rows } in WRITTEN {
        for desk in desks(what, *n, &unmarked(text.as_bytes(), rows), circuits, &ledger, guard) {
            desk.all(what);
            desk.others(what);
        }
    }
    ledger.close("clauses of texts written by hand")
}

/// A text at the left, at the right and at both, with no public row, one and two.
fn desks<'a>(
    what: &str,
    n: usize,
    made: &Made,
    circuits: &'a Circuits,
    ledger: &'a Ledger,
    guard: usize,
) -> Vec<Desk<'a>> {
    let other = &unmarked(format!("p cnf {n} 1\n<1 0>\n").as_bytes(), &[&[1]]);
    let pairs = [[made, other], [other, made], [made, made]].into_iter().enumerate();
    let desk = |(public, texts): (usize, [&Made; 2])| {
        desk(what, (n, texts.map(Made::clone), vec![vec![-1]; public]), circuits, ledger, guard)
    };
    pairs.filter_map(desk).collect()
}

/// What is before and after the byte that fills a text up to its length, marked as the texts above, and the rows.
type Filled = (&'static str, u8, &'static str, &'static [&'static [i64]]);

#[rustfmt::skip]
const FILLED: &[Filled] = &[
    ("c", b'x', "\np cnf 1 1\n<1 0>", &[&[1]]),
    ("p cnf 1 1", b'\r', "\n<1 0>\n", &[&[1]]),
    ("p cnf 1 1\n", b'\n', "<0>", &[&[]]),
    ("p cnf 1 2\n<1 0>\nc", b'0', "\n<-1 0>", &[&[1], &[-1]]),
    ("p cnf 1 2\n<1 0>", b' ', "<0>\n", &[&[1], &[]]),
    ("p cnf 1 1\n<1", b'\t', "0>", &[&[1]]),
    ("p cnf 1 2\n<1\nc", b'c', "\n-1 0> <0>", &[&[1, -1], &[]]),
    ("p cnf 1 2\n<1 0> <0>", b'\r', "", &[&[1], &[]]),
    ("p cnf 1 1\n<1 0>\nc", b'1', "", &[&[1]]),
];

/// Texts as long as may be and a byte shorter, filled up before clauses, between them, inside them and after; a byte longer they are
/// refused with 5. For a memory checker two of them.
pub fn longest(circuits: &Circuits, guard: usize) -> Tally {
    let ledger = Ledger::default();
    for (start, filler, end, rows) in FILLED.iter().filter(|(_, filler, ..)| guard > 0 || b"\nc".contains(filler)) {
        for length in [TEXT_LIMIT - 1, TEXT_LIMIT] {
            let what = format!("{start:?} and {end:?} in {length} bytes");
            let bare = unmarked([start.as_bytes(), end.as_bytes()].concat().as_slice(), rows).text.len();
            let full = [start.as_bytes(), &vec![*filler; length - bare], end.as_bytes()].concat();
            for mut desk in desks(&what, 1, &unmarked(&full, rows), circuits, &ledger, guard) {
                desk.all(&what);
                let k = (3..5).find(|&k| desk.lent[k].bytes().len() == length).expect("a text is filled up");
                desk.lent[k] = Lent::Bytes([desk.lent[k].bytes(), b"\n"].concat());
                let refused = if length == TEXT_LIMIT { Err(5) } else { Ok(()) };
                let asked = desk.ask(1).and_then(|place| Ok((place, desk.bytes(1, length)?)));
                let asked = asked.and_then(|(place, bytes)| {
                    match [place.map(|_| ()), bytes.as_ref().map(|_| ()).map_err(|number| *number)] == [refused; 2] {
                        true => Ok(()),
                        false => Err(format!("a byte longer it gives {place:?} and {bytes:?}")),
                    }
                });
                desk.tell(&what, asked);
            }
        }
    }
    ledger.close("clauses of the longest texts")
}

/// A random text of these clauses that is not overlong.
fn drawn(n: usize, rows: &[Row], random: &mut Random) -> Made {
    loop {
        let made = Spelling::drawn(random).text(n, rows.to_vec(), random);
        if made.text.len() <= TEXT_LIMIT {
            return made;
        }
    }
}

/// n, two random texts of the given number of clauses, and public rows.
fn pair([n, left, right, public]: [usize; 4], random: &mut Random) -> (usize, [Made; 2], Vec<Row>) {
    let texts = [left, right].map(|count| {
        let rows = clauses(n, count, random);
        drawn(n, &rows, random)
    });
    (n, texts, clauses(n, public, random))
}

/// Every row of random texts, and numbers of no station's row; for a memory checker, which is slow, a few small ones.
pub fn made(circuits: &Circuits, guard: usize) -> Tally {
    let ledger = Ledger::default();
    for ([n, left, right, public], count) in
        SIZES.into_iter().filter(|([_, left, right, _], _)| guard > 0 || left + right < 30)
    {
        for number in 0..if guard > 0 { count } else { 6 } {
            let random = &mut Random::new(SEED + (number << 32 | public << 24 | n << 16 | left << 8 | right) as u64);
            let what = format!("random texts {number}");
            let pair = pair([n, left, right, public], random);
            if let Some(desk) = desk(&what, pair, circuits, &ledger, guard) {
                desk.all(&what);
                desk.others(&what);
            }
        }
    }
    ledger.close(&format!("clauses of random texts, seeds from {SEED}"))
}

/// Other words for a row, and its own again: padding by late conditions, any other row by the host itself. After each the row is asked for,
/// and another one.
fn change(desk: &mut Desk, number: usize, random: &mut Random) {
    let (n, count) = (desk.size.n, desk.words.len());
    let row = desk.written(number).1 .0.clone();
    let (own, bit) = (words(&row), 1 << random.below(n));
    let other = desk.words[random.below(count)];
    let new = if padding(&row) {
        // of its new words none but the last are a clause's that is no padding: that could not be replaced again
        let wider = [own[0] | bit, own[1] | bit];
        vec![own, wider, own, [bit; 2], wider, own, words(&tables::strict(n, n.min(3), random))]
    } else {
        vec![[own[0] ^ bit, own[1]], [own[0], own[1] ^ bit], [own[1], own[0]], other, [0, 0], own, [bit; 2]]
    };
    let kept = random.below(2 * new.len());
    for new in new.into_iter().take(kept + 1) {
        let done = match padding(&row) {
            true => desk.replace(number, new),
            false => desk.put(number, new),
        };
        desk.ledger.kind("late conditions", usize::from(padding(&row)));
        let another = random.between(1, count);
        let asked = done.and_then(|()| desk.clause(number).and(desk.clause(another)).map(|_| ()));
        desk.tell(&format!("row {number} by {new:?}"), asked);
    }
}

/// Rows that get other words, one after the other, and then all of them; few for a memory checker.
pub fn replaced(circuits: &Circuits, guard: usize) -> Tally {
    let ledger = Ledger::default();
    let most = if guard > 0 { 30 } else { 12 };
    let sizes = SIZES.into_iter().filter(|([_, left, right, _], _)| left + right < most);
    for ([n, left, right, public], count) in sizes {
        for number in 0..if guard > 0 { count / 2 } else { 3 } {
            let random =
                &mut Random::new(SEED + (1 << 48 | number << 32 | public << 24 | n << 16 | left << 8 | right) as u64);
            let what = format!("replaced rows of random texts {number}");
            let pair = pair([n, left, right, public], random);
            if let Some(mut desk) = desk(&what, pair, circuits, &ledger, guard) {
                (1..=left + right).for_each(|number| change(&mut desk, number, random));
                desk.all(&what);
            }
        }
    }
    ledger.close(&format!("clauses of rows that get other words, seeds from {SEED}"))
}

/// One step that tells its rule; what is wrong with the clause of the row that it names. All literals of a clause in conflict are false, and
/// of one that forces all but the literal taken, which is free.
fn follow(desk: &Desk, run: &mut Lent) -> Result<(), String> {
    let lent = [&desk.lent[..3], &[run.clone(), Lent::Numbers(vec![7; 4])]].concat();
    let given = taken(Function::StepExplained, desk.size, &[], lent, desk.guard)?;
    let [rule, number, variable, value] = [0, 1, 2, 3].map(|k| given[4].numbers()[k]);
    let before = memory::run_of(run.words()).map_err(|number| format!("the run is refused with {number}"))?;
    *run = given[3].clone();
    if number == 0 {
        return Ok(());
    }
    if number > desk.words.len() as u64 {
        desk.ledger.kind("public", 1);
        return match desk.ask(number)? {
            Err(17) => Ok(()),
            other => Err(format!("public row {number} gives {other:?}")),
        };
    }
    desk.clause(number as usize)?;
    let (_, (row, _)) = desk.written(number as usize);
    let truth = |literal: i64| before.values[literal.unsigned_abs() as usize - 1].map(|value| value == (literal > 0));
    let taken = if value == 1 { variable as i64 } else { -(variable as i64) };
    let explains = match rule {
        4 => row.contains(&taken) && row.iter().all(|&l| truth(l) == if l == taken { None } else { Some(false) }),
        _ => row.iter().all(|&literal| truth(literal) == Some(false)),
    };
    desk.ledger.kind(if rule == 4 { "forcing" } else { "in conflict" }, 1);
    explains.then_some(()).ok_or_else(|| format!("row {number}, {row:?}, does not explain rule {rule} from {before:?}"))
}

/// Runs followed as at a test desk: a test a step, in which the clause of the row that is named is asked for.
pub fn followed(circuits: &Circuits, guard: usize) -> Tally {
    let ledger = Ledger::default();
    for number in 0..if guard > 0 { 200 } else { 3 } {
        let random = &mut Random::new(SEED + (2 << 48 | number));
        let n = random.between(4, 12);
        let texts = [(); 2].map(|()| {
            let row = |_| {
                let row = tables::strict(n, 3, random);
                [&row[..], &row[..random.below(2)]].concat()
            };
            let rows: Vec<Row> = (0..2 * n).map(row).collect();
            drawn(n, &rows, random)
        });
        let public: Vec<Row> = (0..random.below(6)).map(|_| tables::strict(n, 2, random)).collect();
        let what = format!("run {number}");
        if let Some(desk) = desk(&what, (n, texts, public), circuits, &ledger, guard) {
            let mut run = Lent::Run(memory::run_words(&Run::fresh(n)));
            for _ in 0..if guard > 0 { STEPS } else { STEPS / 4 } {
                if run.words()[1] != 0 || desk.tell(&what, follow(&desk, &mut run)).is_none() {
                    break;
                }
            }
        }
    }
    ledger.close(&format!("steps with the clauses that they name, seeds from {SEED}"))
}
