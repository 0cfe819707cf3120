//! Proofs from other solvers: stored ones, those that cadical writes of random tables where it is installed, and texts that are as large as
//! can be. Each is checked as it is, laid out otherwise and damaged, and each answer is held to the model.

use crate::calls::{numbers, Call, Function, Lent};
use crate::circuits::Circuits;
use crate::{draw, judge, shown};
use forkhemit_tests::model::{Row, Size, TEXT_LIMIT};
use forkhemit_tests::proofs::{self, ADDITIONS};
use forkhemit_tests::random::Random;
use forkhemit_tests::report::{Ledger, Tally};
use forkhemit_tests::{layout, published, tables};

const SEED: u64 = 808_000;
/// How many random tables; for a memory checker, which is slow, and else.
const TABLES: [usize; 2] = [6, 150];
/// How often each text is damaged; for a memory checker and else.
const STROKES: [usize; 2] = [3, 16];
/// No table has more variables, and three tables together have no more rows.
const MOST: [usize; 2] = [32, 384];

/// A stored table, its proof, and what it is answered.
macro_rules! stored {
    ($name:literal, $folder:literal, $number:literal) => {
        (
            $name,
            include_bytes!(concat!("../dimacs/", $name, ".cnf")) as &[u8],
            include_bytes!(concat!("../", $folder, "/", $name, ".drat")) as &[u8],
            $number,
        )
    };
}

const STORED: [(&str, &[u8], &[u8], u8); 10] = [
    stored!("cadical-elimclash", "proofs", 0),
    stored!("cadical-full1", "proofs", 0),
    stored!("cadical-full5", "proofs", 0),
    stored!("cadical-full7", "proofs", 0),
    stored!("cadical-ph3", "proofs", 0),
    stored!("cadical-ph4", "proofs", 0),
    stored!("cadical-ph5", "proofs", 0),
    stored!("cadical-unit4", "proofs", 0),
    stored!("example-4-vars", "dimacs", 19),
    stored!("example-5-vars", "dimacs", 18),
];

/// Rows laid before the stations and the public, in a way that is drawn.
fn laid(n: usize, rows: &[Row], random: &mut Random) -> Size {
    let m = rows.len();
    let public = random.between(m.saturating_sub(256), m.saturating_sub(2).min(128));
    let left = random.between((m - public).saturating_sub(128).max(1), (m - public - 1).min(128));
    Size { n, left, right: m - public - left, public }
}

/// Tables against which texts are checked.
struct Tables<'a> {
    name: String,
    size: Size,
    rows: Vec<Row>,
    circuits: &'a Circuits,
    guard: usize,
    ledger: &'a Ledger,
}

impl Tables<'_> {
    /// Checks a text: the answer is the model's and one of these, and no buffer is changed.
    fn check(&self, what: &str, text: &[u8], known: &[u8], random: &mut Random) {
        let mut lent = draw::lent_tables(self.size, &self.rows, random);
        lent.push(Lent::Bytes(text.to_vec()));
        let call = Call { function: Function::CheckProof, numbers: numbers(self.size), lent };
        let failure = match judge(&call, self.circuits, self.guard) {
            Err(failure) => Some(failure),
            Ok(given) => {
                self.ledger
                    .kind(&if given.number == 0 { "taken".into() } else { format!("refused {}", given.number) }, 1);
                let right = known.contains(&given.number) && given.lent == call.lent;
                (!right).then(|| format!("{} and not {known:?}, or a buffer is changed", given.number))
            }
        };
        self.ledger.test(failure.map(|failure| format!("{}, {what}: {failure}\n  {}", self.name, shown(&call))));
    }

    /// Checks a text as it is, with other blanks, and damaged in many ways; what is satisfiable has no proof.
    fn check_all(&self, text: &[u8], known: &[u8], satisfiable: bool, random: &mut Random) {
        self.check("as it is", text, known, random);
        let spaced = proofs::spaced(text, random);
        self.check("with other blanks", &spaced, known, random);
        let any: &[u8] = if satisfiable { &[18, 19, 20] } else { &[0, 18, 19, 20] };
        for _ in 0..STROKES[usize::from(self.guard > 0)] {
            let (what, mut text) = proofs::damaged(text, self.size.n, random);
            if random.once_in(4) {
                text = proofs::damaged(&text, self.size.n, random).1;
            }
            self.check(what, &text, any, random);
        }
    }
}

/// The stored proofs, against their tables laid in several ways.
pub fn stored(circuits: &Circuits, guard: usize) -> Tally {
    let (ledger, random) = (Ledger::default(), &mut Random::new(SEED));
    for (name, table, proof, number) in STORED {
        let (n, rows) = published::numbers(table);
        for way in 0..4 {
            let name = format!("{name}, way {way}");
            let tables =
                Tables { name, size: laid(n, &rows, random), rows: rows.clone(), circuits, guard, ledger: &ledger };
            tables.check_all(proof, &[number], false, random);
        }
    }
    ledger.close(&format!("{} stored proofs, as they are and damaged, seed {SEED}", STORED.len()))
}

/// Random tables of three literals a row, of which most are unsatisfiable; the largest has all variables and rows.
fn some_rows(number: usize, random: &mut Random) -> (usize, Vec<Row>) {
    let n = if number == 0 { MOST[0] } else { random.between(4, MOST[0]) };
    let most = if number % 4 == 0 { MOST[1] } else { (n * random.between(5, 9)).min(MOST[1]) };
    (n, (0..most).map(|_| tables::strict(n, 3, random)).collect())
}

/// Cadical's proofs of random tables, by its own way and by its plain one. Of tables that are satisfiable, and where cadical is not
/// installed, texts that go by cases, which are then too long or no proofs.
pub fn made(circuits: &Circuits, guard: usize) -> Tally {
    let (ledger, count) = (Ledger::default(), TABLES[usize::from(guard > 0)]);
    let installed = proofs::cadical(&[], b"p cnf 1 1\n0\n").is_ok();
    for number in 0..count {
        let random = &mut Random::new(SEED + 1 + number as u64);
        let (n, rows) = some_rows(number, random);
        for options in [&[][..], &["--plain"]] {
            let proof = match installed {
                true => proofs::cadical(options, &layout::plain(n, &rows)),
                false => Ok(None),
            };
            let proof = match proof {
                Ok(proof) => proof,
                Err(fault) => {
                    ledger.test(Some(fault));
                    continue;
                }
            };
            let name = format!("seed {}, options {options:?}", SEED + 1 + number as u64);
            let tables =
                Tables { name, size: laid(n, &rows, random), rows: rows.clone(), circuits, guard, ledger: &ledger };
            match proof {
                Some(proof) => tables.check_all(&proof, &[0], false, random),
                None => {
                    let cases = proofs::text(&proofs::by_cases(n, &rows, ADDITIONS));
                    let known: &[u8] = if installed { &[18, 19, 20] } else { &[0, 18, 19, 20] };
                    tables.check_all(&cases, known, installed, random);
                }
            }
        }
    }
    let by = if installed { "cadical" } else { "cases alone: cadical is not installed" };
    ledger.close(&format!("proofs of {count} random tables by {by}, seeds from {SEED}"))
}

/// As many rows, additions, deletions and bytes as there may be, and one more.
pub fn fullest(circuits: &Circuits, guard: usize) -> Tally {
    let (ledger, random) = (Ledger::default(), &mut Random::new(SEED));
    let n = if guard > 0 { MOST[0] } else { 6 };
    // a chain of implications, each after the one that it needs, and no unit clause
    let last = n as i64;
    let mut rows: Vec<Row> = (1..last).rev().map(|v| vec![-v, v + 1]).collect();
    rows.extend([vec![-last, -1], vec![1, last], vec![1, -last]]);
    rows.resize(MOST[1], vec![1, -1]);
    let size = Size { n, left: 128, right: 128, public: 128 };
    let tables = Tables { name: format!("a chain of {n}"), size, rows, circuits, guard, ledger: &ledger };
    let follows = |count: usize| format!("-1 {last} 0\n").repeat(count);
    let absent = |bytes: usize| "d 2 0\n".repeat(bytes / 6) + &"\n".repeat(bytes % 6);
    for (what, text, number) in [
        ("256 additions", follows(ADDITIONS - 2) + "-1 0\n0\n", 0),
        ("257 additions", follows(ADDITIONS - 1) + "-1 0\n0\n", 18),
        ("256 additions, none empty", follows(ADDITIONS), 20),
        ("257 additions, none empty", follows(ADDITIONS + 1), 18),
        ("256 additions, the last of which does not follow", follows(ADDITIONS - 1) + "0", 19),
        ("65,536 bytes of deletions", absent(TEXT_LIMIT - 7) + "-1 0\n0\n", 0),
        ("65,537 bytes of deletions", absent(TEXT_LIMIT - 6) + "-1 0\n0\n", 18),
        ("65,536 bytes of deletions, one malformed", absent(TEXT_LIMIT - 9) + "-1 0\n0\n0x", 18),
        ("all rows deleted", (1..last).map(|v| format!("d -{v} {} 0\n", v + 1)).collect::<String>() + "-1 0\n0", 19),
        ("padding deleted", "d 1 -1 0\n".repeat(MOST[1]) + "-1 0\n0", 0),
        ("65,536 blanks", " ".repeat(TEXT_LIMIT), 20),
        ("65,536 LFs", "\n".repeat(TEXT_LIMIT), 20),
        ("65,536 digits", "1".repeat(TEXT_LIMIT), 18),
        ("32,768 zeros", "0 ".repeat(TEXT_LIMIT / 2), 18),
        ("nothing", String::new(), 20),
    ] {
        tables.check(what, text.as_bytes(), &[number], random);
    }
    ledger.close("proofs as large as there may be")
}
