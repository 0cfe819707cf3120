//! Steps and runs with the weighted choice: states written by hand, choices in which the last bits of the sums decide, runs step by step
//! beside the model's and in slices, states of every depth, and whole runs, whose verdicts are held to the plain run's and to another solver's.

use crate::calls::{Function, Lent};
use crate::draw;
use crate::indexed::{self, each_depth, each_table, taken};
use forkhemit_tests::memory;
use forkhemit_tests::model::{self, Row, Run, Size, Standing};
use forkhemit_tests::random::Random;
use forkhemit_tests::report::{Ledger, Tally};
use forkhemit_tests::{layout, process, published, states, tables, weighted};
use std::collections::BTreeSet;
use std::path::Path;

const SEED: u64 = 1_010_000;
/// How far a run from the fresh state is followed, and one that is handed over.
const STEPS: usize = 150;
const MORE_STEPS: usize = 6;

/// The run after a step of the library; the tables stay.
fn step(size: Size, tables: &[Lent], run: &Run, guard: usize) -> Result<Vec<u32>, String> {
    let lent = [tables, &[Lent::Run(memory::run_words(run))]].concat();
    let given = taken(Function::StepWeighted, size, &[], lent, guard)?;
    match given[..3] == *tables {
        true => Ok(given[3].words().to_vec()),
        false => Err("a table is changed".into()),
    }
}

/// Counts at a choice which wrong ways to weigh would choose another variable, and gives their names.
fn tell(run: &Run, rows: &[Row], after: &Run, ledger: &Ledger) -> Vec<&'static str> {
    if after.levels.len() <= run.levels.len() {
        return vec![];
    }
    ledger.kind("choices", 1);
    let (_, chosen) = after.levels[after.levels.len() - 1];
    let told = weighted::wrong(run, rows).into_iter().filter(|&(_, other)| other != chosen);
    told.map(|(what, _)| what).inspect(|what| ledger.kind(&format!("told from: {what}"), 1)).collect()
}

/// A test that each of these wrong ways was told from the right one.
fn all_told(wrong: &[&str], told: &BTreeSet<&str>, ledger: &Ledger) {
    for what in wrong {
        ledger.test((!told.contains(what)).then(|| format!("no choice tells this from the right one: {what}")));
    }
}

// ---- Written states

/// A state: the rows of the three tables, the variables that its levels chose in turn, the literals that are set besides, and the literal
/// that the step makes true.
struct Written {
    what: &'static str,
    n: usize,
    tables: [&'static [&'static [i64]]; 3],
    chosen: &'static [usize],
    set: &'static [i64],
    taken: Taken,
}

/// What a step sets: a variable that is chosen, or a literal that is forced.
enum Taken {
    Chosen(usize),
    Forced(i64),
}

use Taken::{Chosen, Forced};

/// Worked out by hand from document 02; the weights are after each.
#[rustfmt::skip]
const WRITTEN: &[Written] = &[
    Written { what: "the variable of two rows before the lowest", n: 4, tables: [&[&[1, 2, 3]], &[&[3, 4]], &[]], chosen: &[], set: &[], taken: Chosen(3) }, // 1/8 1/8 3/8 1/4
    Written { what: "the lowest among equals", n: 4, tables: [&[&[3, 4]], &[&[-4, -3]], &[]], chosen: &[], set: &[], taken: Chosen(3) }, // 3 and 4: 1/2
    Written { what: "both signs count", n: 4, tables: [&[&[2, 3]], &[&[-3, 4]], &[&[1, 2, 4]]], chosen: &[], set: &[], taken: Chosen(3) }, // 1/8 3/8 1/2 3/8
    Written { what: "set true where it stands negated alone", n: 3, tables: [&[&[1, -3]], &[&[2, -3]], &[]], chosen: &[], set: &[], taken: Chosen(3) }, // 1/4 1/4 1/2
    Written { what: "two long rows weigh as much as one short one", n: 7, tables: [&[&[3, 4, 5]], &[&[3, 6, 7]], &[&[1, 2]]], chosen: &[], set: &[], taken: Chosen(1) }, // 1: 1/4, 3: 1/4
    Written { what: "three long rows weigh more than one short one", n: 7, tables: [&[&[3, 4, 5]], &[&[3, 6, 7]], &[&[1, 2], &[-3, 5, 7]]], chosen: &[], set: &[], taken: Chosen(3) }, // 1: 1/4, 3: 3/8
    Written { what: "a row of the right station", n: 4, tables: [&[&[1, 2]], &[&[3, 4], &[3, -4]], &[]], chosen: &[], set: &[], taken: Chosen(3) }, // 1/4 1/4 1/2 1/2
    Written { what: "a public row", n: 4, tables: [&[&[1, 2]], &[&[3, 4]], &[&[2, -3, 4], &[3, -4]]], chosen: &[], set: &[], taken: Chosen(3) }, // 1/4 3/8 5/8 5/8
    Written { what: "a satisfied row weighs nothing", n: 4, tables: [&[&[1, 3]], &[&[1, 3, 4]], &[&[2, 4]]], chosen: &[0], set: &[], taken: Chosen(2) }, // 2 and 4: 1/4
    Written { what: "a row satisfied by a false variable weighs nothing", n: 4, tables: [&[&[-1, 3]], &[&[-1, 3, 4]], &[&[2, 4]]], chosen: &[], set: &[-1], taken: Chosen(2) }, // 2 and 4: 1/4
    Written { what: "padding weighs nothing", n: 3, tables: [&[&[3, -3]], &[&[3, 2, -2]], &[&[1, 2], &[3, -3]]], chosen: &[], set: &[], taken: Chosen(1) }, // 1 and 2: 1/4
    Written { what: "free literals count and not all", n: 6, tables: [&[&[2, 3, 4]], &[&[2, 3]], &[&[-1, 5, 6], &[-1, 4, 5]]], chosen: &[0], set: &[], taken: Chosen(5) }, // 2: 3/8, 3: 3/8, 4: 3/8, 5: 1/2
    Written { what: "a variable that is set weighs nothing", n: 4, tables: [&[&[-1, 3, 4]], &[&[-1, 2, 4]], &[&[-1, 2, 3]]], chosen: &[0], set: &[], taken: Chosen(2) }, // each 1/2
    Written { what: "a forced literal first", n: 4, tables: [&[&[2, 3]], &[&[2, -3]], &[&[-4]]], chosen: &[], set: &[], taken: Forced(-4) },
    Written { what: "the lowest forced variable, not the heaviest", n: 4, tables: [&[&[4], &[-4, 2, 3]], &[&[4, 3]], &[&[-1]]], chosen: &[], set: &[], taken: Forced(-1) },
    Written { what: "the highest of 32 variables", n: 32, tables: [&[&[31, 32]], &[&[30, -32]], &[&[29, 30, 31]]], chosen: &[], set: &[], taken: Chosen(32) }, // 1/8 3/8 3/8 1/2
];

impl Written {
    /// The state.
    fn run(&self) -> Run {
        let value = |v: i64| self.set.iter().find(|literal| literal.abs() == v).map(|&literal| (0, literal > 0));
        let others: Vec<_> = (1..=self.n as i64).map(value).collect();
        states::state(Standing::Open, self.chosen, &others)
    }

    /// The state after the step.
    fn after(&self) -> Run {
        let mut run = self.run();
        let (v, value) = match self.taken {
            Chosen(number) => (number - 1, true),
            Forced(literal) => (literal.unsigned_abs() as usize - 1, literal > 0),
        };
        if matches!(self.taken, Chosen(_)) {
            run.levels.push((run.values.clone(), v));
        }
        run.values[v] = Some(value);
        run
    }
}

/// States written by hand: the library's step, and the model's.
pub fn written(guard: usize) -> Tally {
    let (ledger, mut told) = (Ledger::default(), BTreeSet::new());
    for case in WRITTEN {
        let [left, right, public] = case.tables.map(<[_]>::len);
        let size = Size { n: case.n, left, right, public };
        let rows: Vec<Row> = case.tables.concat().iter().map(|row| row.to_vec()).collect();
        let tables = draw::lent_tables(size, &rows, &mut Random::new(SEED));
        let mut model = case.run();
        weighted::step(&mut model, &rows);
        told.extend(tell(&case.run(), &rows, &case.after(), &ledger));
        let failure = match step(size, &tables, &case.run(), guard) {
            Err(failure) => Some(failure),
            Ok(given) if given != memory::run_words(&case.after()) => Some(format!("the run is {given:?}")),
            Ok(_) if model != case.after() => Some(format!("the model gives {model:?}")),
            Ok(_) => None,
        };
        ledger.test(failure.map(|failure| format!("{}: {failure}", case.what)));
    }
    all_told(&weighted::WRONG[1..], &told, &ledger);
    ledger.close("weighted choices, written by hand")
}

// ---- The last bits

/// A literal of a variable that counts from 1.
fn signed(v: usize, random: &mut Random) -> i64 {
    v as i64 * if random.once_in(2) { 1 } else { -1 }
}

/// A row of the two variables and of the given number of others that are free, with some literals that are false.
fn row(both: &[usize], width: usize, free: &[usize], run: &Run, random: &mut Random) -> Row {
    let mut others: Vec<usize> = free.iter().copied().filter(|v| !both.contains(v)).collect();
    let mut row: Row = both.iter().map(|&v| signed(v, random)).collect();
    while row.len() < width {
        row.push(signed(others.swap_remove(random.below(others.len())), random));
    }
    for (v, value) in run.values.iter().enumerate() {
        match value {
            Some(value) if random.once_in(3) => row.push(if *value { -(v as i64) - 1 } else { v as i64 + 1 }),
            _ => (),
        }
    }
    row
}

/// Tables in which two variables weigh the same, in rows of every width, but for one row of the given number of free literals that holds
/// the second of them alone, or both: rows, and the one that is chosen.
fn near(count: usize, run: &Run, pair: [usize; 2], width: usize, random: &mut Random) -> (Vec<Row>, usize) {
    let free: Vec<usize> = (1..=run.values.len()).filter(|&v| run.values[v - 1].is_none()).collect();
    let mut rows = vec![row(&pair, 2, &free, run, random)];
    while rows.len() < count - 1 {
        let width = if random.once_in(4) { random.between(2, free.len()) } else { 2 };
        rows.push(row(&pair, width, &free, run, random));
    }
    let (held, chosen) = match width == free.len() {
        true => (&pair[..], pair[0].min(pair[1])),
        false => (&pair[1..], pair[1]),
    };
    let others: Vec<usize> = free.iter().copied().filter(|&v| width == free.len() || v != pair[0]).collect();
    rows.insert(random.below(count), row(held, width, &others, run, random));
    (rows, chosen)
}

/// Choices in which 2 to the power minus 31 decides, and every greater one, and none: over tables of few rows and of 384, whose sums then
/// have 39 bits; from the fresh state and from deeper ones.
pub fn exact(guard: usize) -> Tally {
    let (ledger, mut told) = (Ledger::default(), BTreeSet::new());
    for (place, count) in (if guard > 0 { vec![2, 3, 20, 129, 384] } else { vec![3, 384] }).into_iter().enumerate() {
        for (depth, width) in [0, 0, 3, 12].into_iter().flat_map(|depth| (2..=32 - depth).map(move |w| (depth, w))) {
            if guard == 0 && width % 6 != 1 {
                continue;
            }
            for turned in [false, true] {
                let seed = SEED + (place << 20 | depth << 12 | width << 4 | usize::from(turned)) as u64;
                let random = &mut Random::new(seed);
                let run = states::state(Standing::Open, &chosen(depth, random), &[None; 32]);
                let mut free: Vec<usize> = (1..=32).filter(|&v| run.values[v - 1].is_none()).collect();
                let first = free.swap_remove(random.below(free.len()));
                let second = *random.pick(&free);
                let (low, high) = (first.min(second), first.max(second));
                let (rows, chosen) = near(count, &run, if turned { [high, low] } else { [low, high] }, width, random);
                let size = *random.pick(&indexed::sizes(32, count));
                let mut after = run.clone();
                weighted::step(&mut after, &rows);
                told.extend(tell(&run, &rows, &after, &ledger));
                ledger.test(nearly(size, &rows, &run, chosen, &after, &ledger, guard));
            }
        }
    }
    all_told(&weighted::WRONG[..1], &told, &ledger);
    ledger.close(&format!("choices by the last bits of exact sums, seeds from {SEED}"))
}

/// `depth` different variables, from 0 on, in some order.
fn chosen(depth: usize, random: &mut Random) -> Vec<usize> {
    let mut all: Vec<usize> = (0..32).collect();
    (0..depth).map(|_| all.swap_remove(random.below(all.len()))).collect()
}

/// Where a step from here chooses another variable than this one, or the model's `after` does.
fn nearly(
    size: Size,
    rows: &[Row],
    run: &Run,
    chosen: usize,
    after: &Run,
    ledger: &Ledger,
    guard: usize,
) -> Option<String> {
    let tables = draw::lent_tables(size, rows, &mut Random::new(SEED));
    let heaviest = weighted::weights(run, rows).into_iter().max().unwrap_or(0);
    let bits = 64 - heaviest.leading_zeros() - heaviest.trailing_zeros().min(63);
    ledger.kind("sums of more than 24 bits", usize::from(bits > 24));
    ledger.kind("sums of 39 bits", usize::from(bits == 39));
    let last = after.levels.last().map(|(_, v)| v + 1);
    let failure = match step(size, &tables, run, guard) {
        Err(failure) => failure,
        Ok(_) if last != Some(chosen) => format!("the model chooses {last:?} and not {chosen}"),
        Ok(given) if given != memory::run_words(after) => format!("the run is {given:?} and not {after:?}"),
        Ok(_) => return None,
    };
    Some(crate::cut(format!("{size:?}: {failure}\n  {run:?}\n  {rows:?}")))
}

// ---- Runs

/// Steps of a run, of which the last is closed or not: from one of them on as many as given, in one call, each as the steps one by one.
fn sliced(size: Size, tables: &[Lent], states: &[Run], guard: usize, random: &mut Random) -> Result<(), String> {
    let count = states.len() as u64 - 1;
    let closes = states[count as usize].standing != Standing::Open;
    let from = random.below(states.len()) as u64;
    for (from, times) in [(0, 0), (0, 1), (0, count / 2), (0, count), (from, 3), (from, count), (from, u64::MAX)] {
        let to = from.saturating_add(times).min(count);
        // no slice passes the last state that is known, unless the run is closed there
        let times = if closes { times } else { to - from };
        let run = Lent::Run(memory::run_words(&states[from as usize]));
        let lent = [tables, &[run, Lent::Numbers(vec![7; 2])]].concat();
        let given = taken(Function::ContinueWeighted, size, &[times], lent, guard)?;
        let after = &states[to as usize];
        let numbers = [to - from, u64::from(after.standing != Standing::Open)];
        if given[..3] != *tables || given[3].words() != memory::run_words(after) || given[4].numbers() != numbers {
            return Err(format!("from step {from} on {times} times: {:?} and not {numbers:?} {after:?}", &given[3..]));
        }
    }
    Ok(())
}

/// A run followed for some steps, and one more after it is closed; then in slices.
fn follow(size: Size, rows: &[Row], mut run: Run, steps: usize, ledger: &Ledger, guard: usize, random: &mut Random) {
    let tables = draw::lent_tables(size, rows, random);
    let mut states = vec![run.clone()];
    for _ in 0..steps {
        let before = run.clone();
        weighted::step(&mut run, rows);
        tell(&before, rows, &run, ledger);
        let failure = match step(size, &tables, &before, guard) {
            Ok(given) if given == memory::run_words(&run) => None,
            Ok(given) => Some(format!("a step from {before:?} gives {given:?} and not {run:?}")),
            Err(failure) => Some(failure),
        };
        if let Some(failure) = failure {
            return ledger.test(Some(crate::cut(format!("{size:?}: {failure}\n  {rows:?}"))));
        }
        ledger.test(None);
        if run == before {
            ledger.kind("closed", 1);
            break;
        }
        states.push(run.clone());
    }
    let failure = sliced(size, &tables, &states, guard, random).err();
    ledger.test(failure.map(|failure| crate::cut(format!("{size:?}: {failure}\n  {rows:?}"))));
}

/// Rows of any width from 2 on, among them padding.
fn wide(size: Size, random: &mut Random) -> Vec<Row> {
    let widest = random.between(2, size.n.max(2));
    let row = |_| match random.once_in(8) {
        true => vec![1, -1],
        false => tables::strict(size.n, random.between(2, widest), random),
    };
    (0..size.rows()).map(row).collect()
}

/// Runs from the fresh state over tables of all row counts, of three variables a row and of any width.
pub fn runs(guard: usize) -> Tally {
    let ledger = Ledger::default();
    let (tables, steps) = if guard > 0 { (3, STEPS) } else { (1, STEPS / 10) };
    each_table(SEED, tables, |size, rows, random| {
        let wide = wide(size, random);
        for rows in [rows, &wide] {
            follow(size, rows, Run::fresh(size.n), steps, &ledger, guard, random);
        }
    });
    ledger.close(&format!("weighted steps beside the model's, seeds from {SEED}"))
}

/// States of every depth that no run need have reached, closed ones too, and the steps from them.
pub fn handed_over(guard: usize) -> Tally {
    let ledger = Ledger::default();
    each_depth(SEED, guard, |size, run, random| {
        let rows = states::table(size.rows(), &run.values, random);
        follow(size, &rows, run, MORE_STEPS, &ledger, guard, random);
    });
    ledger.close(&format!("weighted steps from states of every depth, seeds from {SEED}"))
}

/// What is wrong with whole weighted runs over these rows: budgets of nothing, a step, all steps but one, all, and more; the model's steps,
/// verdict and model; the plain run's verdict; another solver's, if one is asked; a model that makes every row true; the bound.
fn whole(size: Size, rows: &[Row], solver: Option<&str>, ledger: &Ledger, guard: usize) -> Result<(), String> {
    let tables = draw::lent_tables(size, rows, &mut Random::new(SEED));
    let solve = |function: Function, budget: u64| {
        let lent = [&tables[..], &[Lent::Numbers(vec![7; 3])]].concat();
        let given = taken(function, size, &[budget], lent, guard)?;
        match given[..3] == tables[..] {
            true => Ok(given[3].numbers().to_vec()),
            false => Err("a table is changed".to_string()),
        }
    };
    let answer = weighted::solve(size.n, rows, u64::MAX);
    let steps = answer.steps;
    let model = answer.model.iter().enumerate().fold(0, |word, (v, &value)| word | u64::from(value) << v);
    let closed = vec![steps, if answer.standing == Standing::Satisfied { 1 } else { 2 }, model];
    for budget in [0, 1, steps / 2, steps - 1, steps, steps + 1, u64::MAX] {
        let given = solve(Function::SolveWeighted, budget)?;
        let expected = if budget < steps { vec![budget, 0, 0] } else { closed.clone() };
        if given != expected {
            return Err(format!("budget {budget}: {given:?} and not {expected:?}"));
        }
    }
    let plain = solve(Function::SolveIndexed, u64::MAX)?;
    if plain[1] != closed[1] {
        return Err(format!("the plain run gives {plain:?}, the weighted one {closed:?}"));
    }
    for (what, count) in [("plain steps", plain[0]), ("weighted steps", steps)] {
        ledger.kind(what, count as usize);
    }
    ledger.kind(["satisfied", "refuted"][closed[1] as usize - 1], 1);
    let satisfies =
        |row: &Row| model::padding(row) || row.iter().any(|&l| answer.model[l.unsigned_abs() as usize - 1] == (l > 0));
    if closed[1] == 1 && !rows.iter().all(satisfies) {
        return Err(format!("{:?} does not make every row true", answer.model));
    }
    if steps >= 2 << size.n {
        return Err(format!("{steps} steps are more than the bound"));
    }
    let other = solver.map(|solver| process::asked(solver, &layout::plain(size.n, rows))).transpose()?;
    match other {
        Some(other) if other != (closed[1] == 1) => Err(format!("another solver's verdict is not {closed:?}")),
        _ => Ok(()),
    }
}

/// The public files that are taken, each as three tables.
fn public() -> Result<Vec<(Size, Vec<Row>)>, String> {
    let folder = Path::new(env!("CARGO_MANIFEST_DIR")).join("dimacs");
    let files = published::files(&folder).map_err(|error| format!("{}: {error}", folder.display()))?;
    let taken = files.iter().filter(|file| file.refused.is_none()).map(|file| {
        let split = published::thirds(&file.text);
        let [left, right, public] = [0, 1, 2].map(|k| split.tables[k].len());
        let size = Size { n: split.n, left, right, public };
        // the model's rows have each literal once
        let once =
            |row: &Row| row.iter().enumerate().filter(|(k, l)| !row[..*k].contains(l)).map(|(_, &l)| l).collect();
        (size, split.tables.concat().iter().map(once).collect())
    });
    Ok(taken.collect())
}

/// Whole runs over tables of all row counts, over hard ones of up to 32 variables, and over the public files.
pub fn solved(guard: usize) -> Tally {
    let ledger = Ledger::default();
    let solver = match process::solver() {
        Ok(solver) => solver,
        Err(error) => {
            ledger.test(Some(error.to_string()));
            return ledger.close("whole weighted runs");
        }
    };
    let tables = if guard > 0 { 12 } else { 1 };
    let numbers = if guard > 0 { vec![1, 6, 14, 20] } else { vec![1, 6, 14] };
    let some = indexed::COUNTS.iter().flat_map(|&count| numbers.iter().flat_map(move |&n| indexed::sizes(n, count)));
    let hard = [(26, 112), (32, 138), (32, 384)].into_iter().take(if guard > 0 { 3 } else { 0 });
    let all: Vec<(Size, bool)> =
        some.map(|size| (size, false)).chain(hard.map(|(n, m)| (Size::split(n, m), true))).collect();
    for (size, hard) in all {
        for table in 0..tables {
            let random = &mut Random::new(SEED + table + (size.public << 24 | size.n << 16 | size.rows()) as u64);
            let rows = match hard {
                true => (0..size.rows()).map(|_| tables::strict(size.n, 3, random)).collect(),
                false if table % 2 == 1 => wide(size, random),
                false => indexed::rows(size, random),
            };
            let asked = Some(solver).filter(|_| guard > 0 && table % 3 == 0);
            let failure = whole(size, &rows, asked, &ledger, guard).err();
            ledger.test(failure.map(|failure| crate::cut(format!("{size:?}: {failure}\n  {rows:?}"))));
        }
    }
    match public() {
        Err(failure) => ledger.test(Some(failure)),
        Ok(files) => files.iter().for_each(|(size, rows)| {
            let asked = Some(solver).filter(|_| guard > 0);
            let failure = whole(*size, rows, asked, &ledger, guard).err();
            ledger.test(failure.map(|failure| crate::cut(format!("{size:?}: {failure}\n  {rows:?}"))));
        }),
    }
    ledger
        .close(&format!("whole weighted runs beside plain ones, verdicts beside those of {solver}, seeds from {SEED}"))
}
