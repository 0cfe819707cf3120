//! Random calls: right ones of every function, and strokes of damage.

use crate::calls::{numbers, Call, Function, Lent};
use crate::circuits::Circuits;
use forkhemit_tests::memory::{self, INDEX_WORDS, RUN_WORDS};
use forkhemit_tests::model::{self, Row, Size, TEXT_LIMIT};
use forkhemit_tests::random::Random;
use forkhemit_tests::{columns, damage, game, layout, proofs, states, tables, watch_page, wires};

/// Numbers at the limits, and numbers that look like others when they are cut to fewer bits.
const ODD: [u64; 18] = [
    0,
    1,
    2,
    32,
    33,
    64,
    128,
    129,
    255,
    256,
    257,
    258,
    65_537,
    (1 << 32) - 1,
    (1 << 32) + 1,
    (1 << 32) + 2,
    u64::MAX - 1,
    u64::MAX,
];

/// One of a list, which may be drawn itself.
fn one<T: Copy>(list: &[T], random: &mut Random) -> T {
    *random.pick(list)
}

// ---- Buffers

/// `count` random bytes.
fn some_bytes(count: usize, random: &mut Random) -> Vec<u8> {
    (0..count).map(|_| random.number() as u8).collect()
}

/// `count` random words.
fn some_words(count: usize, random: &mut Random) -> Vec<u32> {
    (0..count).map(|_| random.number() as u32).collect()
}

/// As long as is asked for, or a little longer.
fn slack(count: usize, random: &mut Random) -> usize {
    count + one(&[0, 0, 0, 1, 2, 7], random)
}

/// A buffer of random bytes, long enough.
fn bytes_for(count: usize, random: &mut Random) -> Lent {
    let count = slack(count, random);
    Lent::Bytes(some_bytes(count, random))
}

/// A buffer of random words, long enough.
fn words_for(count: usize, random: &mut Random) -> Lent {
    let count = slack(count, random);
    Lent::Words(some_words(count, random))
}

/// Words with something after them that is not to be looked at.
fn words_with_more(mut words: Vec<u32>, random: &mut Random) -> Lent {
    let more = slack(0, random);
    words.extend(some_words(more, random));
    Lent::Words(words)
}

/// Room for `count` numbers.
fn numbers_for(count: usize, random: &mut Random) -> Lent {
    Lent::Numbers((0..count).map(|_| random.number()).collect())
}

/// Room for a run.
fn room_for_run(random: &mut Random) -> Lent {
    Lent::Run(some_words(RUN_WORDS, random))
}

// ---- Sizes, tables and runs

/// Mostly small, and some of any size; of the small ones few have many public rows, since each size has a circuit of its own.
fn some_size(random: &mut Random, small: bool) -> Size {
    let (n, rows) = match random.below(if small { 20 } else { 24 }) {
        0..=13 => (3, 3),
        14..=18 => (6, 5),
        19 => (9, 8),
        20 | 21 => (20, 40),
        _ => (32, 128),
    };
    let public = one(&[0, 0, 1, random.between(0, rows)], random);
    Size { n: random.between(1, n), left: random.between(1, rows), right: random.between(1, rows), public }
}

/// At the limits or near them.
fn large_size(random: &mut Random) -> Size {
    let public = one(&[0, 1, 128, 128, random.between(60, 128)], random);
    if random.once_in(2) {
        return Size { n: 32, left: 128, right: 128, public };
    }
    Size { n: random.between(20, 32), left: random.between(60, 128), right: random.between(60, 128), public }
}

/// The tables in memory.
pub fn lent_tables(size: Size, rows: &[Row], random: &mut Random) -> Vec<Lent> {
    let (left, rest) = rows.split_at(size.left);
    let (right, public) = rest.split_at(size.right);
    let words = [left, right, public].map(memory::row_words);
    words.map(|words| words_with_more(words, random)).to_vec()
}

/// Tables and a run of their n, whose rows are in every relation to it; one run in twenty is of some other n.
fn tables_and_run(size: Size, random: &mut Random) -> (Vec<Lent>, Vec<u32>) {
    let mut run = states::random(size.n, random);
    let rows = states::table(size.rows(), &run.values, random);
    if random.once_in(20) {
        let n = random.between(1, 32);
        run = states::random(n, random);
    }
    (lent_tables(size, &rows, random), memory::run_words(&run))
}

// ---- Right calls

/// A clause of up to five variables; one in four has each literal twice, and its negation.
fn clause(n: usize, random: &mut Random) -> Row {
    let width = random.between(0, n.min(5));
    match random.once_in(4) {
        true => tables::strict(n, width, random).into_iter().flat_map(|l| [l, l, -l]).collect(),
        false => tables::strict(n, width, random),
    }
}

/// Rows as a text, plain or in any layout.
fn text(n: usize, rows: &[Row], random: &mut Random) -> Vec<u8> {
    if random.once_in(2) {
        layout::spaced(n, rows, random)
    } else {
        layout::plain(n, rows)
    }
}

/// Tables, the stations' texts, and the number of a row: now and then a row has other words, or a text is of another n, has a clause more or
/// fewer, is damaged or as long as may be or longer.
fn asked_clause(size: Size, random: &mut Random) -> (u64, Vec<Lent>) {
    let mut rows: Vec<Row> = (0..size.rows()).map(|_| clause(size.n, random)).collect();
    let stations = size.left + size.right;
    let mut n = if random.once_in(12) { random.between(size.n, 32) } else { size.n };
    let mut texts = vec![];
    for read in [&rows[..size.left], &rows[size.left..stations]] {
        let mut read = read.to_vec();
        match random.below(24) {
            0 => drop(read.pop()),
            1 => read.push(clause(size.n, random)),
            2 => n = random.between(size.n, 32),
            _ => (),
        }
        let mut text = text(n, &read, random);
        if random.once_in(12) {
            damage::strike(&mut text, random);
        }
        if random.once_in(100) {
            text.resize(random.between(TEXT_LIMIT - 1, TEXT_LIMIT + 1), b'\n');
        }
        texts.push(Lent::Bytes(text));
    }
    let number = random.between(1, stations);
    let replaced = one(&[number, number, random.between(1, stations)], random);
    if random.once_in(4) {
        rows[replaced - 1] = clause(size.n, random);
    }
    let number = if random.once_in(8) { one(&ODD, random) } else { number as u64 };
    (number, [lent_tables(size, &rows, random), texts].concat())
}

/// Room for the bytes of the clause of a row: as many as it has, some more, one fewer, or few.
fn room_for_clause(size: Size, number: u64, texts: [&[u8]; 2], random: &mut Random) -> Lent {
    let station = usize::from(number > size.left as u64);
    let place = usize::try_from(number).ok().and_then(|number| number.checked_sub(1 + station * size.left));
    let places = model::clause_places(texts[station]);
    let length = place.and_then(|place| places.get(place)).map_or(0, |place| place.len());
    let room = one(&[length, length, slack(length, random), length.saturating_sub(1), random.below(12)], random);
    Lent::Bytes(some_bytes(room, random))
}

/// Three texts, room for their rows, and room for their sizes.
fn texts(random: &mut Random) -> Vec<Lent> {
    let most = one(&[3, 6, 32], random);
    let mut n = random.between(1, most);
    let mut texts = vec![];
    let mut counts = vec![];
    for least in [1, 1, 0] {
        if random.once_in(20) {
            n = random.between(1, 32);
        }
        let most = one(&[3, 6, 128], random);
        let count = if random.once_in(4) { least } else { random.between(least, most) };
        let rows: Vec<Row> = (0..count).map(|_| clause(n, random)).collect();
        texts.push(text(n, &rows, random));
        counts.push(count);
    }
    if random.once_in(300) {
        let length = random.between(TEXT_LIMIT - 1, TEXT_LIMIT + 1);
        let k = random.below(3);
        texts[k].resize(length, b'\n');
    }
    for text in &mut texts {
        for _ in 0..one(&[0, 0, 0, 0, 1, 2], random) {
            damage::strike(text, random);
        }
    }
    let mut lent: Vec<Lent> = texts.into_iter().map(Lent::Bytes).collect();
    lent.extend(counts.into_iter().map(|count| words_for(2 * count, random)));
    lent.push(numbers_for(4, random));
    lent
}

/// A game's text: of the size's variables where there are few, else mostly of less; now and then damaged.
fn game_text(size: Size, random: &mut Random) -> Lent {
    let most = one(&[2, 3, 4, 6, 6, 8], random);
    let n = match random.below(40) {
        0 => size.n.min(13),
        1 => 12,
        _ => size.n.min(most),
    };
    let m = random.between(1, size.left);
    let (rows, listed) = game::drawn(n as i64, m, random);
    let mut text = game::spaced(n as i64, &rows, &listed, random);
    for _ in 0..one(&[0, 0, 0, 1, 1, 2], random) {
        damage::strike(&mut text, random);
    }
    Lent::Bytes(text)
}

/// Numbers of pilots and watches for n variables; now and then two whose product is n as machine words alone, or any two.
fn pilots_and_watches(n: usize, random: &mut Random) -> [u64; 2] {
    match random.below(12) {
        0 => watch_page::wrapped(n, random),
        1 => [one(&ODD, random), one(&ODD, random)],
        _ => one(&watch_page::shapes(n), random),
    }
}

/// A run, satisfied three times in four, the numbers of its page, and room for it.
fn page_call(n: usize, random: &mut Random) -> (Vec<u64>, Vec<Lent>) {
    let mut run = memory::run_words(&states::random(n, random));
    if !random.once_in(4) {
        run[1] = 1;
    }
    let numbers = pilots_and_watches(n, random);
    let room = bytes_for(watch_page::LINE * numbers[0].min(32) as usize, random);
    (numbers.to_vec(), vec![Lent::Run(run), room])
}

/// A page, now and then with bytes of another or of none, and something after it.
fn page_to_read(n: usize, random: &mut Random) -> (Vec<u64>, Vec<Lent>) {
    let (numbers, shapes) = (pilots_and_watches(n, random), watch_page::shapes(n));
    let own = shapes.contains(&numbers) && !random.once_in(8);
    let shape = if own { numbers } else { one(&shapes, random) };
    let mut page = watch_page::page(shape.map(|number| number as usize), random.number());
    for _ in 0..one(&[0, 0, 0, 1, 2], random) {
        let at = random.below(page.len());
        page[at] = one(b" #.\n\t0123x", random);
    }
    let more = slack(0, random);
    page.extend(some_bytes(more, random));
    ([vec![n as u64], numbers.to_vec()].concat(), vec![Lent::Bytes(page), numbers_for(1, random)])
}

/// Rows to be solved, and a budget in which the model comes to an end.
fn to_solve(size: Size, random: &mut Random) -> (Vec<Row>, u64) {
    let n = size.n;
    let widest = random.between(1, n.min(4));
    let row = |_| {
        let least = usize::from(!random.once_in(20));
        let width = random.between(least, widest);
        tables::strict(n, width, random)
    };
    let rows: Vec<Row> = (0..size.rows()).map(row).collect();
    let most = if n <= 9 { u64::MAX } else { 200 };
    let steps = model::run(n, &rows, most).steps;
    (rows, one(&[steps, steps, steps - 1, steps / 2, 0, most], random))
}

/// Any gates after the given number of inputs.
pub fn some_gates(inputs: usize, count: usize, random: &mut Random) -> Vec<u32> {
    let gate = |g: usize| {
        let kind = if inputs + g == 0 { 3 } else { random.below(3) as u32 };
        let mut wire = || random.below((inputs + g).max(1)) as u32;
        let (first, second) = (wire(), wire());
        [kind, first, if kind == 2 { 0 } else { second }]
    };
    (0..count).flat_map(gate).collect()
}

/// The library's own gates of a size, or other gates: some with one kind changed, some at random, some none.
fn gates_of(size: Size, circuits: &Circuits, random: &mut Random) -> Result<Vec<u32>, String> {
    let inputs = memory::input_wires(size);
    Ok(match random.below(12) {
        0 => vec![],
        1 => {
            let count = random.below(40);
            some_gates(inputs, count, random)
        }
        2 => {
            let mut words = circuits.words(size)?;
            let gate = 3 * random.below(words.len() / 3);
            words[gate] = if words[gate + 2] == 0 { random.below(3) as u32 } else { random.below(2) as u32 };
            words
        }
        _ => circuits.words(size)?,
    })
}

/// Gates, inputs, and room for the wires.
fn wired(gates: Vec<u32>, inputs: Vec<u8>, random: &mut Random) -> Vec<Lent> {
    let wires = inputs.len() + gates.len() / 3;
    vec![Lent::Words(gates), Lent::Bytes(inputs), bytes_for(wires, random)]
}

/// Any gates and inputs, to be evaluated. 8,192 wires and more are evaluated in another way than fewer.
fn any_evaluation(random: &mut Random) -> Vec<Lent> {
    let count = if random.once_in(50) { random.between(8_150, 8_400) } else { random.below(60) };
    let inputs = random.below(30);
    let inputs: Vec<u8> = (0..inputs).map(|_| random.below(2) as u8).collect();
    let gates = some_gates(inputs.len(), count, random);
    wired(gates, inputs, random)
}

/// Gates of a size and packed tables with a run, to be evaluated.
fn evaluation(size: Size, circuits: &Circuits, random: &mut Random) -> Result<Vec<Lent>, String> {
    let (tables, run) = tables_and_run(size, random);
    let packed = memory::packed(size, [0, 1, 2].map(|k| tables[k].words()), &run, usize::MAX);
    let packed = packed.unwrap_or_else(|_| vec![1; memory::input_wires(size)]);
    Ok(wired(gates_of(size, circuits, random)?, packed, random))
}

/// The bytes of a state, and something after them.
fn state_bytes(n: usize, random: &mut Random) -> Lent {
    let mut bytes: Vec<u8> = wires::state(&states::random(n, random)).into_iter().map(u8::from).collect();
    let more = slack(0, random);
    bytes.extend(some_bytes(more, random));
    Lent::Bytes(bytes)
}

/// Tables, room for gates, inputs and wires, a run, room for the repeats, and how many of them: none, some, or until the run closes.
fn repeating(size: Size, circuits: &Circuits, random: &mut Random) -> Result<(u64, Vec<Lent>), String> {
    let (mut lent, run) = tables_and_run(size, random);
    let inputs = memory::input_wires(size);
    let wires = inputs + circuits.words(size)?.len() / 3;
    lent.extend([words_for(3 * size.ceiling(), random), bytes_for(inputs, random), bytes_for(wires, random)]);
    lent.extend([Lent::Run(run), numbers_for(2, random)]);
    let most = if size.n <= 5 { u64::MAX } else { 3 };
    Ok((one(&[0, 1, 1, 2, 3, most, most], random), lent))
}

/// Tables, room for gates, inputs, wires and the answer, and a budget: none, some, that with which a small run closes, one less, one more,
/// many more, or one that is too large.
fn going_through(size: Size, circuits: &Circuits, random: &mut Random) -> Result<(u64, Vec<Lent>), String> {
    let (rows, some) = to_solve(size, random);
    let most = if size.n <= 6 { 300 } else { 3 };
    let steps = model::run(size.n, &rows, most).steps;
    let mut lent = lent_tables(size, &rows, random);
    let inputs = memory::input_wires(size);
    let wires = inputs + circuits.words(size)?.len() / 3;
    lent.extend([words_for(3 * size.ceiling(), random), bytes_for(inputs, random), bytes_for(wires, random)]);
    lent.push(numbers_for(3, random));
    let budget = one(&[0, 1, steps, steps, steps - 1, steps + 1, some.min(most), most], random);
    Ok((if random.once_in(25) { one(&[65_536, 65_537, u64::MAX, 65_536 + steps], random) } else { budget }, lent))
}

/// Gates, a line's number, and room for a line or for several.
fn line_call(function: Function, size: Size, circuits: &Circuits, random: &mut Random) -> Result<Call, String> {
    let gates = gates_of(size, circuits, random)?;
    let lines = 4 + gates.len() / 3;
    let line = one(&[0, 1, 2, 3, 4, random.below(lines), lines - 1, lines, lines + 1], random);
    let known = memory::gates(&gates, memory::input_wires(size)).unwrap_or_default();
    let next: usize = memory::lines(size, &known, line).take(random.between(1, 4)).map(|line| line.len()).sum();
    let room = one(&[next, next, next.saturating_sub(1), next + 1, 64, random.below(2_000)], random);
    let mut numbers = numbers(size);
    numbers.push(line as u64);
    let count = if function == Function::WriteLine { 1 } else { 2 };
    let lent = vec![Lent::Words(gates), Lent::Bytes(some_bytes(room, random)), numbers_for(count, random)];
    Ok(Call { function, numbers, lent })
}

/// A budget line, which strokes of damage may spoil, with more after it or less.
fn line(random: &mut Random) -> Vec<u8> {
    let budget = one(&[random.below(100) as u64, random.number(), one(&ODD, random)], random);
    let zeros = one(&[0, 0, 0, 3, 79, 80, 99, 100], random);
    let mut line = format!("{}{budget}\n", "0".repeat(zeros)).into_bytes();
    for _ in 0..one(&[0, 0, 1, 2], random) {
        damage::strike(&mut line, random);
    }
    let more = slack(0, random);
    line.extend(some_bytes(more, random));
    line
}

/// A call of the answer writer, each number now right, now odd.
fn answer(random: &mut Random) -> Call {
    let n = one(&[random.between(1, 32) as u64, random.between(1, 32) as u64, one(&ODD, random)], random);
    let count = one(&[random.below(100) as u64, random.number(), one(&ODD, random), random.number() >> 40], random);
    let verdict = one(&[0, 1, 1, 1, 2, one(&ODD, random)], random);
    let model = one(&[random.number() & 0xffff_ffff, random.number(), one(&ODD, random)], random);
    let lent = vec![Lent::Text(some_bytes(256, random)), numbers_for(1, random)];
    Call { function: Function::Answer, numbers: vec![n, count, verdict, model], lent }
}

/// A word with no variable, all, one, all but one, or any, few or many.
fn some_word(random: &mut Random) -> u32 {
    let (a, b, bit) = (random.number() as u32, random.number() as u32, 1 << random.below(32));
    one(&[0, u32::MAX, bit, !bit, a, a & b, a | b], random)
}

/// A row's two words, T and F, which most often have no variable in common.
fn row_to_judge(random: &mut Random) -> Vec<u64> {
    let [positive, negative, t, f] = [(); 4].map(|()| some_word(random));
    let apart = if random.once_in(4) { u32::MAX } else { !t };
    [positive, negative, t, f & apart].map(u64::from).to_vec()
}

/// The index of the tables, the run, and its number.
pub fn indexed(size: Size, tables: &[Lent], run: Vec<u32>) -> [Lent; 3] {
    let rows = memory::accepted(size, [0, 1, 2].map(|k| tables[k].words())).expect("the tables are accepted");
    let number = memory::run_of(&run).expect("the run is well-formed").unsatisfied(&rows);
    [Lent::Numbers(memory::index(&rows)), Lent::Run(run), Lent::Numbers(vec![number])]
}

/// A late condition, as numbers: mostly a station's own padding row, if there is one, and a new row of n variables.
pub fn condition(size: Size, rows: &[Row], random: &mut Random) -> Vec<u64> {
    let own = (1..=size.left + size.right).filter(|&number| model::padding(&rows[number - 1]));
    let own: Vec<u64> = own.map(|number| number as u64).collect();
    let any = random.below(size.rows() + 2) as u64;
    let number = if own.is_empty() || random.once_in(10) { any } else { one(&own, random) };
    let owner = size.station(number).unwrap_or(0);
    let station = if random.once_in(12) { one(&[1 - owner, 2, one(&ODD, random)], random) } else { owner };
    let beyond = if random.once_in(12) { 0 } else { 32 - size.n };
    let [positive, negative] = [(); 2].map(|()| some_word(random) & u32::MAX >> beyond);
    let apart = if random.once_in(4) { u32::MAX } else { !positive };
    vec![station, number, u64::from(positive), u64::from(negative & apart)]
}

/// Tables with a run, and a late condition; most often the run is open, and a station has padding.
fn late(size: Size, indexed_too: bool, random: &mut Random) -> (Vec<u64>, Vec<Lent>) {
    let (mut tables, mut run) = tables_and_run(size, random);
    if !random.once_in(4) {
        run[1] = 0;
    }
    if !random.once_in(4) {
        let k = random.below(2);
        let (place, variable) = (random.below([size.left, size.right][k]), 1 << random.below(size.n));
        if let Lent::Words(words) = &mut tables[k] {
            words[2 * place..2 * place + 2].iter_mut().for_each(|word| *word |= variable);
        }
    }
    let rows = memory::accepted(size, [0, 1, 2].map(|k| tables[k].words())).expect("the tables are accepted");
    let numbers = [numbers(size), condition(size, &rows, random)].concat();
    let [index, run, number] = indexed(size, &tables, run);
    tables.push(run);
    if indexed_too {
        tables.extend([index, number]);
    }
    (numbers, tables)
}

/// Tables, and what a call over them lends besides.
fn over_tables(function: Function, size: Size, random: &mut Random) -> Vec<Lent> {
    let (mut lent, run) = tables_and_run(size, random);
    match function {
        Function::Accept => (),
        Function::Index => lent.push(numbers_for(INDEX_WORDS, random)),
        Function::Unsatisfied => lent.extend([Lent::Run(run), numbers_for(1, random)]),
        Function::CountFree => lent.extend([Lent::Run(run), bytes_for(size.rows(), random)]),
        Function::StepIndexed => lent.extend(indexed(size, &lent, run)),
        Function::StepExplained => lent.extend([Lent::Run(run), numbers_for(4, random)]),
        Function::Pack => lent.extend([Lent::Run(run), bytes_for(memory::input_wires(size), random)]),
        _ => lent.push(Lent::Run(run)),
    }
    lent
}

/// Tables, a budget and room for the answer.
fn solving(size: Size, random: &mut Random) -> (u64, Vec<Lent>) {
    let (rows, budget) = to_solve(size, random);
    let mut lent = lent_tables(size, &rows, random);
    lent.push(numbers_for(3, random));
    (budget, lent)
}

/// Tables, a run, room for two numbers, and how many steps: none, some, or until the run closes.
fn continuing(size: Size, random: &mut Random) -> (u64, Vec<Lent>) {
    let (mut lent, run) = tables_and_run(size, random);
    lent.extend([Lent::Run(run), numbers_for(2, random)]);
    let most = if size.n <= 9 { u64::MAX } else { 200 };
    (one(&[0, 1, 2, 3, random.below(20) as u64, most, most], random), lent)
}

/// Tables that are most often unsatisfiable, and a proof by cases, in which now and then there is a deletion or a line is damaged.
fn proved(size: Size, random: &mut Random) -> Vec<Lent> {
    let n = size.n;
    let widest = one(&[1, 2, 2, 3], random).min(n);
    let few = random.between(1, n.min(7));
    let rows: Vec<Row> = (0..size.rows()).map(|_| tables::strict(few, random.between(1, widest), random)).collect();
    let mut lines = proofs::by_cases(few, &rows, 300);
    for _ in 0..one(&[0, 0, 1, 3], random) {
        let gone = if random.once_in(2) { one(&[random.pick(&rows)], random).clone() } else { clause(n, random) };
        lines.insert(random.below(lines.len() + 1), proofs::Line::Deleted(gone));
    }
    let mut text = proofs::text(&lines);
    for _ in 0..one(&[0, 0, 0, 1, 2], random) {
        text = proofs::damaged(&text, n, random).1;
    }
    if random.once_in(2) {
        text = proofs::spaced(&text, random);
    }
    [lent_tables(size, &rows, random), vec![Lent::Bytes(text)]].concat()
}

/// Rows of n variables as words, with many literals, few, or none.
pub fn row_words(n: usize, rows: usize, random: &mut Random) -> Vec<u32> {
    let (held, kind) = (u32::MAX >> (32 - n), random.below(4));
    let word = |random: &mut Random| match kind {
        0 => random.number() & random.number() & random.number(),
        1 => one(&[0, u64::MAX, random.number()], random),
        _ => random.number(),
    };
    (0..2 * rows).map(|_| word(random) as u32 & held).collect()
}

/// A row count from 0 on, and a table or planes with room for the other of the two.
fn by_columns(function: Function, size: Size, random: &mut Random) -> (Vec<u64>, Vec<Lent>) {
    let rows = one(&[0, size.left, size.right, size.public, 128, random.between(0, 128)], random);
    let numbers = vec![size.n as u64, rows as u64];
    let (table, space) = (row_words(size.n, rows, random), 64 * columns::squares(rows));
    if function == Function::Columns {
        return (numbers, vec![words_with_more(table, random), words_for(space, random)]);
    }
    let planes = columns::planes(numbers[0], numbers[1], &table, space).expect("the table is accepted");
    (numbers, vec![words_with_more(planes, random), words_for(2 * rows, random)])
}

/// A call that is right, but for what texts, line numbers and answers bring along.
fn right(function: Function, circuits: &Circuits, random: &mut Random) -> Result<Call, String> {
    let size = match function {
        Function::Evaluate if !random.once_in(4) => {
            return Ok(Call { function, numbers: vec![], lent: any_evaluation(random) })
        }
        Function::Generate | Function::Repeat | Function::SolveWhole if random.once_in(500) => large_size(random),
        Function::Generate
        | Function::Repeat
        | Function::SolveWhole
        | Function::Evaluate
        | Function::WriteLine
        | Function::WriteLines => some_size(random, true),
        _ => some_size(random, false),
    };
    of_size(function, size, circuits, random)
}

/// The same for a size, where the function takes one or what has one.
pub fn of_size(function: Function, size: Size, circuits: &Circuits, random: &mut Random) -> Result<Call, String> {
    let call = |numbers: Vec<u64>, lent: Vec<Lent>| Ok(Call { function, numbers, lent });
    match function {
        Function::Sizes => call(numbers(size), vec![numbers_for(4, random)]),
        Function::ReadTables => call(vec![], texts(random)),
        Function::Judge => call(row_to_judge(random), vec![numbers_for(4, random)]),
        Function::Accept
        | Function::Step
        | Function::CountFree
        | Function::Index
        | Function::Unsatisfied
        | Function::StepIndexed
        | Function::StepExplained
        | Function::StepWeighted
        | Function::Pack => call(numbers(size), over_tables(function, size, random)),
        Function::Fresh => call(vec![size.n as u64], vec![room_for_run(random)]),
        Function::Solve | Function::SolveIndexed | Function::SolveWeighted => {
            let (budget, lent) = solving(size, random);
            call([numbers(size), vec![budget]].concat(), lent)
        }
        Function::Continue | Function::ContinueWeighted => {
            let (times, lent) = continuing(size, random);
            call([numbers(size), vec![times]].concat(), lent)
        }
        Function::Replace | Function::ReplaceIndexed => {
            let (numbers, lent) = late(size, function == Function::ReplaceIndexed, random);
            call(numbers, lent)
        }
        Function::Clause => {
            let (number, mut lent) = asked_clause(size, random);
            lent.push(numbers_for(3, random));
            call([numbers(size), vec![number]].concat(), lent)
        }
        Function::Excerpt => {
            let (number, mut lent) = asked_clause(size, random);
            let room = room_for_clause(size, number, [3, 4].map(|k| lent[k].bytes()), random);
            lent.extend([room, numbers_for(1, random)]);
            call([numbers(size), vec![number]].concat(), lent)
        }
        Function::CheckProof => call(numbers(size), proved(size, random)),
        Function::Game => call(vec![], vec![game_text(size, random), numbers_for(3, random)]),
        Function::Columns | Function::Rows => {
            let (numbers, lent) = by_columns(function, size, random);
            call(numbers, lent)
        }
        Function::Model => {
            let run = memory::run_words(&states::random(size.n, random));
            call(vec![], vec![Lent::Run(run), numbers_for(1, random)])
        }
        Function::Page => {
            let (numbers, lent) = page_call(size.n, random);
            call(numbers, lent)
        }
        Function::ReadPage => {
            let (numbers, lent) = page_to_read(size.n, random);
            call(numbers, lent)
        }
        Function::Generate => call(numbers(size), vec![words_for(3 * size.ceiling(), random), numbers_for(1, random)]),
        Function::Evaluate => call(vec![], evaluation(size, circuits, random)?),
        Function::ReadBack => call(vec![size.n as u64], vec![state_bytes(size.n, random), room_for_run(random)]),
        Function::Repeat => {
            let (times, lent) = repeating(size, circuits, random)?;
            call([numbers(size), vec![times]].concat(), lent)
        }
        Function::SolveWhole => {
            let (budget, lent) = going_through(size, circuits, random)?;
            call([numbers(size), vec![budget]].concat(), lent)
        }
        Function::WriteLine | Function::WriteLines => line_call(function, size, circuits, random),
        Function::ReadBudget => call(vec![], vec![Lent::Bytes(line(random)), numbers_for(1, random)]),
        Function::Answer => Ok(answer(random)),
    }
}

// ---- Damage

/// A buffer a little shorter or longer, half as long, or empty.
fn resize<T: Copy>(buffer: &mut Vec<T>, with: T, random: &mut Random) {
    let length = buffer.len();
    let length = one(&[length.saturating_sub(1), length.saturating_sub(1), length + 1, length / 2, 0], random);
    buffer.resize(length, with);
}

/// A word of a run changed with a view to what it means.
fn strike_run(words: &mut [u32], random: &mut Random) {
    let depth = (words[4] as usize).min(32);
    let level = 5 + 3 * random.below(depth + 1).min(31);
    let last = 5 + 3 * depth.saturating_sub(1);
    match random.below(12) {
        0 => words[1] = one(&[0, 1, 2, 3, 256, 1 << 31], random),
        1 => words[4] = one(&[words[4].wrapping_add(1), words[4].wrapping_sub(1), 33, 257, u32::MAX], random),
        2 => words[3] |= words[2],
        3 => words[2] |= 1 << random.below(32),
        4 => words[3] |= 1 << random.below(32),
        5 => {
            words[0] =
                one(&[0, 33, words[0].wrapping_add(256), words[0].wrapping_add(1), words[0].wrapping_sub(1)], random)
        }
        6 => words[level] ^= 1 << random.below(32),
        7 => words[level + 1] ^= 1 << random.below(32),
        8 => words[level + 2] = one(&[random.below(33) as u32, 256, u32::MAX], random),
        9 => words[last] |= words[last + 1],
        10 => words[100] = 1,
        _ => words[2] &= !(1 << (words[last + 2] & 31)),
    }
}

/// One element changed.
fn strike_element(lent: &mut Lent, random: &mut Random) {
    match lent {
        Lent::Bytes(bytes) | Lent::Text(bytes) if !bytes.is_empty() => {
            let at = random.below(bytes.len());
            bytes[at] = one(&[0, 1, 1 - (bytes[at] & 1), 2, 255, bytes[at] ^ 1 << random.below(8)], random);
        }
        Lent::Run(words) if !random.once_in(4) => strike_run(words, random),
        Lent::Words(words) | Lent::Run(words) if !words.is_empty() => {
            let at = random.below(words.len());
            let near = [words[at] ^ 1 << random.below(32), words[at].wrapping_add(1), words[at].wrapping_sub(1)];
            words[at] = one(&[near[0], near[0], near[1], near[2], 0, 3, 1 << 31, u32::MAX], random);
        }
        Lent::Numbers(numbers) => {
            let at = random.below(numbers.len());
            let number = numbers[at];
            let near = [number ^ 1 << random.below(64), number.wrapping_add(1), number.wrapping_sub(1)];
            numbers[at] = one(&[near[0], near[1], near[2], one(&ODD, random)], random);
        }
        _ => (),
    }
}

/// One stroke: a number, a length or an element is changed; an array keeps its length.
fn strike(call: &mut Call, random: &mut Random) {
    let what = random.below(8);
    if what < 2 && !call.numbers.is_empty() {
        let k = random.below(call.numbers.len());
        let number = call.numbers[k];
        // a number of steps stays one in which the model comes to an end
        let runs = [
            Function::Solve,
            Function::SolveIndexed,
            Function::SolveWeighted,
            Function::Continue,
            Function::ContinueWeighted,
            Function::Repeat,
        ];
        if !runs.contains(&call.function) || k < 4 {
            call.numbers[k] = one(&[number.wrapping_sub(1), number.wrapping_add(1), one(&ODD, random)], random);
        }
        return;
    }
    let k = random.below(call.lent.len());
    match (&mut call.lent[k], what) {
        (Lent::Bytes(bytes), 0..=4) => resize(bytes, 1, random),
        (Lent::Words(words), 0..=4) => resize(words, 1, random),
        (lent, _) => strike_element(lent, random),
    }
}

/// The call of a number: in order of the functions, every other with one to three strokes of damage.
pub fn call(function: Function, circuits: &Circuits, random: &mut Random) -> Result<Call, String> {
    let mut call = right(function, circuits, random)?;
    for _ in 0..one(&[0, 0, 0, 1, 1, 2], random) {
        strike(&mut call, random);
    }
    Ok(call)
}
