//! The programs as documents 01 and 02 describe them, in plain Rust and for the tests only. Literals stay numbers and a state is a list of
//! truth values: none of the product's own words, states or readers is in here.

use std::cmp::Ordering;
use std::ops::{Range, RangeInclusive};

pub const TEXT_LIMIT: usize = 65_536;
pub const LINE_LIMIT: usize = 100;
/// The greatest ceiling that the programs with a circuit serve.
pub const SERVED: usize = 5_461;
/// The greatest budget that is gone through whole.
pub const WHOLE_BUDGET: u64 = 65_535;
/// How many variables there may be, how many rows a station may have, and how many the public table.
pub const VARIABLES: RangeInclusive<u64> = 1..=32;
pub const STATION: RangeInclusive<u64> = 1..=128;
pub const PUBLIC: RangeInclusive<u64> = 0..=128;

/// A row: its literals in the order of the text, each once.
pub type Row = Vec<i64>;

/// What one text holds.
#[derive(Clone, Debug, PartialEq)]
pub struct Table {
    pub n: usize,
    pub rows: Vec<Row>,
}

/// n and the row counts of the three tables.
#[derive(Clone, Copy, Debug, PartialEq, Eq, PartialOrd, Ord)]
pub struct Size {
    pub n: usize,
    pub left: usize,
    pub right: usize,
    pub public: usize,
}

impl Size {
    /// Numbers that are within the limits: 1, then 2.
    pub fn new([n, left, right, public]: [u64; 4]) -> Result<Size, u8> {
        if !VARIABLES.contains(&n) {
            return Err(1);
        }
        if !STATION.contains(&left) || !STATION.contains(&right) || !PUBLIC.contains(&public) {
            return Err(2);
        }
        let [n, left, right, public] = [n, left, right, public].map(|number| number as usize);
        Ok(Size { n, left, right, public })
    }

    /// m rows as three tables: halves where two tables can hold them, else 128 of them public.
    pub fn split(n: usize, m: usize) -> Size {
        let public = if m > 256 { 128 } else { 0 };
        let left = (m - public) / 2;
        Size { n, left, right: m - public - left, public }
    }

    /// The rows of all three tables.
    pub fn rows(&self) -> usize {
        self.left + self.right + self.public
    }

    /// The station whose row has this number, from 1 over all tables: 0 is the left one, 1 the right one. Public rows are no station's.
    pub fn station(&self, number: u64) -> Option<u64> {
        let owners = [vec![Some(0); self.left], vec![Some(1); self.right], vec![None; self.public]].concat();
        let place = usize::try_from(number).ok()?.checked_sub(1)?;
        owners.get(place).copied().flatten()
    }

    /// The most gates that the circuit may have.
    pub fn ceiling(&self) -> usize {
        64 * (self.rows() + self.n + 1) * (self.n + 1)
    }
}

#[derive(Clone, Copy, Debug, PartialEq)]
pub enum Standing {
    Open,
    Satisfied,
    Refuted,
}

/// The answer of a budgeted run. The model is there with satisfiable only.
#[derive(Clone, Debug, PartialEq)]
pub struct Answer {
    pub steps: u64,
    pub standing: Standing,
    pub model: Vec<bool>,
}

// ---- Texts

/// A space or a tab.
pub fn blank(byte: u8) -> bool {
    byte == b' ' || byte == b'\t'
}

/// A byte between tokens.
pub fn separator(byte: u8) -> bool {
    blank(byte) || byte == b'\r' || byte == b'\n'
}

/// The first line without its LF, and what follows it.
pub fn line(text: &[u8]) -> (&[u8], &[u8]) {
    match text.iter().position(|&b| b == b'\n') {
        Some(at) => (&text[..at], &text[at + 1..]),
        None => (text, &[]),
    }
}

/// A number: an optional minus, digits without leading zeros, not −0. One of more than nine digits is as good as any other beyond every
/// limit.
pub fn number(word: &[u8]) -> Option<i64> {
    let (sign, digits) = match word.strip_prefix(b"-") {
        Some(digits) => (-1, digits),
        None => (1, word),
    };
    let zero = digits == b"0";
    if digits.is_empty() || !digits.iter().all(u8::is_ascii_digit) || (digits[0] == b'0' && !zero) || (zero && sign < 0)
    {
        return None;
    }
    if digits.len() > 9 {
        return Some(sign * 1_000_000_000);
    }
    Some(sign * digits.iter().fold(0, |value, digit| 10 * value + i64::from(digit - b'0')))
}

/// The two numbers of the header line `p cnf n m`.
fn header(line: &[u8]) -> Option<(i64, i64)> {
    let mut end = line.len();
    while end > 0 && (blank(line[end - 1]) || line[end - 1] == b'\r') {
        end -= 1;
    }
    if line.first() != Some(&b'p') {
        return None;
    }
    let parts: Vec<&[u8]> = line[..end].split(|&b| blank(b)).filter(|part| !part.is_empty()).collect();
    match parts[..] {
        [b"p", b"cnf", n, m] => Some((number(n)?, number(m)?)),
        _ => None,
    }
}

/// The rows of the text after the header, or None where it is malformed.
pub fn rows(body: &[u8], n: i64, m: i64) -> Option<Vec<Row>> {
    let mut rows = vec![];
    let mut row = vec![];
    let mut unclosed = false;
    for word in body.split(|&b| separator(b)).filter(|word| !word.is_empty()) {
        let literal = number(word)?;
        unclosed = literal != 0;
        if literal == 0 {
            rows.push(std::mem::take(&mut row));
        } else if literal.abs() > n {
            return None;
        } else if !row.contains(&literal) {
            row.push(literal);
        }
    }
    (!unclosed && rows.len() as i64 == m).then_some(rows)
}

/// The text without its remarks: the lines whose first byte is `c`, each with its LF.
pub fn without_remarks(text: &[u8]) -> Vec<u8> {
    text.split_inclusive(|&b| b == b'\n').filter(|line| line[0] != b'c').flatten().copied().collect()
}

/// n, the row count and all that follows the header of a text without its remarks. An overlong text is 5, and so is a malformed header;
/// then come 1 and 2.
pub fn headed(text: &[u8], counts: RangeInclusive<u64>) -> Result<(i64, i64, Vec<u8>), u8> {
    if text.len() > TEXT_LIMIT {
        return Err(5);
    }
    let plain = without_remarks(text);
    let (first, body) = line(&plain);
    let (n, m) = header(first).ok_or(5)?;
    let within =
        |number: i64, limits: RangeInclusive<u64>| u64::try_from(number).map_or(false, |k| limits.contains(&k));
    if !within(n, VARIABLES) {
        return Err(1);
    }
    if !within(m, counts) {
        return Err(2);
    }
    Ok((n, m, body.to_vec()))
}

/// A text whose row count may be one of these: its table, or the number of the refusal.
pub fn read(text: &[u8], counts: RangeInclusive<u64>) -> Result<Table, u8> {
    let (n, m, body) = headed(text, counts)?;
    let rows = rows(&body, n, m).ok_or(5)?;
    Ok(Table { n: n as usize, rows })
}

/// Where the clauses of a text are that can be read, each from its first literal through its 0. Header and remarks are made blank, which
/// moves nothing; then each 0 closes what began after the one before it.
pub fn clause_places(text: &[u8]) -> Vec<Range<usize>> {
    let (mut bare, mut headed) = (vec![], false);
    for line in text.split_inclusive(|&b| b == b'\n') {
        let (remark, clauses) = (line[0] == b'c', headed);
        headed |= !remark;
        bare.extend(line.iter().map(|&b| if clauses && !remark { b } else { b' ' }));
    }
    let (mut places, mut start, mut at) = (vec![], None, 0);
    for word in bare.split(|&b| separator(b)) {
        let end = at + word.len();
        if !word.is_empty() {
            let first = *start.get_or_insert(at);
            if word == b"0" {
                places.push(first..end);
                start = None;
            }
        }
        at = end + 1;
    }
    places
}

/// One or more digits, at most 2^64 − 1.
fn unsigned(digits: &[u8]) -> Result<u64, u8> {
    if digits.is_empty() || !digits.iter().all(u8::is_ascii_digit) {
        return Err(8);
    }
    let mut value: u64 = 0;
    for digit in digits {
        value = value.checked_mul(10).and_then(|v| v.checked_add(u64::from(digit - b'0'))).ok_or(8)?;
    }
    Ok(value)
}

/// The first line of standard input without its LF: at most 100 bytes with it.
fn short_line(input: &[u8]) -> Result<&[u8], u8> {
    match input.iter().position(|&b| b == b'\n') {
        Some(end) if end < LINE_LIMIT => Ok(&input[..end]),
        _ => Err(8),
    }
}

/// The budget: the first line of standard input.
pub fn budget(input: &[u8]) -> Result<u64, u8> {
    unsigned(short_line(input)?)
}

// ---- The giant step

/// A variable's value, None where it is free.
pub type Value = Option<bool>;

/// Which of several forced literals rule 3 takes.
#[derive(Clone, Copy, Debug, PartialEq)]
pub enum Ties {
    /// The lowest variable among them all, positive where both signs are forced: document 02.
    LowestVariable,
    /// The literal of the lowest row, as document 01 had it. Only to show that tests tell the two apart.
    LowestRow,
}

impl Ties {
    /// The literal that is taken of those forced, which are in the order of their rows.
    fn take(self, forced: &[i64]) -> Option<i64> {
        match self {
            Ties::LowestVariable => forced.iter().copied().min_by_key(|&literal| (variable(literal), literal < 0)),
            Ties::LowestRow => forced.first().copied(),
        }
    }
}

/// A run: each variable true, false or free, and the levels with what was there before their choice.
#[derive(Clone, Debug, PartialEq)]
pub struct Run {
    pub standing: Standing,
    pub values: Vec<Value>,
    pub levels: Vec<(Vec<Value>, usize)>,
}

/// The number of a literal's variable, from 0 on.
fn variable(literal: i64) -> usize {
    literal.unsigned_abs() as usize - 1
}

/// Whether a row holds a variable with both signs.
pub fn padding(row: &[i64]) -> bool {
    row.iter().any(|&literal| row.contains(&-literal))
}

impl Run {
    /// The run before its first step.
    pub fn fresh(n: usize) -> Run {
        Run { standing: Standing::Open, values: vec![None; n], levels: vec![] }
    }

    /// Whether the literal's variable has no value.
    fn free(&self, literal: i64) -> bool {
        self.values[variable(literal)].is_none()
    }

    /// Whether the row is satisfied; padding always is.
    fn satisfied(&self, row: &[i64]) -> bool {
        padding(row) || row.iter().any(|&l| self.values.get(variable(l)) == Some(&Some(l > 0)))
    }

    /// How many rows are not satisfied, whatever the standing; a variable that the run does not have is free.
    pub fn unsatisfied(&self, rows: &[Row]) -> u64 {
        rows.iter().filter(|row| !self.satisfied(row)).count() as u64
    }

    /// How many of the row's literals have a variable without a value, whether the row is satisfied or not.
    pub fn free_literals(&self, row: &[i64]) -> usize {
        row.iter().filter(|&&literal| self.free(literal)).count()
    }

    /// Whether each level's values lie within the next ones, the variable chosen there being free and then true.
    pub fn well_formed(&self) -> bool {
        let n = self.values.len();
        let nexts = self.levels.iter().skip(1).map(|(before, _)| before).chain([&self.values]);
        (1..=32).contains(&n)
            && self.levels.iter().zip(nexts).all(|((before, chosen), next)| {
                let within = |(v, value): (usize, &Value)| value.is_none() || next[v] == *value;
                before.iter().enumerate().all(within) && before[*chosen].is_none() && next[*chosen] == Some(true)
            })
    }

    /// One giant step: the first of the four rules that applies.
    pub fn step(&mut self, rows: &[Row]) {
        self.step_by(Ties::LowestVariable, rows);
    }

    /// The same with another choice among forced literals.
    pub fn step_by(&mut self, ties: Ties, rows: &[Row]) {
        if self.standing != Standing::Open {
            return;
        }
        let mut unsatisfied = false;
        let mut conflict = false;
        let mut forced = vec![];
        let mut lowest: Option<usize> = None;
        for row in rows.iter().filter(|row| !self.satisfied(row)) {
            unsatisfied = true;
            let mut free = row.iter().copied().filter(|&l| self.free(l));
            match (free.next(), free.next()) {
                (None, _) => conflict = true,
                (Some(only), None) => forced.push(only),
                _ => (),
            }
            for &literal in row.iter().filter(|&&l| self.free(l)) {
                lowest = Some(lowest.map_or(variable(literal), |v| v.min(variable(literal))));
            }
        }
        if !unsatisfied {
            self.standing = Standing::Satisfied;
        } else if conflict {
            match self.levels.pop() {
                None => self.standing = Standing::Refuted,
                Some((before, chosen)) => {
                    self.values = before;
                    self.values[chosen] = Some(false);
                }
            }
        } else if let Some(literal) = ties.take(&forced) {
            self.values[variable(literal)] = Some(literal > 0);
        } else if let Some(chosen) = lowest {
            self.levels.push((self.values.clone(), chosen));
            self.values[chosen] = Some(true);
        }
    }

    /// Giant steps through the one that closes the run, at most a given number; how many they were.
    pub fn go_on(&mut self, ties: Ties, rows: &[Row], times: u64) -> u64 {
        let mut steps = 0;
        while steps < times && self.standing == Standing::Open {
            self.step_by(ties, rows);
            steps += 1;
        }
        steps
    }

    /// What the step to `after` tells: rule, row from 1, variable from 1, value. It is read off what the step changed.
    pub fn told(&self, after: &Run, rows: &[Row]) -> [u64; 4] {
        let lowest = |free: &[i64]| {
            let shows = |row: &Row| !self.satisfied(row) && row.iter().filter(|&&l| self.free(l)).eq(free);
            rows.iter().position(shows).map_or(0, |row| row as u64 + 1)
        };
        let last = |run: &Run| run.levels.last().map_or(0, |(_, chosen)| *chosen as u64 + 1);
        match (self.standing, after.standing) {
            (Standing::Satisfied | Standing::Refuted, _) => [0; 4],
            (Standing::Open, Standing::Satisfied) => [1, 0, 0, 0],
            (Standing::Open, Standing::Refuted) => [3, lowest(&[]), 0, 0],
            (Standing::Open, Standing::Open) => match after.levels.len().cmp(&self.levels.len()) {
                Ordering::Less => [2, lowest(&[]), last(self), 0],
                Ordering::Greater => [5, 0, last(after), 1],
                Ordering::Equal => {
                    let v = (0..self.values.len()).find(|&v| self.values[v] != after.values[v]);
                    let v = v.expect("a step from an open run changes something");
                    let (number, value) = (v as i64 + 1, after.values[v] == Some(true));
                    [4, lowest(&[if value { number } else { -number }]), number as u64, u64::from(value)]
                }
            },
        }
    }

    /// What is answered where the run stops after the given number of steps.
    pub fn answer(&self, steps: u64) -> Answer {
        let model = match self.standing {
            Standing::Satisfied => self.values.iter().map(|&value| value == Some(true)).collect(),
            _ => vec![],
        };
        Answer { steps, standing: self.standing, model }
    }
}

/// The budgeted run from fresh, over rows that have each literal once.
pub fn run(n: usize, rows: &[Row], budget: u64) -> Answer {
    run_by(Ties::LowestVariable, n, rows, budget)
}

/// The same with another choice among forced literals.
pub fn run_by(ties: Ties, n: usize, rows: &[Row], budget: u64) -> Answer {
    let mut run = Run::fresh(n);
    let steps = run.go_on(ties, rows, budget);
    run.answer(steps)
}

// ---- Late conditions

/// A late condition: the station, the number of the row that it replaces, from 1 over all tables, and the new row.
#[derive(Clone, Debug)]
pub struct Condition {
    pub station: u64,
    pub number: u64,
    pub row: Row,
}

/// The rows after a late condition: 15 where it is no padding row of the station, 16 where the run is closed, 3 where the new row has
/// a variable above n.
pub fn replaced(size: Size, rows: &[Row], run: &Run, late: &Condition) -> Result<Vec<Row>, u8> {
    if !matches!(size.station(late.number), Some(owner) if owner == late.station) {
        return Err(15);
    }
    let place = late.number as usize - 1;
    if !padding(&rows[place]) {
        return Err(15);
    }
    if run.standing != Standing::Open {
        return Err(16);
    }
    if late.row.iter().any(|&literal| variable(literal) >= size.n) {
        return Err(3);
    }
    Ok([&rows[..place], &[late.row.clone()], &rows[place + 1..]].concat())
}

// ---- The pair program

/// What the program reads: the size of the tables, their rows in order, and the budget.
#[derive(Clone, Debug)]
pub struct Read {
    pub size: Size,
    pub rows: Vec<Row>,
    pub budget: u64,
}

/// What is read of the left, the right and the public text and of standard input, or the number of the refusal. A file that cannot be read
/// is None.
pub fn pair([left, right, public]: [Option<&[u8]>; 3], input: &[u8]) -> Result<Read, u8> {
    let left = read(left.ok_or(5)?, STATION)?;
    let right = read(right.ok_or(5)?, STATION)?;
    let public = read(public.ok_or(5)?, PUBLIC)?;
    if left.n != right.n || left.n != public.n || right.n != public.n {
        return Err(6);
    }
    let size = Size { n: left.n, left: left.rows.len(), right: right.rows.len(), public: public.rows.len() };
    Ok(Read { size, rows: [left.rows, right.rows, public.rows].concat(), budget: budget(input)? })
}

/// The printed answer, whole.
pub fn printed(answer: &Answer) -> String {
    let verdict = match answer.standing {
        Standing::Satisfied => "SATISFIABLE",
        Standing::Refuted => "UNSATISFIABLE",
        Standing::Open => "UNKNOWN",
    };
    let mut text = format!("c steps {}\ns {verdict}\n", answer.steps);
    if answer.standing == Standing::Satisfied {
        text.push('v');
        for (i, &value) in answer.model.iter().enumerate() {
            text.push_str(if value { " " } else { " -" });
            text.push_str(&(i + 1).to_string());
        }
        text.push_str(" 0\n");
    }
    text
}

/// What a refusal prints.
pub fn refused(number: u8) -> String {
    format!("c refused {number}\ns UNKNOWN\n")
}

/// What the pair program prints for these files and this standard input.
pub fn output(texts: [Option<&[u8]>; 3], input: &[u8]) -> String {
    let answer = pair(texts, input).map(|read| run(read.size.n, &read.rows, read.budget));
    answer.map_or_else(refused, |answer| printed(&answer))
}

// ---- The whole program

/// The answer of a run that goes through its whole budget: the plain run's, with the budget for its count.
pub fn run_whole(n: usize, rows: &[Row], budget: u64) -> Answer {
    Answer { steps: budget, ..run(n, rows, budget) }
}

/// What the whole program reads, or the number of the refusal: after those of the pair program 23, then 7.
pub fn whole(texts: [Option<&[u8]>; 3], input: &[u8]) -> Result<Read, u8> {
    let read = pair(texts, input)?;
    if read.budget > WHOLE_BUDGET {
        return Err(23);
    }
    if read.size.ceiling() > SERVED {
        return Err(7);
    }
    Ok(read)
}

// ---- The circuit program

/// The size of the line on standard input, or the number of the refusal.
pub fn dimensions(input: &[u8]) -> Result<Size, u8> {
    let numbers = short_line(input)?.split(|&b| b == b' ').map(unsigned).collect::<Result<Vec<u64>, u8>>()?;
    let size = Size::new(numbers.try_into().map_err(|_| 8)?)?;
    if size.ceiling() > SERVED {
        return Err(7);
    }
    Ok(size)
}

/// What the circuit program prints in the place of a text.
pub fn refused_alone(number: u8) -> String {
    format!("c refused {number}\n")
}
