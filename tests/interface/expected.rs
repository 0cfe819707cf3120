//! What the model gives for a call, and what it leaves in the lent memory.

use crate::calls::{Call, Function, Given, Lent};
use crate::circuits::Circuits;
use forkhemit_tests::bristol::Gate;
use forkhemit_tests::columns;
use forkhemit_tests::game;
use forkhemit_tests::memory;
use forkhemit_tests::model::{self, Answer, Condition, Row, Run, Size, Ties};
use forkhemit_tests::proofs;
use forkhemit_tests::watch_page;
use forkhemit_tests::weighted;
use forkhemit_tests::wires;
use std::ops::Range;

/// What a call writes: into the front of which buffer.
type Writes = Vec<(usize, Lent)>;

/// Writes over the front of a buffer.
fn over<T: Copy>(front: &[T], buffer: &mut [T]) {
    buffer[..front.len()].copy_from_slice(front);
}

/// Bytes and words go to the front of their buffer, numbers fill it.
fn write(front: Lent, buffer: &mut Lent) {
    match (front, buffer) {
        (Lent::Bytes(front), Lent::Bytes(buffer)) | (Lent::Text(front), Lent::Text(buffer)) => over(&front, buffer),
        (Lent::Words(front), Lent::Words(buffer)) => over(&front, buffer),
        (Lent::Run(words), Lent::Run(buffer)) => buffer.copy_from_slice(&words),
        (Lent::Numbers(numbers), Lent::Numbers(buffer)) => buffer.copy_from_slice(&numbers),
        _ => panic!("the model writes a kind into a buffer of another"),
    }
}

/// Both stations' rows as a call writes them.
fn stations(size: Size, rows: &[Row]) -> Writes {
    let (left, others) = rows.split_at(size.left);
    vec![(0, Lent::Words(memory::row_words(left))), (1, Lent::Words(memory::row_words(&others[..size.right])))]
}

/// Count, verdict and model as a host gets them.
fn answer_numbers(answer: &Answer) -> Lent {
    let verdict = match answer.standing {
        model::Standing::Open => 0,
        model::Standing::Satisfied => 1,
        model::Standing::Refuted => 2,
    };
    let model = answer.model.iter().enumerate().fold(0, |word, (v, &value)| word | u64::from(value) << v);
    Lent::Numbers(vec![answer.steps, verdict, model])
}

/// What the call gives.
pub fn expected(call: &Call, circuits: &Circuits) -> Result<Given, String> {
    let mut lent = call.lent.clone();
    Ok(match call.written(circuits)? {
        Err(number) => Given { number, lent },
        Ok(writes) => {
            for (k, front) in writes {
                write(front, &mut lent[k]);
            }
            Given { number: 0, lent }
        }
    })
}

impl Call {
    /// The bytes of buffer k.
    fn bytes(&self, k: usize) -> &[u8] {
        self.lent[k].bytes()
    }

    /// The words of buffer k.
    fn words(&self, k: usize) -> &[u32] {
        self.lent[k].words()
    }

    /// The numbers of buffer k.
    fn lent_numbers(&self, k: usize) -> &[u64] {
        self.lent[k].numbers()
    }

    /// The first four numbers as a size, or 1 or 2.
    fn size(&self) -> Result<Size, u8> {
        Size::new([0, 1, 2, 3].map(|k| self.numbers[k]))
    }

    /// The first three buffers as tables.
    fn tables(&self) -> [&[u32]; 3] {
        [0, 1, 2].map(|k| self.words(k))
    }

    /// What is written, or the refusal; an error where the library's circuit of a size is no such circuit.
    fn written(&self, circuits: &Circuits) -> Result<Result<Writes, u8>, String> {
        Ok(match self.function {
            Function::Sizes => self.sizes(),
            Function::ReadTables => self.read_tables(),
            Function::Accept => self.size().and_then(|size| memory::accepted(size, self.tables())).map(|_| vec![]),
            Function::Judge => self.judge(),
            Function::Fresh => self.fresh(),
            Function::Step => self.step(),
            Function::Solve | Function::SolveIndexed => self.solve(model::run),
            Function::Continue => self.go_on(|run, rows, times| run.go_on(Ties::LowestVariable, rows, times)),
            Function::StepWeighted => self.step_weighted(),
            Function::SolveWeighted => self.solve(weighted::solve),
            Function::ContinueWeighted => self.go_on(weighted::go_on),
            Function::CountFree => self.count_free(),
            Function::Index => self.index(),
            Function::Unsatisfied => self.unsatisfied(),
            Function::StepIndexed => self.step_indexed(),
            Function::Replace => self.replace(),
            Function::ReplaceIndexed => self.replace_indexed(),
            Function::StepExplained => self.step_explained(),
            Function::Clause => self.clause(),
            Function::Excerpt => self.excerpt(),
            Function::Game => self.game(),
            Function::Columns => columns::planes(self.numbers[0], self.numbers[1], self.words(0), self.words(1).len())
                .map(|planes| vec![(1, Lent::Words(planes))]),
            Function::Rows => columns::table(self.numbers[0], self.numbers[1], self.words(0), self.words(1).len())
                .map(|table| vec![(1, Lent::Words(table))]),
            Function::Model => self.model().map(|model| vec![(1, Lent::Numbers(vec![model]))]),
            Function::Page => self.page(),
            Function::ReadPage => self.read_page(),
            Function::CheckProof => self.check_proof(),
            Function::Generate => match self.size().and_then(|size| self.room_for_gates(size, 0)) {
                Ok(size) => {
                    let words = circuits.words(size)?;
                    let count = words.len() as u64 / 3;
                    Ok(vec![(0, Lent::Words(words)), (1, Lent::Numbers(vec![count]))])
                }
                Err(number) => Err(number),
            },
            Function::Pack => self.pack(),
            Function::Evaluate => memory::evaluated(self.words(0), self.bytes(1), self.bytes(2).len())
                .map(|wires| vec![(2, Lent::Bytes(wires))]),
            Function::ReadBack => self.read_back(),
            Function::Repeat => match self.size().and_then(|size| self.rows_to_repeat(size)) {
                Ok((size, rows)) => self.repeat(size, &rows, circuits.words(size)?),
                Err(number) => Err(number),
            },
            Function::SolveWhole => match self.size().and_then(|size| self.rows_to_repeat(size)) {
                Ok((size, rows)) => self.solve_whole(size, &rows, circuits.words(size)?),
                Err(number) => Err(number),
            },
            Function::WriteLine => self.write_line(),
            Function::WriteLines => self.write_lines(),
            Function::ReadBudget => model::budget(self.bytes(0)).map(|budget| vec![(1, Lent::Numbers(vec![budget]))]),
            Function::Answer => self.answer(),
        })
    }

    /// The ceiling, the words for that many gates, the input wires and the state's wires.
    fn sizes(&self) -> Result<Writes, u8> {
        let size = self.size()?;
        let ceiling = size.ceiling();
        let numbers = [ceiling, 3 * ceiling, memory::input_wires(size), wires::state_width(size.n)];
        Ok(vec![(0, Lent::Numbers(numbers.map(|number| number as u64).to_vec()))])
    }

    /// The rows of three texts, n and the row counts; after the texts' refusals 4, then 6.
    fn read_tables(&self) -> Result<Writes, u8> {
        let left = model::read(self.bytes(0), model::STATION)?;
        let right = model::read(self.bytes(1), model::STATION)?;
        let public = model::read(self.bytes(2), model::PUBLIC)?;
        let tables = [&left, &right, &public];
        let words = tables.map(|table| memory::row_words(&table.rows));
        if (0..3).any(|k| self.words(3 + k).len() < words[k].len()) {
            return Err(4);
        }
        if tables.iter().any(|table| table.n != left.n) {
            return Err(6);
        }
        let sizes = [left.n, left.rows.len(), right.rows.len(), public.rows.len()];
        let [left, right, public] = words.map(Lent::Words);
        let sizes = Lent::Numbers(sizes.map(|number| number as u64).to_vec());
        Ok(vec![(3, left), (4, right), (5, public), (6, sizes)])
    }

    /// Who wins the game of a text, and the first variable's value.
    fn game(&self) -> Result<Writes, u8> {
        let game = game::read(self.bytes(0))?;
        Ok(vec![(1, Lent::Numbers(game::answer(&game).to_vec()))])
    }

    /// A row judged, its numbers cut to words; never refused.
    fn judge(&self) -> Result<Writes, u8> {
        let judged = memory::judged([0, 1, 2, 3].map(|k| self.numbers[k] as u32));
        Ok(vec![(0, Lent::Numbers(judged.to_vec()))])
    }

    /// The fresh run.
    fn fresh(&self) -> Result<Writes, u8> {
        let n = memory::variables(self.numbers[0])?;
        Ok(vec![(0, Lent::Run(memory::run_words(&Run::fresh(n))))])
    }

    /// The run after one giant step.
    fn step(&self) -> Result<Writes, u8> {
        let size = self.size()?;
        let rows = memory::accepted(size, self.tables())?;
        let mut run = memory::run_for(size.n, self.words(3))?;
        run.step(&rows);
        Ok(vec![(3, Lent::Run(memory::run_words(&run)))])
    }

    /// The run after one step with the weighted choice.
    fn step_weighted(&self) -> Result<Writes, u8> {
        let size = self.size()?;
        let rows = memory::accepted(size, self.tables())?;
        let mut run = memory::run_for(size.n, self.words(3))?;
        weighted::step(&mut run, &rows);
        Ok(vec![(3, Lent::Run(memory::run_words(&run)))])
    }

    /// Count, verdict and model of a budgeted run, which is the plain one or the weighted one.
    fn solve(&self, run: fn(usize, &[Row], u64) -> Answer) -> Result<Writes, u8> {
        let size = self.size()?;
        let rows = memory::accepted(size, self.tables())?;
        let answer = run(size.n, &rows, self.numbers[4]);
        Ok(vec![(3, answer_numbers(&answer))])
    }

    /// The run after steps, plain or weighted ones, through the one that closes it, at most a given number; how many, and whether it is
    /// closed: 12, 13.
    fn go_on(&self, steps: fn(&mut Run, &[Row], u64) -> u64) -> Result<Writes, u8> {
        let size = self.size()?;
        let rows = memory::accepted(size, self.tables())?;
        let mut run = memory::run_for(size.n, self.words(3))?;
        let steps = steps(&mut run, &rows, self.numbers[4]);
        let closed = u64::from(run.standing != model::Standing::Open);
        Ok(vec![(3, Lent::Run(memory::run_words(&run))), (4, Lent::Numbers(vec![steps, closed]))])
    }

    /// How many literals of each row are free under the run, a byte a row: 4, 3, 10, 12, 13.
    fn count_free(&self) -> Result<Writes, u8> {
        let size = self.size()?;
        let rows = memory::accepted(size, self.tables())?;
        if self.bytes(4).len() < rows.len() {
            return Err(10);
        }
        let run = memory::run_for(size.n, self.words(3))?;
        let counts = rows.iter().map(|row| run.free_literals(row) as u8).collect();
        Ok(vec![(4, Lent::Bytes(counts))])
    }

    /// For each literal the rows that hold it.
    fn index(&self) -> Result<Writes, u8> {
        let rows = memory::accepted(self.size()?, self.tables())?;
        Ok(vec![(3, Lent::Numbers(memory::index(&rows)))])
    }

    /// How many rows are not satisfied under the run.
    fn unsatisfied(&self) -> Result<Writes, u8> {
        let size = self.size()?;
        let rows = memory::accepted(size, self.tables())?;
        let run = memory::run_for(size.n, self.words(3))?;
        Ok(vec![(4, Lent::Numbers(vec![run.unsatisfied(&rows)]))])
    }

    /// The run of some n that index and number belong to, at these places: 12 where one of the three is not right.
    fn indexed_run(&self, rows: &[Row], [run, index, number]: [usize; 3]) -> Result<Run, u8> {
        let run = memory::run_of(self.words(run))?;
        if self.lent_numbers(index) != memory::index(rows) || self.lent_numbers(number) != [run.unsatisfied(rows)] {
            return Err(12);
        }
        Ok(run)
    }

    /// The run after one giant step, and its number: 12 where run, index or number is not right, then 13.
    fn step_indexed(&self) -> Result<Writes, u8> {
        let size = self.size()?;
        let rows = memory::accepted(size, self.tables())?;
        let mut run = self.indexed_run(&rows, [4, 3, 5])?;
        if run.values.len() != size.n {
            return Err(13);
        }
        run.step(&rows);
        let number = run.unsatisfied(&rows);
        Ok(vec![(4, Lent::Run(memory::run_words(&run))), (5, Lent::Numbers(vec![number]))])
    }

    /// The late condition of a call: after the size station, row, and the new row's words.
    fn condition(&self) -> Condition {
        let row = memory::row(self.numbers[6] as u32, self.numbers[7] as u32);
        Condition { station: self.numbers[4], number: self.numbers[5], row }
    }

    /// Both stations' tables after a late condition: 12, 13, 15, 16, 3.
    fn replace(&self) -> Result<Writes, u8> {
        let size = self.size()?;
        let rows = memory::accepted(size, self.tables())?;
        let run = memory::run_for(size.n, self.words(3))?;
        let rows = model::replaced(size, &rows, &run, &self.condition())?;
        Ok(stations(size, &rows))
    }

    /// The same with index and number, which are made again from all rows: 12 where run, index or number is not right.
    fn replace_indexed(&self) -> Result<Writes, u8> {
        let size = self.size()?;
        let rows = memory::accepted(size, self.tables())?;
        let run = self.indexed_run(&rows, [3, 4, 5])?;
        if run.values.len() != size.n {
            return Err(13);
        }
        let rows = model::replaced(size, &rows, &run, &self.condition())?;
        let number = run.unsatisfied(&rows);
        let mut writes = stations(size, &rows);
        writes.extend([(4, Lent::Numbers(memory::index(&rows))), (5, Lent::Numbers(vec![number]))]);
        Ok(writes)
    }

    /// The run after one giant step, and what the step tells.
    fn step_explained(&self) -> Result<Writes, u8> {
        let size = self.size()?;
        let rows = memory::accepted(size, self.tables())?;
        let run = memory::run_for(size.n, self.words(3))?;
        let mut after = run.clone();
        after.step(&rows);
        let told = run.told(&after, &rows).to_vec();
        Ok(vec![(3, Lent::Run(memory::run_words(&after))), (4, Lent::Numbers(told))])
    }

    /// The station and the place of a row's clause: 5 for an overlong text, the tables' 1, 2, 4 and 3, the left text's refusal, the right
    /// text's, 6, 17.
    fn clause_place(&self) -> Result<(usize, Range<usize>), u8> {
        let texts = [self.bytes(3), self.bytes(4)];
        if texts.iter().any(|text| text.len() > model::TEXT_LIMIT) {
            return Err(5);
        }
        let size = self.size()?;
        let rows = memory::accepted(size, self.tables())?;
        let left = model::read(texts[0], model::STATION)?;
        let right = model::read(texts[1], model::STATION)?;
        if left.n != right.n {
            return Err(6);
        }
        let number = self.numbers[4];
        let station = size.station(number).ok_or(17)? as usize;
        if [left.n, left.rows.len(), right.rows.len()] != [size.n, size.left, size.right] {
            return Err(17);
        }
        let place = number as usize - 1;
        let clause = model::clause_places(texts[station])[place - station * size.left].clone();
        let read = [left.rows, right.rows].concat();
        let same = memory::row_words(&rows[place..=place]) == memory::row_words(&read[place..=place]);
        Ok((station, if same { clause } else { 0..0 }))
    }

    /// Station, start and length of a row's clause.
    fn clause(&self) -> Result<Writes, u8> {
        let (station, clause) = self.clause_place()?;
        let numbers = [station, clause.start, clause.len()].map(|number| number as u64);
        Ok(vec![(5, Lent::Numbers(numbers.to_vec()))])
    }

    /// The bytes of a row's clause, and how many: 11 where fewer are lent.
    fn excerpt(&self) -> Result<Writes, u8> {
        let (station, clause) = self.clause_place()?;
        let bytes = self.bytes(3 + station)[clause].to_vec();
        if self.bytes(5).len() < bytes.len() {
            return Err(11);
        }
        let length = bytes.len() as u64;
        Ok(vec![(5, Lent::Bytes(bytes)), (6, Lent::Numbers(vec![length]))])
    }

    /// The model as a word; 12, 14.
    fn model(&self) -> Result<u64, u8> {
        let run = memory::run_of(self.words(0))?;
        if run.standing != model::Standing::Satisfied {
            return Err(14);
        }
        let truth = run.values.iter().enumerate().filter(|(_, &value)| value == Some(true));
        Ok(truth.fold(0, |word, (v, _)| word | 1 << v))
    }

    /// The page of the run's model: 12, 14, 25, 26.
    fn page(&self) -> Result<Writes, u8> {
        let model = self.model()?;
        let n = memory::run_of(self.words(0))?.values.len();
        let shape = watch_page::shape(n, [0, 1].map(|k| self.numbers[k]), self.bytes(1).len())?;
        Ok(vec![(1, Lent::Bytes(watch_page::page(shape, model)))])
    }

    /// The model on a page: 1, 25, 26, 27.
    fn read_page(&self) -> Result<Writes, u8> {
        let n = memory::variables(self.numbers[0])?;
        let shape = watch_page::shape(n, [1, 2].map(|k| self.numbers[k]), self.bytes(0).len())?;
        Ok(vec![(1, Lent::Numbers(vec![watch_page::read(shape, self.bytes(0))?]))])
    }

    /// Nothing is written: 4, 3, 18, 19, 20.
    fn check_proof(&self) -> Result<Writes, u8> {
        let size = self.size()?;
        let rows = memory::accepted(size, self.tables())?;
        proofs::check(size.n, &rows, self.bytes(3)).map(|()| vec![])
    }

    /// A size for whose circuit buffer k has room: 7.
    fn room_for_gates(&self, size: Size, k: usize) -> Result<Size, u8> {
        if self.words(k).len() < 3 * size.ceiling() {
            return Err(7);
        }
        Ok(size)
    }

    /// Rows and run, a byte a wire.
    fn pack(&self) -> Result<Writes, u8> {
        let packed = memory::packed(self.size()?, self.tables(), self.words(3), self.bytes(4).len())?;
        Ok(vec![(4, Lent::Bytes(packed))])
    }

    /// The run in the bytes: 1, 10, 12.
    fn read_back(&self) -> Result<Writes, u8> {
        let n = memory::variables(self.numbers[0])?;
        let run = memory::read_back(n, self.bytes(0))?;
        Ok(vec![(1, Lent::Run(memory::run_words(&run)))])
    }

    /// The rows on which a circuit is repeated: 4, 3, 7.
    fn rows_to_repeat(&self, size: Size) -> Result<(Size, Vec<Row>), u8> {
        let rows = memory::accepted(size, self.tables())?;
        Ok((self.room_for_gates(size, 3)?, rows))
    }

    /// The circuit, inputs and wires of the last repeat, the run after it by giant steps, how many repeats there were, and whether
    /// the run is closed: 10, 12, 13.
    fn repeat(&self, size: Size, rows: &[Row], gates: Vec<u32>) -> Result<Writes, u8> {
        let (inputs, room) = (memory::input_wires(size), self.bytes(5).len());
        if self.bytes(4).len() < inputs || room < inputs + gates.len() / 3 {
            return Err(10);
        }
        let mut run = memory::run_for(size.n, self.words(6))?;
        let (mut repeats, mut packed) = (0, None);
        while run.standing == model::Standing::Open && repeats < self.numbers[4] {
            packed = Some(memory::packed(size, self.tables(), &memory::run_words(&run), inputs)?);
            run.step(rows);
            repeats += 1;
        }
        let mark = u64::from(run.standing != model::Standing::Open);
        let mut writes = vec![(6, Lent::Run(memory::run_words(&run))), (7, Lent::Numbers(vec![repeats, mark]))];
        if let Some(packed) = packed {
            writes.push((5, Lent::Bytes(memory::evaluated(&gates, &packed, room)?)));
            writes.push((4, Lent::Bytes(packed)));
        }
        writes.push((3, Lent::Words(gates)));
        Ok(writes)
    }

    /// The circuit, zeros where bytes and wires were used, and the plain run's answer with the budget for its count: 23, 10.
    fn solve_whole(&self, size: Size, rows: &[Row], gates: Vec<u32>) -> Result<Writes, u8> {
        let (inputs, budget) = (memory::input_wires(size), self.numbers[4]);
        let wires = inputs + gates.len() / 3;
        if budget > model::WHOLE_BUDGET {
            return Err(23);
        }
        if self.bytes(4).len() < inputs || self.bytes(5).len() < wires {
            return Err(10);
        }
        let [bytes, wires] = [inputs, wires].map(|count| Lent::Bytes(vec![0; count]));
        let answer = answer_numbers(&model::run_whole(size.n, rows, budget));
        Ok(vec![(3, Lent::Words(gates)), (4, bytes), (5, wires), (6, answer)])
    }

    /// The size, the gates, and the line of the circuit's text that is asked for: 1, 2, 9.
    fn asked(&self) -> Result<(Size, Vec<Gate>, usize), u8> {
        let size = self.size()?;
        let gates = memory::gates(self.words(0), memory::input_wires(size))?;
        Ok((size, gates, usize::try_from(self.numbers[4]).unwrap_or(usize::MAX)))
    }

    /// A line, or nothing past the last, and its length; 11.
    fn write_line(&self) -> Result<Writes, u8> {
        let (size, gates, from) = self.asked()?;
        let line = memory::lines(size, &gates, from).next().unwrap_or_default().into_bytes();
        if self.bytes(1).len() < line.len() {
            return Err(11);
        }
        let length = line.len() as u64;
        Ok(vec![(1, Lent::Bytes(line)), (2, Lent::Numbers(vec![length]))])
    }

    /// As many lines as fit, how many and how long; 11 where none fits.
    fn write_lines(&self) -> Result<Writes, u8> {
        let (size, gates, from) = self.asked()?;
        let room = self.bytes(1).len();
        let (mut text, mut count) = (vec![], 0);
        for line in memory::lines(size, &gates, from) {
            if text.len() + line.len() > room {
                if count == 0 {
                    return Err(11);
                }
                break;
            }
            text.extend(line.bytes());
            count += 1;
        }
        let numbers = vec![count, text.len() as u64];
        Ok(vec![(1, Lent::Bytes(text)), (2, Lent::Numbers(numbers))])
    }

    /// The composed answer and its length: 1.
    fn answer(&self) -> Result<Writes, u8> {
        let n = memory::variables(self.numbers[0])?;
        let text = memory::answer(n, self.numbers[1], self.numbers[2], self.numbers[3]);
        let length = text.len() as u64;
        Ok(vec![(0, Lent::Text(text)), (1, Lent::Numbers(vec![length]))])
    }
}
