//! A circuit's text in Bristol Fashion, read strictly as document 01 describes it, and what its circuit makes of inputs.

use crate::counts::Counts;
use crate::report::Tally;

#[derive(Clone, Copy, Debug, PartialEq)]
pub enum Gate {
    Xor(usize, usize),
    And(usize, usize),
    Inv(usize),
}

/// The widths of the input and output values, and the gates. Gate g drives wire inputs + g.
#[derive(Debug)]
pub struct Circuit {
    pub inputs: Vec<usize>,
    pub outputs: Vec<usize>,
    pub gates: Vec<Gate>,
}

/// A decimal number without leading zeros.
fn number(word: &str) -> Result<usize, String> {
    let digits = !word.is_empty() && word.bytes().all(|b| b.is_ascii_digit());
    if !digits || (word.starts_with('0') && word != "0") || word.len() > 9 {
        return Err(format!("{word:?} is no number"));
    }
    word.parse().map_err(|_| format!("{word:?} is no number"))
}

/// A count, then as many widths as it says.
fn widths(line: &str) -> Result<Vec<usize>, String> {
    let numbers: Vec<usize> = line.split(' ').map(number).collect::<Result<_, _>>()?;
    match numbers.split_first() {
        Some((&count, widths)) if count == widths.len() => Ok(widths.to_vec()),
        _ => Err(format!("{line:?} is no count with its widths")),
    }
}

/// The gate that a line gives to this wire.
fn gate(line: &str, wire: usize) -> Result<Gate, String> {
    let earlier = |word: &str| match number(word)? {
        operand if operand < wire => Ok(operand),
        operand => Err(format!("wire {operand} is not earlier than {wire}")),
    };
    let driven = |word: &str| match number(word)? {
        output if output == wire => Ok(()),
        output => Err(format!("wire {output} is driven in the place of {wire}")),
    };
    let (mut words, mut count) = ([""; 7], 0);
    for word in line.split(' ').take(words.len()) {
        words[count] = word;
        count += 1;
    }
    match words[..count] {
        ["2", "1", first, second, output, kind @ ("XOR" | "AND")] => {
            driven(output)?;
            let (first, second) = (earlier(first)?, earlier(second)?);
            Ok(if kind == "XOR" { Gate::Xor(first, second) } else { Gate::And(first, second) })
        }
        ["1", "1", operand, output, "INV"] => {
            driven(output)?;
            Ok(Gate::Inv(earlier(operand)?))
        }
        _ => Err(format!("{line:?} is no gate")),
    }
}

/// The circuit of a text, or the first thing that is wrong with the text.
pub fn read(text: &[u8]) -> Result<Circuit, String> {
    let text = std::str::from_utf8(text).map_err(|error| error.to_string())?;
    let whole = text.strip_suffix('\n').ok_or("the last line has no LF")?;
    let lines: Vec<&str> = whole.split('\n').collect();
    if lines.len() < 4 {
        return Err("a header line is missing".into());
    }
    let sizes: Vec<usize> = lines[0].split(' ').map(number).collect::<Result<_, _>>()?;
    let (inputs, outputs) = (widths(lines[1])?, widths(lines[2])?);
    let width: usize = inputs.iter().sum();
    let count = lines.len() - 4;
    if sizes != [count, width + count] {
        return Err(format!("{:?} above {width} input wires and {count} gates", lines[0]));
    }
    if !lines[3].is_empty() {
        return Err(format!("{:?} in the place of the blank line", lines[3]));
    }
    if outputs.iter().sum::<usize>() > width + count {
        return Err("more outputs than wires".into());
    }
    let gates = lines[4..].iter().enumerate().map(|(g, line)| gate(line, width + g)).collect::<Result<_, _>>()?;
    Ok(Circuit { inputs, outputs, gates })
}

impl Circuit {
    /// How many of the gates are AND.
    fn ands(&self) -> usize {
        self.gates.iter().filter(|gate| matches!(gate, Gate::And(..))).count()
    }

    /// How many AND gates come one after the other at most.
    pub fn depth(&self) -> usize {
        let mut depths = vec![0; self.inputs.iter().sum()];
        for gate in &self.gates {
            depths.push(match *gate {
                Gate::Xor(first, second) => depths[first].max(depths[second]),
                Gate::And(first, second) => depths[first].max(depths[second]) + 1,
                Gate::Inv(operand) => depths[operand],
            });
        }
        depths.into_iter().max().unwrap_or(0)
    }

    /// What a back end pays for.
    pub fn counts(&self) -> Counts {
        Counts { gates: self.gates.len(), ands: self.ands(), depth: self.depth() }
    }

    /// The output wires for each of these inputs. Sixty-four are worked out together, one in each bit of a word.
    pub fn evaluate(&self, inputs: &[Vec<bool>]) -> Vec<Vec<bool>> {
        let width: usize = self.outputs.iter().sum();
        let mut results = vec![];
        for part in inputs.chunks(64) {
            let wire = |w: usize| part.iter().enumerate().fold(0, |word, (k, input)| word | u64::from(input[w]) << k);
            let mut wires: Vec<u64> = (0..self.inputs.iter().sum()).map(wire).collect();
            for gate in &self.gates {
                wires.push(match *gate {
                    Gate::Xor(first, second) => wires[first] ^ wires[second],
                    Gate::And(first, second) => wires[first] & wires[second],
                    Gate::Inv(operand) => !wires[operand],
                });
            }
            let last = &wires[wires.len() - width..];
            results.extend((0..part.len()).map(|k| last.iter().map(|word| word >> k & 1 == 1).collect::<Vec<bool>>()));
        }
        results
    }
}

/// A text as it should be: two values of one wire; their XOR, their AND and the first one's opposite.
const SAMPLE: &str = "3 5\n2 1 1\n1 3\n\n2 1 0 1 2 XOR\n2 1 0 1 3 AND\n1 1 0 4 INV\n";

/// What is put in the place of a part of it, none being allowed.
#[rustfmt::skip]
const DAMAGES: &[(&str, &str)] = &[
    ("3 5\n", "4 5\n"), ("3 5\n", "3 6\n"), ("3 5\n", "2 5\n"), ("3 5\n", "3 5 \n"), ("3 5\n", " 3 5\n"), ("3 5\n", "3  5\n"), ("3 5\n", "3\t5\n"),
    ("3 5\n", "03 5\n"), ("3 5\n", "+3 5\n"), ("3 5\n", "3\n"), ("3 5\n", "3 5 0\n"), ("3 5\n", "3 5\r\n"), ("3 5\n", "\n3 5\n"), ("3 5\n", ""),
    ("2 1 1\n", "1 2 1\n"), ("2 1 1\n", "3 1 1\n"), ("2 1 1\n", "2 1 2\n"), ("2 1 1\n", "2 1 01\n"), ("2 1 1\n", "2 1 1 \n"), ("2 1 1\n", "\n"),
    ("1 3\n", "2 3\n"), ("1 3\n", "1 6\n"), ("1 3\n", "1 3 \n"), ("1 3\n", ""), ("\n\n", "\n"), ("\n\n", "\n\n\n"), ("\n\n", "\n \n"),
    ("0 1 2 XOR", "0 1 3 XOR"), ("0 1 2 XOR", "0 2 2 XOR"), ("0 1 2 XOR", "3 1 2 XOR"), ("0 1 2 XOR", "0 1 2 xor"), ("0 1 2 XOR", "0 1 2 OR"),
    ("0 1 2 XOR", "0 1 2 XOR "), ("0 1 2 XOR", "0  1 2 XOR"), ("0 1 2 XOR", "0 01 2 XOR"), ("0 1 2 XOR", "0 1 2 INV"), ("0 1 2 XOR", "0 -0 2 XOR"),
    ("2 1 0 1 2", "1 1 0 1 2"), ("2 1 0 1 2", "2 2 0 1 2"), ("2 1 0 1 2", "2 1 0 2"), ("2 1 0 1 2", "0 1 2"), ("AND\n", "AND\n\n"), ("AND\n", "AND\r\n"),
    ("1 1 0 4", "2 1 0 4"), ("1 1 0 4", "1 1 0 0 4"), ("1 1 0 4", "1 1 4 4"), ("1 1 0 4", "1 1 0 3"), ("INV\n", "INV"), ("INV\n", "INV\n\n"), ("INV\n", "INV \n"),
    ("INV\n", "INV\n1 1 0 5 INV\n"), ("INV\n", "INV\n0\n"), ("INV\n", "NOT\n"), ("INV\n", "INV\n\0"), ("2 1 0 1 3 AND\n", ""), ("0 1 3", "18446744073709551616 1 3"),
];

/// Holds the reader to the sample and to what it must refuse.
pub fn run() -> Tally {
    let mut tally = Tally::default();
    let inputs: Vec<Vec<bool>> = (0..4).map(|k| vec![k & 2 != 0, k & 1 != 0]).collect();
    let expected: Vec<Vec<bool>> = inputs.iter().map(|i| vec![i[0] != i[1], i[0] && i[1], !i[0]]).collect();
    let counts = Counts { gates: 3, ands: 1, depth: 1 };
    let is = |circuit: Circuit| circuit.evaluate(&inputs) == expected && circuit.counts() == counts;
    let right = read(SAMPLE.as_bytes()).map_or(false, is);
    tally.count(right);
    if !right {
        println!("FAILED the sample of a circuit text");
    }
    for (part, damage) in DAMAGES {
        let refused = read(SAMPLE.replacen(part, damage, 1).as_bytes()).is_err();
        tally.count(refused);
        if !refused {
            println!("FAILED: a text with {damage:?} for {part:?} is read");
        }
    }
    println!("the reader of circuit texts: {} passed, {} failed", tally.passed, tally.failed);
    tally
}
