//! The circuit's sections as docs/pictures/circuit.txt lists them, with their numbers of gates.

use crate::counts;
use crate::pictures::Node;

pub const SOURCE: &str = "docs/pictures/circuit.txt";

/// What a letter of a count means, with n variables and m rows: b binary digits of n − 1, s the sum of n − 1 divided by 2^d over them, h
/// pairs of rows.
fn value(letter: char, n: usize, m: usize) -> Option<i64> {
    let value = match letter {
        'n' => n,
        'm' => m,
        'b' => counts::digits(n - 1),
        's' => counts::halvings(n),
        'h' => m / 2,
        _ => return None,
    };
    Some(value as i64)
}

/// A count by n and m, as `m(12n + 2)`, `2·2^b − 1` or `9n² + 3n`: sums and differences of products.
#[derive(Clone, Debug)]
pub struct Count(String);

impl Count {
    /// A text that is a count.
    fn read(text: &str) -> Result<Count, String> {
        let count = Count(text.into());
        count.worked_out(1, 2).ok_or_else(|| format!("{text:?} is no count"))?;
        Ok(count)
    }

    /// The number, where the text is a count to its end.
    fn worked_out(&self, n: usize, m: usize) -> Option<i64> {
        let signs: Vec<char> = self.0.chars().filter(|&sign| sign != ' ').collect();
        let (number, rest) = sum(&signs, n, m)?;
        rest.is_empty().then_some(number)
    }

    /// The count for n variables and m rows.
    pub fn of(&self, n: usize, m: usize) -> usize {
        self.worked_out(n, m).and_then(|number| usize::try_from(number).ok()).expect("a count is not negative")
    }
}

/// A sum or difference of products in front, and what follows it.
fn sum(signs: &[char], n: usize, m: usize) -> Option<(i64, &[char])> {
    let (mut total, mut rest) = product(signs, n, m)?;
    while let [sign @ ('+' | '−'), behind @ ..] = rest {
        let (next, after) = product(behind, n, m)?;
        total += if *sign == '+' { next } else { -next };
        rest = after;
    }
    Some((total, rest))
}

/// A product in front: factors one after the other, with or without a point between them.
fn product(signs: &[char], n: usize, m: usize) -> Option<(i64, &[char])> {
    let (mut total, mut rest) = power(signs, n, m)?;
    loop {
        rest = match rest {
            ['·', behind @ ..] => behind,
            [] | ['+' | '−' | ')', ..] => return Some((total, rest)),
            _ => rest,
        };
        let (next, after) = power(rest, n, m)?;
        total *= next;
        rest = after;
    }
}

/// A factor in front, squared where a ² follows it, or to the power of a letter.
fn power(signs: &[char], n: usize, m: usize) -> Option<(i64, &[char])> {
    let (number, rest) = factor(signs, n, m)?;
    match rest {
        ['²', behind @ ..] => Some((number * number, behind)),
        ['^', letter, behind @ ..] => Some((number.pow(value(*letter, n, m)? as u32), behind)),
        _ => Some((number, rest)),
    }
}

/// A number, a letter, or a sum in brackets in front.
fn factor(signs: &[char], n: usize, m: usize) -> Option<(i64, &[char])> {
    match signs {
        ['(', behind @ ..] => match sum(behind, n, m)? {
            (number, [')', after @ ..]) => Some((number, after)),
            _ => None,
        },
        [digit, ..] if digit.is_ascii_digit() => {
            let end = signs.iter().position(|sign| !sign.is_ascii_digit()).unwrap_or(signs.len());
            Some((signs[..end].iter().collect::<String>().parse().ok()?, &signs[end..]))
        }
        [letter, behind @ ..] => Some((value(*letter, n, m)?, behind)),
        [] => None,
    }
}

/// A section: what it gives, its gates and the AND gates among them, and what it reads of the inputs and of other sections.
pub struct Section {
    pub name: String,
    pub gives: String,
    pub gates: Count,
    pub ands: Count,
    pub inputs: String,
    pub reads: Vec<String>,
}

/// The sections of the list.
pub fn read(text: &str) -> Result<Vec<Section>, String> {
    let section = |line: &str| match line.split('|').map(str::trim).collect::<Vec<&str>>()[..] {
        [name, gives, gates, ands, inputs, reads] => Ok(Section {
            name: name.into(),
            gives: gives.into(),
            gates: Count::read(gates)?,
            ands: Count::read(ands)?,
            inputs: inputs.into(),
            reads: reads.split_whitespace().map(String::from).collect(),
        }),
        _ => Err(format!("{line:?} is no section")),
    };
    text.lines().filter(|line| !line.is_empty() && !line.starts_with('#')).map(section).collect()
}

/// The gates and the AND gates of all sections.
pub fn totals(sections: &[Section], n: usize, m: usize) -> (usize, usize) {
    sections.iter().fold((0, 0), |sum, section| (sum.0 + section.gates.of(n, m), sum.1 + section.ands.of(n, m)))
}

const FILL: &str = "#e3edf9";

/// The sections as boxes.
pub fn nodes(sections: &[Section]) -> Vec<Node> {
    let node = |section: &Section| {
        let mut lines = vec![section.gives.clone()];
        if !section.inputs.is_empty() {
            lines.push(format!("from the inputs: {}", section.inputs));
        }
        lines.push(format!("{} gates, {} AND", section.gates.0, section.ands.0));
        Node { name: section.name.clone(), lines, fill: FILL, uses: section.reads.clone() }
    };
    sections.iter().map(node).collect()
}

/// Where the sections' gates do not come to what the laws say, for the numbers of variables and rows that there may be.
pub fn unlike_laws(sections: &[Section]) -> Option<String> {
    let sizes = (1..=32).flat_map(|n| (2..=384).map(move |m| (n, m)));
    let law = |(n, m)| {
        let counts = counts::now(n, m);
        (counts.gates, counts.ands)
    };
    let unlike = sizes.into_iter().find(|&(n, m)| totals(sections, n, m) != law((n, m)));
    unlike.map(|(n, m)| {
        format!("n = {n}, m = {m}: {:?} gates and AND gates, and not {:?}", totals(sections, n, m), law((n, m)))
    })
}
