//! How many gates the circuit of n variables and m rows has, how many of them are AND, and how many AND gates come one after the other at
//! most: the laws, and those of the circuit of the earlier rule 3, which the benchmark prints beside them.

/// Gates, AND gates among them, and the AND depth.
#[derive(Clone, Copy, Debug, PartialEq)]
pub struct Counts {
    pub gates: usize,
    pub ands: usize,
    pub depth: usize,
}

/// How many binary digits a number has; 0 has none.
pub fn digits(number: usize) -> usize {
    (usize::BITS - number.leading_zeros()) as usize
}

/// The sum, over the binary digits d of n − 1, of n − 1 divided by 2^d.
pub fn halvings(n: usize) -> usize {
    (0..digits(n - 1)).map(|d| (n - 1) >> d).sum()
}

/// The circuit's counts, for n from 1 and m from 2 on.
pub fn now(n: usize, m: usize) -> Counts {
    let (b, levels) = (digits(n - 1), digits(m - 1));
    let key = b + 3;
    let rows = m * (12 * n + 2) + m * (6 * n + 2) + 5 * m + m * (b + halvings(n)) + m * key;
    let tree = m * (1 + 8 * key) + 2 * key;
    let changes = 3 * n + 4 * n + (3 * n + 4) + 3 * n * (3 * n + 1) + 10 * n + (n + 1);
    let gates = 1 + rows + tree + 13 + (2 * (1 << b) - 1) + changes + (3 * n * n + 3 * n + 4);
    let ands = 5 * m * n + 3 * n * n + (2 * m - 2 + m % 2) * key + 2 * m + 7 * n + (1 << b) + 4;
    let depth = 2 * n + (b + 4) * (levels - 1) + b + b.max(3) + 7 + usize::from(n == 1);
    Counts { gates, ands, depth }
}

/// The counts of the circuit that took the lowest unit row.
pub fn before(n: usize, m: usize) -> Counts {
    let gates = 19 * m * n + 15 * n * n + 23 * m + 27 * n + 31;
    Counts { gates, ands: 8 * m * n + 6 * n * n + 7 * m + 7 * n + 5, depth: 2 * n + 2 * m + 7 }
}
