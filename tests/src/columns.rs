//! A table by columns, as document 02 has it, literal by literal and for the tests only: which bit of the planes is which literal, and when
//! a table or planes are refused.

/// How many squares a number of rows takes: 32 rows each.
pub fn squares(rows: usize) -> usize {
    (rows + 31) / 32
}

/// Where a literal is in the planes: its word, and its bit there. Rows and variables are counted from 0.
fn place(row: usize, negative: bool, variable: usize) -> (usize, usize) {
    let (square, plane) = (row / 32, usize::from(negative));
    (64 * square + 32 * plane + variable, row % 32)
}

/// The row count, where n, the count and the buffers' lengths are taken; else 1, 2 or 4.
fn counted(n: u64, rows: u64, table: usize, planes: usize) -> Result<usize, u8> {
    if !(1..=32).contains(&n) {
        return Err(1);
    }
    if rows > 128 {
        return Err(2);
    }
    let rows = rows as usize;
    if table < 2 * rows || planes < 64 * squares(rows) {
        return Err(4);
    }
    Ok(rows)
}

/// The planes of a table, or the number of the refusal: 1, 2, 4, 3. `lent` words are there for them.
pub fn planes(n: u64, rows: u64, table: &[u32], lent: usize) -> Result<Vec<u32>, u8> {
    let rows = counted(n, rows, table.len(), lent)?;
    let mut planes = vec![0; 64 * squares(rows)];
    for (k, word) in table[..2 * rows].iter().enumerate() {
        for variable in (0..32).filter(|v| word >> v & 1 == 1) {
            if variable as u64 >= n {
                return Err(3);
            }
            let (at, bit) = place(k / 2, k % 2 == 1, variable);
            planes[at] |= 1 << bit;
        }
    }
    Ok(planes)
}

/// The table of planes, or the number of the refusal: 1, 2, 4, 24. `lent` words are there for it.
pub fn table(n: u64, rows: u64, planes: &[u32], lent: usize) -> Result<Vec<u32>, u8> {
    let rows = counted(n, rows, lent, planes.len())?;
    let mut left: Vec<u32> = planes[..64 * squares(rows)].to_vec();
    let mut table = vec![0; 2 * rows];
    for (row, variable) in (0..rows).flat_map(|row| (0..n as usize).map(move |variable| (row, variable))) {
        for negative in [false, true] {
            let (at, bit) = place(row, negative, variable);
            if left[at] >> bit & 1 == 1 {
                left[at] ^= 1 << bit;
                table[2 * row + usize::from(negative)] |= 1 << variable;
            }
        }
    }
    // bits of no literal of the table
    if left.iter().any(|&word| word != 0) {
        return Err(24);
    }
    Ok(table)
}
