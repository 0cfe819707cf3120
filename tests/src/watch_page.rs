//! The watch page, from document 02 alone: "One line a pilot: the number right-aligned in 3 columns, then for each watch a space and `#` for
//! true or `.` for false, spaces up to column 79, and a line feed."

use crate::random::Random;

/// Bytes of a line.
pub const LINE: usize = 80;

/// The numbers of pilots and watches: 25 where their product, that of numbers, is not n; 26 where fewer bytes are lent than they need.
pub fn shape(n: usize, [pilots, watches]: [u64; 2], room: usize) -> Result<[usize; 2], u8> {
    let wide = u128::from;
    if wide(pilots) * wide(watches) != n as u128 {
        return Err(25);
    }
    if (room as u128) < LINE as u128 * wide(pilots) {
        return Err(26);
    }
    Ok([pilots as usize, watches as usize])
}

/// Every two numbers whose product is n.
pub fn shapes(n: usize) -> Vec<[u64; 2]> {
    (1..=n).filter(|pilots| n % pilots == 0).map(|pilots| [pilots, n / pilots].map(|number| number as u64)).collect()
}

/// The page of a model: a bit for each of n variables, those of a pilot in a row.
pub fn page([pilots, watches]: [usize; 2], model: u64) -> Vec<u8> {
    let mut text = String::new();
    for i in 1..=pilots {
        let mut line = format!("{i:>3}");
        for j in 1..=watches {
            let variable = (i - 1) * watches + j;
            line += if model >> (variable - 1) & 1 == 1 { " #" } else { " ." };
        }
        text += &format!("{line:<79}\n");
    }
    text.into_bytes()
}

/// The model on a page, part by part of each line: 27 where its front is no page of this form.
pub fn read([pilots, watches]: [usize; 2], bytes: &[u8]) -> Result<u64, u8> {
    let mut model = 0;
    for (i, line) in bytes[..LINE * pilots].chunks(LINE).enumerate() {
        let (number, rest) = line.split_at(3);
        let (marks, filling) = rest.split_at(2 * watches);
        let (end, spaces) = filling.split_last().ok_or(27)?;
        if number != format!("{:3}", i + 1).as_bytes() || spaces.iter().any(|&byte| byte != b' ') || *end != b'\n' {
            return Err(27);
        }
        for (j, mark) in marks.chunks(2).enumerate() {
            match mark {
                b" #" => model |= 1 << (i * watches + j),
                b" ." => (),
                _ => return Err(27),
            }
        }
    }
    Ok(model)
}

/// Two numbers, mostly above 32, whose product is n where it is cut to a machine word.
pub fn wrapped(n: usize, random: &mut Random) -> [u64; 2] {
    let first = random.number() | 1;
    // each turn doubles the digits in which it is the inverse
    let inverse = (0..6).fold(first, |x: u64, _| x.wrapping_mul(2u64.wrapping_sub(first.wrapping_mul(x))));
    [first, inverse.wrapping_mul(n as u64)]
}
