//! The circuits of folder netlists, which another program built: of two sizes the gates' lines, of more a hash of them.

use crate::model::Size;
use std::fs;
use std::path::Path;

/// A size, how many gates its circuit has, the hash of their lines, and for small ones the lines.
pub struct Known {
    pub size: Size,
    gates: usize,
    hash: u64,
    lines: Option<Vec<u8>>,
}

/// FNV-1a of 64 bits.
fn hash(bytes: &[u8]) -> u64 {
    bytes.iter().fold(0xcbf2_9ce4_8422_2325, |hash, &byte| (hash ^ u64::from(byte)).wrapping_mul(0x0100_0000_01b3))
}

/// The circuits of the list; `own` is the folder of the tests.
pub fn known(own: &Path) -> std::io::Result<Vec<Known>> {
    let folder = own.join("netlists");
    let fault = |line: &str| std::io::Error::new(std::io::ErrorKind::InvalidData, format!("{line:?} is no circuit"));
    let list = fs::read_to_string(folder.join("hashes.txt"))?;
    let read = |line: &str| {
        let words: Vec<&str> = line.split(' ').collect();
        let numbers: Vec<usize> = words.iter().filter_map(|word| word.parse().ok()).collect();
        match (&numbers[..], words.last().and_then(|hash| u64::from_str_radix(hash, 16).ok())) {
            (&[n, m, gates, ..], Some(hash)) if words.len() == 4 => Ok(Known {
                size: Size::split(n, m),
                gates,
                hash,
                lines: fs::read(folder.join(format!("{n}-{m}.txt"))).ok(),
            }),
            _ => Err(fault(line)),
        }
    };
    list.lines().filter(|line| !line.starts_with('#')).map(read).collect()
}

impl Known {
    /// Where the lines of a circuit's gates are others than these.
    pub fn unlike(&self, lines: &[u8]) -> Option<String> {
        let gates = lines.iter().filter(|&&byte| byte == b'\n').count();
        let same = gates == self.gates && hash(lines) == self.hash && self.lines.iter().all(|known| known == lines);
        (!same).then(|| format!("{:?}: {gates} gates, and they are not those of folder netlists", self.size))
    }
}
