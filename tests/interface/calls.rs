//! Calls of the library as data: the function, its numbers and the memory that it is lent; and how one is made.

use crate::library::*;
use crate::steps;
use forkhemit_tests::model::Size;
use std::fmt;

// What `build.rs` writes from the header: the functions by name, and how numbers and buffers are handed to each.
include!(concat!(env!("OUT_DIR"), "/passed.rs"));

/// Where an array of the header's length begins.
fn array<T, const N: usize>((pointer, length): (*mut u8, usize)) -> *mut [T; N] {
    assert_eq!(length, N, "a call lends an array of another length");
    pointer.cast()
}

/// A row judged against T and F: what is returned, and the four numbers. Many rows are judged, so nothing is put on the heap.
pub fn judge([positive, negative, t, f]: [u32; 4]) -> (u8, [u64; 4]) {
    let mut judged = [7; 4];
    // The four numbers are lent for the call.
    let number = unsafe { forkhemit_judge(positive, negative, t, f, &mut judged) };
    (number, judged)
}

/// A lent buffer: of any length, or an array, whose length the header says.
#[derive(Clone, PartialEq)]
pub enum Lent {
    Bytes(Vec<u8>),
    Words(Vec<u32>),
    /// An answer's 256 bytes.
    Text(Vec<u8>),
    /// A run's 101 words.
    Run(Vec<u32>),
    Numbers(Vec<u64>),
}

impl fmt::Debug for Lent {
    fn fmt(&self, f: &mut fmt::Formatter) -> fmt::Result {
        match self {
            Lent::Bytes(bytes) if bytes.iter().all(|&byte| byte < 2) => write!(f, "{} bytes {bytes:?}", bytes.len()),
            Lent::Bytes(bytes) | Lent::Text(bytes) => write!(f, "{} bytes b\"{}\"", bytes.len(), bytes.escape_ascii()),
            Lent::Words(words) | Lent::Run(words) => write!(f, "{} words {words:?}", words.len()),
            Lent::Numbers(numbers) => write!(f, "{} numbers {numbers:?}", numbers.len()),
        }
    }
}

impl Lent {
    /// The buffer's bytes.
    pub fn bytes(&self) -> &[u8] {
        match self {
            Lent::Bytes(bytes) | Lent::Text(bytes) => bytes,
            _ => panic!("the buffer holds no bytes"),
        }
    }

    /// The buffer's words.
    pub fn words(&self) -> &[u32] {
        match self {
            Lent::Words(words) | Lent::Run(words) => words,
            _ => panic!("the buffer holds no words"),
        }
    }

    /// The buffer's numbers.
    pub fn numbers(&self) -> &[u64] {
        match self {
            Lent::Numbers(numbers) => numbers,
            _ => panic!("the buffer holds no numbers"),
        }
    }

    /// How many elements it has.
    fn len(&self) -> usize {
        match self {
            Lent::Bytes(bytes) | Lent::Text(bytes) => bytes.len(),
            Lent::Words(words) | Lent::Run(words) => words.len(),
            Lent::Numbers(numbers) => numbers.len(),
        }
    }
}

/// A size as a call takes it.
pub fn numbers(Size { n, left, right, public }: Size) -> Vec<u64> {
    [n, left, right, public].map(|number| number as u64).to_vec()
}

/// A call: its numbers and its buffers, each in the order of the header.
#[derive(Clone, Debug)]
pub struct Call {
    pub function: Function,
    pub numbers: Vec<u64>,
    pub lent: Vec<Lent>,
}

/// What a call gave: 0 or the refusal's number, and every lent buffer afterwards.
#[derive(Debug, PartialEq)]
pub struct Given {
    pub number: u8,
    pub lent: Vec<Lent>,
}

/// A buffer on the heap, in an allocation of its own: exactly as long, so that a memory checker sees the first byte read or
/// written beside it; or between guards, which are compared afterwards.
struct Held<T> {
    memory: Box<[T]>,
    guard: usize,
}

impl<T: Copy + PartialEq> Held<T> {
    /// The data, with guards before and after it.
    fn new(data: &[T], guard: usize, sign: T) -> Held<T> {
        let guards = vec![sign; guard];
        Held { memory: [&guards, data, &guards].concat().into_boxed_slice(), guard }
    }

    /// Where the buffer begins.
    fn pointer(&mut self) -> *mut T {
        self.memory[self.guard..].as_mut_ptr()
    }

    /// The data, if the guards are whole.
    fn back(self, sign: T) -> Result<Vec<T>, String> {
        let end = self.memory.len() - self.guard;
        let guards = self.memory[..self.guard].iter().chain(&self.memory[end..]);
        match guards.into_iter().all(|&guard| guard == sign) {
            true => Ok(self.memory[self.guard..end].to_vec()),
            false => Err("the bytes beside a buffer are changed".into()),
        }
    }
}

const SIGN: u8 = 0xa5;

enum Room {
    Bytes(Held<u8>),
    Words(Held<u32>),
    Text(Held<u8>),
    Run(Held<u32>),
    Numbers(Held<u64>),
}

impl Room {
    /// Memory that holds the buffer's data.
    fn new(lent: &Lent, guard: usize) -> Room {
        match lent {
            Lent::Bytes(bytes) => Room::Bytes(Held::new(bytes, guard, SIGN)),
            Lent::Words(words) => Room::Words(Held::new(words, guard, u32::from(SIGN))),
            Lent::Text(bytes) => Room::Text(Held::new(bytes, guard, SIGN)),
            Lent::Run(words) => Room::Run(Held::new(words, guard, u32::from(SIGN))),
            Lent::Numbers(numbers) => Room::Numbers(Held::new(numbers, guard, u64::from(SIGN))),
        }
    }

    /// Where the buffer begins.
    fn pointer(&mut self) -> *mut u8 {
        match self {
            Room::Bytes(held) | Room::Text(held) => held.pointer(),
            Room::Words(held) | Room::Run(held) => held.pointer().cast(),
            Room::Numbers(held) => held.pointer().cast(),
        }
    }

    /// The data afterwards, if the guards are whole.
    fn back(self) -> Result<Lent, String> {
        Ok(match self {
            Room::Bytes(held) => Lent::Bytes(held.back(SIGN)?),
            Room::Words(held) => Lent::Words(held.back(u32::from(SIGN))?),
            Room::Text(held) => Lent::Text(held.back(SIGN)?),
            Room::Run(held) => Lent::Run(held.back(u32::from(SIGN))?),
            Room::Numbers(held) => Lent::Numbers(held.back(u64::from(SIGN))?),
        })
    }
}

impl Call {
    /// Makes the call, each buffer between guards of the given number of elements or, with 0, in an allocation of its length.
    pub fn make(&self, guard: usize) -> Result<Given, String> {
        let mut rooms: Vec<Room> = self.lent.iter().map(|lent| Room::new(lent, guard)).collect();
        let lent: Vec<_> = rooms.iter_mut().zip(&self.lent).map(|(room, lent)| (room.pointer(), lent.len())).collect();
        // Each pointer is that of a buffer of this length, which lives until the call is over.
        let number = unsafe { passed(self.function, &self.numbers, &lent) };
        let given = Given { number, lent: rooms.into_iter().map(Room::back).collect::<Result<_, _>>()? };
        steps::bounded(self, &given)?;
        Ok(given)
    }
}
