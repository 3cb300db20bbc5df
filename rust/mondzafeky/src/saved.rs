//! The saved form of a hall: table, nodes, answers and clients memory one after another, each at its least length, every number as four bytes,
//! the lowest first; 28,400 numbers, 113,600 bytes, and nothing else. The tray is not saved. C saves the same. [`crate::Hall::to_bytes`] and
//! [`crate::Hall::from_bytes`] are what a program wants; the functions here also take what is too short or too long, as far as it goes. Leans on
//! the least lengths in lib.
use crate::{Memories, ANSWERS_LEAST, CLIENTS_LEAST, NODES_LEAST, TABLE_LEAST};
use std::error::Error;
use std::fmt;

/// How many numbers a saved hall has.
pub const NUMBERS: usize = TABLE_LEAST + NODES_LEAST + ANSWERS_LEAST + CLIENTS_LEAST;
/// How many bytes a saved hall has.
pub const BYTES: usize = 4 * NUMBERS;

/// Bytes of another length than a saved hall's.
#[derive(Clone, Copy, Debug, PartialEq, Eq)]
pub struct WrongLength {
    /// How many bytes there are.
    pub found: usize,
}

impl fmt::Display for WrongLength {
    fn fmt(&self, f: &mut fmt::Formatter<'_>) -> fmt::Result {
        write!(f, "a saved hall has {BYTES} bytes ({NUMBERS} numbers of 4); here are {}", self.found)
    }
}

impl Error for WrongLength {}

/// The numbers that these bytes are; up to three bytes at the end that make no number are left out.
#[must_use]
pub fn numbers_of(bytes: &[u8]) -> Vec<u32> {
    bytes.chunks_exact(4).map(|four| u32::from_le_bytes([four[0], four[1], four[2], four[3]])).collect()
}

/// The bytes of these numbers.
#[must_use]
pub fn bytes_of(numbers: &[u32]) -> Vec<u8> {
    numbers.iter().flat_map(|number| number.to_le_bytes()).collect()
}

/// The four memories in a hall's numbers. Where there are too few, the memories in which they end and those behind are short, and every call on
/// them gives 1; what is too many is left out.
#[must_use]
pub fn memories(numbers: &mut [u32]) -> Memories<'_> {
    let (table, rest) = cut_mut(numbers, TABLE_LEAST);
    let (nodes, rest) = cut_mut(rest, NODES_LEAST);
    let (answers, rest) = cut_mut(rest, ANSWERS_LEAST);
    let (clients, _) = cut_mut(rest, CLIENTS_LEAST);
    Memories { table, nodes, answers, clients }
}

/// The same, to look at: table, nodes, answers, clients.
pub(crate) fn parts(numbers: &[u32]) -> [&[u32]; 4] {
    let (table, rest) = cut(numbers, TABLE_LEAST);
    let (nodes, rest) = cut(rest, NODES_LEAST);
    let (answers, rest) = cut(rest, ANSWERS_LEAST);
    let (clients, _) = cut(rest, CLIENTS_LEAST);
    [table, nodes, answers, clients]
}

fn cut(numbers: &[u32], length: usize) -> (&[u32], &[u32]) {
    numbers.split_at(length.min(numbers.len()))
}

fn cut_mut(numbers: &mut [u32], length: usize) -> (&mut [u32], &mut [u32]) {
    numbers.split_at_mut(length.min(numbers.len()))
}
