//! A memory that is looked at, and what is said where it does not hold what it should. Leans on nothing.
use std::error::Error;
use std::fmt;

/// Something that was looked for is not there, or is a number that may not be there.
#[derive(Clone, Debug, PartialEq, Eq)]
pub struct OutOfRange {
    /// What was looked for.
    pub what: &'static str,
    /// What stands there; none if the memory ends before.
    pub found: Option<u32>,
    /// What may stand there.
    pub wanted: &'static str,
    /// The memory and the place in it; none if it is about an argument.
    pub at: Option<(&'static str, usize)>,
}

impl fmt::Display for OutOfRange {
    fn fmt(&self, f: &mut fmt::Formatter<'_>) -> fmt::Result {
        let OutOfRange { what, found, wanted, at } = self;
        match (found, at) {
            (Some(found), Some((memory, place))) => write!(f, "{what} out of range: {found}, wanted {wanted} ({memory} memory, place {place})"),
            (Some(found), None) => write!(f, "{what} out of range: {found}, wanted {wanted}"),
            (None, Some((memory, place))) => write!(f, "{what} missing: the {memory} memory ends before place {place}"),
            (None, None) => write!(f, "{what} missing, wanted {wanted}"),
        }
    }
}

impl Error for OutOfRange {}

/// An argument that is below a limit, as a place.
pub(super) fn below(what: &'static str, found: u32, limit: u32, wanted: &'static str) -> Result<usize, OutOfRange> {
    if found < limit {
        Ok(found as usize)
    } else {
        Err(OutOfRange { what, found: Some(found), wanted, at: None })
    }
}

/// One of the four memories. Places are those of docs/LAYOUT.md, sums of small numbers: they do not overflow.
#[derive(Clone, Copy, Debug)]
pub(super) struct Memory<'a> {
    name: &'static str,
    numbers: &'a [u32],
}

impl<'a> Memory<'a> {
    pub(super) fn new(name: &'static str, numbers: &'a [u32]) -> Memory<'a> {
        Memory { name, numbers }
    }

    /// The number at a place.
    pub(super) fn at(&self, place: usize, what: &'static str) -> Result<u32, OutOfRange> {
        self.checked(place, what, "any number", |_| true)
    }

    /// The number at a place, if it is one that may stand there.
    pub(super) fn checked(&self, place: usize, what: &'static str, wanted: &'static str, may: impl Fn(u32) -> bool) -> Result<u32, OutOfRange> {
        match self.numbers.get(place) {
            Some(&number) if may(number) => Ok(number),
            found => Err(OutOfRange { what, found: found.copied(), wanted, at: Some((self.name, place)) }),
        }
    }

    /// `length` numbers from a place on; missing is the first that is not there.
    pub(super) fn part(&self, place: usize, length: usize, what: &'static str) -> Result<&'a [u32], OutOfRange> {
        let missing = || OutOfRange { what, found: None, wanted: "any number", at: Some((self.name, self.numbers.len().max(place))) };
        self.numbers.get(place..place + length).ok_or_else(missing)
    }
}
