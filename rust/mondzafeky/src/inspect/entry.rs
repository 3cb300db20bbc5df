//! The filed answers: query and range, revisions, list or count; and the length of a kept list, at
//! a desk too. Leans on key and range.
use super::key::{key_at, Asked, Range};
use super::range::{below, Memory};
use super::{Inspect, OutOfRange};
use crate::layout::{is_count, ENTRY_LENGTH, ENTRY_LIST, ENTRY_REVISIONS, ENTRY_WIDTH, HEADER, MAX_LOOKS};
use crate::{Query, Records, LIST, RECORDS};

/// An entry of the answers memory: a filed answer. A query that is out of range, or whose range no
/// begin would take, is none of this hall's: no read gets that answer, and no call turns it down. A
/// list's length or a count that is out of range is 3 at every call but opening.
#[derive(Clone, Debug, PartialEq, Eq)]
pub struct Entry<'a> {
    /// The query that it answers; a ranged column is a star in it.
    pub query: Result<Query, OutOfRange>,
    /// The range that was given with it, if one was; none too where the query is out of range.
    pub range: Option<Range>,
    /// The revisions noted when it was filed, one for each look in the looks' order; all 16 places where the query is out of range.
    pub revisions: &'a [u32],
    /// What it answers with.
    pub value: Result<Value<'a>, OutOfRange>,
}

/// What a filed answer holds. Bit 4 of its key's first number alone says which of the two; so it is told of every entry, of one whose query is out
/// of range too.
#[derive(Clone, Debug, PartialEq, Eq)]
pub enum Value<'a> {
    /// The answer to a read: its records, at most 32.
    List(Records<'a>),
    /// The answer to a count: how many records there are, at most 2,048. Numbers that stand in the list's place are no records.
    Count(u32),
}

impl Entry<'_> {
    /// What was asked, as text: "(3, *)", or "(3, 4 to 9)" with a range.
    pub fn asked(&self) -> Result<String, OutOfRange> {
        let query = self.query.as_ref().map_err(OutOfRange::clone)?;
        Ok(Asked { query, range: self.range }.to_string())
    }
}

impl<'a> Inspect<'a> {
    /// The filed answer at a place, 0 the oldest.
    pub fn answer(&self, place: u32) -> Result<Entry<'a>, OutOfRange> {
        let place = below("the answer's place", place, self.answer_count()?, "below the number of answers")?;
        let at = HEADER + place * ENTRY_WIDTH;
        let numbers = self.answers.part(at, ENTRY_WIDTH, "an answer")?;
        let key = self.columns().and_then(|columns| key_at(&self.answers, at, columns));
        let range = key.as_ref().map_or(None, |(_, range)| *range);
        let query = key.map(|(query, _)| query);
        let looks = query.as_ref().map_or(MAX_LOOKS, looks);
        Ok(Entry { query, range, revisions: &numbers[ENTRY_REVISIONS..][..looks], value: self.value(at, numbers) })
    }

    /// What the entry of these numbers, which starts at `at`, holds. Only records need k.
    fn value(&self, at: usize, numbers: &'a [u32]) -> Result<Value<'a>, OutOfRange> {
        if is_count(numbers[0]) {
            return Ok(Value::Count(length_at(&self.answers, at)?));
        }
        let columns = self.columns()? as usize;
        let length = length_at(&self.answers, at)? as usize;
        Ok(Value::List(Records::of(&numbers[ENTRY_LIST..], columns, length)))
    }
}

/// How many nodes a read of this query looks at: two for each named column, multiplied. At most 16, as a hall's query has at most four.
pub(super) fn looks(query: &Query) -> usize {
    1 << query.columns().flatten().count()
}

/// The length of a kept list, 0 to 32, or a kept count, 0 to 2,048, in the entry that starts at `at`.
pub(super) fn length_at(memory: &Memory<'_>, at: usize) -> Result<u32, OutOfRange> {
    let counts = is_count(memory.at(at, "the marks of the query")?);
    let (what, wanted, most) = if counts { ("the count", "0 to 2,048", RECORDS) } else { ("the list's length", "0 to 32", LIST) };
    memory.checked(at + ENTRY_LENGTH, what, wanted, |length| length <= most)
}
