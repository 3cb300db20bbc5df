//! What an accepted step says: whether the read or write has ended, and how; the records of an answer, or their count. Leans on refusal.
use crate::{ending, number, Refusal, Reply};
use std::fmt;
use std::iter::FusedIterator;

/// What an accepted step has done. After everything but [`Outcome::UnderWay`] the desk is idle.
#[derive(Clone, Debug, PartialEq, Eq)]
#[must_use = "a step may have ended the read or write, and an answer is only here"]
pub enum Outcome<'a> {
    /// Nothing has ended: step again.
    UnderWay,
    /// The read's end: the records that match, in ascending order, at most 32.
    Answered {
        /// The records; they lie in the hall's tray until its next list.
        records: Records<'a>,
        /// They were filed before; otherwise they were taken from the table.
        from_file: bool,
    },
    /// A count's end: how many records match.
    Counted {
        /// How many, 0 to 2,048.
        count: u32,
        /// It was filed before; otherwise it was counted in the table.
        from_file: bool,
    },
    /// 12, the read's end: more than 32 records match, and none is answered. No end of a count.
    Long,
    /// The write's end: it changed the table.
    Changed,
    /// The write's end: it left the table as it was and raised no counter. It costs a read that
    /// begins later no answer that was filed before, unless a node of that answer was put out, as
    /// the nodes that a write adds may do where 1,024 are there.
    Unchanged,
    /// 13, the insert's end: the table held 2,048 records and not this one. It left the table as it
    /// was and raised no counter, like [`Outcome::Unchanged`].
    Full,
}

impl<'a> Outcome<'a> {
    /// What a step's reply says, with the tray that it was lent and the columns of its hall. `counts`: a count was under way at the desk, which the
    /// reply does not tell.
    ///
    /// # Panics
    /// If the number or the ending is none that the library gives: then this crate was linked with an archive of another version.
    pub(crate) fn of(reply: Reply, tray: &'a [u32], columns: u32, counts: bool) -> Result<Outcome<'a>, Refusal> {
        let answered = |from_file| {
            if counts {
                return Outcome::Counted { count: reply.count, from_file };
            }
            Outcome::Answered { records: Records::of(tray, columns as usize, reply.count as usize), from_file }
        };
        match (reply.number, reply.ending) {
            (number::ACCEPTED, ending::NONE) => Ok(Outcome::UnderWay),
            (number::ACCEPTED, ending::FROM_FILE) => Ok(answered(true)),
            (number::ACCEPTED, ending::FROM_TABLE) => Ok(answered(false)),
            (number::ACCEPTED, ending::CHANGED) => Ok(Outcome::Changed),
            (number::ACCEPTED, ending::UNCHANGED) => Ok(Outcome::Unchanged),
            (number::LONG, _) => Ok(Outcome::Long),
            (number::FULL, _) => Ok(Outcome::Full),
            _ => Err(refusal_of(reply)),
        }
    }

    /// Whether the read or write has ended with this step: 12 and 13 are ends too.
    #[must_use]
    pub fn has_ended(&self) -> bool {
        !matches!(self, Outcome::UnderWay)
    }
}

impl fmt::Display for Outcome<'_> {
    fn fmt(&self, f: &mut fmt::Formatter<'_>) -> fmt::Result {
        let numbered = |f: &mut fmt::Formatter<'_>, n| write!(f, "{n}, {}: {}", number::name(n), number::sentence(n));
        let records_from = |f: &mut fmt::Formatter<'_>, how, count, from_file| {
            let (place, s) = (if from_file { "file" } else { "the table" }, if count == 1 { "" } else { "s" });
            write!(f, "{how} from {place}, {count} record{s}")
        };
        match self {
            Outcome::UnderWay => write!(f, "under way"),
            Outcome::Answered { records, from_file } => records_from(f, "answered", records.len(), *from_file),
            Outcome::Counted { count, from_file } => records_from(f, "counted", *count as usize, *from_file),
            Outcome::Long => numbered(f, number::LONG),
            Outcome::Changed => write!(f, "ended, the table has changed"),
            Outcome::Unchanged => write!(f, "ended, the table is as it was"),
            Outcome::Full => numbered(f, number::FULL),
        }
    }
}

/// What a call that ends nothing says: accepted, or why not.
pub(crate) fn accepted(reply: Reply) -> Result<(), Refusal> {
    match reply.number {
        number::ACCEPTED => Ok(()),
        _ => Err(refusal_of(reply)),
    }
}

/// Of a reply that is known to be none of the others. The library is proved to give nothing else, so what is left is an archive of another
/// version: it is better to say so than to take its number for something.
pub(crate) fn refusal_of(reply: Reply) -> Refusal {
    Refusal::try_from(reply.number).unwrap_or_else(|_| panic!("the linked archive gave {reply:?}, which this version of mondzafeky does not know"))
}

impl Reply {
    /// Whether a read or write has ended with this reply: an ending, or 12 or 13, whose ending is 0.
    /// Of an abandoning's reply it tells whether the write had made its table step; the desk is idle
    /// after it either way.
    #[must_use]
    pub fn has_ended(self) -> bool {
        self.ending != ending::NONE || matches!(self.number, number::LONG | number::FULL)
    }

    /// What the call was turned down with, if it was: 1 to 6, 8 to 11, 14 or 15.
    #[must_use]
    pub fn refusal(self) -> Option<Refusal> {
        Refusal::try_from(self.number).ok()
    }
}

/// Records, k numbers each, ascending: an iterator of `&[u32]` over the numbers that hold them.
#[derive(Clone, PartialEq, Eq)]
#[must_use = "iterators are lazy"]
pub struct Records<'a> {
    columns: usize,
    rest: &'a [u32],
}

impl<'a> Records<'a> {
    /// The first `count` records of `columns` numbers each; only whole records, and none of no columns.
    pub(crate) fn of(numbers: &'a [u32], columns: usize, count: usize) -> Records<'a> {
        let columns = columns.max(1);
        Records { columns, rest: &numbers[..columns * count.min(numbers.len() / columns)] }
    }
}

impl<'a> Iterator for Records<'a> {
    type Item = &'a [u32];

    fn next(&mut self) -> Option<&'a [u32]> {
        let (record, rest) = self.rest.split_at_checked(self.columns)?;
        self.rest = rest;
        Some(record)
    }

    fn size_hint(&self) -> (usize, Option<usize>) {
        let count = self.rest.len() / self.columns;
        (count, Some(count))
    }
}

impl ExactSizeIterator for Records<'_> {}
impl FusedIterator for Records<'_> {}

impl fmt::Debug for Records<'_> {
    fn fmt(&self, f: &mut fmt::Formatter<'_>) -> fmt::Result {
        f.debug_list().entries(self.clone()).finish()
    }
}
