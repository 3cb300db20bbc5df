//! What an accepted abandoning says: whether the read or write was given up, or the write had made
//! its table step and has ended. Leans on outcome.
use crate::outcome::refusal_of;
use crate::{ending, number, Outcome, Refusal, Reply};
use std::fmt;

/// What an accepted abandoning has done. The desk is idle after each of these.
#[derive(Clone, Copy, Debug, PartialEq, Eq, Hash)]
#[must_use = "a write may have taken effect before it was abandoned, and that is only told here"]
pub enum Abandoned {
    /// It was given up: a read, or a write before its table step, whose marks were taken back. The
    /// table is as if it had not been begun. The nodes that it has added stay, and those put out
    /// for them are gone.
    GivenUp,
    /// The write had made its table step, and this is its end: it changed the table.
    Changed,
    /// The write had made its table step, and this is its end: it left the table as it was and
    /// raised no counter. What that means for answers filed before, [`Outcome::Unchanged`] says.
    Unchanged,
    /// 13: the insert had made its table step, and this is its end: the table held 2,048 records
    /// and not this one. It left the table as it was and raised no counter, like
    /// [`Abandoned::Unchanged`].
    Full,
}

impl Abandoned {
    /// What an abandoning's reply says.
    ///
    /// # Panics
    /// If the number or the ending is none that an abandoning gives: then this crate was linked
    /// with an archive of another version.
    pub(crate) fn of(reply: Reply) -> Result<Abandoned, Refusal> {
        match (reply.number, reply.ending) {
            (number::ACCEPTED, ending::NONE) => Ok(Abandoned::GivenUp),
            (number::ACCEPTED, ending::CHANGED) => Ok(Abandoned::Changed),
            (number::ACCEPTED, ending::UNCHANGED) => Ok(Abandoned::Unchanged),
            (number::FULL, _) => Ok(Abandoned::Full),
            _ => Err(refusal_of(reply)),
        }
    }

    /// The write's end, as its last step would have told it; none if it was given up.
    #[must_use]
    pub fn end(self) -> Option<Outcome<'static>> {
        match self {
            Abandoned::GivenUp => None,
            Abandoned::Changed => Some(Outcome::Changed),
            Abandoned::Unchanged => Some(Outcome::Unchanged),
            Abandoned::Full => Some(Outcome::Full),
        }
    }
}

/// The write's end in the words of its outcome; or that it was given up.
impl fmt::Display for Abandoned {
    fn fmt(&self, f: &mut fmt::Formatter<'_>) -> fmt::Result {
        match self.end() {
            Some(end) => end.fmt(f),
            None => write!(f, "given up, nothing of it is in the table"),
        }
    }
}
