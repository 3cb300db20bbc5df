//! What is under way at a desk and how far it is. Leans on entry, key and range.
use super::entry::{length_at, looks};
use super::key::{key_at, Asked, Range};
use super::range::below;
use super::{Inspect, OutOfRange};
use crate::layout::{is_count, CLIENT_CHANGED, CLIENT_ENTRY, CLIENT_FULL, CLIENT_KIND, CLIENT_SAW, CLIENT_STEPS, CLIENT_WIDTH};
use crate::layout::{COUNT_BIT, ENTRY_REVISIONS, HEADER};
use crate::{Query, CLIENTS};
use std::fmt;

/// What a desk does.
#[derive(Clone, Copy, Debug, PartialEq, Eq, Hash)]
pub enum Kind {
    /// A read of a query, for a list or for a count ([`Work::counts`]).
    Read,
    /// An insert of a record: its query names every column.
    Insert,
    /// A delete of a query.
    Delete,
}

impl fmt::Display for Kind {
    fn fmt(&self, f: &mut fmt::Formatter<'_>) -> fmt::Result {
        f.write_str(match self {
            Kind::Read => "read",
            Kind::Insert => "insert",
            Kind::Delete => "delete",
        })
    }
}

/// What is under way at a desk.
#[derive(Clone, Debug, PartialEq, Eq)]
pub struct Work {
    /// Read, insert or delete.
    pub kind: Kind,
    /// The query that is read or deleted, or that names the record; a ranged column is a star in
    /// it.
    pub query: Query,
    /// A read: the range that it has given, if any.
    pub range: Option<Range>,
    /// A read: it wants a count, and not a list.
    pub counts: bool,
    /// How many steps it has made.
    pub steps: u32,
    /// How many steps it makes at most; a write makes as many, a read may be answered before.
    pub of: u32,
    /// A read: a look has seen a mark, so it passes over the file.
    pub saw_pending: bool,
    /// A write: it has changed the table.
    pub changed: bool,
    /// An insert: it has found the table full.
    pub full: bool,
    /// A read: the revisions that its looks have noted so far.
    pub noted: Vec<u32>,
}

/// A kind of step, and which of its kind it is, from 1 on.
#[derive(Clone, Copy, Debug, PartialEq, Eq, Hash)]
pub enum Stage {
    /// A read looks at a node.
    Look {
        /// Which look.
        number: u32,
        /// Of how many.
        of: u32,
    },
    /// A read looks for its answer in the file.
    Fetch,
    /// A read takes its list or its count from the table, or a write changes the table.
    Table,
    /// A read files its answer.
    File,
    /// A write announces itself at a node, the paper's mark.
    Announce {
        /// Which mark.
        number: u32,
        /// Of how many.
        of: u32,
    },
    /// A write takes its mark away from a node and, if it has changed the table, raises the node's
    /// counter.
    Raise {
        /// Which raise.
        number: u32,
        /// Of how many.
        of: u32,
    },
}

/// In the paper's words: "look 1 of 2", "fetch", "table", "file"; "mark 3 of 4", "table", "raise 2 of 4".
impl fmt::Display for Stage {
    fn fmt(&self, f: &mut fmt::Formatter<'_>) -> fmt::Result {
        match self {
            Stage::Look { number, of } => write!(f, "look {number} of {of}"),
            Stage::Fetch => write!(f, "fetch"),
            Stage::Table => write!(f, "table"),
            Stage::File => write!(f, "file"),
            Stage::Announce { number, of } => write!(f, "mark {number} of {of}"),
            Stage::Raise { number, of } => write!(f, "raise {number} of {of}"),
        }
    }
}

impl Work {
    /// The step that it makes next.
    #[must_use]
    pub fn stage(&self) -> Stage {
        let nodes = nodes_of(self.kind, &self.query);
        // A Work can be put together by anybody: a step past the last is told as the last kind of step.
        let past = self.steps.saturating_sub(nodes);
        match (self.kind, past) {
            (Kind::Read, _) if self.steps < nodes => Stage::Look { number: self.steps + 1, of: nodes },
            (Kind::Read, 0) => Stage::Fetch,
            (Kind::Read, 1) => Stage::Table,
            (Kind::Read, _) => Stage::File,
            (_, _) if self.steps < nodes => Stage::Announce { number: self.steps + 1, of: nodes },
            (_, 0) => Stage::Table,
            (_, raise) => Stage::Raise { number: raise, of: nodes },
        }
    }
}

/// "read of (3, *), .." of a read for a list, "count of (3, *), .." of one for a count; with a
/// range "read of (3, 4 to 9), ..".
impl fmt::Display for Work {
    fn fmt(&self, f: &mut fmt::Formatter<'_>) -> fmt::Result {
        let Work { kind, query, range, counts, steps, of, .. } = self;
        let kind = if *counts { "count".to_string() } else { kind.to_string() };
        let asked = Asked { query, range: *range };
        write!(f, "{kind} of {asked}, {steps} of {of} steps made, next: {}", self.stage())
    }
}

/// How many nodes a read looks at, or a write marks and raises.
fn nodes_of(kind: Kind, query: &Query) -> u32 {
    let exponent = if kind == Kind::Read { query.columns().flatten().count() } else { query.columns().len() };
    1u32.checked_shl(exponent as u32).unwrap_or(u32::MAX)
}

impl Inspect<'_> {
    /// What is under way at `client`, the desk, 0 to 11; none if it is idle. What is out of range here is 3 at a call for this desk.
    pub fn work(&self, client: u32) -> Result<Option<Work>, OutOfRange> {
        let at = HEADER + CLIENT_WIDTH * below("the desk", client, CLIENTS, "0 to 11")?;
        let own = self.clients.part(at, CLIENT_WIDTH, "the desk")?;
        if own.iter().all(|&number| number == 0) {
            return Ok(None);
        }
        let columns = self.columns()?;
        let kind = self.kind(at)?;
        let (query, range) = key_at(&self.clients, at + CLIENT_ENTRY, columns)?;
        if kind != Kind::Read {
            // A write wants no count and has no range.
            self.clients.checked(at + CLIENT_ENTRY, "the marks of a write", "a bit for each named column and no other", |marks| marks < COUNT_BIT)?;
        }
        if kind == Kind::Insert {
            self.clients.checked(at + CLIENT_ENTRY, "the marks of an insert", "a bit for every column", |marks| marks == (1 << columns) - 1)?;
        }
        let nodes = nodes_of(kind, &query);
        let of = if kind == Kind::Read { nodes + 3 } else { 2 * nodes + 1 };
        let steps = self.clients.checked(at + CLIENT_STEPS, "the number of steps made", "below the steps of this work", |steps| steps < of)?;
        length_at(&self.clients, at + CLIENT_ENTRY)?;
        let noted = if kind == Kind::Read { looks(&query).min(steps as usize) } else { 0 };
        let is_set = |offset: usize| own[offset] != 0;
        Ok(Some(Work {
            kind,
            query,
            range,
            counts: is_count(own[CLIENT_ENTRY]),
            steps,
            of,
            saw_pending: is_set(CLIENT_SAW),
            changed: is_set(CLIENT_CHANGED),
            full: is_set(CLIENT_FULL),
            noted: own[CLIENT_ENTRY + ENTRY_REVISIONS..][..noted].to_vec(),
        }))
    }

    /// The kind of the busy desk that starts at `at`.
    fn kind(&self, at: usize) -> Result<Kind, OutOfRange> {
        let number = self.clients.checked(at + CLIENT_KIND, "the kind of a busy desk", "1 to 3", |kind| (1..=3).contains(&kind))?;
        Ok([Kind::Read, Kind::Insert, Kind::Delete][number as usize - 1])
    }
}
