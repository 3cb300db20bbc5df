//! Cached query answers that are never stale: safe calls over the proved library.
//!
//! One table of records of one to four columns, filed answers, and revision nodes that tell which answers still hold. Twelve clients (the
//! desks of the documents) each have at most one read or write under way and move it by single steps, mixed in every order. docs/CALLS.md has
//! the calls, docs/LAYOUT.md what stands where in the memories.
//!
//! # What is promised
//!
//! In a hall that was opened and that only these calls have written into since, every answer of a
//! read is a list that was true: exactly the records that matched at some moment between the read's
//! begin and the step that answers it, whether it came from the file or from the table, and however
//! the steps of the desks were mixed. A read that begins after a write has ended sees that write:
//! **begin the read after the write's end to see it**. A count is a read that wants only how many
//! records match, and is true in the same way; so is a list or a count with a range in one column.
//! Every read has ended with its 19th accepted step at the latest, every write with its 33rd. A
//! step at a busy desk is accepted, if its tray has 128 numbers or more, as a [`Hall`]'s has, and
//! it is lent no full tally. What a call does to every number of every memory is proved in the
//! library; this crate only hands the memories over.
//!
//! # How to call it
//!
//! [`Hall`] owns its memories. A call that is turned down returns a [`Refusal`], 1 to 11, 14 or 15
//! (7 is unused), and has altered nothing. **12 and 13 are ends**, not refusals: the read found more
//! than 32 records ([`Outcome::Long`]), the insert found the table full ([`Outcome::Full`]), and
//! the desk is idle after them as after every other end ([`Outcome::has_ended`]). How many they are
//! is told by a count ([`Hall::begin_count`], [`Outcome::Counted`]), which never ends with 12; a
//! range ([`Hall::begin_read_within`]) asks for some of them, "classes 4 to 9". A correction is a
//! delete and an insert, and between their ends neither record is there, or both are: the caller
//! chooses by their order. A bench can be pulled out at any time: [`Hall::abandon`] gives up a
//! read, or a write that has not reached the table, and ends a write that has ([`Abandoned`]).
//!
//! A write that changes nothing raises no counter: an insert of a record that is there, a delete
//! that finds none, an insert into a full table, a write given up before its table step. While it
//! is under way, reads that look at one of its marks go to the table. One that begins after its end
//! gets the answer that was filed before, as if the write had not been, unless a node of that
//! answer was put out. The nodes that a write adds can do that: where 1,024 are there, each puts
//! out the oldest unmarked one.
//!
//! **0 means not measured.** A record may carry it, and inserting such a record again changes
//! nothing. Naming 0 finds nothing, in a read, a count or a delete, and a range skips it, also one
//! that begins at 0; a star finds it ([`Query`] has an example).
//!
//! **What filing saves** is counted in a [`Tally`], lent along with each begin, step and abandoning: the calls whose names end in `_tallied`. Its
//! text is a small table with the share of reads answered from file.
//!
//! Calls are **indivisible towards each other, but not thread-safe**: steps of different desks may follow each other in any order, two calls at
//! once on one hall may not. Where threads share a hall, put one lock (a `Mutex<Hall>`) around each call; it need not be held from a begin to
//! its end.
//!
//! ```
//! use mondzafeky::{Hall, Outcome, Query, Refusal};
//!
//! fn main() -> Result<(), Refusal> {
//!     let mut hall = Hall::open(2)?;
//!     hall.begin_insert(0, &[3, 40])?;
//!     assert_eq!(hall.run(0)?, Outcome::Changed);
//!
//!     // Desk 1 reads (3, *), step by step; other desks may step in between.
//!     hall.begin_read(1, &Query::from([Some(3), None]))?;
//!     loop {
//!         match hall.step(1)? {
//!             Outcome::UnderWay => continue,
//!             Outcome::Answered { records, from_file } => println!("{:?}, from file: {from_file}", records),
//!             end => println!("{end}"),
//!         }
//!         break;
//!     }
//!     assert_eq!(hall.step(1), Err(Refusal::Idle));
//!     Ok(())
//! }
//! ```
//!
//! # The low calls
//!
//! [`Memories`] are four memories that the caller keeps, of any length and contents; its calls take any arguments, allocate nothing, and return
//! the three numbers that C sees. [`Hall::memories`] lends a hall's.
//!
//! ```
//! let (mut table, mut nodes) = ([0; mondzafeky::TABLE_LEAST], [0; mondzafeky::NODES_LEAST]);
//! let (mut answers, mut clients) = ([0; mondzafeky::ANSWERS_LEAST], [0; mondzafeky::CLIENTS_LEAST]);
//! let mut hall = mondzafeky::Memories { table: &mut table, nodes: &mut nodes, answers: &mut answers, clients: &mut clients };
//! assert_eq!(hall.open(1).number, mondzafeky::number::ACCEPTED);
//! assert_eq!(hall.begin_read(0, &[1, 5]).number, mondzafeky::number::ACCEPTED);
//! let mut tray = [0; mondzafeky::TRAY_LEAST];
//! let reply = hall.run(&mut tray, 0);
//! assert_eq!((reply.count, reply.ending), (0, mondzafeky::ending::FROM_TABLE));
//! ```
//!
//! [`saved`] is the form in which a hall is kept in a file, [`inspect`] looks inside one; that is plain Rust and unproved, as all of this crate.
#![deny(unsafe_code, unsafe_op_in_unsafe_fn)]
#![warn(missing_docs)]

mod abandoned;
#[allow(unsafe_code)]
mod calls;
mod hall;
pub mod inspect;
mod layout;
mod names;
mod outcome;
mod query;
mod refusal;
pub mod saved;
mod tallied;
mod tally;

pub use abandoned::Abandoned;
pub use calls::Reply;
pub use hall::Hall;
pub use outcome::{Outcome, Records};
pub use query::Query;
pub use refusal::{NoRefusal, Refusal};
use std::ops::RangeInclusive;
pub use tally::Tally;

/// The least length of the table memory, in 32-bit numbers, as of all that follow.
pub const TABLE_LEAST: usize = 8_200;
/// The least length of the nodes memory.
pub const NODES_LEAST: usize = 8_200;
/// The least length of the answers memory.
pub const ANSWERS_LEAST: usize = 10_000;
/// The least length of the clients memory, in which the desks lie.
pub const CLIENTS_LEAST: usize = 2_000;
/// The least length of a tray.
pub const TRAY_LEAST: usize = 128;
/// The most records of a hall.
pub const RECORDS: u32 = 2_048;
/// The most revision nodes of a hall.
pub const NODES: u32 = 1_024;
/// The most filed answers of a hall.
pub const ANSWERS: u32 = 64;
/// How many clients, or desks, there are: 0 to 11.
pub const CLIENTS: u32 = 12;
/// The most records that a read lists.
pub const LIST: u32 = 32;

/// The numbers that a call returns in [`Reply::number`]. 1 to 11, 14 and 15 are refusals: no memory
/// is altered. 7 is not among them: it is given no longer, and the number stays unused.
pub mod number {
    pub use crate::names::{name, sentence};

    /// The call was accepted.
    pub const ACCEPTED: u32 = 0;
    /// A lent memory is below its least length.
    pub const SHORT: u32 = 1;
    /// k not 1 to 4 at opening; not a query of k columns; an insert with a star; a range's column
    /// that is named too or not below k.
    pub const COLUMNS: u32 = 2;
    /// k, a number of entries, a filed list's length or a filed count in memory is out of range, or what stands at the desk or at its node is, or
    /// no unmarked node can make room.
    pub const UNSOUND: u32 = 3;
    /// The client, the desk, is above 11.
    pub const NO_CLIENT: u32 = 4;
    /// A begin at a busy desk.
    pub const TAKEN: u32 = 5;
    /// A step or an abandoning at an idle desk.
    pub const IDLE: u32 = 6;
    /// No answer or node at that place.
    pub const NO_ENTRY: u32 = 8;
    /// A write is pending at that node: it is marked.
    pub const PENDING: u32 = 9;
    /// A write begins while the floor or a counter is too high: renew.
    pub const WORN: u32 = 10;
    /// A renewal with a busy desk.
    pub const OCCUPIED: u32 = 11;
    /// The read has ended: more than 32 records match, and the tray is untouched. A count is never ended so.
    pub const LONG: u32 = 12;
    /// The insert has ended, with its last step or an abandoning: the table held 2,048 records and
    /// not this one.
    pub const FULL: u32 = 13;
    /// The lowest value of a range is above its highest.
    pub const REVERSED: u32 = 14;
    /// The call would raise a count of the lent tally that stands at 4,294,967,295: lend a new one.
    pub const TALLY_FULL: u32 = 15;
}

/// What has ended, in [`Reply::ending`].
pub mod ending {
    /// Nothing has ended, or the number says what.
    pub const NONE: u32 = 0;
    /// A read or a count was answered with a filed answer.
    pub const FROM_FILE: u32 = 1;
    /// A read or a count was answered from the table.
    pub const FROM_TABLE: u32 = 2;
    /// A write has ended and changed the table.
    pub const CHANGED: u32 = 3;
    /// A write has ended; it did not change the table and raised no counter.
    pub const UNCHANGED: u32 = 4;
}

/// The four lent memories. Lend each call the same four, as the call before left them: that is what the promises about a history ask. A call on
/// others is just as safe, and does what its definition says of their contents.
#[derive(Debug)]
pub struct Memories<'a> {
    /// The records, ascending.
    pub table: &'a mut [u32],
    /// The floor and the revision nodes.
    pub nodes: &'a mut [u32],
    /// The filed answers.
    pub answers: &'a mut [u32],
    /// The number of columns, and what is under way at each client, the desk of the documents.
    pub clients: &'a mut [u32],
}

impl Memories<'_> {
    /// Opens a hall of `k` columns, 1 to 4: no records, no nodes, no answers, every desk idle. Refusals: 1, 2.
    pub fn open(&mut self, k: u32) -> Reply {
        calls::open(self, k)
    }

    /// Begins a read at `client`, the desk, 0 to 11. `query` has for each column a mark and a value: mark 1 names the value, mark 0 is a star and
    /// its value is 0. A named 0 finds nothing: 0 means not measured. Refusals: 1 to 5.
    pub fn begin_read(&mut self, client: u32, query: &[u32]) -> Reply {
        calls::begin_read(self, client, query)
    }

    /// Begins a count at `client`: a read, step by step, that wants only how many records match. It is answered with [`Reply::count`], 0 to 2,048,
    /// and never with 12; its steps need a tray that is long enough, and none of them writes it. Refusals: 1 to 5.
    pub fn begin_count(&mut self, client: u32, query: &[u32]) -> Reply {
        calls::begin_count(self, client, query)
    }

    /// Begins a read with a range at `client`: of the records that match `query` those whose value
    /// in `column`, by its number from 0, lies `within`, both ends included; 0, not measured, lies
    /// in no range. That column is a star in `query`. Refusals: 1 to 5, and 14 for a range such as
    /// `9..=4`, which goes before 3, 4 and 5.
    pub fn begin_read_within(&mut self, client: u32, query: &[u32], column: u32, within: RangeInclusive<u32>) -> Reply {
        calls::begin_read_within(self, client, query, column, *within.start(), *within.end())
    }

    /// Begins a count with a range: how many these are. Refusals: 1 to 5, 14.
    pub fn begin_count_within(&mut self, client: u32, query: &[u32], column: u32, within: RangeInclusive<u32>) -> Reply {
        calls::begin_count_within(self, client, query, column, *within.start(), *within.end())
    }

    /// Begins an insert of the record that `query` names, a value in every column; 0 where it was not measured. Refusals: 1 to 5, 10.
    pub fn begin_insert(&mut self, client: u32, query: &[u32]) -> Reply {
        calls::begin_insert(self, client, query)
    }

    /// Begins a delete of every record that `query` matches: none, if it names 0. Refusals: 1 to 5, 10.
    pub fn begin_delete(&mut self, client: u32, query: &[u32]) -> Reply {
        calls::begin_delete(self, client, query)
    }

    /// One step of what is under way at `client`, the desk. A list's answer writes `count` records of k numbers each from the tray's start, and
    /// nothing else of it; a count's writes nothing of it. Refusals: 1 (the tray too), 3, 4, 6; ends a list's read with 12, an insert with 13.
    pub fn step(&mut self, tray: &mut [u32], client: u32) -> Reply {
        calls::step(self, tray, client)
    }

    /// Ends what is under way at `client`, the desk, in one call and at any time. A read is given
    /// up, and so is a write before its table step, whose marks are taken back: 0 with ending 0.
    /// The nodes that it has added stay, and those put out for them are gone. A write that has made
    /// its table step makes all of its remaining raises, and the reply is its end as its last step
    /// would have told it: 0 with ending 3 or 4, or 13. The desk is idle. Refusals: 1, 3, 4, 6.
    pub fn abandon(&mut self, client: u32) -> Reply {
        calls::abandon(self, client)
    }

    /// Puts out the filed answer at `place`, 0 the oldest. Refusals: 1, 3, 8.
    pub fn evict_answer(&mut self, place: u32) -> Reply {
        calls::evict_answer(self, place)
    }

    /// Puts out the node at `place`, 0 the oldest, if no write is pending there. Refusals: 1, 3, 8, 9.
    pub fn evict_node(&mut self, place: u32) -> Reply {
        calls::evict_node(self, place)
    }

    /// With every desk idle: empties answers and nodes; the table stays. Refusals: 1, 3, 11.
    pub fn renew(&mut self) -> Reply {
        calls::renew(self)
    }

    /// Steps a desk until its read or write has ended, or a step is refused: at most 33 steps on memories that a history of calls left. The last
    /// step's reply.
    pub fn run(&mut self, tray: &mut [u32], client: u32) -> Reply {
        last_of(|| self.step(tray, client))
    }
}

/// The reply to the step that ends a run: an end or a refusal.
pub(crate) fn last_of(mut step: impl FnMut() -> Reply) -> Reply {
    loop {
        let reply = step();
        if reply.number != number::ACCEPTED || reply.ending != ending::NONE {
            return reply;
        }
    }
}
