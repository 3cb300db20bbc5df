//! To look inside a hall: how many records, nodes and answers there are, each of them, and how far each desk is. **Unproved**: plain Rust by the
//! numbers of docs/LAYOUT.md, for people who look for something and for tools that print; a program's answers come from the calls. It alters
//! nothing, takes memories of any lengths and contents, and where something is out of range it says so ([`OutOfRange`]) and does not panic.
//!
//! ```
//! # fn main() -> Result<(), Box<dyn std::error::Error>> {
//! let mut hall = mondzafeky::Hall::open(2)?;
//! hall.begin_insert(3, &[3, 41])?;
//! let _ = hall.step(3)?;
//! let inside = hall.inspect();
//! assert_eq!((inside.record_count()?, inside.node_count()?, inside.floor()?), (0, 1, 1));
//! assert_eq!(inside.node(0)?.to_string(), "(3, 41)  counter 1  marks 1");
//! let work = inside.work(3)?.expect("an insert is under way");
//! assert_eq!(work.to_string(), "insert of (3, 41), 1 of 9 steps made, next: mark 2 of 4");
//! # Ok(())
//! # }
//! ```
mod entry;
mod key;
mod node;
mod range;
mod work;

pub use entry::{Entry, Value};
pub use key::Range;
pub use node::{Label, Node, Term};
pub use range::OutOfRange;
pub use work::{Kind, Stage, Work};

use crate::layout::{ANSWER_COUNT, COLUMNS, FLOOR, HEADER, MAX_COLUMNS, NODE_COUNT, RECORD_COUNT};
use crate::{saved, Memories, ANSWERS, NODES, RECORDS};
use range::Memory;

/// The four memories of a hall, to look at.
#[derive(Clone, Copy, Debug)]
#[must_use]
pub struct Inspect<'a> {
    table: Memory<'a>,
    nodes: Memory<'a>,
    answers: Memory<'a>,
    clients: Memory<'a>,
}

impl<'a> Inspect<'a> {
    /// Lent memories, of any lengths.
    pub fn of(memories: &'a Memories<'_>) -> Inspect<'a> {
        Inspect::over([memories.table, memories.nodes, memories.answers, memories.clients])
    }

    /// The numbers of a saved hall (see [`crate::saved`]), as far as they go.
    pub fn of_saved(numbers: &'a [u32]) -> Inspect<'a> {
        Inspect::over(saved::parts(numbers))
    }

    fn over([table, nodes, answers, clients]: [&'a [u32]; 4]) -> Inspect<'a> {
        Inspect {
            table: Memory::new("table", table),
            nodes: Memory::new("nodes", nodes),
            answers: Memory::new("answers", answers),
            clients: Memory::new("clients", clients),
        }
    }

    /// k, the number of columns: 1 to 4.
    pub fn columns(&self) -> Result<u32, OutOfRange> {
        self.clients.checked(COLUMNS, "k", "1 to 4", |k| (1..=MAX_COLUMNS).contains(&k))
    }

    /// The floor: the counter that a node gets when it is added.
    pub fn floor(&self) -> Result<u32, OutOfRange> {
        self.nodes.at(FLOOR, "the floor")
    }

    /// How many records there are, at most 2,048.
    pub fn record_count(&self) -> Result<u32, OutOfRange> {
        self.table.checked(RECORD_COUNT, "the number of records", "0 to 2,048", |n| n <= RECORDS)
    }

    /// How many nodes there are, at most 1,024.
    pub fn node_count(&self) -> Result<u32, OutOfRange> {
        self.nodes.checked(NODE_COUNT, "the number of nodes", "0 to 1,024", |n| n <= NODES)
    }

    /// How many filed answers there are, at most 64.
    pub fn answer_count(&self) -> Result<u32, OutOfRange> {
        self.answers.checked(ANSWER_COUNT, "the number of answers", "0 to 64", |n| n <= ANSWERS)
    }

    /// The record at a place, 0 the first.
    pub fn record(&self, place: u32) -> Result<&'a [u32], OutOfRange> {
        let columns = self.columns()? as usize;
        let place = range::below("the record's place", place, self.record_count()?, "below the number of records")?;
        self.table.part(HEADER + place * columns, columns, "a record")
    }

    /// The records as they lie in the table. Of what is out of range there is one `Err`, and nothing behind it; so it is for nodes and answers.
    pub fn records(&self) -> impl Iterator<Item = Result<&'a [u32], OutOfRange>> + use<'a> {
        let inside = *self;
        each(self.record_count(), move |place| inside.record(place))
    }

    /// The nodes, oldest first.
    pub fn nodes(&self) -> impl Iterator<Item = Result<Node, OutOfRange>> + use<'a> {
        let inside = *self;
        each(self.node_count(), move |place| inside.node(place))
    }

    /// The filed answers, oldest first.
    pub fn answers(&self) -> impl Iterator<Item = Result<Entry<'a>, OutOfRange>> + use<'a> {
        let inside = *self;
        each(self.answer_count(), move |place| inside.answer(place))
    }
}

/// The entries at places from 0 on, up to the first that cannot be had; an `Err` alone where their number cannot.
fn each<T>(count: Result<u32, OutOfRange>, entry: impl Fn(u32) -> Result<T, OutOfRange>) -> impl Iterator<Item = Result<T, OutOfRange>> {
    let (count, fault) = match count {
        Ok(count) => (count, None),
        Err(fault) => (0, Some(Err(fault))),
    };
    (0..count).map(entry).chain(fault).scan(false, |over, entry| {
        let is_over = std::mem::replace(over, entry.is_err());
        (!is_over).then_some(entry)
    })
}
