//! The mixing: which desk moves when. It stands here once, for the library from its archive, for the library's own code built without proof
//! (which gets it as numbers) and for the controller with the fault. Leans on nothing.
//!
//! Why the correction takes two desks: a controller that raises first goes wrong for good only if the read looks after the last raise and takes
//! its list before the first table step. With the delete and the insert one after the other at one desk, the second one's raises put the
//! mistake of the first out of use. A program does better to run one after the other (docs/CALLS.md).

/// How many columns the hall has: binding, stored zero.
pub const K: usize = 2;
/// The desks that write the correction: the delete, the insert.
pub const WRITERS: [u32; 2] = [0, 2];
/// The desk of the bench that reads.
pub const READER: u32 = 1;
/// The record before the correction, and the one after it.
pub const OLD: [u32; K] = [7, 40];
pub const NEW: [u32; K] = [7, 42];

/// A query as a begin takes it: a mark and a value for each column.
pub type Asked = [u32; 2 * K];

#[derive(Clone, Copy, PartialEq, Eq, Debug)]
pub enum Kind {
    Read,
    Insert,
    Delete,
}

#[derive(Clone, Copy, PartialEq, Eq, Debug)]
pub enum Call {
    Open { k: u32 },
    Begin { kind: Kind, desk: u32, asked: Asked },
    Step { desk: u32 },
}

#[derive(Clone, Copy, PartialEq, Eq, Debug)]
pub enum Item {
    Call(Call),
    /// steps of a desk until it is idle; none if it is
    Finish {
        desk: u32,
    },
}

/// The parts of the script: what is there before, the mixing, and two reads when all is at rest.
#[derive(Clone, Copy, PartialEq, Eq, Debug)]
pub enum Part {
    Before,
    Mixing,
    Later,
    Again,
}

fn named(record: [u32; K]) -> Asked {
    [1, record[0], 1, record[1]]
}

/// Every record of the binding: the second column is a star.
pub fn wanted() -> Asked {
    [1, OLD[0], 0, 0]
}

fn begin(kind: Kind, desk: u32, asked: Asked) -> Item {
    Item::Call(Call::Begin { kind, desk, asked })
}

fn steps(desks: &[u32]) -> impl Iterator<Item = Item> + '_ {
    desks.iter().map(|desk| Item::Call(Call::Step { desk: *desk }))
}

fn mixing() -> Vec<Item> {
    let [delete, insert] = WRITERS;
    let mut items = vec![begin(Kind::Delete, delete, named(OLD))];
    items.extend(steps(&[delete]));
    items.push(begin(Kind::Insert, insert, named(NEW)));
    items.extend(steps(&[delete, insert, delete, insert]));
    items.push(begin(Kind::Read, READER, wanted()));
    // both writes have been at node (7, *) when the bench looks at it; its list is taken before either's table step
    items.extend(steps(&[insert, READER, delete, READER, insert, READER, READER]));
    items.extend(steps(&[delete, insert]));
    items.push(Item::Finish { desk: READER });
    items.extend(steps(&[delete, insert, delete, insert, delete, insert]));
    items.extend([Item::Finish { desk: delete }, Item::Finish { desk: insert }]);
    items
}

/// The whole script.
pub fn script() -> Vec<(Part, Item)> {
    let before = vec![Item::Call(Call::Open { k: K as u32 }), begin(Kind::Insert, WRITERS[0], named(OLD)), Item::Finish { desk: WRITERS[0] }];
    let read = vec![begin(Kind::Read, READER, wanted()), Item::Finish { desk: READER }];
    let parts = [(Part::Before, before), (Part::Mixing, mixing()), (Part::Later, read.clone()), (Part::Again, read)];
    parts.into_iter().flat_map(|(part, items)| items.into_iter().map(move |item| (part, item))).collect()
}

// ---- As numbers, for the program of Rattle: what is done, the desk or k, and the query

const OPEN: u32 = 0;
const KINDS: [Kind; 3] = [Kind::Read, Kind::Insert, Kind::Delete];
const STEP: u32 = 4;
const FINISH: u32 = 5;

impl Item {
    pub fn numbers(&self) -> [u32; 6] {
        match *self {
            Item::Call(Call::Open { k }) => [OPEN, k, 0, 0, 0, 0],
            Item::Call(Call::Begin { kind, desk, asked: [a, b, c, d] }) => [1 + kind as u32, desk, a, b, c, d],
            Item::Call(Call::Step { desk }) => [STEP, desk, 0, 0, 0, 0],
            Item::Finish { desk } => [FINISH, desk, 0, 0, 0, 0],
        }
    }
}

impl Call {
    /// The call that six numbers stand for.
    pub fn of_numbers(numbers: [u32; 6]) -> Option<Call> {
        let [what, at, a, b, c, d] = numbers;
        match what {
            OPEN => Some(Call::Open { k: at }),
            1..=3 => Some(Call::Begin { kind: KINDS[what as usize - 1], desk: at, asked: [a, b, c, d] }),
            STEP => Some(Call::Step { desk: at }),
            _ => None,
        }
    }

    /// The desk that moves.
    pub fn desk(&self) -> Option<u32> {
        match *self {
            Call::Open { .. } => None,
            Call::Begin { desk, .. } | Call::Step { desk } => Some(desk),
        }
    }
}

/// The script as a text, a line of six numbers for each item.
pub fn as_text() -> String {
    let line = |(_, item): (Part, Item)| item.numbers().map(|number| number.to_string()).join(" ") + "\n";
    script().into_iter().map(line).collect()
}
