//! A call with its arguments, so that it can be recorded, replayed and read. Leans on side and hall.

use crate::hall::{Hall, Tally, MEMORY_NAMES, TALLY};
use crate::side::{Reply, Side};
use std::fmt;

/// A query as a begin is given it: up to 12 numbers, sound or not.
#[derive(Clone, Copy, PartialEq, Eq, Debug)]
pub struct Asked {
    words: [u32; 12],
    len: u8,
}

impl Asked {
    pub fn new(words: &[u32]) -> Asked {
        let mut asked = Asked { words: [0; 12], len: words.len() as u8 };
        asked.words[..words.len()].copy_from_slice(words);
        asked
    }

    pub fn words(&self) -> &[u32] {
        &self.words[..self.len as usize]
    }
}

/// The range that a begin is given for one column, by its number from 0; sound or not.
#[derive(Clone, Copy, PartialEq, Eq, Debug)]
pub struct Within {
    pub column: u32,
    pub lowest: u32,
    pub highest: u32,
}

/// What a read asks: its query, a count of the records or a list, and the range of one column, if it gives one.
#[derive(Clone, Copy, PartialEq, Eq, Debug)]
pub struct Ask {
    pub asked: Asked,
    pub counts: bool,
    pub within: Option<Within>,
}

impl Ask {
    /// The begin of a read that asks this.
    pub fn begin(self, client: u32) -> Call {
        let asked = self.asked;
        match (self.counts, self.within) {
            (false, None) => Call::BeginRead { client, asked },
            (true, None) => Call::BeginCount { client, asked },
            (false, Some(within)) => Call::BeginReadWithin { client, asked, within },
            (true, Some(within)) => Call::BeginCountWithin { client, asked, within },
        }
    }
}

/// A call. client: the desk, 0 to 11 or any other number.
#[derive(Clone, Copy, PartialEq, Eq, Debug)]
pub enum Call {
    Open {
        k: u32,
    },
    BeginRead {
        client: u32,
        asked: Asked,
    },
    BeginCount {
        client: u32,
        asked: Asked,
    },
    BeginReadWithin {
        client: u32,
        asked: Asked,
        within: Within,
    },
    BeginCountWithin {
        client: u32,
        asked: Asked,
        within: Within,
    },
    BeginInsert {
        client: u32,
        asked: Asked,
    },
    BeginDelete {
        client: u32,
        asked: Asked,
    },
    /// the tray is another each time: its length, and the number that its contents are made from
    Step {
        client: u32,
        tray: u32,
        fill: u32,
    },
    Abandon {
        client: u32,
    },
    EvictAnswer {
        place: u32,
    },
    EvictNode {
        place: u32,
    },
    Renew,
    /// no call: from here on another tally is lent, with these counts
    NewTally {
        counts: Tally,
    },
    /// no call: somebody else writes one number into a memory
    Damage {
        memory: u8,
        place: u32,
        value: u32,
    },
}

/// What is no call returns this.
const NOTHING: Reply = Reply { number: 0, count: 0, ending: 0 };

/// The numbers of a step's tray as it is lent.
pub fn tray_of(length: u32, fill: u32) -> impl Iterator<Item = u32> {
    (0..length).map(move |i| fill.wrapping_add(i.wrapping_mul(0x9E37_79B1)))
}

/// The calls, and from begin_read to abandon once more with a tally.
pub const KIND_NAMES: [&str; 20] = [
    "open",
    "begin_read",
    "begin_count",
    "begin_read_within",
    "begin_count_within",
    "begin_insert",
    "begin_delete",
    "step",
    "abandon",
    "evict_answer",
    "evict_node",
    "renew",
    "begin_read_tallied",
    "begin_count_tallied",
    "begin_read_within_tallied",
    "begin_count_within_tallied",
    "begin_insert_tallied",
    "begin_delete_tallied",
    "step_tallied",
    "abandon_tallied",
];

/// The places of steps and of abandonings in `KIND_NAMES`; and how many places after it a call stands that is lent a tally.
pub const STEP: usize = 7;
pub const ABANDON: usize = 8;
pub const TALLIED: usize = 11;

impl Call {
    /// Its place in `KIND_NAMES`, without a tally; none for what is no call.
    pub fn kind(&self) -> Option<usize> {
        match self {
            Call::Open { .. } => Some(0),
            Call::BeginRead { .. } => Some(1),
            Call::BeginCount { .. } => Some(2),
            Call::BeginReadWithin { .. } => Some(3),
            Call::BeginCountWithin { .. } => Some(4),
            Call::BeginInsert { .. } => Some(5),
            Call::BeginDelete { .. } => Some(6),
            Call::Step { .. } => Some(STEP),
            Call::Abandon { .. } => Some(ABANDON),
            Call::EvictAnswer { .. } => Some(9),
            Call::EvictNode { .. } => Some(10),
            Call::Renew => Some(11),
            Call::NewTally { .. } | Call::Damage { .. } => None,
        }
    }

    /// Of a begin of a read: the desk, and what it asks.
    pub fn read(&self) -> Option<(u32, Ask)> {
        let ask = |asked: &Asked, counts, within| Ask { asked: *asked, counts, within };
        match self {
            Call::BeginRead { client, asked } => Some((*client, ask(asked, false, None))),
            Call::BeginCount { client, asked } => Some((*client, ask(asked, true, None))),
            Call::BeginReadWithin { client, asked, within } => Some((*client, ask(asked, false, Some(*within)))),
            Call::BeginCountWithin { client, asked, within } => Some((*client, ask(asked, true, Some(*within)))),
            _ => None,
        }
    }

    /// The desk of a begin, a step or an abandoning: these can be lent a tally.
    pub fn client(&self) -> Option<u32> {
        match self {
            Call::BeginRead { client, .. }
            | Call::BeginCount { client, .. }
            | Call::BeginReadWithin { client, .. }
            | Call::BeginCountWithin { client, .. }
            | Call::BeginInsert { client, .. }
            | Call::BeginDelete { client, .. }
            | Call::Step { client, .. }
            | Call::Abandon { client } => Some(*client),
            _ => None,
        }
    }

    /// Lays a step's own tray out, as it is before the step.
    pub fn lay_tray(&self, hall: &mut Hall) {
        if let Call::Step { tray, fill, .. } = self {
            hall.memories[4].clear();
            hall.memories[4].extend(tray_of(*tray, *fill));
        }
    }

    /// Makes the call on one side's memories, without a tally.
    pub fn make(&self, side: &dyn Side, hall: &mut Hall) -> Reply {
        self.lay_tray(hall);
        let (m, tray, _) = hall.lend();
        match self {
            Call::Open { k } => side.open(m, *k),
            Call::BeginRead { client, asked } => side.begin_read(m, *client, asked.words()),
            Call::BeginCount { client, asked } => side.begin_count(m, *client, asked.words()),
            Call::BeginReadWithin { client, asked, within } => side.begin_read_within(m, *client, asked.words(), *within),
            Call::BeginCountWithin { client, asked, within } => side.begin_count_within(m, *client, asked.words(), *within),
            Call::BeginInsert { client, asked } => side.begin_insert(m, *client, asked.words()),
            Call::BeginDelete { client, asked } => side.begin_delete(m, *client, asked.words()),
            Call::Step { client, .. } => side.step(m, tray, *client),
            Call::Abandon { client } => side.abandon(m, *client),
            Call::EvictAnswer { place } => side.evict_answer(m, *place),
            Call::EvictNode { place } => side.evict_node(m, *place),
            Call::Renew => side.renew(m),
            Call::NewTally { counts } => {
                hall.memories[TALLY].copy_from_slice(counts);
                NOTHING
            }
            Call::Damage { memory, place, value } => {
                hall.memories[*memory as usize][*place as usize] = *value;
                NOTHING
            }
        }
    }
}

impl fmt::Display for Asked {
    /// As document 01 writes a query, or the bare numbers where it is none.
    fn fmt(&self, f: &mut fmt::Formatter) -> fmt::Result {
        let words = self.words();
        let sound = words.len().is_multiple_of(2) && words.chunks(2).all(|c| c[0] == 1 || c == [0, 0]);
        if !sound {
            return write!(f, "{words:?}");
        }
        let columns: Vec<String> = words.chunks(2).map(|c| if c[0] == 0 { "*".into() } else { c[1].to_string() }).collect();
        write!(f, "({})", columns.join(","))
    }
}

impl fmt::Display for Within {
    fn fmt(&self, f: &mut fmt::Formatter) -> fmt::Result {
        write!(f, "column {} from {} to {}", self.column, self.lowest, self.highest)
    }
}

impl fmt::Display for Call {
    fn fmt(&self, f: &mut fmt::Formatter) -> fmt::Result {
        let name = self.kind().map_or("damage", |kind| KIND_NAMES[kind]);
        match self {
            Call::Open { k } => write!(f, "{name} k {k}"),
            Call::BeginRead { client, asked } | Call::BeginCount { client, asked } => write!(f, "{name} desk {client} {asked}"),
            Call::BeginReadWithin { client, asked, within } | Call::BeginCountWithin { client, asked, within } => {
                write!(f, "{name} desk {client} {asked} {within}")
            }
            Call::BeginInsert { client, asked } | Call::BeginDelete { client, asked } => write!(f, "{name} desk {client} {asked}"),
            Call::Step { client, tray, .. } if *tray < 128 => write!(f, "{name} desk {client}, tray of {tray}"),
            Call::Step { client, .. } | Call::Abandon { client } => write!(f, "{name} desk {client}"),
            Call::EvictAnswer { place } | Call::EvictNode { place } => write!(f, "{name} place {place}"),
            Call::Renew => write!(f, "{name}"),
            Call::NewTally { counts } => write!(f, "another tally {counts:?}"),
            Call::Damage { memory, place, value } => {
                write!(f, "{name} {}[{place}] := {value}", MEMORY_NAMES[*memory as usize])
            }
        }
    }
}
