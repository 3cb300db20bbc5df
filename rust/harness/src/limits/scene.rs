//! What is done before a row's call, as data: calls and numbers put into memories that hold noise; and the calls of the rows.
//! Leans on call, made and hall, and on the twin's layout for places alone: no length and no size is taken from there.

use super::{Limit, Row, MORE};
use crate::call::{Ask, Asked, Call, Within};
use crate::hall::Hall;
use crate::made::Made;
use crate::side::{Reply, Side};
pub use twin::layout::{CLIENT_CHANGED, CLIENT_ENTRY, CLIENT_FULL, CLIENT_KIND, CLIENT_STEPS, CLIENT_WIDTH, ENTRY_LENGTH, ENTRY_LIST};
pub use twin::layout::{COUNT_BIT, DELETE, ENTRY_REVISIONS, ENTRY_WIDTH, HEAD, INSERT, KEY_HIGHEST, KEY_LOWEST, NODE_PENDING, NODE_REVISION};
pub use twin::layout::{NODE_WIDTH, RANGE_UNIT, READ, TAG_VALUE};

/// A memory (0 table, 1 nodes, 2 answers, 3 desks, 4 tray, 5 tally) and a place in it.
pub type Place = (usize, usize);

pub const RECORD_COUNT: Place = (0, 0);
pub const FLOOR: Place = (1, 0);
pub const NODE_COUNT: Place = (1, 1);
pub const ANSWER_COUNT: Place = (2, 0);
pub const COLUMNS: Place = (3, 0);

pub fn record(k: u32, i: u32, column: u32) -> Place {
    (0, HEAD + (i * k + column) as usize)
}
pub fn node(i: u32, at: usize) -> Place {
    (1, HEAD + i as usize * NODE_WIDTH + at)
}
pub fn answer(i: u32, at: usize) -> Place {
    (2, HEAD + i as usize * ENTRY_WIDTH + at)
}
/// client: the desk
pub fn client(client: u32, at: usize) -> Place {
    (3, HEAD + client as usize * CLIENT_WIDTH + at)
}

/// "an idle desk is all 0"
pub fn idle(desk: u32) -> impl Iterator<Item = (Place, u32)> {
    (0..CLIENT_WIDTH).map(move |at| (client(desk, at), 0))
}

/// What begins: a read that wants a list, one that wants a count, an insert, a delete. At its desk a count is a read.
pub const COUNTS: u32 = READ | COUNT_BIT;
pub const READS: [u32; 2] = [READ, COUNTS];
pub const KINDS: [u32; 4] = [READ, COUNTS, INSERT, DELETE];

pub fn is_write(kind: u32) -> bool {
    !READS.contains(&kind)
}

/// What a key's first number has beside the marks.
pub fn wanted(kind: u32) -> u32 {
    kind & COUNT_BIT
}

/// A set of columns, bit c for column c: all that there are.
pub const ALL: u32 = u32::MAX;

/// The marks of k columns that all name a value.
pub fn marks(k: u32) -> u32 {
    (1 << k) - 1
}

/// k columns; those named have the value v, the others are stars.
pub fn query(k: u32, named: u32, v: u32) -> Asked {
    let words: Vec<u32> = (0..k).flat_map(|c| if named >> c & 1 == 1 { [1, v] } else { [0, 0] }).collect();
    Asked::new(&words)
}

/// 7 in all columns but the last, and there `last`.
pub fn one_record(k: u32, last: u32) -> Asked {
    let words: Vec<u32> = (1..=k).flat_map(|c| [1, if c < k { 7 } else { last }]).collect();
    Asked::new(&words)
}

pub fn begin(kind: u32, client: u32, asked: Asked) -> Call {
    match kind {
        READ => Call::BeginRead { client, asked },
        COUNTS => Call::BeginCount { client, asked },
        INSERT => Call::BeginInsert { client, asked },
        _ => Call::BeginDelete { client, asked },
    }
}

/// A read of this kind, READ or COUNTS, with a range of one column.
pub fn begin_within(kind: u32, client: u32, asked: Asked, (column, lowest, highest): (u32, u32, u32)) -> Call {
    Ask { asked, counts: kind == COUNTS, within: Some(Within { column, lowest, highest }) }.begin(client)
}

/// A begin of each kind, each accepted at an idle desk of a hall of k columns: 5 is named in every column, and but for the last by those with a
/// range, which is the last's. With no column there is none to give a range for.
pub fn begins(k: u32, client: u32) -> Vec<Call> {
    let plain = KINDS.iter().map(|kind| begin(*kind, client, query(k, ALL, 5)));
    let but_last = query(k, marks(k) >> 1, 5);
    let ranged = READS.iter().filter(|_| k > 0).map(|kind| begin_within(*kind, client, but_last, (k - 1, 4, 9)));
    plain.chain(ranged).collect()
}

/// The row says how long the tray is that is lent.
pub fn step(client: u32) -> Call {
    Call::Step { client, tray: MORE[4] as u32, fill: 4_000_000_000 }
}
pub fn abandon(client: u32) -> Call {
    Call::Abandon { client }
}

/// One thing that is done to make a scene.
#[derive(Clone)]
enum Deed {
    /// a call that is to be accepted
    Made(Made),
    /// a call that is to be refused with this number
    Refused(Made, u32),
    /// n numbers from a place on, each `stride` places after the one before and greater by `more`
    Put { at: Place, stride: usize, n: u32, first: u32, more: u32 },
}

#[derive(Clone)]
pub struct Scene {
    pub k: u32,
    deeds: Vec<Deed>,
}

impl Scene {
    /// Every number is noise; what an opening does not clear keeps it.
    pub fn noise(k: u32) -> Scene {
        Scene { k, deeds: Vec::new() }
    }
    pub fn opened(k: u32) -> Scene {
        Scene::noise(k).made(Call::Open { k })
    }

    pub fn made(mut self, call: impl Into<Made>) -> Scene {
        self.deeds.push(Deed::Made(call.into()));
        self
    }
    pub fn refused(mut self, call: Made, number: u32) -> Scene {
        self.deeds.push(Deed::Refused(call, number));
        self
    }

    pub fn series(mut self, at: Place, stride: usize, n: u32, first: u32, more: u32) -> Scene {
        self.deeds.push(Deed::Put { at, stride, n, first, more });
        self
    }
    pub fn put(self, at: Place, value: u32) -> Scene {
        self.series(at, 1, 1, value, 0)
    }

    /// n records, ascending: 7 in all columns but the last, and there `first`, `first` + 1, ..
    pub fn records(self, n: u32, first: u32) -> Scene {
        let last = self.k - 1;
        self.records_by(last, n, first)
    }
    /// The same by another column than the last.
    pub fn records_by(self, column: u32, n: u32, first: u32) -> Scene {
        let k = self.k;
        let sevens = |scene: Scene, c| scene.series(record(k, 0, c), k as usize, n, 7, 0);
        let scene = (0..k).fold(self.put(RECORD_COUNT, n), sevens);
        scene.series(record(k, 0, column), k as usize, n, first, 1)
    }

    /// A record for each of these values of one column, which ascend.
    pub fn records_of(self, column: u32, values: &[u32]) -> Scene {
        let k = self.k;
        let scene = self.records_by(column, values.len() as u32, 0);
        (0..).zip(values).fold(scene, |scene, (i, value)| scene.put(record(k, i, column), *value))
    }

    /// n nodes of values that no query here names, with that many marks each and the counters 2, 3, ..
    pub fn nodes(self, n: u32, pending: u32) -> Scene {
        let tags = (0..self.k).map(|c| TAG_VALUE << (8 * c)).sum();
        let scene = self.put(NODE_COUNT, n).series(node(0, 0), NODE_WIDTH, n, tags, 0).series(node(0, 1), NODE_WIDTH, n, 1000, 1);
        scene.series(node(0, NODE_PENDING), NODE_WIDTH, n, pending, 0).series(node(0, NODE_REVISION), NODE_WIDTH, n, 2, 1)
    }

    /// n filed answers of no records, for reads that name the first column as 1000, 1001, ..
    pub fn answers(self, n: u32) -> Scene {
        self.put(ANSWER_COUNT, n).series(answer(0, 0), ENTRY_WIDTH, n, 1, 0).series(answer(0, 1), ENTRY_WIDTH, n, 1000, 1)
    }

    pub fn begun(self, kind: u32, client: u32, named: u32, v: u32) -> Scene {
        let asked = query(self.k, named, v);
        self.made(begin(kind, client, asked))
    }
    pub fn steps(self, client: u32, n: u32) -> Scene {
        (0..n).fold(self, |scene, _| scene.made(step(client)))
    }

    /// A row: this scene and a call in it, `value` standing on one side of the limit.
    pub fn row(&self, limit: Limit, value: u32, call: impl Into<Made>, wanted: Reply) -> Row {
        let written = (wanted.count * self.k) as usize;
        Row { limit, value, scene: self.clone(), lent: MORE, call: call.into(), wanted, written, after: Vec::new() }
    }

    /// The hall as one side's calls make it, or the call that this side did not accept, or not refuse as it is to be.
    pub fn set_up(&self, side: &dyn Side) -> Result<Hall, Made> {
        let mut hall = Hall::zeros([MORE[0], MORE[1], MORE[2], MORE[3]]);
        for (i, number) in hall.memories.iter_mut().flatten().enumerate() {
            *number = (i as u32).wrapping_mul(2_654_435_769);
        }
        for deed in &self.deeds {
            match *deed {
                // "A call is accepted if it returns 0, 12 or 13."
                Deed::Made(call) if ![0, 12, 13].contains(&call.make(side, &mut hall).number) => return Err(call),
                Deed::Refused(call, number) if call.make(side, &mut hall).number != number => return Err(call),
                Deed::Made(_) | Deed::Refused(..) => {}
                Deed::Put { at: (memory, place), stride, n, first, more } => {
                    (0..n).for_each(|i| hall.memories[memory][place + i as usize * stride] = first.wrapping_add(i.wrapping_mul(more)))
                }
            }
        }
        Ok(hall)
    }
}
