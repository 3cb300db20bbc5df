//! The two sides that are timed, the library and its twin, and what they are made to do. Leans on mondzafeky, the twin and hall.

use crate::hall::Hall;
use twin::layout::{HEAD, TABLE_LEAST};
use twin::range::Range;

/// A query as a begin is given it: a mark and a value for each column; and a range, if there is
/// one.
#[derive(Clone, Copy, PartialEq, Eq, Debug)]
pub struct Asked {
    words: [u32; 8],
    len: usize,
    range: Option<Range>,
}

impl Asked {
    /// One column for each value; none is a star.
    pub fn new(columns: &[Option<u32>]) -> Asked {
        let mut asked = Asked { words: [0; 8], len: 2 * columns.len(), range: None };
        for (column, pair) in columns.iter().zip(asked.words.chunks_mut(2)) {
            pair.copy_from_slice(&column.map_or([0, 0], |value| [1, value]));
        }
        asked
    }

    /// The same query with a range in this column, which is a star.
    pub fn within(self, column: usize, lowest: u32, highest: u32) -> Asked {
        Asked { range: Some(Range { column: column as u32, lowest, highest }), ..self }
    }

    pub fn words(&self) -> &[u32] {
        &self.words[..self.len]
    }

    /// The named values and the stars, as they came.
    pub fn columns(&self) -> impl Iterator<Item = Option<u32>> + '_ {
        self.words().chunks(2).map(|pair| (pair[0] == 1).then_some(pair[1]))
    }
}

#[derive(Clone, Copy, PartialEq, Eq, Debug)]
pub enum Kind {
    Read,
    /// a read that wants a count
    Count,
    Insert,
    Delete,
}

/// What is timed: one call, or a whole read or write from its begin to its end.
#[derive(Clone, Copy, Debug)]
pub enum Act {
    /// no call: what the timing itself costs
    Nothing,
    /// no call: the table's numbers read once, alike on both sides
    ReadAll,
    Open(u32),
    Begin(Kind, u32, Asked),
    Step(u32),
    Abandon(u32),
    EvictAnswer(u32),
    EvictNode(u32),
    Renew,
    Whole(Kind, u32, Asked),
    /// these three are lent the hall's tally
    BeginTallied(Kind, u32, Asked),
    StepTallied(u32),
    AbandonTallied(u32),
}

impl Act {
    /// The same call, lent a tally; only a begin, a step and an abandoning can be.
    pub fn tallied(self) -> Act {
        match self {
            Act::Begin(kind, client, asked) => Act::BeginTallied(kind, client, asked),
            Act::Step(client) => Act::StepTallied(client),
            Act::Abandon(client) => Act::AbandonTallied(client),
            other => unreachable!("{other:?} is lent no tally"),
        }
    }
}

/// The paper's number, how many records were answered or counted, and what ended.
#[derive(Clone, Copy, PartialEq, Eq, Debug)]
pub struct Reply {
    pub number: u32,
    pub count: u32,
    pub ending: u32,
}

pub const ACCEPTED: Reply = Reply { number: 0, count: 0, ending: 0 };

pub trait Side {
    fn open(h: &mut Hall, k: u32) -> Reply;
    fn begin(h: &mut Hall, kind: Kind, client: u32, query: &[u32]) -> Reply;
    fn begin_within(h: &mut Hall, kind: Kind, client: u32, query: &[u32], range: &Range) -> Reply;
    fn step(h: &mut Hall, client: u32) -> Reply;
    fn abandon(h: &mut Hall, client: u32) -> Reply;
    fn evict_answer(h: &mut Hall, place: u32) -> Reply;
    fn evict_node(h: &mut Hall, place: u32) -> Reply;
    fn renew(h: &mut Hall) -> Reply;
    fn begin_tallied(h: &mut Hall, kind: Kind, client: u32, query: &[u32]) -> Reply;
    fn step_tallied(h: &mut Hall, client: u32) -> Reply;
    fn abandon_tallied(h: &mut Hall, client: u32) -> Reply;
}

pub struct Library;
pub struct Twin;

/// Both sides offer the same calls on types of their own; the ends of a range and a tally they take
/// in different forms.
macro_rules! side {
    ($side:ident, $memories:ty, tally by $tally:path, ends of $range:ident: $($end:expr),+) => {
        impl Side for $side {
            #[inline(always)]
            fn open(h: &mut Hall, k: u32) -> Reply {
                side!(h, $memories, m, m.open(k))
            }
            #[inline(always)]
            fn begin(h: &mut Hall, kind: Kind, client: u32, query: &[u32]) -> Reply {
                match kind {
                    Kind::Read => side!(h, $memories, m, m.begin_read(client, query)),
                    Kind::Count => side!(h, $memories, m, m.begin_count(client, query)),
                    Kind::Insert => side!(h, $memories, m, m.begin_insert(client, query)),
                    Kind::Delete => side!(h, $memories, m, m.begin_delete(client, query)),
                }
            }
            #[inline(always)]
            fn begin_within(h: &mut Hall, kind: Kind, client: u32, query: &[u32], $range: &Range) -> Reply {
                match kind {
                    Kind::Read => side!(h, $memories, m, m.begin_read_within(client, query, $range.column, $($end),+)),
                    Kind::Count => side!(h, $memories, m, m.begin_count_within(client, query, $range.column, $($end),+)),
                    Kind::Insert | Kind::Delete => unreachable!("a write has no range"),
                }
            }
            #[inline(always)]
            fn step(h: &mut Hall, client: u32) -> Reply {
                let tray = &mut h.tray;
                let r = <$memories>::step(
                    &mut Lend { table: &mut h.table, nodes: &mut h.nodes, answers: &mut h.answers, clients: &mut h.clients }.into(),
                    tray,
                    client,
                );
                Reply { number: r.number, count: r.count, ending: r.ending }
            }
            #[inline(always)]
            fn abandon(h: &mut Hall, client: u32) -> Reply {
                side!(h, $memories, m, m.abandon(client))
            }
            #[inline(always)]
            fn evict_answer(h: &mut Hall, place: u32) -> Reply {
                side!(h, $memories, m, m.evict_answer(place))
            }
            #[inline(always)]
            fn evict_node(h: &mut Hall, place: u32) -> Reply {
                side!(h, $memories, m, m.evict_node(place))
            }
            #[inline(always)]
            fn renew(h: &mut Hall) -> Reply {
                side!(h, $memories, m, m.renew())
            }
            #[inline(always)]
            fn begin_tallied(h: &mut Hall, kind: Kind, client: u32, query: &[u32]) -> Reply {
                let tally = $tally(&mut h.tally);
                match kind {
                    Kind::Read => side!(h, $memories, m, m.begin_read_tallied(tally, client, query)),
                    Kind::Count => side!(h, $memories, m, m.begin_count_tallied(tally, client, query)),
                    Kind::Insert => side!(h, $memories, m, m.begin_insert_tallied(tally, client, query)),
                    Kind::Delete => side!(h, $memories, m, m.begin_delete_tallied(tally, client, query)),
                }
            }
            #[inline(always)]
            fn step_tallied(h: &mut Hall, client: u32) -> Reply {
                let (tray, tally) = (&mut h.tray, $tally(&mut h.tally));
                side!(h, $memories, m, m.step_tallied(tray, tally, client))
            }
            #[inline(always)]
            fn abandon_tallied(h: &mut Hall, client: u32) -> Reply {
                let tally = $tally(&mut h.tally);
                side!(h, $memories, m, m.abandon_tallied(tally, client))
            }
        }
    };
    ($h:ident, $memories:ty, $m:ident, $call:expr) => {{
        let mut $m: $memories = Lend { table: &mut $h.table, nodes: &mut $h.nodes, answers: &mut $h.answers, clients: &mut $h.clients }.into();
        let r = $call;
        Reply { number: r.number, count: r.count, ending: r.ending }
    }};
}

/// The four memories, to be turned into a side's own type.
struct Lend<'a> {
    table: &'a mut [u32],
    nodes: &'a mut [u32],
    answers: &'a mut [u32],
    /// the desks
    clients: &'a mut [u32],
}

impl<'a> From<Lend<'a>> for mondzafeky::Memories<'a> {
    #[inline(always)]
    fn from(m: Lend<'a>) -> Self {
        mondzafeky::Memories { table: m.table, nodes: m.nodes, answers: m.answers, clients: m.clients }
    }
}

impl<'a> From<Lend<'a>> for twin::Memories<'a> {
    #[inline(always)]
    fn from(m: Lend<'a>) -> Self {
        twin::Memories { table: m.table, nodes: m.nodes, answers: m.answers, clients: m.clients }
    }
}

side!(Library, mondzafeky::Memories<'_>, tally by in_fields, ends of range: range.lowest..=range.highest);
side!(Twin, twin::Memories<'_>, tally by std::convert::identity, ends of range: range.lowest, range.highest);

/// The counts as the library takes them. They are not copied: that would be timed too.
#[inline(always)]
fn in_fields(counts: &mut twin::Tally) -> &mut mondzafeky::Tally {
    const { assert!(size_of::<mondzafeky::Tally>() == size_of::<twin::Tally>() && align_of::<mondzafeky::Tally>() == align_of::<twin::Tally>()) };
    // SAFETY: both are nine u32 one after another, the library's by `repr(C)`, and the borrow goes over whole.
    unsafe { &mut *std::ptr::from_mut(counts).cast() }
}

/// Makes the call. Never inlined, so that both sides are entered alike.
#[inline(never)]
pub fn perform<S: Side>(h: &mut Hall, act: &Act) -> Reply {
    match act {
        Act::Nothing => ACCEPTED,
        Act::ReadAll => read_all(h),
        Act::Open(k) => S::open(h, *k),
        Act::Begin(kind, client, asked) => begin::<S>(h, *kind, *client, asked),
        Act::Step(client) => S::step(h, *client),
        Act::Abandon(client) => S::abandon(h, *client),
        Act::EvictAnswer(place) => S::evict_answer(h, *place),
        Act::EvictNode(place) => S::evict_node(h, *place),
        Act::Renew => S::renew(h),
        Act::Whole(kind, client, asked) => whole::<S>(h, *kind, *client, asked),
        Act::BeginTallied(kind, client, asked) => S::begin_tallied(h, *kind, *client, asked.words()),
        Act::StepTallied(client) => S::step_tallied(h, *client),
        Act::AbandonTallied(client) => S::abandon_tallied(h, *client),
    }
}

#[inline(always)]
fn begin<S: Side>(h: &mut Hall, kind: Kind, client: u32, asked: &Asked) -> Reply {
    match &asked.range {
        None => S::begin(h, kind, client, asked.words()),
        Some(range) => S::begin_within(h, kind, client, asked.words(), range),
    }
}

/// Adds up the table's numbers, in a loop that the compiler makes vector code of. The sum goes out as the count, so that the reading is not
/// dropped. Never inlined, so that both sides run the same instructions at the same place.
#[inline(never)]
fn read_all(h: &Hall) -> Reply {
    let sum = h.table[HEAD..TABLE_LEAST].iter().fold(0, |sum: u32, number| sum.wrapping_add(*number));
    Reply { count: sum, ..ACCEPTED }
}

/// A read or write from its begin to the step that ends it; the last reply.
fn whole<S: Side>(h: &mut Hall, kind: Kind, client: u32, asked: &Asked) -> Reply {
    let mut reply = begin::<S>(h, kind, client, asked);
    while reply == ACCEPTED {
        reply = S::step(h, client);
    }
    reply
}
