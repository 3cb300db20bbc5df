//! Which limits of document 01, and of S-1, S-3, S-4 and S-6 in document 02, a run has met, on which side. It looks at one hall before and after a
//! call; the other is the same. And the limit of each count of a tally (S-7). (What is met of the value 0, S-5, is told by zeros.) Leans on call,
//! made, hall and the twin's layout, queries and ranges.

use crate::call::{Asked, Call, Within};
use crate::hall::{Hall, Tally, LEAST};
use crate::made::Made;
use crate::side::Reply;
use twin::layout::*;
use twin::query::{Label, Query};
use twin::range::Range;
use twin::PLAIN;

pub const LIMITS: [&str; 55] = [
    "a list of 32 records is taken",
    "33 records: 12",
    "an insert at 2,047 records goes in",
    "an insert at 2,048 of one that is there",
    "an insert at 2,048 of a new one: full",
    "filed with 63 kept",
    "filed with 64 kept, the oldest goes",
    "a node added with 1,023 there",
    "a node added with 1,024 there, one is put out",
    "1,024 nodes, none unmarked: 3",
    "marks go from 11 to 12",
    "marks at 12: 3",
    "a write begins at highest counter 4,294,967,103",
    "a write at highest counter 4,294,967,104: 10",
    "a counter is raised to its largest",
    "a counter at its largest: 3",
    "desk 11 accepted",
    "desk 12: 4",
    "open with k 1",
    "open with k 4",
    "open with k 0: 2",
    "open with k 5: 2",
    "a tray of 127: 1",
    "33 records: a count of 33",
    "2,048 records: a count of 2,048",
    "a count above 32 is answered from file",
    "the longest filed count is 2,048",
    "the longest filed count is 2,049: 3",
    "the called desk holds a count of 2,048",
    "the called desk holds a count of 2,049: 3",
    "a range, and a record one below its lowest",
    "a range, and a record one above its highest",
    "a range, and a record at its lowest",
    "a range, and a record at its highest",
    "32 records within a range are listed",
    "33 records within a range: 12",
    "a count within a range above 32",
    "a range with equal ends begins",
    "a range reversed by one: 14",
    "a range of all values begins",
    "a range of column k - 1 begins",
    "a range of column k: 2",
    "a range of a named column: 2",
    "the called desk holds a range reversed by one: 3",
    "the called desk holds a range of column k: 3",
    "a write is abandoned after its last mark",
    "a write is abandoned with all raises left",
    "a write is abandoned with one raise left",
    "a write is abandoned, a raised node is not there",
    "an abandoning raises a counter to its largest",
    "a node unmarked or missing among the raises left: 3",
    "a counter at its largest among the raises left: 3",
    "a raise after no change leaves a counter at its largest",
    "an abandoning after no change leaves one",
    "a last raise of a write noted as changed and as full",
];

/// What is known before a call.
#[derive(Clone, Copy)]
pub enum Before {
    Nothing,
    WriteBegin {
        highest: u32,
    },
    Look {
        missing: bool,
        nodes: u32,
    },
    ReadTable {
        matches: usize,
    },
    CountTable {
        matches: usize,
    },
    /// the table step of a read with a range: records of its subspace that stand at an edge of it, the first of the four sorts in `LIMITS`
    RangeTable {
        counts: bool,
        matches: usize,
        edge: Option<usize>,
    },
    /// the called desk reads and holds a range of column k, or one that is reversed by one
    HoldsColumn,
    HoldsReversed,
    /// the called desk holds a count of all records, or of one more
    Holds {
        count: usize,
    },
    /// no other case: the longest filed count, where no filed list is too long
    Filed {
        count: usize,
    },
    File {
        kept: u32,
    },
    Announce {
        pending: Option<u32>,
        nodes: u32,
    },
    Insert {
        records: u32,
    },
    /// lifts: the desk has noted a change
    Raise {
        revision: Option<u32>,
        lifts: bool,
    },
    /// a write's: the limit in `LIMITS` that is met if it is accepted, and if it is 3
    Abandon {
        accepted: Option<usize>,
        unsound: Option<usize>,
    },
}

pub fn before(call: &Call, hall: &Hall) -> Before {
    let whole = (0..4).all(|m| hall.memories[m].len() >= LEAST[m]) && (1..=4).contains(&hall.columns());
    let counts = hall.get(0, COUNT) <= 2048 && hall.get(1, NODE_COUNT) <= 1024 && hall.get(2, COUNT) <= 64;
    if !whole || !counts {
        return Before::Nothing;
    }
    match call {
        Call::BeginInsert { .. } | Call::BeginDelete { .. } => {
            let revisions = twin::nodes::all(hall.nodes()).iter().map(|node| node[NODE_REVISION]);
            Before::WriteBegin { highest: revisions.fold(hall.nodes()[FLOOR], u32::max) }
        }
        Call::Step { client, .. } if *client < 12 => before_step(*client, hall),
        Call::Abandon { client } if *client < 12 => before_abandoning(*client, hall),
        Call::BeginRead { .. } | Call::BeginCount { .. } => before_filed(hall),
        _ => Before::Nothing,
    }
}

/// A begin of a read meets no limit of its own, but those of what is filed.
fn before_filed(hall: &Hall) -> Before {
    let filed = || hall.answers()[HEAD..].chunks(ENTRY_WIDTH).take(hall.answers()[COUNT] as usize).map(|e| (e[0] & COUNT_BIT != 0, e[ENTRY_LENGTH]));
    let long = filed().any(|(counts, length)| !counts && length as usize > LIST);
    match filed().filter(|(counts, _)| *counts).map(|(_, count)| count as usize).max() {
        Some(count) if !long => Before::Filed { count },
        _ => Before::Nothing,
    }
}

/// The numbers of a desk, and its key among them.
fn at_client(client: u32, hall: &Hall) -> (&[u32], &[u32; KEY_WIDTH]) {
    let own = &hall.clients()[HEAD + client as usize * CLIENT_WIDTH..][..CLIENT_WIDTH];
    (own, own[CLIENT_ENTRY..].first_chunk().unwrap())
}

fn node_of(hall: &Hall, label: &Label) -> Option<[u32; NODE_WIDTH]> {
    twin::nodes::find(hall.nodes(), label).map(|place| twin::nodes::all(hall.nodes())[place])
}

fn before_step(client: u32, hall: &Hall) -> Before {
    let (own, key) = at_client(client, hall);
    let Some(query) = Query::kept(hall.columns() as usize, key) else {
        return if own[CLIENT_KIND] == READ { before_unsound(hall, key) } else { Before::Nothing };
    };
    let (kind, steps, nodes) = (own[CLIENT_KIND], own[CLIENT_STEPS], hall.nodes()[NODE_COUNT]);
    let node = |label| node_of(hall, &label);
    let (looks, announcements) = (query.looks(), query.announcements());
    let length = own[CLIENT_ENTRY + ENTRY_LENGTH] as usize;
    match kind {
        READ if query.counts && (length == RECORDS || length == RECORDS + 1) => Before::Holds { count: length },
        READ if steps < looks => Before::Look { missing: node(query.read_label(steps)).is_none(), nodes },
        READ if steps == looks + 1 && query.range.is_some() => {
            Before::RangeTable { counts: query.counts, matches: matches(hall, &query), edge: edge(hall, &query) }
        }
        READ if steps == looks + 1 && query.counts => Before::CountTable { matches: matches(hall, &query) },
        READ if steps == looks + 1 => Before::ReadTable { matches: matches(hall, &query) },
        READ if steps == looks + 2 => Before::File { kept: hall.answers()[COUNT] },
        INSERT | DELETE if steps < announcements => {
            Before::Announce { pending: node(query.write_label::<PLAIN>(steps)).map(|n| n[NODE_PENDING]), nodes }
        }
        INSERT if steps == announcements => Before::Insert { records: hall.table()[COUNT] },
        INSERT | DELETE if steps > announcements && steps <= 2 * announcements => {
            let node = node(query.write_label::<PLAIN>(steps - announcements - 1));
            Before::Raise { revision: node.filter(|n| n[NODE_PENDING] > 0).map(|n| n[NODE_REVISION]), lifts: own[CLIENT_CHANGED] != 0 }
        }
        _ => Before::Nothing,
    }
}

/// Of a desk that writes: how far it is from its table step, and what stands at the nodes that it has raised and has still to raise.
fn before_abandoning(client: u32, hall: &Hall) -> Before {
    let (own, key) = at_client(client, hall);
    let (kind, steps) = (own[CLIENT_KIND], own[CLIENT_STEPS]);
    let Some(query) = Query::kept(hall.columns() as usize, key).filter(|_| [INSERT, DELETE].contains(&kind)) else {
        return Before::Nothing;
    };
    let announcements = query.announcements();
    if steps <= announcements || steps > 2 * announcements {
        return Before::Abandon { accepted: (steps == announcements).then_some(45), unsound: None };
    }
    let node = |number| node_of(hall, &query.write_label::<PLAIN>(number));
    let raised = steps - announcements - 1;
    let left = || (raised..announcements).map(node);
    let is_at = |revision| left().flatten().any(|node| node[NODE_REVISION] == revision);
    let unmarked = left().any(|node| node.is_none_or(|node| node[NODE_PENDING] == 0));
    let lifts = own[CLIENT_CHANGED] != 0;
    let unsound = if unmarked { Some(50) } else { (lifts && is_at(u32::MAX)).then_some(51) };
    let accepted = match announcements - raised {
        _ if lifts && is_at(u32::MAX - 1) => Some(49),
        _ if !lifts && is_at(u32::MAX) => Some(53),
        _ if (0..raised).map(node).any(|node| node.is_none()) => Some(48),
        1 => Some(47),
        left => (left == announcements).then_some(46),
    };
    Before::Abandon { accepted, unsound }
}

/// What is wrong with a desk's range.
fn before_unsound(hall: &Hall, key: &[u32; KEY_WIDTH]) -> Before {
    match Range::kept(key) {
        Some(range) if range.column == hall.columns() => Before::HoldsColumn,
        Some(range) if range.highest.checked_add(1) == Some(range.lowest) => Before::HoldsReversed,
        _ => Before::Nothing,
    }
}

/// The records of the query's subspace, whatever its range; of one with a range, those that have no 0 in its column, which it skips.
fn records<'a>(hall: &'a Hall, query: &'a Query) -> impl Iterator<Item = &'a [u32]> {
    let all = hall.table()[HEAD..].chunks(query.k).take(hall.table()[COUNT] as usize);
    let measured = |r: &[u32]| query.range.is_none_or(|range| r[range.column as usize] != 0);
    all.filter(move |r| measured(r) && (0..query.k).all(|c| !query.names(c) || r[c] != 0 && r[c] == query.values[c]))
}

fn matches(hall: &Hall, query: &Query) -> usize {
    let within = |range: Range, r: &[u32]| (range.lowest..=range.highest).contains(&r[range.column as usize]);
    records(hall, query).filter(|r| query.range.is_none_or(|range| within(range, r))).count()
}

/// One below, one above, at the lowest, at the highest: the first that a record of the subspace is.
fn edge(hall: &Hall, query: &Query) -> Option<usize> {
    let range = query.range?;
    let edges = [range.lowest.checked_sub(1), range.highest.checked_add(1), Some(range.lowest), Some(range.highest)];
    edges.iter().position(|edge| edge.is_some_and(|value| records(hall, query).any(|r| r[range.column as usize] == value)))
}

/// Which count of the tally the call has met the limit of: raised to its largest (0), or there alone at a 15 (1).
pub fn count_met(made: &Made, before: Tally, reply: Reply, after: &Tally) -> Option<(usize, usize)> {
    let is_full = |count: &u32| *count == u32::MAX;
    if !made.tallied || reply.number == 15 && before.iter().copied().filter(is_full).count() > 1 {
        return None;
    }
    if reply.number == 15 {
        return before.iter().position(is_full).map(|count| (count, 1));
    }
    before.iter().zip(after).position(|(before, after)| !is_full(before) && is_full(after)).map(|count| (count, 0))
}

/// Which limit the call has met, as a place in `LIMITS`.
pub fn limit_met(call: &Call, before: Before, reply: Reply, hall: &Hall) -> Option<usize> {
    match (before, reply.number) {
        (Before::ReadTable { matches: 32 }, 0) => Some(0),
        (Before::ReadTable { matches: 33 }, 12) => Some(1),
        (Before::Insert { records: 2047 }, 0) if hall.table()[COUNT] == 2048 => Some(2),
        (Before::Insert { records: 2048 }, 0) => Some(if client_of(call, hall, CLIENT_FULL) == 1 { 4 } else { 3 }),
        (Before::File { kept: 63 }, 0) if hall.answers()[COUNT] == 64 => Some(5),
        (Before::File { kept: 64 }, 0) => Some(6),
        (Before::Look { missing: true, nodes } | Before::Announce { pending: None, nodes }, number) => match (nodes, number) {
            (1023, 0) => Some(7),
            (1024, 0) => Some(8),
            (1024, 3) => Some(9),
            _ => None,
        },
        (Before::Announce { pending: Some(11), .. }, 0) => Some(10),
        (Before::Announce { pending: Some(12), .. }, 3) => Some(11),
        (Before::WriteBegin { highest: WORN }, 0) => Some(12),
        (Before::WriteBegin { highest }, 10) if highest == WORN + 1 => Some(13),
        (Before::Raise { revision, lifts }, number) => {
            by_raise(revision, lifts, number).or_else(|| by_argument(call, number == 0, number, hall.columns()))
        }
        (Before::CountTable { matches: 33 }, 0) => Some(23),
        (Before::CountTable { matches: RECORDS }, 0) => Some(24),
        (_, 0) if reply.ending == 1 && reply.count as usize > LIST => Some(25),
        (Before::Filed { count: RECORDS }, 0) => Some(26),
        (Before::Filed { count }, 3) if count == RECORDS + 1 => Some(27),
        (Before::Holds { count: RECORDS }, 0) => Some(28),
        (Before::Holds { count }, 3) if count == RECORDS + 1 => Some(29),
        (Before::RangeTable { counts, matches, edge }, number) => match (counts, matches, number) {
            (false, 32, 0) => Some(34),
            (false, 33, 12) => Some(35),
            (true, 33.., 0) => Some(36),
            _ => edge.map(|edge| 30 + edge),
        },
        (Before::HoldsReversed, 3) => Some(43),
        (Before::HoldsColumn, 3) => Some(44),
        (Before::Abandon { accepted: Some(limit), .. }, 0 | 13) | (Before::Abandon { unsound: Some(limit), .. }, 3) => Some(limit),
        _ => by_argument(call, reply.number == 0, reply.number, hall.columns()),
    }
}

/// Of a raise at a marked node with this revision.
fn by_raise(revision: Option<u32>, lifts: bool, number: u32) -> Option<usize> {
    match (revision?, lifts, number) {
        (revision, true, 0) if revision == u32::MAX - 1 => Some(14),
        (u32::MAX, true, 3) => Some(15),
        (u32::MAX, false, 0 | 13) => Some(52),
        (_, true, 13) => Some(54),
        _ => None,
    }
}

fn client_of(call: &Call, hall: &Hall, at: usize) -> u32 {
    match call {
        Call::Step { client, .. } => hall.client_number(*client, at),
        _ => 0,
    }
}

fn by_argument(call: &Call, accepted: bool, number: u32, k: u32) -> Option<usize> {
    match call {
        Call::BeginReadWithin { asked, within, .. } | Call::BeginCountWithin { asked, within, .. } => by_range(asked, within, number, k),
        Call::Step { tray: 127, .. } if number == 1 => Some(22),
        Call::Step { client, .. } | Call::BeginRead { client, .. } | Call::BeginCount { client, .. } | Call::Abandon { client } => {
            match (client, number) {
                (11, 0) => Some(16),
                (12, 4) => Some(17),
                _ => None,
            }
        }
        Call::Open { k: 1 } if accepted => Some(18),
        Call::Open { k: 4 } if accepted => Some(19),
        Call::Open { k: 0 } if number == 2 => Some(20),
        Call::Open { k: 5 } if number == 2 => Some(21),
        _ => None,
    }
}

/// Of a begin with a query of k columns.
fn by_range(asked: &Asked, within: &Within, number: u32, k: u32) -> Option<usize> {
    let marks: Vec<u32> = asked.words().chunks(2).map(|column| column[0]).collect();
    let sound = asked.words().len() as u64 == 2 * k as u64 && marks.iter().all(|mark| *mark < 2);
    let (column, lowest, highest) = (within.column, within.lowest, within.highest);
    match number {
        0 if lowest == highest => Some(37),
        14 if highest.checked_add(1) == Some(lowest) => Some(38),
        0 if (lowest, highest) == (0, u32::MAX) => Some(39),
        0 if column + 1 == k => Some(40),
        2 if sound && column == k => Some(41),
        2 if sound && marks.get(column as usize) == Some(&1) => Some(42),
        _ => None,
    }
}
