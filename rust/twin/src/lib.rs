//! The twin: the rules of document 01 on the memories of docs/LAYOUT.md, in plain Rust, unproved. It shares that page with the
//! library and nothing else. Exact for any contents, lengths and arguments, so that the two can be compared number for number.
//! A fault can be built in, to see that the comparing and the checking find it; the plain twin does not pay for that.

pub mod answers;
pub mod layout;
pub mod nodes;
pub mod query;
pub mod range;
mod refusals;
mod steps;
pub mod table;
mod tally;
mod within;

use layout::*;
use query::Query;
use range::Range;
pub use tally::{Count, Tally};

/// Document 01, "Faults a bench would show", and seventeen more: looks that pay no heed to marks, two each of counts, of ranges and of abandonings,
/// three each of the value 0 and of writes that change nothing, four of the tally.
#[derive(Clone, Copy, PartialEq, Eq, Debug)]
#[repr(u8)]
pub enum Fault {
    None,
    /// a write raises before its table step only, and marks nothing
    EarlyRaise,
    /// a node that is added has counter 1, not the floor
    BackAtOne,
    /// one bit for marks: the first of two writers to finish clears it
    OneBit,
    /// the revisions are noted afresh when filing
    LateLook,
    /// a write's changed value becomes a star and that star a ?
    Stacked,
    /// looks see no pending writes, the marks
    NoPending,
    /// a key is compared without what is wanted: a filed list serves a count, and a filed count of at most 32 a list
    OneKey,
    /// a count's answer is written to the tray too
    CountOnTray,
    /// a key is compared without its range: what is filed for all values of a column serves a range of them, and the other way round
    PlainKey,
    /// a range takes the value just above its highest too
    WideRange,
    /// a write abandoned after its table step takes back its marks and raises nothing
    TakenBack,
    /// a write abandoned after its table step leaves its marks: they stand for good
    MarksLeft,
    /// a named 0 is taken for a star by the table steps: it finds every record of the other columns
    ZeroAsStar,
    /// a range of all values is taken for a star by the table step: it finds the records with 0 too
    AllValues,
    /// a write that names 0, an insert too, is taken to meet nothing: it neither marks nor raises
    ZeroUnseen,
    /// a write that changed nothing lifts its counters too, as before S-6
    AlwaysRaised,
    /// a write that changed the table leaves its counters too
    NeverRaised,
    /// a full table is taken for a change: its insert lifts its counters
    FullRaised,
    /// an answer from file is counted in the tally as one from the table
    FileAsTable,
    /// 15 is given where the count is one below its largest too
    FullEarly,
    /// 15 is given after the call has altered what it alters
    FullAltered,
    /// a read is counted as begun when it is over, so that none is under way in the tally
    BegunAtEnd,
}

/// The number for a plain twin, to be given as `Memories<'_, PLAIN>` where it is not the default.
pub const PLAIN: u8 = Fault::None as u8;

/// What a call returns: the paper's number, how many records were answered or counted, and what ended: 0 nothing (or the number says it),
/// 1 answered from file, 2 answered from the table, 3 a write ended and changed the table, 4 a write ended and did not.
#[derive(Clone, Copy, PartialEq, Eq, Debug)]
pub struct Reply {
    pub number: u32,
    pub count: u32,
    pub ending: u32,
}

impl Reply {
    const ACCEPTED: Reply = Reply::refused(0);

    /// 1 to 15, which have no count, and of which 7 is given no longer; 0 where nothing ended.
    const fn refused(number: u32) -> Reply {
        Reply { number, count: 0, ending: 0 }
    }

    fn answered(count: usize, from_file: bool) -> Reply {
        Reply { number: 0, count: count as u32, ending: if from_file { 1 } else { 2 } }
    }

    fn ended(changed: bool) -> Reply {
        Reply { number: 0, count: 0, ending: if changed { 3 } else { 4 } }
    }
}

/// The four lent memories.
pub struct Memories<'a, const FAULT: u8 = PLAIN> {
    pub table: &'a mut [u32],
    pub nodes: &'a mut [u32],
    pub answers: &'a mut [u32],
    /// the desks
    pub clients: &'a mut [u32],
}

impl<const FAULT: u8> Memories<'_, FAULT> {
    pub fn open(&mut self, k: u32) -> Reply {
        if self.is_short() {
            return Reply::refused(1);
        }
        if !(1..=4).contains(&k) {
            return Reply::refused(2);
        }
        self.table[..TABLE_LEAST].fill(0);
        self.nodes[..NODES_LEAST].fill(0);
        self.answers[..ANSWERS_LEAST].fill(0);
        self.clients[..CLIENTS_LEAST].fill(0);
        self.nodes[FLOOR] = 1;
        self.clients[COLUMNS] = k;
        Reply::ACCEPTED
    }

    pub fn begin_read(&mut self, client: u32, query: &[u32]) -> Reply {
        self.begin(READ, false, client, query, None)
    }

    /// A read that wants how many records lie in the query's subspace.
    pub fn begin_count(&mut self, client: u32, query: &[u32]) -> Reply {
        self.begin(READ, true, client, query, None)
    }

    /// A read of the records whose value in this column, which the query does not name, is from lowest to highest.
    pub fn begin_read_within(&mut self, client: u32, query: &[u32], column: u32, lowest: u32, highest: u32) -> Reply {
        self.begin(READ, false, client, query, Some(Range { column, lowest, highest }))
    }

    /// A read that wants how many they are.
    pub fn begin_count_within(&mut self, client: u32, query: &[u32], column: u32, lowest: u32, highest: u32) -> Reply {
        self.begin(READ, true, client, query, Some(Range { column, lowest, highest }))
    }

    pub fn begin_insert(&mut self, client: u32, query: &[u32]) -> Reply {
        self.begin(INSERT, false, client, query, None)
    }

    pub fn begin_delete(&mut self, client: u32, query: &[u32]) -> Reply {
        self.begin(DELETE, false, client, query, None)
    }

    fn begin(&mut self, kind: u32, counts: bool, client: u32, asked: &[u32], range: Option<Range>) -> Reply {
        let refusal = self.begin_refusal(kind, client, asked, range);
        if refusal != 0 {
            return Reply::refused(refusal);
        }
        let key = Query { counts, range, ..Query::arrived(self.clients[COLUMNS] as usize, asked) }.key();
        let own = self.client_mut(client);
        own[CLIENT_KIND] = kind;
        own[CLIENT_ENTRY..CLIENT_ENTRY + KEY_WIDTH].copy_from_slice(&key);
        Reply::ACCEPTED
    }

    /// One step of what is under way at the desk. Only a list's answer writes to the tray.
    pub fn step(&mut self, tray: &mut [u32], client: u32) -> Reply {
        if self.is_short() || tray.len() < TRAY_LEAST {
            return Reply::refused(1);
        }
        match self.busy_query(client) {
            Err(refusal) => Reply::refused(refusal),
            Ok(query) if self.client(client)[CLIENT_KIND] == READ => self.read_step(tray, client, &query),
            Ok(query) => self.write_step(client, &query),
        }
    }

    /// A read leaves its desk idle; a write takes back its marks, or ends (document 02, S-4).
    pub fn abandon(&mut self, client: u32) -> Reply {
        if self.is_short() {
            return Reply::refused(1);
        }
        match self.busy_query(client) {
            Err(refusal) => Reply::refused(refusal),
            Ok(_) if self.client(client)[CLIENT_KIND] == READ => {
                self.client_mut(client).fill(0);
                Reply::ACCEPTED
            }
            Ok(query) => self.abandon_write(client, &query),
        }
    }

    pub fn evict_answer(&mut self, place: u32) -> Reply {
        let refusal = self.hall_refusal();
        if refusal != 0 {
            return Reply::refused(refusal);
        }
        if place >= self.answers[COUNT] {
            return Reply::refused(8);
        }
        answers::evict(self.answers, place as usize);
        Reply::ACCEPTED
    }

    pub fn evict_node(&mut self, place: u32) -> Reply {
        let refusal = self.hall_refusal();
        if refusal != 0 {
            return Reply::refused(refusal);
        }
        match nodes::all(self.nodes).get(place as usize) {
            None => Reply::refused(8),
            Some(node) if node[NODE_PENDING] != 0 => Reply::refused(9),
            Some(_) => {
                nodes::evict(self.nodes, place as usize);
                Reply::ACCEPTED
            }
        }
    }

    pub fn renew(&mut self) -> Reply {
        let refusal = self.hall_refusal();
        if refusal != 0 {
            return Reply::refused(refusal);
        }
        if self.clients[HEAD..HEAD + CLIENTS * CLIENT_WIDTH].iter().any(|number| *number != 0) {
            return Reply::refused(11);
        }
        nodes::renew(self.nodes);
        answers::renew(self.answers);
        Reply::ACCEPTED
    }
}
