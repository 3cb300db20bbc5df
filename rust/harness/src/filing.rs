//! The checker of demand 2's last sentence on executed histories: "A read whose fetch finds a filed answer to its query gets it, if from the
//! earlier of its own begin and the filing read's to that fetch no write meeting the query was open and none of its nodes was put out." By S-5
//! "a write sharing one of the answer's nodes takes the place of one meeting the query": more writes, since a read or delete that names 0 meets
//! nothing and shares nodes all the same. By S-6 "A write that ended unchanged before a read began no longer counts against that read's use of a
//! kept answer": fewer writes, so more reads are owed theirs.
//!
//! Told by the calls' arguments and replies alone: what is under way at a desk and how many steps it has made, so which step is a fetch and
//! which a file step; which read was the last to file under a query, since when it ran and with which list; which writes are open, and which end
//! unchanged. Told by the memories, because the sentence asks it of them: whether an answer to the query is filed (answers, just before the
//! fetch), and whether a node that was there no longer is (nodes, after each call; by a call or to make room). Where they stand there is
//! docs/LAYOUT.md's.
//!
//! As the sentence is read here (docs/DECISIONS.md, R-22; crates/demands/specs/Demand2.antt): a write counts that is open at any moment from
//! just after the earlier begin to just before the fetch, abandoned later or not; one that ends just before the earlier begin does not. Nor does
//! one whose last raise or abandoning says that it ended unchanged, or 13, before the fetching read's begin, though it was open beside the filing
//! read; one abandoned before its table step has not ended unchanged, and one that is open at the fetching read's begin counts whatever it will
//! say. "gets it" is the filing read's list, from file, and the rest of the tray as it was; of a count (S-1) the filing count's number, and all
//! of the tray as it was. An answer is filed for what a read asks: its query, which of the two it wants, and its range (S-3). For its nodes a
//! range's column is a star, as it is in the query: a write shares one with such a read whatever it writes there. Leans on call and hall; on
//! nothing of the library or the twin.

use crate::call::{tray_of, Ask, Asked, Call};
use crate::hall::Hall;
use crate::side::Reply;
use std::collections::HashSet;

/// Which writes the sentence speaks of, as it is and as it is only tried, to see that it would be false.
#[derive(Clone, Copy, PartialEq, Eq, Debug)]
pub enum Sentence {
    /// those that share one of the answer's nodes
    Sharing,
    /// as it was before S-5: those that meet the query
    Meeting,
    /// of those that share a node, none that has ended unchanged by the fetch, though it was open after the fetching read's begin. Were it so that
    /// a write which changes nothing never counts, this would hold
    UnchangedByFetch,
}

impl Sentence {
    /// Whether it speaks of this write for a read of this query.
    pub fn is_of(self, write: &Asked, inserts: bool, query: &Asked) -> bool {
        match self {
            Sentence::Sharing | Sentence::UnchangedByFetch => share(write, query),
            Sentence::Meeting => meet(write, inserts, query),
        }
    }
}

/// What is under way at a desk: a write is open until it is taken away, by its last raise or by an abandoning.
struct Work {
    reads: bool,
    /// a write that is no delete
    inserts: bool,
    /// of a write: its query, no count and no range
    ask: Ask,
    steps: u32,
    /// which call began it
    begun: u64,
    /// of a read: what was since its begin
    since: Since,
}

/// What has been since a read's begin, of the writes that the sentence is of and of the read's nodes.
#[derive(Clone, Copy, PartialEq, Eq)]
struct Since {
    /// no such write was open and no node was put out
    quiescent: bool,
    /// no such write has ended otherwise than unchanged and no node was put out; those that are open are not asked
    unchanged: bool,
}

/// What the last read that filed for this gave, which call began that read, and what was since then.
struct Filed {
    ask: Ask,
    count: u32,
    /// the numbers of the list's records; of a count none
    list: Vec<u32>,
    begun: u64,
    since: Since,
}

/// The five numbers of a node's label.
type Label = [u32; 5];

/// What is wrong with a read's answer.
#[derive(Clone, Copy, PartialEq, Eq, Debug)]
pub enum Wrong {
    /// the filed answer was owed, and it is not exactly what the read got
    NotFetched,
    /// an answer on file that no read filed, or one from file that is not what the last read to file under the query gave
    NotFiled,
}

pub struct Filing {
    sentence: Sentence,
    /// by client, the desk
    clients: [Option<Work>; 12],
    filed: Vec<Filed>,
    /// the nodes' labels after the call before, in their order
    labels: Vec<Label>,
    /// before a fetch: an answer to what it asks is filed
    finds: bool,
    calls: u64,
    /// how many fetches were owed the filed answer
    pub owed: u64,
    /// how many of them were of reads begun before the read that filed it
    pub owed_to_earlier: u64,
    /// how many of them were of counts
    pub owed_to_counts: u64,
    /// how many of them were of reads with a range
    pub owed_to_ranges: u64,
    /// how many of them are owed since S-6 alone: a write that ended unchanged before the fetching read's begin was open after the filing read's
    pub owed_past_unchanged: u64,
}

impl Filing {
    /// At an accepted opening.
    pub fn opened(sentence: Sentence) -> Filing {
        Filing {
            sentence,
            clients: [const { None }; 12],
            filed: Vec::new(),
            labels: Vec::new(),
            finds: false,
            calls: 0,
            owed: 0,
            owed_to_earlier: 0,
            owed_to_counts: 0,
            owed_to_ranges: 0,
            owed_past_unchanged: 0,
        }
    }

    /// Just before a call of the history.
    pub fn before(&mut self, call: &Call, hall: &Hall) {
        self.finds = match call {
            Call::Step { client, .. } => self.fetching(*client).is_some_and(|ask| is_filed(hall.answers(), ask)),
            _ => false,
        };
    }

    /// What a desk asks whose next step is its fetch: it has made a look for each node.
    fn fetching(&self, client: u32) -> Option<&Ask> {
        let work = self.clients.get(client as usize)?.as_ref()?;
        (work.reads && work.steps == looks(&work.ask.asked)).then_some(&work.ask)
    }

    /// After it; the hall is the one that the call left, with the tray of a step.
    pub fn after(&mut self, call: &Call, reply: Reply, hall: &Hall) -> Option<(u32, Wrong)> {
        self.calls += 1;
        let accepted = matches!(reply.number, 0 | 12 | 13);
        let wrong = if accepted { self.feed(call, reply, hall) } else { None };
        for label in self.evicted(hall.nodes()) {
            let gone = Since { quiescent: false, unchanged: false };
            self.disturb(gone, |asked| is_node_of(&label, asked));
        }
        wrong
    }

    fn feed(&mut self, call: &Call, reply: Reply, hall: &Hall) -> Option<(u32, Wrong)> {
        if let Some((client, ask)) = call.read() {
            self.begin_read(client, ask);
        }
        match call {
            Call::BeginInsert { client, asked } => self.begin_write(*client, *asked, true),
            Call::BeginDelete { client, asked } => self.begin_write(*client, *asked, false),
            Call::Step { client, .. } => {
                let wrong = self.answered(call, *client, reply, hall.tray());
                self.stepped(*client, reply, hall);
                return wrong.map(|wrong| (*client, wrong));
            }
            Call::Abandon { client } => self.end(*client, reply),
            _ => {}
        }
        None
    }

    fn begin_read(&mut self, client: u32, ask: Ask) {
        let open = self.clients.iter().flatten().any(|work| self.is_open(work, &ask.asked));
        let since = Since { quiescent: !open, unchanged: true };
        self.clients[client as usize] = Some(Work { reads: true, inserts: false, ask, steps: 0, begun: self.calls, since });
    }

    fn begin_write(&mut self, client: u32, asked: Asked, inserts: bool) {
        let (ask, sentence) = (Ask { asked, counts: false, within: None }, self.sentence);
        let opened = Since { quiescent: false, unchanged: true };
        self.clients[client as usize] = Some(Work { reads: false, inserts, ask, steps: 0, begun: self.calls, since: opened });
        self.disturb(opened, |query| sentence.is_of(&asked, inserts, query));
    }

    /// What is under way at a desk ends there. A write has changed something unless it says that it did not; one that is abandoned before its table
    /// step says nothing.
    fn end(&mut self, client: u32, reply: Reply) {
        let Some(work) = self.clients[client as usize].take() else {
            return;
        };
        let unchanged = reply.ending == 4 || reply.number == 13;
        if !work.reads && !unchanged {
            let sentence = self.sentence;
            self.disturb(Since { quiescent: false, unchanged }, |query| sentence.is_of(&work.ask.asked, work.inserts, query));
        }
    }

    /// This has been, for the reads under way and the filed answers whose query is such a one.
    fn disturb(&mut self, been: Since, hit: impl Fn(&Asked) -> bool) {
        let works = self.clients.iter_mut().flatten().map(|work| (&work.ask.asked, &mut work.since));
        for (asked, since) in works.chain(self.filed.iter_mut().map(|filed| (&filed.ask.asked, &mut filed.since))) {
            let after = Since { quiescent: since.quiescent && been.quiescent, unchanged: since.unchanged && been.unchanged };
            if after != *since && hit(asked) {
                *since = after;
            }
        }
    }

    /// A step before it is counted: what is wrong with what the read got or did not get.
    fn answered(&mut self, call: &Call, client: u32, reply: Reply, tray: &[u32]) -> Option<Wrong> {
        let work = self.clients.get(client as usize)?.as_ref()?;
        let Some(filed) = self.filed.iter().find(|filed| filed.ask == work.ask) else {
            return (self.finds || reply.ending == 1).then_some(Wrong::NotFiled);
        };
        let gets_it = gets(call, reply, tray, filed);
        if self.finds && self.owes(work, filed) {
            let earlier = work.begun < filed.begun;
            self.owed += 1;
            self.owed_to_earlier += earlier as u64;
            self.owed_to_counts += work.ask.counts as u64;
            self.owed_to_ranges += work.ask.within.is_some() as u64;
            self.owed_past_unchanged += (!earlier && !filed.since.quiescent) as u64;
            return (!gets_it).then_some(Wrong::NotFetched);
        }
        (reply.ending == 1 && !gets_it).then_some(Wrong::NotFiled)
    }

    /// From the earlier begin to the fetch no write counts and no node was put out. Since its own begin no write may have been open at all; of those
    /// that ended between the filing read's begin and its own, each has ended unchanged.
    fn owes(&self, work: &Work, filed: &Filed) -> bool {
        let quiet = match self.sentence {
            Sentence::Sharing | Sentence::Meeting => work.since.quiescent,
            Sentence::UnchangedByFetch => work.since.unchanged && !self.clients.iter().flatten().any(|other| self.is_open(other, &work.ask.asked)),
        };
        quiet && (work.begun < filed.begun || filed.since.unchanged)
    }

    /// It is a write that the sentence is of for this query.
    fn is_open(&self, work: &Work, query: &Asked) -> bool {
        !work.reads && self.sentence.is_of(&work.ask.asked, work.inserts, query)
    }

    fn stepped(&mut self, client: u32, reply: Reply, hall: &Hall) {
        let Some(work) = &mut self.clients[client as usize] else {
            return;
        };
        work.steps += 1;
        let ended = reply.ending != 0 || reply.number != 0;
        if work.reads && reply.ending == 2 && work.steps == looks(&work.ask.asked) + 3 {
            let (ask, count, begun, since) = (work.ask, reply.count, work.begun, work.since);
            let numbers = if ask.counts { 0 } else { count as usize * ask.asked.words().len() / 2 };
            let list = hall.tray()[..numbers.min(hall.tray().len())].to_vec();
            self.filed.retain(|filed| filed.ask != ask);
            self.filed.push(Filed { ask, count, list, begun, since });
        }
        if ended {
            self.end(client, reply);
        }
    }

    /// The labels of the nodes that were there before this call and are not there after it.
    fn evicted(&mut self, nodes: &[u32]) -> Vec<Label> {
        let now = || nodes[8..].chunks_exact(8).take(nodes[1] as usize).map(|node| -> Label { node[..5].try_into().unwrap() });
        let same = self.labels.iter().zip(now()).take_while(|(old, new)| *old == new).count();
        if same == self.labels.len() {
            self.labels.extend(now().skip(same));
            return Vec::new();
        }
        let left: HashSet<Label> = now().skip(same).collect();
        let gone = self.labels.drain(same..).filter(|label| !left.contains(label)).collect();
        self.labels.extend(now().skip(same));
        gone
    }
}

/// "gets it": from file, the filed count or the list's length as count, the list from the tray's start and the rest of the tray as it was.
fn gets(call: &Call, reply: Reply, tray: &[u32], filed: &Filed) -> bool {
    let Call::Step { tray: length, fill, .. } = call else {
        return false;
    };
    let whole = filed.list.iter().copied().chain(tray_of(*length, *fill).skip(filed.list.len()));
    reply.number == 0 && reply.ending == 1 && reply.count == filed.count && tray.iter().copied().eq(whole)
}

/// How many nodes a read looks at: 2^m, of m named columns.
fn looks(asked: &Asked) -> u32 {
    1 << asked.words().chunks(2).filter(|column| column[0] == 1).count()
}

/// Some label of the read is one of the write: no column in which they name different values. "in keys and labels a 0 equals a 0"
fn share(write: &Asked, query: &Asked) -> bool {
    columns(write, query).all(|(a, b)| a[0] == 0 || b[0] == 0 || a[1] == b[1])
}

/// "An insert of a record meets a read exactly if the record lies in the read's subspace."; a delete and a read if some record lies in both.
fn meet(write: &Asked, inserts: bool, query: &Asked) -> bool {
    let is_zero = |column: &[u32]| column == [1, 0];
    let zero = columns(write, query).any(|(a, b)| is_zero(b) || !inserts && is_zero(a));
    share(write, query) && !zero
}

/// Both queries column by column, each a mark and a value.
fn columns<'a>(one: &'a Asked, other: &'a Asked) -> impl Iterator<Item = (&'a [u32], &'a [u32])> {
    one.words().chunks(2).zip(other.words().chunks(2))
}

/// The label is a node of a read of the query: stars stay, and each named value stays or becomes ?.
fn is_node_of(label: &Label, asked: &Asked) -> bool {
    asked.words().chunks(2).enumerate().all(|(c, column)| match label[0] >> (8 * c) & 255 {
        1 => column[0] == 1 && label[1 + c] == column[1],
        2 => column[0] == 0,
        3 => column[0] == 1,
        _ => false,
    })
}

/// The answers memory holds an entry with this key: how many at place 0, 152 numbers each from place 8 on; the key is the named columns as
/// bits, the bit after those of four columns for a count, and above it the column of a range plus 1; four values; the range's ends, 0
/// without one.
fn is_filed(answers: &[u32], ask: &Ask) -> bool {
    let (column, lowest, highest) = ask.within.map_or((0, 0, 0), |range| (range.column + 1, range.lowest, range.highest));
    let mut key = [(ask.counts as u32) << 4 | column << 5, 0, 0, 0, 0, lowest, highest];
    for (c, column) in ask.asked.words().chunks(2).enumerate() {
        key[0] |= column[0] << c;
        key[1 + c] = column[1];
    }
    answers[8..].chunks_exact(152).take(answers[0] as usize).any(|entry| entry[..7] == key)
}
