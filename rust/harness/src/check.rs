//! The checker of demand 3 on executed histories: document 01, "A history and the plain table". It is fed the calls' arguments and
//! what they returned, and keeps a plain table of its own; nothing in it leans on the library or the twin. It checks two things more that
//! the rules give: a write's end, by its last raise or by an abandoning (document 02, S-4), is told as its table step was; and with every desk
//! idle no node has a mark. Beside it, filing checks demand 2's last sentence, ledger the tally that calls are lent, and zeros counts what was met of
//! the value 0. A call that is refused with 15 is a refused call.

use crate::call::{tray_of, Ask, Asked, Call, Within};
use crate::filing::{Filing, Sentence, Wrong};
use crate::hall::Hall;
use crate::ledger::{self, Ledger};
use crate::made::Made;
use crate::side::Reply;
use crate::zeros::{self, Zeros};
use std::fmt;

/// "a read has ended with its nineteenth accepted step at the latest, a write with its thirty-third"
const READ_STEPS: u32 = 19;
const WRITE_STEPS: u32 = 33;

/// What is wrong after a call. client: the desk.
#[derive(Clone, Copy, PartialEq, Eq, Debug)]
pub enum Complaint {
    /// the table memory does not hold the plain table
    Table,
    /// an answer that was the list of what it asks, or a count that was that list's length, at no moment of its read
    Stale { client: u32 },
    /// a step of a count that has written the tray
    Tray { client: u32 },
    /// a count that ended with 12
    Long { client: u32 },
    /// a read or write that goes on past its last step
    Endless { client: u32 },
    /// an ending of something that is not under way at the desk
    Ending { client: u32 },
    /// an end of a write that is not what its table step did; any that an abandoning tells where no table step of a write was made
    End { client: u32 },
    /// every desk is idle and a node has a mark
    Marked,
    /// demand 2's last sentence: the read was owed the filed answer and did not get exactly it
    NotFetched { client: u32 },
    /// an answer on file that no read filed, or one from file that is not what the last read to file under its query gave
    NotFiled { client: u32 },
    /// the tally does not hold what the calls come to
    Counts,
    /// reads or writes begun are not those that have ended and those under way
    Sum,
    /// 15 where no count that the call can raise is at its largest, or none where one is
    Full,
}

impl fmt::Display for Complaint {
    fn fmt(&self, f: &mut fmt::Formatter) -> fmt::Result {
        match self {
            Complaint::Table => write!(f, "the table memory does not hold the plain table"),
            Complaint::Stale { client } => write!(f, "desk {client}: the answer was true of its query's list at no moment of the read (stale)"),
            Complaint::Tray { client } => write!(f, "desk {client}: a count has written the tray"),
            Complaint::Long { client } => write!(f, "desk {client}: a count has ended with 12"),
            Complaint::Endless { client } => write!(f, "desk {client}: not ended with its last step"),
            Complaint::Ending { client } => write!(f, "desk {client}: an ending of nothing that is under way there"),
            Complaint::End { client } => write!(f, "desk {client}: the end of a write is not told as its table step was"),
            Complaint::Marked => write!(f, "every desk is idle and a node has a mark (marked)"),
            Complaint::NotFetched { client } => {
                write!(f, "desk {client}: the fetch was owed the filed answer and did not get exactly it (not fetched)")
            }
            Complaint::NotFiled { client } => {
                write!(f, "desk {client}: an answer on file, or from it, that the last read to file under the query did not give")
            }
            Complaint::Counts => write!(f, "the tally does not hold what the calls come to"),
            Complaint::Sum => write!(f, "the tally's begun are not those that have ended and those under way"),
            Complaint::Full => write!(f, "15 where no count that the call can raise is at its largest, or none where one is"),
        }
    }
}

#[derive(Clone, Copy, PartialEq, Eq)]
enum Kind {
    Read,
    Insert,
    Delete,
}

/// What a write's table step did to the plain table.
#[derive(Clone, Copy, PartialEq, Eq)]
enum Effect {
    Changed,
    Unchanged,
    Full,
}

/// What the call that ends a write returns, its last raise or an abandoning (S-4), after what its table step did; before that nothing ends.
fn end_of(effect: Option<Effect>) -> Reply {
    let (number, ending) = match effect {
        None => (0, 0),
        Some(Effect::Changed) => (0, 3),
        Some(Effect::Unchanged) => (0, 4),
        Some(Effect::Full) => (13, 0),
    };
    Reply { number, count: 0, ending }
}

/// What a read gets: its query's list, of those in its range if it gave one, as the numbers of its records, or how many records that list has.
#[derive(PartialEq, Eq)]
enum Value {
    List(Vec<u32>),
    Count(usize),
}

/// What the plain table notes at a desk. A note that has ended stays until the next begin.
struct Note {
    kind: Kind,
    /// of a write: its query, no count and no range
    ask: Ask,
    steps: u32,
    ended: bool,
    /// of a write: what its table step did, once it is made
    effect: Option<Effect>,
    /// of a read: what would have been right at each moment since its begin; a list that no tray can hold is left out
    values: Vec<Value>,
}

/// The longest list that is kept: no tray of the harness is longer.
const TRAY_MOST: usize = 256;

pub struct Checker {
    k: usize,
    /// the records, k numbers each, ascending
    plain: Vec<u32>,
    notes: [Option<Note>; 12],
    /// how many answers were seen
    pub answers: u64,
    /// how many of them were counts
    pub counts: u64,
    /// how many of them were of reads with a range
    pub ranges: u64,
    /// after how many calls every desk was idle
    pub rests: u64,
    /// how many writes were abandoned before their table step, and after one that changed the table, did not, or found it full
    pub abandoned: [u64; 4],
    /// what was met of the value 0
    pub zeros: Zeros,
    filing: Filing,
    ledger: Ledger,
}

impl Checker {
    /// At an accepted opening.
    pub fn opened(k: u32) -> Checker {
        Checker::by(k, Sentence::Sharing)
    }

    /// The same, with demand 2's last sentence as it is or as it was.
    pub fn by(k: u32, sentence: Sentence) -> Checker {
        Checker {
            k: k as usize,
            plain: Vec::new(),
            notes: [const { None }; 12],
            answers: 0,
            counts: 0,
            ranges: 0,
            rests: 0,
            abandoned: [0; 4],
            zeros: [0; zeros::MET.len()],
            filing: Filing::opened(sentence),
            ledger: Ledger::opened(),
        }
    }

    /// How many answers were seen, how many of them were counts, and how many of reads with a range; after how many calls every desk was idle.
    pub fn seen(&self) -> [u64; 4] {
        [self.answers, self.counts, self.ranges, self.rests]
    }

    /// How many fetches were owed the filed answer by demand 2's last sentence, how many of them of reads begun before the read that
    /// filed it, how many of counts, how many of reads with a range, and how many since S-6 alone.
    pub fn owed(&self) -> [u64; 5] {
        let Filing { owed, owed_to_earlier, owed_to_counts, owed_to_ranges, owed_past_unchanged, .. } = self.filing;
        [owed, owed_to_earlier, owed_to_counts, owed_to_ranges, owed_past_unchanged]
    }

    /// How many calls were lent a tally, and how many of them were 15; after how many the tally's sums were held with a read under way, and with a
    /// write.
    pub fn tallied(&self) -> [u64; 4] {
        self.ledger.seen
    }

    /// Before a call of the history.
    pub fn before(&mut self, made: impl Into<Made>, hall: &Hall) {
        self.filing.before(&made.into().call, hall);
        self.ledger.before(hall);
    }

    /// After it; the hall is the one that the call left, with the tray of a step.
    pub fn after(&mut self, made: impl Into<Made>, reply: Reply, hall: &Hall) -> Option<Complaint> {
        let made = made.into();
        let call = &made.call;
        let accepted = matches!(reply.number, 0 | 12 | 13);
        let complaint = if accepted { self.feed(call, reply, hall) } else { None };
        let wrong = self.filing.after(call, reply, hall).map(|(client, wrong)| match wrong {
            Wrong::NotFetched => Complaint::NotFetched { client },
            Wrong::NotFiled => Complaint::NotFiled { client },
        });
        let rests = self.notes.iter().flatten().all(|note| note.ended);
        self.rests += rests as u64;
        let marked = (rests && has_marks(hall.nodes())).then_some(Complaint::Marked);
        let tally = self.ledger.after(&made, reply, hall).map(|wrong| match wrong {
            ledger::Wrong::Counts => Complaint::Counts,
            ledger::Wrong::Sum => Complaint::Sum,
            ledger::Wrong::Full => Complaint::Full,
        });
        complaint.or_else(|| (!self.holds(hall.table())).then_some(Complaint::Table)).or(wrong).or(marked).or(tally)
    }

    fn feed(&mut self, call: &Call, reply: Reply, hall: &Hall) -> Option<Complaint> {
        if let Some((client, ask)) = call.read() {
            self.begin(client, Kind::Read, ask);
        }
        let written = |asked: &Asked| Ask { asked: *asked, counts: false, within: None };
        match call {
            Call::BeginInsert { client, asked } => self.begin(*client, Kind::Insert, written(asked)),
            Call::BeginDelete { client, asked } => self.begin(*client, Kind::Delete, written(asked)),
            Call::Step { client, tray, fill } => {
                let kept = hall.tray().iter().copied().eq(tray_of(*tray, *fill));
                return self.step(*client, reply, hall.tray(), kept);
            }
            Call::Abandon { client } => return self.abandon(*client, reply),
            _ => {}
        }
        None
    }

    fn begin(&mut self, client: u32, kind: Kind, ask: Ask) {
        let values = self.value(kind, &ask).into_iter().collect();
        self.notes[client as usize] = Some(Note { kind, ask, steps: 0, ended: false, effect: None, values });
    }

    /// The note is taken away. A write that has made its table step ends as its last raise would have told; of all else nothing ends.
    fn abandon(&mut self, client: u32, reply: Reply) -> Option<Complaint> {
        let Some(note) = self.notes[client as usize].take().filter(|note| !note.ended) else {
            return Some(Complaint::Ending { client });
        };
        if note.kind != Kind::Read {
            self.abandoned[note.effect.map_or(0, |effect| 1 + effect as usize)] += 1;
        }
        (reply != end_of(note.effect)).then_some(Complaint::End { client })
    }

    /// kept: the tray is as it was lent
    fn step(&mut self, client: u32, reply: Reply, tray: &[u32], kept: bool) -> Option<Complaint> {
        let k = self.k;
        let Some(note) = &mut self.notes[client as usize] else {
            return Some(Complaint::Ending { client });
        };
        note.steps += 1;
        let (kind, ask, steps) = (note.kind, note.ask, note.steps);
        if kind != Kind::Read && steps == (1 << k) + 1 {
            self.take_effect(client, kind, ask.asked);
        }
        if ask.counts && reply.number == 12 {
            return Some(Complaint::Long { client });
        }
        let tray_written = ask.counts && !kept;
        self.ending(client, reply, tray).or(tray_written.then_some(Complaint::Tray { client }))
    }

    fn ending(&mut self, client: u32, reply: Reply, tray: &[u32]) -> Option<Complaint> {
        let k = self.k;
        let note = self.notes[client as usize].as_mut()?;
        let reads = note.kind == Kind::Read;
        let ends_read = matches!(reply.ending, 1 | 2) || reply.number == 12;
        let ends_write = matches!(reply.ending, 3 | 4) || reply.number == 13;
        if note.ended || ends_read && !reads || ends_write && reads {
            return Some(Complaint::Ending { client });
        }
        note.ended = ends_read || ends_write;
        if ends_write && reply != end_of(note.effect) {
            return Some(Complaint::End { client });
        }
        if matches!(reply.ending, 1 | 2) {
            self.answers += 1;
            self.counts += note.ask.counts as u64;
            self.ranges += note.ask.within.is_some() as u64;
            zeros::of_answer(&mut self.zeros, &note.ask, reply.ending == 1, self.plain.chunks(k));
            let count = reply.count as usize;
            let list = || tray.get(..count * k).map(|held| Value::List(held.to_vec()));
            let got = if note.ask.counts { Some(Value::Count(count)) } else { list() };
            if !got.is_some_and(|got| note.values.contains(&got)) {
                return Some(Complaint::Stale { client });
            }
        }
        let last = if reads { READ_STEPS } else { WRITE_STEPS };
        (note.steps >= last && !note.ended).then_some(Complaint::Endless { client })
    }

    fn take_effect(&mut self, client: u32, kind: Kind, asked: Asked) {
        let (inserts, before) = (kind == Kind::Insert, self.plain.clone());
        let effect = if inserts { self.insert(&asked) } else { self.delete(&asked) };
        zeros::of_write(&mut self.zeros, inserts, &asked, effect == Effect::Changed, before.chunks(self.k));
        self.notes[client as usize].iter_mut().for_each(|note| note.effect = Some(effect));
        if effect == Effect::Changed {
            self.note_values();
        }
    }

    /// Every record in its subspace goes.
    fn delete(&mut self, asked: &Asked) -> Effect {
        let before = self.plain.len();
        let kept = self.plain.chunks(self.k).filter(|record| !lies(record, asked));
        self.plain = kept.flatten().copied().collect();
        if self.plain.len() == before {
            Effect::Unchanged
        } else {
            Effect::Changed
        }
    }

    /// In its ascending place, unless it is there already or 2,048 records are.
    fn insert(&mut self, asked: &Asked) -> Effect {
        let record: Vec<u32> = asked.words().chunks(2).map(|column| column[1]).collect();
        let k = self.k;
        let place = self.plain.chunks(k).position(|other| other >= &record[..]).unwrap_or(self.plain.len() / k);
        if self.plain.chunks(k).nth(place) == Some(&record[..]) {
            return Effect::Unchanged;
        }
        if self.plain.len() == 2048 * k {
            return Effect::Full;
        }
        self.plain.splice(place * k..place * k, record);
        Effect::Changed
    }

    /// The table has changed: a new moment for each read under way.
    fn note_values(&mut self) {
        for client in 0..12 {
            let Some((kind, ask)) = self.notes[client].as_ref().filter(|n| !n.ended).map(|n| (n.kind, n.ask)) else {
                continue;
            };
            let value = self.value(kind, &ask);
            if let (Some(note), Some(value)) = (&mut self.notes[client], value) {
                if note.values.last() != Some(&value) {
                    note.values.push(value);
                }
            }
        }
    }

    /// What is right now: nothing for a write, nor for a list that no tray can hold.
    fn value(&self, kind: Kind, ask: &Ask) -> Option<Value> {
        match kind {
            Kind::Read if ask.counts => Some(Value::Count(self.plain.chunks(self.k).filter(|record| belongs(record, ask)).count())),
            Kind::Read => self.list(ask).map(Value::List),
            Kind::Insert | Kind::Delete => None,
        }
    }

    /// The list now of what a read asks, unless no tray can hold it.
    fn list(&self, ask: &Ask) -> Option<Vec<u32>> {
        let mut list = Vec::new();
        for record in self.plain.chunks(self.k).filter(|record| belongs(record, ask)) {
            if list.len() + self.k > TRAY_MOST {
                return None;
            }
            list.extend_from_slice(record);
        }
        Some(list)
    }

    /// The table memory: how many at place 0, the records from place 8 on.
    fn holds(&self, table: &[u32]) -> bool {
        table[0] as usize == self.plain.len() / self.k && table[8..8 + self.plain.len()] == self.plain
    }
}

/// The nodes memory: how many at place 1, 8 numbers each from place 8 on, of which the marks are number 5.
fn has_marks(nodes: &[u32]) -> bool {
    nodes[8..].chunks_exact(8).take(nodes[1] as usize).any(|node| node[5] != 0)
}

/// "exactly the subspace's records within": both ends are included; and "a range skips records with 0 in its column" (S-5).
fn belongs(record: &[u32], ask: &Ask) -> bool {
    let holds = |range: Within, value: u32| value != 0 && range.lowest <= value && value <= range.highest;
    let within = |range: Within| record.get(range.column as usize).is_some_and(|value| holds(range, *value));
    lies(record, &ask.asked) && ask.within.is_none_or(within)
}

/// The record has the named value in each named column. "A named 0 is never equal to anything" (S-5).
fn lies(record: &[u32], asked: &Asked) -> bool {
    record.iter().zip(asked.words().chunks(2)).all(|(value, column)| column[0] == 0 || column[1] != 0 && column[1] == *value)
}
