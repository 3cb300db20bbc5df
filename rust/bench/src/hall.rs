//! A hall in the state that a measurement starts from: the four memories, a tray and a tally, written directly as docs/LAYOUT.md places
//! them, and desks brought to a step by real calls. Leans on the twin for the layout, for labels and for those calls.

use crate::rng::Rng;
use crate::side::{Act, Asked, Kind, Reply, Twin, ACCEPTED};
use std::collections::HashSet;
use std::ops::{Deref, DerefMut};
use twin::answers::Entry;
use twin::layout::*;
use twin::query::{Label, Query};

/// Values of the nodes and answers that only fill the memories: no query of a measurement names one of these.
const FOREIGN: u32 = 1_000_000;

/// A memory that starts so many numbers after a multiple of 64 bytes: where a memory starts changes what moving it costs.
pub struct Memory {
    words: Vec<u32>,
    start: usize,
    len: usize,
}

const LINE: usize = 16;

impl Memory {
    fn zeros(len: usize, past: usize) -> Memory {
        let words = vec![0; len + 2 * LINE];
        let start = words.as_ptr().align_offset(4 * LINE) + past;
        Memory { words, start, len }
    }

    fn placed(&self, past: usize) -> Memory {
        let mut copy = Memory::zeros(self.len, past);
        copy.copy_from_slice(self);
        copy
    }
}

impl Deref for Memory {
    type Target = [u32];
    fn deref(&self) -> &[u32] {
        &self.words[self.start..self.start + self.len]
    }
}

impl DerefMut for Memory {
    fn deref_mut(&mut self) -> &mut [u32] {
        &mut self.words[self.start..self.start + self.len]
    }
}

impl Clone for Memory {
    fn clone(&self) -> Memory {
        self.placed(0)
    }
}

impl PartialEq for Memory {
    fn eq(&self, other: &Memory) -> bool {
        self[..] == other[..]
    }
}

#[derive(Clone, PartialEq)]
pub struct Hall {
    pub table: Memory,
    pub nodes: Memory,
    pub answers: Memory,
    /// the desks
    pub clients: Memory,
    pub tray: Memory,
    pub tally: twin::Tally,
}

impl Hall {
    pub fn opened(k: usize) -> Hall {
        let mut hall = Hall {
            table: Memory::zeros(TABLE_LEAST, 0),
            nodes: Memory::zeros(NODES_LEAST, 0),
            answers: Memory::zeros(ANSWERS_LEAST, 0),
            clients: Memory::zeros(CLIENTS_LEAST, 0),
            tray: Memory::zeros(TRAY_LEAST, 0),
            tally: [0; COUNTS],
        };
        hall.does(Act::Open(k as u32), ACCEPTED);
        hall
    }

    /// The same with every memory starting so many numbers after a multiple of 64 bytes, below 16.
    pub fn placed(&self, past: usize) -> Hall {
        let memories = [&self.table, &self.nodes, &self.answers, &self.clients, &self.tray];
        let [table, nodes, answers, clients, tray] = memories.map(|memory| memory.placed(past));
        Hall { table, nodes, answers, clients, tray, tally: self.tally }
    }

    pub fn columns(&self) -> usize {
        self.clients[COLUMNS] as usize
    }

    /// Makes a call that must answer like this.
    pub fn does(&mut self, act: Act, expected: Reply) {
        let reply = crate::side::perform::<Twin>(self, &act);
        assert_eq!(reply, expected, "{act:?} while preparing");
    }

    pub fn with_records(mut self, n: usize, record: impl Fn(usize) -> [u32; 4]) -> Hall {
        let k = self.columns();
        self.table[COUNT] = n as u32;
        for (i, place) in self.table[HEAD..].chunks_mut(k).take(n).enumerate() {
            place.copy_from_slice(&record(i)[..k]);
        }
        self
    }

    /// n nodes: these labels from `place` on, with revision 7, the others foreign, with revisions 1 to 50.
    pub fn with_nodes(mut self, n: usize, own: &[Label], place: usize) -> Hall {
        let mut rng = Rng::new(n as u64 + 17);
        let mut labels = foreign_labels(self.columns(), n - own.len(), own, &mut rng);
        labels.splice(place..place, own.iter().copied());
        self.nodes[NODE_COUNT] = n as u32;
        self.nodes[FLOOR] = 3;
        for (i, node) in self.nodes[HEAD..].chunks_mut(NODE_WIDTH).take(n).enumerate() {
            let revision = if (place..place + own.len()).contains(&i) { 7 } else { 1 + rng.below(50) };
            node[..LABEL_WIDTH].copy_from_slice(&labels[i]);
            node[NODE_REVISION] = revision;
        }
        self
    }

    /// n filed answers: `own` at its place if there is one, the others to foreign queries.
    pub fn with_answers(mut self, n: usize, own: Option<(usize, Entry)>) -> Hall {
        let mut rng = Rng::new(n as u64 + 23);
        let k = self.columns();
        self.answers[COUNT] = n as u32;
        for (i, place) in self.answers[HEAD..].chunks_mut(ENTRY_WIDTH).take(n).enumerate() {
            let entry = match own {
                Some((at, entry)) if at == i => entry,
                _ => foreign_entry(k, &mut rng),
            };
            place.copy_from_slice(&entry);
        }
        self
    }

    /// After the begin and so many accepted steps that end nothing.
    pub fn begun(mut self, kind: Kind, client: u32, asked: Asked, steps: u32) -> Hall {
        self.does(Act::Begin(kind, client, asked), ACCEPTED);
        (0..steps).for_each(|_| self.does(Act::Step(client), ACCEPTED));
        self
    }

    /// What a read of this query would file now.
    pub fn entry_for(&self, asked: Asked) -> Entry {
        let looks = query_of(self.columns(), asked).looks();
        let read = Hall { answers: Memory::zeros(ANSWERS_LEAST, 0), ..self.clone() }.begun(Kind::Read, 11, asked, looks + 2);
        let at = HEAD + 11 * CLIENT_WIDTH + CLIENT_ENTRY;
        read.clients[at..at + ENTRY_WIDTH].try_into().expect("an entry's width")
    }
}

pub fn query_of(k: usize, asked: Asked) -> Query {
    Query::arrived(k, asked.words())
}

/// The labels of a read's nodes, in the order of its looks.
pub fn read_labels(k: usize, asked: Asked) -> Vec<Label> {
    let query = query_of(k, asked);
    (0..query.looks()).map(|number| query.read_label(number)).collect()
}

/// The labels of a write's nodes, in the order of its announcements.
pub fn write_labels(k: usize, asked: Asked) -> Vec<Label> {
    let query = query_of(k, asked);
    (0..query.announcements()).map(|number| query.write_label::<{ twin::PLAIN }>(number)).collect()
}

fn foreign_query(k: usize, rng: &mut Rng) -> Query {
    let named = 1 + rng.below((1 << k) - 1);
    let mut values = [0; 4];
    for (c, value) in values.iter_mut().enumerate().take(k) {
        *value = if named >> c & 1 == 1 { FOREIGN + rng.below(4096) } else { 0 };
    }
    Query { k, named, values, counts: false, range: None }
}

/// Labels that reads of foreign queries leave behind, each once and none of `own`.
fn foreign_labels(k: usize, n: usize, own: &[Label], rng: &mut Rng) -> Vec<Label> {
    let mut seen: HashSet<Label> = own.iter().copied().collect();
    let mut labels = Vec::with_capacity(n);
    while labels.len() < n {
        let query = foreign_query(k, rng);
        let label = query.read_label(rng.below(query.looks()));
        if seen.insert(label) {
            labels.push(label);
        }
    }
    labels
}

fn foreign_entry(k: usize, rng: &mut Rng) -> Entry {
    let query = foreign_query(k, rng);
    let length = rng.below(LIST as u32 + 1);
    let mut entry = [0; ENTRY_WIDTH];
    entry[..KEY_WIDTH].copy_from_slice(&query.key());
    entry[ENTRY_LENGTH] = length;
    entry[ENTRY_REVISIONS..ENTRY_REVISIONS + query.looks() as usize].fill_with(|| 1 + rng.below(50));
    entry[ENTRY_LIST..ENTRY_LIST + length as usize * k].fill_with(|| 1 + rng.below(1000));
    entry
}
