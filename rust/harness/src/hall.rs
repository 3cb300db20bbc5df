//! A hall: the four memories and the tray, each of its own length, the tally, and what a place in them is called. Leans on the twin's layout.

use crate::side::Lent;
use twin::layout::*;

pub const LEAST: [usize; 4] = [TABLE_LEAST, NODES_LEAST, ANSWERS_LEAST, CLIENTS_LEAST];
pub const MEMORY_NAMES: [&str; 6] = ["table", "nodes", "answers", "desks", "tray", "tally"];
/// The places of the tray and of the tally among the memories.
pub const TRAY: usize = 4;
pub const TALLY: usize = 5;

/// The counts of a tally (document 02, S-7).
pub type Tally = [u32; COUNTS];
pub const COUNT_NAMES: [&str; COUNTS] = [
    "reads begun",
    "reads answered from file",
    "reads answered from the table",
    "reads ended long",
    "reads abandoned",
    "writes begun",
    "writes ended changed",
    "writes ended unchanged",
    "writes abandoned",
];

/// The memories in their order: table, nodes, answers, clients (the desks), tray; and last the tally, which only a call that is lent it sees.
#[derive(Clone, PartialEq)]
pub struct Hall {
    pub memories: [Vec<u32>; 6],
}

impl Hall {
    /// All 0, the tally too; the tray is made anew for each step.
    pub fn zeros(lengths: [usize; 4]) -> Hall {
        let [table, nodes, answers, clients] = lengths.map(|n| vec![0; n]);
        Hall { memories: [table, nodes, answers, clients, Vec::new(), vec![0; COUNTS]] }
    }

    /// The four memories, the tray and the tally.
    pub fn lend(&mut self) -> (Lent<'_>, &mut [u32], &mut Tally) {
        let [table, nodes, answers, clients, tray, tally] = &mut self.memories;
        (Lent { table, nodes, answers, clients }, tray, tally.first_chunk_mut().expect("a tally has all of its counts"))
    }

    pub fn tally(&self) -> &Tally {
        self.memories[TALLY].first_chunk().expect("a tally has all of its counts")
    }

    pub fn table(&self) -> &[u32] {
        &self.memories[0]
    }

    pub fn nodes(&self) -> &[u32] {
        &self.memories[1]
    }

    pub fn answers(&self) -> &[u32] {
        &self.memories[2]
    }

    pub fn clients(&self) -> &[u32] {
        &self.memories[3]
    }

    pub fn tray(&self) -> &[u32] {
        &self.memories[4]
    }

    /// A number, or 0 where the memory is too short.
    pub fn get(&self, memory: usize, place: usize) -> u32 {
        self.memories[memory].get(place).copied().unwrap_or(0)
    }

    pub fn columns(&self) -> u32 {
        self.get(3, COLUMNS)
    }

    pub fn kind_at(&self, client: u32) -> u32 {
        self.client_number(client, CLIENT_KIND)
    }

    pub fn client_number(&self, client: u32, at: usize) -> u32 {
        self.get(3, HEAD + client as usize * CLIENT_WIDTH + at)
    }

    /// How many numbers all memories have.
    pub fn size(&self) -> usize {
        self.memories.iter().map(Vec::len).sum()
    }

    /// The first place at which two halls differ.
    pub fn first_difference(&self, other: &Hall) -> Option<(usize, usize)> {
        (0..MEMORY_NAMES.len()).find_map(|m| {
            let (left, right) = (&self.memories[m], &other.memories[m]);
            if left == right {
                return None;
            }
            let place = left.iter().zip(right).position(|(x, y)| x != y);
            Some((m, place.unwrap_or(left.len().min(right.len()))))
        })
    }
}

/// What stands at a place of a memory, in the words of docs/LAYOUT.md.
pub fn describe(memory: usize, place: usize, k: u32) -> String {
    if memory == TALLY {
        return COUNT_NAMES[place].to_string();
    }
    let least = if memory < 4 { LEAST[memory] } else { TRAY_LEAST };
    if place >= least {
        return "past the least length".to_string();
    }
    let at = place.wrapping_sub(HEAD);
    match (memory, place) {
        (4, _) => format!("number {place}"),
        (0, COUNT) => "how many records".to_string(),
        (1, FLOOR) => "the floor".to_string(),
        (1, NODE_COUNT) => "how many nodes".to_string(),
        (2, COUNT) => "how many answers".to_string(),
        (3, COLUMNS) => "k".to_string(),
        (_, 0..HEAD) => "spare".to_string(),
        (0, _) => format!("record {}, column {}", at / k.max(1) as usize, at % k.max(1) as usize),
        (1, _) => format!("node {}, {}", at / NODE_WIDTH, in_node(at % NODE_WIDTH)),
        (2, _) => format!("answer {}, {}", at / ENTRY_WIDTH, in_entry(at % ENTRY_WIDTH)),
        _ => format!("desk {}, {}", at / CLIENT_WIDTH, in_client(at % CLIENT_WIDTH)),
    }
}

fn in_node(at: usize) -> String {
    match at {
        0 => "tags".to_string(),
        1..=4 => format!("value of column {}", at - 1),
        NODE_PENDING => "marks".to_string(),
        NODE_REVISION => "counter".to_string(),
        _ => "kept number".to_string(),
    }
}

fn in_entry(at: usize) -> String {
    match at {
        0 => "marks of the query, what is wanted, column of a range".to_string(),
        1..=4 => format!("value of column {}", at - 1),
        KEY_LOWEST => "lowest of a range".to_string(),
        KEY_HIGHEST => "highest of a range".to_string(),
        ENTRY_LENGTH => "list length or count".to_string(),
        ENTRY_REVISIONS..ENTRY_LIST => format!("revision {}", at - ENTRY_REVISIONS),
        _ => format!("list, number {}", at - ENTRY_LIST),
    }
}

fn in_client(at: usize) -> String {
    match at {
        CLIENT_KIND => "kind".to_string(),
        CLIENT_STEPS => "steps".to_string(),
        CLIENT_SAW => "saw a mark".to_string(),
        CLIENT_CHANGED => "changed".to_string(),
        CLIENT_FULL => "full".to_string(),
        _ => in_entry(at - CLIENT_ENTRY),
    }
}
