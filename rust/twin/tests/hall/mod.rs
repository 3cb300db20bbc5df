//! A hall of the twin's for its tests: memories, and reads and writes run to their ends. Leans on the twin.
// each test takes of it what it needs
#![allow(dead_code)]

use twin::layout::*;
use twin::{Memories, Reply};

pub const ACCEPTED: Reply = Reply { number: 0, count: 0, ending: 0 };

#[derive(Clone, PartialEq)]
pub struct Hall {
    pub table: Vec<u32>,
    pub nodes: Vec<u32>,
    pub answers: Vec<u32>,
    pub clients: Vec<u32>,
    pub tray: Vec<u32>,
}

impl Hall {
    pub fn open(k: u32) -> Hall {
        let mut hall = Hall {
            table: vec![7; TABLE_LEAST],
            nodes: vec![7; NODES_LEAST],
            answers: vec![7; ANSWERS_LEAST],
            clients: vec![7; CLIENTS_LEAST],
            tray: vec![7; TRAY_LEAST],
        };
        assert_eq!(hall.lend().open(k), ACCEPTED);
        hall
    }

    pub fn lend(&mut self) -> Memories<'_> {
        Memories { table: &mut self.table, nodes: &mut self.nodes, answers: &mut self.answers, clients: &mut self.clients }
    }

    pub fn step(&mut self, client: u32) -> Reply {
        let mut m: Memories<'_> = Memories { table: &mut self.table, nodes: &mut self.nodes, answers: &mut self.answers, clients: &mut self.clients };
        m.step(&mut self.tray, client)
    }

    pub fn steps(&mut self, client: u32, count: u32) {
        for _ in 0..count {
            assert_eq!(self.step(client), ACCEPTED);
        }
    }

    /// Steps until something ends: after how many steps, and how.
    pub fn run(&mut self, client: u32) -> (u32, Reply) {
        let mut made = 1;
        loop {
            let reply = self.step(client);
            if reply != ACCEPTED {
                return (made, reply);
            }
            made += 1;
        }
    }

    pub fn read(&mut self, client: u32, query: &[u32]) -> (u32, Reply) {
        assert_eq!(self.lend().begin_read(client, query), ACCEPTED);
        self.run(client)
    }

    /// A count, whose tray keeps every number at each step.
    pub fn count(&mut self, client: u32, query: &[u32]) -> (u32, Reply) {
        assert_eq!(self.lend().begin_count(client, query), ACCEPTED);
        let tray = self.tray.clone();
        let ended = self.run(client);
        assert_eq!(self.tray, tray);
        ended
    }

    pub fn insert(&mut self, client: u32, query: &[u32]) -> (u32, Reply) {
        assert_eq!(self.lend().begin_insert(client, query), ACCEPTED);
        self.run(client)
    }

    pub fn delete(&mut self, client: u32, query: &[u32]) -> (u32, Reply) {
        assert_eq!(self.lend().begin_delete(client, query), ACCEPTED);
        self.run(client)
    }

    pub fn node(&self, place: usize) -> &[u32] {
        &self.nodes[HEAD + place * NODE_WIDTH..][..NODE_WIDTH]
    }

    pub fn filed_revisions(&self, place: usize, looks: usize) -> &[u32] {
        &self.answers[HEAD + place * ENTRY_WIDTH + ENTRY_REVISIONS..][..looks]
    }
}

pub fn from_table(count: u32) -> Reply {
    Reply { number: 0, count, ending: 2 }
}

pub fn from_file(count: u32) -> Reply {
    Reply { number: 0, count, ending: 1 }
}

/// What the records of `filled` have in each column but the first.
pub const OTHER: u32 = 7;

/// A table of `count` records 1, 2, .., with k columns of which only the first differs.
pub fn filled(k: u32, count: u32) -> Hall {
    let values: Vec<u32> = (1..=count).collect();
    holding(k, &values)
}

/// A table of one record for each of these values, which ascend, in its first column.
pub fn holding(k: u32, values: &[u32]) -> Hall {
    let mut hall = Hall::open(k);
    hall.table[COUNT] = values.len() as u32;
    for (record, value) in hall.table[HEAD..].chunks_mut(k as usize).zip(values) {
        record.fill(OTHER);
        record[0] = *value;
    }
    hall
}

pub const UNSOUND: Reply = Reply { number: 3, count: 0, ending: 0 };
