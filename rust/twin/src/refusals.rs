//! What the controller turns down, the first number that applies, in the order 1, 2, 14, 3 and so on (documents 01
//! and 02, S-3). Leans on layout, answers, query and range.
//! What only a step or an abandoning can find at a node stands in nodes.

use crate::answers::entry_of;
use crate::layout::*;
use crate::query::{self, Query};
use crate::range::Range;
use crate::{answers, nodes, Memories};

impl<const FAULT: u8> Memories<'_, FAULT> {
    /// client: the desk, below 12, in a memory that is long enough
    pub(crate) fn client(&self, client: u32) -> &[u32; CLIENT_WIDTH] {
        &self.clients[HEAD..CLIENTS_LEAST].as_chunks().0[client as usize]
    }

    pub(crate) fn client_mut(&mut self, client: u32) -> &mut [u32; CLIENT_WIDTH] {
        &mut self.clients[HEAD..CLIENTS_LEAST].as_chunks_mut().0[client as usize]
    }

    /// 1: a lent memory is below its least length.
    pub(crate) fn is_short(&self) -> bool {
        self.table.len() < TABLE_LEAST || self.nodes.len() < NODES_LEAST || self.answers.len() < ANSWERS_LEAST || self.clients.len() < CLIENTS_LEAST
    }

    /// 3: k, an entry count or the length of a filed list or count is out of range.
    fn is_unsound(&self) -> bool {
        !(1..=4).contains(&self.clients[COLUMNS])
            || self.table[COUNT] as usize > RECORDS
            || self.nodes[NODE_COUNT] as usize > NODES
            || self.answers[COUNT] as usize > ANSWERS
            || answers::all(self.answers).iter().any(|entry| entry[ENTRY_LENGTH] as usize > answers::most(entry))
    }

    /// 1 or 3 of the memories as a whole, or 0.
    pub(crate) fn hall_refusal(&self) -> u32 {
        if self.is_short() {
            1
        } else if self.is_unsound() {
            3
        } else {
            0
        }
    }

    fn is_idle(&self, client: u32) -> bool {
        self.client(client).iter().all(|number| *number == 0)
    }

    /// The query of a desk that is not idle, if its kind, query, step and length are in range. No write wants a count or has a range.
    fn sound_query(&self, client: u32) -> Option<Query> {
        let own = self.client(client);
        let kind = own[CLIENT_KIND];
        let entry = entry_of(own);
        let query = Query::kept(self.clients[COLUMNS] as usize, entry.first_chunk()?)?;
        let steps = if kind == READ { query.looks() + 3 } else { 2 * query.announcements() + 1 };
        let sound = (READ..=DELETE).contains(&kind)
            && (kind == READ || !query.counts && query.range.is_none())
            && (kind != INSERT || query.names_all())
            && own[CLIENT_STEPS] < steps
            && entry[ENTRY_LENGTH] as usize <= answers::most(entry);
        sound.then_some(query)
    }

    /// 2, of the query or of the range's column.
    fn refuses_columns(&self, kind: u32, asked: &[u32], range: Option<Range>) -> bool {
        let k = self.clients[COLUMNS];
        query::is_refused(k, asked, kind == INSERT) || range.is_some_and(|range| query::is_refused_range(k, asked, &range))
    }

    /// For a begin, in memories of any contents: 14 comes right after 2.
    pub(crate) fn begin_refusal(&self, kind: u32, client: u32, asked: &[u32], range: Option<Range>) -> u32 {
        if self.is_short() {
            1
        } else if self.refuses_columns(kind, asked, range) {
            2
        } else if range.is_some_and(|range| range.is_reversed()) {
            14
        } else if self.is_unsound() {
            3
        } else if client as usize >= CLIENTS {
            4
        } else if !self.is_idle(client) {
            if self.sound_query(client).is_some() {
                5
            } else {
                3
            }
        } else if kind != READ && nodes::is_worn(self.nodes) {
            10
        } else {
            0
        }
    }

    /// For a step or an abandoning, in memories that are long enough: the query of the busy desk, or 3, 4 or 6.
    pub(crate) fn busy_query(&self, client: u32) -> Result<Query, u32> {
        if self.is_unsound() {
            Err(3)
        } else if client as usize >= CLIENTS {
            Err(4)
        } else if self.is_idle(client) {
            Err(6)
        } else {
            self.sound_query(client).ok_or(3)
        }
    }
}
