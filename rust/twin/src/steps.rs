//! One step of a desk, and the abandoning of a write, after their refusals (document 01, "One desk, step by step"; document 02, S-4 and S-6). Leans
//! on nodes, answers and table.

use crate::answers::{entry_of, Entry};
use crate::layout::*;
use crate::query::Query;
use crate::table::Change;
use crate::{answers, nodes, table, Fault, Memories, Reply};
use std::ops::Range;

impl<const FAULT: u8> Memories<'_, FAULT> {
    /// Looks, then fetch, table, file.
    pub(crate) fn read_step(&mut self, tray: &mut [u32], client: u32, query: &Query) -> Reply {
        let (steps, looks) = (self.client(client)[CLIENT_STEPS], query.looks());
        if steps < looks {
            self.look(client, query, steps)
        } else if steps == looks {
            self.fetch(tray, client, query)
        } else if steps == looks + 1 && query.counts {
            self.take_count(tray, client, query)
        } else if steps == looks + 1 {
            self.take_list(tray, client, query)
        } else {
            self.file(tray, client, query)
        }
    }

    fn look(&mut self, client: u32, query: &Query, number: u32) -> Reply {
        let Some((revision, pending)) = nodes::look::<FAULT>(self.nodes, &query.read_label(number)) else {
            return Reply::refused(3);
        };
        let own = self.client_mut(client);
        own[CLIENT_ENTRY + ENTRY_REVISIONS + number as usize] = revision;
        if pending {
            own[CLIENT_SAW] = 1;
        }
        own[CLIENT_STEPS] += 1;
        Reply::ACCEPTED
    }

    fn fetch(&mut self, tray: &mut [u32], client: u32, query: &Query) -> Reply {
        let (own, looks) = (self.client(client), query.looks() as usize);
        let found = if own[CLIENT_SAW] == 0 { answers::fetch::<FAULT>(self.answers, entry_of(own), looks) } else { None };
        let Some(entry) = found else {
            self.client_mut(client)[CLIENT_STEPS] += 1;
            return Reply::ACCEPTED;
        };
        let count = give::<FAULT>(tray, entry, query);
        self.client_mut(client).fill(0);
        Reply::answered(count, true)
    }

    fn take_list(&mut self, tray: &mut [u32], client: u32, query: &Query) -> Reply {
        let mut found = [0; LIST_WIDTH];
        let Some(count) = table::list(self.table, &taken::<FAULT>(query), &mut found) else {
            self.client_mut(client).fill(0);
            return Reply::refused(12);
        };
        let own = self.client_mut(client);
        if own[CLIENT_SAW] != 0 {
            own.fill(0);
            tray[..count * query.k].copy_from_slice(&found[..count * query.k]);
            return Reply::answered(count, false);
        }
        own[CLIENT_ENTRY + ENTRY_LENGTH] = count as u32;
        own[CLIENT_ENTRY + ENTRY_LIST..].copy_from_slice(&found);
        own[CLIENT_STEPS] += 1;
        Reply::ACCEPTED
    }

    /// However many there are: a count never ends with 12. Nothing stands in the list's place.
    fn take_count(&mut self, tray: &mut [u32], client: u32, query: &Query) -> Reply {
        let count = table::count(self.table, &taken::<FAULT>(query));
        let own = self.client_mut(client);
        if own[CLIENT_SAW] != 0 {
            own.fill(0);
            spoil_tray::<FAULT>(tray, count);
            return Reply::answered(count, false);
        }
        own[CLIENT_ENTRY + ENTRY_LENGTH] = count as u32;
        own[CLIENT_ENTRY + ENTRY_LIST..].fill(0);
        own[CLIENT_STEPS] += 1;
        Reply::ACCEPTED
    }

    fn file(&mut self, tray: &mut [u32], client: u32, query: &Query) -> Reply {
        if FAULT == Fault::LateLook as u8 {
            self.note_afresh(client, query);
        }
        let entry = *entry_of(self.client(client));
        answers::file::<FAULT>(self.answers, &entry);
        let count = give::<FAULT>(tray, &entry, query);
        self.client_mut(client).fill(0);
        Reply::answered(count, false)
    }

    /// the fault: the revisions are those of now
    fn note_afresh(&mut self, client: u32, query: &Query) {
        for number in 0..query.looks() {
            if let Some(place) = nodes::find(self.nodes, &query.read_label(number)) {
                let revision = nodes::all(self.nodes)[place][NODE_REVISION];
                self.client_mut(client)[CLIENT_ENTRY + ENTRY_REVISIONS + number as usize] = revision;
            }
        }
    }

    /// Announcements (marks), then table, then raises.
    pub(crate) fn write_step(&mut self, client: u32, query: &Query) -> Reply {
        let (steps, announcements) = (self.client(client)[CLIENT_STEPS], query.announcements());
        let done = if steps != announcements && is_unseen::<FAULT>(query) {
            Some(())
        } else if steps < announcements {
            nodes::announce::<FAULT>(self.nodes, &query.write_label::<FAULT>(steps))
        } else if steps == announcements {
            self.write_table(client, query);
            Some(())
        } else {
            let raised = steps - announcements - 1;
            nodes::retire::<FAULT>(self.nodes, query, raised..raised + 1, self.lifts(client))
        };
        if done.is_none() {
            return Reply::refused(3);
        }
        if steps == 2 * announcements {
            return self.end_write(client);
        }
        self.client_mut(client)[CLIENT_STEPS] += 1;
        Reply::ACCEPTED
    }

    /// Before the table step the marks that were set are taken back. After it the raises that are left are made, and the write ends as it would
    /// with the last of them.
    pub(crate) fn abandon_write(&mut self, client: u32, query: &Query) -> Reply {
        let (steps, announcements) = (self.client(client)[CLIENT_STEPS], query.announcements());
        let past_table = steps > announcements;
        let marked = if past_table { steps - announcements - 1..announcements } else { 0..steps };
        if self.retire_abandoned(client, query, marked, past_table).is_none() {
            return Reply::refused(3);
        }
        if past_table {
            return self.end_write(client);
        }
        self.client_mut(client).fill(0);
        Reply::ACCEPTED
    }

    /// A mark off each node that an abandoned write holds one at; the faults: past its table step it leaves them, or takes them back, and one that
    /// is not seen has none.
    fn retire_abandoned(&mut self, client: u32, query: &Query, marked: Range<u32>, past_table: bool) -> Option<()> {
        if past_table && FAULT == Fault::MarksLeft as u8 || is_unseen::<FAULT>(query) {
            return Some(());
        }
        let lift = past_table && self.lifts(client) && FAULT != Fault::TakenBack as u8;
        nodes::retire::<FAULT>(self.nodes, query, marked, lift)
    }

    /// Past its table step: whether the write's raises lift the counters. They do if the list of records changed, which its desk has noted, and a
    /// full table is no change (document 02, S-6). The faults: they always do, they never do, they do in a full table too.
    fn lifts(&self, client: u32) -> bool {
        let own = self.client(client);
        let full = FAULT == Fault::FullRaised as u8 && own[CLIENT_FULL] != 0;
        (own[CLIENT_CHANGED] != 0 || full || FAULT == Fault::AlwaysRaised as u8) && FAULT != Fault::NeverRaised as u8
    }

    fn write_table(&mut self, client: u32, query: &Query) {
        let change = if self.client(client)[CLIENT_KIND] == INSERT {
            table::insert(self.table, query)
        } else {
            table::delete(self.table, &taken::<FAULT>(query))
        };
        let own = self.client_mut(client);
        own[CLIENT_CHANGED] = (change == Change::Changed) as u32;
        own[CLIENT_FULL] = (change == Change::Full) as u32;
    }

    fn end_write(&mut self, client: u32) -> Reply {
        let own = self.client_mut(client);
        let reply = if own[CLIENT_FULL] != 0 { Reply::refused(13) } else { Reply::ended(own[CLIENT_CHANGED] != 0) };
        own.fill(0);
        reply
    }
}

/// What is taken from the table: what is asked; the faults: and the value just above a range, all values of a column that names 0, and 0 where a
/// range takes all others.
fn taken<const FAULT: u8>(query: &Query) -> Query {
    let mut query = *query;
    if FAULT == Fault::WideRange as u8 {
        query.range.iter_mut().for_each(|range| range.highest = range.highest.saturating_add(1));
    }
    if FAULT == Fault::ZeroAsStar as u8 {
        (0..query.k).for_each(|c| query.named &= !((query.names_zero(c) as u32) << c));
    }
    if FAULT == Fault::AllValues as u8 {
        query.range = query.range.filter(|range| (range.lowest, range.highest) != (0, u32::MAX));
    }
    query
}

/// the fault: the write names 0, and is taken to meet nothing
fn is_unseen<const FAULT: u8>(query: &Query) -> bool {
    FAULT == Fault::ZeroUnseen as u8 && (0..query.k).any(|c| query.names_zero(c))
}

/// A list's records, known to be at most 32, go to the tray's start; a count leaves the tray as it is.
fn give<const FAULT: u8>(tray: &mut [u32], entry: &Entry, query: &Query) -> usize {
    let (count, k) = (entry[ENTRY_LENGTH] as usize, query.k);
    if query.counts {
        spoil_tray::<FAULT>(tray, count);
    } else {
        tray[..count * k].copy_from_slice(&entry[ENTRY_LIST..ENTRY_LIST + count * k]);
    }
    count
}

/// the fault: a count goes to the tray's start
fn spoil_tray<const FAULT: u8>(tray: &mut [u32], count: usize) {
    if FAULT == Fault::CountOnTray as u8 {
        tray[0] = count as u32;
    }
}
