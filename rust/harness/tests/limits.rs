//! Every row at a limit is as the documents have it, for the library and for the plain twin; the rows ask for every number that a call can
//! give, and sides that are wrong in one thing do not pass.

use harness::call::{Call, Within, KIND_NAMES};
use harness::hall::{Tally, COUNT_NAMES};
use harness::library::Library;
use harness::limits::{rows, Row, MORE};
use harness::met::{ENDINGS, NUMBERS};
use harness::side::{twin_with, Lent, Reply, Side, FAULTS};
use std::collections::BTreeSet;
use twin::Fault;

/// As many rows as crates/limits had, which these replace; it counted a number of memory that it looked up as a row.
const ROWS_BEFORE: usize = 1_959;

/// The plain twin, but something is done to its reply or to the memories after each call, and then to the tally if it was lent one.
struct Wrong<F, G>(F, G);

/// Nothing is done to the tally.
fn wrong<F: Fn(&mut Reply, &mut Lent)>(bend: F) -> Wrong<F, fn(&Reply, &mut Tally)> {
    Wrong(bend, |_, _| {})
}

impl<F: Fn(&mut Reply, &mut Lent), G> Wrong<F, G> {
    fn bent(&self, mut m: Lent, call: impl FnOnce(&dyn Side, Lent) -> Reply) -> Reply {
        let lent = Lent { table: &mut *m.table, nodes: &mut *m.nodes, answers: &mut *m.answers, clients: &mut *m.clients };
        let mut reply = call(twin_with(Fault::None), lent);
        (self.0)(&mut reply, &mut m);
        reply
    }
}

impl<F: Fn(&mut Reply, &mut Lent), G: Fn(&Reply, &mut Tally)> Side for Wrong<F, G> {
    fn open(&self, m: Lent, k: u32) -> Reply {
        self.bent(m, |twin, m| twin.open(m, k))
    }
    fn begin_read(&self, m: Lent, client: u32, query: &[u32]) -> Reply {
        self.bent(m, |twin, m| twin.begin_read(m, client, query))
    }
    fn begin_count(&self, m: Lent, client: u32, query: &[u32]) -> Reply {
        self.bent(m, |twin, m| twin.begin_count(m, client, query))
    }
    fn begin_read_within(&self, m: Lent, client: u32, query: &[u32], within: Within) -> Reply {
        self.bent(m, |twin, m| twin.begin_read_within(m, client, query, within))
    }
    fn begin_count_within(&self, m: Lent, client: u32, query: &[u32], within: Within) -> Reply {
        self.bent(m, |twin, m| twin.begin_count_within(m, client, query, within))
    }
    fn begin_insert(&self, m: Lent, client: u32, query: &[u32]) -> Reply {
        self.bent(m, |twin, m| twin.begin_insert(m, client, query))
    }
    fn begin_delete(&self, m: Lent, client: u32, query: &[u32]) -> Reply {
        self.bent(m, |twin, m| twin.begin_delete(m, client, query))
    }
    fn step(&self, m: Lent, tray: &mut [u32], client: u32) -> Reply {
        self.bent(m, |twin, m| twin.step(m, tray, client))
    }
    fn abandon(&self, m: Lent, client: u32) -> Reply {
        self.bent(m, |twin, m| twin.abandon(m, client))
    }
    fn evict_answer(&self, m: Lent, place: u32) -> Reply {
        self.bent(m, |twin, m| twin.evict_answer(m, place))
    }
    fn evict_node(&self, m: Lent, place: u32) -> Reply {
        self.bent(m, |twin, m| twin.evict_node(m, place))
    }
    fn renew(&self, m: Lent) -> Reply {
        self.bent(m, |twin, m| twin.renew(m))
    }
    fn tallied(&self, m: Lent, tray: &mut [u32], tally: &mut Tally, call: &Call) -> Reply {
        let reply = self.bent(m, |twin, m| twin.tallied(m, tray, tally, call));
        (self.1)(&reply, tally);
        reply
    }
}

/// That each of the rows that `concern` a wrong side, and there are some, finds it out.
fn found_by_each(wrong: &dyn Side, concern: impl Fn(&Row) -> bool) {
    let rows: Vec<Row> = rows().into_iter().filter(concern).collect();
    assert!(!rows.is_empty());
    assert!(rows.iter().all(|row| row.run(wrong).flaw.is_some()));
}

#[test]
fn every_row_is_as_the_documents_have_it() {
    let rows = rows();
    assert!(rows.iter().filter(|row| row.lent == MORE).count() >= ROWS_BEFORE);
    for (good, line) in rows.iter().map(|row| row.judge(&Library, twin_with(Fault::None))) {
        assert!(good, "{line}");
    }
}

#[test]
fn each_call_is_asked_for_every_number_and_ending_that_it_has() {
    let rows = rows();
    for (kind, (numbers, endings)) in NUMBERS.into_iter().zip(ENDINGS).enumerate() {
        let wanted = || rows.iter().filter(|row| row.call.kind() == Some(kind)).map(|row| row.wanted);
        let asked: BTreeSet<u32> = wanted().map(|reply| reply.number).collect();
        let told: BTreeSet<u32> = wanted().map(|reply| reply.ending).collect();
        assert!(asked.iter().eq(numbers) && told.iter().eq(endings), "{}: {asked:?}, {told:?}", KIND_NAMES[kind]);
    }
}

#[test]
fn another_reply_is_found() {
    // 7 is given no longer
    for number in (0..=15).filter(|number| *number != 7) {
        let wrong = wrong(|reply: &mut Reply, _: &mut Lent| reply.number += (reply.number == number) as u32);
        found_by_each(&wrong, |row| row.wanted.number == number);
    }
    for ending in 1..=4 {
        let wrong = wrong(|reply: &mut Reply, _: &mut Lent| reply.ending = if reply.ending == ending { 0 } else { reply.ending });
        found_by_each(&wrong, |row| row.wanted.ending == ending);
    }
    for count in [32, 33, 2_047, 2_048] {
        found_by_each(&wrong(|reply: &mut Reply, _: &mut Lent| reply.count += (reply.count == count) as u32), |row| row.wanted.count == count);
    }
}

#[test]
fn a_refusal_that_alters_a_memory_is_found() {
    for memory in 0..4 {
        let wrong = wrong(|reply: &mut Reply, m: &mut Lent| {
            let lent: &mut [u32] = [&mut *m.table, &mut *m.nodes, &mut *m.answers, &mut *m.clients][memory];
            lent.last_mut().into_iter().for_each(|last| *last ^= (reply.number != 0) as u32);
        });
        // 12 and 13 end what is under way
        found_by_each(&wrong, |row| ![0, 12, 13].contains(&row.wanted.number) && row.lent[memory] > 0);
    }
}

/// Each count is asked for after a call that is lent a tally, where it is accepted and where it is refused.
#[test]
fn a_tally_that_is_not_as_it_is_to_be_is_found() {
    let rows: Vec<Row> = rows().into_iter().filter(|row| row.call.tallied).collect();
    assert!(rows.iter().any(|row| row.wanted.number == 15) && rows.iter().any(|row| row.wanted.number == 0));
    for place in 0..COUNT_NAMES.len() {
        let wrong = Wrong(|_: &mut Reply, _: &mut Lent| {}, |_: &Reply, tally: &mut Tally| tally[place] ^= 1);
        assert!(rows.iter().all(|row| row.run(&wrong).flaw.is_some()), "{}", COUNT_NAMES[place]);
    }
}

#[test]
fn each_fault_of_the_twin_is_found() {
    let rows = rows();
    for (name, fault) in FAULTS {
        assert!(rows.iter().any(|row| row.run(twin_with(fault)).flaw.is_some()), "{name}");
    }
}
