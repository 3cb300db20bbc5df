//! The library as one side of a comparison, through the safe crate over its exported interface. Leans on side and mondzafeky.

use crate::call::{Call, Within};
use crate::hall::Tally;
use crate::side::{Lent, Reply, Side};
use mondzafeky::Memories;

pub struct Library;

fn over(m: Lent<'_>) -> Memories<'_> {
    Memories { table: m.table, nodes: m.nodes, answers: m.answers, clients: m.clients }
}

fn plain(reply: mondzafeky::Reply) -> Reply {
    Reply { number: reply.number, count: reply.count, ending: reply.ending }
}

impl Side for Library {
    fn open(&self, m: Lent, k: u32) -> Reply {
        plain(over(m).open(k))
    }
    fn begin_read(&self, m: Lent, client: u32, query: &[u32]) -> Reply {
        plain(over(m).begin_read(client, query))
    }
    fn begin_count(&self, m: Lent, client: u32, query: &[u32]) -> Reply {
        plain(over(m).begin_count(client, query))
    }
    fn begin_read_within(&self, m: Lent, client: u32, query: &[u32], within: Within) -> Reply {
        plain(over(m).begin_read_within(client, query, within.column, within.lowest..=within.highest))
    }
    fn begin_count_within(&self, m: Lent, client: u32, query: &[u32], within: Within) -> Reply {
        plain(over(m).begin_count_within(client, query, within.column, within.lowest..=within.highest))
    }
    fn begin_insert(&self, m: Lent, client: u32, query: &[u32]) -> Reply {
        plain(over(m).begin_insert(client, query))
    }
    fn begin_delete(&self, m: Lent, client: u32, query: &[u32]) -> Reply {
        plain(over(m).begin_delete(client, query))
    }
    fn step(&self, m: Lent, tray: &mut [u32], client: u32) -> Reply {
        plain(over(m).step(tray, client))
    }
    fn abandon(&self, m: Lent, client: u32) -> Reply {
        plain(over(m).abandon(client))
    }
    fn evict_answer(&self, m: Lent, place: u32) -> Reply {
        plain(over(m).evict_answer(place))
    }
    fn evict_node(&self, m: Lent, place: u32) -> Reply {
        plain(over(m).evict_node(place))
    }
    fn renew(&self, m: Lent) -> Reply {
        plain(over(m).renew())
    }
    fn tallied(&self, m: Lent, tray: &mut [u32], tally: &mut Tally, call: &Call) -> Reply {
        let mut own = in_fields(tally);
        let reply = tallied(&mut over(m), tray, &mut own, call);
        *tally = in_a_row(&own);
        plain(reply)
    }
}

fn tallied(m: &mut Memories, tray: &mut [u32], tally: &mut mondzafeky::Tally, call: &Call) -> mondzafeky::Reply {
    match call {
        Call::BeginRead { client, asked } => m.begin_read_tallied(tally, *client, asked.words()),
        Call::BeginCount { client, asked } => m.begin_count_tallied(tally, *client, asked.words()),
        Call::BeginReadWithin { client, asked, within } => {
            m.begin_read_within_tallied(tally, *client, asked.words(), within.column, within.lowest..=within.highest)
        }
        Call::BeginCountWithin { client, asked, within } => {
            m.begin_count_within_tallied(tally, *client, asked.words(), within.column, within.lowest..=within.highest)
        }
        Call::BeginInsert { client, asked } => m.begin_insert_tallied(tally, *client, asked.words()),
        Call::BeginDelete { client, asked } => m.begin_delete_tallied(tally, *client, asked.words()),
        Call::Step { client, .. } => m.step_tallied(tray, tally, *client),
        Call::Abandon { client } => m.abandon_tallied(tally, *client),
        other => unreachable!("{other} is lent no tally"),
    }
}

fn in_fields(counts: &Tally) -> mondzafeky::Tally {
    let [reads_begun, from_file, from_table, ended_long, reads_abandoned, writes_begun, ended_changed, ended_unchanged, writes_abandoned] = *counts;
    mondzafeky::Tally {
        reads_begun,
        from_file,
        from_table,
        ended_long,
        reads_abandoned,
        writes_begun,
        ended_changed,
        ended_unchanged,
        writes_abandoned,
    }
}

fn in_a_row(t: &mondzafeky::Tally) -> Tally {
    [
        t.reads_begun,
        t.from_file,
        t.from_table,
        t.ended_long,
        t.reads_abandoned,
        t.writes_begun,
        t.ended_changed,
        t.ended_unchanged,
        t.writes_abandoned,
    ]
}
