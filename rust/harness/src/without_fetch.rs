//! The plain twin with one fault of its own: no fetch finds a filed answer, and everything goes to the table. Every list is right, so
//! demand 3 has nothing against it; demand 2's last sentence has. For trying that its checker finds this. Leans on side and hall's layout.

use crate::call::{Call, Within};
use crate::hall::Tally;
use crate::side::{twin_with, Lent, Reply, Side};
use twin::layout::*;
use twin::query::Query;
use twin::Fault;

pub struct WithoutFetch;

fn plain() -> &'static dyn Side {
    twin_with(Fault::None)
}

impl Side for WithoutFetch {
    fn open(&self, m: Lent, k: u32) -> Reply {
        plain().open(m, k)
    }
    fn begin_read(&self, m: Lent, client: u32, query: &[u32]) -> Reply {
        plain().begin_read(m, client, query)
    }
    fn begin_count(&self, m: Lent, client: u32, query: &[u32]) -> Reply {
        plain().begin_count(m, client, query)
    }
    fn begin_read_within(&self, m: Lent, client: u32, query: &[u32], within: Within) -> Reply {
        plain().begin_read_within(m, client, query, within)
    }
    fn begin_count_within(&self, m: Lent, client: u32, query: &[u32], within: Within) -> Reply {
        plain().begin_count_within(m, client, query, within)
    }
    fn begin_insert(&self, m: Lent, client: u32, query: &[u32]) -> Reply {
        plain().begin_insert(m, client, query)
    }
    fn begin_delete(&self, m: Lent, client: u32, query: &[u32]) -> Reply {
        plain().begin_delete(m, client, query)
    }
    fn step(&self, m: Lent, tray: &mut [u32], client: u32) -> Reply {
        unfiled(m, client, |m| plain().step(m, tray, client))
    }
    fn abandon(&self, m: Lent, client: u32) -> Reply {
        plain().abandon(m, client)
    }
    fn evict_answer(&self, m: Lent, place: u32) -> Reply {
        plain().evict_answer(m, place)
    }
    fn evict_node(&self, m: Lent, place: u32) -> Reply {
        plain().evict_node(m, place)
    }
    fn renew(&self, m: Lent) -> Reply {
        plain().renew(m)
    }
    fn tallied(&self, m: Lent, tray: &mut [u32], tally: &mut Tally, call: &Call) -> Reply {
        match call {
            Call::Step { client, .. } => unfiled(m, *client, |m| plain().tallied(m, tray, tally, call)),
            _ => plain().tallied(m, tray, tally, call),
        }
    }
}

/// A step; while a fetch is made, the count of filed answers is 0.
fn unfiled(m: Lent, client: u32, step: impl FnOnce(Lent) -> Reply) -> Reply {
    if !is_fetch(&m, client) {
        return step(m);
    }
    let count = std::mem::replace(&mut m.answers[COUNT], 0);
    let reply = step(Lent { table: m.table, nodes: m.nodes, answers: m.answers, clients: m.clients });
    m.answers[COUNT] = count;
    reply
}

/// In a hall that a history left: the desk reads and has made its looks.
fn is_fetch(m: &Lent, client: u32) -> bool {
    let Some(own) = m.clients[HEAD..].chunks_exact(CLIENT_WIDTH).nth(client as usize) else {
        return false;
    };
    let query = own[CLIENT_ENTRY..].first_chunk().and_then(|key| Query::kept(m.clients[COLUMNS] as usize, key));
    own[CLIENT_KIND] == READ && query.is_some_and(|query| own[CLIENT_STEPS] == query.looks())
}
