//! Rows of counts (S-1): of 0 to 2,048 records, at the table step, the file step and the fetch; beside a mark; beside lists of the same query.
//! Leans on scene and steps.

use super::steps::{marked, on_tray, reading};
use super::*;

const COUNTED: Limit = ("counted records", "counts past 32 without giving 12, and is filed like a list");
const OF_2048: Limit = ("counted of 2,048 records", "how many zeros are stored for this model");
const SAW: Limit = ("a look of a count saw a mark, counted records", "If a look saw a mark, the read answers here and files nothing");
const LISTED: Limit = ("a number in the place of a count's list", "Contents that no history leaves are taken at their word");
const OTHER: Limit = ("filed beside it, of the same query, records", "a count never serves a list, nor a list a count");

/// The numbers of a list's place, all 0.
fn no_list(list: Place) -> impl Iterator<Item = (Place, u32)> {
    (0..128).map(move |i| ((list.0, list.1 + i), 0))
}

/// The first number of the key that a read of `reading` has.
fn key(k: u32, kind: u32) -> u32 {
    marks(k) >> 1 | wanted(kind)
}

pub fn counted(rows: &mut Vec<Row>, k: u32) {
    let (held, list) = (client(0, CLIENT_ENTRY + ENTRY_LENGTH), client(0, CLIENT_ENTRY + ENTRY_LIST));
    for n in [0, 1, 32, 33, 2_047, 2_048] {
        let counting = |more| reading(Scene::opened(k).records(n, 0), COUNTS, more);
        let taken = counting(1).put(list, 9).row(COUNTED, n, step(0), says(0));
        rows.push(taken.after([(held, n), (ANSWER_COUNT, 0)]).after(no_list(list)));
        let filed =
            || [(ANSWER_COUNT, 1), (answer(0, 0), key(k, COUNTS)), (answer(0, ENTRY_LENGTH), n)].into_iter().chain(no_list(answer(0, ENTRY_LIST)));
        rows.push(counting(2).row(COUNTED, n, step(0), from_table(n)).counted().after(filed()).after(idle(0)));
        let again = reading(counting(3), COUNTS, 0);
        rows.push(again.row(COUNTED, n, step(0), from_file(n)).counted().after(filed()).after(idle(0)));
        let seen = reading(marked(Scene::opened(k).records(n, 0)), COUNTS, 1).row(SAW, n, step(0), from_table(n));
        rows.push(seen.counted().after([(ANSWER_COUNT, 0)]).after(idle(0)));
        // what no history leaves there moves with its entry
        let stray = counting(2).put(list, 9).row(LISTED, 9, step(0), from_table(n)).counted();
        rows.push(stray.after([(answer(0, ENTRY_LIST), 9)]));
        let strays = reading(counting(3).put(answer(0, ENTRY_LIST), 9), COUNTS, 0);
        rows.push(strays.row(LISTED, 9, step(0), from_file(n)).counted().after([(answer(0, ENTRY_LIST), 9)]));
    }
    // the last columns are 1 to 2,048
    for (last, n) in [(1, 1), (2_048, 1), (2_049, 0)] {
        let scene = Scene::opened(k).records(2_048, 1).made(begin(COUNTS, 0, one_record(k, last))).steps(0, (1 << k) + 1);
        rows.push(scene.row(OF_2048, n, step(0), says(0)).after([(held, n)]));
    }
}

/// The row of an answer to a read of this kind that finds all n records.
fn given(scene: &Scene, kind: u32, n: u32, reply: Reply) -> Row {
    let row = scene.row(OTHER, n, step(0), reply);
    if kind == COUNTS {
        row.counted()
    } else {
        row.after(on_tray(scene.k, n))
    }
}

/// A list and a count of one query, filed in each order: neither serves the other, both are kept, each is used by its own.
pub fn beside_lists(rows: &mut Vec<Row>, k: u32) {
    for (first, second, n) in [(READ, COUNTS, 0), (READ, COUNTS, 32), (COUNTS, READ, 0), (COUNTS, READ, 32)] {
        let one = || reading(Scene::opened(k).records(n, 0), first, 3);
        rows.push(reading(one(), second, 0).row(OTHER, n, step(0), says(0)).after([(ANSWER_COUNT, 1)]));
        let both = [(ANSWER_COUNT, 2), (answer(0, 0), key(k, first)), (answer(1, 0), key(k, second))];
        rows.push(given(&reading(one(), second, 2), second, n, from_table(n)).after(both));
        for kind in [first, second] {
            let again = reading(reading(one(), second, 3), kind, 0);
            rows.push(given(&again, kind, n, from_file(n)).after(both));
        }
        // filed anew, since a counter has gone up: its own goes, the other stays
        let anew = reading(reading(one(), second, 3).put(node(0, NODE_REVISION), 7), first, 2);
        let after = [(ANSWER_COUNT, 2), (answer(0, 0), key(k, second)), (answer(1, 0), key(k, first))];
        rows.push(given(&anew, first, n, from_table(n)).after(after));
    }
}
