//! Rows of abandonings: of writes on each side of the table step, with each end (S-4); what is wrong with a node that has the write's mark, or with
//! one that it has raised; twelve writers on the same nodes; reads afterwards; of reads. A write that changed nothing leaves its counters (S-6);
//! more of such writes is in unchanged. Leans on scene, nodes and steps.

use super::nodes::writing;
use super::steps::{on_tray, reading};
use super::*;
use crate::call::Asked;
use std::ops::Range;

const BEFORE: Limit = ("abandoning of a write, marks set", "A writer before its table step takes back the marks it has set");
const AFTER: Limit =
    ("abandoning of a write, raises made", "performs all remaining raises itself and reports the write's end as its last raise would have");
const CHANGES: Limit = ("abandoning or last raise, changed flag", "reports the write's end as its last raise would have");
const FLAGS: Limit = ("abandoning before the table step, steps made", "An accepted call that ends nothing returns 0 and count 0");
const UNMARKED: Limit = ("abandoning, marks of one node", "a raise or the taking back of a mark finds its node missing or unmarked");
const COUNTER: Limit = ("abandoning, counter of one node", "a counter at its largest to raise");
const MISSING: Limit = ("abandoning, node that is missing", "finds its node missing");
const COUNTED: Limit = ("abandoning of a write, its nodes that are there", "finds its node missing");
const DESKS: Limit = ("abandoning among writers of the same, desk", "counter up by one, marks down by one");
const TAKEN: Limit =
    ("read after marks taken back, marks", "an answer is filed for this query whose revision at every node is at least the one noted");
const AGAIN: Limit = ("read after an abandoning, raises made", "After a 7, marks stood for good and every read of that model went to the table");
const READ_ABANDONED: Limit = ("abandoning of a read, steps made", "A reader's desk becomes idle");

const MOST: u32 = u32::MAX;

/// A write of each kind with each end, begun at desk 0; its nodes will be node 0, 1, .. 8 is the last column's value in the first record. And how
/// many records there are after its table step.
pub fn writes(k: u32) -> Vec<(Scene, Reply, [u32; 2])> {
    let (stars, one) = (query(k, 0, 0), |last| one_record(k, last));
    let writes = [
        (INSERT, one(7), 0, CHANGED, 1),
        (INSERT, one(5_000), 2_047, CHANGED, 2_048),
        (INSERT, one(8), 2_047, UNCHANGED, 2_047),
        (INSERT, one(7), 2_048, says(13), 2_048),
        (INSERT, one(2_055), 2_048, UNCHANGED, 2_048),
        (DELETE, stars, 0, UNCHANGED, 0),
        (DELETE, one(7), 2_048, UNCHANGED, 2_048),
        (DELETE, one(8), 2_048, CHANGED, 2_047),
        (DELETE, stars, 2_048, CHANGED, 0),
    ];
    let begun =
        |(kind, asked, n, end, left): (u32, Asked, u32, Reply, u32)| (Scene::opened(k).records(n, 8).made(begin(kind, 0, asked)), end, [n, left]);
    writes.map(begun).to_vec()
}

/// Marks and counter of these nodes.
pub fn nodes_at(numbers: Range<u32>, pending: u32, revision: u32) -> impl Iterator<Item = (Place, u32)> {
    numbers.flat_map(move |i| [(node(i, NODE_PENDING), pending), (node(i, NODE_REVISION), revision)])
}

/// The counter that a write's nodes have after its end, from 1 on: "after no change, each raise step takes the mark off and leaves the counter".
pub fn counter_after(end: Reply) -> u32 {
    if end == CHANGED {
        2
    } else {
        1
    }
}

/// After each number of steps. Nodes are added with counter 1.
pub fn by_steps(rows: &mut Vec<Row>, k: u32) {
    let n = 1 << k;
    for (scene, end, [before, after]) in writes(k) {
        for made in 0..=n {
            let row = scene.clone().steps(0, made).row(BEFORE, made, abandon(0), says(0));
            rows.push(row.after(nodes_at(0..made, 0, 1)).after([(NODE_COUNT, made), (RECORD_COUNT, before)]).after(idle(0)));
        }
        for raised in 0..n {
            let row = scene.clone().steps(0, n + 1 + raised).row(AFTER, raised, abandon(0), end);
            rows.push(row.after(nodes_at(0..n, 0, counter_after(end))).after([(NODE_COUNT, n), (RECORD_COUNT, after)]).after(idle(0)));
        }
    }
}

/// How a write ends in a hall without records.
pub fn end_in_empty(kind: u32) -> Reply {
    if kind == INSERT {
        CHANGED
    } else {
        UNCHANGED
    }
}

/// The raises made before an abandoning: none, one, all but one.
pub fn raises(k: u32) -> [u32; 3] {
    [0, 1, (1 << k) - 1]
}

/// What the desk has noted of its table step, taken at its word: full goes before changed, also at a delete's desk. By an abandoning and by the
/// last raise; before the table step none counts.
pub fn flags(rows: &mut Vec<Row>, k: u32) {
    let (n, full) = (1 << k, says(13));
    let ends =
        [(0, 0, UNCHANGED), (1, 0, CHANGED), (2, 0, CHANGED), (MOST, 0, CHANGED), (0, 1, full), (1, 1, full), (MOST, 2, full), (0, MOST, full)];
    for (kind, (changed, filled, end)) in [INSERT, DELETE].into_iter().flat_map(|kind| ends.map(|end| (kind, end))) {
        let noted = |steps| writing(k, kind, steps).put(client(0, CLIENT_CHANGED), changed).put(client(0, CLIENT_FULL), filled);
        rows.extend(raises(k).map(|raised| noted(n + 1 + raised).row(CHANGES, changed, abandon(0), end).after(idle(0))));
        rows.push(noted(2 * n).row(CHANGES, changed, step(0), end).after(idle(0)));
        rows.extend([0, 1, n].map(|made| noted(made).row(FLAGS, made, abandon(0), says(0)).after(idle(0))));
    }
}

/// A write pulled out after some steps in an empty hall: how many of its nodes are there, at which it has a mark, what the abandoning says if
/// nothing is in the way, and the counter that its nodes have then.
#[derive(Clone)]
struct PulledOut {
    steps: u32,
    there: u32,
    held: Range<u32>,
    end: Reply,
    counter: u32,
}

/// With one mark set and with all, and with each of `raises` made.
fn pulled_out(k: u32, kind: u32) -> impl Iterator<Item = PulledOut> {
    let n = 1 << k;
    let before = [1, n].map(|made| PulledOut { steps: made, there: made, held: 0..made, end: says(0), counter: 1 });
    let end = end_in_empty(kind);
    let after = raises(k).map(|raised| PulledOut { steps: n + 1 + raised, there: n, held: raised..n, end, counter: counter_after(end) });
    before.into_iter().chain(after)
}

/// One number of one node is another than the write has left there. Where it has a mark the rows ask what becomes of the number, if that mark is
/// taken off alone, before the table step and after no change, and if the counter goes up too, or for 3 where there is none; a node that it has
/// raised is not looked for.
fn damaged(rows: &mut Vec<Row>, (k, kind): (u32, u32), limit: Limit, (at, value): (usize, u32), [taken_off, raised]: [Option<u32>; 2]) {
    for (write, number) in pulled_out(k, kind).flat_map(|write| (0..write.there).map(move |number| (write.clone(), number))) {
        let scene = writing(k, kind, write.steps).put(node(number, at), value);
        let becomes = match write.held.contains(&number) {
            true if write.counter == 1 => taken_off,
            true => raised,
            false => Some(value),
        };
        let Some(becomes) = becomes else {
            rows.push(scene.row(limit, value, abandon(0), says(3)));
            continue;
        };
        let pending = if at == NODE_PENDING { becomes } else { 0 };
        let others = nodes_at(0..number, 0, write.counter).chain(nodes_at(number + 1..write.there, 0, write.counter));
        let row = scene.row(limit, value, abandon(0), write.end).after(others).after(idle(0));
        rows.push(row.after([(node(number, at), becomes), (node(number, NODE_PENDING), pending)]));
    }
}

pub fn nodes(rows: &mut Vec<Row>, k: u32) {
    for of in [(k, INSERT), (k, DELETE)] {
        for (marks, becomes) in [(0, None), (1, Some(0)), (2, Some(1)), (MOST, Some(MOST - 1))] {
            damaged(rows, of, UNMARKED, (NODE_PENDING, marks), [becomes; 2]);
        }
        for (counter, raised) in [(0, Some(1)), (4_294_967_104, Some(4_294_967_105)), (MOST - 1, Some(MOST)), (MOST, None)] {
            damaged(rows, of, COUNTER, (NODE_REVISION, counter), [Some(counter), raised]);
        }
        // another label: its tags, or the value of its first column
        damaged(rows, of, MISSING, (0, 0), [None; 2]);
        damaged(rows, of, MISSING, (1, 6), [None; 2]);
        counted(rows, of);
    }
}

/// Only the first so many of its nodes are there.
fn counted(rows: &mut Vec<Row>, (k, kind): (u32, u32)) {
    for (write, there) in pulled_out(k, kind).flat_map(|write| (0..=write.there).map(move |there| (write.clone(), there))) {
        let scene = writing(k, kind, write.steps).put(NODE_COUNT, there);
        rows.push(scene.row(COUNTED, there, abandon(0), if there == write.there { write.end } else { says(3) }));
    }
}

/// Twelve desks have the same write under way: all of its nodes have 12 marks. One is pulled out before its table step or after it; then all are,
/// one after another, and the last leaves no mark.
pub fn desks(rows: &mut Vec<Row>, k: u32) {
    let n = 1 << k;
    for kind in [INSERT, DELETE] {
        let marked = (0..12).fold(Scene::opened(k), |scene, desk| scene.begun(kind, desk, ALL, 5).steps(desk, n));
        for desk in [0, 5, 11] {
            rows.push(marked.row(DESKS, desk, abandon(desk), says(0)).after(nodes_at(0..n, 11, 1)).after(idle(desk)));
            let row = marked.clone().steps(desk, 1).row(DESKS, desk, abandon(desk), end_in_empty(kind));
            rows.push(row.after(nodes_at(0..n, 11, counter_after(end_in_empty(kind)))).after(idle(desk)));
        }
        // only the first insert has changed the table
        let past_table = (0..12).fold(marked, |scene, desk| scene.steps(desk, 1 + desk % n));
        let but_last = (0..11).fold(past_table, |scene, desk| scene.made(abandon(desk)));
        rows.push(but_last.row(DESKS, 11, abandon(11), UNCHANGED).after(nodes_at(0..n, 0, counter_after(end_in_empty(kind)))).after(idle(11)));
    }
}

/// A read of all records, and what is filed for it, beside a write that changes one of them and is pulled out at desk 1. With marks taken back the
/// filed answer holds; after the table step it does not: the next read files its own, and the one after gets that.
pub fn read_again(rows: &mut Vec<Row>, k: u32) {
    for reads in READS {
        for (kind, last, left) in [(INSERT, 9, 10), (DELETE, 8, 8)] {
            let filed = reading(Scene::opened(k).records(9, 0), reads, 3).made(begin(kind, 1, one_record(k, last)));
            for made in [0, 1, 1 << k] {
                let again = reading(filed.clone().steps(1, made).made(abandon(1)), reads, 0);
                rows.push(answered(&again, reads, (TAKEN, made), from_file(9)));
            }
            for raised in raises(k) {
                let ended = filed.clone().steps(1, (1 << k) + 1 + raised).made(abandon(1));
                rows.push(reading(ended.clone(), reads, 0).row(AGAIN, raised, step(0), says(0)));
                rows.push(answered(&reading(ended.clone(), reads, 2), reads, (AGAIN, raised), from_table(left)));
                rows.push(answered(&reading(reading(ended, reads, 3), reads, 0), reads, (AGAIN, raised), from_file(left)));
            }
        }
    }
}

/// The row of an answer with as many records as there are.
fn answered(scene: &Scene, reads: u32, (limit, value): (Limit, u32), reply: Reply) -> Row {
    let row = scene.row(limit, value, step(0), reply).after([(ANSWER_COUNT, 1)]).after(idle(0));
    if reads == COUNTS {
        return row.counted();
    }
    row.after(on_tray(scene.k, reply.count))
}

/// After each number of steps; of a read no number of its desk tells an end.
pub fn of_reads(rows: &mut Vec<Row>, k: u32) {
    for (kind, made) in READS.into_iter().flat_map(|kind| (0..(1 << k) + 3).map(move |made| (kind, made))) {
        let scene = Scene::opened(k).begun(kind, 0, ALL, 5).steps(0, made);
        for (changed, full) in [(0, 0), (1, 1)] {
            let noted = scene.clone().put(client(0, CLIENT_CHANGED), changed).put(client(0, CLIENT_FULL), full);
            rows.push(noted.row(READ_ABANDONED, made, abandon(0), says(0)).after(idle(0)));
        }
    }
}
