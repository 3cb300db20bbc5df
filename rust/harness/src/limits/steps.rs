//! Rows: 32 and 33 matching records, revisions that hold or do not, 63 and 64 filed answers; 2,047 and 2,048 records at an insert, deletes.
//! Leans on scene.

use super::*;
use crate::call::Asked;

const MATCHING: Limit = ("matching records", "32 matching records are listed; 33 give 12");
const SAW: Limit = ("a look saw a mark, matching records", "If a look saw a mark, the read answers here and files nothing");
const FETCH: Limit = ("noted 3, filed revision", "whose revision at every node is at least the one noted");
const SAW_FILED: Limit = ("an answer is filed, marks seen", "if no look saw a mark and an answer is filed");
const FILED: Limit = ("file step, filed answers", "if 64 are kept, the oldest is");
const SAME: Limit = ("file step, filed answers, one of them to this query", "a filed answer to the same query is taken out; failing that");
const NOTED: Limit = ("file step, a counter that was noted as 1", "the list goes last with the noted revisions");
const INSERTS: Limit = ("insert, records", "at the table step the table held 2,048 records, not this one");
const DELETES: Limit = ("delete, records", "the record is added or the subspace removed");
const LATER: Limit = ("last raise of a full insert, records by then", "at the table step the table held 2,048 records, not this one");

/// Begins a read, for a list or a count, of the records that have 7 in all columns but the last, at desk 0, and makes its looks and some
/// steps more.
pub fn reading(scene: Scene, kind: u32, more: u32) -> Scene {
    let k = scene.k;
    scene.begun(kind, 0, marks(k) >> 1, 7).steps(0, (1 << (k - 1)) + more)
}

fn reads(scene: Scene, more: u32) -> Scene {
    reading(scene, READ, more)
}

/// An insert of a record that lies in that read has set its marks at desk 1.
pub fn marked(scene: Scene) -> Scene {
    let k = scene.k;
    scene.begun(INSERT, 1, ALL, 7).steps(1, 1 << k)
}

/// The records as `Scene::records` has them, on the tray.
pub fn on_tray(k: u32, n: u32) -> impl Iterator<Item = (Place, u32)> {
    (0..n * k).map(move |i| ((4, i as usize), if i % k == k - 1 { i / k } else { 7 }))
}

pub fn lists(rows: &mut Vec<Row>, k: u32) {
    for n in [0, 1, 31, 32] {
        let table = || Scene::opened(k).records(n, 0);
        let held = client(0, CLIENT_ENTRY + ENTRY_LENGTH);
        rows.push(reads(table(), 1).row(MATCHING, n, step(0), says(0)).after([(held, n), (ANSWER_COUNT, 0)]));
        let filed = [(ANSWER_COUNT, 1), (answer(0, ENTRY_LENGTH), n)];
        rows.push(reads(table(), 2).row(MATCHING, n, step(0), from_table(n)).after(on_tray(k, n)).after(filed).after(idle(0)));
        let again = reads(reads(table(), 3), 0);
        rows.push(again.row(MATCHING, n, step(0), from_file(n)).after(on_tray(k, n)).after(filed).after(idle(0)));
        let seen = reads(marked(table()), 1).row(SAW, n, step(0), from_table(n));
        rows.push(seen.after(on_tray(k, n)).after([(ANSWER_COUNT, 0)]).after(idle(0)));
    }
    // "a read's table step finds over 32 records; the read ends, desk idle, tray untouched"
    for n in [33, 34, 2_048] {
        let table = || Scene::opened(k).records(n, 0);
        rows.push(reads(table(), 1).row(MATCHING, n, step(0), says(12)).after([(ANSWER_COUNT, 0)]).after(idle(0)));
        rows.push(reads(table(), 2).row(MATCHING, n, step(0), says(6)));
        rows.push(reads(marked(table()), 1).row(SAW, n, step(0), says(12)).after([(ANSWER_COUNT, 0)]).after(idle(0)));
    }
}

/// Answer i is made one to the read that names 5 in every column, under revision 3 at each of its nodes.
fn answered(scene: Scene, kind: u32, i: u32) -> Scene {
    let k = scene.k;
    scene.put(answer(i, 0), marks(k) | wanted(kind)).series(answer(i, 1), 1, k, 5, 0).series(answer(i, ENTRY_REVISIONS), 1, 1 << k, 3, 0)
}

pub fn fetches(rows: &mut Vec<Row>, k: u32) {
    READS.iter().for_each(|kind| fetches_of(rows, k, *kind));
}

fn fetches_of(rows: &mut Vec<Row>, k: u32, kind: u32) {
    // nodes that are added have the floor as counter
    let filed = || answered(Scene::opened(k).put(FLOOR, 3).answers(1), kind, 0);
    let looks = 1 << k;
    for look in 0..looks {
        for (revision, wanted) in [(0, says(0)), (2, says(0)), (3, from_file(0)), (4, from_file(0))] {
            let scene = filed().put(answer(0, ENTRY_REVISIONS + look as usize), revision).begun(kind, 0, ALL, 5).steps(0, looks);
            rows.push(scene.row(FETCH, revision, step(0), wanted));
        }
    }
    let write = filed().begun(INSERT, 1, ALL, 5);
    for (set, wanted) in [(0, from_file(0)), (looks, says(0))] {
        let scene = write.clone().steps(1, set).begun(kind, 0, ALL, 5).steps(0, looks);
        rows.push(scene.row(SAW_FILED, set, step(0), wanted));
    }
}

pub fn filings(rows: &mut Vec<Row>, k: u32) {
    READS.iter().for_each(|kind| filings_of(rows, k, *kind));
}

/// A read that names 5 in every column, at its file step, beside n filed answers to other queries.
fn filings_of(rows: &mut Vec<Row>, k: u32, kind: u32) {
    let up_to_file = |n| Scene::opened(k).answers(n).begun(kind, 0, ALL, 5).steps(0, (1 << k) + 2);
    for (n, kept, first) in [(1, 2, 1000), (63, 64, 1000), (64, 64, 1001)] {
        let after = [(ANSWER_COUNT, kept), (answer(0, 1), first), (answer(kept - 1, 1), 5)];
        rows.push(up_to_file(n).row(FILED, n, step(0), from_table(0)).after(after).after(idle(0)));
    }
    for n in [11, 63, 64] {
        let after = [(ANSWER_COUNT, n), (answer(0, 1), 1000), (answer(9, 1), 1009), (answer(n - 1, 1), 5)];
        let row = answered(up_to_file(n), kind, 10).row(SAME, n, step(0), from_table(0)).after(after);
        // the next one has moved up
        rows.push(if n > 11 { row.after([(answer(10, 1), 1011)]) } else { row });
    }
    for counter in [1, 9] {
        let scene = up_to_file(0).put(node(0, NODE_REVISION), counter);
        rows.push(scene.row(NOTED, counter, step(0), from_table(0)).after([(ANSWER_COUNT, 1), (answer(0, ENTRY_REVISIONS), 1)]));
    }
}

pub fn inserts(rows: &mut Vec<Row>, k: u32) {
    // 8 is the last column's value in the first record; of 2,048 the last has 2,055
    let inserts = [
        (0, 7, CHANGED, Some(0)),
        (2_047, 7, CHANGED, Some(0)),
        (2_047, 5_000, CHANGED, Some(2_047)),
        (2_047, 8, UNCHANGED, None),
        (2_048, 7, says(13), None),
        (2_048, 5_000, says(13), None),
        (2_048, 8, UNCHANGED, None),
        (2_048, 15, UNCHANGED, None),
        (2_048, 2_055, UNCHANGED, None),
    ];
    for (n, last, end, place) in inserts {
        let after = place.map(|i| (record(k, i, k - 1), last)).into_iter().chain([(RECORD_COUNT, n + place.is_some() as u32)]);
        write(rows, k, (INSERTS, n), (INSERT, one_record(k, last)), end, after.collect());
    }
    let full = Scene::opened(k).records(2_048, 8).made(begin(INSERT, 0, one_record(k, 7))).steps(0, (1 << k) + 1);
    for n in [2_048, 2_047, 0] {
        let scene = full.clone().put(RECORD_COUNT, n).steps(0, (1 << k) - 1);
        rows.push(scene.row(LATER, n, step(0), says(13)).after(idle(0)));
    }
}

pub fn deletes(rows: &mut Vec<Row>, k: u32) {
    let (stars, other, one) = (query(k, 0, 0), query(k, ALL, 5), one_record(k, 8));
    let ends = [(0, stars, UNCHANGED, 0), (2_048, other, UNCHANGED, 2_048), (2_048, one, CHANGED, 2_047), (2_048, stars, CHANGED, 0)];
    for (n, asked, end, left) in ends {
        write(rows, k, (DELETES, n), (DELETE, asked), end, vec![(RECORD_COUNT, left)]);
    }
}

/// The table step and the last raise of a write beside n records.
fn write(rows: &mut Vec<Row>, k: u32, (limit, n): (Limit, u32), (kind, asked): (u32, Asked), end: Reply, after: Vec<(Place, u32)>) {
    let begun = Scene::opened(k).records(n, 8).made(begin(kind, 0, asked));
    rows.push(begun.clone().steps(0, 1 << k).row(limit, n, step(0), says(0)).after(after.clone()));
    rows.push(begun.steps(0, 2 << k).row(limit, n, step(0), end).after(after).after(idle(0)));
}
