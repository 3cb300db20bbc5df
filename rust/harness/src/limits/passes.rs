//! Rows of the passes over records (S-2): one record lies in the query's subspace, at each place of tables with every number of records up to
//! 35, which is more than twice as many as are tested at once; and none does. And of 0 (S-5) in as many. Leans on scene.

use super::*;

const ONE: Limit = ("one fits at most, of records", "A record lies in a query's subspace if it has the named value in each named column.");
const ZERO: Limit = ("one has the named 0, of records", "A named 0 is never equal to anything");
const SKIPPED: Limit = ("one is skipped, of records", "a range skips records with 0 in its column");

/// The table step of a list, a count and a delete. The record at a place has that place plus 1 in its last column.
pub fn places(rows: &mut Vec<Row>, k: u32) {
    let held = client(0, CLIENT_ENTRY + ENTRY_LENGTH);
    for (n, place) in (0..=35).flat_map(|n| (0..=n).map(move |place| (n, place))) {
        let found = (place < n) as u32;
        let begun = |kind| Scene::opened(k).records(n, 1).made(begin(kind, 0, one_record(k, place + 1)));
        for (kind, listed) in [(READ, found * (place + 1)), (COUNTS, 0)] {
            let taken = begun(kind).steps(0, (1 << k) + 1).row(ONE, n, step(0), says(0));
            rows.push(taken.after([(held, found), (client(0, CLIENT_ENTRY + ENTRY_LIST + k as usize - 1), listed)]));
        }
        // those behind it have moved up, and what the last one frees is 0
        let left = (0..n - found).map(|i| (record(k, i, k - 1), i + 1 + (i >= place) as u32));
        let freed = (0..k * found).map(|c| (record(k, n - found, c), 0));
        let delete = begun(DELETE).steps(0, 1 << k).row(ONE, n, step(0), says(0));
        rows.push(delete.after([(RECORD_COUNT, n - found)]).after(left).after(freed));
    }
}

/// The same with 0, 1, .. in the last column: naming 0 finds none and takes out none, and a range of all values is short of the one with 0.
pub fn zeros(rows: &mut Vec<Row>, k: u32) {
    let held = client(0, CLIENT_ENTRY + ENTRY_LENGTH);
    for n in 0..=35 {
        let table = || Scene::opened(k).records(n, 0);
        let begun = |kind| table().made(begin(kind, 0, one_record(k, 0)));
        rows.extend(READS.map(|kind| begun(kind).steps(0, (1 << k) + 1).row(ZERO, n, step(0), says(0)).after([(held, 0)])));
        let left = (0..n).map(|i| (record(k, i, k - 1), i)).chain([(RECORD_COUNT, n)]);
        rows.push(begun(DELETE).steps(0, 1 << k).row(ZERO, n, step(0), says(0)).after(left));
        let ranged = table().made(begin_within(COUNTS, 0, query(k, marks(k) >> 1, 7), (k - 1, 0, u32::MAX))).steps(0, (1 << (k - 1)) + 1);
        rows.push(ranged.row(SKIPPED, n, step(0), says(0)).after([(held, n.saturating_sub(1))]));
    }
}
