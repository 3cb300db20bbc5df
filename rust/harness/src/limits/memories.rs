//! Rows: k at opening; k, entry counts and filed lengths in memory, for every call but opening; desks above 11. Leans on scene.

use super::*;

const OPENING: Limit = ("k at opening", "at opening, k not 1 to 4");
const K: Limit = ("k in memory", "k, an entry count or a filed list's length in memory out of range");
const ASKED: Limit = ("columns asked beside another k in memory", "a query whose columns are not as many as the k in memory");
const RECORDS: Limit = ("records in memory", "2,048 records");
const NODES: Limit = ("nodes in memory", "1,024 nodes");
const ANSWERS: Limit = ("filed answers in memory", "64 answers");
const LENGTH: &str = "a filed list's length in memory out of range";
const COUNT: Limit = ("filed count", "a filed or held count above 2,048 is 3");
const LIST: Limit = ("filed list's length", LENGTH);
const BESIDE: Limit = ("list's length beside a filed count of 33", LENGTH);
const DESK: Limit = ("desk", "desk above 11");
const BUSY: Limit = ("busy desk", "begin at a busy desk");
const SHORT: &str = "a lent memory is below its least length";
const LENGTHS: [Limit; 5] = [("table of", SHORT), ("nodes of", SHORT), ("answers of", SHORT), ("desks of", SHORT), ("tray of", SHORT)];
const LONG: Limit = ("memories longer by at least", SHORT);

/// The rows that are about k itself.
pub fn columns(rows: &mut Vec<Row>) {
    for (k, number) in [(0, 2), (1, 0), (2, 0), (3, 0), (4, 0), (5, 2), (u32::MAX, 2)] {
        // "Opening clears the four memories, sets the floor to 1 and leaves every desk idle."
        let cleared = (0..4).flat_map(|memory| (0..LEAST[memory]).map(move |place| (memory, place))).map(|place| match place {
            FLOOR => (place, 1),
            COLUMNS => (place, k),
            _ => (place, 0),
        });
        let row = Scene::noise(k).row(OPENING, k, Call::Open { k }, says(number));
        rows.push(row.after(cleared.filter(|_| number == 0)));
    }
    for (k, sound) in [(0, false), (1, true), (2, true), (3, true), (4, true), (5, false), (6, false), (u32::MAX, false)] {
        let scene = Scene::noise(k).made(Call::Open { k: 1 }).put(COLUMNS, k);
        every_call(rows, &scene, K, k, sound);
    }
    // 2 is smaller than 3; twice each of the last three goes beyond 32 bits and comes to as many numbers as arrive
    let wide = 1 << 31;
    for (k, asked) in [(0, 1), (5, 4), (5, 6), (u32::MAX, 4), (wide, 0), (wide + 1, 1), (wide + 4, 4)] {
        let scene = Scene::noise(k).made(Call::Open { k: 1 }).put(COLUMNS, k);
        rows.extend(KINDS.map(|kind| scene.row(ASKED, asked, begin(kind, 0, query(asked, ALL, 5)), says(2))));
    }
}

pub fn counts(rows: &mut Vec<Row>, k: u32) {
    for (limit, place, most) in [(RECORDS, RECORD_COUNT, 2_048), (NODES, NODE_COUNT, 1_024), (ANSWERS, ANSWER_COUNT, 64)] {
        for (n, sound) in [(most, true), (most + 1, false), (u32::MAX, false)] {
            every_call(rows, &Scene::opened(k).put(place, n), limit, n, sound);
        }
    }
}

/// Of 1, 3 and 64 filed answers the first, the last, and what lies behind them, where any length is as good as none.
pub fn lists(rows: &mut Vec<Row>, k: u32) {
    for (n, length) in [1, 3, 64].into_iter().flat_map(|n| [32, 33, u32::MAX].map(|length| (n, length))) {
        for (name, i, most) in [("length of the first list", 0, 32), ("length of the last", n - 1, 32), ("length behind", n, u32::MAX)] {
            let scene = Scene::opened(k).answers(n).put(answer(i, ENTRY_LENGTH), length);
            every_call(rows, &scene, (name, LENGTH), length, length <= most);
        }
    }
}

/// Whether it is a count's is told by one bit of its first number, whatever the others are: 2,048 is its limit, and else 32.
pub fn filed(rows: &mut Vec<Row>, k: u32) {
    let others = [0, 1, marks(k), 32, u32::MAX - COUNT_BIT];
    for (first, i) in others.into_iter().flat_map(|other| [0, 63].map(|i| (other, i))) {
        let scene = |first, length| Scene::opened(k).answers(64).put(answer(i, 0), first).put(answer(i, ENTRY_LENGTH), length);
        for (length, sound) in [(33, true), (2_048, true), (2_049, false), (u32::MAX, false)] {
            every_call(rows, &scene(first | COUNT_BIT, length), COUNT, length, sound);
        }
        for (length, sound) in [(32, true), (33, false)] {
            every_call(rows, &scene(first, length), LIST, length, sound);
        }
    }
    let counted = Scene::opened(k).answers(2).put(answer(0, 0), 1 | COUNT_BIT).put(answer(0, ENTRY_LENGTH), 33);
    for (length, sound) in [(32, true), (33, false)] {
        every_call(rows, &counted.clone().put(answer(1, ENTRY_LENGTH), length), BESIDE, length, sound);
    }
}

/// The calls but opening. In range, in an idle hall: begins 0, step and abandoning 6, evictions at no place 8, renewal 0. Out of range: 3.
fn every_call(rows: &mut Vec<Row>, scene: &Scene, limit: Limit, value: u32, sound: bool) {
    let place = u32::MAX;
    let others = [(step(0), 6), (abandon(0), 6), (Call::EvictAnswer { place }, 8), (Call::EvictNode { place }, 8), (Call::Renew, 0)];
    // no query has more columns than 6 here
    let begun = begins(scene.k.min(6), 0).into_iter().filter(|_| scene.k <= 6).map(|call| (call, 0));
    for (call, number) in begun.chain(others) {
        rows.push(scene.row(limit, value, call, says(if sound { number } else { 3 })));
    }
}

/// The calls at a desk: one that is idle, the same when a read is under way there, and one that is not there.
pub fn desks(rows: &mut Vec<Row>, k: u32) {
    let opened = Scene::opened(k);
    let idle = [(0, 0, 6), (11, 0, 6), (12, 4, 4), (13, 4, 4), (u32::MAX, 4, 4)].map(|numbers| (DESK, opened.clone(), numbers));
    let reads = READS.into_iter().flat_map(|kind| [(0, 5, 0), (11, 5, 0)].map(|numbers| (kind, numbers)));
    let busy = reads.map(|(kind, numbers)| (BUSY, opened.clone().begun(kind, numbers.0, ALL, 5), numbers));
    for (limit, scene, (desk, begun, others)) in idle.into_iter().chain(busy) {
        rows.extend(begins(k, desk).into_iter().map(|call| scene.row(limit, desk, call, says(begun))));
        rows.extend([step(desk), abandon(desk)].map(|call| scene.row(limit, desk, call, says(others))));
    }
}

/// The calls, accepted but for one opening and reversed ranges; memories that are full, or a read that answers with as much as a tray must hold, or a count with
/// more.
fn calls(k: u32) -> Vec<Row> {
    let full = || Scene::opened(k).records(2_048, 0).nodes(1_024, 0).answers(64);
    let read = Scene::opened(k).records(32, 0).begun(READ, 11, marks(k) >> 1, 7);
    let count = Scene::opened(k).records(2_048, 0).begun(COUNTS, 11, marks(k) >> 1, 7);
    let counted = count.clone().steps(11, (1 << (k - 1)) + 2).row(LONG, 3, step(11), from_table(2_048)).counted();
    // 1 goes before 14 too
    let reversed = READS.map(|kind| (full(), begin_within(kind, 11, query(k, 0, 0), (k - 1, 9, 4)), says(14)));
    let begun = begins(k, 11).into_iter().map(|call| (full(), call, says(0))).chain(reversed);
    let others = [
        (Scene::noise(k), Call::Open { k }, says(0)),
        (Scene::noise(k), Call::Open { k: 5 }, says(2)),
        // a step that does not write the tray, and one that does
        (count, step(11), says(0)),
        (read.clone(), step(11), says(0)),
        (read.steps(11, (1 << (k - 1)) + 2), step(11), from_table(32)),
        (full().begun(INSERT, 11, ALL, 5).steps(11, 1), abandon(11), says(0)),
        (full().begun(INSERT, 11, ALL, 5_000).steps(11, (1 << k) + 1), abandon(11), says(13)),
        (full(), Call::EvictAnswer { place: 63 }, says(0)),
        (full(), Call::EvictNode { place: 1_023 }, says(0)),
        (full(), Call::Renew, says(0)),
    ];
    let rows = begun.chain(others).map(|(scene, call, own)| scene.row(LONG, 3, call, own));
    rows.chain([counted]).collect()
}

pub fn lengths(rows: &mut Vec<Row>, k: u32) {
    for row in calls(k) {
        // the tray is for a step only
        let memories = if matches!(row.call.call, Call::Step { .. }) { 5 } else { 4 };
        for memory in 0..memories {
            for length in [0, LEAST[memory] - 1] {
                let mut lent = LEAST;
                lent[memory] = length;
                rows.push(Row { limit: LENGTHS[memory], value: length as u32, wanted: says(1), lent, ..row.clone() });
            }
        }
        // this row is lent the least lengths too
        rows.push(row);
    }
}
