//! Rows of tallies (S-7): each of the nine counts at its largest and just below it, at each call that raises it: 15, which alters nothing, and after
//! which the read or write goes on with another tally; or the call as it is without one, and one more. Full counts that a call does not raise; and
//! what goes before 15. Leans on scene, abandonings, nodes, ranges and steps.

use super::abandonings::writes as each_write;
use super::nodes::writing;
use super::ranges::Read;
use super::steps::marked;
use super::*;
use crate::call::Asked;
use crate::hall::{Tally, COUNT_NAMES, TALLY};

const FULL: &str = "given where the call would raise a count that stands at 4,294,967,295, tested after 11, altering nothing";
const ENDS_NOTHING: Limit = ("every count, at a step that ends nothing", "given where the call would raise a count that stands at 4,294,967,295");
const SEVERAL: Limit = ("every count full, and several apply, as bits", "tested after 11");
const UNSOUND: Limit = ("every count full, and a node is not as it was left, its number", "tested after 11");

const MOST: u32 = u32::MAX;
const NONE: Tally = [0; COUNT_NAMES.len()];
const ALL_FULL: Tally = [MOST; COUNT_NAMES.len()];

/// The counts by their places.
const READS_BEGUN: usize = 0;
const FROM_FILE: usize = 1;
const FROM_TABLE: usize = 2;
const ENDED_LONG: usize = 3;
const READS_ABANDONED: usize = 4;
const WRITES_BEGUN: usize = 5;
const ENDED_CHANGED: usize = 6;
const ENDED_UNCHANGED: usize = 7;
const WRITES_ABANDONED: usize = 8;

/// These counts but for one of them.
fn with(counts: Tally, place: usize, count: u32) -> Tally {
    let mut counts = counts;
    counts[place] = count;
    counts
}

/// What stands in the tally.
fn counts_are(counts: Tally) -> impl Iterator<Item = (Place, u32)> {
    counts.into_iter().enumerate().map(|(place, count)| ((TALLY, place), count))
}

impl Scene {
    /// From here on a tally with these counts is lent.
    fn lends(self, counts: Tally) -> Scene {
        self.made(Call::NewTally { counts })
    }
}

/// The row of a call that is accepted and raises a count: what it does without a tally.
type Accepted<'a> = &'a dyn Fn(Row) -> Row;

/// A call that raises a count, in a scene that leads up to it: with that count alone on both sides of its limit, with all others full, with all full,
/// and once more with a cleared tally after the 15.
fn raises(rows: &mut Vec<Row>, scene: &Scene, call: Call, count: usize, wanted: Reply, accepted: Accepted) {
    let limit = (COUNT_NAMES[count], FULL);
    let made = Made::lent(call);
    for before in [with(NONE, count, MOST), ALL_FULL] {
        rows.push(scene.clone().lends(before).row(limit, before[count], made, says(15)).after(counts_are(before)));
    }
    for before in [NONE, with(NONE, count, MOST - 1), with(ALL_FULL, count, 0), with(ALL_FULL, count, MOST - 1)] {
        let row = scene.clone().lends(before).row(limit, before[count], made, wanted);
        rows.push(accepted(row.after(counts_are(with(before, count, before[count] + 1)))));
    }
    // "altering nothing": with the next tally it comes to what it would have come to
    let again = scene.clone().lends(with(NONE, count, MOST)).refused(made, 15).lends(NONE);
    rows.push(accepted(again.row(limit, MOST, made, wanted).after(counts_are(with(NONE, count, 1)))));
}

/// Of reads: each of the four; of writes: both.
pub fn begins(rows: &mut Vec<Row>, k: u32) {
    for call in super::begins(k, 4) {
        let (count, kind) = match call {
            Call::BeginInsert { .. } => (WRITES_BEGUN, INSERT),
            Call::BeginDelete { .. } => (WRITES_BEGUN, DELETE),
            _ => (READS_BEGUN, READ),
        };
        let begun = |row: Row| row.after([(client(4, CLIENT_KIND), kind), (client(4, CLIENT_STEPS), 0)]);
        raises(rows, &Scene::opened(k), call, count, says(0), &begun);
    }
}

/// Lists and counts, plain and with a range; each finds every record of `Scene::records` from 1 on.
fn reads(k: u32) -> [Read; 4] {
    let (named, range) = (marks(k) >> 1, (k - 1, 1, MOST));
    [Read::naming(READ, named, 7), Read::naming(COUNTS, named, 7), Read::within(READ, named, range), Read::within(COUNTS, named, range)]
}

/// The fetch; the file step; the table step after a mark was seen; and the table step of a long list, after a mark or none.
pub fn answers(rows: &mut Vec<Row>, k: u32) {
    for read in reads(k) {
        let answered = |row: Row| {
            let row = row.after(idle(0));
            if read.kind == COUNTS {
                row.counted()
            } else {
                row
            }
        };
        for n in [0, 9, 32] {
            let table = || Scene::opened(k).records(n, 1);
            raises(rows, &read.up_to(read.up_to(table(), 3), 0), step(0), FROM_FILE, from_file(n), &answered);
            raises(rows, &read.up_to(table(), 2), step(0), FROM_TABLE, from_table(n), &answered);
            raises(rows, &read.up_to(marked(table()), 1), step(0), FROM_TABLE, from_table(n), &answered);
        }
        let long = || Scene::opened(k).records(33, 1);
        for scene in [read.up_to(long(), 1), read.up_to(marked(long()), 1)] {
            if read.kind == READ {
                // 15 goes before 12
                raises(rows, &scene, step(0), ENDED_LONG, says(12), &|row| row.after(idle(0)));
            }
        }
    }
}

/// After each number of steps.
pub fn abandoned_reads(rows: &mut Vec<Row>, k: u32) {
    for read in reads(k) {
        let looks = 1 << read.named.count_ones();
        for made in 0..looks + 3 {
            let scene = Scene::opened(k).records(9, 1).made(read.begin(k, 0)).steps(0, made);
            raises(rows, &scene, abandon(0), READS_ABANDONED, says(0), &|row| row.after(idle(0)));
        }
    }
}

/// Each end of a write, 13 among them, by its last raise and by an abandoning with each number of raises made; and abandonings before the table step,
/// with each number of marks set.
pub fn writes(rows: &mut Vec<Row>, k: u32) {
    let n = 1 << k;
    let ended = |row: Row| row.after(idle(0));
    for (scene, end, [before, after]) in each_write(k) {
        let count = if end == CHANGED { ENDED_CHANGED } else { ENDED_UNCHANGED };
        let there = |row: Row| row.after(idle(0)).after([(RECORD_COUNT, after)]);
        raises(rows, &scene.clone().steps(0, 2 * n), step(0), count, end, &there);
        for raised in [0, 1, n - 1] {
            raises(rows, &scene.clone().steps(0, n + 1 + raised), abandon(0), count, end, &there);
        }
        // the records of a large table take long, and nothing here depends on them
        for made in (0..=n).filter(|made| before == 0 || [0, n].contains(made)) {
            raises(rows, &scene.clone().steps(0, made), abandon(0), WRITES_ABANDONED, says(0), &ended);
        }
    }
}

/// Steps that end nothing, though every count is full: looks, fetches that find nothing, table steps; marks, table steps, raises but the last.
pub fn not_raised(rows: &mut Vec<Row>, k: u32) {
    let goes_on = |rows: &mut Vec<Row>, scene: Scene, made: u32| {
        let row = scene.lends(ALL_FULL).row(ENDS_NOTHING, made, Made::lent(step(0)), says(0));
        rows.push(row.after(counts_are(ALL_FULL)).after([(client(0, CLIENT_STEPS), made + 1)]));
    };
    for read in reads(k) {
        let looks = 1 << read.named.count_ones();
        for made in 0..looks + 2 {
            goes_on(rows, Scene::opened(k).records(9, 1).made(read.begin(k, 0)).steps(0, made), made);
        }
        goes_on(rows, read.up_to(marked(Scene::opened(k)), 0), looks);
    }
    for (kind, made) in [INSERT, DELETE].into_iter().flat_map(|kind| (0..2 << k).map(move |made| (kind, made))) {
        goes_on(rows, writing(k, kind, made), made);
    }
}

/// What goes before 15, where each count is full. Bits of `several`: 0 a desks memory that is a number short, 1 a query with a mark above 1, 2 a
/// record too many in memory, 3 a floor that is worn, 4 a range that is reversed. Desk 3 has an insert before its last raise, desk 4 a read before
/// its file step.
pub fn order(rows: &mut Vec<Row>, k: u32) {
    let busy = Scene::opened(k).begun(INSERT, 3, ALL, 5).steps(3, 2 << k).begun(READ, 4, ALL, 9).steps(4, (1 << k) + 2);
    for several in 0..32 {
        let [short, odd, unsound, worn, reversed] = [0, 1, 2, 3, 4].map(|bit| several >> bit & 1);
        let lent = [8_200, 8_200, 10_000, 2_000 - short as usize, 128];
        let scene = busy.clone().put(RECORD_COUNT, 2_049 * unsound).put(FLOOR, 1 + 4_294_967_103 * worn).lends(ALL_FULL);
        let at_desks = [(step(3), 0), (step(4), 0), (step(0), 6), (step(12), 4), (abandon(3), 0), (abandon(4), 0), (abandon(0), 6), (abandon(12), 4)];
        // a call, and the numbers that apply to it in the order in which they are tested; 0 is none
        let mut calls: Vec<(Call, Vec<u32>)> = Vec::new();
        calls.extend(at_desks.into_iter().filter(|_| odd + reversed == 0).map(|(call, own)| (call, vec![short, 3 * unsound, own])));
        for (desk, own) in [(0, 0), (4, 5), (12, 4)] {
            for call in begins_with(k, desk, odd, reversed) {
                let late = if let Call::BeginInsert { .. } | Call::BeginDelete { .. } = call { 10 * worn } else { 0 };
                let ranged = if let Call::BeginReadWithin { .. } | Call::BeginCountWithin { .. } = call { 14 * reversed } else { 0 };
                calls.push((call, vec![short, 2 * odd, ranged, 3 * unsound, own, late]));
            }
        }
        for (call, own) in calls {
            let first = own.into_iter().find(|number| *number != 0).unwrap_or(15);
            rows.push(scene.row(SEVERAL, several, Made::lent(call), says(first)).lent(lent).after(counts_are(ALL_FULL)));
        }
        // "1 (of the tray too)"
        let short_tray = scene.row(SEVERAL, several, Made::lent(step(4)), says(1)).lent([8_200, 8_200, 10_000, 2_000, 127]);
        rows.push(short_tray.after(counts_are(ALL_FULL)));
    }
}

/// A begin of each kind: 5 is named in every column but the last by those with a range, and by the others in the last too. odd: the mark of the
/// last column is above 1; reversed: the range is from 9 to 4.
fn begins_with(k: u32, desk: u32, odd: u32, reversed: u32) -> Vec<Call> {
    let altered = |asked: Asked| {
        let mut words = asked.words().to_vec();
        let last = words.len() - 2;
        words[last] += 2 * odd;
        Asked::new(&words)
    };
    let range = if reversed == 1 { (k - 1, 9, 4) } else { (k - 1, 4, 9) };
    let plain = KINDS.map(|kind| begin(kind, desk, altered(query(k, ALL, 5))));
    let ranged = READS.map(|kind| begin_within(kind, desk, altered(query(k, marks(k) >> 1, 5)), range));
    plain.into_iter().chain(ranged).collect()
}

/// "a raise or the taking back of a mark finds its node missing or unmarked; no unmarked node to put out; a counter at its largest to raise; marks at
/// 12 or more to add to": these 3 go before 15 too.
pub fn unsound(rows: &mut Vec<Row>, k: u32) {
    let n = 1 << k;
    let mut is_3 = |scene: Scene, number: u32, call: Call| {
        rows.push(scene.lends(ALL_FULL).row(UNSOUND, number, Made::lent(call), says(3)).after(counts_are(ALL_FULL)));
    };
    for kind in [INSERT, DELETE] {
        let (last, first) = (node(n - 1, NODE_PENDING), node(0, NODE_PENDING));
        // the last raise, and an abandoning that would make it, or them all, or take back all marks
        for (steps, call) in [(2 * n, step(0)), (2 * n, abandon(0)), (n + 1, abandon(0)), (n, abandon(0))] {
            is_3(writing(k, kind, steps).put(last, 0), n - 1, call);
            is_3(writing(k, kind, steps).put(node(n - 1, 1), 6), n - 1, call);
            is_3(writing(k, kind, steps).put(NODE_COUNT, n - 1), n - 1, call);
        }
        is_3(writing(k, kind, n + 1).put(first, 0), 0, abandon(0));
        is_3(writing(k, kind, 1).put(first, 12).put(client(0, CLIENT_STEPS), 0), 0, step(0));
        // it has changed the table, and its counter is at its largest
        let noted = |steps| writing(k, kind, steps).put(client(0, CLIENT_CHANGED), 1).put(node(n - 1, NODE_REVISION), MOST);
        [step(0), abandon(0)].into_iter().for_each(|call| is_3(noted(2 * n), n - 1, call));
        is_3(noted(n + 1), n - 1, abandon(0));
    }
    KINDS.iter().for_each(|kind| is_3(Scene::opened(k).nodes(1_024, 1).begun(*kind, 0, ALL, 5), 0, step(0)));
}
