//! Rows of writes that change nothing (S-6), beside writes that do: an insert of a record that is there, a delete that finds none, an insert into a
//! full table. Their raises, by steps and by an abandoning; reads whose kept answer they do not count against, and those that see their marks;
//! counters at their largest and the numbers of a desk as no history leaves them. Leans on scene, abandonings, nodes and ranges.

use super::abandonings::{counter_after, nodes_at, raises as made_raises};
use super::nodes::writing;
use super::ranges::Read;
use super::*;

const RAISED: Limit = ("raise of a write, raises made", "after no change, each raise step takes the mark off and leaves the counter");
const KEPT: Limit =
    ("read after a write's end, raises made by steps", "A write that ended unchanged before a read began no longer counts against that read's use");
const TAKEN_BACK: Limit = ("read after a write abandoned before its table step, marks", "takes back the marks it has set");
const SEEN: Limit = ("fetch beside an open write, its steps", "if no look saw a mark and an answer is filed for this query");
const AFTER: Limit = ("fetch after a write's end that was seen, its steps", "If a look saw a mark, the read answers here and files nothing");
const COUNTER: Limit = ("raise or abandoning, counter", "a counter at its largest to raise");
const UNMARKED: Limit = ("raise or abandoning after no change, marks", "a raise or the taking back of a mark finds its node missing or unmarked");
const MISSING: Limit = ("raise or abandoning after no change, node that is missing", "finds its node missing");

const MOST: u32 = u32::MAX;

/// A write at desk 1 of the record that has 7 in all columns but the last, and `last` there; `n` records are there, from 8 on.
#[derive(Clone, Copy)]
struct Write {
    kind: u32,
    n: u32,
    last: u32,
    end: Reply,
}

/// Those that change nothing, then those that do.
const WRITES: [Write; 7] = [
    Write { kind: INSERT, n: 9, last: 8, end: UNCHANGED },
    Write { kind: INSERT, n: 2_048, last: 8, end: UNCHANGED },
    Write { kind: DELETE, n: 9, last: 5, end: UNCHANGED },
    // "A full table is no change."
    Write { kind: INSERT, n: 2_048, last: 5, end: says(13) },
    Write { kind: INSERT, n: 9, last: 5, end: CHANGED },
    Write { kind: INSERT, n: 2_047, last: 5, end: CHANGED },
    Write { kind: DELETE, n: 9, last: 8, end: CHANGED },
];

impl Write {
    fn table(&self, k: u32) -> Scene {
        Scene::opened(k).records(self.n, 8)
    }

    fn begin(&self, scene: Scene) -> Scene {
        let asked = one_record(scene.k, self.last);
        scene.made(begin(self.kind, 1, asked))
    }

    /// To its end from its begin on: by its last raise, or by an abandoning with so many raises made.
    fn ended(&self, scene: Scene, by: Option<u32>) -> Scene {
        let n = 1 << scene.k;
        match by {
            None => scene.steps(1, 2 * n + 1),
            Some(raised) => scene.steps(1, n + 1 + raised).made(abandon(1)),
        }
    }

    fn changes(&self) -> bool {
        self.end == CHANGED
    }

    /// Reads that share a node with it and find at most one record, or count all: the record itself, and a star in its last column.
    fn reads(&self, k: u32) -> [Read; 3] {
        let mut one = READS.map(|kind| Read::naming(kind, marks(k), 7));
        one.iter_mut().for_each(|read| read.values[k as usize - 1] = self.last);
        [one[0], one[1], Read::naming(COUNTS, marks(k) >> 1, 7)]
    }

    /// What such a read finds, before the write and after it.
    fn found(&self, k: u32, read: &Read) -> [u32; 2] {
        let inserts = (self.changes() && self.kind == INSERT) as u32;
        let deletes = (self.changes() && self.kind == DELETE) as u32;
        let before = if read.named == marks(k) { (self.last == 8) as u32 } else { self.n };
        [before, before + inserts - deletes]
    }
}

/// The ways to an end: the last raise, and an abandoning with none, one, all but one of the raises made.
fn ways(k: u32) -> impl Iterator<Item = Option<u32>> {
    [None].into_iter().chain(made_raises(k).map(Some))
}

/// How many raises were made by steps.
fn by_steps(k: u32, way: Option<u32>) -> u32 {
    way.unwrap_or(1 << k)
}

/// Each raise by a step: those made before stay as they are, those to come keep their marks. The last ends the write.
pub fn raises(rows: &mut Vec<Row>, k: u32) {
    let n = 1 << k;
    for (write, raised) in WRITES.into_iter().flat_map(|write| (0..n).map(move |raised| (write, raised))) {
        let scene = write.begin(write.table(k)).steps(1, n + 1 + raised);
        let last = raised == n - 1;
        let row = scene.row(RAISED, raised, step(1), if last { write.end } else { says(0) });
        let row = row.after(nodes_at(0..raised + 1, 0, counter_after(write.end))).after(nodes_at(raised + 1..n, 1, 1));
        rows.push(if last { row.after(idle(1)) } else { row });
    }
}

/// The fetch of a read that began after the write's end. The filing read ended before the write began, or was under way all the time that the
/// write was; or the write had begun before the filing read did.
pub fn read_beside(rows: &mut Vec<Row>, k: u32) {
    for (write, way) in WRITES.into_iter().flat_map(|write| ways(k).map(move |way| (write, way))) {
        for read in write.reads(k) {
            let before = write.ended(write.begin(read.up_to(write.table(k), 3)), way);
            let within = write.ended(write.begin(read.up_to(write.table(k), 0)), way).steps(0, 3);
            let around = write.ended(read.up_to(write.begin(write.table(k)), 0), way).steps(0, 3);
            for (scene, filed_after) in [(before, false), (within, true), (around, true)] {
                let found = write.found(k, &read)[filed_after as usize];
                let reply = if write.changes() { says(0) } else { from_file(found) };
                rows.push(fetched(&read, read.up_to(scene, 0), (KEPT, by_steps(k, way)), reply));
            }
        }
    }
    let n = 1 << k;
    for (write, made) in WRITES.into_iter().flat_map(|write| [0, 1, n].map(|made| (write, made))) {
        // its marks were not seen, and no counter has gone up: the answer holds
        for read in write.reads(k) {
            let pulled_out = write.begin(read.up_to(write.table(k), 3)).steps(1, made).made(abandon(1));
            rows.push(fetched(&read, read.up_to(pulled_out, 0), (TAKEN_BACK, made), from_file(write.found(k, &read)[0])));
        }
    }
}

/// The row of a fetch; one answer is filed, and of a list of one record its last column is asked for.
fn fetched(read: &Read, scene: Scene, (limit, value): (Limit, u32), reply: Reply) -> Row {
    let k = scene.k;
    let row = scene.row(limit, value, step(0), reply).after([(ANSWER_COUNT, 1)]);
    match (read.kind, reply.count) {
        (COUNTS, _) => row.counted(),
        (_, 1) => row.after([((4, k as usize - 1), read.values[k as usize - 1])]),
        _ => row,
    }
}

/// A write that is open while the fetching read looks, the filing read having ended before it or looked before it. Its marks are seen, whatever it
/// will say at its end, and though it has ended by the fetch: the read goes to the table and files nothing. The next one gets what was filed, if
/// the write changed nothing.
pub fn seen(rows: &mut Vec<Row>, k: u32) {
    let n = 1 << k;
    for (write, way) in WRITES.into_iter().flat_map(|write| ways(k).map(move |way| (write, way))) {
        for (read, beside) in write.reads(k).into_iter().flat_map(|read| [(read, false), (read, true)]) {
            let [before, after] = write.found(k, &read);
            let marked = |scene| write.begin(scene).steps(1, n);
            // the filing read is at desk 0, the one that looks beside the write at desk 2
            let filed = if beside { marked(read.up_to(write.table(k), 0)).steps(0, 3) } else { marked(read.up_to(write.table(k), 3)) };
            let looked = filed.made(read.begin(k, 2)).steps(2, 1 << read.named.count_ones());
            rows.push(looked.row(SEEN, n, step(2), says(0)).after([(ANSWER_COUNT, 1)]));
            let answer = |scene: Scene, limit, made, count| {
                let row = scene.row(limit, made, step(2), from_table(count)).after([(ANSWER_COUNT, 1)]).after(idle(2));
                if read.kind == COUNTS {
                    row.counted()
                } else {
                    row
                }
            };
            rows.push(answer(looked.clone().steps(2, 1), SEEN, n, before));
            let past_table = by_steps(k, way);
            let ended = match way {
                None => looked.steps(1, n + 1),
                Some(raised) => looked.steps(1, 1 + raised).made(abandon(1)),
            };
            rows.push(ended.row(AFTER, past_table, step(2), says(0)).after([(ANSWER_COUNT, 1)]));
            rows.push(answer(ended.clone().steps(2, 1), AFTER, past_table, after));
            let reply = if write.changes() { says(0) } else { from_file(before) };
            rows.push(fetched(&read, read.up_to(ended.steps(2, 2), 0), (AFTER, past_table), reply));
        }
    }
}

/// What a desk has noted of its table step: changed, full, and how the write ends then. Changed alone decides about the counters, full about 13.
const NOTED: [(u32, u32, Reply); 9] = [
    (0, 0, UNCHANGED),
    (0, 1, says(13)),
    (0, MOST, says(13)),
    (1, 0, CHANGED),
    (2, 0, CHANGED),
    (MOST, 0, CHANGED),
    (1, 1, says(13)),
    (2, MOST, says(13)),
    (MOST, 1, says(13)),
];

/// One counter of a node that is to be raised, the first or the last of them, at its largest and just below it, with each thing that a desk can
/// have noted: by a raise, by the last raise, by an abandoning; and before the table step, where none of it counts.
pub fn counters(rows: &mut Vec<Row>, k: u32) {
    let n = 1 << k;
    for (kind, (changed, full, end)) in [INSERT, DELETE].into_iter().flat_map(|kind| NOTED.map(|noted| (kind, noted))) {
        let noted = |steps| writing(k, kind, steps).put(client(0, CLIENT_CHANGED), changed).put(client(0, CLIENT_FULL), full);
        for counter in [1, MOST - 1, MOST] {
            let refused = changed != 0 && counter == MOST;
            let becomes = if refused { counter } else { counter + (changed != 0) as u32 };
            let mut row = |steps, number, call, told: Reply, becomes| {
                let scene = noted(steps).put(node(number, NODE_REVISION), counter);
                let row = scene.row(COUNTER, counter, call, told).after([(node(number, NODE_REVISION), becomes)]);
                rows.push(if told.number == 3 { row } else { row.after([(node(number, NODE_PENDING), 0)]) });
            };
            for number in [0, n - 1] {
                let told = if number == n - 1 { end } else { says(0) };
                row(n + 1 + number, number, step(0), if refused { says(3) } else { told }, becomes);
                row(n + 1, number, abandon(0), if refused { says(3) } else { end }, becomes);
                row(n, number, abandon(0), says(0), counter);
            }
            row(2 * n, n - 1, abandon(0), if refused { says(3) } else { end }, becomes);
        }
    }
}

/// A node that is to lose its mark is not there or has none: 3, whatever the desk has noted. With more marks one goes.
pub fn unmarked(rows: &mut Vec<Row>, k: u32) {
    let n = 1 << k;
    for ((changed, full, end), number) in NOTED.into_iter().flat_map(|noted| [0, n - 1].map(|number| (noted, number))) {
        let noted = |steps| writing(k, INSERT, steps).put(client(0, CLIENT_CHANGED), changed).put(client(0, CLIENT_FULL), full);
        let told = if number == n - 1 { end } else { says(0) };
        for (scene, call, end) in [(noted(n + 1 + number), step(0), told), (noted(n + 1), abandon(0), end)] {
            let pending = node(number, NODE_PENDING);
            for (marks, after) in [(0, None), (1, Some(0)), (12, Some(11)), (MOST, Some(MOST - 1))] {
                let row = scene.clone().put(pending, marks).row(UNMARKED, marks, call, after.map_or(says(3), |_| end));
                rows.push(row.after(after.map(|after| (pending, after))));
            }
            rows.push(scene.clone().put(node(number, 1), 6).row(MISSING, number, call, says(3)));
            rows.push(scene.put(NODE_COUNT, number).row(MISSING, number, call, says(3)));
        }
    }
}
