//! Rows: 1,023 and 1,024 nodes at a look and at a mark; marks and counters at their limits. Leans on scene.

use super::*;

const ADDED: Limit = ("first node of a read or write, nodes", "A missing node is added last, with the floor as counter and 0 marks");
const ROOM: Limit = ("first node beside 1,024, floor", "if 1,024 are there, the oldest unmarked one is put out first");
const NO_ROOM: Limit = ("first node beside marked ones, nodes", "no unmarked node to put out");
const MARKS: Limit = ("mark, marks there", "marks at 12 or more to add to");
const DESKS: Limit = ("mark, desks that have marked", "One mark for each node: marks go up by one");
const UNMARKED: Limit = ("raise or taking back, marks there", "a raise or the taking back of a mark finds its node missing or unmarked");
const MISSING: Limit = ("raise or taking back, node that is missing", "finds its node missing");
const COUNTER: Limit = ("raise, counter", "a counter at its largest to raise");
const WORN: &str = "a write begins while the floor or a counter is above 4,294,967,103";

/// The first look or mark: its label names 5 in every column. Node 0 is marked; node 1, which is not, is at counter 7.
fn room_for(rows: &mut Vec<Row>, k: u32, kind: u32) {
    let pending = is_write(kind) as u32;
    let beside = |n| Scene::opened(k).nodes(n, 0).put(node(0, NODE_PENDING), 1).put(node(1, NODE_REVISION), 7).begun(kind, 0, ALL, 5);
    for n in [2, 1_022, 1_023] {
        let added = [(node(n, 1), 5), (node(n, NODE_PENDING), pending), (node(n, NODE_REVISION), 3)];
        let row = beside(n).put(FLOOR, 3).row(ADDED, n, step(0), says(0)).after(added);
        rows.push(row.after([(NODE_COUNT, n + 1), (FLOOR, 3), (node(1, 1), 1001)]));
    }
    for (floor, larger) in [(6, 7), (7, 7), (8, 8)] {
        let last = 1_023;
        let left = [(NODE_COUNT, 1_024), (FLOOR, larger), (node(0, 1), 1000), (node(1, 1), 1002)];
        let added = [(node(last, 1), 5), (node(last, NODE_PENDING), pending), (node(last, NODE_REVISION), larger)];
        rows.push(beside(1_024).put(FLOOR, floor).row(ROOM, floor, step(0), says(0)).after(left).after(added));
    }
    let marked = |n| Scene::opened(k).nodes(n, 1).begun(kind, 0, ALL, 5);
    rows.push(marked(1_023).row(NO_ROOM, 1_023, step(0), says(0)).after([(NODE_COUNT, 1_024)]));
    rows.push(marked(1_024).row(NO_ROOM, 1_024, step(0), says(3)));
    for free in [0, 500, 1_023] {
        let scene = marked(1_024).put(node(free, NODE_PENDING), 0);
        rows.push(scene.row(NO_ROOM, 1_024, step(0), says(0)).after([(NODE_COUNT, 1_024), (node(1_023, 1), 5)]));
    }
    // its node is there, so none has to leave
    let there = marked(1_024).series(node(1_023, 1), 1, k, 5, 0);
    rows.push(there.row(NO_ROOM, 1_024, step(0), says(0)).after([(NODE_COUNT, 1_024), (node(1_023, NODE_PENDING), 1 + pending)]));
}

pub fn room(rows: &mut Vec<Row>, k: u32) {
    KINDS.iter().for_each(|kind| room_for(rows, k, *kind));
}

/// A write that names 5 in every column, at desk 0, after some steps in an empty hall: its nodes are node 0, 1, ..
pub fn writing(k: u32, kind: u32, steps: u32) -> Scene {
    Scene::opened(k).begun(kind, 0, ALL, 5).steps(0, steps)
}

pub fn writes(rows: &mut Vec<Row>, k: u32) {
    for kind in [INSERT, DELETE] {
        announcements(rows, k, kind);
        raises(rows, k, kind);
    }
}

fn announcements(rows: &mut Vec<Row>, k: u32, kind: u32) {
    for number in [0, (1 << k) - 1] {
        let place = node(number, NODE_PENDING);
        for (there, wanted, after) in [(0, 0, 1), (11, 0, 12), (12, 3, 12), (13, 3, 13), (u32::MAX, 3, u32::MAX)] {
            let scene = writing(k, kind, number + 1).put(place, there).put(client(0, CLIENT_STEPS), number);
            rows.push(scene.row(MARKS, there, step(0), says(wanted)).after([(place, after)]));
        }
    }
    // as many marks as there are desks come about by calls alone
    let twelve = (0..12).fold(Scene::opened(k), |scene, desk| scene.begun(kind, desk, ALL, 5));
    let eleven = (0..11).fold(twelve, |scene, desk| scene.steps(desk, 1));
    rows.push(eleven.row(DESKS, 11, step(11), says(0)).after([(node(0, NODE_PENDING), 12)]));
}

/// Raises, and marks taken back, of the first node and the last.
fn raises(rows: &mut Vec<Row>, k: u32, kind: u32) {
    let nodes = 1 << k;
    for number in [0, nodes - 1] {
        let (pending, revision) = (node(number, NODE_PENDING), node(number, NODE_REVISION));
        let raising = || writing(k, kind, nodes + 1 + number);
        for (there, wanted, after) in [(0, 3, 0), (1, 0, 0), (2, 0, 1), (u32::MAX, 0, u32::MAX - 1)] {
            let mut raised = raising().put(pending, there).row(UNMARKED, there, step(0), says(wanted)).after([(pending, after)]);
            // the last raise ends the write
            if wanted == 0 && number == nodes - 1 {
                raised.wanted.ending = if kind == INSERT { 3 } else { 4 };
            }
            rows.push(raised);
            let marked = writing(k, kind, nodes).put(pending, there);
            rows.push(marked.row(UNMARKED, there, abandon(0), says(wanted)).after([(pending, after)]));
        }
        for (scene, call) in [(raising(), step(0)), (writing(k, kind, nodes), abandon(0))] {
            rows.push(scene.clone().put(node(number, 1), 6).row(MISSING, number, call, says(3)));
            rows.push(scene.put(NODE_COUNT, number).row(MISSING, number, call, says(3)));
        }
        if number == 0 {
            // in an empty hall an insert changes the table, and a delete, which does not, leaves the counter
            let inserts = [(u32::MAX - 1, 0, u32::MAX), (u32::MAX, 3, u32::MAX)];
            let deletes = [(u32::MAX - 1, 0, u32::MAX - 1), (u32::MAX, 0, u32::MAX)];
            for (counter, wanted, after) in if kind == INSERT { inserts } else { deletes } {
                let scene = raising().put(revision, counter);
                rows.push(scene.row(COUNTER, counter, step(0), says(wanted)).after([(revision, after)]));
            }
        }
    }
}

/// What a write gets at its begin. A read begins in any case, and a write that has begun goes on.
pub fn worn(rows: &mut Vec<Row>, k: u32) {
    let three = || Scene::opened(k).nodes(3, 0);
    let at = |i| node(i, NODE_REVISION);
    for (counter, worn) in [(1, 0), (4_294_967_103, 0), (4_294_967_104, 10), (u32::MAX, 10)] {
        let places = [("floor", FLOOR, worn), ("first counter", at(0), worn), ("last counter", at(2), worn), ("behind it", at(3), 0)];
        for (name, place, number) in places {
            let scene = three().put(place, counter);
            for (kind, named, number) in [(READ, ALL, 0), (COUNTS, ALL, 0), (INSERT, ALL, number), (DELETE, ALL, number), (DELETE, 0, number)] {
                rows.push(scene.row((name, WORN), counter, begin(kind, 0, query(k, named, 5)), says(number)));
            }
        }
        let ranged = READS.map(|kind| begin_within(kind, 0, query(k, 0, 0), (k - 1, 4, 9)));
        rows.extend(ranged.map(|call| three().put(FLOOR, counter).row(("begin with a range, floor", WORN), counter, call, says(0))));
        let begun = three().begun(INSERT, 0, ALL, 5).put(FLOOR, counter);
        rows.push(begun.row(("step of a write that has begun, floor", WORN), counter, step(0), says(0)));
    }
}
