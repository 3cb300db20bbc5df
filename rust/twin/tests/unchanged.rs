//! Writes that change nothing (document 02, S-6) on the twin: an insert of a record that is there, a delete that finds none, an insert into a full
//! table. Their raises take the marks off and leave the counters, by steps and by an abandoning; what was filed before holds, where no node is put out.

mod hall;

use hall::*;
use twin::layout::*;
use twin::{Memories, Reply};

const CHANGED: Reply = Reply { number: 0, count: 0, ending: 3 };
const UNCHANGED: Reply = Reply { number: 0, count: 0, ending: 4 };
const FULL: Reply = Reply { number: 13, count: 0, ending: 0 };
const MOST: u32 = u32::MAX;

/// The desk that writes, and the one that reads.
const WRITER: u32 = 3;
const READER: u32 = 0;

/// This first column, and in the others what the records of `filled` have there.
fn record(k: u32, first: u32) -> Vec<u32> {
    (0..k).flat_map(|c| [1, if c == 0 { first } else { OTHER }]).collect()
}

/// How many records there are, the write's kind, its first column, its end.
type Case = (u32, u32, u32, Reply);
const NOTHING: [Case; 4] = [(9, INSERT, 5, UNCHANGED), (2048, INSERT, 5, UNCHANGED), (2048, INSERT, 5000, FULL), (9, DELETE, 5000, UNCHANGED)];
const SOMETHING: [Case; 2] = [(9, INSERT, 5000, CHANGED), (9, DELETE, 5, CHANGED)];

fn begin(hall: &mut Hall, kind: u32, asked: &[u32]) {
    let begin = if kind == INSERT { Memories::begin_insert } else { Memories::begin_delete };
    assert_eq!(begin(&mut hall.lend(), WRITER, asked), ACCEPTED);
}

/// Leads the write to its end from where it stands: by its steps, or by an abandoning.
fn end(hall: &mut Hall, by_steps: bool) -> Reply {
    if by_steps {
        hall.run(WRITER).1
    } else {
        hall.lend().abandon(WRITER)
    }
}

/// Marks and counter of each node.
fn nodes(hall: &Hall) -> Vec<[u32; 2]> {
    (0..hall.nodes[NODE_COUNT] as usize).map(|i| [hall.node(i)[NODE_PENDING], hall.node(i)[NODE_REVISION]]).collect()
}

/// Each k, and each way to an end: by steps and by an abandoning.
fn ways() -> impl Iterator<Item = (u32, bool)> {
    (1..=4).flat_map(|k| [(k, true), (k, false)])
}

#[test]
fn each_raise_takes_the_mark_off_and_lifts_the_counter_only_after_a_change() {
    for ((k, by_steps), (n, kind, first, ended)) in ways().flat_map(|way| NOTHING.into_iter().chain(SOMETHING).map(move |case| (way, case))) {
        let (mut hall, count, counter) = (filled(k, n), 1 << k, if ended == CHANGED { 2 } else { 1 });
        begin(&mut hall, kind, &record(k, first));
        hall.steps(WRITER, count + 1);
        for raised in 0..count {
            let expected = (0..count).map(|i| if i < raised { [0, counter] } else { [1, 1] });
            assert!(nodes(&hall).into_iter().eq(expected), "k {k}, {raised} raised");
            let mut last = hall.clone();
            assert_eq!(end(&mut last, by_steps), ended);
            assert_eq!(nodes(&last), vec![[0, counter]; count as usize]);
            if raised + 1 < count {
                hall.steps(WRITER, 1);
            }
        }
    }
}

/// A read that begins after the write's end gets what was filed before it began, or while it was open, unless it changed the table.
#[test]
fn what_was_filed_before_a_write_that_changed_nothing_or_beside_it_holds() {
    for ((k, by_steps), (n, kind, first, ended)) in ways().flat_map(|way| NOTHING.into_iter().chain(SOMETHING).map(move |case| (way, case))) {
        for beside in [false, true] {
            let (mut hall, looks, asked) = (filled(k, n), 1 << k, record(k, first));
            assert_eq!(hall.lend().begin_read(READER, &asked), ACCEPTED);
            hall.steps(READER, if beside { looks } else { looks + 2 });
            if !beside {
                assert_eq!(hall.step(READER).ending, 2);
            }
            begin(&mut hall, kind, &asked);
            hall.steps(WRITER, looks + 1);
            assert_eq!(end(&mut hall, by_steps), ended);
            if beside {
                hall.steps(READER, 2);
                assert_eq!(hall.step(READER).ending, 2);
            }
            let (steps, ending) = if ended == CHANGED { (looks + 3, 2) } else { (looks + 1, 1) };
            let (made, reply) = hall.read(READER, &asked);
            assert_eq!((made, reply.ending), (steps, ending), "k {k}, {n} records, {ended:?}, beside {beside}");
        }
    }
}

/// The mark is seen, whatever the write will turn out to have done; and after its end the answer filed before is of use again.
#[test]
fn a_read_that_sees_the_mark_of_a_write_that_changes_nothing_goes_to_the_table() {
    for ((k, by_steps), (n, kind, first, ended)) in ways().flat_map(|way| NOTHING.map(|case| (way, case))) {
        let (mut hall, looks, asked) = (filled(k, n), 1 << k, record(k, first));
        let found = if first == 5 { 1 } else { 0 };
        assert_eq!(hall.read(READER, &asked), (looks + 3, from_table(found)));
        begin(&mut hall, kind, &asked);
        hall.steps(WRITER, looks + 1);
        assert_eq!(hall.read(READER, &asked), (looks + 2, from_table(found)));
        assert_eq!(end(&mut hall, by_steps), ended);
        assert_eq!((hall.read(READER, &asked), hall.answers[COUNT]), ((looks + 1, from_file(found)), 1));
    }
}

/// Numbers of the desk and of one node as no history leaves them: the changed number alone decides about the counter, the full number about the end.
#[test]
fn a_counter_at_its_largest_is_refused_only_where_it_would_be_lifted() {
    let flags = [(0, 0, UNCHANGED), (0, 1, FULL), (0, MOST, FULL), (1, 0, CHANGED), (MOST, 0, CHANGED), (1, 1, FULL), (2, 2, FULL)];
    for ((changed, full, ended), kind) in flags.into_iter().flat_map(|flags| [(flags, INSERT), (flags, DELETE)]) {
        for (counter, by_steps) in [MOST, MOST - 1, 1].into_iter().flat_map(|counter| [(counter, true), (counter, false)]) {
            let mut hall = Hall::open(1);
            begin(&mut hall, kind, &[1, 5]);
            hall.steps(WRITER, 4);
            let own = HEAD + WRITER as usize * CLIENT_WIDTH;
            (hall.clients[own + CLIENT_CHANGED], hall.clients[own + CLIENT_FULL]) = (changed, full);
            hall.nodes[HEAD + NODE_WIDTH + NODE_REVISION] = counter;
            let before = hall.clone();
            let reply = if by_steps { hall.step(WRITER) } else { hall.lend().abandon(WRITER) };
            if changed != 0 && counter == MOST {
                assert!(reply == UNSOUND && hall == before);
                continue;
            }
            let lifted = counter + (changed != 0) as u32;
            assert_eq!((reply, nodes(&hall)[1]), (ended, [0, lifted]), "changed {changed}, full {full}, counter {counter}");
        }
    }
}

#[test]
fn a_node_missing_or_unmarked_is_refused_whether_its_counter_would_be_lifted_or_not() {
    for (changed, (at, value), by_steps) in
        [0, 1].into_iter().flat_map(|c| [(NODE_PENDING, 0), (1, 6)].into_iter().flat_map(move |d| [(c, d, true), (c, d, false)]))
    {
        let mut hall = Hall::open(2);
        begin(&mut hall, INSERT, &[1, 5, 1, 5]);
        hall.steps(WRITER, 5);
        hall.clients[HEAD + WRITER as usize * CLIENT_WIDTH + CLIENT_CHANGED] = changed;
        hall.nodes[HEAD + at] = value;
        let before = hall.clone();
        let reply = if by_steps { hall.step(WRITER) } else { hall.lend().abandon(WRITER) };
        assert!(reply == UNSOUND && hall == before);
    }
}
