//! Abandonings (document 01, "Abandon", and document 02, S-4 and S-6) on the twin: a write before its table step takes back its marks; after it, it
//! makes the raises that are left and ends as with the last of them; what is wrong with a node is found before anything is altered.

mod hall;

use hall::*;
use twin::layout::*;
use twin::{Memories, Reply};

const CHANGED: Reply = Reply { number: 0, count: 0, ending: 3 };
const UNCHANGED: Reply = Reply { number: 0, count: 0, ending: 4 };
const FULL: Reply = Reply { number: 13, count: 0, ending: 0 };

/// The desk that writes.
const DESK: u32 = 3;

fn own(at: usize) -> usize {
    HEAD + DESK as usize * CLIENT_WIDTH + at
}

/// A query of k columns: this first column, and in the others what the records of `filled` have there.
fn first_column(k: u32, value: u32) -> Vec<u32> {
    (0..k).flat_map(|c| [1, if c == 0 { value } else { OTHER }]).collect()
}

fn begun(mut hall: Hall, kind: u32, asked: &[u32]) -> Hall {
    let begin = if kind == INSERT { Memories::begin_insert } else { Memories::begin_delete };
    assert_eq!(begin(&mut hall.lend(), DESK, asked), ACCEPTED);
    hall
}

/// Writes of k columns just begun, with each end; the nodes memory is empty.
fn writes(k: u32) -> Vec<(Hall, Reply)> {
    let stars = vec![0; 2 * k as usize];
    vec![
        (begun(filled(k, 40), INSERT, &first_column(k, 5000)), CHANGED),
        (begun(filled(k, 40), INSERT, &first_column(k, 39)), UNCHANGED),
        (begun(filled(k, 2048), INSERT, &first_column(k, 5000)), FULL),
        (begun(filled(k, 2048), INSERT, &first_column(k, 39)), UNCHANGED),
        (begun(filled(k, 40), DELETE, &first_column(k, 39)), CHANGED),
        (begun(filled(k, 40), DELETE, &first_column(k, 5000)), UNCHANGED),
        (begun(filled(k, 2048), DELETE, &stars), CHANGED),
        (begun(Hall::open(k), DELETE, &stars), UNCHANGED),
    ]
}

fn is_idle(hall: &Hall) -> bool {
    hall.clients[HEAD..].iter().all(|number| *number == 0)
}

/// Marks and counter of each node.
fn nodes(hall: &Hall) -> Vec<[u32; 2]> {
    (0..hall.nodes[NODE_COUNT] as usize).map(|i| [hall.node(i)[NODE_PENDING], hall.node(i)[NODE_REVISION]]).collect()
}

#[test]
fn before_the_table_step_the_marks_are_taken_back_and_nothing_else() {
    for (k, made) in (1..=4).flat_map(|k| (0..=1 << k).map(move |made| (k, made))) {
        for (mut hall, _) in writes(k) {
            let table = hall.table.clone();
            hall.steps(DESK, made);
            assert_eq!(nodes(&hall), vec![[1, 1]; made as usize]);
            // no flag counts before the table step
            hall.clients[own(CLIENT_CHANGED)] = 1;
            hall.clients[own(CLIENT_FULL)] = 1;
            assert_eq!(hall.lend().abandon(DESK), ACCEPTED);
            assert_eq!(nodes(&hall), vec![[0, 1]; made as usize]);
            assert!(is_idle(&hall) && hall.table == table);
        }
    }
}

/// As the steps that were left would have: by the counters and marks of each node, and number for number.
#[test]
fn after_the_table_step_the_raises_left_are_made_and_the_write_ends() {
    for (k, raised) in (1..=4).flat_map(|k| (0..1 << k).map(move |raised| (k, raised))) {
        for (mut hall, end) in writes(k) {
            let n = 1 << k;
            hall.steps(DESK, n + 1 + raised);
            let mut stepped = hall.clone();
            assert_eq!(hall.lend().abandon(DESK), end);
            assert_eq!(nodes(&hall), vec![[0, if end == CHANGED { 2 } else { 1 }]; n as usize]);
            assert!(is_idle(&hall));
            assert_eq!(stepped.run(DESK), (n - raised, end));
            assert!(hall == stepped, "k {k}, {raised} raised");
        }
    }
}

#[test]
fn the_end_is_what_the_desk_has_noted_and_full_goes_before_changed() {
    let flags = [(0, 0, UNCHANGED), (1, 0, CHANGED), (2, 0, CHANGED), (0, 1, FULL), (1, 1, FULL), (u32::MAX, 2, FULL)];
    for ((changed, full, end), kind) in flags.into_iter().flat_map(|row| [INSERT, DELETE].map(|kind| (row, kind))) {
        let mut hall = begun(Hall::open(2), kind, &first_column(2, 5));
        hall.steps(DESK, 5);
        hall.clients[own(CLIENT_CHANGED)] = changed;
        hall.clients[own(CLIENT_FULL)] = full;
        assert_eq!(hall.lend().abandon(DESK), end, "changed {changed}, full {full}");
        // and changed alone decides about the counters
        assert_eq!(nodes(&hall), vec![[0, if changed != 0 { 2 } else { 1 }]; 4]);
        assert!(is_idle(&hall));
    }
}

/// No mark, a counter at its largest, another label: at a node that has the write's mark it is 3, the counter only where it is to be raised, and a
/// delete of nothing raises none; at a node that was raised it is not looked for.
#[test]
fn a_node_that_is_not_as_it_should_be_is_found_before_the_first_is_altered() {
    let damages = [(NODE_PENDING, 0), (NODE_REVISION, u32::MAX), (0, 0)];
    for ((k, kind), (at, value)) in (1..=4).flat_map(|k| [(k, INSERT), (k, DELETE)]).flat_map(|of| damages.map(|damage| (of, damage))) {
        let n = 1 << k;
        // steps made, nodes that are there, and the first of them that has a mark
        let pulled_out = [(1, 1, 0), (n, n, 0), (n + 1, n, 0), (n + 2, n, 1), (2 * n, n, n - 1)];
        for ((steps, number), first) in pulled_out.into_iter().flat_map(|(steps, there, first)| (0..there).map(move |i| ((steps, i), first))) {
            let mut hall = begun(Hall::open(k), kind, &first_column(k, 5));
            hall.steps(DESK, steps);
            hall.nodes[HEAD + number as usize * NODE_WIDTH + at] = value;
            let before = hall.clone();
            let wrong = number >= first && (at != NODE_REVISION || steps > n && kind == INSERT);
            assert_eq!(hall.lend().abandon(DESK).number, if wrong { 3 } else { 0 }, "k {k}, {steps} steps, node {number}");
            assert_eq!((hall == before, is_idle(&hall)), (wrong, !wrong));
            assert!(hall.node(number as usize)[at] == value);
        }
    }
}

#[test]
fn a_counter_one_below_its_largest_is_raised() {
    for (number, raised) in [(0, 0), (1, 0), (1, 1), (3, 0), (3, 3)] {
        let mut hall = begun(Hall::open(2), INSERT, &first_column(2, 5));
        hall.steps(DESK, 5 + raised);
        hall.nodes[HEAD + number * NODE_WIDTH + NODE_REVISION] = u32::MAX - 1;
        assert_eq!(hall.lend().abandon(DESK), CHANGED);
        assert_eq!(hall.node(number)[NODE_PENDING..][..2], [0, u32::MAX]);
    }
}

/// Twelve writers on the same nodes, each pulled out one raise later than the one before; only the first has changed the table.
#[test]
fn each_of_twelve_writers_takes_its_own_marks_off() {
    for k in 1..=4 {
        let (n, mut hall) = (1 << k, Hall::open(k));
        for desk in 0..12 {
            assert_eq!(hall.lend().begin_insert(desk, &first_column(k, 5)), ACCEPTED);
            hall.steps(desk, n + 1);
        }
        assert_eq!(nodes(&hall), vec![[12, 1]; n as usize]);
        for desk in 0..12 {
            hall.steps(desk, desk % n);
            assert_eq!(hall.lend().abandon(desk), if desk == 0 { CHANGED } else { UNCHANGED });
            assert_eq!(nodes(&hall), vec![[11 - desk, 2]; n as usize]);
        }
        assert!(is_idle(&hall));
    }
}

/// What was filed before the write no longer holds, and what is filed after it does: no mark is left to see.
#[test]
fn a_read_after_it_goes_to_the_table_once_and_then_to_the_file() {
    for (k, raised) in (1..=4).flat_map(|k| [0, 1, (1 << k) - 1].map(|raised| (k, raised))) {
        let (mut hall, n, asked) = (filled(k, 9), 1 << k, first_column(k, 5));
        assert_eq!(hall.read(0, &asked), (n + 3, from_table(1)));
        let mut hall = begun(hall, DELETE, &asked);
        hall.steps(DESK, n + 1 + raised);
        assert_eq!(hall.lend().abandon(DESK), CHANGED);
        assert_eq!(hall.read(0, &asked), (n + 3, from_table(0)));
        assert_eq!(hall.read(0, &asked), (n + 1, from_file(0)));
    }
}

#[test]
fn of_a_read_only_the_desk_becomes_idle() {
    for (k, made) in (1..=4).flat_map(|k| (0..(1 << k) + 3).map(move |made| (k, made))) {
        let mut hall = filled(k, 40);
        assert_eq!(hall.lend().begin_read(DESK, &first_column(k, 5)), ACCEPTED);
        hall.steps(DESK, made);
        hall.clients[own(CLIENT_FULL)] = 1;
        let mut idle = hall.clone();
        idle.clients[own(0)..own(CLIENT_WIDTH)].fill(0);
        assert_eq!(hall.lend().abandon(DESK), ACCEPTED);
        assert!(hall == idle);
    }
}
