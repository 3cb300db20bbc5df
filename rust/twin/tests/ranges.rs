//! Ranges of a column (document 02, S-3) on the twin: both ends, what is filed beside what, which refusal comes first, and what a desk may hold.

mod hall;

use hall::*;
use twin::layout::*;
use twin::{Memories, Reply};

const ALL: u32 = u32::MAX;

/// Reads the records from lowest to highest in column 0 of a hall of k columns, all stars.
fn read_within(hall: &mut Hall, k: usize, lowest: u32, highest: u32) -> (u32, Reply) {
    assert_eq!(hall.lend().begin_read_within(0, &vec![0; 2 * k], 0, lowest, highest), ACCEPTED);
    hall.run(0)
}

fn count_within(hall: &mut Hall, k: usize, lowest: u32, highest: u32) -> (u32, Reply) {
    assert_eq!(hall.lend().begin_count_within(0, &vec![0; 2 * k], 0, lowest, highest), ACCEPTED);
    let tray = hall.tray.clone();
    let ended = hall.run(0);
    assert_eq!(hall.tray, tray);
    ended
}

fn says(number: u32) -> Reply {
    Reply { number, count: 0, ending: 0 }
}

#[test]
fn both_ends_are_included_and_what_is_just_outside_is_not() {
    // the records' first columns are 1 to 40
    for (k, (lowest, highest, n)) in (1..=4).flat_map(|k| [(4, 9, 6), (4, 8, 5), (5, 9, 5), (40, ALL, 1), (41, ALL, 0), (1, 1, 1)].map(|r| (k, r))) {
        let mut hall = filled(k, 40);
        let k = k as usize;
        assert_eq!(read_within(&mut hall, k, lowest, highest), (4, from_table(n)));
        let listed: Vec<u32> = hall.tray[..n as usize * k].chunks(k).map(|record| record[0]).collect();
        assert_eq!(listed, (lowest..lowest + n).collect::<Vec<u32>>());
        assert!(hall.tray[n as usize * k..].iter().all(|number| *number == 7));
        assert_eq!(count_within(&mut hall, k, lowest, highest), (4, from_table(n)));
    }
}

#[test]
fn the_whole_range_and_the_plain_read_are_filed_side_by_side() {
    let mut hall = filled(1, 5);
    assert_eq!(hall.read(0, &[0, 0]), (4, from_table(5)));
    assert_eq!(read_within(&mut hall, 1, 0, ALL), (4, from_table(5)));
    assert_eq!(count_within(&mut hall, 1, 0, ALL), (4, from_table(5)));
    assert_eq!((hall.answers[COUNT], hall.answers[HEAD + ENTRY_WIDTH]), (3, RANGE_UNIT));
    assert_eq!(hall.read(0, &[0, 0]), (2, from_file(5)));
    assert_eq!(read_within(&mut hall, 1, 0, ALL), (2, from_file(5)));
    assert_eq!(count_within(&mut hall, 1, 0, ALL), (2, from_file(5)));
}

#[test]
fn equal_ends_are_not_the_named_value() {
    let mut hall = filled(1, 9);
    assert_eq!(hall.read(0, &[1, 5]), (5, from_table(1)));
    assert_eq!(read_within(&mut hall, 1, 5, 5), (4, from_table(1)));
    assert_eq!(hall.read(0, &[1, 5]), (3, from_file(1)));
    assert_eq!(read_within(&mut hall, 1, 5, 5), (2, from_file(1)));
}

#[test]
fn ranges_that_differ_in_one_number_serve_each_other_not() {
    let mut hall = filled(2, 9);
    let asked = [(0, 1, 5), (0, 1, 6), (0, 2, 5), (1, 1, 5)];
    for (column, lowest, highest) in asked {
        assert_eq!(hall.lend().begin_read_within(0, &[0; 4], column, lowest, highest), ACCEPTED);
        assert_eq!(hall.run(0).1.ending, 2);
    }
    for ((column, lowest, highest), n) in asked.into_iter().zip([5, 6, 4, 0]) {
        assert_eq!(hall.lend().begin_read_within(0, &[0; 4], column, lowest, highest), ACCEPTED);
        assert_eq!(hall.run(0), (2, from_file(n)));
    }
}

#[test]
fn the_key_has_the_column_plus_1_above_the_counts_bit_and_both_ends() {
    let mut hall = Hall::open(4);
    assert_eq!(hall.lend().begin_count_within(0, &[1, 5, 1, 6, 0, 0, 0, 0], 2, 4, 9), ACCEPTED);
    assert_eq!(hall.clients[HEAD + CLIENT_ENTRY..][..KEY_WIDTH], [3 + 16 + 3 * 32, 5, 6, 0, 0, 4, 9]);
}

#[test]
fn a_range_is_looked_at_as_a_star_and_32_of_it_are_listed() {
    for (highest, ended) in [(41, (4, from_table(32))), (42, (3, says(12)))] {
        let mut hall = filled(3, 100);
        assert_eq!(read_within(&mut hall, 3, 10, highest), ended);
        assert_eq!(count_within(&mut hall, 3, 10, highest), (4, from_table(highest - 9)));
        assert_eq!(hall.nodes[NODE_COUNT], 1);
    }
}

/// In column 0 it writes a value far outside.
#[test]
fn a_write_outside_the_range_is_seen() {
    let mut hall = filled(2, 9);
    assert_eq!(hall.lend().begin_insert(1, &[1, 5000, 1, 7]), ACCEPTED);
    hall.steps(1, 4);
    assert_eq!(read_within(&mut hall, 2, 4, 6), (3, from_table(3)));
    assert_eq!(hall.answers[COUNT], 0);
}

/// What a begin says; the desk is as it was afterwards.
fn told(hall: &mut Hall, counts: bool, client: u32, asked: &[u32], (column, lowest, highest): (u32, u32, u32)) -> u32 {
    let mut m = hall.lend();
    let begin = if counts { Memories::begin_count_within } else { Memories::begin_read_within };
    let reply = begin(&mut m, client, asked, column, lowest, highest);
    if reply == ACCEPTED {
        m.abandon(client);
    }
    reply.number
}

#[test]
fn refusals_come_in_the_documents_order() {
    let mut hall = Hall::open(2);
    assert_eq!(hall.lend().begin_read(3, &[0; 4]), ACCEPTED);
    for (counts, (client, of_desk)) in [false, true].into_iter().flat_map(|counts| [(0, 0), (3, 5), (12, 4)].map(|desk| (counts, desk))) {
        let mut tell = |asked: &[u32], range| told(&mut hall, counts, client, asked, range);
        assert_eq!([(1, 4, 9), (1, 9, 9), (0, 0, ALL)].map(|range| tell(&[0; 4], range)), [of_desk; 3]);
        assert_eq!([(1, 9, 8), (0, ALL, 0)].map(|range| tell(&[0; 4], range)), [14; 2]);
        // the column is none, or is named, reversed or not
        assert_eq!([(2, 4, 9), (ALL, 4, 9), (2, 9, 4)].map(|range| tell(&[0; 4], range)), [2; 3]);
        assert_eq!([(0, 4, 9), (0, 9, 4)].map(|range| tell(&[1, 5, 0, 0], range)), [2; 2]);
        assert_eq!([(0, 4, 9), (0, 9, 4)].map(|range| tell(&[0; 2], range)), [2; 2]);
    }
}

#[test]
fn a_reversed_range_goes_before_unsound_memories_and_after_a_wrong_query() {
    for (k, asked, column, ends, number) in
        [(5, 5, 0, (4, 9), 3), (5, 5, 4, (9, 4), 14), (5, 5, 5, (9, 4), 2), (5, 4, 0, (9, 4), 2), (0, 0, 0, (4, 9), 2), (0, 0, 0, (9, 4), 2)]
    {
        let mut hall = Hall::open(1);
        hall.clients[COLUMNS] = k;
        let before = hall.clients.clone();
        assert_eq!(hall.lend().begin_read_within(0, &vec![0; 2 * asked], column, ends.0, ends.1), says(number));
        assert_eq!(hall.lend().begin_count_within(12, &vec![0; 2 * asked], column, ends.0, ends.1), says(number));
        assert_eq!(hall.clients, before);
        hall.table.truncate(TABLE_LEAST - 1);
        assert_eq!(hall.lend().begin_read_within(0, &vec![0; 2 * asked], column, ends.0, ends.1), says(1));
    }
}

/// A read of two columns, the second from 4 to 9, whose key is damaged at one place.
#[test]
fn a_held_range_that_a_begin_would_refuse_is_unsound() {
    let first = 2 * RANGE_UNIT;
    let sound = [(0, RANGE_UNIT), (0, first + COUNT_BIT), (0, first + 1), (5, 9), (5, 0), (6, 4), (6, ALL)];
    let unsound = [(0, 3 * RANGE_UNIT), (0, ALL - 31), (0, first + 2), (0, first + 4), (0, 0), (2, 1), (5, 10), (6, 3)];
    for ((at, value), reply) in sound.map(|damage| (damage, ACCEPTED)).into_iter().chain(unsound.map(|damage| (damage, UNSOUND))) {
        let mut hall = Hall::open(2);
        assert_eq!(hall.lend().begin_read_within(3, &[0; 4], 1, 4, 9), ACCEPTED);
        hall.clients[HEAD + 3 * CLIENT_WIDTH + CLIENT_ENTRY + at] = value;
        assert_eq!(hall.count(4, &[0; 4]).1, from_table(0), "another desk");
        assert_eq!((hall.step(3), hall.lend().abandon(3)), (reply, reply), "place {at}, {value}");
    }
}

#[test]
fn no_write_has_a_range_nor_ends_of_one() {
    for (kind, at, value) in [INSERT, DELETE].into_iter().flat_map(|kind| [(kind, 0, RANGE_UNIT), (kind, 5, 1), (kind, 6, 1)]) {
        let mut hall = Hall::open(1);
        assert_eq!(hall.lend().begin_delete(0, &[0, 0]), ACCEPTED);
        hall.clients[HEAD + CLIENT_KIND] = kind;
        hall.clients[HEAD + CLIENT_ENTRY + at] |= value;
        assert_eq!((hall.step(0), hall.lend().begin_read(0, &[0, 0])), (UNSOUND, UNSOUND));
    }
}

#[test]
fn a_filed_range_is_not_tested_and_a_senseless_one_serves_nobody() {
    for (first, lowest, highest) in [(RANGE_UNIT, 9, 4), (2 * RANGE_UNIT, 4, 9), (RANGE_UNIT + 1, 4, 9), (ALL - COUNT_BIT, 4, 9), (0, 4, 9)] {
        let mut hall = filled(1, 9);
        assert_eq!(read_within(&mut hall, 1, 4, 9), (4, from_table(6)));
        hall.answers[HEAD] = first;
        hall.answers[HEAD + KEY_LOWEST..][..2].copy_from_slice(&[lowest, highest]);
        assert_eq!(read_within(&mut hall, 1, 4, 9), (4, from_table(6)));
        assert_eq!(hall.read(0, &[0, 0]), (4, from_table(9)));
        assert_eq!((hall.answers[COUNT], hall.lend().renew()), (3, ACCEPTED));
    }
}
