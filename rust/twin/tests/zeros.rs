//! The value 0 (document 02, S-5) on the twin: naming it finds nothing, a range skips it, a star finds it; an insert may carry it; nodes, keys and
//! labels have it as any other value.

mod hall;

use hall::*;
use twin::layout::*;
use twin::Reply;

const MOST: u32 = u32::MAX;
const CHANGED: Reply = Reply { number: 0, count: 0, ending: 3 };
const UNCHANGED: Reply = Reply { number: 0, count: 0, ending: 4 };

/// One record with 0 in its first column, one with 1, one with the largest number.
fn three(k: u32) -> Hall {
    holding(k, &[0, 1, MOST])
}

/// A query that names this value in its first column, and in the others what the records have there, or stars.
fn naming(k: u32, value: u32, others: bool) -> Vec<u32> {
    (0..k).flat_map(|c| if c == 0 { [1, value] } else { [others as u32, if others { OTHER } else { 0 }] }).collect()
}

/// The first columns of the list on the tray.
fn listed(hall: &Hall, k: u32, reply: Reply) -> Vec<u32> {
    hall.tray[..(reply.count * k) as usize].chunks(k as usize).map(|record| record[0]).collect()
}

/// The first columns of the table.
fn held(hall: &Hall, k: u32) -> Vec<u32> {
    hall.table[HEAD..].chunks(k as usize).take(hall.table[COUNT] as usize).map(|record| record[0]).collect()
}

#[test]
fn a_named_0_finds_nothing_and_a_star_finds_it() {
    for (k, others) in (1..=4).flat_map(|k| [(k, true), (k, false)]) {
        for (value, found) in [(0, vec![]), (1, vec![1]), (2, vec![]), (MOST, vec![MOST])] {
            let mut hall = three(k);
            let (_, reply) = hall.read(0, &naming(k, value, others));
            assert_eq!((listed(&hall, k, reply), reply.ending), (found.clone(), 2), "k {k}, {value}");
            assert_eq!(hall.count(0, &naming(k, value, others)).1, from_table(found.len() as u32));
        }
        let mut hall = three(k);
        let (_, reply) = hall.read(0, &vec![0; 2 * k as usize]);
        assert_eq!(listed(&hall, k, reply), [0, 1, MOST]);
        assert_eq!(hall.count(0, &vec![0; 2 * k as usize]).1, from_table(3));
    }
}

#[test]
fn a_range_skips_0_and_that_from_0_to_0_finds_nothing() {
    let ranges = [
        ((0, 0), vec![]),
        ((0, 1), vec![1]),
        ((1, 1), vec![1]),
        ((0, MOST - 1), vec![1]),
        ((0, MOST), vec![1, MOST]),
        ((1, MOST), vec![1, MOST]),
        ((2, MOST), vec![MOST]),
    ];
    for (k, ((lowest, highest), found)) in (1..=4).flat_map(|k| ranges.clone().map(|row| (k, row))) {
        let (mut hall, stars) = (three(k), vec![0; 2 * k as usize]);
        assert_eq!(hall.lend().begin_read_within(0, &stars, 0, lowest, highest), ACCEPTED);
        let (_, reply) = hall.run(0);
        assert_eq!((listed(&hall, k, reply), reply.ending), (found.clone(), 2), "k {k}, {lowest} to {highest}");
        assert_eq!(hall.lend().begin_count_within(0, &stars, 0, lowest, highest), ACCEPTED);
        assert_eq!(hall.run(0).1, from_table(found.len() as u32));
    }
}

/// The range is of the second column, in which each record has the same.
#[test]
fn beside_a_range_a_named_0_finds_nothing_and_a_star_finds_it() {
    for (k, (mark, value, n)) in (2..=4).flat_map(|k| [(1, 0, 0), (1, 1, 1), (0, 0, 3)].map(|row| (k, row))) {
        let mut asked = vec![0; 2 * k as usize];
        (asked[0], asked[1]) = (mark, value);
        let mut hall = three(k);
        assert_eq!(hall.lend().begin_read_within(0, &asked, 1, 0, OTHER), ACCEPTED);
        assert_eq!(hall.run(0).1, from_table(n));
        assert_eq!(hall.lend().begin_count_within(0, &asked, 1, OTHER, MOST), ACCEPTED);
        assert_eq!(hall.run(0).1, from_table(n));
    }
}

#[test]
fn an_insert_may_carry_0_and_the_second_changes_nothing() {
    for k in 1..=4 {
        let mut hall = holding(k, &[1, MOST]);
        let record = naming(k, 0, true);
        assert_eq!(hall.insert(1, &record).1, CHANGED);
        assert_eq!(held(&hall, k), [0, 1, MOST]);
        let table = hall.table.clone();
        assert_eq!(hall.insert(1, &record).1, UNCHANGED);
        assert_eq!(hall.table, table);
        // 0 in every column
        assert_eq!(hall.insert(1, &[1, 0].repeat(k as usize)).1, if k == 1 { UNCHANGED } else { CHANGED });
    }
}

#[test]
fn a_delete_that_names_0_takes_out_nothing_and_a_star_takes_it_out() {
    for (k, others) in (1..=4).flat_map(|k| [(k, true), (k, false)]) {
        let mut hall = three(k);
        let table = hall.table.clone();
        assert_eq!(hall.delete(1, &naming(k, 0, others)), ((2 << k) + 1, UNCHANGED));
        assert_eq!(hall.table, table);
        assert_eq!((hall.delete(1, &naming(k, 1, others)).1, held(&hall, k)), (CHANGED, vec![0, MOST]));
        assert_eq!((hall.delete(1, &vec![0; 2 * k as usize]).1, hall.table[COUNT]), (CHANGED, 0));
    }
}

/// Its looks, its key and its filed answer are those of a named value: a write of 0 there is seen, one of 1 is not.
#[test]
fn a_read_that_names_0_is_filed_and_its_nodes_are_raised_by_a_write_of_0() {
    for k in 1..=4 {
        let (asked, n) = (naming(k, 0, true), 1 << k);
        let mut hall = holding(k, &[]);
        assert_eq!(hall.read(0, &asked), (n + 3, from_table(0)));
        assert_eq!((hall.answers[HEAD], hall.answers[HEAD + 1], hall.nodes[NODE_COUNT]), (n - 1, 0, n));
        assert_eq!(hall.node(0)[..2], [(0..k).map(|c| TAG_VALUE << (8 * c)).sum(), 0]);
        assert_eq!(hall.read(0, &asked), (n + 1, from_file(0)));
        assert_eq!(hall.count(0, &asked), (n + 3, from_table(0)));
        assert_eq!(hall.count(0, &asked), (n + 1, from_file(0)));
        hall.insert(1, &naming(k, 1, true));
        assert_eq!(hall.read(0, &asked), (n + 1, from_file(0)));
        hall.insert(1, &asked);
        assert_eq!(hall.read(0, &asked), (n + 3, from_table(0)));
        assert_eq!(hall.read(0, &asked), (n + 1, from_file(0)));
        assert_eq!(hall.lend().begin_delete(1, &asked), ACCEPTED);
        hall.steps(1, n);
        assert_eq!(hall.read(0, &asked), (n + 2, from_table(0)), "a mark is seen");
    }
}
