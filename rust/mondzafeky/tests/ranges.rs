//! Reads and counts with a range in one column: which records, both ends; what is refused and in
//! which order; what is filed under which key and what spoils it; held and filed ranges that no
//! begin leaves.
use mondzafeky::{ending, number, saved, Abandoned, Hall, Memories, Outcome, Query, Refusal, Reply, TRAY_LEAST};
use std::ops::RangeInclusive;

const NOTHING: Reply = Reply { number: 0, count: 0, ending: ending::NONE };

fn refused(number: u32) -> Reply {
    Reply { number, ..NOTHING }
}

fn hall_of(k: u32, records: impl IntoIterator<Item = Vec<u32>>) -> Hall {
    let mut hall = Hall::open(k).unwrap();
    for record in records {
        hall.begin_insert(0, &record).unwrap();
        assert_eq!(hall.run(0), Ok(Outcome::Changed));
    }
    hall
}

/// What stands in the last column of the records that a list gives, and whether it was filed.
fn list(hall: &mut Hall, query: &[Option<u32>], column: u32, within: RangeInclusive<u32>) -> (Vec<u32>, bool) {
    hall.begin_read_within(5, &Query::from(query), column, within).unwrap();
    match hall.run(5).unwrap() {
        Outcome::Answered { records, from_file } => (records.map(|record| record[record.len() - 1]).collect(), from_file),
        other => panic!("a read ended with {other:?}"),
    }
}

/// How many records a count tells, and whether that was filed.
fn count(hall: &mut Hall, query: &[Option<u32>], column: u32, within: RangeInclusive<u32>) -> (u32, bool) {
    hall.begin_count_within(5, &Query::from(query), column, within).unwrap();
    match hall.run(5).unwrap() {
        Outcome::Counted { count, from_file } => (count, from_file),
        other => panic!("a count ended with {other:?}"),
    }
}

/// Whether a plain read was answered from file.
fn plain_is_filed(hall: &mut Hall, query: &[Option<u32>]) -> bool {
    hall.begin_read(5, &Query::from(query)).unwrap();
    matches!(hall.run(5), Ok(Outcome::Answered { from_file: true, .. }))
}

/// Bench 3 has the classes of these, bench 4 has class 5.
fn classes(of: &[u32]) -> Hall {
    hall_of(2, of.iter().map(|&class| vec![3, class]).chain([vec![4, 5]]))
}

const BENCH_3: [Option<u32>; 2] = [Some(3), None];

#[test]
fn both_ends_are_in_and_nothing_else_in_each_column_of_each_k() {
    for (k, column) in (1..=4u32).flat_map(|k| (0..k).map(move |column| (k, column))) {
        // Alike in the other columns, so that the range alone decides.
        let record = |value: u32| (0..k).map(|c| if c == column { value } else { 7 }).collect::<Vec<_>>();
        let mut hall = hall_of(k, [3, 4, 6, 9, 10].map(record));
        let named: Vec<_> = (0..k).map(|c| (c != column).then_some(7)).collect();
        for query in [named, vec![None; k as usize]] {
            hall.begin_read_within(5, &Query::from(&query[..]), column, 4..=9).unwrap();
            let Ok(Outcome::Answered { records, .. }) = hall.run(5) else { panic!() };
            assert_eq!(records.map(<[u32]>::to_vec).collect::<Vec<_>>(), [4, 6, 9].map(record), "k {k}, column {column}");
            assert_eq!((count(&mut hall, &query, column, 4..=9).0, count(&mut hall, &query, column, 5..=8).0), (3, 1));
            assert_eq!((list(&mut hall, &query, column, 7..=8).0.len(), list(&mut hall, &query, column, 11..=u32::MAX).0.len()), (0, 0));
        }
    }
}

#[test]
fn the_smallest_and_the_largest_value() {
    const MAX: u32 = u32::MAX;
    let mut hall = hall_of(1, [0, 1, MAX - 1, MAX].map(|value| vec![value]));
    let mut within = |range| list(&mut hall, &[None], 0, range).0;
    // 0 means not measured: it lies in no range.
    assert_eq!(within(0..=0), []);
    assert_eq!(within(0..=1), [1]);
    assert_eq!(within(1..=1), [1]);
    assert_eq!(within(MAX..=MAX), [MAX]);
    assert_eq!(within(1..=MAX - 1), [1, MAX - 1]);
    assert_eq!(within(0..=MAX), [1, MAX - 1, MAX]);
}

/// Records outside are not counted among the 32, and a count goes on past them.
#[test]
fn more_than_32_within_is_long_and_no_end_of_a_count() {
    let mut hall = hall_of(2, (1..=100).map(|class| vec![3, class]));
    assert_eq!(list(&mut hall, &BENCH_3, 1, 10..=41).0, (10..=41).collect::<Vec<_>>());
    hall.begin_read_within(5, &Query::from(BENCH_3), 1, 10..=42).unwrap();
    assert_eq!(hall.run(5), Ok(Outcome::Long));
    assert_eq!((count(&mut hall, &BENCH_3, 1, 10..=42), count(&mut hall, &BENCH_3, 1, 1..=100)), ((33, false), (100, false)));
    assert_eq!(hall.step(5), Err(Refusal::Idle));
    assert_eq!(count(&mut hall, &BENCH_3, 1, 10..=42), (33, true));
}

/// One key for each column, each pair of ends, and list or count; the plain read and the named
/// value have others.
#[test]
fn each_range_is_a_question_of_its_own() {
    let mut hall = classes(&[4, 5, 9]);
    let stars = [None, None];
    assert!(!plain_is_filed(&mut hall, &BENCH_3) && !plain_is_filed(&mut hall, &[Some(3), Some(5)]) && !plain_is_filed(&mut hall, &stars));
    for from_file in [false, true] {
        assert_eq!(list(&mut hall, &BENCH_3, 1, 0..=u32::MAX), (vec![4, 5, 9], from_file), "not the plain read");
        assert_eq!(list(&mut hall, &BENCH_3, 1, 5..=5), (vec![5], from_file), "not the named 5");
        assert_eq!(list(&mut hall, &BENCH_3, 1, 4..=9), (vec![4, 5, 9], from_file));
        assert_eq!(list(&mut hall, &BENCH_3, 1, 4..=10), (vec![4, 5, 9], from_file));
        assert_eq!(list(&mut hall, &stars, 0, 3..=4), (vec![4, 5, 9, 5], from_file));
        assert_eq!(list(&mut hall, &stars, 1, 3..=4), (vec![4], from_file), "the other column");
        assert_eq!(count(&mut hall, &BENCH_3, 1, 4..=9), (3, from_file), "nor is a count a list");
        assert_eq!(hall.inspect().answer_count(), Ok(10));
    }
    assert!(plain_is_filed(&mut hall, &BENCH_3) && plain_is_filed(&mut hall, &[Some(3), Some(5)]) && plain_is_filed(&mut hall, &stars));
}

/// For its nodes the ranged column is a star, so a write of any class of bench 3 spoils what is
/// filed, one of another bench does not.
#[test]
fn a_write_that_meets_the_query_sends_the_next_read_to_the_table() {
    let mut hall = classes(&[4, 9]);
    let mut after = |record: [u32; 2]| {
        hall.begin_insert(0, &record).unwrap();
        assert_eq!(hall.run(0), Ok(Outcome::Changed));
        list(&mut hall, &BENCH_3, 1, 4..=9)
    };
    assert_eq!(after([8, 5]), (vec![4, 9], false), "the first read");
    assert_eq!(after([8, 6]), (vec![4, 9], true), "another bench");
    assert_eq!(after([3, 100]), (vec![4, 9], false), "outside the range");
    assert_eq!(after([3, 6]), (vec![4, 6, 9], false));
}

#[test]
fn steps_are_those_of_the_query_with_that_column_starred() {
    for named in 0..=3u32 {
        let query: Vec<_> = (0..4).map(|column| (column < named).then_some(7)).collect();
        let mut hall = hall_of(4, [vec![7, 7, 7, 5]]);
        for steps in [(1 << named) + 3, (1 << named) + 1] {
            hall.begin_read_within(5, &Query::from(&query[..]), 3, 4..=9).unwrap();
            (1..steps).for_each(|_| assert_eq!(hall.step(5), Ok(Outcome::UnderWay)));
            assert!(hall.step(5).unwrap().has_ended(), "{named} named, {steps} steps");
        }
    }
}

/// Its list is that of its table step, filed under what its looks noted: so it is not used again
/// after the insert.
#[test]
fn an_insert_between_the_looks_and_the_table_step() {
    let mut hall = classes(&[4]);
    hall.begin_read_within(6, &Query::from(BENCH_3), 1, 4..=9).unwrap();
    (0..2).for_each(|_| assert_eq!(hall.step(6), Ok(Outcome::UnderWay)));
    hall.begin_insert(0, &[3, 9]).unwrap();
    assert_eq!(hall.run(0), Ok(Outcome::Changed));
    let Ok(Outcome::Answered { records, from_file: false }) = hall.run(6) else { panic!() };
    assert_eq!(records.collect::<Vec<_>>(), [[3, 4], [3, 9]]);
    assert_eq!((list(&mut hall, &BENCH_3, 1, 4..=9), list(&mut hall, &BENCH_3, 1, 4..=9)), ((vec![4, 9], false), (vec![4, 9], true)));
}

#[test]
fn a_read_that_saw_a_mark_is_answered_at_its_table_step_and_not_filed() {
    let mut hall = classes(&[4]);
    // Class 100 lies outside, and meets the query with its column starred.
    hall.begin_insert(0, &[3, 100]).unwrap();
    (0..4).for_each(|_| assert_eq!(hall.step(0), Ok(Outcome::UnderWay)));
    hall.begin_read_within(6, &Query::from(BENCH_3), 1, 4..=9).unwrap();
    (0..3).for_each(|_| assert_eq!(hall.step(6), Ok(Outcome::UnderWay)));
    assert_eq!(hall.step(6).unwrap().to_string(), "answered from the table, 1 record");
    assert_eq!(hall.inspect().answer_count(), Ok(0));
}

/// The replies of both begins at a desk, which must be alike.
fn begun(m: &mut Memories<'_>, client: u32, query: &[u32], column: u32, within: RangeInclusive<u32>) -> Reply {
    let reply = m.begin_count_within(client, query, column, within.clone());
    if reply.number != number::ACCEPTED {
        assert_eq!(m.begin_read_within(client, query, column, within), reply);
    }
    reply
}

/// The smallest number, but that 14 comes right after 2. Nothing is altered.
#[test]
fn refusals_in_their_order() {
    let mut hall = classes(&[4]);
    hall.begin_insert(1, &[9, 9]).unwrap();
    let (before, query, reversed) = (hall.clone(), [1, 3, 0, 0], RangeInclusive::new(9, 4));
    let mut m = hall.memories();
    for (client, query, column, within, number) in [
        (0, &query[..], 0, 4..=9, number::COLUMNS),
        (0, &query, 2, 4..=9, number::COLUMNS),
        (12, &query, u32::MAX, reversed.clone(), number::COLUMNS),
        (1, &query, 0, reversed.clone(), number::COLUMNS),
        (0, &query[..2], 1, reversed.clone(), number::COLUMNS),
        (0, &[1, 3, 0, 1], 1, reversed.clone(), number::COLUMNS),
        (0, &query, 1, reversed.clone(), number::REVERSED),
        (0, &query, 1, RangeInclusive::new(u32::MAX, u32::MAX - 1), number::REVERSED),
        (1, &query, 1, RangeInclusive::new(1, 0), number::REVERSED),
        (12, &query, 1, reversed, number::REVERSED),
        (12, &query, 1, 9..=9, number::NO_CLIENT),
        (1, &query, 1, 4..=9, number::TAKEN),
    ] {
        assert_eq!(begun(&mut m, client, query, column, within.clone()), refused(number), "desk {client}, {query:?}, column {column}, {within:?}");
    }
    assert!(hall == before);
    let (query, [lowest, highest]) = (Query::from(BENCH_3), [9, 4]);
    assert_eq!(hall.begin_read_within(0, &query, 1, lowest..=highest), Err(Refusal::Reversed));
    assert_eq!(hall.begin_count_within(0, &query, 1, lowest..=highest), Err(Refusal::Reversed));
    assert_eq!(hall.begin_count_within(0, &query, 0, 4..=9), Err(Refusal::Columns));
    assert!(hall == before);
}

/// 1 before all; a k in memory that is out of range is 3, after a 2 by that k and after 14.
#[test]
fn refusals_of_the_memories() {
    let mut numbers = saved::numbers_of(&classes(&[4]).to_bytes());
    let mut m = saved::memories(&mut numbers[..saved::NUMBERS - 1]);
    assert_eq!(begun(&mut m, 0, &[], 9, RangeInclusive::new(9, 4)), refused(number::SHORT));
    let mut m = saved::memories(&mut numbers);
    m.clients[0] = 5;
    assert_eq!(begun(&mut m, 0, &[0; 10], 5, 4..=9), refused(number::COLUMNS));
    for column in 0..5 {
        assert_eq!(begun(&mut m, 12, &[0; 10], column, RangeInclusive::new(9, 4)), refused(number::REVERSED));
        assert_eq!(begun(&mut m, 12, &[0; 10], column, 4..=9), refused(number::UNSOUND));
    }
}

/// Writes have no limit that ranges have not: a worn hall turns down writes alone.
#[test]
fn a_worn_hall_takes_reads_with_a_range() {
    let mut hall = classes(&[4]);
    hall.memories().nodes[0] = 4_294_967_104;
    assert_eq!(hall.begin_insert(0, &[3, 5]), Err(Refusal::Worn));
    assert_eq!(list(&mut hall, &BENCH_3, 1, 4..=9).0, [4]);
}

/// Where a desk's key stands: its first number, the lowest and the highest (docs/LAYOUT.md).
fn held(client: usize) -> [usize; 3] {
    [5, 10, 11].map(|offset| 8 + 157 * client + offset)
}

#[test]
fn what_a_begin_writes() {
    let mut hall = Hall::open(2).unwrap();
    for (client, column, key) in [(6, 1, [65, 3, 0, 0, 0, 4, 9]), (7, 0, [34, 0, 3, 0, 0, 4, 9])] {
        let query = if column == 1 { BENCH_3 } else { [None, Some(3)] };
        let at = 8 + 157 * client as usize;
        hall.begin_read_within(client, &Query::from(query), column, 4..=9).unwrap();
        assert_eq!((hall.memories().clients[at], &hall.memories().clients[at + 5..at + 12]), (1, &key[..]), "32 times the column plus 1");
        assert_eq!(hall.abandon(client), Ok(Abandoned::GivenUp));
        hall.begin_count_within(client, &Query::from(query), column, 4..=9).unwrap();
        assert_eq!(hall.memories().clients[at + 5], key[0] + 16);
    }
}

/// A held range that a begin would refuse is 3, at its own desk; so are ends without a range.
#[test]
fn held_ranges_that_no_begin_leaves_are_3() {
    let mut hall = Hall::open(2).unwrap();
    let ([key, lowest, highest], tray) = (held(6), &mut [0; TRAY_LEAST]);
    let mut m = hall.memories();
    for (first, ends, number) in [
        (65, [4, 9], 0),
        (65, [9, 9], 0),
        (65, [0, u32::MAX], 0),
        (65, [0, 0], 0),
        (81, [4, 9], 0),
        (65, [9, 8], 3),
        (81, [u32::MAX, 0], 3),
        (33, [4, 9], 3),  // column 0 is named
        (97, [4, 9], 3),  // column 2 is not below k
        (129, [4, 9], 3), // nor is 3
        (65 + 256, [4, 9], 3),
        (65 + (1 << 31), [4, 9], 3),
        (1, [4, 9], 3), // ends, and no range
        (1, [0, 1], 3),
        (1, [1, 0], 3),
        (1, [0, 0], 0),
        (69, [4, 9], 3), // a mark past the last column
    ] {
        assert_eq!((m.open(2), m.begin_read_within(6, &[1, 3, 0, 0], 1, 4..=9), m.begin_read(7, &[1, 3, 0, 0])), (NOTHING, NOTHING, NOTHING));
        (m.clients[key], m.clients[lowest], m.clients[highest]) = (first, ends[0], ends[1]);
        assert_eq!((m.step(tray, 7), m.step(tray, 6)), (NOTHING, refused(number)), "{first}, {ends:?}");
        assert_eq!(m.begin_read(6, &[1, 3, 0, 0]), refused(if number == 0 { number::TAKEN } else { number::UNSOUND }));
        assert_eq!(m.abandon(6), refused(number));
    }
    // A value that stands under the ranged star.
    assert_eq!((m.open(2), m.begin_read_within(6, &[1, 3, 0, 0], 1, 4..=9)), (NOTHING, NOTHING));
    m.clients[key + 2] = 5;
    assert_eq!(m.step(tray, 6), refused(number::UNSOUND));
}

#[test]
fn a_writer_with_a_range_is_3() {
    let mut hall = Hall::open(2).unwrap();
    let ([key, lowest, highest], tray) = (held(6), &mut [0; TRAY_LEAST]);
    let mut m = hall.memories();
    for (first, ends) in [(65, [4, 9]), (65, [0, 0]), (1, [0, 9]), (1, [4, 0])] {
        assert_eq!(m.begin_delete(6, &[1, 3, 0, 0]), NOTHING);
        (m.clients[key], m.clients[lowest], m.clients[highest]) = (first, ends[0], ends[1]);
        assert_eq!((m.step(tray, 6), m.abandon(6)), (refused(number::UNSOUND), refused(number::UNSOUND)), "{first}, {ends:?}");
        (m.clients[key], m.clients[lowest], m.clients[highest]) = (1, 0, 0);
        assert_eq!(m.abandon(6), NOTHING);
    }
}

/// Of a filed key nothing is tested: one that no begin leaves is no 3 and fits no read, and the
/// read files beside it.
#[test]
fn filed_ranges_that_no_begin_leaves_serve_no_read() {
    for (first, ends) in [(65, [9, 4]), (33, [4, 9]), (97, [4, 9]), (1, [4, 9]), (65 + 512, [4, 9]), (65, [4, 10])] {
        let mut hall = classes(&[4]);
        list(&mut hall, &BENCH_3, 1, 4..=9);
        let m = hall.memories();
        (m.answers[8], m.answers[13], m.answers[14]) = (first, ends[0], ends[1]);
        assert_eq!(hall.evict_answer(1), Err(Refusal::NoEntry), "no 3 for {first}, {ends:?}");
        assert_eq!((list(&mut hall, &BENCH_3, 1, 4..=9), hall.inspect().answer_count()), ((vec![4], false), Ok(2)));
        assert!(!plain_is_filed(&mut hall, &BENCH_3));
    }
}
