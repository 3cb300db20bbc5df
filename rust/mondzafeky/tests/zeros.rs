//! 0 means not measured: naming it finds nothing, in lists, counts and deletes; a range skips it; a
//! star finds it. A record may carry it. Nodes and the file go by it as by any other value.
use mondzafeky::{Hall, Outcome, Query, LIST, RECORDS};
use std::ops::RangeInclusive;

const MAX: u32 = u32::MAX;

/// A number in one column, and 7 in the others.
fn record(k: u32, column: u32, value: u32) -> Vec<u32> {
    (0..k).map(|c| if c == column { value } else { 7 }).collect()
}

/// Such records.
fn hall_of(k: u32, column: u32, values: &[u32]) -> Hall {
    let mut hall = Hall::open(k).unwrap();
    values.iter().for_each(|value| assert!(insert(&mut hall, &record(k, column, *value))));
    hall
}

/// Whether the table has changed.
fn insert(hall: &mut Hall, record: &[u32]) -> bool {
    hall.begin_insert(0, record).unwrap();
    has_changed(hall.run(0).unwrap())
}

fn delete(hall: &mut Hall, query: &Query) -> bool {
    hall.begin_delete(0, query).unwrap();
    has_changed(hall.run(0).unwrap())
}

fn has_changed(outcome: Outcome<'_>) -> bool {
    assert!(matches!(outcome, Outcome::Changed | Outcome::Unchanged), "{outcome:?}");
    outcome == Outcome::Changed
}

/// What stands in a column of the records that a list gives and whether it was filed; a count tells
/// the same.
fn found(hall: &mut Hall, query: &Query, column: u32, within: Option<RangeInclusive<u32>>) -> (Vec<u32>, bool) {
    let begun = |hall: &mut Hall, counts: bool| match within.clone() {
        None if counts => hall.begin_count(5, query),
        None => hall.begin_read(5, query),
        Some(range) if counts => hall.begin_count_within(5, query, column, range),
        Some(range) => hall.begin_read_within(5, query, column, range),
    };
    begun(hall, true).unwrap();
    let Ok(Outcome::Counted { count, from_file: filed }) = hall.run(5) else { panic!("no count") };
    begun(hall, false).unwrap();
    let Ok(Outcome::Answered { records, from_file }) = hall.run(5) else { panic!("no list") };
    let values: Vec<u32> = records.map(|record| record[column as usize]).collect();
    assert_eq!((values.len() as u32, from_file), (count, filed));
    (values, from_file)
}

/// Each column of each k.
fn columns() -> impl Iterator<Item = (u32, u32)> {
    (1..=4u32).flat_map(|k| (0..k).map(move |column| (k, column)))
}

/// The queries that name a value in one column: alone, and beside all others.
fn naming(k: u32, column: u32, value: u32) -> [Query; 2] {
    let alone: Vec<_> = (0..k).map(|c| (c == column).then_some(value)).collect();
    [Query::from(&alone[..]), Query::of_record(&record(k, column, value))]
}

/// The queries that have a star in one column: in all others too, and in no other.
fn starred(k: u32, column: u32) -> [Query; 2] {
    let beside: Vec<_> = (0..k).map(|c| (c != column).then_some(7)).collect();
    [Query::from(&vec![None; k as usize][..]), Query::from(&beside[..])]
}

#[test]
fn naming_0_finds_nothing_and_a_star_finds_it() {
    for (k, column) in columns() {
        let mut hall = hall_of(k, column, &[0, 1, MAX]);
        for (value, values) in [(0, vec![]), (1, vec![1]), (MAX, vec![MAX])] {
            for query in naming(k, column, value) {
                assert_eq!(found(&mut hall, &query, column, None).0, values, "{query}");
                // It has its nodes and is filed as any other.
                assert_eq!(found(&mut hall, &query, column, None), (values.clone(), true), "{query}");
            }
        }
        starred(k, column).iter().for_each(|query| assert_eq!(found(&mut hall, query, column, None).0, [0, 1, MAX], "{query}"));
    }
}

#[test]
fn a_range_skips_0() {
    let ranges = [(0..=0, vec![]), (0..=1, vec![1]), (1..=1, vec![1]), (0..=MAX - 1, vec![1]), (0..=MAX, vec![1, MAX]), (1..=MAX, vec![1, MAX])];
    for (k, column) in columns() {
        let mut hall = hall_of(k, column, &[0, 1, MAX]);
        for ((range, values), query) in ranges.iter().flat_map(|row| starred(k, column).map(|query| (row, query))) {
            assert_eq!(found(&mut hall, &query, column, Some(range.clone())).0, *values, "{query}, {range:?}");
            assert_eq!(found(&mut hall, &query, column, Some(range.clone())), (values.clone(), true), "{query}, {range:?}");
        }
    }
}

/// The range is of the other column, which has 7 everywhere.
#[test]
fn beside_a_range_naming_0_finds_nothing_and_a_star_finds_it() {
    let mut hall = hall_of(2, 0, &[0, 1, MAX]);
    for (query, values) in [([Some(0), None], vec![]), ([Some(1), None], vec![1]), ([None, None], vec![0, 1, MAX])] {
        hall.begin_read_within(5, &query.into(), 1, 0..=7).unwrap();
        let Ok(Outcome::Answered { records, .. }) = hall.run(5) else { panic!() };
        assert_eq!(records.map(|record| record[0]).collect::<Vec<_>>(), values, "{query:?}");
    }
}

/// At its ascending place, alike in every column or not.
#[test]
fn an_insert_may_carry_0_and_the_second_changes_nothing() {
    for (k, column) in columns() {
        let mut hall = hall_of(k, column, &[1, MAX]);
        assert!(insert(&mut hall, &record(k, column, 0)));
        let before = hall.inspect().records().map(Result::unwrap).map(<[u32]>::to_vec).collect::<Vec<_>>();
        assert_eq!(before, [0, 1, MAX].map(|value| record(k, column, value)));
        assert!(!insert(&mut hall, &record(k, column, 0)));
        assert!(hall.inspect().records().map(Result::unwrap).eq(before.iter().map(|record| &record[..])));
        assert_eq!(insert(&mut hall, &vec![0; k as usize]), k > 1, "0 in every column is another record");
    }
}

#[test]
fn in_a_full_table_a_0_that_is_there_is_no_13() {
    let values: Vec<u32> = (0..RECORDS).collect();
    let mut hall = hall_of(1, 0, &values);
    assert!(!insert(&mut hall, &[0]));
    assert!(delete(&mut hall, &[Some(1)].into()) && insert(&mut hall, &[RECORDS]));
    hall.begin_insert(0, &[1]).unwrap();
    assert_eq!(hall.run(0), Ok(Outcome::Full));
}

#[test]
fn a_delete_that_names_0_takes_out_nothing_and_a_star_takes_it_out() {
    for (k, column) in columns() {
        for (i, starred) in starred(k, column).into_iter().enumerate() {
            let mut hall = hall_of(k, column, &[0, 1, MAX]);
            assert!(!delete(&mut hall, &naming(k, column, 0)[i]));
            assert_eq!(found(&mut hall, &starred, column, None).0, [0, 1, MAX]);
            assert!(delete(&mut hall, &naming(k, column, 1)[i]));
            assert_eq!(found(&mut hall, &starred, column, None).0, [0, MAX]);
            assert!(delete(&mut hall, &starred));
            assert_eq!(hall.inspect().record_count(), Ok(0));
        }
    }
}

/// 33 records, one of them with 0: too many for a star, 32 for a range.
#[test]
fn what_a_range_skips_is_not_counted_among_the_32() {
    let values: Vec<u32> = (0..=LIST).collect();
    let mut hall = hall_of(1, 0, &values);
    hall.begin_read(5, &[None].into()).unwrap();
    assert_eq!(hall.run(5), Ok(Outcome::Long));
    assert_eq!(found(&mut hall, &[None].into(), 0, Some(0..=MAX)).0, values[1..]);
}

/// In nodes a 0 equals a 0: a write that changes a record with it sends a read that names it to the
/// table, though that read finds no record; one of 1 does not, nor one that changes nothing.
#[test]
fn a_filed_answer_to_0_goes_by_the_writes_of_0() {
    for (k, column) in columns() {
        let (mut hall, [_, query]) = (hall_of(k, column, &[5]), naming(k, column, 0));
        let mut is_filed_after = |write: &dyn Fn(&mut Hall) -> bool| {
            write(&mut hall);
            let filed = found(&mut hall, &query, column, None);
            assert_eq!(found(&mut hall, &query, column, None), (vec![], true));
            filed.1
        };
        assert!(!is_filed_after(&|_| false), "the first read");
        assert!(is_filed_after(&|hall| insert(hall, &record(k, column, 1))));
        assert!(!is_filed_after(&|hall| insert(hall, &record(k, column, 0))));
        assert!(is_filed_after(&|hall| delete(hall, &naming(k, column, 1)[1])));
        assert!(is_filed_after(&|hall| insert(hall, &record(k, column, 0))));
        assert!(is_filed_after(&|hall| delete(hall, &naming(k, column, 0)[1])));
        assert!(!is_filed_after(&|hall| delete(hall, &starred(k, column)[1])));
    }
}
