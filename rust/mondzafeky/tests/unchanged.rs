//! Writes that change nothing: what is filed stays in use, whatever they are and however they end.
use mondzafeky::{Abandoned, Hall, Outcome, Query, RECORDS};

/// A hall of one column with the records 1 to n.
fn hall_of(n: u32) -> Hall {
    let mut hall = Hall::open(1).unwrap();
    for value in 1..=n {
        hall.begin_insert(0, &[value]).unwrap();
        assert_eq!(hall.run(0), Ok(Outcome::Changed));
    }
    hall
}

/// Whether a read was answered from file.
fn is_filed(hall: &mut Hall, value: u32) -> bool {
    hall.begin_read(9, &[Some(value)].into()).unwrap();
    match hall.run(9).unwrap() {
        Outcome::Answered { from_file, .. } => from_file,
        other => panic!("a read ended with {other:?}"),
    }
}

/// At desk 1.
fn begin(hall: &mut Hall, inserts: bool, value: u32) {
    if inserts {
        hall.begin_insert(1, &[value]).unwrap();
    } else {
        hall.begin_delete(1, &Query::from([Some(value)])).unwrap();
    }
}

/// How many records, an insert or a delete, of which value, and its end.
const WRITES: [(u32, bool, u32, Abandoned); 5] = [
    (9, true, 5, Abandoned::Unchanged),
    (RECORDS, true, 5, Abandoned::Unchanged),
    (RECORDS, true, 5_000, Abandoned::Full),
    (9, false, 50, Abandoned::Unchanged),
    (9, false, 5, Abandoned::Changed),
];

#[test]
fn what_was_filed_before_holds_unless_the_table_changed() {
    for (n, inserts, value, end) in WRITES {
        let mut before = hall_of(n);
        assert!(!is_filed(&mut before, value) && is_filed(&mut before, value));
        let mut hall = before.clone();
        begin(&mut hall, inserts, value);
        assert_eq!(hall.run(1).ok(), end.end());
        assert_eq!(is_filed(&mut hall, value), end != Abandoned::Changed, "{end:?}");
        for steps in [3, 4] {
            let mut hall = before.clone();
            begin(&mut hall, inserts, value);
            (0..steps).for_each(|_| assert_eq!(hall.step(1), Ok(Outcome::UnderWay)));
            assert_eq!(hall.abandon(1), Ok(end));
            assert_eq!(is_filed(&mut hall, value), end != Abandoned::Changed, "{end:?}, {steps} steps");
        }
    }
}

/// Its mark is seen, whatever it will turn out to have done.
#[test]
fn while_it_is_under_way_reads_go_to_the_table() {
    for (n, inserts, value, end) in WRITES {
        let mut hall = hall_of(n);
        let _ = is_filed(&mut hall, value);
        begin(&mut hall, inserts, value);
        (0..3).for_each(|_| assert_eq!(hall.step(1), Ok(Outcome::UnderWay)));
        assert!(!is_filed(&mut hall, value) && !is_filed(&mut hall, value));
        assert_eq!(hall.run(1).ok(), end.end());
        assert_eq!(is_filed(&mut hall, value), end != Abandoned::Changed, "{end:?}");
    }
}

/// Counters at their largest, which no history leaves, are in the way of a write that changed the table alone.
#[test]
fn a_counter_at_its_largest_is_left_as_it_is() {
    for (n, inserts, value, end) in WRITES {
        let mut hall = hall_of(n);
        begin(&mut hall, inserts, value);
        (0..3).for_each(|_| assert_eq!(hall.step(1), Ok(Outcome::UnderWay)));
        let nodes: Vec<usize> = (0..).zip(hall.inspect().nodes()).filter(|(_, node)| node.as_ref().unwrap().pending == 1).map(|(i, _)| i).collect();
        nodes.iter().for_each(|i| hall.memories().nodes[8 + 8 * i + 6] = u32::MAX);
        let changed = end == Abandoned::Changed;
        assert_eq!((hall.clone().abandon(1).is_err(), hall.step(1).is_err()), (changed, changed), "{end:?}");
    }
}
