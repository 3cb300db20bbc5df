//! Tallies: which count each call raises, by the low calls and over a hall; 15 at a full count, which alters nothing and after which all goes on
//! with a new tally; the sums; the table for the foreman.
use mondzafeky::{ending, number, Abandoned, Hall, Outcome, Query, Refusal, Reply, Tally, RECORDS, TRAY_LEAST};

const NONE: Tally = Tally {
    reads_begun: 0,
    from_file: 0,
    from_table: 0,
    ended_long: 0,
    reads_abandoned: 0,
    writes_begun: 0,
    ended_changed: 0,
    ended_unchanged: 0,
    writes_abandoned: 0,
};

/// A count of a tally.
type At = fn(&mut Tally) -> &mut u32;

/// A hall of two columns with the records (7, 1), (7, 2) and so on.
fn hall_of(n: u32) -> Hall {
    let mut hall = Hall::open(2).unwrap();
    for value in 1..=n {
        hall.begin_insert(0, &[7, value]).unwrap();
        assert_eq!(hall.run(0), Ok(Outcome::Changed));
    }
    hall
}

fn seven() -> Query {
    Query::from([Some(7), None])
}

fn refused(number: u32) -> Reply {
    Reply { number, count: 0, ending: 0 }
}

/// Makes the call with this count full: 15, and nothing is altered. With a cleared tally it raises that count and no other, and with room for one
/// more there it fills it. The hall afterwards, and what the call replied.
fn full_at(hall: &mut Hall, at: At, call: impl Fn(&mut Hall, &mut Tally) -> Reply) -> Reply {
    let with = |n: u32| {
        let mut tally = NONE;
        *at(&mut tally) = n;
        tally
    };
    let (before, mut tally) = (hall.clone(), with(u32::MAX));
    assert_eq!(call(hall, &mut tally), refused(number::TALLY_FULL));
    assert!(*hall == before && tally == with(u32::MAX));
    let (mut other, mut near) = (hall.clone(), with(u32::MAX - 1));
    let reply = call(&mut other, &mut near);
    assert_eq!(near, with(u32::MAX));
    tally = NONE;
    assert_eq!(call(hall, &mut tally), reply);
    assert!(reply.refusal().is_none() && tally == with(1) && *hall == other);
    // Every other count may be full.
    let (mut again, mut others) = (before, Tally { ..with(0) });
    fill_all(&mut others);
    *at(&mut others) = 0;
    assert_eq!(call(&mut again, &mut others), reply);
    assert_eq!(*at(&mut others), 1);
    reply
}

fn fill_all(tally: &mut Tally) {
    let most = u32::MAX;
    *tally = Tally {
        reads_begun: most,
        from_file: most,
        from_table: most,
        ended_long: most,
        reads_abandoned: most,
        writes_begun: most,
        ended_changed: most,
        ended_unchanged: most,
        writes_abandoned: most,
    };
}

fn step(client: u32) -> impl Fn(&mut Hall, &mut Tally) -> Reply {
    move |hall, tally| hall.memories().step_tallied(&mut [0; TRAY_LEAST], tally, client)
}

fn abandon(client: u32) -> impl Fn(&mut Hall, &mut Tally) -> Reply {
    move |hall, tally| hall.memories().abandon_tallied(tally, client)
}

#[test]
fn each_begin_raises_reads_begun_or_writes_begun() {
    let (query, record) = ([1, 7, 0, 0], [1, 7, 1, 1]);
    let reads: At = |tally| &mut tally.reads_begun;
    let writes: At = |tally| &mut tally.writes_begun;
    let mut hall = hall_of(3);
    full_at(&mut hall, reads, |hall, tally| hall.memories().begin_read_tallied(tally, 0, &query));
    full_at(&mut hall, reads, |hall, tally| hall.memories().begin_count_tallied(tally, 1, &query));
    full_at(&mut hall, reads, |hall, tally| hall.memories().begin_read_within_tallied(tally, 2, &query, 1, 4..=9));
    full_at(&mut hall, reads, |hall, tally| hall.memories().begin_count_within_tallied(tally, 3, &query, 1, 4..=9));
    full_at(&mut hall, writes, |hall, tally| hall.memories().begin_insert_tallied(tally, 4, &record));
    full_at(&mut hall, writes, |hall, tally| hall.memories().begin_delete_tallied(tally, 5, &query));
    assert_eq!(hall.begin_read(0, &seven()), Err(Refusal::Taken));
}

#[test]
fn each_end_of_a_read_raises_its_count() {
    let mut hall = hall_of(32);
    hall.begin_read(0, &seven()).unwrap();
    (0..4).for_each(|_| assert_eq!(hall.step(0), Ok(Outcome::UnderWay)));
    assert_eq!(full_at(&mut hall, |tally| &mut tally.from_table, step(0)).ending, ending::FROM_TABLE);
    hall.begin_read(0, &seven()).unwrap();
    (0..2).for_each(|_| assert_eq!(hall.step(0), Ok(Outcome::UnderWay)));
    assert_eq!(full_at(&mut hall.clone(), |tally| &mut tally.reads_abandoned, abandon(0)), refused(0));
    assert_eq!(full_at(&mut hall, |tally| &mut tally.from_file, step(0)).ending, ending::FROM_FILE);
    // A look sees the mark of an insert, which will be the 33rd record.
    hall.begin_insert(1, &[7, 0]).unwrap();
    (0..4).for_each(|_| assert_eq!(hall.step(1), Ok(Outcome::UnderWay)));
    hall.begin_read(0, &seven()).unwrap();
    (0..3).for_each(|_| assert_eq!(hall.step(0), Ok(Outcome::UnderWay)));
    assert_eq!(full_at(&mut hall.clone(), |tally| &mut tally.from_table, step(0)).ending, ending::FROM_TABLE);
    assert_eq!(hall.step(1), Ok(Outcome::UnderWay));
    assert_eq!(full_at(&mut hall, |tally| &mut tally.ended_long, step(0)), refused(number::LONG));
}

#[test]
fn each_end_of_a_write_raises_its_count() {
    let changed: At = |tally| &mut tally.ended_changed;
    let unchanged: At = |tally| &mut tally.ended_unchanged;
    let writes =
        [(3, [7, 9], changed, ending::CHANGED, 0), (3, [7, 1], unchanged, ending::UNCHANGED, 0), (RECORDS, [7, 0], unchanged, 0, number::FULL)];
    for (n, record, at, told, number) in writes {
        let mut hall = hall_of(n);
        hall.begin_insert(0, &record).unwrap();
        for made in 0..9 {
            let past_table = made > 4;
            let counted: At = if past_table { at } else { |tally| &mut tally.writes_abandoned };
            let end = if past_table { (number, told) } else { (0, 0) };
            let reply = full_at(&mut hall.clone(), counted, abandon(0));
            assert_eq!((reply.number, reply.ending), end, "{made} steps made");
            if made < 8 {
                assert_eq!(hall.step(0), Ok(Outcome::UnderWay));
            }
        }
        let reply = full_at(&mut hall, at, step(0));
        assert_eq!((reply.number, reply.ending), (number, told));
    }
}

/// A step that ends nothing is not held by a tally that is full everywhere, and no refusal is told as 15.
#[test]
fn what_raises_no_count_is_not_held() {
    let (mut hall, mut tally) = (hall_of(3), NONE);
    fill_all(&mut tally);
    let full = tally;
    hall.begin_read(0, &seven()).unwrap();
    hall.begin_insert(1, &[7, 9]).unwrap();
    (0..4).for_each(|_| assert_eq!(hall.step_tallied(&mut tally, 0), Ok(Outcome::UnderWay)));
    (0..8).for_each(|_| assert_eq!(hall.step_tallied(&mut tally, 1), Ok(Outcome::UnderWay)));
    assert_eq!(hall.step_tallied(&mut tally, 0), Err(Refusal::TallyFull));
    assert_eq!(hall.run_tallied(&mut tally, 1), Err(Refusal::TallyFull));
    assert_eq!(hall.abandon_tallied(&mut tally, 1), Err(Refusal::TallyFull));
    assert_eq!(hall.abandon_tallied(&mut tally, 2), Err(Refusal::Idle));
    assert_eq!(hall.step_tallied(&mut tally, 12), Err(Refusal::NoClient));
    assert_eq!(hall.begin_read_tallied(&mut tally, 0, &seven()), Err(Refusal::Taken));
    assert_eq!(hall.begin_count_within_tallied(&mut tally, 0, &seven(), 1, std::ops::RangeInclusive::new(9, 4)), Err(Refusal::Reversed));
    assert_eq!(hall.begin_read_within_tallied(&mut tally, 0, &seven(), 0, 4..=9), Err(Refusal::Columns));
    assert_eq!(hall.begin_count_tallied(&mut tally, 2, &seven()), Err(Refusal::TallyFull));
    assert_eq!(hall.begin_insert_tallied(&mut tally, 2, &[7]), Err(Refusal::Columns));
    assert_eq!(hall.begin_delete_tallied(&mut tally, 2, &seven()), Err(Refusal::TallyFull));
    assert_eq!(tally, full);
}

/// A day over a hall; after each call the begun are those that have ended and those under way.
#[test]
fn a_day_is_counted_and_adds_up() {
    let (mut hall, mut day) = (hall_of(3), NONE);
    let adds_up = |day: &Tally, reads: u32, writes: u32| {
        assert_eq!(day.reads_begun, day.from_file + day.from_table + day.ended_long + day.reads_abandoned + reads);
        assert_eq!(day.writes_begun, day.ended_changed + day.ended_unchanged + day.writes_abandoned + writes);
    };
    for from_file in [false, true, true] {
        hall.begin_count_tallied(&mut day, 0, &seven()).unwrap();
        adds_up(&day, 1, 0);
        assert_eq!(hall.run_tallied(&mut day, 0), Ok(Outcome::Counted { count: 3, from_file }));
        adds_up(&day, 0, 0);
    }
    hall.begin_delete_tallied(&mut day, 1, &Query::from([Some(7), Some(1)])).unwrap();
    hall.begin_insert_tallied(&mut day, 2, &[7, 2]).unwrap();
    hall.begin_insert_tallied(&mut day, 3, &[7, 4]).unwrap();
    hall.begin_read_within_tallied(&mut day, 0, &seven(), 1, 2..=3).unwrap();
    adds_up(&day, 1, 3);
    assert_eq!(hall.run_tallied(&mut day, 1), Ok(Outcome::Changed));
    assert_eq!(hall.run_tallied(&mut day, 2), Ok(Outcome::Unchanged));
    assert_eq!(hall.abandon_tallied(&mut day, 3), Ok(Abandoned::GivenUp));
    assert_eq!(hall.abandon_tallied(&mut day, 0), Ok(Abandoned::GivenUp));
    adds_up(&day, 0, 0);
    let counted = Tally { reads_begun: 4, from_file: 2, from_table: 1, reads_abandoned: 1, ..NONE };
    assert_eq!(day, Tally { writes_begun: 3, ended_changed: 1, ended_unchanged: 1, writes_abandoned: 1, ..counted });
}

#[test]
fn the_table_for_the_foreman() {
    let day = Tally { reads_begun: 17, from_file: 6, from_table: 9, ended_long: 1, reads_abandoned: 1, ..NONE };
    let day = Tally { writes_begun: u32::MAX, ended_changed: 2050, ended_unchanged: 1, writes_abandoned: 2, ..day };
    let text = "\
reads begun                          17
  answered from file                  6
  answered from the table             9
  ended long                          1
  abandoned                           1
writes begun                 4294967295
  ended, changed                   2050
  ended, unchanged                    1
  abandoned before the table          2
from file: 6 of 15 answered, 40.0 %";
    assert_eq!(day.to_string(), text);
    assert_eq!((day.answered(), day.share_from_file()), (15, Some(0.4)));
}

#[test]
fn shares_are_rounded_down_and_none_is_told() {
    assert_eq!((NONE, NONE.answered(), NONE.share_from_file()), (Tally::default(), 0, None));
    assert!(NONE.to_string().ends_with("\nfrom file: none answered yet"));
    let most = u32::MAX;
    let shares = [(0, 1, "0.0"), (1, 0, "100.0"), (2, 1, "66.6"), (most, 1, "99.9"), (most, most, "50.0"), (1, most, "0.0")];
    for (from_file, from_table, share) in shares {
        let text = Tally { from_file, from_table, ..NONE }.to_string();
        assert!(text.ends_with(&format!(" answered, {share} %")), "{text}");
    }
}

#[test]
fn what_to_do_at_15_is_told() {
    let text = Refusal::TallyFull.to_string();
    assert!(text.starts_with("15, tally full: ") && text.contains("4,294,967,295; start a new tally"), "{text}");
    assert!(text.contains("the read or write stays as it is and goes on with the next tally"), "{text}");
}
