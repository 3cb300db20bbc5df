//! Ranges under the checkers: which records belong to one, which fetches demand 2's last sentence binds and which writes unbind them, and what the
//! checkers say of a record just outside, of one that is missing, and of an answer that was filed for another range or for none.

mod played;

use harness::call::{Ask, Asked, Call, Within};
use harness::check::Complaint;
use harness::side::{twin_with, Reply, Side};
use harness::without_fetch::WithoutFetch;
use played::Played;
use twin::Fault;

const STEP: Call = Call::Step { client: 0, tray: 128, fill: 7 };
const STALE: Option<Complaint> = Some(Complaint::Stale { client: 0 });
const NOT_FILED: Option<Complaint> = Some(Complaint::NotFiled { client: 0 });

impl Played {
    /// A hall of two columns with the records (i, 1), i from 1 to 10.
    fn of(side: &'static dyn Side) -> Played {
        let mut h = Played::opened(side, 2);
        (1..=10).for_each(|value| h.insert(value, 1));
        h
    }

    fn plain() -> Played {
        Played::of(twin_with(Fault::None))
    }

    /// Desk 1 inserts.
    fn insert(&mut self, one: u32, two: u32) {
        self.make(insert(one, two));
        while self.steps(1, 1).ending == 0 {}
    }

    /// Desk 0 reads, up to before its last step.
    fn up_to_the_end(&mut self, read: Ask, steps: u32) {
        self.make(read.begin(0));
        (0..steps).for_each(|_| assert_eq!(self.make(STEP).ending, 0));
    }

    /// Desk 0 reads all stars from the table and files it.
    fn file(&mut self, read: Ask) -> Reply {
        self.up_to_the_end(read, 3);
        self.make(STEP)
    }

    /// How many fetches were owed, all in all and to ranges.
    fn owed(&self) -> [u64; 2] {
        let [owed, _, _, ranges, _] = self.checker.owed();
        [owed, ranges]
    }
}

fn insert(one: u32, two: u32) -> Call {
    Call::BeginInsert { client: 1, asked: Asked::new(&[1, one, 1, two]) }
}

/// All stars, with a range of one column.
fn within(counts: bool, column: u32, lowest: u32, highest: u32) -> Ask {
    Ask { asked: Asked::new(&[0; 4]), counts, within: Some(Within { column, lowest, highest }) }
}

fn all(counts: bool) -> Ask {
    Ask { within: None, ..within(counts, 0, 0, 0) }
}

#[test]
fn lists_and_counts_within_are_true_from_the_table_and_from_file() {
    for (column, lowest, highest, n) in [(0, 4, 9, 6), (0, 4, 8, 5), (0, 10, u32::MAX, 1), (0, 11, 99, 0), (1, 1, 1, 10), (1, 2, 9, 0)] {
        let mut h = Played::plain();
        for counts in [false, true] {
            assert_eq!(h.file(within(counts, column, lowest, highest)), Reply { number: 0, count: n, ending: 2 });
            h.up_to_the_end(within(counts, column, lowest, highest), 1);
            assert_eq!(h.make(STEP), Reply { number: 0, count: n, ending: 1 });
        }
        assert_eq!((h.owed(), h.checker.ranges), ([2, 2], 4));
    }
}

/// (4, 1) to (6, 1) are within. The tray is bent to hold one more at either end, or one less.
#[test]
fn a_record_just_outside_and_one_that_is_missing_are_complained_of() {
    for (first, count, complaint) in [(4, 3, None), (3, 4, STALE), (4, 4, STALE), (5, 2, STALE), (4, 2, STALE)] {
        let mut h = Played::plain();
        h.up_to_the_end(within(false, 0, 4, 6), 3);
        let told = h.bent(STEP, |reply, hall| {
            reply.count = count;
            let numbers = (first..first + count).flat_map(|value| [value, 1]);
            numbers.zip(&mut hall.memories[4]).for_each(|(number, place)| *place = number);
        });
        assert_eq!(told.1, complaint, "{count} from {first} on");
    }
}

#[test]
fn a_count_of_one_more_or_less_is_complained_of() {
    for (more, complaint) in [(0, None), (1, STALE), (-1, STALE)] {
        let mut h = Played::plain();
        h.up_to_the_end(within(true, 0, 4, 6), 3);
        assert_eq!(h.bent(STEP, |reply, _| reply.count = reply.count.wrapping_add_signed(more)).1, complaint);
    }
}

/// Of (4, 2), which is within, and (20, 2), which is not, each written while the count is under way.
#[test]
fn a_count_within_may_be_that_of_any_moment_of_its_read() {
    for (one, told, complaint) in [(4, 3, None), (4, 4, None), (4, 5, STALE), (20, 3, None), (20, 4, STALE)] {
        let mut h = Played::plain();
        h.make(within(true, 0, 4, 6).begin(0));
        h.insert(one, 2);
        (0..3).for_each(|_| assert_eq!(h.make(STEP).ending, 0));
        assert_eq!(h.bent(STEP, |reply, _| reply.count = told).1, complaint, "{told} beside ({one}, 2)");
    }
}

#[test]
fn a_range_that_takes_a_value_too_many_is_found() {
    let mut h = Played::of(twin_with(Fault::WideRange));
    h.up_to_the_end(within(false, 0, 4, 6), 3);
    assert_eq!(h.tell(STEP), (Reply { number: 0, count: 4, ending: 2 }, STALE));
}

/// Both lists are those of all ten records, so only what was filed tells them apart.
#[test]
fn a_plain_list_served_to_a_range_is_found_and_the_other_way_round() {
    for (filing, fetching) in
        [(all(false), within(false, 0, 1, 10)), (within(true, 0, 1, 10), all(true)), (within(true, 0, 1, 10), within(true, 1, 1, 10))]
    {
        let mut h = Played::of(twin_with(Fault::PlainKey));
        h.file(filing);
        h.up_to_the_end(fetching, 1);
        assert_eq!(h.tell(STEP), (Reply { number: 0, count: 10, ending: 1 }, NOT_FILED));
    }
}

#[test]
fn only_the_same_range_of_the_same_column_binds() {
    let filing = within(false, 0, 4, 6);
    let others = [all(false), within(true, 0, 4, 6), within(false, 1, 4, 6), within(false, 0, 3, 6), within(false, 0, 4, 7)];
    for other in others {
        let mut h = Played::plain();
        h.file(filing);
        assert_eq!((h.file(other).ending, h.owed()), (2, [0, 0]));
        h.up_to_the_end(filing, 1);
        assert_eq!((h.make(STEP).ending, h.owed()), (1, [1, 1]));
    }
}

/// For its nodes the column is a star: a write of 20 there shares one with the range from 4 to 6 of it. In the other column it must have the named
/// value.
#[test]
fn a_write_counts_whatever_it_writes_in_the_ranged_column() {
    let named = Ask { asked: Asked::new(&[0, 0, 1, 1]), ..within(false, 0, 4, 6) };
    for (two, owed) in [(1, 0), (2, 1)] {
        let mut h = Played::plain();
        h.up_to_the_end(named, 4);
        h.make(STEP);
        h.make(insert(20, two));
        h.make(Call::Abandon { client: 1 });
        h.up_to_the_end(named, 2);
        h.make(STEP);
        assert_eq!(h.owed(), [owed, owed], "(20, {two})");
    }
}

#[test]
fn a_range_that_was_owed_the_filed_answer_and_goes_to_the_table_is_complained_of() {
    for counts in [false, true] {
        let mut h = Played::of(&WithoutFetch);
        h.file(within(counts, 0, 4, 6));
        h.up_to_the_end(within(counts, 0, 4, 6), 1);
        let (reply, complaint) = h.tell(STEP);
        assert_eq!((reply.ending, complaint), (0, Some(Complaint::NotFetched { client: 0 })));
    }
}

#[test]
fn a_refused_range_is_nothing_to_the_checkers() {
    let mut h = Played::plain();
    for (range, number) in [(within(false, 0, 6, 4), 14), (within(true, 2, 4, 6), 2)] {
        assert_eq!(h.tell(range.begin(0)), (Reply { number, count: 0, ending: 0 }, None));
    }
    assert_eq!(h.tell(STEP).0.number, 6);
}
