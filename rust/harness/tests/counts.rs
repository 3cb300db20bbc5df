//! Counts under the checkers: which fetches of counts demand 2's last sentence binds, and what the checkers say of a count that is not true, of
//! a tray that one has written, of one that ends with 12 or does not end, and of one that was served from a list.

mod played;

use harness::call::{Asked, Call};
use harness::check::Complaint;
use harness::side::{twin_with, Reply, Side};
use harness::without_fetch::WithoutFetch;
use played::Played;
use twin::Fault;

const STEP: Call = Call::Step { client: 0, tray: 128, fill: 7 };

/// All records, or those of one value.
fn asked(value: Option<u32>) -> Asked {
    Asked::new(&value.map_or([0, 0], |value| [1, value]))
}

impl Played {
    /// A hall of one column with so many records.
    fn with(side: &'static dyn Side, records: u32) -> Played {
        let mut h = Played::opened(side, 1);
        (1..=records).for_each(|value| h.insert(value));
        h
    }

    fn plain(records: u32) -> Played {
        Played::with(twin_with(Fault::None), records)
    }

    /// Desk 1 inserts.
    fn insert(&mut self, value: u32) {
        self.make(Call::BeginInsert { client: 1, asked: asked(Some(value)) });
        while self.steps(1, 1).ending == 0 {}
    }

    /// Desk 0 reads or counts, up to before its last step.
    fn up_to_the_end(&mut self, begin: Call, steps: u32) {
        self.make(begin);
        (0..steps).for_each(|_| assert_eq!(self.make(STEP).ending, 0));
    }
}

fn count(value: Option<u32>) -> Call {
    Call::BeginCount { client: 0, asked: asked(value) }
}

fn read(value: Option<u32>) -> Call {
    Call::BeginRead { client: 0, asked: asked(value) }
}

#[test]
fn counts_of_0_32_33_2047_and_2048_are_true_from_the_table_and_from_file() {
    for n in [0, 32, 33, 2_047, 2_048] {
        let mut h = Played::plain(n);
        h.up_to_the_end(count(None), 3);
        assert_eq!(h.make(STEP), Reply { number: 0, count: n, ending: 2 });
        h.up_to_the_end(count(None), 1);
        assert_eq!(h.make(STEP), Reply { number: 0, count: n, ending: 1 });
        assert_eq!((h.checker.owed(), h.checker.answers), ([1, 0, 1, 0, 0], 2));
    }
}

#[test]
fn another_count_is_complained_of_wherever_it_comes_from() {
    for (n, more) in [(0, 1), (33, 1), (33, -1), (2_048, -1)] {
        let mut h = Played::plain(n);
        for steps in [3, 1] {
            h.up_to_the_end(count(None), steps);
            let (_, complaint) = h.bent(STEP, |reply, _| reply.count = reply.count.wrapping_add_signed(more));
            assert_eq!(complaint, Some(Complaint::Stale { client: 0 }), "{n} and {more}");
        }
    }
}

/// One record at its begin, two after a write that ran to its end meanwhile, never three.
#[test]
fn a_count_may_be_that_of_any_moment_of_its_read_and_of_no_other() {
    for (told, complaint) in [(1, None), (2, None), (3, Some(Complaint::Stale { client: 0 }))] {
        let mut h = Played::plain(1);
        h.make(count(None));
        h.insert(2);
        (0..3).for_each(|_| assert_eq!(h.make(STEP).ending, 0));
        assert_eq!(h.bent(STEP, |reply, _| reply.count = told).1, complaint);
    }
}

#[test]
fn a_tray_that_any_step_of_a_count_has_written_is_complained_of() {
    for (steps, place) in (0..4).flat_map(|steps| [0, 127].map(|place| (steps, place))) {
        let mut h = Played::plain(3);
        h.up_to_the_end(count(None), steps);
        let (_, complaint) = h.bent(STEP, |_, hall| hall.memories[4][place] ^= 1);
        assert_eq!(complaint, Some(Complaint::Tray { client: 0 }), "after {steps} steps");
    }
}

#[test]
fn a_count_that_ends_with_12_or_not_at_all_is_complained_of() {
    let mut long = Played::plain(33);
    long.up_to_the_end(count(None), 2);
    let (_, complaint) = long.bent(STEP, |reply, _| *reply = Reply { number: 12, count: 0, ending: 0 });
    assert_eq!(complaint, Some(Complaint::Long { client: 0 }));
    let mut endless = Played::plain(0);
    endless.make(count(Some(5)));
    for step in 1..=19 {
        // its desk is made to look again at its first node
        let (reply, complaint) = endless.bent(STEP, |_, hall| hall.memories[3][8 + 1] = 0);
        assert_eq!((reply.number, complaint), (0, (step == 19).then_some(Complaint::Endless { client: 0 })));
    }
}

#[test]
fn a_filed_list_binds_no_count_and_a_filed_count_no_list() {
    for (filing, fetching, counts) in [(read(Some(5)), count(Some(5)), 0), (count(Some(5)), read(Some(5)), 1)] {
        let mut h = Played::plain(9);
        h.up_to_the_end(filing, 4);
        h.make(STEP);
        h.up_to_the_end(fetching, 4);
        assert_eq!((h.make(STEP).ending, h.checker.owed()), (2, [0; 5]));
        h.up_to_the_end(filing, 2);
        assert_eq!((h.make(STEP).ending, h.checker.owed()), (1, [1, 0, counts, 0, 0]));
    }
}

/// Its number is right: only what was filed tells it.
#[test]
fn a_count_served_from_a_filed_list_is_complained_of() {
    let mut h = Played::with(twin_with(Fault::OneKey), 9);
    h.up_to_the_end(read(Some(5)), 4);
    h.make(STEP);
    h.up_to_the_end(count(Some(5)), 2);
    let (reply, complaint) = h.tell(STEP);
    assert_eq!((reply, complaint), (Reply { number: 0, count: 1, ending: 1 }, Some(Complaint::NotFiled { client: 0 })));
}

#[test]
fn a_count_that_was_owed_the_filed_one_and_goes_to_the_table_is_complained_of() {
    let mut h = Played::with(&WithoutFetch, 40);
    h.up_to_the_end(count(None), 3);
    h.make(STEP);
    h.up_to_the_end(count(None), 1);
    let (reply, complaint) = h.tell(STEP);
    assert_eq!((reply.ending, complaint), (0, Some(Complaint::NotFetched { client: 0 })));
}
