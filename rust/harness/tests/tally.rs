//! Tallies under the checker (document 02, S-7): what is complained of, count by count, in histories of one column; that a call refused with 15 is a
//! refused call for the other checkers; and how a call is told that is lent a tally.

mod played;

use harness::call::{Asked, Call};
use harness::check::Complaint;
use harness::hall::{Tally, COUNT_NAMES, TALLY};
use harness::made::Made;
use harness::side::{twin_with, Reply};
use played::Played;
use twin::Fault;

const MOST: u32 = u32::MAX;
const FULL: Reply = Reply { number: 15, count: 0, ending: 0 };

fn lent(call: Call) -> Made {
    Made::lent(call)
}

fn read(client: u32, value: u32) -> Call {
    Call::BeginRead { client, asked: Asked::new(&[1, value]) }
}

fn insert(client: u32, value: u32) -> Call {
    Call::BeginInsert { client, asked: Asked::new(&[1, value]) }
}

fn step(client: u32) -> Call {
    Call::Step { client, tray: 128, fill: 7 }
}

fn abandon(client: u32) -> Call {
    Call::Abandon { client }
}

fn opened() -> Played {
    Played::opened(twin_with(Fault::None), 1)
}

/// The call is lent the tally, accepted and not complained of.
fn go(h: &mut Played, call: Call) -> Reply {
    h.make(lent(call))
}

/// Steps that end nothing.
fn steps(h: &mut Played, client: u32, times: u32) {
    (0..times).for_each(|_| assert_eq!(go(h, step(client)).ending, 0));
}

fn only(place: usize, count: u32) -> Tally {
    let mut counts = [0; COUNT_NAMES.len()];
    counts[place] = count;
    counts
}

/// A history that leads up to a call, that call, and the place of the count that it raises: of each count.
fn up_to(place: usize) -> (Played, Call) {
    let mut h = opened();
    let prepared: &[(Call, u32)] = match place {
        0 | 5 => &[],
        1 => &[(read(0, 5), 5), (read(0, 5), 2)],
        2 => &[(read(0, 5), 4)],
        4 => &[(read(0, 5), 3)],
        6 => &[(insert(0, 5), 4)],
        7 => &[(insert(0, 5), 5), (insert(0, 5), 3)],
        8 => &[(insert(0, 5), 2)],
        _ => return long(),
    };
    for (begin, made) in prepared {
        h.make(*begin);
        (0..*made).for_each(|_| {
            h.make(step(0));
        });
    }
    let call = match place {
        0 => read(0, 5),
        5 => insert(0, 5),
        4 | 7 | 8 => abandon(0),
        _ => step(0),
    };
    (h, call)
}

/// The table step of a read that finds 33 records.
fn long() -> (Played, Call) {
    let mut h = opened();
    for value in 1..=33 {
        h.make(insert(1, value));
        (0..5).for_each(|_| {
            h.make(step(1));
        });
    }
    h.make(Call::BeginRead { client: 0, asked: Asked::new(&[0, 0]) });
    h.steps(0, 2);
    (h, step(0))
}

#[test]
fn each_count_is_worked_out_and_another_is_complained_of() {
    for (place, own) in COUNT_NAMES.iter().enumerate() {
        for (bent, other) in COUNT_NAMES.iter().enumerate() {
            let (mut h, call) = up_to(place);
            let (_, complaint) = h.bent(lent(call), |_, hall| {
                hall.memories[TALLY][place] -= 1;
                hall.memories[TALLY][bent] += 1;
            });
            // with no call before it that was lent none, the sums are asked too
            let wrong = [Some(Complaint::Counts), Some(Complaint::Sum)].contains(&complaint);
            assert_eq!((complaint.is_some(), wrong), (bent != place, bent != place), "{other} for {own}");
            assert_eq!(*h.hall.tally(), only(bent, 1));
        }
    }
}

#[test]
fn a_call_that_is_lent_no_tally_counts_nothing() {
    for place in 0..COUNT_NAMES.len() {
        let (mut h, call) = up_to(place);
        assert_eq!(h.tell(call).1, None);
        let (mut h, call) = up_to(place);
        let (_, complaint) = h.bent(call, |_, hall| hall.memories[TALLY][place] += 1);
        assert_eq!(complaint, Some(Complaint::Counts));
    }
}

/// The sum is asked of the tally itself, from an opening with a cleared one on, as long as every count was raised there.
#[test]
fn the_begun_are_those_that_have_ended_and_those_under_way() {
    for ahead in [read(0, 5), insert(0, 5)] {
        let mut h = opened();
        go(&mut h, ahead);
        let begun = if ahead == read(0, 5) { 0 } else { 5 };
        let (_, complaint) = h.bent(lent(step(0)), |_, hall| hall.memories[TALLY][begun] = 0);
        assert_eq!(complaint, Some(Complaint::Sum));
        // not from a tally that was not cleared, nor past a begin that was lent none
        let mut laid = opened();
        laid.make(Call::NewTally { counts: only(begun, 9) });
        go(&mut laid, ahead);
        let mut unlent = opened();
        unlent.make(ahead);
        for mut h in [laid, unlent] {
            let (_, complaint) = h.bent(lent(step(0)), |_, hall| hall.memories[TALLY][begun] = 3);
            assert_eq!(complaint, Some(Complaint::Counts));
        }
    }
}

#[test]
fn both_sums_are_held_all_along_a_history() {
    let mut h = opened();
    for (begin, more, last) in [(read(0, 5), 4, step(0)), (read(0, 5), 2, step(0)), (insert(0, 5), 4, step(0)), (insert(0, 6), 3, abandon(0))] {
        go(&mut h, begin);
        steps(&mut h, 0, more);
        assert_ne!(go(&mut h, last).ending, 0);
    }
    go(&mut h, read(0, 5));
    go(&mut h, abandon(0));
    assert_eq!(*h.hall.tally(), [3, 1, 1, 0, 1, 2, 2, 0, 0]);
    assert_eq!(h.checker.tallied(), [23, 0, 9, 9]);
}

/// With the count one below its largest the call fills it; then it is 15, and with another tally it goes on.
#[test]
fn fifteen_is_no_complaint_where_the_count_is_full_and_one_where_it_is_not() {
    for (place, name) in COUNT_NAMES.iter().enumerate() {
        let (mut h, call) = up_to(place);
        h.make(Call::NewTally { counts: only(place, MOST) });
        assert_eq!(h.tell(lent(call)), (FULL, None));
        h.make(Call::NewTally { counts: only(place, MOST - 1) });
        let (bent, complaint) = h.bent(lent(call), |reply, hall| {
            *reply = FULL;
            hall.memories[TALLY][place] = MOST - 1;
        });
        assert_eq!((bent, complaint), (FULL, Some(Complaint::Full)), "{name}");
        let (mut h, call) = up_to(place);
        h.make(Call::NewTally { counts: only(place, MOST - 1) });
        assert_eq!((h.tell(lent(call)).1, *h.hall.tally()), (None, only(place, MOST)));
    }
}

#[test]
fn a_count_past_its_largest_and_15_without_a_tally_are_complained_of() {
    let mut h = opened();
    h.make(Call::NewTally { counts: only(0, MOST) });
    let accepted = |reply: &mut Reply, _: &mut _| reply.number = 0;
    assert_eq!(h.bent(lent(read(0, 5)), accepted).1, Some(Complaint::Full));
    let mut h = opened();
    h.make(Call::NewTally { counts: [MOST; 9] });
    assert_eq!(h.bent(read(0, 5), |reply, _| *reply = FULL).1, Some(Complaint::Full));
    // a full count that the call cannot raise
    let mut h = opened();
    h.make(Call::NewTally { counts: only(5, MOST) });
    assert_eq!(h.bent(lent(read(0, 5)), |reply, _| *reply = FULL).1, Some(Complaint::Full));
    let mut h = opened();
    h.make(read(0, 5));
    h.make(Call::NewTally { counts: only(8, MOST) });
    assert_eq!(h.bent(lent(abandon(0)), |reply, _| *reply = FULL).1, Some(Complaint::Full));
}

/// A read that is held by 15 is under way all along: what it answers with later may be of any moment up to then.
#[test]
fn a_call_refused_with_15_is_a_refused_call() {
    let mut h = opened();
    h.make(read(0, 5));
    h.steps(0, 4);
    h.make(Call::NewTally { counts: only(2, MOST) });
    assert_eq!(h.tell(lent(step(0))), (FULL, None));
    h.make(insert(1, 5));
    h.steps(1, 5);
    assert_eq!(h.tell(lent(step(0))), (FULL, None));
    assert_eq!(h.make(step(0)), Reply { number: 0, count: 0, ending: 2 });
    // what it would have filed is not on file: the next read is owed nothing
    h.make(read(0, 5));
    h.steps(0, 4);
    h.make(Call::NewTally { counts: only(2, MOST) });
    assert_eq!(h.tell(lent(step(0))), (FULL, None));
    h.make(read(2, 5));
    h.steps(2, 2);
    assert_eq!((h.make(step(2)).ending, h.checker.owed()[0]), (0, 0));
}

#[test]
fn a_call_is_told_by_its_name_with_a_tally() {
    assert_eq!(lent(read(3, 5)).to_string(), "begin_read_tallied desk 3 (5)");
    assert_eq!(lent(step(3)).to_string(), "step_tallied desk 3");
    assert_eq!(Made::from(step(3)).to_string(), "step desk 3");
    assert_eq!(lent(Call::Renew), Made::from(Call::Renew));
}
