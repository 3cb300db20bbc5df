//! Abandonings under the checkers (document 02, S-4): which ends of a write are complained of, told by its last raise or by an abandoning; that what
//! was abandoned after its table step stays in the plain table; stale answers and marks for good where an abandoning raises nothing.

mod played;

use harness::call::{Asked, Call};
use harness::check::Complaint;
use harness::side::{twin_with, Reply};
use played::Played;
use twin::layout::{HEAD, NODE_PENDING};
use twin::Fault;

const ABANDON: Call = Call::Abandon { client: 1 };
const STEP: Call = Call::Step { client: 1, tray: 128, fill: 7 };
const END: Option<Complaint> = Some(Complaint::End { client: 1 });

/// The ends of a write that a call can tell: none, changed, unchanged, full.
const ENDS: [Reply; 4] = [end(0, 0), end(0, 3), end(0, 4), end(13, 0)];

const fn end(number: u32, ending: u32) -> Reply {
    Reply { number, count: 0, ending }
}

/// A hall of one column with the records 1, 2, .., each pulled out of its desk just after its table step.
fn filled(records: u32) -> Played {
    let mut h = Played::opened(twin_with(Fault::None), 1);
    for value in 1..=records {
        h.make(insert(value));
        h.steps(1, 3);
        assert_eq!(h.make(ABANDON), ENDS[1]);
    }
    h
}

fn insert(value: u32) -> Call {
    Call::BeginInsert { client: 1, asked: Asked::new(&[1, value]) }
}

fn delete(value: u32) -> Call {
    Call::BeginDelete { client: 1, asked: Asked::new(&[1, value]) }
}

/// A write of each kind, beside how many records, and the place of its end in `ENDS`.
fn writes() -> [(Call, u32, usize); 6] {
    [(insert(5), 0, 1), (insert(5), 9, 2), (insert(5000), 2_048, 3), (insert(5), 2_048, 2), (delete(5), 9, 1), (delete(10), 9, 2)]
}

#[test]
fn an_end_that_is_not_what_the_table_step_did_is_complained_of() {
    for ((begin, records, own), steps) in writes().into_iter().flat_map(|write| [3, 4].map(|steps| (write, steps))) {
        for (place, end) in ENDS.into_iter().enumerate() {
            let mut h = filled(records);
            h.make(begin);
            h.steps(1, steps);
            let (_, complaint) = h.bent(ABANDON, |reply, _| *reply = end);
            assert_eq!(complaint, if place == own { None } else { END }, "{begin}, {end:?}");
        }
    }
}

/// No end is no complaint here: the write goes on, up to the limit of its steps.
#[test]
fn so_is_one_that_the_last_raise_tells() {
    for (begin, records, own) in writes() {
        for (place, end) in ENDS.into_iter().enumerate() {
            let mut h = filled(records);
            h.make(begin);
            h.steps(1, 4);
            let (_, complaint) = h.bent(STEP, |reply, _| *reply = end);
            assert_eq!(complaint, if place == own || place == 0 { None } else { END }, "{begin}, {end:?}");
        }
    }
}

#[test]
fn an_end_of_what_has_made_no_table_step_is_complained_of() {
    let read = Call::BeginRead { client: 1, asked: Asked::new(&[1, 5]) };
    for (begin, steps) in [(insert(5), 1), (insert(5), 2), (delete(5), 2), (read, 1), (read, 4)] {
        for (place, end) in ENDS.into_iter().enumerate() {
            let mut h = filled(1);
            h.make(begin);
            h.steps(1, steps);
            let (_, complaint) = h.bent(ABANDON, |reply, _| *reply = end);
            assert_eq!(complaint, if place == 0 { None } else { END }, "{begin}, {end:?}");
        }
    }
}

#[test]
fn an_abandoning_that_is_accepted_at_an_idle_desk_is_complained_of() {
    for mut h in [filled(0), filled(1)] {
        let (reply, complaint) = h.bent(ABANDON, |reply, _| reply.number -= 6);
        assert_eq!((reply, complaint), (ENDS[0], Some(Complaint::Ending { client: 1 })));
    }
}

/// How many writes were abandoned is told by where they stood.
#[test]
fn what_was_abandoned_after_its_table_step_stays_and_else_it_never_came() {
    for (steps, abandoned) in [(0, [1, 0, 0, 0]), (2, [1, 0, 0, 0]), (3, [0, 1, 0, 0]), (4, [0, 1, 0, 0])] {
        let mut h = Played::opened(twin_with(Fault::None), 1);
        h.make(insert(5));
        (0..steps).for_each(|_| assert_eq!(h.make(STEP).ending, 0));
        assert_eq!(h.tell(ABANDON), (ENDS[abandoned[1] as usize], None));
        assert_eq!(h.checker.abandoned, abandoned);
        // the table is put to one record, or to none
        let (_, complaint) = h.bent(Call::Renew, |_, hall| hall.memories[0][0] ^= 1);
        assert_eq!(complaint, Some(Complaint::Table));
    }
}

#[test]
fn a_mark_with_every_desk_idle_is_complained_of_and_beside_a_busy_one_it_is_not() {
    let mark = |h: &mut Played| h.bent(Call::EvictAnswer { place: 0 }, |_, hall| hall.memories[1][HEAD + NODE_PENDING] = 1).1;
    let mut idle = filled(1);
    assert_eq!(idle.checker.rests, 1);
    assert_eq!(mark(&mut idle), Some(Complaint::Marked));
    let mut busy = filled(1);
    busy.make(insert(5));
    assert_eq!((mark(&mut busy), busy.checker.rests), (None, 1));
}

#[test]
fn marks_left_for_good_are_found() {
    let mut h = Played::opened(twin_with(Fault::MarksLeft), 1);
    h.make(insert(5));
    h.steps(1, 3);
    assert_eq!(h.tell(ABANDON), (ENDS[1], Some(Complaint::Marked)));
}

/// {} is filed; 5 goes in and its write is pulled out; the counters are as they were, so {} is served.
#[test]
fn marks_taken_back_after_the_table_step_make_an_old_list_hold() {
    for (fault, complaint) in [(Fault::None, None), (Fault::TakenBack, Some(Complaint::Stale { client: 0 }))] {
        let mut h = Played::opened(twin_with(fault), 1);
        let read = Call::BeginRead { client: 0, asked: Asked::new(&[1, 5]) };
        h.make(read);
        assert_eq!(h.steps(0, 5).ending, 2);
        h.make(insert(5));
        h.steps(1, 3);
        assert_eq!(h.make(ABANDON), ENDS[1]);
        h.make(read);
        h.steps(0, 2);
        assert_eq!(h.tell(Call::Step { client: 0, tray: 128, fill: 7 }).1, complaint);
    }
}
