//! Writes that change nothing (document 02, S-6) under the checkers, in histories of one column: which fetches demand 2's last sentence binds beside
//! them, told by the ends that the replies tell; what is said where such a write raises, or one that changed the table does not; and that the
//! sentence is false where a write that changes nothing is not to count even while it is open.

mod played;

use harness::call::{Asked, Call};
use harness::check::{Checker, Complaint};
use harness::filing::Sentence;
use harness::side::{twin_with, Reply, Side};
use played::Played;
use twin::Fault;

const ABANDON: Call = Call::Abandon { client: 1 };
const STEP: Call = Call::Step { client: 0, tray: 128, fill: 7 };
const ACCEPTED: Reply = Reply { number: 0, count: 0, ending: 0 };
const NOT_FETCHED: Option<Complaint> = Some(Complaint::NotFetched { client: 0 });

fn read(client: u32, value: u32) -> Call {
    Call::BeginRead { client, asked: Asked::new(&[1, value]) }
}

fn insert(value: u32) -> Call {
    Call::BeginInsert { client: 1, asked: Asked::new(&[1, value]) }
}

fn delete(value: u32) -> Call {
    Call::BeginDelete { client: 1, asked: Asked::new(&[1, value]) }
}

/// How a write at desk 1 is led to its end: by its last raise, or by an abandoning after so many steps.
#[derive(Clone, Copy, Debug)]
enum End {
    LastRaise,
    Abandoned(u32),
}

/// Those after which a write has ended as its table step was.
const ENDS: [End; 3] = [End::LastRaise, End::Abandoned(3), End::Abandoned(4)];

impl Played {
    /// A hall of one column with the records 1 to n.
    fn of(side: &'static dyn Side, n: u32) -> Played {
        let mut h = Played::opened(side, 1);
        for value in 1..=n {
            h.make(insert(value));
            assert_eq!(h.steps(1, 5).ending, 3);
        }
        h
    }

    fn plain() -> Played {
        Played::of(twin_with(Fault::None), 9)
    }

    /// One that is full.
    fn full(fault: Fault) -> Played {
        Played::of(twin_with(fault), 2_048)
    }

    /// From its begin on, or from where it stands after so many steps.
    fn end(&mut self, end: End, made: u32) -> Reply {
        let step = Call::Step { client: 1, tray: 128, fill: 7 };
        let steps = if let End::Abandoned(steps) = end { steps } else { 4 };
        (made..steps).for_each(|_| assert_eq!(self.make(step), ACCEPTED));
        let (reply, complaint) = self.tell(if let End::Abandoned(_) = end { ABANDON } else { step });
        assert_eq!(complaint, None);
        reply
    }

    fn write(&mut self, begin: Call, end: End) -> Reply {
        self.make(begin);
        self.end(end, 0)
    }

    /// A read to its end: which ending.
    fn read(&mut self, client: u32, value: u32) -> u32 {
        self.make(read(client, value));
        loop {
            let reply = self.steps(client, 1);
            if reply.ending != 0 {
                return reply.ending;
            }
        }
    }

    /// How many fetches were owed, and how many of them since S-6 alone.
    fn owed(&self) -> [u64; 2] {
        let [owed, _, _, _, past_unchanged] = self.checker.owed();
        [owed, past_unchanged]
    }
}

/// Beside nine records: a write of 5 or 50 and what it is, a read of which follows.
fn unchanging() -> [(Call, u32); 2] {
    [(insert(5), 5), (delete(50), 50)]
}

#[test]
fn a_write_that_ended_unchanged_after_the_filing_read_does_not_count() {
    for ((begin, value), end) in unchanging().into_iter().flat_map(|write| ENDS.map(|end| (write, end))) {
        let mut h = Played::plain();
        h.read(3, value);
        assert_eq!(h.write(begin, end).ending, 4);
        assert_eq!((h.read(0, value), h.owed()), (1, [1, 1]), "{begin}, {end:?}");
    }
}

/// Between its looks and its table step, and begun before it.
#[test]
fn nor_does_one_beside_the_filing_read() {
    for ((begin, value), end) in unchanging().into_iter().flat_map(|write| ENDS.map(|end| (write, end))) {
        let mut within = Played::plain();
        within.make(read(3, value));
        within.steps(3, 2);
        assert_eq!(within.write(begin, end).ending, 4);
        assert_eq!(within.steps(3, 3).ending, 2);
        assert_eq!((within.read(0, value), within.owed()), (1, [1, 1]), "{begin}, {end:?}");
        let mut around = Played::plain();
        around.make(begin);
        around.make(read(3, value));
        around.steps(3, 2);
        assert_eq!(around.end(end, 0).ending, 4);
        assert_eq!(around.steps(3, 3).ending, 2);
        assert_eq!((around.read(0, value), around.owed()), (1, [1, 1]), "{begin}, {end:?}");
    }
}

#[test]
fn nor_does_one_that_found_the_table_full() {
    for end in ENDS {
        let mut h = Played::full(Fault::None);
        h.read(3, 5000);
        assert_eq!(h.write(insert(5000), end).number, 13);
        assert_eq!((h.read(0, 5000), h.owed()), (1, [1, 1]), "{end:?}");
    }
}

#[test]
fn one_that_changed_the_table_counts() {
    for ((begin, value), end) in [(insert(50), 50), (delete(5), 5)].into_iter().flat_map(|write| ENDS.map(|end| (write, end))) {
        let mut h = Played::plain();
        h.read(3, value);
        assert_eq!(h.write(begin, end).ending, 3);
        assert_eq!((h.read(0, value), h.owed()), (2, [0, 0]), "{begin}, {end:?}");
    }
}

/// It has not ended unchanged, though nothing is changed and the answer is used.
#[test]
fn one_abandoned_before_its_table_step_counts() {
    for (begin, value) in [(insert(5), 5), (delete(50), 50), (insert(50), 50)] {
        for steps in [0, 1, 2] {
            let mut h = Played::plain();
            h.read(3, value);
            assert_eq!(h.write(begin, End::Abandoned(steps)), ACCEPTED);
            assert_eq!((h.read(0, value), h.owed()), (1, [0, 0]), "{begin}, {steps} steps");
        }
    }
}

/// Several: each has to have ended unchanged. Another value's does not matter.
#[test]
fn one_write_that_counts_is_enough() {
    let writes =
        [(&[insert(5), insert(5)][..], [1, 1]), (&[insert(5), delete(5)], [0, 0]), (&[delete(5), insert(5)], [0, 0]), (&[delete(6)], [1, 0])];
    for (begins, owed) in writes {
        let mut h = Played::plain();
        h.read(3, 5);
        begins.iter().for_each(|begin| assert_ne!(h.write(*begin, End::LastRaise).ending, 0));
        h.read(0, 5);
        assert_eq!(h.owed(), owed, "{begins:?}");
    }
}

/// A write of 5, which is there, open at the fetching read's begin with so many steps made; by the fetch it has ended or not.
fn open_at_the_begin(sentence: Sentence, steps: u32, ends: bool) -> Played {
    let mut h = Played::opened(twin_with(Fault::None), 1);
    h.checker = Checker::by(1, sentence);
    h.write(insert(5), End::LastRaise);
    h.read(3, 5);
    h.make(insert(5));
    (0..steps).for_each(|_| assert_eq!(h.steps(1, 1).ending, 0));
    h.make(read(0, 5));
    h.steps(0, 2);
    if ends {
        assert_eq!(h.end(End::LastRaise, steps).ending, 4);
    }
    h
}

/// Its mark at node 5 stands from its first step to its fourth, and a look that sees it sends the read to the table; "unless it changes nothing"
/// would owe that read the filed answer.
#[test]
fn one_open_at_the_fetching_reads_begin_counts_whatever_it_will_say() {
    for (steps, ends) in (0..5).flat_map(|steps| [(steps, false), (steps, true)]) {
        let marked = (1..4).contains(&steps);
        let mut h = open_at_the_begin(Sentence::Sharing, steps, ends);
        let (reply, complaint) = h.tell(STEP);
        assert_eq!((reply.ending, complaint, h.owed()), (if marked { 0 } else { 1 }, None, [0, 0]), "{steps} steps, ends {ends}");
        let mut h = open_at_the_begin(Sentence::UnchangedByFetch, steps, ends);
        let (reply, complaint) = h.tell(STEP);
        assert_eq!((reply.ending, complaint), (if marked { 0 } else { 1 }, if marked && ends { NOT_FETCHED } else { None }), "{steps} steps");
    }
}

/// And one begun between the fetching read's looks and its fetch.
#[test]
fn one_begun_after_the_looks_counts_too() {
    let mut h = Played::plain();
    h.read(3, 5);
    h.make(read(0, 5));
    h.steps(0, 2);
    assert_eq!(h.write(insert(5), End::LastRaise).ending, 4);
    assert_eq!((h.steps(0, 1).ending, h.owed()), (1, [0, 0]));
}

/// The fetching read began before the filing one: all that counts is what was since its own begin.
#[test]
fn one_between_the_begins_counts_where_the_fetching_read_is_the_earlier() {
    let mut h = Played::plain();
    h.make(read(0, 5));
    assert_eq!(h.write(insert(5), End::LastRaise).ending, 4);
    h.read(3, 5);
    assert_eq!((h.steps(0, 3).ending, h.owed()), (1, [0, 0]));
}

#[test]
fn a_node_put_out_counts_beside_it() {
    for (place, owed) in [(0, [0, 0]), (1, [0, 0]), (2, [1, 1])] {
        // nodes 5, ?, 6
        let mut h = Played::opened(twin_with(Fault::None), 1);
        h.read(3, 5);
        h.read(3, 6);
        assert_eq!(h.write(delete(5), End::LastRaise).ending, 4);
        h.make(Call::EvictNode { place });
        h.read(0, 5);
        assert_eq!(h.owed(), owed, "place {place}");
    }
}

/// What was filed before a write at desk 1, and the fetch after it.
fn fetch_after(mut h: Played, begin: Call, value: u32, end: End) -> (u32, Option<Complaint>) {
    h.read(3, value);
    h.write(begin, end);
    h.make(read(0, value));
    h.steps(0, 2);
    let (reply, complaint) = h.tell(STEP);
    (reply.ending, complaint)
}

#[test]
fn what_is_wrong_with_each_fault_is_said() {
    for end in ENDS {
        for (begin, value) in unchanging() {
            let of = |fault| fetch_after(Played::of(twin_with(fault), 9), begin, value, end);
            assert_eq!((of(Fault::None), of(Fault::AlwaysRaised)), ((1, None), (0, NOT_FETCHED)), "{begin}, {end:?}");
        }
        for (begin, value) in [(insert(50), 50), (delete(5), 5)] {
            let of = |fault| fetch_after(Played::of(twin_with(fault), 9), begin, value, end);
            assert_eq!((of(Fault::None), of(Fault::NeverRaised)), ((0, None), (1, Some(Complaint::Stale { client: 0 }))), "{begin}, {end:?}");
        }
        let of = |fault| fetch_after(Played::full(fault), insert(5000), 5000, end);
        assert_eq!((of(Fault::None), of(Fault::FullRaised), of(Fault::AlwaysRaised)), ((1, None), (0, NOT_FETCHED), (0, NOT_FETCHED)), "{end:?}");
    }
}

/// Told as unchanged where the table changed, or the other way round: that the end is wrong is said, and the fetch goes by what was told.
#[test]
fn an_end_told_wrongly_is_complained_of() {
    for (begin, ending) in [(insert(5), 3), (insert(50), 4), (delete(5), 4), (delete(50), 3)] {
        let mut h = Played::plain();
        h.make(begin);
        h.steps(1, 4);
        let (_, complaint) = h.bent(Call::Step { client: 1, tray: 128, fill: 7 }, |reply, _| reply.ending = ending);
        assert_eq!(complaint, Some(Complaint::End { client: 1 }), "{begin}");
    }
}
