//! Which fetches demand 2's last sentence binds, word by word, in histories of one column; and what its checker says where one is not kept.

mod played;

use harness::call::{Asked, Call};
use harness::check::Complaint;
use harness::side::{twin_with, Side};
use harness::without_fetch::WithoutFetch;
use played::Played;
use twin::Fault;

fn read(client: u32, value: u32) -> Call {
    Call::BeginRead { client, asked: Asked::new(&[1, value]) }
}

fn insert(client: u32, value: u32) -> Call {
    Call::BeginInsert { client, asked: Asked::new(&[1, value]) }
}

impl Played {
    fn of(side: &'static dyn Side) -> Played {
        Played::opened(side, 1)
    }

    fn plain() -> Played {
        Played::of(twin_with(Fault::None))
    }

    /// To its end.
    fn run(&mut self, begin: Call) {
        let (Call::BeginRead { client, .. } | Call::BeginInsert { client, .. } | Call::BeginDelete { client, .. }) = begin else {
            panic!("no begin: {begin}");
        };
        self.make(begin);
        while self.steps(client, 1).ending == 0 {}
    }

    /// How many fetches were owed, and how many of them to reads begun before the filing one.
    fn owed(&self) -> [u64; 2] {
        let [owed, earlier, ..] = self.checker.owed();
        [owed, earlier]
    }

    /// The same after the last fetch of a read of 5.
    fn owed_after_reading(mut self) -> [u64; 2] {
        self.run(read(0, 5));
        self.owed()
    }
}

#[test]
fn a_read_again_is_owed_what_was_filed() {
    let mut h = Played::plain();
    h.run(read(3, 5));
    assert_eq!(h.owed_after_reading(), [1, 0]);
}

#[test]
fn a_write_counts_that_was_open_at_the_filing_reads_begin_and_not_one_that_ended_before_it() {
    let mut open = Played::plain();
    open.make(insert(1, 5));
    open.run(read(3, 5));
    open.make(Call::Abandon { client: 1 });
    assert_eq!(open.owed_after_reading(), [0, 0]);
    let mut ended = Played::plain();
    ended.run(insert(1, 5));
    ended.run(read(3, 5));
    assert_eq!(ended.owed_after_reading(), [1, 0]);
}

/// Two marks, the table step, and no raise or one. After the raise of node 5 a read of it sees no mark and files, though the write is open.
#[test]
fn a_write_is_open_until_the_abandoning_that_ends_it() {
    for steps in [3, 4] {
        let [mut open, mut ended] = [Played::plain(), Played::plain()].map(|mut h| {
            h.make(insert(1, 5));
            h.steps(1, steps);
            h
        });
        open.run(read(3, 5));
        assert_eq!(open.make(Call::Abandon { client: 1 }).ending, 3);
        assert_eq!(open.owed_after_reading(), [0, 0], "{steps} steps");
        assert_eq!(ended.make(Call::Abandon { client: 1 }).ending, 3);
        ended.run(read(3, 5));
        assert_eq!(ended.owed_after_reading(), [1, 0], "{steps} steps");
    }
}

#[test]
fn only_a_write_that_shares_a_node_of_the_query_counts() {
    let mut other = Played::plain();
    other.make(insert(1, 6));
    other.run(read(3, 5));
    assert_eq!(other.owed_after_reading(), [1, 0]);
    let mut all = Played::plain();
    all.run(read(3, 5));
    all.make(Call::BeginDelete { client: 1, asked: Asked::new(&[0, 0]) });
    assert_eq!(all.owed_after_reading(), [0, 0]);
}

#[test]
fn an_abandoned_write_counts_and_so_does_one_begun_between_the_looks_and_the_fetch() {
    let mut abandoned = Played::plain();
    abandoned.run(read(3, 5));
    abandoned.make(insert(1, 5));
    abandoned.make(Call::Abandon { client: 1 });
    assert_eq!(abandoned.owed_after_reading(), [0, 0]);
    let mut late = Played::plain();
    late.run(read(3, 5));
    late.make(read(0, 5));
    late.steps(0, 2);
    late.make(insert(1, 5));
    assert_eq!(late.steps(0, 1).ending, 1);
    assert_eq!(late.owed(), [0, 0]);
}

#[test]
fn a_node_of_the_query_put_out_counts_and_another_does_not() {
    for (place, owed) in [(0, 0), (1, 0), (2, 1)] {
        // nodes 5, ?, 6
        let mut h = Played::plain();
        h.run(read(3, 5));
        h.run(read(3, 6));
        h.make(Call::EvictNode { place });
        assert_eq!(h.owed_after_reading(), [owed, 0], "place {place}");
    }
}

#[test]
fn a_node_put_out_to_make_room_counts() {
    for (more, owed) in [(false, 1), (true, 0)] {
        let mut h = Played::plain();
        for value in 100..1123 {
            h.run(read(3, value));
        }
        assert_eq!(h.hall.nodes()[1], 1024);
        h.run(read(3, 5));
        if more {
            // ? is the oldest now
            h.run(read(3, 2000));
        }
        assert_eq!(h.owed_after_reading(), [owed, 0]);
    }
}

#[test]
fn the_earlier_begin_may_be_the_fetching_reads() {
    let mut quiet = Played::plain();
    quiet.make(read(0, 5));
    quiet.steps(0, 2);
    quiet.run(read(3, 5));
    assert_eq!(quiet.steps(0, 1).ending, 1);
    assert_eq!(quiet.owed(), [1, 1]);
    // a write that ends between the two begins
    let mut written = Played::plain();
    written.make(read(0, 5));
    written.run(insert(1, 5));
    written.run(read(3, 5));
    assert_eq!(written.steps(0, 3).ending, 1);
    assert_eq!(written.owed(), [0, 0]);
}

#[test]
fn the_filing_read_is_the_last_that_filed() {
    let mut h = Played::plain();
    h.make(read(2, 5));
    h.run(insert(1, 5));
    h.run(read(3, 5));
    // the read begun before the write fetches what was filed after it; one that had looked before files over it
    assert_eq!(h.steps(2, 3).ending, 1);
    let mut over = Played::plain();
    over.make(read(2, 5));
    over.steps(2, 3);
    over.run(insert(1, 5));
    over.run(read(3, 5));
    over.steps(2, 2);
    assert_eq!(over.owed_after_reading(), [0, 0]);
}

#[test]
fn an_answer_put_out_binds_nothing() {
    let mut out = Played::plain();
    out.run(read(3, 5));
    out.make(Call::EvictAnswer { place: 0 });
    assert_eq!(out.owed_after_reading(), [0, 0]);
    let mut renewed = Played::plain();
    renewed.run(read(3, 5));
    renewed.make(Call::Renew);
    assert_eq!(renewed.owed_after_reading(), [0, 0]);
}

#[test]
fn a_fetch_that_does_not_get_it_is_complained_of() {
    let mut h = Played::of(&WithoutFetch);
    h.run(read(3, 5));
    h.make(read(0, 5));
    h.steps(0, 2);
    let (reply, complaint) = h.tell(Call::Step { client: 0, tray: 128, fill: 7 });
    assert_eq!((reply.ending, complaint), (0, Some(Complaint::NotFetched { client: 0 })));
}

/// The read of 5 at desk 0 up to its fetch; {5} is filed.
fn about_to_fetch() -> Played {
    let mut h = Played::plain();
    h.run(insert(1, 5));
    h.run(read(3, 5));
    h.make(read(0, 5));
    h.steps(0, 2);
    h
}

#[test]
fn another_list_than_the_filed_one_is_complained_of() {
    let mut h = about_to_fetch();
    h.hall.memories[2][8 + 24] = 6;
    let (reply, complaint) = h.tell(Call::Step { client: 0, tray: 128, fill: 7 });
    assert_eq!(reply.ending, 1);
    assert!(matches!(complaint, Some(Complaint::Stale { .. } | Complaint::NotFetched { .. })));
}

#[test]
fn a_tray_written_past_the_answer_is_complained_of() {
    let mut h = about_to_fetch();
    let (_, complaint) = h.bent(Call::Step { client: 0, tray: 128, fill: 7 }, |_, hall| hall.memories[4][127] += 1);
    assert_eq!(complaint, Some(Complaint::NotFetched { client: 0 }));
}

#[test]
fn an_answer_that_nobody_filed_is_complained_of() {
    let mut h = about_to_fetch();
    // the filed answer is renamed, and a read asks by its new name
    h.hall.memories[2][8 + 1] = 9;
    h.make(read(4, 9));
    h.steps(4, 2);
    let (_, complaint) = h.tell(Call::Step { client: 4, tray: 128, fill: 7 });
    assert!(matches!(complaint, Some(Complaint::Stale { .. } | Complaint::NotFiled { .. })));
}
