//! The value 0 (document 02, S-5) under the checkers: which records a named 0, a range and a star may get; which writes demand 2's last sentence
//! speaks of, and that it is false of those that meet the query; what is said where 0 is taken for a star or a write of it is not seen.

mod played;

use harness::call::{Ask, Asked, Call, Within};
use harness::check::{Checker, Complaint};
use harness::draw::Mixing;
use harness::filing::Sentence;
use harness::rng::Rng;
use harness::side::{twin_with, Reply, Side};
use harness::zeros;
use played::Played;
use twin::query::Query;
use twin::{Fault, PLAIN};

const STEP: Call = Call::Step { client: 0, tray: 128, fill: 7 };
const STALE: Option<Complaint> = Some(Complaint::Stale { client: 0 });
const UNCHANGED: Reply = Reply { number: 0, count: 0, ending: 4 };

fn from_table(count: u32) -> Reply {
    Reply { number: 0, count, ending: 2 }
}

fn from_file(count: u32) -> Reply {
    Reply { number: 0, count, ending: 1 }
}

/// One column: a value, or a star.
fn asked(value: Option<u32>) -> Asked {
    Asked::new(&value.map_or([0, 0], |value| [1, value]))
}

fn ask(counts: bool, value: Option<u32>) -> Ask {
    Ask { asked: asked(value), counts, within: None }
}

fn within(counts: bool, lowest: u32, highest: u32) -> Ask {
    Ask { within: Some(Within { column: 0, lowest, highest }), ..ask(counts, None) }
}

fn insert(value: u32) -> Call {
    Call::BeginInsert { client: 1, asked: asked(Some(value)) }
}

fn delete(value: Option<u32>) -> Call {
    Call::BeginDelete { client: 1, asked: asked(value) }
}

impl Played {
    /// A hall of one column with the records 0, 1 and 5.
    fn of(side: &'static dyn Side) -> Played {
        let mut h = Played::opened(side, 1);
        [0, 1, 5].iter().for_each(|value| assert_eq!(h.write(insert(*value)).ending, 3));
        h
    }

    fn plain() -> Played {
        Played::of(twin_with(Fault::None))
    }

    /// To its end, at desk 1.
    fn write(&mut self, begin: Call) -> Reply {
        self.make(begin);
        self.run(1)
    }

    /// To its end, at desk 0.
    fn read(&mut self, ask: Ask) -> Reply {
        self.make(ask.begin(0));
        self.run(0)
    }

    fn run(&mut self, client: u32) -> Reply {
        loop {
            let reply = self.steps(client, 1);
            if reply.ending != 0 {
                return reply;
            }
        }
    }

    /// At desk 0, up to before the step that ends it.
    fn up_to_the_end(&mut self, ask: Ask, steps: u32) {
        self.make(ask.begin(0));
        (0..steps).for_each(|_| assert_eq!(self.make(STEP).ending, 0));
    }

    fn owed(&self) -> u64 {
        self.checker.owed()[0]
    }
}

#[test]
fn a_named_0_a_range_and_a_star_are_true_from_the_table_and_from_file() {
    let asked = [(ask(false, Some(0)), 0), (ask(false, Some(1)), 1), (ask(false, None), 3), (within(false, 0, 0), 0), (within(false, 0, 1), 1)];
    for (read, n) in asked.into_iter().chain([(within(false, 0, u32::MAX), 2), (within(false, 1, u32::MAX), 2)]) {
        for counts in [false, true] {
            let mut h = Played::plain();
            let read = Ask { counts, ..read };
            assert_eq!((h.read(read), h.read(read), h.owed()), (from_table(n), from_file(n), 1), "{read:?}");
        }
    }
}

/// The table holds 0, 1 and 5; what a list puts on the tray is bent, or what a count tells.
#[test]
fn a_record_with_0_that_only_a_star_may_list_is_complained_of() {
    let lists: [(Ask, u32, &[u32], Option<Complaint>); 9] = [
        (ask(false, Some(0)), 4, &[], None),
        (ask(false, Some(0)), 4, &[0], STALE),
        (ask(false, None), 3, &[0, 1, 5], None),
        (ask(false, None), 3, &[1, 5], STALE),
        (within(false, 0, 9), 3, &[1, 5], None),
        (within(false, 0, 9), 3, &[0, 1, 5], STALE),
        (within(false, 0, 0), 3, &[], None),
        (within(false, 0, 0), 3, &[0], STALE),
        (within(false, 1, 9), 3, &[1, 5], None),
    ];
    for (read, steps, list, complaint) in lists {
        let mut h = Played::plain();
        h.up_to_the_end(read, steps);
        let told = h.bent(STEP, |reply, hall| {
            reply.count = list.len() as u32;
            hall.memories[4][..list.len()].copy_from_slice(list);
        });
        assert_eq!(told.1, complaint, "{read:?}, {list:?}");
        let mut h = Played::plain();
        h.up_to_the_end(Ask { counts: true, ..read }, steps);
        assert_eq!(h.bent(STEP, |reply, _| reply.count = list.len() as u32).1, complaint, "{read:?}, {}", list.len());
    }
}

/// Told as changed, or with the table that would be left.
#[test]
fn a_delete_that_names_0_takes_out_nothing_and_a_second_insert_puts_nothing_in() {
    for begin in [delete(Some(0)), insert(0)] {
        let mut h = Played::plain();
        assert_eq!(h.write(begin), UNCHANGED);
        assert_eq!(h.hall.table()[0], 3);
        h.make(begin);
        h.steps(1, 4);
        let step = Call::Step { client: 1, tray: 128, fill: 7 };
        assert_eq!(h.bent(step, |reply, _| reply.ending = 3).1, Some(Complaint::End { client: 1 }));
        let mut h = Played::plain();
        h.make(begin);
        h.steps(1, 2);
        assert_eq!(h.bent(step, |_, hall| hall.memories[0][0] ^= 1).1, Some(Complaint::Table), "{begin}");
    }
    let mut h = Played::plain();
    assert_eq!((h.write(delete(None)).ending, h.hall.table()[0]), (3, 0));
}

/// A filed answer to 0 and to a star, and one write after it, which is open when the next read begins; it has set its marks.
#[test]
fn a_write_that_shares_a_node_with_the_read_counts_whether_they_meet_or_not() {
    let of_zero = [(insert(0), 0), (insert(1), 1), (delete(Some(0)), 0), (delete(Some(1)), 1), (delete(None), 0)];
    let of_one = [(insert(0), 1), (insert(1), 0), (delete(Some(0)), 1), (delete(Some(1)), 0), (delete(None), 0)];
    let of_star = [(insert(0), 0), (insert(1), 0), (delete(Some(0)), 0), (delete(None), 0)];
    let asked = [(ask(false, Some(0)), &of_zero[..]), (ask(true, Some(1)), &of_one), (ask(false, None), &of_star), (within(true, 1, 9), &of_star)];
    for (read, (write, owed)) in asked.into_iter().flat_map(|(read, writes)| writes.iter().map(move |write| (read, *write))) {
        let mut h = Played::plain();
        h.read(read);
        h.make(write);
        h.steps(1, 2);
        let again = h.read(read);
        assert_eq!((again.ending, h.owed()), (if owed == 1 { 1 } else { 2 }, owed), "{read:?}, {write}");
    }
}

/// The same with the write at its end: 0 and 1 are there, so only a delete that finds them has changed the table (S-6), and none by the name of 0.
#[test]
fn once_it_has_ended_it_counts_if_it_changed_the_table() {
    let of_zero = [(insert(0), 1), (insert(9), 1), (delete(Some(0)), 1), (delete(Some(1)), 1), (delete(None), 0)];
    let of_one = [(insert(1), 1), (delete(Some(1)), 0), (delete(None), 0)];
    let of_star = [(insert(0), 1), (insert(9), 0), (delete(Some(0)), 1), (delete(Some(1)), 0), (delete(None), 0)];
    let asked = [(ask(false, Some(0)), &of_zero[..]), (ask(true, Some(1)), &of_one), (ask(false, None), &of_star), (within(true, 1, 9), &of_star)];
    for (read, (write, owed)) in asked.into_iter().flat_map(|(read, writes)| writes.iter().map(move |write| (read, *write))) {
        let mut h = Played::plain();
        h.read(read);
        h.write(write);
        let again = h.read(read);
        assert_eq!((again.ending, h.owed()), (if owed == 1 { 1 } else { 2 }, owed), "{read:?}, {write}");
    }
}

/// (), filed for 0, is not used after an insert of 0, which does not meet the read: "meeting" would owe it.
#[test]
fn with_meeting_left_in_the_sentence_it_is_false() {
    for (sentence, complaint) in [(Sentence::Sharing, None), (Sentence::Meeting, Some(Complaint::NotFetched { client: 0 }))] {
        let mut h = Played::opened(twin_with(Fault::None), 1);
        h.checker = Checker::by(1, sentence);
        assert_eq!(h.read(ask(false, Some(0))), from_table(0));
        assert_eq!(h.write(insert(0)).ending, 3);
        h.up_to_the_end(ask(false, Some(0)), 2);
        assert_eq!(h.tell(STEP), (Reply { number: 0, count: 0, ending: 0 }, complaint), "{sentence:?}");
    }
}

/// Every query of k columns whose values are below `values`.
fn queries(k: usize, values: u32) -> Vec<Vec<u32>> {
    let columns: Vec<[u32; 2]> = (0..values).map(|value| [1, value]).chain([[0, 0]]).collect();
    (0..k).fold(vec![Vec::new()], |all, _| all.iter().flat_map(|q| columns.iter().map(|column| [&q[..], column].concat())).collect())
}

/// "A named 0 is never equal to anything".
fn lies(record: &[u32], query: &[u32]) -> bool {
    record.chunks(2).zip(query.chunks(2)).all(|(value, column)| column[0] == 0 || column[1] != 0 && value[1] == column[1])
}

/// By the definitions, for every pair: a shared label, a record that lies in both, and for an insert its own record in the read's subspace.
#[test]
fn sharing_and_meeting_are_what_the_documents_define() {
    let [mut meeting, mut sharing_alone] = [0, 0];
    for (k, write, read) in
        (1..=3).flat_map(|k| queries(k, 3).into_iter().flat_map(move |w| queries(k, 3).into_iter().map(move |r| (k, w.clone(), r))))
    {
        let [of_write, of_read] = [&write, &read].map(|words| Query::arrived(k, words));
        let labels: Vec<_> = (0..of_write.announcements()).map(|n| of_write.write_label::<PLAIN>(n)).collect();
        let shares = (0..of_read.looks()).any(|n| labels.contains(&of_read.read_label(n)));
        // a value more than the queries have, for a star beside a star
        let records: Vec<Vec<u32>> = queries(k, 4).into_iter().filter(|record| record.chunks(2).all(|column| column[0] == 1)).collect();
        let meets = records.iter().any(|record| lies(record, &write) && lies(record, &read));
        let (one, other) = (Asked::new(&write), Asked::new(&read));
        assert_eq!(Sentence::Sharing.is_of(&one, false, &other), shares, "{one} {other}");
        assert_eq!(Sentence::Meeting.is_of(&one, false, &other), meets, "{one} {other}");
        if of_write.names_all() {
            let meets = lies(&write, &read);
            assert_eq!((Sentence::Sharing.is_of(&one, true, &other), Sentence::Meeting.is_of(&one, true, &other)), (shares, meets), "{one} {other}");
            assert!(shares || !meets);
        }
        // "Any two queries without a 0 keep the exact rule."
        let zero = [&write, &read].iter().any(|words| words.chunks(2).any(|column| column == [1, 0]));
        assert!(shares == meets || zero && shares, "{one} {other}");
        meeting += meets as u32;
        sharing_alone += (shares && !meets) as u32;
    }
    assert!(meeting > 100 && sharing_alone > 100);
}

#[test]
fn what_is_wrong_with_each_fault_is_said() {
    let mut star = Played::of(twin_with(Fault::ZeroAsStar));
    star.up_to_the_end(ask(false, Some(0)), 4);
    assert_eq!(star.tell(STEP), (from_table(3), STALE));
    star.make(delete(Some(0)));
    star.steps(1, 2);
    assert_eq!(star.tell(Call::Step { client: 1, tray: 128, fill: 7 }).1, Some(Complaint::Table));
    let mut all = Played::of(twin_with(Fault::AllValues));
    all.up_to_the_end(within(false, 0, u32::MAX), 3);
    assert_eq!(all.tell(STEP), (from_table(3), STALE));
    all.up_to_the_end(within(false, 0, u32::MAX - 1), 3);
    assert_eq!(all.tell(STEP), (from_table(2), None));
    // the insert of 0 raises nothing, so a star's list from before it holds
    for (fault, told) in [(Fault::ZeroUnseen, (from_file(0), STALE)), (Fault::None, (Reply { number: 0, count: 0, ending: 0 }, None))] {
        let mut unseen = Played::opened(twin_with(fault), 1);
        unseen.read(ask(false, None));
        unseen.write(insert(0));
        unseen.up_to_the_end(ask(false, None), 1);
        assert_eq!(unseen.tell(STEP), told, "{fault:?}");
    }
}

/// What was met in a hall of 0, 1 and 5 by these reads and then these writes, beside the insert of 0 that filled it.
fn met_by(reads: &[Ask], writes: &[Call]) -> Vec<usize> {
    let mut h = Played::plain();
    reads.iter().for_each(|ask| assert_ne!(h.read(*ask).ending, 0));
    writes.iter().for_each(|begin| assert_ne!(h.write(*begin).ending, 0));
    h.checker.zeros[6] -= 1;
    (0..zeros::MET.len()).filter(|what| h.checker.zeros[*what] > 0).collect()
}

/// Each thing by itself, by its place in `zeros::MET`.
#[test]
fn what_is_met_of_0_is_counted() {
    assert_eq!(met_by(&[ask(false, Some(0))], &[]), [2]);
    assert_eq!(met_by(&[ask(false, Some(0)); 2], &[]), [0, 2]);
    assert_eq!(met_by(&[ask(true, Some(0)); 2], &[]), [1, 2]);
    assert_eq!(met_by(&[ask(false, None)], &[]), [3]);
    assert_eq!(met_by(&[within(false, 0, 9)], &[]), [4]);
    assert_eq!(met_by(&[within(true, 0, 0)], &[]), [4, 5]);
    assert_eq!(met_by(&[], &[insert(0)]), [7]);
    assert_eq!(met_by(&[], &[delete(Some(0))]), [8]);
    assert_eq!(met_by(&[], &[delete(None)]), [9]);
    assert_eq!(met_by(&[], &[delete(None), insert(0)]), [6, 9]);
    let nothing = [ask(false, Some(1)), ask(true, None), within(false, 1, 9)];
    assert!(met_by(&nothing, &[delete(Some(1)), insert(1)]).is_empty());
    // beside no record with 0
    let mut empty = Played::opened(twin_with(Fault::None), 1);
    empty.write(delete(Some(0)));
    empty.read(ask(false, Some(0)));
    empty.read(within(false, 0, 0));
    assert_eq!(empty.checker.zeros, [0; zeros::MET.len()]);
}

#[test]
fn histories_of_0_and_1_alone_meet_all_of_it() {
    let (mut rng, mut met, mut values) = (Rng::new(5), [0; zeros::MET.len()], [0; 2]);
    for _ in 0..12 {
        let mut mixing = Mixing::zeros(&mut rng);
        let mut h = Played::opened(twin_with(Fault::None), mixing.k);
        for _ in 0..2_000 {
            let call = mixing.next(&mut rng, &h.hall);
            assert_eq!(h.tell(call).1, None);
            let asked = match call {
                Call::BeginInsert { asked, .. } | Call::BeginDelete { asked, .. } => Some(asked),
                _ => call.read().map(|(_, ask)| ask.asked),
            };
            let words = asked.map_or(Vec::new(), |asked| asked.words().to_vec());
            words.chunks(2).filter(|column| column[0] == 1).for_each(|column| values[column[1] as usize] += 1);
        }
        met.iter_mut().zip(h.checker.zeros).for_each(|(times, more)| *times += more);
    }
    assert!(values.iter().all(|times| *times > 1_000), "{values:?}");
    assert!(met.iter().all(|times| *times > 5), "{met:?}");
}
