//! A bench pulled out: what is under way at its desk is ended by one call, at any time. A read
//! and a write before its table step are given up; a write after it ends as by its own last step.
//! No mark stays, so later reads are answered from file. What no history leaves.
mod rng;

use mondzafeky::{ending, number, Abandoned, Hall, Memories, Outcome, Query, Refusal, Reply, RECORDS, TRAY_LEAST};
use rng::Rng;

const DESK: u32 = 4;
const NOTHING: Reply = Reply { number: 0, count: 0, ending: ending::NONE };

/// The record of a value: it stands in the first column, 7 in the others.
fn record(k: u32, value: u32) -> Vec<u32> {
    (0..k).map(|column| if column == 0 { value } else { 7 }).collect()
}

/// A hall of k columns with the records of 1, 2 and so on.
fn hall_of(k: u32, count: u32) -> Hall {
    let mut hall = Hall::open(k).unwrap();
    for value in 1..=count {
        hall.begin_insert(0, &record(k, value)).unwrap();
        assert_eq!(hall.run(0), Ok(Outcome::Changed));
    }
    hall
}

#[derive(Clone, Debug)]
enum Write {
    Insert(Vec<u32>),
    Delete(Query),
}

impl Write {
    /// A hall in which this write has made so many steps at desk 4.
    fn under_way(&self, before: &Hall, steps: u32) -> Hall {
        let mut hall = before.clone();
        match self {
            Write::Insert(record) => hall.begin_insert(DESK, record),
            Write::Delete(query) => hall.begin_delete(DESK, query),
        }
        .unwrap();
        (0..steps).for_each(|_| assert_eq!(hall.step(DESK), Ok(Outcome::UnderWay), "{self:?}"));
        hall
    }
}

/// Writes in a hall of so many records, each with its end.
fn writes(k: u32, count: u32) -> [(Write, Abandoned); 5] {
    let (there, new) = (record(k, 1), record(k, count + 1));
    let stars = Query::from(&vec![None; k as usize][..]);
    let inserted = if count == RECORDS { Abandoned::Full } else { Abandoned::Changed };
    [
        (Write::Insert(new.clone()), inserted),
        (Write::Insert(there.clone()), Abandoned::Unchanged),
        (Write::Delete(Query::of_record(&there)), Abandoned::Changed),
        (Write::Delete(Query::of_record(&new)), Abandoned::Unchanged),
        (Write::Delete(stars), Abandoned::Changed),
    ]
}

fn is_unmarked(hall: &Hall) -> bool {
    hall.inspect().nodes().all(|node| node.unwrap().pending == 0)
}

/// The label of each node with its counter.
fn counters(hall: &Hall) -> Vec<(String, u32)> {
    let counter = |node: mondzafeky::inspect::Node| (format!("{:?}", node.label), node.revision);
    hall.inspect().nodes().map(|node| counter(node.unwrap())).collect()
}

/// Whether a read was answered from file.
fn is_filed(hall: &mut Hall, query: &Query) -> bool {
    hall.begin_read(9, query).unwrap();
    match hall.run(9).unwrap() {
        Outcome::Answered { from_file, .. } => from_file,
        other => panic!("a read ended with {other:?}"),
    }
}

/// Up to the table step no mark is left; after it, with all raises left down to the last one, the
/// hall is number for number as the write's own steps would have left it, and so is the end.
#[test]
fn each_write_after_each_number_of_steps() {
    for (k, count) in (1..=4).flat_map(|k| [(k, 3), (k, RECORDS)]) {
        let (before, nodes) = (hall_of(k, count), 1 << k);
        for (write, end) in writes(k, count) {
            for made in 0..=2 * nodes {
                let mut hall = write.under_way(&before, made);
                let mut stepped = hall.clone();
                let abandoned = hall.abandon(DESK).unwrap();
                if made <= nodes {
                    assert_eq!((abandoned, abandoned.end()), (Abandoned::GivenUp, None), "{write:?}, {made} steps");
                    assert!(hall.inspect().records().eq(before.inspect().records()));
                } else {
                    assert_eq!((abandoned, abandoned.end()), (end, stepped.run(DESK).ok()), "{write:?}, {made} steps");
                    assert!(hall == stepped, "{write:?}, {made} steps");
                }
                assert!(is_unmarked(&hall) && hall.inspect().work(DESK) == Ok(None));
                assert_eq!(hall.abandon(DESK), Err(Refusal::Idle));
            }
        }
    }
}

/// What was filed before still holds if the write was given up or has ended unchanged, and not if
/// it has changed the table; the second read is answered from file either way.
#[test]
fn reads_afterwards_are_answered_from_file() {
    let mut before = hall_of(2, 3);
    let query = Query::from([Some(1), None]);
    assert!(!is_filed(&mut before, &query) && is_filed(&mut before, &query));
    for write in [Write::Insert(vec![1, 8]), Write::Insert(vec![1, 7]), Write::Delete(query.clone()), Write::Delete([Some(1), Some(8)].into())] {
        for made in 0..=8 {
            let mut hall = write.under_way(&before, made);
            let abandoned = hall.abandon(DESK).unwrap();
            assert_eq!(abandoned == Abandoned::GivenUp, made <= 4);
            let holds = abandoned != Abandoned::Changed;
            assert_eq!((is_filed(&mut hall, &query), is_filed(&mut hall, &query)), (holds, true), "{write:?}, {made} steps");
        }
    }
}

/// Marks that are taken back leave the counters: what the hall had filed is of use.
#[test]
fn a_write_that_is_given_up_raises_no_counter() {
    let before = hall_of(2, 3);
    for made in 0..=4 {
        let mut hall = Write::Insert(vec![1, 8]).under_way(&before, made);
        assert_eq!(hall.abandon(DESK), Ok(Abandoned::GivenUp));
        let (old, new) = (counters(&before), counters(&hall));
        assert_eq!((&new[..old.len()], new[old.len()..].iter().all(|node| node.1 == 1)), (&old[..], true));
    }
}

/// A desk that is not moved leaves its marks, and every read goes to the table; until it is
/// abandoned.
#[test]
fn the_marks_of_a_bench_that_is_gone() {
    let (mut hall, query) = (Write::Insert(vec![1, 8]).under_way(&hall_of(2, 3), 6), Query::from([None, Some(8)]));
    for _ in 0..3 {
        assert!(!is_filed(&mut hall, &query));
    }
    assert_eq!((hall.inspect().answer_count(), hall.abandon(DESK)), (Ok(0), Ok(Abandoned::Changed)));
    assert!(!is_filed(&mut hall, &query) && is_filed(&mut hall, &query));
}

#[test]
fn the_marks_of_another_write_stay() {
    let mut hall = Write::Insert(vec![9]).under_way(&hall_of(1, 3), 3);
    hall.begin_insert(5, &[9]).unwrap();
    (0..3).for_each(|_| assert_eq!(hall.step(5), Ok(Outcome::UnderWay)));
    assert_eq!(hall.abandon(DESK), Ok(Abandoned::Changed));
    assert_eq!(hall.inspect().nodes().filter(|node| node.as_ref().unwrap().pending == 1).count(), 2);
    assert!(!is_filed(&mut hall, &[Some(9)].into()) && !is_filed(&mut hall, &[Some(9)].into()));
    assert_eq!(hall.abandon(5), Ok(Abandoned::Unchanged));
    assert!(is_unmarked(&hall) && !is_filed(&mut hall, &[Some(9)].into()) && is_filed(&mut hall, &[Some(9)].into()));
}

type Begin = fn(&mut Hall, &Query) -> Result<(), Refusal>;

#[test]
fn reads_and_counts_are_given_up_at_every_step() {
    let (before, stars) = (hall_of(2, 3), Query::from([None, None]));
    let begins: [Begin; 4] = [
        |hall, query| hall.begin_read(DESK, query),
        |hall, query| hall.begin_count(DESK, query),
        |hall, query| hall.begin_read_within(DESK, query, 1, 4..=9),
        |hall, query| hall.begin_count_within(DESK, query, 1, 4..=9),
    ];
    for begin in begins {
        for made in 0..=3 {
            let mut hall = before.clone();
            begin(&mut hall, &stars).unwrap();
            (0..made).for_each(|_| assert_eq!(hall.step(DESK), Ok(Outcome::UnderWay)));
            assert_eq!((hall.abandon(DESK), hall.abandon(DESK)), (Ok(Abandoned::GivenUp), Err(Refusal::Idle)));
            assert!(hall == before, "(*, *) was there: a look has added nothing");
        }
    }
}

/// The three numbers of each end: by the last step and by an abandoning they are the same.
#[test]
fn the_replies_of_the_low_calls() {
    let ended = |ending| Reply { ending, ..NOTHING };
    let full = Reply { number: number::FULL, ..NOTHING };
    for (count, value, end) in
        [(3, 4, ended(ending::CHANGED)), (3, 2, ended(ending::UNCHANGED)), (RECORDS, RECORDS + 1, full), (RECORDS, 1, ended(4))]
    {
        for made in 0..=4 {
            let mut hall = Write::Insert(vec![value]).under_way(&hall_of(1, count), made);
            assert_eq!(hall.clone().memories().run(&mut [0; TRAY_LEAST], DESK), end);
            let reply = hall.memories().abandon(DESK);
            assert_eq!((reply, reply.has_ended(), reply.refusal()), (if made <= 2 { NOTHING } else { end }, made > 2, None));
            assert_eq!(hall.memories().abandon(DESK), Reply { number: number::IDLE, ..NOTHING });
            assert_eq!(hall.inspect().record_count(), Ok(count + u32::from(made > 2 && end.ending == ending::CHANGED)));
        }
    }
}

#[test]
fn words() {
    assert_eq!(Abandoned::GivenUp.to_string(), "given up, nothing of it is in the table");
    for ended in [Abandoned::Changed, Abandoned::Unchanged, Abandoned::Full] {
        assert_eq!(ended.to_string(), ended.end().unwrap().to_string());
    }
    assert!(Abandoned::Full.to_string().starts_with("13, full: "));
}

/// Where the tags, the marks and the counter of a node stand (docs/LAYOUT.md).
fn node(place: usize) -> [usize; 3] {
    [0, 5, 6].map(|offset| 8 + 8 * place + offset)
}

/// Each of the four nodes of an insert missing, unmarked, or with a counter at its largest, after
/// each number of steps: 3 if it is to lose its mark, and if it is to be raised, and nothing is
/// altered then.
#[test]
fn nodes_that_no_history_leaves_are_3_and_nothing_is_altered() {
    for (made, place) in (0..=8).flat_map(|made| (0..4).map(move |place| (made, place))) {
        let sound = Write::Insert(vec![3, 40]).under_way(&Hall::open(2).unwrap(), made);
        let [tags, marks, counter] = node(place);
        // Marks to take back up to the table step, raises that are left after it.
        let (back, raised) = (made <= 4 && place < made as usize, made > 4 && place + 5 >= made as usize);
        for (at, number, refused) in
            [(tags, 0, back || raised), (marks, 0, back || raised), (counter, u32::MAX, raised), (counter, u32::MAX - 1, false)]
        {
            let mut hall = sound.clone();
            hall.memories().nodes[at] = number;
            let (before, abandoned) = (hall.clone(), hall.abandon(DESK));
            assert_eq!(abandoned == Err(Refusal::Unsound), refused, "{made} steps, node {place}, {number} at {at}");
            assert!(if refused { hall == before } else { abandoned.is_ok() && hall.inspect().work(DESK) == Ok(None) });
        }
    }
}

/// Not 0 means set; found full goes before changed, of a delete too, and changed alone decides
/// whether the counters go up. Before the table step neither is looked at.
#[test]
fn changed_and_full_as_no_history_leaves_them() {
    let cases = [
        ([0, 0], 0, 4),
        ([1, 0], 0, 3),
        ([9, 0], 0, 3),
        ([u32::MAX, 0], 0, 3),
        ([0, 1], 13, 0),
        ([0, 2], 13, 0),
        ([1, 1], 13, 0),
        ([7, u32::MAX], 13, 0),
    ];
    let flags = 8 + 157 * DESK as usize + 3;
    for write in [Write::Insert(vec![9]), Write::Delete([None].into())] {
        for (set, number, ending) in cases {
            for made in 0..=4 {
                let mut hall = write.under_way(&hall_of(1, 3), made);
                let m: Memories<'_> = hall.memories();
                m.clients[flags..flags + 2].copy_from_slice(&set);
                let end = if made <= 2 { NOTHING } else { Reply { number, count: 0, ending } };
                let mut abandoned = hall.clone();
                assert_eq!(abandoned.memories().abandon(DESK), end, "{write:?}, {made} steps, {set:?}");
                if made > 2 {
                    let lifted = counters(&hall).into_iter().zip(counters(&abandoned)).filter(|(old, new)| new.1 == old.1 + 1).count();
                    assert_eq!(lifted, if set[0] != 0 { 5 - made as usize } else { 0 }, "{write:?}, {made} steps, {set:?}");
                    assert_eq!(hall.memories().run(&mut [0; TRAY_LEAST], DESK), end, "the last step tells the same");
                }
            }
        }
    }
}

/// One call at a random desk: a begin if it is idle, else a step or, now and then, an abandoning,
/// which is counted by what it did.
fn any_call(hall: &mut Hall, rng: &mut Rng, done: &mut [u32; 3]) {
    let (client, k) = (rng.below(12), hall.columns());
    let columns: Vec<_> = (0..k).map(|_| (rng.below(3) > 0).then_some(rng.below(3))).collect();
    let query = Query::from(&columns[..]);
    if hall.inspect().work(client).unwrap().is_some() {
        if rng.below(12) > 0 {
            let _ = hall.step(client).unwrap();
            return;
        }
        let abandoned = hall.abandon(client).unwrap();
        done[[Abandoned::GivenUp, Abandoned::Changed, Abandoned::Unchanged].iter().position(|each| *each == abandoned).unwrap()] += 1;
        return;
    }
    match rng.below(4) {
        0 => hall.begin_read(client, &query),
        1 => hall.begin_count(client, &query),
        2 => hall.begin_insert(client, &columns.iter().map(|column| column.unwrap_or(9)).collect::<Vec<_>>()),
        _ => hall.begin_delete(client, &query),
    }
    .unwrap();
}

/// However the steps of twelve desks are mixed: with all of them abandoned no node has a mark.
#[test]
fn in_a_history_a_busy_desk_can_be_abandoned_at_any_time() {
    let (mut rng, mut done) = (Rng(4), [0; 3]);
    for round in 0..200 {
        let mut hall = Hall::open(1 + round % 4).unwrap();
        (0..500).for_each(|_| any_call(&mut hall, &mut rng, &mut done));
        for client in 0..12 {
            if hall.inspect().work(client).unwrap().is_some() {
                assert!(hall.abandon(client).is_ok(), "desk {client}");
            }
        }
        assert!(is_unmarked(&hall));
        let query = Query::of_record(&record(hall.columns(), 1));
        let _ = is_filed(&mut hall, &query);
        assert!(is_filed(&mut hall, &query));
    }
    assert!(done.iter().all(|times| *times > 100), "given up, changed, unchanged: {done:?}");
}
