//! The day's tally (document 02, S-7) on the twin: which count each call raises, 15 on both sides of the limit of each, what it alters (nothing),
//! what goes before it, and the sums.

mod hall;

use hall::*;
use twin::layout::*;
use twin::{Count, Memories, Reply, Tally};

const MOST: u32 = u32::MAX;
const FULL: Reply = Reply { number: 15, count: 0, ending: 0 };
const NONE: Tally = [0; COUNTS];
const ALL: [Count; COUNTS] = [
    Count::ReadsBegun,
    Count::FromFile,
    Count::FromTable,
    Count::EndedLong,
    Count::ReadsAbandoned,
    Count::WritesBegun,
    Count::EndedChanged,
    Count::EndedUnchanged,
    Count::WritesAbandoned,
];

fn with(tally: Tally, count: Count, value: u32) -> Tally {
    let mut tally = tally;
    tally[count as usize] = value;
    tally
}

/// A call that is lent a tally.
type Lent = Box<dyn Fn(&mut Hall, &mut Tally) -> Reply>;

fn step(client: u32) -> Lent {
    Box::new(move |hall, tally| {
        let mut m: Memories<'_> = Memories { table: &mut hall.table, nodes: &mut hall.nodes, answers: &mut hall.answers, clients: &mut hall.clients };
        m.step_tallied(&mut hall.tray, tally, client)
    })
}

fn abandon(client: u32) -> Lent {
    Box::new(move |hall, tally| hall.lend().abandon_tallied(tally, client))
}

/// A hall, a call in it, and the count that it raises: each begin, each end, each abandoning.
fn raising() -> Vec<(Hall, Lent, Count)> {
    let open = || filled(2, 3);
    let (one, all) = ([1, 2, 1, OTHER], [0; 4]);
    let begin = |call: Lent, count| (open(), call, count);
    let mut cases = vec![
        begin(Box::new(move |hall, tally| hall.lend().begin_read_tallied(tally, 0, &one)), Count::ReadsBegun),
        begin(Box::new(move |hall, tally| hall.lend().begin_count_tallied(tally, 0, &all)), Count::ReadsBegun),
        begin(Box::new(move |hall, tally| hall.lend().begin_read_within_tallied(tally, 0, &all, 1, 4, 9)), Count::ReadsBegun),
        begin(Box::new(move |hall, tally| hall.lend().begin_count_within_tallied(tally, 0, &all, 0, 4, 9)), Count::ReadsBegun),
        begin(Box::new(move |hall, tally| hall.lend().begin_insert_tallied(tally, 0, &one)), Count::WritesBegun),
        begin(Box::new(move |hall, tally| hall.lend().begin_delete_tallied(tally, 0, &all)), Count::WritesBegun),
    ];
    cases.extend(of_reads());
    cases.extend(of_writes());
    cases
}

/// A read of 2 at desk 0 after so many steps, in a table of so many records.
fn reading(mut hall: Hall, asked: &[u32], steps: u32) -> Hall {
    assert_eq!(hall.lend().begin_read(0, asked), ACCEPTED);
    hall.steps(0, steps);
    hall
}

fn of_reads() -> Vec<(Hall, Lent, Count)> {
    let one = [1, 2, 1, OTHER];
    let filed = |mut hall: Hall| {
        assert_eq!(hall.read(0, &one).1, from_table(1));
        hall
    };
    let marked = |mut hall: Hall| {
        assert_eq!(hall.lend().begin_insert(3, &one), ACCEPTED);
        hall.steps(3, 4);
        hall
    };
    let mut cases = vec![
        (reading(filled(2, 3), &one, 6), step(0), Count::FromTable),
        (reading(filed(filled(2, 3)), &one, 4), step(0), Count::FromFile),
        (reading(marked(filled(2, 3)), &one, 5), step(0), Count::FromTable),
        (reading(filled(2, 33), &[0; 4], 2), step(0), Count::EndedLong),
        (reading(marked(filled(2, 33)), &[0; 4], 2), step(0), Count::EndedLong),
    ];
    cases.extend((0..=6).map(|made| (reading(filled(2, 3), &one, made), abandon(0), Count::ReadsAbandoned)));
    cases
}

/// Records, the first column of an insert, its end.
const INSERTS: [(u32, u32, Count); 3] = [(3, 9, Count::EndedChanged), (3, 2, Count::EndedUnchanged), (2048, 5000, Count::EndedUnchanged)];

fn of_writes() -> Vec<(Hall, Lent, Count)> {
    let mut cases = Vec::new();
    for (n, first, end) in INSERTS {
        for made in 0..=8 {
            let mut hall = filled(2, n);
            assert_eq!(hall.lend().begin_insert(0, &[1, first, 1, OTHER]), ACCEPTED);
            hall.steps(0, made);
            cases.push((hall.clone(), abandon(0), if made > 4 { end } else { Count::WritesAbandoned }));
            if made == 8 {
                cases.push((hall, step(0), end));
            }
        }
    }
    cases
}

#[test]
fn each_call_raises_its_count_and_is_15_where_that_is_full() {
    for (before, call, count) in raising() {
        let mut plain = before.clone();
        let reply = call(&mut plain, &mut NONE.clone());
        assert!([0, 12, 13].contains(&reply.number));
        for at in [0, 7, MOST - 1] {
            for others in [NONE, [MOST; COUNTS]] {
                let (mut hall, mut tally) = (before.clone(), with(others, count, at));
                assert_eq!(call(&mut hall, &mut tally), reply);
                assert!(hall == plain && tally == with(others, count, at + 1), "{count:?} at {at}: {tally:?}");
            }
        }
        for full in [with(NONE, count, MOST), [MOST; COUNTS]] {
            let (mut hall, mut tally) = (before.clone(), full);
            assert_eq!(call(&mut hall, &mut tally), FULL, "{count:?}");
            assert!(hall == before && tally == full);
        }
    }
}

#[test]
fn every_count_is_raised_by_some_call() {
    let raised: Vec<Count> = raising().into_iter().map(|(_, _, count)| count).collect();
    assert!(ALL.iter().all(|count| raised.contains(count)));
}

#[test]
fn what_ends_nothing_and_what_is_refused_raises_none_and_is_not_held() {
    let mut tally = [MOST; COUNTS];
    let mut hall = reading(filled(2, 3), &[1, 2, 1, OTHER], 0);
    assert_eq!(hall.lend().begin_insert(3, &[1, 9, 1, 9]), ACCEPTED);
    (0..6).for_each(|_| assert_eq!(step(0)(&mut hall, &mut tally), ACCEPTED));
    (0..8).for_each(|_| assert_eq!(step(3)(&mut hall, &mut tally), ACCEPTED));
    let refused = |number| Reply { number, count: 0, ending: 0 };
    let before = hall.clone();
    assert_eq!(step(1)(&mut hall, &mut tally), refused(6));
    assert_eq!(abandon(12)(&mut hall, &mut tally), refused(4));
    assert_eq!(abandon(MOST)(&mut hall, &mut tally), refused(4));
    assert_eq!(hall.lend().begin_read_tallied(&mut tally, 0, &[0; 4]), refused(5));
    assert_eq!(hall.lend().begin_read_tallied(&mut tally, 1, &[0; 3]), refused(2));
    assert_eq!(hall.lend().begin_count_within_tallied(&mut tally, 1, &[0; 4], 0, 9, 4), refused(14));
    assert!(hall == before && tally == [MOST; COUNTS]);
    hall.nodes[FLOOR] = MOST;
    assert_eq!(hall.lend().begin_delete_tallied(&mut tally, 1, &[0; 4]), refused(10));
    // the node of its last raise is gone: 3 goes before 15
    hall.nodes[NODE_COUNT] = 0;
    assert_eq!((step(3)(&mut hall, &mut tally), abandon(3)(&mut hall, &mut tally)), (refused(3), refused(3)));
    hall.clients.pop();
    assert_eq!((step(0)(&mut hall, &mut tally), abandon(0)(&mut hall, &mut tally)), (refused(1), refused(1)));
    assert_eq!(tally, [MOST; COUNTS]);
}

/// A day at three desks: after each call the begun are those that have ended and those under way.
#[test]
fn the_begun_are_those_that_have_ended_and_those_under_way() {
    let (mut hall, mut tally) = (filled(1, 40), NONE);
    let mut state = 7u64;
    let mut below = move |n: u64| {
        state = state.wrapping_mul(6364136223846793005).wrapping_add(1442695040888963407);
        (state >> 33) % n
    };
    for _ in 0..20_000 {
        let (client, value) = (below(3) as u32, 1 + below(60) as u32);
        match below(12) {
            0 => hall.lend().begin_read_tallied(&mut tally, client, &[below(2) as u32, 0]),
            1 => hall.lend().begin_count_tallied(&mut tally, client, &[1, value]),
            2 => hall.lend().begin_insert_tallied(&mut tally, client, &[1, value]),
            3 => hall.lend().begin_delete_tallied(&mut tally, client, &[1, value]),
            4 => abandon(client)(&mut hall, &mut tally),
            _ => step(client)(&mut hall, &mut tally),
        };
        let under_way = |writes| (0..3).filter(|d| [1, 2, 3].contains(&kind(&hall, *d)) && (kind(&hall, *d) != READ) == writes).count() as u32;
        assert_eq!(tally[0], tally[1..5].iter().sum::<u32>() + under_way(false));
        assert_eq!(tally[5], tally[6..].iter().sum::<u32>() + under_way(true));
    }
    assert!(tally.iter().all(|count| *count > 20), "{tally:?}");
}

fn kind(hall: &Hall, client: usize) -> u32 {
    hall.clients[HEAD + client * CLIENT_WIDTH + CLIENT_KIND]
}
