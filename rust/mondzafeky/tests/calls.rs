//! The safe calls: short memories and senseless arguments are refused and alter nothing; a whole read, a whole count and a whole write.
use mondzafeky::{ending, number, Memories, Reply, Tally, ANSWERS_LEAST, CLIENTS_LEAST, NODES_LEAST, TABLE_LEAST, TRAY_LEAST};

struct Owned {
    table: Vec<u32>,
    nodes: Vec<u32>,
    answers: Vec<u32>,
    clients: Vec<u32>,
}

impl Owned {
    fn of(lengths: [usize; 4], fill: u32) -> Owned {
        let [table, nodes, answers, clients] = lengths.map(|n| vec![fill; n]);
        Owned { table, nodes, answers, clients }
    }

    fn opened(k: u32) -> Owned {
        let mut owned = Owned::of(LEAST, 7);
        assert_eq!(owned.lent().open(k), accepted());
        owned
    }

    fn lent(&mut self) -> Memories<'_> {
        Memories { table: &mut self.table, nodes: &mut self.nodes, answers: &mut self.answers, clients: &mut self.clients }
    }

    fn all(&self) -> [Vec<u32>; 4] {
        [self.table.clone(), self.nodes.clone(), self.answers.clone(), self.clients.clone()]
    }
}

const LEAST: [usize; 4] = [TABLE_LEAST, NODES_LEAST, ANSWERS_LEAST, CLIENTS_LEAST];

fn accepted() -> Reply {
    Reply { number: 0, count: 0, ending: 0 }
}

fn refused(number: u32) -> Reply {
    Reply { number, count: 0, ending: 0 }
}

/// Every call on these memories, and its reply; those with a range have stars alone, and those with a tally a cleared one.
fn every_call(m: &mut Memories<'_>, tray: &mut [u32], query: &[u32], n: u32) -> [Reply; 20] {
    let stars = vec![0; query.len()];
    let tally = &mut Tally::default();
    [
        m.open(n),
        m.begin_read(n, query),
        m.begin_count(n, query),
        m.begin_read_within(n, &stars, 0, 4..=9),
        m.begin_count_within(n, &stars, 0, n..=9),
        m.begin_insert(n, query),
        m.begin_delete(n, query),
        m.step(tray, n),
        m.abandon(n),
        m.evict_answer(n),
        m.evict_node(n),
        m.renew(),
        m.begin_read_tallied(tally, n, query),
        m.begin_count_tallied(tally, n, query),
        m.begin_read_within_tallied(tally, n, &stars, 0, 4..=9),
        m.begin_count_within_tallied(tally, n, &stars, 0, n..=9),
        m.begin_insert_tallied(tally, n, query),
        m.begin_delete_tallied(tally, n, query),
        m.step_tallied(tray, tally, n),
        m.abandon_tallied(tally, n),
    ]
}

#[test]
fn short_memories_are_refused_with_1_and_nothing_is_altered() {
    let lengths_of = |which: usize, n: usize| {
        let mut lengths = LEAST;
        lengths[which] = n;
        lengths
    };
    let mut all: Vec<[usize; 4]> = vec![[0; 4]];
    for (which, least) in LEAST.into_iter().enumerate() {
        all.extend([0, 1, least - 1].map(|n| lengths_of(which, n)));
    }
    for lengths in all {
        let mut owned = Owned::of(lengths, 7);
        let (before, mut tray) = (owned.all(), vec![7; TRAY_LEAST]);
        for reply in every_call(&mut owned.lent(), &mut tray, &[1, 5], 1) {
            assert_eq!(reply, refused(number::SHORT), "{lengths:?}");
        }
        assert!(owned.all() == before && tray.iter().all(|&x| x == 7), "{lengths:?}");
    }
}

#[test]
fn a_short_tray_is_refused_with_1_and_nothing_is_altered() {
    for n in [0, 1, TRAY_LEAST - 1] {
        let mut owned = Owned::opened(1);
        owned.lent().begin_read(0, &[1, 5]);
        // A count writes no tray, and needs one all the same.
        owned.lent().begin_count(1, &[1, 5]);
        let (before, mut tray) = (owned.all(), vec![7; n]);
        for client in [0, 1] {
            assert_eq!(owned.lent().step(&mut tray, client), refused(number::SHORT));
        }
        assert!(owned.all() == before && tray.iter().all(|&x| x == 7));
    }
}

#[test]
fn a_query_of_any_length_is_refused_with_2() {
    let mut owned = Owned::opened(2);
    let before = owned.all();
    for query in [&Vec::new()[..], &[1], &[1, 5], &[1, 5, 1], &[1, 5, 1, 5, 1], &[2, 5, 1, 5], &[0, 5, 1, 5], &[1; 100_000]] {
        let mut m = owned.lent();
        let ranged = [m.begin_read_within(0, query, 1, 4..=9), m.begin_count_within(0, query, 1, 4..=9)];
        for reply in [m.begin_read(0, query), m.begin_count(0, query), m.begin_insert(0, query), m.begin_delete(0, query)].into_iter().chain(ranged) {
            assert_eq!(reply, refused(number::COLUMNS));
        }
    }
    assert_eq!(owned.lent().begin_insert(0, &[1, 5, 0, 0]), refused(number::COLUMNS));
    assert!(owned.all() == before);
}

#[test]
fn memories_of_any_contents_are_taken() {
    for fill in [0, 1, 2, 3, 4, 5, 12, 64, 65, 1024, 2048, 2049, u32::MAX] {
        for extra in [0, 1, 1000] {
            let mut owned = Owned::of(LEAST.map(|n| n + extra), fill);
            let mut tray = vec![fill; TRAY_LEAST + extra];
            for n in [1, 0, 11, 12, u32::MAX] {
                let mut m = owned.lent();
                m.clients.fill(fill);
                m.clients[0] = 2;
                every_call(&mut m, &mut tray, &[1, fill, 1, fill], n);
            }
            assert!(owned.all().iter().zip(LEAST).all(|(s, n)| s[n..].iter().all(|&x| x == fill)), "past the least length");
        }
    }
}

#[test]
fn the_refusals_that_a_caller_can_meet() {
    let mut owned = Owned::opened(1);
    let mut tray = [0; TRAY_LEAST];
    let mut m = owned.lent();
    assert_eq!(m.open(0), refused(number::COLUMNS));
    assert_eq!(m.open(5), refused(number::COLUMNS));
    assert_eq!(m.begin_read(12, &[1, 5]), refused(number::NO_CLIENT));
    assert_eq!(m.begin_count(12, &[1, 5]), refused(number::NO_CLIENT));
    assert_eq!(m.step(&mut tray, 0), refused(number::IDLE));
    assert_eq!(m.abandon(0), refused(number::IDLE));
    assert_eq!(m.evict_answer(0), refused(number::NO_ENTRY));
    assert_eq!(m.evict_node(u32::MAX), refused(number::NO_ENTRY));
    assert_eq!(m.begin_insert(3, &[1, 5]), accepted());
    assert_eq!(m.begin_read(3, &[1, 5]), refused(number::TAKEN));
    assert_eq!(m.begin_count(3, &[1, 5]), refused(number::TAKEN));
    assert_eq!(m.renew(), refused(number::OCCUPIED));
    assert_eq!(m.step(&mut tray, 3), accepted());
    assert_eq!(m.evict_node(0), refused(number::PENDING));
    m.nodes[0] = 4_294_967_104;
    assert_eq!(m.begin_insert(0, &[1, 6]), refused(number::WORN));
    assert_eq!(m.begin_count(0, &[1, 6]), accepted(), "worn is for writes");
    m.clients[0] = 5;
    assert_eq!(m.renew(), refused(number::UNSOUND));
    assert_eq!(m.begin_count(1, &[1, 6, 1, 6, 1, 6, 1, 6, 1, 6]), refused(number::UNSOUND));
}

#[test]
fn a_whole_write_and_a_whole_read() {
    let mut owned = Owned::opened(2);
    let mut tray = [9; TRAY_LEAST];
    let mut m = owned.lent();
    for (record, end) in [([1, 3, 1, 40], ending::CHANGED), ([1, 3, 1, 30], ending::CHANGED), ([1, 3, 1, 40], ending::UNCHANGED)] {
        assert_eq!(m.begin_insert(0, &record), accepted());
        assert_eq!(m.run(&mut tray, 0), Reply { number: 0, count: 0, ending: end });
    }
    assert_eq!(tray, [9; TRAY_LEAST]);
    // Bench 3, any model: one named column, so two looks, the fetch, the table and the filing.
    assert_eq!(m.begin_read(1, &[1, 3, 0, 0]), accepted());
    for _ in 0..4 {
        assert_eq!(m.step(&mut tray, 1), accepted());
    }
    assert_eq!(m.step(&mut tray, 1), Reply { number: 0, count: 2, ending: ending::FROM_TABLE });
    assert_eq!(tray[..5], [3, 30, 3, 40, 9]);
    // Again: the fetch, the third step, answers from file.
    let mut other = [9; TRAY_LEAST];
    assert_eq!(m.begin_read(2, &[1, 3, 0, 0]), accepted());
    assert_eq!(m.step(&mut other, 2), accepted());
    assert_eq!(m.step(&mut other, 2), accepted());
    assert_eq!(m.step(&mut other, 2), Reply { number: 0, count: 2, ending: ending::FROM_FILE });
    assert_eq!(other, tray);
    // A delete of the subspace, and the read after it goes to the table.
    assert_eq!(m.begin_delete(0, &[1, 3, 0, 0]), accepted());
    assert_eq!(m.run(&mut tray, 0).ending, ending::CHANGED);
    assert_eq!(m.begin_read(2, &[1, 3, 0, 0]), accepted());
    assert_eq!(m.run(&mut other, 2), Reply { number: 0, count: 0, ending: ending::FROM_TABLE });
}

#[test]
fn long_and_full() {
    let mut owned = Owned::opened(1);
    let mut tray = [9; TRAY_LEAST];
    let mut m = owned.lent();
    for v in 1..=2_048 {
        assert_eq!(m.begin_insert(0, &[1, v]), accepted());
        assert_eq!(m.run(&mut tray, 0).ending, ending::CHANGED);
    }
    m.begin_insert(0, &[1, 2_048]);
    assert_eq!(m.run(&mut tray, 0), Reply { number: 0, count: 0, ending: ending::UNCHANGED });
    m.begin_insert(0, &[1, 2_049]);
    assert_eq!(m.run(&mut tray, 0), refused(number::FULL));
    m.begin_read(0, &[0, 0]);
    assert_eq!(m.run(&mut tray, 0), refused(number::LONG));
    assert_eq!(tray, [9; TRAY_LEAST]);
    assert_eq!(m.step(&mut tray, 0), refused(number::IDLE));
}

/// How many records match, and whether that came from file, in so many steps at desk 5; the tray is as it was.
fn count(m: &mut Memories<'_>, query: &[u32], steps: u32) -> (u32, bool) {
    let mut tray = [9; TRAY_LEAST];
    assert_eq!(m.begin_count(5, query), accepted());
    (1..steps).for_each(|_| assert_eq!(m.step(&mut tray, 5), accepted()));
    let Reply { number, count, ending } = m.step(&mut tray, 5);
    assert_eq!((number, tray), (number::ACCEPTED, [9; TRAY_LEAST]));
    assert!([ending::FROM_FILE, ending::FROM_TABLE].contains(&ending));
    (count, ending == ending::FROM_FILE)
}

#[test]
fn counts_on_each_side_of_the_limits() {
    let mut owned = Owned::opened(1);
    let mut tray = [9; TRAY_LEAST];
    let mut m = owned.lent();
    assert_eq!((count(&mut m, &[0, 0], 4), count(&mut m, &[0, 0], 2)), ((0, false), (0, true)));
    for v in 1..=2_048 {
        assert_eq!(m.begin_insert(0, &[1, v]), accepted());
        assert_eq!(m.run(&mut tray, 0).ending, ending::CHANGED);
        if [1, 32, 33, 2_047, 2_048].contains(&v) {
            assert_eq!((count(&mut m, &[0, 0], 4), count(&mut m, &[0, 0], 2)), ((v, false), (v, true)));
        }
    }
    assert_eq!(count(&mut m, &[1, 7], 5), (1, false));
    assert_eq!(count(&mut m, &[1, 2_049], 5), (0, false));
}

/// Both are filed for one query, side by side; neither is given for the other.
#[test]
fn a_list_and_a_count_of_one_query() {
    let mut owned = Owned::opened(1);
    let mut tray = [9; TRAY_LEAST];
    let mut m = owned.lent();
    m.begin_insert(0, &[1, 5]);
    m.run(&mut tray, 0);
    for (from_file, steps, ending) in [(false, 5, ending::FROM_TABLE), (true, 3, ending::FROM_FILE)] {
        m.begin_read(0, &[1, 5]);
        assert_eq!(m.run(&mut tray, 0), Reply { number: 0, count: 1, ending });
        assert_eq!(count(&mut m, &[1, 5], steps), (1, from_file));
        assert_eq!(m.answers[0], 2);
    }
    assert_eq!(tray[..2], [5, 9]);
}

#[test]
fn a_count_that_saw_a_mark_is_answered_at_its_table_step_and_not_filed() {
    let mut owned = Owned::opened(1);
    let mut tray = [9; TRAY_LEAST];
    let mut m = owned.lent();
    m.begin_insert(0, &[1, 5]);
    (0..3).for_each(|_| assert_eq!(m.step(&mut tray, 0), accepted()));
    assert_eq!((count(&mut m, &[1, 5], 4), m.answers[0]), ((1, false), 0));
    assert_eq!(m.run(&mut tray, 0).ending, ending::CHANGED);
    assert_eq!((count(&mut m, &[1, 5], 5), m.answers[0]), ((1, false), 1));
}

/// Where the key's first number and the length of the first filed answer stand (docs/LAYOUT.md).
const FILED: [usize; 2] = [8, 15];

/// The same of a desk, and its number of steps.
fn held(client: usize) -> [usize; 3] {
    [5, 12, 1].map(|offset| 8 + 157 * client + offset)
}

/// A count files 0 in the list's place, and numbers that something else has put there are no records.
#[test]
fn no_records_stand_beside_a_filed_count() {
    let mut owned = Owned::opened(1);
    let mut m = owned.lent();
    m.begin_count(5, &[1, 5]);
    m.clients[8 + 157 * 5 + 29..][..128].fill(3);
    assert_eq!(m.run(&mut [0; TRAY_LEAST], 5).ending, ending::FROM_TABLE);
    assert_eq!((m.answers[FILED[0]], &m.answers[8 + 24..][..128]), (17, &[0; 128][..]));
    m.answers[8 + 24..][..128].fill(3);
    assert_eq!(count(&mut m, &[1, 5], 3), (0, true));
    m.answers[FILED[1]] = 40;
    assert_eq!(count(&mut m, &[1, 5], 3), (40, true));
}

#[test]
fn a_filed_count_above_2_048_is_3_and_a_list_above_32() {
    let mut owned = Owned::opened(1);
    let [key, length] = FILED;
    let mut m = owned.lent();
    count(&mut m, &[1, 5], 5);
    assert_eq!(m.answers[key], 17, "the mark of column 0, and 16 for a count");
    for (first, filed, number) in [(17, 2_048, 8), (17, 2_049, 3), (17, 33, 8), (1, 33, 3), (1, 32, 8), (48, 2_048, 8), (32, 33, 3)] {
        (m.answers[key], m.answers[length]) = (first, filed);
        assert_eq!(m.evict_answer(1), refused(number), "{first} {filed}");
    }
}

#[test]
fn a_held_count_above_2_048_is_3_at_its_desk_alone() {
    let mut owned = Owned::opened(1);
    let ([key, length, steps], [_, _, others]) = (held(5), held(6));
    let mut m = owned.lent();
    m.begin_count(5, &[1, 5]);
    m.begin_read(6, &[1, 5]);
    for (first, count, number) in [(17, 2_048, 0), (17, 2_049, 3), (1, 33, 3), (1, 32, 0), (49, 0, 3), (18, 0, 3)] {
        (m.clients[key], m.clients[length]) = (first, count);
        assert_eq!(m.step(&mut [0; TRAY_LEAST], 6), accepted(), "another desk");
        assert_eq!(m.step(&mut [0; TRAY_LEAST], 5), refused(number), "{first} {count}");
        // Each row is tried at the first step of both.
        (m.clients[steps], m.clients[others]) = (0, 0);
    }
}

#[test]
fn a_writer_that_says_count_is_3() {
    let mut owned = Owned::opened(1);
    let [key, ..] = held(0);
    let mut m = owned.lent();
    for begin in [Memories::begin_insert, Memories::begin_delete] {
        assert_eq!(begin(&mut m, 0, &[1, 5]), accepted());
        m.clients[key] = 17;
        assert_eq!((m.step(&mut [0; TRAY_LEAST], 0), m.abandon(0)), (refused(number::UNSOUND), refused(number::UNSOUND)));
        m.clients[key] = 1;
        assert_eq!(m.abandon(0), accepted());
    }
}
