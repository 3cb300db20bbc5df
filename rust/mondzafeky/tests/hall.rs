//! The owned hall: each of its calls, each refusal with its number, the ends 12 and 13, queries, records, and the saved form.
use mondzafeky::saved::{self, WrongLength};
use mondzafeky::{ending, number, Abandoned, Hall, Memories, NoRefusal, Outcome, Query, Refusal, Reply, RECORDS, TRAY_LEAST};

fn insert(hall: &mut Hall, client: u32, record: &[u32]) -> Outcome<'static> {
    hall.begin_insert(client, record).unwrap();
    match hall.run(client).unwrap() {
        Outcome::Changed => Outcome::Changed,
        Outcome::Unchanged => Outcome::Unchanged,
        Outcome::Full => Outcome::Full,
        other => panic!("an insert ended with {other:?}"),
    }
}

/// The records that a read is answered with, and whether they were filed.
fn read(hall: &mut Hall, client: u32, query: &Query) -> (Vec<Vec<u32>>, bool) {
    hall.begin_read(client, query).unwrap();
    match hall.run(client).unwrap() {
        Outcome::Answered { records, from_file } => (records.map(<[u32]>::to_vec).collect(), from_file),
        other => panic!("a read ended with {other:?}"),
    }
}

/// How many records a count tells, and whether that was filed.
fn count(hall: &mut Hall, client: u32, query: &Query) -> (u32, bool) {
    hall.begin_count(client, query).unwrap();
    match hall.run(client).unwrap() {
        Outcome::Counted { count, from_file } => (count, from_file),
        other => panic!("a count ended with {other:?}"),
    }
}

/// A hall of two columns with three records.
fn three_records() -> Hall {
    let mut hall = Hall::open(2).unwrap();
    for record in [[3, 41], [4, 40], [3, 40]] {
        assert_eq!(insert(&mut hall, 0, &record), Outcome::Changed);
    }
    hall
}

#[test]
fn a_whole_insert_delete_and_read() {
    let mut hall = three_records();
    assert_eq!((hall.columns(), insert(&mut hall, 0, &[3, 40])), (2, Outcome::Unchanged));
    let bench_3 = Query::from([Some(3), None]);
    assert_eq!(read(&mut hall, 1, &bench_3), (vec![vec![3, 40], vec![3, 41]], false));
    assert_eq!(read(&mut hall, 2, &bench_3), (vec![vec![3, 40], vec![3, 41]], true));
    hall.begin_delete(0, &Query::of_record(&[3, 40])).unwrap();
    assert_eq!(hall.run(0), Ok(Outcome::Changed));
    assert_eq!(read(&mut hall, 2, &bench_3), (vec![vec![3, 41]], false));
    hall.begin_delete(11, &[None, Some(7)].into()).unwrap();
    assert_eq!(hall.run(11), Ok(Outcome::Unchanged));
    assert_eq!(read(&mut hall, 2, &[None, None].into()).0, [[3, 41], [4, 40]]);
}

#[test]
fn single_steps_say_when_the_work_has_ended() {
    let mut hall = three_records();
    hall.begin_read(5, &[Some(4), None].into()).unwrap();
    for _ in 0..4 {
        let outcome = hall.step(5).unwrap();
        assert!(!outcome.has_ended() && outcome == Outcome::UnderWay && outcome.to_string() == "under way");
    }
    let outcome = hall.step(5).unwrap();
    assert!(outcome.has_ended());
    assert_eq!(outcome.to_string(), "answered from the table, 1 record");
    let Outcome::Answered { mut records, from_file: false } = outcome else { panic!() };
    assert_eq!((records.len(), format!("{records:?}")), (1, "[[4, 40]]".to_string()));
    assert_eq!((records.next(), records.len(), records.next()), (Some(&[4, 40][..]), 0, None));
    assert_eq!(hall.step(5), Err(Refusal::Idle));
}

#[test]
fn a_count_is_told_and_no_records() {
    let mut hall = three_records();
    let bench_3 = Query::from([Some(3), None]);
    hall.begin_count(5, &bench_3).unwrap();
    for _ in 0..4 {
        assert_eq!(hall.step(5), Ok(Outcome::UnderWay));
    }
    let outcome = hall.step(5).unwrap();
    assert!(outcome.has_ended());
    assert_eq!((outcome.to_string(), outcome), ("counted from the table, 2 records".into(), Outcome::Counted { count: 2, from_file: false }));
    assert_eq!(hall.step(5), Err(Refusal::Idle));
    assert_eq!(Outcome::Counted { count: 1, from_file: true }.to_string(), "counted from file, 1 record");
    assert_eq!(count(&mut hall, 5, &bench_3), (2, true));
    assert_eq!(count(&mut hall, 5, &[None, None].into()), (3, false));
    assert_eq!(count(&mut hall, 5, &[Some(9), None].into()), (0, false));
}

/// A step's outcome is that of what was begun at its desk, whatever is under way at the others and was at this one before.
#[test]
fn lists_and_counts_at_neighbouring_desks() {
    let mut hall = three_records();
    let bench_3 = Query::from([Some(3), None]);
    for round in 0..2 {
        for client in 0..12 {
            let begun = if client % 2 == round { hall.begin_count(client, &bench_3) } else { hall.begin_read(client, &bench_3) };
            begun.unwrap();
        }
        for client in (0..12).rev() {
            let outcome = hall.run(client).unwrap();
            match outcome {
                Outcome::Counted { count, .. } => assert_eq!((count, client % 2), (2, round)),
                Outcome::Answered { records, .. } => assert_eq!((records.len(), client % 2), (2, 1 - round)),
                other => panic!("desk {client} ended with {other:?}"),
            }
        }
    }
    for client in [12, 13, u32::MAX] {
        assert_eq!(hall.begin_count(client, &bench_3), Err(Refusal::NoClient));
        assert_eq!((hall.step(client).err(), hall.run(client).err()), (Some(Refusal::NoClient), Some(Refusal::NoClient)));
    }
    hall.begin_count(11, &bench_3).unwrap();
    assert_eq!(hall.begin_count(11, &bench_3), Err(Refusal::Taken));
    assert_eq!((hall.abandon(11), hall.step(11)), (Ok(Abandoned::GivenUp), Err(Refusal::Idle)));
}

#[test]
fn each_k_has_its_queries() {
    for k in 1..=4 {
        let mut hall = Hall::open(k).unwrap();
        let record = [7, 8, 9, 10][..k as usize].to_vec();
        assert_eq!((hall.columns(), insert(&mut hall, 0, &record)), (k, Outcome::Changed));
        for named in 0..1 << k {
            let columns: Vec<_> = (0..k as usize).map(|c| (named >> c & 1 == 1).then_some(record[c])).collect();
            assert_eq!(read(&mut hall, 0, &Query::from(&columns[..])).0, [&record[..]], "{columns:?}");
            assert_eq!(count(&mut hall, 0, &Query::from(&columns[..])), (1, false), "{columns:?}");
        }
        for columns in [0, 1, 2, 3, 4, 5, 9, 100].into_iter().filter(|&n| n != k as usize) {
            let (query, before) = (Query::from(&vec![Some(7); columns][..]), hall.clone());
            assert_eq!(hall.begin_read(0, &query), Err(Refusal::Columns), "{columns}");
            assert_eq!(hall.begin_count(0, &query), Err(Refusal::Columns));
            assert_eq!(hall.begin_delete(0, &query), Err(Refusal::Columns));
            assert_eq!(hall.begin_insert(0, &vec![7; columns]), Err(Refusal::Columns));
            assert!(hall == before);
        }
    }
}

#[test]
fn queries_as_numbers_and_as_text() {
    let cases: [(Query, &[u32], &str); 6] = [
        ([].into(), &[], "()"),
        ([Some(5)].into(), &[1, 5], "(5)"),
        ([None, Some(0)].into(), &[0, 0, 1, 0], "(*, 0)"),
        ((&[Some(u32::MAX), None, None]).into(), &[1, u32::MAX, 0, 0, 0, 0], "(4294967295, *, *)"),
        ([Some(1), Some(2), None, Some(4)].into(), &[1, 1, 1, 2, 0, 0, 1, 4], "(1, 2, *, 4)"),
        ([None, None, None, None, Some(6)].into(), &[0, 0, 0, 0, 0, 0, 0, 0, 1, 6], "(*, *, *, *, 6)"),
    ];
    for (query, numbers, text) in cases {
        assert_eq!((query.as_numbers(), query.to_string()), (numbers, text.to_string()));
        let columns: Vec<_> = query.columns().collect();
        assert_eq!((Query::from(&columns[..]), query.columns().len()), (query.clone(), numbers.len() / 2));
    }
    assert_ne!(Query::from([Some(0)]), Query::from([None]));
    assert_eq!(Query::of_record(&[1, 2]), Query::from([Some(1), Some(2)]));
}

/// Every refusal that a hall can meet, by its number; 1 is met by short memories alone.
#[test]
fn each_refusal_is_met_with_its_number() {
    let mut hall = three_records();
    let query = Query::from([Some(3), None]);
    let mut met = vec![Hall::open(0).unwrap_err(), Hall::open(5).unwrap_err()];
    let mut short = [0; saved::NUMBERS - 1];
    met.push(saved::memories(&mut short).open(2).refusal().unwrap());
    met.extend([hall.begin_read(12, &query).unwrap_err(), hall.step(0).unwrap_err(), hall.abandon(0).unwrap_err()]);
    met.extend([hall.evict_answer(0).unwrap_err(), hall.evict_node(1_024).unwrap_err()]);
    hall.begin_insert(7, &[9, 9]).unwrap();
    met.extend([hall.begin_insert(7, &[9, 9]).unwrap_err(), hall.renew().unwrap_err()]);
    (0..5).for_each(|_| assert_eq!(hall.step(7), Ok(Outcome::UnderWay)));
    let marked = hall.inspect().nodes().position(|node| node.unwrap().pending > 0).unwrap();
    met.push(hall.evict_node(marked as u32).unwrap_err());
    hall.memories().nodes[0] = 4_294_967_104;
    met.push(hall.begin_delete(1, &query).unwrap_err());
    hall.memories().clients[0] = 5;
    met.push(hall.run(7).unwrap_err());
    let numbers: Vec<u32> = met.into_iter().map(Refusal::number).collect();
    assert_eq!(numbers, [2, 2, 1, 4, 6, 6, 8, 8, 5, 11, 9, 10, 3]);
    let all = Refusal::ALL.map(Refusal::number);
    let elsewhere = [number::REVERSED, number::TALLY_FULL];
    assert!(all.iter().all(|n| numbers.contains(n) || elsewhere.contains(n)), "14 is met in tests/ranges.rs, 15 in tests/tally.rs");
}

#[test]
fn refused_calls_alter_nothing() {
    let mut hall = three_records();
    hall.begin_insert(7, &[9, 9]).unwrap();
    let before = hall.clone();
    assert_eq!(hall.begin_read(7, &[None, None].into()), Err(Refusal::Taken));
    assert_eq!(hall.begin_count(7, &[None, None].into()), Err(Refusal::Taken));
    assert_eq!(hall.begin_count(12, &[None, None].into()), Err(Refusal::NoClient));
    assert_eq!(hall.begin_insert(12, &[1, 1]), Err(Refusal::NoClient));
    assert_eq!(hall.begin_delete(1, &[None].into()), Err(Refusal::Columns));
    assert_eq!(hall.step(u32::MAX), Err(Refusal::NoClient));
    assert_eq!(hall.abandon(3), Err(Refusal::Idle));
    assert_eq!(hall.evict_answer(64), Err(Refusal::NoEntry));
    assert_eq!(hall.renew(), Err(Refusal::Occupied));
    assert!(hall == before);
    assert_eq!(hall.abandon(7), Ok(Abandoned::GivenUp));
    assert!(hall != before);
}

#[test]
fn refusals_have_numbers_words_and_sentences() {
    let words = ["short", "columns", "unsound", "no desk", "taken", "idle", "no entry", "marked", "worn", "occupied", "reversed", "tally full"];
    // 7 is given no longer; 12 and 13 are ends.
    let numbers = [1, 2, 3, 4, 5, 6, 8, 9, 10, 11, 14, 15];
    assert_eq!(Refusal::ALL.map(Refusal::number), numbers);
    for ((refusal, n), word) in Refusal::ALL.into_iter().zip(numbers).zip(words) {
        assert_eq!((Refusal::try_from(n), refusal.name()), (Ok(refusal), word));
        assert_eq!(refusal.to_string(), format!("{n}, {word}: {}", refusal.sentence()));
        assert_eq!((number::name(n), number::sentence(n)), (refusal.name(), refusal.sentence()));
        assert!(refusal.sentence().contains(';'), "what it means; what to do: {refusal}");
    }
    for n in [0, 7, 12, 13, 16, u32::MAX] {
        assert_eq!(Refusal::try_from(n), Err(NoRefusal(n)));
    }
    assert_eq!(NoRefusal(13).to_string(), "13, full, is no refusal: those are 1 to 6, 8 to 11, 14 and 15");
    assert_eq!([0, 7, 12, 13, 15, 16].map(number::name), ["accepted", "unknown", "long", "full", "tally full", "unknown"]);
    assert_eq!((number::sentence(7), number::sentence(16)), ("No call returns this number.", "No call returns this number."));
    assert_eq!(
        Refusal::Reversed.to_string(),
        "14, reversed: The lowest value of the range is above its highest; give the lower one first, and begin again."
    );
    let error: Box<dyn std::error::Error> = Box::new(Refusal::Idle);
    assert!(error.to_string().starts_with("6, idle: "));
}

#[test]
fn replies_tell_ends_from_refusals() {
    let reply = |number, ending| Reply { number, count: 0, ending };
    assert!(!reply(number::ACCEPTED, ending::NONE).has_ended());
    assert!((1..=4).all(|end| reply(number::ACCEPTED, end).has_ended() && reply(number::ACCEPTED, end).refusal().is_none()));
    for refusal in Refusal::ALL {
        let reply = reply(refusal.number(), ending::NONE);
        assert!(!reply.has_ended() && reply.refusal() == Some(refusal));
    }
    assert!(!reply(7, ending::NONE).has_ended() && reply(7, ending::NONE).refusal().is_none(), "a number that no call gives");
    assert!([12, 13].into_iter().all(|n| reply(n, 0).has_ended() && reply(n, 0).refusal().is_none()));
}

#[test]
fn long_and_full_are_ends() {
    let mut hall = Hall::open(1).unwrap();
    for value in 1..=RECORDS {
        assert_eq!(insert(&mut hall, 0, &[value]), Outcome::Changed);
        if value == 32 {
            assert_eq!(read(&mut hall, 1, &[None].into()).0.len(), 32);
        }
    }
    assert_eq!(insert(&mut hall, 0, &[2_048]), Outcome::Unchanged);
    assert_eq!(insert(&mut hall, 0, &[2_049]), Outcome::Full);
    hall.begin_read(1, &[None].into()).unwrap();
    let outcome = hall.run(1).unwrap();
    assert!(outcome.has_ended() && outcome.to_string().starts_with("12, long: "));
    assert_eq!(outcome, Outcome::Long);
    assert_eq!((count(&mut hall, 1, &[None].into()), count(&mut hall, 1, &[None].into())), ((2_048, false), (2_048, true)));
    assert!(Outcome::Full.has_ended() && Outcome::Full.to_string().starts_with("13, full: "));
    // The desks of both are idle.
    assert_eq!(hall.step(0), Err(Refusal::Idle));
    assert_eq!(hall.step(1), Err(Refusal::Idle));
    assert_eq!(hall.renew(), Ok(()));
}

#[test]
fn putting_out_and_renewing() {
    let mut hall = three_records();
    let query = Query::from([Some(3), None]);
    read(&mut hall, 0, &query);
    assert!(read(&mut hall, 0, &query).1);
    assert_eq!((hall.evict_answer(0), hall.evict_answer(0)), (Ok(()), Err(Refusal::NoEntry)));
    assert!(!read(&mut hall, 0, &query).1, "the answer was put out");
    let nodes = hall.inspect().node_count().unwrap();
    assert_eq!((hall.evict_node(nodes - 1), hall.evict_node(nodes - 1)), (Ok(()), Err(Refusal::NoEntry)));
    assert_eq!(hall.renew(), Ok(()));
    let inside = hall.inspect();
    assert_eq!((inside.answer_count(), inside.node_count(), inside.floor(), inside.record_count()), (Ok(0), Ok(0), Ok(1), Ok(3)));
}

#[test]
fn a_hall_is_saved_and_loaded_with_what_is_under_way() {
    let mut hall = three_records();
    read(&mut hall, 0, &[None, Some(40)].into());
    hall.begin_insert(4, &[5, 5]).unwrap();
    (0..6).for_each(|_| assert_eq!(hall.step(4), Ok(Outcome::UnderWay)));
    hall.begin_count(5, &[None, None].into()).unwrap();
    let bytes = hall.to_bytes();
    assert_eq!((bytes.len(), saved::BYTES, saved::NUMBERS), (113_600, 113_600, 28_400));
    assert_eq!(bytes[..4], [4, 0, 0, 0], "the first number is how many records there are, lowest byte first");
    assert_eq!(bytes[4 * 26_400..][..4], [2, 0, 0, 0], "the clients memory begins with k");
    let mut loaded = Hall::from_bytes(&bytes).unwrap();
    assert!(loaded == hall && loaded.to_bytes() == bytes);
    assert_eq!(loaded.run(4), Ok(Outcome::Changed));
    assert_eq!(loaded.run(5), Ok(Outcome::Counted { count: 4, from_file: false }));
    assert_eq!(read(&mut loaded, 0, &[None, None].into()).0, [[3, 40], [3, 41], [4, 40], [5, 5]]);
    assert!(loaded != hall);
}

#[test]
fn a_wrong_length_is_refused_and_says_what_was_wanted() {
    for found in [0, 1, 4, 113_599, 113_601, 114_112] {
        let error = Hall::from_bytes(&vec![0; found]).unwrap_err();
        assert_eq!(error, WrongLength { found });
        assert_eq!(error.to_string(), format!("a saved hall has 113600 bytes (28400 numbers of 4); here are {found}"));
    }
}

#[test]
fn contents_of_any_kind_are_loaded_and_met_by_the_calls() {
    for fill in [0, 1, 7, 255] {
        let mut hall = Hall::from_bytes(&vec![fill; saved::BYTES]).unwrap();
        assert_eq!(hall.columns(), u32::from_le_bytes([fill; 4]));
        assert_eq!(hall.step(0), Err(Refusal::Unsound));
        assert!(format!("{hall:?}").starts_with("Hall { columns: "));
    }
}

/// An unopened hall, all 0: 2 at a begin, 3 at every other call but opening.
#[test]
fn an_unopened_hall() {
    let mut zeros = vec![0; saved::NUMBERS];
    let mut m: Memories<'_> = saved::memories(&mut zeros);
    let begins = [m.begin_read(0, &[1, 5]), m.begin_count(0, &[1, 5]), m.begin_insert(0, &[1, 5]), m.begin_delete(0, &[1, 5])];
    // No column is below its k, so no range has a column there, and no query has one either.
    let ranged = [m.begin_read_within(0, &[], 0, 4..=9), m.begin_count_within(0, &[], 0, 9..=9), m.begin_read_within(0, &[0, 0], 0, 4..=9)];
    assert_eq!(ranged.map(Reply::refusal), [Some(Refusal::Columns); 3]);
    let others = [m.step(&mut [0; TRAY_LEAST], 0), m.abandon(0), m.evict_answer(0), m.evict_node(0), m.renew()];
    assert_eq!(begins.map(Reply::refusal), [Some(Refusal::Columns); 4]);
    assert_eq!(others.map(Reply::refusal), [Some(Refusal::Unsound); 5]);
    assert_eq!(m.open(1).number, number::ACCEPTED);
}

/// The low calls over a hall's own memories do the same as the hall's.
#[test]
fn the_low_calls_of_a_hall() {
    let (mut hall, mut low) = (Hall::open(1).unwrap(), Hall::open(3).unwrap());
    assert_eq!(low.memories().open(1).number, number::ACCEPTED);
    let mut tray = [0; TRAY_LEAST];
    hall.begin_insert(2, &[5]).unwrap();
    assert_eq!(low.memories().begin_insert(2, &[1, 5]).number, number::ACCEPTED);
    assert_eq!((hall.run(2), low.memories().run(&mut tray, 2).ending), (Ok(Outcome::Changed), ending::CHANGED));
    hall.begin_count(2, &[Some(5)].into()).unwrap();
    assert_eq!(low.memories().begin_count(2, &[1, 5]).number, number::ACCEPTED);
    assert!(hall == low);
    assert_eq!((hall.run(2), low.memories().run(&mut tray, 2).count), (Ok(Outcome::Counted { count: 1, from_file: false }), 1));
    assert!(hall == low && tray == [0; TRAY_LEAST]);
    assert_eq!(read(&mut low, 0, &[Some(5)].into()).0, [[5]]);
}

/// Threads share a hall by one lock around each call, not around a whole read.
#[test]
fn a_lock_around_each_call_is_enough() {
    let hall = std::sync::Mutex::new(three_records());
    std::thread::scope(|scope| {
        for client in 0..4 {
            let hall = &hall;
            scope.spawn(move || {
                hall.lock().unwrap().begin_insert(client, &[10 + client, 9]).unwrap();
                while !hall.lock().unwrap().step(client).unwrap().has_ended() {}
            });
        }
    });
    let mut hall = hall.into_inner().unwrap();
    assert_eq!(read(&mut hall, 0, &[None, Some(9)].into()).0, [[10, 9], [11, 9], [12, 9], [13, 9]]);
}
