//! The description of a saved hall: the whole text of a busy one; wrong lengths, corrupt contents and an unopened hall with the numbers that calls
//! give; bytes of any kind and length.
use describe::describe;
use mondzafeky::{number, saved, Hall, Outcome, TRAY_LEAST};

/// Two records and a filed answer to (3, *); desk 0 is about to raise, desk 11 looks.
fn busy_hall() -> Hall {
    let mut hall = Hall::open(2).unwrap();
    hall.begin_insert(0, &[3, 40]).unwrap();
    assert_eq!(hall.run(0), Ok(Outcome::Changed));
    hall.begin_read(1, &[Some(3), None].into()).unwrap();
    assert!(hall.run(1).unwrap().has_ended());
    hall.begin_insert(0, &[3, 41]).unwrap();
    hall.begin_read(11, &[Some(3), None].into()).unwrap();
    for client in [0, 0, 0, 0, 0, 11] {
        assert_eq!(hall.step(client), Ok(Outcome::UnderWay));
    }
    hall
}

const BUSY: &str = "\
a saved hall, 113,600 bytes

Sizes
  k        2
  records  2 of 2,048
  nodes    7 of 1,024, 4 marked
  answers  1 of 64
  floor    1

Desks
  desk 0: insert of (3, 41), 5 of 9 steps made, next: raise 1 of 4; it has changed the table
  desk 11: read of (3, *), 1 of 5 steps made, next: look 2 of 2; a look has seen a mark; revisions noted: 2
  the other 10 are idle

Calls, tried on copies
  a renewal would give 11, occupied
  a step at desk 0 would give 0, accepted
  a step at desk 11 would give 0, accepted
  a step at any other desk would give 6, idle
  an abandoning at desk 0 would give 0, accepted; the write would end, and has changed the table
  an abandoning at desk 11 would give 0, accepted; nothing would be left of what is under way
  an abandoning at any other desk would give 6, idle
  a write begun at desk 1 would give 0, accepted

Marked nodes, oldest first (all with --all)
  2: (3, *)  counter 2  marks 1
  3: (*, *)  counter 2  marks 1
  5: (3, 41)  counter 1  marks 1
  6: (*, 41)  counter 1  marks 1

Answers, oldest first
  0: (3, *)  revisions 2 1  1 record

Records
  0: (3, 40)
  1: (3, 41)
";

#[test]
fn a_busy_hall() {
    assert_eq!(describe(&busy_hall().to_bytes(), false), BUSY);
    let all = describe(&busy_hall().to_bytes(), true);
    for line in ["Nodes, oldest first\n  0: (3, 40)  counter 2  marks 0\n", "\n  4: (?, *)  counter 1  marks 0\n", "  1 record: (3, 40)\n"] {
        assert!(all.contains(line), "{line}: {all}");
    }
}

/// What an abandoning of a write would do, at each number of steps that it has made.
#[test]
fn a_bench_that_was_pulled_out() {
    for (record, end) in [([3, 41], "has changed the table"), ([3, 40], "has not changed the table")] {
        let mut hall = Hall::open(2).unwrap();
        hall.begin_insert(0, &[3, 40]).unwrap();
        assert_eq!(hall.run(0), Ok(Outcome::Changed));
        hall.begin_insert(4, &record).unwrap();
        for made in 0..9 {
            let text = describe(&hall.to_bytes(), false);
            let left = if made <= 4 { "nothing would be left of what is under way".to_string() } else { format!("the write would end, and {end}") };
            assert!(text.contains(&format!("\n  an abandoning at desk 4 would give 0, accepted; {left}\n")), "{made} steps: {text}");
            assert_eq!(hall.step(4).unwrap().has_ended(), made == 8);
        }
    }
}

#[test]
fn a_new_hall_and_a_long_table() {
    let mut hall = Hall::open(1).unwrap();
    let text = describe(&hall.to_bytes(), true);
    for line in [
        "  all 12 are idle\n",
        "  a renewal would give 0, accepted\n  a step at any desk would give 6, idle\n  an abandoning at any desk would give 6, idle\n",
        "Records\n  none\n",
    ] {
        assert!(text.contains(line), "{line}: {text}");
    }
    for value in 1..=20 {
        hall.begin_insert(3, &[value]).unwrap();
        assert_eq!(hall.run(3), Ok(Outcome::Changed));
    }
    assert!(describe(&hall.to_bytes(), false).ends_with("  15: (16)\n  and 4 more (all with --all)\n"));
    assert!(describe(&hall.to_bytes(), true).ends_with("  18: (19)\n  19: (20)\n"));
}

/// One number of a busy hall altered, by its place in the saved form, and what is said then.
#[test]
fn corrupt_halls_are_told_with_the_numbers_that_calls_give() {
    let desk_11 = 26_408 + 11 * 157;
    let cases: [(usize, u32, &[&str]); 10] = [
        (
            26_400,
            7,
            &[
                "k        k out of range: 7, wanted 1 to 4 (clients memory, place 0)",
                "  desks 0 11: k out of range: 7",
                "any desk would give 3, unsound",
            ],
        ),
        (26_400, 2 << 24, &["with the highest byte first k would be 2"]),
        (0, 2_049, &["records  the number of records out of range: 2049", "a renewal would give 3, unsound"]),
        (0, 3, &["2: (0, 0)  NOT ASCENDING"]),
        (11, 40, &["0: (3, 40)\n  1: (3, 40)  NOT ASCENDING"]),
        (8_201, 1_025, &["nodes    the number of nodes out of range: 1025", "a renewal would give 3, unsound"]),
        (16_415, 33, &["0: (3, *)  revisions 2 1  the list's length out of range: 33", "a step at any desk would give 3, unsound"]),
        (desk_11, 9, &["desk 11: the kind of a busy desk out of range: 9", "a step at desk 11 would give 3, unsound", "at desk 0 would give 0, acc"]),
        (8_200, u32::MAX, &["floor    4294967295", "a write begun at desk 1 would give 10, worn"]),
        (8_208 + 16, 9, &["2: no label: the label's tags out of range: 9", "counter 2  marks 1", "abandoning at desk 0 would give 3, unsound"]),
    ];
    for (place, number, said) in cases {
        let mut numbers = saved::numbers_of(&busy_hall().to_bytes());
        numbers[place] = number;
        let text = describe(&saved::bytes_of(&numbers), false);
        for words in said {
            assert!(text.contains(words), "{words}: {text}");
        }
    }
}

#[test]
fn wrong_lengths_are_described_as_far_as_they_go() {
    let bytes = busy_hall().to_bytes();
    let short = describe(&bytes[..50_002], false);
    for words in [
        "WRONG LENGTH, 50002 bytes; a saved hall has 113,600",
        "left out at its end: 2 of the 4 bytes of a number",
        "records  2 of 2,048",
        "  2: (3, *)  counter 2  marks 1\n",
        "give 1, short",
    ] {
        assert!(short.contains(words), "{words}: {short}");
    }
    let long = describe(&[&bytes[..], &[1]].concat(), false);
    assert!(long.starts_with("WRONG LENGTH, more than 113,600 bytes") && long.ends_with(BUSY.split_once('\n').unwrap().1));
    assert!(describe(&[], false).contains("a step at any desk would give 1, short"));
}

#[test]
fn an_unopened_hall() {
    let text = describe(&vec![0; saved::BYTES], false);
    assert!(text.contains("k is 0 before the opening: a begin would give 2, columns") && text.contains("a renewal would give 3, unsound"), "{text}");
}

fn any(state: &mut u64) -> u32 {
    *state = state.wrapping_mul(6_364_136_223_846_793_005).wrapping_add(1_442_695_040_888_963_407);
    (*state >> 33) as u32
}

/// Forty records and a filed count of (3, *); desk 5 is about to be answered with it from file, desk 6 to file a count of its own.
fn counting_hall() -> Hall {
    let mut hall = Hall::open(2).unwrap();
    for setting in 1..=40 {
        hall.begin_insert(0, &[3, setting]).unwrap();
        assert_eq!(hall.run(0), Ok(Outcome::Changed));
    }
    hall.begin_count(6, &[None, None].into()).unwrap();
    (0..3).for_each(|_| assert_eq!(hall.step(6), Ok(Outcome::UnderWay)));
    hall.begin_count(1, &[Some(3), None].into()).unwrap();
    assert_eq!(hall.run(1), Ok(Outcome::Counted { count: 40, from_file: false }));
    hall.begin_count(5, &[Some(3), None].into()).unwrap();
    (0..2).for_each(|_| assert_eq!(hall.step(5), Ok(Outcome::UnderWay)));
    hall
}

#[test]
fn counts_are_told_as_counts() {
    let numbers = saved::numbers_of(&counting_hall().to_bytes());
    let told = |alter: &[(usize, u32)], all: bool| {
        let mut numbers = numbers.clone();
        alter.iter().for_each(|(place, number)| numbers[*place] = *number);
        describe(&saved::bytes_of(&numbers), all)
    };
    for text in [told(&[], false), told(&[], true)] {
        for words in [
            "\n  desk 5: count of (3, *), 2 of 5 steps made, next: fetch; revisions noted: 41 1\n",
            "\n  desk 6: count of (*, *), 3 of 4 steps made, next: file; revisions noted: 41\n",
            "\n  a step at desk 5 would give 0, accepted; the count would end with 40 from file\n",
            "\n  a step at desk 6 would give 0, accepted; the count would end with 40 from the table\n",
            "\n  0: (3, *)  revisions 41 1  count 40\n",
        ] {
            assert!(text.contains(words), "{words}: {text}");
        }
    }
    // Numbers in the list's place of a count are no records; without the count's bit they are, and 40 is too many.
    let key = 16_408;
    assert!(told(&[(key + 24, 7), (key + 25, 7)], true).contains("\n  0: (3, *)  revisions 41 1  count 40\n"));
    assert!(told(&[(key, 1)], true).contains("\n  0: (3, *)  revisions 41 1  the list's length out of range: 40, wanted 0 to 32"));
    assert!(told(&[(key, 1), (key + 7, 1), (key + 24, 3)], true).contains("\n  0: (3, *)  revisions 41 1  1 record: (3, 0)\n"));
    let above = told(&[(key + 7, 2_049)], true);
    assert!(above.contains("  the count out of range: 2049, wanted 0 to 2,048") && above.contains("a step at any desk would give 3, unsound"));
}

/// Classes 3 to 10 of bench 7; classes 4 to 9 are on file as a list and, of any bench, as a count.
/// Desk 5 is about to be answered with the list from file, desk 6 to file a count of classes 5 to
/// 5.
fn ranged_hall() -> Hall {
    let mut hall = Hall::open(2).unwrap();
    for class in 3..=10 {
        hall.begin_insert(0, &[7, class]).unwrap();
        assert_eq!(hall.run(0), Ok(Outcome::Changed));
    }
    hall.begin_count_within(6, &[Some(7), None].into(), 1, 5..=5).unwrap();
    (0..4).for_each(|_| assert_eq!(hall.step(6), Ok(Outcome::UnderWay)));
    hall.begin_read_within(1, &[Some(7), None].into(), 1, 4..=9).unwrap();
    assert!(hall.run(1).unwrap().has_ended());
    hall.begin_count_within(1, &[None, None].into(), 1, 4..=9).unwrap();
    assert_eq!(hall.run(1), Ok(Outcome::Counted { count: 6, from_file: false }));
    hall.begin_read_within(5, &[Some(7), None].into(), 1, 4..=9).unwrap();
    (0..2).for_each(|_| assert_eq!(hall.step(5), Ok(Outcome::UnderWay)));
    hall
}

#[test]
fn ranges_are_told_in_the_place_of_their_column() {
    let text = describe(&ranged_hall().to_bytes(), false);
    for words in [
        "\n  desk 5: read of (7, 4 to 9), 2 of 5 steps made, next: fetch; revisions noted: 9 1\n",
        "\n  desk 6: count of (7, 5 to 5), 4 of 5 steps made, next: file; revisions noted: 9 1\n",
        "\n  a step at desk 5 would give 0, accepted; the read would end with 6 records from file\n",
        "\n  a step at desk 6 would give 0, accepted; the count would end with 1 from the table\n",
        "\n  0: (7, 4 to 9)  revisions 9 1  6 records\n",
        "\n  1: (*, 4 to 9)  revisions 9  count 6\n",
    ] {
        assert!(text.contains(words), "{words}: {text}");
    }
    let all = describe(&ranged_hall().to_bytes(), true);
    assert!(all.contains("\n  0: (7, 4 to 9)  revisions 9 1  6 records: (7, 4) (7, 5) (7, 6) (7, 7) (7, 8) (7, 9)\n"), "{all}");
}

/// Ranges that no begin leaves: at a desk the step there gives 3 and it is said why, on file no
/// call minds.
#[test]
fn senseless_ranges_are_told_with_the_numbers_that_calls_give() {
    let (desk_5, filed) = (26_408 + 5 * 157, 16_408);
    let cases = [
        (5, 97, "the marks of the query out of range: 97, wanted a bit for each named column, 16 more for a count, 32 more for each column"),
        (5, 33, "the marks of the query out of range: 33, wanted no mark at the ranged column"),
        (5, 1, "the lowest value of the range out of range: 4, wanted 0 where there is no range"),
        (10, 10, "the highest value of the range out of range: 9, wanted not below the lowest"),
    ];
    for (offset, number, words) in cases {
        let altered = |place: usize| {
            let mut numbers = saved::numbers_of(&ranged_hall().to_bytes());
            numbers[place] = number;
            describe(&saved::bytes_of(&numbers), false)
        };
        let (held, kept) = (altered(desk_5 + offset), altered(filed + offset - 5));
        for said in [&format!("\n  desk 5: {words}"), "\n  a step at desk 5 would give 3, unsound\n", "\n  a step at desk 6 would give 0, accepted;"]
        {
            assert!(held.contains(said), "{said}: {held}");
        }
        for said in
            [&format!("\n  0: {words}"), "  6 records\n", "\n  a step at desk 5 would give 0, accepted\n", "\n  a step at desk 6 would give 0,"]
        {
            assert!(kept.contains(said), "{said}: {kept}");
        }
    }
}

/// Twelve desks whose steps reply alike are told together only if all count or none does.
#[test]
fn lists_and_counts_that_reply_alike() {
    for counting in [0, 1, 12] {
        let mut hall = Hall::open(1).unwrap();
        for client in 0..12 {
            let begun = if client < counting { hall.begin_count(client, &[None].into()) } else { hall.begin_read(client, &[None].into()) };
            begun.unwrap();
            (0..3).for_each(|_| assert_eq!(hall.step(client), Ok(Outcome::UnderWay)));
        }
        let text = describe(&hall.to_bytes(), false);
        let told = |end: &str| text.matches(&format!("would give 0, accepted; the {end} from the table\n")).count();
        let (lists, counts) = [(1, 0), (11, 1), (0, 1)][counting.min(2) as usize];
        assert_eq!((told("read would end with 0 records"), told("count would end with 0")), (lists, counts), "{text}");
        assert_eq!(text.contains("a step at any desk would give"), counting != 1);
    }
}

/// Random bytes of random lengths, and busy halls with random numbers put in: nothing panics, and each number told is the one that the call gives.
#[test]
fn bytes_of_any_kind_and_length() {
    let (sound, mut state) = ([busy_hall(), counting_hall(), ranged_hall()].map(|hall| hall.to_bytes()), 13);
    for round in 0..300 {
        let mut bytes: Vec<u8> = match round % 3 {
            0 => (0..any(&mut state) % 120_000).map(|_| any(&mut state) as u8).collect(),
            1 => (0..saved::BYTES).map(|i| if i % 4 == 0 { (any(&mut state) % 5) as u8 } else { 0 }).collect(),
            _ => sound[round / 3 % 3].clone(),
        };
        for _ in 0..any(&mut state) % 8 {
            let place = (any(&mut state) as usize % 28_400) * 4;
            let place = [place, 0, 32_804, 65_600, 105_600, 105_632, 105_636, 112_540][any(&mut state) as usize % 8];
            bytes.iter_mut().skip(place).take(1).for_each(|byte| *byte = any(&mut state) as u8);
        }
        let text = describe(&bytes, round % 2 == 0);
        let mut numbers = saved::numbers_of(&bytes);
        let step = saved::memories(&mut numbers.clone()).step(&mut [0; TRAY_LEAST], 11).number;
        let abandoning = saved::memories(&mut numbers.clone()).abandon(11).number;
        let renewal = saved::memories(&mut numbers).renew().number;
        assert!(text.contains(&format!("a renewal would give {renewal}, {}\n", number::name(renewal))), "{text}");
        for (call, number) in [("a step", step), ("an abandoning", abandoning)] {
            let told =
                ["at desk 11", "at any desk", "at any other desk"].map(|at| format!("{call} {at} would give {number}, {}", number::name(number)));
            assert!(told.iter().any(|words| text.contains(words)), "{call}, {number}: {text}");
        }
    }
}
