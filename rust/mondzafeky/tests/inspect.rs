//! Looking inside: what is seen of a hall as its desks step, what is said of contents that are out of range, and that it agrees with the numbers
//! that the proved calls give on damaged halls. Nothing panics on memories of any lengths and contents.
mod rng;

use mondzafeky::inspect::{Entry, Inspect, Kind, Label, OutOfRange, Range, Stage, Term, Value};
use mondzafeky::{saved, Hall, Memories, Outcome, Query, Refusal};
use rng::Rng;

/// Records (3, 40) and (3, 41), a list and a count of (3, *) on file, an insert of (8, 9) that has been at the table, a read and a count under way.
fn busy_hall() -> Hall {
    let mut hall = Hall::open(2).unwrap();
    for record in [[3, 41], [3, 40]] {
        hall.begin_insert(0, &record).unwrap();
        assert_eq!(hall.run(0), Ok(Outcome::Changed));
    }
    hall.begin_read(1, &[Some(3), None].into()).unwrap();
    assert!(hall.run(1).unwrap().has_ended());
    hall.begin_count(1, &[Some(3), None].into()).unwrap();
    assert!(hall.run(1).unwrap().has_ended());
    hall.begin_insert(0, &[8, 9]).unwrap();
    hall.begin_read(11, &[None, Some(9)].into()).unwrap();
    hall.begin_count(6, &[Some(3), None].into()).unwrap();
    for client in [0, 0, 0, 0, 0, 11, 6] {
        assert_eq!(hall.step(client), Ok(Outcome::UnderWay));
    }
    hall
}

#[test]
fn sizes_records_nodes_and_answers() {
    let hall = busy_hall();
    let inside = hall.inspect();
    assert_eq!((inside.columns(), inside.record_count(), inside.answer_count(), inside.floor()), (Ok(2), Ok(3), Ok(2), Ok(1)));
    assert_eq!(inside.records().map(Result::unwrap).collect::<Vec<_>>(), [[3, 40], [3, 41], [8, 9]]);
    let nodes: Vec<String> = inside.nodes().map(|node| node.unwrap().to_string()).collect();
    assert_eq!(nodes.len(), inside.node_count().unwrap() as usize);
    // Made by the first insert, marked by the third; by the read of (3, *); by the third insert; by the read of (*, 9), which found (*, 9) there.
    for text in ["(3, 41)  counter 2  marks 0", "(*, *)  counter 3  marks 1", "(?, *)  counter 1  marks 0", "(8, *)  counter 1  marks 1"] {
        assert!(nodes.contains(&text.to_string()), "{text}: {nodes:?}");
    }
    let place = nodes.iter().position(|text| text.starts_with("(?, *)")).unwrap();
    assert_eq!(inside.node(place as u32).unwrap().label, Ok(Label(vec![Term::Any, Term::Wildcard])));
    let answer = inside.answer(0).unwrap();
    assert_eq!((answer.query, answer.revisions), (Ok(Query::from([Some(3), None])), &[3, 1][..]));
    let Ok(Value::List(list)) = answer.value else { panic!() };
    assert_eq!(list.collect::<Vec<_>>(), [[3, 40], [3, 41]]);
    let counted = Entry { query: Ok(Query::from([Some(3), None])), range: None, revisions: &[3, 1], value: Ok(Value::Count(2)) };
    assert_eq!(counted.asked().as_deref(), Ok("(3, *)"));
    assert_eq!(inside.answer(1), Ok(counted));
}

#[test]
fn desks_and_how_far_they_are() {
    let hall = busy_hall();
    let (insert, read) = (hall.inspect().work(0).unwrap().unwrap(), hall.inspect().work(11).unwrap().unwrap());
    assert_eq!(insert.to_string(), "insert of (8, 9), 5 of 9 steps made, next: raise 1 of 4");
    assert_eq!((insert.kind, insert.changed, insert.full, insert.noted.len()), (Kind::Insert, true, false, 0));
    assert_eq!(read.to_string(), "read of (*, 9), 1 of 5 steps made, next: look 2 of 2");
    assert_eq!((read.kind, read.counts, read.saw_pending, read.noted), (Kind::Read, false, true, vec![1]));
    let count = hall.inspect().work(6).unwrap().unwrap();
    assert_eq!(count.to_string(), "count of (3, *), 1 of 5 steps made, next: look 2 of 2");
    assert_eq!((count.kind, count.counts, count.saw_pending, count.noted), (Kind::Read, true, false, vec![3]));
    assert!((1..11).filter(|&client| client != 6).all(|client| hall.inspect().work(client) == Ok(None)));
    assert_eq!(hall.inspect().work(12).unwrap_err().to_string(), "the desk out of range: 12, wanted 0 to 11");
}

/// The stages of a whole read, of a whole count and of a whole delete, as they come.
#[test]
fn every_stage_in_its_order() {
    let mut hall = Hall::open(2).unwrap();
    let mut stages = |query: Query, begin: fn(&mut Hall, u32, &Query) -> Result<(), Refusal>| {
        begin(&mut hall, 6, &query).unwrap();
        let mut stages = Vec::new();
        while let Some(work) = hall.inspect().work(6).unwrap() {
            assert_eq!((work.steps as usize, &work.query), (stages.len(), &query));
            stages.push(work.stage());
            assert_eq!(hall.step(6).unwrap().has_ended(), work.steps + 1 == work.of || stages.len() > 40);
        }
        stages.iter().map(Stage::to_string).collect::<Vec<_>>().join(", ")
    };
    assert_eq!(stages([Some(3), None].into(), Hall::begin_read), "look 1 of 2, look 2 of 2, fetch, table, file");
    assert_eq!(stages([Some(3), None].into(), Hall::begin_count), "look 1 of 2, look 2 of 2, fetch, table, file");
    assert_eq!(stages([None, None].into(), Hall::begin_read), "look 1 of 1, fetch, table, file");
    let write = "mark 1 of 4, mark 2 of 4, mark 3 of 4, mark 4 of 4, table, raise 1 of 4, raise 2 of 4, raise 3 of 4, raise 4 of 4";
    assert_eq!(stages([None, Some(2)].into(), Hall::begin_delete), write);
}

/// Records (3, 4), (3, 9) and (3, 20); a list of (3, 4 to 9) and a count of (3 to 3, *) on file;
/// the same count under way at desk 6, and a list of (8, 0 to 4294967295) at desk 11.
fn ranged_hall() -> Hall {
    let mut hall = Hall::open(2).unwrap();
    for record in [[3, 4], [3, 9], [3, 20]] {
        hall.begin_insert(0, &record).unwrap();
        assert_eq!(hall.run(0), Ok(Outcome::Changed));
    }
    hall.begin_read_within(1, &[Some(3), None].into(), 1, 4..=9).unwrap();
    assert!(hall.run(1).unwrap().has_ended());
    hall.begin_count_within(1, &[None, None].into(), 0, 3..=3).unwrap();
    assert!(hall.run(1).unwrap().has_ended());
    hall.begin_count_within(6, &[None, None].into(), 0, 3..=3).unwrap();
    hall.begin_read_within(11, &[Some(8), None].into(), 1, 0..=u32::MAX).unwrap();
    assert_eq!(hall.step(11), Ok(Outcome::UnderWay));
    hall
}

#[test]
fn ranges_under_way_and_on_file() {
    let hall = ranged_hall();
    let inside = hall.inspect();
    let (count, read) = (inside.work(6).unwrap().unwrap(), inside.work(11).unwrap().unwrap());
    assert_eq!(count.to_string(), "count of (3 to 3, *), 0 of 4 steps made, next: look 1 of 1");
    assert_eq!((count.query, count.range, count.counts), ([None, None].into(), Some(Range { column: 0, lowest: 3, highest: 3 }), true));
    assert_eq!(read.to_string(), "read of (8, 0 to 4294967295), 1 of 5 steps made, next: look 2 of 2");
    assert_eq!((read.query, read.range, read.counts), ([Some(8), None].into(), Some(Range { column: 1, lowest: 0, highest: u32::MAX }), false));
    let (list, counted) = (inside.answer(0).unwrap(), inside.answer(1).unwrap());
    assert_eq!((list.asked().as_deref(), counted.asked().as_deref()), (Ok("(3, 4 to 9)"), Ok("(3 to 3, *)")));
    assert_eq!((list.query, list.range), (Ok([Some(3), None].into()), Some(Range { column: 1, lowest: 4, highest: 9 })));
    assert_eq!((list.revisions.len(), counted.revisions.len(), counted.value), (2, 1, Ok(Value::Count(3))));
    let Ok(Value::List(records)) = list.value else { panic!() };
    assert_eq!(records.collect::<Vec<_>>(), [[3, 4], [3, 9]]);
    // A write and a plain read have none.
    assert!(busy_hall().inspect().work(0).unwrap().unwrap().range.is_none() && busy_hall().inspect().answer(0).unwrap().range.is_none());
}

/// The number at a place of a hall with ranges altered, and what is said of it; at a desk it is 3,
/// on file it is not.
#[test]
fn ranges_that_no_begin_leaves_are_said() {
    let desk_11 = 8 + 11 * 157;
    let marks = "a bit for each named column, 16 more for a count, 32 more for each column up to a ranged one";
    let cases = [
        (5, 97, format!("the marks of the query out of range: 97, wanted {marks}")),
        (5, u32::MAX - 14, format!("the marks of the query out of range: 4294967281, wanted {marks}")),
        (5, 33, "the marks of the query out of range: 33, wanted no mark at the ranged column".to_string()),
        (5, 67, "the marks of the query out of range: 67, wanted no mark at the ranged column".to_string()),
        (7, 5, "the query's value out of range: 5, wanted 0 where no value is named".to_string()),
        (5, 1, "the highest value of the range out of range: 4294967295, wanted 0 where there is no range".to_string()),
        (10, 5, "the highest value of the range out of range: 3, wanted not below the lowest".to_string()),
    ];
    for (offset, number, words) in cases {
        let mut hall = ranged_hall();
        let m = hall.memories();
        // Both are keys of a query with column 0 named and column 1 ranged.
        let filed = 8 + offset - 5;
        (m.clients[desk_11 + offset], m.answers[filed]) = (number, number);
        if offset == 10 {
            (m.clients[desk_11 + 11], m.answers[14]) = (3, 3);
        } else if number == 1 {
            (m.answers[13], m.answers[14]) = (0, u32::MAX);
        }
        let (held, entry) = (hall.inspect().work(11).unwrap_err().to_string(), hall.inspect().answer(0).unwrap());
        let fault = entry.asked().unwrap_err().to_string();
        assert!(held.starts_with(&words) && fault.starts_with(&words), "{words}: {held}; {fault}");
        assert_eq!((entry.range, entry.revisions.len(), entry.value.is_ok()), (None, 16, true));
        assert_eq!((hall.step(11).err(), hall.evict_answer(2)), (Some(Refusal::Unsound), Err(Refusal::NoEntry)));
    }
}

/// The first thing that is out of range.
fn first(inside: Inspect<'_>) -> Option<OutOfRange> {
    let counts = [inside.columns(), inside.record_count(), inside.node_count(), inside.answer_count()];
    let mut faults: Vec<OutOfRange> = counts.into_iter().filter_map(Result::err).collect();
    faults.extend(inside.nodes().flatten().filter_map(|node| node.label.err()));
    faults.extend(inside.answers().flatten().flat_map(|entry| [entry.query.err(), entry.value.err()]).flatten());
    faults.extend((0..12).filter_map(|client| inside.work(client).err()));
    faults.into_iter().next()
}

/// A busy hall with one number altered: the memory (0 table .. 3 clients), the place, the number.
fn altered(memory: usize, place: usize, number: u32) -> Hall {
    let mut hall = busy_hall();
    let m = hall.memories();
    [m.table, m.nodes, m.answers, m.clients][memory][place] = number;
    hall
}

#[test]
fn the_largest_numbers_are_in_range() {
    assert_eq!(first(busy_hall().inspect()), None);
    let (desk_6, desk_11) = (8 + 6 * 157, 8 + 11 * 157);
    let lengths = [(2, 15, 32), (2, 152 + 15, 2_048), (3, 8 + 12, 32), (3, desk_6 + 12, 2_048)];
    for (memory, place, number) in [(0, 0, 2_048), (3, desk_11 + 1, 4), (3, 8 + 1, 8), (1, 13, u32::MAX)].into_iter().chain(lengths) {
        assert_eq!(first(altered(memory, place, number).inspect()), None, "{memory} {place}");
    }
}

/// Which limit a kept length has is bit 4's alone to say, and numbers where a count's entry has no list are no records.
#[test]
fn counts_that_no_history_leaves() {
    let value_of = |key: u32, length: u32| {
        let mut hall = altered(2, 160, key);
        hall.memories().answers[160 + 7..][..145].fill(length);
        format!("{:?}", hall.inspect().answer(1).unwrap().value.map_err(|fault| (fault.found, fault.wanted)))
    };
    for key in [16, 17, 48, u32::MAX] {
        assert_eq!([0, 33, 2_048].map(|count| value_of(key, count)), ["Ok(Count(0))", "Ok(Count(33))", "Ok(Count(2048))"], "{key}");
        for count in [2_049, u32::MAX] {
            assert_eq!(value_of(key, count), format!("Err((Some({count}), \"0 to 2,048\"))"), "{key}");
        }
    }
    for key in [0, 1, 15, 32, u32::MAX - 16] {
        assert_eq!([1, 33].map(|length| value_of(key, length)), ["Ok(List([[1, 1]]))", "Err((Some(33), \"0 to 32\"))"], "{key}");
    }
    // A count is told without k; a list is not.
    let without_k = altered(3, 0, 5);
    let told: Vec<bool> = without_k.inspect().answers().map(|entry| entry.unwrap().value.is_ok()).collect();
    assert_eq!(told, [false, true]);
}

/// What is said of one number that is altered.
#[test]
fn what_is_out_of_range_is_said() {
    let (desk_6, desk_11) = (8 + 6 * 157, 8 + 11 * 157);
    let marks = "a bit for each named column, 16 more for a count, 32 more for each column up to a ranged one";
    let cases = [
        (3, 0, 5, "k out of range: 5, wanted 1 to 4 (clients memory, place 0)"),
        (0, 0, 2_049, "the number of records out of range: 2049, wanted 0 to 2,048 (table memory, place 0)"),
        (1, 1, 1_025, "the number of nodes out of range: 1025, wanted 0 to 1,024 (nodes memory, place 1)"),
        (2, 0, 65, "the number of answers out of range: 65, wanted 0 to 64 (answers memory, place 0)"),
        (1, 8, 0x0401, "the label's tags out of range: 1025, wanted 1, 2 or 3 in each column's byte, 0 in the others (nodes memory, place 8)"),
        (1, 11, 1, "the label's value out of range: 1, wanted 0 where the column has none (nodes memory, place 11)"),
        (2, 8, 4, &format!("the marks of the query out of range: 4, wanted {marks} (answers memory, place 8)")),
        (2, 160, 113, &format!("the marks of the query out of range: 113, wanted {marks} (answers memory, place 160)")),
        (2, 160, 49, "the marks of the query out of range: 49, wanted no mark at the ranged column (answers memory, place 160)"),
        (2, 160 + 7, 2_049, "the count out of range: 2049, wanted 0 to 2,048 (answers memory, place 167)"),
        (3, desk_6 + 12, 2_049, "the count out of range: 2049, wanted 0 to 2,048 (clients memory, place 962)"),
        (3, desk_6 + 5, 20, &format!("the marks of the query out of range: 20, wanted {marks} (clients memory, place 955)")),
        (3, desk_6, 3, "the marks of a write out of range: 17, wanted a bit for each named column and no other (clients memory, place 955)"),
        (2, 15, 33, "the list's length out of range: 33, wanted 0 to 32 (answers memory, place 15)"),
        (3, desk_11, 4, "the kind of a busy desk out of range: 4, wanted 1 to 3 (clients memory, place 1735)"),
        (3, desk_11 + 1, 5, "the number of steps made out of range: 5, wanted below the steps of this work (clients memory, place 1736)"),
        (3, desk_11 + 6, 1, "the query's value out of range: 1, wanted 0 where no value is named (clients memory, place 1741)"),
        (3, desk_11 + 10, 1, "the lowest value of the range out of range: 1, wanted 0 where there is no range (clients memory, place 1745)"),
        (3, desk_11 + 11, 1, "the highest value of the range out of range: 1, wanted 0 where there is no range (clients memory, place 1746)"),
        (3, desk_11 + 12, 33, "the list's length out of range: 33, wanted 0 to 32 (clients memory, place 1747)"),
        (3, 8 + 5, 1, "the query's value out of range: 9, wanted 0 where no value is named (clients memory, place 15)"),
    ];
    for (memory, place, number, words) in cases {
        assert_eq!(first(altered(memory, place, number).inspect()).map(|fault| fault.to_string()).as_deref(), Some(words));
    }
}

#[test]
fn short_memories_are_told_as_far_as_they_go() {
    let hall = busy_hall();
    let numbers = saved::numbers_of(&hall.to_bytes());
    let cut = |length: usize| Inspect::of_saved(&numbers[..length]);
    assert_eq!(cut(0).record_count().unwrap_err().to_string(), "the number of records missing: the table memory ends before place 0");
    assert_eq!((cut(11).record_count(), cut(8_199).floor().is_err()), (Ok(3), true));
    // A label's own tags tell its columns, if k does not.
    assert_eq!(cut(8_224).node(0).unwrap().to_string(), "(3, 41)  counter 2  marks 0");
    assert_eq!(cut(8_224).node(2).unwrap_err().to_string(), "a node missing: the nodes memory ends before place 24");
    assert!(Inspect::of_saved(&[&numbers[..8_208], &[0; 8]].concat()).node(0).unwrap().label.is_err());
    // Without k there are no records to tell; with k and a table that ends in the second record there is the first.
    assert!(cut(12).record(0).is_err());
    let (mut table, mut clients) = (numbers[..11].to_vec(), numbers[26_400..].to_vec());
    let m = Memories { table: &mut table, nodes: &mut [], answers: &mut [], clients: &mut clients };
    let records: Vec<_> = Inspect::of(&m).records().collect();
    assert_eq!((records.len(), records[0].as_deref()), (2, Ok(&[3, 40][..])));
    assert_eq!(records[1].as_ref().unwrap_err().to_string(), "a record missing: the table memory ends before place 11");
}

/// Everything that can be looked at, at places past the last too. How much was seen.
fn look_at_all(inside: Inspect<'_>) -> usize {
    let mut text = format!("{:?} {:?}", inside.columns(), inside.floor());
    inside.records().for_each(|record| text += &format!("{record:?}"));
    inside.nodes().for_each(|node| text += &node.map_or_else(|fault| fault.to_string(), |node| node.to_string()));
    inside.answers().for_each(|entry| text += &format!("{entry:?}"));
    for n in [0, 1, 11, 12, 63, 64, 1_023, 1_024, 2_047, 2_048, u32::MAX] {
        text += &format!("{:?} {:?} {:?} {:?}", inside.record(n), inside.node(n), inside.answer(n), inside.work(n));
        text += &inside.work(n).ok().flatten().map_or(String::new(), |work| work.to_string());
    }
    text.len()
}

#[test]
fn memories_of_any_lengths_and_contents_do_not_panic() {
    let mut rng = Rng(13);
    for round in 0..150 {
        let mut memories = [0; 4].map(|_: u32| {
            let length = [20, 200, 2_000, 8_200, 10_000][rng.below(5) as usize];
            let length = rng.below(length + 1);
            (0..length).map(|_| rng.number()).collect::<Vec<u32>>()
        });
        if round % 2 == 0 {
            // With k in range more is looked at.
            memories[3].splice(..1.min(memories[3].len()), [1 + rng.below(4)]);
        }
        let [table, nodes, answers, clients] = &mut memories;
        assert!(look_at_all(Inspect::of(&Memories { table, nodes, answers, clients })) > 0);
    }
}

/// A busy hall with some numbers altered: headers, filed keys and lengths, and numbers at the
/// desks; of some only the bit of a count or one of a ranged column.
fn damaged(rng: &mut Rng, sound: &[u32]) -> Vec<u32> {
    let mut numbers = sound.to_vec();
    for _ in 0..1 + rng.below(3) {
        let place = match rng.below(7) {
            0 => [0, 8_201, 16_400, 26_400][rng.below(4) as usize],
            1 => 16_408 + rng.below(2 * 152),
            2 => 16_408 + 152 * rng.below(2) + 7 * rng.below(2),
            3 => 26_408 + 157 * rng.below(12) + rng.below(157),
            _ => 26_408 + 157 * [0, 6, 11][rng.below(3) as usize] + rng.below(14),
        } as usize;
        numbers[place] = match rng.below(8) {
            0 | 1 => numbers[place] ^ 16,
            2 => numbers[place] ^ (32 << rng.below(3)),
            _ => rng.number(),
        };
    }
    numbers
}

/// On damaged halls the proved calls decide: 3 at putting out the answer past all places exactly if k, a number of entries, a filed list's length
/// or a filed count is out of range here; and if not, a begin is accepted at a desk seen idle, 5 at one seen busy, 3 at one out of range.
#[test]
fn what_is_seen_agrees_with_the_numbers_of_the_calls() {
    let sound = [busy_hall(), ranged_hall()].map(|hall| saved::numbers_of(&hall.to_bytes()));
    let (mut rng, mut met, mut above_32, mut ranges) = (Rng(7), [0; 6], 0, [0; 2]);
    for round in 0..4_000 {
        let mut numbers = damaged(&mut rng, &sound[round % 2]);
        let inside = Inspect::of_saved(&numbers);
        let counts = [inside.columns(), inside.record_count(), inside.node_count(), inside.answer_count()];
        let whole = counts.iter().all(Result::is_ok) && inside.answers().all(|entry| entry.unwrap().value.is_ok());
        above_32 += inside.answers().flatten().filter(|entry| matches!(entry.value, Ok(Value::Count(33..)))).count();
        look_at_all(inside);
        let works: Vec<_> = (0..12).map(|client| inside.work(client)).collect();
        ranges[0] += works.iter().flatten().flatten().filter(|work| work.range.is_some()).count();
        ranges[1] += works.iter().flat_map(|work| work.as_ref().err()).filter(|fault| fault.what.ends_with("of the range")).count();
        let seen: Vec<_> = works.into_iter().map(|work| work.map(|work| work.is_some())).collect();
        let stars = vec![0; 2 * inside.columns().unwrap_or(0) as usize];
        assert_eq!(saved::memories(&mut numbers).evict_answer(u32::MAX).number, if whole { 8 } else { 3 });
        for (client, seen) in seen.into_iter().enumerate().filter(|_| whole) {
            let expected = seen.map_or(3, |busy| if busy { 5 } else { 0 });
            assert_eq!(saved::memories(&mut numbers).begin_read(client as u32, &stars).number, expected, "desk {client}");
            met[expected as usize] += 1;
        }
        met[4] += !whole as u32;
    }
    assert!([0, 3, 4, 5].into_iter().all(|n| met[n] > 30), "{met:?}");
    assert!(above_32 > 5, "filed counts above 32: {above_32}");
    assert!(ranges[0] > 1_000 && ranges[1] > 50, "held ranges, ends out of range: {ranges:?}");
}
