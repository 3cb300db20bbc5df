//! What came of the mixing in a sound controller and in the faulty one, what the lanes show of it, and when each answer was true. The sound one
//! is the library where the feature `archive` is on, and the twin without a fault where it is not.

use demo::controller::{FAULTY, SOUND};
use demo::lanes::{lanes, wrapped};
use demo::plain::{plain_tables, Truth};
use demo::script::{Part, NEW, OLD, READER, WRITERS};
use demo::story::{fault_shows, faulty_half, library_fails, library_half, SETTING};
use demo::trace::Trace;
use demo::words::{table_records, told};

const SHOWN: [Part; 3] = [Part::Mixing, Part::Later, Part::Again];

#[cfg(feature = "archive")]
fn sound() -> Trace {
    Trace::play(&demo::controller::Library)
}

#[cfg(not(feature = "archive"))]
fn sound() -> Trace {
    Trace::play(&SOUND)
}

fn truths(trace: &Trace) -> [Truth; 3] {
    SHOWN.map(|part| Truth::of(trace, part).expect("the read is answered"))
}

#[test]
fn the_later_reads_get_the_new_zero_and_the_second_of_them_from_file() {
    let trace = sound();
    let [mixed, later, again] = truths(&trace);
    assert_eq!((mixed.records, mixed.from_file), (vec![OLD], false));
    assert_eq!((later.records, later.from_file), (vec![NEW], false));
    assert_eq!((again.records, again.from_file), (vec![NEW], true));
    assert_eq!(library_fails(&trace), None);
    assert!(!fault_shows(&trace));
}

#[test]
fn the_faulty_controller_gives_the_old_zero_from_file_while_its_table_is_right() {
    let trace = Trace::play(&FAULTY);
    let [mixed, later, again] = truths(&trace);
    assert_eq!((mixed.records, mixed.from_file), (vec![OLD], false));
    assert_eq!((later.records, later.from_file), (vec![OLD], true));
    assert_eq!((again.records, again.from_file), (vec![OLD], true));
    assert_eq!(table_records(&trace.made.last().unwrap().hall), [NEW]);
    assert!(fault_shows(&trace));
    assert_eq!(library_fails(&trace), Some("an answer was true at no moment of its read"));
}

#[test]
fn an_answer_is_said_to_be_true_when_it_was() {
    let trace = sound();
    let [mixed, later, again] = truths(&trace).map(|truth| truth.told(&trace));
    assert_eq!(mixed, "true from step 8, this read's begin, to step 15, its answer.");
    assert_eq!(later, "true from step 26, this read's begin, to step 31, its answer.");
    assert_eq!(again, "true from step 32, this read's begin, to step 35, its answer.");
    let trace = Trace::play(&FAULTY);
    let [mixed, later, again] = truths(&trace).map(|truth| truth.told(&trace));
    assert_eq!(mixed, "true from step 8, this read's begin, until step 16, the table step of desk 0.");
    let stale = "true at no moment of this read. It ceased to be true at step 16, the table step of desk 0.";
    assert_eq!([later, again], [stale, stale]);
}

#[test]
fn an_answer_that_was_true_at_other_times_is_said_to_be_so() {
    let trace = sound();
    let mut truth = truths(&trace)[1].clone();
    truth.moments = vec![0];
    assert_eq!(truth.told(&trace), "true at no moment of this read. It ceased to be true at a step before these, the table step of desk 0.");
    truth.moments = vec![truth.begin + 1, truth.begin + 2, truth.answer];
    assert_eq!(truth.told(&trace), "true from step 27 until step 29, the table step of desk 1.");
    truth.moments = Vec::new();
    assert_eq!(truth.told(&trace), "true at no moment of this read. It never was.");
}

/// Demand 3's first part, of the faulty controller too: "when I open the table, it is right".
#[test]
fn the_table_memory_holds_the_plain_table_after_each_call() {
    for trace in [sound(), Trace::play(&FAULTY)] {
        for (made, plain) in trace.made.iter().zip(plain_tables(&trace)) {
            assert_eq!(table_records(&made.hall), plain);
        }
    }
}

/// A row starts with the call's number; its words, joined again, are in the lane of its desk.
fn rows(text: &str) -> Vec<(usize, String, String)> {
    let mut rows: Vec<(usize, String, String)> = Vec::new();
    for line in text.lines() {
        let (left, right) = line.split_once('|').expect("two lanes");
        let (number, left) = left.split_at(4);
        if let Ok(number) = number.trim().parse() {
            rows.push((number, String::new(), String::new()));
        }
        let (_, one, two) = rows.last_mut().expect("a number comes first");
        *one = format!("{one} {}", left.trim()).trim().to_string();
        *two = format!("{two} {}", right.trim()).trim().to_string();
    }
    rows
}

#[test]
fn the_lanes_hold_each_call_once_in_the_lane_of_its_desk() {
    for trace in [sound(), Trace::play(&FAULTY)] {
        let rows: Vec<_> = SHOWN.iter().flat_map(|part| rows(&lanes(&trace, *part))).collect();
        let first = trace.places(Part::Before).count();
        assert_eq!(rows.len(), trace.made.len() - first);
        for (i, (number, left, right)) in (first..).zip(rows) {
            let made = &trace.made[i];
            let desk = made.call.desk().unwrap();
            let words = format!("desk {desk} {}", told(trace.before(i).unwrap(), made));
            let lane = if desk == READER { [String::new(), words] } else { [words, String::new()] };
            assert_eq!((number, [left, right]), (i + 1 - first, lane));
        }
    }
}

#[test]
fn each_step_is_told_by_what_it_changed() {
    let row = |trace: &Trace, n: usize| lanes(trace, Part::Mixing).lines().nth(n - 1).unwrap().replace('|', "").trim().to_string();
    let (sound, faulty) = (sound(), Trace::play(&FAULTY));
    assert_eq!(row(&sound, 9), "9  desk 2 marks (7, *): 2 writes under way there");
    assert_eq!(row(&faulty, 9), "9  desk 2 raises (7, *) already: counter 4");
    let both = [&sound, &faulty].map(|trace| lanes(trace, Part::Mixing).split_whitespace().collect::<Vec<_>>().join(" ").replace("| ", ""));
    assert!(both[0].contains("10 desk 1 looks at (7, *): counter 2, 2 marks"));
    assert!(both[0].contains("15 desk 1 table: takes the list (7, 40). Answers (7, 40); files nothing, because a look saw a mark"));
    assert!(both[0].contains("23 desk 2 raises (7, *): counter 4, no mark left"));
    assert!(both[1].contains("10 desk 1 looks at (7, *): counter 4, no mark"));
    assert!(both[1].contains("18 desk 1 files (7, 40) under the counters 4 and 1 it noted, though the table has (7, 42) by now."));
}

#[test]
fn the_bench_looks_after_both_writes_were_at_its_node_and_takes_its_list_before_either_table_step() {
    let trace = Trace::play(&FAULTY);
    let place = |desk: u32, words: &str| {
        trace
            .places(Part::Mixing)
            .find(|i| trace.made[*i].call.desk() == Some(desk) && told(trace.before(*i).unwrap(), &trace.made[*i]).starts_with(words))
    };
    let look = place(READER, "looks at (7, *)").unwrap();
    let list = place(READER, "table:").unwrap();
    for desk in WRITERS {
        assert!(place(desk, "raises (7, *)").unwrap() < look);
        assert!(list < place(desk, "table:").unwrap());
    }
}

#[test]
fn no_line_is_wider_than_100_columns_and_no_record_is_cut() {
    let text = SETTING.to_string() + &library_half(&sound(), "a source") + &faulty_half(&Trace::play(&FAULTY));
    for line in text.lines() {
        assert!(line.len() <= 100, "{line}");
        assert_eq!(line.matches('(').count(), line.matches(')').count(), "{line}");
    }
    assert_eq!(wrapped("takes the list (7, 42)", 17), ["takes the list", "  (7, 42)"]);
}

/// The library does what its twin does, number for number.
#[cfg(feature = "archive")]
#[test]
fn the_library_leaves_the_memories_that_the_twin_leaves() {
    assert!(sound() == Trace::play(&SOUND));
}
