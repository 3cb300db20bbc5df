//! The header for C says the same as this crate: the calls, the words and sentences of the numbers, the counts of a tally, the version, the least
//! lengths, the limits.

use mondzafeky::{number, Tally};
use std::mem::{align_of, offset_of, size_of};

const HEADER: &str = include_str!("../../../c/mondzafeky.h");
const CALLS: &str = include_str!("../src/calls.rs");

/// The strings of one function of the header, in the order of its cases: adjacent literals are one.
fn strings_of(function: &str) -> Vec<String> {
    let start = HEADER.find(&format!("*{function}(uint32_t number)")).expect("the function stands in the header");
    let body = &HEADER[start..start + HEADER[start..].find("\n}\n").expect("it ends")];
    body.split("return ").skip(1).map(literals).collect()
}

/// What the literals up to the end of the statement say together.
fn literals(statement: &str) -> String {
    let (mut text, mut inside) = (String::new(), false);
    for c in statement.chars() {
        match c {
            '"' => inside = !inside,
            ';' if !inside => break,
            c if inside => text.push(c),
            _ => {}
        }
    }
    text
}

#[test]
fn words_and_sentences_are_the_same() {
    let (words, sentences) = (strings_of("mondzafeky_name"), strings_of("mondzafeky_sentence"));
    assert_eq!((words.len(), sentences.len()), (16, 16), "0 to 15 but 7, and what is none of them");
    let in_order = (0..17).filter(|n| *n != 7);
    for (n, (word, sentence)) in in_order.zip(words.iter().zip(&sentences)) {
        assert_eq!((word.as_str(), sentence.as_str()), (number::name(n), number::sentence(n)));
    }
    assert_eq!((number::name(7), number::sentence(7)), (words[15].as_str(), sentences[15].as_str()));
}

/// What the header defines under this name.
fn defined(name: &str) -> String {
    let line = HEADER.lines().find(|line| line.starts_with(&format!("#define MONDZAFEKY_{name} "))).expect(name);
    line.split_whitespace().nth(2).unwrap().trim_end_matches('u').trim_matches('"').to_string()
}

/// 7 has no name in either.
#[test]
fn numbers_are_the_same() {
    let numbers = [
        ("ACCEPTED", number::ACCEPTED),
        ("SHORT", number::SHORT),
        ("COLUMNS", number::COLUMNS),
        ("UNSOUND", number::UNSOUND),
        ("NO_CLIENT", number::NO_CLIENT),
        ("TAKEN", number::TAKEN),
        ("IDLE", number::IDLE),
        ("NO_ENTRY", number::NO_ENTRY),
        ("PENDING", number::PENDING),
        ("WORN", number::WORN),
        ("OCCUPIED", number::OCCUPIED),
        ("LONG", number::LONG),
        ("FULL", number::FULL),
        ("REVERSED", number::REVERSED),
        ("TALLY_FULL", number::TALLY_FULL),
    ];
    for (name, number) in numbers {
        assert_eq!(defined(name), number.to_string(), "{name}");
    }
    let start = HEADER.find("#define MONDZAFEKY_ACCEPTED ").unwrap();
    let end = HEADER.find("/* Endings").unwrap();
    assert_eq!(HEADER[start..end].matches("#define ").count(), numbers.len());
}

/// The calls of the archive, in their order; each is declared in the header from the first column on.
#[test]
fn the_calls_are_the_same() {
    let declared: Vec<&str> = HEADER.lines().filter_map(|line| line.strip_prefix("mondzafeky_reply ")?.strip_suffix('(')).collect();
    let called: Vec<&str> = CALLS.lines().filter_map(|line| Some(line.strip_prefix("call!(")?.split_once(',')?.0)).collect();
    assert_eq!((declared.len(), declared), (20, called));
}

/// The counts of a tally, in their order: nine numbers without a gap, by name in both.
#[test]
fn the_tally_is_the_same() {
    let start = HEADER.find("uint32_t reads_begun;").unwrap();
    let body = &HEADER[start..start + HEADER[start..].find("} mondzafeky_tally;").unwrap()];
    let names: Vec<&str> = body.lines().filter_map(|line| line.trim().strip_prefix("uint32_t ")?.split_once(';')).map(|(name, _)| name).collect();
    let places = [
        ("reads_begun", offset_of!(Tally, reads_begun)),
        ("from_file", offset_of!(Tally, from_file)),
        ("from_table", offset_of!(Tally, from_table)),
        ("ended_long", offset_of!(Tally, ended_long)),
        ("reads_abandoned", offset_of!(Tally, reads_abandoned)),
        ("writes_begun", offset_of!(Tally, writes_begun)),
        ("ended_changed", offset_of!(Tally, ended_changed)),
        ("ended_unchanged", offset_of!(Tally, ended_unchanged)),
        ("writes_abandoned", offset_of!(Tally, writes_abandoned)),
    ];
    assert!(names.iter().enumerate().map(|(i, name)| (*name, 4 * i)).eq(places));
    assert_eq!((size_of::<Tally>(), align_of::<Tally>()), (36, 4));
}

#[test]
fn version_lengths_and_limits_are_the_same() {
    assert_eq!(defined("VERSION"), env!("CARGO_PKG_VERSION"));
    let lengths = [
        ("TABLE", mondzafeky::TABLE_LEAST),
        ("NODES", mondzafeky::NODES_LEAST),
        ("ANSWERS", mondzafeky::ANSWERS_LEAST),
        ("CLIENTS", mondzafeky::CLIENTS_LEAST),
        ("TRAY", mondzafeky::TRAY_LEAST),
    ];
    for (name, length) in lengths {
        assert_eq!(defined(&format!("{name}_LEAST")), length.to_string());
    }
    let limits = [("RECORDS", mondzafeky::RECORDS), ("NODES", mondzafeky::NODES), ("ANSWERS", mondzafeky::ANSWERS)];
    for (name, limit) in limits.into_iter().chain([("CLIENTS", mondzafeky::CLIENTS), ("LIST", mondzafeky::LIST)]) {
        assert_eq!(defined(name), limit.to_string());
    }
}
