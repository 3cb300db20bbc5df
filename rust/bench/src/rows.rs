//! What is timed: one row for each call and each kind of step, with the hall that it starts from
//! and the reply that it must give, and one for the table's plain reading. Rows of single calls
//! have four columns, the most there can be; counts, and whole reads and writes, have one to four.
//! Those with a range are in ranges. No record and no query of a row has a 0, which means not
//! measured and which no name finds. Leans on hall and side.

use crate::hall::{read_labels, write_labels, Hall};
use crate::rng::Rng;
use crate::side::{Act, Asked, Kind, Reply, ACCEPTED};
use twin::answers::Entry;
use twin::layout::*;
use twin::query::Label;

pub struct Row {
    pub group: &'static str,
    pub name: String,
    pub hall: Hall,
    pub act: Act,
    pub expected: Reply,
}

/// The desk of every row.
pub const CLIENT: u32 = 5;
/// The record that queries of the rows take their values from.
const MIDDLE: usize = 1024;

const CHANGED: Reply = Reply { number: 0, count: 0, ending: 3 };
const UNCHANGED: Reply = Reply { number: 0, count: 0, ending: 4 };

fn refused(number: u32) -> Reply {
    Reply { number, count: 0, ending: 0 }
}

pub fn from_file(count: u32) -> Reply {
    Reply { number: 0, count, ending: 1 }
}

fn from_table(count: u32) -> Reply {
    Reply { number: 0, count, ending: 2 }
}

/// Record i of the plain table: four records share a first column, and the last two columns are in no order. With one column no two
/// records may share it. Each is above a record of ones.
pub fn record(k: usize, i: usize) -> [u32; 4] {
    let i = i as u32;
    let mut rng = Rng::new(i as u64);
    if k == 1 {
        return [i + 2, 1, 1, 1];
    }
    [i / 4 + 2, i % 4 + 1, rng.below(8) + 1, rng.below(512) + 1]
}

/// Names the columns of the middle record at the 1 bits of `named`.
pub fn naming(k: usize, named: u32) -> Asked {
    let values = record(k, MIDDLE);
    let columns: Vec<Option<u32>> = (0..k).map(|c| (named >> c & 1 == 1).then_some(values[c])).collect();
    Asked::new(&columns)
}

fn all_named(k: usize) -> Asked {
    naming(k, (1 << k) - 1)
}

fn the_record(values: [u32; 4]) -> Asked {
    Asked::new(&values.map(Some))
}

/// A hall with all its records, nodes and answers, none of them a measurement's own but the records.
pub fn full(k: usize) -> Hall {
    Hall::opened(k).with_records(RECORDS, |i| record(k, i)).with_nodes(NODES, &[], 0).with_answers(ANSWERS, None)
}

pub fn row(rows: &mut Vec<Row>, group: &'static str, name: &str, hall: Hall, act: Act, expected: Reply) {
    rows.push(Row { group, name: name.to_string(), hall, act, expected });
}

pub fn calls() -> Vec<Row> {
    let mut rows = Vec::new();
    openings(&mut rows);
    begins(&mut rows);
    looks(&mut rows);
    fetches(&mut rows);
    limit(&mut rows);
    lists(&mut rows);
    long_lists(&mut rows);
    (1..=4).for_each(|k| counts(&mut rows, k));
    filings(&mut rows);
    announcements(&mut rows);
    inserts(&mut rows);
    deletes(&mut rows);
    abandonings(&mut rows);
    evictions(&mut rows);
    rows
}

fn openings(rows: &mut Vec<Row>) {
    row(rows, "open", "any contents", full(4), Act::Open(4), ACCEPTED);
    row(rows, "renew", "1,024 nodes, 64 answers", full(4), Act::Renew, ACCEPTED);
    row(rows, "renew", "refused: a desk is busy", full(4).begun(Kind::Read, 11, all_named(4), 0), Act::Renew, refused(11));
}

fn begins(rows: &mut Vec<Row>) {
    let asked = all_named(4);
    row(rows, "begin read", "empty hall", Hall::opened(4), Act::Begin(Kind::Read, CLIENT, asked), ACCEPTED);
    row(rows, "begin read", "full hall", full(4), Act::Begin(Kind::Read, CLIENT, asked), ACCEPTED);
    row(rows, "begin count", "full hall", full(4), Act::Begin(Kind::Count, CLIENT, asked), ACCEPTED);
    row(rows, "begin insert", "full hall", full(4), Act::Begin(Kind::Insert, CLIENT, asked), ACCEPTED);
    row(rows, "begin delete", "full hall", full(4), Act::Begin(Kind::Delete, CLIENT, asked), ACCEPTED);
    let busy = full(4).begun(Kind::Read, CLIENT, asked, 0);
    row(rows, "begin read", "refused: the desk is busy", busy, Act::Begin(Kind::Read, CLIENT, asked), refused(5));
    row(rows, "step", "refused: the desk is idle", full(4), Act::Step(CLIENT), refused(6));
}

/// The first look of a read that names four columns.
fn looks(rows: &mut Vec<Row>) {
    let asked = all_named(4);
    let own = &read_labels(4, asked)[..1];
    let hall = |n, own, place| full(4).with_nodes(n, own, place).begun(Kind::Read, CLIENT, asked, 0);
    row(rows, "look", "node first of 1,024", hall(NODES, own, 0), Act::Step(CLIENT), ACCEPTED);
    row(rows, "look", "node last of 1,024", hall(NODES, own, NODES - 1), Act::Step(CLIENT), ACCEPTED);
    row(rows, "look", "node missing, added to none", Hall::opened(4).begun(Kind::Read, CLIENT, asked, 0), Act::Step(CLIENT), ACCEPTED);
    row(rows, "look", "node missing, added to 1,023", hall(NODES - 1, &[], 0), Act::Step(CLIENT), ACCEPTED);
    row(rows, "look", "node missing, room made in 1,024", hall(NODES, &[], 0), Act::Step(CLIENT), ACCEPTED);
}

/// A full hall in which a read's nodes stand last.
pub fn reading(k: usize, asked: Asked) -> Hall {
    let own = read_labels(k, asked);
    full(k).with_nodes(NODES, &own, NODES - own.len())
}

/// The same before the fetch of that read, among 64 answers of which one may be its own.
pub fn fetching(asked: Asked, own: Option<(usize, Entry)>) -> Hall {
    let looks = read_labels(4, asked).len() as u32;
    reading(4, asked).with_answers(ANSWERS, own).begun(Kind::Read, CLIENT, asked, looks)
}

/// The answer that the read would file, with one revision too low for it to hold.
fn outdated(hall: &Hall, asked: Asked) -> Entry {
    let mut entry = hall.entry_for(asked);
    entry[ENTRY_REVISIONS] -= 1;
    entry
}

fn fetches(rows: &mut Vec<Row>) {
    let asked = all_named(4);
    let own = reading(4, asked).entry_for(asked);
    let old = outdated(&reading(4, asked), asked);
    row(rows, "fetch", "hit, first of 64", fetching(asked, Some((0, own))), Act::Step(CLIENT), from_file(1));
    row(rows, "fetch", "hit, last of 64", fetching(asked, Some((ANSWERS - 1, own))), Act::Step(CLIENT), from_file(1));
    row(rows, "fetch", "miss, 64 other queries", fetching(asked, None), Act::Step(CLIENT), ACCEPTED);
    row(rows, "fetch", "miss, own answer outdated", fetching(asked, Some((ANSWERS - 1, old))), Act::Step(CLIENT), ACCEPTED);
    let wide = Asked::new(&[None, Some(18), None, None]);
    let own = grouped(64, 32, wide).entry_for(wide);
    let hall = grouped(64, 32, wide).with_answers(ANSWERS, Some((ANSWERS - 1, own))).begun(Kind::Read, CLIENT, wide, 2);
    row(rows, "fetch", "hit, last of 64, 32 records", hall, Act::Step(CLIENT), from_file(32));
}

/// A full hall whose records come in groups of `width`, numbered from 1 in their second column: a query of one such number finds one of each
/// group, spread over the table.
fn grouped(width: usize, groups: usize, asked: Asked) -> Hall {
    let n = RECORDS.min(width * groups);
    reading(4, asked).with_records(n, |i| [(i / width) as u32 + 1, (i % width) as u32 + 1, 5, 6])
}

/// Before the table step of a read, for a list or a count.
fn taking(kind: Kind, k: usize, asked: Asked) -> Hall {
    let looks = read_labels(k, asked).len() as u32;
    reading(k, asked).begun(kind, CLIENT, asked, looks + 1)
}

fn listing(k: usize, asked: Asked) -> Hall {
    taking(Kind::Read, k, asked)
}

/// What 2,048 records of four columns take to be read and no more, to hold the lists against. Both sides run the same loop, so the ratio shows
/// the noise alone.
fn limit(rows: &mut Vec<Row>) {
    let sum = (0..RECORDS).flat_map(|i| record(4, i)).fold(0, u32::wrapping_add);
    row(rows, "limit", "8,192 numbers read once", full(4), Act::ReadAll, Reply { count: sum, ..ACCEPTED });
}

fn lists(rows: &mut Vec<Row>) {
    let named = [(0b0001, "column 1 of 4"), (0b0011, "columns 1 and 2"), (0b0111, "columns 1 to 3"), (0b1111, "columns 1 to 4")];
    for (bits, text) in named {
        row(rows, "list", &format!("names {text}"), listing(4, naming(4, bits)), Act::Step(CLIENT), ACCEPTED);
    }
    row(rows, "list", "names column 4", listing(4, naming(4, 0b1000)), Act::Step(CLIENT), ACCEPTED);
    row(rows, "list", "names columns 3 and 4", listing(4, naming(4, 0b1100)), Act::Step(CLIENT), ACCEPTED);
    row(rows, "list", "k 1, names its column", listing(1, all_named(1)), Act::Step(CLIENT), ACCEPTED);
    row(rows, "list", "k 2, names both", listing(2, all_named(2)), Act::Step(CLIENT), ACCEPTED);
    row(rows, "list", "k 3, names all three", listing(3, all_named(3)), Act::Step(CLIENT), ACCEPTED);
}

fn long_lists(rows: &mut Vec<Row>) {
    let second = |value| Asked::new(&[None, Some(value), None, None]);
    let spread = grouped(64, 32, second(18)).begun(Kind::Read, CLIENT, second(18), 3);
    row(rows, "list", "32 records, spread", spread, Act::Step(CLIENT), ACCEPTED);
    let late = grouped(62, 34, second(2)).begun(Kind::Read, CLIENT, second(2), 3);
    row(rows, "list", "long, found at record 1,986", late, Act::Step(CLIENT), refused(12));
    let wildcards = Asked::new(&[None; 4]);
    row(rows, "list", "long, found at record 33", listing(4, wildcards), Act::Step(CLIENT), refused(12));
}

/// Over 2,048 records; beside them a list of the query that finds none, which no count should take longer than.
fn counts(rows: &mut Vec<Row>, k: usize) {
    let none = Asked::new(&vec![Some(9999); k]);
    let asked = [(none, "finds none"), (all_named(k), "finds 1"), (Asked::new(&vec![None; k]), "finds all")];
    row(rows, "list", &format!("k {k}, finds none"), listing(k, none), Act::Step(CLIENT), ACCEPTED);
    for (asked, text) in asked {
        row(rows, "count", &format!("k {k}, {text}"), taking(Kind::Count, k, asked), Act::Step(CLIENT), ACCEPTED);
    }
}

/// Before the file step of a read.
fn filing(asked: Asked, n: usize, own: Option<(usize, Entry)>) -> Hall {
    let looks = read_labels(4, asked).len() as u32;
    reading(4, asked).with_answers(n, own).begun(Kind::Read, CLIENT, asked, looks + 2)
}

fn filings(rows: &mut Vec<Row>) {
    let asked = all_named(4);
    let old = outdated(&reading(4, asked), asked);
    row(rows, "file", "first answer", filing(asked, 0, None), Act::Step(CLIENT), from_table(1));
    row(rows, "file", "new, 64th", filing(asked, ANSWERS - 1, None), Act::Step(CLIENT), from_table(1));
    row(rows, "file", "same query, first of 64", filing(asked, ANSWERS, Some((0, old))), Act::Step(CLIENT), from_table(1));
    row(rows, "file", "same query, last of 64", filing(asked, ANSWERS, Some((ANSWERS - 1, old))), Act::Step(CLIENT), from_table(1));
    row(rows, "file", "new, 64 kept", filing(asked, ANSWERS, None), Act::Step(CLIENT), from_table(1));
}

/// The first announcement (mark) of an insert of the middle record, which is there, and the first raise of that insert, which changes nothing and so
/// leaves the counter, beside the raise of a delete of the record.
fn announcements(rows: &mut Vec<Row>) {
    let asked = all_named(4);
    let own = write_labels(4, asked);
    let writing = |kind, n, own, place, steps| full(4).with_nodes(n, own, place).begun(kind, CLIENT, asked, steps);
    let hall = |n, own, place, steps| writing(Kind::Insert, n, own, place, steps);
    row(rows, "mark", "node first of 1,024", hall(NODES, &own[..1], 0, 0), Act::Step(CLIENT), ACCEPTED);
    row(rows, "mark", "node last of 1,024", hall(NODES, &own[..1], NODES - 1, 0), Act::Step(CLIENT), ACCEPTED);
    row(rows, "mark", "node missing, added to 1,023", hall(NODES - 1, &[], 0, 0), Act::Step(CLIENT), ACCEPTED);
    row(rows, "mark", "node missing, room made in 1,024", hall(NODES, &[], 0, 0), Act::Step(CLIENT), ACCEPTED);
    let last_first: Vec<_> = own.iter().rev().copied().collect();
    for (kind, end, text) in [(Kind::Delete, CHANGED, ""), (Kind::Insert, UNCHANGED, ", no change")] {
        let raising = |own, place, steps| writing(kind, NODES, own, place, steps);
        row(rows, "raise", &format!("node first of 1,024{text}"), raising(&own, 0, 17), Act::Step(CLIENT), ACCEPTED);
        row(rows, "raise", &format!("node last of 1,024{text}"), raising(&last_first, NODES - 16, 17), Act::Step(CLIENT), ACCEPTED);
        row(rows, "raise", &format!("the write's last{text}"), raising(&own, NODES - 16, 32), Act::Step(CLIENT), end);
    }
}

/// Before the table step of a write, its nodes standing last.
fn writing(kind: Kind, asked: Asked, n: usize) -> Hall {
    let own = write_labels(4, asked);
    let hall = Hall::opened(4).with_records(n, |i| record(4, i)).with_answers(ANSWERS, None);
    hall.with_nodes(NODES, &own, NODES - own.len()).begun(kind, CLIENT, asked, 16)
}

fn inserts(rows: &mut Vec<Row>) {
    let less = RECORDS - 1;
    let mut between = record(4, MIDDLE);
    between[3] += 1;
    row(rows, "insert", "front of 2,047", writing(Kind::Insert, the_record([1, 1, 1, 1]), less), Act::Step(CLIENT), ACCEPTED);
    row(rows, "insert", "middle of 2,047", writing(Kind::Insert, the_record(between), less), Act::Step(CLIENT), ACCEPTED);
    row(rows, "insert", "end of 2,047", writing(Kind::Insert, the_record([9999, 1, 1, 1]), less), Act::Step(CLIENT), ACCEPTED);
    row(rows, "insert", "present, in the middle", writing(Kind::Insert, all_named(4), less), Act::Step(CLIENT), ACCEPTED);
    row(rows, "insert", "present, first", writing(Kind::Insert, the_record(record(4, 0)), less), Act::Step(CLIENT), ACCEPTED);
    row(rows, "insert", "full", writing(Kind::Insert, the_record(between), RECORDS), Act::Step(CLIENT), ACCEPTED);
}

fn deletes(rows: &mut Vec<Row>) {
    let none = Asked::new(&[Some(9999), None, None, None]);
    let quarter = Asked::new(&[None, Some(3), None, None]);
    let delete = |asked| writing(Kind::Delete, asked, RECORDS);
    row(rows, "delete", "none", delete(none), Act::Step(CLIENT), ACCEPTED);
    row(rows, "delete", "4 in the middle", delete(naming(4, 0b0001)), Act::Step(CLIENT), ACCEPTED);
    row(rows, "delete", "1, all columns named", delete(all_named(4)), Act::Step(CLIENT), ACCEPTED);
    row(rows, "delete", "every fourth", delete(quarter), Act::Step(CLIENT), ACCEPTED);
    row(rows, "delete", "all", delete(Asked::new(&[None; 4])), Act::Step(CLIENT), ACCEPTED);
}

/// A delete of the middle record, and past the table step beside it an insert of it, which changes nothing.
fn abandonings(rows: &mut Vec<Row>) {
    let asked = all_named(4);
    let own = write_labels(4, asked);
    let write = |kind, steps| full(4).with_nodes(NODES, &own, NODES - 16).begun(kind, CLIENT, asked, steps);
    row(rows, "abandon", "a read", fetching(asked, None), Act::Abandon(CLIENT), ACCEPTED);
    row(rows, "abandon", "a write with no mark", write(Kind::Delete, 0), Act::Abandon(CLIENT), ACCEPTED);
    row(rows, "abandon", "a write with 1 mark", write(Kind::Delete, 1), Act::Abandon(CLIENT), ACCEPTED);
    row(rows, "abandon", "a write with 16 marks", write(Kind::Delete, 16), Act::Abandon(CLIENT), ACCEPTED);
    let few = |kind, steps| light(&own).begun(kind, CLIENT, asked, steps);
    row(rows, "abandon", "96 nodes, a write with 16 marks", few(Kind::Delete, 16), Act::Abandon(CLIENT), ACCEPTED);
    for (kind, end, text) in [(Kind::Delete, CHANGED, ""), (Kind::Insert, UNCHANGED, ", no change")] {
        for (steps, left) in [(17, "16 raises left"), (32, "1 raise left")] {
            row(rows, "abandon", &format!("a write with {left}{text}"), write(kind, steps), Act::Abandon(CLIENT), end);
            row(rows, "abandon", &format!("96 nodes, a write with {left}{text}"), few(kind, steps), Act::Abandon(CLIENT), end);
        }
    }
}

fn evictions(rows: &mut Vec<Row>) {
    row(rows, "evict answer", "first of 64", full(4), Act::EvictAnswer(0), ACCEPTED);
    row(rows, "evict answer", "last of 64", full(4), Act::EvictAnswer(63), ACCEPTED);
    row(rows, "evict node", "first of 1,024", full(4), Act::EvictNode(0), ACCEPTED);
    row(rows, "evict node", "last of 1,024", full(4), Act::EvictNode(1023), ACCEPTED);
}

/// Whole reads and writes, by the number of columns, in full halls with their own nodes standing last.
pub fn wholes() -> Vec<Row> {
    let mut rows = Vec::new();
    (1..=4).for_each(|k| whole_reads(&mut rows, k, all_named(k), "all columns named"));
    whole_reads(&mut rows, 4, naming(4, 0b1000), "column 4 named");
    (1..=4).for_each(|k| whole_writes(&mut rows, k));
    light_halls(&mut rows);
    rows
}

fn whole_reads(rows: &mut Vec<Row>, k: usize, asked: Asked, text: &str) {
    let hall = reading(k, asked);
    let (own, old) = (hall.entry_for(asked), outdated(&hall, asked));
    let count = own[ENTRY_LENGTH];
    let read = Act::Whole(Kind::Read, CLIENT, asked);
    let filed = |entry| hall.clone().with_answers(ANSWERS, Some((ANSWERS - 1, entry)));
    row(rows, "whole read", &format!("k {k}, {text}, filed"), filed(own), read, from_file(count));
    row(rows, "whole read", &format!("k {k}, {text}, from the table"), filed(old), read, from_table(count));
}

fn whole_writes(rows: &mut Vec<Row>, k: usize) {
    whole_writes_in(rows, k, "", |own| full(k).with_nodes(NODES, own, NODES - own.len()));
}

/// An insert and a delete of k columns in the hall that is made around their nodes.
fn whole_writes_in(rows: &mut Vec<Row>, k: usize, text: &str, around: impl Fn(&[Label]) -> Hall) {
    let mut values = record(k, MIDDLE);
    if k == 1 {
        // with one column the place in the middle has to be left free
        values[0] = 2 * values[0] + 1;
    } else {
        values[k - 1] += 1000;
    }
    let spaced = |i| if k == 1 { [2 * record(1, i)[0], 1, 1, 1] } else { record(k, i) };
    let asked = Asked::new(&values.map(Some)[..k]);
    let hall = |asked, n| around(&write_labels(k, asked)).with_records(n, spaced);
    let insert = Act::Whole(Kind::Insert, CLIENT, asked);
    row(rows, "whole insert", &format!("k {k}{text}, middle of 2,047"), hall(asked, RECORDS - 1), insert, CHANGED);
    let there = Asked::new(&spaced(MIDDLE).map(Some)[..k]);
    let delete = Act::Whole(Kind::Delete, CLIENT, there);
    row(rows, "whole delete", &format!("k {k}{text}, 1 of 2,048"), hall(there, RECORDS), delete, CHANGED);
}

/// A hall with few nodes and answers, its own nodes standing last.
fn light(own: &[Label]) -> Hall {
    Hall::opened(4).with_records(RECORDS, |i| record(4, i)).with_nodes(96, own, 96 - own.len()).with_answers(12, None)
}

/// The same reads and writes in such a hall.
fn light_halls(rows: &mut Vec<Row>) {
    let asked = all_named(4);
    let hall = light(&read_labels(4, asked));
    let filed = hall.clone().with_answers(12, Some((11, hall.entry_for(asked))));
    let old = hall.clone().with_answers(12, Some((11, outdated(&hall, asked))));
    let read = Act::Whole(Kind::Read, CLIENT, asked);
    row(rows, "whole read", "k 4, 96 nodes, 12 answers, filed", filed, read, from_file(1));
    row(rows, "whole read", "k 4, 96 nodes, 12 answers, from the table", old, read, from_table(1));
    whole_writes_in(rows, 4, ", 96 nodes, 12 answers", light);
}
