//! Rows of the value 0 (S-5), beside those of 1 and of the largest number: what names and ranges find in every column and what stars do; inserts
//! and deletes; that nodes, labels and keys have 0 as any other value. Leans on scene and ranges.

use super::ranges::{named_beside, read_twice, Read};
use super::*;
use crate::call::Asked;

const NAMED: Limit = ("records found by a name, of 0, 1 and the largest number", "a read or delete naming 0 finds no record");
const STAR: Limit = ("records found by a star, of 0, 1 and the largest number", "only a star finds them");
const WITHIN: Limit = ("records found by a range, of 0, 1 and the largest number", "a range skips records with 0 in its column");
const BESIDE: Limit = ("records found beside a range of another column, of 0, 1 and the largest number", "A named 0 is never equal to anything");
const LISTED: Limit = ("records found of those from 0 on", "a range skips records with 0 in its column");
const INSERTED: Limit = ("value of an insert", "An insert may carry 0 and is the same record as another alike in every column");
const DELETED: Limit = ("records after a delete, of 0, 1 and the largest number", "a read or delete naming 0 finds no record");
const LOOKS: Limit = ("looks of a read that names 0", "Nodes are made as before");
const SHARED: Limit = ("value of a write beside a filed answer to 0", "in keys and labels a 0 equals a 0");
const SEEN: Limit = ("value of a write that has marked, beside a read of 0", "in keys and labels a 0 equals a 0");
const FOUND: Limit =
    ("records found by a star after an insert of 0", "An insert of a record meets a read exactly if the record lies in the read's subspace");

const MOST: u32 = u32::MAX;

/// What the records have in one column; in the others each has 7.
const VALUES: [u32; 3] = [0, 1, MOST];

fn three(k: u32, column: u32) -> Scene {
    Scene::opened(k).records_of(column, &VALUES)
}

/// `value` in one column and 7 in the others; those named have theirs.
fn one_of(kind: u32, named: u32, column: u32, value: u32) -> Read {
    let mut read = Read::naming(kind, named, 7);
    read.values[column as usize] = value;
    read
}

/// The record of such values, or the query of those named.
fn asked(k: u32, named: u32, column: u32, value: u32) -> Asked {
    let value_of = |c| if c == column { value } else { 7 };
    let words: Vec<u32> = (0..k).flat_map(|c| if named >> c & 1 == 1 { [1, value_of(c)] } else { [0, 0] }).collect();
    Asked::new(&words)
}

fn columns(k: u32) -> impl Iterator<Item = (u32, u32)> {
    (0..k).flat_map(|column| READS.map(|kind| (column, kind)))
}

/// A column that is named, alone and beside all others; and one that is a star.
pub fn named(rows: &mut Vec<Row>, k: u32) {
    for (column, kind) in columns(k) {
        let named: [(u32, &[u32]); 4] = [(0, &[]), (1, &[1]), (2, &[]), (MOST, &[MOST])];
        for (value, found) in named {
            let reads = [1 << column, marks(k)].map(|named| one_of(kind, named, column, value));
            reads.iter().for_each(|read| read_twice(rows, NAMED, &three(k, column), *read, column, found));
        }
        let reads = named_beside(k, column).map(|named| Read::naming(kind, named, 7));
        reads.iter().for_each(|read| read_twice(rows, STAR, &three(k, column), *read, column, &VALUES));
    }
}

/// Both sides of 0 at either end.
pub fn ranges(rows: &mut Vec<Row>, k: u32) {
    let ranges: [((u32, u32), &[u32]); 9] = [
        ((0, 0), &[]),
        ((0, 1), &[1]),
        ((1, 1), &[1]),
        ((0, MOST - 1), &[1]),
        ((1, MOST - 1), &[1]),
        ((0, MOST), &[1, MOST]),
        ((1, MOST), &[1, MOST]),
        ((2, MOST), &[MOST]),
        ((MOST, MOST), &[MOST]),
    ];
    for ((column, kind), ((lowest, highest), found)) in columns(k).flat_map(|of| ranges.map(|row| (of, row))) {
        let reads = named_beside(k, column).map(|named| Read::within(kind, named, (column, lowest, highest)));
        reads.iter().for_each(|read| read_twice(rows, WITHIN, &three(k, column), *read, column, found));
    }
}

/// The records differ in another column than the ranged one, in which each has 7: a named 0 finds none beside any range, a star finds all.
pub fn beside_ranges(rows: &mut Vec<Row>, k: u32) {
    let others = columns(k).flat_map(|(column, kind)| (0..k).filter(move |other| *other != column).map(move |other| (column, other, kind)));
    for (column, other, kind) in others {
        for range in [(7, 7), (0, 7), (0, MOST)].map(|(lowest, highest)| Some((column, lowest, highest))) {
            for (value, found) in [(0, &[][..]), (1, &[1]), (MOST, &[MOST])] {
                read_twice(rows, BESIDE, &three(k, other), Read { range, ..one_of(kind, 1 << other, other, value) }, other, found);
            }
            read_twice(rows, BESIDE, &three(k, other), Read { range, ..Read::naming(kind, 0, 7) }, other, &VALUES);
        }
        let none = Read { range: Some((column, 0, 0)), ..Read::naming(kind, 0, 7) };
        read_twice(rows, BESIDE, &three(k, other), none, other, &[]);
    }
}

/// Records of 0, 1, ..: a star lists 32 of them and not 33, a range those of 33 that have no 0, and not of 34.
pub fn lengths(rows: &mut Vec<Row>, k: u32) {
    let all: Vec<u32> = (0..2_048).collect();
    for column in 0..k {
        let table = |n: u32| Scene::opened(k).records_by(column, n, 0);
        let [list, count] = READS.map(|kind| Read::naming(kind, 0, 7));
        let [list_within, count_within] = READS.map(|kind| Read::within(kind, 0, (column, 0, MOST)));
        read_twice(rows, LISTED, &table(32), list, column, &all[..32]);
        read_twice(rows, LISTED, &table(33), list_within, column, &all[1..33]);
        for (read, n) in [(list, 33), (list_within, 34)] {
            rows.push(read.up_to(table(n), 1).row(LISTED, 33, step(0), says(12)).after([(ANSWER_COUNT, 0)]).after(idle(0)));
        }
        for n in [1, 33, 34, 2_048] {
            read_twice(rows, LISTED, &table(n), count, column, &all[..n as usize]);
            read_twice(rows, LISTED, &table(n), count_within, column, &all[1..n as usize]);
        }
    }
}

/// The table step of a write, its last raise, and its abandoning just after the table step.
fn write(rows: &mut Vec<Row>, (limit, value): (Limit, u32), begun: Scene, end: Reply, after: Vec<(Place, u32)>) {
    let n = 1 << begun.k;
    rows.push(begun.clone().steps(0, n).row(limit, value, step(0), says(0)).after(after.clone()));
    rows.push(begun.clone().steps(0, 2 * n).row(limit, value, step(0), end).after(after.clone()).after(idle(0)));
    rows.push(begun.steps(0, n + 1).row(limit, value, abandon(0), end).after(after).after(idle(0)));
}

/// The records as they lie in the table, and 0 where one more would.
fn lie(k: u32, column: u32, values: &[u32]) -> Vec<(Place, u32)> {
    let value_of = |c, value| if c == column { value } else { 7 };
    let records = (0..).zip(values).flat_map(|(i, value)| (0..k).map(move |c| (record(k, i, c), value_of(c, *value))));
    let n = values.len() as u32;
    records.chain((0..k).map(|c| (record(k, n, c), 0))).chain([(RECORD_COUNT, n)]).collect()
}

/// A record with 0 goes in at its ascending place, once.
pub fn inserts(rows: &mut Vec<Row>, k: u32) {
    let inserts: [(&[u32], u32, Reply, &[u32]); 6] = [
        (&[], 0, CHANGED, &[0]),
        (&[1, MOST], 0, CHANGED, &[0, 1, MOST]),
        (&[0, 1, MOST], 0, UNCHANGED, &[0, 1, MOST]),
        (&[0, MOST], 1, CHANGED, &[0, 1, MOST]),
        (&[0, 1, MOST], 1, UNCHANGED, &[0, 1, MOST]),
        (&[0, 1], MOST, CHANGED, &[0, 1, MOST]),
    ];
    for (column, (before, value, end, after)) in (0..k).flat_map(|column| inserts.map(|row| (column, row))) {
        let begun = Scene::opened(k).records_of(column, before).made(begin(INSERT, 0, asked(k, ALL, column, value)));
        write(rows, (INSERTED, value), begun, end, lie(k, column, after));
    }
    for column in 0..k {
        let full = |first| Scene::opened(k).records_by(column, 2_048, first).made(begin(INSERT, 0, asked(k, ALL, column, 0)));
        write(rows, (INSERTED, 0), full(0), UNCHANGED, vec![(RECORD_COUNT, 2_048), (record(k, 0, column), 0)]);
        write(rows, (INSERTED, 0), full(1), says(13), vec![(RECORD_COUNT, 2_048), (record(k, 0, column), 1)]);
    }
    // by calls alone, and with 0 in every column
    let twice = Scene::opened(k).begun(INSERT, 0, ALL, 0).steps(0, (2 << k) + 1).begun(INSERT, 0, ALL, 0);
    write(rows, (INSERTED, 0), twice, UNCHANGED, vec![(RECORD_COUNT, 1)]);
}

/// A delete that names 0 takes out nothing, one that names 1 or a star what it finds.
pub fn deletes(rows: &mut Vec<Row>, k: u32) {
    for (column, named) in (0..k).flat_map(|column| [1 << column, marks(k)].map(|named| (column, named))) {
        let named_ones: [(u32, Reply, &[u32]); 3] = [(0, UNCHANGED, &VALUES), (1, CHANGED, &[0, MOST]), (MOST, CHANGED, &[0, 1])];
        for (value, end, left) in named_ones {
            let begun = three(k, column).made(begin(DELETE, 0, asked(k, named, column, value)));
            write(rows, (DELETED, left.len() as u32), begun, end, lie(k, column, left));
        }
        let starred = three(k, column).made(begin(DELETE, 0, asked(k, named - (1 << column), column, 0)));
        write(rows, (DELETED, 0), starred, CHANGED, lie(k, column, &[]));
    }
}

/// A read that names 0 in its last column, and 7 in the others.
fn of_zero(k: u32, kind: u32) -> Read {
    one_of(kind, marks(k), k - 1, 0)
}

/// Its nodes: the first has its label whole, and there are 2^k of them.
pub fn looks(rows: &mut Vec<Row>, k: u32) {
    let tags: u32 = (0..k).map(|c| TAG_VALUE << (8 * c)).sum();
    for kind in READS {
        let scene = Scene::opened(k).made(of_zero(k, kind).begin(k, 0));
        let label = || (0..k).map(|c| (node(0, 1 + c as usize), if c == k - 1 { 0 } else { 7 })).chain([(node(0, 0), tags)]);
        rows.push(scene.row(LOOKS, 1, step(0), says(0)).after(label()).after([(NODE_COUNT, 1), (node(0, NODE_REVISION), 1)]));
        let last = (1 << k) - 1;
        rows.push(scene.steps(0, last).row(LOOKS, last + 1, step(0), says(0)).after(label()).after([(NODE_COUNT, last + 1)]));
    }
}

/// What writes do to a filed answer to 0, and to a read of 0 that looks while they are marked: those of 0, and of a star, share its nodes. A record
/// with 1 is there: the insert of 0 changes the table, and so do deletes that find that record; one that names 0 never does (S-6).
pub fn shared(rows: &mut Vec<Row>, k: u32) {
    let (column, n) = (k - 1, 1 << k);
    let writes =
        [(INSERT, ALL, 0), (INSERT, ALL, 1), (DELETE, ALL, 0), (DELETE, ALL, 1), (DELETE, 0, 0), (DELETE, 1 << column, 0), (DELETE, 1 << column, 1)];
    for (reads, (kind, named, value)) in READS.into_iter().flat_map(|reads| writes.map(|write| (reads, write))) {
        let read = of_zero(k, reads);
        let begun = read.up_to(Scene::opened(k).records_of(column, &[1]), 3).made(begin(kind, 1, asked(k, named, column, value)));
        let ended = begun.clone().steps(1, 2 * n + 1);
        let shares = value == 0;
        let changes = kind == INSERT || named == 0;
        let row = read.up_to(ended, 0).row(SHARED, value, step(0), if shares && changes { says(0) } else { from_file(0) });
        rows.push(row.after([(ANSWER_COUNT, 1)]));
        // the answer filed before stays; a read that saw a mark files nothing
        let marked = begun.steps(1, n);
        let (steps, reply) = if shares { (1, from_table(0)) } else { (0, from_file(0)) };
        rows.push(read.up_to(marked, steps).row(SEEN, value, step(0), reply).after([(ANSWER_COUNT, 1)]).after(idle(0)));
    }
}

/// A star's answer that was filed before no longer holds after an insert of 0: the next read lists the record, or counts it.
pub fn found(rows: &mut Vec<Row>, k: u32) {
    let column = k - 1;
    for kind in READS {
        let read = Read::naming(kind, marks(k) >> 1, 7);
        let filed = read.up_to(Scene::opened(k), 3);
        let ended = filed.made(begin(INSERT, 1, asked(k, ALL, column, 0))).steps(1, (2 << k) + 1);
        rows.push(read.up_to(ended.clone(), 0).row(FOUND, 1, step(0), says(0)));
        rows.push(read.given(read.up_to(ended.clone(), 2), FOUND, column, &[0], from_table(1)).after([(ANSWER_COUNT, 1)]));
        rows.push(read.given(read.up_to(read.up_to(ended, 3), 0), FOUND, column, &[0], from_file(1)));
    }
}
