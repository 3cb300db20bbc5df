//! What checked histories have met of the value 0 (document 02, S-5), so that a run can be asked for it. Leans on call.

use crate::call::{Ask, Asked};
use std::slice::Chunks;

/// What is counted: of answers, then of writes at their table step.
pub const MET: [&str; 10] = [
    "lists that name 0 answered from file",
    "counts that name 0 answered from file",
    "answers from the table to a named 0, a record with it there",
    "lists of a star with a record that has 0 under it",
    "answers of a range from 0 on, a record with 0 there",
    "answers of a range from 0 to 0, a record with 0 there",
    "inserts of a record with 0 that changed the table",
    "inserts of a record with 0 that was there",
    "deletes that name 0 and took out nothing, a record with it there",
    "deletes that name no 0 and took out a record with one",
];

/// The places in `MET` of what is counted of writes.
const WRITES: usize = 6;

/// How often each was met.
pub type Zeros = [u64; MET.len()];

/// An answer, beside the plain table's records.
pub fn of_answer(met: &mut Zeros, ask: &Ask, from_file: bool, records: Chunks<u32>) {
    let (named, lists) = (names_zero(&ask.asked), !ask.counts);
    let is_there = |extra: &dyn Fn(&[u32]) -> bool| records.clone().any(|record| fits(record, &ask.asked) && extra(record));
    let skips =
        |highest| ask.within.is_some_and(|range| range.lowest == 0 && range.highest <= highest && is_there(&|r| r[range.column as usize] == 0));
    let is = [
        named && lists && from_file,
        named && !lists && from_file,
        named && !from_file && is_there(&|_| true),
        !named && lists && ask.within.is_none() && is_there(&|record| record.contains(&0)),
        !named && skips(u32::MAX),
        !named && skips(0),
    ];
    count(&mut met[..WRITES], is);
}

/// A write's table step, beside the plain table's records before it.
pub fn of_write(met: &mut Zeros, inserts: bool, asked: &Asked, changed: bool, records: Chunks<u32>) {
    let named = names_zero(asked);
    let fitting = || records.clone().filter(|record| fits(record, asked));
    let is = [
        inserts && named && changed,
        inserts && named && fitting().count() > 0,
        !inserts && named && !changed && fitting().count() > 0,
        !inserts && !named && fitting().any(|record| record.contains(&0)),
    ];
    count(&mut met[WRITES..], is);
}

fn count<const N: usize>(met: &mut [u64], is: [bool; N]) {
    met.iter_mut().zip(is).for_each(|(times, is)| *times += is as u64);
}

fn names_zero(asked: &Asked) -> bool {
    asked.words().chunks(2).any(|column| column == [1, 0])
}

/// Alike in each named column, a 0 as any other value.
fn fits(record: &[u32], asked: &Asked) -> bool {
    record.iter().zip(asked.words().chunks(2)).all(|(value, column)| column[0] == 0 || column[1] == *value)
}
