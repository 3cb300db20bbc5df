//! Rows of ranges in memory (S-3): at a busy desk, each number of one in range and not; the steps of such a read; on file, where none is tested.
//! Leans on scene, clients and ranges.

use super::clients::{every_call, Good, GOES_ON};
use super::ranges::Read;
use super::*;

const REFUSED: &str = "a held range that a begin would refuse is 3";
const OUT: &str = "the called desk is not idle and its kind, query, step or list length is out of range";
const FIRST: Limit = ("first number of the desk's query, of a range", REFUSED);
const LOWEST: Limit = ("desk's lowest, of a range up to 9", REFUSED);
const HIGHEST: Limit = ("desk's highest, of a range from 4", REFUSED);
const VALUE: Limit = ("value in the ranged column of the desk's query", OUT);
const NO_RANGE: Limit = ("an end of a range at a desk without one", OUT);
const WRITES: Limit = ("a write's number where a read has its range", OUT);
const STEPS: Limit = ("steps of a read with a range", "For its nodes that column counts as a star");
const SENSELESS: Limit = ("first number of a filed range", "Contents that no history leaves are taken at their word");

const MOST: u32 = u32::MAX;

/// A read of column `column` from 4 to 9 at desk 4, in a hall of k columns, all stars; one number of its key is changed.
fn changed(rows: &mut Vec<Row>, k: u32, limit: Limit, (kind, column): (u32, u32), (at, value): (usize, u32), good: Good) {
    let read = Read::within(kind, 0, (column, 4, 9)).begin(k, 4);
    every_call(rows, &Scene::opened(k).made(read).put(client(4, CLIENT_ENTRY + at), value), limit, value, good);
}

pub fn ranges(rows: &mut Vec<Row>, k: u32) {
    for (kind, column) in READS.into_iter().flat_map(|kind| (0..k).map(move |column| (kind, column))) {
        ends(rows, k, (kind, column));
        first_numbers(rows, k, (kind, column));
    }
    without_ranges(rows, k);
    READS.iter().for_each(|kind| steps(rows, k, *kind));
}

/// Each end, and the value under the star.
fn ends(rows: &mut Vec<Row>, k: u32, (kind, column): (u32, u32)) {
    let lowest = [(0, GOES_ON), (8, GOES_ON), (9, GOES_ON), (10, None), (MOST, None)].map(|row| (LOWEST, KEY_LOWEST, row));
    let highest = [(MOST, GOES_ON), (5, GOES_ON), (4, GOES_ON), (3, None), (0, None)].map(|row| (HIGHEST, KEY_HIGHEST, row));
    let values = [(0, GOES_ON), (1, None), (5, None)].map(|row| (VALUE, 1 + column as usize, row));
    for (limit, at, (number, good)) in lowest.into_iter().chain(highest).chain(values) {
        changed(rows, k, limit, (kind, column), (at, number), good);
    }
}

/// The column plus 1 from bit 5 on, above the bit of a count and the marks.
fn first_numbers(rows: &mut Vec<Row>, k: u32, (kind, column): (u32, u32)) {
    for wanted in [0, COUNT_BIT] {
        let own = (column + 1) * 32 + wanted;
        // the range of each column, of the first that is none, of others, and none although the ends are there
        let of_columns = (1..=k).map(|number| (number * 32 + wanted, GOES_ON));
        let of_none = [0, k + 1, k + 2, 8, (1 << 27) - 1].map(|number| (number * 32 + wanted, None));
        // the mark of this column, of each other, of the first that is none
        let marked = (0..k).map(|c| (own + (1 << c), if c == column { None } else { GOES_ON }));
        let past = (k..4).map(|c| (own + (1 << c), None));
        for (first, good) in of_columns.chain(of_none).chain(marked).chain(past).chain([(MOST, None)]) {
            changed(rows, k, FIRST, (kind, column), (0, first), good);
        }
    }
}

/// No write has a range; 0 and 0 are the ends where there is none.
fn without_ranges(rows: &mut Vec<Row>, k: u32) {
    for (kind, named) in [(INSERT, ALL), (DELETE, ALL), (DELETE, 0), (READ, 0), (COUNTS, 0)] {
        let begun = || Scene::opened(k).begun(kind, 4, named, 5);
        let limit = if is_write(kind) { WRITES } else { NO_RANGE };
        for (at, (value, good)) in [KEY_LOWEST, KEY_HIGHEST].into_iter().flat_map(|at| [(0, GOES_ON), (1, None), (MOST, None)].map(|row| (at, row))) {
            every_call(rows, &begun().put(client(4, CLIENT_ENTRY + at), value), limit, value, good);
        }
        for column in (0..=k).filter(|_| is_write(kind)) {
            let first = (marks(k) & named) + 32 * (column + 1);
            every_call(rows, &begun().put(client(4, CLIENT_ENTRY), first), limit, first, None);
        }
    }
}

/// With m columns named, the last of its steps finds 2^m + 2 made.
fn steps(rows: &mut Vec<Row>, k: u32, kind: u32) {
    for m in 0..k {
        let (read, last) = (Read::within(kind, marks(m), (k - 1, 4, 9)), (1 << m) + 2);
        let scene = || Scene::opened(k).made(read.begin(k, 4)).steps(4, last);
        for (made, good) in [(last, Some((from_table(0), says(0)))), (last + 1, None), (MOST, None)] {
            every_call(rows, &scene().put(client(4, CLIENT_STEPS), made), STEPS, made, good);
        }
    }
}

/// A filed range that no begin would have: of a column that is none or is named, reversed, ends without a column. It is not tested, and it fits
/// no read: not the one whose key it was, nor the one with the same first number or the same ends.
pub fn filed(rows: &mut Vec<Row>, k: u32) {
    let column = k - 1;
    for kind in READS {
        let read = Read::within(kind, 0, (column, 4, 9));
        let own = 32 * k + wanted(kind);
        let firsts = [own + 32, own + (1 << column), MOST - COUNT_BIT + wanted(kind), wanted(kind)].map(|first| (first, 4, 9));
        for (first, lowest, highest) in firsts.into_iter().chain([(own, 9, 4), (own, 10, 9), (own, 4, 3), (wanted(kind), 0, 1)]) {
            let filed =
                read.up_to(Scene::opened(k), 3).put(answer(0, 0), first).put(answer(0, KEY_LOWEST), lowest).put(answer(0, KEY_HIGHEST), highest);
            let others = [(step(0), 6), (abandon(0), 6), (Call::EvictAnswer { place: 0 }, 0), (Call::EvictNode { place: 0 }, 0), (Call::Renew, 0)];
            let begun = begins(k, 0).into_iter().map(|call| (call, 0));
            rows.extend(begun.chain(others).map(|(call, number)| filed.row(SENSELESS, first, call, says(number))));
            let plain = Read::naming(kind, 0, 7);
            for read in [read, plain, Read::within(kind, 0, (column, lowest.min(highest), 9)), Read::within(kind, 0, (column, 0, MOST))] {
                rows.push(read.up_to(filed.clone(), 0).row(SENSELESS, first, step(0), says(0)).after([(ANSWER_COUNT, 1)]));
                let after = [(ANSWER_COUNT, 2), (answer(0, 0), first), (answer(0, KEY_LOWEST), lowest), (answer(0, KEY_HIGHEST), highest)];
                let row = read.up_to(filed.clone(), 2).row(SENSELESS, first, step(0), from_table(0));
                rows.push(row.after(after).after(read.key(k, answer(1, 0))));
            }
        }
    }
}
