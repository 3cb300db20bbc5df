//! Rows of begins with a range (S-3): reversed or not, of a column that there is or is not, that is named or not, and which number goes before
//! which. Leans on scene and ranges.

use super::ranges::Read;
use super::*;
use crate::call::Asked;

const REVERSED: Limit = ("lowest of a range", "14 reversed, the lowest above the highest");
const COLUMN: Limit = ("ranged column", "a ranged column that is also named, or whose number is not below k, is 2");
const NAMED: Limit = ("ranged column that is named", "a ranged column that is also named, or whose number is not below k, is 2");
const ARRIVES: Limit = ("numbers that arrive, with a range", "a query whose columns are not as many as the k in memory");
const K: Limit = ("k in memory, begin with a range", "14 reversed .., tested right after 2");
const SMALLEST: Limit = ("several apply to a range, as bits", "14 reversed .., tested right after 2");

const MOST: u32 = u32::MAX;

/// Halls whose k in memory is none, by queries of so many columns: 2, then 14, then 3.
pub fn columns(rows: &mut Vec<Row>) {
    let as_many = [5, 6].into_iter().flat_map(|k| (0..k).map(move |column| (k, k, column, 3, 14)));
    // a column that is none, and not as many as in memory; twice the last k goes beyond 32 bits and comes to as many numbers as arrive
    let none = [(5, 5, 5), (5, 5, MOST), (5, 4, 0), (6, 5, 0), (0, 0, 0), (0, 0, MOST), (0, 1, 0), (MOST, 4, 0), ((1 << 31) + 4, 4, 0)];
    for (k, columns, column, ordered, reversed) in as_many.chain(none.map(|(k, columns, column)| (k, columns, column, 2, 2))) {
        let scene = Scene::noise(k).made(Call::Open { k: 1 }).put(COLUMNS, k);
        let ends = [(4, 9, ordered), (9, 9, ordered), (10, 9, reversed), (MOST, 0, reversed)];
        let asked = READS.into_iter().flat_map(|kind| [0, 11, 12].map(|desk| (kind, desk))).flat_map(|of| ends.map(|ends| (of, ends)));
        rows.extend(asked.map(|((kind, desk), (lowest, highest, number))| {
            let call = begin_within(kind, desk, query(columns, 0, 0), (column, lowest, highest));
            scene.row(K, k, call, says(number))
        }));
    }
}

pub fn begins(rows: &mut Vec<Row>, k: u32) {
    for (kind, column) in READS.into_iter().flat_map(|kind| (0..k).map(move |column| (kind, column))) {
        ends(rows, k, kind, column);
        named(rows, k, kind, column);
        wrong_queries(rows, k, kind, column);
    }
    READS.iter().for_each(|kind| column_numbers(rows, k, *kind));
}

/// Each column that there is, and some that are none, at desks that there are and at none.
fn column_numbers(rows: &mut Vec<Row>, k: u32, kind: u32) {
    let none = [k, k + 1, 5, (1 << 27) - 1, 1 << 27, 1 << 31, MOST - 1, MOST];
    let columns = (0..k).map(|column| (column, true)).chain(none.map(|column| (column, false)));
    for ((column, sound), (desk, of_desk)) in columns.flat_map(|column| [(0, 0), (11, 0), (12, 4)].map(|desk| (column, desk))) {
        let ask = |lowest, number| {
            let call = begin_within(kind, desk, query(k, 0, 0), (column, lowest, 9));
            Scene::opened(k).row(COLUMN, column, call, says(if sound { number } else { 2 }))
        };
        rows.extend([ask(4, of_desk), ask(9, of_desk), ask(10, 14)]);
    }
}

/// A lowest at, below and above the highest; what an accepted begin leaves at its desk. Beside other columns that are named, and that are not.
fn ends(rows: &mut Vec<Row>, k: u32, kind: u32, column: u32) {
    let sound = [(4, 9), (9, 9), (0, 9), (0, 0), (0, MOST), (MOST - 1, MOST), (MOST, MOST)];
    let reversed = [(10, 9), (1, 0), (MOST, 0), (MOST, MOST - 1)];
    for named in [0, marks(k) - (1 << column)] {
        for (lowest, highest) in sound {
            let read = Read::within(kind, named, (column, lowest, highest));
            let rest =
                (CLIENT_ENTRY + 7..CLIENT_WIDTH).map(|at| (client(3, at), 0)).chain([(client(3, CLIENT_KIND), READ), (client(3, CLIENT_STEPS), 0)]);
            let row = Scene::opened(k).row(REVERSED, lowest, read.begin(k, 3), says(0));
            rows.push(row.after(read.key(k, client(3, CLIENT_ENTRY))).after(rest));
        }
        for (lowest, highest) in reversed {
            let read = Read::within(kind, named, (column, lowest, highest));
            rows.extend([0, 11, 12].map(|desk| Scene::opened(k).row(REVERSED, lowest, read.begin(k, desk), says(14))));
        }
    }
}

/// The ranged column named, alone or beside all others, with a value in the range, outside of it, and 0: 2, whether reversed or not.
fn named(rows: &mut Vec<Row>, k: u32, kind: u32, column: u32) {
    let asked = [1 << column, marks(k)].into_iter().flat_map(|named| [5, 10, 0].map(|v| query(k, named, v)));
    for (asked, ends) in asked.flat_map(|asked| [(4, 9), (9, 4)].map(|ends| (asked, ends))) {
        rows.push(Scene::opened(k).row(NAMED, column, begin_within(kind, 0, asked, (column, ends.0, ends.1)), says(2)));
    }
}

/// Another number of columns, a mark above 1, a star with a value: 2, whether reversed or not.
fn wrong_queries(rows: &mut Vec<Row>, k: u32, kind: u32, column: u32) {
    let stars = query(6, 0, 0);
    let others = (0..=12).filter(|n| *n != 2 * k).map(|n| Asked::new(&stars.words()[..n as usize]));
    let places = (0..k as usize).flat_map(|at| [(2 * at, 2), (2 * at, MOST), (2 * at + 1, 1)]);
    let flawed = places.map(|(place, number)| {
        let mut words = stars.words()[..2 * k as usize].to_vec();
        words[place] = number;
        Asked::new(&words)
    });
    for (asked, ends) in others.chain(flawed).flat_map(|asked| [(4, 9), (9, 4)].map(|ends| (asked, ends))) {
        let call = begin_within(kind, 0, asked, (column, ends.0, ends.1));
        rows.push(Scene::opened(k).row(ARRIVES, asked.words().len() as u32, call, says(2)));
    }
}

/// The sets of what can apply at once, of which the first in the order 1, 2, 14, 3, 4, 3 of the called desk, 5 is given. Bits of `several`: 0 a
/// table memory that is a number short, 1 a star with a value, 2 a column that is none, 3 reversed, 4 a filed count above 2,048. Desk 4 has a
/// read, desk 5 one of no kind.
pub fn order(rows: &mut Vec<Row>, k: u32) {
    let busy = Scene::opened(k).answers(1).put(answer(0, 0), COUNT_BIT).begun(READ, 4, ALL, 5).begun(READ, 5, ALL, 5).put(client(5, CLIENT_KIND), 4);
    for several in 0..32 {
        let [short, odd, none, reversed, unsound] = [0, 1, 2, 3, 4].map(|bit| several >> bit & 1);
        let lent = [8_200 - short as usize, 8_200, 10_000, 2_000, 128];
        let scene = busy.clone().put(answer(0, ENTRY_LENGTH), 2_049 * unsound);
        let mut words = query(k, 0, 0).words().to_vec();
        words[1] += odd;
        let column = if none == 1 { k } else { k - 1 };
        for (kind, (desk, of_desk)) in READS.into_iter().flat_map(|kind| [(0, 0), (4, 5), (5, 3), (12, 4)].map(|desk| (kind, desk))) {
            let call = begin_within(kind, desk, Asked::new(&words), (column, 9 + reversed, 9));
            let in_order = [short, 2 * (odd | none), 14 * reversed, 3 * unsound, of_desk];
            let first = in_order.into_iter().find(|number| *number != 0).unwrap_or(0);
            rows.push(scene.row(SMALLEST, several, call, says(first)).lent(lent));
        }
    }
}
