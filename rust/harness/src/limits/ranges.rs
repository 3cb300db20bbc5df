//! Rows of ranges (S-3): which records they take, at both ends and just outside, in every column; lists of 32 and 33 and longer counts; and what
//! is filed beside what. What they do with 0 is in zeros too. Leans on scene.

use super::*;
use crate::call::{Ask, Asked, Within};

const ENDS: Limit = ("records within, of 10 to 19", "a lowest and a highest value, both included");
const ALL_VALUES: Limit = ("records within, of 0, 5 and the largest number", "a range skips records with 0 in its column");
const BESIDE: Limit = ("records within that have the named value of another column", "exactly the subspace's records within");
const MATCHING: Limit = ("matching records within", "32 matching records are listed; 33 give 12");
const COUNTED: Limit = ("counted records within", "counts past 32 without giving 12");
const SAW: Limit = ("a write of another value was seen, records within", "For its nodes that column counts as a star");
const OTHER: Limit = ("filed beside another, records", "The key of a filed answer and the desk's state include the column and both ends");
const ABANDONED: Limit = ("abandoning of a read with a range, steps made", "A reader's desk becomes idle");

const MOST: u32 = u32::MAX;

/// A read: a list or a count, the columns that are named and the value of each, a range or none.
#[derive(Clone, Copy)]
pub struct Read {
    pub kind: u32,
    pub named: u32,
    pub values: [u32; 4],
    /// column, lowest, highest
    pub range: Option<(u32, u32, u32)>,
}

impl Read {
    /// Without a range; the named columns all name this.
    pub fn naming(kind: u32, named: u32, value: u32) -> Read {
        Read { kind, named, values: [value; 4], range: None }
    }

    pub fn within(kind: u32, named: u32, range: (u32, u32, u32)) -> Read {
        Read { range: Some(range), ..Read::naming(kind, named, 7) }
    }

    /// The value of a column, 0 where it is a star or none.
    fn value(&self, k: u32, c: u32) -> u32 {
        if c < k && self.named >> c & 1 == 1 {
            self.values[c as usize]
        } else {
            0
        }
    }

    pub fn begin(&self, k: u32, desk: u32) -> Call {
        let within = self.range.map(|(column, lowest, highest)| Within { column, lowest, highest });
        let words: Vec<u32> = (0..k).flat_map(|c| [self.named >> c & 1, self.value(k, c)]).collect();
        Ask { asked: Asked::new(&words), counts: self.kind == COUNTS, within }.begin(desk)
    }

    /// Its key from a place on, as docs/LAYOUT.md has it.
    pub fn key(&self, k: u32, (memory, place): Place) -> Vec<(Place, u32)> {
        let (first, lowest, highest) = self.range.map_or((0, 0, 0), |(column, lowest, highest)| (32 * (column + 1), lowest, highest));
        let values = (0..4).map(|c| self.value(k, c));
        let numbers = [self.named | wanted(self.kind) | first].into_iter().chain(values).chain([lowest, highest]);
        numbers.enumerate().map(|(at, number)| ((memory, place + at), number)).collect()
    }

    /// "a read that names m columns has 2^m nodes"; a range's column is not among them.
    fn looks(&self) -> u32 {
        1 << self.named.count_ones()
    }

    /// Begun at desk 0, its looks and some steps more.
    pub fn up_to(&self, scene: Scene, more: u32) -> Scene {
        let k = scene.k;
        scene.made(self.begin(k, 0)).steps(0, self.looks() + more)
    }

    /// The row of an answer: the records that have `found` in one column and 7 in the others, or how many they are.
    pub fn given(&self, scene: Scene, limit: Limit, column: u32, found: &[u32], reply: Reply) -> Row {
        let k = scene.k;
        let row = scene.row(limit, found.len() as u32, step(0), reply).after(idle(0));
        if self.kind == COUNTS {
            return row.counted();
        }
        row.after(listed(k, column, found).map(|(i, number)| ((4, i), number)))
    }
}

/// The numbers of the records that have `found` in one column and 7 in the others, one after another.
fn listed(k: u32, column: u32, found: &[u32]) -> impl Iterator<Item = (usize, u32)> + '_ {
    let numbers = found.iter().flat_map(move |value| (0..k).map(move |c| if c == column { *value } else { 7 }));
    numbers.enumerate()
}

/// The columns but one that are named, or none is.
pub fn named_beside(k: u32, column: u32) -> [u32; 2] {
    [0, marks(k) - (1 << column)]
}

/// Table step, file step and the fetch of the next such read.
pub fn read_twice(rows: &mut Vec<Row>, limit: Limit, table: &Scene, read: Read, column: u32, found: &[u32]) {
    let (k, n) = (table.k, found.len() as u32);
    let list = client(0, CLIENT_ENTRY + ENTRY_LIST);
    let numbers: Vec<u32> = if read.kind == COUNTS { Vec::new() } else { listed(k, column, found).map(|(_, number)| number).collect() };
    let held = (0..128).map(|i| ((list.0, list.1 + i), numbers.get(i).copied().unwrap_or(0)));
    let taken = read.up_to(table.clone(), 1).row(limit, n, step(0), says(0));
    rows.push(taken.after(held).after([(client(0, CLIENT_ENTRY + ENTRY_LENGTH), n)]).after(read.key(k, client(0, CLIENT_ENTRY))));
    let filed = || read.key(k, answer(0, 0)).into_iter().chain([(ANSWER_COUNT, 1), (answer(0, ENTRY_LENGTH), n)]);
    rows.push(read.given(read.up_to(table.clone(), 2), limit, column, found, from_table(n)).after(filed()));
    let again = read.up_to(read.up_to(table.clone(), 3), 0);
    rows.push(read.given(again, limit, column, found, from_file(n)).after(filed()));
}

/// Ten records, 10 to 19 in a column.
fn ten(k: u32, column: u32) -> Scene {
    Scene::opened(k).records_by(column, 10, 10)
}

/// Both ends exactly met and just missed, equal ends, all values.
pub fn taken(rows: &mut Vec<Row>, k: u32) {
    let many = [((10, 19), 10..20), ((11, 19), 11..20), ((10, 18), 10..19), ((9, 20), 10..20), ((0, MOST), 10..20), ((12, 15), 12..16)];
    let one = [((0, 10), 10..11), ((19, MOST), 19..20), ((10, 10), 10..11), ((19, 19), 19..20), ((14, 14), 14..15)];
    let none = [((0, 9), 0..0), ((20, MOST), 0..0), ((9, 9), 0..0), ((20, 20), 0..0), ((0, 0), 0..0), ((MOST, MOST), 0..0)];
    for column in 0..k {
        for ((lowest, highest), found) in many.iter().chain(&one).chain(&none) {
            let found: Vec<u32> = found.clone().collect();
            for (kind, named) in READS.into_iter().flat_map(|kind| named_beside(k, column).map(|named| (kind, named))) {
                read_twice(rows, ENDS, &ten(k, column), Read::within(kind, named, (column, *lowest, *highest)), column, &found);
            }
        }
    }
}

/// The least and the largest value that a record can have, and one between.
const SPREAD: [u32; 3] = [0, 5, MOST];

fn spread(k: u32, column: u32) -> Scene {
    Scene::opened(k).records_of(column, &SPREAD)
}

/// Inside and outside; 0 is never inside.
pub fn extremes(rows: &mut Vec<Row>, k: u32) {
    let all: [((u32, u32), &[u32]); 7] = [
        ((0, MOST), &SPREAD[1..]),
        ((0, 0), &[]),
        ((MOST, MOST), &SPREAD[2..]),
        ((0, MOST - 1), &SPREAD[1..2]),
        ((1, MOST), &SPREAD[1..]),
        ((1, MOST - 1), &SPREAD[1..2]),
        ((6, MOST - 1), &[]),
    ];
    for (column, ((lowest, highest), found)) in (0..k).flat_map(|column| all.map(|row| (column, row))) {
        let table = spread(k, column);
        READS.iter().for_each(|kind| read_twice(rows, ALL_VALUES, &table, Read::within(*kind, 0, (column, lowest, highest)), column, found));
    }
}

/// The records differ in another column than the ranged one, in which each has 7: a value is named there, or a star takes all.
pub fn other_columns(rows: &mut Vec<Row>, k: u32) {
    let columns = (0..k).flat_map(|column| (0..k).filter(move |other| *other != column).map(move |other| (column, other)));
    for (kind, (column, other)) in columns.flat_map(|columns| READS.map(|kind| (kind, columns))) {
        let named = |value, lowest| Read { range: Some((column, lowest, 9)), ..Read::naming(kind, 1 << other, value) };
        read_twice(rows, BESIDE, &ten(k, other), named(14, 7), other, &[14]);
        read_twice(rows, BESIDE, &ten(k, other), named(20, 7), other, &[]);
        read_twice(rows, BESIDE, &ten(k, other), named(14, 8), other, &[]);
        read_twice(rows, BESIDE, &spread(k, other), Read::within(kind, 0, (column, 7, 7)), other, &SPREAD);
        read_twice(rows, BESIDE, &spread(k, other), Read::within(kind, 0, (column, 8, 9)), other, &[]);
    }
}

/// 32 and 33 of 40 records, and all of 2,048; and beside a write, which is seen whatever value it has in the ranged column.
pub fn lengths(rows: &mut Vec<Row>, k: u32) {
    for column in 0..k {
        let table = || Scene::opened(k).records_by(column, 40, 0);
        let found: Vec<u32> = (4..37).collect();
        let list = |highest| Read::within(READ, 0, (column, 4, highest));
        let count = |highest| Read::within(COUNTS, 0, (column, 4, highest));
        read_twice(rows, MATCHING, &table(), list(35), column, &found[..32]);
        rows.push(list(36).up_to(table(), 1).row(MATCHING, 33, step(0), says(12)).after([(ANSWER_COUNT, 0)]).after(idle(0)));
        read_twice(rows, COUNTED, &table(), count(35), column, &found[..32]);
        read_twice(rows, COUNTED, &table(), count(36), column, &found);
        let every: Vec<u32> = (1..=2_048).collect();
        let full = Scene::opened(k).records_by(column, 2_048, 1);
        read_twice(rows, COUNTED, &full, Read::within(COUNTS, 0, (column, 0, MOST)), column, &every);
        read_twice(rows, COUNTED, &full, Read::within(COUNTS, 0, (column, 2, 2_048)), column, &every[1..]);
        // 5,000 is written, far above
        let marked = || table().made(begin(INSERT, 1, query(k, ALL, 5_000))).steps(1, 1 << k);
        let seen = |read: Read| read.given(read.up_to(marked(), 1), SAW, column, &found[..32], from_table(32));
        rows.extend([list(35), count(35)].map(|read| seen(read).after([(ANSWER_COUNT, 0)])));
        rows.push(list(36).up_to(marked(), 1).row(SAW, 33, step(0), says(12)).after([(ANSWER_COUNT, 0)]).after(idle(0)));
    }
}

/// After each number of steps.
pub fn abandonings(rows: &mut Vec<Row>, k: u32) {
    let read = |kind| Read::within(kind, marks(k) >> 1, (k - 1, 4, 9));
    for (kind, made) in READS.into_iter().flat_map(|kind| (0..read(kind).looks() + 3).map(move |made| (kind, made))) {
        let scene = Scene::opened(k).made(read(kind).begin(k, 0)).steps(0, made);
        rows.push(scene.row(ABANDONED, made, abandon(0), says(0)).after(idle(0)));
    }
}

/// Two reads whose keys differ in one thing, with the first record that each finds and how many follow, of `ten`.
fn pairs(k: u32, column: u32, kind: u32) -> Vec<[(Read, std::ops::Range<u32>); 2]> {
    let within = |lowest, highest, found| (Read::within(kind, 0, (column, lowest, highest)), found);
    let stars = (Read::naming(kind, 0, 7), 10..20);
    let value = (Read::naming(kind, 1 << column, 14), 14..15);
    let zero = (Read::naming(kind, 1 << column, 0), 0..0);
    let other_kind = (Read::within(READ + COUNTS - kind, 0, (column, 12, 15)), 12..16);
    let mut pairs = vec![
        [stars.clone(), within(12, 15, 12..16)],
        [stars.clone(), within(0, MOST, 10..20)],
        [stars, zero.clone()],
        [zero, within(0, 0, 0..0)],
        [within(14, 14, 14..15), value],
        [within(12, 15, 12..16), other_kind],
        [within(12, 15, 12..16), within(12, 16, 12..17)],
        [within(12, 15, 12..16), within(11, 15, 11..16)],
    ];
    if k > 1 {
        // in the other column each of the ten has 7
        let beside = Read::within(kind, 0, ((column + 1) % k, 7, 12));
        pairs.push([within(7, 12, 10..13), (beside, 10..20)]);
    }
    pairs
}

/// Filed in each order: neither serves the other, both are kept, each is used by its own.
pub fn beside(rows: &mut Vec<Row>, k: u32) {
    for (column, kind) in (0..k).flat_map(|column| READS.map(|kind| (column, kind))) {
        for [one, other] in pairs(k, column, kind) {
            filed_in_order(rows, k, column, [&one, &other]);
            filed_in_order(rows, k, column, [&other, &one]);
        }
    }
}

fn filed_in_order(rows: &mut Vec<Row>, k: u32, column: u32, reads: [&(Read, std::ops::Range<u32>); 2]) {
    let [first, second] = reads.map(|(read, _)| *read);
    let [of_first, of_second] = reads.map(|(_, found)| found.clone().collect::<Vec<u32>>());
    let one = || first.up_to(ten(k, column), 3);
    let n = of_second.len() as u32;
    rows.push(second.up_to(one(), 0).row(OTHER, n, step(0), says(0)).after([(ANSWER_COUNT, 1)]));
    let filed = |zero: Read, one: Read| [(ANSWER_COUNT, 2)].into_iter().chain(zero.key(k, answer(0, 0))).chain(one.key(k, answer(1, 0)));
    rows.push(second.given(second.up_to(one(), 2), OTHER, column, &of_second, from_table(n)).after(filed(first, second)));
    let both = || second.up_to(one(), 3);
    for (read, found) in [(first, &of_first), (second, &of_second)] {
        let reply = from_file(found.len() as u32);
        rows.push(read.given(read.up_to(both(), 0), OTHER, column, found, reply).after(filed(first, second)));
    }
    // filed anew, since a counter has gone up: its own goes, the other stays
    let anew = first.up_to(both().put(node(0, NODE_REVISION), 7), 2);
    let reply = from_table(of_first.len() as u32);
    rows.push(first.given(anew, OTHER, column, &of_first, reply).after(filed(second, first)));
}
