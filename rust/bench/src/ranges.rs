//! Reads with a range, each beside the plain one that finds as many records on the same memories:
//! the same query with a star where the range is. Both rows of a pair have the same name, the group
//! of the ranged one begins with "ranged", so that what a range costs can be read off one run.
//! Leans on rows, hall and side.

use crate::hall::{read_labels, Hall};
use crate::rows::{fetching, from_file, full, naming, reading, record, row, Row, CLIENT};
use crate::side::{Act, Asked, Kind, ACCEPTED};
use twin::layout::*;

/// The value that a query of these rows names in each column but one.
const NAMED: u32 = 7;
/// The least value, and one above every value, in a column with a range: from the one to the other a range leaves nothing out. (It skips 0.)
const LOWEST: u32 = 1;
const HIGHEST: u32 = 9_000;

pub fn rows() -> Vec<Row> {
    let mut rows = Vec::new();
    begins_and_fetches(&mut rows);
    (2..=4).flat_map(|k| [(k, 0), (k, k - 1)]).for_each(|(k, open)| table_steps(&mut rows, k, open));
    one_column(&mut rows);
    whole_table(&mut rows);
    rows
}

/// The groups of a plain row and of the ranged one beside it.
fn groups(kind: Kind) -> [&'static str; 2] {
    if kind == Kind::Count {
        ["count", "ranged count"]
    } else {
        ["list", "ranged list"]
    }
}

/// A begin and a fetch that hits, in a full hall: three columns named, the last a star or ranged.
fn begins_and_fetches(rows: &mut Vec<Row>) {
    let plain = naming(4, 0b0111);
    let ranged = plain.within(3, LOWEST, HIGHEST);
    for (asked, [read, count, fetch]) in
        [(plain, ["begin read", "begin count", "fetch"]), (ranged, ["ranged begin read", "ranged begin count", "ranged fetch"])]
    {
        row(rows, read, "full hall, all but column 3 named", full(4), Act::Begin(Kind::Read, CLIENT, asked), ACCEPTED);
        row(rows, count, "full hall, all but column 3 named", full(4), Act::Begin(Kind::Count, CLIENT, asked), ACCEPTED);
        let own = reading(4, asked).entry_for(asked);
        let hall = fetching(asked, Some((ANSWERS - 1, own)));
        row(rows, fetch, "hit, last of 64, all but column 3 named", hall, Act::Step(CLIENT), from_file(1));
    }
}

/// Before the table step of a read in a hall with these records.
fn taking(kind: Kind, k: usize, asked: Asked, n: usize, record: impl Fn(usize) -> [u32; 4]) -> Hall {
    let looks = read_labels(k, asked).len() as u32;
    reading(k, asked).with_records(n, record).begun(kind, CLIENT, asked, looks + 1)
}

/// The table step in this hall, which must find so many records: its reply does not tell.
fn finding(rows: &mut Vec<Row>, group: &'static str, name: &str, finds: usize, hall: Hall) {
    let mut after = hall.clone();
    after.does(Act::Step(CLIENT), ACCEPTED);
    let found = after.clients[HEAD + CLIENT as usize * CLIENT_WIDTH + CLIENT_ENTRY + ENTRY_LENGTH];
    assert_eq!(found as usize, finds, "{group}: {name}");
    row(rows, group, name, hall, Act::Step(CLIENT), ACCEPTED);
}

/// A plain row and the ranged one beside it, whose range takes every value of its column.
fn pair(rows: &mut Vec<Row>, kind: Kind, name: &str, finds: usize, [plain, ranged]: [Hall; 2]) {
    let groups = groups(kind);
    finding(rows, groups[0], name, finds, plain);
    finding(rows, groups[1], name, finds, ranged);
}

/// How many records the rows find, and the word for it.
const FINDS: [(usize, &str); 3] = [(0, "none"), (1, "1"), (32, "32")];

/// Lists and counts over 2,048 records that name every column but one, the first or the last.
fn table_steps(rows: &mut Vec<Row>, k: usize, open: usize) {
    let plain = Asked::new(&(0..k).map(|c| (c != open).then_some(NAMED)).collect::<Vec<_>>());
    let asked = [plain, plain.within(open, LOWEST, HIGHEST)];
    for (kind, (finds, text)) in [Kind::Read, Kind::Count].into_iter().flat_map(|kind| FINDS.map(|finds| (kind, finds))) {
        let halls = asked.map(|asked| taking(kind, k, asked, RECORDS, |i| found_or_not(k, open, finds, i)));
        pair(rows, kind, &format!("k {k}, all but column {open} named, finds {text}"), finds, halls);
    }
}

/// Record i of 2,048 ascending ones, of which so many have the named value in each column but
/// `open`; the others differ from it in the column that is farthest from `open`. Where the first
/// column is open those found are spread, otherwise they lie together.
fn found_or_not(k: usize, open: usize, finds: usize, i: usize) -> [u32; 4] {
    let mut values = [NAMED; 4];
    values[open] = LOWEST + i as u32;
    if open == 0 {
        let apart = RECORDS / finds.max(1);
        let is_found = finds > 0 && i % apart == apart / 2;
        values[k - 1] = if is_found { NAMED } else { NAMED + 1 };
    } else {
        let first = RECORDS / 2;
        values[0] = if i < first { NAMED - 1 } else { NAMED + (i >= first + finds) as u32 };
    }
    values
}

/// With one column a range leaves no other to name. Over 2,048 records the plain query that finds
/// as many names its value, or finds all of them: rows has those, but for the list of 1.
fn one_column(rows: &mut Vec<Row>) {
    let star = Asked::new(&[None]);
    let value = record(1, RECORDS / 2)[0];
    let over = |kind, asked| taking(kind, 1, asked, RECORDS, |i| record(1, i));
    let ends = [(HIGHEST, HIGHEST + 5), (value, value), (value, value + 31)];
    for ((lowest, highest), (finds, text)) in ends.into_iter().zip(FINDS) {
        let (name, asked) = (format!("k 1, finds {text}"), star.within(0, lowest, highest));
        finding(rows, "ranged list", &name, finds, over(Kind::Read, asked));
        finding(rows, "ranged count", &name, finds, over(Kind::Count, asked));
    }
    finding(rows, "ranged count", "k 1, finds all", RECORDS, over(Kind::Count, star.within(0, LOWEST, HIGHEST)));
    finding(rows, "list", "k 1, finds 1", 1, over(Kind::Read, Asked::new(&[Some(value)])));
}

/// In a table of 32 records of one column a star finds 32.
fn whole_table(rows: &mut Vec<Row>) {
    let star = Asked::new(&[None]);
    for kind in [Kind::Read, Kind::Count] {
        let halls = [star, star.within(0, LOWEST, HIGHEST)].map(|asked| taking(kind, 1, asked, 32, |i| record(1, i)));
        pair(rows, kind, "k 1, table of 32, finds 32", 32, halls);
    }
}
