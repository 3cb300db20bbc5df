//! Calls that are lent a tally, each beside the same call without one on the same memories: with a cleared tally, and with a count at its largest
//! that the call does not raise, so that it has to be found out beforehand which one it would. The three rows have the same name; the groups begin
//! with "tallied" and with "full tally", so that what lending a tally costs can be read off one run. And calls that are 15.
//! Where a count is at its largest the twin makes the call on copies of all memories first, which no ratio should be read off.
//! Leans on rows and side.

use crate::rows::Row;
use crate::side::Reply;
use twin::Count;

/// What the groups begin with.
pub const TALLIED: &str = "tallied ";
pub const FULL: &str = "full tally ";

/// The group and the name of a row without a tally, and the groups of those with one.
type Pair = (&'static str, &'static str, [&'static str; 2]);

const PAIRS: [Pair; 13] = [
    ("begin read", "full hall", ["tallied begin read", "full tally begin read"]),
    ("begin insert", "full hall", ["tallied begin insert", "full tally begin insert"]),
    ("look", "node last of 1,024", ["tallied look", "full tally look"]),
    ("fetch", "hit, last of 64", ["tallied fetch", "full tally fetch"]),
    ("fetch", "miss, 64 other queries", ["tallied fetch", "full tally fetch"]),
    ("list", "names columns 1 to 4", ["tallied list", "full tally list"]),
    ("file", "new, 64 kept", ["tallied file", "full tally file"]),
    ("mark", "node last of 1,024", ["tallied mark", "full tally mark"]),
    ("raise", "node last of 1,024", ["tallied raise", "full tally raise"]),
    ("raise", "the write's last", ["tallied raise", "full tally raise"]),
    ("abandon", "a read", ["tallied abandon", "full tally abandon"]),
    ("abandon", "a write with 16 marks", ["tallied abandon", "full tally abandon"]),
    ("abandon", "a write with 16 raises left", ["tallied abandon", "full tally abandon"]),
];

/// The count that is at its largest: no call of `PAIRS` raises it.
const OTHER: Count = Count::EndedLong;

/// Calls that would raise a count at its largest.
const HELD: [(&str, &str, &str, Count); 4] = [
    ("begin read", "full hall", "full tally begin read", Count::ReadsBegun),
    ("fetch", "hit, last of 64", "full tally fetch", Count::FromFile),
    ("raise", "the write's last", "full tally raise", Count::EndedChanged),
    ("abandon", "a write with 16 raises left", "full tally abandon", Count::EndedChanged),
];

/// Beside these rows.
pub fn rows(plain: &[Row]) -> Vec<Row> {
    let of = |group: &str, name: &str| plain.iter().find(|row| row.group == group && row.name == name).expect("such a row is timed");
    let mut rows = Vec::new();
    for (group, name, [tallied, full]) in PAIRS {
        let row = of(group, name);
        rows.push(lent(row, tallied, name.to_string(), None, row.expected));
        rows.push(lent(row, full, name.to_string(), Some(OTHER), row.expected));
    }
    let refused = Reply { number: 15, count: 0, ending: 0 };
    rows.extend(HELD.map(|(group, name, full, count)| lent(of(group, name), full, format!("refused: 15, {name}"), Some(count), refused)));
    rows
}

/// The same call, lent a tally that is cleared but for one count.
fn lent(plain: &Row, group: &'static str, name: String, full: Option<Count>, expected: Reply) -> Row {
    let mut hall = plain.hall.clone();
    full.into_iter().for_each(|count| hall.tally[count as usize] = u32::MAX);
    Row { group, name, hall, act: plain.act.tallied(), expected }
}
