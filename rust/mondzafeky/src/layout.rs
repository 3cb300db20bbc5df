//! Where everything stands in the four memories: docs/LAYOUT.md as numbers, for what looks inside and for the saved form. The calls do not use
//! them: they hand the memories to the library as they are. Leans on nothing.

/// Every memory has a header of 8 numbers; entries start behind it.
pub(crate) const HEADER: usize = 8;

pub(crate) const RECORD_COUNT: usize = 0;
pub(crate) const FLOOR: usize = 0;
pub(crate) const NODE_COUNT: usize = 1;
pub(crate) const ANSWER_COUNT: usize = 0;
/// In the clients memory: k.
pub(crate) const COLUMNS: usize = 0;
pub(crate) const MAX_COLUMNS: u32 = 4;

/// A node: tags and four values (its label), pending writes (the paper's marks), revision (the paper's counter), one kept number.
pub(crate) const NODE_WIDTH: usize = 8;
pub(crate) const NODE_VALUES: usize = 1;
pub(crate) const NODE_PENDING: usize = 5;
pub(crate) const NODE_REVISION: usize = 6;

/// The tags of a label's column, a byte each: a value, a wildcard (star), any (?).
pub(crate) const TAG_VALUE: u32 = 1;
pub(crate) const TAG_WILDCARD: u32 = 2;
pub(crate) const TAG_ANY: u32 = 3;

/// An entry, a filed answer: key, list length or count, 16 revisions, 128 numbers of list.
pub(crate) const ENTRY_WIDTH: usize = 152;
/// In the key's first number, beside a bit for each named column: a count is wanted, and not a list.
pub(crate) const COUNT_BIT: u32 = 16;
/// From there on in the key's first number: 0 without a range, and otherwise its column plus 1.
pub(crate) const RANGE_UNIT: u32 = 32;
pub(crate) const KEY_VALUES: usize = 1;
/// The ends of a range; 0 and 0 where there is none.
pub(crate) const KEY_LOWEST: usize = 5;
pub(crate) const KEY_HIGHEST: usize = 6;
pub(crate) const ENTRY_LENGTH: usize = 7;
pub(crate) const ENTRY_REVISIONS: usize = 8;
pub(crate) const MAX_LOOKS: usize = 16;
pub(crate) const ENTRY_LIST: usize = 24;

/// A client, the paper's desk: five numbers of its own, then an entry as in the answers memory.
pub(crate) const CLIENT_WIDTH: usize = 157;
pub(crate) const CLIENT_KIND: usize = 0;
pub(crate) const CLIENT_STEPS: usize = 1;
pub(crate) const CLIENT_SAW: usize = 2;
pub(crate) const CLIENT_CHANGED: usize = 3;
pub(crate) const CLIENT_FULL: usize = 4;
pub(crate) const CLIENT_ENTRY: usize = 5;

/// Whether an entry is a count's, by its key's first number: this one bit says it, whatever the others are.
pub(crate) fn is_count(first: u32) -> bool {
    first & COUNT_BIT != 0
}

/// The ranged column by a key's first number, whatever it is; none where there is no range.
pub(crate) fn ranged_column(first: u32) -> Option<u32> {
    (first / RANGE_UNIT).checked_sub(1)
}
