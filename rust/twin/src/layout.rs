//! Where everything stands in the memories: docs/LAYOUT.md as numbers. Leans on nothing.

pub const RECORDS: usize = 2048;
pub const NODES: usize = 1024;
pub const ANSWERS: usize = 64;
/// clients: the desks
pub const CLIENTS: usize = 12;
/// the longest list that is answered
pub const LIST: usize = 32;
/// pending writes, the marks, that a node can have: one at each client
pub const PENDING: u32 = 12;
/// a write begins only while the floor and every revision are at most this
pub const WORN: u32 = 4_294_967_103;

pub const TABLE_LEAST: usize = 8200;
pub const NODES_LEAST: usize = 8200;
pub const ANSWERS_LEAST: usize = 10000;
pub const CLIENTS_LEAST: usize = 2000;
pub const TRAY_LEAST: usize = 128;

/// every memory has a header of 8 numbers
pub const HEAD: usize = 8;
/// table and answers: how many entries; clients: k
pub const COUNT: usize = 0;
pub const COLUMNS: usize = 0;
pub const FLOOR: usize = 0;
pub const NODE_COUNT: usize = 1;

/// a node: label (tags and four values), pending writes (marks), revision (counter), one kept number
pub const NODE_WIDTH: usize = 8;
pub const LABEL_WIDTH: usize = 5;
pub const NODE_PENDING: usize = 5;
pub const NODE_REVISION: usize = 6;

/// a filed answer: key, list length or count, 16 revisions, 128 numbers of the list
pub const ENTRY_WIDTH: usize = 152;
pub const KEY_WIDTH: usize = 7;
pub const ENTRY_LENGTH: usize = 7;
pub const ENTRY_REVISIONS: usize = 8;
pub const ENTRY_LIST: usize = 24;
pub const LIST_WIDTH: usize = 128;
/// in a key's first number, above the marks of four columns: what is wanted is a count, not a list
pub const COUNT_BIT: u32 = 16;
/// below that bit in a key's first number: the marks of the columns
pub const MARKS: u32 = 15;
/// above that bit, in units of this: the column of a range plus 1, or 0
pub const RANGE_UNIT: u32 = 32;
/// the ends of a key's range, both 0 where there is none
pub const KEY_LOWEST: usize = 5;
pub const KEY_HIGHEST: usize = 6;

/// a client, the desk: five numbers of its own, then an entry as in the answers memory
pub const CLIENT_WIDTH: usize = 157;
pub const CLIENT_KIND: usize = 0;
pub const CLIENT_STEPS: usize = 1;
pub const CLIENT_SAW: usize = 2;
pub const CLIENT_CHANGED: usize = 3;
pub const CLIENT_FULL: usize = 4;
pub const CLIENT_ENTRY: usize = 5;

pub const IDLE: u32 = 0;
pub const READ: u32 = 1;
pub const INSERT: u32 = 2;
pub const DELETE: u32 = 3;

/// tags of a label's column: a value, a wildcard (star), a ?
pub const TAG_VALUE: u32 = 1;
pub const TAG_WILDCARD: u32 = 2;
pub const TAG_ANY: u32 = 3;

/// a tally: so many counts
pub const COUNTS: usize = 9;
