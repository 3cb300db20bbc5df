//! The differential harness: random calls through two sides on equal memories, replies and every number compared after each call;
//! the checkers of demand 3, of demand 2's last sentence and of the tally; both sides of every limit. Leans on the twin and, for the library, on the
//! safe crate.

pub mod call;
pub mod check;
pub mod draw;
pub mod filing;
pub mod hall;
pub mod histories;
pub mod ledger;
pub mod lend;
pub mod library;
pub mod limits;
pub mod made;
pub mod met;
pub mod report;
pub mod rng;
pub mod run;
pub mod seen;
pub mod shrink;
pub mod side;
pub mod start;
pub mod without_fetch;
pub mod zeros;
