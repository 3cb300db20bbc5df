//! Which calls of a script are lent a tally (document 02, S-7), and which tallies: cleared ones, and ones with counts on both sides of their limit.
//! Leans on call, made and hall.

use crate::call::Call;
use crate::hall::{Hall, Tally, COUNT_NAMES, TALLY};
use crate::made::Made;
use crate::rng::Rng;

/// "a count that stands at 4,294,967,295"
const MOST: u32 = u32::MAX;

#[derive(Clone, Copy, PartialEq, Eq, Debug)]
pub enum Lending {
    /// no call is lent a tally
    None,
    /// every begin, step and abandoning is lent one and the same, from a cleared one on
    Whole,
    /// half of them are, and now and then another takes its place, near its limit mostly
    Mixed,
}

impl Lending {
    /// For a history from an opening. One that is to fill the table is not held up by tallies that are full.
    pub fn of_history(rng: &mut Rng, fills: bool) -> Lending {
        let most = if fills { 4 } else { 5 };
        rng.pick(&[Lending::None, Lending::None, Lending::Whole, Lending::Whole, Lending::Mixed][..most])
    }

    /// The hall's tally at the start of a script.
    pub fn lay(self, rng: &mut Rng, hall: &mut Hall) {
        match self {
            Lending::None => {}
            Lending::Whole => hall.memories[TALLY].fill(0),
            Lending::Mixed => hall.memories[TALLY].copy_from_slice(&drawn(rng)),
        }
    }

    pub fn made(self, rng: &mut Rng, call: Call) -> Made {
        match self {
            Lending::None => Made::from(call),
            Lending::Whole => Made::lent(call),
            Lending::Mixed if rng.chance(1, 2) => Made::from(call),
            Lending::Mixed => Made::lent(call),
        }
    }

    /// Another tally, if one takes the place of that which is lent.
    pub fn other(self, rng: &mut Rng) -> Option<Call> {
        (self == Lending::Mixed && rng.chance(1, 40)).then(|| Call::NewTally { counts: drawn(rng) })
    }
}

/// Mostly one count alone is at its limit or just below it, so that it can be told which one a 15 is of.
pub fn drawn(rng: &mut Rng) -> Tally {
    let mut tally = [0; COUNT_NAMES.len()];
    if rng.chance(1, 2) {
        tally.fill_with(|| rng.below(MOST - 1));
    }
    match rng.below(12) {
        0 => {}
        1 => tally.fill_with(|| rng.pick(&[0, MOST - 1, MOST])),
        _ => tally[rng.below(COUNT_NAMES.len() as u32) as usize] = rng.pick(&[MOST - 1, MOST - 1, MOST]),
    }
    tally
}
