//! A call as it is made: lent the hall's tally along, or none (document 02, S-7). Leans on call, hall and side.

use crate::call::{Call, KIND_NAMES, TALLIED};
use crate::hall::Hall;
use crate::side::{Reply, Side};
use std::fmt;

#[derive(Clone, Copy, PartialEq, Eq, Debug)]
pub struct Made {
    pub call: Call,
    /// a begin, a step or an abandoning that is lent the tally
    pub tallied: bool,
}

impl Made {
    /// The call, lent the tally if it can be.
    pub fn lent(call: Call) -> Made {
        Made { call, tallied: call.client().is_some() }
    }

    /// Its place in `KIND_NAMES`; none for what is no call.
    pub fn kind(&self) -> Option<usize> {
        self.call.kind().map(|kind| if self.tallied { kind + TALLIED } else { kind })
    }

    /// Makes the call on one side's memories.
    pub fn make(&self, side: &dyn Side, hall: &mut Hall) -> Reply {
        if !self.tallied {
            return self.call.make(side, hall);
        }
        self.call.lay_tray(hall);
        let (m, tray, tally) = hall.lend();
        side.tallied(m, tray, tally, &self.call)
    }
}

/// Without a tally.
impl From<Call> for Made {
    fn from(call: Call) -> Made {
        Made { call, tallied: false }
    }
}

impl From<&Call> for Made {
    fn from(call: &Call) -> Made {
        Made::from(*call)
    }
}

impl From<&Made> for Made {
    fn from(made: &Made) -> Made {
        *made
    }
}

/// As the call, by its name with a tally where it is lent one.
impl fmt::Display for Made {
    fn fmt(&self, f: &mut fmt::Formatter) -> fmt::Result {
        let plain = self.call.to_string();
        match (self.call.kind(), self.kind()) {
            (Some(plain_kind), Some(kind)) if self.tallied => {
                write!(f, "{}{}", KIND_NAMES[kind], plain.strip_prefix(KIND_NAMES[plain_kind]).unwrap_or(&plain))
            }
            _ => write!(f, "{plain}"),
        }
    }
}
