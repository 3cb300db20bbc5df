//! What a call is turned down with: the numbers 1 to 6, 8 to 11, 14 and 15, as an error. Leans on
//! names and on the numbers in lib.
use crate::number;
use std::error::Error;
use std::fmt;

/// A call was turned down and altered nothing. The first number that applies is given, in the order
/// 1, 2, 14, 3, 4 and so on; 15 comes after all others. 12 and 13 are not among these: they end a
/// read or a write, and are [`crate::Outcome::Long`] and [`crate::Outcome::Full`]. 7 is given no
/// longer and stays unused.
///
/// ```
/// let refusal = mondzafeky::Hall::open(5).unwrap_err();
/// assert_eq!((refusal, refusal.number(), refusal.name()), (mondzafeky::Refusal::Columns, 2, "columns"));
/// assert!(refusal.to_string().starts_with("2, columns: At opening k is not 1 to 4"));
/// ```
#[derive(Clone, Copy, Debug, PartialEq, Eq, PartialOrd, Ord, Hash)]
#[must_use]
#[repr(u32)]
pub enum Refusal {
    /// 1: a lent memory is below its least length. A [`crate::Hall`] never is.
    Short = number::SHORT,
    /// 2: k not 1 to 4 at opening; not a query of k columns; an insert of another number of
    /// columns; a range's column that is named too or not below k.
    Columns = number::COLUMNS,
    /// 3: k, a number of entries, a filed list's length or a filed count in memory is out of range, or what stands at the desk or at its node is,
    /// or no unmarked node can make room.
    Unsound = number::UNSOUND,
    /// 4: the client, the desk, is above 11.
    NoClient = number::NO_CLIENT,
    /// 5: a begin at a busy desk.
    Taken = number::TAKEN,
    /// 6: a step or an abandoning at an idle desk.
    Idle = number::IDLE,
    /// 8: no answer or node at that place.
    NoEntry = number::NO_ENTRY,
    /// 9: a write is pending at that node: it is marked.
    Pending = number::PENDING,
    /// 10: a write begins while the floor or a counter is above 4,294,967,103.
    Worn = number::WORN,
    /// 11: a renewal with a busy desk.
    Occupied = number::OCCUPIED,
    /// 14: the lowest value of a range is above its highest, as in `9..=4`.
    Reversed = number::REVERSED,
    /// 15: the call would raise a count of the lent tally that stands at 4,294,967,295. What is
    /// under way stays as it is: make the call again, and lend it a new [`crate::Tally`].
    TallyFull = number::TALLY_FULL,
}

impl Refusal {
    /// All of them, by their number.
    pub const ALL: [Refusal; 12] = [
        Refusal::Short,
        Refusal::Columns,
        Refusal::Unsound,
        Refusal::NoClient,
        Refusal::Taken,
        Refusal::Idle,
        Refusal::NoEntry,
        Refusal::Pending,
        Refusal::Worn,
        Refusal::Occupied,
        Refusal::Reversed,
        Refusal::TallyFull,
    ];

    /// The number that the call returned: 1 to 6, 8 to 11, 14 or 15.
    #[must_use]
    pub fn number(self) -> u32 {
        self as u32
    }

    /// The documents' word for it.
    #[must_use]
    pub fn name(self) -> &'static str {
        number::name(self.number())
    }

    /// What it means and what to do.
    #[must_use]
    pub fn sentence(self) -> &'static str {
        number::sentence(self.number())
    }
}

/// Number, word and sentence: `5, taken: The desk is busy; ..`.
impl fmt::Display for Refusal {
    fn fmt(&self, f: &mut fmt::Formatter<'_>) -> fmt::Result {
        write!(f, "{}, {}: {}", self.number(), self.name(), self.sentence())
    }
}

impl Error for Refusal {}

/// The refusal of a number that a low call returned.
impl TryFrom<u32> for Refusal {
    type Error = NoRefusal;

    fn try_from(number: u32) -> Result<Refusal, NoRefusal> {
        Refusal::ALL.into_iter().find(|refusal| refusal.number() == number).ok_or(NoRefusal(number))
    }
}

/// A number that is no refusal's: none of 1 to 6, 8 to 11, 14 and 15.
#[derive(Clone, Copy, Debug, PartialEq, Eq)]
pub struct NoRefusal(pub u32);

impl fmt::Display for NoRefusal {
    fn fmt(&self, f: &mut fmt::Formatter<'_>) -> fmt::Result {
        write!(f, "{}, {}, is no refusal: those are 1 to 6, 8 to 11, 14 and 15", self.0, number::name(self.0))
    }
}

impl Error for NoRefusal {}
