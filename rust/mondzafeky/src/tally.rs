//! The day's tally: how many reads and writes were begun and how they ended, and as a small table for the foreman, who wants to see what filing
//! saves. Leans on nothing.
use std::fmt;

/// How many reads and writes were begun, and how they ended: what filing saves. It is lent along
/// with each begin, step and abandoning (the calls whose names end in `_tallied`), and each that is
/// accepted raises the one count that it concerns; a step that ends nothing raises none, nor does a
/// refused call. A count, and a read with a range, is a read like any other.
///
/// From an opening with a cleared tally (`Tally::default()`) that is lent along with every such call since, the reads begun equal the four other
/// counts of reads plus the reads under way, and so do the writes. A call that would raise a count that stands at 4,294,967,295 is refused with
/// [`Refusal::TallyFull`](crate::Refusal::TallyFull) and alters nothing: lend it a new tally. Lending it along is the caller's affair: a call that is
/// lent none is counted nowhere.
///
/// ```
/// # fn main() -> Result<(), mondzafeky::Refusal> {
/// use mondzafeky::{Hall, Query, Tally};
/// let (mut hall, mut day) = (Hall::open(1)?, Tally::default());
/// for _ in 0..4 {
///     hall.begin_read_tallied(&mut day, 0, &Query::from([Some(5)]))?;
///     let _ = hall.run_tallied(&mut day, 0)?;
/// }
/// assert_eq!(day, Tally { reads_begun: 4, from_file: 3, from_table: 1, ..Tally::default() });
/// assert!(day.to_string().ends_with("from file: 3 of 4 answered, 75.0 %"));
/// # Ok(())
/// # }
/// ```
#[repr(C)]
#[derive(Clone, Copy, Debug, Default, PartialEq, Eq, Hash)]
pub struct Tally {
    /// Reads begun: lists and counts, with a range or without.
    pub reads_begun: u32,
    /// Reads answered from file: those that filing has saved the way to the table.
    pub from_file: u32,
    /// Reads answered from the table.
    pub from_table: u32,
    /// Reads that ended long, with 12.
    pub ended_long: u32,
    /// Reads abandoned.
    pub reads_abandoned: u32,
    /// Writes begun: inserts and deletes.
    pub writes_begun: u32,
    /// Writes that ended and changed the table; by their last step, or abandoned after their table step.
    pub ended_changed: u32,
    /// Writes that ended and left the table as it was, a full table (13) among them; by their last step, or abandoned after their table step.
    pub ended_unchanged: u32,
    /// Writes abandoned before their table step.
    pub writes_abandoned: u32,
}

impl Tally {
    /// How many reads were answered, from file or from the table.
    #[must_use]
    pub fn answered(&self) -> u64 {
        u64::from(self.from_file) + u64::from(self.from_table)
    }

    /// The share answered from file of the reads that were answered, 0.0 to 1.0; none if no read was answered yet.
    #[must_use]
    pub fn share_from_file(&self) -> Option<f64> {
        (self.answered() > 0).then(|| f64::from(self.from_file) / self.answered() as f64)
    }

    /// The same in tenths of a per cent, rounded down.
    fn tenths_from_file(&self) -> Option<u64> {
        (1000 * u64::from(self.from_file)).checked_div(self.answered())
    }
}

/// Ten lines, the last without an end: each count, and the share answered from file.
impl fmt::Display for Tally {
    fn fmt(&self, f: &mut fmt::Formatter<'_>) -> fmt::Result {
        let counts = [
            ("reads begun", self.reads_begun),
            ("  answered from file", self.from_file),
            ("  answered from the table", self.from_table),
            ("  ended long", self.ended_long),
            ("  abandoned", self.reads_abandoned),
            ("writes begun", self.writes_begun),
            ("  ended, changed", self.ended_changed),
            ("  ended, unchanged", self.ended_unchanged),
            ("  abandoned before the table", self.writes_abandoned),
        ];
        for (name, count) in counts {
            writeln!(f, "{name:<28} {count:>10}")?;
        }
        match self.tenths_from_file() {
            Some(tenths) => write!(f, "from file: {} of {} answered, {}.{} %", self.from_file, self.answered(), tenths / 10, tenths % 10),
            None => write!(f, "from file: none answered yet"),
        }
    }
}
