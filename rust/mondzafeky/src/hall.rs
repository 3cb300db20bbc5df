//! A hall that owns its memories and its tray, so that no memory can be exchanged for another and a call has only what it is about. Thin over the
//! low calls of `Memories`: each method is one of them, with its reply as a `Result`; those with a tally are in tallied. Leans on saved, outcome,
//! abandoned, query and inspect.
use crate::inspect::Inspect;
use crate::outcome::accepted;
use crate::saved::{self, WrongLength};
use crate::{layout, Abandoned, Memories, Outcome, Query, Refusal, Reply, CLIENTS, TRAY_LEAST};
use std::fmt;
use std::ops::RangeInclusive;

/// An opened hall: one table of records of k columns, the filed answers, the revision nodes, and twelve clients, the desks, 0 to 11.
///
/// ```
/// # fn main() -> Result<(), mondzafeky::Refusal> {
/// use mondzafeky::{Hall, Outcome, Query};
/// let mut hall = Hall::open(2)?;
/// hall.begin_insert(0, &[3, 40])?;
/// assert_eq!(hall.run(0)?, Outcome::Changed);
/// hall.begin_read(1, &Query::from([Some(3), None]))?;
/// match hall.run(1)? {
///     Outcome::Answered { records, .. } => assert_eq!(records.collect::<Vec<_>>(), [[3, 40]]),
///     other => println!("{other}"),
/// }
/// # Ok(())
/// # }
/// ```
///
/// # Panics
/// A call panics if the linked archive gives a number that this crate does not know: then it is one of another version.
#[derive(Clone)]
pub struct Hall {
    /// The four memories one after another, as they are saved.
    numbers: Box<[u32]>,
    tray: Box<[u32]>,
}

impl Hall {
    /// Opens a hall of `k` columns, 1 to 4: no records, no nodes, no answers, every desk idle. Refused with [`Refusal::Columns`] for another k.
    pub fn open(k: u32) -> Result<Hall, Refusal> {
        let mut hall = Hall::over(vec![0; saved::NUMBERS]);
        accepted(hall.memories().open(k))?;
        Ok(hall)
    }

    fn over(numbers: Vec<u32>) -> Hall {
        Hall { numbers: numbers.into_boxed_slice(), tray: vec![0; TRAY_LEAST].into_boxed_slice() }
    }

    /// k, the number of columns, as it stands in memory.
    #[must_use]
    pub fn columns(&self) -> u32 {
        let [_, _, _, clients] = saved::parts(&self.numbers);
        clients[layout::COLUMNS]
    }

    /// Begins a read at `client`, the desk, 0 to 11. It is answered with the records that match at some moment between this begin and the step that
    /// answers: begin it after a write's end to see that write. A query that names 0 matches none. Refusals: `Columns`, `Unsound`, `NoClient`,
    /// `Taken`.
    pub fn begin_read(&mut self, client: u32, query: &Query) -> Result<(), Refusal> {
        accepted(self.memories().begin_read(client, query.as_numbers()))
    }

    /// Begins a count at `client`, the desk: a read that wants only how many records match, and makes the same steps. It ends with
    /// [`Outcome::Counted`], 0 to 2,048, and never with [`Outcome::Long`]; the count is that of some moment between this begin and the step that
    /// tells it. Records that lie in the tray stay there. Refusals: `Columns`, `Unsound`, `NoClient`, `Taken`.
    ///
    /// ```
    /// # fn main() -> Result<(), mondzafeky::Refusal> {
    /// use mondzafeky::{Hall, Outcome, Query};
    /// let mut hall = Hall::open(2)?;
    /// hall.begin_insert(0, &[3, 40])?;
    /// assert_eq!(hall.run(0)?, Outcome::Changed);
    /// hall.begin_count(1, &Query::from([Some(3), None]))?;
    /// assert_eq!(hall.run(1)?, Outcome::Counted { count: 1, from_file: false });
    /// # Ok(())
    /// # }
    /// ```
    pub fn begin_count(&mut self, client: u32, query: &Query) -> Result<(), Refusal> {
        accepted(self.memories().begin_count(client, query.as_numbers()))
    }

    /// Begins a read with a range at `client`, the desk: of the records that match `query` those
    /// whose value in `column`, by its number from 0, lies `within`, both ends included. That
    /// column is a star in `query`. A read otherwise, with its steps and its promise. The range is
    /// a part of what is asked: `1..=9` is not `0..=9`, and `5..=5` not the named 5, as far as the
    /// file goes. 0, not measured, lies in no range: `0..=u32::MAX` finds every record but those
    /// with 0 in the column, and `0..=0` none. Refusals: `Columns`, `Reversed`, `Unsound`,
    /// `NoClient`, `Taken`.
    ///
    /// ```
    /// # fn main() -> Result<(), mondzafeky::Refusal> {
    /// use mondzafeky::{Hall, Outcome, Query, Refusal};
    /// let mut hall = Hall::open(2)?; // bench, class
    /// for class in [0, 3, 4, 9, 10] {
    ///     hall.begin_insert(0, &[7, class])?;
    ///     assert_eq!(hall.run(0)?, Outcome::Changed);
    /// }
    /// let bench_7 = Query::from([Some(7), None]);
    /// hall.begin_read_within(1, &bench_7, 1, 4..=9)?;
    /// match hall.run(1)? {
    ///     Outcome::Answered { records, .. } => assert!(records.eq([[7, 4], [7, 9]])),
    ///     other => println!("{other}"),
    /// }
    /// // Of the five only that with class 0, not measured, is left out.
    /// hall.begin_count_within(1, &bench_7, 1, 0..=u32::MAX)?;
    /// assert_eq!(hall.run(1)?, Outcome::Counted { count: 4, from_file: false });
    /// assert_eq!(hall.begin_read_within(1, &bench_7, 1, 9..=4), Err(Refusal::Reversed));
    /// # Ok(())
    /// # }
    /// ```
    pub fn begin_read_within(&mut self, client: u32, query: &Query, column: u32, within: RangeInclusive<u32>) -> Result<(), Refusal> {
        accepted(self.memories().begin_read_within(client, query.as_numbers(), column, within))
    }

    /// Begins a count with a range at `client`, the desk: how many these are, past 32 too, told by
    /// [`Outcome::Counted`]. Refusals: `Columns`, `Reversed`, `Unsound`, `NoClient`, `Taken`.
    pub fn begin_count_within(&mut self, client: u32, query: &Query, column: u32, within: RangeInclusive<u32>) -> Result<(), Refusal> {
        accepted(self.memories().begin_count_within(client, query.as_numbers(), column, within))
    }

    /// Begins an insert of `record`, k numbers; 0 where a column was not measured. A record that is there already, alike in every column, 0 in them
    /// too, changes nothing ([`Outcome::Unchanged`]). Refusals: `Columns`, `Unsound`, `NoClient`, `Taken`, `Worn`.
    pub fn begin_insert(&mut self, client: u32, record: &[u32]) -> Result<(), Refusal> {
        accepted(self.memories().begin_insert(client, Query::of_record(record).as_numbers()))
    }

    /// Begins a delete of every record that `query` matches; [`Query::of_record`] is the query of one record. A query that names 0 matches none, and
    /// the delete ends with [`Outcome::Unchanged`]: a record with 0 in a column is taken out by a star there. Refusals: `Columns`, `Unsound`,
    /// `NoClient`, `Taken`, `Worn`.
    pub fn begin_delete(&mut self, client: u32, query: &Query) -> Result<(), Refusal> {
        accepted(self.memories().begin_delete(client, query.as_numbers()))
    }

    /// One step of what is under way at `client`, the desk. Refusals: `Unsound`, `NoClient`, `Idle`.
    pub fn step(&mut self, client: u32) -> Result<Outcome<'_>, Refusal> {
        self.stepping(client, |memories, tray| memories.step(tray, client))
    }

    /// Steps a desk to the end of its read or write, or to the first step that is refused: at most 19 steps of a read, 33 of a write.
    /// [`Outcome::UnderWay`] is none of its outcomes. Refusals: as for a step.
    pub fn run(&mut self, client: u32) -> Result<Outcome<'_>, Refusal> {
        self.stepping(client, |memories, tray| memories.run(tray, client))
    }

    /// What comes of steps at `client`, the desk.
    pub(crate) fn stepping(&mut self, client: u32, steps: impl FnOnce(&mut Memories<'_>, &mut [u32]) -> Reply) -> Result<Outcome<'_>, Refusal> {
        let counts = self.counts(client);
        let reply = steps(&mut saved::memories(&mut self.numbers), &mut self.tray);
        Outcome::of(reply, &self.tray, self.columns(), counts)
    }

    /// Whether a count is under way at `client`, the desk, by its key. Asked before a step, since the step that ends it leaves the desk idle.
    fn counts(&self, client: u32) -> bool {
        let [_, _, _, clients] = saved::parts(&self.numbers);
        let key = layout::HEADER + layout::CLIENT_WIDTH * client as usize + layout::CLIENT_ENTRY;
        client < CLIENTS && layout::is_count(clients[key])
    }

    /// Ends what is under way at `client`, the desk, in one call and at any time: for a bench that
    /// was pulled out. A read is given up, and so is a write before its table step, whose marks are
    /// taken back ([`Abandoned::GivenUp`]): the nodes that it has added stay, and those put out for
    /// them are gone. A write that has made its table step has taken effect: all of its remaining
    /// raises are made here, and its end is told as its last step would have told it. The counters
    /// go up only if it changed the table. No mark of it stays, and the desk is idle. Refusals:
    /// `Unsound`, `NoClient`, `Idle`.
    ///
    /// ```
    /// # fn main() -> Result<(), mondzafeky::Refusal> {
    /// use mondzafeky::{Abandoned, Hall, Outcome, Refusal};
    /// let mut hall = Hall::open(1)?;
    /// // An insert makes two marks here, then its table step, then two raises.
    /// for (steps, abandoned) in [(2, Abandoned::GivenUp), (3, Abandoned::Changed)] {
    ///     hall.begin_insert(4, &[5])?;
    ///     for _ in 0..steps {
    ///         assert_eq!(hall.step(4)?, Outcome::UnderWay);
    ///     }
    ///     assert_eq!(hall.abandon(4)?, abandoned);
    /// }
    /// assert_eq!(hall.abandon(4), Err(Refusal::Idle));
    /// # Ok(())
    /// # }
    /// ```
    pub fn abandon(&mut self, client: u32) -> Result<Abandoned, Refusal> {
        Abandoned::of(self.memories().abandon(client))
    }

    /// Puts out the filed answer at `place`, 0 the oldest. Never needed: a full file puts out its oldest by itself. Refusals: `Unsound`, `NoEntry`.
    pub fn evict_answer(&mut self, place: u32) -> Result<(), Refusal> {
        accepted(self.memories().evict_answer(place))
    }

    /// Puts out the node at `place`, 0 the oldest, if no write is pending there. Never needed. Refusals: `Unsound`, `NoEntry`, `Pending`.
    pub fn evict_node(&mut self, place: u32) -> Result<(), Refusal> {
        accepted(self.memories().evict_node(place))
    }

    /// With every desk idle: empties answers and nodes; the table stays. Needed only after [`Refusal::Worn`]. Refusals: `Unsound`, `Occupied`.
    pub fn renew(&mut self) -> Result<(), Refusal> {
        accepted(self.memories().renew())
    }

    /// The four memories, for the low calls, which say what they do in a [`Reply`]. What is written into them by other means is the caller's
    /// affair: the calls take any contents, but promise only what their definition says of those.
    #[must_use]
    pub fn memories(&mut self) -> Memories<'_> {
        saved::memories(&mut self.numbers)
    }

    /// To look inside. Unproved, and it alters nothing.
    pub fn inspect(&self) -> Inspect<'_> {
        Inspect::of_saved(&self.numbers)
    }

    /// The saved form: 113,600 bytes, the four memories with what is under way at the desks, without the tray. See [`crate::saved`].
    #[must_use]
    pub fn to_bytes(&self) -> Vec<u8> {
        saved::bytes_of(&self.numbers)
    }

    /// A hall from its saved form. Only the length is tested: contents that no history of calls leaves are taken, as the calls take them. Only some
    /// damage is turned down, with [`Refusal::Unsound`]: keep a checksum beside what you save.
    pub fn from_bytes(bytes: &[u8]) -> Result<Hall, WrongLength> {
        if bytes.len() != saved::BYTES {
            return Err(WrongLength { found: bytes.len() });
        }
        Ok(Hall::over(saved::numbers_of(bytes)))
    }
}

/// Two halls are equal if their memories are. The tray is no part of that: it holds an answer that was given.
impl PartialEq for Hall {
    fn eq(&self, other: &Hall) -> bool {
        self.numbers == other.numbers
    }
}

impl Eq for Hall {}

/// The sizes only: the memories are 28,400 numbers.
impl fmt::Debug for Hall {
    fn fmt(&self, f: &mut fmt::Formatter<'_>) -> fmt::Result {
        let inside = self.inspect();
        f.debug_struct("Hall")
            .field("columns", &self.columns())
            .field("records", &inside.record_count())
            .field("nodes", &inside.node_count())
            .field("answers", &inside.answer_count())
            .field("floor", &inside.floor())
            .finish_non_exhaustive()
    }
}
