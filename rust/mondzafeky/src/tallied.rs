//! The calls that are lent a tally: each is the call of the same name without `_tallied`, and
//! raises one count or none; or it is refused with 15, which alters nothing, neither memories nor
//! tray nor tally. 15 is given after every other refusal, and before every end. Leans on calls,
//! tally and hall.
use crate::outcome::accepted;
use crate::{calls, last_of, Abandoned, Hall, Memories, Outcome, Query, Refusal, Reply, Tally};
use std::ops::RangeInclusive;

impl Memories<'_> {
    /// As [`Memories::begin_read`]; counts a read begun. Refusals: 1 to 5, 15.
    pub fn begin_read_tallied(&mut self, tally: &mut Tally, client: u32, query: &[u32]) -> Reply {
        calls::begin_read_tallied(self, tally, client, query)
    }

    /// As [`Memories::begin_count`]; counts a read begun. Refusals: 1 to 5, 15.
    pub fn begin_count_tallied(&mut self, tally: &mut Tally, client: u32, query: &[u32]) -> Reply {
        calls::begin_count_tallied(self, tally, client, query)
    }

    /// As [`Memories::begin_read_within`]; counts a read begun. Refusals: 1 to 5, 14, 15.
    pub fn begin_read_within_tallied(&mut self, tally: &mut Tally, client: u32, query: &[u32], column: u32, within: RangeInclusive<u32>) -> Reply {
        calls::begin_read_within_tallied(self, tally, client, query, column, *within.start(), *within.end())
    }

    /// As [`Memories::begin_count_within`]; counts a read begun. Refusals: 1 to 5, 14, 15.
    pub fn begin_count_within_tallied(&mut self, tally: &mut Tally, client: u32, query: &[u32], column: u32, within: RangeInclusive<u32>) -> Reply {
        calls::begin_count_within_tallied(self, tally, client, query, column, *within.start(), *within.end())
    }

    /// As [`Memories::begin_insert`]; counts a write begun. Refusals: 1 to 5, 10, 15.
    pub fn begin_insert_tallied(&mut self, tally: &mut Tally, client: u32, query: &[u32]) -> Reply {
        calls::begin_insert_tallied(self, tally, client, query)
    }

    /// As [`Memories::begin_delete`]; counts a write begun. Refusals: 1 to 5, 10, 15.
    pub fn begin_delete_tallied(&mut self, tally: &mut Tally, client: u32, query: &[u32]) -> Reply {
        calls::begin_delete_tallied(self, tally, client, query)
    }

    /// As [`Memories::step`]; counts the end that it tells, if it tells one. Where that count is full the step is 15, also one that would end with
    /// 12 or 13, and the read or write stays as it is. Refusals: 1 (the tray too), 3, 4, 6, 15.
    pub fn step_tallied(&mut self, tray: &mut [u32], tally: &mut Tally, client: u32) -> Reply {
        calls::step_tallied(self, tray, tally, client)
    }

    /// As [`Memories::abandon`]; counts the write's end if it tells one, and otherwise a read or a write abandoned. Refusals: 1, 3, 4, 6, 15.
    pub fn abandon_tallied(&mut self, tally: &mut Tally, client: u32) -> Reply {
        calls::abandon_tallied(self, tally, client)
    }

    /// As [`Memories::run`], each step being lent the tally.
    pub fn run_tallied(&mut self, tray: &mut [u32], tally: &mut Tally, client: u32) -> Reply {
        last_of(|| self.step_tallied(tray, tally, client))
    }
}

impl Hall {
    /// As [`Hall::begin_read`]; counts a read begun. Refusals: `Columns`, `Unsound`, `NoClient`, `Taken`, `TallyFull`.
    ///
    /// ```
    /// # fn main() -> Result<(), mondzafeky::Refusal> {
    /// use mondzafeky::{Hall, Query, Refusal, Tally};
    /// let (mut hall, query) = (Hall::open(1)?, Query::from([Some(5)]));
    /// let mut day = Tally { reads_begun: u32::MAX, ..Tally::default() };
    /// assert_eq!(hall.begin_read_tallied(&mut day, 0, &query), Err(Refusal::TallyFull));
    /// let mut next = Tally::default(); // nothing was begun: begin again, and lend a new tally
    /// hall.begin_read_tallied(&mut next, 0, &query)?;
    /// assert_eq!((day.reads_begun, next.reads_begun), (u32::MAX, 1));
    /// # Ok(())
    /// # }
    /// ```
    pub fn begin_read_tallied(&mut self, tally: &mut Tally, client: u32, query: &Query) -> Result<(), Refusal> {
        accepted(self.memories().begin_read_tallied(tally, client, query.as_numbers()))
    }

    /// As [`Hall::begin_count`]; counts a read begun. Refusals: `Columns`, `Unsound`, `NoClient`, `Taken`, `TallyFull`.
    pub fn begin_count_tallied(&mut self, tally: &mut Tally, client: u32, query: &Query) -> Result<(), Refusal> {
        accepted(self.memories().begin_count_tallied(tally, client, query.as_numbers()))
    }

    /// As [`Hall::begin_read_within`]; counts a read begun. Refusals: `Columns`, `Reversed`, `Unsound`, `NoClient`, `Taken`, `TallyFull`.
    pub fn begin_read_within_tallied(
        &mut self,
        tally: &mut Tally,
        client: u32,
        query: &Query,
        column: u32,
        within: RangeInclusive<u32>,
    ) -> Result<(), Refusal> {
        accepted(self.memories().begin_read_within_tallied(tally, client, query.as_numbers(), column, within))
    }

    /// As [`Hall::begin_count_within`]; counts a read begun. Refusals: `Columns`, `Reversed`, `Unsound`, `NoClient`, `Taken`, `TallyFull`.
    pub fn begin_count_within_tallied(
        &mut self,
        tally: &mut Tally,
        client: u32,
        query: &Query,
        column: u32,
        within: RangeInclusive<u32>,
    ) -> Result<(), Refusal> {
        accepted(self.memories().begin_count_within_tallied(tally, client, query.as_numbers(), column, within))
    }

    /// As [`Hall::begin_insert`]; counts a write begun. Refusals: `Columns`, `Unsound`, `NoClient`, `Taken`, `Worn`, `TallyFull`.
    pub fn begin_insert_tallied(&mut self, tally: &mut Tally, client: u32, record: &[u32]) -> Result<(), Refusal> {
        accepted(self.memories().begin_insert_tallied(tally, client, Query::of_record(record).as_numbers()))
    }

    /// As [`Hall::begin_delete`]; counts a write begun. Refusals: `Columns`, `Unsound`, `NoClient`, `Taken`, `Worn`, `TallyFull`.
    pub fn begin_delete_tallied(&mut self, tally: &mut Tally, client: u32, query: &Query) -> Result<(), Refusal> {
        accepted(self.memories().begin_delete_tallied(tally, client, query.as_numbers()))
    }

    /// As [`Hall::step`]; counts the end that it tells, if it tells one. At [`Refusal::TallyFull`] the read or write stays as it is, also one that
    /// would have ended with 12 or 13: step it again and lend a new tally. Refusals: `Unsound`, `NoClient`, `Idle`, `TallyFull`.
    ///
    /// ```
    /// # fn main() -> Result<(), mondzafeky::Refusal> {
    /// use mondzafeky::{Hall, Outcome, Refusal, Tally};
    /// let mut hall = Hall::open(1)?;
    /// let mut day = Tally { ended_changed: u32::MAX, ..Tally::default() };
    /// hall.begin_insert_tallied(&mut day, 0, &[5])?;
    /// let ended = loop {
    ///     match hall.step_tallied(&mut day, 0) {
    ///         Ok(Outcome::UnderWay) => {}
    ///         // what the full tally counts is kept; the next one begins
    ///         Err(Refusal::TallyFull) => day = Tally::default(),
    ///         ended => break ended?,
    ///     }
    /// };
    /// assert_eq!((ended, day.ended_changed), (Outcome::Changed, 1));
    /// # Ok(())
    /// # }
    /// ```
    pub fn step_tallied(&mut self, tally: &mut Tally, client: u32) -> Result<Outcome<'_>, Refusal> {
        self.stepping(client, |memories, tray| memories.step_tallied(tray, tally, client))
    }

    /// As [`Hall::run`], each step being lent the tally. Refusals: as for a step.
    pub fn run_tallied(&mut self, tally: &mut Tally, client: u32) -> Result<Outcome<'_>, Refusal> {
        self.stepping(client, |memories, tray| memories.run_tallied(tray, tally, client))
    }

    /// As [`Hall::abandon`]; counts the write's end if it tells one, and otherwise a read or a write abandoned. At [`Refusal::TallyFull`] what is
    /// under way stays as it is, a write's marks too: abandon it again and lend a new tally. Refusals: `Unsound`, `NoClient`, `Idle`, `TallyFull`.
    ///
    /// ```
    /// # fn main() -> Result<(), mondzafeky::Refusal> {
    /// use mondzafeky::{Abandoned, Hall, Outcome, Tally};
    /// let (mut hall, mut day) = (Hall::open(1)?, Tally::default());
    /// // An insert makes two marks here, then its table step, then two raises.
    /// for (steps, abandoned) in [(2, Abandoned::GivenUp), (3, Abandoned::Changed)] {
    ///     hall.begin_insert_tallied(&mut day, 4, &[5])?;
    ///     for _ in 0..steps {
    ///         assert_eq!(hall.step_tallied(&mut day, 4)?, Outcome::UnderWay);
    ///     }
    ///     assert_eq!(hall.abandon_tallied(&mut day, 4)?, abandoned);
    /// }
    /// assert_eq!((day.writes_begun, day.writes_abandoned, day.ended_changed), (2, 1, 1));
    /// # Ok(())
    /// # }
    /// ```
    pub fn abandon_tallied(&mut self, tally: &mut Tally, client: u32) -> Result<Abandoned, Refusal> {
        Abandoned::of(self.memories().abandon_tallied(tally, client))
    }
}
