//! The checker of the tally on executed histories (document 02, S-7). Each count is worked out from the calls and what they returned, and nothing
//! from the memories: a begin that is accepted, an answer from file or from the table, 12, a write's end, 13 among the unchanged ones, an abandoning
//! that tells no end, of a read or of a write by what was begun at its desk. The tally that was lent must hold just these after each call. From an
//! opening with a cleared tally, lent along with every begin, step and abandoning, "Reads begun equal the four other read counts plus the reads under
//! way", and so do the writes. 15 is given only where a count that the call can raise is at its largest, and a count there is never raised. Leans on
//! call, made and hall; on nothing of the library or the twin.

use crate::call::Call;
use crate::hall::{Hall, Tally};
use crate::made::Made;
use crate::side::Reply;

/// The counts by their places in a tally.
const READS_BEGUN: usize = 0;
const FROM_FILE: usize = 1;
const FROM_TABLE: usize = 2;
const ENDED_LONG: usize = 3;
const READS_ABANDONED: usize = 4;
const WRITES_BEGUN: usize = 5;
const ENDED_CHANGED: usize = 6;
const ENDED_UNCHANGED: usize = 7;
const WRITES_ABANDONED: usize = 8;

/// What is wrong with a tally after a call.
#[derive(Clone, Copy, PartialEq, Eq, Debug)]
pub enum Wrong {
    /// it does not hold the counts that the calls come to
    Counts,
    /// the begun are not those that have ended and those that are under way
    Sum,
    /// 15 where no count that the call can raise is at its largest, or from a call that was lent no tally; or a count past its largest
    Full,
}

/// What is under way at a desk, by the calls alone.
#[derive(Clone, Copy, PartialEq, Eq)]
enum Work {
    Read,
    Write,
}

pub struct Ledger {
    /// what the tally that is lent has counted; none before the first call
    counts: Option<Tally>,
    /// it was cleared at the opening, and every call since that has raised a count was lent it
    whole: bool,
    /// by client, the desk
    under_way: [Option<Work>; 12],
    /// how many calls were lent a tally, and how many of them were 15; after how many the sums were held with a read under way, and with a write
    pub seen: [u64; 4],
}

impl Ledger {
    /// At an accepted opening.
    pub fn opened() -> Ledger {
        Ledger { counts: None, whole: false, under_way: [None; 12], seen: [0; 4] }
    }

    /// Just before a call of the history: the tally that the first one finds is what was handed to it.
    pub fn before(&mut self, hall: &Hall) {
        if self.counts.is_none() {
            self.counts = Some(*hall.tally());
            self.whole = hall.tally().iter().all(|count| *count == 0);
        }
    }

    /// After it; the hall is the one that the call left. After the opening itself there is nothing to say yet.
    pub fn after(&mut self, made: &Made, reply: Reply, hall: &Hall) -> Option<Wrong> {
        let mut counts = self.counts?;
        if let Call::NewTally { counts: other } = &made.call {
            (counts, self.whole) = (*other, false);
        }
        let full = reply.number == 15 && !self.may_be_full(made, &counts);
        let past = self.raise(made, reply, &mut counts);
        self.counts = Some(counts);
        self.seen[0] += made.tallied as u64;
        self.seen[1] += (reply.number == 15) as u64;
        if full || past {
            return Some(Wrong::Full);
        }
        // of the tally itself: what is worked out here adds up by itself
        if self.whole && !self.adds_up(hall.tally()) {
            return Some(Wrong::Sum);
        }
        (*hall.tally() != counts).then_some(Wrong::Counts)
    }

    /// One more at the count that the call raises; whether it was at its largest.
    fn raise(&mut self, made: &Made, reply: Reply, counts: &mut Tally) -> bool {
        let Some(count) = self.feed(&made.call, reply) else {
            return false;
        };
        if !made.tallied {
            self.whole = false;
            return false;
        }
        match counts[count].checked_add(1) {
            Some(more) => counts[count] = more,
            None => return true,
        }
        false
    }

    /// What is under way after an accepted call; the count that it raises where it is lent a tally.
    fn feed(&mut self, call: &Call, reply: Reply) -> Option<usize> {
        let own = self.under_way.get_mut(call.client()? as usize).filter(|_| matches!(reply.number, 0 | 12 | 13))?;
        if let Some(count) = end_of(reply) {
            *own = None;
            return Some(count);
        }
        let begins = |work, count| (Some(work), Some(count));
        let (now, count) = match call {
            Call::BeginInsert { .. } | Call::BeginDelete { .. } => begins(Work::Write, WRITES_BEGUN),
            Call::Step { .. } => (*own, None),
            Call::Abandon { .. } => (None, Some(if *own == Some(Work::Read) { READS_ABANDONED } else { WRITES_ABANDONED })),
            _ => begins(Work::Read, READS_BEGUN),
        };
        *own = now;
        count
    }

    /// Before the call is fed: a count that it can raise is at its largest.
    fn may_be_full(&self, made: &Made, counts: &Tally) -> bool {
        let Some(work) = made.call.client().filter(|_| made.tallied).and_then(|client| self.under_way.get(client as usize)) else {
            return false;
        };
        let can: &[usize] = match (&made.call, work) {
            (Call::Step { .. }, Some(Work::Read)) => &[FROM_FILE, FROM_TABLE, ENDED_LONG],
            (Call::Step { .. }, Some(Work::Write)) => &[ENDED_CHANGED, ENDED_UNCHANGED],
            (Call::Abandon { .. }, Some(Work::Read)) => &[READS_ABANDONED],
            (Call::Abandon { .. }, Some(Work::Write)) => &[ENDED_CHANGED, ENDED_UNCHANGED, WRITES_ABANDONED],
            (Call::Step { .. } | Call::Abandon { .. }, None) => &[],
            (Call::BeginInsert { .. } | Call::BeginDelete { .. }, _) => &[WRITES_BEGUN],
            _ => &[READS_BEGUN],
        };
        can.iter().any(|count| counts[*count] == u32::MAX)
    }

    /// "Reads begun equal the four other read counts plus the reads under way .. writes likewise."
    fn adds_up(&mut self, counts: &Tally) -> bool {
        let under_way = |work| self.under_way.iter().filter(|own| **own == Some(work)).count() as u64;
        let (reads, writes) = (under_way(Work::Read), under_way(Work::Write));
        self.seen[2] += (reads > 0) as u64;
        self.seen[3] += (writes > 0) as u64;
        let sum = |of: &[usize]| of.iter().map(|count| counts[*count] as u64).sum::<u64>();
        sum(&[READS_BEGUN]) == sum(&[FROM_FILE, FROM_TABLE, ENDED_LONG, READS_ABANDONED]) + reads
            && sum(&[WRITES_BEGUN]) == sum(&[ENDED_CHANGED, ENDED_UNCHANGED, WRITES_ABANDONED]) + writes
    }
}

/// The count of the end that a reply tells, if it tells one.
fn end_of(reply: Reply) -> Option<usize> {
    match (reply.number, reply.ending) {
        (0, 1) => Some(FROM_FILE),
        (0, 2) => Some(FROM_TABLE),
        (12, _) => Some(ENDED_LONG),
        (0, 3) => Some(ENDED_CHANGED),
        (0, 4) | (13, _) => Some(ENDED_UNCHANGED),
        _ => None,
    }
}
