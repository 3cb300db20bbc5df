//! A run: scripts of five sorts, drawn from a seed, made on both sides and compared after each call. Leans on all but report.

use crate::call::{Ask, Call, KIND_NAMES};
use crate::check::{Checker, Complaint};
use crate::draw::{self, Mixing};
use crate::hall::{Hall, COUNT_NAMES};
use crate::histories;
use crate::lend::Lending;
use crate::made::Made;
use crate::rng::Rng;
use crate::seen::{self, LIMITS};
use crate::shrink::Script;
use crate::side::{Reply, Side};
use crate::start;
use crate::zeros::{self, Zeros};
use std::time::{Duration, Instant};

/// The sorts of scripts, and how many of 100 calls each is given.
pub const SORTS: [(&str, i64); 5] =
    [("histories from an opening", 50), ("halls near a limit", 18), ("noise", 12), ("damaged halls", 14), ("lengths", 6)];

/// The numbers that a call can return: 0 to 15, of which 7 is given no longer.
pub const NUMBERS: usize = 16;

/// How long a run says nothing.
const PATIENCE: Duration = Duration::from_secs(8);

/// What a run has done.
pub struct Account {
    pub calls: u64,
    /// numbers compared, those of the replies too
    pub numbers: u64,
    pub damages: u64,
    pub scripts: [u64; 5],
    pub calls_of_sort: [u64; 5],
    pub accepted_of_sort: [u64; 5],
    /// by the k that the hall has after the call
    pub calls_of_columns: [u64; 5],
    /// by kind of call and number returned
    pub outcomes: [[u64; NUMBERS]; KIND_NAMES.len()],
    /// by kind of call and ending
    pub endings: [[u64; 5]; KIND_NAMES.len()],
    pub limits: [u64; LIMITS.len()],
    /// ways to give the four memories lengths, of 256
    pub ways: [bool; 256],
    /// answers that the checker has looked at, those of them that are counts, those of reads with a range; calls after which every desk was idle
    pub checked: [u64; 4],
    /// writes that the checker has seen abandoned before their table step, and after one that changed the table, did not, or found it full
    pub abandoned: [u64; 4],
    /// what the checker has met of the value 0
    pub zeros: Zeros,
    /// of each count of the tally: how often it was raised to its largest, and how often it alone was there at a 15
    pub counts: [[u64; 2]; COUNT_NAMES.len()],
    /// calls that the checker has seen lent a tally, those of them that were 15; calls after which it held the sums with a read under way, and with
    /// a write
    pub tallied: [u64; 4],
    /// fetches that demand 2's last sentence owed the filed answer, those of them of reads begun before the filing read, those of counts,
    /// those of reads with a range, those that are owed since S-6 alone
    pub owed: [u64; 5],
}

impl Account {
    fn new() -> Account {
        Account {
            calls: 0,
            numbers: 0,
            damages: 0,
            scripts: [0; 5],
            calls_of_sort: [0; 5],
            accepted_of_sort: [0; 5],
            calls_of_columns: [0; 5],
            outcomes: [[0; NUMBERS]; KIND_NAMES.len()],
            endings: [[0; 5]; KIND_NAMES.len()],
            limits: [0; LIMITS.len()],
            ways: [false; 256],
            checked: [0; 4],
            abandoned: [0; 4],
            zeros: [0; zeros::MET.len()],
            counts: [[0; 2]; COUNT_NAMES.len()],
            tallied: [0; 4],
            owed: [0; 5],
        }
    }
}

/// What stopped a run: the script up to the call that showed it. Without a complaint of the checker it is a difference.
pub struct Failure {
    pub script: Script,
    pub sort: usize,
    pub complaint: Option<Complaint>,
}

type Outcome = Result<(), Box<Failure>>;

/// A script that is being made on both sides.
struct Both {
    sort: usize,
    lending: Lending,
    script: Script,
    left: Hall,
    right: Hall,
    checker: Option<Checker>,
}

impl Both {
    /// The start's tally is laid as it is to be lent.
    fn new(sort: usize, lending: Lending, rng: &mut Rng, mut start: Hall) -> Both {
        lending.lay(rng, &mut start);
        Both { sort, lending, left: start.clone(), right: start.clone(), script: Script { start, calls: Vec::new() }, checker: None }
    }

    fn failure(&mut self, complaint: Option<Complaint>) -> Box<Failure> {
        let script = Script { start: self.script.start.clone(), calls: std::mem::take(&mut self.script.calls) };
        Box::new(Failure { script, sort: self.sort, complaint })
    }
}

pub struct Run<'a> {
    left: &'a dyn Side,
    right: &'a dyn Side,
    rng: Rng,
    check: bool,
    total: u64,
    way: usize,
    pub account: Account,
}

impl<'a> Run<'a> {
    pub fn new(left: &'a dyn Side, right: &'a dyn Side, seed: u64, total: u64, check: bool) -> Run<'a> {
        let mut rng = Rng::new(seed);
        let way = rng.below(256) as usize;
        Run { left, right, rng, check, total, way, account: Account::new() }
    }

    /// Makes the calls; stops at the first difference, or at the checker's first complaint about the left side.
    pub fn go(&mut self) -> Outcome {
        let mut told = Instant::now();
        while self.account.calls < self.total {
            if told.elapsed() > PATIENCE {
                eprintln!("harness: {} of {} calls so far", self.account.calls, self.total);
                told = Instant::now();
            }
            let calls = self.account.calls as i64;
            let due = |sort: &usize| SORTS[*sort].1 * calls - 100 * self.account.calls_of_sort[*sort] as i64;
            let sort = (0..5).max_by_key(due).unwrap();
            self.account.scripts[sort] += 1;
            let done = match sort {
                0 => self.history(),
                1 => self.near_a_limit(),
                2 => self.noise(),
                3 => self.damaged(),
                _ => self.lengths(),
            };
            self.account.calls_of_sort[sort] += self.account.calls - calls as u64;
            done?;
        }
        Ok(())
    }

    /// One call on both sides, lent the tally or not.
    fn make(&mut self, both: &mut Both, call: Call) -> Outcome {
        let made = both.lending.made(&mut self.rng, call);
        both.script.calls.push(made);
        let (before, tally) = (seen::before(&call, &both.left), *both.left.tally());
        if let Some(checker) = &mut both.checker {
            checker.before(made, &both.left);
        }
        let reply = made.make(self.left, &mut both.left);
        let other = made.make(self.right, &mut both.right);
        if let Call::Damage { .. } = call {
            self.account.damages += 1;
            both.checker = None;
        }
        if let Some(kind) = made.kind() {
            self.account.accepted_of_sort[both.sort] += matches!(reply.number, 0 | 12 | 13) as u64;
            self.count(kind, reply, &both.left);
        }
        if reply != other || both.left != both.right {
            return Err(both.failure(None));
        }
        // one that is 15 meets no other limit
        if let Some(limit) = seen::limit_met(&call, before, reply, &both.left).filter(|_| reply.number != 15) {
            self.account.limits[limit] += 1;
        }
        if let Some((count, side)) = seen::count_met(&made, tally, reply, both.left.tally()) {
            self.account.counts[count][side] += 1;
        }
        self.checked(both, &made, reply)
    }

    fn count(&mut self, kind: usize, reply: Reply, hall: &Hall) {
        self.account.calls += 1;
        self.account.calls_of_columns[hall.columns() as usize % 5] += (hall.columns() < 5) as u64;
        self.account.numbers += hall.size() as u64 + 3;
        if let Some(count) = self.account.outcomes[kind].get_mut(reply.number as usize) {
            *count += 1;
        }
        if let Some(count) = self.account.endings[kind].get_mut(reply.ending as usize) {
            *count += 1;
        }
    }

    fn checked(&mut self, both: &mut Both, made: &Made, reply: Reply) -> Outcome {
        if !self.check {
            return Ok(());
        }
        match made.call {
            Call::Open { k } if reply.number == 0 => both.checker = Some(Checker::opened(k)),
            _ => {}
        }
        let Some(checker) = &mut both.checker else {
            return Ok(());
        };
        let (seen, abandoned, zeros, owed, tallied) = (checker.seen(), checker.abandoned, checker.zeros, checker.owed(), checker.tallied());
        let complaint = checker.after(made, reply, &both.left);
        add(&mut self.account.checked, checker.seen(), seen);
        add(&mut self.account.abandoned, checker.abandoned, abandoned);
        add(&mut self.account.zeros, checker.zeros, zeros);
        add(&mut self.account.owed, checker.owed(), owed);
        add(&mut self.account.tallied, checker.tallied(), tallied);
        match complaint {
            Some(complaint) => Err(both.failure(Some(complaint))),
            None => Ok(()),
        }
    }

    fn mix(&mut self, both: &mut Both, mixing: &mut Mixing, length: u64) -> Outcome {
        for _ in 0..length.min(self.total.saturating_sub(self.account.calls)) {
            if let Some(other) = both.lending.other(&mut self.rng) {
                self.make(both, other)?;
            }
            let call = mixing.next(&mut self.rng, &both.left);
            self.make(both, call)?;
        }
        Ok(())
    }

    /// A script of this sort that starts here.
    fn starts(&mut self, sort: usize, lending: Lending, start: Hall) -> Both {
        Both::new(sort, lending, &mut self.rng, start)
    }

    /// From memories of any contents, opened, and the checker with it.
    fn history(&mut self) -> Outcome {
        let (mut mixing, length) = histories::mixing(&mut self.rng, self.account.scripts[0], self.total);
        let (lending, start) = (Lending::of_history(&mut self.rng, mixing.fills()), start::noise(&mut self.rng));
        let mut both = self.starts(0, lending, start);
        self.make(&mut both, Call::Open { k: mixing.k })?;
        self.mix(&mut both, &mut mixing, length)
    }

    fn near_a_limit(&mut self) -> Outcome {
        let start = start::near_limits(&mut self.rng);
        let mut both = self.starts(1, Lending::Mixed, start);
        let mut mixing = Mixing::in_hall(&mut self.rng, &both.left);
        let length = 20 + self.rng.below(200) as u64;
        self.mix(&mut both, &mut mixing, length)
    }

    fn noise(&mut self) -> Outcome {
        let start = start::any_noise(&mut self.rng);
        let mut both = self.starts(2, Lending::Mixed, start);
        if self.rng.chance(1, 4) {
            self.make(&mut both, Call::Renew)?;
        }
        for _ in 0..1 + self.rng.below(12) {
            let call = draw::any_call(&mut self.rng, &both.left);
            self.make(&mut both, call)?;
        }
        Ok(())
    }

    /// A history; then again and again one to three numbers are changed, calls are made, and half of the time the numbers are
    /// put back so that the hall does not only turn everything down.
    fn damaged(&mut self) -> Outcome {
        let start = start::noise(&mut self.rng);
        let mut both = self.starts(3, Lending::Mixed, start);
        let mut mixing = if self.rng.chance(1, 2) { Mixing::tight(&mut self.rng) } else { Mixing::wide(&mut self.rng) };
        self.make(&mut both, Call::Open { k: mixing.k })?;
        let length = 30 + self.rng.below(300) as u64;
        self.mix(&mut both, &mut mixing, length)?;
        for _ in 0..12 {
            let damages: Vec<Call> = (0..1 + self.rng.below(3)).map(|_| start::damage(&mut self.rng, &both.left)).collect();
            let repairs: Vec<Call> = damages.iter().map(|damage| repair(damage, &both.left)).collect();
            self.make_all(&mut both, damages)?;
            self.mix(&mut both, &mut mixing, 15)?;
            if self.rng.chance(3, 4) {
                self.make_all(&mut both, repairs)?;
            }
        }
        Ok(())
    }

    fn make_all(&mut self, both: &mut Both, calls: Vec<Call>) -> Outcome {
        for call in calls {
            self.make(both, call)?;
        }
        Ok(())
    }

    /// The next of the 256 ways to give the four memories lengths 0, least - 1, least, least + 1; every call, every tray.
    fn lengths(&mut self) -> Outcome {
        let way = self.way;
        self.way = (way + 1) % 256;
        self.account.ways[way] = true;
        let mut start = start::near_limits(&mut self.rng);
        for (memory, length) in start.memories.iter_mut().zip(start::lengths(way)) {
            let fill = self.rng.any();
            memory.resize(length, fill);
            memory.shrink_to_fit();
        }
        let mut both = self.starts(4, Lending::Mixed, start);
        let k = both.left.columns().clamp(1, 4);
        for step in 0..4 {
            let (client, fill) = (self.rng.below(12), self.rng.any());
            self.make(&mut both, Call::Step { client, tray: [0, 127, 128, 129][step], fill })?;
        }
        let (client, asked) = (self.rng.below(12), draw::plain_query(&mut self.rng, k, 4, 16));
        let ask = Ask { asked, counts: self.rng.chance(1, 2), within: None };
        let ranged = draw::with_range(&mut self.rng, k, ask, [1, 3]);
        for ask in [ask, ranged] {
            self.make(&mut both, ask.begin(client))?;
            self.make(&mut both, Ask { counts: !ask.counts, ..ask }.begin(client))?;
        }
        self.make(&mut both, Call::BeginInsert { client, asked })?;
        self.make(&mut both, Call::BeginDelete { client, asked })?;
        // what else would be turned down, or not: 1 goes before it
        let odd: Vec<Call> = (0..4).map(|_| draw::odd_call(&mut self.rng, &both.left, k)).collect();
        self.make_all(&mut both, odd)?;
        let rest = [Call::Abandon { client }, Call::EvictAnswer { place: 0 }, Call::EvictNode { place: 0 }, Call::Renew, Call::Open { k }];
        self.make_all(&mut both, rest.to_vec())
    }
}

/// Adds to each sum what has come to it.
fn add<const N: usize>(sums: &mut [u64; N], now: [u64; N], before: [u64; N]) {
    for (sum, (now, before)) in sums.iter_mut().zip(now.into_iter().zip(before)) {
        *sum += now - before;
    }
}

/// Puts back what a damage is about to change.
fn repair(damage: &Call, hall: &Hall) -> Call {
    match damage {
        Call::Damage { memory, place, .. } => Call::Damage { memory: *memory, place: *place, value: hall.get(*memory as usize, *place as usize) },
        other => *other,
    }
}

/// The first difference in a script: after which call, and the replies of both sides to each call up to it.
pub fn difference_in(left: &dyn Side, right: &dyn Side, script: &Script) -> Option<Difference> {
    let (mut one, mut two) = (script.start.clone(), script.start.clone());
    let mut replies = Vec::new();
    for call in &script.calls {
        let (reply, other) = (call.make(left, &mut one), call.make(right, &mut two));
        replies.push((reply, other));
        if reply != other || one != two {
            return Some(Difference { replies, left: one, right: two });
        }
    }
    None
}

/// Both halls just after the call that shows a difference.
pub struct Difference {
    pub replies: Vec<(Reply, Reply)>,
    pub left: Hall,
    pub right: Hall,
}
