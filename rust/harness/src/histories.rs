//! Which mixings a run's histories are drawn from, how long they are, and histories of one side alone under the checker.
//! Leans on draw, check and shrink.

use crate::call::Call;
use crate::check::{Checker, Complaint};
use crate::draw::Mixing;
use crate::filing::Sentence;
use crate::hall::Hall;
use crate::lend::Lending;
use crate::rng::Rng;
use crate::shrink::Script;
use crate::side::Side;
use crate::start;

/// The mixing of a run's history number `n`, and how many calls it gets. Filling a table takes some 15,000 calls, so a short run
/// does without; the length of the others goes with the run's.
pub fn mixing(rng: &mut Rng, n: u64, total: u64) -> (Mixing, u64) {
    let most = (total / 20).clamp(50, 3000) as u32;
    let length = (most / 4 + rng.below(most)) as u64;
    match n % 24 {
        3 if total >= 200_000 => (Mixing::filling(rng), 25_000),
        2 | 7 | 14 | 19 => (Mixing::short_lists(rng), length),
        1 | 6 | 13 | 18 => (Mixing::wide(rng), length),
        5 | 17 => (Mixing::writers(rng), length),
        4 | 9 | 12 | 16 | 21 => (Mixing::calm(rng), length),
        10 | 22 => (Mixing::zeros(rng), length),
        _ => (Mixing::tight(rng), length),
    }
}

/// What the checker found in one side's histories.
#[derive(Default)]
pub struct Findings {
    pub histories: u64,
    pub calls: u64,
    pub answers: u64,
    pub stale: u64,
    /// fetches that demand 2's last sentence owed the filed answer, and those of them that did not get it
    pub owed: u64,
    pub not_fetched: u64,
    /// steps of counts that have written the tray
    pub trays: u64,
    /// answers on file or from it that were not filed so; each ends its history
    pub not_filed: u64,
    /// nodes with a mark while every desk was idle; each ends its history
    pub marked: u64,
    /// calls that were lent a tally; tallies that do not hold what the calls come to, sums that do not hold, 15 where it is not to be; each ends its
    /// history
    pub tallied: u64,
    pub counts: u64,
    pub sums: u64,
    pub full: u64,
    /// the table memory, a step limit, an ending of nothing or one told wrongly, a count that ended with 12: each ends its history
    pub others: u64,
    /// the first complaint, with the history up to it
    pub first: Option<(Script, Complaint)>,
}

impl Findings {
    fn add(&mut self, complaint: Complaint) {
        let of = match complaint {
            Complaint::Stale { .. } => &mut self.stale,
            Complaint::NotFetched { .. } => &mut self.not_fetched,
            Complaint::Tray { .. } => &mut self.trays,
            Complaint::NotFiled { .. } => &mut self.not_filed,
            Complaint::Marked => &mut self.marked,
            Complaint::Counts => &mut self.counts,
            Complaint::Sum => &mut self.sums,
            Complaint::Full => &mut self.full,
            _ => &mut self.others,
        };
        *of += 1;
    }

    /// Every answer was right and on file as it should be, and nothing else was complained of, but for fetches, trays, marks and tallies.
    pub fn is_otherwise_true(&self) -> bool {
        self.stale + self.not_filed + self.others == 0
    }
}

/// Runs one side alone through histories from fresh openings, and checks each call.
pub fn check_alone(side: &dyn Side, seed: u64, total: u64) -> Findings {
    check_alone_by(Sentence::Sharing, side, seed, total)
}

/// The same, with demand 2's last sentence as it is or as it was.
pub fn check_alone_by(sentence: Sentence, side: &dyn Side, seed: u64, total: u64) -> Findings {
    let mut rng = Rng::new(seed);
    let mut findings = Findings::default();
    while findings.calls < total {
        findings.histories += 1;
        let number = findings.histories;
        let (mixing, length) = mixing(&mut rng, number, total);
        let checker = Checker::by(mixing.k, sentence);
        one_history((side, checker), &mut rng, mixing, length.min(total - findings.calls), &mut findings);
    }
    findings
}

fn one_history((side, mut checker): (&dyn Side, Checker), rng: &mut Rng, mut mixing: Mixing, length: u64, findings: &mut Findings) {
    let lending = Lending::of_history(rng, mixing.fills());
    let mut script = Script { start: start::noise(rng), calls: vec![Call::Open { k: mixing.k }.into()] };
    lending.lay(rng, &mut script.start);
    let mut hall = script.start.clone();
    script.calls[0].make(side, &mut hall);
    for _ in 0..length {
        let call = lending.other(rng).unwrap_or_else(|| mixing.next(rng, &hall));
        let made = lending.made(rng, call);
        script.calls.push(made);
        checker.before(made, &hall);
        let reply = made.make(side, &mut hall);
        findings.calls += 1;
        let Some(complaint) = checker.after(made, reply, &hall) else {
            continue;
        };
        findings.first.get_or_insert_with(|| (script.clone(), complaint));
        findings.add(complaint);
        if !matches!(complaint, Complaint::Stale { .. } | Complaint::NotFetched { .. } | Complaint::Tray { .. }) {
            break;
        }
    }
    findings.answers += checker.answers;
    findings.owed += checker.owed()[0];
    findings.tallied += checker.tallied()[0];
}

/// The first complaint about a script that opens its hall: after which call, and which.
pub fn complaint_in(side: &dyn Side, script: &Script) -> Option<(usize, Complaint)> {
    let mut hall: Hall = script.start.clone();
    let mut checker: Option<Checker> = None;
    for (i, made) in script.calls.iter().enumerate() {
        if let Some(checker) = &mut checker {
            checker.before(made, &hall);
        }
        let reply = made.make(side, &mut hall);
        match made.call {
            Call::Open { k } if reply.number == 0 => checker = Some(Checker::opened(k)),
            Call::Damage { .. } => checker = None,
            _ => {}
        }
        if let Some(complaint) = checker.as_mut().and_then(|c| c.after(made, reply, &hall)) {
            return Some((i, complaint));
        }
    }
    None
}
