//! Short runs: library and twin agree, each fault of the twin is found and shortened, the checkers find what is wrong with each. The long
//! run, with all that it must meet, is the command's --gate.

use harness::check::Complaint;
use harness::histories::{check_alone, complaint_in};
use harness::library::Library;
use harness::met::unmet;
use harness::run::{difference_in, Run};
use harness::shrink::shorten;
use harness::side::{twin_with, FAULTS};
use harness::without_fetch::WithoutFetch;
use std::time::Duration;
use twin::Fault;

const SHORTENING: Duration = Duration::from_secs(20);

#[test]
fn the_library_agrees_with_the_twin_and_a_short_run_meets_too_little() {
    let mut run = Run::new(&Library, twin_with(Fault::None), 9, 50_000, true);
    assert!(run.go().is_ok());
    assert!(run.account.calls >= 50_000 && run.account.checked[0] > 500 && run.account.checked[1] > 100);
    let names = unmet(&run.account);
    assert!(names.iter().any(|name| name.starts_with("way of lengths not made")), "{names:?}");
    assert!(!names.iter().any(|name| name.contains("has returned")), "{names:?}");
}

#[test]
fn each_fault_is_found_and_shortened() {
    let plain = twin_with(Fault::None);
    for (name, fault) in FAULTS {
        let side = twin_with(fault);
        let mut run = Run::new(plain, side, 1, 20_000, false);
        let Err(failure) = run.go() else {
            panic!("{name} not found");
        };
        let stays = |script: &_| difference_in(plain, side, script).is_some();
        let shorter = shorten(failure.script, SHORTENING, &stays);
        assert!(stays(&shorter) && shorter.calls.len() <= 60, "{name}: {} calls", shorter.calls.len());
    }
}

/// Each fault gives stale answers, but for the one whose counts are right and go to the tray, the one that leaves marks for good, those that raise
/// after no change: what is filed is not fetched then, nor is it where marks stay; and those of the tally. A run of 200,000 calls fills tables.
#[test]
fn the_checker_finds_what_each_fault_does() {
    for (name, fault) in FAULTS {
        let side = twin_with(fault);
        let findings = check_alone(side, 5, if fault == Fault::FullRaised { 200_000 } else { 100_000 });
        let (tray, marks) = (fault == Fault::CountOnTray, fault == Fault::MarksLeft);
        let raised = [Fault::AlwaysRaised, Fault::FullRaised].contains(&fault);
        let tallies = [Fault::FileAsTable, Fault::BegunAtEnd, Fault::FullEarly, Fault::FullAltered];
        let of_tally = tallies.contains(&fault);
        let found = (findings.stale > 0, findings.trays > 0, findings.marked > 0);
        assert_eq!(found, (!tray && !marks && !raised && !of_tally, tray, marks), "{name}: {} stale of {}", findings.stale, findings.answers);
        let tallied = [findings.counts, findings.sums, findings.full, findings.others].into_iter().zip(tallies).find(|(_, own)| *own == fault);
        assert!(tallied.is_none_or(|(times, _)| times > 0), "{name}");
        assert!(of_tally || findings.counts + findings.sums + findings.full == 0, "{name}");
        assert!(findings.not_fetched > 0 || !marks && !raised, "{name}");
        let (script, _) = findings.first.unwrap();
        if fault == Fault::FullRaised {
            // no history of a hundred calls has a full table
            continue;
        }
        let shorter = shorten(script, SHORTENING, &|s| complaint_in(side, s).is_some());
        assert!(shorter.calls.len() <= 100, "{name}: {} calls", shorter.calls.len());
    }
}

#[test]
fn a_fetch_that_was_owed_the_filed_answer_is_shortened_to_two_reads() {
    let findings = check_alone(&WithoutFetch, 5, 20_000);
    let (script, complaint) = findings.first.unwrap();
    assert!(matches!(complaint, Complaint::NotFetched { .. }));
    let shorter = shorten(script, SHORTENING, &|s| complaint_in(&WithoutFetch, s).is_some());
    assert!(shorter.calls.len() <= 1 + 20 + 18, "{} calls", shorter.calls.len());
}
