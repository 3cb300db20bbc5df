//! The command `harness`: compares the library with the twin, and checks demand 3, demand 2's last sentence and the tally. Exit status: 0 nothing
//! found (with --all-faults: every fault found; with --gate: every part passed), 1 a difference, 2 wrong arguments, 3 the checker complains, 4 a
//! fault was not found, 5 something that a long run must meet was not met, or a row of --limits is not as the documents have it.

use harness::filing::Sentence;
use harness::histories::{check_alone, check_alone_by, Findings};
use harness::library::Library;
use harness::limits::run_limits;
use harness::met::unmet;
use harness::report::{grouped, print_account, print_complaint, print_failure, print_findings};
use harness::run::Run;
use harness::side::{fault_named, twin_with, Side, FAULTS};
use harness::without_fetch::WithoutFetch;
use std::process::ExitCode;
use std::time::Instant;
use twin::Fault;

const USAGE: &str = "usage: harness [--seed N] [--calls N] [--gate | --limits | --all-faults | --check-twin] [--fault NAME]
               [--no-check] [--brief] [--verbose]
  --seed N       draw from this seed (default 20)
  --calls N      how many calls (default 1000000)
  --gate         what the gate runs, all parts: the comparison with the checkers and all that it must meet, each fault of the twin found,
                 the checkers' own findings, the limits
  --limits       both sides of every limit of the documents, library and twin each held to its number; --verbose prints every row
  --fault NAME   build this fault into the twin: early-raise, back-at-one, one-bit, late-look, stacked, no-marks, one-key,
                 count-on-tray, plain-key, wide-range, taken-back, marks-left, zero-as-star, all-values, zero-unseen,
                 always-raised, never-raised, full-raised, file-as-table, full-early, full-altered, begun-at-end
  --all-faults   each fault in turn; status 0 only if every one is found
  --check        run the checkers over the library's histories (the default); --no-check leaves them out
  --check-twin   histories of the twin alone (with its fault) under the checkers; nothing is compared
  --brief        of a comparison, say only after how many calls something is found, and do not shorten it";

#[derive(Clone, Copy, PartialEq)]
enum Mode {
    Compare,
    Gate,
    Limits,
    AllFaults,
    CheckTwin,
}

struct Options {
    mode: Mode,
    seed: u64,
    calls: u64,
    fault: Fault,
    check: bool,
    brief: bool,
    verbose: bool,
}

fn options() -> Option<Options> {
    let mut options = Options { mode: Mode::Compare, seed: 20, calls: 1_000_000, fault: Fault::None, check: true, brief: false, verbose: false };
    let mut args = std::env::args().skip(1);
    while let Some(arg) = args.next() {
        match arg.as_str() {
            "--seed" => options.seed = args.next()?.parse().ok()?,
            "--calls" => options.calls = args.next()?.replace([',', '_'], "").parse().ok()?,
            "--gate" => options.mode = Mode::Gate,
            "--fault" => options.fault = fault_named(&args.next()?)?,
            "--all-faults" => options.mode = Mode::AllFaults,
            "--check" => options.check = true,
            "--no-check" => options.check = false,
            "--check-twin" => options.mode = Mode::CheckTwin,
            "--brief" => options.brief = true,
            "--limits" => options.mode = Mode::Limits,
            "--verbose" => options.verbose = true,
            _ => return None,
        }
    }
    Some(options)
}

fn main() -> ExitCode {
    let Some(options) = options() else {
        eprintln!("{USAGE}");
        return ExitCode::from(2);
    };
    println!("seed {}, {} calls", options.seed, grouped(options.calls));
    let began = Instant::now();
    let status = match options.mode {
        Mode::Compare => compare(&options),
        Mode::Gate => return ExitCode::from(gate(&options)),
        Mode::Limits => limits(&options),
        Mode::AllFaults => all_faults(&options),
        Mode::CheckTwin => check_twin(&options),
    };
    println!("{:.1} s", began.elapsed().as_secs_f64());
    ExitCode::from(status)
}

/// A part of the gate's run: what it is called, and what it does; its status is 0 if it passes.
type Part = (&'static str, fn(&Options) -> u8);

/// All parts, up to the first that fails; the last line says which that is.
fn gate(options: &Options) -> u8 {
    let parts: [Part; 4] = [("comparison", compare_all), ("faults", all_faults), ("checkers", checkers), ("limits", limits)];
    for (name, part) in parts {
        println!("{name}:");
        let status = part(options);
        if status != 0 {
            println!("harness: {name} failed");
            return status;
        }
    }
    println!("harness: all parts passed");
    0
}

fn compare(options: &Options) -> u8 {
    compared(options).0
}

/// The comparison, and everything met that it must meet.
fn compare_all(options: &Options) -> u8 {
    let (status, unmet) = compared(options);
    if status != 0 || unmet.is_empty() {
        return status;
    }
    for name in &unmet {
        println!("  NOT MET: {name}");
    }
    5
}

/// Library and twin compared: the status, and what was not met.
fn compared(options: &Options) -> (u8, Vec<String>) {
    let sides: [&dyn Side; 2] = [&Library, twin_with(options.fault)];
    let mut run = Run::new(sides[0], sides[1], options.seed, options.calls, options.check);
    let outcome = run.go();
    if !options.brief {
        print_account(&run.account, options.check);
    }
    let status = match outcome {
        Ok(()) => {
            println!("no difference{} in {} calls", if options.check { ", no complaint" } else { "" }, grouped(run.account.calls));
            0
        }
        Err(failure) => {
            let status = if failure.complaint.is_some() { 3 } else { 1 };
            if !options.brief {
                print_failure(*failure, sides, ["library", "twin"]);
            }
            println!("found after {} calls", grouped(run.account.calls));
            status
        }
    };
    (status, unmet(&run.account))
}

/// Both sides of every limit.
fn limits(options: &Options) -> u8 {
    if run_limits(&Library, twin_with(options.fault), options.verbose) {
        0
    } else {
        5
    }
}

/// Each fault of the twin is found by comparing.
fn all_faults(options: &Options) -> u8 {
    let mut missed = 0;
    for (name, fault) in FAULTS {
        let mut run = Run::new(&Library, twin_with(fault), options.seed, options.calls, false);
        let found = run.go().is_err();
        let calls = grouped(run.account.calls);
        println!("  {name:<14} {}", if found { format!("found after {calls} calls") } else { format!("NOT FOUND in {calls} calls") });
        missed += !found as u32;
    }
    println!("  {} of {} faults found", FAULTS.len() as u32 - missed, FAULTS.len());
    if missed == 0 {
        0
    } else {
        4
    }
}

fn check_twin(options: &Options) -> u8 {
    let side = twin_with(options.fault);
    let findings = check_alone(side, options.seed, options.calls);
    print_findings(&findings);
    match findings.first {
        None => 0,
        Some((script, complaint)) => {
            print_complaint(side, script, complaint);
            3
        }
    }
}

/// A part of the whole is enough here: each finds its fault within some thousand calls. Only a run of so many as `WITH_FULL_TABLES` fills some.
const CHECKED_ALONE: u64 = 100_000;
const WITH_FULL_TABLES: u64 = 200_000;

/// What a side is like, the side, and whether what was found in its histories is as it should be.
type Tried = (&'static str, &'static dyn Side, fn(&Findings) -> bool);

/// What the checkers should find in each side.
fn tried() -> [Tried; 18] {
    [
        ("the plain twin: nothing is found", twin_with(Fault::None), |f| f.first.is_none() && f.owed > 0 && f.tallied > 0),
        ("looks that see no marks: stale answers are found", twin_with(Fault::NoPending), |f| f.stale > 0),
        ("fetches that find no answer: not fetched is found", &WithoutFetch, |f| f.not_fetched > 0 && f.is_otherwise_true()),
        ("keys that do not tell a count from a list: answers that were not filed so are found", twin_with(Fault::OneKey), |f| f.not_filed > 0),
        ("counts that go to the tray: that is found, and nothing else", twin_with(Fault::CountOnTray), |f| f.trays > 0 && f.is_otherwise_true()),
        ("keys that do not tell a range: answers that were not filed so are found", twin_with(Fault::PlainKey), |f| f.not_filed > 0),
        ("ranges that take one value too many: stale answers are found, and nothing else", twin_with(Fault::WideRange), |f| {
            f.stale > 0 && f.not_filed + f.not_fetched + f.others == 0
        }),
        ("abandonings after the table step that take the marks back: stale answers are found", twin_with(Fault::TakenBack), |f| f.stale > 0),
        ("abandonings after the table step that leave the marks: they are found, and not fetched", twin_with(Fault::MarksLeft), |f| {
            f.marked > 0 && f.not_fetched > 0 && f.is_otherwise_true()
        }),
        ("named zeros that are taken for stars: stale answers are found, and tables that are not the plain one", twin_with(Fault::ZeroAsStar), |f| {
            f.stale > 0 && f.others > 0
        }),
        ("ranges of all values that take 0 too: stale answers are found, and nothing else", twin_with(Fault::AllValues), |f| {
            f.stale > 0 && f.not_filed + f.not_fetched + f.others == 0
        }),
        ("writes of 0 that neither mark nor raise: stale answers are found", twin_with(Fault::ZeroUnseen), |f| f.stale > 0),
        ("writes that change nothing and raise all the same: not fetched is found, and nothing else", twin_with(Fault::AlwaysRaised), |f| {
            is_not_fetched_alone(f)
        }),
        ("writes that change the table and raise nothing: stale answers are found", twin_with(Fault::NeverRaised), |f| f.stale > 0),
        ("answers from file that are counted as from the table: such tallies are found, and nothing else", twin_with(Fault::FileAsTable), |f| {
            f.counts > 0 && is_true_but_for_tallies(f)
        }),
        ("reads that are counted as begun when they are over: such sums are found, and nothing but tallies", twin_with(Fault::BegunAtEnd), |f| {
            f.sums > 0 && is_true_but_for_tallies(f)
        }),
        ("15 where a count is one below its largest: that is found, and nothing else", twin_with(Fault::FullEarly), |f| {
            f.full > 0 && f.counts + f.sums == 0 && is_true_but_for_tallies(f)
        }),
        ("15 after the call has altered something: steps of what was never begun are found", twin_with(Fault::FullAltered), |f| f.others > 0),
    ]
}

fn is_not_fetched_alone(findings: &Findings) -> bool {
    let tallies = findings.counts + findings.sums + findings.full;
    findings.not_fetched > 0 && findings.trays + findings.marked + tallies == 0 && findings.is_otherwise_true()
}

fn is_true_but_for_tallies(findings: &Findings) -> bool {
    findings.not_fetched + findings.trays + findings.marked == 0 && findings.is_otherwise_true()
}

/// The checkers find something where there is something, each its own: stale answers where looks pay no heed to marks, fetches that
/// do not get the filed answer where none does, answers of the other wanting or of another range where a key does not tell it, trays
/// that counts have written, records just outside a range, stale answers and marks for good where abandonings raise nothing, records with 0
/// that only a star may find, lists that miss one where its insert was not seen, and fetches that do not get the filed answer where a write that
/// changed nothing, or found no room, has raised; tallies that are not what the calls come to, sums that leave out what is under way, and 15 where it
/// is not to be or after something was altered. In the plain twin they find nothing; but they would, were demand 2's last sentence still of writes
/// that meet the query, or did a write that changes nothing not count even while it is open.
fn checkers(options: &Options) -> u8 {
    let calls = options.calls.min(CHECKED_ALONE);
    let mut missed = 0;
    let mut tell = |name: &str, findings: Findings, good: bool| {
        println!("  {name}{}", if good { "" } else { ": NOT SO" });
        print_findings(&findings);
        missed += !good as u8;
    };
    for (name, side, as_it_should) in tried() {
        let findings = check_alone(side, options.seed, calls);
        let good = as_it_should(&findings);
        tell(name, findings, good);
    }
    let full = check_alone(twin_with(Fault::FullRaised), options.seed, options.calls.min(WITH_FULL_TABLES));
    let good = is_not_fetched_alone(&full);
    tell("inserts into a full table that raise: not fetched is found, and nothing else", full, good);
    let sentences =
        [(Sentence::Meeting, "of writes that meet the query"), (Sentence::UnchangedByFetch, "of no write that ends unchanged by the fetch")];
    for (sentence, text) in sentences {
        let findings = check_alone_by(sentence, twin_with(Fault::None), options.seed, calls);
        let good = is_not_fetched_alone(&findings);
        tell(&format!("a last sentence {text}, and the plain twin: not fetched is found, and nothing else"), findings, good);
    }
    if missed == 0 {
        0
    } else {
        4
    }
}
