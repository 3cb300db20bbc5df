//! What a run prints: counts, limits met, and a failure with the shortened script that leads to it. Leans on run and shrink.

use crate::call::{ABANDON, KIND_NAMES, TALLIED};
use crate::check::Complaint;
use crate::hall::{describe, Hall, COUNT_NAMES, MEMORY_NAMES, TALLY, TRAY};
use crate::histories::{complaint_in, Findings};
use crate::made::Made;
use crate::run::{difference_in, Account, Difference, Failure, NUMBERS, SORTS};
use crate::seen::LIMITS;
use crate::shrink::{shorten, Script};
use crate::side::{Reply, Side};
use crate::zeros;
use std::mem::discriminant;
use std::time::Duration;

const SHORTENING: Duration = Duration::from_secs(20);

/// 1234567 as 1,234,567.
pub fn grouped(number: u64) -> String {
    let digits = number.to_string();
    let mut text = String::new();
    for (i, digit) in digits.chars().enumerate() {
        if i > 0 && (digits.len() - i).is_multiple_of(3) {
            text.push(',');
        }
        text.push(digit);
    }
    text
}

/// What a comparison has done.
pub fn print_account(account: &Account, checked: bool) {
    println!("calls by sort of script:");
    for (i, (name, _)) in SORTS.iter().enumerate() {
        let [calls, accepted, scripts] = [account.calls_of_sort[i], account.accepted_of_sort[i], account.scripts[i]].map(grouped);
        println!("  {name:<28}{calls:>12} in {scripts} scripts, {accepted} accepted");
    }
    let by_columns: Vec<String> = (1..5).map(|k| format!("k {k}: {}", grouped(account.calls_of_columns[k]))).collect();
    println!("calls by the hall's columns: {}", by_columns.join(", "));
    println!("calls by number returned:");
    println!("  {:<28}{}", "", (0..NUMBERS).map(|n| format!("{n:>8}")).collect::<String>());
    for (name, row) in KIND_NAMES.iter().zip(&account.outcomes) {
        println!("  {name:<28}{}", row.iter().map(|count| format!("{count:>8}")).collect::<String>());
    }
    print_endings(account);
    println!("limits met (times):");
    for (name, times) in LIMITS.iter().zip(account.limits) {
        println!("  {name:<52}{:>9}{}", grouped(times), if times == 0 { "  not met in this run" } else { "" });
    }
    println!("counts of the tally (times raised to 4,294,967,295, and 15 while it alone is there):");
    for (name, [raised, held]) in COUNT_NAMES.iter().zip(account.counts) {
        println!("  {name:<52}{:>9}{:>9}", grouped(raised), grouped(held));
    }
    println!("  ways of lengths 0, least-1, least, least+1: {} of 256", account.ways.iter().filter(|way| **way).count());
    println!("{} calls, {} numbers compared", grouped(account.calls), grouped(account.numbers));
    if checked {
        print_checked(account);
    }
}

/// What the checkers have looked at.
fn print_checked(account: &Account) {
    let [checked, counts, ranges, rests] = account.checked.map(grouped);
    let [owed, earlier, of_counts, of_ranges, past_unchanged] = account.owed.map(grouped);
    let [before, changed, unchanged, full] = account.abandoned.map(grouped);
    let [tallied, held, reads, writes] = account.tallied.map(grouped);
    println!("checkers: {checked} answers of histories looked at, {counts} of them counts, {ranges} of reads with a range;");
    println!("  {owed} fetches owed the filed answer, {earlier} of them of reads begun before the read that filed it, {of_counts} of counts,");
    println!("  {of_ranges} of reads with a range, {past_unchanged} past a write that ended unchanged before the read began;");
    println!("  {before} writes abandoned before their table step, {changed} after one that changed the table, {unchanged} that did not,");
    println!("  {full} that found it full; no node with a mark after {rests} calls with every desk idle;");
    println!(
        "  {tallied} calls of histories lent a tally, {held} of them 15; its sums held {reads} times with a read under way, {writes} with a write"
    );
    println!("of the value 0, in histories (times):");
    zeros::MET.iter().zip(account.zeros).for_each(|(what, times)| println!("  {what:<66}{:>9}", grouped(times)));
}

/// Of all calls, and what abandonings have to it.
fn print_endings(account: &Account) {
    let of_abandonings: [String; 5] =
        std::array::from_fn(|ending| grouped([ABANDON, ABANDON + TALLIED].map(|kind| account.endings[kind][ending]).iter().sum()));
    let all: [u64; 5] = std::array::from_fn(|ending| account.endings.iter().map(|of_kind| of_kind[ending]).sum());
    let [none, filed, table, changed, unchanged] = all.map(grouped);
    println!("endings: {filed} answered from file, {table} answered from the table,");
    println!(
        "  {changed} writes changed the table, {} of them abandoned, {unchanged} did not, {} of them abandoned,",
        of_abandonings[3], of_abandonings[4]
    );
    println!("  {none} calls with none of these; {} numbers damaged", grouped(account.damages));
}

/// What the checkers found in one side's histories.
pub fn print_findings(findings: &Findings) {
    println!("    {} histories, {} calls", grouped(findings.histories), grouped(findings.calls));
    println!("    stale answers: {} of {}", grouped(findings.stale), grouped(findings.answers));
    println!("    not fetched: {} of {} fetches owed the filed answer", grouped(findings.not_fetched), grouped(findings.owed));
    println!("    trays written by a count: {}; answers that were not filed so: {}", grouped(findings.trays), grouped(findings.not_filed));
    println!("    marks while every desk was idle: {}", grouped(findings.marked));
    println!("    calls lent a tally: {}; tallies that do not hold what the calls come to: {}", grouped(findings.tallied), grouped(findings.counts));
    println!(
        "    tallies whose sums do not hold: {}; 15 where it is not to be, or not where it is: {}",
        grouped(findings.sums),
        grouped(findings.full)
    );
    println!("    other complaints (table, step limits, endings, counts that ended with 12): {}", grouped(findings.others));
}

pub fn reply_text(reply: Reply) -> String {
    match (reply.number, reply.ending) {
        (0, 0) if reply.count == 0 => "0".to_string(),
        (0, 1) => format!("0, {} records from file", reply.count),
        (0, 2) => format!("0, {} records from the table", reply.count),
        (0, 3) if reply.count == 0 => "0, table changed".to_string(),
        (0, 4) if reply.count == 0 => "0, table unchanged".to_string(),
        (number, 0) if reply.count == 0 => number.to_string(),
        _ => format!("{reply:?}"),
    }
}

/// Lengths, and every number that is not 0.
fn print_start(start: &Hall) {
    let lengths: Vec<String> = (0..4).map(|m| format!("{} {}", MEMORY_NAMES[m], start.memories[m].len())).collect();
    let zeros = [0, 1, 2, 3, TALLY].iter().all(|m| start.memories[*m].iter().all(|number| *number == 0));
    println!("  memories: {}; all 0{}", lengths.join(", "), if zeros { "" } else { " but" });
    let mut printed = 0;
    for (memory, name) in MEMORY_NAMES.iter().enumerate().filter(|(memory, _)| *memory != TRAY) {
        for (place, value) in start.memories[memory].iter().enumerate().filter(|(_, value)| **value != 0) {
            printed += 1;
            if printed <= 60 {
                println!("    {name}[{place}] = {value}  ({})", describe(memory, place, start.columns()));
            }
        }
    }
    if printed > 60 {
        println!("    and {} more", printed - 60);
    }
}

fn print_calls(calls: &[Made], replies: impl Fn(usize) -> String) {
    for (i, call) in calls.iter().enumerate() {
        println!("  {:>4}  {:<52} -> {}", i + 1, call.to_string(), replies(i));
    }
}

/// Shortens and prints what a run stopped at. The names are those of the two sides.
pub fn print_failure(failure: Failure, sides: [&dyn Side; 2], names: [&str; 2]) {
    let (sort, made) = (SORTS[failure.sort].0, failure.script.calls.len());
    match failure.complaint {
        Some(complaint) => print_complaint(sides[0], failure.script, complaint),
        None => {
            let shorter = shorten(failure.script, SHORTENING, &|s| difference_in(sides[0], sides[1], s).is_some());
            println!("DIFFERENCE, in a script of the sort: {sort}; shortened from {made} calls to {}:", shorter.calls.len());
            match difference_in(sides[0], sides[1], &shorter) {
                Some(difference) => print_difference(&shorter, &difference, names),
                None => println!("  the difference does not come back when the calls are made again"),
            }
        }
    }
}

fn print_difference(script: &Script, difference: &Difference, [left, right]: [&str; 2]) {
    print_start(&script.start);
    print_calls(&script.calls[..difference.replies.len()], |i| {
        let (one, two) = difference.replies[i];
        if one == two {
            reply_text(one)
        } else {
            format!("{left}: {}; {right}: {}", reply_text(one), reply_text(two))
        }
    });
    let mut rest = 0;
    for (memory, name) in MEMORY_NAMES.iter().enumerate() {
        let (one, two) = (&difference.left.memories[memory], &difference.right.memories[memory]);
        for place in (0..one.len()).filter(|place| one[*place] != two[*place]) {
            rest += 1;
            if rest <= 8 {
                let what = describe(memory, place, difference.left.columns());
                println!("  {name}[{place}] ({what}): {left} {}, {right} {}", one[place], two[place]);
            }
        }
    }
    if rest > 8 {
        println!("  and {} more numbers", rest - 8);
    }
}

/// Shortens and prints a history about which the checker complains; it stays a complaint of the same sort.
pub fn print_complaint(side: &dyn Side, script: Script, complaint: Complaint) {
    let made = script.calls.len();
    let same = |other: Complaint| discriminant(&other) == discriminant(&complaint);
    let shorter = shorten(script, SHORTENING, &|s| complaint_in(side, s).is_some_and(|(_, other)| same(other)));
    println!("THE CHECKER COMPLAINS: {complaint}; shortened from {made} calls to {}:", shorter.calls.len());
    print_start(&shorter.start);
    let mut hall = shorter.start.clone();
    let replies: Vec<String> = shorter.calls.iter().map(|call| reply_text(call.make(side, &mut hall))).collect();
    print_calls(&shorter.calls, |i| replies[i].clone());
    match complaint_in(side, &shorter) {
        Some((_, complaint)) => println!("  {complaint}"),
        None => println!("  the complaint does not come back when the calls are made again"),
    }
}
