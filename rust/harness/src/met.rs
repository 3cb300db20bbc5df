//! What a long run must have met, so that "no difference" says something: both sides of every limit, each kind of call with each number
//! and each ending that the documents give it and no other, each sort of script, each way of lengths, each count of the tally on both sides of its
//! limit, what histories have of the value 0. Leans on run, seen, start, call, hall and zeros.

use crate::call::{ABANDON, KIND_NAMES, STEP, TALLIED};
use crate::hall::COUNT_NAMES;
use crate::run::{Account, SORTS};
use crate::seen::LIMITS;
use crate::start;
use crate::zeros;

const KINDS: usize = KIND_NAMES.len();

/// The numbers that each kind of call can return, in the order of `KIND_NAMES`: document 01, "What the controller turns down",
/// and document 02, S-3, S-4 and S-7.
pub const NUMBERS: [&[u32]; KINDS] = [
    &[0, 1, 2],
    &[0, 1, 2, 3, 4, 5],
    &[0, 1, 2, 3, 4, 5],
    &[0, 1, 2, 3, 4, 5, 14],
    &[0, 1, 2, 3, 4, 5, 14],
    &[0, 1, 2, 3, 4, 5, 10],
    &[0, 1, 2, 3, 4, 5, 10],
    &[0, 1, 3, 4, 6, 12, 13],
    &[0, 1, 3, 4, 6, 13],
    &[0, 1, 3, 8],
    &[0, 1, 3, 8, 9],
    &[0, 1, 3, 11],
    &[0, 1, 2, 3, 4, 5, 15],
    &[0, 1, 2, 3, 4, 5, 15],
    &[0, 1, 2, 3, 4, 5, 14, 15],
    &[0, 1, 2, 3, 4, 5, 14, 15],
    &[0, 1, 2, 3, 4, 5, 10, 15],
    &[0, 1, 2, 3, 4, 5, 10, 15],
    &[0, 1, 3, 4, 6, 12, 13, 15],
    &[0, 1, 3, 4, 6, 13, 15],
];

/// The endings that each kind of call can tell, in the same order: a step all of them, an abandoning those of a write (S-4), with a tally and
/// without.
pub const ENDINGS: [&[u32]; KINDS] = {
    let mut endings: [&[u32]; KINDS] = [&[0]; KINDS];
    endings[STEP] = &[0, 1, 2, 3, 4];
    endings[ABANDON] = &[0, 3, 4];
    endings[STEP + TALLIED] = endings[STEP];
    endings[ABANDON + TALLIED] = endings[ABANDON];
    endings
};

const ENDING_NAMES: [&str; 5] = ["nothing ended", "answered from file", "answered from the table", "a write changed the table", "a write did not"];

/// How many fetches a long run must have owed the filed answer, how many of them to reads begun before the filing read, how many to counts,
/// how many to reads with a range, how many past a write that ended unchanged (S-6): fewer would try demand 2's last sentence too little. How
/// many counts and how many ranges the checker of demand 3 must have looked at, and after how many calls with every desk idle at the nodes'
/// marks. How many writes it must have seen abandoned before their table step, and after one that changed the table, did not, or found it full.
const OWED: [u64; 5] = [2000, 200, 500, 300, 200];
const SEEN: [u64; 3] = [5000, 3000, 300];
const ABANDONED: [u64; 4] = [500, 500, 300, 30];
/// How often each thing of `zeros::MET` must have been met.
const ZEROS: u64 = 50;
/// How many calls of histories must have been lent a tally, and how many of them 15; after how many its sums must have been held with a read under
/// way, and with a write. How often each count must have been met on each side of its limit.
const LENT: [u64; 4] = [100_000, 2000, 50_000, 50_000];
const COUNTED: u64 = 20;

/// Something that is asked of a run: whether it is met, and its name where it is not.
type Wanted = (bool, String);

/// What is not met, by name.
pub fn unmet(account: &Account) -> Vec<String> {
    let numbers = of_kinds(&account.outcomes, &NUMBERS, |number| number.to_string());
    let endings = of_kinds(&account.endings, &ENDINGS, |ending| format!("with the ending: {}", ENDING_NAMES[ending as usize]));
    let wanted = [limits(account), numbers, endings, scripts(account), checked(account), tallied(account)];
    wanted.into_iter().flatten().filter(|(met, _)| !met).map(|(_, name)| name).collect()
}

fn limits(account: &Account) -> Vec<Wanted> {
    LIMITS.iter().zip(account.limits).map(|(name, times)| (times > 0, format!("limit not met: {name}"))).collect()
}

/// Each number, or ending, that a kind of call has was met, and no other.
fn of_kinds<const N: usize>(met: &[[u64; N]; KINDS], own: &[&[u32]; KINDS], name: impl Fn(u32) -> String) -> Vec<Wanted> {
    let every = met.iter().enumerate().flat_map(|(kind, row)| row.iter().zip(0..).map(move |(times, each)| (kind, each, *times)));
    let wanted = every.map(|(kind, each, times)| {
        let has = own[kind].contains(&each);
        let returned = if has { "never returned" } else { "has returned" };
        ((times > 0) == has, format!("{} {returned} {}", KIND_NAMES[kind], name(each)))
    });
    wanted.collect()
}

fn scripts(account: &Account) -> Vec<Wanted> {
    let sorts = SORTS.iter().zip(account.accepted_of_sort);
    let accepted = sorts.map(|((name, _), accepted)| (accepted > 0, format!("nothing accepted in scripts of the sort: {name}")));
    let columns = account.calls_of_columns.iter().enumerate().skip(1);
    let halls = columns.map(|(k, calls)| (*calls > 0, format!("no call in a hall of k {k}")));
    let way = account.ways.iter().position(|made| !made);
    let ways = way.map(|way| (false, format!("way of lengths not made, the first: {:?}", start::lengths(way))));
    accepted.chain(halls).chain(ways).collect()
}

/// What the checkers have looked at.
fn checked(account: &Account) -> Vec<Wanted> {
    let enough = |(name, (times, least)): (String, (&u64, u64))| (*times >= least, format!("{name}: {times}, at least {least} are asked"));
    let whose = ["", " of reads begun before the filing one", " of counts", " of ranges", " past a write that ended unchanged"];
    let owed = whose.map(|whose| format!("fetches{whose} owed the filed answer"));
    let seen = ["counts", "ranges", "calls that leave every desk idle"].map(|what| format!("{what} of histories looked at"));
    let stood = ["before their table step", "after one that changed the table", "after one that did not", "after one that found it full"];
    let abandoned = stood.map(|stood| format!("writes of histories abandoned {stood}"));
    let owed = owed.into_iter().zip(account.owed.iter().zip(OWED));
    let seen = seen.into_iter().zip(account.checked[1..].iter().zip(SEEN));
    let abandoned = abandoned.into_iter().zip(account.abandoned.iter().zip(ABANDONED));
    let zeros = zeros::MET.map(|what| format!("{what}, in histories")).into_iter().zip(account.zeros.iter().zip([ZEROS; zeros::MET.len()]));
    owed.chain(seen).chain(abandoned).chain(zeros).map(enough).collect()
}

/// Each count of the tally on both sides of its limit, and what the checker has looked at of tallies.
fn tallied(account: &Account) -> Vec<Wanted> {
    let sides = ["raised to its largest", "alone at its largest, and 15"];
    let of_count = |(name, times): (&&str, [u64; 2])| {
        let name = name.to_string();
        sides.into_iter().zip(times).map(move |(side, times)| (times >= COUNTED, format!("{name} {side}: {times}, at least {COUNTED} are asked")))
    };
    let seen = ["calls lent a tally", "calls that are 15", "sums held with a read under way", "sums held with a write under way"];
    let of_histories = seen.into_iter().zip(account.tallied.into_iter().zip(LENT));
    let enough = |(name, (times, least))| (times >= least, format!("{name}, in histories: {times}, at least {least} are asked"));
    COUNT_NAMES.iter().zip(account.counts).flat_map(of_count).chain(of_histories.map(enough)).collect()
}
