//! Rows: the numbers of a busy desk, in range and not; a renewal beside each desk. Leans on scene.

use super::*;

const OUT: &str = "the called desk is not idle and its kind, query, step or list length is out of range";
const COUNT: Limit = ("desk's count", "a filed or held count above 2,048 is 3");
const OCCUPIED: Limit = ("renewal, busy desk", "renew with a busy desk");
const IDLE: Limit = ("renewal, busy desks", "renew with a busy desk");
const STRAY: Limit = ("number of the desks memory that is not 0", "an idle desk is all 0");

/// What is under way at desk 4: its kind, the columns named, their value, the steps made.
type Work = (u32, u32, u32, u32);
/// Where it is in range: what a step says, and an abandoning.
pub type Good = Option<(Reply, Reply)>;
pub const GOES_ON: Good = Some((says(0), says(0)));

/// All calls while number `at` of desk 4 is `value`.
fn busy(rows: &mut Vec<Row>, k: u32, limit: Limit, work: Work, (at, value): (usize, u32), good: Good) {
    let (kind, named, v, steps) = work;
    let scene = Scene::opened(k).begun(kind, 4, named, v).steps(4, steps).put(client(4, at), value);
    every_call(rows, &scene, limit, value, good);
}

/// All calls while desk 4 is busy and the others are idle.
pub fn every_call(rows: &mut Vec<Row>, scene: &Scene, limit: Limit, value: u32, good: Good) {
    let k = scene.k;
    let (refused, stepped, abandoned) = good.map_or((3, says(3), says(3)), |(stepped, abandoned)| (5, stepped, abandoned));
    let begun = begins(k, 4).into_iter().map(|call| (call, says(refused)));
    let moved = [(step(4), stepped), (abandon(4), abandoned)];
    // a renewal asks only whether the desk is idle, a call at another desk not even that
    let others = [(Call::Renew, says(11)), (begin(READ, 5, query(k, ALL, 5)), says(0)), (Call::EvictAnswer { place: 0 }, says(8))];
    rows.extend(begun.chain(moved).chain(others).map(|(call, wanted)| scene.row(limit, value, call, wanted)));
}

pub fn kinds(rows: &mut Vec<Row>, k: u32) {
    for (kind, good) in [(0, None), (1, GOES_ON), (2, GOES_ON), (3, GOES_ON), (4, None), (u32::MAX, None)] {
        busy(rows, k, ("desk's kind", OUT), (DELETE, ALL, 5, 0), (CLIENT_KIND, kind), good);
    }
}

pub fn lengths(rows: &mut Vec<Row>, k: u32) {
    let at = CLIENT_ENTRY + ENTRY_LENGTH;
    for (length, good) in [(32, GOES_ON), (33, None), (u32::MAX, None)] {
        [READ, INSERT, DELETE].iter().for_each(|kind| busy(rows, k, ("desk's list length", OUT), (*kind, ALL, 5, 0), (at, length), good));
    }
    for (length, good) in [(33, GOES_ON), (2_048, GOES_ON), (2_049, None), (u32::MAX, None)] {
        busy(rows, k, COUNT, (COUNTS, ALL, 5, 0), (at, length), good);
    }
}

/// A read that names m columns has 2^m looks, fetch, table and file: the last of its steps finds 2^m + 2 made. A write has 2^k marks,
/// the table and 2^k raises.
pub fn steps(rows: &mut Vec<Row>, k: u32) {
    let reads = READS.into_iter().flat_map(|kind| (0..=k).map(move |m| (kind, marks(m), (1 << m) + 2, (from_table(0), says(0)))));
    let last = 2 << k;
    let writes = [(INSERT, ALL, last, (CHANGED, CHANGED)), (DELETE, 0, last, (UNCHANGED, UNCHANGED))];
    for (kind, named, last, end) in reads.chain(writes) {
        for (made, good) in [(last, Some(end)), (last + 1, None), (u32::MAX, None)] {
            busy(rows, k, ("desk's steps", OUT), (kind, named, 5, last), (CLIENT_STEPS, made), good);
        }
    }
}

pub fn keys(rows: &mut Vec<Row>, k: u32) {
    READS.iter().for_each(|kind| keys_of_reads(rows, k, *kind));
    let all = marks(k);
    // all values are 0, so that no star has one
    busy(rows, k, ("marks of an insert's query at the desk", OUT), (INSERT, ALL, 0, 0), (CLIENT_ENTRY, all), GOES_ON);
    for column in 0..k {
        let star = (CLIENT_ENTRY, all - (1 << column));
        busy(rows, k, ("marks of an insert's query at the desk", OUT), (INSERT, ALL, 0, 0), star, None);
        busy(rows, k, ("marks of a delete's query at the desk", OUT), (DELETE, ALL, 0, 0), star, GOES_ON);
    }
    for kind in [INSERT, DELETE] {
        busy(rows, k, ("marks of a write's query that wants a count", OUT), (kind, ALL, 5, 0), (CLIENT_ENTRY, all + COUNT_BIT), None);
    }
}

/// Of a desk that reads and wants a list or a count; what is wanted may be the other just as well.
fn keys_of_reads(rows: &mut Vec<Row>, k: u32, kind: u32) {
    let named = (kind, ALL, 5, 0);
    let stars = (kind, 0, 0, 0);
    // a bit that is no column's, nor a count's: with four columns it makes a range, of one that is none
    let (all, past) = (marks(k), if k < 4 { 1 << k } else { 8 * RANGE_UNIT });
    for wanted in [0, COUNT_BIT] {
        let keys = [(named, all, GOES_ON), (named, all + past, None), (stars, 0, GOES_ON), (stars, past, None)];
        for (work, marks, good) in keys {
            busy(rows, k, ("marks of the desk's query", OUT), work, (CLIENT_ENTRY, marks + wanted), good);
        }
    }
    busy(rows, k, ("marks of the desk's query", OUT), named, (CLIENT_ENTRY, u32::MAX), None);
    for (value, good) in [(0, GOES_ON), (1, None)] {
        for spare in [5, 6] {
            busy(rows, k, ("end of a range of the desk's query, which has none", OUT), named, (CLIENT_ENTRY + spare, value), good);
        }
        for column in 0..4 {
            let (name, work) = if column < k {
                ("value under a star of the desk's query", stars)
            } else {
                ("value past the last column of the desk's query", named)
            };
            busy(rows, k, (name, OUT), work, (CLIENT_ENTRY + 1 + column as usize, value), good);
        }
    }
}

pub fn renewals(rows: &mut Vec<Row>, k: u32) {
    let full = Scene::opened(k).records(2_048, 0).nodes(1_024, 0).put(FLOOR, 9).answers(64);
    // "answers and nodes are emptied, the floor is 1, the table stays"
    let emptied = [(ANSWER_COUNT, 0), (answer(63, 1), 0), (NODE_COUNT, 0), (node(1_023, 1), 0), (FLOOR, 1), (RECORD_COUNT, 2_048)];
    rows.push(full.row(IDLE, 0, Call::Renew, says(0)).after(emptied));
    for desk in 0..12 {
        let begun = full.clone().begun(READ, desk, ALL, 5);
        rows.push(begun.row(OCCUPIED, desk, Call::Renew, says(11)));
        for place in [client(desk, 0), client(desk, 156)] {
            rows.push(full.clone().put(place, 1).row(STRAY, place.1 as u32, Call::Renew, says(11)));
        }
        // a desk that is not idle, and of kind 0
        let stray = full.clone().put(client(desk, 156), 1);
        let calls = [begin(READ, desk, query(k, ALL, 5)), step(desk), abandon(desk)];
        rows.extend(calls.map(|call| stray.row(("all 0 but the last number, desk", OUT), desk, call, says(3))));
    }
    // before the first desk and behind the last
    for place in [7, 1_892] {
        rows.push(full.clone().put((3, place), 1).row(STRAY, place as u32, Call::Renew, says(0)));
    }
}
