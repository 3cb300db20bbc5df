//! Rows: the place to put out, the queries that arrive, and which number goes before which. Leans on scene.

use super::*;
use crate::call::Asked;

const PLACE: Limit = ("place to put out", "place to put out not below the count");
const MARKED: Limit = ("marks of the node to put out", "node to put out has marks");
const LARGER: Limit = ("a node at counter 7 leaves, floor", "A node's leaving sets the floor to the larger of floor and its counter");
const ARRIVES: Limit = ("numbers that arrive", "a query whose columns are not as many as the k in memory");
const MARK: Limit = ("mark of a column", "a mark above 1");
const STAR: Limit = ("value of a star", "a star with a value, an insert with a star");
const SMALLEST: Limit = ("several apply, as bits", "The smallest number that applies is given");

pub fn evictions(rows: &mut Vec<Row>, k: u32) {
    for n in [0, 1, 2, 64, 1_024] {
        for place in [0, 1, 63, 64, 1_023, 1_024, u32::MAX] {
            let (number, left) = if place < n { (0, n - 1) } else { (8, n) };
            if n <= 64 {
                let scene = Scene::opened(k).answers(n);
                rows.push(scene.row(PLACE, place, Call::EvictAnswer { place }, says(number)).after([(ANSWER_COUNT, left)]));
            }
            let scene = Scene::opened(k).nodes(n, 0);
            rows.push(scene.row(PLACE, place, Call::EvictNode { place }, says(number)).after([(NODE_COUNT, left)]));
        }
    }
    let three = || Scene::opened(k).nodes(3, 0);
    for (pending, number) in [(0, 0), (1, 9), (12, 9), (u32::MAX, 9)] {
        rows.push(three().put(node(1, NODE_PENDING), pending).row(MARKED, pending, Call::EvictNode { place: 1 }, says(number)));
    }
    for (floor, larger) in [(1, 7), (6, 7), (7, 7), (8, 8), (u32::MAX, u32::MAX)] {
        let scene = three().put(node(1, NODE_REVISION), 7).put(FLOOR, floor);
        // "the rest close up", "What a call takes out of use it sets to 0"
        let after = [(FLOOR, larger), (node(1, 1), 1002), (node(2, 1), 0)];
        rows.push(scene.row(LARGER, floor, Call::EvictNode { place: 1 }, says(0)).after(after));
    }
}

/// Queries that name 5 in every column, but for what each row changes.
pub fn queries(rows: &mut Vec<Row>, k: u32) {
    let scene = Scene::opened(k);
    let five = query(6, ALL, 5);
    let altered = |at: u32, mark: u32, value: u32| {
        let mut words = five.words()[..2 * k as usize].to_vec();
        (words[2 * at as usize], words[2 * at as usize + 1]) = (mark, value);
        Asked::new(&words)
    };
    for kind in KINDS {
        for n in 0..=12 {
            let number = if n == 2 * k { 0 } else { 2 };
            rows.push(scene.row(ARRIVES, n, begin(kind, 0, Asked::new(&five.words()[..n as usize])), says(number)));
        }
        for column in 0..k {
            for (mark, number) in [(1, 0), (2, 2), (u32::MAX, 2)] {
                rows.push(scene.row(MARK, mark, begin(kind, 0, altered(column, mark, 5)), says(number)));
            }
            let star = if kind == INSERT { 2 } else { 0 };
            for (value, number) in [(0, star), (1, 2), (u32::MAX, 2)] {
                rows.push(scene.row(STAR, value, begin(kind, 0, altered(column, 0, value)), says(number)));
            }
        }
    }
}

/// The sets of what can apply at once. Bits of `several`: 0 a desks memory that is a number short, 1 a query with a mark of 2, 2 a record
/// too many in memory, 3 a floor that is worn. Desk 3 has an insert behind its table step that has noted a full table, so node 0 is marked; desk 4
/// has a read.
pub fn order(rows: &mut Vec<Row>, k: u32) {
    let busy = Scene::opened(k).begun(INSERT, 3, ALL, 5).steps(3, (1 << k) + 1).put(client(3, CLIENT_FULL), 1).begun(READ, 4, ALL, 5);
    let at_desks = [(step(4), 0), (step(0), 6), (step(12), 4), (abandon(4), 0), (abandon(3), 13), (abandon(0), 6), (abandon(12), 4)];
    let nodes = [(Call::EvictNode { place: 1 << k }, 8), (Call::EvictNode { place: 0 }, 9)];
    for several in 0..16 {
        let [short, odd, unsound, worn] = [0, 1, 2, 3].map(|bit| several >> bit & 1);
        let lent = [8_200, 8_200, 10_000, 2_000 - short as usize, 128];
        let scene = busy.clone().put(RECORD_COUNT, 2_049 * unsound).put(FLOOR, 1 + 4_294_967_103 * worn);
        // a call, and the numbers that apply to it beside 1 and 3; 0 is none
        let others = at_desks.into_iter().chain(nodes).chain([(Call::EvictAnswer { place: 0 }, 8), (Call::Renew, 11)]);
        let mut calls: Vec<(Call, [u32; 3])> = others.filter(|_| odd == 0).map(|(call, own)| (call, [own, 0, 0])).collect();
        let mut asked = query(k, ALL, 5).words().to_vec();
        asked[0] += odd;
        for (desk, own) in [(0, 0), (4, 5), (12, 4)] {
            let late = |kind| if is_write(kind) { 10 * worn } else { 0 };
            calls.extend(KINDS.map(|kind| (begin(kind, desk, Asked::new(&asked)), [own, 2 * odd, late(kind)])));
        }
        for (call, own) in calls {
            let smallest = own.into_iter().chain([short, 3 * unsound]).filter(|number| *number != 0).min().unwrap_or(0);
            rows.push(scene.row(SMALLEST, several, call, says(smallest)).lent(lent));
        }
    }
}
