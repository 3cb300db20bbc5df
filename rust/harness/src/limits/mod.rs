//! Both sides of every limit of document 01, of S-1 and S-3 to S-7 in document 02 and of every least length, as rows: a scene, a call, and what the
//! documents have for it, with the words that give it. Library and twin are each held to that; neither is judged by the other, though their memories
//! are compared too.
//! scene: scenes and calls; memories, clients, arguments, steps, counts, nodes, abandonings, passes, ranges, reversed, held, zeros, unchanged, tally:
//! the rows. Leans on call, made, hall and side.

mod abandonings;
mod arguments;
mod clients;
mod counts;
mod held;
mod memories;
mod nodes;
mod passes;
mod ranges;
mod reversed;
mod scene;
mod steps;
mod tally;
mod unchanged;
mod zeros;

use crate::call::Call;
use crate::hall::{describe, Hall, MEMORY_NAMES};
use crate::made::Made;
use crate::report::{grouped, reply_text};
use crate::side::{Reply, Side};
use scene::*;

/// "least length" of table, nodes, answers, desks and tray
pub const LEAST: [usize; 5] = [8_200, 8_200, 10_000, 2_000, 128];
/// A few numbers more of each, so that writing past the least length would show.
pub const MORE: [usize; 5] = [8_203, 8_205, 10_007, 2_009, 131];

/// What a limit is of, and the documents' words for it. Where they are not met, "under no other conditions than these" gives 0.
pub type Limit = (&'static str, &'static str);

/// One call at a limit.
#[derive(Clone)]
pub struct Row {
    pub limit: Limit,
    /// the number that stands on one side of the limit
    pub value: u32,
    pub scene: Scene,
    /// how long the memories are, and the tray of a step, when the call is made
    pub lent: [usize; 5],
    pub call: Made,
    pub wanted: Reply,
    /// how many numbers the answer writes to the tray
    pub written: usize,
    /// some numbers of the memories after the call
    pub after: Vec<(Place, u32)>,
}

/// A number and nothing else: "1 to 13 return the number and count 0", as do "all added later" (S-3); "An accepted call that ends nothing
/// returns 0 and count 0".
const fn says(number: u32) -> Reply {
    Reply { number, count: 0, ending: 0 }
}

/// "An answer .. reports their count and whether it was filed before"
const fn from_file(count: u32) -> Reply {
    Reply { number: 0, count, ending: 1 }
}
const fn from_table(count: u32) -> Reply {
    Reply { number: 0, count, ending: 2 }
}

/// "The last raise ends the write and says whether the table changed."
const CHANGED: Reply = Reply { number: 0, count: 0, ending: 3 };
const UNCHANGED: Reply = Reply { number: 0, count: 0, ending: 4 };

/// What one side made of a row: its reply, if the scene could be made; the first thing that is not as the documents have it; the memories.
pub struct Came {
    pub reply: Option<Reply>,
    pub flaw: Option<String>,
    hall: Hall,
}

impl Row {
    fn after(mut self, numbers: impl IntoIterator<Item = (Place, u32)>) -> Row {
        self.after.extend(numbers);
        self
    }

    /// What is answered is a count: "The tray of a count is untouched".
    fn counted(self) -> Row {
        Row { written: 0, ..self }
    }

    fn lent(self, lent: [usize; 5]) -> Row {
        Row { lent, ..self }
    }

    /// Makes the scene and the call on one side alone.
    pub fn run(&self, side: &dyn Side) -> Came {
        let mut hall = match self.scene.set_up(side) {
            Ok(hall) => hall,
            Err(call) => {
                return Came { reply: None, flaw: Some(format!("the scene's {call} did not come to what it is to")), hall: Hall::zeros([0; 4]) }
            }
        };
        hall.memories.iter_mut().zip(self.lent).for_each(|(memory, length)| memory.truncate(length));
        let mut made = self.call;
        if let Call::Step { tray, .. } = &mut made.call {
            *tray = self.lent[4] as u32;
        }
        made.call.lay_tray(&mut hall);
        let before = hall.clone();
        let reply = made.make(side, &mut hall);
        Came { reply: Some(reply), flaw: self.flaw(reply, &before, &hall), hall }
    }

    fn flaw(&self, reply: Reply, before: &Hall, hall: &Hall) -> Option<String> {
        if reply != self.wanted {
            return Some("another reply".to_string());
        }
        if let Some(((memory, place), wanted)) = self.after.iter().find(|((memory, place), wanted)| hall.get(*memory, *place) != *wanted) {
            return Some(format!("{}: {}, the documents have {wanted}", self.named(*memory, *place), hall.get(*memory, *place)));
        }
        // "1 to 11, and any number that a later request adds to a call, alter no memory."
        if (1..=11).contains(&self.wanted.number) || [14, 15].contains(&self.wanted.number) {
            return before.first_difference(hall).map(|(memory, place)| format!("{}: altered by a refusal", self.named(memory, place)));
        }
        // a call that is lent no tally has none to write
        if !self.call.tallied && before.tally() != hall.tally() {
            return Some("a tally that was not lent: altered".to_string());
        }
        // "the rest of the tray keeps its contents"
        let mut rest = self.written..hall.tray().len();
        rest.find(|i| hall.tray()[*i] != before.tray()[*i]).map(|place| format!("{}: altered", self.named(4, place)))
    }

    fn named(&self, memory: usize, place: usize) -> String {
        format!("{}[{place}], {}", MEMORY_NAMES[memory], describe(memory, place, self.scene.k))
    }

    /// Whether each side by itself did as wanted and both left the same memories; and the line that tells it.
    pub fn judge(&self, library: &dyn Side, twin: &dyn Side) -> (bool, String) {
        let came = [self.run(library), self.run(twin)];
        let difference = came[0].hall.first_difference(&came[1].hall);
        let lent = if self.lent == MORE { String::new() } else { format!(", lent {:?}", self.lent) };
        let mut line = format!("{} {}, k {}, {}{lent}: ", self.limit.0, self.value, self.scene.k, self.call);
        line += &format!("the documents have {} (\"{}\")", reply_text(self.wanted), self.limit.1);
        for (side, came) in ["library", "twin"].iter().zip(&came) {
            let flaw = came.flaw.as_ref().map_or(String::new(), |flaw| format!(" ({flaw})"));
            line += &format!(", {side} gave {}{flaw}", came.reply.map_or("nothing".to_string(), reply_text));
        }
        if let Some((memory, place)) = difference {
            line += &format!("; their memories differ at {}", self.named(memory, place));
        }
        (came.iter().all(|came| came.flaw.is_none()) && difference.is_none(), line)
    }
}

/// What adds the rows of one concern for one k.
type Part = fn(&mut Vec<Row>, u32);

/// Those of document 01 and of counts (S-1).
const PLAIN: [[Part; 8]; 3] = [
    [
        memories::counts,
        memories::lists,
        memories::filed,
        memories::desks,
        memories::lengths,
        arguments::evictions,
        arguments::queries,
        arguments::order,
    ],
    [clients::kinds, clients::steps, clients::lengths, clients::keys, clients::renewals, steps::lists, steps::fetches, counts::counted],
    [steps::filings, steps::inserts, steps::deletes, abandonings::by_steps, nodes::room, nodes::writes, nodes::worn, counts::beside_lists],
];
/// Of ranges (S-3).
const RANGES: [Part; 10] = [
    ranges::taken,
    ranges::extremes,
    ranges::other_columns,
    ranges::lengths,
    ranges::abandonings,
    ranges::beside,
    reversed::begins,
    reversed::order,
    held::ranges,
    held::filed,
];
/// Of abandonings (S-4).
const ABANDONINGS: [Part; 5] = [abandonings::flags, abandonings::nodes, abandonings::desks, abandonings::read_again, abandonings::of_reads];
/// Of the value 0 (S-5).
const ZEROS: [Part; 9] =
    [zeros::named, zeros::ranges, zeros::beside_ranges, zeros::lengths, zeros::inserts, zeros::deletes, zeros::looks, zeros::shared, zeros::found];
/// Of writes that change nothing (S-6).
const UNCHANGING: [Part; 5] = [unchanged::raises, unchanged::read_beside, unchanged::seen, unchanged::counters, unchanged::unmarked];
/// Of tallies (S-7).
const TALLIES: [Part; 7] = [tally::begins, tally::answers, tally::abandoned_reads, tally::writes, tally::not_raised, tally::order, tally::unsound];
/// Of the passes over records (S-2).
const PASSES: [Part; 2] = [passes::places, passes::zeros];

/// All rows; each is lent memories that are longer than they need be and, unless it is about lengths, the least lengths too.
pub fn rows() -> Vec<Row> {
    let mut rows = Vec::new();
    memories::columns(&mut rows);
    reversed::columns(&mut rows);
    let parts = || PLAIN.iter().flatten().chain(&RANGES).chain(&ABANDONINGS).chain(&ZEROS).chain(&UNCHANGING).chain(&TALLIES).chain(&PASSES);
    (1..=4).for_each(|k| parts().for_each(|part| part(&mut rows, k)));
    let exact: Vec<Row> = rows.iter().filter(|row| row.lent == MORE).map(|row| row.clone().lent(LEAST)).collect();
    rows.extend(exact);
    rows
}

/// Plays every row. Prints those that are not as wanted, or each if `verbose`, and how many there are; says whether all are as wanted.
pub fn run_limits(library: &dyn Side, twin: &dyn Side, verbose: bool) -> bool {
    let rows = rows();
    let mut wanted = 0;
    for (good, line) in rows.iter().map(|row| row.judge(library, twin)) {
        wanted += good as usize;
        if verbose || !good {
            println!("{line}");
        }
    }
    println!("limits: {} rows, {} as the documents have them", grouped(rows.len() as u64), grouped(wanted as u64));
    wanted == rows.len()
}
