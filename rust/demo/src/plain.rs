//! When an answer was true: the plain table, worked out from the calls' arguments and the numbers they returned, as document 01 has it, and
//! nothing from the memories. Leans on script and trace.

use crate::script::{Asked, Call, Kind, Part, K};
use crate::trace::Trace;

pub type Record = [u32; K];

/// The plain table after each call of a trace.
pub fn plain_tables(trace: &Trace) -> Vec<Vec<Record>> {
    let mut table: Vec<Record> = Vec::new();
    let mut notes: [Option<(Kind, Asked, u32)>; 12] = [None; 12];
    let mut tables = Vec::new();
    for made in &trace.made {
        match made.call {
            _ if !matches!(made.reply.number, 0 | 12 | 13) => {}
            Call::Open { .. } => table.clear(),
            Call::Begin { kind, desk, asked } => notes[desk as usize] = Some((kind, asked, 0)),
            Call::Step { desk } => {
                if let Some((kind, asked, steps)) = &mut notes[desk as usize] {
                    *steps += 1;
                    // one more than a write has nodes: its table step
                    if *steps == (1 << K) + 1 {
                        take_effect(&mut table, *kind, asked);
                    }
                }
            }
        }
        tables.push(table.clone());
    }
    tables
}

fn take_effect(table: &mut Vec<Record>, kind: Kind, asked: &Asked) {
    match kind {
        Kind::Read => {}
        Kind::Delete => table.retain(|record| !lies(record, asked)),
        Kind::Insert => {
            table.push([asked[1], asked[3]]);
            table.sort();
            table.dedup();
        }
    }
}

/// The record has the named value in each named column. A named 0 no record has: it means that nothing was measured (document 02, S-5).
fn lies(record: &Record, asked: &Asked) -> bool {
    record.iter().zip(asked.chunks(2)).all(|(value, column)| column[0] == 0 || column[1] != 0 && column[1] == *value)
}

/// A read of a trace, its answer, and when that was its query's list.
#[derive(Clone, PartialEq, Eq, Debug)]
pub struct Truth {
    /// the calls that began and answered it
    pub begin: usize,
    pub answer: usize,
    pub records: Vec<Record>,
    pub from_file: bool,
    /// the calls after which the plain table's list was exactly the answer, over the whole trace
    pub moments: Vec<usize>,
}

impl Truth {
    /// Of the read of a part; none if it was not answered.
    pub fn of(trace: &Trace, part: Part) -> Option<Truth> {
        let answer = trace.answer(part)?;
        let begin = trace.places(part).find(|i| matches!(trace.made[*i].call, Call::Begin { kind: Kind::Read, .. }))?;
        let Call::Begin { asked, .. } = trace.made[begin].call else {
            return None;
        };
        let made = &trace.made[answer];
        let tray = made.hall.tray().as_chunks::<K>().0;
        let records = tray.get(..made.reply.count as usize)?.to_vec();
        let is_list = |table: &Vec<Record>| table.iter().filter(|record| lies(record, &asked)).eq(records.iter());
        let tables = plain_tables(trace);
        let moments = (0..tables.len()).filter(|i| is_list(&tables[*i])).collect();
        Some(Truth { begin, answer, records, from_file: made.reply.ending == 1, moments })
    }

    /// From when to when in the read the answer was true; if it was so twice, the first time.
    pub fn during(&self) -> Option<(usize, usize)> {
        let is_true = |i: &usize| self.moments.contains(i);
        let first = (self.begin..=self.answer).find(is_true)?;
        let last = (first..=self.answer).take_while(is_true).last()?;
        Some((first, last))
    }

    /// Demand 3: it was true at some moment from the read's begin to its answer.
    pub fn is_kept(&self) -> bool {
        self.during().is_some()
    }

    /// In words: "true from step 8, this read's begin, until step 16, the table step of desk 0.".
    pub fn told(&self, trace: &Trace) -> String {
        let step = |i: usize| trace.number(i).map_or("a step before these".to_string(), |number| format!("step {number}"));
        let Some((first, last)) = self.during() else {
            let last = self.moments.iter().rev().find(|i| **i < self.begin);
            let ended =
                last.map_or("It never was.".to_string(), |i| format!("It ceased to be true at {}, {}.", step(i + 1), table_step(trace, i + 1)));
            return format!("true at no moment of this read. {ended}");
        };
        let from = if first == self.begin { format!("{}, this read's begin,", step(first)) } else { step(first) };
        let until = if last == self.answer {
            format!("to {}, its answer", step(last))
        } else {
            format!("until {}, {}", step(last + 1), table_step(trace, last + 1))
        };
        format!("true from {from} {until}.")
    }
}

/// Whose step it was: only a write's table step alters the plain table.
fn table_step(trace: &Trace, i: usize) -> String {
    let desk = trace.made[i].call.desk().unwrap_or_default();
    format!("the table step of desk {desk}")
}
