//! The whole of what the demo prints: the setting, the library, the controller with the fault, and what made the difference. What is said of an
//! answer comes from the trace. Leans on lanes, plain and words.

use crate::lanes::{head, lanes};
use crate::plain::Truth;
use crate::script::{wanted, Part, K, NEW, OLD};
use crate::trace::{Hall, Trace};
use crate::words::{counters_text, entries, entry_records, query_text, records_text, table_records};
use twin::layout::KEY_WIDTH;
use twin::query::Query;

pub const SETTING: &str = "\
A BENCH READS WHILE A CORRECTION GOES IN

The controller's table holds one record, (7, 40): binding 7, stored zero 40. A correction makes it
(7, 42). It is two writes: desk 0 deletes (7, 40) and desk 2 inserts (7, 42), here side by side,
which brings the fault out at its plainest; a program of yours runs the one to its end and then the
other, as docs/CALLS.md says. Meanwhile the bench at desk 1 reads (7, *), all that
the table has of binding 7; a star stands for any value.

  desk     where a bench has one read or one write under way. It moves by single steps, and the
           steps of all desks mix in any order
  file     where answers are kept, so that the next read of the same need not go to the table
  node     a place where reads and writes that concern the same records meet. It has a name: this
           read looks at (7, *) and at (?, *), where ? is \"any one value\"; each of the two writes
           goes to four nodes, and (7, *) is one of them
  counter  a number at each node. A write that has changed the table raises it, and an answer from
           file holds only as long as no counter at its read's nodes is above the one it was filed
           under
  mark     set at a node by a write that is under way there, taken away when the counter is raised
";

const FAULTY_HEAD: &str = "\
2. THE SAME MIXING IN A CONTROLLER THAT RAISES BEFORE ITS TABLE STEP

Not the library: a plain program with the same rules but for this one, built to show the fault. It
sets no marks; a write raises its counters first and changes the table afterwards.
";

/// The first half: the library, and where its steps come from.
pub fn library_half(trace: &Trace, source: &str) -> String {
    format!("1. THE LIBRARY\n\nRun by {source}.\n\n{}", half(trace))
}

/// The second half: the controller with the fault.
pub fn faulty_half(trace: &Trace) -> String {
    format!("{FAULTY_HEAD}\n{}", half(trace))
}

fn half(trace: &Trace) -> String {
    let mut text = head() + &lanes(trace, Part::Mixing);
    text += &verdict(trace, Part::Mixing, "The bench got");
    text += "\nAll is at rest. A later cycle of the bench reads (7, *) again:\n\n";
    text += &lanes(trace, Part::Later);
    text += &verdict(trace, Part::Later, "The later cycle got");
    text += "\nAnd the cycle after that:\n\n";
    text += &lanes(trace, Part::Again);
    text += &verdict(trace, Part::Again, "It got");
    text += &trace.made.last().map_or(String::new(), |made| at_the_end(&made.hall));
    text
}

/// The answer of a part's read, and when it was true.
fn verdict(trace: &Trace, part: Part, who: &str) -> String {
    match Truth::of(trace, part) {
        None => format!("\n  ==> {who} no answer.\n"),
        Some(truth) => {
            let place = if truth.from_file { "from file" } else { "from the table" };
            format!("\n  ==> {who} {}, {place}:\n      {}\n", records_text(&truth.records), truth.told(trace))
        }
    }
}

/// What stands in table and file.
fn at_the_end(hall: &Hall) -> String {
    let query = Query::arrived(K, &wanted());
    let filed = entries(hall).iter().find(|entry| entry[..KEY_WIDTH] == query.key());
    let on_file = filed.map_or("nothing".to_string(), |entry| {
        format!("{}, filed under the counters {}", records_text(entry_records(entry)), counters_text(entry, query.looks()))
    });
    let in_table = records_text(table_records(hall));
    format!("\n  Opened now, the table holds {in_table}.\n  On file for {}: {on_file}.\n", query_text(&query))
}

/// What is wrong with the library's trace, if anything is: each answer was true at a moment of its read, and the later reads get the new zero,
/// the second from file.
pub fn library_fails(trace: &Trace) -> Option<&'static str> {
    let truths = [Part::Mixing, Part::Later, Part::Again].map(|part| Truth::of(trace, part));
    let [Some(mixed), Some(later), Some(again)] = truths else {
        return Some("a read was not answered");
    };
    if !(mixed.is_kept() && later.is_kept() && again.is_kept()) {
        return Some("an answer was true at no moment of its read");
    }
    if later.records != [NEW] || again.records != [NEW] || !again.from_file {
        return Some("a later read did not get the new zero, or the last one not from file");
    }
    None
}

/// Whether the fault shows: a later read gets the old zero from file, and the table is right.
pub fn fault_shows(trace: &Trace) -> bool {
    let stale = |part| Truth::of(trace, part).is_some_and(|truth| truth.records == [OLD] && truth.from_file && !truth.is_kept());
    stale(Part::Later) && stale(Part::Again) && trace.made.last().is_some_and(|made| table_records(&made.hall) == [NEW])
}

pub const DIFFERENCE: &str = "\
WHAT MADE THE DIFFERENCE

The faulty controller filed the list from before the correction under the counters from after it.
Nothing raises them until binding 7 is written again, so every cycle until then works from the old
zero, while whoever opens the table finds it right. In the library a write sets its marks first,
then changes the table, then raises. The read saw the marks, so it gave its answer, which was true
then, and filed nothing.

This was one mixing. For every mixing of the steps of twelve desks, with answers and counters put
out between any two, the library's proofs say that a read gets what the table held at some moment
from its begin to its answer (docs/CLAIMS.md, demand 3). Clean trials, however many, do not say so.
";
