//! Two lanes beside each other: what the correction's desks do, and what the bench's desk does. Leans on script, trace and words.

use crate::script::{Call, Part, READER};
use crate::trace::{Hall, Trace};
use crate::words::told;

/// The number, two lanes and a bar between them: 100 columns.
const LANE: usize = 46;
const NUMBER: usize = 3;

pub fn head() -> String {
    row("", "THE CORRECTION, at desks 0 and 2", "THE BENCH, at desk 1")
}

/// The lanes of a part: one row for each call, in the lane of its desk, longer ones over several lines.
pub fn lanes(trace: &Trace, part: Part) -> String {
    trace.places(part).map(|i| lane_row(trace, i)).collect()
}

fn lane_row(trace: &Trace, i: usize) -> String {
    let made = &trace.made[i];
    let zeros = Hall::zeros();
    let text = told(trace.before(i).unwrap_or(&zeros), made);
    let number = trace.number(i).map_or(String::new(), |number| number.to_string());
    match made.call {
        Call::Open { .. } => row(&number, &text, ""),
        Call::Begin { desk, .. } | Call::Step { desk } if desk == READER => row(&number, "", &format!("desk {desk} {text}")),
        Call::Begin { desk, .. } | Call::Step { desk } => row(&number, &format!("desk {desk} {text}"), ""),
    }
}

fn row(number: &str, left: &str, right: &str) -> String {
    let (left, right) = (wrapped(left, LANE), wrapped(right, LANE));
    let mut text = String::new();
    for i in 0..left.len().max(right.len()) {
        let number = if i == 0 { number } else { "" };
        let [one, two] = [&left, &right].map(|lane| lane.get(i).map_or("", String::as_str));
        let line = format!("{number:>NUMBER$}  {one:<LANE$} | {two}");
        text += &(line.trim_end().to_string() + "\n");
    }
    text
}

/// Cut at spaces, but for those in a record or a name such as (7, 42), into lines that are at most so wide; all but the first are indented.
pub fn wrapped(text: &str, width: usize) -> Vec<String> {
    let mut lines = vec![String::new()];
    let mut open = false;
    for word in text.split(' ') {
        let line = lines.last_mut().expect("there is a line");
        if line.is_empty() {
            line.push_str(word);
        } else if open || line.len() + 1 + word_room(word) <= width {
            line.push(' ');
            line.push_str(word);
        } else {
            lines.push(format!("  {word}"));
        }
        open = word.starts_with('(') && !word.contains(')');
    }
    lines
}

/// How much room a word takes with what may not be parted from it: "(7," is followed by a number of at most two digits and its bracket.
fn word_room(word: &str) -> usize {
    if word.starts_with('(') && !word.contains(')') {
        word.len() + " 42).".len()
    } else {
        word.len()
    }
}
