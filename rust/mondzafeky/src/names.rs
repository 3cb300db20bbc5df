//! A word and a sentence for each number that a call returns; the words are those of documents 01
//! and 02. Leans on the numbers in lib.
use crate::number;

/// The number, its word, and what it means with what to do. The header for C has the same, letter
/// for letter (tests/header.rs). 7 is given no longer and is not among them.
const WORDS: [(u32, &str, &str); 15] = [
    (number::ACCEPTED, "accepted", "The call was accepted; a read or write that is under way goes on by a step."),
    (number::SHORT, "short", "A lent memory is below its least length; lend a longer one."),
    (number::COLUMNS, "columns", "At opening k is not 1 to 4; at a begin the query has not as many columns as the hall, or a mark above 1, or a star with a value, or it is an insert with a star, or the range's column is named too or not below k; open the hall with 1 to 4 columns, or correct the query or the column."),
    (number::UNSOUND, "unsound", "k, a number of entries, a filed list's length or a filed count in memory is out of range, or what stands at the desk or at its node is, or no unmarked node can make room; open the hall, or load what the calls last left."),
    (number::NO_CLIENT, "no desk", "The desk is above 11; name one of 0 to 11."),
    (number::TAKEN, "taken", "The desk is busy; step its read or write to the end, or abandon it, and begin again."),
    (number::IDLE, "idle", "The desk is idle, so there is nothing to step or abandon; begin a read or write there."),
    (number::NO_ENTRY, "no entry", "There is no answer or node at this place; name a place below their count."),
    (number::PENDING, "marked", "The node has marks of writes under way; leave it until they have ended."),
    (number::WORN, "worn", "The floor or a counter is above 4,294,967,103; renew when all desks are idle, and begin the write again."),
    (number::OCCUPIED, "occupied", "A desk is busy; step its read or write to the end, or abandon it, and renew when all desks are idle."),
    (number::LONG, "long", "The read has ended without an answer, for over 32 records match; read them in parts, naming a value in more columns or by narrower ranges."),
    (number::FULL, "full", "The insert has ended without inserting, for the table held 2,048 records and not this one; delete some, and insert again."),
    (number::REVERSED, "reversed", "The lowest value of the range is above its highest; give the lower one first, and begin again."),
    (number::TALLY_FULL, "tally full", "The call would raise a count of its tally that stands at 4,294,967,295; start a new tally and make the call again with it, for the read or write stays as it is and goes on with the next tally."),
];

fn words(number: u32) -> Option<(&'static str, &'static str)> {
    WORDS.iter().find(|words| words.0 == number).map(|words| (words.1, words.2))
}

/// The documents' word for a number: "short" for 1 and so on to "full" for 13, "reversed" for 14,
/// "tally full" for 15; "accepted" for 0, "unknown" for 7, which no call gives, and above 15.
#[must_use]
pub fn name(number: u32) -> &'static str {
    words(number).map_or("unknown", |words| words.0)
}

/// What a number means and what to do, in one sentence.
#[must_use]
pub fn sentence(number: u32) -> &'static str {
    words(number).map_or("No call returns this number.", |words| words.1)
}
