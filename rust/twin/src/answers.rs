//! The answers memory: fetch, file, evict (put out) (document 01, "One desk, step by step"). Leans on layout.
//! The count in memory is known to be at most 64 and the memory to be long enough: refusals come first.

use crate::layout::*;
use crate::Fault;

pub type Entry = [u32; ENTRY_WIDTH];

pub fn all(answers: &[u32]) -> &[Entry] {
    &answers[HEAD..ANSWERS_LEAST].as_chunks().0[..answers[COUNT] as usize]
}

/// What a client, the desk, holds in the form of an answer.
pub fn entry_of(client: &[u32; CLIENT_WIDTH]) -> &Entry {
    client.last_chunk().unwrap()
}

/// The most that an answer's length may be: by the one bit that makes it a count's, whatever else stands in its key.
pub fn most(entry: &Entry) -> usize {
    if entry[0] & COUNT_BIT != 0 {
        RECORDS
    } else {
        LIST
    }
}

/// The same query, the same wanted, and the same range or none.
fn has_key_of<const FAULT: u8>(entry: &Entry, own: &Entry) -> bool {
    if FAULT == Fault::OneKey as u8 && entry[ENTRY_LENGTH] as usize <= LIST {
        return entry[0] | COUNT_BIT == own[0] | COUNT_BIT && entry[1..KEY_WIDTH] == own[1..KEY_WIDTH];
    }
    if FAULT == Fault::PlainKey as u8 {
        return entry[0] % RANGE_UNIT == own[0] % RANGE_UNIT && entry[1..KEY_LOWEST] == own[1..KEY_LOWEST];
    }
    entry[..KEY_WIDTH] == own[..KEY_WIDTH]
}

/// The first answer filed under the same key whose revision at each of `looks` nodes is at least the one noted in `own`.
pub fn fetch<'a, const FAULT: u8>(answers: &'a [u32], own: &Entry, looks: usize) -> Option<&'a Entry> {
    let revisions = ENTRY_REVISIONS..ENTRY_REVISIONS + looks;
    let holds = |entry: &&Entry| {
        has_key_of::<FAULT>(entry, own) && entry[revisions.clone()].iter().zip(&own[revisions.clone()]).all(|(filed, noted)| filed >= noted)
    };
    all(answers).iter().find(holds)
}

/// An answer is put out: the one at a place is removed and the rest close up.
pub fn evict(answers: &mut [u32], place: usize) {
    let last = answers[COUNT] as usize - 1;
    answers.copy_within(HEAD + (place + 1) * ENTRY_WIDTH..HEAD + (last + 1) * ENTRY_WIDTH, HEAD + place * ENTRY_WIDTH);
    answers[HEAD + last * ENTRY_WIDTH..HEAD + (last + 1) * ENTRY_WIDTH].fill(0);
    answers[COUNT] = last as u32;
}

/// The answer with the same key is taken out; failing that, if 64 are kept, the oldest is; this one goes last.
pub fn file<const FAULT: u8>(answers: &mut [u32], own: &Entry) {
    if let Some(place) = all(answers).iter().position(|entry| has_key_of::<FAULT>(entry, own)) {
        evict(answers, place);
    } else if answers[COUNT] as usize == ANSWERS {
        evict(answers, 0);
    }
    let place = HEAD + answers[COUNT] as usize * ENTRY_WIDTH;
    answers[place..place + ENTRY_WIDTH].copy_from_slice(own);
    answers[COUNT] += 1;
}

/// Empties the memory, as far as it is in use.
pub fn renew(answers: &mut [u32]) {
    let used = answers[COUNT] as usize * ENTRY_WIDTH;
    answers[HEAD..HEAD + used].fill(0);
    answers[COUNT] = 0;
}
