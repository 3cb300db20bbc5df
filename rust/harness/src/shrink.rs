//! Shortens what leads to a difference, so that a person can read it: calls are dropped and numbers set to 0 while it stays.
//! Leans on call, made and hall.

use crate::call::Call;
use crate::hall::{Hall, TALLY};
use crate::made::Made;
use std::time::{Duration, Instant};

/// Memories and the calls made on them.
#[derive(Clone)]
pub struct Script {
    pub start: Hall,
    pub calls: Vec<Made>,
}

/// Shortens a script while `stays` holds of it, within the time given.
pub fn shorten(script: Script, time: Duration, stays: &dyn Fn(&Script) -> bool) -> Script {
    let until = Instant::now() + time;
    let mut script = drop_calls(script, until, stays);
    for memory in [0, 1, 2, 3, TALLY] {
        zero_numbers(&mut script, memory, until, stays);
    }
    script = drop_calls(script, until, stays);
    while lower_places(&mut script, until, stays) {
        script = drop_calls(script, until, stays);
    }
    script
}

/// An eviction of a place far on holds the calls in that fill the places before it: tries the places nearer the start.
fn lower_places(script: &mut Script, until: Instant, stays: &dyn Fn(&Script) -> bool) -> bool {
    let mut lowered = false;
    for i in 0..script.calls.len() {
        let old = script.calls[i];
        let lower = move |place| match old.call {
            Call::EvictAnswer { .. } => Made::from(Call::EvictAnswer { place }),
            _ => Made::from(Call::EvictNode { place }),
        };
        let (Call::EvictAnswer { place } | Call::EvictNode { place }) = old.call else {
            continue;
        };
        let found = (0..place.min(1024)).take_while(|_| Instant::now() < until).find(|place| {
            script.calls[i] = lower(*place);
            stays(script)
        });
        script.calls[i] = found.map_or(old, lower);
        lowered |= found.is_some();
    }
    lowered
}

/// Drops stretches of calls, long ones first; once more from the start as long as single calls can be dropped.
fn drop_calls(mut script: Script, until: Instant, stays: &dyn Fn(&Script) -> bool) -> Script {
    let mut stretch = script.calls.len().div_ceil(2);
    while stretch > 0 && Instant::now() < until {
        let dropped = drop_stretches(&mut script, stretch, until, stays);
        if !(stretch == 1 && dropped) {
            stretch /= 2;
        }
    }
    script
}

/// From the end on: what comes last is needed least by what comes before it.
fn drop_stretches(script: &mut Script, stretch: usize, until: Instant, stays: &dyn Fn(&Script) -> bool) -> bool {
    let mut dropped = false;
    let mut end = script.calls.len();
    while end > 0 && Instant::now() < until {
        let first = end.saturating_sub(stretch);
        let mut shorter = Script { start: script.start.clone(), calls: script.calls.clone() };
        shorter.calls.drain(first..end);
        if stays(&shorter) {
            *script = shorter;
            dropped = true;
        }
        end = first;
    }
    dropped
}

/// Sets stretches of a memory's numbers to 0, long ones first.
fn zero_numbers(script: &mut Script, memory: usize, until: Instant, stays: &dyn Fn(&Script) -> bool) {
    let length = script.start.memories[memory].len();
    let mut stretch = length;
    while stretch > 0 {
        for first in (0..length).step_by(stretch) {
            let part = first..(first + stretch).min(length);
            let old = script.start.memories[memory][part.clone()].to_vec();
            if old.iter().all(|number| *number == 0) {
                continue;
            }
            if Instant::now() > until {
                return;
            }
            script.start.memories[memory][part.clone()].fill(0);
            if !stays(script) {
                script.start.memories[memory][part].copy_from_slice(&old);
            }
        }
        stretch /= 2;
    }
}
