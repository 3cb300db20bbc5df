//! The nodes memory: looks, announcements (marks), raises and marks taken back, and nodes evicted (put out) (document 01, "One desk, step by
//! step"). Leans on layout and query.
//! The count in memory is known to be at most 1,024 and the memory to be long enough: refusals come first.

use crate::layout::*;
use crate::query::{Label, Query};
use crate::Fault;
use std::ops::Range;

pub fn all(nodes: &[u32]) -> &[[u32; NODE_WIDTH]] {
    &nodes[HEAD..NODES_LEAST].as_chunks().0[..nodes[NODE_COUNT] as usize]
}

fn at(nodes: &mut [u32], place: usize) -> &mut [u32; NODE_WIDTH] {
    &mut nodes[HEAD..NODES_LEAST].as_chunks_mut().0[place]
}

/// Of several nodes with this label, the one nearest the start.
pub fn find(nodes: &[u32], label: &Label) -> Option<usize> {
    all(nodes).iter().position(|node| node[..LABEL_WIDTH] == label[..])
}

/// 10: the floor or a revision, a counter, is above 4,294,967,103.
pub fn is_worn(nodes: &[u32]) -> bool {
    nodes[FLOOR] > WORN || all(nodes).iter().any(|node| node[NODE_REVISION] > WORN)
}

/// A node is put out: the floor becomes the larger of floor and its revision, the rest close up.
pub fn evict(nodes: &mut [u32], place: usize) {
    let last = nodes[NODE_COUNT] as usize - 1;
    nodes[FLOOR] = nodes[FLOOR].max(at(nodes, place)[NODE_REVISION]);
    nodes.copy_within(HEAD + (place + 1) * NODE_WIDTH..HEAD + (last + 1) * NODE_WIDTH, HEAD + place * NODE_WIDTH);
    at(nodes, last).fill(0);
    nodes[NODE_COUNT] = last as u32;
}

/// The place of the label's node, which is added if it is missing; none if no node without pending writes can make room for it.
fn ensure<const FAULT: u8>(nodes: &mut [u32], label: &Label) -> Option<usize> {
    if let Some(place) = find(nodes, label) {
        return Some(place);
    }
    if nodes[NODE_COUNT] as usize == NODES {
        let oldest = all(nodes).iter().position(|node| node[NODE_PENDING] == 0)?;
        evict(nodes, oldest);
    }
    let place = nodes[NODE_COUNT] as usize;
    let revision = if FAULT == Fault::BackAtOne as u8 { 1 } else { nodes[FLOOR] };
    let [tags, v0, v1, v2, v3] = *label;
    *at(nodes, place) = [tags, v0, v1, v2, v3, 0, revision, 0];
    nodes[NODE_COUNT] += 1;
    Some(place)
}

/// A look: the node's revision, and whether it has pending writes (marks).
pub fn look<const FAULT: u8>(nodes: &mut [u32], label: &Label) -> Option<(u32, bool)> {
    let place = ensure::<FAULT>(nodes, label)?;
    let node = at(nodes, place);
    let pending = node[NODE_PENDING] != 0 && FAULT != Fault::NoPending as u8;
    Some((node[NODE_REVISION], pending))
}

/// The mark step: pending writes go up by one; none if the node has 12 or more. (A node that was missing has none, so nothing was altered then.)
pub fn announce<const FAULT: u8>(nodes: &mut [u32], label: &Label) -> Option<()> {
    let place = ensure::<FAULT>(nodes, label)?;
    let node = at(nodes, place);
    if FAULT == Fault::EarlyRaise as u8 {
        node[NODE_REVISION] = node[NODE_REVISION].checked_add(1)?;
    } else if FAULT == Fault::OneBit as u8 {
        node[NODE_PENDING] = 1;
    } else if node[NODE_PENDING] >= PENDING {
        return None;
    } else {
        node[NODE_PENDING] += 1;
    }
    Some(())
}

/// One pending write fewer at each of these nodes of a write, and with a lift one revision more: all of them or none. It is the raise, of one node
/// by a step and of all that are left by an abandoning (document 02, S-4), with a lift if the write has changed the table (S-6); before the table
/// step marks are taken back, without. The labels of one write differ, so each node is tested on its own.
pub fn retire<const FAULT: u8>(nodes: &mut [u32], query: &Query, numbers: Range<u32>, lift: bool) -> Option<()> {
    if FAULT == Fault::EarlyRaise as u8 {
        return Some(());
    }
    let mut places = [0; 16];
    let own = &mut places[..numbers.len()];
    for (place, number) in own.iter_mut().zip(numbers) {
        *place = retirable::<FAULT>(nodes, &query.write_label::<FAULT>(number), lift)?;
    }
    release::<FAULT>(nodes, own, lift);
    Some(())
}

/// The place of the label's node; none if it is missing or has no pending write, or if its revision is at its largest and is to be lifted.
fn retirable<const FAULT: u8>(nodes: &[u32], label: &Label, lift: bool) -> Option<usize> {
    let place = find(nodes, label)?;
    let node = all(nodes)[place];
    let pending = node[NODE_PENDING] != 0 || FAULT == Fault::OneBit as u8;
    (pending && (!lift || node[NODE_REVISION] < u32::MAX)).then_some(place)
}

fn release<const FAULT: u8>(nodes: &mut [u32], places: &[usize], lift: bool) {
    for &place in places {
        let node = at(nodes, place);
        node[NODE_PENDING] = if FAULT == Fault::OneBit as u8 { 0 } else { node[NODE_PENDING] - 1 };
        node[NODE_REVISION] += lift as u32;
    }
}

/// Empties the memory, as far as it is in use, and sets the floor to 1.
pub fn renew(nodes: &mut [u32]) {
    let used = nodes[NODE_COUNT] as usize * NODE_WIDTH;
    nodes[HEAD..HEAD + used].fill(0);
    nodes[NODE_COUNT] = 0;
    nodes[FLOOR] = 1;
}
