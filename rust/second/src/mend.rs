//! The mend of a half-written image: the removal of the later copy of the one prefix that stands in two slots.

use crate::slots::{entries, ordered, removal, with_room, Cell, Write};
use crate::Fault;
use std::collections::HashMap;

/// A slot that repeats an earlier prefix.
struct Repeat {
    slot: usize,
    length: u32,
    /// The first slot with the prefix.
    first: usize,
}

/// The slots that repeat an earlier prefix, from slot 0 upward.
fn repeats(cells: &[Cell]) -> Vec<Repeat> {
    let mut firsts = HashMap::with_capacity(cells.len());
    let repeat = |(slot, address, length)| {
        let first = *firsts.entry((address, length)).or_insert(slot);
        (first < slot).then_some(Repeat { slot, length, first })
    };
    entries(cells).filter_map(repeat).collect()
}

/// The writes that mend an image, for an output of `room` cells, or the first refusal.
pub fn plan_mend(addresses: &[u32], tags: &[u32], room: usize) -> Result<Vec<Write>, Fault> {
    let cells = ordered(addresses, tags)?;
    let repeats = repeats(&cells);
    let other_tag = repeats.iter().find(|repeat| tags[repeat.slot] != tags[repeat.first]);
    let second = repeats.get(1);
    if let Some(slot) = other_tag.iter().chain(&second).map(|repeat| repeat.slot).min() {
        return Err((7, slot));
    }
    let writes = match repeats.first() {
        Some(later) => removal(&cells, addresses, tags, later.slot, later.length),
        None => vec![],
    };
    with_room(writes, room)
}
