//! Slots: the image test, lookup, plans and their application.
//!
//! Each rule of the image names the first slot that breaks it, and the least of these is the image's fault. The same test goes slot
//! by slot too, where S5 compares an entry with the run of its own length just before it alone. A plan is a path of slots: each is
//! written with what the next one holds, and the last with the new entry or with nothing.

use crate::list::{entry_fault, matches};
use crate::Fault;
use std::collections::HashSet;
use std::ops::Range;

/// The two rows of a table.
#[derive(Clone, PartialEq, Eq, Debug)]
pub struct Image {
    /// The addresses.
    pub addresses: Vec<u32>,
    /// The tags: length x 65,536 + hop.
    pub tags: Vec<u32>,
}

impl Image {
    /// So many free slots.
    pub fn empty(slots: usize) -> Self {
        Image {
            addresses: vec![0; slots],
            tags: vec![0; slots],
        }
    }
}

/// What a slot holds.
#[derive(Clone, Copy, PartialEq, Eq, Debug)]
pub(crate) enum Cell {
    Free,
    Entry {
        address: u32,
        length: u32,
        hop: u32,
    },
    /// Neither: S1 is broken.
    Bad,
}

fn cell(address: u32, tag: u32) -> Cell {
    let (length, hop) = (tag / 65_536, tag % 65_536);
    if address == 0 && tag == 0 {
        Cell::Free
    } else if entry_fault(0, address, length, hop).is_some() {
        Cell::Bad
    } else {
        Cell::Entry { address, length, hop }
    }
}

/// The number of slots, where it is good.
fn size(addresses: &[u32], tags: &[u32]) -> Result<usize, Fault> {
    if addresses.len() != tags.len() || addresses.is_empty() || addresses.len() > 4096 {
        return Err((8, 0));
    }
    Ok(addresses.len())
}

/// The cells of rows whose size is good.
fn cells(addresses: &[u32], tags: &[u32]) -> Result<Vec<Cell>, Fault> {
    size(addresses, tags)?;
    Ok(addresses.iter().zip(tags).map(|(&a, &t)| cell(a, t)).collect())
}

/// The slots with entries, each with its address and length, from slot 0 upward.
pub(crate) fn entries(cells: &[Cell]) -> impl DoubleEndedIterator<Item = (usize, u32, u32)> + '_ {
    cells.iter().enumerate().filter_map(|(slot, cell)| match *cell {
        Cell::Entry { address, length, .. } => Some((slot, address, length)),
        _ => None,
    })
}

/// Each slot is free or holds a valid prefix and hop.
fn s1(cells: &[Cell]) -> Option<usize> {
    cells.iter().position(|&cell| cell == Cell::Bad)
}

/// A used slot's length is no greater than that of the used slot before it.
fn s2(cells: &[Cell]) -> Option<usize> {
    entries(cells)
        .zip(entries(cells).skip(1))
        .find(|((_, _, before), (_, _, length))| length > before)
        .map(|(_, (slot, _, _))| slot)
}

/// An entry of length 16 or more has no free slot before it.
fn s3(cells: &[Cell]) -> Option<usize> {
    let free = cells.iter().position(|&cell| cell == Cell::Free)?;
    entries(cells)
        .find(|&(slot, _, length)| slot > free && length >= 16)
        .map(|(slot, _, _)| slot)
}

/// A free slot has no entry of length 15 or less before it.
fn s4(cells: &[Cell]) -> Option<usize> {
    let (short, _, _) = entries(cells).find(|&(_, _, length)| length <= 15)?;
    (short..cells.len()).find(|&slot| cells[slot] == Cell::Free)
}

/// No prefix stands in two slots.
fn s5(cells: &[Cell]) -> Option<usize> {
    let mut seen = HashSet::with_capacity(cells.len());
    entries(cells)
        .find(|&(_, address, length)| !seen.insert((address, length)))
        .map(|(slot, _, _)| slot)
}

/// The cells of an image that keeps S1.
pub(crate) fn valid(addresses: &[u32], tags: &[u32]) -> Result<Vec<Cell>, Fault> {
    let cells = cells(addresses, tags)?;
    match s1(&cells) {
        Some(slot) => Err((7, slot)),
        None => Ok(cells),
    }
}

/// The cells of an image that is well-formed.
fn well_formed(addresses: &[u32], tags: &[u32]) -> Result<Vec<Cell>, Fault> {
    let cells = cells(addresses, tags)?;
    match [s1, s2, s3, s4, s5].iter().filter_map(|rule| rule(&cells)).min() {
        Some(slot) => Err((7, slot)),
        None => Ok(cells),
    }
}

/// The number of used slots, or the first refusal.
pub fn check(addresses: &[u32], tags: &[u32]) -> Result<usize, Fault> {
    Ok(entries(&well_formed(addresses, tags)?).count())
}

/// Whether a slot breaks S1 to S4, by what stands before it.
fn breaks_s1_to_s4(cells: &[Cell], slot: usize) -> bool {
    let before = &cells[..slot];
    match cells[slot] {
        Cell::Bad => true,
        Cell::Free => entries(before).any(|(_, _, length)| length <= 15),
        Cell::Entry { length, .. } => {
            let nearest = entries(before).next_back();
            nearest.is_some_and(|(_, _, n)| length > n) || length >= 16 && before.contains(&Cell::Free)
        }
    }
}

/// The unbroken run of a length just before a slot. It ends at the slot before and, going back, at the first slot that is free or of
/// another length.
fn run_before(cells: &[Cell], slot: usize, length: u32) -> Range<usize> {
    let of_length = |cell: &Cell| matches!(*cell, Cell::Entry { length: n, .. } if n == length);
    let other = cells[..slot].iter().rposition(|cell| !of_length(cell));
    other.map_or(0, |other| other + 1)..slot
}

/// Whether an entry among some slots has this prefix.
fn has(cells: &[Cell], address: u32, length: u32) -> bool {
    entries(cells).any(|(_, a, n)| (a, n) == (address, length))
}

/// Whether a slot's prefix stands in the run of its own length just before it.
fn repeats_in_run(cells: &[Cell], slot: usize) -> bool {
    match cells[slot] {
        Cell::Entry { address, length, .. } => has(&cells[run_before(cells, slot, length)], address, length),
        _ => false,
    }
}

/// What `check` answers, found slot by slot: S1 to S4 by what stands before the slot, then S5 by its run alone.
pub fn check_by_runs(addresses: &[u32], tags: &[u32]) -> Result<usize, Fault> {
    let cells = cells(addresses, tags)?;
    let broken = |&slot: &usize| breaks_s1_to_s4(&cells, slot) || repeats_in_run(&cells, slot);
    match (0..cells.len()).find(broken) {
        Some(slot) => Err((7, slot)),
        None => Ok(entries(&cells).count()),
    }
}

/// The cells of an image that keeps S1 to S4.
pub(crate) fn ordered(addresses: &[u32], tags: &[u32]) -> Result<Vec<Cell>, Fault> {
    let cells = cells(addresses, tags)?;
    match [s1, s2, s3, s4].iter().filter_map(|rule| rule(&cells)).min() {
        Some(slot) => Err((7, slot)),
        None => Ok(cells),
    }
}

/// S1 to S4 alone, rule by rule: the first refusal, if there is any.
pub fn check_s1_to_s4(addresses: &[u32], tags: &[u32]) -> Result<(), Fault> {
    ordered(addresses, tags).map(|_| ())
}

/// An entry of an image, and whether its prefix stands before it.
#[derive(Clone, PartialEq, Eq, Debug)]
pub struct Repeat {
    /// The entry's slot.
    pub slot: usize,
    /// The run of its own length just before it.
    pub run: Range<usize>,
    /// Whether any slot before it has its prefix.
    pub before: bool,
    /// Whether a slot of the run has it.
    pub in_run: bool,
}

/// The entries of an image whose size is good, from slot 0 upward, each with its repeats.
pub fn repeats(addresses: &[u32], tags: &[u32]) -> Result<Vec<Repeat>, Fault> {
    let cells = cells(addresses, tags)?;
    let of_entry = |(slot, address, length)| Repeat {
        slot,
        run: run_before(&cells, slot, length),
        before: has(&cells[..slot], address, length),
        in_run: repeats_in_run(&cells, slot),
    };
    Ok(entries(&cells).map(of_entry).collect())
}

/// The hop of the first used slot that matches `q`, 0 where none does.
fn first_match(cells: &[Cell], q: u32) -> u32 {
    let found = cells.iter().find_map(|cell| match *cell {
        Cell::Entry { address, length, hop } => matches(address, length, q).then_some(hop),
        _ => None,
    });
    found.unwrap_or(0)
}

/// The hop of the first match for each of some addresses, or the first refusal.
pub fn lookups(addresses: &[u32], tags: &[u32], keys: &[u32]) -> Result<Vec<u32>, Fault> {
    let cells = valid(addresses, tags)?;
    Ok(keys.iter().map(|&q| first_match(&cells, q)).collect())
}

/// A write: slot, address, tag.
pub type Write = [u32; 3];

/// The slots of each length, from slot 0 upward.
fn slots_by_length(cells: &[Cell]) -> Vec<Vec<usize>> {
    let mut slots = vec![Vec::new(); 33];
    for (slot, _, length) in entries(cells) {
        slots[length as usize].push(slot);
    }
    slots
}

/// The writes along a path: each slot gets what the next one holds, the last gets the cell.
fn along(path: &[usize], addresses: &[u32], tags: &[u32], last: (u32, u32)) -> Vec<Write> {
    let held = path[1..].iter().map(|&slot| (addresses[slot], tags[slot]));
    path.iter()
        .zip(held.chain([last]))
        .map(|(&slot, (address, tag))| [slot as u32, address, tag])
        .collect()
}

/// The writes, where `room` cells are enough for them.
pub(crate) fn with_room(writes: Vec<Write>, room: usize) -> Result<Vec<Write>, Fault> {
    if 3 * writes.len() > room {
        return Err((9, 0));
    }
    Ok(writes)
}

/// The writes that set a prefix's hop, for an output of `room` cells, or the first refusal.
pub fn plan_set(
    addresses: &[u32],
    tags: &[u32],
    address: u32,
    length: u32,
    hop: u32,
    room: usize,
) -> Result<Vec<Write>, Fault> {
    let cells = well_formed(addresses, tags)?;
    if let Some(fault) = entry_fault(0, address, length, hop) {
        return Err(fault);
    }
    let new = (address, length * 65_536 + hop);
    if let Some((slot, _, _)) = entries(&cells).find(|&(_, a, n)| (a, n) == (address, length)) {
        let writes = if tags[slot] == new.1 {
            vec![]
        } else {
            vec![[slot as u32, new.0, new.1]]
        };
        return with_room(writes, room);
    }
    let pool: Vec<usize> = (0..cells.len()).filter(|&slot| cells[slot] == Cell::Free).collect();
    if pool.is_empty() {
        return Err((5, 0));
    }
    let by_length = slots_by_length(&cells);
    let n = length as usize;
    let mut path = Vec::new();
    if n >= 16 {
        path.extend(pool.first());
        path.extend((16..n).filter_map(|moved| by_length[moved].first()));
    } else {
        path.extend(pool.last());
        path.extend((n + 1..=15).rev().filter_map(|moved| by_length[moved].last()));
    }
    with_room(along(&path, addresses, tags, new), room)
}

/// The writes that remove the entry in a slot, whose length is given.
pub(crate) fn removal(cells: &[Cell], addresses: &[u32], tags: &[u32], slot: usize, length: u32) -> Vec<Write> {
    let by_length = slots_by_length(cells);
    let n = length as usize;
    let mut path = vec![slot];
    if n >= 16 {
        path.extend((16..=n).rev().filter_map(|moved| by_length[moved].last()));
    } else {
        path.extend((n..=15).filter_map(|moved| by_length[moved].first()));
    }
    // there is no edge move where the slot is its length's edge
    path.dedup();
    along(&path, addresses, tags, (0, 0))
}

/// The writes that remove a prefix, for an output of `room` cells, or the first refusal.
pub fn plan_remove(
    addresses: &[u32],
    tags: &[u32],
    address: u32,
    length: u32,
    room: usize,
) -> Result<Vec<Write>, Fault> {
    let cells = well_formed(addresses, tags)?;
    // a removal has no hop to test
    if let Some(fault) = entry_fault(0, address, length, 1) {
        return Err(fault);
    }
    let Some((slot, _, _)) = entries(&cells).find(|&(_, a, n)| (a, n) == (address, length)) else {
        return Err((6, 0));
    };
    with_room(removal(&cells, addresses, tags, slot, length), room)
}

/// Makes the first `k` writes of a plan: `k`, or the refusal.
pub fn apply(addresses: &mut [u32], tags: &mut [u32], plan: &[u32], k: usize) -> Result<usize, Fault> {
    let slots = size(addresses, tags)?;
    let whole = plan.len() / 3;
    if k > whole {
        return Err((10, whole));
    }
    let writes = || plan.chunks_exact(3).take(k);
    if let Some(place) = writes().position(|write| write[0] as usize >= slots || cell(write[1], write[2]) == Cell::Bad)
    {
        return Err((10, place));
    }
    for write in writes() {
        addresses[write[0] as usize] = write[1];
        tags[write[0] as usize] = write[2];
    }
    Ok(k)
}
