//! Slots: the image test, lookup, plans and their application, download.

use super::{entry_fault, span, Fault};

/// The first length above the pool.
const SPLIT: usize = 16;

/// Stands for the free slots among the lengths.
const FREE: usize = 33;

/// No slot.
const NONE: usize = usize::MAX;

fn size_fault(addresses: &[u32], tags: &[u32]) -> Result<(), Fault> {
    if addresses.len() != tags.len() || !(1..=4096).contains(&tags.len()) {
        return Err((8, 0));
    }
    Ok(())
}

/// The bits of an address behind a prefix's length, as a mask.
fn behind(length: u32) -> u32 {
    (span(length) - 1) as u32
}

fn keeps_s1(address: u32, tag: u32) -> bool {
    let (length, hop) = (tag >> 16, tag & 0xffff);
    if tag == 0 {
        return address == 0;
    }
    length <= 32 && hop != 0 && address & behind(length) == 0
}

/// Whether a used slot that keeps S1 matches.
fn matches(address: u32, tag: u32, q: u32) -> bool {
    address ^ q <= behind(tag >> 16)
}

/// Whether a slot that keeps S1 holds the prefix.
fn holds(address: u32, tag: u32, prefix: u32, length: u32) -> bool {
    address == prefix && tag >> 16 == length && tag != 0
}

/// S1 to S4, asked of each slot in turn.
struct Order {
    free_before: bool,
    last_length: u32,
}

impl Order {
    fn new() -> Self {
        Order {
            free_before: false,
            last_length: 32,
        }
    }

    /// Whether the next slot keeps them, where those before it do.
    fn keeps(&mut self, address: u32, tag: u32) -> bool {
        let length = tag >> 16;
        if !keeps_s1(address, tag) {
            return false;
        }
        if tag == 0 {
            self.free_before = true;
            return self.last_length >= 16;
        }
        if length > self.last_length || (length >= 16 && self.free_before) {
            return false;
        }
        self.last_length = length;
        true
    }
}

/// Refusals 8 and 7; the number of used slots.
#[inline(never)]
pub fn check(addresses: &[u32], tags: &[u32]) -> Result<usize, Fault> {
    size_fault(addresses, tags)?;
    let (mut used, mut order) = (0, Order::new());
    for (slot, (&address, &tag)) in addresses.iter().zip(tags).enumerate() {
        if !order.keeps(address, tag) {
            return Err((7, slot));
        }
        if tag == 0 {
            continue;
        }
        let mut earlier = addresses[..slot].iter().zip(&tags[..slot]);
        if earlier.any(|(&a, &t)| holds(a, t, address, tag >> 16)) {
            return Err((7, slot));
        }
        used += 1;
    }
    Ok(used)
}

/// The hop of the first match, 0 for none; refusals 8 and 7 for S1.
#[inline(never)]
pub fn lookup(addresses: &[u32], tags: &[u32], q: u32) -> Result<u32, Fault> {
    size_fault(addresses, tags)?;
    let mut found = 0;
    for (slot, (&address, &tag)) in addresses.iter().zip(tags).enumerate() {
        if !keeps_s1(address, tag) {
            return Err((7, slot));
        }
        if found == 0 && tag != 0 && matches(address, tag, q) {
            found = tag & 0xffff;
        }
    }
    Ok(found)
}

/// A prefix as one number, in order of address, then length.
fn key(address: u32, length: u32) -> u64 {
    u64::from(address) << 6 | u64::from(length)
}

/// The first entry in order of address, then length, past a prefix, with its first slot's tag; refusals 8, 7 for S1, 1, 2.
#[inline(never)]
pub fn download(addresses: &[u32], tags: &[u32], last: Option<(u32, u32)>) -> Result<Option<(u32, u32)>, Fault> {
    size_fault(addresses, tags)?;
    let least = last.map_or(0, |(address, length)| key(address, length) + 1);
    // how far ahead the nearest entry is: a key below the least one wraps round, and is farther than any
    let (mut nearest, mut found) = (1 << 40, None);
    for (slot, (&address, &tag)) in addresses.iter().zip(tags).enumerate() {
        if !keeps_s1(address, tag) {
            return Err((7, slot));
        }
        let ahead = key(address, tag >> 16).wrapping_sub(least);
        if tag != 0 && ahead < nearest {
            (nearest, found) = (ahead, Some(slot));
        }
    }
    if let Some((address, length)) = last {
        entry_fault(0, address, length, 1)?;
    }
    Ok(found.map(|slot| (addresses[slot], tags[slot])))
}

/// The first and the last slot of each length, and of the free slots.
struct Edges {
    first: [usize; 34],
    last: [usize; 34],
}

impl Edges {
    /// The edges in an image that keeps S1 to S4.
    fn of(tags: &[u32]) -> Self {
        let (mut first, mut last) = ([NONE; 34], [NONE; 34]);
        for (slot, &tag) in tags.iter().enumerate() {
            let row = if tag == 0 { FREE } else { (tag >> 16) as usize };
            if first[row] == NONE {
                first[row] = slot;
            }
            last[row] = slot;
        }
        Edges { first, last }
    }
}

/// The slot of a prefix in a well-formed image.
fn find(addresses: &[u32], tags: &[u32], address: u32, length: u32) -> Option<usize> {
    let mut cells = addresses.iter().zip(tags);
    cells.position(|(&a, &t)| holds(a, t, address, length))
}

/// The slots of a plan in order: each is written with what the next one held, the last with the new cell.
struct Path {
    slots: [usize; 18],
    writes: usize,
}

impl Path {
    fn from(slot: usize) -> Self {
        let mut slots = [0; 18];
        slots[0] = slot;
        Path { slots, writes: 1 }
    }

    fn push(&mut self, slot: usize) {
        if slot != NONE {
            self.slots[self.writes] = slot;
            self.writes += 1;
        }
    }

    /// Refusal 9; writes the plan, and answers the number of writes.
    fn write(&self, addresses: &[u32], tags: &[u32], last: (u32, u32), plan: &mut [u32]) -> Result<usize, Fault> {
        let path = &self.slots[..self.writes];
        if plan.len() < 3 * path.len() {
            return Err((9, 0));
        }
        for (i, (write, &slot)) in plan.chunks_exact_mut(3).zip(path).enumerate() {
            let (address, tag) = match path.get(i + 1) {
                Some(&next) => (addresses[next], tags[next]),
                None => last,
            };
            write.copy_from_slice(&[slot as u32, address, tag]);
        }
        Ok(path.len())
    }
}

/// The writes of a set; refusals 8, 7, 1, 2, 3, 5, 9.
#[inline(never)]
pub fn plan_set(
    addresses: &[u32],
    tags: &[u32],
    address: u32,
    length: u32,
    hop: u32,
    plan: &mut [u32],
) -> Result<usize, Fault> {
    check(addresses, tags)?;
    entry_fault(0, address, length, hop)?;
    let cell = (address, length << 16 | hop);
    if let Some(slot) = find(addresses, tags, address, length) {
        if tags[slot] == cell.1 {
            return Ok(0);
        }
        return Path::from(slot).write(addresses, tags, cell, plan);
    }
    let edges = Edges::of(tags);
    if edges.first[FREE] == NONE {
        return Err((5, 0));
    }
    let n = length as usize;
    let path = if n >= SPLIT {
        let mut path = Path::from(edges.first[FREE]);
        edges.first[SPLIT..n].iter().for_each(|&slot| path.push(slot));
        path
    } else {
        let mut path = Path::from(edges.last[FREE]);
        edges.last[n + 1..SPLIT].iter().rev().for_each(|&slot| path.push(slot));
        path
    };
    path.write(addresses, tags, cell, plan)
}

/// The writes of a removal; refusals 8, 7, 1, 2, 6, 9.
#[inline(never)]
pub fn plan_remove(
    addresses: &[u32],
    tags: &[u32],
    address: u32,
    length: u32,
    plan: &mut [u32],
) -> Result<usize, Fault> {
    check(addresses, tags)?;
    entry_fault(0, address, length, 1)?;
    let slot = find(addresses, tags, address, length).ok_or((6, 0))?;
    removal(tags, slot).write(addresses, tags, (0, 0), plan)
}

/// The path of the removal of what a slot holds.
fn removal(tags: &[u32], slot: usize) -> Path {
    let edges = Edges::of(tags);
    let n = (tags[slot] >> 16) as usize;
    let mut path = Path::from(slot);
    let edge = if n >= SPLIT { edges.last[n] } else { edges.first[n] };
    if edge != slot {
        path.push(edge);
    }
    if n >= SPLIT {
        edges.last[SPLIT..n].iter().rev().for_each(|&slot| path.push(slot));
    } else {
        edges.first[n + 1..SPLIT].iter().for_each(|&slot| path.push(slot));
    }
    path
}

/// The writes of a mend; refusals 8, 7, 9.
#[inline(never)]
pub fn plan_mend(addresses: &[u32], tags: &[u32], plan: &mut [u32]) -> Result<usize, Fault> {
    size_fault(addresses, tags)?;
    let mut order = Order::new();
    let mut cells = addresses.iter().zip(tags);
    if let Some(slot) = cells.position(|(&address, &tag)| !order.keeps(address, tag)) {
        return Err((7, slot));
    }
    match later_copy(addresses, tags)? {
        Some(slot) => removal(tags, slot).write(addresses, tags, (0, 0), plan),
        None => Ok(0),
    }
}

/// The slot that repeats a prefix, in an image that keeps S1 to S4; refusal 7 for another tag and for a second such slot.
fn later_copy(addresses: &[u32], tags: &[u32]) -> Result<Option<usize>, Fault> {
    // the entries of one length stand next to each other, those of this length from `run` on
    let (mut run, mut copy) = (0, None);
    for (slot, (&address, &tag)) in addresses.iter().zip(tags).enumerate() {
        if tag == 0 {
            run = slot + 1;
            continue;
        }
        if tag >> 16 != tags[run] >> 16 {
            run = slot;
        }
        if !addresses[run..slot].contains(&address) {
            continue;
        }
        let mut earlier = addresses[run..slot].iter().zip(&tags[run..slot]);
        if copy.is_some() || earlier.any(|(&a, &t)| a == address && t != tag) {
            return Err((7, slot));
        }
        copy = Some(slot);
    }
    Ok(copy)
}

/// Makes the first k writes; refusals 8, 10.
#[inline(never)]
pub fn apply(addresses: &mut [u32], tags: &mut [u32], plan: &[u32], k: usize) -> Result<usize, Fault> {
    size_fault(addresses, tags)?;
    let whole = plan.len() / 3;
    if k > whole {
        return Err((10, whole));
    }
    let writes = &plan[..3 * k];
    for (i, write) in writes.chunks_exact(3).enumerate() {
        if write[0] as usize >= tags.len() || !keeps_s1(write[1], write[2]) {
            return Err((10, i));
        }
    }
    for write in writes.chunks_exact(3) {
        let slot = write[0] as usize;
        addresses[slot] = write[1];
        tags[slot] = write[2];
    }
    Ok(k)
}
