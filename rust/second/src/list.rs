//! The plain answer over a list.

use crate::Fault;
use std::collections::HashSet;

/// 2^(32-n), for a length n up to 32.
fn span(length: u32) -> u64 {
    1 << (32 - length)
}

/// Whether a valid prefix matches `q`: its address and `q` have equal quotients by 2^(32-n).
pub fn matches(address: u32, length: u32, q: u32) -> bool {
    u64::from(q) / span(length) == u64::from(address) / span(length)
}

/// The first and the last address that a valid prefix matches.
pub fn bounds(address: u32, length: u32) -> (u32, u32) {
    (address, (u64::from(address) + span(length) - 1) as u32)
}

/// Refusals 1, 2, 3 of one prefix and its hop.
pub fn entry_fault(place: usize, address: u32, length: u32, hop: u32) -> Option<Fault> {
    if length > 32 {
        return Some((1, place));
    }
    if !u64::from(address).is_multiple_of(span(length)) {
        return Some((2, place));
    }
    if !(1..=65_535).contains(&hop) {
        return Some((3, place));
    }
    None
}

/// The number of entries, or the first refusal.
pub fn check(addresses: &[u32], lengths: &[u32], hops: &[u32]) -> Result<usize, Fault> {
    let entries = addresses.len();
    if lengths.len() != entries || hops.len() != entries || entries > 4096 {
        return Err((8, 0));
    }
    let mut seen = HashSet::with_capacity(entries);
    for (place, ((&address, &length), &hop)) in addresses.iter().zip(lengths).zip(hops).enumerate() {
        if let Some(fault) = entry_fault(place, address, length, hop) {
            return Err(fault);
        }
        if !seen.insert((address, length)) {
            return Err((4, place));
        }
    }
    Ok(entries)
}

/// The hop of the longest prefix that matches `q`, 0 where none does, in a list that was accepted.
pub fn answer(addresses: &[u32], lengths: &[u32], hops: &[u32], q: u32) -> u32 {
    let mut best = None;
    for ((&address, &length), &hop) in addresses.iter().zip(lengths).zip(hops) {
        if matches(address, length, q) && best.is_none_or(|(longest, _)| length > longest) {
            best = Some((length, hop));
        }
    }
    best.map_or(0, |(_, hop)| hop)
}

/// The answer for each of some addresses, or the list's first refusal.
pub fn lookups(addresses: &[u32], lengths: &[u32], hops: &[u32], keys: &[u32]) -> Result<Vec<u32>, Fault> {
    check(addresses, lengths, hops)?;
    Ok(keys.iter().map(|&q| answer(addresses, lengths, hops, q)).collect())
}
