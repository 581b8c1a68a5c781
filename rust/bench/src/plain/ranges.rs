//! Merged ranges: build and lookup.

use super::{check, span, Fault};

/// The number of addresses.
const ALL: u64 = 1 << 32;

/// A prefix as one number: address, length, hop. Sorted so, a prefix stands before those inside it.
fn key(address: u32, length: u32, hop: u32) -> u64 {
    u64::from(address) << 32 | u64::from(length) << 16 | u64::from(hop)
}

/// Ranges in the making, from address 0 upward.
struct Sweep {
    ranges: Vec<(u32, u32)>,
    /// The prefixes around the place that is reached, each by its end and hop; the outermost has all addresses and hop 0.
    open: Vec<(u64, u32)>,
    /// Up to here the ranges are known.
    reached: u64,
}

impl Sweep {
    fn new(entries: usize) -> Self {
        let mut open = Vec::with_capacity(34);
        open.push((ALL, 0));
        Sweep {
            ranges: Vec::with_capacity(2 * entries + 1),
            open,
            reached: 0,
        }
    }

    /// The addresses up to `to` have the hop.
    fn reach(&mut self, to: u64, hop: u32) {
        if self.reached == to {
            return;
        }
        if self.ranges.last().is_none_or(|&(_, before)| before != hop) {
            self.ranges.push((self.reached as u32, hop));
        }
        self.reached = to;
    }

    /// Closes the prefixes that end at or before the address.
    fn close(&mut self, address: u64) {
        while let Some(&(end, hop)) = self.open.last() {
            if end > address {
                self.reach(address, hop);
                return;
            }
            self.reach(end, hop);
            self.open.pop();
        }
    }

    fn open(&mut self, key: u64) {
        let (address, length, hop) = (key >> 32, (key >> 16) as u32 & 0xffff, key as u32 & 0xffff);
        self.close(address);
        self.open.push((address + span(length), hop));
    }
}

/// The ranges of a list, each by its start and hop; refusals as of the list's check.
pub fn merged(addresses: &[u32], lengths: &[u32], hops: &[u32]) -> Result<Vec<(u32, u32)>, Fault> {
    let n = check(addresses, lengths, hops)?;
    let mut keys = Vec::with_capacity(n);
    keys.extend((0..n).map(|i| key(addresses[i], lengths[i], hops[i])));
    keys.sort_unstable();
    let mut sweep = Sweep::new(n);
    keys.iter().for_each(|&key| sweep.open(key));
    sweep.close(ALL);
    Ok(sweep.ranges)
}

/// The ranges of a list in two rows; refusals as of the list's check, then 9.
#[inline(never)]
pub fn build(
    addresses: &[u32],
    lengths: &[u32],
    hops: &[u32],
    starts: &mut [u32],
    range_hops: &mut [u32],
) -> Result<usize, Fault> {
    let ranges = merged(addresses, lengths, hops)?;
    if starts.len() < ranges.len() || range_hops.len() < ranges.len() {
        return Err((9, 0));
    }
    for ((start, hop), range) in starts.iter_mut().zip(range_hops).zip(&ranges) {
        (*start, *hop) = *range;
    }
    Ok(ranges.len())
}

/// The hop of the last range that starts at or below q; refusals 8, 7.
#[inline(never)]
pub fn lookup(starts: &[u32], range_hops: &[u32], q: u32) -> Result<u32, Fault> {
    if starts.len() != range_hops.len() || starts.len() > 8193 {
        return Err((8, 0));
    }
    if starts.first() != Some(&0) || range_hops[0] > 65_535 {
        return Err((7, 0));
    }
    let mut found = range_hops[0];
    for (i, (start, hop)) in starts.windows(2).zip(range_hops.windows(2)).enumerate() {
        if start[1] <= start[0] || hop[1] == hop[0] || hop[1] > 65_535 {
            return Err((7, i + 1));
        }
        if start[1] <= q {
            found = hop[1];
        }
    }
    Ok(found)
}
