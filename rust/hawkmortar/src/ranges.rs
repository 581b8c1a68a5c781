//! Merged ranges: two rows, of starts and next hops, that give each address its hop.
//!
//! Hop 0 is none. The first range starts at 0, each range ends just before the next start, the last at 255.255.255.255, and
//! neighbouring ranges have different hops. So a set of prefixes has exactly one range table: with P prefixes at most 2P + 1
//! ranges, at most 2P - 1 where length 0 is among them, and one range of hop 0 where there are no prefixes.
//!
//! A refused call changes nothing.

use crate::{ffi, NextHop, Refusal};

/// Builds the range table of a list: the number of ranges, which stand at the front of `starts` and `range_hops`. The numbers
/// behind them stay as they were. The two rows may differ in length.
///
/// Refusals, in this order: as of [`list::check`](crate::list::check); [`Refusal::Room`] where `starts` or `range_hops` is
/// shorter than the number of ranges.
pub fn build(
    addresses: &[u32],
    lengths: &[u32],
    hops: &[u32],
    starts: &mut [u32],
    range_hops: &mut [u32],
) -> Result<usize, Refusal> {
    // SAFETY: each pointer is to as many elements as the length beside it says; the call writes only those of `starts` and
    // `range_hops`, and no two of the rows share any of these
    unsafe {
        ffi::hawkmortar_ranges_build(
            addresses.as_ptr(),
            addresses.len(),
            lengths.as_ptr(),
            lengths.len(),
            hops.as_ptr(),
            hops.len(),
            starts.as_mut_ptr(),
            starts.len(),
            range_hops.as_mut_ptr(),
            range_hops.len(),
        )
    }
    .count()
}

/// The next hop of the last range that starts at or below `q`, `None` where that has none.
///
/// Refusals, in this order: [`Refusal::Size`] for rows of unequal length or more than [`MAX_RANGES`](crate::MAX_RANGES) ranges;
/// [`Refusal::Image`] with the first range that breaks a rule, 0 where there are no ranges. Range 0 breaks one where its start
/// is not 0, a later range where its start is not above the start before or its hop is that of the range before, and any range
/// where its hop is over 65,535.
pub fn lookup(starts: &[u32], range_hops: &[u32], q: impl Into<u32>) -> Result<Option<NextHop>, Refusal> {
    // SAFETY: each pointer is to as many elements as the length beside it says, and the call only reads them
    unsafe {
        ffi::hawkmortar_range_lookup(
            starts.as_ptr(),
            starts.len(),
            range_hops.as_ptr(),
            range_hops.len(),
            q.into(),
        )
    }
    .hop()
}
