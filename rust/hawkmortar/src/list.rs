//! The plain answer over a list: three rows, of addresses, lengths and hops, in any order.
//!
//! A call tests the whole list before it answers: [`Refusal::Size`] for rows of unequal length or more than
//! [`MAX_ROUTES`](crate::MAX_ROUTES) entries, then entry by entry [`Refusal::Length`], [`Refusal::Address`], [`Refusal::Hop`] and
//! [`Refusal::Twice`].

use crate::{ffi, NextHop, Refusal};

/// Tests a list: the number of its entries, or the first refusal.
pub fn check(addresses: &[u32], lengths: &[u32], hops: &[u32]) -> Result<usize, Refusal> {
    // SAFETY: each pointer is to as many elements as the length beside it says, and the call only reads them
    unsafe {
        ffi::hawkmortar_list_check(
            addresses.as_ptr(),
            addresses.len(),
            lengths.as_ptr(),
            lengths.len(),
            hops.as_ptr(),
            hops.len(),
        )
    }
    .count()
}

/// The next hop of the longest prefix that matches `q`, `None` where none matches, or the list's first refusal.
pub fn lookup(addresses: &[u32], lengths: &[u32], hops: &[u32], q: impl Into<u32>) -> Result<Option<NextHop>, Refusal> {
    // SAFETY: as of `check`
    unsafe {
        ffi::hawkmortar_list_lookup(
            addresses.as_ptr(),
            addresses.len(),
            lengths.as_ptr(),
            lengths.len(),
            hops.as_ptr(),
            hops.len(),
            q.into(),
        )
    }
    .hop()
}
