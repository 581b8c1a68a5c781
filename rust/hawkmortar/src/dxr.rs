//! DXR tables with a 16-bit split: a main table of words, one for each chunk of 65,536 addresses, and a row of range words.
//!
//! A chunk's entries are the merged ranges inside it, each with a start, counted from the chunk's first address, and a next hop,
//! 0 for none. The first entry starts at 0. Where there is one entry, the main word is its hop. Otherwise the entries stand in the
//! range words, and the main word is kind x 2^30 + count x 65,536 + position, with the number of entries and the index of their
//! first range word.
//!
//! Kind 1 is long: a range word for each entry, start x 65,536 + hop. Kind 2 is short, and is used exactly where every start is a
//! multiple of 256 and every hop is at most 255: 16 bits for each entry, (start / 256) x 256 + hop, two to a word, the earlier in
//! the upper half, an odd last half 0. Chunks are stored in rising order with no gap, so a set of prefixes has exactly one DXR
//! table.
//!
//! A refused call changes nothing.

use crate::{ffi, NextHop, Refusal};

/// Builds the DXR table of a list: the number of range words, which stand at the front of `words`. The numbers behind them stay as
/// they were. All of `main` is written. [`MAX_RANGE_WORDS`](crate::MAX_RANGE_WORDS) are enough for any list.
///
/// Refusals, in this order: [`Refusal::Size`] where `main` has not [`MAIN_WORDS`](crate::MAIN_WORDS) words; as of
/// [`list::check`](crate::list::check); [`Refusal::Room`] where `words` is shorter than the number of range words.
pub fn build(
    addresses: &[u32],
    lengths: &[u32],
    hops: &[u32],
    main: &mut [u32],
    words: &mut [u32],
) -> Result<usize, Refusal> {
    // SAFETY: each pointer is to as many elements as the length beside it says; the call writes only those of `main` and
    // `words`, and no two of the rows share any of these
    unsafe {
        ffi::hawkmortar_dxr_build(
            addresses.as_ptr(),
            addresses.len(),
            lengths.as_ptr(),
            lengths.len(),
            hops.as_ptr(),
            hops.len(),
            main.as_mut_ptr(),
            main.len(),
            words.as_mut_ptr(),
            words.len(),
        )
    }
    .count()
}

/// The next hop of the last entry of its chunk that starts at or below `q`, `None` where that has none.
///
/// Refusals, in this order: [`Refusal::Size`] where `main` has not [`MAIN_WORDS`](crate::MAIN_WORDS) words; [`Refusal::Image`]
/// with the chunk, `q` divided by 65,536, where it breaks a rule. A main word of kind 0 breaks one where it is over 65,535, and
/// one of kind 3 always; any other where its count is below 2, where its entries are not inside `words`, where the first of them
/// does not start at 0, or where another does not start above the one before. Other chunks are not tested, and neither is the
/// half of a word behind an odd number of short entries.
pub fn lookup(main: &[u32], words: &[u32], q: impl Into<u32>) -> Result<Option<NextHop>, Refusal> {
    // SAFETY: each pointer is to as many elements as the length beside it says, and the call only reads them
    unsafe { ffi::hawkmortar_dxr_lookup(main.as_ptr(), main.len(), words.as_ptr(), words.len(), q.into()) }.hop()
}
