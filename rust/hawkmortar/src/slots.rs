//! Slots of an ordered memory (TCAM): two rows, of addresses and tags, and planned updates of them.
//!
//! A tag is length x 65,536 + hop; a free slot is 0 in both rows. A table has 1 to [`MAX_SLOTS`](crate::MAX_SLOTS) slots;
//! entries of length 16 or more fill it from slot 0, longest first, those of 15 or less from the last slot, shortest last, and
//! the free slots, the pool, lie between. docs/SPECIFICATION.md has this as the rules S1 to S5. A lookup answers from the first
//! slot that matches, on every image whose slots are each free or valid (S1).
//!
//! A plan is a row of writes, three numbers each: slot, address, tag. Each write changes one slot. After any number of a plan's
//! writes lookups answer as before the update or as after it: a set of an absent prefix shows at its last write, every other
//! plan at its first. An image with part of a plan applied keeps S1 to S4 but can hold one prefix twice; updates refuse it until
//! the rest is applied or the image is mended ([`plan_mend`]).
//!
//! Every call first refuses rows of unequal length, of no slots or of too many with [`Refusal::Size`]. A refused call changes
//! nothing.

use crate::{ffi, NextHop, Refusal};

/// Tests an image: the number of its used slots, or [`Refusal::Image`] with the first slot that breaks one of S1 to S5.
pub fn check(addresses: &[u32], tags: &[u32]) -> Result<usize, Refusal> {
    // SAFETY: each pointer is to as many elements as the length beside it says, and the call only reads them
    unsafe { ffi::hawkmortar_slot_check(addresses.as_ptr(), addresses.len(), tags.as_ptr(), tags.len()) }.count()
}

/// The next hop of the first slot that matches `q`, `None` where none matches, or [`Refusal::Image`] with the first slot that
/// breaks S1.
pub fn lookup(addresses: &[u32], tags: &[u32], q: impl Into<u32>) -> Result<Option<NextHop>, Refusal> {
    // SAFETY: as of `check`
    unsafe { ffi::hawkmortar_slot_lookup(addresses.as_ptr(), addresses.len(), tags.as_ptr(), tags.len(), q.into()) }
        .hop()
}

/// Plans to set a prefix's next hop: the number of writes, which stand at the front of `plan`. There are none where the prefix
/// has this hop already, one where it has another, and up to [`MAX_SET_WRITES`](crate::MAX_SET_WRITES) where it is absent.
///
/// Refusals, in this order: [`Refusal::Image`] as of [`check`]; [`Refusal::Length`], [`Refusal::Address`], [`Refusal::Hop`] at
/// place 0; [`Refusal::Full`]; [`Refusal::Room`] where `plan` is shorter than three times the writes.
pub fn plan_set(
    addresses: &[u32],
    tags: &[u32],
    address: impl Into<u32>,
    length: u32,
    hop: u32,
    plan: &mut [u32],
) -> Result<usize, Refusal> {
    // SAFETY: each pointer is to as many elements as the length beside it says; the call writes only those of `plan`, which no
    // other row shares
    unsafe {
        ffi::hawkmortar_plan_set(
            addresses.as_ptr(),
            addresses.len(),
            tags.as_ptr(),
            tags.len(),
            address.into(),
            length,
            hop,
            plan.as_mut_ptr(),
            plan.len(),
        )
    }
    .count()
}

/// Plans to remove a prefix: the number of writes, 1 to [`MAX_REMOVE_WRITES`](crate::MAX_REMOVE_WRITES), which stand at the
/// front of `plan`.
///
/// Refusals, in this order: [`Refusal::Image`] as of [`check`]; [`Refusal::Length`], [`Refusal::Address`] at place 0;
/// [`Refusal::Absent`]; [`Refusal::Room`] where `plan` is shorter than three times the writes.
pub fn plan_remove(
    addresses: &[u32],
    tags: &[u32],
    address: impl Into<u32>,
    length: u32,
    plan: &mut [u32],
) -> Result<usize, Refusal> {
    // SAFETY: as of `plan_set`
    unsafe {
        ffi::hawkmortar_plan_remove(
            addresses.as_ptr(),
            addresses.len(),
            tags.as_ptr(),
            tags.len(),
            address.into(),
            length,
            plan.as_mut_ptr(),
            plan.len(),
        )
    }
    .count()
}

/// Plans to mend an image that an update left half-written: the number of writes, which stand at the front of `plan`. Such an
/// image keeps S1 to S4 and has exactly one prefix in two slots, with equal tags; the plan is the removal of the later copy, of 1
/// to [`MAX_REMOVE_WRITES`](crate::MAX_REMOVE_WRITES) writes. There are none where the image is well-formed. After any number of
/// its writes lookups answer as they did before the first, and a mend that was cut short can itself be mended.
///
/// Refusals, in this order: [`Refusal::Image`] with the first slot of the whole image that breaks one of S1 to S4, or else the
/// first that repeats an earlier prefix with another tag or is the second slot to repeat any; [`Refusal::Room`] where `plan` is
/// shorter than three times the writes.
pub fn plan_mend(addresses: &[u32], tags: &[u32], plan: &mut [u32]) -> Result<usize, Refusal> {
    // SAFETY: as of `plan_set`
    unsafe {
        ffi::hawkmortar_plan_mend(
            addresses.as_ptr(),
            addresses.len(),
            tags.as_ptr(),
            tags.len(),
            plan.as_mut_ptr(),
            plan.len(),
        )
    }
    .count()
}

/// Makes the first `k` writes of a plan: `k`. The whole writes of `plan` are its length divided by 3, rounded down. The image
/// is not tested, so that a plan can be applied in parts.
///
/// [`Refusal::Plan`] has the plan's whole writes as its place where `k` is more, else the first of the `k` writes whose slot is
/// not in the table or whose address and tag break S1.
pub fn apply(addresses: &mut [u32], tags: &mut [u32], plan: &[u32], k: usize) -> Result<usize, Refusal> {
    // SAFETY: each pointer is to as many elements as the length beside it says; the call writes only those of `addresses` and
    // `tags`, and no two of the rows share any
    unsafe {
        ffi::hawkmortar_apply(
            addresses.as_mut_ptr(),
            addresses.len(),
            tags.as_mut_ptr(),
            tags.len(),
            plan.as_ptr(),
            plan.len(),
            k,
        )
    }
    .count()
}

/// The first entry of an image in order of address, then length: whether there is one. Its address, length and tag are put into
/// `entry`, which is left as it was where there is none and where the call is refused. Of a prefix in several slots the first
/// slot's tag is given. [`Download`](crate::Download) walks on from there.
///
/// [`Refusal::Image`] has the first slot that breaks S1, wherever it lies.
pub fn download_first(addresses: &[u32], tags: &[u32], entry: &mut [u32; 3]) -> Result<bool, Refusal> {
    // SAFETY: each pointer is to as many elements as the length beside it says, and `entry` is three; the call writes only those
    // of `entry`, which no row shares
    unsafe {
        ffi::hawkmortar_download_first(
            addresses.as_ptr(),
            addresses.len(),
            tags.as_ptr(),
            tags.len(),
            entry.as_mut_ptr(),
        )
    }
    .flag()
}

/// The next entry past a prefix, which need not be in the image; as of [`download_first`]. After [`Refusal::Image`] there are
/// [`Refusal::Length`] and [`Refusal::Address`] of the prefix, place 0.
pub fn download_next(
    addresses: &[u32],
    tags: &[u32],
    address: impl Into<u32>,
    length: u32,
    entry: &mut [u32; 3],
) -> Result<bool, Refusal> {
    // SAFETY: as of `download_first`
    unsafe {
        ffi::hawkmortar_download_next(
            addresses.as_ptr(),
            addresses.len(),
            tags.as_ptr(),
            tags.len(),
            address.into(),
            length,
            entry.as_mut_ptr(),
        )
    }
    .flag()
}
