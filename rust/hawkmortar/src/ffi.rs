//! The C interface, as include/hawkmortar.h declares it, and its outcomes as results.

use crate::prefixes::Entry;
use crate::{NextHop, Refusal};

/// Refusal 0 and the value, or the refusal's number and its place.
#[repr(C)]
pub struct Outcome {
    refusal: u64,
    value: u64,
}

// inlined, since a lookup in a chunk takes little longer than a call
impl Outcome {
    /// The value, or the refusal.
    #[inline]
    pub fn count(self) -> Result<usize, Refusal> {
        let value = usize::try_from(self.value).expect("places and counts fit the machine's word");
        match self.refusal {
            0 => Ok(value),
            number => Err(refused(number, value)),
        }
    }

    /// True for the value 1, false for 0, or the refusal.
    #[inline]
    pub fn flag(self) -> Result<bool, Refusal> {
        self.count().map(|value| match value {
            0 => false,
            1 => true,
            _ => unreachable!("the value is 0 or 1"),
        })
    }

    /// The next hop, where 0 is none, or the refusal.
    #[inline]
    pub fn hop(self) -> Result<Option<NextHop>, Refusal> {
        self.count()
            .map(|hop| NextHop::new(u16::try_from(hop).expect("a hop is at most 65,535")))
    }
}

/// The refusal of a number and a place. It is no part of the code that an accepted call runs through.
#[cold]
fn refused(number: u64, place: usize) -> Refusal {
    Refusal::from_parts(number, place).expect("a refusal of the table")
}

extern "C" {
    pub fn hawkmortar_list_check(
        addresses: *const u32,
        addresses_len: usize,
        lengths: *const u32,
        lengths_len: usize,
        hops: *const u32,
        hops_len: usize,
    ) -> Outcome;

    pub fn hawkmortar_list_lookup(
        addresses: *const u32,
        addresses_len: usize,
        lengths: *const u32,
        lengths_len: usize,
        hops: *const u32,
        hops_len: usize,
        q: u32,
    ) -> Outcome;

    pub fn hawkmortar_prefixes_check(list: *const Entry, list_len: usize) -> Outcome;

    pub fn hawkmortar_prefixes_lookup(list: *const Entry, list_len: usize, q: u32) -> Outcome;

    pub fn hawkmortar_slot_check(
        addresses: *const u32,
        addresses_len: usize,
        tags: *const u32,
        tags_len: usize,
    ) -> Outcome;

    pub fn hawkmortar_slot_lookup(
        addresses: *const u32,
        addresses_len: usize,
        tags: *const u32,
        tags_len: usize,
        q: u32,
    ) -> Outcome;

    pub fn hawkmortar_plan_set(
        addresses: *const u32,
        addresses_len: usize,
        tags: *const u32,
        tags_len: usize,
        address: u32,
        length: u32,
        hop: u32,
        plan: *mut u32,
        plan_len: usize,
    ) -> Outcome;

    pub fn hawkmortar_plan_remove(
        addresses: *const u32,
        addresses_len: usize,
        tags: *const u32,
        tags_len: usize,
        address: u32,
        length: u32,
        plan: *mut u32,
        plan_len: usize,
    ) -> Outcome;

    pub fn hawkmortar_plan_mend(
        addresses: *const u32,
        addresses_len: usize,
        tags: *const u32,
        tags_len: usize,
        plan: *mut u32,
        plan_len: usize,
    ) -> Outcome;

    pub fn hawkmortar_apply(
        addresses: *mut u32,
        addresses_len: usize,
        tags: *mut u32,
        tags_len: usize,
        plan: *const u32,
        plan_len: usize,
        k: usize,
    ) -> Outcome;

    pub fn hawkmortar_download_first(
        addresses: *const u32,
        addresses_len: usize,
        tags: *const u32,
        tags_len: usize,
        entry: *mut u32,
    ) -> Outcome;

    pub fn hawkmortar_download_next(
        addresses: *const u32,
        addresses_len: usize,
        tags: *const u32,
        tags_len: usize,
        address: u32,
        length: u32,
        entry: *mut u32,
    ) -> Outcome;

    pub fn hawkmortar_ranges_build(
        addresses: *const u32,
        addresses_len: usize,
        lengths: *const u32,
        lengths_len: usize,
        hops: *const u32,
        hops_len: usize,
        starts: *mut u32,
        starts_len: usize,
        range_hops: *mut u32,
        range_hops_len: usize,
    ) -> Outcome;

    pub fn hawkmortar_range_lookup(
        starts: *const u32,
        starts_len: usize,
        range_hops: *const u32,
        range_hops_len: usize,
        q: u32,
    ) -> Outcome;

    pub fn hawkmortar_dxr_build(
        addresses: *const u32,
        addresses_len: usize,
        lengths: *const u32,
        lengths_len: usize,
        hops: *const u32,
        hops_len: usize,
        main: *mut u32,
        main_len: usize,
        words: *mut u32,
        words_len: usize,
    ) -> Outcome;

    pub fn hawkmortar_dxr_lookup(
        main: *const u32,
        main_len: usize,
        words: *const u32,
        words_len: usize,
        q: u32,
    ) -> Outcome;

    pub fn hawkmortar_record_at(bytes: *const u8, bytes_len: usize, at: usize, record: *mut u32) -> Outcome;
}
