//! All operations that are measured, in the order of the tables.

mod dxr;
mod list;
mod prefixes;
mod ranges;
mod records;
mod report;
mod slots;

use crate::measure::Measure;
use hawkmortar::NextHop;
use second::random::{Random, Rows};

pub fn all(measure: &mut dyn Measure) {
    measure.table("The proved code beside plain Rust", "proved", "plain Rust");
    list::all(measure);
    slots::all(measure);
    ranges::all(measure);
    dxr::all(measure);
    records::all(measure);
    report::all(measure);
    measure.table("The proved code beside other proved code", "proved", "beside");
    ranges::build_beside_check(measure);
    prefixes::all(measure);
}

/// Entries of which none lies inside another.
fn list_of(entries: u32) -> Rows {
    Rows {
        addresses: (0..entries).map(|i| i << 16).collect(),
        lengths: (0..entries).map(|i| 16 + i % 17).collect(),
        hops: (0..entries).map(|i| 1 + i % 300).collect(),
    }
}

/// The first prefixes of a length that have one word of the library's largest filter, at most so many. Once the word's bits are set, it
/// says of each that it may have been noted.
fn in_one_word(length: u32, most: usize) -> Vec<u32> {
    let is_there = |address: &u64| (address * 2_654_435_769 + u64::from(length) * 1_540_483_477) >> 20 & 4095 == 7;
    let addresses = (0..1 << length).map(|prefix: u64| prefix << (32 - length));
    let there = addresses.filter(is_there).take(most);
    there.map(|address| address as u32).collect()
}

/// Routes as a router has them, with next hops up to the largest.
fn routes(entries: usize) -> Rows {
    Rows::routed(&mut Random::new(1), entries, 65_535)
}

/// A hop as plain Rust has it.
fn number(hop: Option<NextHop>) -> u32 {
    hop.map_or(0, |hop| hop.get().into())
}
