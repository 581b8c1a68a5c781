//! Merged ranges: the build from a list, and lookup.
//!
//! The list's answer can change only where a prefix starts or just behind its end. A build asks the list at each of these
//! addresses and keeps those whose answer is another than that before. A lookup tests each rule over the whole table: each names
//! the first range that breaks it, and the least of these is the table's fault.

use crate::list::{self, bounds};
use crate::random::Rows;
use crate::Fault;
use std::collections::BTreeSet;

/// The two rows of a range table.
#[derive(Clone, PartialEq, Eq, Debug)]
pub struct Ranges {
    /// The first address of each range.
    pub starts: Vec<u32>,
    /// The next hop of each range, 0 for none.
    pub hops: Vec<u32>,
}

/// The addresses at which the answer of an accepted list can change, in rising order, with address 0.
pub fn boundaries(list: &Rows) -> Vec<u32> {
    let mut found = BTreeSet::from([0]);
    for (&address, &length) in list.addresses.iter().zip(&list.lengths) {
        let (first, last) = bounds(address, length);
        found.insert(first);
        // behind the last address of all there is none
        found.extend(last.checked_add(1));
    }
    found.into_iter().collect()
}

/// The ranges of a list, for outputs of so many starts and so many hops, or the first refusal.
pub fn build(list: &Rows, starts_room: usize, hops_room: usize) -> Result<Ranges, Fault> {
    let rows = (&list.addresses, &list.lengths, &list.hops);
    list::check(rows.0, rows.1, rows.2)?;
    let answers = boundaries(list)
        .into_iter()
        .map(|q| (q, list::answer(rows.0, rows.1, rows.2, q)));
    let mut ranges: Vec<(u32, u32)> = answers.collect();
    ranges.dedup_by_key(|&mut (_, hop)| hop);
    if starts_room < ranges.len() || hops_room < ranges.len() {
        return Err((9, 0));
    }
    let (starts, hops) = ranges.into_iter().unzip();
    Ok(Ranges { starts, hops })
}

/// The first range starts at 0; where there is none, that is missing.
fn starts_at_0(ranges: &Ranges) -> Option<usize> {
    (ranges.starts.first() != Some(&0)).then_some(0)
}

/// Starts rise.
fn starts_rise(ranges: &Ranges) -> Option<usize> {
    (1..ranges.starts.len()).find(|&i| ranges.starts[i] <= ranges.starts[i - 1])
}

/// Neighbouring hops are different.
fn hops_differ(ranges: &Ranges) -> Option<usize> {
    (1..ranges.hops.len()).find(|&i| ranges.hops[i] == ranges.hops[i - 1])
}

/// No hop is over 65,535.
fn hops_in_limits(ranges: &Ranges) -> Option<usize> {
    ranges.hops.iter().position(|&hop| hop > 65_535)
}

/// The hop of the range that `q` lies in, in a table that keeps the rules: the last that starts at or below it.
fn answer(ranges: &Ranges, q: u32) -> u32 {
    let last = ranges.starts.iter().rposition(|&start| start <= q);
    last.map_or(0, |i| ranges.hops[i])
}

/// The hop for each of some addresses, or the first refusal.
pub fn lookups(ranges: &Ranges, keys: &[u32]) -> Result<Vec<u32>, Fault> {
    if ranges.starts.len() != ranges.hops.len() || ranges.starts.len() > 8193 {
        return Err((8, 0));
    }
    let rules = [starts_at_0, starts_rise, hops_differ, hops_in_limits];
    if let Some(range) = rules.iter().filter_map(|rule| rule(ranges)).min() {
        return Err((7, range));
    }
    Ok(keys.iter().map(|&q| answer(ranges, q)).collect())
}
