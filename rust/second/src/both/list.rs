//! The list calls, asked of both programs, and lists to ask for.

use super::calls::{counted, Call};
use super::{alike, fault, numbers};
use crate::list as plain;
use crate::random::Rows;
use crate::{ip, Fault};
use hawkmortar::{list as proved, NextHop, Prefix};

/// What both programs answer to a test of the list.
pub fn check(rows: &Rows) -> Result<usize, Fault> {
    let lent = rows.clone();
    let found = proved::check(&lent.addresses, &lent.lengths, &lent.hops);
    let found = counted(Call::ListCheck, found.map_err(fault));
    assert_eq!(
        found,
        plain::check(&rows.addresses, &rows.lengths, &rows.hops),
        "{rows:?}"
    );
    assert!(lent == *rows, "a test changed {rows:?}");
    found
}

/// What the library answers for the address `q`.
fn library_lookup(rows: &Rows, q: u32) -> Result<u32, Fault> {
    let found = proved::lookup(&rows.addresses, &rows.lengths, &rows.hops, q);
    counted(Call::ListLookup, numbers(found))
}

/// What both programs answer for each of some addresses.
pub fn lookups(rows: &Rows, keys: &[u32]) -> Vec<Result<u32, Fault>> {
    let lent = rows.clone();
    let found: Vec<_> = keys.iter().map(|&q| library_lookup(&lent, q)).collect();
    let expected = plain::lookups(&rows.addresses, &rows.lengths, &rows.hops, keys);
    alike(keys, &found, expected, rows);
    assert!(lent == *rows, "a lookup changed {rows:?}");
    found
}

/// What both programs answer for the address `q`.
pub fn lookup(rows: &Rows, q: u32) -> Result<u32, Fault> {
    lookups(rows, &[q])[0]
}

/// A list of entries given as address, length and hop.
pub fn list_of(entries: &[(u32, u32, u32)]) -> Rows {
    let mut rows = Rows::default();
    entries
        .iter()
        .for_each(|&(address, length, hop)| rows.push(address, length, hop));
    rows
}

/// A list of one entry.
pub fn one(address: u32, length: u32, hop: u32) -> Rows {
    list_of(&[(address, length, hop)])
}

/// The board's set P.
pub fn set_p() -> Rows {
    list_of(&[
        (ip([10, 0, 0, 0]), 8, 1),
        (ip([10, 20, 0, 0]), 16, 2),
        (ip([10, 20, 4, 0]), 24, 3),
        (ip([10, 20, 4, 9]), 32, 2),
        (0, 0, 7),
    ])
}

/// So many prefixes of which no two touch and none has the first or the last address.
pub fn apart(entries: usize) -> Rows {
    let entries: Vec<_> = (0..entries as u32).map(|i| (4 * i + 2, 32, 1 + i)).collect();
    list_of(&entries)
}

/// A prefix that an address lies in.
pub fn prefix_at(q: u32, length: u32) -> u32 {
    (u64::from(q) >> (32 - length) << (32 - length)) as u32
}

/// The routes of a good list.
pub fn routes(list: &Rows) -> impl Iterator<Item = (Prefix, NextHop)> + '_ {
    let prefixes = list.addresses.iter().zip(&list.lengths);
    prefixes.zip(&list.hops).map(|((&address, &length), &hop)| {
        let prefix = Prefix::new(address, length).unwrap();
        (prefix, NextHop::new(hop as u16).unwrap())
    })
}

/// Each prefix's first and last address and those one beyond, from entry `first` on in steps.
pub fn edges(rows: &Rows, first: usize, step: usize) -> Vec<u32> {
    let mut keys = vec![0, u32::MAX];
    for (&address, &length) in rows.addresses.iter().zip(&rows.lengths).skip(first).step_by(step) {
        keys.extend(super::edges(address, length.min(32)));
    }
    keys
}

/// Copies of a good list with one fault each, and the refusal it is to get: each of 1, 2 and 3 at each place, and 4 at each place
/// for each earlier entry.
pub fn with_one_fault(good: &Rows) -> Vec<(Rows, Fault)> {
    let places = 0..good.addresses.len();
    places.flat_map(|place| with_fault_at(good, place, 0..place)).collect()
}

/// Copies of a good list with one fault each at a place: each of 1, 2 and 3, and 4 for some earlier entries.
pub fn with_fault_at(good: &Rows, place: usize, earlier: impl IntoIterator<Item = usize>) -> Vec<(Rows, Fault)> {
    let mut faulty = Vec::new();
    let mut change = |number, entry: (u32, u32, u32)| {
        let mut rows = good.clone();
        (rows.addresses[place], rows.lengths[place], rows.hops[place]) = entry;
        faulty.push((rows, (number, place)));
    };
    let entry = |i: usize| (good.addresses[i], good.lengths[i], good.hops[i]);
    let (address, length, hop) = entry(place);
    change(1, (address, 33, hop));
    change(2, (address | 1, 31, hop));
    change(3, (address, length, 0));
    change(3, (address, length, 65_536));
    for (address, length, hop) in earlier.into_iter().map(entry) {
        change(4, (address, length, hop));
        change(4, (address, length, 9));
    }
    faulty
}
