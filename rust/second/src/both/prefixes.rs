//! The list calls over one slice of entries, asked of the library, for the answers that both programs give to its rows.

use super::calls::{counted, Call};
use super::{fault, list, numbers};
use crate::random::{Random, Rows};
use crate::Fault;
use hawkmortar::prefixes::{self as proved, Entry};

/// The entries of a list whose rows have one length.
pub fn entries(rows: &Rows) -> Vec<Entry> {
    let count = rows.addresses.len();
    assert!(rows.lengths.len() == count && rows.hops.len() == count, "{rows:?}");
    let entry = |i| Entry {
        address: rows.addresses[i],
        length: rows.lengths[i],
        hop: rows.hops[i],
    };
    (0..count).map(entry).collect()
}

/// What the library answers to a test of the list.
pub fn library_check(list: &[Entry]) -> Result<usize, Fault> {
    counted(Call::PrefixesCheck, proved::check(list).map_err(fault))
}

/// What the library answers for the address `q`.
pub fn library_lookup(list: &[Entry], q: u32) -> Result<u32, Fault> {
    counted(Call::PrefixesLookup, numbers(proved::lookup(list, q)))
}

/// What both programs answer to a test of the list.
pub fn check(rows: &Rows) -> Result<usize, Fault> {
    let lent = entries(rows);
    let found = library_check(&lent);
    assert_eq!(found, list::check(rows), "{rows:?}");
    assert!(lent == entries(rows), "a test changed {rows:?}");
    found
}

/// What both programs answer for each of some addresses.
pub fn lookups(rows: &Rows, keys: &[u32]) -> Vec<Result<u32, Fault>> {
    let lent = entries(rows);
    let found: Vec<_> = keys.iter().map(|&q| library_lookup(&lent, q)).collect();
    for ((&q, found), expected) in keys.iter().zip(&found).zip(&list::lookups(rows, keys)) {
        assert_eq!(found, expected, "{q} in {rows:?}");
    }
    assert!(lent == entries(rows), "a lookup changed {rows:?}");
    found
}

/// What both programs answer for the address `q`.
pub fn lookup(rows: &Rows, q: u32) -> Result<u32, Fault> {
    lookups(rows, &[q])[0]
}

/// Damages a list as `Rows::damage` does, and keeps its rows of one length: where one has lost its last number that is 1, and where
/// one has a number more there is an entry more.
pub fn damage(rows: &mut Rows, random: &mut Random) {
    rows.damage(random);
    let count = rows.addresses.len().max(rows.lengths.len()).max(rows.hops.len());
    for row in [&mut rows.addresses, &mut rows.lengths, &mut rows.hops] {
        row.resize(count, 1);
    }
}
