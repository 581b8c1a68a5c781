//! A list that is one slice of structs: its calls beside the calls over the list's rows, to which one copy of the structs is added.

use super::list_of;
use crate::measure::{Measure, Operation};
use hawkmortar::prefixes::Entry;
use std::hint::black_box;

/// The highest ratio that is asked for.
const ASKED: f64 = 1.25;

pub fn all(measure: &mut dyn Measure) {
    for (entries, calls) in [
        (16, 20_000),
        (64, 2000),
        (65, 2000),
        (256, 200),
        (257, 200),
        (1024, 20),
        (1025, 20),
        (4096, 1),
    ] {
        check_and_lookup(measure, entries, calls);
    }
}

fn check_and_lookup(measure: &mut dyn Measure, entries: u32, calls: u32) {
    let rows = list_of(entries);
    let (addresses, lengths, hops) = (&rows.addresses[..], &rows.lengths[..], &rows.hops[..]);
    let prefixes = addresses.iter().zip(lengths);
    let list: Vec<Entry> = prefixes
        .zip(hops)
        .map(|((&address, &length), &hop)| Entry { address, length, hop })
        .collect();
    let q = (entries / 2) << 16;
    assert_eq!(hawkmortar::prefixes::check(&list), Ok(entries as usize));
    assert_eq!(
        hawkmortar::prefixes::lookup(&list, q),
        hawkmortar::list::lookup(addresses, lengths, hops, q)
    );
    let mut copy = list.clone();
    let mut copied = || black_box(&mut copy).copy_from_slice(black_box(&list));
    let operation = |name| Operation::new(name, format!("{entries} entries"), calls).asked(ASKED);
    measure.compare(
        operation("prefixes check, beside list check + copy"),
        [
            &mut || {
                let _ = black_box(hawkmortar::prefixes::check(black_box(&list)));
            },
            &mut || {
                copied();
                let rows = (black_box(addresses), black_box(lengths), black_box(hops));
                let _ = black_box(hawkmortar::list::check(rows.0, rows.1, rows.2));
            },
        ],
    );
    measure.compare(
        operation("prefixes lookup, beside list lookup + copy"),
        [
            &mut || {
                let _ = black_box(hawkmortar::prefixes::lookup(black_box(&list), black_box(q)));
            },
            &mut || {
                copied();
                let rows = (black_box(addresses), black_box(lengths), black_box(hops));
                let _ = black_box(hawkmortar::list::lookup(rows.0, rows.1, rows.2, black_box(q)));
            },
        ],
    );
}
