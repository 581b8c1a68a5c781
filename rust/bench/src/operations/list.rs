//! A list in three rows.

use super::{in_one_word, list_of, number};
use crate::measure::{Measure, Operation};
use bench::plain;
use second::random::Rows;
use std::hint::black_box;

pub fn all(measure: &mut dyn Measure) {
    for (entries, calls) in [(1, 50_000), (8, 20_000), (16, 20_000), (256, 200), (4096, 1)] {
        let asked = match entries {
            16 => Some(1.10),
            256 => Some(0.07),
            4096 => Some(0.01),
            _ => None,
        };
        let unit = if entries == 1 { "entry" } else { "entries" };
        let operation = Operation::new("list check", format!("{entries} {unit}"), calls);
        check(measure, Operation { asked, ..operation }, &list_of(entries));
        if entries >= 16 {
            lookup(measure, entries, calls);
        }
    }
    let operation = Operation::new("  in one word of the filter", "4096 entries", 1).asked(1.10);
    check(measure, operation, &list_in_one_word(4096));
}

/// Entries that have one word of the library's filter, so that each is compared with all earlier ones.
fn list_in_one_word(entries: usize) -> Rows {
    Rows {
        addresses: in_one_word(32, entries),
        lengths: vec![32; entries],
        hops: vec![1; entries],
    }
}

/// Plain Rust compares each entry with the earlier ones one by one.
fn check(measure: &mut dyn Measure, operation: Operation, rows: &Rows) {
    let Rows {
        addresses,
        lengths,
        hops,
    } = rows;
    assert_eq!(
        hawkmortar::list::check(addresses, lengths, hops),
        plain::check(addresses, lengths, hops).map_err(|_| unreachable!("the list is good")),
    );
    measure.compare(
        operation,
        [
            &mut || {
                let rows = (black_box(addresses), black_box(lengths), black_box(hops));
                let _ = black_box(hawkmortar::list::check(rows.0, rows.1, rows.2));
            },
            &mut || {
                let rows = (black_box(addresses), black_box(lengths), black_box(hops));
                let _ = black_box(plain::check(rows.0, rows.1, rows.2));
            },
        ],
    );
}

fn lookup(measure: &mut dyn Measure, entries: u32, calls: u32) {
    let Rows {
        addresses,
        lengths,
        hops,
    } = list_of(entries);
    let q = (entries / 2) << 16;
    assert_eq!(
        hawkmortar::list::lookup(&addresses, &lengths, &hops, q).map(number),
        plain::lookup(&addresses, &lengths, &hops, q).map_err(|_| unreachable!("the list is good")),
    );
    measure.compare(
        Operation::new("list lookup", format!("{entries} entries"), calls).asked(1.10),
        [
            &mut || {
                let rows = (black_box(&addresses), black_box(&lengths), black_box(&hops));
                let _ = black_box(hawkmortar::list::lookup(rows.0, rows.1, rows.2, black_box(q)));
            },
            &mut || {
                let rows = (black_box(&addresses), black_box(&lengths), black_box(&hops));
                let _ = black_box(plain::lookup(rows.0, rows.1, rows.2, black_box(q)));
            },
        ],
    );
}
