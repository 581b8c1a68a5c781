//! Merged ranges: build and lookup.

use super::{number, routes};
use crate::measure::{Measure, Operation};
use bench::plain;
use second::random::Rows;
use std::hint::black_box;

pub fn all(measure: &mut dyn Measure) {
    for (entries, calls, asked) in [(16, 2000, 1.25), (256, 100, 1.25), (4096, 1, 0.6)] {
        build(measure, entries, calls, asked);
    }
    for (entries, calls, asked) in [(16, 20_000, 1.15), (256, 2000, 1.15), (4096, 200, 0.6)] {
        lookup(measure, entries, calls, asked);
    }
}

/// Two rows with room for the ranges of any list of so many entries.
fn room(entries: usize) -> (Vec<u32>, Vec<u32>) {
    (vec![0; 2 * entries + 1], vec![0; 2 * entries + 1])
}

fn proved_build(list: &Rows, rows: &mut (Vec<u32>, Vec<u32>)) -> Result<usize, hawkmortar::Refusal> {
    hawkmortar::ranges::build(&list.addresses, &list.lengths, &list.hops, &mut rows.0, &mut rows.1)
}

fn plain_build(list: &Rows, rows: &mut (Vec<u32>, Vec<u32>)) -> Result<usize, plain::Fault> {
    plain::ranges::build(&list.addresses, &list.lengths, &list.hops, &mut rows.0, &mut rows.1)
}

/// The test of the list is a part of it.
fn build(measure: &mut dyn Measure, entries: usize, calls: u32, asked: f64) {
    let list = routes(entries);
    let (mut proved, mut plain) = (room(entries), room(entries));
    assert_eq!(
        proved_build(&list, &mut proved).ok(),
        plain_build(&list, &mut plain).ok()
    );
    assert_eq!(proved, plain);
    measure.compare(
        Operation::new("range build", format!("{entries} entries"), calls).asked(asked),
        [
            &mut || {
                let _ = black_box(proved_build(black_box(&list), black_box(&mut proved)));
            },
            &mut || {
                let _ = black_box(plain_build(black_box(&list), black_box(&mut plain)));
            },
        ],
    );
}

/// The first address of the range in the middle.
fn lookup(measure: &mut dyn Measure, entries: usize, calls: u32, asked: f64) {
    let mut rows = room(entries);
    let ranges = proved_build(&routes(entries), &mut rows).expect("there is room");
    let (starts, hops) = (&rows.0[..ranges], &rows.1[..ranges]);
    let q = starts[ranges / 2];
    assert_eq!(
        hawkmortar::ranges::lookup(starts, hops, q).map(number),
        plain::ranges::lookup(starts, hops, q).map_err(|_| unreachable!("the ranges are good")),
    );
    measure.compare(
        Operation::new("range lookup", format!("{ranges} ranges"), calls).asked(asked),
        [
            &mut || {
                let rows = (black_box(starts), black_box(hops));
                let _ = black_box(hawkmortar::ranges::lookup(rows.0, rows.1, black_box(q)));
            },
            &mut || {
                let rows = (black_box(starts), black_box(hops));
                let _ = black_box(plain::ranges::lookup(rows.0, rows.1, black_box(q)));
            },
        ],
    );
}

/// What a build takes beside the test of its list, most of which is the repeat test.
pub fn build_beside_check(measure: &mut dyn Measure) {
    const ENTRIES: usize = 4096;
    let list = routes(ENTRIES);
    let mut rows = room(ENTRIES);
    measure.compare(
        Operation::new("range build, beside its list check", format!("{ENTRIES} entries"), 1),
        [
            &mut || {
                let _ = black_box(proved_build(black_box(&list), black_box(&mut rows)));
            },
            &mut || {
                let list = black_box(&list);
                let _ = black_box(hawkmortar::list::check(&list.addresses, &list.lengths, &list.hops));
            },
        ],
    );
}
