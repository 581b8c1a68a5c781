//! Slots: lookup, the image test, plans and apply, download.

use super::number;
use crate::measure::{Measure, Operation};
use bench::plain;
use hawkmortar::Download;
use second::random::Random;
use std::hint::black_box;

pub fn all(measure: &mut dyn Measure) {
    for (slots, calls) in [(64, 20_000), (1024, 1000), (4096, 250)] {
        lookup(measure, slots, calls);
    }
    for (slots, calls) in [(64, 2000), (1024, 20), (4096, 1)] {
        check(measure, operation("slot check", slots, calls), &rows(slots));
        plan_set(measure, slots, calls);
        plan_remove(measure, slots, calls);
    }
    let one_word = |lengths: &str| operation(&format!("  in one word of the filter, {lengths}"), 4096, 1);
    check(
        measure,
        one_word("lengths mixed").asked(0.25),
        &in_one_word(&mixed_lengths()),
    );
    check(measure, one_word("length 32").asked(0.44), &in_one_word(&[(32, 4096)]));
    for (slots, calls) in [(64, 2000), (1024, 100), (4096, 20)] {
        let mend = |image: &str| operation(&format!("plan a mend, {image}"), slots, calls).asked(1.1);
        plan_mend(measure, mend("half-written"), &half_written(slots), 8);
        plan_mend(measure, mend("well-formed"), &rows(slots), 0);
    }
    for slots in [64, 1024, 4096] {
        apply(measure, slots, 20_000);
    }
    for (slots, calls) in [(64, 20_000), (1024, 1000), (4096, 250)] {
        download_call(measure, slots, calls);
    }
    download_whole(measure);
}

fn operation(name: &str, slots: u32, calls: u32) -> Operation {
    Operation::new(name, format!("{slots} slots"), calls).asked(1.15)
}

/// Rows of so many slots, seven of eight used, by entries of every length from 32 to 8.
fn rows(slots: u32) -> (Vec<u32>, Vec<u32>) {
    const LENGTHS: u32 = 25;
    let used = slots * 7 / 8;
    let (mut addresses, mut tags) = (vec![0; slots as usize], vec![0; slots as usize]);
    let mut count = [0; 33];
    for i in 0..used {
        let length = 32 - i * LENGTHS / used;
        let slot = if length >= 16 { i } else { slots - used + i } as usize;
        let j: u32 = count[length as usize];
        addresses[slot] = j << (32 - length);
        tags[slot] = length << 16 | (1 + i % 300);
        count[length as usize] += 1;
    }
    assert_eq!(hawkmortar::slots::check(&addresses, &tags), Ok(used as usize));
    assert_eq!(plain::slots::check(&addresses, &tags), Ok(used as usize));
    (addresses, tags)
}

/// An address in the middle of those used, at whatever length matches it.
fn lookup(measure: &mut dyn Measure, slots: u32, calls: u32) {
    let (addresses, tags) = rows(slots);
    let q = addresses[slots as usize / 2];
    assert_eq!(
        hawkmortar::slots::lookup(&addresses, &tags, q).map(number),
        plain::slots::lookup(&addresses, &tags, q).map_err(|_| unreachable!("the image is good")),
    );
    measure.compare(
        operation("slot lookup", slots, calls),
        [
            &mut || {
                let rows = (black_box(&addresses), black_box(&tags));
                let _ = black_box(hawkmortar::slots::lookup(rows.0, rows.1, black_box(q)));
            },
            &mut || {
                let rows = (black_box(&addresses), black_box(&tags));
                let _ = black_box(plain::slots::lookup(rows.0, rows.1, black_box(q)));
            },
        ],
    );
}

/// Lengths of 4,096 entries with the number of each, falling: three in five are 24, the others spread over 32 to 8 as far as one
/// word of the filter has prefixes of them, and more of 32 for what is missing.
fn mixed_lengths() -> Vec<(u32, usize)> {
    const OF_24: usize = 4096 * 3 / 5;
    let others = (8..32).rev().filter(|&length| length != 24);
    let mut lengths: Vec<(u32, usize)> = others
        .map(|length| (length, super::in_one_word(length, 68).len()))
        .collect();
    let of_32 = 4096 - OF_24 - lengths.iter().map(|&(_, entries)| entries).sum::<usize>();
    lengths.extend([(32, of_32), (24, OF_24)]);
    lengths.sort_by(|one, other| other.cmp(one));
    lengths
}

/// Rows of 4,096 used slots that have one word of the filter, of these lengths.
fn in_one_word(lengths: &[(u32, usize)]) -> (Vec<u32>, Vec<u32>) {
    let of_length = |&(length, entries): &(u32, usize)| {
        let addresses = super::in_one_word(length, entries).into_iter();
        addresses.map(move |address| (address, length << 16 | 1))
    };
    let rows: (Vec<u32>, Vec<u32>) = lengths.iter().flat_map(of_length).unzip();
    assert_eq!(hawkmortar::slots::check(&rows.0, &rows.1), Ok(4096));
    rows
}

/// Plain Rust compares an entry with every earlier one.
fn check(measure: &mut dyn Measure, operation: Operation, (addresses, tags): &(Vec<u32>, Vec<u32>)) {
    assert_eq!(
        hawkmortar::slots::check(addresses, tags),
        plain::slots::check(addresses, tags).map_err(|_| unreachable!("the image is good")),
    );
    measure.compare(
        operation,
        [
            &mut || {
                let _ = black_box(hawkmortar::slots::check(black_box(addresses), black_box(tags)));
            },
            &mut || {
                let _ = black_box(plain::slots::check(black_box(addresses), black_box(tags)));
            },
        ],
    );
}

/// An absent /32: its plan moves every length from 16 to 31.
fn plan_set(measure: &mut dyn Measure, slots: u32, calls: u32) {
    let (addresses, tags) = rows(slots);
    let (mut proved, mut plain) = ([0; 54], [0; 54]);
    let absent = u32::MAX;
    let writes = hawkmortar::slots::plan_set(&addresses, &tags, absent, 32, 9, &mut proved);
    assert_eq!(writes, Ok(17));
    let writes = plain::slots::plan_set(&addresses, &tags, absent, 32, 9, &mut plain);
    assert_eq!(writes, Ok(17));
    assert_eq!(proved, plain);
    measure.compare(
        operation("plan a set", slots, calls),
        [
            &mut || {
                let (rows, plan) = ((black_box(&addresses), black_box(&tags)), black_box(&mut proved));
                let absent = black_box(absent);
                let _ = black_box(hawkmortar::slots::plan_set(rows.0, rows.1, absent, 32, 9, plan));
            },
            &mut || {
                let (rows, plan) = ((black_box(&addresses), black_box(&tags)), black_box(&mut plain));
                let _ = black_box(plain::slots::plan_set(rows.0, rows.1, black_box(absent), 32, 9, plan));
            },
        ],
    );
}

/// A /32 that is not the last of its length: its plan has the edge move, and moves every length from 31 to 16.
fn plan_remove(measure: &mut dyn Measure, slots: u32, calls: u32) {
    let (addresses, tags) = rows(slots);
    let (mut proved, mut plain) = ([0; 54], [0; 54]);
    let present = addresses[0];
    let writes = hawkmortar::slots::plan_remove(&addresses, &tags, present, 32, &mut proved);
    assert_eq!(writes, Ok(18));
    let writes = plain::slots::plan_remove(&addresses, &tags, present, 32, &mut plain);
    assert_eq!(writes, Ok(18));
    assert_eq!(proved, plain);
    measure.compare(
        operation("plan a removal", slots, calls),
        [
            &mut || {
                let (rows, plan) = ((black_box(&addresses), black_box(&tags)), black_box(&mut proved));
                let present = black_box(present);
                let _ = black_box(hawkmortar::slots::plan_remove(rows.0, rows.1, present, 32, plan));
            },
            &mut || {
                let (rows, plan) = ((black_box(&addresses), black_box(&tags)), black_box(&mut plain));
                let _ = black_box(plain::slots::plan_remove(rows.0, rows.1, black_box(present), 32, plan));
            },
        ],
    );
}

/// The rows of so many slots with the first 8 of 17 writes made that set an absent /32: a /23 stands twice.
fn half_written(slots: u32) -> (Vec<u32>, Vec<u32>) {
    let (mut addresses, mut tags) = rows(slots);
    let mut plan = [0; 51];
    let writes = hawkmortar::slots::plan_set(&addresses, &tags, u32::MAX, 32, 9, &mut plan);
    assert_eq!(writes, Ok(17));
    assert_eq!(hawkmortar::slots::apply(&mut addresses, &mut tags, &plan, 8), Ok(8));
    (addresses, tags)
}

/// Plain Rust compares an entry with the entries of its length before it.
fn plan_mend(measure: &mut dyn Measure, operation: Operation, (addresses, tags): &(Vec<u32>, Vec<u32>), writes: usize) {
    let (mut proved, mut plain) = ([0; 54], [0; 54]);
    assert_eq!(hawkmortar::slots::plan_mend(addresses, tags, &mut proved), Ok(writes));
    assert_eq!(plain::slots::plan_mend(addresses, tags, &mut plain), Ok(writes));
    assert_eq!(proved, plain);
    measure.compare(
        operation,
        [
            &mut || {
                let (rows, plan) = ((black_box(addresses), black_box(tags)), black_box(&mut proved));
                let _ = black_box(hawkmortar::slots::plan_mend(rows.0, rows.1, plan));
            },
            &mut || {
                let (rows, plan) = ((black_box(addresses), black_box(tags)), black_box(&mut plain));
                let _ = black_box(plain::slots::plan_mend(rows.0, rows.1, plan));
            },
        ],
    );
}

/// A whole plan of 18 writes; making it again changes nothing.
fn apply(measure: &mut dyn Measure, slots: u32, calls: u32) {
    let (addresses, tags) = rows(slots);
    let mut plan = [0; 54];
    let writes = hawkmortar::slots::plan_remove(&addresses, &tags, addresses[0], 32, &mut plan);
    assert_eq!(writes, Ok(18));
    let (mut proved, mut plain) = ((addresses.clone(), tags.clone()), (addresses, tags));
    measure.compare(
        operation("apply 18 writes", slots, calls),
        [
            &mut || {
                let rows = black_box(&mut proved);
                let _ = black_box(hawkmortar::slots::apply(&mut rows.0, &mut rows.1, black_box(&plan), 18));
            },
            &mut || {
                let rows = black_box(&mut plain);
                let _ = black_box(plain::slots::apply(&mut rows.0, &mut rows.1, black_box(&plan), 18));
            },
        ],
    );
    assert_eq!(proved, plain);
}

/// The next entry past the one in the middle of those used.
fn download_call(measure: &mut dyn Measure, slots: u32, calls: u32) {
    let (addresses, tags) = rows(slots);
    let middle = slots as usize / 2;
    let last = (addresses[middle], tags[middle] >> 16);
    let mut entry = [0; 3];
    let given = hawkmortar::slots::download_next(&addresses, &tags, last.0, last.1, &mut entry);
    assert_eq!(given, Ok(true));
    assert_eq!(
        plain::slots::download(&addresses, &tags, Some(last)),
        Ok(Some((entry[0], entry[2])))
    );
    measure.compare(
        operation("download, one call", slots, calls).asked(1.1),
        [
            &mut || {
                let (rows, last) = ((black_box(&addresses), black_box(&tags)), black_box(last));
                let entry = black_box(&mut entry);
                let _ = black_box(hawkmortar::slots::download_next(rows.0, rows.1, last.0, last.1, entry));
            },
            &mut || {
                let rows = (black_box(&addresses), black_box(&tags));
                let _ = black_box(plain::slots::download(rows.0, rows.1, black_box(Some(last))));
            },
        ],
    );
}

/// A whole walk over 4,096 entries, 4,097 calls: the entries at random places, since the order of slots is not that of prefixes.
fn download_whole(measure: &mut dyn Measure) {
    const SLOTS: usize = 4096;
    let mut random = Random::new(7);
    let mut entries: Vec<(u32, u32)> = (0..SLOTS as u32).map(|i| (i << 20, 12 + i % 21)).collect();
    for i in (1..SLOTS).rev() {
        entries.swap(i, random.below(i as u64 + 1) as usize);
    }
    entries.sort_by_key(|&(_, length)| std::cmp::Reverse(length));
    let (addresses, tags): (Vec<u32>, Vec<u32>) = entries.iter().map(|&(a, n)| (a, n << 16 | 1)).unzip();
    assert_eq!(hawkmortar::slots::check(&addresses, &tags), Ok(SLOTS));
    let proved = || {
        let mut walk = Download::new();
        let mut given = 0;
        while walk.next_in(black_box(&addresses), black_box(&tags)).unwrap().is_some() {
            given += 1;
        }
        given
    };
    let plain = || {
        let (mut last, mut given) = (None, 0);
        while let Some((address, tag)) = plain::slots::download(black_box(&addresses), black_box(&tags), last).unwrap()
        {
            last = Some((address, tag >> 16));
            given += 1;
        }
        given
    };
    assert_eq!((proved(), plain()), (SLOTS, SLOTS));
    measure.compare(
        operation("download, whole", SLOTS as u32, 1),
        [
            &mut || {
                black_box(proved());
            },
            &mut || {
                black_box(plain());
            },
        ],
    );
}
