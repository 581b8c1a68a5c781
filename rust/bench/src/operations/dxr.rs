//! DXR: build and lookup.

use super::{number, routes};
use crate::measure::{Measure, Operation};
use bench::plain;
use second::random::{Random, Rows};
use std::hint::black_box;

pub fn all(measure: &mut dyn Measure) {
    for (entries, calls, asked) in [(16, 100, None), (256, 50, None), (4096, 1, Some(0.6))] {
        build(measure, entries, calls, asked);
    }
    lookups(measure);
}

/// A main table and a row of range words, with room for any list.
type Dxr = (Vec<u32>, Vec<u32>);

fn room() -> Dxr {
    (vec![0; hawkmortar::MAIN_WORDS], vec![0; hawkmortar::MAX_RANGE_WORDS])
}

fn proved_build(list: &Rows, rows: &mut Dxr) -> Result<usize, hawkmortar::Refusal> {
    hawkmortar::dxr::build(&list.addresses, &list.lengths, &list.hops, &mut rows.0, &mut rows.1)
}

fn plain_build(list: &Rows, rows: &mut Dxr) -> Result<usize, plain::Fault> {
    plain::dxr::build(&list.addresses, &list.lengths, &list.hops, &mut rows.0, &mut rows.1)
}

/// The test of the list is a part of it.
fn build(measure: &mut dyn Measure, entries: usize, calls: u32, asked: Option<f64>) {
    let list = routes(entries);
    let (mut proved, mut plain) = (room(), room());
    assert_eq!(
        proved_build(&list, &mut proved).ok(),
        plain_build(&list, &mut plain).ok()
    );
    assert!(proved == plain);
    let operation = Operation {
        asked,
        ..Operation::new("dxr build", format!("{entries} entries"), calls)
    };
    measure.compare(
        operation,
        [
            &mut || {
                let _ = black_box(proved_build(black_box(&list), black_box(&mut proved)));
            },
            &mut || {
                let _ = black_box(plain_build(black_box(&list), black_box(&mut plain)));
            },
        ],
    );
}

const LONG: u32 = 1;
const SHORT: u32 = 2;

/// The addresses that are looked up in turn in one call of what is measured.
const KEYS: usize = 4096;

/// Lookups in the tables of 4,096 routes: at any address; in chunks with long entries, and with short ones, which a list with hops
/// up to 255 has; in blocks of routes whose chunks have some 47 entries; and in eight chunks that have all the routes, where most of
/// the time is the test of the chunk.
fn lookups(measure: &mut dyn Measure) {
    let mut random = Random::new(2);
    let keys: Vec<u32> = (0..KEYS).map(|_| random.number() as u32).collect();
    let table = table(&routes(4096));
    lookup(measure, "any address", &table, &keys, (20, 1.10));
    let mut hits = |name, list, kind, measured| {
        let table = self::table(&list);
        lookup(measure, name, &table, &keys_in(&table, kind, &mut random), measured);
    };
    hits("long chunks", routes(4096), LONG, (20, 1.10));
    hits(
        "short chunks",
        Rows::routed(&mut Random::new(1), 4096, 255),
        SHORT,
        (20, 1.10),
    );
    hits("long blocks", in_blocks(LONG_BLOCKS, 32, 65_535), LONG, (10, 0.75));
    hits("short blocks", in_blocks(SHORT_BLOCKS, 24, 255), SHORT, (10, 0.75));
    hits("dense chunks", in_blocks(8, 32, 65_535), LONG, (1, 1.10));
}

/// So many that their chunks have some 47 entries: with prefixes of up to 32 bits, and of up to 24.
const LONG_BLOCKS: u64 = 144;
const SHORT_BLOCKS: u64 = 98;

fn in_blocks(blocks: u64, longest: u32, hops: u64) -> Rows {
    Rows::in_blocks(&mut Random::new(1), 4096, blocks, longest, hops)
}

fn table(list: &Rows) -> Dxr {
    let mut rows = room();
    let words = proved_build(list, &mut rows).expect("there is room");
    rows.1.truncate(words);
    rows
}

/// Addresses in the chunks whose main words are of a kind.
fn keys_in(table: &Dxr, kind: u32, random: &mut Random) -> Vec<u32> {
    let chunks: Vec<u32> = (0..)
        .zip(&table.0)
        .filter(|&(_, word)| word >> 30 == kind)
        .map(|(chunk, _)| chunk)
        .collect();
    (0..KEYS)
        .map(|_| random.pick(&chunks) << 16 | random.below(65_536) as u32)
        .collect()
}

/// The entries of a key's chunk, on average.
fn mean_entries(table: &Dxr, keys: &[u32]) -> f64 {
    let entries = |word: u32| if word >> 30 == 0 { 1 } else { word >> 16 & 0x3fff };
    let sum: u32 = keys.iter().map(|&q| entries(table.0[(q >> 16) as usize])).sum();
    f64::from(sum) / keys.len() as f64
}

/// Lookups at all the keys, beside plain Rust and beside plain Rust that does not test the chunk.
fn lookup(measure: &mut dyn Measure, name: &str, table: &Dxr, keys: &[u32], (calls, asked): (u32, f64)) {
    let (main, words) = (&table.0[..], &table.1[..]);
    let proved = |q| hawkmortar::dxr::lookup(main, words, q).map_or(u32::MAX, number);
    let plain = |q| plain::dxr::lookup(main, words, q).unwrap_or(u32::MAX);
    let untested = |q| plain::dxr::lookup_without_test(main, words, q).unwrap_or(u32::MAX);
    for &q in keys {
        assert_eq!((proved(q), untested(q)), (plain(q), plain(q)));
    }
    let size = format!("{:.1} entries", mean_entries(table, keys));
    let operation = |name| Operation::new(name, &size, calls).in_call(keys.len());
    measure.compare(
        operation(format!("dxr lookup, {name}")).asked(asked),
        [&mut || all_keys(keys, proved), &mut || all_keys(keys, plain)],
    );
    measure.compare(
        operation("  beside one without the test of the chunk".into()),
        [&mut || all_keys(keys, proved), &mut || all_keys(keys, untested)],
    );
}

/// Looks every key up.
fn all_keys(keys: &[u32], hop: impl Fn(u32) -> u32) {
    let sum = black_box(keys).iter().fold(0, |sum: u32, &q| sum.wrapping_add(hop(q)));
    black_box(sum);
}
