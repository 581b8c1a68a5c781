//! Update records: streams of them, read from record to record.

use crate::measure::{Measure, Operation};
use bench::plain;
use hawkmortar::{NextHop, Prefix, Record};
use second::random::Random;
use std::hint::black_box;

/// The records of a stream.
const RECORDS: usize = 20_000;

/// Updates as a router gets them, and records of ten bytes, the most there are.
pub fn all(measure: &mut dyn Measure) {
    let mut random = Random::new(3);
    read_stream(measure, "record, updates", &stream(|| update(&mut random)), 10);
    let longest = || {
        let host = (1 << 28) + random.below(15 << 28);
        set(host as u32, 32, 16_384 + random.below(49_152))
    };
    read_stream(measure, "record, ten bytes each", &stream(longest), 10);
}

/// Half have length 24, most others 16 to 23.
fn update(random: &mut Random) -> Record {
    let length = match random.below(16) {
        0..=7 => 24,
        8..=13 => 16 + random.below(8),
        14 => 8 + random.below(8),
        _ => 25 + random.below(8),
    };
    let address = random.number() << (32 - length);
    update_of(address as u32, length as u32, random)
}

/// There are three sets for each removal. One hop in eight is of any size, others are small.
pub fn update_of(address: u32, length: u32, random: &mut Random) -> Record {
    let hops = if random.one_in(8) { 65_535 } else { 64 };
    let set = set(address, length, 1 + random.below(hops));
    if random.one_in(4) {
        return Record::Remove(set.prefix());
    }
    set
}

fn set(address: u32, length: u32, hop: u64) -> Record {
    let prefix = Prefix::new(address, length).expect("a prefix");
    Record::Set(prefix, NextHop::new(hop as u16).expect("a hop"))
}

fn stream(mut record: impl FnMut() -> Record) -> Vec<u8> {
    let mut bytes = Vec::new();
    (0..RECORDS).for_each(|_| record().append_to(&mut bytes));
    bytes
}

/// One operation is the reading of one record.
fn read_stream(measure: &mut dyn Measure, name: &str, bytes: &[u8], calls: u32) {
    // a refusal would end the stream
    let proved =
        |bytes: &[u8], at, record: &mut [u32; 4]| hawkmortar::records::numbers_at(bytes, at, record).unwrap_or(at);
    let plain = |bytes: &[u8], at, record: &mut [u32; 4]| plain::records::numbers_at(bytes, at, record).unwrap_or(at);
    let mut read = (Vec::new(), Vec::new());
    read_all(bytes, proved, |record| read.0.push(*record));
    read_all(bytes, plain, |record| read.1.push(*record));
    assert_eq!(read.0.len(), RECORDS);
    assert!(read.0 == read.1);
    let mean = bytes.len() as f64 / RECORDS as f64;
    let operation = Operation::new(name, format!("{mean:.1} bytes"), calls)
        .asked(1.15)
        .bytes(mean)
        .in_call(RECORDS);
    measure.compare(operation, [&mut || sum(bytes, proved), &mut || sum(bytes, plain)]);
}

/// Reads every record, each from the place that the one before gives.
fn read_all(bytes: &[u8], numbers_at: impl Fn(&[u8], usize, &mut [u32; 4]) -> usize, mut each: impl FnMut(&[u32; 4])) {
    let (mut at, mut record) = (0, [0; 4]);
    loop {
        let next = numbers_at(bytes, at, &mut record);
        if next == at {
            return;
        }
        each(&record);
        at = next;
    }
}

/// Reads every record and adds up their numbers.
fn sum(bytes: &[u8], numbers_at: impl Fn(&[u8], usize, &mut [u32; 4]) -> usize) {
    let mut sum: u32 = 0;
    read_all(black_box(bytes), numbers_at, |record| {
        sum = record.iter().fold(sum, |sum, &number| sum.wrapping_add(number));
    });
    black_box(sum);
}
