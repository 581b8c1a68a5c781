//! The call that reads a record, asked of both programs, and records to ask for.

use super::calls::{counted, Call};
use super::fault;
use crate::random::Random;
use crate::records::{self as plain, Record};
use crate::Fault;
use hawkmortar::{records as proved, NextHop, Prefix};

/// The input of the report's example: set 10.0.0.0/8 hop 1, set 10.20.0.0/16 hop 2, remove 10.0.0.0/8.
pub const REPORT: [u8; 12] = [0x01, 0x08, 0x0a, 0x01, 0x01, 0x10, 0x94, 0x14, 0x02, 0x00, 0x08, 0x0a];

/// A record and the place behind it, or none at the end, or the refusal.
pub type Answer = Result<Option<(Record, usize)>, Fault>;

/// What the row that is lent holds before, and the cells beside it.
const BLANK: [u32; 6] = [
    0xabcd_0000,
    0xabcd_0001,
    0xabcd_0002,
    0xabcd_0003,
    0xabcd_0004,
    0xabcd_0005,
];

/// What both programs answer at a place. The four cells lent are those of the record that is answered, or as found where there is
/// none; the library's call that gives a `Record` answers the same.
pub fn record_at(bytes: &[u8], at: usize) -> Answer {
    let mut row = BLANK;
    let lent = (&mut row[1..5]).try_into().expect("four cells");
    let found = counted(Call::RecordAt, proved::numbers_at(bytes, at, lent).map_err(fault));
    let expected = plain::record_at(bytes, at);
    let (mut next, mut left) = (expected.map(|_| at), BLANK);
    if let Ok(Some((record, behind))) = expected {
        assert!(
            at < behind && behind <= bytes.len(),
            "{behind} behind {at} in {bytes:x?}"
        );
        next = Ok(behind);
        left[1..5].copy_from_slice(&record);
    }
    assert!(
        found == next && row == left,
        "{found:?} and {row:x?}, not {next:?} and {left:x?}, at {at} in {bytes:x?}"
    );
    let typed = proved::record_at(bytes, at).map_err(fault);
    let typed = typed.map(|read| read.map(|(record, next)| (numbers(record), next)));
    assert!(typed == expected, "{typed:?}, not {expected:?}, at {at} in {bytes:x?}");
    expected
}

/// The records of some bytes as both programs read them, each with the place behind it, and the refusal that ends them if the
/// input's end does not.
pub fn follow(bytes: &[u8]) -> (Vec<(Record, usize)>, Option<Fault>) {
    let before = bytes.to_vec();
    let (mut read, mut at) = (Vec::new(), 0);
    let refusal = loop {
        match record_at(bytes, at) {
            Ok(Some((record, next))) => {
                read.push((record, next));
                at = next;
            }
            Ok(None) => break None,
            Err(fault) => break Some(fault),
        }
    };
    assert!(before == bytes, "reading changed {before:x?} to {bytes:x?}");
    (read, refusal)
}

/// The numbers of a record of the library.
pub fn numbers(record: hawkmortar::Record) -> Record {
    let (kind, hop) = match record {
        hawkmortar::Record::Set(_, hop) => (1, hop.get().into()),
        hawkmortar::Record::Remove(_) => (0, 0),
    };
    let prefix = record.prefix();
    [kind, prefix.length(), prefix.address().into(), hop]
}

/// The library's record of good numbers.
pub fn record_of([kind, length, address, hop]: Record) -> hawkmortar::Record {
    let prefix = Prefix::new(address, length).unwrap();
    if kind == 0 {
        return hawkmortar::Record::Remove(prefix);
    }
    hawkmortar::Record::Set(prefix, NextHop::new(hop as u16).unwrap())
}

/// The bytes that the library writes for good records.
pub fn library_bytes(records: &[Record]) -> Vec<u8> {
    let mut bytes = Vec::new();
    records
        .iter()
        .for_each(|&record| record_of(record).append_to(&mut bytes));
    bytes
}

/// A number in so many groups, at most ten.
pub fn in_groups(number: u64, groups: usize) -> Vec<u8> {
    (0..groups)
        .map(|i| (number >> (7 * i) & 0x7f) as u8 | if i + 1 < groups { 0x80 } else { 0 })
        .collect()
}

/// The groups that a number needs.
pub fn groups(number: u64) -> usize {
    (1..10).find(|groups| number >> (7 * groups) == 0).unwrap_or(10)
}

/// A number in its shortest form.
pub fn shortest(number: u64) -> Vec<u8> {
    in_groups(number, groups(number))
}

/// The bytes of good records, written without the library.
pub fn bytes_of(records: &[Record]) -> Vec<u8> {
    let numbers = records.iter().flat_map(|&[kind, length, address, hop]| {
        let quotient = u64::from(address) / (1 << (32 - length));
        let hop = (kind == 1).then_some(hop.into());
        [kind.into(), length.into(), quotient].into_iter().chain(hop)
    });
    numbers.flat_map(shortest).collect()
}

/// A good record; its numbers are often at a limit of their range or of their form.
pub fn random_record(random: &mut Random) -> Record {
    let length = if random.one_in(4) {
        random.pick(&[0, 1, 6, 7, 8, 14, 15, 21, 22, 28, 29, 31, 32])
    } else {
        random.below(33)
    };
    let most = (1u64 << length) - 1;
    let quotient = match random.below(6) {
        0 => most,
        1 => {
            random.pick(&[
                0,
                127,
                128,
                16_383,
                16_384,
                (1 << 21) - 1,
                1 << 21,
                (1 << 28) - 1,
                1 << 28,
            ]) & most
        }
        2 => random.below(300) & most,
        _ => random.number() & most,
    };
    let address = (quotient << (32 - length)) as u32;
    if random.one_in(3) {
        return [0, length as u32, address, 0];
    }
    let hop = match random.below(3) {
        0 => random.pick(&[1, 127, 128, 16_383, 16_384, 65_535]),
        1 => 1 + random.below(300),
        _ => 1 + random.below(65_535),
    };
    [1, length as u32, address, hop as u32]
}

/// So many good records.
pub fn random_records(random: &mut Random, count: usize) -> Vec<Record> {
    (0..count).map(|_| random_record(random)).collect()
}
