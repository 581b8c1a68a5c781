//! Update records: bytes that say which prefixes are set and removed, one record behind the other.
//!
//! A record is up to four numbers: its kind, 0 for a removal and 1 for a set; the prefix's length n; its address divided by
//! 2^(32-n); and for a set the next hop. A number is at most 2^32 - 1 and stands in groups of seven bits, one to a byte, the low
//! group first, with the top bit set on all bytes but the last. Its form is the shortest, so no byte behind its first is 0, and a
//! record has one form only.
//!
//! ```
//! use hawkmortar::records::record_at;
//! use hawkmortar::{NextHop, Prefix, Record, Records, Refusal, Table};
//! use std::net::Ipv4Addr;
//!
//! let bytes = [0x01, 0x08, 0x0a, 0x01, 0x01, 0x10, 0x94, 0x14, 0x02, 0x00, 0x08, 0x0a];
//! let mut table = Table::new(1024)?;
//! let mut shown = Vec::new();
//! for record in Records::new(&bytes) {
//!     let record = record?;
//!     shown.push(record.to_string());
//!     match record {
//!         Record::Set(prefix, hop) => table.set(prefix, hop)?,
//!         Record::Remove(prefix) => table.remove(prefix)?,
//!     };
//! }
//! assert_eq!(shown, ["set 10.0.0.0/8 1", "set 10.20.0.0/16 2", "remove 10.0.0.0/8"]);
//! assert_eq!(table.len(), 1);
//!
//! // one record at a place, with the place behind it
//! let prefix = Prefix::new(Ipv4Addr::new(10, 20, 0, 0), 16)?;
//! let set = Record::Set(prefix, NextHop::new(2).unwrap());
//! assert_eq!(record_at(&bytes, 4), Ok(Some((set, 9))));
//! assert_eq!(record_at(&bytes, 12), Ok(None));
//!
//! // the bytes of a record; without the last they end inside it
//! let mut written = Vec::new();
//! set.append_to(&mut written);
//! assert_eq!(written, bytes[4..9]);
//! assert_eq!(record_at(&written[..4], 0), Err(Refusal::Cut(4)));
//! # Ok::<(), Refusal>(())
//! ```

use crate::{ffi, NextHop, Prefix, Refusal};
use std::fmt;
use std::iter::FusedIterator;

/// An update of one prefix. Shown as what is done, the prefix and, for a set, the hop.
#[derive(Clone, Copy, PartialEq, Eq, Hash, Debug)]
pub enum Record {
    /// The prefix is to have the next hop.
    Set(Prefix, NextHop),
    /// The prefix is to be removed.
    Remove(Prefix),
}

/// The kind of a record that sets a prefix; that of one that removes it is 0.
const SET: u32 = 1;

impl Record {
    /// The prefix that is set or removed.
    pub const fn prefix(self) -> Prefix {
        match self {
            Record::Set(prefix, _) | Record::Remove(prefix) => prefix,
        }
    }

    /// Writes the record behind the bytes, in its one form: 3 to 10 bytes.
    pub fn append_to(self, bytes: &mut Vec<u8>) {
        let (kind, hop) = match self {
            Record::Set(_, hop) => (SET, Some(hop)),
            Record::Remove(_) => (0, None),
        };
        let (address, length) = (u32::from(self.prefix().address()), self.prefix().length());
        append_number(kind, bytes);
        append_number(length, bytes);
        // at length 0 the shift is by all 32 bits
        append_number((u64::from(address) >> (32 - length)) as u32, bytes);
        if let Some(hop) = hop {
            append_number(hop.get().into(), bytes);
        }
    }

    /// The record of numbers that were accepted.
    #[inline]
    fn of([kind, length, address, hop]: [u32; 4]) -> Self {
        let prefix = Prefix::accepted(address, length);
        if kind != SET {
            return Record::Remove(prefix);
        }
        let hop = u16::try_from(hop).ok().and_then(NextHop::new);
        Record::Set(prefix, hop.expect("the hop of a set is 1 to 65,535"))
    }
}

impl fmt::Display for Record {
    fn fmt(&self, f: &mut fmt::Formatter<'_>) -> fmt::Result {
        match self {
            Record::Set(prefix, hop) => write!(f, "set {prefix} {hop}"),
            Record::Remove(prefix) => write!(f, "remove {prefix}"),
        }
    }
}

/// Writes a number in its shortest form.
fn append_number(mut number: u32, bytes: &mut Vec<u8>) {
    while number >= 128 {
        bytes.push(number as u8 | 128);
        number >>= 7;
    }
    bytes.push(number as u8);
}

/// Reads the record that starts at the place `at`: the record and the place behind it, where the next one starts, or `None` at
/// the end of the bytes.
///
/// Refusals: [`Refusal::Size`] for a place past the bytes; then number by number, in the record's order: [`Refusal::Number`] for
/// one that is longer than needed or over 2^32 - 1, at once where a fifth byte is over 15; [`Refusal::Cut`] where the bytes end
/// inside the record, with their length as its place; [`Refusal::Kind`] for a kind over 1, [`Refusal::Length`] for a length over
/// 32, [`Refusal::Address`] for a divided address of 2^n or more, [`Refusal::Hop`] for a hop of 0 or over 65,535. The place of
/// all but the first and [`Refusal::Cut`] is the first byte of the number at fault.
#[inline]
pub fn record_at(bytes: &[u8], at: usize) -> Result<Option<(Record, usize)>, Refusal> {
    let mut numbers = [0; 4];
    let next = numbers_at(bytes, at, &mut numbers)?;
    Ok((next != at).then(|| (Record::of(numbers), next)))
}

/// Reads the record that starts at the place `at` as four numbers: kind, length, address and next hop, the hop 0 for a removal.
/// The answer is the place behind the record. It is `at` itself only at the end of the bytes, which leaves the numbers as they
/// were.
///
/// Refused as of [`record_at`]; a refused call changes nothing.
#[inline]
pub fn numbers_at(bytes: &[u8], at: usize, record: &mut [u32; 4]) -> Result<usize, Refusal> {
    // SAFETY: the first pointer is to as many bytes as the length beside it says, and the call only reads them; the other is to
    // four numbers, which are not among the bytes
    unsafe { ffi::hawkmortar_record_at(bytes.as_ptr(), bytes.len(), at, record.as_mut_ptr()) }.count()
}

/// The records of some bytes, from the first on. After a refusal there are no more.
#[derive(Clone, Debug)]
pub struct Records<'a> {
    bytes: &'a [u8],
    place: usize,
    refused: bool,
}

impl<'a> Records<'a> {
    /// The records of these bytes.
    pub const fn new(bytes: &'a [u8]) -> Self {
        Records {
            bytes,
            place: 0,
            refused: false,
        }
    }

    /// The place of the next record: the number of bytes read. After a refusal it is where the refused record starts, at the end
    /// the number of all bytes.
    pub const fn place(&self) -> usize {
        self.place
    }
}

impl Iterator for Records<'_> {
    type Item = Result<Record, Refusal>;

    #[inline]
    fn next(&mut self) -> Option<Self::Item> {
        if self.refused {
            return None;
        }
        match record_at(self.bytes, self.place) {
            Ok(found) => found.map(|(record, next)| {
                self.place = next;
                Ok(record)
            }),
            Err(refusal) => {
                self.refused = true;
                Some(Err(refusal))
            }
        }
    }
}

impl FusedIterator for Records<'_> {}
