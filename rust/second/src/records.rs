//! Update records: reading one at a place of some bytes.
//!
//! The bytes of a number are taken first: they end at the first one without its top bit, and are at most five. Then their form and
//! their value are judged. A record is up to four numbers, each with its own limits and its own refusal.

use crate::Fault;
use std::ops::RangeInclusive;

/// The numbers of a record: kind, length, address and hop, the hop of a removal being 0.
pub type Record = [u32; 4];

/// The value of groups of seven bits, the low group first.
fn value(groups: &[u8]) -> u64 {
    groups
        .iter()
        .rev()
        .fold(0, |value, &byte| value * 128 + u64::from(byte % 128))
}

/// The bytes of the number at a place, or its refusal.
fn number(bytes: &[u8], place: usize) -> Result<&[u8], Fault> {
    let five = &bytes[place..bytes.len().min(place + 5)];
    let Some(last) = five.iter().position(|&byte| byte < 128) else {
        // five bytes of which the fifth is over 15, or too few
        return Err(if five.len() == 5 {
            (11, place)
        } else {
            (12, bytes.len())
        });
    };
    let groups = &five[..=last];
    let longer_than_needed = last > 0 && groups[last] == 0;
    if longer_than_needed || value(groups) > u64::from(u32::MAX) {
        return Err((11, place));
    }
    Ok(groups)
}

/// The record at a place and the place behind it, `None` at the end, or the refusal.
pub fn record_at(bytes: &[u8], at: usize) -> Result<Option<(Record, usize)>, Fault> {
    if at > bytes.len() {
        return Err((8, 0));
    }
    if at == bytes.len() {
        return Ok(None);
    }
    let mut place = at;
    let mut next = |limits: RangeInclusive<u64>, refusal: u8| {
        let groups = number(bytes, place)?;
        let value = value(groups);
        if !limits.contains(&value) {
            return Err((refusal, place));
        }
        place += groups.len();
        Ok(value)
    };
    let kind = next(0..=1, 13)?;
    let length = next(0..=32, 1)?;
    let quotient = next(0..=(1 << length) - 1, 2)?;
    let hop = if kind == 1 { next(1..=65_535, 3)? } else { 0 };
    let address = quotient << (32 - length);
    let record = [kind, length, address, hop].map(|number| number as u32);
    Ok(Some((record, place)))
}
