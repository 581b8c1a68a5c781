//! Update records: reading one at a place.

use super::Fault;

/// The number at a place and the place behind it; refusals 11, 12.
fn number(bytes: &[u8], at: usize) -> Result<(u32, usize), Fault> {
    let mut number = 0;
    for (i, &byte) in bytes[at..].iter().take(5).enumerate() {
        // the fifth group has four bits
        if i == 4 && byte > 15 {
            return Err((11, at));
        }
        number |= u32::from(byte & 127) << (7 * i);
        if byte < 128 {
            if byte == 0 && i > 0 {
                return Err((11, at));
            }
            return Ok((number, at + i + 1));
        }
    }
    Err((12, bytes.len()))
}

/// The number at a place, which is to be at most `most`, a limit below 128: such a number has one byte.
#[inline(always)]
fn small_number(bytes: &[u8], at: usize, most: u8, refusal: u8) -> Result<(u32, usize), Fault> {
    match bytes.get(at) {
        None => Err((12, at)),
        Some(&byte) if byte <= most => Ok((byte.into(), at + 1)),
        Some(_) => number(bytes, at).and(Err((refusal, at))),
    }
}

/// Reads a record's kind, length, address and hop, and answers the place behind it; refusals 8, then number by number 11, 12 and
/// 13, 1, 2 or 3.
#[inline(never)]
pub fn numbers_at(bytes: &[u8], at: usize, record: &mut [u32; 4]) -> Result<usize, Fault> {
    if at > bytes.len() {
        return Err((8, 0));
    }
    if at == bytes.len() {
        return Ok(at);
    }
    let (kind, length_at) = small_number(bytes, at, 1, 13)?;
    let (length, address_at) = small_number(bytes, length_at, 32, 1)?;
    let (quotient, hop_at) = number(bytes, address_at)?;
    if u64::from(quotient) >> length != 0 {
        return Err((2, address_at));
    }
    let address = (u64::from(quotient) << (32 - length)) as u32;
    if kind == 0 {
        *record = [kind, length, address, 0];
        return Ok(hop_at);
    }
    let (hop, next) = number(bytes, hop_at)?;
    if hop == 0 || hop > 65_535 {
        return Err((3, hop_at));
    }
    *record = [kind, length, address, hop];
    Ok(next)
}
