//! The same checked work in plain Rust.

pub mod dxr;
pub mod ranges;
pub mod records;
pub mod slots;

/// A refusal's number and place.
pub type Fault = (u8, usize);

fn span(length: u32) -> u64 {
    if length < 32 {
        1 << (32 - length)
    } else {
        1
    }
}

fn entry_fault(place: usize, address: u32, length: u32, hop: u32) -> Result<(), Fault> {
    if length > 32 {
        return Err((1, place));
    }
    if u64::from(address) % span(length) != 0 {
        return Err((2, place));
    }
    if hop == 0 || hop > 65_535 {
        return Err((3, place));
    }
    Ok(())
}

/// Refusals 8, then entry by entry 1 to 4; the number of entries.
pub fn check(addresses: &[u32], lengths: &[u32], hops: &[u32]) -> Result<usize, Fault> {
    let n = addresses.len();
    if lengths.len() != n || hops.len() != n || n > 4096 {
        return Err((8, 0));
    }
    for i in 0..n {
        entry_fault(i, addresses[i], lengths[i], hops[i])?;
        for j in 0..i {
            if addresses[j] == addresses[i] && lengths[j] == lengths[i] {
                return Err((4, i));
            }
        }
    }
    Ok(n)
}

/// The hop of the longest match, 0 for none.
#[inline(never)]
pub fn lookup(addresses: &[u32], lengths: &[u32], hops: &[u32], q: u32) -> Result<u32, Fault> {
    let n = check(addresses, lengths, hops)?;
    let mut best: Option<(u32, u32)> = None;
    for i in (0..n).rev() {
        let s = span(lengths[i]);
        if u64::from(q) / s == u64::from(addresses[i]) / s && best.is_none_or(|(longest, _)| longest < lengths[i]) {
            best = Some((lengths[i], hops[i]));
        }
    }
    Ok(best.map_or(0, |(_, hop)| hop))
}
