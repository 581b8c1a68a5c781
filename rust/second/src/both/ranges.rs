//! The range calls, asked of both programs.

use super::calls::{counted, Call};
use super::{alike, fault, numbers};
use crate::random::{Random, Rows};
use crate::ranges::{self as plain, Ranges};
use crate::Fault;
use hawkmortar::ranges as proved;

/// The ranges that both programs build in rows of so many starts and so many hops. The cells past them are as found.
pub fn build(list: &Rows, starts_room: usize, hops_room: usize) -> Result<Ranges, Fault> {
    let blank = Ranges {
        starts: (0xabcd_0000..).take(starts_room).collect(),
        hops: (0xdcba_0000..).take(hops_room).collect(),
    };
    let (lent, mut rows) = (list.clone(), blank.clone());
    let found = proved::build(
        &lent.addresses,
        &lent.lengths,
        &lent.hops,
        &mut rows.starts,
        &mut rows.hops,
    );
    let expected = plain::build(list, starts_room, hops_room);
    assert_eq!(
        counted(Call::RangesBuild, found.map_err(fault)),
        expected.clone().map(|ranges| ranges.starts.len()),
        "room for {starts_room} starts, {hops_room} hops, of {list:?}"
    );
    let mut left = blank;
    if let Ok(ranges) = &expected {
        left.starts[..ranges.starts.len()].copy_from_slice(&ranges.starts);
        left.hops[..ranges.hops.len()].copy_from_slice(&ranges.hops);
    }
    assert!(rows == left, "{rows:?}, not {left:?}, of {list:?}");
    assert!(lent == *list, "a build changed {list:?}");
    expected
}

/// The ranges of a good list, built with the room that is enough for every list of its size.
pub fn built(list: &Rows) -> Ranges {
    let entries = list.addresses.len();
    let room = 2 * entries + 1;
    let ranges = build(list, room, room + 3).unwrap();
    let most = if list.lengths.contains(&0) { room - 2 } else { room };
    assert!(ranges.starts.len() <= most, "{ranges:?} of {list:?}");
    ranges
}

/// What the library answers for the address `q`.
fn library_lookup(ranges: &Ranges, q: u32) -> Result<u32, Fault> {
    counted(
        Call::RangeLookup,
        numbers(proved::lookup(&ranges.starts, &ranges.hops, q)),
    )
}

/// What both programs answer for each of some addresses.
pub fn lookups(ranges: &Ranges, keys: &[u32]) -> Vec<Result<u32, Fault>> {
    let lent = ranges.clone();
    let found: Vec<_> = keys.iter().map(|&q| library_lookup(&lent, q)).collect();
    alike(keys, &found, plain::lookups(ranges, keys), ranges);
    assert!(lent == *ranges, "a lookup changed {ranges:?}");
    found
}

/// What both programs answer for the address `q`.
pub fn lookup(ranges: &Ranges, q: u32) -> Result<u32, Fault> {
    lookups(ranges, &[q])[0]
}

/// Changes one cell, or one row's length, so that most results are to be refused.
pub fn damage(ranges: &mut Ranges, random: &mut Random) {
    let count = ranges.starts.len().min(ranges.hops.len());
    if count == 0 || random.one_in(12) {
        let row = if random.one_in(2) {
            &mut ranges.starts
        } else {
            &mut ranges.hops
        };
        if random.one_in(2) {
            row.push(u32::MAX);
        } else {
            row.pop();
        }
        return;
    }
    let (i, j) = (random.below(count as u64) as usize, random.below(count as u64) as usize);
    // a neighbour's cell, or the cell itself at the table's end
    let beside = (i + 1).min(count - 1);
    match random.below(7) {
        0 => ranges.starts[i] = ranges.starts[beside],
        1 => ranges.starts[i] = ranges.starts[i].wrapping_add(random.pick(&[1, u32::MAX])),
        2 => ranges.starts.swap(i, j),
        3 => ranges.hops[i] = ranges.hops[beside],
        4 => ranges.hops[i] = random.pick(&[0, 1, 65_535, 65_536, u32::MAX]),
        5 => ranges.hops.swap(i, j),
        _ => ranges.starts[i] ^= 1 << random.below(32),
    }
}
