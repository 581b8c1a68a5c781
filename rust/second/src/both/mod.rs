//! The calls, each asked of both programs: the answers are compared, and so is every cell that was lent. A refused call has left
//! all of them as they were, an accepted one has changed exactly what the second program says. A difference is a panic. The slot
//! calls are here, those of lists in rows and in one slice, the mend, the download, ranges, DXR tables and records in their own
//! modules; `calls` counts them all.

pub mod calls;
pub mod chunk;
pub mod download;
pub mod dxr;
pub mod images;
pub mod list;
pub mod mend;
pub mod prefixes;
pub mod ranges;
pub mod records;
pub mod sequence;

use crate::list::bounds;
use crate::random::{Random, Rows};
use crate::slots::{self as plain, Image, Write};
use crate::Fault;
use calls::{counted, Call};
use hawkmortar::{slots as proved, NextHop, Refusal};
use std::collections::BTreeSet;
use std::fmt::Debug;

pub fn fault(refusal: Refusal) -> Fault {
    (refusal.number(), refusal.place())
}

/// The answer of a lookup in the library, in numbers.
pub fn numbers(found: Result<Option<NextHop>, Refusal>) -> Result<u32, Fault> {
    found.map(|hop| hop.map_or(0, |hop| hop.get().into())).map_err(fault)
}

/// The library's answers for some addresses are those of the second program: one for each address, or a refusal of them all.
fn alike(keys: &[u32], found: &[Result<u32, Fault>], expected: Result<Vec<u32>, Fault>, table: &impl Debug) {
    let expected = match expected {
        Ok(hops) => hops.into_iter().map(Ok).collect(),
        Err(fault) => vec![Err(fault); keys.len()],
    };
    if let Some(i) = (0..keys.len()).find(|&i| found[i] != expected[i]) {
        panic!("{:?}, not {:?}, for {} in {table:?}", found[i], expected[i], keys[i]);
    }
}

/// A set of a prefix, or its removal where there is no hop.
#[derive(Clone, Copy, Debug)]
pub struct Update {
    pub address: u32,
    pub length: u32,
    pub hop: Option<u32>,
}

pub fn set(address: u32, length: u32, hop: u32) -> Update {
    Update {
        address,
        length,
        hop: Some(hop),
    }
}

pub fn remove(address: u32, length: u32) -> Update {
    Update {
        address,
        length,
        hop: None,
    }
}

/// The most slots of an image that `check` asks by runs too: the time of that grows with the square of the slots.
const SLOTS_BY_RUNS: usize = 1024;

/// What both programs answer to a test of the image, the second one rule by rule and, of all but the largest images, by runs.
pub fn check(image: &Image) -> Result<usize, Fault> {
    if image.tags.len() <= SLOTS_BY_RUNS {
        return check_by_runs(image);
    }
    check_by_rules(image)
}

/// What both programs answer to a test of the image, the second one rule by rule and by runs.
pub fn check_by_runs(image: &Image) -> Result<usize, Fault> {
    let found = check_by_rules(image);
    assert_eq!(plain::check_by_runs(&image.addresses, &image.tags), found, "{image:?}");
    found
}

/// What both programs answer to a test of the image, the second one rule by rule.
fn check_by_rules(image: &Image) -> Result<usize, Fault> {
    let lent = image.clone();
    let found = counted(
        Call::SlotCheck,
        proved::check(&lent.addresses, &lent.tags).map_err(fault),
    );
    assert_eq!(found, plain::check(&image.addresses, &image.tags), "{image:?}");
    assert!(lent == *image, "a test changed {image:?}");
    found
}

/// What the library answers for the address `q`.
fn library_lookup(image: &Image, q: u32) -> Result<u32, Fault> {
    counted(
        Call::SlotLookup,
        numbers(proved::lookup(&image.addresses, &image.tags, q)),
    )
}

/// What both programs answer for each of some addresses.
pub fn lookups(image: &Image, keys: &[u32]) -> Vec<Result<u32, Fault>> {
    let lent = image.clone();
    let found: Vec<_> = keys.iter().map(|&q| library_lookup(&lent, q)).collect();
    let expected = plain::lookups(&image.addresses, &image.tags, keys);
    alike(keys, &found, expected, image);
    assert!(lent == *image, "a lookup changed {image:?}");
    found
}

/// What both programs answer for the address `q`.
pub fn lookup(image: &Image, q: u32) -> Result<u32, Fault> {
    lookups(image, &[q])[0]
}

/// The plan that both programs make in a row of `room` cells: the cells of its writes. The cells past them are as found.
pub fn plan(image: &Image, update: Update, room: usize) -> Result<Vec<u32>, Fault> {
    let Update { address, length, hop } = update;
    let Image { addresses, tags } = image;
    match hop {
        Some(hop) => {
            let expected = plain::plan_set(addresses, tags, address, length, hop, room);
            planned(Call::PlanSet, image, room, expected, &update, |lent, row| {
                proved::plan_set(&lent.addresses, &lent.tags, address, length, hop, row)
            })
        }
        None => {
            let expected = plain::plan_remove(addresses, tags, address, length, room);
            planned(Call::PlanRemove, image, room, expected, &update, |lent, row| {
                proved::plan_remove(&lent.addresses, &lent.tags, address, length, row)
            })
        }
    }
}

/// The library's plan of a call, in a row of `room` cells, is the second program's: the cells of its writes.
fn planned(
    call: Call,
    image: &Image,
    room: usize,
    expected: Result<Vec<Write>, Fault>,
    what: &impl Debug,
    library: impl FnOnce(&Image, &mut [u32]) -> Result<usize, Refusal>,
) -> Result<Vec<u32>, Fault> {
    let blank: Vec<u32> = (0..room as u32).map(|i| 0xabcd_0000 + i).collect();
    let (lent, mut row) = (image.clone(), blank.clone());
    let found = counted(call, library(&lent, &mut row).map_err(fault));
    let expected = expected.map(|writes| writes.concat());
    assert_eq!(
        found,
        expected.clone().map(|cells| cells.len() / 3),
        "{what:?}, room {room}, in {image:?}"
    );
    let written = expected.as_ref().map_or(&[][..], |cells| cells);
    assert_eq!(row[..written.len()], *written, "writes of {what:?} in {image:?}");
    assert_eq!(row[written.len()..], blank[written.len()..], "cells past {what:?}");
    assert!(lent == *image, "{what:?} changed {image:?}");
    expected
}

/// The first `k` writes of a plan, made by both programs: their answer; `image` is as both leave it.
pub fn apply(image: &mut Image, plan: &[u32], k: usize) -> Result<usize, Fault> {
    let before = image.clone();
    let mut expected_image = image.clone();
    let lent = plan.to_vec();
    let found = proved::apply(&mut image.addresses, &mut image.tags, &lent, k);
    let found = counted(Call::Apply, found.map_err(fault));
    let expected = plain::apply(&mut expected_image.addresses, &mut expected_image.tags, plan, k);
    assert_eq!(found, expected, "{k} writes of {plan:?}");
    assert!(*image == expected_image, "{k} writes of {plan:?} in {before:?}");
    assert!(found.is_ok() || *image == before, "a refused plan was made: {plan:?}");
    assert!(lent == plan, "{k} writes changed {plan:?}");
    found
}

/// A prefix's first and last address and those one beyond.
pub fn edges(address: u32, length: u32) -> [u32; 4] {
    let (first, last) = bounds(address, length);
    [first, last, first.wrapping_sub(1), last.wrapping_add(1)]
}

/// The slots of a good list, as the book has them, none of them free.
pub fn slots_of(list: &Rows) -> Image {
    images::table_of(list.addresses.len().max(1), list)
}

/// Some addresses with their two neighbours, and the first and the last address of all.
pub fn about(addresses: &[u32]) -> Vec<u32> {
    let near = addresses
        .iter()
        .flat_map(|&a| [a.wrapping_sub(1), a, a.wrapping_add(1)]);
    let keys: BTreeSet<u32> = near.chain([0, u32::MAX]).collect();
    keys.into_iter().collect()
}

/// Changes one cell, or one row's length, so that most results are to be refused.
pub fn damage(image: &mut Image, random: &mut Random) {
    if random.one_in(12) {
        let row = if random.one_in(2) {
            &mut image.addresses
        } else {
            &mut image.tags
        };
        if random.one_in(2) {
            row.push(0);
        } else {
            row.pop();
        }
        return;
    }
    let slots = image.addresses.len().min(image.tags.len()) as u64;
    if slots == 0 {
        return;
    }
    let (i, j) = (random.below(slots) as usize, random.below(slots) as usize);
    match random.below(6) {
        0 => image.tags[i] = random.pick(&[0, 1, 33 << 16 | 1, 32 << 16, 24 << 16 | 1, 8 << 16 | 1, u32::MAX]),
        1 => image.addresses[i] ^= 1 << random.below(32),
        2 => (image.addresses[i], image.tags[i]) = (0, 0),
        3 => (image.addresses[i], image.tags[i]) = (image.addresses[j], image.tags[j]),
        _ => {
            image.addresses.swap(i, j);
            image.tags.swap(i, j);
        }
    }
}
