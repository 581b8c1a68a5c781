//! Scenarios of lists: their test and lookup in rows and in one slice, the tables built from them, and their agreement.

use second::both;
use second::both::dxr::{about_chunks, MAIN};
use second::both::list::{list_of, prefix_at};
use second::list::check;
use second::random::{Random, Rows};
use second::ranges::boundaries;
use second::{dxr, ranges};

/// Any small list: asked in rows and in one slice, and built from with any room.
pub fn any(draw: &mut Random) {
    let mut list = drawn(draw);
    for _ in 0..draw.below(4) {
        list.damage(draw);
    }
    let keys = some_keys(draw, &list);
    ask(&list, &keys);
    build_ranges(draw, &list);
    build_dxr(draw, &list);
    let mut others = list;
    both::prefixes::damage(&mut others, draw);
    ask(&others, &keys);
}

/// A good list, its slots, its ranges and its DXR table, all asked at the same addresses.
pub fn agreeing(draw: &mut Random) {
    let list = good(draw);
    let (image, ranges, dxr) = (
        both::slots_of(&list),
        both::ranges::built(&list),
        both::dxr::built(&list),
    );
    let all = about_chunks(&boundaries(&list));
    let mut keys: Vec<u32> = (0..20).map(|_| draw.pick(&all)).collect();
    keys.push(draw.number() as u32);
    both::dxr::agree(&list, &image, &ranges, &dxr, &keys);
    ask(&list, &keys);
}

/// A list about the most entries, in which one number may be another.
pub fn large(draw: &mut Random) {
    let entries = draw.pick(&[4095, 4096, 4097]);
    let mut list = both::list::apart(entries);
    if draw.one_in(2) {
        let place = draw.below(entries as u64) as usize;
        list.lengths[place] = draw.pick(&[31, 32, 33]);
        list.addresses[place] = draw.pick(&[2, 4, list.addresses[entries - 1]]);
    }
    let key = draw.pick(&[0, 2, list.addresses[entries - 1]]);
    ask(&list, &[key]);
}

/// The test and lookups of a list, in rows, and in one slice where they have one length.
fn ask(list: &Rows, keys: &[u32]) {
    let entries = list.addresses.len();
    if list.lengths.len() == entries && list.hops.len() == entries {
        let _ = both::prefixes::check(list);
        both::prefixes::lookups(list, keys);
        return;
    }
    let _ = both::list::check(list);
    for &q in keys {
        let _ = both::list::lookup(list, q);
    }
}

/// The range table of a list, with room for about as many ranges as it has.
fn build_ranges(draw: &mut Random, list: &Rows) {
    let needed = ranges::build(list, usize::MAX, usize::MAX).map_or(0, |ranges| ranges.starts.len());
    let (starts, hops) = (about(draw, needed), about(draw, needed));
    let _ = both::ranges::build(list, starts, hops);
}

/// The DXR table of a list, with room for about as many range words as it has.
fn build_dxr(draw: &mut Random, list: &Rows) {
    let needed = dxr::build(list, MAIN, usize::MAX).map_or(0, |dxr| dxr.words.len());
    let main = if draw.one_in(8) {
        draw.pick(&[0, 1, MAIN - 1, MAIN + 1])
    } else {
        MAIN
    };
    let _ = both::dxr::build(list, main, about(draw, needed));
}

/// A number near another, most often at least that.
fn about(draw: &mut Random, needed: usize) -> usize {
    (needed + draw.below(6) as usize).saturating_sub(2)
}

/// Edges of prefixes of a list, good or not, and any address.
fn some_keys(draw: &mut Random, list: &Rows) -> Vec<u32> {
    let all = both::list::edges(list, 0, 1);
    let mut keys: Vec<u32> = (0..6).map(|_| draw.pick(&all)).collect();
    keys.push(draw.number() as u32);
    keys
}

/// A small list: a good one, or one of prefixes that may repeat.
fn drawn(draw: &mut Random) -> Rows {
    if draw.one_in(2) {
        return good(draw);
    }
    let entries: Vec<(u32, u32, u32)> = (0..draw.below(16)).map(|_| entry(draw)).collect();
    list_of(&entries)
}

/// A valid prefix near one of three addresses, and a hop.
fn entry(draw: &mut Random) -> (u32, u32, u32) {
    let length = draw.below(33) as u32;
    let turned = draw.below(4) << (32 - length);
    let near = draw.pick(&[0, 0x0a14_0409, u32::MAX]) ^ turned as u32;
    (prefix_at(near, length), length, 1 + draw.below(4) as u32)
}

/// A good list of up to 40 entries.
fn good(draw: &mut Random) -> Rows {
    let most = draw.pick(&[4, 12, 40]);
    let entries = draw.below(most + 1) as usize;
    let hops = draw.pick(&[1, 2, 255, 65_535]);
    let list = match draw.below(5) {
        0 => Rows::near(draw, entries, hops),
        1 => Rows::routed(draw, entries, hops),
        2 => Rows::in_blocks(draw, entries, 2, 24, hops),
        3 => Rows::in_blocks(draw, entries, 1, 32, hops),
        _ => Rows::valid(draw, entries, 0xf00f_f00f),
    };
    assert_eq!(check(&list.addresses, &list.lengths, &list.hops), Ok(entries));
    list
}
