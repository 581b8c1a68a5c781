//! The DXR calls, asked of both programs.

use super::calls::{counted, Call};
use super::{about, fault, numbers};
use crate::dxr::{self as plain, Dxr};
use crate::random::Rows;
use crate::ranges::Ranges;
use crate::slots::Image;
use crate::Fault;
use hawkmortar::dxr as proved;

/// The words of a main table.
pub const MAIN: usize = 65_536;

/// The kinds of main words that point to range words.
pub const LONG: u32 = 1;
pub const SHORT: u32 = 2;

/// A main word that points to so many entries at a position of the range words.
pub fn pointer(kind: u32, count: usize, position: usize) -> u32 {
    kind << 30 | (count as u32) << 16 | position as u32
}

/// The table that both programs build in a main table of so many words and a row of so many range words. The range words past
/// it are as found.
pub fn build(list: &Rows, main_words: usize, room: usize) -> Result<Dxr, Fault> {
    let blank = Dxr {
        main: (0xabcd_0000..).take(main_words).collect(),
        words: (0xdcba_0000..).take(room).collect(),
    };
    let (lent, mut rows) = (list.clone(), blank.clone());
    let found = proved::build(
        &lent.addresses,
        &lent.lengths,
        &lent.hops,
        &mut rows.main,
        &mut rows.words,
    );
    let expected = plain::build(list, main_words, room);
    assert_eq!(
        counted(Call::DxrBuild, found.map_err(fault)),
        expected.as_ref().map(|dxr| dxr.words.len()).map_err(|&fault| fault),
        "{main_words} main words, room for {room} range words, of {list:?}"
    );
    let mut left = blank;
    if let Ok(dxr) = &expected {
        left.main.copy_from_slice(&dxr.main);
        left.words[..dxr.words.len()].copy_from_slice(&dxr.words);
    }
    same(&rows.main, &left.main, "main word", list);
    same(&rows.words, &left.words, "range word", list);
    assert!(lent == *list, "a build changed {list:?}");
    expected
}

/// Two rows of one length are the same.
fn same(found: &[u32], expected: &[u32], name: &str, list: &Rows) {
    if let Some(i) = (0..found.len()).find(|&i| found[i] != expected[i]) {
        panic!("{name} {i} is {:#x}, not {:#x}, of {list:?}", found[i], expected[i]);
    }
}

/// The table of a good list, with three range words of room more than it needs.
pub fn built(list: &Rows) -> Dxr {
    let words = plain::build(list, MAIN, usize::MAX).unwrap().words.len();
    assert!(words <= 3 * list.addresses.len(), "{words} range words of {list:?}");
    build(list, MAIN, words + 3).unwrap()
}

/// What the library answers for the address `q`.
pub fn library_lookup(dxr: &Dxr, q: u32) -> Result<u32, Fault> {
    counted(Call::DxrLookup, numbers(proved::lookup(&dxr.main, &dxr.words, q)))
}

/// What both programs answer for each of some addresses.
pub fn lookups(dxr: &Dxr, keys: &[u32]) -> Vec<Result<u32, Fault>> {
    let lent = dxr.clone();
    let found: Vec<_> = keys.iter().map(|&q| library_lookup(&lent, q)).collect();
    for (&q, &found) in keys.iter().zip(&found) {
        let word = dxr.main.get(q as usize >> 16);
        assert_eq!(
            found,
            plain::lookup(dxr, q),
            "{q:#x}, main word {word:x?}, {} range words",
            dxr.words.len()
        );
    }
    assert!(lent == *dxr, "a lookup changed the table");
    found
}

/// What both programs answer for the address `q`.
pub fn lookup(dxr: &Dxr, q: u32) -> Result<u32, Fault> {
    lookups(dxr, &[q])[0]
}

/// Both programs answer each key alike in the list, its slots, its ranges and its DXR table.
pub fn agree(list: &Rows, image: &Image, ranges: &Ranges, dxr: &Dxr, keys: &[u32]) {
    let answers = super::list::lookups(list, keys);
    assert_eq!(super::lookups(image, keys), answers, "slots of {list:?}");
    assert_eq!(super::ranges::lookups(ranges, keys), answers, "ranges of {list:?}");
    assert_eq!(lookups(dxr, keys), answers, "DXR table of {list:?}");
}

/// Some addresses, the first and the last of their chunks, and the neighbours of all these.
pub fn about_chunks(addresses: &[u32]) -> Vec<u32> {
    let keys: Vec<u32> = addresses.iter().flat_map(|&a| [a, a & !0xffff, a | 0xffff]).collect();
    about(&keys)
}
