//! Images that the tests of several calls start from, and changes to them.

use super::{check, remove, set, Update};
use crate::book::Book;
use crate::ip;
use crate::random::{Random, Rows};
use crate::slots::Image;
use std::collections::BTreeSet;
use std::ops::Range;

/// An address and a tag.
pub type Cell = (u32, u32);

/// A free slot.
pub const FREE: Cell = (0, 0);

/// What a slot holds.
pub fn cell(image: &Image, slot: usize) -> Cell {
    (image.addresses[slot], image.tags[slot])
}

/// The length of the entry in a slot.
pub fn length(image: &Image, slot: usize) -> u32 {
    image.tags[slot] >> 16
}

/// The image with another cell in a slot.
pub fn with(image: &Image, slot: usize, (address, tag): Cell) -> Image {
    let mut image = image.clone();
    (image.addresses[slot], image.tags[slot]) = (address, tag);
    image
}

/// The image with the cell of one slot in another one too.
pub fn copied(image: &Image, from: usize, to: usize) -> Image {
    with(image, to, cell(image, from))
}

/// The same prefix under another next hop.
pub fn other_hop((address, tag): Cell) -> Cell {
    (address, if tag & 0xffff == 9 { tag + 1 } else { tag & !0xffff | 9 })
}

/// The ways to break S1: a free slot with an address, a length over 32, an address that is no multiple, no hop.
pub fn bad_cells() -> [Cell; 9] {
    [
        (8, 0),
        (1 << 31, 0),
        (0, 33 << 16 | 1),
        (0, u32::MAX),
        (1, 31 << 16 | 1),
        (1 << 31, 1),
        (ip([10, 20, 4, 0]), 16 << 16 | 2),
        (ip([10, 20, 4, 0]), 24 << 16),
        (0, 24 << 16),
    ]
}

/// The image of slots given as address, length and hop; all 0 is a free slot.
pub fn image_of(slots: &[(u32, u32, u32)]) -> Image {
    Image {
        addresses: slots.iter().map(|&(address, _, _)| address).collect(),
        tags: slots.iter().map(|&(_, length, hop)| length << 16 | hop).collect(),
    }
}

/// The image of case f of the board.
pub fn board() -> Image {
    image_of(&[
        (ip([10, 20, 4, 9]), 32, 2),
        (ip([10, 20, 4, 0]), 24, 3),
        (ip([10, 20, 0, 0]), 16, 2),
        (0, 0, 0),
        (0, 0, 0),
        (0, 0, 0),
        (ip([10, 0, 0, 0]), 8, 1),
        (0, 0, 7),
    ])
}

/// A prefix of a length, the j-th of it.
pub fn prefix(length: u32, j: u32) -> u32 {
    (u64::from(j) << (32 - length)) as u32
}

/// A table with so many entries of each of some lengths, as the book has it.
pub fn table(slots: usize, lengths: impl IntoIterator<Item = u32>, each: u32) -> Image {
    let mut book = Book::new(slots);
    for length in lengths {
        for j in 0..each.min(1u32.checked_shl(length).unwrap_or(u32::MAX)) {
            book.set(prefix(length, j), length, 1 + j, 54).unwrap();
        }
    }
    book.image()
}

/// The table of a good list, as the book has it.
pub fn table_of(slots: usize, list: &Rows) -> Image {
    let mut book = Book::new(slots);
    for (i, &address) in list.addresses.iter().enumerate() {
        book.set(address, list.lengths[i], list.hops[i], 54).unwrap();
    }
    let image = book.image();
    assert_eq!(check(&image), Ok(list.addresses.len()));
    image
}

/// Tables in which a set, and a removal off the edge and at the edge, take each number of writes: the first lengths next to the
/// pool have two entries each, and so has the length updated.
pub fn by_writes() -> Vec<(Image, Update, usize)> {
    let mut cases = Vec::new();
    for moved in 0..=16 {
        let image = table(64, 16..16 + moved, 2);
        cases.push((image, set(u32::MAX, 32, 1), 1 + moved as usize));
        let image = table(64, (16..16 + moved).chain([32]), 2);
        cases.push((image.clone(), remove(0, 32), 2 + moved as usize));
        cases.push((image.clone(), remove(image.addresses[1], 32), 1 + moved as usize));
        cases.push((image, set(0, 32, 9), 1));
    }
    for moved in 0..=15 {
        let image = table(64, 16 - moved..16, 2);
        cases.push((image, set(0, 0, 1), 1 + moved as usize));
        let image = table(64, (16 - moved..16).chain([0]), 2);
        cases.push((image.clone(), remove(0, 0), 1 + moved as usize));
        cases.push((image, set(0, 0, 9), 1));
    }
    for moved in 0..=14 {
        let image = table(64, (16 - moved..16).chain([1]), 2);
        let first = image.tags.iter().position(|&tag| tag != 0 && tag >> 16 == 1).unwrap();
        for (slot, writes) in [(first, 1), (first + 1, 2)] {
            cases.push((image.clone(), remove(image.addresses[slot], 1), writes + moved as usize));
        }
    }
    cases
}

/// A free slot; three prefixes of length 24, one of them under two next hops, and three of length 8 so; the default route under two
/// next hops; other lengths above the pool and below it, one address at all lengths but 0; and two cells that break S1, one with an
/// entry's length and one with no tag.
pub const CELLS: [Cell; 16] = [
    FREE,
    (0x0a00_0000, 32 << 16 | 1),
    (0x0a00_0000, 24 << 16 | 1),
    (0x0a00_0000, 24 << 16 | 2),
    (0x0a00_0100, 24 << 16 | 1),
    (0x0a00_0200, 24 << 16 | 1),
    (0x0a00_0000, 16 << 16 | 1),
    (0x0a00_0000, 15 << 16 | 1),
    (0x0a00_0000, 8 << 16 | 1),
    (0x0a00_0000, 8 << 16 | 2),
    (0x0b00_0000, 8 << 16 | 1),
    (0x0c00_0000, 8 << 16 | 1),
    (0, 7),
    (0, 8),
    (0x0a00_0001, 24 << 16 | 1),
    (0x0a00_0000, 0),
];

/// Every image of 1 to 5 slots of the chosen cells.
pub fn small_images() -> impl Iterator<Item = Image> {
    let count = CELLS.len();
    (1..=5).flat_map(move |slots| {
        (0..count.pow(slots)).map(move |i| {
            let (addresses, tags) = (0..slots).map(|slot| CELLS[i / count.pow(slot) % count]).unzip();
            Image { addresses, tags }
        })
    })
}

/// A table with so many routes: three in five have length 24, the others 8 to 32.
fn routed(random: &mut Random, slots: usize, routes: usize) -> Image {
    let prefix = |random: &mut Random| {
        let length = if random.below(5) < 3 { 24 } else { 8 + random.below(25) };
        (length as u32, random.number() as u32)
    };
    let list = Rows::distinct(random, routes, prefix, |random| 1 + random.below(20) as u32);
    table_of(slots, &list)
}

/// Tables of 64, 1,024 and 4,096 slots, one of each full and one with a pool.
pub fn routed_tables() -> Vec<Image> {
    let mut random = Random::new(50);
    [
        (64, 64),
        (64, 51),
        (1024, 1024),
        (1024, 901),
        (4096, 4096),
        (4096, 3777),
    ]
    .map(|(slots, routes)| routed(&mut random, slots, routes))
    .into()
}

/// The slots of each length in a well-formed table, from slot 0 upward.
pub fn runs(image: &Image) -> Vec<Range<usize>> {
    let used: Vec<usize> = (0..image.tags.len()).filter(|&slot| image.tags[slot] != 0).collect();
    used.chunk_by(|&one, &next| length(image, one) == length(image, next))
        .map(|run| run[0]..run[run.len() - 1] + 1)
        .collect()
}

/// The free slots of a well-formed table.
pub fn pool(image: &Image) -> Range<usize> {
    let above = image.tags.iter().take_while(|&&tag| tag != 0).count();
    let free = image.tags[above..].iter().take_while(|&&tag| tag == 0).count();
    above..above + free
}

/// The table, which has a pool, with the entry of a slot put in once more before another slot of its run, or at the run's end. The
/// pool is a slot shorter.
pub fn doubled(image: &Image, from: usize, to: usize) -> Image {
    let mut cells: Vec<Cell> = (0..image.tags.len()).map(|slot| cell(image, slot)).collect();
    let free = pool(image).start;
    cells.insert(to, cells[from]);
    cells.remove(if to <= free { free + 1 } else { free });
    let (addresses, tags) = cells.into_iter().unzip();
    Image { addresses, tags }
}

/// Pairs of an earlier and a later slot of a run: every pair in a table of 64 slots, chosen ones in a larger.
pub fn pairs(image: &Image, run: &Range<usize>) -> BTreeSet<(usize, usize)> {
    let (slots, start) = (image.tags.len(), run.start);
    if slots == 64 {
        let of_later = |later| (start..later).map(move |earlier| (earlier, later));
        return run.clone().flat_map(of_later).collect();
    }
    let mut pairs = if run.len() < 192 {
        pairs_at_ends(run)
    } else {
        pairs_about_blocks(run)
    };
    pairs.retain(|&(earlier, later)| start <= earlier && earlier < later && later < run.end);
    pairs
}

/// The second, the middle and the last slot of a run as the later one, each with the first and with its neighbour.
fn pairs_at_ends(run: &Range<usize>) -> BTreeSet<(usize, usize)> {
    let laters = [run.start + 1, (run.start + run.end) / 2, run.end - 1];
    laters
        .iter()
        .flat_map(|&later| [(run.start, later), (later.wrapping_sub(1), later)])
        .collect()
}

/// The pairs at the ends; and the middle slot, the last, those about 64 slots behind the first and about a multiple of 64 as the later
/// one, each with the run's first, second and middle slot and with slots at distances about multiples of 64. Some of these lie
/// outside the run.
fn pairs_about_blocks(run: &Range<usize>) -> BTreeSet<(usize, usize)> {
    let (start, middle) = (run.start, (run.start + run.end) / 2);
    let multiple = start.next_multiple_of(64) + 64;
    let laters = [
        start + 63,
        start + 64,
        start + 65,
        multiple - 1,
        multiple,
        multiple + 1,
        middle,
        run.end - 1,
    ];
    let mut pairs = pairs_at_ends(run);
    for later in laters {
        pairs.extend([(start, later), (start + 1, later), (middle, later)]);
        let distances = [1, 2, 63, 64, 65, 127, 128, 129, 192, 1024, 2048];
        pairs.extend(distances.map(|distance| (later.wrapping_sub(distance), later)));
    }
    pairs
}

/// The table with one of S1 to S4 broken at a slot of a run that is not its first; S3 is broken where the slot before is cleared.
pub fn broken(image: &Image, slot: usize, rule: u32) -> Option<Image> {
    let (address, tag) = cell(image, slot);
    let length = tag >> 16;
    match rule {
        1 => Some(with(image, slot, (address | 1, tag & !0xffff))),
        2 if length < 32 => Some(with(image, slot, (address, tag + 65_536))),
        3 if length >= 16 => Some(with(image, slot - 1, FREE)),
        4 if length <= 15 => Some(with(image, slot, FREE)),
        _ => None,
    }
}
