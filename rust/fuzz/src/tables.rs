//! Scenarios of slots and their download, of lent ranges and chunks, and of record bytes.

use second::both;
use second::both::download::{self, Between};
use second::both::images::{doubled, pool, runs};
use second::both::mend::{mended_again, plan_mend, set_of};
use second::both::records::{bytes_of, follow, random_records};
use second::both::sequence::{supply, Run, Seen};
use second::both::{chunk, remove, set, Update};
use second::random::{Random, Rows};
use second::ranges::Ranges;
use second::slots::Image;

/// The most updates of a sequence.
const UPDATES: usize = 60;

/// The walks over a table.
const WALKS: usize = 3;

/// A sequence of updates from an empty table or one that has entries; every cut of every plan is looked up and mended.
pub fn sequence(mut draw: Random) {
    let most = draw.pick(&[3, 8, 20]);
    let slots = 1 + draw.below(most) as usize;
    let prefixes = supply(&mut Random::new(draw.below(65_536)), slots);
    let entries = draw.below(slots as u64 + 1) as usize;
    let odd = 2 + draw.below(6);
    let mut seen = Seen::default();
    let mut run = Run::new(draw, prefixes, slots, odd, &mut seen);
    run.prefill(entries);
    run.calls_of_bytes(UPDATES);
}

/// Walks of the download over a table that is updated meanwhile.
pub fn download(mut draw: Random) {
    let most = draw.pick(&[3, 8, 20]);
    let slots = 1 + draw.below(most) as usize;
    let prefixes = supply(&mut Random::new(draw.below(65_536)), slots);
    let updates = draw.below(2 * slots as u64) as usize;
    let walks = [(); WALKS].map(|_| Between::any(&mut draw));
    let mut seen = download::Seen::default();
    let mut run = download::Run::new(draw, prefixes, slots, &mut seen);
    run.updates(updates);
    walks.into_iter().for_each(|between| run.walk(between));
}

/// An image, good, half-written, damaged or of any numbers: its test, lookups, downloads, plans and mends of any room, and applies of
/// plans that may be damaged.
pub fn image(draw: &mut Random) {
    let mut image = match draw.below(4) {
        0 => any_image(draw),
        1 => half_written_image(draw),
        _ => good_image(draw),
    };
    for _ in 0..draw.below(4) {
        both::damage(&mut image, draw);
    }
    let _ = both::check(&image);
    for _ in 0..4 {
        let update = update(draw, &image);
        let keys = [update.address, draw.number() as u32];
        both::lookups(&image, &keys);
        download::nexts(&image, &[None, Some((update.address, update.length))]);
        mend(draw, &mut image, &keys);
        let room = draw.below(58) as usize;
        let plan = both::plan(&image, update, room).unwrap_or_default();
        apply(draw, &mut image, plan);
    }
}

/// The mend of an image with any room. Where it has writes its cuts are mended too, and one of them is the image from then on.
fn mend(draw: &mut Random, image: &mut Image, keys: &[u32]) {
    let room = draw.pick(&[0, 3, 6, 9, 54]) + draw.below(3) as usize;
    let _ = plan_mend(image, room);
    if plan_mend(image, 54).is_ok_and(|plan| !plan.is_empty()) {
        let mut cuts = mended_again(image, &set_of(image), keys);
        *image = cuts.swap_remove(draw.below(cuts.len() as u64) as usize);
    }
}

/// A plan, as it is, damaged or followed by any writes, of which some are made.
fn apply(draw: &mut Random, image: &mut Image, mut plan: Vec<u32>) {
    let slots = image.tags.len() as u64;
    for _ in 0..draw.below(4) {
        let (address, tag) = cell(draw);
        plan.extend([draw.below(slots + 2) as u32, address, tag]);
    }
    if draw.one_in(4) && !plan.is_empty() {
        let place = draw.below(plan.len() as u64) as usize;
        plan[place] = draw.pick(&[0, 1, 33 << 16 | 1, 16 << 16, 4096, u32::MAX]);
    }
    plan.truncate(plan.len() - draw.below(3).min(plan.len() as u64) as usize);
    let k = match draw.below(8) {
        0 => plan.len() / 3 + 1,
        1 => draw.pick(&[usize::MAX, usize::MAX / 3 + 1]),
        _ => draw.below(plan.len() as u64 / 3 + 1) as usize,
    };
    if both::apply(image, &plan, k).is_ok() {
        both::lookups(image, &[draw.number() as u32]);
    }
}

/// A set or a removal: of a prefix that an image has, near it, or of any numbers.
fn update(draw: &mut Random, image: &Image) -> Update {
    let cells: Vec<(u32, u32)> = image
        .addresses
        .iter()
        .copied()
        .zip(image.tags.iter().copied())
        .collect();
    let (address, tag) = if cells.is_empty() || draw.one_in(3) {
        cell(draw)
    } else {
        draw.pick(&cells)
    };
    let length = match draw.below(8) {
        0 => (tag >> 16) + 1,
        1 => 33,
        _ => tag >> 16,
    };
    if draw.one_in(3) {
        return remove(address, length);
    }
    let hop = if draw.one_in(4) {
        draw.pick(&[0, 1, 65_535, 65_536, u32::MAX])
    } else {
        tag & 0xffff
    };
    set(address, length, hop)
}

/// The image of a book's table, with slots left over.
fn good_image(draw: &mut Random) -> Image {
    let entries = draw.below(12) as usize;
    let list = Rows::near(draw, entries, 3);
    let mut book = second::book::Book::new(entries.max(1) + draw.below(3) as usize);
    for i in 0..entries {
        book.set(list.addresses[i], list.lengths[i], list.hops[i], 54)
            .expect("a free slot");
    }
    book.image()
}

/// The image of a book's table with one or two entries put in once more, as long as it has an entry and a free slot. In some a slot has
/// another hop then.
fn half_written_image(draw: &mut Random) -> Image {
    let mut image = good_image(draw);
    for _ in 0..draw.pick(&[1, 1, 2]) {
        let runs = runs(&image);
        if runs.is_empty() || pool(&image).is_empty() {
            return image;
        }
        let run = &runs[draw.below(runs.len() as u64) as usize];
        let mut of_run = |slots: usize| run.start + draw.below(slots as u64) as usize;
        image = doubled(&image, of_run(run.len()), of_run(run.len() + 1));
    }
    let slot = draw.below(image.tags.len() as u64) as usize;
    if image.tags[slot] != 0 && draw.one_in(3) {
        image.tags[slot] = image.tags[slot] & !0xffff | 4;
    }
    image
}

/// An image of any cells, rarely of more than the most.
fn any_image(draw: &mut Random) -> Image {
    if draw.one_in(16) {
        return Image::empty(draw.pick(&[0, 4096, 4097]));
    }
    let (addresses, tags) = (0..draw.below(10)).map(|_| cell(draw)).unzip();
    Image { addresses, tags }
}

/// An address and a tag: free, a valid entry, or neither.
fn cell(draw: &mut Random) -> (u32, u32) {
    if draw.one_in(4) {
        return (0, 0);
    }
    let length = draw.below(34) as u32;
    let near = draw.pick(&[0, 0x0a14_0409, u32::MAX]);
    let address = both::list::prefix_at(near, length.min(32)) ^ u32::from(draw.one_in(16));
    (address, length << 16 | draw.below(3) as u32)
}

/// Lent ranges: those of a list, damaged, or any numbers.
pub fn ranges(draw: &mut Random) {
    let mut ranges = if draw.one_in(4) {
        any_ranges(draw)
    } else {
        let entries = draw.below(12) as usize;
        both::ranges::built(&Rows::near(draw, entries, 3))
    };
    for _ in 0..3 {
        let mut keys: Vec<u32> = (0..4).map(|_| draw.number() as u32).collect();
        if !ranges.starts.is_empty() {
            keys.extend(both::about(&[draw.pick(&ranges.starts)]));
        }
        both::ranges::lookups(&ranges, &keys);
        both::ranges::damage(&mut ranges, draw);
    }
}

/// Ranges of any numbers, most starts near together, and rarely of more than the most.
fn any_ranges(draw: &mut Random) -> Ranges {
    if draw.one_in(8) {
        let count = draw.pick(&[0, 8193, 8194]);
        return Ranges {
            starts: (0..count).collect(),
            hops: (0..count).map(|i| i % 2).collect(),
        };
    }
    let mut start = 0;
    let mut range = |_| {
        let at = start;
        start = at + draw.below(3) as u32;
        (at, draw.pick(&[0, 1, 2, 65_535, 65_536]))
    };
    let (starts, hops) = (0..8).map(&mut range).unzip();
    Ranges { starts, hops }
}

/// A chunk of a lent DXR table, good and then damaged again and again; or any main word and range words.
pub fn chunk(draw: &mut Random) {
    let entries = 2 + draw.below(12);
    let mut chunk = chunk::random(draw, entries);
    let keys = chunk.keys();
    if draw.one_in(4) {
        chunk.word = draw.number() as u32;
    }
    for _ in 0..4 {
        let mut asked = vec![draw.below(65_536) as u32];
        asked.extend((0..3).map(|_| draw.pick(&keys)));
        chunk.asked(&asked);
        chunk::damage(&mut chunk, draw);
    }
    if draw.one_in(8) {
        let main = vec![0; draw.pick(&[0, 65_535, 65_537])];
        let dxr = second::dxr::Dxr {
            main,
            words: chunk.words,
        };
        let _ = both::dxr::lookup(&dxr, draw.number() as u32);
    }
}

/// The records of the bytes that are left, or of good records with a part changed, from the front and from any place.
pub fn records(draw: &mut Random) {
    let bytes = if draw.one_in(2) {
        draw.rest()
    } else {
        changed_records(draw)
    };
    follow(&bytes);
    for at in 0..=bytes.len().min(24) {
        let _ = both::records::record_at(&bytes, at);
    }
    for past in [1, 2, usize::MAX - bytes.len()] {
        let _ = both::records::record_at(&bytes, bytes.len() + past);
    }
}

/// Good records, cut and with bytes changed, or neither.
fn changed_records(draw: &mut Random) -> Vec<u8> {
    let count = 1 + draw.below(6) as usize;
    let mut bytes = bytes_of(&random_records(draw, count));
    for _ in 0..draw.below(3) {
        let place = draw.below(bytes.len() as u64) as usize;
        bytes[place] = draw.pick(&[0, 1, 2, 15, 16, 32, 33, 127, 128, 255]);
    }
    if draw.one_in(3) {
        bytes.truncate(draw.below(bytes.len() as u64) as usize);
    }
    bytes
}
