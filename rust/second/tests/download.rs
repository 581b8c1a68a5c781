//! The download, by the library and by the second program: single calls on images of every kind, refusals, and walks over tables
//! that are updated meanwhile.

use hawkmortar::{Download, NextHop, Plan, Prefix, Route, Table};
use second::book::Book;
use second::both;
use second::both::download::{next, nexts, prefixes, Between, Run, Seen, Walk};
use second::both::images::{bad_cells, board, image_of};
use second::both::list::prefix_at;
use second::both::sequence::supply;
use second::both::{apply, plan, remove, set, Update};
use second::download::{prefix_of, Entry};
use second::ip;
use second::random::Random;
use second::slots::{Image, Write};
use second::Fault;
use std::collections::BTreeSet;
use std::ops::Range;

/// A walk by the library over an image that stays as it is: the entries.
fn walked(image: &Image) -> Vec<Entry> {
    let (mut given, mut last) = (Vec::new(), None);
    while let Some(entry) = next(image, last).unwrap() {
        given.push(entry);
        last = Some(prefix_of(entry));
        assert!(given.len() <= image.tags.len(), "no end of {image:?}");
    }
    given
}

/// An entry of the download.
fn entry(address: [u8; 4], length: u32, hop: u32) -> Entry {
    [ip(address), length, length << 16 | hop]
}

#[test]
fn the_board_is_downloaded() {
    let whole = [
        entry([0, 0, 0, 0], 0, 7),
        entry([10, 0, 0, 0], 8, 1),
        entry([10, 20, 0, 0], 16, 2),
        entry([10, 20, 4, 0], 24, 3),
        entry([10, 20, 4, 9], 32, 2),
    ];
    let mut image = board();
    assert_eq!(walked(&image), whole);
    // each prefix asked from in another length or at another address than is there
    for (address, length, expected) in [
        ([0, 0, 0, 0], 1, Some(whole[1])),
        ([9, 255, 255, 255], 32, Some(whole[1])),
        ([10, 0, 0, 0], 7, Some(whole[1])),
        ([10, 0, 0, 0], 9, Some(whole[2])),
        ([10, 20, 0, 0], 15, Some(whole[2])),
        ([10, 20, 4, 0], 22, Some(whole[3])),
        ([10, 20, 4, 0], 32, Some(whole[4])),
        ([10, 20, 4, 8], 32, Some(whole[4])),
        ([10, 20, 4, 10], 32, None),
        ([224, 0, 0, 0], 4, None),
    ] {
        assert_eq!(next(&image, Some((ip(address), length))), Ok(expected), "{address:?}");
    }
    // case g: after the first of two writes the /16 stands twice, and the /24 is gone
    let cells = plan(&image, remove(ip([10, 20, 4, 0]), 24), 54).unwrap();
    let without = [whole[0], whole[1], whole[2], whole[4]];
    for write in cells.chunks(3) {
        apply(&mut image, write, 1).unwrap();
        assert_eq!(walked(&image), without);
        let gone = Some((ip([10, 20, 4, 0]), 24));
        assert_eq!(next(&image, gone), Ok(Some(whole[4])));
    }
}

#[test]
fn the_first_prefix_of_all_and_the_last() {
    let (first, last) = ([0, 0, 7], [u32::MAX, 32, 32 << 16 | 65_535]);
    let of = |entry: Entry| Some(prefix_of(entry));
    for slots in [1, 2, 5, 4096] {
        let mut image = Image::empty(slots);
        assert_eq!(nexts(&image, &[None, of(first), of(last)]), vec![Ok(None); 3]);
        // each alone, in every slot of the small tables
        for slot in (0..slots).step_by(1 + slots / 8) {
            for entry in [first, last] {
                let mut image = image.clone();
                (image.addresses[slot], image.tags[slot]) = (entry[0], entry[2]);
                let from_first = if entry == last { Some(last) } else { None };
                assert_eq!(
                    nexts(&image, &[None, of(first), of(last)]),
                    [Ok(Some(entry)), Ok(from_first), Ok(None)]
                );
                assert_eq!(next(&image, Some((0, 1))), Ok(from_first));
                assert_eq!(next(&image, Some((u32::MAX - 1, 32))), Ok(from_first));
            }
        }
        if slots > 1 {
            (image.addresses[0], image.tags[0]) = (last[0], last[2]);
            (image.addresses[slots - 1], image.tags[slots - 1]) = (first[0], first[2]);
            assert_eq!(walked(&image), [first, last]);
            image.addresses.reverse();
            image.tags.reverse();
            assert_eq!(walked(&image), [first, last]);
        }
    }
    // every length at the first address and at the last; of length 0 there is one prefix
    let at_first = (0..=32).map(|n| (0, n));
    let at_last = (1..=32).map(|n| (prefix_at(u32::MAX, n), n));
    let prefixes: Vec<(u32, u32)> = at_first.chain(at_last).collect();
    let slots: Vec<_> = prefixes.iter().rev().map(|&(address, n)| (address, n, 1 + n)).collect();
    let given: Vec<_> = walked(&image_of(&slots)).into_iter().map(prefix_of).collect();
    assert_eq!(given, prefixes);
}

/// Every entry of the address space is given, those that are no unicast address too.
#[test]
fn all_addresses_are_downloaded() {
    let mut slots: Vec<_> = (0..=255u32).rev().map(|octet| (octet << 24, 8, 1 + octet)).collect();
    slots.extend([
        (ip([224, 0, 0, 0]), 4, 1),
        (ip([240, 0, 0, 0]), 4, 2),
        (0, 1, 3),
        (1 << 31, 1, 4),
    ]);
    let given = walked(&image_of(&slots));
    assert_eq!(given.len(), 260);
    assert!(given.is_sorted_by(|one, next| prefix_of(*one) < prefix_of(*next)));
    assert_eq!(given[0], entry([0, 0, 0, 0], 1, 3));
    assert_eq!(given[226], entry([224, 0, 0, 0], 4, 1));
    assert_eq!(given[227], entry([224, 0, 0, 0], 8, 225));
    assert_eq!(given[259], entry([255, 0, 0, 0], 8, 256));
}

/// Every image of 4 slots of some cells, three of which are one prefix with three tags.
#[test]
fn the_first_slot_decides_the_tag() {
    let cells = [
        (0, 0, 0),
        (8, 29, 1),
        (8, 29, 2),
        (8, 29, 65_535),
        (0, 0, 7),
        (8, 32, 3),
    ];
    for i in 0..6usize.pow(4) {
        let slots: Vec<_> = (0..4).map(|slot| cells[i / 6usize.pow(slot) % 6]).collect();
        let image = image_of(&slots);
        let first = slots.iter().find(|&&(address, length, _)| (address, length) == (8, 29));
        let expected = first.map(|&(address, length, hop)| [address, length, length << 16 | hop]);
        for from in [(0, 0), (0, 28), (0, 32), (7, 32)] {
            let found = next(&image, Some(from)).unwrap();
            assert!(expected.is_none() || found == expected, "{from:?} in {image:?}");
        }
        // once, however often it stands there
        let given = walked(&image);
        let times = given.iter().filter(|&&entry| prefix_of(entry) == (8, 29)).count();
        assert_eq!(times, usize::from(expected.is_some()));
    }
}

/// Every image of up to 4 slots of chosen cells, asked from the start and from chosen prefixes, valid and not.
#[test]
fn every_image_of_up_to_4_chosen_cells() {
    let cells = [
        (0, 0),
        (0, 7),
        (0, 8),
        (0, 1 << 16 | 2),
        (0, 32 << 16 | 3),
        (1 << 31, 1 << 16 | 4),
        (1 << 31, 2 << 16 | 5),
        ((1 << 31) + 2, 31 << 16 | 1),
        ((1 << 31) + 2, 32 << 16 | 6),
        ((1 << 31) + 2, 32 << 16 | 1),
        ((1 << 31) + 3, 32 << 16 | 1),
        (u32::MAX - 1, 31 << 16 | 1),
        (u32::MAX, 32 << 16 | 65_535),
        (u32::MAX, 32 << 16 | 1),
        // S1 broken
        (8, 0),
        (1 << 31, 1),
        (0, 33 << 16 | 1),
    ];
    let mut asked = vec![None];
    for &(address, tag) in &cells {
        asked.push(Some((address, tag >> 16)));
    }
    asked.extend([(0, 2), (1, 32), (1 << 30, 2), (1 << 31, 32), (u32::MAX - 1, 32)].map(Some));
    asked.extend([(1, 31), (1, 33), (u32::MAX, u32::MAX)].map(Some));
    let count = cells.len();
    let (mut given, mut ends, mut refused) = (0, 0, [0; 9]);
    for slots in 1..=4 {
        for i in 0..count.pow(slots) {
            let (addresses, tags) = (0..slots).map(|slot| cells[i / count.pow(slot) % count]).unzip();
            for answer in nexts(&Image { addresses, tags }, &asked) {
                match answer {
                    Ok(Some(_)) => given += 1,
                    Ok(None) => ends += 1,
                    Err((number, _)) => refused[usize::from(number)] += 1,
                }
            }
        }
    }
    assert!(given > 200_000 && ends > 50_000, "{given} {ends}");
    assert!([1, 2, 7].iter().all(|&number| refused[number] > 10_000), "{refused:?}");
}

/// The start, and what can be asked from about the prefixes of an image: each with every length around and at its address, its
/// neighbours, its last address; and numbers that are no prefix.
fn about(image: &Image) -> Vec<Option<(u32, u32)>> {
    let mut asked = BTreeSet::from([(0, 0), (0, 32), (u32::MAX, 32), (0, 33), (1, 0), (1, u32::MAX)]);
    for (address, length) in prefixes(image) {
        asked.extend((0..=32).map(|n| (prefix_at(address, n), n)));
        for q in both::edges(address, length) {
            asked.extend([(q, 32), (prefix_at(q, length), length), (q, length)]);
        }
        asked.extend([
            (address | 1, length),
            (address, length.saturating_sub(1)),
            (address, length + 1),
        ]);
    }
    [None].into_iter().chain(asked.into_iter().map(Some)).collect()
}

/// An image that keeps S1, of a kind: well-formed; with part of a plan made; of any prefixes in any slots, of which many stand in
/// several, with equal tags and others.
fn random_image(random: &mut Random, kind: usize, slots: usize) -> Image {
    let supply = supply(random, slots);
    if kind == 2 {
        let few = &supply[..1 + random.below(supply.len() as u64) as usize];
        let free = 2 + random.below(6);
        let cell = |_| {
            if random.one_in(free) {
                return (0, 0);
            }
            let (address, length) = random.pick(few);
            (address, length << 16 | random.pick(&[1, 2, 65_535]))
        };
        let (addresses, tags) = (0..slots).map(cell).unzip();
        return Image { addresses, tags };
    }
    let mut book = Book::new(slots);
    for _ in 0..random.below(2 * slots as u64) {
        let (address, length) = random.pick(&supply);
        let _ = book.set(address, length, 1 + random.below(3) as u32, 54);
    }
    let mut image = book.image();
    if kind == 1 {
        // of some plans the longest, but for its last writes
        let planned = |_| {
            let (address, length) = random.pick(&supply);
            if book.has(address, length) {
                return plan(&image, remove(address, length), 54).ok();
            }
            plan(&image, set(address, length, 9), 54).ok()
        };
        let plans: Vec<Vec<u32>> = (0..8).filter_map(planned).collect();
        if let Some(cells) = plans.iter().max_by_key(|cells| cells.len()) {
            let writes = cells.len() as u64 / 3;
            let k = 1 + random.below(writes.max(2) - 1);
            apply(&mut image, cells, k as usize).unwrap();
        }
    }
    image
}

/// The answer in the words of the change request: of the prefixes past the one asked from the least, with its first slot's tag.
fn in_words(image: &Image, from: Option<(u32, u32)>) -> Option<Entry> {
    let cells = image.addresses.iter().zip(&image.tags);
    let used = || cells.clone().filter(|&(_, &tag)| tag != 0);
    let prefixes = used().map(|(&address, &tag)| (address, tag >> 16));
    let (address, length) = prefixes.filter(|&prefix| Some(prefix) > from).min()?;
    let (_, &tag) = used().find(|&(&a, &tag)| (a, tag >> 16) == (address, length))?;
    Some([address, length, tag])
}

/// The slots whose prefix stands in an earlier slot too, and those of them with another tag than the first.
fn repeats(image: &Image) -> (usize, usize) {
    let cell = |slot: usize| (image.addresses[slot], image.tags[slot]);
    let (mut all, mut other) = (0, 0);
    for slot in (0..image.tags.len()).filter(|&slot| cell(slot).1 != 0) {
        let same = |&earlier: &usize| (cell(earlier).0, cell(earlier).1 >> 16) == (cell(slot).0, cell(slot).1 >> 16);
        let first = (0..slot).filter(|&earlier| cell(earlier).1 != 0).find(same);
        all += usize::from(first.is_some());
        other += usize::from(first.is_some_and(|first| cell(first) != cell(slot)));
    }
    (all, other)
}

#[test]
fn random_images_asked_from_everywhere() {
    let mut random = Random::new(11);
    let (mut kinds, mut refused, mut asks) = ([(0, 0); 3], [0; 9], 0);
    for round in 0..1500 {
        let slots = 1 + random.below([4, 16, 64][round / 3 % 3]) as usize;
        let mut image = random_image(&mut random, round % 3, slots);
        let (all, other) = repeats(&image);
        kinds[round % 3].0 += all;
        kinds[round % 3].1 += other;
        let asked = about(&image);
        asks += asked.len();
        let answers = nexts(&image, &asked);
        for (&from, answer) in asked.iter().zip(answers) {
            match answer {
                Ok(given) => assert_eq!(given, in_words(&image, from), "from {from:?} in {image:?}"),
                Err((number, _)) => assert!(matches!(number, 1 | 2), "{number} from {from:?} in {image:?}"),
            }
        }
        both::damage(&mut image, &mut random);
        for answer in nexts(&image, &asked) {
            if let Err((number, _)) = answer {
                refused[usize::from(number)] += 1;
            }
        }
    }
    // well-formed images have no repeats, half-written ones have them with one tag
    assert_eq!(kinds[0], (0, 0));
    assert!(kinds[1].0 > 100 && kinds[1].1 == 0, "{kinds:?}");
    assert!(kinds[2].0 > 2000 && kinds[2].1 > 1000, "{kinds:?}");
    assert!([1, 2, 7, 8].iter().all(|&number| refused[number] > 1000), "{refused:?}");
    assert!(asks > 200_000, "{asks}");
}

#[test]
fn images_of_4096_asked_from_every_entry() {
    let mut random = Random::new(12);
    for kind in 0..3 {
        let image = random_image(&mut random, kind, 4096);
        let present = prefixes(&image);
        assert!(present.len() > 500, "{}", present.len());
        let mut asked = vec![None];
        for &(address, length) in &present {
            let [first, last, before, behind] = both::edges(address, length);
            asked.extend([(address, length), (first, 32), (last, 32), (before, 32), (behind, 32)].map(Some));
        }
        let answers = nexts(&image, &asked);
        assert!(answers.iter().all(Result::is_ok));
        // from each entry the next, and past the last the end
        let chain = answers
            .iter()
            .skip(1)
            .step_by(5)
            .map(|answer| answer.unwrap().map(prefix_of));
        assert!(chain.eq(present[1..].iter().copied().map(Some).chain([None])));
    }
}

/// The image is refused so, whatever is asked from.
fn refused(image: &Image, expected: Fault) {
    let asked = [(0, 0), (u32::MAX, 32), (0, 33), (1, 33), (1, 31), (1 << 31, 0)].map(Some);
    for from in [None].into_iter().chain(asked) {
        assert_eq!(next(image, from), Err(expected), "from {from:?} in {image:?}");
    }
}

#[test]
fn limits_of_slots_of_a_download() {
    for slots in [0, 4097, 4098, 10_000] {
        refused(&Image::empty(slots), (8, 0));
    }
    for slots in [1, 2, 4095, 4096] {
        let mut image = Image::empty(slots);
        assert_eq!(nexts(&image, &[None, Some((0, 0))]), [Ok(None), Ok(None)]);
        (image.addresses[slots - 1], image.tags[slots - 1]) = (8, 32 << 16 | 1);
        let given = Ok(Some([8, 32, 32 << 16 | 1]));
        assert_eq!(nexts(&image, &[None, Some((0, 0))]), [given, given]);
        // the size is tested before the slots
        image.tags[0] = 33 << 16;
        refused(&image, (7, 0));
        image.tags.push(0);
        refused(&image, (8, 0));
        image.addresses.extend([0, 0]);
        refused(&image, (8, 0));
    }
    let mut many = Image::empty(4097);
    many.tags[0] = 33 << 16;
    refused(&many, (8, 0));
    for (addresses, tags) in [
        (7, 8),
        (8, 7),
        (8, 0),
        (0, 8),
        (4096, 4097),
        (4097, 4096),
        (1, 4096),
        (4096, 1),
    ] {
        let mut image = board();
        image.addresses.resize(addresses, 0);
        image.tags.resize(tags, 0);
        refused(&image, (8, 0));
    }
}

#[test]
fn s1_broken_at_each_slot_of_a_download() {
    let mut random = Random::new(13);
    let mut images = vec![Image::empty(6), board()];
    images.extend((0..9).map(|kind| random_image(&mut random, kind % 3, 12)));
    for good in images {
        let asked = about(&good);
        for slot in 0..good.tags.len() {
            for (address, tag) in bad_cells() {
                let mut image = good.clone();
                (image.addresses[slot], image.tags[slot]) = (address, tag);
                refused(&image, (7, slot));
                // wherever the answer would be
                assert!(nexts(&image, &asked).iter().all(|&answer| answer == Err((7, slot))));
                // of two slots the first
                for later in slot + 1..image.tags.len() {
                    (image.addresses[later], image.tags[later]) = (tag | 1, 5);
                    assert_eq!(next(&image, None), Err((7, slot)));
                }
            }
        }
    }
    // other rules may be broken
    for good in [board(), random_image(&mut random, 0, 40)] {
        let mut image = good.clone();
        image.addresses.reverse();
        image.tags.reverse();
        assert_eq!(walked(&image), walked(&good));
    }
}

#[test]
fn s1_broken_at_each_slot_of_4096() {
    let mut random = Random::new(14);
    let images = [
        Image::empty(4096),
        random_image(&mut random, 0, 4096),
        random_image(&mut random, 2, 4096),
    ];
    for (i, good) in images.iter().enumerate() {
        let first = next(good, None).unwrap().map_or((0, 0), prefix_of);
        for slot in 0..4096 {
            let mut image = good.clone();
            (image.addresses[slot], image.tags[slot]) = bad_cells()[(slot + i) % 9];
            assert_eq!(nexts(&image, &[None, Some(first)]), [Err((7, slot)), Err((7, slot))]);
        }
    }
}

/// Size before image before 1 before 2, the last two at place 0.
#[test]
fn refusals_of_a_download_come_in_their_order() {
    let mut random = Random::new(15);
    for image in [
        Image::empty(1),
        board(),
        random_image(&mut random, 2, 20),
        Image::empty(4096),
    ] {
        for length in [33, 34, 64, 255, 256, 65_535, 65_536, 65_568, 1 << 31, u32::MAX] {
            for address in [0, 1, 1 << 31, u32::MAX] {
                assert_eq!(next(&image, Some((address, length))), Err((1, 0)));
            }
        }
        for length in 0..=32 {
            for bit in 0..32 {
                let found = next(&image, Some((1 << bit, length)));
                assert_eq!(found.map(|_| ()), if bit < 32 - length { Err((2, 0)) } else { Ok(()) });
            }
            let found = next(&image, Some((u32::MAX, length)));
            assert_eq!(found.map(|_| ()), if length < 32 { Err((2, 0)) } else { Ok(()) });
            assert!(next(&image, Some((0, length))).is_ok());
        }
        let mut broken = image.clone();
        let last = image.tags.len() - 1;
        broken.tags[last] = 1 << 24;
        refused(&broken, (7, last));
        broken.addresses.pop();
        refused(&broken, (8, 0));
    }
}

/// A table that stays as it is: a walk over its sorted set, which ends within a call more than there are entries.
#[test]
fn tables_that_stay() {
    let mut random = Random::new(16);
    for round in 0..400 {
        let slots = if round < 4 { 4096 } else { 1 + random.below(64) as usize };
        let supply = supply(&mut random, slots);
        let mut book = Book::new(slots);
        let draws = [0, 1, slots / 2, 3 * slots][round % 4];
        for _ in 0..draws {
            let (address, length) = random.pick(&supply);
            if random.one_in(4) {
                let _ = book.remove(address, length, 54);
            } else {
                let _ = book.set(address, length, 1 + random.below(9) as u32, 54);
            }
        }
        let list = book.set_of_entries();
        let hops = list.lengths.iter().zip(&list.hops);
        let mut set: Vec<Entry> = list
            .addresses
            .iter()
            .zip(hops)
            .map(|(&address, (&length, &hop))| [address, length, length << 16 | hop])
            .collect();
        set.sort_unstable();
        let image = book.image();
        assert!(set.len() <= slots);
        // each call from the prefix that the call before gave, all on the one image
        let asked: Vec<_> = [None]
            .into_iter()
            .chain(set.iter().map(|&entry| Some(prefix_of(entry))))
            .collect();
        let answers = nexts(&image, &asked);
        assert_eq!(answers.len(), set.len() + 1);
        assert!(answers
            .iter()
            .copied()
            .eq(set.iter().map(|&entry| Ok(Some(entry))).chain([Ok(None)])));
        if slots <= 64 {
            assert_eq!(walked(&image), set);
        }
    }
}

/// Every walk that goes on with a call, then any number of some writes, again a call, and so on: how many there are.
fn every_walk(image: &Image, writes: &[Write], mut walk: Walk) -> usize {
    if walk.call(image).is_none() {
        walk.promised();
        return 1;
    }
    let (mut image, mut rest) = (image.clone(), writes);
    let mut walks = every_walk(&image, rest, walk.clone());
    while let [write, behind @ ..] = rest {
        apply(&mut image, write, 1).unwrap();
        walk.changed(&image);
        rest = behind;
        walks += every_walk(&image, rest, walk.clone());
    }
    walks
}

/// The writes of updates that are all accepted, one behind the other.
fn writes_of(image: &Image, updates: &[Update]) -> Option<Vec<Write>> {
    let (mut image, mut writes) = (image.clone(), Vec::new());
    for &update in updates {
        let cells = plan(&image, update, 54).ok()?;
        apply(&mut image, &cells, cells.len() / 3).unwrap();
        writes.extend(cells.chunks_exact(3).map(|write| [write[0], write[1], write[2]]));
    }
    Some(writes)
}

/// On 5 slots, from each set of up to five of six prefixes, with each two updates of them: every order of their writes and of the calls
/// of a walk, which begins before the writes, among them or behind them.
#[test]
fn every_order_of_calls_and_writes() {
    let prefixes = [
        (1 << 31, 16),
        (0, 20),
        (ip([255, 0, 0, 0]), 24),
        (0, 24),
        (0, 0),
        (1 << 31, 1),
    ];
    let updates: Vec<Update> = prefixes
        .iter()
        .flat_map(|&(address, length)| [set(address, length, 2), remove(address, length)])
        .collect();
    let (mut walks, mut most) = (0, 0);
    for chosen in 0..63 {
        let mut book = Book::new(5);
        for (i, &(address, length)) in prefixes.iter().enumerate() {
            if chosen >> i & 1 == 1 {
                book.set(address, length, 1, 54).unwrap();
            }
        }
        let image = book.image();
        for &one in &updates {
            for &two in &updates {
                let Some(writes) = writes_of(&image, &[one, two]) else {
                    continue;
                };
                most = most.max(writes.len());
                for begun in 0..=writes.len() {
                    let mut image = image.clone();
                    apply(&mut image, &writes.concat(), begun).unwrap();
                    walks += every_walk(&image, &writes[begun..], Walk::new(&image));
                }
            }
        }
    }
    assert!(walks > 200_000 && most == 7, "{walks} {most}");
}

/// So many walks over each of some tables of 1 to `most` slots, which start empty.
fn walks(seeds: Range<u64>, most: u64, each: usize) -> Seen {
    let mut seen = Seen::default();
    for seed in seeds {
        let mut random = Random::new(seed);
        let slots = 1 + random.below(most) as usize;
        let supply = supply(&mut random, slots);
        let first = random.below(3 * slots as u64) as usize;
        let walks: Vec<_> = (0..each).map(|_| Between::any(&mut random)).collect();
        let mut run = Run::new(random, supply, slots, &mut seen);
        run.updates(first);
        walks.into_iter().for_each(|between| run.walk(between));
    }
    seen
}

/// Everything that matters to a walk came at least so often.
fn frequent(seen: &Seen, least: usize) {
    let once = [
        seen.over_updates,
        seen.twice,
        seen.twice_given,
        seen.from_absent,
        seen.whole,
    ];
    let unread = [seen.absent_unread, seen.present_unread];
    let pairs = [seen.moved, seen.added, seen.removed, seen.other_hop, seen.at_times];
    let counts = [&once[..], &unread, pairs.as_flattened()].concat();
    assert!(counts.iter().all(|&count| count >= least), "{seen:?}");
}

#[test]
fn walks_on_up_to_8_slots() {
    frequent(&walks(0..5000, 8, 12), 3000);
}

#[test]
fn walks_on_up_to_64_slots() {
    frequent(&walks(5000..5600, 64, 12), 1000);
}

#[test]
fn walks_on_4096_slots() {
    let mut seen = Seen::default();
    for (seed, entries, between) in [
        (6000, 4096, Between::Rare(8)),
        (6001, 4000, Between::Rare(8)),
        (6002, 300, Between::Write),
        (6003, 300, Between::Write),
        (6004, 300, Between::Writes(12)),
        (6005, 300, Between::Updates(3)),
    ] {
        let mut random = Random::new(seed);
        let supply = supply(&mut random, 4096);
        let mut run = Run::new(random, supply, 4096, &mut seen);
        run.prefill(entries);
        run.walk(between);
    }
    assert!(seen.twice > 2000 && seen.from_absent > 100, "{seen:?}");
    let pairs = [seen.moved, seen.added, seen.removed, seen.other_hop, seen.at_times];
    assert!(pairs.as_flattened().iter().all(|&count| count > 100), "{seen:?}");
    assert!(seen.absent_unread > 0 && seen.present_unread > 0, "{seen:?}");
}

/// The numbers of a route that a cursor gives, which is shown as its prefix and hop.
fn numbers(route: Route) -> Entry {
    let (address, length, hop) = (route.prefix.address(), route.prefix.length(), route.hop);
    assert_eq!(route.to_string(), format!("{address}/{length} {hop}"));
    [address.into(), length, length << 16 | u32::from(hop.get())]
}

/// A `Table`, rows that are updated alike, and the plan under way with its writes made.
struct Updated {
    table: Table,
    image: Image,
    under_way: Option<(Plan, usize)>,
}

impl Updated {
    /// Makes one write, if the update drawn has any: whether the table is half-written then.
    fn write(&mut self, random: &mut Random, supply: &[(u32, u32)]) -> bool {
        if self.under_way.is_none() {
            let (address, length) = random.pick(supply);
            let prefix = Prefix::new(address, length).unwrap();
            let plan = if random.one_in(3) {
                self.table.plan_remove(prefix)
            } else {
                let hop = NextHop::new(1 + random.below(9) as u16);
                self.table.plan_set(prefix, hop.unwrap())
            };
            self.under_way = plan.ok().filter(|plan| !plan.is_empty()).map(|plan| (plan, 0));
        }
        if let Some((plan, made)) = &mut self.under_way {
            *made += 1;
            self.table.apply(plan, *made).unwrap();
            apply(&mut self.image, plan.cells(), *made).unwrap();
            if *made == plan.len() {
                self.under_way = None;
            }
        }
        self.under_way.is_some()
    }
}

/// A cursor over a `Table` with writes between its steps gives what the calls give on rows with the same writes, also after the end. It
/// does the same over lent rows, and stays where it is at a refusal.
#[test]
fn a_cursor_does_what_the_calls_do() {
    let mut random = Random::new(17);
    let (mut steps, mut half_written, mut after, mut after_the_end, mut refused) = (0, 0, 0, 0, 0);
    for round in 0..600 {
        let slots = 1 + random.below(40) as usize;
        let supply = supply(&mut random, slots);
        let mut updated = Updated {
            table: Table::new(slots).unwrap(),
            image: Image::empty(slots),
            under_way: None,
        };
        for _ in 0..random.below(6 * slots as u64) {
            updated.write(&mut random, &supply);
        }
        let (mut cursor, mut from) = (Download::new(), None);
        if round % 3 == 0 {
            let (address, length) = random.pick(&supply);
            cursor = Download::after(Prefix::new(address, length).unwrap());
            from = Some((address, length));
        }
        let mut ends = 0;
        while ends < 3 {
            for _ in 0..random.below(if ends == 0 { 4 } else { 20 }) {
                half_written += usize::from(updated.write(&mut random, &supply));
            }
            let Updated { table, image, .. } = &updated;
            assert_eq!(
                (table.addresses(), table.tags()),
                (&image.addresses[..], &image.tags[..])
            );
            assert_eq!(
                cursor.last().map(|prefix| (prefix.address().into(), prefix.length())),
                from
            );
            let before = cursor.clone();
            let mut damaged = image.clone();
            both::damage(&mut damaged, &mut random);
            if let Err(fault) = next(&damaged, from) {
                let found = cursor.next_in(&damaged.addresses, &damaged.tags);
                assert_eq!(found.map_err(both::fault), Err(fault), "{damaged:?}");
                assert_eq!(cursor, before);
                refused += 1;
            }
            let mut over_rows = cursor.clone();
            let given = cursor.next(table).unwrap();
            assert_eq!(over_rows.next_in(&image.addresses, &image.tags), Ok(given));
            assert_eq!(over_rows, cursor);
            let given = given.map(numbers);
            assert_eq!(Ok(given), next(image, from), "from {from:?} in {image:?}");
            steps += 1;
            match given {
                None => {
                    assert_eq!(cursor, before);
                    ends += 1;
                }
                Some(entry) => {
                    after += usize::from(round % 3 == 0);
                    after_the_end += usize::from(ends > 0);
                    from = Some(prefix_of(entry));
                }
            }
        }
    }
    let counts = [steps, half_written, after, after_the_end, refused];
    assert!(counts.iter().all(|&count| count > 100), "{counts:?}");
}
