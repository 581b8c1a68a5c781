//! Single slot calls of the library and of the second program, compared: the board, limits, damaged images and plans, room.

use hawkmortar::{NextHop, Prefix, Refusal, Table, MAX_SLOTS};
use second::book::Book;
use second::both;
use second::both::images::{bad_cells, board, by_writes, image_of, prefix, table};
use second::both::{apply, check, edges, lookup, lookups, plan, remove, set, Update};
use second::ip;
use second::random::Random;
use second::slots::Image;

/// Plans and makes the whole update: the number of writes.
fn make(image: &mut Image, update: Update) -> Result<usize, second::Fault> {
    let cells = plan(image, update, 54)?;
    apply(image, &cells, cells.len() / 3)
}

/// The board's set P, in its order.
fn set_p() -> [Update; 5] {
    [
        set(ip([10, 0, 0, 0]), 8, 1),
        set(ip([10, 20, 0, 0]), 16, 2),
        set(ip([10, 20, 4, 0]), 24, 3),
        set(ip([10, 20, 4, 9]), 32, 2),
        set(0, 0, 7),
    ]
}

/// The image test and every update refuse the image so, in both programs, whatever else is wrong.
fn refused(image: &Image, expected: second::Fault) {
    assert_eq!(check(image), Err(expected), "{image:?}");
    for room in [0, 54] {
        for update in [set(0, 0, 1), set(0, 33, 0), remove(0, 0), remove(1, 0)] {
            assert_eq!(plan(image, update, room), Err(expected), "{image:?}");
        }
    }
}

#[test]
fn board_case_f() {
    let mut image = Image::empty(8);
    let writes = set_p().map(|update| make(&mut image, update));
    assert_eq!(writes, [Ok(1), Ok(1), Ok(2), Ok(3), Ok(2)]);
    assert_eq!(image, board());
    assert_eq!(check(&image), Ok(5));
    for (q, hop) in [
        ([10, 20, 4, 9], 2),
        ([10, 20, 4, 10], 3),
        ([10, 20, 5, 0], 2),
        ([10, 21, 0, 0], 1),
        ([255; 4], 7),
    ] {
        assert_eq!(lookup(&image, ip(q)), Ok(hop));
    }
    assert_eq!(make(&mut image, remove(0, 0)), Ok(2));
    assert_eq!(lookup(&image, ip([11, 0, 0, 0])), Ok(0));
}

#[test]
fn board_case_g() {
    let mut image = board();
    let cells = plan(&image, remove(ip([10, 20, 4, 0]), 24), 54).unwrap();
    assert_eq!(cells, [1, ip([10, 20, 0, 0]), 16 << 16 | 2, 2, 0, 0]);
    for (k, hop) in [(0, 3), (1, 2), (2, 2)] {
        let mut cut = image.clone();
        assert_eq!(apply(&mut cut, &cells, k), Ok(k));
        assert_eq!(lookup(&cut, ip([10, 20, 4, 10])), Ok(hop));
    }
    assert_eq!(apply(&mut image, &cells, 2), Ok(2));
    let mut expected = board();
    (expected.addresses[1], expected.tags[1]) = (ip([10, 20, 0, 0]), 16 << 16 | 2);
    (expected.addresses[2], expected.tags[2]) = (0, 0);
    assert_eq!(image, expected);
}

#[test]
fn limits_of_slots() {
    assert_eq!(MAX_SLOTS, 4096);
    for slots in [0, 4097, 10_000] {
        let mut image = Image::empty(slots);
        refused(&image, (8, 0));
        assert_eq!(lookup(&image, 7), Err((8, 0)));
        assert_eq!(apply(&mut image, &[0, 0, 1], 1), Err((8, 0)));
        assert_eq!(apply(&mut image, &[], 1), Err((8, 0)));
        assert_eq!(Table::new(slots), Err(Refusal::Size));
    }
    for slots in [1, 2, 4095, 4096] {
        let mut image = Image::empty(slots);
        assert_eq!(check(&image), Ok(0));
        assert_eq!(lookup(&image, 7), Ok(0));
        assert_eq!(plan(&image, remove(0, 0), 54), Err((6, 0)));
        assert_eq!(make(&mut image, set(0, 0, 9)), Ok(1));
        assert_eq!(image.tags[slots - 1], 9);
        assert_eq!(lookup(&image, 7), Ok(9));
        assert_eq!(make(&mut image, remove(0, 0)), Ok(1));
        assert_eq!(make(&mut image, set(8, 32, 9)), Ok(1));
        assert_eq!(image.tags[0], 32 << 16 | 9);
        assert_eq!(check(&image), Ok(1));
        assert_eq!(Table::new(slots).map(|table| table.slots()), Ok(slots));
    }
    // unequal rows, by one and by all
    for (addresses, tags) in [(7, 8), (8, 7), (8, 0), (0, 8), (4096, 4097), (4097, 4096), (1, 4096)] {
        let mut image = board();
        image.addresses.resize(addresses, 0);
        image.tags.resize(tags, 0);
        refused(&image, (8, 0));
        assert_eq!(lookup(&image, 7), Err((8, 0)));
        assert_eq!(apply(&mut image, &[0, 0, 1], 1), Err((8, 0)));
        assert_eq!(apply(&mut image, &[], usize::MAX), Err((8, 0)));
        let refused = Table::from_rows(image.addresses, image.tags);
        assert_eq!(refused, Err(Refusal::Size));
    }
}

/// The last free slot of 4,096 taken from either side of the pool.
#[test]
fn a_table_of_4096_full() {
    let mut image = table(4096, [24], 4096);
    assert_eq!(check(&image), Ok(4096));
    assert_eq!(plan(&image, set(0, 32, 1), 54), Err((5, 0)));
    assert_eq!(plan(&image, set(0, 0, 1), 0), Err((5, 0)));
    assert_eq!(plan(&image, set(0, 24, 1), 0), Ok(vec![]));
    assert_eq!(lookup(&image, prefix(24, 4095)), Ok(4096));
    assert_eq!(make(&mut image, remove(prefix(24, 17), 24)), Ok(2));
    assert_eq!(image.addresses[17], prefix(24, 4095));
    assert_eq!(make(&mut image, set(0, 0, 1)), Ok(1));
    assert_eq!(image.tags[4095], 1);
    assert_eq!(plan(&image, set(0, 32, 1), 54), Err((5, 0)));
    assert_eq!(make(&mut image, remove(0, 0)), Ok(1));
    assert_eq!(make(&mut image, set(0, 32, 1)), Ok(2));
    assert_eq!(image.tags[0], 32 << 16 | 1);
    assert_eq!(check(&image), Ok(4096));
}

#[test]
fn limits_of_lengths_and_hops_in_updates() {
    for image in [Image::empty(3), board()] {
        for (update, expected) in [
            (set(7, 32, 1), Ok(())),
            (set(u32::MAX, 32, 65_535), Ok(())),
            (set(0, 33, 1), Err((1, 0))),
            (set(0, u32::MAX, 1), Err((1, 0))),
            (set(0, 65_568, 1), Err((1, 0))),
            (set(1 << 31, 0, 1), Err((2, 0))),
            (set(1, 31, 1), Err((2, 0))),
            (set(1 << 31, 1, 1), Ok(())),
            (set(2, 31, 0), Err((3, 0))),
            (set(2, 31, 65_535), Ok(())),
            (set(2, 31, 65_536), Err((3, 0))),
            (set(2, 31, u32::MAX), Err((3, 0))),
            (remove(0, 33), Err((1, 0))),
            (remove(1, 33), Err((1, 0))),
            (remove(1, 31), Err((2, 0))),
            (remove(1 << 31, 0), Err((2, 0))),
            (remove(2, 31), Err((6, 0))),
        ] {
            assert_eq!(plan(&image, update, 54).map(|_| ()), expected, "{update:?}");
        }
    }
}

#[test]
fn limits_of_lengths_and_hops_in_slots() {
    for (cell, q, expected) in [
        ((u32::MAX, 32, 65_535), u32::MAX, Ok(65_535)),
        ((7, 32, 1), 7, Ok(1)),
        ((7, 32, 1), 8, Ok(0)),
        ((0, 0, 1), u32::MAX, Ok(1)),
        ((0, 0, 65_535), 0, Ok(65_535)),
        ((1 << 31, 1, 1), u32::MAX, Ok(1)),
        ((1 << 31, 1, 1), 7, Ok(0)),
        ((0, 33, 1), 0, Err((7, 0))),
        ((0, 65_535, 65_535), 0, Err((7, 0))),
        ((7, 32, 0), 7, Err((7, 0))),
        ((1 << 31, 0, 1), 7, Err((7, 0))),
    ] {
        let image = image_of(&[cell]);
        assert_eq!(lookup(&image, q), expected, "{cell:?}");
        assert_eq!(check(&image), expected.map(|_| 1), "{cell:?}");
        assert_eq!(
            apply(&mut Image::empty(1), &[0, image.addresses[0], image.tags[0]], 1),
            { expected.map(|_| 1).map_err(|_| (10, 0)) }
        );
    }
}

/// Image before 1 before 2 before 3 before 5 or 6 before 9.
#[test]
fn refusals_of_updates_come_in_their_order() {
    let full = table(4, [24], 4);
    assert_eq!(plan(&full, set(1, 33, 0), 0), Err((1, 0)));
    assert_eq!(plan(&full, set(1, 24, 0), 0), Err((2, 0)));
    assert_eq!(plan(&full, set(1, 32, 0), 0), Err((3, 0)));
    assert_eq!(plan(&full, set(1, 32, 1), 0), Err((5, 0)));
    assert_eq!(plan(&full, set(0, 24, 9), 0), Err((9, 0)));
    assert_eq!(plan(&full, set(0, 24, 1), 0), Ok(vec![]));
    assert_eq!(plan(&full, remove(1, 33), 0), Err((1, 0)));
    assert_eq!(plan(&full, remove(1, 24), 0), Err((2, 0)));
    assert_eq!(plan(&full, remove(1, 32), 0), Err((6, 0)));
    assert_eq!(plan(&full, remove(0, 24), 5), Err((9, 0)));
    assert_eq!(plan(&full, remove(prefix(24, 3), 24), 2), Err((9, 0)));
    let mut broken = full;
    broken.tags[3] = 1 << 24;
    refused(&broken, (7, 3));
    broken.addresses.pop();
    refused(&broken, (8, 0));
}

#[test]
fn s1_broken_at_each_slot() {
    let mixed = table(12, [32, 24, 16, 15, 8, 1], 2);
    for good in [Image::empty(6), board(), table(6, [20], 6), table(6, [8], 6), mixed] {
        assert!(check(&good).is_ok());
        for slot in 0..good.tags.len() {
            for (address, tag) in bad_cells() {
                let mut image = good.clone();
                (image.addresses[slot], image.tags[slot]) = (address, tag);
                refused(&image, (7, slot));
                // wherever the match is
                let keys: Vec<u32> = good.addresses.iter().flat_map(|&a| edges(a, 32)).collect();
                for found in lookups(&image, &keys) {
                    assert_eq!(found, Err((7, slot)));
                }
            }
        }
    }
}

/// A lookup in an image that breaks none but other rules than S1 is the first match.
fn looked_up(image: &Image) {
    let slots = image.addresses.iter().zip(&image.tags);
    let keys: Vec<u32> = slots.flat_map(|(&a, &tag)| edges(a, tag >> 16)).collect();
    assert!(lookups(image, &keys).iter().all(|found| found.is_ok()));
}

#[test]
fn s2_broken_at_each_slot() {
    for (length, longer) in [(16, 17), (20, 24), (31, 32), (8, 9), (4, 15), (3, 4)] {
        for slots in 2..=8 {
            for slot in 1..slots {
                let mut image = table(slots, [length], slots as u32);
                (image.addresses[slot], image.tags[slot]) = (prefix(longer, 1), longer << 16 | 1);
                refused(&image, (7, slot));
                looked_up(&image);
                // below the pool the used slot before may be the only one
                if length < 16 {
                    for free in 0..slot {
                        (image.addresses[free], image.tags[free]) = (0, 0);
                        let expected = if free + 1 < slot {
                            Err((7, slot))
                        } else {
                            Ok(slots - slot)
                        };
                        assert_eq!(check(&image), expected);
                    }
                }
            }
        }
    }
}

#[test]
fn s3_broken_at_each_slot() {
    for length in [16, 17, 24, 32] {
        for free in 0..7 {
            for slot in free + 1..8 {
                let mut image = table(8, [length], free as u32);
                (image.addresses[slot], image.tags[slot]) = (prefix(length, 9), length << 16 | 1);
                refused(&image, (7, slot));
                looked_up(&image);
            }
        }
    }
    // the same with length 15 is well-formed at the last slot, and breaks S4 just behind any other
    for slot in 0..8 {
        let mut image = Image::empty(8);
        (image.addresses[slot], image.tags[slot]) = (prefix(15, 9), 15 << 16 | 1);
        let expected = if slot == 7 { Ok(1) } else { Err((7, slot + 1)) };
        assert_eq!(check(&image), expected);
    }
}

#[test]
fn s4_broken_at_each_slot() {
    for length in [4, 8, 15] {
        for first in 0..7 {
            for slot in first + 1..8 {
                let mut image = table(8, [length], 8 - first as u32);
                (image.addresses[slot], image.tags[slot]) = (0, 0);
                refused(&image, (7, slot));
                looked_up(&image);
            }
        }
    }
    // the same with length 16 breaks S3 behind the free slot, if there is an entry
    for slot in 0..8 {
        let mut image = table(8, [16], 8);
        (image.addresses[slot], image.tags[slot]) = (0, 0);
        let expected = if slot == 7 { Ok(7) } else { Err((7, slot + 1)) };
        assert_eq!(check(&image), expected);
    }
}

#[test]
fn s5_broken_at_each_slot() {
    for length in [4, 8, 15, 16, 24, 32] {
        let good = table(8, [length], 7);
        let used: Vec<usize> = (0..8).filter(|&slot| good.tags[slot] != 0).collect();
        for (i, &slot) in used.iter().enumerate() {
            for &earlier in &used[..i] {
                for hop in [good.tags[earlier] & 0xffff, 9] {
                    let mut image = good.clone();
                    (image.addresses[slot], image.tags[slot]) = (good.addresses[earlier], length << 16 | hop);
                    refused(&image, (7, slot));
                    looked_up(&image);
                }
            }
        }
    }
    // one address at several lengths is several prefixes, and 0.0.0.0/0 is no free slot
    let image = table(40, 0..=32, 1);
    assert_eq!(check(&image), Ok(33));
    // where the default route stands twice, the later one is named
    let mut image = Image::empty(4);
    (image.tags[2], image.tags[3]) = (7, 7);
    refused(&image, (7, 3));
}

/// In a table of 4,096 slots each rule broken at each slot, S5 for a slot at several distances before it.
#[test]
fn rules_broken_at_each_slot_of_4096() {
    let (empty, long, short) = (Image::empty(4096), table(4096, [24], 4096), table(4096, [15], 4096));
    let broken = |good: &Image, slot: usize, (address, tag): (u32, u32)| {
        let mut image = good.clone();
        (image.addresses[slot], image.tags[slot]) = (address, tag);
        assert_eq!(check(&image), Err((7, slot)));
    };
    for slot in 0..4096 {
        let bad = bad_cells()[slot % 9];
        broken(&empty, slot, bad);
        broken(&long, slot, bad);
        broken(&short, slot, bad);
    }
    for slot in 1..4096 {
        // S2, S3 and S4
        broken(&long, slot, (prefix(25, 1), 25 << 16 | 1));
        broken(&empty, slot, (prefix(16, 1), 16 << 16 | 1));
        broken(&short, slot, (0, 0));
        for earlier in [0, slot / 2, slot.saturating_sub(64), slot - 1] {
            broken(&long, slot, (long.addresses[earlier], 24 << 16 | 9));
        }
    }
}

#[test]
fn the_first_broken_slot_is_named() {
    // each pair of faults in a table of one length
    for first in 1..8 {
        for second in first..8 {
            for (one, other) in [(0, 1), (1, 2), (2, 0), (1, 1)] {
                let mut image = table(8, [20], 8);
                for (slot, kind) in [(second, other), (first, one)] {
                    (image.addresses[slot], image.tags[slot]) = match kind {
                        0 => (1, 20 << 16 | 1),
                        1 => (0, 20 << 16 | 1),
                        _ => (0, 32 << 16 | 1),
                    };
                }
                refused(&image, (7, first));
            }
        }
    }
}

#[test]
fn random_damaged_images() {
    let mut random = Random::new(4);
    let (mut accepted, mut refused) = (0, [0; 14]);
    for round in 0..60_000 {
        let slots = 1 + random.below(24) as usize;
        let lengths: &[u32] = [&[16, 17, 24][..], &[15, 9, 4], &[32, 24, 16, 15, 8, 0], &[20]][round % 4];
        let mut book = Book::new(slots);
        for _ in 0..random.below(2 * slots as u64) {
            let length = random.pick(lengths);
            let _ = book.set(
                prefix(length, random.below(12) as u32),
                length,
                1 + random.below(3) as u32,
                54,
            );
        }
        let mut image = book.image();
        for _ in 0..random.below(4) {
            both::damage(&mut image, &mut random);
        }
        match check(&image) {
            Ok(_) => accepted += 1,
            Err((number, _)) => refused[usize::from(number)] += 1,
        }
        let length = random.pick(lengths);
        let address = prefix(length, random.below(12) as u32);
        let _ = lookups(&image, &edges(address, length));
        let room = random.below(30) as usize;
        let _ = plan(&image, set(address, length, 2), room);
        let _ = plan(&image, remove(address, length), room);
    }
    assert!(accepted > 10_000, "{accepted}");
    assert!(refused[7] > 20_000 && refused[8] > 2000, "{refused:?}");
}

#[test]
fn plans_that_cannot_be_made() {
    for slots in [1, 2, 8, 4096] {
        let image = &mut Image::empty(slots);
        let m = slots as u32;
        // the last slot takes each kind of cell, the next one is not there
        assert_eq!(
            apply(image, &[m - 1, 8, 32 << 16 | 1, m - 1, 0, 7, m - 1, 0, 0], 3),
            Ok(3)
        );
        for slot in [m, m + 1, 65_536, 1 << 31, u32::MAX] {
            assert_eq!(apply(image, &[slot, 0, 7], 1), Err((10, 0)));
            assert_eq!(apply(image, &[0, 0, 7, slot, 0, 0, 0, 0, 9], 3), Err((10, 1)));
            // a write behind the k writes is not looked at
            assert_eq!(apply(image, &[0, 0, 7, slot, 0, 0], 1), Ok(1));
            assert_eq!(apply(image, &[0, 0, 0, slot, 0, 0], 1), Ok(1));
        }
        assert_eq!(*image, Image::empty(slots));
    }
    for (address, tag) in bad_cells() {
        for place in 0..4 {
            let image = &mut board();
            let mut cells = [3, 8, 32 << 16 | 1, 4, 0, 9, 3, 0, 0, 4, 0, 0];
            (cells[3 * place + 1], cells[3 * place + 2]) = (address, tag);
            for k in 0..=4 {
                let expected = if k <= place { Ok(k) } else { Err((10, place)) };
                assert_eq!(apply(image, &cells, k), expected);
            }
            // of two bad writes the first
            cells[9] = 8;
            assert_eq!(apply(image, &cells, 4), Err((10, place)));
        }
    }
}

#[test]
fn plans_with_too_few_writes() {
    for whole in 0..5 {
        for spare in 0..3 {
            // spare cells are no write, whatever they hold
            let cells: Vec<u32> = [1, 0, 5].repeat(whole).into_iter().chain(vec![99; spare]).collect();
            for k in 0..whole + 3 {
                let expected = if k <= whole { Ok(k) } else { Err((10, whole)) };
                assert_eq!(apply(&mut board(), &cells, k), expected, "{k} of {cells:?}");
            }
            for k in [
                1 << 32,
                usize::MAX / 3,
                usize::MAX / 3 + 1,
                usize::MAX / 3 + 2,
                usize::MAX - 1,
                usize::MAX,
            ] {
                assert_eq!(apply(&mut board(), &cells, k), Err((10, whole)));
            }
        }
    }
    // k is tested before the writes
    assert_eq!(apply(&mut board(), &[8, 0, 5], 2), Err((10, 1)));
    // the image is not tested: half-written and broken ones are written to
    let mut image = board();
    image.tags[0] = u32::MAX;
    assert_eq!(apply(&mut image, &[1, 0, 5], 1), Ok(1));
    assert_eq!(apply(&mut image, &[0, 0, 5], 1), Ok(1));
}

#[test]
fn plans_of_every_room() {
    for (image, update, writes) in by_writes() {
        for room in 0..=60 {
            let expected = if room < 3 * writes { Err((9, 0)) } else { Ok(writes) };
            let found = plan(&image, update, room).map(|cells| cells.len() / 3);
            assert_eq!(found, expected, "{update:?}, room {room}");
        }
    }
}

#[test]
fn the_most_writes() {
    let (mut sets, mut removals) = ([0; 33], [0; 33]);
    for (image, update, _) in by_writes() {
        let writes = plan(&image, update, 54).unwrap().len() / 3;
        let most = if update.hop.is_some() { &mut sets } else { &mut removals };
        let most = &mut most[update.length as usize];
        *most = writes.max(*most);
        let mut after = image.clone();
        assert_eq!(make(&mut after, update), Ok(writes));
        assert!(check(&after).is_ok());
    }
    assert_eq!(
        (sets[32], removals[32]),
        (hawkmortar::MAX_SET_WRITES, hawkmortar::MAX_REMOVE_WRITES)
    );
    assert_eq!((sets[0], removals[0], removals[1]), (16, 16, 16));
    // no update of a table with every length takes more
    let image = table(4096, 0..=32, 60);
    for length in 0..=32 {
        for (j, hop) in [(0, 1), (1, 9), (59, 60), (60, 1)] {
            let address = prefix(length, j);
            if let Ok(cells) = plan(&image, set(address, length, hop), 60) {
                assert!(cells.len() <= 3 * hawkmortar::MAX_SET_WRITES);
            }
            if let Ok(cells) = plan(&image, remove(address, length), 60) {
                assert!(cells.len() <= 3 * hawkmortar::MAX_REMOVE_WRITES);
            }
        }
    }
}

/// `Table` over random updates: each answer, the plans, the rows and the entries are those of the second program's calls.
#[test]
fn a_table_does_what_its_rows_do() {
    let mut random = Random::new(6);
    let (mut accepted, mut refused) = (0, 0);
    for _ in 0..300 {
        let slots = 1 + random.below(40) as usize;
        let mut image = Image::empty(slots);
        let mut table = Table::new(slots).unwrap();
        for _ in 0..100 {
            let length = random.pick(&[0, 4, 8, 15, 16, 17, 24, 32]);
            let address = prefix(length, random.below(10) as u32);
            let hop = 1 + random.below(3) as u16;
            let of_table = Prefix::new(address, length).unwrap();
            let update = if random.one_in(3) {
                remove(address, length)
            } else {
                set(address, length, hop.into())
            };
            let planned = plan(&image, update, 54);
            let (of_plan, hop) = (planned.clone().map(|cells| cells.len() / 3), NextHop::new(hop).unwrap());
            let plan = match update.hop {
                Some(_) => table.plan_set(of_table, hop),
                None => table.plan_remove(of_table),
            };
            match (&plan, &planned) {
                (Ok(plan), Ok(cells)) => {
                    accepted += 1;
                    assert_eq!(plan.cells(), cells);
                    assert_eq!((plan.len(), plan.is_empty()), (cells.len() / 3, cells.is_empty()));
                    let k = random.below(plan.len() as u64 + 1) as usize;
                    let (mut cut, mut cut_table) = (image.clone(), table.clone());
                    assert_eq!(cut_table.apply(plan, k).map_err(both::fault), apply(&mut cut, cells, k));
                    assert_eq!(
                        (cut_table.addresses(), cut_table.tags()),
                        (&cut.addresses[..], &cut.tags[..])
                    );
                    let more = cut_table.apply(plan, plan.len() + 1).map_err(both::fault);
                    assert_eq!(more, apply(&mut cut, cells, plan.len() + 1));
                    let again = cut_table.plan_remove(of_table).map(|plan| plan.cells().to_vec());
                    assert_eq!(
                        again.map_err(both::fault),
                        self::plan(&cut, remove(address, length), 54)
                    );
                    shown_by(plan, cells);
                    apply(&mut image, cells, cells.len() / 3).unwrap();
                }
                (Err(refusal), Err(fault)) => {
                    refused += 1;
                    assert_eq!(both::fault(*refusal), *fault);
                }
                _ => panic!("{plan:?} and {planned:?}"),
            }
            let made = match update.hop {
                Some(_) => table.set(of_table, hop),
                None => table.remove(of_table),
            };
            assert_eq!(made.map_err(both::fault), of_plan);
            same_table(&table, &image);
        }
        let again = Table::from_rows(image.addresses.clone(), image.tags.clone());
        assert_eq!(again, Ok(table));
    }
    assert!(accepted > 10_000 && refused > 2000, "{accepted} {refused}");
}

#[test]
fn a_plan_for_more_slots_is_refused() {
    let default = Prefix::new(0u32, 0).unwrap();
    let plan = Table::new(8)
        .unwrap()
        .plan_set(default, NextHop::new(7).unwrap())
        .unwrap();
    let (mut table, mut image) = (Table::new(7).unwrap(), Image::empty(7));
    assert_eq!(apply(&mut image, plan.cells(), 1), Err((10, 0)));
    assert_eq!(table.apply(&plan, 1), Err(Refusal::Plan(0)));
    assert_eq!(table.apply(&plan, 0), Ok(0));
    same_table(&table, &image);
}

/// A plan's writes are its cells, forward and backward.
fn shown_by(plan: &hawkmortar::Plan, cells: &[u32]) {
    assert_eq!(plan.writes().len(), cells.len() / 3);
    let mut backward: Vec<_> = plan.writes().rev().collect();
    backward.reverse();
    assert!(plan.writes().eq(backward));
    for (write, cell) in plan.writes().zip(cells.chunks_exact(3)) {
        assert_eq!([write.slot() as u32, write.address(), write.tag()], *cell);
        match write.entry() {
            None => assert_eq!(cell[1..], [0, 0]),
            Some(entry) => {
                assert_eq!(entry.slot, write.slot());
                assert_eq!(u32::from(entry.prefix.address()), cell[1]);
                assert_eq!(entry.prefix.length() << 16 | u32::from(entry.hop.get()), cell[2]);
            }
        }
    }
}

/// A table has an image's rows, and shows and looks up its entries, forward and backward.
fn same_table(table: &Table, image: &Image) {
    assert_eq!(
        (table.addresses(), table.tags()),
        (&image.addresses[..], &image.tags[..])
    );
    let used: Vec<usize> = (0..image.tags.len()).filter(|&slot| image.tags[slot] != 0).collect();
    assert_eq!((table.len(), table.slots()), (used.len(), image.tags.len()));
    assert_eq!(table.is_empty(), used.is_empty());
    assert!(table.iter().map(|entry| entry.slot).eq(used.iter().copied()));
    let mut backward: Vec<_> = table.iter().rev().collect();
    backward.reverse();
    assert!(table.iter().eq(backward));
    for entry in table.iter() {
        let (slot, length, hop) = (entry.slot, entry.prefix.length(), u32::from(entry.hop.get()));
        let shown = format!("{slot} {}/{length} {hop}", entry.prefix.address());
        assert_eq!(entry.to_string(), shown);
        let address = u32::from(entry.prefix.address());
        assert_eq!((address, length << 16 | hop), (image.addresses[slot], image.tags[slot]));
        let q = edges(address, length)[1];
        let found = table.lookup(q).map_or(0, |hop| hop.get().into());
        assert_eq!(lookup(image, q), Ok(found));
    }
}
