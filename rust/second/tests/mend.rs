//! The mend of half-written images, by the library and by the second program: copies at every place, images that are refused and
//! where, room, and `Table`. The cuts of random updates are mended in `sequences`.

use hawkmortar::{NextHop, Prefix, Refusal, Table, MAX_REMOVE_WRITES};
use second::both;
use second::both::images::{
    bad_cells, board, broken, by_writes, cell, copied, doubled, image_of, length, other_hop, pairs, pool, prefix,
    routed_tables, runs, small_images, table, with, FREE,
};
use second::both::mend::{cuts, mended, mended_again, plan_mend, set_of};
use second::both::{apply, check, edges, plan, remove, set, Update};
use second::ip;
use second::random::Random;
use second::slots::Image;
use second::Fault;
use std::collections::BTreeSet;
use std::ops::Range;

/// The mend is refused so, whatever the room.
fn refused(image: &Image, expected: Fault) {
    for room in [0, 2, 54] {
        assert_eq!(plan_mend(image, room), Err(expected), "{image:?}");
    }
}

/// The edges of every entry of an image.
fn all_edges(image: &Image) -> Vec<u32> {
    let used = (0..image.tags.len()).filter(|&slot| image.tags[slot] != 0);
    used.flat_map(|slot| edges(image.addresses[slot], length(image, slot)))
        .collect()
}

/// An image is mended, and so is every cut of its mend: the number of writes.
fn mends(image: &Image) -> usize {
    mended_again(image, &set_of(image), &all_edges(image)).len() - 1
}

/// The writes that the removal rule counts for an entry of an image that keeps S1 to S4, the later one of two copies: the clear, the
/// lengths between its own and the pool, and the edge move. Below the pool the edge is the first of the length, never this one.
fn writes_of_removal(image: &Image, slot: usize) -> usize {
    let n = length(image, slot);
    let used = |from: usize| (from..image.tags.len()).filter(|&slot| image.tags[slot] != 0);
    let lengths: BTreeSet<u32> = used(0).map(|slot| length(image, slot)).collect();
    let between = if n >= 16 { 16..n } else { n + 1..16 };
    let edge = n <= 15 || used(slot + 1).any(|slot| length(image, slot) == n);
    1 + lengths.iter().filter(|length| between.contains(length)).count() + usize::from(edge)
}

/// Tables of up to 40 slots, each with a pool: one length on either side of it, a few, and all of them.
fn tables_with_pools() -> Vec<Image> {
    let mut tables: Vec<Image> = [0, 1, 8, 15, 16, 17, 24, 32].map(|length| table(7, [length], 5)).into();
    tables.push(board());
    tables.push(table(15, [32, 16, 15, 0], 4));
    tables.push(table(24, [32, 31, 20, 17, 16, 15, 14, 8, 1, 0], 2));
    tables.push(table(40, [30, 24, 18, 12, 9, 3], 6));
    tables.push(table(40, 0..=32, 1));
    tables
}

/// The slots of each run with two entries or more.
fn long_runs(image: &Image) -> impl Iterator<Item = Range<usize>> {
    runs(image).into_iter().filter(|run| run.len() >= 2)
}

/// Every pair of an earlier and a later slot of a run.
fn all_pairs(run: &Range<usize>) -> impl Iterator<Item = (usize, usize)> {
    let (start, end) = (run.start, run.end);
    (start..end).flat_map(move |later| (start..later).map(move |earlier| (earlier, later)))
}

#[test]
fn the_board_is_mended() {
    let (slash_16, slash_24) = (cell(&board(), 2), cell(&board(), 1));
    let slash_8 = cell(&board(), 6);
    let write = |slot: u32, (address, tag): (u32, u32)| [slot, address, tag];
    // case g: the /16 stands in slots 1 and 2
    let removal = remove(ip([10, 20, 4, 0]), 24);
    half_written_board(removal, 1, &[write(2, FREE)]);
    // the /16 in 2 and 3, then the /24 in 1 and 2
    let long = set(ip([10, 20, 4, 10]), 32, 9);
    half_written_board(long, 1, &[write(3, FREE)]);
    half_written_board(long, 2, &[write(2, slash_16), write(3, FREE)]);
    // the /8 in 5 and 6, and in 6 and 7: it is moved over itself
    half_written_board(set(0, 1, 4), 1, &[write(6, slash_8), write(5, FREE)]);
    half_written_board(remove(0, 0), 1, &[write(7, slash_8), write(6, FREE)]);
    // two /24 before a third: the last is moved over the second, then the /16 down
    let other = (ip([10, 20, 5, 0]), 24 << 16 | 1);
    let image = with(&with(&board(), 3, slash_16), 2, other);
    let image = doubled(&image, 1, 2);
    let writes = [write(2, other), write(3, slash_16), write(4, FREE)];
    assert_eq!(plan_mend(&image, 54), Ok(writes.concat()));
    assert_eq!((cell(&image, 2), mends(&image)), (slash_24, 3));
}

/// After so many writes of an update of the board it is mended by these, to the board as it was or as the whole update leaves it.
fn half_written_board(update: Update, k: usize, writes: &[[u32; 3]]) {
    let whole = plan(&board(), update, 54).unwrap();
    let of_update = cuts(&board(), &whole);
    assert!(k < of_update.len() - 1);
    assert_eq!(plan_mend(&of_update[k], 54), Ok(writes.concat()), "{update:?}");
    assert_eq!(mends(&of_update[k]), writes.len());
    let mut image = of_update[k].clone();
    apply(&mut image, &writes.concat(), writes.len()).unwrap();
    let expected = if update.hop.is_some() {
        &of_update[0]
    } else {
        &of_update[of_update.len() - 1]
    };
    assert_eq!(image, *expected, "{update:?}");
}

#[test]
fn well_formed_images_need_no_writes() {
    let mut images = tables_with_pools();
    images.extend([1, 2, 4096].map(Image::empty));
    images.extend([0, 15, 16, 32].map(|length| table(1, [length], 1)));
    images.extend([15, 24].map(|length| table(4096, [length], 4096)));
    images.extend(routed_tables());
    for image in images {
        assert!(check(&image).is_ok());
        for room in [0, 1, 2, 3, 53, 54, 55] {
            assert_eq!(plan_mend(&image, room), Ok(vec![]));
        }
    }
}

#[test]
fn limits_of_slots_of_a_mend() {
    for slots in [0, 4097, 4098, 10_000] {
        let mut image = Image::empty(slots);
        refused(&image, (8, 0));
        image.tags.iter_mut().take(1).for_each(|tag| *tag = 33 << 16);
        refused(&image, (8, 0));
        let table = Table::from_half_written(image.addresses, image.tags);
        assert_eq!(table, Err(Refusal::Size));
    }
    for slots in [1, 2, 3, 4095, 4096] {
        let mut image = Image::empty(slots);
        assert_eq!(plan_mend(&image, 0), Ok(vec![]));
        image.tags[slots - 1] = 9;
        assert_eq!(plan_mend(&image, 0), Ok(vec![]));
        if slots > 1 {
            image.tags[slots - 2] = 9;
            let (last, before) = (slots as u32 - 1, slots as u32 - 2);
            assert_eq!(plan_mend(&image, 6), Ok(vec![last, 0, 9, before, 0, 0]));
            image.tags[slots - 2] = 8;
            refused(&image, (7, slots - 1));
        }
        image.tags[slots - 1] = 33 << 16;
        refused(&image, (7, slots - 1));
        image.addresses.pop();
        refused(&image, (8, 0));
    }
    for (addresses, tags) in [(7, 8), (8, 7), (8, 0), (0, 8), (4096, 4097), (4097, 4096), (1, 4096)] {
        let mut image = board();
        image.addresses.resize(addresses, 0);
        image.tags.resize(tags, 0);
        refused(&image, (8, 0));
        let table = Table::from_half_written(image.addresses, image.tags);
        assert_eq!(table, Err(Refusal::Size));
    }
}

/// One cell in both slots of a table.
#[test]
fn limits_of_lengths_and_hops_in_a_mend() {
    for ((address, length, hop), expected) in [
        ((u32::MAX, 32, 65_535), Ok(1)),
        ((7, 32, 1), Ok(1)),
        ((1 << 16, 16, 65_535), Ok(1)),
        ((1 << 17, 15, 65_535), Ok(2)),
        ((1 << 31, 1, 1), Ok(2)),
        ((0, 0, 1), Ok(2)),
        ((0, 0, 65_535), Ok(2)),
        ((0, 33, 1), Err((7, 0))),
        ((0, 65_535, 65_535), Err((7, 0))),
        ((7, 32, 0), Err((7, 0))),
        ((1, 31, 1), Err((7, 0))),
        ((1 << 16, 15, 1), Err((7, 0))),
        ((1 << 31, 0, 1), Err((7, 0))),
    ] {
        let image = image_of(&[(address, length, hop); 2]);
        assert_eq!(plan_mend(&image, 54).map(|cells| cells.len() / 3), expected);
        if expected.is_ok() {
            mends(&image);
        }
    }
}

#[test]
fn every_image_of_up_to_5_chosen_cells_is_mended_or_refused() {
    let (mut well_formed, mut refused, mut by_writes) = (0, 0, [0; 6]);
    for image in small_images() {
        match plan_mend(&image, 54) {
            Err(fault) => {
                assert_eq!(plan_mend(&image, 0), Err(fault));
                refused += 1;
            }
            Ok(cells) if cells.is_empty() => {
                assert_eq!(plan_mend(&image, 0), Ok(vec![]));
                assert!(check(&image).is_ok());
                well_formed += 1;
            }
            Ok(cells) => {
                for room in 0..cells.len() {
                    assert_eq!(plan_mend(&image, room), Err((9, 0)));
                }
                assert_eq!(plan_mend(&image, cells.len()), Ok(cells.clone()));
                by_writes[mends(&image)] += 1;
            }
        }
    }
    assert_eq!((well_formed, refused), (6119, 1_103_237));
    assert_eq!(by_writes, [0, 2615, 5147, 1278, 84, 0]);
}

/// Every entry of each table twice, its copy put in at every place of its run: next to each other and far apart, on each side of the
/// pool and at its edges, and the default route.
#[test]
fn copies_at_every_place_of_a_run() {
    let (mut lengths, mut by_writes) = (BTreeSet::new(), [0; 19]);
    for good in tables_with_pools() {
        for run in runs(&good) {
            for from in run.clone() {
                for to in run.start..=run.end {
                    let image = doubled(&good, from, to);
                    assert!(set_of(&image) == set_of(&good));
                    let copies: Vec<usize> = (0..image.tags.len())
                        .filter(|&slot| cell(&image, slot) == cell(&good, from))
                        .collect();
                    let [_, later] = copies[..] else { panic!("{image:?}") };
                    let writes = mends(&image);
                    assert_eq!(writes, writes_of_removal(&image, later), "{image:?}");
                    by_writes[writes] += 1;
                }
            }
            lengths.insert(length(&good, run.start));
        }
    }
    assert!(lengths.into_iter().eq(0..=32));
    assert!(by_writes[1..18].iter().all(|&images| images > 0), "{by_writes:?}");
}

/// In full tables and others one entry over a later one of its run.
#[test]
fn one_repeat_in_tables_of_up_to_4096() {
    let mut images = [0; 2];
    for good in routed_tables() {
        for run in runs(&good) {
            for (i, (earlier, later)) in pairs(&good, &run).into_iter().enumerate() {
                let image = copied(&good, earlier, later);
                let keys = [earlier, later].map(|slot| edges(good.addresses[slot], length(&good, slot)));
                let of_mend = mended(&image, &set_of(&image), keys.as_flattened());
                assert_eq!(of_mend.len() - 1, writes_of_removal(&image, later));
                if i % 16 == 0 {
                    mended_again(&image, &set_of(&image), keys.as_flattened());
                }
                images[usize::from(good.tags.len() == 4096)] += 1;
                refused(&with(&good, later, other_hop(cell(&good, earlier))), (7, later));
            }
        }
    }
    assert!(images.iter().all(|&images| images > 300), "{images:?}");
}

/// A repeat at every slot of full tables of 4,096, of a slot just before it, far before it or the first.
#[test]
fn a_repeat_at_each_slot_of_4096_is_mended() {
    for (n, edge) in [(24, 4095), (15, 0)] {
        let good = table(4096, [n], 4096);
        for later in 1..4096usize {
            let earlier = [0, later - 1, later / 2, later.saturating_sub(64)][later % 4];
            let image = copied(&good, earlier, later);
            let (address, tag) = cell(&image, edge);
            let cleared = [edge as u32, 0, 0];
            let expected = if later == edge {
                cleared.to_vec()
            } else {
                [[later as u32, address, tag], cleared].concat()
            };
            assert_eq!(plan_mend(&image, 54), Ok(expected));
        }
    }
}

/// The later of two copies with different tags is named, whether another prefix is repeated before it or behind it.
#[test]
fn another_tag_is_refused() {
    let mut images = 0;
    for good in tables_with_pools() {
        let all: Vec<(usize, usize)> = runs(&good).iter().flat_map(all_pairs).collect();
        for &(earlier, later) in &all {
            let image = with(&good, later, other_hop(cell(&good, earlier)));
            refused(&image, (7, later));
            for &(one, two) in all.iter().filter(|pair| apart(**pair, (earlier, later))) {
                refused(&copied(&image, one, two), (7, later));
                images += 1;
            }
        }
    }
    assert!(images > 5000, "{images}");
    refused(&image_of(&[(0, 0, 7), (0, 0, 8)]), (7, 1));
    refused(&image_of(&[(0, 0, 0), (0, 0, 8), (0, 0, 7)]), (7, 2));
}

/// Whether two pairs have no slot in common.
fn apart(one: (usize, usize), other: (usize, usize)) -> bool {
    BTreeSet::from([one.0, one.1, other.0, other.1]).len() == 4
}

/// The third copy is named where the second has the tag of the first, else the second.
#[test]
fn a_third_copy_is_refused() {
    let mut images = 0;
    for good in tables_with_pools() {
        for run in runs(&good) {
            for (first, third) in all_pairs(&run) {
                for second in first + 1..third {
                    let (same, other) = (cell(&good, first), other_hop(cell(&good, first)));
                    for (two, three, place) in [
                        (same, same, third),
                        (same, other, third),
                        (other, same, second),
                        (other, other, second),
                    ] {
                        refused(&with(&with(&good, second, two), third, three), (7, place));
                        images += 1;
                    }
                }
            }
        }
    }
    assert!(images > 500, "{images}");
    let defaults = doubled(&doubled(&board(), 7, 7), 7, 7);
    refused(&defaults, (7, 7));
}

/// Of two prefixes that stand twice the later of the two later copies is named, in one run or in two.
#[test]
fn a_second_doubled_prefix_is_refused() {
    // in one run and in two
    let mut images = [0; 2];
    for good in tables_with_pools() {
        let all: Vec<(usize, usize)> = runs(&good).iter().flat_map(all_pairs).collect();
        for &(earlier, later) in &all {
            for &(one, two) in all.iter().filter(|pair| apart(**pair, (earlier, later))) {
                let image = copied(&copied(&good, earlier, later), one, two);
                refused(&image, (7, later.max(two)));
                images[usize::from(length(&good, one) != length(&good, earlier))] += 1;
            }
        }
    }
    assert!(images.iter().all(|&images| images > 500), "{images:?}");
    let both_sides = doubled(&doubled(&board(), 0, 0), 7, 7);
    refused(&both_sides, (7, 7));
}

/// The cells that break S1 to S4 in a slot of an image that keeps them, each with its rule.
fn breaking(image: &Image, slot: usize) -> Vec<(usize, (u32, u32))> {
    let before = |kind: &dyn Fn(usize) -> bool| (0..slot).rev().find(|&slot| kind(slot));
    let used = |slot: usize| image.tags[slot] != 0;
    let mut cells: Vec<(usize, (u32, u32))> = bad_cells().into_iter().map(|cell| (1, cell)).collect();
    if let Some(longer) = before(&used).map(|slot| length(image, slot) + 1).filter(|&n| n <= 32) {
        cells.push((2, (prefix(longer, 1), longer << 16 | 1)));
        cells.push((2, (0, 32 << 16 | 9)));
    }
    if before(&|slot| !used(slot)).is_some() {
        cells.push((3, (0, 16 << 16 | 1)));
    }
    if before(&|slot| used(slot) && length(image, slot) <= 15).is_some() {
        cells.push((4, FREE));
    }
    cells
}

/// S1 to S4 broken at each slot before a repeat and behind it, which is of an equal tag, of another or of two copies.
#[test]
fn rules_broken_at_each_slot_about_a_repeat() {
    // by rule, before the repeat and behind it
    let mut images = [[0; 2]; 5];
    for good in tables_with_pools() {
        for run in long_runs(&good) {
            for (earlier, later) in [(run.start, run.start + 1), (run.start, run.end - 1)] {
                let twice = copied(&good, earlier, later);
                let other = with(&good, later, other_hop(cell(&good, earlier)));
                for slot in (0..good.tags.len()).filter(|&slot| slot != earlier && slot != later) {
                    for (rule, cell) in breaking(&good, slot) {
                        for image in [&twice, &other] {
                            refused(&with(image, slot, cell), (7, slot));
                        }
                        if later + 1 < run.end && slot != later + 1 {
                            refused(&with(&copied(&twice, earlier, later + 1), slot, cell), (7, slot));
                        }
                        images[rule][usize::from(slot > later)] += 1;
                    }
                }
            }
        }
    }
    let images = images[1..].as_flattened();
    assert!(images.iter().all(|&images| images > 50), "{images:?}");
}

/// The same in tables of up to 4,096 slots: in the repeat's run and in the others.
#[test]
fn rules_broken_about_a_repeat_of_4096() {
    // by rule, before the repeat and behind it
    let mut images = [[0; 2]; 5];
    for good in routed_tables() {
        let runs: Vec<_> = runs(&good).into_iter().filter(|run| run.len() >= 6).collect();
        for run in &runs {
            let (earlier, later) = (run.start, run.end - 3);
            let twice = copied(&good, earlier, later);
            let others = [&runs[0], &runs[runs.len() / 2], &runs[runs.len() - 1]];
            let slots = others.map(|run| run.start + 3);
            for slot in [earlier + 2, run.end - 1]
                .into_iter()
                .chain(slots)
                .filter(|slot| slot.abs_diff(later) > 1)
            {
                for rule in 1..=4 {
                    if let Some(image) = broken(&twice, slot, rule) {
                        refused(&image, (7, slot));
                        images[rule as usize][usize::from(slot > later)] += 1;
                    }
                }
            }
        }
    }
    assert!(
        images[1..].as_flattened().iter().all(|&images| images > 30),
        "{images:?}"
    );
}

#[test]
fn random_images_are_mended_or_refused() {
    let mut random = Random::new(100);
    let (mut by_writes, mut refusals) = ([0; 19], [0; 14]);
    for round in 0..60_000 {
        let lengths: &[u32] = [&[16, 17, 24][..], &[15, 9, 4], &[32, 24, 16, 15, 8, 0], &[20]][round % 4];
        let each = 1 + random.below(6) as u32;
        let slots = lengths.len() * each as usize + random.below(3) as usize;
        let good = table(slots, lengths.iter().copied(), each);
        let runs = runs(&good);
        let run = &runs[random.below(runs.len() as u64) as usize];
        let (from, to) = (
            random.below(run.len() as u64) as usize,
            random.below(run.len() as u64) as usize,
        );
        let mut image = if pool(&good).is_empty() || random.one_in(2) {
            copied(&good, run.start + from, run.start + to)
        } else {
            doubled(&good, run.start + from, run.start + to)
        };
        for _ in 0..random.below(4).saturating_sub(1) {
            both::damage(&mut image, &mut random);
        }
        let room = if random.one_in(4) {
            random.below(12) as usize
        } else {
            54
        };
        match plan_mend(&image, room) {
            Err((number, _)) => refusals[usize::from(number)] += 1,
            Ok(_) => by_writes[mends(&image)] += 1,
        }
    }
    assert!(by_writes[..5].iter().all(|&images| images > 500), "{by_writes:?}");
    assert!(
        refusals[7] > 10_000 && refusals[8] > 1000 && refusals[9] > 1000,
        "{refusals:?}"
    );
}

/// Images whose mend takes each number of writes: so many lengths next to the pool have entries. Above the pool the later copy is the
/// last of its length or not; below it is the default route or of length 1.
fn by_writes_of_mend() -> Vec<(Image, usize)> {
    let mut cases = Vec::new();
    for moved in 0..=16 {
        let good = table(64, (16..16 + moved).chain([32]), 3);
        cases.push((doubled(&good, 0, 3), 1 + moved as usize));
        cases.push((doubled(&good, 0, 0), 2 + moved as usize));
    }
    for moved in 0..=15 {
        let good = table(64, (16 - moved..16).chain([0]), 2);
        cases.push((doubled(&good, 63, 63), 2 + moved as usize));
    }
    for moved in 0..=14 {
        let good = table(64, (16 - moved..16).chain([1]), 2);
        for (from, to) in [(62, 62), (62, 64), (63, 63)] {
            cases.push((doubled(&good, from, to), 2 + moved as usize));
        }
    }
    cases
}

#[test]
fn mends_of_every_room() {
    for (image, writes) in by_writes_of_mend() {
        for room in 0..=60 {
            let expected = if room < 3 * writes { Err((9, 0)) } else { Ok(writes) };
            let found = plan_mend(&image, room).map(|cells| cells.len() / 3);
            assert_eq!(found, expected, "room {room}, {image:?}");
        }
    }
}

#[test]
fn the_most_writes_of_a_mend() {
    let mut most = [0; 33];
    for (image, writes) in by_writes_of_mend() {
        assert_eq!(mends(&image), writes);
        let table = Table::from_half_written(image.addresses.clone(), image.tags.clone());
        assert_eq!(table.and_then(|mut table| table.mend()), Ok(writes));
        let twice = check(&image).unwrap_err().1;
        let most = &mut most[length(&image, twice) as usize];
        *most = writes.max(*most);
    }
    assert_eq!((most[32], most[0], most[1]), (MAX_REMOVE_WRITES, 17, 16));
    assert_eq!(MAX_REMOVE_WRITES, 18);
    // no prefix of a table with every length takes more
    let good = table(4096, 0..=32, 60);
    for run in runs(&good) {
        for (from, to) in [(run.start, run.start), (run.start, run.end), (run.end - 1, run.start)] {
            let cells = plan_mend(&doubled(&good, from, to), 54).unwrap();
            assert!(cells.len() <= 3 * MAX_REMOVE_WRITES);
        }
    }
}

/// Below the pool, where the other copy is the first of its length, the edge move puts the entry on itself.
#[test]
fn an_edge_move_onto_itself_is_written_and_counted() {
    for n in [0, 1, 8, 14, 15] {
        let good = table(12, [15, 14, 8, 1, 0], 2);
        let run = runs(&good)
            .into_iter()
            .find(|run| length(&good, run.start) == n)
            .unwrap();
        for to in run.start + 1..=run.end {
            let image = doubled(&good, run.start, to);
            let (first, later) = (run.start - 1, to - 1);
            assert_eq!(cell(&image, first), cell(&image, later));
            let cells = plan_mend(&image, 54).unwrap();
            let (address, tag) = cell(&image, later);
            assert_eq!(cells[..3], [later as u32, address, tag]);
            assert!(cuts(&image, &cells)[1] == image);
            assert_eq!(mends(&image), writes_of_removal(&image, later));
            assert_eq!(plan_mend(&image, cells.len() - 1), Err((9, 0)));
        }
    }
}

/// Size before image before room.
#[test]
fn refusals_of_a_mend_come_in_their_order() {
    let twice = doubled(&board(), 0, 1);
    for (room, expected) in [(0, false), (8, false), (9, true), (10, true)] {
        assert_eq!(plan_mend(&twice, room).is_ok(), expected);
        assert!(expected || plan_mend(&twice, room) == Err((9, 0)));
    }
    let mut other_tag = with(&twice, 1, other_hop(cell(&twice, 1)));
    refused(&other_tag, (7, 1));
    // a broken slot behind the repeat, and two of them
    other_tag.tags[7] = 33 << 16;
    refused(&other_tag, (7, 7));
    other_tag.tags[5] = 1 << 24;
    refused(&other_tag, (7, 5));
    other_tag.addresses.pop();
    refused(&other_tag, (8, 0));
    let mut twice = twice;
    twice.tags.push(0);
    refused(&twice, (8, 0));
}

/// The cuts of sets and removals of each number of writes are mended: to the set before the write that shows the update, from it on to
/// the set after.
#[test]
fn cuts_of_plans_of_each_number_of_writes_are_mended() {
    let mut by_mend = [0; 19];
    for (image, update, writes) in by_writes() {
        let whole = plan(&image, update, 54).unwrap();
        let of_update = cuts(&image, &whole);
        assert_eq!(of_update.len() - 1, writes);
        let sets = [&of_update[0], &of_update[writes]].map(set_of);
        let absent = sets[0].len() < sets[1].len();
        let shown = if update.hop.is_some() && absent { writes } else { 1 };
        for (k, cut) in of_update.iter().enumerate() {
            let of_mend = mended_again(cut, &sets[usize::from(k >= shown)], &all_edges(cut));
            by_mend[of_mend.len() - 1] += 1;
        }
    }
    assert!(by_mend[..18].iter().all(|&mends| mends > 0), "{by_mend:?}");
}

/// A table has an image's rows.
fn same_rows(table: &Table, image: &Image) {
    assert_eq!(
        (table.addresses(), table.tags()),
        (&image.addresses[..], &image.tags[..])
    );
}

/// `Table` over random updates whose plans are lost after some writes: its mends are those of its rows, and it then takes updates again.
#[test]
fn a_table_mends_as_its_rows_do() {
    let mut random = Random::new(101);
    let (mut by_writes, mut refused) = ([0; 19], 0);
    for _ in 0..400 {
        let slots = 1 + random.below(30) as usize;
        let (mut image, mut table) = (Image::empty(slots), Table::new(slots).unwrap());
        for _ in 0..60 {
            let length = random.pick(&[0, 4, 8, 14, 15, 16, 17, 24, 32]);
            let address = prefix(length, random.below(6) as u32);
            let of_table = Prefix::new(address, length).unwrap();
            let of_update = if random.one_in(3) {
                table.plan_remove(of_table)
            } else {
                table.plan_set(of_table, NextHop::new(1 + random.below(3) as u16).unwrap())
            };
            let Ok(lost) = of_update else { continue };
            let k = random.below(lost.len() as u64 + 1) as usize;
            table.apply(&lost, k).unwrap();
            apply(&mut image, lost.cells(), k).unwrap();
            if random.one_in(8) {
                // with any slot cleared it may be what no plan leaves
                let slot = random.below(slots as u64) as u32;
                let mut other = image.clone();
                apply(&mut other, &[slot, 0, 0], 1).unwrap();
                let half_written = Table::from_half_written(other.addresses.clone(), other.tags.clone());
                let expected = plan_mend(&other, 54).map(|_| ());
                refused += usize::from(expected.is_err());
                assert_eq!(
                    half_written.map(|table| same_rows(&table, &other)).map_err(both::fault),
                    expected
                );
            }
            let again = Table::from_half_written(image.addresses.clone(), image.tags.clone());
            assert_eq!(again.as_ref(), Ok(&table));
            let planned = plan_mend(&image, 54).unwrap();
            let of_mend = table.plan_mend().unwrap();
            assert_eq!(of_mend.cells(), planned);
            assert_eq!(
                (of_mend.len(), of_mend.is_empty()),
                (planned.len() / 3, planned.is_empty())
            );
            same_rows(&table, &image);
            if check(&image).is_err() {
                assert!(matches!(table.plan_remove(of_table), Err(Refusal::Image(_))));
            }
            assert_eq!(table.mend(), Ok(planned.len() / 3));
            apply(&mut image, &planned, planned.len() / 3).unwrap();
            same_rows(&table, &image);
            assert_eq!(table.mend(), Ok(0));
            assert_eq!(
                Table::from_rows(image.addresses.clone(), image.tags.clone()).as_ref(),
                Ok(&table)
            );
            by_writes[planned.len() / 3] += 1;
        }
    }
    assert!(by_writes[..5].iter().all(|&mends| mends > 100), "{by_writes:?}");
    assert!(refused > 200, "{refused}");
}

/// Case g, whose plan is lost after its first write.
#[test]
fn a_table_takes_updates_again_once_it_is_mended() {
    let Image { addresses, tags } = board();
    let mut table = Table::from_half_written(addresses, tags).unwrap();
    let (slash_24, hop) = (Prefix::new(ip([10, 20, 4, 0]), 24).unwrap(), NextHop::new(3).unwrap());
    let lost = table.plan_remove(slash_24).unwrap();
    table.apply(&lost, 1).unwrap();
    drop(lost);
    assert_eq!(table.set(slash_24, hop), Err(Refusal::Image(2)));
    let rows = (table.addresses().to_vec(), table.tags().to_vec());
    assert_eq!(Table::from_rows(rows.0.clone(), rows.1.clone()), Err(Refusal::Image(2)));
    let mut table = Table::from_half_written(rows.0, rows.1).unwrap();
    assert_eq!(table.lookup(ip([10, 20, 4, 10])), NextHop::new(2));
    assert_eq!(table.plan_mend().map(|plan| plan.cells().to_vec()), Ok(vec![2, 0, 0]));
    assert_eq!(table.mend(), Ok(1));
    assert_eq!(table.lookup(ip([10, 20, 4, 10])), NextHop::new(2));
    assert_eq!(table.len(), 4);
    assert_eq!(table.set(slash_24, hop), Ok(2));
    same_rows(&table, &board());
    assert_eq!(table.mend(), Ok(0));
}

/// A table to which writes of two plans were made, and which no one plan leaves, is not mended.
#[test]
fn a_table_half_written_by_two_plans_is_refused() {
    let Image { addresses, tags } = board();
    let mut table = Table::from_rows(addresses, tags).unwrap();
    let above = table.plan_remove(Prefix::new(ip([10, 20, 4, 0]), 24).unwrap()).unwrap();
    let below = table.plan_remove(Prefix::new(0u32, 0).unwrap()).unwrap();
    table.apply(&above, 1).unwrap();
    table.apply(&below, 1).unwrap();
    let rows = (table.addresses().to_vec(), table.tags().to_vec());
    assert_eq!(table.plan_mend(), Err(Refusal::Image(7)));
    assert_eq!(table.mend(), Err(Refusal::Image(7)));
    assert_eq!((table.addresses(), table.tags()), (&rows.0[..], &rows.1[..]));
    assert_eq!(Table::from_half_written(rows.0, rows.1), Err(Refusal::Image(7)));
}
