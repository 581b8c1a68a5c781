//! S5 and the runs of one length: the image test of the library, and of the second program rule by rule and by runs, on every small
//! image of chosen cells and on tables of 64, 1,024 and 4,096 slots with a prefix repeated in one run, in another and across the
//! pool, alone and with other rules broken.

use second::both::images::{
    broken, cell, copied, length, other_hop, pairs, pool, routed_tables, runs, small_images, table_of, with, CELLS,
    FREE,
};
use second::both::{check_by_runs, plan, remove, set};
use second::ip;
use second::random::Rows;
use second::slots::{check_s1_to_s4, repeats, Image};
use std::collections::BTreeSet;
use std::ops::Range;

/// The first slot that breaks S1 to S4, or the number of slots.
fn first_out_of_order(image: &Image) -> usize {
    match check_s1_to_s4(&image.addresses, &image.tags) {
        Ok(()) => image.tags.len(),
        Err((_, slot)) => slot,
    }
}

/// Where no slot up to and including an entry's breaks S1 to S4, it repeats an earlier prefix exactly where it repeats one in its
/// run. Answers how many entries repeat one in their run, and how many outside of it alone.
fn run_decides(image: &Image) -> (usize, usize) {
    let out_of_order = first_out_of_order(image);
    let repeats = repeats(&image.addresses, &image.tags).unwrap();
    for repeat in repeats.iter().filter(|repeat| repeat.slot < out_of_order) {
        assert_eq!(repeat.before, repeat.in_run, "{repeat:?} in {image:?}");
    }
    let in_run = repeats.iter().filter(|repeat| repeat.in_run).count();
    (in_run, repeats.iter().filter(|repeat| repeat.before).count() - in_run)
}

/// The image test and updates refuse the image at this slot.
fn refused(image: &Image, slot: usize) {
    let expected = (7, slot);
    assert_eq!(check_by_runs(image), Err(expected), "{image:?}");
    for update in [set(0, 0, 1), remove(1 << 31, 1)] {
        assert_eq!(plan(image, update, 54), Err(expected), "{image:?}");
    }
    // the comparison with all slots before takes long in a larger one
    if image.tags.len() <= 64 {
        run_decides(image);
    }
}

/// The image test, and on up to 4 slots a set and a removal.
#[test]
fn every_image_of_up_to_5_chosen_cells() {
    let (mut accepted, mut refused, mut by_s5_alone) = (0, 0, 0);
    let (address, length) = (CELLS[2].0, CELLS[2].1 >> 16);
    for image in small_images() {
        if image.tags.len() <= 4 {
            let _ = plan(&image, set(address, length, 2), 54);
            let _ = plan(&image, remove(address, length), 54);
        }
        match check_by_runs(&image) {
            Ok(_) => accepted += 1,
            Err(_) => {
                refused += 1;
                by_s5_alone += usize::from(check_s1_to_s4(&image.addresses, &image.tags).is_ok());
            }
        }
    }
    assert_eq!((accepted, refused, by_s5_alone), (6119, 1_112_361, 23_558));
}

/// What S5 has to compare, on the same images. Without S1 to S4 it is not so: an entry can repeat a prefix outside its run.
#[test]
fn a_prefix_is_repeated_exactly_where_it_is_in_its_run() {
    let (mut in_runs, mut outside, mut images_outside) = (0, 0, 0);
    for image in small_images() {
        let (in_run, not_in_run) = run_decides(&image);
        in_runs += in_run;
        outside += not_in_run;
        images_outside += usize::from(not_in_run > 0);
        assert!(
            not_in_run == 0 || first_out_of_order(&image) < image.tags.len(),
            "{image:?}"
        );
    }
    assert_eq!((in_runs, outside, images_outside), (351_359, 379_973, 351_198));
}

/// The run just before each entry: it ends at a free slot, at another length and at a cell that breaks S1, and not at another hop.
#[test]
fn the_run_before_each_entry() {
    let (a, b, c) = ([10, 0, 0, 0], [10, 0, 1, 0], [10, 0, 2, 0]);
    let cells = [
        (ip(a), 24 << 16 | 1),
        (ip(b), 24 << 16 | 2),
        (ip(c), 24 << 16 | 1),
        (ip(a), 23 << 16 | 1),
        (ip(a), 24 << 16 | 1),
        FREE,
        (ip(a), 24 << 16 | 1),
        (ip(b), 24 << 16 | 1),
        (ip([10, 0, 0, 1]), 24 << 16 | 1),
        (ip(a), 24 << 16 | 1),
        FREE,
        (0, 7),
        (0, 8),
        FREE,
        (0, 7),
    ];
    let (addresses, tags) = cells.into_iter().unzip();
    let image = Image { addresses, tags };
    let found = repeats(&image.addresses, &image.tags).unwrap();
    let runs: Vec<_> = found.iter().map(|repeat| (repeat.slot, repeat.run.start)).collect();
    let above = [(0, 0), (1, 0), (2, 0), (3, 3), (4, 4), (6, 6), (7, 6), (9, 9)];
    assert_eq!(runs, [&above[..], &[(11, 11), (12, 11), (14, 14)]].concat());
    assert!(found.iter().all(|repeat| repeat.run.end == repeat.slot));
    assert_eq!(run_decides(&image), (1, 5));
    assert_eq!(check_by_runs(&image), Err((7, 4)));
}

/// The runs of a table of up to 1,024 slots; of a larger one the longest run, those next to the pool and every fourth.
fn some_runs(image: &Image) -> Vec<Range<usize>> {
    let (runs, pool) = (runs(image), pool(image));
    if image.tags.len() <= 1024 {
        return runs;
    }
    let longest = runs.iter().map(Range::len).max();
    let at_pool = |run: &Range<usize>| run.end == pool.start || run.start == pool.end;
    let chosen = |i: usize, run: &Range<usize>| i.is_multiple_of(4) || at_pool(run) || Some(run.len()) == longest;
    let kept = runs.iter().enumerate().filter(|&(i, run)| chosen(i, run));
    kept.map(|(_, run)| run.clone()).collect()
}

/// The first, the middle and the last slot of a run.
fn places(run: &Range<usize>) -> BTreeSet<usize> {
    BTreeSet::from([run.start, (run.start + run.end) / 2, run.end - 1])
}

/// An earlier entry of a run over a later one, with its next hop and with another.
#[test]
fn a_prefix_twice_in_its_run() {
    let mut images = [0; 2];
    for good in routed_tables() {
        assert!(check_by_runs(&good).is_ok());
        let longest = runs(&good).into_iter().max_by_key(Range::len).unwrap();
        assert!(longest.start % 64 != 0 && longest.len() > good.tags.len() / 2);
        for run in runs(&good) {
            for (i, (earlier, later)) in pairs(&good, &run).into_iter().enumerate() {
                let same = cell(&good, earlier);
                let repeat = if i % 2 == 0 { same } else { other_hop(same) };
                refused(&with(&good, later, repeat), later);
                images[i % 2] += 1;
            }
        }
    }
    assert!(images[0] > 500 && images[1] > 500, "{images:?}");
}

/// Of three copies the second is named, and of two prefixes that stand twice the one whose copy comes first.
#[test]
fn several_repeats() {
    let mut images = 0;
    for good in routed_tables() {
        for run in some_runs(&good).iter().filter(|run| run.len() >= 5) {
            let slots: Vec<usize> = (0..5).map(|i| run.start + i * (run.len() - 1) / 4).collect();
            let twice = copied(&good, slots[0], slots[2]);
            refused(&copied(&twice, slots[0], slots[4]), slots[2]);
            refused(&copied(&twice, slots[0], slots[1]), slots[1]);
            let two = copied(&twice, slots[1], slots[3]);
            refused(&two, slots[2]);
            assert_eq!(run_decides(&two), (2, 0));
            images += 3;
        }
    }
    assert!(images > 100, "{images}");
}

/// A copy of a longer prefix is refused in its own slot: it is longer than the entry before, or it joins the run it comes from. Behind
/// a copy of a shorter prefix the next slot is refused; where the copy joins its run at the front, the prefix's own slot is.
#[test]
fn a_prefix_copied_into_another_run() {
    let (mut longer, mut shorter) = ([0; 2], [0; 2]);
    for good in routed_tables() {
        let (runs, step) = (runs(&good), 1 + good.tags.len() / 128);
        for (i, j) in (0..runs.len()).flat_map(|i| (0..runs.len()).map(move |j| (i, j))) {
            // neighbours, and some of the other runs
            if i == j || i.abs_diff(j) > 1 && (i + j) % step != 0 {
                continue;
            }
            let from = (runs[i].start + runs[i].end) / 2;
            for to in places(&runs[j]) {
                let image = copied(&good, from, to);
                let joins = check_s1_to_s4(&image.addresses, &image.tags).is_ok();
                if i < j {
                    refused(&image, to);
                    longer[usize::from(joins)] += 1;
                } else {
                    refused(&image, if to + 1 == runs[i].start { from } else { to + 1 });
                    shorter[usize::from(joins)] += 1;
                }
            }
        }
    }
    assert!(longer[0] > 500 && longer[1] > 50, "{longer:?}");
    assert!(shorter[0] > 500 && shorter[1] > 50, "{shorter:?}");
}

/// Copies from above the pool and from below it into its first two slots and its last two, and free slots in runs, between two slots
/// with one prefix.
#[test]
fn the_pool_and_free_slots_about_a_repeat() {
    let mut images = 0;
    for good in routed_tables() {
        let pool = pool(&good);
        for run in some_runs(&good) {
            let from = (run.start + run.end) / 2;
            for to in pool.clone().take(2).chain(pool.clone().rev().take(2)) {
                let joins = run.start == pool.end && to + 1 == pool.end;
                let expected = match (length(&good, from) >= 16, joins) {
                    (true, _) => to,
                    (false, false) => to + 1,
                    (false, true) => from,
                };
                refused(&copied(&good, from, to), expected);
                images += 1;
            }
            for gap in [run.start + 1, from, run.end.saturating_sub(2)] {
                let (first, last) = (run.start, run.end - 1);
                if first < gap && gap < last {
                    let expected = if length(&good, first) >= 16 { gap + 1 } else { gap };
                    refused(&with(&copied(&good, first, last), gap, FREE), expected);
                    refused(&with(&copied(&good, first, gap + 1), gap, FREE), expected);
                    refused(&with(&copied(&good, gap - 1, gap + 1), gap, FREE), expected);
                    images += 3;
                }
            }
        }
    }
    assert!(images > 500, "{images}");
}

/// S1 to S4 broken before a repeat, at it and behind it, in its run and in the others: the first broken slot is named.
#[test]
fn other_rules_broken_about_a_repeat() {
    // before it, at it and behind it
    let mut images = [0; 3];
    for good in routed_tables() {
        let runs: Vec<_> = some_runs(&good).into_iter().filter(|run| run.len() >= 6).collect();
        let other = |k: usize| runs[k % runs.len()].start + 3;
        for (k, run) in runs.iter().enumerate() {
            let (earlier, later) = (run.start, run.end - 3);
            let twice = copied(&good, earlier, later);
            for slot in [earlier + 2, later, run.end - 1, other(k + 1), other(k + runs.len() - 1)] {
                for image in (1..=4).filter_map(|rule| broken(&twice, slot, rule)) {
                    refused(&image, slot.min(later));
                    images[usize::from(slot >= later) + usize::from(slot > later)] += 1;
                }
            }
        }
    }
    assert!(images.iter().all(|&images| images > 100), "{images:?}");
}

/// The first prefixes of a length that have one word of the library's filter for a table of so many slots, at most `most`.
fn in_one_word(slots: usize, length: u32, most: usize) -> Vec<u32> {
    let words = match slots {
        0..=64 => 16,
        65..=1024 => 512,
        _ => 4096,
    };
    let hash = |address: u64| (address * 2_654_435_769 + u64::from(length) * 1_540_483_477) >> 20;
    let addresses = (0..1 << length).map(|j: u64| j << (32 - length));
    let of_word = addresses.filter(|&address| hash(address) % words == 7);
    of_word.map(|address| address as u32).take(most).collect()
}

/// Tables whose prefixes have one word of the filter: once its bits are set, the filter says of every prefix that it may stand before,
/// and entries that repeat nothing are compared too.
fn tables_in_one_word() -> Vec<Image> {
    let tables: [(usize, &[(u32, usize)]); 6] = [
        (64, &[(24, 64)]),
        (64, &[(15, 64)]),
        (64, &[(32, 10), (24, 21), (16, 9), (15, 9), (12, 9)]),
        (1024, &[(32, 1024)]),
        (1024, &[(32, 301), (24, 555), (16, 61), (15, 52)]),
        (4096, &[(32, 701), (24, 2999), (20, 201)]),
    ];
    let of_table = |(slots, runs): (usize, &[(u32, usize)])| {
        let mut list = Rows::default();
        for &(length, entries) in runs {
            let addresses = in_one_word(slots, length, entries);
            assert_eq!(addresses.len(), entries);
            addresses.iter().for_each(|&address| list.push(address, length, 1));
        }
        table_of(slots, &list)
    };
    tables.map(of_table).into()
}

/// Repeats in tables where entries that repeat nothing are compared too, at every place of the runs of 64 slots.
#[test]
fn a_prefix_twice_in_one_word_of_the_filter() {
    let mut images = 0;
    for good in tables_in_one_word() {
        assert!(check_by_runs(&good).is_ok());
        for run in runs(&good) {
            for (earlier, later) in pairs(&good, &run) {
                refused(&with(&good, later, other_hop(cell(&good, earlier))), later);
                images += 1;
            }
        }
    }
    assert!(images > 4000, "{images}");
}
