//! The range calls of the library and of the second program, compared: the board, limits, room, damaged ranges. And the ranges of
//! many lists beside the lists themselves and their slots.

use hawkmortar::{RangeTable, Refusal, MAX_RANGES, MAX_ROUTES};
use second::both;
use second::both::list::{apart, list_of, one, prefix_at, routes, set_p, with_one_fault};
use second::both::ranges::{build, built, damage, lookup, lookups};
use second::both::{about, slots_of};
use second::list::bounds;
use second::random::{Random, Rows};
use second::ranges::{boundaries, Ranges};
use second::slots::Image;
use second::{ip, Fault};
use std::collections::BTreeSet;

/// A table of ranges given as start and hop.
fn ranges_of(ranges: &[(u32, u32)]) -> Ranges {
    let (starts, hops) = ranges.iter().copied().unzip();
    Ranges { starts, hops }
}

/// Both programs answer each key alike in the list, its slots and its ranges.
fn agree(list: &Rows, image: &Image, ranges: &Ranges, keys: &[u32]) {
    let answers = both::list::lookups(list, keys);
    assert_eq!(both::lookups(image, keys), answers, "slots of {list:?}");
    assert_eq!(lookups(ranges, keys), answers, "ranges of {list:?}");
}

/// The ranges of a good list; at each of its boundaries and beside them they agree with the list and its slots.
fn agreed(list: &Rows) -> Ranges {
    let ranges = built(list);
    agree(list, &slots_of(list), &ranges, &about(&boundaries(list)));
    ranges
}

#[test]
fn board_case_h() {
    let mut list = set_p();
    let mut expected = ranges_of(&[
        (0, 7),
        (ip([10, 0, 0, 0]), 1),
        (ip([10, 20, 0, 0]), 2),
        (ip([10, 20, 4, 0]), 3),
        (ip([10, 20, 4, 9]), 2),
        (ip([10, 20, 4, 10]), 3),
        (ip([10, 20, 5, 0]), 2),
        (ip([10, 21, 0, 0]), 1),
        (ip([11, 0, 0, 0]), 7),
    ]);
    assert_eq!(agreed(&list), expected);
    for (q, hop) in [
        ([10, 20, 4, 9], 2),
        ([10, 20, 4, 10], 3),
        ([10, 20, 5, 0], 2),
        ([255; 4], 7),
    ] {
        assert_eq!(lookup(&expected, ip(q)), Ok(hop));
    }
    list.addresses.pop();
    list.lengths.pop();
    list.hops.pop();
    (expected.hops[0], expected.hops[8]) = (0, 0);
    assert_eq!(agreed(&list), expected);
    assert_eq!(lookup(&expected, ip([11, 0, 0, 0])), Ok(0));
}

#[test]
fn ranges_of_no_prefix() {
    let none = Rows::default();
    let expected = ranges_of(&[(0, 0)]);
    assert_eq!(agreed(&none), expected);
    assert_eq!(build(&none, 1, 1), Ok(expected.clone()));
    assert_eq!(build(&none, 0, 0), Err((9, 0)));
    assert_eq!(lookups(&expected, &[0, 7, u32::MAX]), [Ok(0); 3]);
}

#[test]
fn limits_of_the_list_of_a_build() {
    for entries in [0, 1, 2, 4095, 4096] {
        assert_eq!(built(&apart(entries)).starts.len(), 2 * entries + 1);
    }
    for entries in [4097, 5000] {
        for room in [0, 2 * entries + 1] {
            assert_eq!(build(&apart(entries), room, room), Err((8, 0)));
        }
    }
    for row in 0..3 {
        for cells in [0, 4, 6, 4096, 4097] {
            let mut list = set_p();
            let row = [&mut list.addresses, &mut list.lengths, &mut list.hops]
                .into_iter()
                .nth(row)
                .unwrap();
            row.resize(cells, 1);
            for (starts, hops) in [(0, 0), (20, 20), (20, 0), (0, 20)] {
                assert_eq!(build(&list, starts, hops), Err((8, 0)));
            }
        }
    }
}

#[test]
fn limits_of_lengths_and_hops_in_a_build() {
    for (list, expected) in [
        (one(0, 0, 1), Ok(vec![(0, 1)])),
        (one(0, 0, 65_535), Ok(vec![(0, 65_535)])),
        (one(0, 0, 0), Err((3, 0))),
        (one(0, 0, 65_536), Err((3, 0))),
        (one(0, 0, u32::MAX), Err((3, 0))),
        (one(7, 32, 1), Ok(vec![(0, 0), (7, 1), (8, 0)])),
        (one(0, 32, 65_535), Ok(vec![(0, 65_535), (1, 0)])),
        (one(u32::MAX, 32, 1), Ok(vec![(0, 0), (u32::MAX, 1)])),
        (one(7, 33, 1), Err((1, 0))),
        (one(0, u32::MAX, 1), Err((1, 0))),
        (one(1 << 31, 1, 1), Ok(vec![(0, 0), (1 << 31, 1)])),
        (one(0, 1, 1), Ok(vec![(0, 1), (1 << 31, 0)])),
        (one(1 << 31, 0, 1), Err((2, 0))),
    ] {
        assert_eq!(
            build(&list, 3, 3),
            expected.map(|ranges| ranges_of(&ranges)),
            "{list:?}"
        );
    }
}

/// One past 255.255.255.255 no range starts, at 0 or elsewhere.
#[test]
fn prefixes_that_end_at_the_last_address() {
    for length in 1..=32 {
        let address = prefix_at(u32::MAX, length);
        assert_eq!(agreed(&one(address, length, 9)), ranges_of(&[(0, 0), (address, 9)]));
        let list = list_of(&[(address, length, 9), (0, 0, 7)]);
        assert_eq!(agreed(&list), ranges_of(&[(0, 7), (address, 9)]));
        let list = list_of(&[(0, length, 9), (address, length, 9)]);
        let (_, last) = bounds(0, length);
        let expected = [(0, 9), (last + 1, 0), (address, 9)];
        assert_eq!(
            agreed(&list),
            ranges_of(if length == 1 { &expected[..1] } else { &expected })
        );
    }
}

/// Every length about one address: all start there, all end there, or neither.
#[test]
fn nested_prefixes() {
    for q in [0, u32::MAX, 0x5555_5555, ip([10, 20, 4, 9])] {
        for hops in [1, 2, 3, 33] {
            let mut entries: Vec<_> = (0..=32).map(|n| (prefix_at(q, n), n, 1 + n % hops)).collect();
            let ranges = agreed(&list_of(&entries));
            assert_eq!(lookup(&ranges, q), Ok(1 + 32 % hops));
            assert_eq!(ranges.starts.len() == 1, hops == 1, "{ranges:?}");
            // the order of the entries is no matter
            entries.reverse();
            assert_eq!(agreed(&list_of(&entries)), ranges);
        }
    }
    let entries: Vec<_> = (0..=32).map(|n| (prefix_at(u32::MAX, n), n, 1 + n)).collect();
    let expected: Vec<_> = entries.iter().map(|&(address, _, hop)| (address, hop)).collect();
    assert_eq!(built(&list_of(&entries)), ranges_of(&expected));
    let entries: Vec<_> = (0..=32).map(|n| (0, n, 1 + n)).collect();
    let ends = (0..=31).rev().map(|n| (bounds(0, n + 1).1 + 1, 1 + n));
    let expected: Vec<_> = [(0, 33)].into_iter().chain(ends).collect();
    assert_eq!(built(&list_of(&entries)), ranges_of(&expected));
}

/// Neighbours with one hop are one range, whatever the lengths; a prefix that longer ones cover has none.
#[test]
fn touching_prefixes() {
    let half = 1 << 31;
    for (list, expected) in [
        (list_of(&[(0, 1, 5), (half, 1, 5)]), vec![(0, 5)]),
        (list_of(&[(half, 1, 6), (0, 1, 5)]), vec![(0, 5), (half, 6)]),
        (list_of(&[(0, 0, 9), (half, 1, 6), (0, 1, 5)]), vec![(0, 5), (half, 6)]),
        (list_of(&[(0, 0, 9), (half, 1, 9), (0, 1, 5)]), vec![(0, 5), (half, 9)]),
        (
            list_of(&[(8, 30, 5), (12, 31, 5), (14, 32, 5)]),
            vec![(0, 0), (8, 5), (15, 0)],
        ),
        (
            list_of(&[(8, 30, 5), (12, 31, 6), (14, 32, 5)]),
            vec![(0, 0), (8, 5), (12, 6), (14, 5), (15, 0)],
        ),
        (
            list_of(&[(8, 29, 5), (12, 31, 5), (9, 32, 5)]),
            vec![(0, 0), (8, 5), (16, 0)],
        ),
        (
            list_of(&[(8, 29, 5), (8, 32, 6), (15, 32, 6)]),
            vec![(0, 0), (8, 6), (9, 5), (15, 6), (16, 0)],
        ),
        (
            list_of(&[(8, 29, 5), (10, 31, 6), (10, 32, 5)]),
            vec![(0, 0), (8, 5), (11, 6), (12, 5), (16, 0)],
        ),
        (
            list_of(&[(8, 32, 5), (10, 32, 5)]),
            vec![(0, 0), (8, 5), (9, 0), (10, 5), (11, 0)],
        ),
    ] {
        assert_eq!(agreed(&list), ranges_of(&expected), "{list:?}");
    }
}

#[test]
fn the_most_ranges() {
    assert_eq!(MAX_RANGES, 2 * MAX_ROUTES + 1);
    for entries in [1, 2, 3, 100, 4096] {
        let list = apart(entries);
        let ranges = built(&list);
        assert_eq!(ranges.starts.len(), 2 * entries + 1);
        assert_eq!(lookup(&ranges, 4 * entries as u32 - 2), Ok(entries as u32));
        let mut with_default = apart(entries - 1);
        with_default.push(0, 0, 65_535);
        assert_eq!(built(&with_default).starts.len(), 2 * entries - 1);
    }
    // nested, each two bits longer and at neither end of the one around it
    let mut nested = Rows::default();
    for n in 1..=16 {
        nested.push(prefix_at(0x5555_5555, 2 * n), 2 * n, n);
        assert_eq!(agreed(&nested).starts.len() as u32, 2 * n + 1);
    }
    nested.push(0, 0, 17);
    assert_eq!(agreed(&nested).starts.len(), 2 * 17 - 1);
}

#[test]
fn each_refusal_of_the_list_of_a_build() {
    let good = set_p();
    assert_eq!(built(&good).starts.len(), 9);
    // with and without room
    for (list, fault) in with_one_fault(&good) {
        for (starts, hops) in [(20, 20), (0, 0), (0, 20), (20, 0), (8, 9), (9, 8)] {
            assert_eq!(build(&list, starts, hops), Err(fault), "{list:?}");
        }
    }
    for place in [0, 1, 2048, 4095] {
        for (number, (address, length, hop)) in [(1, (0, 33, 1)), (2, (1, 31, 1)), (3, (0, 0, 0)), (4, (10, 32, 9))] {
            // entry 2 is 10/32, so that a repeat before it is found there
            let mut list = apart(4096);
            (list.addresses[place], list.lengths[place], list.hops[place]) = (address, length, hop);
            let place = if number == 4 { place.max(2) } else { place };
            for room in [0, 8193] {
                assert_eq!(build(&list, room, room), Err((number, place)));
            }
        }
    }
}

/// The size before the entries, an entry before the next, the room last.
#[test]
fn refusals_of_a_build_come_in_their_order() {
    let mut list = list_of(&[(1, 33, 0), (1, 24, 0), (0, 24, 0), (0, 24, 1), (0, 24, 1)]);
    list.hops.pop();
    assert_eq!(build(&list, 0, 0), Err((8, 0)));
    list.hops.push(1);
    assert_eq!(build(&list, 0, 0), Err((1, 0)));
    list.lengths[0] = 32;
    assert_eq!(build(&list, 0, 0), Err((3, 0)));
    list.hops[0] = 7;
    assert_eq!(build(&list, 0, 0), Err((2, 1)));
    list.addresses[1] = 256;
    assert_eq!(build(&list, 0, 0), Err((3, 1)));
    list.hops[1] = 7;
    assert_eq!(build(&list, 0, 0), Err((3, 2)));
    list.hops[2] = 7;
    assert_eq!(build(&list, 0, 0), Err((4, 3)));
    list.addresses[3] = 512;
    assert_eq!(build(&list, 0, 0), Err((4, 4)));
    list.addresses[4] = 1024;
    assert_eq!(build(&list, 0, 0), Err((9, 0)));
    assert!(build(&list, 11, 11).is_ok());
}

/// Every room for the starts with every room for the hops.
#[test]
fn builds_of_every_room() {
    let mut random = Random::new(20);
    let mut lists = vec![Rows::default(), one(0, 0, 1), set_p(), apart(8)];
    lists.extend((0..20).map(|entries| Rows::near(&mut random, entries, 2)));
    for list in lists {
        let count = built(&list).starts.len();
        for starts in 0..=count + 2 {
            for hops in 0..=count + 2 {
                let expected = if starts < count || hops < count {
                    Err((9, 0))
                } else {
                    Ok(count)
                };
                let found = build(&list, starts, hops).map(|ranges| ranges.hops.len());
                assert_eq!(found, expected, "room for {starts} starts, {hops} hops");
            }
        }
    }
    let list = apart(4096);
    for (starts, hops) in [
        (8192, 8193),
        (8193, 8192),
        (8192, 8192),
        (0, 8193),
        (8193, 0),
        (100_000, 8192),
    ] {
        assert_eq!(build(&list, starts, hops), Err((9, 0)));
    }
    for (starts, hops) in [(8193, 8193), (8194, 8193), (8193, 100_000)] {
        assert!(build(&list, starts, hops).is_ok());
    }
}

/// Lists of up to 11 entries; then the same with damage, and any room.
#[test]
fn random_small_lists_and_their_ranges() {
    let mut random = Random::new(21);
    let (mut merged, mut refused) = (0, [0; 10]);
    for round in 0..40_000 {
        let entries = random.below(12) as usize;
        let mut list = match round % 4 {
            0 => Rows::valid(&mut random, entries, u32::MAX),
            1 => Rows::valid(&mut random, entries, 0x8180_c0e0),
            hops => Rows::near(&mut random, entries, hops),
        };
        let ranges = agreed(&list);
        merged += usize::from(ranges.starts.len() < boundaries(&list).len());
        for _ in 0..random.below(3) {
            list.damage(&mut random);
        }
        let (starts, hops) = (random.below(30) as usize, random.below(30) as usize);
        if let Err((number, _)) = build(&list, starts, hops) {
            refused[usize::from(number)] += 1;
        }
    }
    // the lists are of every kind
    assert!(merged > 5000, "{merged}");
    for number in [1, 2, 3, 4, 8, 9] {
        assert!(refused[number] > 500, "{refused:?}");
    }
}

#[test]
fn random_lists_of_hundreds_and_their_ranges() {
    let mut random = Random::new(22);
    for round in 0..30 {
        let entries = 100 + random.below(300) as usize;
        agreed(&many(&mut random, round, entries));
    }
}

/// A list of one kind after the other.
fn many(random: &mut Random, round: usize, entries: usize) -> Rows {
    match round % 4 {
        0 => Rows::valid(random, entries, u32::MAX),
        1 => Rows::valid(random, entries, 0xf0f0_f0f0),
        2 => Rows::near(random, entries, 3),
        _ => Rows::near(random, entries, 65_535),
    }
}

#[test]
fn random_lists_of_4096_and_their_ranges() {
    let mut random = Random::new(23);
    for round in 0..12 {
        agreed(&many(&mut random, round, 4096));
    }
}

/// A table with a range at every address of a row, and hops of a row in turn.
fn full_table() -> Ranges {
    Ranges {
        starts: (0..8193).map(|i| 9 * i).collect(),
        hops: (0..8193).map(|i| [0, 1, 65_535][i % 3]).collect(),
    }
}

/// Good tables: small ones, with and without routes at either end, and the largest.
fn good_tables() -> Vec<Ranges> {
    let mut list = set_p();
    let board = built(&list);
    (list.addresses[4], list.lengths[4]) = (1 << 31, 1);
    let tables = vec![
        ranges_of(&[(0, 0)]),
        ranges_of(&[(0, 65_535)]),
        ranges_of(&[(0, 0), (u32::MAX, 1)]),
        ranges_of(&[(0, 9), (1, 0), (2, 9)]),
        board,
        built(&list),
        built(&apart(20)),
        full_table(),
    ];
    for table in &tables {
        assert!(lookups(table, &about(&table.starts)).iter().all(|found| found.is_ok()));
    }
    tables
}

/// The places of a small table, and some of a large one with its first, middle and last.
fn places(table: &Ranges) -> Vec<usize> {
    let count = table.starts.len();
    if count <= 64 {
        (0..count).collect()
    } else {
        vec![0, 1, 2, count / 2, count - 2, count - 1]
    }
}

/// Both programs refuse the table so, whatever address is asked.
fn refused(table: &Ranges, expected: Fault) {
    let some: Vec<u32> = table
        .starts
        .iter()
        .copied()
        .step_by(1 + table.starts.len() / 8)
        .collect();
    for found in lookups(table, &about(&some)) {
        assert_eq!(found, Err(expected), "{table:?}");
    }
    let owned = RangeTable::from_rows(table.starts.clone(), table.hops.clone());
    assert_eq!(owned.map_err(both::fault), Err(expected));
}

#[test]
fn limits_of_lent_ranges() {
    refused(&ranges_of(&[]), (7, 0));
    assert_eq!(lookup(&ranges_of(&[(0, 3)]), u32::MAX), Ok(3));
    let mut table = full_table();
    assert_eq!(lookup(&table, 9 * 8192 - 1), Ok(1));
    assert_eq!(lookup(&table, 9 * 8192), Ok(65_535));
    assert_eq!(lookup(&table, u32::MAX), Ok(65_535));
    table.starts.push(u32::MAX);
    refused(&table, (8, 0));
    table.hops.push(7);
    refused(&table, (8, 0));
    // the size before the rules
    table.starts[0] = 1;
    refused(&table, (8, 0));
    for (starts, hops) in [
        (0, 1),
        (1, 0),
        (8, 9),
        (9, 8),
        (0, 9),
        (9, 0),
        (8193, 8194),
        (8194, 8193),
        (8193, 1),
    ] {
        let mut table = full_table();
        table.starts.resize(starts, u32::MAX);
        table.hops.resize(hops, 7);
        refused(&table, (8, 0));
    }
}

#[test]
fn limits_of_hops_in_lent_ranges() {
    for good in good_tables() {
        for place in places(&good) {
            for hop in [
                0,
                1,
                65_535,
                65_536,
                65_537,
                1 << 31,
                u32::MAX,
                good.hops[place] + 65_536,
            ] {
                let mut table = good.clone();
                table.hops[place] = hop;
                if hop > 65_535 || (place > 0 && hop == table.hops[place - 1]) {
                    refused(&table, (7, place));
                } else if table.hops.get(place + 1) == Some(&hop) {
                    refused(&table, (7, place + 1));
                } else {
                    assert_eq!(lookup(&table, table.starts[place]), Ok(hop));
                }
            }
        }
    }
}

#[test]
fn a_first_start_that_is_not_0() {
    for good in good_tables() {
        for start in [1, 2, 256, 1 << 31, u32::MAX - 1, u32::MAX] {
            let mut table = good.clone();
            table.starts[0] = start;
            refused(&table, (7, 0));
        }
        let mut table = good.clone();
        if table.starts.len() > 1 {
            table.starts.remove(0);
            table.hops.remove(0);
            refused(&table, (7, 0));
        }
    }
}

#[test]
fn starts_that_do_not_rise() {
    for good in good_tables() {
        for place in places(&good).into_iter().skip(1) {
            let before = good.starts[place - 1];
            for start in [before, before.saturating_sub(1), before / 2, 0] {
                let mut table = good.clone();
                table.starts[place] = start;
                refused(&table, (7, place));
            }
            // where the one before is too high, the later of the two is named
            for start in [good.starts[place], good.starts[place].saturating_add(1), u32::MAX] {
                let mut table = good.clone();
                table.starts[place - 1] = start;
                refused(&table, (7, if place == 1 { 0 } else { place }));
            }
        }
    }
}

#[test]
fn neighbours_with_one_hop() {
    for good in good_tables() {
        for place in places(&good).into_iter().skip(1) {
            for hop in [good.hops[place - 1], good.hops[place]] {
                let mut table = good.clone();
                (table.hops[place - 1], table.hops[place]) = (hop, hop);
                let clash = place > 1 && hop == table.hops[place - 2];
                refused(&table, (7, if clash { place - 1 } else { place }));
            }
        }
    }
}

/// Each pair of faults, of each two kinds.
#[test]
fn the_first_broken_range_is_named() {
    let good = built(&set_p());
    let broken = |table: &mut Ranges, place: usize, kind: usize| match kind {
        0 => table.starts[place] = table.starts[place - 1],
        1 => table.hops[place] = table.hops[place - 1],
        2 => table.hops[place] = 65_536,
        _ => table.starts[place] = 0,
    };
    for first in 1..9 {
        for second in first..9 {
            for kinds in 0..16 {
                let mut table = good.clone();
                broken(&mut table, second, kinds / 4);
                broken(&mut table, first, kinds % 4);
                refused(&table, (7, first));
                table.starts[0] = 9;
                refused(&table, (7, 0));
            }
        }
    }
}

/// A good table of so many ranges, made of no list, and with fewer where starts fall together.
fn random_table(random: &mut Random, ranges: usize) -> Ranges {
    let mask = random.pick(&[u32::MAX, 0xff, 0xc000_0003]);
    let mut starts = BTreeSet::from([0]);
    starts.extend((1..ranges).map(|_| random.number() as u32 & mask));
    let mut hop = 65_536;
    let mut hops = Vec::new();
    while hops.len() < starts.len() {
        let next = random.pick(&[0, 1, 2, 65_535]);
        if next != hop {
            hop = next;
            hops.push(hop);
        }
    }
    let starts = starts.into_iter().collect();
    Ranges { starts, hops }
}

#[test]
fn random_damaged_ranges() {
    let mut random = Random::new(24);
    let (mut accepted, mut refused) = (0, [0; 9]);
    for _ in 0..60_000 {
        let ranges = 1 + random.below(24) as usize;
        let mut table = random_table(&mut random, ranges);
        let mut keys = about(&table.starts);
        keys.push(random.number() as u32);
        assert!(lookups(&table, &keys).iter().all(|found| found.is_ok()), "{table:?}");
        for _ in 0..random.below(4) {
            damage(&mut table, &mut random);
        }
        match lookups(&table, &keys)[0] {
            Ok(_) => accepted += 1,
            Err((number, _)) => refused[usize::from(number)] += 1,
        }
    }
    assert!(accepted > 10_000, "{accepted}");
    assert!(refused[7] > 20_000 && refused[8] > 2000, "{refused:?}");
}

/// `RangeTable` of random lists: the rows, the ranges and the answers are those of the second program's calls.
#[test]
fn a_range_table_does_what_its_rows_do() {
    let mut random = Random::new(25);
    for round in 0..2000 {
        let entries = random.below(if round % 100 == 0 { 300 } else { 20 }) as usize;
        let list = many(&mut random, round, entries);
        let ranges = built(&list);
        let table = RangeTable::of(routes(&list)).unwrap();
        same_table(&table, &ranges);
        let again = RangeTable::from_rows(ranges.starts, ranges.hops);
        assert_eq!(again, Ok(table));
    }
    let mut list = apart(4096);
    same_table(&RangeTable::of(routes(&list)).unwrap(), &built(&list));
    list.push(0, 0, 1);
    assert_eq!(RangeTable::of(routes(&list)), Err(Refusal::Size));
    let mut list = set_p();
    list.push(list.addresses[2], list.lengths[2], 9);
    assert_eq!(RangeTable::of(routes(&list)), Err(Refusal::Twice(5)));
}

/// A table has these rows; its ranges follow each other over all addresses, forward and backward, and have the answers of lookups.
fn same_table(table: &RangeTable, ranges: &Ranges) {
    assert_eq!((table.starts(), table.hops()), (&ranges.starts[..], &ranges.hops[..]));
    assert_eq!(table.iter().len(), ranges.starts.len());
    let mut backward: Vec<_> = table.iter().rev().collect();
    backward.reverse();
    assert!(table.iter().eq(backward));
    let mut next = Some(0);
    for (range, (&start, &hop)) in table.iter().zip(ranges.starts.iter().zip(&ranges.hops)) {
        let last = u32::from(range.last);
        assert_eq!(u32::from(range.start), start);
        assert_eq!(next, Some(start));
        next = last.checked_add(1);
        assert_eq!(range.hop.map_or(0, |hop| hop.get().into()), hop);
        assert_eq!(range.to_string(), format!("{} {hop}", range.start));
        assert_eq!((table.lookup(start), table.lookup(last)), (range.hop, range.hop));
    }
    assert_eq!(next, None);
}
