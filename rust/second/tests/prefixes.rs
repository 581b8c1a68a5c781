//! The list calls over one slice of entries: they answer as the second program does, and as the calls over rows.
//!
//! The library copies the entries into rows, with scratch of four sizes, for up to 64, 256, 1,024 and 4,096 entries. Lists on both
//! sides of each size are asked.

use hawkmortar::prefixes::{self as proved, Entry};
use hawkmortar::{NextHop, Refusal};
use second::both;
use second::both::list::{apart, edges, list_of, one, routes, set_p, with_fault_at, with_one_fault};
use second::both::prefixes::{check, damage, entries, library_check, library_lookup, lookup, lookups};
use second::list::{answer, bounds};
use second::random::{Random, Rows};
use second::{ip, Fault};
use std::collections::BTreeSet;
use std::thread;

/// Sizes of lists that are accepted: the least, and those on both sides of each size of scratch.
const SIZES: [usize; 13] = [0, 1, 63, 64, 65, 255, 256, 257, 1023, 1024, 1025, 4095, 4096];

/// Sizes of lists that are refused. The second last is 64 in 16 bits.
const TOO_MANY: [usize; 5] = [4097, 4098, 5000, 65_600, 1_000_000];

/// An entry whose address is given by its four octets.
const fn entry(octets: [u8; 4], length: u32, hop: u32) -> Entry {
    Entry {
        address: u32::from_be_bytes(octets),
        length,
        hop,
    }
}

/// Some places of a list: the first two, those on both sides of each size of scratch, the middle and the last two.
fn places(entries: usize) -> BTreeSet<usize> {
    let some = [0, 1, 63, 64, 65, 255, 256, 257, 1023, 1024, 1025, entries / 2];
    let last = entries.saturating_sub(2)..entries;
    some.into_iter().chain(last).filter(|&place| place < entries).collect()
}

/// A test and a lookup both get this refusal.
fn refused(rows: &Rows, expected: Fault) {
    assert_eq!(check(rows), Err(expected));
    assert_eq!(lookup(rows, 7), Err(expected));
}

#[test]
fn board_cases_a_to_e_in_one_slice() {
    let mut rows = set_p();
    assert_eq!(check(&rows), Ok(5));
    assert_eq!(lookup(&rows, ip([10, 20, 4, 9])), Ok(2));
    assert_eq!(lookup(&rows, ip([10, 20, 4, 10])), Ok(3));
    assert_eq!(lookup(&rows, ip([10, 20, 5, 0])), Ok(2));
    assert_eq!(lookup(&rows, ip([255, 255, 255, 255])), Ok(7));
    lookups(&rows, &edges(&rows, 0, 1));
    let list: Vec<Entry> = routes(&rows).map(Entry::from).collect();
    assert_eq!(list, entries(&rows));
    assert_eq!(proved::lookup(&list, ip([10, 9, 9, 9])), Ok(NextHop::new(1)));
    assert_eq!(proved::lookup(&list[..4], ip([11, 0, 0, 0])), Ok(None));
    rows.addresses.pop();
    rows.lengths.pop();
    rows.hops.pop();
    assert_eq!(check(&rows), Ok(4));
    assert_eq!(lookup(&rows, ip([11, 0, 0, 0])), Ok(0));
    lookups(&rows, &edges(&rows, 0, 1));
}

#[test]
fn limits_of_lengths_and_hops_in_one_slice() {
    assert_eq!(lookups(&one(7, 32, 1), &[6, 7, 8]), [Ok(0), Ok(1), Ok(0)]);
    assert_eq!(lookups(&one(0, 0, 65_535), &[0, 7, u32::MAX]), [Ok(65_535); 3]);
    assert_eq!(lookup(&one(1 << 31, 1, 1), u32::MAX), Ok(1));
    refused(&one(7, 33, 1), (1, 0));
    refused(&one(0, u32::MAX, 1), (1, 0));
    refused(&one(1 << 31, 0, 1), (2, 0));
    refused(&one(1, 31, 1), (2, 0));
    refused(&one(0, 0, 0), (3, 0));
    refused(&one(0, 0, 65_536), (3, 0));
    refused(&one(0, 0, u32::MAX), (3, 0));
}

#[test]
fn limits_of_a_list_in_one_slice() {
    for entries in SIZES {
        let rows = apart(entries);
        assert_eq!(check(&rows), Ok(entries));
        for place in places(entries) {
            let (q, hop) = (rows.addresses[place], rows.hops[place]);
            assert_eq!(lookups(&rows, &[q - 1, q, q + 1]), [Ok(0), Ok(hop), Ok(0)]);
        }
        // where the next entry would be
        assert_eq!(lookup(&rows, 4 * entries as u32 + 2), Ok(0));
    }
    for entries in TOO_MANY {
        refused(&apart(entries), (8, 0));
    }
}

/// Lists of every size, asked for their last entry and for the entry that would be next, and with a fault in the last.
#[test]
fn a_list_of_every_size() {
    let whole = entries(&apart(4097));
    for size in 1..=4096 {
        let (last, next) = (whole[size - 1], whole[size]);
        assert_eq!(library_lookup(&whole[..size], last.address), Ok(last.hop));
        assert_eq!(library_lookup(&whole[..size], next.address), Ok(0));
        assert_eq!(library_check(&whole[..size]), Ok(size));
        let mut rows = apart(size);
        rows.hops[size - 1] = 0;
        refused(&rows, (3, size - 1));
    }
}

/// Every number up to 33 and some large ones, as an address, a length and a hop: so the three take each other's places.
#[test]
fn numbers_of_one_entry() {
    let numbers: Vec<u32> = (0..34).chain([65_535, 65_536, 1 << 31, u32::MAX]).collect();
    let mut accepted = 0;
    for &address in &numbers {
        for &length in &numbers {
            for &hop in &numbers {
                let rows = one(address, length, hop);
                accepted += check(&rows).unwrap_or(0);
                lookups(&rows, &edges(&rows, 0, 1));
            }
        }
    }
    assert!(accepted > 5000, "{accepted}");
}

/// Each bit of each number turned, in entries of lists on both sides of a size of scratch.
#[test]
fn every_bit_of_an_entry() {
    for mut rows in [1, 5, 64, 65, 256, 257, 1024, 1025, 4096].map(apart) {
        let last = rows.addresses.len() - 1;
        for place in [0, last / 2, last] {
            for bit in 0..96 {
                let turned = |rows: &mut Rows| match bit / 32 {
                    0 => rows.addresses[place] ^= 1 << (bit % 32),
                    1 => rows.lengths[place] ^= 1 << (bit % 32),
                    _ => rows.hops[place] ^= 1 << (bit % 32),
                };
                turned(&mut rows);
                let _ = check(&rows);
                lookups(&rows, &edges(&rows, place, last + 1));
                turned(&mut rows);
            }
        }
    }
}

/// Lists that would be accepted with lengths and hops exchanged too, with other answers.
#[test]
fn lengths_and_hops_are_told_apart() {
    for length in 1..=32 {
        for hop in 1..=32 {
            let rows = list_of(&[(0, length, hop), (1 << 31, hop, length)]);
            assert_eq!(check(&rows), Ok(2));
            assert_eq!(lookups(&rows, &[0, 1 << 31]), [Ok(hop), Ok(length)]);
            lookups(&rows, &edges(&rows, 0, 1));
        }
    }
}

/// Every list of up to so many entries that have these addresses, lengths and hops.
fn every_list(most: u32, addresses: &[u32], lengths: &[u32], hops: &[u32], mut each: impl FnMut(&Rows)) {
    let mut entries = Vec::new();
    for &address in addresses {
        for &length in lengths {
            entries.extend(hops.iter().map(|&hop| (address, length, hop)));
        }
    }
    for count in 0..=most {
        for number in 0..entries.len().pow(count) {
            // the number's digits choose the entries
            let digit = |i| number / entries.len().pow(i) % entries.len();
            let list: Vec<_> = (0..count).map(|i| entries[digit(i)]).collect();
            each(&list_of(&list));
        }
    }
}

#[test]
fn every_list_of_up_to_4_chosen_entries() {
    const KEYS: [u32; 6] = [0, 1, 1 << 30, 1 << 31, 3 << 30, u32::MAX];
    let (mut accepted, mut refused) = (0, [0; 9]);
    let mut ask = |rows: &Rows| {
        match check(rows) {
            Ok(_) => accepted += 1,
            Err((number, _)) => refused[usize::from(number)] += 1,
        }
        lookups(rows, &KEYS);
    };
    let (addresses, lengths) = ([0, 1, 1 << 31, 3 << 30], [0, 1, 2, 32, 33]);
    every_list(3, &addresses, &lengths, &[0, 1, 2, 65_536], &mut ask);
    every_list(4, &[0, 1 << 30, 1 << 31, 3 << 30], &[0, 1, 2], &[1, 2], &mut ask);
    // the lists are of every kind
    for number in [1, 2, 3, 4] {
        assert!(refused[number] > 1000, "{refused:?}");
    }
    assert!(accepted > 10_000, "{accepted}");
}

#[test]
fn each_refusal_at_each_place_of_one_slice() {
    for (rows, fault) in with_one_fault(&set_p()) {
        refused(&rows, fault);
    }
}

/// Each refusal at the first place, the last and between. Over 4,096 entries the size is refused, whatever the fault.
#[test]
fn each_refusal_about_each_size_of_scratch() {
    for entries in SIZES.into_iter().chain(TOO_MANY).filter(|&entries| entries <= 5000) {
        let good = apart(entries);
        for place in places(entries) {
            let earlier: BTreeSet<usize> = (0..place).take(2).chain(place.checked_sub(1)).collect();
            for (rows, fault) in with_fault_at(&good, place, earlier) {
                refused(&rows, if entries > 4096 { (8, 0) } else { fault });
            }
        }
    }
}

/// Makes a fault with a refusal's number in a list that `apart` made. The prefix that is repeated is the first.
fn make_fault(rows: &mut Rows, place: usize, number: u8) {
    match number {
        1 => rows.lengths[place] = 33,
        2 => (rows.addresses[place], rows.lengths[place]) = (rows.addresses[place] | 1, 31),
        3 => rows.hops[place] = 65_536,
        _ => (rows.addresses[place], rows.lengths[place]) = (rows.addresses[0], rows.lengths[0]),
    }
}

/// Each two faults of a list that `apart` made, at two places or at one, where the least number is named.
fn two_faults(good: &Rows, first: usize, second: usize) {
    for one in 1..=4 {
        for other in 1..=4 {
            // entry 0 repeats none
            if (first == 0 && one == 4) || (first == second && one >= other) {
                continue;
            }
            let mut rows = good.clone();
            make_fault(&mut rows, second, other);
            make_fault(&mut rows, first, one);
            refused(&rows, (one, first));
        }
    }
}

/// An entry before the next, and of one entry 1 before 2 before 3 before 4; the size before any entry.
#[test]
fn refusals_of_one_slice_come_in_their_order() {
    for entries in SIZES {
        let places: BTreeSet<usize> = [0, 1, entries / 2, entries.saturating_sub(1)].into();
        for &second in places.range(..entries) {
            for &first in places.range(..=second) {
                two_faults(&apart(entries), first, second);
            }
        }
    }
    let mut rows = apart(4097);
    for (place, number) in [(0, 1), (1, 2), (2, 3), (3, 4)] {
        make_fault(&mut rows, place, number);
        refused(&rows, (8, 0));
    }
}

/// Lists inside a larger vector, from 16 places of it: so they start at every multiple of 4 bytes of a line of 64 bytes. The
/// entries about them would be refused, or found.
#[test]
fn lists_at_any_place_of_a_vector() {
    for count in SIZES {
        let list = entries(&apart(count));
        for filler in [entry([0, 0, 0, 1], 33, 9), entry([0, 0, 0, 1], 32, 9)] {
            let mut starts = BTreeSet::new();
            let mut whole = vec![filler; count + 17];
            for start in 0..16 {
                whole.fill(filler);
                whole[start..start + count].copy_from_slice(&list);
                let (before, lent) = (whole.clone(), &whole[start..start + count]);
                starts.insert(lent.as_ptr() as usize % 64);
                assert_eq!(library_check(lent), Ok(count));
                assert_eq!(library_lookup(lent, 1), Ok(0));
                if let Some(last) = list.last() {
                    assert_eq!(library_lookup(lent, last.address), Ok(last.hop));
                }
                assert!(whole == before, "{count} entries from {start}");
            }
            assert_eq!(starts.len(), 16, "{starts:?}");
        }
    }
}

/// Every part of a list with one fault: a place counts from the part's first entry.
#[test]
fn every_part_of_a_list() {
    let mut rows = apart(132);
    make_fault(&mut rows, 66, 3);
    let list = entries(&rows);
    for start in 0..=list.len() {
        for end in start..=list.len() {
            let part = &list[start..end];
            let has = |place| (start..end).contains(&place);
            let expected = match (has(66), has(10)) {
                (true, _) => Err((3, 66 - start)),
                (_, true) => Ok(rows.hops[10]),
                _ => Ok(0),
            };
            assert_eq!(library_lookup(part, rows.addresses[10]), expected, "{start}..{end}");
            assert_eq!(library_check(part), expected.map(|_| part.len()), "{start}..{end}");
        }
    }
    assert!(list == entries(&rows));
}

/// The board's set P with a repeated prefix, in memory that a program only reads: a write to it would end the test.
static READ_ONLY: [Entry; 6] = [
    entry([10, 0, 0, 0], 8, 1),
    entry([10, 20, 0, 0], 16, 2),
    entry([10, 20, 4, 0], 24, 3),
    entry([10, 20, 4, 9], 32, 2),
    entry([0, 0, 0, 0], 0, 7),
    entry([10, 20, 0, 0], 16, 9),
];

#[test]
fn a_list_in_memory_that_cannot_be_written() {
    let set_p = &READ_ONLY[..5];
    assert_eq!(proved::check(set_p), Ok(5));
    for (q, hop) in [
        ([10, 20, 4, 9], 2),
        ([10, 20, 4, 10], 3),
        ([10, 20, 5, 0], 2),
        ([255; 4], 7),
    ] {
        assert_eq!(proved::lookup(set_p, ip(q)), Ok(NextHop::new(hop)));
    }
    assert_eq!(proved::check(&READ_ONLY), Err(Refusal::Twice(5)));
    assert_eq!(proved::lookup(&READ_ONLY, 7u32), Err(Refusal::Twice(5)));
}

/// Threads ask one list and each a list of its own, all of one size, at the same time.
#[test]
fn lists_lent_to_several_threads() {
    let mut random = Random::new(40);
    for (size, rounds) in [(64, 2000), (256, 1000), (1024, 500), (4096, 200)] {
        let lists: Vec<Rows> = (0..4).map(|_| Rows::valid(&mut random, size, u32::MAX)).collect();
        let shared = &entries(&lists[0]);
        let keys = &[lists[0].addresses[size - 1], lists[1].addresses[0]];
        let expected = &answers(&lists[0], keys);
        thread::scope(|scope| {
            for own in &lists {
                scope.spawn(move || {
                    let (list, own) = (entries(own), answers(own, keys));
                    for _ in 0..rounds {
                        assert_eq!(library_check(&list), Ok(size));
                        for (i, &q) in keys.iter().enumerate() {
                            assert_eq!(library_lookup(&list, q), Ok(own[i]));
                            assert_eq!(library_lookup(shared, q), Ok(expected[i]));
                        }
                    }
                });
            }
        });
        assert!(*shared == entries(&lists[0]));
    }
}

/// What the second program answers in a good list.
fn answers(rows: &Rows, keys: &[u32]) -> Vec<u32> {
    keys.iter()
        .map(|&q| answer(&rows.addresses, &rows.lengths, &rows.hops, q))
        .collect()
}

/// In a list of 4,096 a prefix repeated at each place, for an entry at several distances before it.
#[test]
fn a_repeat_at_each_place_of_4096() {
    let good = Rows::valid(&mut Random::new(45), 4096, u32::MAX);
    for place in 1..4096usize {
        for earlier in [0, place / 2, place.saturating_sub(64), place - 1] {
            let mut rows = good.clone();
            (rows.addresses[place], rows.lengths[place]) = (good.addresses[earlier], good.lengths[earlier]);
            assert_eq!(check(&rows), Err((4, place)));
        }
    }
}

#[test]
fn random_small_lists_in_one_slice() {
    let mut random = Random::new(41);
    let (mut accepted, mut refused) = (0, [0; 9]);
    for round in 0..100_000 {
        let entries = random.below(12) as usize;
        let mut rows = Rows::valid(
            &mut random,
            entries,
            if round % 3 == 0 { u32::MAX } else { 0x8180_c0e0 },
        );
        for _ in 0..random.below(4) {
            damage(&mut rows, &mut random);
        }
        match check(&rows) {
            Ok(_) => accepted += 1,
            Err((number, _)) => refused[usize::from(number)] += 1,
        }
        let mut keys = edges(&rows, 0, 1);
        keys.push(random.number() as u32);
        lookups(&rows, &keys);
    }
    // the lists are of every kind
    for number in [1, 2, 3, 4] {
        assert!(refused[number] > 1000, "{refused:?}");
    }
    assert!(accepted > 20_000, "{accepted}");
}

/// A list of one kind after the other.
fn many(random: &mut Random, round: usize, entries: usize) -> Rows {
    match round % 4 {
        0 => Rows::valid(random, entries, u32::MAX),
        1 => Rows::valid(random, entries, 0xf0f0_f0f0),
        2 => Rows::near(random, entries, 65_535),
        _ => Rows::routed(random, entries, 300),
    }
}

/// Every edge of every prefix.
#[test]
fn random_lists_about_each_size_of_scratch() {
    let mut random = Random::new(42);
    for (sizes, rounds) in [([63, 64, 65], 40), ([255, 256, 257], 40), ([1023, 1024, 1025], 4)] {
        for round in 0..rounds {
            for entries in sizes {
                let rows = many(&mut random, round, entries);
                assert_eq!(check(&rows), Ok(entries));
                lookups(&rows, &edges(&rows, 0, 1));
            }
        }
    }
}

/// Lists of sizes in any order, so that a list follows a longer one and a shorter one.
#[test]
fn random_damaged_lists_about_each_size_of_scratch() {
    let mut random = Random::new(43);
    let (mut accepted, mut refused) = (0, [0; 9]);
    for round in 0..3000 {
        let entries = random.pick(&SIZES[2..]);
        let mut rows = many(&mut random, round, entries);
        for _ in 0..random.below(4) {
            damage(&mut rows, &mut random);
        }
        match check(&rows) {
            Ok(_) => accepted += 1,
            Err((number, _)) => refused[usize::from(number)] += 1,
        }
        let place = random.below(rows.addresses.len() as u64) as usize;
        lookups(&rows, &both::edges(rows.addresses[place], rows.lengths[place].min(32)));
    }
    for number in [1, 2, 3, 4] {
        assert!(refused[number] > 100, "{refused:?}");
    }
    assert!(accepted > 500, "{accepted}");
}

/// Every edge of every prefix; then one fault somewhere.
#[test]
fn random_lists_of_4096_in_one_slice() {
    let mut random = Random::new(44);
    for round in 0..4 {
        let mut rows = many(&mut random, round, 4096 - round % 2);
        lookups(&rows, &edges(&rows, 0, 1));
        damage(&mut rows, &mut random);
        let _ = check(&rows);
        lookups(&rows, &[0]);
    }
}

/// Each entry alone decides the answer at its last address: with a shorter length its address would be refused, with a longer one
/// it would not match.
#[test]
fn every_entry_of_4096_in_one_slice() {
    let mut rows = Rows::default();
    for i in 0..4096 {
        let (block, length) = (i * 1365 % 4096, 13 + i % 20);
        rows.push(block << 20 | 1 << (32 - length), length, 1 + 15 * i);
    }
    assert_eq!(check(&rows), Ok(4096));
    let prefixes = rows.addresses.iter().zip(&rows.lengths);
    let keys: Vec<u32> = prefixes.map(|(&address, &length)| bounds(address, length).1).collect();
    for (i, found) in lookups(&rows, &keys).into_iter().enumerate() {
        assert_eq!(found, Ok(rows.hops[i]), "entry {i}");
    }
}
