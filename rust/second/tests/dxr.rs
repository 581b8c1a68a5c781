//! The DXR calls of the library and of the second program, compared: the board, limits, room. And the DXR tables of many lists
//! beside the lists themselves, their slots and their ranges.

use hawkmortar::{DxrTable, Refusal, MAIN_WORDS, MAX_RANGE_WORDS, MAX_ROUTES};
use second::both;
use second::both::dxr::{
    about_chunks, agree, build, built, library_lookup, lookup, lookups, pointer, LONG, MAIN, SHORT,
};
use second::both::list::{apart, list_of, one, prefix_at, routes, set_p, with_one_fault};
use second::both::slots_of;
use second::dxr::{entries, Dxr, Entry};
use second::ip;
use second::list::answer;
use second::random::{Random, Rows};
use second::ranges::boundaries;
use std::collections::BTreeSet;

/// The DXR table of a good list; at each of its boundaries, at the ends of their chunks and beside these it agrees with the list,
/// its slots and its ranges.
fn agreed(list: &Rows) -> Dxr {
    let (ranges, dxr) = (both::ranges::built(list), built(list));
    agree(list, &slots_of(list), &ranges, &dxr, &about_chunks(&boundaries(list)));
    dxr
}

/// Every chunk but these has one entry, with this hop.
fn direct_but(dxr: &Dxr, chunks: &[usize], hop: impl Fn(usize) -> u32) {
    for (chunk, &word) in dxr.main.iter().enumerate() {
        let direct = chunks.contains(&chunk) || word == hop(chunk);
        assert!(direct, "chunk {chunk}: {word:#x}");
    }
}

/// So many prefixes, each in a chunk of its own that takes three long entries for it.
fn spread(entries: usize) -> Rows {
    let entries: Vec<_> = (0..entries as u32).map(|i| (i << 16 | 512, 32, 1 + i)).collect();
    list_of(&entries)
}

#[test]
fn board_case_i() {
    let mut list = set_p();
    let dxr = agreed(&list);
    assert_eq!(dxr.main[2580], 1_074_069_504);
    assert_eq!(dxr.words, [2, 67_108_867, 67_698_690, 67_764_227, 83_886_082]);
    direct_but(&dxr, &[2580], |chunk| if chunk >> 8 == 10 { 1 } else { 7 });
    for (q, hop) in [
        ([10, 20, 4, 9], 2),
        ([10, 20, 4, 10], 3),
        ([10, 20, 5, 0], 2),
        ([255; 4], 7),
    ] {
        assert_eq!(lookup(&dxr, ip(q)), Ok(hop));
    }
    list.addresses.pop();
    list.lengths.pop();
    list.hops.pop();
    let dxr = agreed(&list);
    direct_but(&dxr, &[2580], |chunk| u32::from(chunk >> 8 == 10));
    assert_eq!(lookup(&dxr, ip([11, 0, 0, 0])), Ok(0));
}

#[test]
fn board_case_j() {
    let mut list = set_p();
    list.addresses.remove(3);
    list.lengths.remove(3);
    list.hops.remove(3);
    let dxr = agreed(&list);
    assert_eq!(dxr.main[2580], 2_147_680_256);
    assert_eq!(dxr.words, [132_099, 84_017_152]);
    direct_but(&dxr, &[2580], |chunk| if chunk >> 8 == 10 { 1 } else { 7 });
    assert_eq!(lookup(&dxr, ip([10, 20, 4, 9])), Ok(3));
}

#[test]
fn the_dxr_table_of_no_prefix() {
    let none = Rows::default();
    let dxr = agreed(&none);
    assert_eq!(build(&none, MAIN, 0), Ok(dxr.clone()));
    direct_but(&dxr, &[], |_| 0);
    assert_eq!(lookups(&dxr, &[0, 7, u32::MAX]), [Ok(0); 3]);
}

/// Each list has its entries in chunk 1, given by the main word and the range words.
#[test]
fn long_chunks_and_short_ones() {
    let chunk = |i: u32| 0x1_0000 | i;
    for (prefixes, word, words) in [
        // the hops that fit
        (
            vec![(chunk(0x100), 24, 255)],
            pointer(SHORT, 3, 0),
            vec![0x0000_01ff, 0x0200_0000],
        ),
        (
            vec![(chunk(0x100), 24, 256)],
            pointer(LONG, 3, 0),
            vec![0, 0x0100_0100, 0x0200_0000],
        ),
        (vec![(chunk(0), 24, 255)], pointer(SHORT, 2, 0), vec![0x00ff_0100]),
        (
            vec![(chunk(0), 24, 256)],
            pointer(LONG, 2, 0),
            vec![0x0100, 0x0100_0000],
        ),
        (vec![(chunk(0xff00), 24, 255)], pointer(SHORT, 2, 0), vec![0x0000_ffff]),
        (
            vec![(chunk(0xff00), 24, 65_535)],
            pointer(LONG, 2, 0),
            vec![0, 0xff00_ffff],
        ),
        // the starts that fit
        (vec![(chunk(0x8000), 17, 9)], pointer(SHORT, 2, 0), vec![0x0000_8009]),
        (
            vec![(chunk(0x180), 25, 9)],
            pointer(LONG, 3, 0),
            vec![0, 0x0180_0009, 0x0200_0000],
        ),
        (
            vec![(chunk(0x100), 25, 9)],
            pointer(LONG, 3, 0),
            vec![0, 0x0100_0009, 0x0180_0000],
        ),
        (vec![(chunk(0), 32, 9)], pointer(LONG, 2, 0), vec![9, 0x0001_0000]),
        (
            vec![(chunk(0xffff), 32, 65_535)],
            pointer(LONG, 2, 0),
            vec![0, 0xffff_ffff],
        ),
        // the hop of a prefix around the chunk, where it shows and where it does not
        (
            vec![(0, 0, 256), (chunk(0x100), 24, 1)],
            pointer(LONG, 3, 0),
            vec![0x0100, 0x0100_0001, 0x0200_0100],
        ),
        (
            vec![(0, 0, 255), (chunk(0x100), 24, 1)],
            pointer(SHORT, 3, 0),
            vec![0x00ff_0101, 0x02ff_0000],
        ),
        (
            vec![(0, 0, 65_535), (chunk(0), 17, 1), (chunk(0x8000), 17, 2)],
            pointer(SHORT, 2, 0),
            vec![0x0001_8002],
        ),
        // one hop, however many prefixes
        (vec![(0, 0, 65_535), (chunk(0), 16, 9)], 9, vec![]),
        (vec![(0, 8, 9), (chunk(0x180), 25, 9)], 9, vec![]),
        (vec![(chunk(0), 17, 9), (chunk(0x8000), 17, 9)], 9, vec![]),
        (vec![(0, 14, 65_535)], 65_535, vec![]),
    ] {
        let list = list_of(&prefixes);
        let dxr = agreed(&list);
        assert_eq!((dxr.main[1], &dxr.words), (word, &words), "{list:?}");
        let around = answer(&list.addresses, &list.lengths, &list.hops, u32::MAX);
        assert_eq!(dxr.main[65_535], around);
    }
}

/// A range that goes on in the next chunk has an entry in each, and parts stand one behind the other.
#[test]
fn ranges_across_chunks() {
    let list = list_of(&[(0x0_ff00, 24, 5), (0x1_0000, 24, 5)]);
    let dxr = agreed(&list);
    assert_eq!(dxr.main[..3], [pointer(SHORT, 2, 0), pointer(SHORT, 2, 1), 0]);
    assert_eq!(dxr.words, [0x0000_ff05, 0x0005_0100]);
    let list = list_of(&[(0x2_ffff, 32, 5), (0x3_0000, 16, 5), (0x4_0000, 32, 5)]);
    let dxr = agreed(&list);
    assert_eq!(dxr.main[..6], [0, 0, pointer(LONG, 2, 0), 5, pointer(LONG, 2, 2), 0]);
    assert_eq!(dxr.words, [0, 0xffff_0005, 5, 0x0001_0000]);
    // kinds in turn, and odd and even counts
    let list = list_of(&[
        (0x1_0100, 24, 5),
        (0x2_0100, 32, 5),
        (0x7_0000, 24, 5),
        (0x8_0001, 32, 5),
        (0xffff_ff00, 24, 5),
    ]);
    let dxr = agreed(&list);
    for (chunk, word) in [
        (1, pointer(SHORT, 3, 0)),
        (2, pointer(LONG, 3, 2)),
        (7, pointer(SHORT, 2, 5)),
        (8, pointer(LONG, 3, 6)),
        (65_535, pointer(SHORT, 2, 9)),
    ] {
        assert_eq!(dxr.main[chunk], word, "chunk {chunk}");
    }
    assert_eq!(dxr.words.len(), 10);
    direct_but(&dxr, &[1, 2, 7, 8, 65_535], |_| 0);
}

/// In the first, a middle and the last chunk, every length about one address in it.
#[test]
fn nested_prefixes_in_a_chunk() {
    for q in [
        0,
        0xffff,
        0x5555_5555,
        ip([10, 20, 4, 9]),
        0xffff_0000,
        0xffff_ff00,
        u32::MAX,
    ] {
        for step in [1, 2, 33, 300] {
            let hop = |length| 1 + length * step % 300;
            let prefixes: Vec<_> = (0..=32).map(|n| (prefix_at(q, n), n, hop(n))).collect();
            assert_eq!(lookup(&agreed(&list_of(&prefixes)), q), Ok(hop(32)), "{q:#x}");
            // up to length 24 the chunk is short where the hops are
            let dxr = agreed(&list_of(&prefixes[..=24]));
            assert!(step == 33 || dxr.main[q as usize >> 16] >> 30 != LONG);
        }
    }
}

#[test]
fn the_most_range_words() {
    assert_eq!(MAX_RANGE_WORDS, 3 * MAX_ROUTES);
    assert_eq!(MAIN_WORDS, MAIN);
    for entries in [1, 2, 3, 100, 4096] {
        let dxr = built(&spread(entries));
        assert_eq!(dxr.words.len(), 3 * entries);
        let last = entries - 1;
        assert_eq!(dxr.main[last], pointer(LONG, 3, 3 * last));
        assert_eq!(lookup(&dxr, (last as u32) << 16 | 512), Ok(entries as u32));
        // short: two words each
        let mut list = spread(entries);
        list.lengths.fill(24);
        list.hops.fill(7);
        let dxr = built(&list);
        assert_eq!(dxr.words.len(), 2 * entries);
        assert_eq!(dxr.main[last], pointer(SHORT, 3, 2 * last));
        assert_eq!(lookup(&dxr, (last as u32) << 16 | 512), Ok(7));
    }
}

/// All of a list in one chunk: 8,193 long entries, and up to 256 short ones.
#[test]
fn the_most_entries_of_a_chunk() {
    for chunk in [0, 2580, 65_535] {
        let mut list = apart(4096);
        list.addresses.iter_mut().for_each(|address| *address |= chunk << 16);
        let dxr = built(&list);
        assert_eq!(dxr.main[chunk as usize], pointer(LONG, 8193, 0));
        assert_eq!(dxr.words.len(), 8193);
        assert_eq!(lookup(&dxr, list.addresses[4095]), Ok(4096));
        assert_eq!(lookup(&dxr, chunk << 16 | 0xffff), Ok(0));
        for count in [2, 3, 128, 254, 255, 256u32] {
            let prefixes: Vec<_> = (0..count)
                .map(|i| (chunk << 16 | i << 8, 24, [255, 1][i as usize % 2]))
                .collect();
            let dxr = agreed(&list_of(&prefixes));
            // behind the last prefix there is no route
            let entries = count as usize + usize::from(count < 256);
            assert_eq!(dxr.main[chunk as usize], pointer(SHORT, entries, 0));
            assert_eq!(dxr.words.len(), entries.div_ceil(2));
        }
    }
}

/// The main table before all else; a lookup refuses it whatever the words and the address.
#[test]
fn limits_of_the_main_table() {
    let mut broken = set_p();
    broken.lengths[0] = 33;
    for words in [0, 1, 2580, 2581, 65_535, 65_537, 131_072] {
        for list in [Rows::default(), set_p(), broken.clone(), apart(4097)] {
            for room in [0, 5, 20] {
                assert_eq!(build(&list, words, room), Err((8, 0)));
            }
        }
        for word in [0, 1, 65_536, pointer(LONG, 2, 0), u32::MAX] {
            let dxr = Dxr {
                main: vec![word; words],
                words: vec![0, 0x0001_0000],
            };
            let keys = [0, 1, 2579 << 16, 2580 << 16, 0xfffe_ffff, u32::MAX];
            assert_eq!(lookups(&dxr, &keys), [Err((8, 0)); 6]);
            assert_eq!(DxrTable::from_rows(dxr.main, dxr.words), Err(Refusal::Size));
        }
    }
}

#[test]
fn limits_of_the_list_of_a_dxr_build() {
    for entries in [0, 1, 2, 4095, 4096] {
        assert_eq!(build(&spread(entries), MAIN, 3 * entries).map(|_| ()), Ok(()));
        assert_eq!(built(&spread(entries)).words.len(), 3 * entries);
    }
    for entries in [4097, 5000] {
        for room in [0, 3 * entries] {
            assert_eq!(build(&spread(entries), MAIN, room), Err((8, 0)));
        }
    }
    for row in 0..3 {
        for cells in [0, 4, 6, 4096, 4097] {
            let mut list = set_p();
            let row = [&mut list.addresses, &mut list.lengths, &mut list.hops]
                .into_iter()
                .nth(row)
                .unwrap();
            row.resize(cells, 1);
            for room in [0, 20] {
                assert_eq!(build(&list, MAIN, room), Err((8, 0)));
            }
        }
    }
}

#[test]
fn limits_of_lengths_and_hops_in_a_dxr_build() {
    for (list, expected) in [
        (one(0, 0, 1), Ok(1)),
        (one(0, 0, 65_535), Ok(65_535)),
        (one(0, 0, 0), Err((3, 0))),
        (one(0, 0, 65_536), Err((3, 0))),
        (one(0, 0, u32::MAX), Err((3, 0))),
        (one(7, 32, 1), Ok(pointer(LONG, 3, 0))),
        (one(0, 32, 65_535), Ok(pointer(LONG, 2, 0))),
        (one(0, 24, 255), Ok(pointer(SHORT, 2, 0))),
        (one(u32::MAX, 32, 1), Ok(0)),
        (one(7, 33, 1), Err((1, 0))),
        (one(0, u32::MAX, 1), Err((1, 0))),
        (one(1 << 31, 1, 1), Ok(0)),
        (one(1 << 31, 0, 1), Err((2, 0))),
    ] {
        assert_eq!(build(&list, MAIN, 3).map(|dxr| dxr.main[0]), expected, "{list:?}");
    }
}

#[test]
fn each_refusal_of_the_list_of_a_dxr_build() {
    let good = set_p();
    assert_eq!(built(&good).words.len(), 5);
    // with and without room
    for (list, fault) in with_one_fault(&good) {
        for room in [0, 4, 5, 20] {
            assert_eq!(build(&list, MAIN, room), Err(fault), "{list:?}");
        }
        assert_eq!(build(&list, MAIN - 1, 20), Err((8, 0)));
    }
    for place in [0, 1, 2048, 4095] {
        for (number, (address, length, hop)) in [
            (1, (0, 33, 1)),
            (2, (1, 31, 1)),
            (3, (0, 0, 0)),
            (4, (2 << 16 | 512, 32, 9)),
        ] {
            // a repeat of entry 2 that stands before it is found there
            let mut list = spread(4096);
            (list.addresses[place], list.lengths[place], list.hops[place]) = (address, length, hop);
            let place = if number == 4 { place.max(2) } else { place };
            for room in [0, MAX_RANGE_WORDS] {
                assert_eq!(build(&list, MAIN, room), Err((number, place)));
            }
        }
    }
}

/// The sizes before the entries, an entry before the next, the room last.
#[test]
fn refusals_of_a_dxr_build_come_in_their_order() {
    let mut list = list_of(&[(1, 33, 0), (1, 24, 0), (0, 24, 0), (0, 24, 1), (0, 24, 1)]);
    assert_eq!(build(&list, MAIN - 1, 0), Err((8, 0)));
    list.hops.pop();
    assert_eq!(build(&list, MAIN, 0), Err((8, 0)));
    list.hops.push(1);
    assert_eq!(build(&list, MAIN, 0), Err((1, 0)));
    list.lengths[0] = 32;
    assert_eq!(build(&list, MAIN, 0), Err((3, 0)));
    list.hops[0] = 7;
    assert_eq!(build(&list, MAIN, 0), Err((2, 1)));
    list.addresses[1] = 256;
    assert_eq!(build(&list, MAIN, 0), Err((3, 1)));
    list.hops[1] = 7;
    assert_eq!(build(&list, MAIN, 0), Err((3, 2)));
    list.hops[2] = 7;
    assert_eq!(build(&list, MAIN, 0), Err((4, 3)));
    list.addresses[3] = 512;
    assert_eq!(build(&list, MAIN, 0), Err((4, 4)));
    list.addresses[4] = 1024;
    assert_eq!(build(&list, MAIN, 0), Err((9, 0)));
    assert_eq!(build(&list, MAIN + 1, 0), Err((8, 0)));
    // hops 7 from 0, 1 from 512, 0 from 768, 1 from 1,024 and 0 from 1,280
    assert_eq!(build(&list, MAIN, 2), Err((9, 0)));
    assert_eq!(
        build(&list, MAIN, 3).map(|dxr| dxr.words),
        Ok(vec![0x0007_0201, 0x0300_0401, 0x0500_0000])
    );
}

#[test]
fn dxr_builds_of_every_room() {
    let mut random = Random::new(30);
    let mut lists = vec![Rows::default(), one(0, 0, 1), one(256, 24, 9), set_p(), spread(8)];
    for entries in 0..20 {
        lists.push(Rows::in_blocks(&mut random, entries, 2, 24, 255));
        lists.push(Rows::in_blocks(&mut random, entries, 3, 32, 300));
    }
    let mut kinds = BTreeSet::new();
    for list in lists {
        let dxr = built(&list);
        kinds.extend(dxr.main.iter().map(|word| word >> 30));
        let words = dxr.words.len();
        for room in 0..=words + 3 {
            let expected = if room < words { Err((9, 0)) } else { Ok(words) };
            let found = build(&list, MAIN, room).map(|dxr| dxr.words.len());
            assert_eq!(found, expected, "room for {room} range words");
        }
    }
    assert!(kinds.into_iter().eq([0, LONG, SHORT]));
    let list = spread(4096);
    for room in [0, 1, 8193, 12_287] {
        assert_eq!(build(&list, MAIN, room), Err((9, 0)));
    }
    for room in [12_288, 12_289, 100_000] {
        assert!(build(&list, MAIN, room).is_ok());
    }
}

/// How many chunks came of each kind with range words, with an odd and an even number of entries.
#[derive(Default, Debug)]
struct Seen {
    long: [usize; 2],
    short: [usize; 2],
}

impl Seen {
    fn add(&mut self, dxr: &Dxr) {
        for &word in dxr.main.iter().filter(|&&word| word > 65_535) {
            let counts = if word >> 30 == LONG {
                &mut self.long
            } else {
                &mut self.short
            };
            counts[word as usize >> 16 & 1] += 1;
        }
    }

    fn all_over(&self, least: usize) {
        assert!(self.long.iter().chain(&self.short).all(|&n| n > least), "{self:?}");
    }
}

/// A list of one kind after the other.
fn many(random: &mut Random, round: usize, entries: usize) -> Rows {
    // a block has 511 prefixes up to length 24
    let blocks = 1 + entries as u64 / 200;
    match round % 6 {
        0 => Rows::routed(random, entries, 65_535),
        1 => Rows::routed(random, entries, 255),
        2 => Rows::in_blocks(random, entries, blocks, 24, 255),
        3 => Rows::in_blocks(random, entries, 2, 32, 300),
        4 => Rows::near(random, entries, 3),
        _ => Rows::valid(random, entries, if round % 12 == 5 { u32::MAX } else { 0xf0f0_f0f0 }),
    }
}

/// Lists of up to 11 entries; then the same with damage, and any room and main table.
#[test]
fn random_small_lists_and_their_dxr_tables() {
    let mut random = Random::new(31);
    let (mut seen, mut refused) = (Seen::default(), [0; 10]);
    for round in 0..20_000 {
        let entries = random.below(12) as usize;
        let mut list = many(&mut random, round, entries);
        seen.add(&agreed(&list));
        for _ in 0..random.below(3) {
            list.damage(&mut random);
        }
        let main = random.pick(&[MAIN, MAIN, MAIN, MAIN, MAIN, MAIN - 1, MAIN + 1, 0]);
        let room = random.below(30) as usize;
        if let Err((number, _)) = build(&list, main, room) {
            refused[usize::from(number)] += 1;
        }
    }
    seen.all_over(1000);
    for number in [1, 2, 3, 4, 8, 9] {
        assert!(refused[number] > 300, "{refused:?}");
    }
}

#[test]
fn random_lists_of_hundreds_and_their_dxr_tables() {
    let mut random = Random::new(32);
    let mut seen = Seen::default();
    for round in 0..60 {
        let entries = 100 + random.below(200) as usize;
        seen.add(&agreed(&many(&mut random, round, entries)));
    }
    seen.all_over(30);
}

#[test]
fn random_lists_of_4096_and_their_dxr_tables() {
    let mut random = Random::new(33);
    let mut seen = Seen::default();
    for round in 0..12 {
        seen.add(&agreed(&many(&mut random, round, 4096)));
    }
    seen.all_over(30);
}

/// The entries of a chunk are where the list's answer changes, address by address; and each address is looked up.
#[test]
fn every_address_of_a_chunk() {
    let mut random = Random::new(34);
    let mut seen = Seen::default();
    for round in 0..120 {
        let entries = 1 + random.below(40) as usize;
        let list = if round % 2 == 0 {
            Rows::in_blocks(&mut random, entries, 1, 24, 255)
        } else {
            Rows::in_blocks(&mut random, entries, 1, 32, 3)
        };
        let dxr = built(&list);
        let longest = (0..entries).max_by_key(|&i| list.lengths[i]).unwrap();
        let chunk = list.addresses[longest] >> 16;
        let mut changes: Vec<Entry> = Vec::new();
        for key in 0..65_536 {
            let q = chunk << 16 | key;
            let hop = answer(&list.addresses, &list.lengths, &list.hops, q);
            if changes.last().is_none_or(|&(_, before)| before != hop) {
                changes.push((key, hop));
            }
            assert_eq!(library_lookup(&dxr, q), Ok(hop), "{q:#x} in {list:?}");
        }
        match dxr.main[chunk as usize] {
            hop @ 0..=65_535 => assert_eq!(changes, [(0, hop)]),
            word => {
                assert_eq!(entries_of(word, &dxr), changes, "{list:?}");
                let short = changes.iter().all(|&(start, hop)| start % 256 == 0 && hop <= 255);
                assert_eq!(word >> 30, if short { SHORT } else { LONG });
            }
        }
        seen.add(&dxr);
    }
    seen.all_over(10);
}

/// The entries that a main word points to.
fn entries_of(word: u32, dxr: &Dxr) -> Vec<Entry> {
    entries(word, &dxr.words).expect("a chunk that keeps the rules")
}

/// `DxrTable` of random lists: the rows and the answers are those of the second program's calls.
#[test]
fn a_dxr_table_does_what_its_rows_do() {
    let mut random = Random::new(36);
    for round in 0..600 {
        let entries = random.below(if round % 100 == 0 { 300 } else { 20 }) as usize;
        let list = many(&mut random, round, entries);
        let dxr = built(&list);
        let table = DxrTable::of(routes(&list)).unwrap();
        same_table(&table, &dxr, &about_chunks(&boundaries(&list)));
        let again = DxrTable::from_rows(dxr.main, dxr.words);
        assert!(again == Ok(table), "{list:?}");
    }
    let mut list = spread(4096);
    let keys = about_chunks(&boundaries(&list));
    same_table(&DxrTable::of(routes(&list)).unwrap(), &built(&list), &keys);
    list.push(0, 0, 1);
    assert_eq!(DxrTable::of(routes(&list)), Err(Refusal::Size));
    let mut list = set_p();
    list.push(list.addresses[2], list.lengths[2], 9);
    assert_eq!(DxrTable::of(routes(&list)), Err(Refusal::Twice(5)));
}

/// A table has these rows, and the answers of lookups in them.
fn same_table(table: &DxrTable, dxr: &Dxr, keys: &[u32]) {
    assert!((table.main(), table.words()) == (&dxr.main[..], &dxr.words[..]));
    for (&q, found) in keys.iter().zip(lookups(dxr, keys)) {
        assert_eq!(Ok(table.lookup(q).map_or(0, |hop| hop.get().into())), found, "{q:#x}");
    }
}
