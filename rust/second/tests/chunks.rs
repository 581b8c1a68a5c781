//! Lookups of the library and of the second program in lent DXR tables, compared: each rule of a chunk broken by itself, and
//! chunks with random damage.

use hawkmortar::DxrTable;
use second::both;
use second::both::chunk::{self, damage, Chunk, JUNK};
use second::both::dxr::{built, lookup, lookups, pointer, LONG, SHORT};
use second::both::list::list_of;
use second::dxr::{Dxr, Entry};
use second::random::Random;

/// So many entries, spread over the chunk, with room between any two starts.
fn spread_entries(count: usize) -> Vec<Entry> {
    let step = if count > 60 { 1 } else { 4 } * 256;
    (0..count as u32).map(|i| (i * step, 1 + i * 77 % 255)).collect()
}

/// Good chunks of both kinds: the first, a middle and the last chunk, with few and many entries, odd and even numbers of them,
/// with and without range words before and behind the part.
fn good_chunks() -> Vec<Chunk> {
    let mut chunks = Vec::new();
    for number in [0, 2580, 65_535] {
        for kind in [LONG, SHORT] {
            for count in [2, 3, 4, 5, 16, 17, 255, 256] {
                for (before, behind) in [(0, 0), (1, 0), (0, 1), (7, 9)] {
                    chunks.push(Chunk::of(number, kind, &spread_entries(count), before, behind));
                }
            }
        }
    }
    chunks.iter().for_each(Chunk::accepted);
    chunks
}

#[test]
fn limits_of_direct_words() {
    for good in good_chunks() {
        for (word, accepted) in [
            (0, true),
            (1, true),
            (255, true),
            (256, true),
            (65_535, true),
            (65_536, false),
            (65_537, false),
            (131_071, false),
            (good.word & 0x3fff_ffff, false),
            (0x3fff_0000, false),
            (0x3fff_ffff, false),
        ] {
            let chunk = Chunk { word, ..good.clone() };
            let expected = if accepted {
                Ok(word)
            } else {
                Err((7, good.number as usize))
            };
            assert_eq!(chunk.asked(&[0, 7, 0xffff]), [expected; 3], "{word:#x}");
        }
    }
}

#[test]
fn main_words_of_kind_3() {
    for good in good_chunks() {
        for word in [good.word | 3 << 30, 3 << 30, 3 << 30 | 9, u32::MAX] {
            Chunk { word, ..good.clone() }.refused(&good.keys());
        }
    }
}

/// Of a good chunk, a part of the entries is good where it has two or more.
#[test]
fn counts_of_entries() {
    for good in good_chunks() {
        let (kind, count, position) = (good.kind(), good.count(), good.position());
        for fewer in (0..count).filter(|&n| n < 6 || n + 3 > count) {
            let word = pointer(kind, fewer, position);
            let chunk = Chunk { word, ..good.clone() };
            if fewer < 2 {
                chunk.refused(&good.keys());
            } else {
                chunk.accepted();
                let last = chunk.entry(fewer - 1);
                assert_eq!(chunk.asked(&[0xffff]), [Ok(last.1)]);
            }
        }
        // the words behind the part are no entries that rise, and there may be none
        for more in [count + 2, count + 3, 16_383] {
            let word = pointer(kind, more, position);
            Chunk { word, ..good.clone() }.refused(&good.keys());
        }
    }
}

/// A part may end where the words do.
#[test]
fn parts_at_the_end_of_the_words() {
    for good in good_chunks() {
        let size = if good.kind() == LONG {
            good.count()
        } else {
            good.count().div_ceil(2)
        };
        let end = good.position() + size;
        for words in [0, 1, good.position(), good.position() + 1, end - 1, end, end + 1] {
            let mut chunk = good.clone();
            chunk.words.resize(words, JUNK);
            if words >= end {
                chunk.accepted();
            } else {
                chunk.refused(&good.keys());
            }
        }
    }
    // of an odd number of short entries, one more takes no further word
    for count in [3, 5, 17, 255] {
        let entries = spread_entries(count + 1);
        let full = Chunk::of(9, SHORT, &entries, 3, 0);
        full.accepted();
        let odd = Chunk {
            word: pointer(SHORT, count, 3),
            ..full.clone()
        };
        odd.accepted();
        let word = pointer(SHORT, count + 2, 3);
        Chunk { word, ..full.clone() }.refused(&full.keys());
    }
}

/// The largest position and the largest count, and ends that 16 bits do not hold.
#[test]
fn parts_far_out() {
    for kind in [LONG, SHORT] {
        for (count, position) in [
            (2, 65_535),
            (2, 65_534),
            (3, 65_533),
            (16_383, 65_535),
            (16_383, 49_153),
            (16_383, 0),
            (256, 65_535),
        ] {
            let word = pointer(kind, count, position);
            for words in [0, 1, 2, 3, 9, 256, 16_382] {
                // good entries at the front of the words
                let mut chunk = Chunk::of(2580, LONG, &spread_entries(3), 0, 0);
                chunk.words.resize(words, JUNK);
                Chunk { word, ..chunk }.refused(&[0, 7, 0xffff]);
            }
        }
        for (count, position) in [(2, 65_535), (3, 65_535), (256, 65_535), (255, 65_300), (2, 16_384)] {
            let good = Chunk::of(2580, kind, &spread_entries(count), position, 0);
            good.accepted();
            let mut cut = good.clone();
            cut.words.pop();
            cut.refused(&good.keys());
        }
    }
    let entries: Vec<Entry> = (0..16_383).map(|i| (4 * i, i % 9)).collect();
    for position in [0, 65_535] {
        let good = Chunk::of(65_535, LONG, &entries, position, 0);
        good.accepted();
        let mut cut = good.clone();
        cut.words.pop();
        cut.refused(&good.keys());
    }
    // 257 short starts cannot rise
    let mut entries = spread_entries(257);
    entries[256].0 = 0xff00;
    Chunk::of(9, SHORT, &entries, 0, 0).refused(&[0, 0xffff]);
}

#[test]
fn first_starts_in_a_chunk_that_are_not_0() {
    for good in good_chunks() {
        let ((_, hop), (second, _)) = (good.entry(0), good.entry(1));
        let starts = if good.kind() == LONG {
            vec![1, 2, 255, second - 1, second, 0x8000, 0xffff]
        } else {
            vec![256, 512, second - 256, second, 0x8000, 0xff00]
        };
        for start in starts.into_iter().filter(|&start| start > 0) {
            let mut chunk = good.clone();
            chunk.put(0, (start, hop));
            chunk.refused(&good.keys());
        }
    }
    // the other starts may be anything that rises
    for first in [0, 1, 0x8000, 0xfffd] {
        let chunk = Chunk::of(2580, LONG, &[(first, 5), (0xfffe, 6), (0xffff, 7)], 2, 2);
        if first == 0 {
            chunk.accepted();
        } else {
            chunk.refused(&[0, first, 0xffff]);
        }
    }
}

/// Equal and falling starts, with a hop below, at and above that of the entry before.
#[test]
fn starts_in_a_chunk_that_do_not_rise() {
    for good in good_chunks() {
        let unit = if good.kind() == LONG { 1 } else { 256 };
        for place in good.places().into_iter().skip(1) {
            let (before, hop) = good.entry(place - 1);
            let (start, own) = good.entry(place);
            for other in [before, before.saturating_sub(unit), before / 2, 0] {
                for hop in [0, hop, own, hop + 1, 255] {
                    let mut chunk = good.clone();
                    chunk.put(place, (other, hop.min(255)));
                    chunk.refused(&good.keys());
                }
            }
            // the one before is too high, and not the first
            for other in [start, start + unit, 0xffff] {
                for hop in [0, hop, own, 255] {
                    let mut chunk = good.clone();
                    chunk.put(place - 1, (other.min(0xffff), hop));
                    if chunk.entry(place - 1).0 >= start {
                        chunk.refused(&good.keys());
                    }
                }
            }
            // the next above the one before is enough
            let mut chunk = good.clone();
            chunk.put(place, (before + unit, own));
            chunk.accepted();
        }
    }
}

#[test]
fn the_half_behind_an_odd_number_is_not_read() {
    for good in good_chunks() {
        if good.kind() == LONG || good.count() % 2 == 0 {
            continue;
        }
        let count = good.count();
        let (last, hop) = good.entry(count - 1);
        let keys = good.keys();
        let answers = good.asked(&keys);
        for half in [1, 0xff, 0x100, last | hop, last | 0xff, last - 256, 0xff00, 0xffff] {
            let mut chunk = good.clone();
            chunk.put(count, (half, half & 0xff));
            assert_eq!(chunk.entry(count), (half >> 8 << 8, half & 0xff));
            assert_eq!(chunk.asked(&keys), answers, "{half:#x}");
        }
    }
}

/// Any hop is good, that of the entry before too, and 0 is none.
#[test]
fn hops_in_a_chunk() {
    for good in good_chunks() {
        let most = if good.kind() == LONG { 65_535 } else { 255 };
        for place in good.places() {
            let start = good.entry(place).0;
            let before = good.entry(place.saturating_sub(1)).1;
            for hop in [0, 1, before, 255, most] {
                let mut chunk = good.clone();
                chunk.put(place, (start, hop));
                assert_eq!(chunk.asked(&[start, start + 1]), [Ok(hop); 2], "{chunk:x?}");
            }
        }
    }
    for kind in [LONG, SHORT] {
        let none = Chunk::of(2580, kind, &[(0, 0), (256, 0), (512, 0)], 0, 0);
        assert_eq!(none.asked(&[0, 256, 512, 0xffff]), [Ok(0); 4]);
    }
}

/// Each chunk's word or part is broken in turn: that chunk alone is refused.
#[test]
fn other_chunks_are_not_tested() {
    let list = list_of(&[
        (0x0_0100, 24, 5),
        (0x1_0001, 32, 5),
        (0x2_0000, 16, 6),
        (0x4_8000, 17, 7),
        (0x5_0003, 32, 65_535),
        (0xffff_ff00, 24, 8),
    ]);
    let good = built(&list);
    let chunks = [0, 1, 4, 5, 65_535];
    let keys: Vec<u32> = [0, 1, 2, 3, 4, 5, 6, 65_534, 65_535]
        .into_iter()
        .flat_map(|chunk| [chunk << 16, chunk << 16 | 3, chunk << 16 | 0x100, chunk << 16 | 0xffff])
        .collect();
    let answers = lookups(&good, &keys);
    let only = |dxr: Dxr, chunk: usize| {
        for ((&q, found), &answer) in keys.iter().zip(lookups(&dxr, &keys)).zip(&answers) {
            let broken = q as usize >> 16 == chunk;
            assert_eq!(found, if broken { Err((7, chunk)) } else { answer }, "{q:#x}");
        }
        // a table takes no broken chunk, used or not
        assert_eq!(
            DxrTable::from_rows(dxr.main, dxr.words).map_err(both::fault),
            Err((7, chunk))
        );
    };
    for chunk in chunks.into_iter().chain([2, 3, 6, 65_534]) {
        for word in [65_536, 3 << 30, pointer(LONG, 1, 0), pointer(SHORT, 2, 99), u32::MAX] {
            let mut dxr = good.clone();
            dxr.main[chunk] = word;
            only(dxr, chunk);
        }
    }
    for chunk in chunks {
        let mut dxr = good.clone();
        let position = dxr.main[chunk] as usize & 0xffff;
        dxr.words[position] |= 0xff00_0000;
        only(dxr, chunk);
    }
    // the last part is cut
    let mut dxr = good.clone();
    dxr.words.pop();
    only(dxr, 65_535);
    // two chunks may share a part, and words may belong to none
    let mut dxr = good.clone();
    dxr.main[3] = dxr.main[5];
    dxr.main[0] = 9;
    dxr.words.push(JUNK);
    assert_eq!(lookup(&dxr, 0x3_0003), Ok(65_535));
    assert_eq!(lookup(&dxr, 0x0_0100), Ok(9));
    assert!(DxrTable::from_rows(dxr.main, dxr.words).is_ok());
}

#[test]
fn random_damaged_chunks() {
    let mut random = Random::new(35);
    let (mut accepted, mut refused) = (0, 0);
    for _ in 0..60_000 {
        let entries = 2 + random.below(20);
        let mut chunk = chunk::random(&mut random, entries);
        let mut keys = chunk.keys();
        keys.push(random.below(65_536) as u32);
        assert!(chunk.asked(&keys).iter().all(|found| found.is_ok()), "{chunk:x?}");
        for _ in 0..random.below(4) {
            damage(&mut chunk, &mut random);
        }
        match chunk.asked(&keys)[0] {
            Ok(_) => accepted += 1,
            Err(fault) => {
                assert_eq!(fault, (7, chunk.number as usize));
                refused += 1;
            }
        }
    }
    assert!(accepted > 8000 && refused > 8000, "{accepted} {refused}");
}
