//! One chunk of a DXR table, asked of both programs, and chunks to ask for.

use super::dxr::{lookup, lookups, pointer, LONG, MAIN, SHORT};
use crate::dxr::{long_part, short_part, Dxr, Entry};
use crate::random::Random;
use crate::Fault;
use std::collections::BTreeSet;

/// One chunk of a table, whose other main words are of kind 3.
#[derive(Clone, Debug)]
pub struct Chunk {
    pub number: u32,
    pub word: u32,
    pub words: Vec<u32>,
}

/// A range word that belongs to no part.
pub const JUNK: u32 = 0xfeed_beef;

impl Chunk {
    /// A chunk of these entries, with `before` and `behind` range words that are no part of it.
    pub fn of(number: u32, kind: u32, entries: &[Entry], before: usize, behind: usize) -> Self {
        let part = if kind == LONG {
            long_part(entries)
        } else {
            short_part(entries)
        };
        let words = [vec![JUNK; before], part, vec![JUNK; behind]].concat();
        let word = pointer(kind, entries.len(), before);
        Chunk { number, word, words }
    }

    pub fn kind(&self) -> u32 {
        self.word >> 30
    }

    pub fn count(&self) -> usize {
        self.word as usize >> 16 & 0x3fff
    }

    pub fn position(&self) -> usize {
        self.word as usize & 0xffff
    }

    /// The entry at a place, as the words have it.
    pub fn entry(&self, place: usize) -> Entry {
        if self.kind() == LONG {
            let word = self.words[self.position() + place];
            (word >> 16, word & 0xffff)
        } else {
            let word = self.words[self.position() + place / 2];
            let half = if place % 2 == 1 { word & 0xffff } else { word >> 16 };
            (half >> 8 << 8, half & 0xff)
        }
    }

    /// Another entry at a place; of a short start the upper 8 bits count.
    pub fn put(&mut self, place: usize, (start, hop): Entry) {
        if self.kind() == LONG {
            let position = self.position();
            self.words[position + place] = start << 16 | hop;
        } else {
            let position = self.position() + place / 2;
            let half = start >> 8 << 8 | hop;
            let word = &mut self.words[position];
            *word = if place % 2 == 1 {
                *word & 0xffff_0000 | half
            } else {
                half << 16 | *word & 0xffff
            };
        }
    }

    /// The places of some entries, the first, the middle and the last of them among these.
    pub fn places(&self) -> Vec<usize> {
        let count = self.count();
        if count <= 6 {
            (0..count).collect()
        } else {
            vec![0, 1, 2, count / 2, count / 2 + 1, count - 2, count - 1]
        }
    }

    /// Keys about the starts of some entries, and the first and the last key.
    pub fn keys(&self) -> Vec<u32> {
        let near = |place| {
            let (start, _) = self.entry(place);
            [start.saturating_sub(1), start, (start + 1).min(0xffff)]
        };
        let keys: BTreeSet<u32> = self.places().into_iter().flat_map(near).chain([0, 0xffff]).collect();
        keys.into_iter().collect()
    }

    /// What both programs answer for some keys of the chunk. In the one beside it they find kind 3.
    pub fn asked(&self, keys: &[u32]) -> Vec<Result<u32, Fault>> {
        let mut main = vec![u32::MAX; MAIN];
        main[self.number as usize] = self.word;
        let words = self.words.clone();
        let dxr = Dxr { main, words };
        let other = self.number ^ 1;
        assert_eq!(lookup(&dxr, other << 16 | 7), Err((7, other as usize)));
        let keys: Vec<u32> = keys.iter().map(|key| self.number << 16 | key).collect();
        lookups(&dxr, &keys)
    }

    /// Both programs accept the chunk; at the start of each of some entries they answer its hop.
    pub fn accepted(&self) {
        let places = self.places().into_iter().map(|place| self.entry(place));
        let (starts, hops): (Vec<u32>, Vec<_>) = places.map(|(start, hop)| (start, Ok(hop))).unzip();
        assert_eq!(self.asked(&starts), hops, "{self:x?}");
        assert!(self.asked(&self.keys()).iter().all(|found| found.is_ok()), "{self:x?}");
    }

    /// Both programs refuse the chunk, whatever the key.
    pub fn refused(&self, keys: &[u32]) {
        for found in self.asked(keys) {
            assert_eq!(found, Err((7, self.number as usize)), "{self:x?}");
        }
    }
}

/// A good chunk of so many entries, and with fewer where starts fall together.
pub fn random(random: &mut Random, entries: u64) -> Chunk {
    let kind = random.pick(&[LONG, SHORT]);
    let mask = match kind {
        LONG => random.pick(&[0xffff, 0xf, 0xc003]),
        _ => random.pick(&[0xff00, 0x0700]),
    };
    let mut starts = BTreeSet::from([0, if kind == LONG { 1 } else { 256 }]);
    starts.extend((2..entries).map(|_| random.number() as u32 & mask));
    let hops: &[u32] = if kind == LONG {
        &[0, 1, 255, 65_535]
    } else {
        &[0, 1, 2, 255]
    };
    let entries: Vec<Entry> = starts.into_iter().map(|start| (start, random.pick(hops))).collect();
    let number = random.pick(&[0, 1, 2580, 65_535]);
    let (before, behind) = (random.below(4) as usize, random.below(3) as usize);
    Chunk::of(number, kind, &entries, before, behind)
}

/// Changes the main word, a range word or the number of range words, so that most results are to be refused.
pub fn damage(chunk: &mut Chunk, random: &mut Random) {
    let some = chunk.words.len() as u64;
    if some == 0 || random.one_in(10) {
        if random.one_in(2) {
            chunk.words.push(random.number() as u32);
        } else {
            chunk.words.pop();
        }
        return;
    }
    let (i, j) = (random.below(some) as usize, random.below(some) as usize);
    match random.below(8) {
        0 => chunk.word = chunk.word.wrapping_add(random.pick(&[1, u32::MAX])),
        1 => chunk.word = chunk.word.wrapping_add(random.pick(&[1 << 16, u32::MAX << 16])),
        2 => chunk.word ^= random.pick(&[1, 2, 3]) << 30,
        3 => chunk.word ^= 1 << random.below(32),
        4 => chunk.words[i] = chunk.words[j],
        5 => chunk.words.swap(i, j),
        6 => chunk.words[i] = chunk.words[i].wrapping_add(random.pick(&[1, 1 << 8, 1 << 16, 1 << 24])),
        _ => chunk.words[i] ^= 1 << random.below(32),
    }
}
