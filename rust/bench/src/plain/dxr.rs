//! DXR tables: build and lookup, and the lookup of one who trusts the table.

use super::ranges::merged;
use super::Fault;

/// Chunks, and addresses in each.
const CHUNKS: usize = 65_536;

const LONG: u32 = 1;
const SHORT: u32 = 2;

/// A chunk in which ranges start.
struct Chunk<'a> {
    number: usize,
    /// The hop at its first address.
    first: u32,
    /// The ranges that start behind that.
    rest: &'a [(u32, u32)],
}

impl Chunk<'_> {
    fn is_short(&self) -> bool {
        let fits = |&(start, hop): &(u32, u32)| start % 256 == 0 && hop <= 255;
        self.first <= 255 && self.rest.iter().all(fits)
    }

    /// The number of its range words.
    fn words(&self) -> usize {
        let count = 1 + self.rest.len();
        match count {
            1 => 0,
            _ if self.is_short() => count.div_ceil(2),
            _ => count,
        }
    }

    /// Writes its range words to the front of `words`, and answers its main word.
    fn write(&self, words: &mut [u32], position: usize) -> u32 {
        if self.rest.is_empty() {
            return self.first;
        }
        let pointer = (1 + self.rest.len() as u32) << 16 | position as u32;
        if self.is_short() {
            let half = |&(start, hop): &(u32, u32)| start & 0xff00 | hop;
            words[0] = self.first << 16 | half(&self.rest[0]);
            for (word, pair) in words[1..].iter_mut().zip(self.rest[1..].chunks(2)) {
                *word = half(&pair[0]) << 16 | pair.get(1).map_or(0, half);
            }
            SHORT << 30 | pointer
        } else {
            words[0] = self.first;
            for (word, (start, hop)) in words[1..].iter_mut().zip(self.rest) {
                *word = start << 16 | hop;
            }
            LONG << 30 | pointer
        }
    }
}

/// The chunks in which ranges start.
fn chunks(ranges: &[(u32, u32)]) -> impl Iterator<Item = Chunk<'_>> {
    let mut before = 0;
    let groups = ranges.chunk_by(|one, next| one.0 >> 16 == next.0 >> 16);
    groups.map(move |group| {
        let (start, hop) = group[0];
        let (first, rest) = if start & 0xffff == 0 {
            (hop, &group[1..])
        } else {
            (before, group)
        };
        before = group[group.len() - 1].1;
        Chunk {
            number: (start >> 16) as usize,
            first,
            rest,
        }
    })
}

/// The DXR table of a list; refusals 8 of the main table, as of the list's check, then 9.
#[inline(never)]
pub fn build(
    addresses: &[u32],
    lengths: &[u32],
    hops: &[u32],
    main: &mut [u32],
    words: &mut [u32],
) -> Result<usize, Fault> {
    if main.len() != CHUNKS {
        return Err((8, 0));
    }
    let ranges = merged(addresses, lengths, hops)?;
    let count = chunks(&ranges).map(|chunk| chunk.words()).sum();
    if words.len() < count {
        return Err((9, 0));
    }
    let (mut done, mut hop, mut position) = (0, 0, 0);
    for chunk in chunks(&ranges) {
        main[done..chunk.number].fill(hop);
        let size = chunk.words();
        main[chunk.number] = chunk.write(&mut words[position..position + size], position);
        position += size;
        done = chunk.number + 1;
        hop = chunk.rest.last().map_or(chunk.first, |&(_, hop)| hop);
    }
    main[done..].fill(hop);
    Ok(count)
}

/// The kind and the count of a main word that is no hop, and its part of the range words.
fn part(word: u32, words: &[u32]) -> Option<(u32, usize, &[u32])> {
    let (kind, count, position) = (word >> 30, (word >> 16) as usize & 0x3fff, word as usize & 0xffff);
    let size = match kind {
        LONG => count,
        SHORT => count.div_ceil(2),
        _ => return None,
    };
    let part = words.get(position..position + size)?;
    (count >= 2).then_some((kind, count, part))
}

/// The hop for a key, if starts are 0 and then rise.
fn long_hop(part: &[u32], key: u32) -> Option<u32> {
    let (&first, rest) = part.split_first()?;
    if first >> 16 != 0 {
        return None;
    }
    let (mut before, mut found) = (0, first);
    for &word in rest {
        let start = word >> 16;
        if start <= before {
            return None;
        }
        if start <= key {
            found = word;
        }
        before = start;
    }
    Some(found & 0xffff)
}

fn half(part: &[u32], i: usize) -> u32 {
    if i % 2 == 1 {
        part[i / 2] & 0xffff
    } else {
        part[i / 2] >> 16
    }
}

/// The same of short entries.
fn short_hop(part: &[u32], count: usize, key: u32) -> Option<u32> {
    let first = half(part, 0);
    if first >> 8 != 0 {
        return None;
    }
    let (mut before, mut found) = (0, first);
    for i in 1..count {
        let half = half(part, i);
        let start = half >> 8;
        if start <= before {
            return None;
        }
        if start <= key >> 8 {
            found = half;
        }
        before = start;
    }
    Some(found & 0xff)
}

fn tested_hop(word: u32, words: &[u32], key: u32) -> Option<u32> {
    match part(word, words)? {
        (LONG, _, part) => long_hop(part, key),
        (_, count, part) => short_hop(part, count, key),
    }
}

/// The hop of the last entry of its chunk that starts at or below q; refusals 8, 7.
#[inline(never)]
pub fn lookup(main: &[u32], words: &[u32], q: u32) -> Result<u32, Fault> {
    if main.len() != CHUNKS {
        return Err((8, 0));
    }
    let chunk = (q >> 16) as usize;
    let word = main[chunk];
    if word <= 65_535 {
        return Ok(word);
    }
    tested_hop(word, words, q & 0xffff).ok_or((7, chunk))
}

/// The same answer in a table that is known to be good: the entry is found by halving, and no other is looked at.
#[inline(never)]
pub fn lookup_without_test(main: &[u32], words: &[u32], q: u32) -> Result<u32, Fault> {
    if main.len() != CHUNKS {
        return Err((8, 0));
    }
    let chunk = (q >> 16) as usize;
    let word = main[chunk];
    if word <= 65_535 {
        return Ok(word);
    }
    let (kind, count, part) = part(word, words).ok_or((7, chunk))?;
    if kind == LONG {
        let above = part.partition_point(|&word| word >> 16 <= q & 0xffff);
        return Ok(part[above - 1] & 0xffff);
    }
    let (mut low, mut above) = (0, count);
    while above - low > 1 {
        let middle = (low + above) / 2;
        if half(part, middle) >> 8 <= (q & 0xffff) >> 8 {
            low = middle;
        } else {
            above = middle;
        }
    }
    Ok(half(part, low) & 0xff)
}
