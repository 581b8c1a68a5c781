//! DXR tables with a 16-bit split: the build from a list, and lookup.
//!
//! A build takes the merged ranges chunk by chunk: those that start in one chunk are its entries, after one at 0 with the hop
//! from before the chunk if none of them starts there. A chunk in which no range starts has that hop alone. A lookup first turns
//! the range words of its chunk back into entries.

use crate::random::Rows;
use crate::ranges;
use crate::Fault;

/// The main table and the range words.
#[derive(Clone, PartialEq, Eq, Debug)]
pub struct Dxr {
    /// A word for each chunk of 65,536 addresses.
    pub main: Vec<u32>,
    /// The entries of the chunks that have more than one.
    pub words: Vec<u32>,
}

/// The first address of an entry in its chunk, and the hop from there on, 0 for none.
pub type Entry = (u32, u32);

/// Chunks, and addresses in each.
const CHUNKS: usize = 65_536;

/// The kinds of main words that point to range words.
const LONG: u32 = 1;
const SHORT: u32 = 2;

/// The table of a list, for a main table of so many words and room for so many range words, or the first refusal.
pub fn build(list: &Rows, main_words: usize, room: usize) -> Result<Dxr, Fault> {
    if main_words != CHUNKS {
        return Err((8, 0));
    }
    let ranges = ranges::build(list, usize::MAX, usize::MAX)?;
    let ranges: Vec<(u32, u32)> = ranges.starts.into_iter().zip(ranges.hops).collect();
    let dxr = of_ranges(&ranges);
    if room < dxr.words.len() {
        return Err((9, 0));
    }
    Ok(dxr)
}

/// The table of merged ranges.
fn of_ranges(ranges: &[(u32, u32)]) -> Dxr {
    let (mut main, mut words) = (Vec::new(), Vec::new());
    let mut hop = 0;
    for inside in ranges.chunk_by(|one, next| one.0 >> 16 == next.0 >> 16) {
        let chunk = inside[0].0 >> 16;
        // up to here no range starts
        main.resize(chunk as usize, hop);
        let mut entries: Vec<Entry> = inside.iter().map(|&(start, hop)| (start & 0xffff, hop)).collect();
        if entries[0].0 != 0 {
            entries.insert(0, (0, hop));
        }
        hop = entries[entries.len() - 1].1;
        if entries.len() == 1 {
            main.push(hop);
            continue;
        }
        let short = entries.iter().all(|&(start, hop)| start % 256 == 0 && hop <= 255);
        let (kind, part) = if short {
            (SHORT, short_part(&entries))
        } else {
            (LONG, long_part(&entries))
        };
        main.push((kind << 30) + entries.len() as u32 * 65_536 + words.len() as u32);
        words.extend(part);
    }
    main.resize(CHUNKS, hop);
    Dxr { main, words }
}

/// Entries of 32 bits.
pub fn long_part(entries: &[Entry]) -> Vec<u32> {
    entries.iter().map(|&(start, hop)| start * 65_536 + hop).collect()
}

/// Entries of 16 bits, two to a word; the last half of an odd number is 0.
pub fn short_part(entries: &[Entry]) -> Vec<u32> {
    let mut halves: Vec<u32> = entries.iter().map(|&(start, hop)| start / 256 * 256 + hop).collect();
    if halves.len() % 2 == 1 {
        halves.push(0);
    }
    halves.chunks(2).map(|pair| pair[0] * 65_536 + pair[1]).collect()
}

/// The entries that a main word points to, if they keep the rules.
pub fn entries(word: u32, words: &[u32]) -> Option<Vec<Entry>> {
    let (kind, count, position) = (word >> 30, (word >> 16) as usize & 0x3fff, word as usize & 0xffff);
    let mut entries: Vec<Entry> = match kind {
        LONG => {
            let part = words.get(position..position + count)?;
            part.iter().map(|&word| (word >> 16, word & 0xffff)).collect()
        }
        SHORT => {
            let part = words.get(position..position + count.div_ceil(2))?;
            let halves = part.iter().flat_map(|&word| [word >> 16, word & 0xffff]);
            halves.map(|half| (256 * (half >> 8), half & 0xff)).collect()
        }
        _ => return None,
    };
    entries.truncate(count);
    let rise = entries.windows(2).all(|pair| pair[0].0 < pair[1].0);
    (count >= 2 && entries[0].0 == 0 && rise).then_some(entries)
}

/// The hop of the last entry of its chunk that starts at or below `q`, 0 where that is none, or the first refusal.
pub fn lookup(dxr: &Dxr, q: u32) -> Result<u32, Fault> {
    if dxr.main.len() != CHUNKS {
        return Err((8, 0));
    }
    let (chunk, key) = ((q >> 16) as usize, q & 0xffff);
    let word = dxr.main[chunk];
    if word <= 65_535 {
        return Ok(word);
    }
    let entries = entries(word, &dxr.words).ok_or((7, chunk))?;
    let last = entries.iter().rfind(|&&(start, _)| start <= key);
    Ok(last.map_or(0, |&(_, hop)| hop))
}
