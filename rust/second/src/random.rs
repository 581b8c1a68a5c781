//! Random lists, the same in every run.

use std::vec;

/// A generator of 64-bit numbers: from bytes as long as there are any, then from a seed (SplitMix64).
pub struct Random {
    bytes: vec::IntoIter<u8>,
    state: u64,
}

impl Random {
    /// The generator of a seed.
    pub fn new(seed: u64) -> Self {
        Random {
            bytes: Vec::new().into_iter(),
            state: seed,
        }
    }

    /// The generator of some bytes, which decide the numbers one after another; the seed behind them is 0.
    pub fn of_bytes(bytes: &[u8]) -> Self {
        Random {
            bytes: Vec::from(bytes).into_iter(),
            state: 0,
        }
    }

    /// Whether the next number comes from bytes.
    pub fn has_bytes(&self) -> bool {
        !self.bytes.as_slice().is_empty()
    }

    /// The bytes that are left.
    pub fn rest(&mut self) -> Vec<u8> {
        self.bytes.by_ref().collect()
    }

    /// The next number.
    pub fn number(&mut self) -> u64 {
        if self.has_bytes() {
            return self.of_next(8);
        }
        self.state = self.state.wrapping_add(0x9e37_79b9_7f4a_7c15);
        let mut z = self.state;
        z = (z ^ (z >> 30)).wrapping_mul(0xbf58_476d_1ce4_e5b9);
        z = (z ^ (z >> 27)).wrapping_mul(0x94d0_49bb_1331_11eb);
        z ^ (z >> 31)
    }

    /// A number below `bound`, which is not 0. Of bytes it takes no more than it needs.
    pub fn below(&mut self, bound: u64) -> u64 {
        if self.has_bytes() {
            let bits = 64 - (bound - 1).leading_zeros() as usize;
            return self.of_next(bits.div_ceil(8)) % bound;
        }
        self.number() % bound
    }

    /// One of some values.
    pub fn pick<T: Copy>(&mut self, values: &[T]) -> T {
        values[self.below(values.len() as u64) as usize]
    }

    /// Whether one chance in `n` came up.
    pub fn one_in(&mut self, n: u64) -> bool {
        self.below(n) == 0
    }

    /// The number of the next so many bytes, the low one first; bytes that are missing are 0.
    fn of_next(&mut self, count: usize) -> u64 {
        let bytes = self.bytes.by_ref().take(count);
        bytes.enumerate().map(|(i, byte)| u64::from(byte) << (8 * i)).sum()
    }
}

/// The three rows of a list.
#[derive(Clone, Default, PartialEq, Eq, Debug)]
pub struct Rows {
    /// The prefixes' addresses.
    pub addresses: Vec<u32>,
    /// Their lengths.
    pub lengths: Vec<u32>,
    /// Their next hops.
    pub hops: Vec<u32>,
}

impl Rows {
    /// One entry more.
    pub fn push(&mut self, address: u32, length: u32, hop: u32) {
        self.addresses.push(address);
        self.lengths.push(length);
        self.hops.push(hop);
    }

    /// A list of so many distinct valid prefixes, whose addresses have no bit outside `mask`: with a sparse mask many of them lie
    /// inside each other. The mask has to leave enough prefixes.
    pub fn valid(random: &mut Random, entries: usize, mask: u32) -> Self {
        let prefix = |random: &mut Random| (random.below(33) as u32, random.number() as u32 & mask);
        let hop = |random: &mut Random| {
            if random.one_in(8) {
                random.pick(&[1, 65_535])
            } else {
                1 + random.below(300) as u32
            }
        };
        Rows::distinct(random, entries, prefix, hop)
    }

    /// A list of so many distinct valid prefixes near three addresses, one of them the first or the last of all, with next hops up
    /// to `hops`: many prefixes lie inside each other or touch, and with few hops many neighbours have the same.
    pub fn near(random: &mut Random, entries: usize, hops: u64) -> Self {
        let near = [
            random.number() as u32,
            random.number() as u32,
            random.pick(&[0, u32::MAX]),
        ];
        let prefix = |random: &mut Random| {
            let length = random.below(33) as u32;
            // the prefix's last bits turned
            let turned = random.below(4 + entries as u64) << (32 - length);
            (length, random.pick(&near) ^ turned as u32)
        };
        Rows::distinct(random, entries, prefix, |random| 1 + random.below(hops) as u32)
    }

    /// Routes as a router has them: most of length 24, some shorter, to 8, and some longer, inside eight blocks of length 8, with
    /// next hops up to `hops`.
    pub fn routed(random: &mut Random, entries: usize, hops: u64) -> Self {
        let prefix = |random: &mut Random| {
            let length = match random.below(16) {
                0..=9 => 24,
                10..=13 => 8 + random.below(16),
                _ => 25 + random.below(8),
            };
            (length as u32, random.number() as u32 & 0x07ff_ffff)
        };
        Rows::distinct(random, entries, prefix, |random| 1 + random.below(hops) as u32)
    }

    /// A list of so many distinct valid prefixes inside so many blocks of length 16, side by side, with lengths from 16 up to
    /// `longest`, and with some prefixes around the blocks. The blocks have to leave enough prefixes.
    pub fn in_blocks(random: &mut Random, entries: usize, blocks: u64, longest: u32, hops: u64) -> Self {
        let first = random.pick(&[0, 10 << 8 | 20, 0x8000, 65_536 - blocks]) as u32;
        let prefix = |random: &mut Random| {
            let length = if random.one_in(8) {
                random.below(16) as u32
            } else {
                16 + random.below(u64::from(longest) - 15) as u32
            };
            let block = first + random.below(blocks) as u32;
            (length, block << 16 | random.below(65_536) as u32)
        };
        Rows::distinct(random, entries, prefix, |random| 1 + random.below(hops) as u32)
    }

    /// A list of so many distinct prefixes. A prefix is drawn as a length and an address, whose bits behind the length are put
    /// to 0, and drawn again if it is there already.
    pub fn distinct(
        random: &mut Random,
        entries: usize,
        prefix: impl Fn(&mut Random) -> (u32, u32),
        hop: impl Fn(&mut Random) -> u32,
    ) -> Self {
        let mut rows = Rows::default();
        let mut seen = std::collections::HashSet::new();
        while rows.addresses.len() < entries {
            let (length, bits) = prefix(random);
            let address = (u64::from(bits) >> (32 - length) << (32 - length)) as u32;
            if seen.insert((address, length)) {
                rows.push(address, length, hop(random));
            }
        }
        rows
    }

    /// Changes one number or one row's length, so that most results are to be refused.
    pub fn damage(&mut self, random: &mut Random) {
        let n = self.addresses.len().min(self.lengths.len()).min(self.hops.len());
        if n == 0 || random.one_in(12) {
            let row = match random.below(3) {
                0 => &mut self.addresses,
                1 => &mut self.lengths,
                _ => &mut self.hops,
            };
            if n == 0 || random.one_in(2) {
                row.push(1);
            } else {
                row.pop();
            }
            return;
        }
        let i = random.below(n as u64) as usize;
        match random.below(5) {
            0 => self.lengths[i] = random.pick(&[0, 31, 32, 33, 34, 255, u32::MAX]),
            1 => self.addresses[i] ^= 1 << random.below(32),
            2 => self.hops[i] = random.pick(&[0, 1, 65_535, 65_536, u32::MAX]),
            _ => {
                let j = random.below(n as u64) as usize;
                self.addresses[i] = self.addresses[j];
                self.lengths[i] = self.lengths[j];
            }
        }
    }
}
