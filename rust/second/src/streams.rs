//! Random streams of update records, the same in every run.

use crate::both::records::bytes_of;
use crate::random::{Random, Rows};
use crate::records::Record;

/// Updates of the prefixes of a list, so that they repeat: one in so many is a removal; hops are up to `hops`.
pub struct Updates {
    pub random: Random,
    pub list: Rows,
    pub removal: u64,
    pub hops: u64,
}

impl Updates {
    /// Updates of so many prefixes, which lie in a small or a large space.
    pub fn new(seed: u64, prefixes: usize) -> Self {
        let mut random = Random::new(seed);
        let list = match random.below(4) {
            0 => Rows::near(&mut random, prefixes, 1),
            1 => Rows::routed(&mut random, prefixes, 1),
            2 => Rows::in_blocks(&mut random, prefixes, 2, 32, 1),
            _ => Rows::valid(&mut random, prefixes, u32::MAX),
        };
        Updates {
            removal: random.pick(&[2, 3, 8]),
            hops: random.pick(&[1, 2, 300, 65_535]),
            random,
            list,
        }
    }

    fn next(&mut self) -> Record {
        let i = self.random.below(self.list.addresses.len() as u64) as usize;
        let (address, length) = (self.list.addresses[i], self.list.lengths[i]);
        if self.random.one_in(self.removal) {
            return [0, length, address, 0];
        }
        [1, length, address, 1 + self.random.below(self.hops) as u32]
    }

    /// The bytes of so many updates.
    pub fn stream(&mut self, updates: usize) -> Vec<u8> {
        let updates: Vec<Record> = (0..updates).map(|_| self.next()).collect();
        bytes_of(&updates)
    }

    /// So many bytes, at least 20, of updates, the last of which ends with them.
    pub fn filling(&mut self, length: usize) -> Vec<u8> {
        let mut bytes = Vec::new();
        while bytes.len() + 20 <= length {
            bytes.extend(bytes_of(&[self.next()]));
        }
        while bytes.len() < length {
            // the last 10 to 19 bytes are records of three and of four
            let removal = (length - bytes.len()).is_multiple_of(3);
            let record = if removal { [0, 0, 0, 0] } else { [1, 0, 0, 9] };
            bytes.extend(bytes_of(&[record]));
        }
        assert_eq!(bytes.len(), length);
        bytes
    }
}

/// Changes one to three bytes, of which there is at least one.
pub fn damage(bytes: &mut [u8], random: &mut Random) {
    let length = bytes.len() as u64;
    for _ in 0..=random.below(3) {
        let i = random.below(length) as usize;
        bytes[i] = match random.below(3) {
            0 => bytes[i] ^ 1 << random.below(8),
            1 => random.pick(&[0, 1, 2, 32, 33, 127, 128, 255]),
            _ => random.number() as u8,
        };
    }
}
