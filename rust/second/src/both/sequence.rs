//! A random sequence of updates, each asked of the library, of the second program's plans and of the book.
//!
//! After every call the image is the book's. Every cut of every accepted plan is made on a copy by both programs, and lookups of
//! both in it answer as the set before the update, or from the write on that shows the update as the set after. On tables of up
//! to 64 slots each cut is asked at every edge of every prefix. On 4,096 slots that is up to 16,384 addresses for each cut: there
//! one accepted update in 2,000 is asked so, the first among them, and the others at the edges that `cuts_at_some_edges` names.
//!
//! Every cut is mended too, on 4,096 slots those of one accepted update in 100. The mend leaves the set before the update or the set
//! after, whichever the cut answers as.

use super::mend::{cuts, mended, mended_again, set_of_list};
use super::{edges, remove, set, Update};
use crate::book::Book;
use crate::list::answer;
use crate::random::{Random, Rows};
use crate::slots::Image;
use crate::Fault;
use std::collections::{HashMap, HashSet};
use std::ops::AddAssign;

/// How often each kind of call came.
#[derive(Default, Debug)]
pub struct Seen {
    /// Sets of an absent prefix, by their writes.
    pub sets: [usize; 18],
    /// Sets of a present prefix with another hop.
    pub other_hop: usize,
    /// Sets of a present prefix with its own hop.
    pub same_hop: usize,
    /// Removals, by their writes.
    pub removals: [usize; 19],
    /// Removals with an edge move.
    pub edge_moves: usize,
    /// Mends of cuts, by their writes.
    pub mends: [usize; 19],
    /// Refusals, by their number.
    pub refused: [usize; 14],
    /// Calls on a full table.
    pub full: usize,
    /// Calls on an empty table.
    pub empty: usize,
}

impl AddAssign for Seen {
    fn add_assign(&mut self, other: Self) {
        let add = |counts: &mut [usize], more: &[usize]| counts.iter_mut().zip(more).for_each(|(n, more)| *n += more);
        add(&mut self.sets, &other.sets);
        self.other_hop += other.other_hop;
        self.same_hop += other.same_hop;
        add(&mut self.removals, &other.removals);
        self.edge_moves += other.edge_moves;
        add(&mut self.mends, &other.mends);
        add(&mut self.refused, &other.refused);
        self.full += other.full;
        self.empty += other.empty;
    }
}

/// A table of up to so many slots is asked at every edge of every prefix on every cut.
const ALL_EDGES: usize = 64;

/// On a larger table one accepted update in so many is, the first among them.
const ONE_IN: usize = 2000;

/// On a table of so many slots the cuts of one accepted update in the first number are mended, and the cuts of these mends for one in
/// the second.
fn mended_in(slots: usize) -> (usize, usize) {
    match slots {
        0..=12 => (1, 1),
        13..=ALL_EDGES => (1, 50),
        _ => (100, 1000),
    }
}

/// A table in the middle of a sequence.
pub struct Run<'a> {
    random: Random,
    supply: Vec<(u32, u32)>,
    book: Book,
    image: Image,
    /// The book's set.
    list: Rows,
    /// Whether the table fills up; else it empties.
    pub filling: bool,
    /// With so few entries it fills up again.
    pub least: usize,
    /// One call in so many is at odds with the filling or emptying of the table, or has a fault.
    odd: u64,
    /// The accepted updates.
    accepted: usize,
    /// Where the rotating sample of prefixes stands.
    turn: usize,
    seen: &'a mut Seen,
}

impl<'a> Run<'a> {
    /// An empty table of so many slots, and prefixes to draw from.
    pub fn new(random: Random, supply: Vec<(u32, u32)>, slots: usize, odd: u64, seen: &'a mut Seen) -> Self {
        Run {
            random,
            supply,
            book: Book::new(slots),
            image: Image::empty(slots),
            list: Rows::default(),
            filling: true,
            least: 0,
            odd,
            accepted: 0,
            turn: 0,
            seen,
        }
    }

    /// Sets prefixes of the supply, one after the other, until the table has so many entries or the supply ends. No cut of their
    /// plans is asked.
    pub fn prefill(&mut self, entries: usize) {
        for i in 0..self.supply.len() {
            if self.book.entries() < entries {
                let (address, length) = self.supply[i];
                let update = set(address, length, 1 + i as u32);
                let plan = self.planned(update, 54).unwrap();
                super::apply(&mut self.image, &plan, plan.len() / 3).unwrap();
                assert!(self.image == self.book.image(), "the image after {update:?}");
            }
        }
        self.list = self.book.set_of_entries();
        assert_eq!(super::check(&self.image), Ok(self.book.entries()));
    }

    /// So many updates.
    pub fn calls(&mut self, calls: usize) {
        (0..calls).for_each(|_| self.next_call());
    }

    /// Updates, at most so many, while the random numbers come from bytes.
    pub fn calls_of_bytes(&mut self, most: usize) {
        for _ in 0..most {
            if !self.random.has_bytes() {
                return;
            }
            self.next_call();
        }
    }

    fn next_call(&mut self) {
        let update = self.draw();
        let room = if self.random.one_in(10) {
            self.random.below(60) as usize
        } else {
            54 + self.random.below(4) as usize
        };
        self.call(update, room);
        if self.random.one_in(10) {
            self.damaged(update, room);
        }
    }

    /// The next update: the table fills up or empties, with calls of the other kind, repeated and faulty ones among them.
    fn draw(&mut self) -> Update {
        let (entries, slots) = (self.list.addresses.len(), self.image.tags.len());
        self.seen.full += usize::from(entries == slots);
        self.seen.empty += usize::from(entries == 0);
        let chance = match entries {
            n if n <= self.least && !self.filling => 2,
            n if n == slots && self.filling => 6,
            _ => 30 * slots as u64,
        };
        self.filling ^= self.random.one_in(chance);
        let setting = self.filling != self.random.one_in(self.odd);
        let mut update = if setting { self.draw_set() } else { self.draw_removal() };
        if self.random.one_in(2 * self.odd) {
            match self.random.below(3) {
                0 => update.length = self.random.pick(&[33, 34, 64, 255, u32::MAX]),
                1 => (update.address, update.length) = (update.address | 1, self.random.below(32) as u32),
                _ => update.hop = update.hop.map(|_| self.random.pick(&[0, 65_536, 65_537, u32::MAX])),
            }
        }
        update
    }

    fn draw_set(&mut self) -> Update {
        if self.random.one_in(2 * self.odd) {
            if let Some((address, length, hop)) = self.present() {
                let other = if self.random.one_in(2) { hop } else { self.hop() };
                return set(address, length, other);
            }
        }
        let mut prefix = self.random.pick(&self.supply);
        for _ in 0..6 {
            if self.book.has(prefix.0, prefix.1) {
                prefix = self.random.pick(&self.supply);
            }
        }
        set(prefix.0, prefix.1, self.hop())
    }

    fn draw_removal(&mut self) -> Update {
        match self.present() {
            Some((address, length, _)) if !self.random.one_in(4 * self.odd) => remove(address, length),
            _ => {
                let (address, length) = self.random.pick(&self.supply);
                remove(address, length)
            }
        }
    }

    /// An entry of the table.
    fn present(&mut self) -> Option<(u32, u32, u32)> {
        let entries = self.list.addresses.len();
        if entries == 0 {
            return None;
        }
        let i = self.random.below(entries as u64) as usize;
        Some((self.list.addresses[i], self.list.lengths[i], self.list.hops[i]))
    }

    fn hop(&mut self) -> u32 {
        match self.random.below(8) {
            0 => 65_535,
            1 => 1 + self.random.below(65_535) as u32,
            _ => 1 + self.random.below(4) as u32,
        }
    }

    /// One update, asked of all three: the cells of its writes, or the refusal.
    fn planned(&mut self, update: Update, room: usize) -> Result<Vec<u32>, Fault> {
        let Update { address, length, hop } = update;
        let said = match hop {
            Some(hop) => self.book.set(address, length, hop, room),
            None => self.book.remove(address, length, room),
        };
        let plan = super::plan(&self.image, update, room);
        assert_eq!(plan.clone().map(|cells| cells.len() / 3), said, "{update:?}, the book");
        plan
    }

    /// One update; where it is accepted, each of its cuts, then the whole.
    fn call(&mut self, update: Update, room: usize) {
        let absent = update.length <= 32 && !self.book.has(update.address, update.length);
        match self.planned(update, room) {
            Err((number, _)) => self.seen.refused[usize::from(number)] += 1,
            Ok(plan) => {
                self.count(update, absent, &plan);
                let after = self.book.set_of_entries();
                // the write that shows the update
                let shown = if update.hop.is_some() && absent {
                    plan.len() / 3
                } else {
                    1
                };
                let at_all = self.image.tags.len() <= ALL_EDGES || self.accepted.is_multiple_of(ONE_IN);
                self.accepted += 1;
                if at_all {
                    self.cuts_at_all_edges(update, &plan, shown, &after);
                } else {
                    self.cuts_at_some_edges(update, &plan, shown, &after);
                }
                self.mends(update, &plan, shown, &after);
                self.refused_applies(&plan);
                super::apply(&mut self.image, &plan, plan.len() / 3).unwrap();
                self.list = after;
            }
        }
        assert!(self.image == self.book.image(), "the image after {update:?}");
    }

    fn count(&mut self, update: Update, absent: bool, plan: &[u32]) {
        let writes = plan.len() / 3;
        match update.hop {
            Some(_) if absent => self.seen.sets[writes] += 1,
            Some(_) if writes == 0 => self.seen.same_hop += 1,
            Some(_) => self.seen.other_hop += 1,
            None => {
                self.seen.removals[writes] += 1;
                self.seen.edge_moves += usize::from(plan[2] >> 16 == update.length && plan[2] != 0);
            }
        }
    }

    /// On every cut, the edges of every prefix of the set before and of the set after.
    fn cuts_at_all_edges(&mut self, update: Update, plan: &[u32], shown: usize, after: &Rows) {
        let mut keys = vec![0, u32::MAX];
        for list in [&self.list, after] {
            let prefixes = list.addresses.iter().zip(&list.lengths);
            keys.extend(prefixes.flat_map(|(&address, &length)| edges(address, length)));
        }
        keys.sort_unstable();
        keys.dedup();
        let answers = |list| -> Vec<_> { keys.iter().map(|&q| answer_in(list, q)).collect() };
        let (old, new) = (answers(&self.list), answers(after));
        for k in 0..=plan.len() / 3 {
            self.cut(update, plan, k, &keys, if k < shown { &old } else { &new });
        }
    }

    /// On every cut, a sample of the edges: those of the updated prefix, of the prefix written last, of the prefix to be written
    /// next, and of one more prefix of the set after, another one each time. After the last write also the edges of all prefixes
    /// written.
    fn cuts_at_some_edges(&mut self, update: Update, plan: &[u32], shown: usize, after: &Rows) {
        let cells = plan.chunks_exact(3).map(|write| edges(write[1], write[2] >> 16));
        let written: Vec<[u32; 4]> = cells.collect();
        let writes = written.len();
        // cuts have addresses in common
        let mut known = HashMap::new();
        for k in 0..=writes {
            let mut keys = edges(update.address, update.length).to_vec();
            let near = if k == writes { 0 } else { k.saturating_sub(1) };
            keys.extend(written[near..writes.min(k + 1)].iter().flatten());
            if !after.addresses.is_empty() {
                self.turn = (self.turn + 1) % after.addresses.len();
                keys.extend(edges(after.addresses[self.turn], after.lengths[self.turn]));
            }
            keys.sort_unstable();
            keys.dedup();
            let list = if k < shown { &self.list } else { after };
            let answer = |&q| *known.entry((k < shown, q)).or_insert_with(|| answer_in(list, q));
            let expected: Vec<_> = keys.iter().map(answer).collect();
            self.cut(update, plan, k, &keys, &expected);
        }
    }

    /// What both programs answer on a copy after `k` writes of a plan. Between the first write and the last a prefix stands twice:
    /// some of these copies are asked for a plan too, which is refused.
    fn cut(&mut self, update: Update, plan: &[u32], k: usize, keys: &[u32], expected: &[Result<u32, Fault>]) {
        let mut cut = self.image.clone();
        super::apply(&mut cut, plan, k).unwrap();
        assert_eq!(super::lookups(&cut, keys), expected, "after {k} writes of {update:?}");
        if 0 < k && k < plan.len() / 3 && self.random.one_in(8) {
            assert!(matches!(super::plan(&cut, update, 54), Err((7, _))), "{cut:?}");
            self.seen.refused[7] += 1;
        }
    }

    /// Every cut of a plan is mended, to the set before the update or to the set after; the table before the first write was so after
    /// the update before. The cuts of the mend are asked at the edges of the updated prefix and of the one written last, which is the
    /// one that stands twice.
    fn mends(&mut self, update: Update, plan: &[u32], shown: usize, after: &Rows) {
        let (one_in, again_in) = mended_in(self.image.tags.len());
        if !self.accepted.is_multiple_of(one_in) {
            return;
        }
        let mends = if self.accepted.is_multiple_of(again_in) {
            mended_again
        } else {
            mended
        };
        let sets = [&self.list, after].map(set_of_list);
        for (k, cut) in cuts(&self.image, plan).iter().enumerate().skip(1) {
            let write = &plan[3 * (k - 1)..][..3];
            let keys = [edges(update.address, update.length), edges(write[1], write[2] >> 16)];
            let of_mend = mends(cut, &sets[usize::from(k >= shown)], keys.as_flattened());
            self.seen.mends[of_mend.len() - 1] += 1;
        }
    }

    /// A plan that is too short or damaged, or rows of unequal length: refused, and the copy as it was.
    fn refused_applies(&mut self, plan: &[u32]) {
        if !self.random.one_in(6) {
            return;
        }
        let writes = plan.len() / 3;
        let (mut copy, mut plan, mut k) = (self.image.clone(), plan.to_vec(), writes);
        let place = self.random.below(writes.max(1) as u64) as usize;
        let bad_tags = [33 << 16 | 1, 16 << 16, 65_535 << 16 | 9, u32::MAX];
        match self.random.below(4) {
            0 => k = self.random.pick(&[k + 1, k + 2, usize::MAX / 3 + 1, usize::MAX]),
            1 => {
                copy.tags.pop();
            }
            _ if writes == 0 => k = 1,
            2 => plan[3 * place] = self.random.pick(&[copy.tags.len() as u32, 4096, 65_536, u32::MAX]),
            _ => plan[3 * place + 2] = self.random.pick(&bad_tags),
        }
        let (number, _) = super::apply(&mut copy, &plan, k).unwrap_err();
        self.seen.refused[usize::from(number)] += 1;
    }

    /// The same update in a damaged copy, most of them refused; the book is not asked.
    fn damaged(&mut self, update: Update, room: usize) {
        let mut copy = self.image.clone();
        super::damage(&mut copy, &mut self.random);
        if let Err((number, _)) = super::plan(&copy, update, room) {
            self.seen.refused[usize::from(number)] += 1;
        }
        let _ = super::check(&copy);
        let _ = super::lookup(&copy, update.address);
    }
}

/// The answer of a set.
fn answer_in(list: &Rows, q: u32) -> Result<u32, Fault> {
    Ok(answer(&list.addresses, &list.lengths, &list.hops, q))
}

/// An address with the bits behind the prefix's length put to 0.
fn cut_to(q: u32, length: u32) -> u32 {
    (u64::from(q) >> (32 - length) << (32 - length)) as u32
}

/// Prefixes to draw from, half as many again as there are slots where the lengths have so many: a few lengths or many, above
/// the pool, below it or both, and addresses near three others, so that they lie inside each other.
pub fn supply(random: &mut Random, slots: usize) -> Vec<(u32, u32)> {
    let above: Vec<u32> = (16..=32).collect();
    let below: Vec<u32> = (0..=15).collect();
    let all: Vec<u32> = (0..=32).collect();
    // all lengths of a side more often where they fit: such tables have the longest plans
    let lengths = match random.below(if slots > 32 { 8 } else { 6 }) {
        0 => few(random, &above),
        1 => few(random, &below[4..]),
        2 => few(random, &all),
        3 => all,
        4 | 6 => below,
        _ => above,
    };
    let near = [
        random.number() as u32,
        random.number() as u32,
        random.pick(&[0, u32::MAX]),
    ];
    let mut found = Vec::new();
    let mut seen = HashSet::new();
    for _ in 0..64 + 16 * slots {
        let length = random.pick(&lengths);
        // the prefix's last bits turned
        let turned = random.below(2 * slots as u64) << (32 - length);
        let address = cut_to(random.pick(&near) ^ turned as u32, length);
        if found.len() < 2 + slots + slots / 2 && seen.insert((address, length)) {
            found.push((address, length));
        }
    }
    found
}

/// Two to five of some lengths.
fn few(random: &mut Random, lengths: &[u32]) -> Vec<u32> {
    (0..2 + random.below(4)).map(|_| random.pick(lengths)).collect()
}
