//! The download calls, asked of both programs, and walks over tables that are updated meanwhile.
//!
//! The updates of a table are planned by both programs and followed by the book. Their writes are made one by one, and any number of
//! them between two calls of a walk: calls read half-written images, and there are images that no call reads. What is promised of a
//! walk is tested for the images that its calls read, and for all images that there were from its first call to its last.

use super::calls::{counted, Call};
use super::{fault, remove, set, Update};
use crate::book::Book;
use crate::download::{self as plain, prefix_of, Answer, Entry, Prefix};
use crate::random::Random;
use crate::slots::Image;
use crate::Fault;
use hawkmortar::slots as proved;
use std::collections::BTreeMap;
use std::mem::take;
use std::ops::Bound::{Excluded, Unbounded};

/// What the row that is lent holds before, and the cells beside it.
const BLANK: [u32; 5] = [0xabcd_0000, 0xabcd_0001, 0xabcd_0002, 0xabcd_0003, 0xabcd_0004];

/// What the library answers from a prefix, or from the start where there is none. The three cells lent are the middle ones of the
/// row.
fn library_next(image: &Image, from: Option<Prefix>, row: &mut [u32; 5]) -> Result<bool, Fault> {
    let (addresses, tags) = (&image.addresses, &image.tags);
    let lent = (&mut row[1..4]).try_into().expect("three cells");
    let (call, found) = match from {
        None => (Call::DownloadFirst, proved::download_first(addresses, tags, lent)),
        Some((address, length)) => (
            Call::DownloadNext,
            proved::download_next(addresses, tags, address, length, lent),
        ),
    };
    counted(call, found.map_err(fault))
}

/// The library answers what the second program does. The cells lent are those of the entry that is given, or as found where there is
/// none.
fn alike(image: &Image, from: Option<Prefix>, expected: Answer) {
    let mut row = BLANK;
    let found = library_next(image, from, &mut row);
    let (given, mut left) = (expected.map(|entry| entry.is_some()), BLANK);
    if let Ok(Some(entry)) = expected {
        left[1..4].copy_from_slice(&entry);
    }
    assert!(
        found == given && row == left,
        "{found:?} and {row:x?}, not {given:?} and {left:x?}, from {from:?} in {image:?}"
    );
}

/// What both programs answer from each of some prefixes, or from the start.
pub fn nexts(image: &Image, asked: &[Option<Prefix>]) -> Vec<Answer> {
    let lent = image.clone();
    let answers = plain::nexts(&image.addresses, &image.tags, asked);
    for (&from, &expected) in asked.iter().zip(&answers) {
        alike(&lent, from, expected);
    }
    assert!(lent == *image, "a download changed {image:?}");
    answers
}

/// What both programs answer from a prefix, or from the start where there is none.
pub fn next(image: &Image, from: Option<Prefix>) -> Answer {
    nexts(image, &[from])[0]
}

/// The prefixes of an image, each once, in order.
pub fn prefixes(image: &Image) -> Vec<Prefix> {
    let cells = image.addresses.iter().zip(&image.tags);
    let used = cells.filter(|&(_, &tag)| tag != 0);
    let mut prefixes: Vec<Prefix> = used.map(|(&address, &tag)| (address, tag >> 16)).collect();
    prefixes.sort_unstable();
    prefixes.dedup();
    prefixes
}

/// The slots that a prefix stands in.
fn slots_of(image: &Image, (address, length): Prefix) -> impl Iterator<Item = usize> + '_ {
    let holds = move |&slot: &usize| {
        let tag = image.tags[slot];
        tag != 0 && (image.addresses[slot], tag >> 16) == (address, length)
    };
    (0..image.tags.len()).filter(holds)
}

/// The prefixes that are in every one of some images, and those that are in any; both in order.
#[derive(Clone, Default, Debug)]
struct Presence {
    every: Vec<Prefix>,
    any: Vec<Prefix>,
}

impl Presence {
    /// One image more, by its prefixes.
    fn add(&mut self, present: &[Prefix]) {
        self.every.retain(|prefix| present.binary_search(prefix).is_ok());
        self.any.extend(present);
        // two rising rows one behind the other, which a stable sort merges
        self.any.sort();
        self.any.dedup();
    }

    /// The first image, by its prefixes.
    fn of(present: &[Prefix]) -> Self {
        Presence {
            every: present.to_vec(),
            any: present.to_vec(),
        }
    }

    /// What is promised of a list that a walk has given to its end.
    fn promised(&self, given: &[Prefix]) {
        for prefix in &self.every {
            let times = given.iter().filter(|&given| given == prefix).count();
            assert_eq!(times, 1, "how often {prefix:?}, which is in every image, is given");
        }
        for prefix in given {
            assert!(
                self.any.binary_search(prefix).is_ok(),
                "{prefix:?} is given, and is in no image"
            );
        }
    }
}

/// A walk by the library's calls, each compared with the second program's, and what there was on its way.
#[derive(Clone, Default, Debug)]
pub struct Walk {
    /// The entries given.
    given: Vec<Entry>,
    /// The second program's walk.
    second: plain::Walk,
    /// The images that calls read.
    read: Presence,
    /// All images from the first call's on.
    all: Presence,
    /// The prefixes of the image as it is now, and the calls on it.
    present: Vec<Prefix>,
    on_this: usize,
    /// All calls.
    calls: usize,
}

impl Walk {
    /// A walk whose first call will read the image as it is now.
    pub fn new(image: &Image) -> Self {
        let present = prefixes(image);
        Walk {
            read: Presence::of(&present),
            all: Presence::of(&present),
            present,
            ..Walk::default()
        }
    }

    /// The prefix given last, if there is one.
    fn last(&self) -> Option<Prefix> {
        self.given.last().copied().map(prefix_of)
    }

    /// Whether a prefix is past the one given last.
    fn is_ahead(&self, prefix: Prefix) -> bool {
        Some(prefix) > self.last()
    }

    /// The image has changed by one write.
    pub fn changed(&mut self, image: &Image) {
        self.present = prefixes(image);
        self.all.add(&self.present);
        self.on_this = 0;
    }

    /// The next call, which is not refused: what is given.
    pub fn call(&mut self, image: &Image) -> Option<Entry> {
        if self.on_this == 0 {
            self.read.add(&self.present);
        }
        self.calls += 1;
        self.on_this += 1;
        assert!(self.on_this <= self.present.len() + 1, "no end of {image:?}");
        let (last, lent) = (self.last(), image.clone());
        let answer = self.second.next(image);
        alike(&lent, last, answer);
        assert!(lent == *image, "a download changed {image:?}");
        let given = answer.unwrap_or_else(|fault| panic!("{fault:?} from {last:?} in {image:?}"));
        if let Some(entry) = given {
            let prefix = prefix_of(entry);
            assert!(self.is_ahead(prefix), "{prefix:?} is given after {last:?}");
            let first = slots_of(image, prefix).next().expect("a prefix given is there");
            assert_eq!(entry[2], image.tags[first], "the tag of {prefix:?}");
            self.given.push(entry);
        }
        given
    }

    /// What is promised of a walk that has ended.
    pub fn promised(&self) {
        let given: Vec<Prefix> = self.given.iter().copied().map(prefix_of).collect();
        assert!(given.is_sorted_by(|one, next| one < next), "{given:?}");
        assert_eq!(self.calls, given.len() + 1);
        self.read.promised(&given);
        self.all.promised(&given);
    }
}

/// How often what matters to a walk came. Where there are two numbers, the first is of prefixes ahead of the one given last.
#[derive(Default, Debug)]
pub struct Seen {
    /// Walks, all of them to their end.
    pub walks: usize,
    /// Walks on whose way two updates or more ended.
    pub over_updates: usize,
    /// Calls.
    pub calls: usize,
    /// Calls on a half-written image, which has a prefix in two slots.
    pub twice: usize,
    /// Calls that gave such a prefix.
    pub twice_given: usize,
    /// Calls from a prefix that the image does not hold.
    pub from_absent: usize,
    /// Updates that ended.
    pub updates: usize,
    /// Updates of two writes or more, all of them between two calls.
    pub whole: usize,
    /// Moves of a prefix from one slot to another.
    pub moved: [usize; 2],
    /// Prefixes added.
    pub added: [usize; 2],
    /// Prefixes removed.
    pub removed: [usize; 2],
    /// Prefixes that got another hop.
    pub other_hop: [usize; 2],
    /// Prefixes that are in every image that was read, and not in every image there was.
    pub absent_unread: usize,
    /// Prefixes that are in an image, and in none that was read.
    pub present_unread: usize,
    /// Prefixes in some of the images that were read and not in others, given and not given.
    pub at_times: [usize; 2],
}

/// What is made between two calls of a walk.
#[derive(Clone, Copy, PartialEq, Eq, Debug)]
pub enum Between {
    /// One write.
    Write,
    /// One write in so many times, else nothing.
    Rare(u64),
    /// Fewer writes than so many.
    Writes(u64),
    /// The rest of an update or a whole one, and fewer than so many behind it.
    Updates(u64),
}

impl Between {
    /// Any of them.
    pub fn any(random: &mut Random) -> Self {
        match random.below(6) {
            0 | 1 => Between::Write,
            2 => Between::Rare(4),
            3 => Between::Writes(4),
            4 => Between::Writes(12),
            _ => Between::Updates(4),
        }
    }
}

/// An accepted update whose writes are made one by one.
struct UnderWay {
    update: Update,
    plan: Vec<u32>,
    made: usize,
    /// The write that shows the update.
    shown: usize,
    /// The calls before its first write.
    since: usize,
}

/// A table whose updates go on while it is walked over.
pub struct Run<'a> {
    random: Random,
    supply: Vec<Prefix>,
    book: Book,
    image: Image,
    /// Each prefix that the image holds, and its hop, by the updates that it shows.
    set: BTreeMap<Prefix, u32>,
    under_way: Option<UnderWay>,
    /// The prefix updated last.
    updated: Prefix,
    /// One update in so many of a prefix that is there removes it; the others set its hop.
    removal: u64,
    /// One draw in so many of a prefix that is absent sets it; the others are left out.
    growth: u64,
    seen: &'a mut Seen,
}

impl<'a> Run<'a> {
    /// An empty table of so many slots, and prefixes to draw from.
    pub fn new(random: Random, supply: Vec<Prefix>, slots: usize, seen: &'a mut Seen) -> Self {
        Run {
            random,
            updated: supply[0],
            supply,
            book: Book::new(slots),
            image: Image::empty(slots),
            set: BTreeMap::new(),
            under_way: None,
            removal: 1,
            growth: 1,
            seen,
        }
    }

    /// The table of the first so many prefixes of the supply, as the book has it after their sets.
    pub fn prefill(&mut self, entries: usize) {
        for (&(address, length), hop) in self.supply.iter().zip(1..).take(entries) {
            self.book.set(address, length, hop, 54).unwrap();
            self.set.insert((address, length), hop);
        }
        self.image = self.book.image();
        assert_eq!(super::check(&self.image), Ok(self.set.len()));
    }

    /// So many updates, with no walk on the way; what they do is not counted.
    pub fn updates(&mut self, updates: usize) {
        let seen = take(self.seen);
        let mut walk = Walk::new(&self.image);
        while self.seen.updates < updates && self.write(&mut walk) {}
        *self.seen = seen;
    }

    /// A walk to its end, from the table as it is, which may be half-written.
    pub fn walk(&mut self, between: Between) {
        self.removal = self.random.pick(&[1, 2, 4]);
        self.growth = self.random.pick(&[1, 1, 3]);
        let updates = self.seen.updates;
        let mut walk = Walk::new(&self.image);
        loop {
            let from = walk.last();
            let next = self.ahead(from);
            self.count_call(from, next);
            let given = walk.call(&self.image);
            assert_eq!(given, next, "from {from:?} in {:?}", self.image);
            if given.is_none() {
                break;
            }
            self.writes(between, &mut walk);
        }
        walk.promised();
        assert!(walk.calls <= self.supply.len() + 1, "{} calls", walk.calls);
        self.seen.over_updates += usize::from(self.seen.updates > updates + 1);
        self.count_walk(&walk);
    }

    /// What comes past a prefix, or from the start on, in the set.
    fn ahead(&self, from: Option<Prefix>) -> Option<Entry> {
        let mut ahead = self.set.range((from.map_or(Unbounded, Excluded), Unbounded));
        let ((address, length), hop) = ahead.next()?;
        Some([*address, *length, length << 16 | hop])
    }

    /// The writes between two calls.
    fn writes(&mut self, between: Between, walk: &mut Walk) {
        let writes = match between {
            Between::Write => 1,
            Between::Rare(times) => u64::from(self.random.one_in(times)),
            Between::Writes(bound) => self.random.below(bound),
            Between::Updates(bound) => {
                let updates = self.seen.updates + 1 + self.random.below(bound) as usize;
                while self.seen.updates < updates && self.write(walk) {}
                return;
            }
        };
        (0..writes).for_each(|_| {
            self.write(walk);
        });
    }

    /// Makes one write, of the update under way or of the next one; whether there was any.
    fn write(&mut self, walk: &mut Walk) -> bool {
        // some updates are refused or have no writes
        for _ in 0..16 {
            if self.under_way.is_none() {
                if let Some(update) = self.draw(walk.last()) {
                    self.plan(update);
                }
            }
        }
        let Some(under_way) = &mut self.under_way else {
            return false;
        };
        let UnderWay { update, plan, made, .. } = under_way;
        let write = &plan[3 * *made..][..3];
        let written = (write[1], write[2] >> 16);
        if write[2] != 0 && slots_of(&self.image, written).any(|slot| self.image.tags[slot] == write[2]) {
            self.seen.moved[usize::from(!walk.is_ahead(written))] += 1;
        }
        super::apply(&mut self.image, write, 1).unwrap();
        *made += 1;
        let (whole, prefix) = (3 * *made == plan.len(), (update.address, update.length));
        if *made == under_way.shown {
            let old = match update.hop {
                Some(hop) => self.set.insert(prefix, hop),
                None => self.set.remove(&prefix),
            };
            let counts = match (old, update.hop) {
                (None, _) => &mut self.seen.added,
                (_, Some(_)) => &mut self.seen.other_hop,
                (_, None) => &mut self.seen.removed,
            };
            counts[usize::from(!walk.is_ahead(prefix))] += 1;
        }
        if whole {
            assert!(self.image == self.book.image(), "the image after {update:?}");
            self.seen.updates += 1;
            self.seen.whole += usize::from(*made > 1 && under_way.since == self.seen.calls);
            self.under_way = None;
        }
        walk.changed(&self.image);
        assert!(walk.present.iter().eq(self.set.keys()), "{:?}", self.image);
        true
    }

    /// The next update, if the draw gives one. Many are of the prefix updated last, so that it comes and goes, of the one given last, or
    /// of one of the next.
    fn draw(&mut self, last: Option<Prefix>) -> Option<Update> {
        let prefix = match self.random.below(8) {
            0 => self.updated,
            1 => last.unwrap_or(self.updated),
            2 => {
                let mut ahead = self.set.range((last.map_or(Unbounded, Excluded), Unbounded));
                let near = ahead.nth(self.random.below(3) as usize);
                near.map_or(self.updated, |(&prefix, _)| prefix)
            }
            _ => self.random.pick(&self.supply),
        };
        let ((address, length), present) = (prefix, self.set.contains_key(&prefix));
        if !present && !self.random.one_in(self.growth) {
            return None;
        }
        self.updated = prefix;
        if present && self.random.one_in(self.removal) {
            return Some(remove(address, length));
        }
        Some(set(address, length, self.random.pick(&[1, 2, 3, 65_535])))
    }

    /// Plans an update, by both programs and the book. It is under way where it is accepted and has writes.
    fn plan(&mut self, update: Update) {
        let Update { address, length, hop } = update;
        let absent = !self.book.has(address, length);
        let said = match hop {
            Some(hop) => self.book.set(address, length, hop, 54),
            None => self.book.remove(address, length, 54),
        };
        let plan = super::plan(&self.image, update, 54);
        assert_eq!(plan.clone().map(|cells| cells.len() / 3), said, "{update:?}, the book");
        let Some(plan) = plan.ok().filter(|plan| !plan.is_empty()) else {
            return;
        };
        self.under_way = Some(UnderWay {
            update,
            shown: if hop.is_some() && absent { plan.len() / 3 } else { 1 },
            plan,
            made: 0,
            since: self.seen.calls,
        });
    }

    /// Counts a call that is to come, and what it is to give.
    fn count_call(&mut self, from: Option<Prefix>, next: Option<Entry>) {
        let used = self.image.tags.iter().filter(|&&tag| tag != 0).count();
        let slots = next.map_or(0, |entry| slots_of(&self.image, prefix_of(entry)).count());
        self.seen.calls += 1;
        self.seen.twice += usize::from(used > self.set.len());
        self.seen.twice_given += usize::from(slots > 1);
        self.seen.from_absent += usize::from(from.is_some_and(|prefix| !self.set.contains_key(&prefix)));
    }

    /// Counts a walk that has ended.
    fn count_walk(&mut self, walk: &Walk) {
        let Walk { read, all, given, .. } = walk;
        self.seen.walks += 1;
        self.seen.absent_unread += read.every.len() - all.every.len();
        self.seen.present_unread += all.any.len() - read.any.len();
        // those in every image that was read are given
        let at_times = read.any.len() - read.every.len();
        let given = given.len() - read.every.len();
        self.seen.at_times[0] += given;
        self.seen.at_times[1] += at_times - given;
    }
}
