//! The download: the prefixes of an image one by one, in order of address, then length.
//!
//! The entries of the whole image are put in that order, a prefix that stands in several slots as often as it does, its first slot
//! first. The answer is the first entry past the prefix asked from.

use crate::list::entry_fault;
use crate::slots::{entries, valid, Image};
use crate::Fault;

/// A prefix: address and length.
pub type Prefix = (u32, u32);

/// An entry: address, length and tag.
pub type Entry = [u32; 3];

/// An entry, none at the end, or the refusal.
pub type Answer = Result<Option<Entry>, Fault>;

/// The prefix of an entry.
pub fn prefix_of([address, length, _]: Entry) -> Prefix {
    (address, length)
}

/// The entries of an image that keeps S1, in order, or its refusal.
fn in_order(addresses: &[u32], tags: &[u32]) -> Result<Vec<Entry>, Fault> {
    let cells = valid(addresses, tags)?;
    let mut list: Vec<Entry> = entries(&cells)
        .map(|(slot, address, length)| [address, length, tags[slot]])
        .collect();
    // a stable sort: of equal prefixes the first slot stays first
    list.sort_by_key(|&entry| prefix_of(entry));
    Ok(list)
}

/// The first of entries in order that is past a prefix, or the first of all from the start; or the prefix's refusal.
fn past(list: &[Entry], from: Option<Prefix>) -> Answer {
    let Some((address, length)) = from else {
        return Ok(list.first().copied());
    };
    // a prefix asked from has no hop to test
    if let Some(fault) = entry_fault(0, address, length, 1) {
        return Err(fault);
    }
    Ok(list.iter().copied().find(|&entry| prefix_of(entry) > (address, length)))
}

/// The answers for some prefixes asked from, where none is the start: the first entry of an image that is past each.
pub fn nexts(addresses: &[u32], tags: &[u32], asked: &[Option<Prefix>]) -> Vec<Answer> {
    match in_order(addresses, tags) {
        Ok(list) => asked.iter().map(|&from| past(&list, from)).collect(),
        Err(fault) => vec![Err(fault); asked.len()],
    }
}

/// A walk: calls one after the other, each from the prefix given last.
#[derive(Clone, Default, Debug)]
pub struct Walk {
    last: Option<Prefix>,
}

impl Walk {
    /// The next call, on the image as it is now.
    pub fn next(&mut self, image: &Image) -> Answer {
        let given = nexts(&image.addresses, &image.tags, &[self.last])[0]?;
        self.last = given.map(prefix_of).or(self.last);
        Ok(given)
    }
}
