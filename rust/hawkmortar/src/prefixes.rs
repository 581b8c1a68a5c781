//! The plain answer over a list that is one slice of entries, each a prefix with its next hop, in any order.
//!
//! The calls answer as those of [`list`](crate::list) do for the three rows of the same entries. Both test the whole list before
//! they answer: [`Refusal::Size`] for more than [`MAX_ROUTES`](crate::MAX_ROUTES) entries, then entry by entry
//! [`Refusal::Length`], [`Refusal::Address`], [`Refusal::Hop`] and [`Refusal::Twice`].
//!
//! ```
//! use hawkmortar::prefixes::{self, Entry};
//! use hawkmortar::{NextHop, Prefix, Refusal};
//! use std::net::Ipv4Addr;
//!
//! let mut list = vec![
//!     Entry { address: Ipv4Addr::new(10, 0, 0, 0).into(), length: 8, hop: 1 },
//!     Entry { address: Ipv4Addr::new(10, 20, 0, 0).into(), length: 16, hop: 2 },
//! ];
//! assert_eq!(prefixes::check(&list), Ok(2));
//! assert_eq!(prefixes::lookup(&list, Ipv4Addr::new(10, 20, 5, 0)), Ok(NextHop::new(2)));
//! assert_eq!(prefixes::lookup(&list, Ipv4Addr::new(11, 0, 0, 0)), Ok(None));
//!
//! // an entry of a prefix that is known to be valid
//! let prefix = Prefix::new(Ipv4Addr::new(11, 0, 0, 0), 8)?;
//! list.push((prefix, NextHop::new(3).unwrap()).into());
//! assert_eq!(prefixes::lookup(&list, Ipv4Addr::new(11, 0, 0, 0)), Ok(NextHop::new(3)));
//!
//! // a prefix has one next hop
//! list.push(Entry { hop: 4, ..list[0] });
//! assert_eq!(prefixes::check(&list), Err(Refusal::Twice(3)));
//! # Ok::<(), Refusal>(())
//! ```

use crate::{ffi, NextHop, Prefix, Refusal};
use std::mem::offset_of;

/// A prefix with its next hop, as three numbers that a call tests. Ordered by address, then length, then hop.
#[derive(Clone, Copy, PartialEq, Eq, PartialOrd, Ord, Hash, Debug, Default)]
#[repr(C)]
pub struct Entry {
    /// The prefix's address.
    pub address: u32,
    /// Its length.
    pub length: u32,
    /// Its next hop.
    pub hop: u32,
}

// the layout of `struct hawkmortar_prefix`
const _: () = {
    assert!(size_of::<Entry>() == 12 && align_of::<Entry>() == 4);
    assert!(offset_of!(Entry, address) == 0 && offset_of!(Entry, length) == 4 && offset_of!(Entry, hop) == 8);
};

impl From<(Prefix, NextHop)> for Entry {
    fn from((prefix, hop): (Prefix, NextHop)) -> Self {
        Entry {
            address: prefix.address().into(),
            length: prefix.length(),
            hop: hop.get().into(),
        }
    }
}

/// Tests a list: the number of its entries, or the first refusal.
pub fn check(list: &[Entry]) -> Result<usize, Refusal> {
    // SAFETY: the pointer is to as many entries as the length says, and the call only reads them
    unsafe { ffi::hawkmortar_prefixes_check(list.as_ptr(), list.len()) }.count()
}

/// The next hop of the longest prefix that matches `q`, `None` where none matches, or the list's first refusal.
pub fn lookup(list: &[Entry], q: impl Into<u32>) -> Result<Option<NextHop>, Refusal> {
    // SAFETY: as of `check`
    unsafe { ffi::hawkmortar_prefixes_lookup(list.as_ptr(), list.len(), q.into()) }.hop()
}

#[cfg(test)]
mod tests {
    use super::Entry;
    use crate::{NextHop, Prefix};
    use std::net::Ipv4Addr;

    #[test]
    fn an_entry_has_the_numbers_of_its_prefix_and_hop() {
        let entry = |address: Ipv4Addr, length, hop| {
            let prefix = Prefix::new(address, length).unwrap();
            Entry::from((prefix, NextHop::new(hop).unwrap()))
        };
        let numbers = |address, length, hop| Entry { address, length, hop };
        assert_eq!(entry(Ipv4Addr::new(10, 20, 0, 0), 16, 2), numbers(0x0a14_0000, 16, 2));
        assert_eq!(entry(Ipv4Addr::new(0, 0, 0, 0), 0, 1), numbers(0, 0, 1));
        assert_eq!(entry([255; 4].into(), 32, 65_535), numbers(u32::MAX, 32, 65_535));
    }
}
