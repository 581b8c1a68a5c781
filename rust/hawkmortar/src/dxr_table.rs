//! A table of routes by chunks of addresses (DXR), in which a lookup looks at one chunk.
//!
//! A [`DxrTable`] owns the main table and the range words that [`dxr`] describes. It is built from a set of routes as a whole and
//! answers as their list, their slots and their ranges do.
//!
//! ```
//! use hawkmortar::{DxrTable, NextHop, Prefix, Refusal};
//! use std::net::Ipv4Addr;
//!
//! let route = |octets, length, hop| -> Result<_, Refusal> {
//!     Ok((Prefix::new(Ipv4Addr::from(octets), length)?, NextHop::new(hop).unwrap()))
//! };
//! let table = DxrTable::of([route([10, 0, 0, 0], 8, 1)?, route([10, 20, 4, 0], 24, 3)?])?;
//!
//! // chunk 10.21 has hop 1 alone; chunk 10.20 has hop 1, then 3 from 4 x 256 and 1 from 5 x 256, in short entries at word 0
//! assert_eq!(table.main()[10 << 8 | 21], 1);
//! assert_eq!(table.main()[10 << 8 | 20], 2 << 30 | 3 << 16);
//! assert_eq!(table.words(), [0x0001_0403, 0x0501_0000]);
//!
//! assert_eq!(table.lookup(Ipv4Addr::new(10, 20, 4, 255)), NextHop::new(3));
//! assert_eq!(table.lookup(Ipv4Addr::new(10, 20, 5, 0)), NextHop::new(1));
//! assert_eq!(table.lookup(Ipv4Addr::new(11, 0, 0, 0)), None);
//!
//! // a prefix has one next hop
//! let twice = [route([10, 0, 0, 0], 8, 1)?, route([10, 0, 0, 0], 8, 2)?];
//! assert_eq!(DxrTable::of(twice), Err(Refusal::Twice(1)));
//! # Ok::<(), Refusal>(())
//! ```

use crate::{dxr, NextHop, Prefix, Refusal, MAIN_WORDS, MAX_RANGE_WORDS};

/// A DXR table: [`MAIN_WORDS`] main words, and range words.
#[derive(Clone, PartialEq, Eq, Hash, Debug)]
pub struct DxrTable {
    // a lookup accepts these rows, whatever the chunk
    main: Vec<u32>,
    words: Vec<u32>,
}

impl DxrTable {
    /// The table of a set of routes, in any order. Refused with [`Refusal::Size`] for more than
    /// [`MAX_ROUTES`](crate::MAX_ROUTES) routes, or [`Refusal::Twice`] with the first route whose prefix an earlier one has.
    pub fn of(routes: impl IntoIterator<Item = (Prefix, NextHop)>) -> Result<Self, Refusal> {
        let (mut addresses, mut lengths, mut hops) = (Vec::new(), Vec::new(), Vec::new());
        for (prefix, hop) in routes {
            addresses.push(prefix.address().into());
            lengths.push(prefix.length());
            hops.push(hop.get().into());
        }
        let (mut main, mut words) = (vec![0; MAIN_WORDS], vec![0; MAX_RANGE_WORDS]);
        let count = dxr::build(&addresses, &lengths, &hops, &mut main, &mut words)?;
        words.truncate(count);
        Ok(DxrTable { main, words })
    }

    /// The table with these rows; refused as of [`dxr::lookup`], with the first chunk that breaks a rule.
    pub fn from_rows(main: Vec<u32>, words: Vec<u32>) -> Result<Self, Refusal> {
        // whatever the address, a lookup tests its whole chunk
        for chunk in 0..MAIN_WORDS as u32 {
            dxr::lookup(&main, &words, chunk << 16)?;
        }
        Ok(DxrTable { main, words })
    }

    /// The next hop of the entry that `q` lies in, `None` where it has none.
    pub fn lookup(&self, q: impl Into<u32>) -> Option<NextHop> {
        dxr::lookup(&self.main, &self.words, q).expect("every chunk of a table keeps its rules")
    }

    /// The main table.
    pub fn main(&self) -> &[u32] {
        &self.main
    }

    /// The range words.
    pub fn words(&self) -> &[u32] {
        &self.words
    }
}
