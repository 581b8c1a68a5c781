//! A table of routes merged into ranges of addresses.
//!
//! A [`RangeTable`] owns the two rows that [`ranges`] describes. It is built from a set of routes as a whole and answers as
//! their list and their slots do.
//!
//! ```
//! use hawkmortar::{NextHop, Prefix, RangeTable, Refusal};
//! use std::net::Ipv4Addr;
//!
//! let route = |octets, length, hop| -> Result<_, Refusal> {
//!     Ok((Prefix::new(Ipv4Addr::from(octets), length)?, NextHop::new(hop).unwrap()))
//! };
//! let table = RangeTable::of([route([10, 0, 0, 0], 8, 1)?, route([10, 20, 0, 0], 16, 2)?])?;
//!
//! let shown: Vec<String> = table.iter().map(|range| range.to_string()).collect();
//! assert_eq!(shown, ["0.0.0.0 0", "10.0.0.0 1", "10.20.0.0 2", "10.21.0.0 1", "11.0.0.0 0"]);
//!
//! assert_eq!(table.lookup(Ipv4Addr::new(10, 20, 255, 255)), NextHop::new(2));
//! assert_eq!(table.lookup(Ipv4Addr::new(10, 21, 0, 0)), NextHop::new(1));
//! assert_eq!(table.lookup(Ipv4Addr::new(11, 0, 0, 0)), None);
//!
//! // a prefix has one next hop
//! let twice = [route([10, 0, 0, 0], 8, 1)?, route([10, 0, 0, 0], 8, 2)?];
//! assert_eq!(RangeTable::of(twice), Err(Refusal::Twice(1)));
//! # Ok::<(), Refusal>(())
//! ```

use crate::{ranges, NextHop, Prefix, Refusal};
use std::fmt;
use std::net::Ipv4Addr;

/// A table of 1 to [`MAX_RANGES`](crate::MAX_RANGES) ranges.
#[derive(Clone, PartialEq, Eq, Hash, Debug)]
pub struct RangeTable {
    // a lookup accepts these rows
    starts: Vec<u32>,
    hops: Vec<u32>,
}

impl RangeTable {
    /// The table of a set of routes, in any order. Refused with [`Refusal::Size`] for more than
    /// [`MAX_ROUTES`](crate::MAX_ROUTES) routes, or [`Refusal::Twice`] with the first route whose prefix an earlier one has.
    pub fn of(routes: impl IntoIterator<Item = (Prefix, NextHop)>) -> Result<Self, Refusal> {
        let (mut addresses, mut lengths, mut route_hops) = (Vec::new(), Vec::new(), Vec::new());
        for (prefix, hop) in routes {
            addresses.push(prefix.address().into());
            lengths.push(prefix.length());
            route_hops.push(hop.get().into());
        }
        let most = 2 * addresses.len() + 1;
        let (mut starts, mut hops) = (vec![0; most], vec![0; most]);
        let count = ranges::build(&addresses, &lengths, &route_hops, &mut starts, &mut hops)?;
        starts.truncate(count);
        hops.truncate(count);
        Ok(RangeTable { starts, hops })
    }

    /// The table with these rows; refused as of [`ranges::lookup`].
    pub fn from_rows(starts: Vec<u32>, hops: Vec<u32>) -> Result<Self, Refusal> {
        // whatever the address, a lookup tests the whole table
        ranges::lookup(&starts, &hops, 0u32)?;
        Ok(RangeTable { starts, hops })
    }

    /// The next hop of the range that `q` lies in, `None` where it has none.
    pub fn lookup(&self, q: impl Into<u32>) -> Option<NextHop> {
        ranges::lookup(&self.starts, &self.hops, q).expect("a table keeps the rules of ranges")
    }

    /// The ranges, from address 0 upward.
    pub fn iter(&self) -> impl DoubleEndedIterator<Item = Range> + ExactSizeIterator + '_ {
        (0..self.starts.len()).map(|i| self.range(i))
    }

    /// The row of starts.
    pub fn starts(&self) -> &[u32] {
        &self.starts
    }

    /// The row of next hops, where 0 is none.
    pub fn hops(&self) -> &[u32] {
        &self.hops
    }

    fn range(&self, i: usize) -> Range {
        Range {
            start: self.starts[i].into(),
            last: self.starts.get(i + 1).map_or(u32::MAX, |next| next - 1).into(),
            hop: NextHop::new(self.hops[i] as u16),
        }
    }
}

/// A range of addresses that have one next hop or none. Shown as its start and the hop, 0 for none.
#[derive(Clone, Copy, PartialEq, Eq, Hash, Debug)]
pub struct Range {
    /// Its first address.
    pub start: Ipv4Addr,
    /// Its last address.
    pub last: Ipv4Addr,
    /// The next hop of its addresses.
    pub hop: Option<NextHop>,
}

impl fmt::Display for Range {
    fn fmt(&self, f: &mut fmt::Formatter<'_>) -> fmt::Result {
        write!(f, "{} {}", self.start, self.hop.map_or(0, NextHop::get))
    }
}
