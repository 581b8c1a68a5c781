//! A table's routes read out one by one, while updates go on.
//!
//! A [`Download`] keeps the prefix that it gave last, and nothing of the table: it borrows nothing between two steps, so that a
//! program can write to the table there, slot by slot. Each step asks the image as it is then for the next prefix in order of
//! address, then length, and a prefix in two slots of a half-written table is given once, with its first slot's hop.
//!
//! The list rises. A prefix that is in the table at every step of a walk that comes to its end is given exactly once, one that is
//! there at none is never given; one that comes or goes meanwhile may be given or not. Entries move between slots, never between
//! prefixes: that is why the walk goes by prefix and not by slot.
//!
//! It is for a program that makes its steps and its writes in turn, each on the image that the last one left: one thread, or several
//! that take turns. A step reads the whole table, as a lookup does.
//!
//! ```
//! use hawkmortar::{Download, NextHop, Prefix, Refusal, Table};
//! use std::net::Ipv4Addr;
//!
//! let prefix = |a, b, c, d, length| Prefix::new(Ipv4Addr::new(a, b, c, d), length);
//! let mut table = Table::new(8)?;
//! for (prefix, hop) in [
//!     (prefix(10, 0, 0, 0, 8)?, 1),
//!     (prefix(10, 20, 0, 0, 16)?, 2),
//!     (prefix(10, 20, 4, 0, 24)?, 3),
//!     (prefix(10, 20, 4, 9, 32)?, 2),
//!     (prefix(0, 0, 0, 0, 0)?, 7),
//! ] {
//!     table.set(prefix, NextHop::new(hop).unwrap())?;
//! }
//!
//! // the /24 is removed while the table is read out, a write after each step: the /16 moves to the slot of the /24
//! let plan = table.plan_remove(prefix(10, 20, 4, 0, 24)?)?;
//! let mut walk = Download::new();
//! let mut given = Vec::new();
//! while let Some(route) = walk.next(&table)? {
//!     given.push(route.to_string());
//!     table.apply(&plan, plan.len().min(given.len()))?;
//! }
//! assert_eq!(given, ["0.0.0.0/0 7", "10.0.0.0/8 1", "10.20.0.0/16 2", "10.20.4.9/32 2"]);
//! # Ok::<(), Refusal>(())
//! ```

use crate::{slots, NextHop, Prefix, Refusal, Table};
use std::fmt;

/// A prefix with its next hop. Shown as both.
#[derive(Clone, Copy, PartialEq, Eq, Hash, Debug)]
pub struct Route {
    /// The prefix.
    pub prefix: Prefix,
    /// Its next hop.
    pub hop: NextHop,
}

impl fmt::Display for Route {
    fn fmt(&self, f: &mut fmt::Formatter<'_>) -> fmt::Result {
        write!(f, "{} {}", self.prefix, self.hop)
    }
}

/// A walk over the routes of a table in order of address, then length.
#[derive(Clone, PartialEq, Eq, Hash, Debug, Default)]
pub struct Download {
    last: Option<Prefix>,
}

impl Download {
    /// A walk from the start.
    pub const fn new() -> Self {
        Download { last: None }
    }

    /// A walk that goes on past a prefix, which need not be in the table.
    pub const fn after(prefix: Prefix) -> Self {
        Download { last: Some(prefix) }
    }

    /// The prefix that the next step asks past, if there is one: the one given last, or that of [`Download::after`].
    pub const fn last(&self) -> Option<Prefix> {
        self.last
    }

    /// The next route of the table as it is now, `None` at the end. A step after the end asks once more past the prefix given last.
    /// A [`Table`] refuses no step.
    pub fn next(&mut self, table: &Table) -> Result<Option<Route>, Refusal> {
        self.next_in(table.addresses(), table.tags())
    }

    /// The next route of lent rows, as of [`slots::download_next`].
    pub fn next_in(&mut self, addresses: &[u32], tags: &[u32]) -> Result<Option<Route>, Refusal> {
        let mut entry = [0; 3];
        let given = match self.last {
            None => slots::download_first(addresses, tags, &mut entry),
            Some(prefix) => slots::download_next(addresses, tags, prefix.address(), prefix.length(), &mut entry),
        }?;
        if !given {
            return Ok(None);
        }
        let [address, length, tag] = entry;
        let prefix = Prefix::accepted(address, length);
        let hop = NextHop::new(tag as u16).expect("an entry has a hop");
        self.last = Some(prefix);
        Ok(Some(Route { prefix, hop }))
    }
}
