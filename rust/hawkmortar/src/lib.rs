//! Route tables for access routers: a safe interface to the proved library.
//!
//! The library is written in Rattle, where each function is proved to meet its contract. This crate declares its C interface and
//! turns outcomes into Rust's own types: an accepted lookup is `Ok(Some(hop))`, or `Ok(None)` where no prefix matches; a refused
//! call is `Err(Refusal)`, with the refusal's number and place as docs/SPECIFICATION.md lists them.
//!
//! ```
//! use hawkmortar::{list, NextHop, Refusal};
//! use std::net::Ipv4Addr;
//!
//! let addresses = [Ipv4Addr::new(10, 0, 0, 0).into(), Ipv4Addr::new(10, 20, 0, 0).into()];
//! let lengths = [8, 16];
//! let hops = [1, 2];
//!
//! let q = Ipv4Addr::new(10, 20, 5, 0);
//! assert_eq!(list::lookup(&addresses, &lengths, &hops, q), Ok(NextHop::new(2)));
//! assert_eq!(list::lookup(&addresses, &lengths, &hops, Ipv4Addr::new(11, 0, 0, 0)), Ok(None));
//!
//! // 10.20.0.0/8 is no prefix: its address is not a multiple of 2^24
//! assert_eq!(list::check(&addresses, &[8, 8], &hops), Err(Refusal::Address(1)));
//! ```
//!
//! [`prefixes`] has the calls of [`list`] over one slice of entries.
//!
//! A [`Table`] keeps routes in slots and plans each update as a row of single writes; one that was left in the middle of a plan is
//! mended ([`Table::mend`]). A [`Download`] reads its routes out one by one while updates go on; [`slots`] has the same calls over
//! lent rows. A [`RangeTable`] has the routes of a list merged into ranges of addresses; [`ranges`] has its calls over lent rows. A
//! [`DxrTable`] has these ranges by chunks of addresses, so that a lookup looks at one chunk; [`dxr`] has its calls. Updates travel
//! as bytes: [`Records`] reads them record by record, and [`records`] has the call that reads one. Prefixes, hops and records can be
//! parsed from the text that they are shown as; the program `records` turns lines of such text into bytes and back.
#![warn(missing_docs)]

pub mod download;
pub mod dxr;
pub mod dxr_table;
mod ffi;
pub mod list;
mod parse;
mod prefix;
pub mod prefixes;
pub mod range_table;
pub mod ranges;
pub mod records;
mod refusal;
pub mod slots;
pub mod table;

pub use download::{Download, Route};
pub use dxr_table::DxrTable;
pub use parse::ParseError;
pub use prefix::Prefix;
pub use range_table::{Range, RangeTable};
pub use records::{Record, Records};
pub use refusal::Refusal;
pub use table::{Entry, Plan, Table, Write};

use std::fmt;
use std::num::NonZeroU16;

/// The most entries of a list.
pub const MAX_ROUTES: usize = 4096;

/// The most slots of a table; the least is 1.
pub const MAX_SLOTS: usize = 4096;

/// The most ranges of a table; the least is 1.
pub const MAX_RANGES: usize = 8193;

/// The words of a DXR table's main table, one for each chunk of 65,536 addresses.
pub const MAIN_WORDS: usize = 65_536;

/// The most range words of a DXR table that is built: enough room for any list.
pub const MAX_RANGE_WORDS: usize = 12_288;

/// The most writes of a plan that sets a prefix.
pub const MAX_SET_WRITES: usize = 17;

/// The most writes of a plan that removes a prefix, and of one that mends a table.
pub const MAX_REMOVE_WRITES: usize = 18;

/// A next hop: a number from 1 to 65,535.
#[derive(Clone, Copy, PartialEq, Eq, PartialOrd, Ord, Hash, Debug)]
pub struct NextHop(NonZeroU16);

impl NextHop {
    /// The next hop with this number; 0 is none.
    pub const fn new(number: u16) -> Option<Self> {
        match NonZeroU16::new(number) {
            Some(number) => Some(NextHop(number)),
            None => None,
        }
    }

    /// The hop's number.
    pub const fn get(self) -> u16 {
        self.0.get()
    }
}

impl fmt::Display for NextHop {
    fn fmt(&self, f: &mut fmt::Formatter<'_>) -> fmt::Result {
        self.0.fmt(f)
    }
}
