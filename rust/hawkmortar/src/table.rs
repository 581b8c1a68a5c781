//! A table of routes in the slots of an ordered memory (TCAM), with planned updates.
//!
//! A [`Table`] owns the two rows that [`slots`] describes. An update is planned first: a [`Plan`] lists single [`Write`]s, in
//! order. They can be made all at once or some at a time, and lookups in between answer as before the update or as after it,
//! never otherwise. A table with part of a plan applied refuses further updates with [`Refusal::Image`] while a prefix stands
//! in two slots. Applying the whole plan ends that, since a write that is made again changes nothing; so does [`Table::mend`]
//! where the plan is lost, and the table then holds the routes that lookups answered from.
//!
//! ```
//! use hawkmortar::{NextHop, Prefix, Refusal, Table};
//! use std::net::Ipv4Addr;
//!
//! let mut table = Table::new(8)?;
//! let routes = [
//!     ([10, 0, 0, 0], 8, 1),
//!     ([10, 20, 0, 0], 16, 2),
//!     ([10, 20, 4, 0], 24, 3),
//!     ([10, 20, 4, 9], 32, 2),
//!     ([0, 0, 0, 0], 0, 7),
//! ];
//! let mut writes = Vec::new();
//! for (octets, length, hop) in routes {
//!     let prefix = Prefix::new(Ipv4Addr::from(octets), length)?;
//!     writes.push(table.set(prefix, NextHop::new(hop).unwrap())?);
//! }
//! assert_eq!(writes, [1, 1, 2, 3, 2]);
//!
//! let shown: Vec<String> = table.iter().map(|entry| entry.to_string()).collect();
//! assert_eq!(
//!     shown,
//!     ["0 10.20.4.9/32 2", "1 10.20.4.0/24 3", "2 10.20.0.0/16 2", "6 10.0.0.0/8 1", "7 0.0.0.0/0 7"]
//! );
//!
//! // the removal of the /24 shows at its first write, before the second has cleared the slot left
//! let q = Ipv4Addr::new(10, 20, 4, 10);
//! let plan = table.plan_remove(Prefix::new(Ipv4Addr::new(10, 20, 4, 0), 24)?)?;
//! assert_eq!(plan.len(), 2);
//! assert_eq!(table.lookup(q), NextHop::new(3));
//! table.apply(&plan, 1)?;
//! assert_eq!(table.lookup(q), NextHop::new(2));
//! table.apply(&plan, 2)?;
//! assert_eq!(table.lookup(q), NextHop::new(2));
//!
//! // a plan that is dropped after its first write leaves the /16 in slots 1 and 2; updates are accepted once that is mended
//! let prefix = Prefix::new(q, 32)?;
//! let plan = table.plan_set(prefix, NextHop::new(4).unwrap())?;
//! table.apply(&plan, 1)?;
//! drop(plan);
//! assert_eq!(table.lookup(q), NextHop::new(2));
//! assert_eq!(table.set(prefix, NextHop::new(4).unwrap()), Err(Refusal::Image(2)));
//! assert_eq!(table.mend(), Ok(1));
//! assert_eq!(table.set(prefix, NextHop::new(4).unwrap()), Ok(2));
//! # Ok::<(), Refusal>(())
//! ```

use crate::{slots, NextHop, Prefix, Refusal, MAX_REMOVE_WRITES, MAX_SET_WRITES, MAX_SLOTS};
use std::fmt;

/// The numbers of one write.
const CELLS: usize = 3;

/// A table of 1 to [`MAX_SLOTS`] slots.
#[derive(Clone, PartialEq, Eq, Hash, Debug)]
pub struct Table {
    // one length, 1 to MAX_SLOTS, and every slot keeps S1
    addresses: Vec<u32>,
    tags: Vec<u32>,
}

impl Table {
    /// An empty table; [`Refusal::Size`] for 0 slots or more than [`MAX_SLOTS`].
    pub fn new(slots: usize) -> Result<Self, Refusal> {
        if !(1..=MAX_SLOTS).contains(&slots) {
            return Err(Refusal::Size);
        }
        Ok(Table {
            addresses: vec![0; slots],
            tags: vec![0; slots],
        })
    }

    /// The table with these rows; refused as of [`slots::check`].
    pub fn from_rows(addresses: Vec<u32>, tags: Vec<u32>) -> Result<Self, Refusal> {
        slots::check(&addresses, &tags)?;
        Ok(Table { addresses, tags })
    }

    /// The table with these rows, which an update may have left half-written: lookups are right from then on, and updates are
    /// accepted after [`Table::mend`]. Refused as of [`slots::plan_mend`].
    pub fn from_half_written(addresses: Vec<u32>, tags: Vec<u32>) -> Result<Self, Refusal> {
        slots::plan_mend(&addresses, &tags, &mut [0; CELLS * MAX_REMOVE_WRITES])?;
        Ok(Table { addresses, tags })
    }

    /// The next hop of the longest prefix that matches `q`, `None` where none matches.
    pub fn lookup(&self, q: impl Into<u32>) -> Option<NextHop> {
        slots::lookup(&self.addresses, &self.tags, q).expect("a table's size is good and its slots keep S1")
    }

    /// Plans to set a prefix's next hop; the table stays as it is. Refused with [`Refusal::Image`] while part of a plan is
    /// applied, or [`Refusal::Full`] where the prefix is absent and no slot is free.
    pub fn plan_set(&self, prefix: Prefix, hop: NextHop) -> Result<Plan, Refusal> {
        let mut cells = [0; CELLS * MAX_SET_WRITES];
        let hop = hop.get().into();
        let writes = slots::plan_set(
            &self.addresses,
            &self.tags,
            prefix.address(),
            prefix.length(),
            hop,
            &mut cells,
        )?;
        Ok(Plan::of(&cells[..CELLS * writes]))
    }

    /// Plans to remove a prefix; the table stays as it is. Refused with [`Refusal::Image`] while part of a plan is applied, or
    /// [`Refusal::Absent`].
    pub fn plan_remove(&self, prefix: Prefix) -> Result<Plan, Refusal> {
        let mut cells = [0; CELLS * MAX_REMOVE_WRITES];
        let writes = slots::plan_remove(
            &self.addresses,
            &self.tags,
            prefix.address(),
            prefix.length(),
            &mut cells,
        )?;
        Ok(Plan::of(&cells[..CELLS * writes]))
    }

    /// Plans to mend a table that has part of a plan applied: the removal of the later copy of the prefix that stands in two
    /// slots, no writes where none does. The table stays as it is; lookups answer alike after any number of the plan's writes.
    ///
    /// Refused with [`Refusal::Image`] where writes of other plans were made, so that the table is none that one plan leaves.
    pub fn plan_mend(&self) -> Result<Plan, Refusal> {
        let mut cells = [0; CELLS * MAX_REMOVE_WRITES];
        let writes = slots::plan_mend(&self.addresses, &self.tags, &mut cells)?;
        Ok(Plan::of(&cells[..CELLS * writes]))
    }

    /// Makes the first `k` writes of a plan: `k`. A plan belongs to the table that it was made for, as it was then; in another it
    /// can break the order of the slots, so that lookups answer from the first match and updates are refused.
    ///
    /// [`Refusal::Plan`] where the plan has fewer writes than `k`, or was made for a table with more slots and writes to one
    /// that is not here.
    pub fn apply(&mut self, plan: &Plan, k: usize) -> Result<usize, Refusal> {
        slots::apply(&mut self.addresses, &mut self.tags, plan.cells(), k)
    }

    /// Sets a prefix's next hop: the number of writes made. Refused as of [`Table::plan_set`].
    pub fn set(&mut self, prefix: Prefix, hop: NextHop) -> Result<usize, Refusal> {
        let plan = self.plan_set(prefix, hop)?;
        self.apply(&plan, plan.len())
    }

    /// Removes a prefix: the number of writes made. Refused as of [`Table::plan_remove`].
    pub fn remove(&mut self, prefix: Prefix) -> Result<usize, Refusal> {
        let plan = self.plan_remove(prefix)?;
        self.apply(&plan, plan.len())
    }

    /// Mends the table: the number of writes made. Refused as of [`Table::plan_mend`].
    pub fn mend(&mut self) -> Result<usize, Refusal> {
        let plan = self.plan_mend()?;
        self.apply(&plan, plan.len())
    }

    /// The used slots, from slot 0 upward.
    pub fn iter(&self) -> impl DoubleEndedIterator<Item = Entry> + '_ {
        let cells = self.addresses.iter().zip(&self.tags).enumerate();
        cells.filter_map(|(slot, (&address, &tag))| Entry::of(slot, address, tag))
    }

    /// The number of used slots.
    pub fn len(&self) -> usize {
        self.tags.iter().filter(|&&tag| tag != 0).count()
    }

    /// Whether no slot is used.
    pub fn is_empty(&self) -> bool {
        self.len() == 0
    }

    /// The number of slots, used or free.
    pub fn slots(&self) -> usize {
        self.tags.len()
    }

    /// The row of addresses.
    pub fn addresses(&self) -> &[u32] {
        &self.addresses
    }

    /// The row of tags.
    pub fn tags(&self) -> &[u32] {
        &self.tags
    }
}

/// A used slot. Shown as the slot, the prefix and the hop.
#[derive(Clone, Copy, PartialEq, Eq, Hash, Debug)]
pub struct Entry {
    /// The slot's number, from 0.
    pub slot: usize,
    /// The prefix in it.
    pub prefix: Prefix,
    /// The prefix's next hop.
    pub hop: NextHop,
}

impl Entry {
    /// What a slot that keeps S1 holds, if it is used: a free slot has hop 0.
    fn of(slot: usize, address: u32, tag: u32) -> Option<Self> {
        let hop = NextHop::new(tag as u16)?;
        let prefix = Prefix::accepted(address, tag >> 16);
        Some(Entry { slot, prefix, hop })
    }
}

impl fmt::Display for Entry {
    fn fmt(&self, f: &mut fmt::Formatter<'_>) -> fmt::Result {
        write!(f, "{} {} {}", self.slot, self.prefix, self.hop)
    }
}

/// The writes of one update, in order.
#[derive(Clone, PartialEq, Eq, Hash, Debug)]
pub struct Plan {
    // whole writes, each of them valid
    cells: Vec<u32>,
}

impl Plan {
    fn of(cells: &[u32]) -> Self {
        Plan { cells: cells.to_vec() }
    }

    /// The writes.
    pub fn writes(&self) -> impl DoubleEndedIterator<Item = Write> + ExactSizeIterator + '_ {
        self.cells.chunks_exact(CELLS).map(|cells| Write {
            slot: cells[0],
            address: cells[1],
            tag: cells[2],
        })
    }

    /// The number of writes.
    pub fn len(&self) -> usize {
        self.cells.len() / CELLS
    }

    /// Whether there is nothing to write: the prefix has the hop already, or the table to be mended is well-formed.
    pub fn is_empty(&self) -> bool {
        self.cells.is_empty()
    }

    /// The writes as a row, three numbers each: slot, address, tag.
    pub fn cells(&self) -> &[u32] {
        &self.cells
    }
}

/// One write: the slot, and what it holds from then on.
#[derive(Clone, Copy, PartialEq, Eq, Hash, Debug)]
pub struct Write {
    slot: u32,
    address: u32,
    tag: u32,
}

impl Write {
    /// The slot's number, from 0.
    pub const fn slot(self) -> usize {
        self.slot as usize
    }

    /// The number for the row of addresses.
    pub const fn address(self) -> u32 {
        self.address
    }

    /// The number for the row of tags: length x 65,536 + hop.
    pub const fn tag(self) -> u32 {
        self.tag
    }

    /// The entry that the slot then holds; `None` where it is cleared.
    pub fn entry(self) -> Option<Entry> {
        Entry::of(self.slot(), self.address, self.tag)
    }
}
