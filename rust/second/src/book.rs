//! The book: a second account of a table, kept without slots or plans.
//!
//! It has a row of entries for each length and is fed the number of slots, then each set or removal. From the rows alone it
//! knows the answer of each update, the image and the set. A row turns by one where the table moves an entry of its length.

use crate::list::entry_fault;
use crate::random::Rows;
use crate::slots::Image;
use crate::Fault;
use std::collections::VecDeque;

/// A row of entries for each length; an entry is an address and a hop.
#[derive(Clone, PartialEq, Eq, Debug)]
pub struct Book {
    slots: usize,
    rows: Vec<VecDeque<(u32, u32)>>,
}

impl Book {
    /// The book of an empty table of so many slots.
    pub fn new(slots: usize) -> Self {
        Book {
            slots,
            rows: vec![VecDeque::new(); 33],
        }
    }

    /// The number of entries.
    pub fn entries(&self) -> usize {
        self.rows.iter().map(VecDeque::len).sum()
    }

    /// Whether it has a prefix of a length up to 32.
    pub fn has(&self, address: u32, length: u32) -> bool {
        self.place(address, length as usize).is_some()
    }

    /// A set, with a plan of `room` cells: the number of writes, or the refusal.
    pub fn set(&mut self, address: u32, length: u32, hop: u32, room: usize) -> Result<usize, Fault> {
        if let Some(fault) = entry_fault(0, address, length, hop) {
            return Err(fault);
        }
        let n = length as usize;
        if let Some(i) = self.place(address, n) {
            let writes = usize::from(self.rows[n][i].1 != hop);
            enough(room, writes)?;
            self.rows[n][i].1 = hop;
            return Ok(writes);
        }
        if self.entries() == self.slots {
            return Err((5, 0));
        }
        let turned = self.turned(n);
        let writes = 1 + turned.len();
        enough(room, writes)?;
        if n >= 16 {
            self.rows[n].push_back((address, hop));
            turned.iter().for_each(|&m| self.rows[m].rotate_left(1));
        } else {
            self.rows[n].push_front((address, hop));
            turned.iter().for_each(|&m| self.rows[m].rotate_right(1));
        }
        Ok(writes)
    }

    /// A removal, with a plan of `room` cells: the number of writes, or the refusal.
    pub fn remove(&mut self, address: u32, length: u32, room: usize) -> Result<usize, Fault> {
        if let Some(fault) = entry_fault(0, address, length, 1) {
            return Err(fault);
        }
        let n = length as usize;
        let Some(i) = self.place(address, n) else {
            return Err((6, 0));
        };
        let turned = self.turned(n);
        let edge = if n >= 16 { self.rows[n].len() - 1 } else { 0 };
        let writes = 1 + turned.len() + usize::from(i != edge);
        enough(room, writes)?;
        if n >= 16 {
            self.rows[n].swap_remove_back(i);
            turned.iter().for_each(|&m| self.rows[m].rotate_right(1));
        } else {
            self.rows[n].swap_remove_front(i);
            turned.iter().for_each(|&m| self.rows[m].rotate_left(1));
        }
        Ok(writes)
    }

    /// The image: rows 32 to 16 from slot 0, rows 15 to 0 up to the last slot, the rest free.
    pub fn image(&self) -> Image {
        let cells = |lengths: std::ops::Range<usize>| -> Vec<(u32, u32)> {
            lengths
                .rev()
                .flat_map(|n| self.rows[n].iter().map(move |&(a, hop)| (a, n as u32 * 65_536 + hop)))
                .collect()
        };
        let (above, below) = (cells(16..33), cells(0..16));
        let free = vec![(0, 0); self.slots - above.len() - below.len()];
        let (addresses, tags) = [above, free, below].concat().into_iter().unzip();
        Image { addresses, tags }
    }

    /// The set: all entries, as a list.
    pub fn set_of_entries(&self) -> Rows {
        let mut list = Rows::default();
        for (length, row) in self.rows.iter().enumerate() {
            row.iter()
                .for_each(|&(address, hop)| list.push(address, length as u32, hop));
        }
        list
    }

    /// Where a prefix stands in its row.
    fn place(&self, address: u32, n: usize) -> Option<usize> {
        self.rows[n].iter().position(|&(a, _)| a == address)
    }

    /// The lengths whose rows turn at an update of length n: those between it and the pool that have entries.
    fn turned(&self, n: usize) -> Vec<usize> {
        let between = if n >= 16 { 16..n } else { n + 1..16 };
        between.filter(|&m| !self.rows[m].is_empty()).collect()
    }
}

/// Refusal 9 where so many cells are too few for the writes.
fn enough(room: usize, writes: usize) -> Result<(), Fault> {
    if room < 3 * writes {
        return Err((9, 0));
    }
    Ok(())
}
