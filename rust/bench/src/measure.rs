//! What is measured, whether by time or by instructions.

use std::path::Path;

/// The rounds in which an operation is timed.
const ROUNDS: usize = 61;

/// An operation of the proved code that is measured beside another.
pub struct Operation {
    pub name: String,
    pub size: String,
    /// The highest ratio that is asked for.
    pub asked: Option<f64>,
    /// The bytes that one operation reads; the table has them by the second too.
    pub bytes: Option<f64>,
    /// The calls that are timed together in a round.
    pub calls: u32,
    /// The operations in a call.
    pub in_call: usize,
    pub rounds: usize,
}

impl Operation {
    pub fn new(name: impl Into<String>, size: impl Into<String>, calls: u32) -> Self {
        Operation {
            name: name.into(),
            size: size.into(),
            asked: None,
            bytes: None,
            calls,
            in_call: 1,
            rounds: ROUNDS,
        }
    }

    pub fn asked(self, ratio: f64) -> Self {
        Operation {
            asked: Some(ratio),
            ..self
        }
    }

    pub fn bytes(self, bytes: f64) -> Self {
        Operation {
            bytes: Some(bytes),
            ..self
        }
    }

    pub fn in_call(self, in_call: usize) -> Self {
        Operation { in_call, ..self }
    }

    pub fn rounds(self, rounds: usize) -> Self {
        Operation { rounds, ..self }
    }
}

/// One who measures operations, in the order in which they come.
pub trait Measure {
    /// The operations that follow stand in a table of their own, with names for the column of the proved code and of what is
    /// beside it.
    fn table(&mut self, title: &str, one: &str, other: &str);

    fn compare(&mut self, operation: Operation, sides: [&mut dyn FnMut(); 2]);

    /// Two programs that print the same, each from its start to its end, with a file as their input.
    fn programs(&mut self, operation: Operation, programs: [&Path; 2], input: &Path, counted: Counted);
}

/// Whether the instructions of a program are counted.
#[derive(Clone, Copy, PartialEq, Eq)]
pub enum Counted {
    Yes,
    /// They are too many for a run of `make bench`.
    TooMany,
}
