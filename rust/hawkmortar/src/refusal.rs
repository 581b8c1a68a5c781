//! Why a call is refused.

use std::error::Error;
use std::fmt;

/// Why a call is refused: a case for each number of the refusal table, with its place where it has one.
#[derive(Clone, Copy, PartialEq, Eq, Hash, Debug)]
pub enum Refusal {
    /// 1: a length over 32.
    Length(usize),
    /// 2: an address that is not a multiple of 2^(32-n); in a record, 2^n or more.
    Address(usize),
    /// 3: a hop of 0 or over 65,535.
    Hop(usize),
    /// 4: an earlier entry of the list has this prefix.
    Twice(usize),
    /// 5: an absent prefix is to be set and no slot is free.
    Full,
    /// 6: the prefix to be removed is not there.
    Absent,
    /// 7: a rule of the slots, the ranges or the chunk is broken.
    Image(usize),
    /// 8: rows of unequal length, a size outside its limits, or a place past the input.
    Size,
    /// 9: an output is shorter than the answer needs.
    Room,
    /// 10: a plan has fewer writes than asked for, or a write that cannot be made.
    Plan(usize),
    /// 11: a number longer than needed, or over 2^32 - 1.
    Number(usize),
    /// 12: the bytes end inside a record.
    Cut(usize),
    /// 13: a record's kind over 1.
    Kind(usize),
}

impl Refusal {
    /// The refusal's number in the table.
    pub const fn number(self) -> u8 {
        match self {
            Refusal::Length(_) => 1,
            Refusal::Address(_) => 2,
            Refusal::Hop(_) => 3,
            Refusal::Twice(_) => 4,
            Refusal::Full => 5,
            Refusal::Absent => 6,
            Refusal::Image(_) => 7,
            Refusal::Size => 8,
            Refusal::Room => 9,
            Refusal::Plan(_) => 10,
            Refusal::Number(_) => 11,
            Refusal::Cut(_) => 12,
            Refusal::Kind(_) => 13,
        }
    }

    /// The refusal's place: an entry, a slot, a range, a chunk, a write or a byte, counted from 0; 0 where it has none.
    pub const fn place(self) -> usize {
        match self {
            Refusal::Length(p)
            | Refusal::Address(p)
            | Refusal::Hop(p)
            | Refusal::Twice(p)
            | Refusal::Image(p)
            | Refusal::Plan(p)
            | Refusal::Number(p)
            | Refusal::Cut(p)
            | Refusal::Kind(p) => p,
            Refusal::Full | Refusal::Absent | Refusal::Size | Refusal::Room => 0,
        }
    }

    /// The refusal of a number and a place, if the table has the number and, where it gives no place, the place is 0.
    pub(crate) const fn from_parts(number: u64, place: usize) -> Option<Self> {
        Some(match (number, place) {
            (1, _) => Refusal::Length(place),
            (2, _) => Refusal::Address(place),
            (3, _) => Refusal::Hop(place),
            (4, _) => Refusal::Twice(place),
            (5, 0) => Refusal::Full,
            (6, 0) => Refusal::Absent,
            (7, _) => Refusal::Image(place),
            (8, 0) => Refusal::Size,
            (9, 0) => Refusal::Room,
            (10, _) => Refusal::Plan(place),
            (11, _) => Refusal::Number(place),
            (12, _) => Refusal::Cut(place),
            (13, _) => Refusal::Kind(place),
            _ => return None,
        })
    }
}

impl fmt::Display for Refusal {
    fn fmt(&self, f: &mut fmt::Formatter<'_>) -> fmt::Result {
        let what = match self {
            Refusal::Length(_) => "length over 32",
            Refusal::Address(_) => "address not a multiple of the prefix's span, or too large",
            Refusal::Hop(_) => "hop 0 or over 65,535",
            Refusal::Twice(_) => "prefix stands earlier in the list",
            Refusal::Full => "no slot is free",
            Refusal::Absent => "prefix is not there",
            Refusal::Image(_) => "a rule of the table is broken",
            Refusal::Size => "rows of unequal length, a size outside its limits, or a place past the input",
            Refusal::Room => "output too short",
            Refusal::Plan(_) => "plan too short, or a write that cannot be made",
            Refusal::Number(_) => "number longer than needed, or too large",
            Refusal::Cut(_) => "bytes end inside a record",
            Refusal::Kind(_) => "kind over 1",
        };
        write!(f, "refusal {} at {}: {what}", self.number(), self.place())
    }
}

impl Error for Refusal {}

#[cfg(test)]
mod tests {
    use super::Refusal;

    #[test]
    fn a_refusal_is_that_of_its_number_and_place() {
        for number in 1..=13 {
            let without_place = [5, 6, 8, 9].contains(&number);
            for place in [0, 9] {
                let parts =
                    Refusal::from_parts(number, place).map(|refusal| (refusal.number().into(), refusal.place()));
                let expected = (place == 0 || !without_place).then_some((number, place));
                assert_eq!(parts, expected, "refusal {number}");
            }
        }
        assert_eq!(Refusal::from_parts(0, 0), None);
        assert_eq!(Refusal::from_parts(14, 0), None);
    }

    #[test]
    fn a_refusal_says_its_number_and_place() {
        let said = Refusal::Twice(3).to_string();
        assert_eq!(said, "refusal 4 at 3: prefix stands earlier in the list");
    }
}
