//! A plain model of the scope, the paper that says what is built, to compare with. It is written from the words of the scope, apart
//! from the proved code and as simply as it can be said. For the points that the scope leaves open it goes by docs/DECISIONS.md.
//!
//! It answers numbers: a value, or the refusal's number and place. `both` asks the library and this model together; no other module
//! knows the library.

pub mod book;
pub mod both;
pub mod download;
pub mod dxr;
pub mod list;
pub mod mend;
pub mod program;
pub mod random;
pub mod ranges;
pub mod records;
pub mod report;
pub mod slots;
pub mod streams;

/// A refusal's number and place.
pub type Fault = (u8, usize);

/// An address by its four octets.
pub fn ip(octets: [u8; 4]) -> u32 {
    u32::from_be_bytes(octets)
}
