//! Prefixes: an address with a length.

use crate::{list, Refusal};
use std::fmt;
use std::net::Ipv4Addr;

/// A prefix: an address and a length n, 0 to 32, where the address is a multiple of 2^(32-n). Ordered by address, then length.
#[derive(Clone, Copy, PartialEq, Eq, PartialOrd, Ord, Hash, Debug)]
pub struct Prefix {
    address: u32,
    length: u32,
}

impl Prefix {
    /// The prefix of an address and a length. Refused with [`Refusal::Length`] or [`Refusal::Address`], place 0.
    pub fn new(address: impl Into<u32>, length: u32) -> Result<Self, Refusal> {
        let address = address.into();
        // a list of this prefix alone, with a valid hop
        list::check(&[address], &[length], &[1])?;
        Ok(Prefix { address, length })
    }

    /// The prefix of an address and a length that the library accepted.
    pub(crate) const fn accepted(address: u32, length: u32) -> Self {
        Prefix { address, length }
    }

    /// Its first address.
    pub const fn address(self) -> Ipv4Addr {
        Ipv4Addr::from_bits(self.address)
    }

    /// Its length, 0 to 32.
    pub const fn length(self) -> u32 {
        self.length
    }
}

impl fmt::Display for Prefix {
    fn fmt(&self, f: &mut fmt::Formatter<'_>) -> fmt::Result {
        write!(f, "{}/{}", self.address(), self.length)
    }
}

#[cfg(test)]
mod tests {
    use super::Prefix;
    use crate::Refusal;
    use std::net::Ipv4Addr;

    #[test]
    fn a_prefix_is_valid_and_says_its_address_and_length() {
        let prefix = Prefix::new(Ipv4Addr::new(10, 20, 4, 0), 24).unwrap();
        assert_eq!(prefix.address(), Ipv4Addr::new(10, 20, 4, 0));
        assert_eq!(prefix.length(), 24);
        assert_eq!(prefix.to_string(), "10.20.4.0/24");
        assert_eq!(Prefix::new(0u32, 0).unwrap().to_string(), "0.0.0.0/0");
        assert_eq!(Prefix::new(u32::MAX, 32).unwrap().to_string(), "255.255.255.255/32");
        assert_eq!(Prefix::new(0u32, 33), Err(Refusal::Length(0)));
        assert_eq!(Prefix::new(1u32, 31), Err(Refusal::Address(0)));
    }
}
