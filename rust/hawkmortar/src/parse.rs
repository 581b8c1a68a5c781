//! Prefixes, next hops and records from text, in the form that they are shown in.
//!
//! A number stands in decimal digits, without a sign or leading zeros. The words of a record have any white space between them.

use crate::{NextHop, Prefix, Record, Refusal};
use std::error::Error;
use std::fmt;
use std::net::Ipv4Addr;
use std::str::FromStr;

/// Why a text is no prefix, next hop or record: a case for each fault, with the part of the text that has it.
#[derive(Clone, PartialEq, Eq, Debug)]
pub enum ParseError {
    /// Neither `set` with a prefix and a next hop, nor `remove` with a prefix.
    Record(String),
    /// Not an address, a slash and a number.
    Prefix(String),
    /// A prefix's length over 32.
    Length(String),
    /// A prefix's address with bits set behind its length, and the prefix without them.
    Address(String, Prefix),
    /// Not a number from 1 to 65,535.
    Hop(String),
}

impl fmt::Display for ParseError {
    fn fmt(&self, f: &mut fmt::Formatter<'_>) -> fmt::Result {
        let (what, text) = match self {
            ParseError::Record(text) => ("neither 'set PREFIX HOP' nor 'remove PREFIX'", text),
            ParseError::Prefix(text) => ("not a prefix in the form 10.0.0.0/8", text),
            ParseError::Length(text) => ("length over 32", text),
            ParseError::Address(text, _) => ("address has bits set behind the length", text),
            ParseError::Hop(text) => ("next hop not from 1 to 65,535", text),
        };
        write!(f, "{what}: {}", text.escape_debug())?;
        match self {
            ParseError::Address(_, meant) => write!(f, " (the prefix is {meant})"),
            _ => Ok(()),
        }
    }
}

impl Error for ParseError {}

impl FromStr for Record {
    type Err = ParseError;

    fn from_str(text: &str) -> Result<Self, ParseError> {
        let words: Vec<&str> = text.split_whitespace().collect();
        match words[..] {
            ["set", prefix, hop] => Ok(Record::Set(prefix.parse()?, hop.parse()?)),
            ["remove", prefix] => Ok(Record::Remove(prefix.parse()?)),
            _ => Err(ParseError::Record(text.to_string())),
        }
    }
}

impl FromStr for Prefix {
    type Err = ParseError;

    fn from_str(text: &str) -> Result<Self, ParseError> {
        let (address, length) = parts(text).ok_or_else(|| ParseError::Prefix(text.to_string()))?;
        Prefix::new(address, length).map_err(|refusal| match refusal {
            Refusal::Length(_) => ParseError::Length(text.to_string()),
            _ => ParseError::Address(text.to_string(), meant(address, length)),
        })
    }
}

impl FromStr for NextHop {
    type Err = ParseError;

    fn from_str(text: &str) -> Result<Self, ParseError> {
        let hop = number(text).and_then(|hop| NextHop::new(u16::try_from(hop).ok()?));
        hop.ok_or_else(|| ParseError::Hop(text.to_string()))
    }
}

/// The address and the number on the sides of a slash.
fn parts(text: &str) -> Option<(Ipv4Addr, u32)> {
    let (address, length) = text.split_once('/')?;
    Some((address.parse().ok()?, number(length)?))
}

/// The prefix of a length up to 32 that an address lies in.
fn meant(address: Ipv4Addr, length: u32) -> Prefix {
    // at length 0 the shift is by all 32 bits
    let bits = u32::MAX.checked_shl(32 - length).unwrap_or(0);
    Prefix::accepted(address.to_bits() & bits, length)
}

/// The number of some digits; the largest of its type where it is larger.
fn number(text: &str) -> Option<u32> {
    let digits = !text.is_empty() && text.bytes().all(|byte| byte.is_ascii_digit());
    let shortest = text == "0" || !text.starts_with('0');
    (digits && shortest).then(|| text.parse().unwrap_or(u32::MAX))
}

#[cfg(test)]
mod tests {
    use super::ParseError;
    use crate::{NextHop, Prefix, Record};

    fn fault<T: std::str::FromStr<Err = ParseError>>(text: &str) -> Option<String> {
        text.parse::<T>().err().map(|fault| fault.to_string())
    }

    #[test]
    fn a_prefix_is_an_address_and_a_length() {
        for (text, address, length) in [
            ("0.0.0.0/0", 0, 0),
            ("10.20.4.0/24", 0x0a14_0400, 24),
            ("255.255.255.254/31", u32::MAX - 1, 31),
            ("255.255.255.255/32", u32::MAX, 32),
        ] {
            assert_eq!(text.parse(), Ok(Prefix::new(address, length).unwrap()));
        }
        for text in [
            "",
            "/",
            "10",
            "10.0.0.0",
            "10.0.0.0/",
            "/8",
            "10.0.0/8",
            "10.0.0.0.0/8",
            "256.0.0.0/8",
            "010.0.0.0/8",
            "10.0.0.0/08",
            "10.0.0.0/+8",
            "10.0.0.0/-8",
            "10.0.0.0/x",
            "10.0.0.0/8/8",
            "10.0.0.0 /8",
            " 10.0.0.0/8",
            "::/8",
        ] {
            let said = format!("not a prefix in the form 10.0.0.0/8: {text}");
            assert_eq!(fault::<Prefix>(text), Some(said));
        }
        for text in [
            "10.0.0.0/33",
            "1.2.3.4/255",
            "0.0.0.0/4294967296",
            "0.0.0.0/99999999999999999999",
        ] {
            assert_eq!(fault::<Prefix>(text), Some(format!("length over 32: {text}")));
        }
    }

    #[test]
    fn a_prefix_has_no_bits_behind_its_length() {
        for (text, meant) in [
            ("10.0.0.1/0", "0.0.0.0/0"),
            ("192.0.0.0/1", "128.0.0.0/1"),
            ("10.20.0.0/8", "10.0.0.0/8"),
            ("10.20.4.9/24", "10.20.4.0/24"),
            ("255.255.255.255/31", "255.255.255.254/31"),
        ] {
            let fault = text.parse::<Prefix>();
            assert_eq!(
                fault,
                Err(ParseError::Address(text.to_string(), meant.parse().unwrap()))
            );
            let said = format!("address has bits set behind the length: {text} (the prefix is {meant})");
            assert_eq!(fault.unwrap_err().to_string(), said);
        }
    }

    #[test]
    fn a_next_hop_is_a_number_from_1_to_65535() {
        for hop in [1, 9, 10, 300, 65_535] {
            assert_eq!(hop.to_string().parse(), Ok(NextHop::new(hop).unwrap()));
        }
        for text in [
            "",
            "0",
            "65536",
            "65537",
            "4294967297",
            "99999999999999999999",
            "01",
            "+1",
            "-1",
            "1.0",
            "x",
            " 1",
        ] {
            assert_eq!(
                fault::<NextHop>(text),
                Some(format!("next hop not from 1 to 65,535: {text}"))
            );
        }
    }

    #[test]
    fn a_record_is_a_set_or_a_removal() {
        let prefix = Prefix::new(0x0a00_0000u32, 8).unwrap();
        let set = Record::Set(prefix, NextHop::new(1).unwrap());
        for (text, record) in [
            ("set 10.0.0.0/8 1", set),
            ("\tset  10.0.0.0/8\t1 \r", set),
            ("remove 10.0.0.0/8", Record::Remove(prefix)),
        ] {
            assert_eq!(text.parse(), Ok(record));
        }
        for text in [
            "",
            "set",
            "remove",
            "set 10.0.0.0/8",
            "set 10.0.0.0/8 1 1",
            "remove 10.0.0.0/8 0",
            "Set 10.0.0.0/8 1",
            "add 10.0.0.0/8 1",
            "10.0.0.0/8 1",
            "set10.0.0.0/8 1",
        ] {
            let said = format!("neither 'set PREFIX HOP' nor 'remove PREFIX': {text}");
            assert_eq!(fault::<Record>(text), Some(said));
        }
        // the first fault of a line, in the order of its words
        for (text, said) in [
            ("remove 10.0.0.0/33", "length over 32: 10.0.0.0/33"),
            ("set 10.0.0.0/33 0", "length over 32: 10.0.0.0/33"),
            ("set 10.0.0.0/8 0", "next hop not from 1 to 65,535: 0"),
            ("set 10.0.0.0/8 \u{1b}[1m", "next hop not from 1 to 65,535: \\u{1b}[1m"),
        ] {
            assert_eq!(fault::<Record>(text).as_deref(), Some(said));
        }
    }
}
