//! The report: the records of an input, told line by line as the book follows them, then the slots of its image.
//!
//! Two kinds of refusal have the same line. A refused update changes nothing and the next record follows; behind a record that
//! cannot be read there is no next one.

use crate::book::Book;
use crate::records::{record_at, Record};
use std::net::Ipv4Addr;

/// The slots of the table.
pub const SLOTS: usize = 1024;

/// The most bytes of an input.
pub const MOST: usize = 65_536;

/// The cells of a plan, enough for any.
const ROOM: usize = 54;

/// All that is printed for an input.
pub fn report(input: &[u8]) -> String {
    if input.len() > MOST {
        return "too long\n".to_string();
    }
    let mut book = Book::new(SLOTS);
    let mut lines = vec![format!("routes {SLOTS}")];
    let mut place = 0;
    for number in 1.. {
        match record_at(input, place) {
            Ok(Some((record, next))) => {
                lines.push(format!("{number} {}", update(&mut book, record)));
                place = next;
            }
            Ok(None) => break,
            Err((refusal, _)) => {
                lines.push(format!("{number} refused {refusal}"));
                break;
            }
        }
    }
    lines.extend(slots(&book));
    lines.push("end".to_string());
    lines.iter().map(|line| format!("{line}\n")).collect()
}

/// What an update does: its line without the number.
fn update(book: &mut Book, [kind, length, address, hop]: Record) -> String {
    let (word, writes) = if kind == 1 {
        ("set", book.set(address, length, hop, ROOM))
    } else {
        ("remove", book.remove(address, length, ROOM))
    };
    match writes {
        Ok(writes) => format!("{word} {} {hop} {writes} {}", prefix(address, length), book.entries()),
        Err((refusal, _)) => format!("refused {refusal}"),
    }
}

/// A line for each used slot.
fn slots(book: &Book) -> Vec<String> {
    let image = book.image();
    let cells = image.addresses.iter().zip(&image.tags).enumerate();
    let used = cells.filter(|&(_, (_, &tag))| tag != 0);
    used.map(|(slot, (&address, &tag))| format!("slot {slot} {} {}", prefix(address, tag / 65_536), tag % 65_536))
        .collect()
}

fn prefix(address: u32, length: u32) -> String {
    format!("{}/{length}", Ipv4Addr::from(address))
}
