//! The report in plain Rust, to run beside the proved program: the same checked work in the same shape.
//!
//! Each record's update is planned, which tests the image, and its plan applied whole. Lines are gathered in a buffer.

use bench::plain::records::numbers_at;
use bench::plain::{slots, Fault};
use std::fs::File;
use std::io::{self, Read, Write};
use std::net::Ipv4Addr;
use std::os::fd::AsFd;

const SLOTS: usize = 1024;

/// The most bytes of an input.
const MOST: usize = 65_536;

/// More bytes than any line has.
const MAX_LINE: usize = 64;

fn main() -> io::Result<()> {
    let mut input = [0; MOST + 1];
    let read = fill(&mut input)?;
    let mut lines = Lines::to_standard_output()?;
    if read > MOST {
        lines.put(b"too long\n");
    } else {
        report(&input[..read], &mut lines)?;
    }
    lines.flush()
}

/// Reads standard input to its end, or until the row is full: the number of bytes.
fn fill(input: &mut [u8]) -> io::Result<usize> {
    let mut stdin = io::stdin().lock();
    let mut read = 0;
    while read < input.len() {
        match stdin.read(&mut input[read..])? {
            0 => break,
            more => read += more,
        }
    }
    Ok(read)
}

fn report(input: &[u8], lines: &mut Lines) -> io::Result<()> {
    let mut table = Table {
        addresses: [0; SLOTS],
        tags: [0; SLOTS],
    };
    lines.put(b"routes ").decimal(SLOTS as u32).put(b"\n");
    let (mut at, mut record) = (0, [0; 4]);
    for number in 1.. {
        lines.make_room()?;
        let next = match numbers_at(input, at, &mut record) {
            Ok(next) if next == at => break,
            Ok(next) => next,
            Err(fault) => {
                lines.refused(number, fault);
                break;
            }
        };
        match table.update(record) {
            Ok(writes) => lines.updated(number, record, writes, table.used()),
            Err(fault) => lines.refused(number, fault),
        }
        at = next;
    }
    table.show(lines)?;
    lines.put(b"end\n");
    Ok(())
}

/// The two rows of slots.
struct Table {
    addresses: [u32; SLOTS],
    tags: [u32; SLOTS],
}

impl Table {
    /// Plans the update of a record and applies the whole plan: the number of writes.
    fn update(&mut self, [kind, length, address, hop]: [u32; 4]) -> Result<usize, Fault> {
        let mut plan = [0; 54];
        let writes = if kind == 1 {
            slots::plan_set(&self.addresses, &self.tags, address, length, hop, &mut plan)?
        } else {
            slots::plan_remove(&self.addresses, &self.tags, address, length, &mut plan)?
        };
        slots::apply(&mut self.addresses, &mut self.tags, &plan, writes)
    }

    fn used(&self) -> usize {
        self.tags.iter().filter(|&&tag| tag != 0).count()
    }

    /// A line for each used slot.
    fn show(&self, lines: &mut Lines) -> io::Result<()> {
        for (slot, (&address, &tag)) in self.addresses.iter().zip(&self.tags).enumerate() {
            lines.make_room()?;
            if tag != 0 {
                let lines = lines.put(b"slot ").decimal(slot as u32);
                lines.put(b" ").prefix(address, tag >> 16);
                lines.put(b" ").decimal(tag & 0xffff).put(b"\n");
            }
        }
        Ok(())
    }
}

/// Lines that are written when the buffer has no room for another.
struct Lines {
    buffer: [u8; MOST],
    used: usize,
    output: File,
}

impl Lines {
    fn to_standard_output() -> io::Result<Self> {
        Ok(Lines {
            buffer: [0; MOST],
            used: 0,
            // not `Stdout`, which looks for the ends of lines
            output: File::from(io::stdout().as_fd().try_clone_to_owned()?),
        })
    }

    /// Makes room for a line.
    fn make_room(&mut self) -> io::Result<()> {
        if self.buffer.len() - self.used < MAX_LINE {
            self.flush()?;
        }
        Ok(())
    }

    fn flush(&mut self) -> io::Result<()> {
        self.output.write_all(&self.buffer[..self.used])?;
        self.used = 0;
        Ok(())
    }

    fn updated(&mut self, number: u32, [kind, length, address, hop]: [u32; 4], writes: usize, used: usize) {
        let word: &[u8] = if kind == 1 { b" set " } else { b" remove " };
        self.decimal(number).put(word).prefix(address, length);
        for number in [hop, writes as u32, used as u32] {
            self.put(b" ").decimal(number);
        }
        self.put(b"\n");
    }

    fn refused(&mut self, number: u32, (refusal, _): Fault) {
        self.decimal(number)
            .put(b" refused ")
            .decimal(refusal.into())
            .put(b"\n");
    }

    fn prefix(&mut self, address: u32, length: u32) -> &mut Self {
        let [first, rest @ ..] = Ipv4Addr::from(address).octets();
        self.decimal(first.into());
        for octet in rest {
            self.put(b".").decimal(octet.into());
        }
        self.put(b"/").decimal(length)
    }

    fn decimal(&mut self, number: u32) -> &mut Self {
        let (mut digits, mut first, mut rest) = ([0; 10], 9, number);
        while rest >= 10 {
            digits[first] = b'0' + (rest % 10) as u8;
            rest /= 10;
            first -= 1;
        }
        digits[first] = b'0' + rest as u8;
        self.put(&digits[first..])
    }

    fn put(&mut self, text: &[u8]) -> &mut Self {
        self.buffer[self.used..self.used + text.len()].copy_from_slice(text);
        self.used += text.len();
        self
    }
}
