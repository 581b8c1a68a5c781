//! Turns readable lines of updates into record bytes, and back, from standard input to standard output.
//!
//! The library reads both forms: a line is parsed as a [`Record`], and [`Records`] reads bytes. Here stands what a person needs
//! beside that: which line or which record is at fault.

use hawkmortar::{ParseError, Record, Records};
use std::env;
use std::io::{self, ErrorKind, Read, Write};
use std::process::ExitCode;

const USAGE: &str = "\
usage: records encode < LINES > BYTES
       records decode < BYTES > LINES
       records --help
";

const HELP: &str = "
encode turns readable lines into the bytes of update records, decode turns such bytes into lines. A line is one of

    set 10.0.0.0/8 1
    remove 10.0.0.0/8

A prefix has an address and a length from 0 to 32, and the bits of the address behind the length are 0. A next hop is
a number from 1 to 65535. Blank lines and lines that begin with # are passed over.

Where a line is at fault, encode names each such line and writes nothing. Where a record cannot be read, decode writes
the lines of those before it, then names it with the refusal of the library. Lines and records count from 1, bytes
from 0.

It ends with 0 where all of the input was turned, with 1 where not, and with 2 where it was not told what to do.
";

/// What an input was turned into, and what of it was at fault.
struct Turned {
    output: Vec<u8>,
    faults: Vec<String>,
}

fn main() -> ExitCode {
    let arguments = env::args_os()
        .skip(1)
        .map(|argument| argument.to_string_lossy().into_owned());
    let arguments: Vec<String> = arguments.collect();
    let words: Vec<&str> = arguments.iter().map(String::as_str).collect();
    let turned = match words[..] {
        ["encode"] => turn(encode),
        ["decode"] => turn(decode),
        ["--help" | "-h"] => write(format!("{USAGE}{HELP}").as_bytes()).map(|()| vec![]),
        _ => {
            complain(USAGE);
            return ExitCode::from(2);
        }
    };
    let faults = turned.unwrap_or_else(|error| vec![error]);
    faults.iter().for_each(|fault| complain(&format!("records: {fault}\n")));
    ExitCode::from(u8::from(!faults.is_empty()))
}

/// Turns standard input into standard output; what of it is at fault, or why it cannot be read or written.
fn turn(by: fn(&[u8]) -> Turned) -> Result<Vec<String>, String> {
    let mut input = Vec::new();
    let read = io::stdin().lock().read_to_end(&mut input);
    read.map_err(|error| format!("cannot read standard input: {error}"))?;
    let turned = by(&input);
    write(&turned.output)?;
    Ok(turned.faults)
}

/// The bytes of the records that lines tell.
fn encode(lines: &[u8]) -> Turned {
    let (mut output, mut faults) = (Vec::new(), Vec::new());
    for (number, line) in (1usize..).zip(lines.split(|&byte| byte == b'\n')) {
        match told(line) {
            Ok(Some(record)) => record.append_to(&mut output),
            Ok(None) => {}
            Err(fault) => faults.push(format!("line {number}: {fault}")),
        }
    }
    if !faults.is_empty() {
        output.clear();
    }
    Turned { output, faults }
}

/// The record that a line tells, if it is not passed over.
fn told(line: &[u8]) -> Result<Option<Record>, String> {
    let line = str::from_utf8(line).map_err(|_| "not text in UTF-8")?.trim();
    if line.is_empty() || line.starts_with('#') {
        return Ok(None);
    }
    line.parse().map(Some).map_err(|fault: ParseError| fault.to_string())
}

/// The lines of the records that are read, up to one that cannot be.
fn decode(bytes: &[u8]) -> Turned {
    let (mut output, mut faults) = (Vec::new(), Vec::new());
    let mut records = Records::new(bytes);
    for number in 1usize.. {
        let start = records.place();
        match records.next() {
            Some(Ok(record)) => output.extend(format!("{record}\n").bytes()),
            Some(Err(refusal)) => faults.push(format!("record {number}, from byte {start}: {refusal}")),
            None => break,
        }
    }
    Turned { output, faults }
}

/// Writes to standard output. Nobody is told that there is no reader any more.
fn write(output: &[u8]) -> Result<(), String> {
    let mut pipe = io::stdout().lock();
    match pipe.write_all(output).and_then(|()| pipe.flush()) {
        Err(error) if error.kind() != ErrorKind::BrokenPipe => Err(format!("cannot write standard output: {error}")),
        _ => Ok(()),
    }
}

/// Writes to standard error, if that can be written to.
fn complain(text: &str) {
    let _ = io::stderr().write_all(text.as_bytes());
}
