//! The report program beside the one in plain Rust.

use super::{records, routes};
use crate::measure::{Counted, Measure, Operation};
use second::program;
use second::random::{Random, Rows};
use second::report::{MOST, SLOTS};
use std::path::PathBuf;
use std::{env, fs};

/// With a table that is full most of the time, so that the image test takes nearly all of it, and with one of few routes, where that
/// test is little more than one pass over the slots.
pub fn all(measure: &mut dyn Measure) {
    let full = operation(format!("{SLOTS} routes")).rounds(5);
    report(measure, full, &routes(SLOTS + SLOTS / 2), Counted::TooMany);
    let of_length_24 = |random: &mut Random| (24, random.number() as u32);
    let few = Rows::distinct(&mut Random::new(5), 32, of_length_24, |_| 1);
    report(measure, operation("32 routes".into()), &few, Counted::Yes);
}

fn operation(size: String) -> Operation {
    Operation::new(format!("report of {MOST} bytes"), size, 1).asked(1.25)
}

/// Both programs on a file of updates of a list, as long as a report reads.
fn report(measure: &mut dyn Measure, operation: Operation, list: &Rows, counted: Counted) {
    let (proved, plain) = (program::report(), beside("plain_report"));
    assert!(plain.is_file(), "{} is missing: run `make bench`", plain.display());
    let input = beside("report_input");
    fs::write(&input, input_of(list)).expect("a file beside this program");
    measure.programs(operation, [&proved, &plain], &input, counted);
}

/// A file in the folder of this program.
fn beside(name: &str) -> PathBuf {
    env::current_exe().expect("this program is a file").with_file_name(name)
}

/// Updates of the routes of a list, as many bytes as a report reads; the last record may be cut.
fn input_of(list: &Rows) -> Vec<u8> {
    let (mut random, mut bytes) = (Random::new(4), Vec::new());
    while bytes.len() < MOST {
        let i = random.below(list.addresses.len() as u64) as usize;
        records::update_of(list.addresses[i], list.lengths[i], &mut random).append_to(&mut bytes);
    }
    bytes.truncate(MOST);
    bytes
}
