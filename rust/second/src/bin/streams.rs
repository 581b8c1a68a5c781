//! Writes 100 streams of update records to a folder, NUMBER.in, each with the report that it is to get, NUMBER.out: good ones,
//! cut and damaged ones, none, too long ones, and ones that fill the table. They are the same in every run.

use second::both::records::bytes_of;
use second::random::Random;
use second::records::Record;
use second::report::{report, MOST, SLOTS};
use second::streams::{damage, Updates};
use std::path::Path;
use std::process::ExitCode;
use std::{env, fs, io};

const STREAMS: u64 = 100;

fn main() -> ExitCode {
    let words: Vec<String> = env::args().skip(1).collect();
    let [folder] = &words[..] else {
        eprintln!("usage: streams FOLDER");
        return ExitCode::FAILURE;
    };
    match write(Path::new(folder)) {
        Ok(()) => ExitCode::SUCCESS,
        Err(error) => {
            eprintln!("streams: {folder}: {error}");
            ExitCode::FAILURE
        }
    }
}

fn write(folder: &Path) -> io::Result<()> {
    for number in 0..STREAMS {
        let bytes = stream(number);
        fs::write(folder.join(format!("{number}.in")), &bytes)?;
        fs::write(folder.join(format!("{number}.out")), report(&bytes))?;
    }
    Ok(())
}

/// The stream of a number.
fn stream(number: u64) -> Vec<u8> {
    let mut updates = Updates::new(number, 1 + number as usize / 2);
    match number {
        0 => Vec::new(),
        1 | 2 => filled(number),
        3 => updates.filling(MOST),
        4 => updates.filling(MOST + 1),
        5 => vec![0xff; MOST + 1],
        6..=49 => updates.stream(4 * number as usize),
        50..=69 => {
            let bytes = updates.stream(number as usize);
            bytes[..updates.random.below(bytes.len() as u64) as usize].to_vec()
        }
        70..=94 => {
            let mut bytes = updates.stream(number as usize);
            damage(&mut bytes, &mut updates.random);
            bytes
        }
        _ => {
            let mut random = Random::new(number);
            (0..200).map(|_| random.number() as u8).collect()
        }
    }
}

/// Sets of more prefixes than there are slots, then sets and removals of some of them.
fn filled(seed: u64) -> Vec<u8> {
    let mut updates = Updates::new(seed, SLOTS + 20);
    let prefixes = updates.list.addresses.iter().zip(&updates.list.lengths);
    let sets: Vec<Record> = prefixes.map(|(&address, &length)| [1, length, address, 1]).collect();
    [bytes_of(&sets), updates.stream(40)].concat()
}
