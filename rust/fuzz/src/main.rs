//! Random inputs to `fuzz::one` for a time, or inputs that are given.

use fuzz::{one, random_input};
use second::both::calls::Calls;
use second::random::Random;
use std::fmt::Write as _;
use std::panic::catch_unwind;
use std::path::Path;
use std::process::ExitCode;
use std::time::{Duration, Instant};
use std::{env, fs};

const USAGE: &str = "\
fuzz [--seconds N] [--seed S]   random inputs for so many seconds (60), from a seed (1)
fuzz --input PATH               the inputs of a file, or of each file of a folder
fuzz --hex DIGITS               the input of these bytes
fuzz --write FOLDER             writes 1000 random inputs to files, for another driver to start from";

/// The time between two lines of progress.
const PROGRESS: Duration = Duration::from_secs(10);

/// What is asked for.
enum Task {
    Random { seconds: u64, seed: u64 },
    Input(String),
    Hex(String),
    Write(String),
}

fn main() -> ExitCode {
    let words: Vec<String> = env::args().skip(1).collect();
    let done = match task(&words) {
        Some(Task::Random { seconds, seed }) => random(Duration::from_secs(seconds), seed),
        Some(Task::Input(path)) => read(Path::new(&path)).and_then(|inputs| repeat(&inputs)),
        Some(Task::Hex(digits)) => of_hex(&digits).and_then(|data| repeat(&[data])),
        Some(Task::Write(folder)) => write(Path::new(&folder)),
        None => Err(format!("usage:\n{USAGE}")),
    };
    match done {
        Ok(()) => ExitCode::SUCCESS,
        Err(why) => {
            eprintln!("fuzz: {why}");
            ExitCode::FAILURE
        }
    }
}

/// The task of the words, if they name one.
fn task(words: &[String]) -> Option<Task> {
    if let [option, word] = words {
        match option.as_str() {
            "--input" => return Some(Task::Input(word.clone())),
            "--hex" => return Some(Task::Hex(word.clone())),
            "--write" => return Some(Task::Write(word.clone())),
            _ => {}
        }
    }
    let (mut seconds, mut seed) = (60, 1);
    for pair in words.chunks(2) {
        let [option, number] = pair else { return None };
        let number = number.parse().ok()?;
        match option.as_str() {
            "--seconds" => seconds = number,
            "--seed" => seed = number,
            _ => return None,
        }
    }
    Some(Task::Random { seconds, seed })
}

/// Random inputs until the time is over.
fn random(time: Duration, seed: u64) -> Result<(), String> {
    let mut random = Random::new(seed);
    let (mut inputs, mut calls) = (0u64, Calls::default());
    let start = Instant::now();
    let mut next = PROGRESS;
    while start.elapsed() < time {
        let data = random_input(&mut random);
        calls += made(&data)?;
        inputs += 1;
        if start.elapsed() >= next {
            println!(
                "{} s: {inputs} inputs, {} calls",
                start.elapsed().as_secs(),
                calls.total()
            );
            next += PROGRESS;
        }
    }
    print!("{calls}");
    println!("{inputs} inputs of seed {seed}, {} calls, no difference", calls.total());
    Ok(())
}

/// The calls of some inputs.
fn repeat(inputs: &[Vec<u8>]) -> Result<(), String> {
    let mut calls = Calls::default();
    for data in inputs {
        calls += made(data)?;
    }
    print!("{calls}");
    println!("{} inputs, {} calls, no difference", inputs.len(), calls.total());
    Ok(())
}

/// Random inputs, each in a file of a folder.
fn write(folder: &Path) -> Result<(), String> {
    let mut random = Random::new(1);
    for number in 0..1000 {
        let file = folder.join(format!("random-{number}"));
        fs::write(&file, random_input(&mut random)).map_err(|error| format!("{}: {error}", file.display()))?;
    }
    Ok(())
}

/// The bytes of a file, or of each file of a folder.
fn read(path: &Path) -> Result<Vec<Vec<u8>>, String> {
    let said = |error| format!("{}: {error}", path.display());
    if !path.is_dir() {
        return Ok(vec![fs::read(path).map_err(said)?]);
    }
    let mut inputs = Vec::new();
    for entry in fs::read_dir(path).map_err(said)? {
        inputs.push(fs::read(entry.map_err(said)?.path()).map_err(said)?);
    }
    Ok(inputs)
}

/// The calls of an input; a panic, whose message is printed where it comes up, is told with the input.
fn made(data: &[u8]) -> Result<Calls, String> {
    catch_unwind(|| one(data)).map_err(|_| format!("a difference, or a panic, on the input --hex {}", hex(data)))
}

fn hex(data: &[u8]) -> String {
    data.iter().fold(String::new(), |mut text, byte| {
        write!(text, "{byte:02x}").expect("a string takes it");
        text
    })
}

/// The bytes of an even number of hexadecimal digits.
fn of_hex(digits: &str) -> Result<Vec<u8>, String> {
    let byte = |pair: &[u8]| {
        let pair = std::str::from_utf8(pair).ok()?;
        u8::from_str_radix(pair, 16).ok().filter(|_| pair.len() == 2)
    };
    let bytes: Option<Vec<u8>> = digits.as_bytes().chunks(2).map(byte).collect();
    bytes.ok_or_else(|| format!("{digits}: not two hexadecimal digits for each byte"))
}
