//! The proved code beside plain Rust that does the same checked work in the same shape, in one run. A second table has the proved
//! code beside other proved code, as the calls over a list of structs beside those over rows; a third has the times of the proofs
//! and tests. All of it is printed and put into docs/BENCHMARKS.md.
//!
//! Rounds of both sides are taken in turn, and the least time of each counts: what is above it is the machine's doing. The rows are
//! in the cache, and nothing is cleared between rounds. The report programs are run as processes.

mod counting;
mod document;
mod gate;
mod measure;
mod operations;
mod table;
mod timing;

use counting::{Counter, Counts, COUNTING};
use document::Document;
use std::env;
use std::process::ExitCode;
use table::Table;
use timing::Timer;

fn main() -> ExitCode {
    let arguments: Vec<String> = env::args().skip(1).collect();
    let ended = match &arguments[..] {
        [] => bench(),
        [only] if only == COUNTING => {
            operations::all(&mut Counter);
            Ok(())
        }
        _ => Err("it takes no arguments".into()),
    };
    match ended {
        Ok(()) => ExitCode::SUCCESS,
        Err(why) => {
            eprintln!("bench: {why}");
            ExitCode::FAILURE
        }
    }
}

fn bench() -> Result<(), String> {
    let document = Document::open()?;
    let machine = document::machine();
    print!("{machine}");
    let mut timer = Timer::new(Counts::of_operations());
    operations::all(&mut timer);
    let tables = timer.tables()?;
    let (summary, [text, times]) = (table::summary(&tables), gate::times()?);
    print!("\n{summary}{text}");
    let tables: Vec<String> = tables.iter().map(Table::markdown).collect();
    document.write(&format!("{machine}\n{}\n{summary}\n{times}", tables.join("\n")))
}
