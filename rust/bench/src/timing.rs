//! Operations by their times.

use crate::counting::{self, Counts};
use crate::measure::{Counted, Measure, Operation};
use crate::table::{digits, time, Line, Table};
use std::fs::File;
use std::path::Path;
use std::process::{Command, Stdio};
use std::time::{Duration, Instant};

/// The nanoseconds of a call, by the least time that `calls` calls took in any round, of each of two.
fn least(rounds: usize, calls: u32, mut sides: [&mut dyn FnMut(); 2]) -> [f64; 2] {
    let mut least = [Duration::MAX; 2];
    for _ in 0..rounds {
        for (least, run) in least.iter_mut().zip(sides.each_mut()) {
            let start = Instant::now();
            for _ in 0..calls {
                run();
            }
            *least = start.elapsed().min(*least);
        }
    }
    least.map(|time| time.as_nanos() as f64 / f64::from(calls))
}

/// Times operations, and puts them into tables with the instructions that were counted before.
pub struct Timer {
    counts: Counts,
    tables: Vec<Table>,
}

impl Timer {
    pub fn new(counts: Counts) -> Self {
        Timer {
            counts,
            tables: Vec::new(),
        }
    }

    /// All tables, where every count has been used.
    pub fn tables(self) -> Result<Vec<Table>, String> {
        self.counts.ended()?;
        Ok(self.tables)
    }

    fn put(&mut self, operation: Operation, times: [f64; 2], instructions: [String; 2]) {
        let table = self.tables.last_mut().expect("operations stand in a table");
        let line = Line {
            operation: operation.name,
            size: operation.size,
            values: times.map(time),
            ratio: Some(times[0] / times[1]),
            asked: operation.asked,
            instructions,
        };
        table.put(line);
        if let Some(bytes) = operation.bytes {
            table.put(bytes_a_second(times.map(|time| bytes / time * 1000.0)));
        }
    }
}

/// The line below one of something that is read.
fn bytes_a_second(millions: [f64; 2]) -> Line {
    Line {
        operation: "  million bytes a second".into(),
        size: String::new(),
        values: millions.map(digits),
        ratio: None,
        asked: None,
        instructions: Default::default(),
    }
}

impl Measure for Timer {
    fn table(&mut self, title: &str, one: &str, other: &str) {
        self.tables.push(Table::start(title, one, other));
    }

    fn compare(&mut self, operation: Operation, sides: [&mut dyn FnMut(); 2]) {
        let in_call = operation.in_call as f64;
        let times = least(operation.rounds, operation.calls, sides);
        let instructions = self.counts.next_two(in_call);
        self.put(operation, times.map(|time| time / in_call), instructions);
    }

    fn programs(&mut self, operation: Operation, [one, other]: [&Path; 2], input: &Path, counted: Counted) {
        assert_same(one, other, input);
        let run = |program: &Path| {
            let ended = on_file(program, input).stdout(Stdio::null()).status();
            assert!(ended.expect("a program").success());
        };
        let times = least(operation.rounds, 1, [&mut || run(one), &mut || run(other)]);
        let instructions = match counted {
            Counted::Yes => [one, other].map(|program| counting::of_program(program, input)),
            Counted::TooMany => ["too many", "too many"].map(String::from),
        };
        self.put(operation, times, instructions);
    }
}

fn assert_same(one: &Path, other: &Path, input: &Path) {
    let [printed, expected] = [one, other].map(|program| on_file(program, input).output().expect("a program"));
    assert!(printed == expected && printed.status.success(), "the programs differ");
}

/// A run of a program with a file as its input.
fn on_file(program: &Path, input: &Path) -> Command {
    let mut command = Command::new(program);
    command.stdin(File::open(input).expect("the input is there"));
    command
}
