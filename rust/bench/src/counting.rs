//! Operations by their instructions, which valgrind's callgrind counts.
//!
//! This program is run once under callgrind, where each side of each operation is called once inside `counted_operation`: callgrind
//! collects there alone, and writes a file at each end of it. So what is counted is one call with the passing of its arguments, and
//! the four instructions of `counted_operation` itself.

use crate::measure::{Counted, Measure, Operation};
use crate::table::count;
use std::collections::VecDeque;
use std::fs::{self, File};
use std::hint::black_box;
use std::path::{Path, PathBuf};
use std::process::{Command, Stdio};
use std::{env, io};

/// The argument with which this program does what is counted.
pub const COUNTING: &str = "--counting";

/// Its name is told to callgrind.
#[no_mangle]
#[inline(never)]
fn counted_operation(run: &mut dyn FnMut()) {
    run();
    // else the call would be a jump, and this function's end would not be seen
    black_box(());
}

/// Calls each side of an operation for callgrind.
pub struct Counter;

impl Measure for Counter {
    fn table(&mut self, _: &str, _: &str, _: &str) {}

    fn compare(&mut self, _: Operation, sides: [&mut dyn FnMut(); 2]) {
        for side in sides {
            // what is done only at first is not counted
            side();
            counted_operation(side);
        }
    }

    /// Programs are counted by runs of their own.
    fn programs(&mut self, _: Operation, _: [&Path; 2], _: &Path, _: Counted) {}
}

/// The counts of all operations in their order, or why there are none.
pub struct Counts(Result<VecDeque<f64>, &'static str>);

const MISSING: &str = "no valgrind";
const FAILED: &str = "not counted";

impl Counts {
    /// Counts all operations.
    pub fn of_operations() -> Self {
        Counts(of_operations())
    }

    /// What stands in the table for the two sides of the next operation.
    pub fn next_two(&mut self, in_call: f64) -> [String; 2] {
        [(), ()].map(|()| match &mut self.0 {
            Ok(counts) => counts.pop_front().map_or(FAILED.into(), |all| count(all / in_call)),
            Err(why) => why.to_string(),
        })
    }

    /// Whether every count was of an operation.
    pub fn ended(&self) -> Result<(), String> {
        match &self.0 {
            Ok(counts) if !counts.is_empty() => Err(format!("callgrind has {} counts too many", counts.len())),
            _ => Ok(()),
        }
    }
}

fn of_operations() -> Result<VecDeque<f64>, &'static str> {
    let this = env::current_exe().expect("this program is a file");
    let folder = folder();
    let mut command = callgrind(&folder.join("counts"));
    command.args(["--collect-atstart=no", "--toggle-collect=counted_operation"]);
    command.args(["--dump-after=counted_operation"]).arg(this).arg(COUNTING);
    run(&mut command)?;
    let files = (1..).map(|i| folder.join(format!("counts.{i}")));
    let counts = files.take_while(|file| file.is_file()).map(|file| total(&file));
    counts.collect::<Option<VecDeque<f64>>>().ok_or(FAILED)
}

/// The instructions of a program from its start to its end, as they stand in a table.
pub fn of_program(program: &Path, input: &Path) -> String {
    let file = folder().join("program");
    let mut command = callgrind(&file);
    command
        .arg(program)
        .stdin(File::open(input).expect("the input is there"));
    match run(&mut command) {
        Ok(()) => total(&file).map_or(FAILED.into(), count),
        Err(why) => why.into(),
    }
}

/// An empty folder beside this program.
fn folder() -> PathBuf {
    let this = env::current_exe().expect("this program is a file");
    let folder = this.with_file_name("callgrind");
    let _ = fs::remove_dir_all(&folder);
    fs::create_dir(&folder).expect("a folder beside this program");
    folder
}

fn callgrind(file: &Path) -> Command {
    let mut command = Command::new("valgrind");
    command.args(["--quiet", "--tool=callgrind"]);
    command.arg(format!("--callgrind-out-file={}", file.display()));
    command
}

fn run(command: &mut Command) -> Result<(), &'static str> {
    match command.stdout(Stdio::null()).status() {
        Ok(status) if status.success() => Ok(()),
        Err(error) if error.kind() == io::ErrorKind::NotFound => Err(MISSING),
        _ => Err(FAILED),
    }
}

/// The number of instructions that a file of callgrind has.
fn total(file: &Path) -> Option<f64> {
    let text = fs::read_to_string(file).ok()?;
    let total = text.lines().find_map(|line| line.strip_prefix("totals: "))?;
    total.trim().parse().ok()
}
