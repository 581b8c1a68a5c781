//! The document of the benchmarks. What stands between its two marks is written anew, all else is kept.

use std::fs;
use std::path::{Path, PathBuf};
use std::process::Command;

const FILE: &str = "docs/BENCHMARKS.md";
const BEGIN: &str = "<!-- make bench writes from here -->\n";
const END: &str = "<!-- to here -->\n";

/// The parts that are kept.
pub struct Document {
    before: String,
    after: String,
}

impl Document {
    pub fn open() -> Result<Self, String> {
        let text = fs::read_to_string(path()).map_err(|error| format!("{FILE}: {error}"))?;
        let parts = text.split_once(BEGIN);
        let parts = parts.and_then(|(before, rest)| Some((before, rest.split_once(END)?.1)));
        let (before, after) = parts.ok_or(format!("{FILE} has to have the lines {BEGIN}and {END}"))?;
        Ok(Document {
            before: before.into(),
            after: after.into(),
        })
    }

    pub fn write(&self, measured: &str) -> Result<(), String> {
        let text = format!("{}{BEGIN}\n{measured}\n{END}{}", self.before, self.after);
        fs::write(path(), text).map_err(|error| format!("{FILE}: {error}"))
    }
}

fn path() -> PathBuf {
    repository().join(FILE)
}

pub fn repository() -> PathBuf {
    Path::new(env!("CARGO_MANIFEST_DIR")).join("../..")
}

/// On what was measured: the processor and the two compilers.
pub fn machine() -> String {
    let lines = [
        ("Processor", processor()),
        ("Plain Rust", says("rustc", "--version")),
        ("Proved code", says("rt", "version")),
        ("Instructions", says("valgrind", "--version")),
    ];
    lines.map(|(name, value)| format!("- {name}: {value}\n")).concat()
}

fn processor() -> String {
    let text = fs::read_to_string("/proc/cpuinfo").unwrap_or_default();
    let model = text.lines().find_map(|line| line.strip_prefix("model name"));
    model.map_or("not known".into(), |model| {
        model.trim_start_matches([' ', '\t', ':']).into()
    })
}

/// What a program says of itself.
fn says(program: &str, argument: &str) -> String {
    match Command::new(program).arg(argument).output() {
        Ok(output) if output.status.success() => String::from_utf8_lossy(&output.stdout).trim().into(),
        _ => format!("no {program}"),
    }
}
