//! The times of the proofs and of `make test`, which the gate keeps in a file.

use crate::document::repository;
use std::fs;

const TITLE: &str = "Proofs and tests";

/// The file has a line for each, its name and its seconds.
const FILE: &str = "target/times";

/// The table, as text and as Markdown; where there is no file, how to get it.
pub fn times() -> Result<[String; 2], String> {
    let Ok(text) = fs::read_to_string(repository().join(FILE)) else {
        let none = format!("There are no times: `make test` writes them to {FILE} where it passes.\n");
        return Ok([format!("\n{TITLE}\n\n{none}"), format!("### {TITLE}\n\n{none}")]);
    };
    let lines = text.lines().map(line).collect::<Result<Vec<_>, _>>()?;
    let plain: String = lines.iter().map(|(name, s)| format!("{name:<16} {s:>7}\n")).collect();
    let marked: String = lines.iter().map(|(name, s)| format!("| {name} | {s} |\n")).collect();
    Ok([
        format!("\n{TITLE}\n\n{:<16} {:>7}\n{plain}", "crate", "seconds"),
        format!("### {TITLE}\n\n| crate | seconds |\n|---|---:|\n{marked}"),
    ])
}

fn line(line: &str) -> Result<(&str, u32), String> {
    let parts = line.rsplit_once(' ');
    let time = parts.and_then(|(name, seconds)| Some((name, seconds.parse().ok()?)));
    time.ok_or(format!("{FILE} has a line that is no name with seconds: {line}"))
}
