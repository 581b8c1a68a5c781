//! What the benchmark and its plain report program share: the checked work in plain Rust.

pub mod plain;
