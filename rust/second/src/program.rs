//! Where the proved report program is.

use std::env;
use std::path::{Path, PathBuf};

/// The report program: the file that `HAWKMORTAR_REPORT` names, else that of the repository's target/bin. Panics where there is
/// none.
pub fn report() -> PathBuf {
    let file = match env::var_os("HAWKMORTAR_REPORT") {
        Some(file) => PathBuf::from(file),
        None => Path::new(env!("CARGO_MANIFEST_DIR")).join("../../target/bin/report"),
    };
    assert!(
        file.is_file(),
        "{} is missing: run `make report` or `scripts/build program` in the repository",
        file.display()
    );
    file
}
