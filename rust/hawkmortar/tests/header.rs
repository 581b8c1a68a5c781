//! The C header declares what the library has: C programs over it compile without a warning, link and answer. The programs that README
//! shows are examples, and run.

use std::env;
use std::fs;
use std::path::{Path, PathBuf};
use std::process::Command;

/// The used slots, then each slot with its address and tag.
const AFTER_SETS: &str = "\
0 5
0 0a140409 00200002
1 0a140400 00180003
2 0a140000 00100002
3 00000000 00000000
4 00000000 00000000
5 00000000 00000000
6 0a000000 00080001
7 00000000 00000007
";

/// After each number of writes the answer, the outcomes of a mend with no room and of one with room, and its writes: after the first
/// the /16 stands in slots 1 and 2.
const REMOVAL: &str = "\
0 2
0 3
0 0
0 0
0 2
9 0
0 1
2 00000000 00000000
0 2
0 0
0 0
";

const AFTER_REMOVAL: &str = "\
0 4
0 0a140409 00200002
1 0a140000 00100002
2 00000000 00000000
3 00000000 00000000
4 00000000 00000000
5 00000000 00000000
6 0a000000 00080001
7 00000000 00000007
";

/// The outcome of each call and the three numbers after it. The fifth is the end, the last is refused.
const DOWNLOAD: &str = "\
0 1
00000000 0 00000007
0 1
0a000000 8 00080001
0 1
0a140000 16 00100002
0 1
0a140409 32 00200002
0 0
0a140409 32 00200002
2 0
0a140409 32 00200002
";

/// Each range's start and hop.
const RANGES: &str = "\
00000000 7
0a000000 1
0a140000 2
0a140400 3
0a140409 2
0a14040a 3
0a140500 2
0a150000 1
0b000000 7
";

/// The range words, the main word of chunk 2580 and these words.
const CHUNK: &str = "\
0 5
1074069504
2
67108867
67698690
67764227
83886082
";

const CHUNK_WITHOUT_32: &str = "\
0 2
2147680256
132099
84017152
";

/// The outcome of each call and the four numbers after it. The fourth is the end of the input, the last two are refused.
const RECORDS: &str = "\
0 4
1 8 0a000000 1
0 9
1 16 0a140000 2
0 12
0 8 0a000000 0
0 12
0 8 0a000000 0
8 0
0 8 0a000000 0
12 8
0 8 0a000000 0
";

/// What a C program of examples/ prints: it compiles without a warning, links and ends well.
fn printed_by(example: &str) -> String {
    let here = Path::new(env!("CARGO_MANIFEST_DIR"));
    let archive = match env::var_os("HAWKMORTAR_LIB_DIR") {
        Some(folder) => PathBuf::from(folder),
        None => here.join("../../target/staticlib"),
    };
    let program = Path::new(env!("CARGO_TARGET_TMPDIR")).join(example);
    let compiled = Command::new(env::var_os("CC").unwrap_or("cc".into()))
        .args(["-std=c99", "-Wall", "-Wextra", "-Wpedantic", "-Werror", "-I"])
        .arg(here.join("../../include"))
        .arg(here.join("examples").join(example).with_extension("c"))
        .arg(archive.join("libhawkmortar.a"))
        .arg("-o")
        .arg(&program)
        .output()
        .expect("a C compiler");
    assert!(
        compiled.status.success(),
        "{}",
        String::from_utf8_lossy(&compiled.stderr)
    );
    let ran = Command::new(&program).output().expect("the program runs");
    assert!(ran.status.success());
    String::from_utf8(ran.stdout).expect("text")
}

#[test]
fn a_c_program_over_the_header_answers_the_board() {
    let answers = "0 2\n0 3\n0 2\n0 7\n";
    let twice = "4 1\n";
    let prefixes = format!("0 5\n{answers}0 0\n4 3\n1 2\n3 0\n0 0\n");
    let sets = "0 1\n0 1\n0 2\n0 3\n0 2\n";
    let builds = "9 0\n0 9\n";
    let slots = format!("{sets}{AFTER_SETS}{REMOVAL}{AFTER_REMOVAL}{DOWNLOAD}");
    let ranges = format!("{builds}{RANGES}{answers}");
    let answers_without_32 = "0 3\n0 3\n0 2\n0 7\n";
    let dxr = format!("{CHUNK}{answers}{CHUNK_WITHOUT_32}{answers_without_32}");
    assert_eq!(
        printed_by("board"),
        format!("{answers}{twice}{prefixes}{slots}{ranges}{dxr}{RECORDS}")
    );
}

/// The blocks of README in a language.
fn readme_blocks(language: &str) -> Vec<String> {
    let readme = Path::new(env!("CARGO_MANIFEST_DIR")).join("../../README.md");
    let readme = fs::read_to_string(readme).expect("README.md");
    let start = format!("```{language}\n");
    let blocks = readme.split(&start).skip(1);
    blocks
        .map(|rest| rest.split("```").next().unwrap().to_string())
        .collect()
}

mod update {
    include!("../examples/update.rs");

    pub fn run() -> Result<(), Refusal> {
        main()
    }
}

#[test]
fn the_readmes_rust_program_runs() {
    assert_eq!(readme_blocks("rust"), [include_str!("../examples/update.rs")]);
    update::run().unwrap();
}

#[test]
fn the_readmes_c_program_runs() {
    assert_eq!(readme_blocks("c"), [include_str!("../examples/update.c")]);
    assert_eq!(printed_by("update"), "10.20.4.9: hop 2\n11.0.0.0: hop 0\n");
}
