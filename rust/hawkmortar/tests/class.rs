//! docs/CLASS.md is true: its blocks are what the lesson's program prints, and the must-fail edits that it names are there.

use std::fs;
use std::path::{Path, PathBuf};

#[path = "../examples/class.rs"]
#[allow(dead_code)]
mod class;

fn root() -> PathBuf {
    Path::new(env!("CARGO_MANIFEST_DIR")).join("../..")
}

fn page() -> String {
    fs::read_to_string(root().join("docs/CLASS.md")).expect("docs/CLASS.md")
}

#[test]
fn the_class_page_has_the_lesson_as_it_is_printed() {
    let page = page();
    let blocks = page.split("```text\n").skip(1);
    let shown: String = blocks.map(|rest| rest.split("```").next().unwrap()).collect();
    assert_eq!(shown, class::lesson().unwrap());
}

#[test]
fn the_class_page_names_edits_that_there_are() {
    let page = page();
    let refused: Vec<&str> = page.split("\n- Refused:").skip(1).collect();
    assert_eq!(refused.len(), 16);
    for list in refused {
        let list = list.split("\n\n").next().unwrap();
        let names: Vec<&str> = list.split('`').skip(1).step_by(2).collect();
        assert!(!names.is_empty());
        for name in names {
            let (owner, label) = name.split_once('/').expect("a crate and an edit");
            let edit = root().join(format!("crates/{owner}/must-fail/{label}.edit"));
            assert!(edit.is_file(), "{name}");
        }
    }
}
