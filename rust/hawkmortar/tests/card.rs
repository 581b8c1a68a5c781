//! The example `card`, run: cards that were pulled in the middle of updates and of mends come back with the right routes.

use std::env;
use std::process::{Command, Stdio};

/// The numbers of a line.
fn numbers(line: &str) -> Vec<u32> {
    let words = line.split(|c: char| !c.is_ascii_digit());
    words.filter_map(|word| word.parse().ok()).collect()
}

#[test]
fn a_card_pulled_in_the_middle_is_mended() {
    // cargo puts the examples beside the folder of the tests, and builds them before it runs those
    let this = env::current_exe().expect("this program is a file");
    let program = this.ancestors().nth(2).expect("a folder").join("examples/card");
    for seed in ["1", "2"] {
        let mut card = Command::new(&program);
        card.args([seed, "60"]).stdout(Stdio::piped()).stderr(Stdio::piped());
        let card = card.spawn().expect("the example was built");
        let file = env::temp_dir().join(format!("hawkmortar-card-{}", card.id()));
        let ran = card.wait_with_output().expect("the example ends");
        let printed = String::from_utf8(ran.stdout).expect("text");
        assert!(
            ran.status.success(),
            "{printed}{}",
            String::from_utf8_lossy(&ran.stderr)
        );
        let ([first, .., last], false) = (&printed.lines().collect::<Vec<_>>()[..], file.exists()) else {
            panic!("a line alone, or a file that was left");
        };
        assert_eq!(*first, format!("seed {seed}, 60 rounds"));
        let [above, below, mends] = numbers(last)[..] else {
            panic!("{last}");
        };
        assert!(above >= 10 && below >= 10 && mends >= 5, "{last}");
    }
}
