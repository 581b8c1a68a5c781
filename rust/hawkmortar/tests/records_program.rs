//! The program `records`, run: lines into bytes and back, and what it says of faults.

use std::fs::File;
use std::io::Write;
use std::process::{Child, Command, Output, Stdio};

/// The report's input, in lines and in bytes.
const LINES: &str = "set 10.0.0.0/8 1\nset 10.20.0.0/16 2\nremove 10.0.0.0/8\n";
const BYTES: [u8; 12] = [0x01, 0x08, 0x0a, 0x01, 0x01, 0x10, 0x94, 0x14, 0x02, 0x00, 0x08, 0x0a];

fn program(arguments: &[&str]) -> Command {
    let mut program = Command::new(env!("CARGO_BIN_EXE_records"));
    program
        .args(arguments)
        .stdin(Stdio::piped())
        .stdout(Stdio::piped())
        .stderr(Stdio::piped());
    program
}

/// Gives the program its input, all of which it reads before it writes, and takes what is left of its output.
fn finish(mut child: Child, input: &[u8]) -> Output {
    child.stdin.take().unwrap().write_all(input).unwrap();
    child.wait_with_output().unwrap()
}

fn run(arguments: &[&str], input: &[u8]) -> Output {
    finish(program(arguments).spawn().unwrap(), input)
}

/// The program writes this, says that on standard error, and ends so.
fn expect(word: &str, input: impl AsRef<[u8]>, output: impl AsRef<[u8]>, said: &str, code: i32) {
    let ran = run(&[word], input.as_ref());
    assert_eq!(String::from_utf8_lossy(&ran.stderr), said);
    assert_eq!(ran.stdout, output.as_ref(), "{said}");
    assert_eq!(ran.status.code(), Some(code), "{said}");
}

#[test]
fn lines_into_bytes_and_back() {
    expect("encode", LINES, BYTES, "", 0);
    expect("decode", BYTES, LINES, "", 0);
    expect("encode", "", "", "", 0);
    expect("decode", "", "", "", 0);
}

/// Each length with addresses and hops of every number of bytes.
#[test]
fn lines_of_every_length_into_bytes_and_back() {
    let mut lines = String::new();
    for length in 0..=32 {
        for bits in [0, 1, 0x80, 0x4000, 0x0020_0000, 0x1000_0000, u32::MAX] {
            let quotient = u64::from(bits) & ((1 << length) - 1);
            let address = std::net::Ipv4Addr::from((quotient << (32 - length)) as u32);
            for hop in [1, 127, 128, 16_383, 16_384, 65_535] {
                lines += &format!("set {address}/{length} {hop}\n");
            }
            lines += &format!("remove {address}/{length}\n");
        }
    }
    let bytes = run(&["encode"], lines.as_bytes()).stdout;
    expect("decode", bytes, &lines, "", 0);
}

#[test]
fn lines_that_are_passed_over() {
    let lines =
        "# the board\n\n  set  10.0.0.0/8\t1\r\n\t\n  # set 1.2.3.4/32 9\n#\nset 10.20.0.0/16 2\n\nremove 10.0.0.0/8";
    expect("encode", lines, BYTES, "", 0);
    expect("encode", "\n\n#\n \t", "", "", 0);
}

/// A line at fault is named with its number, and nothing is written.
#[test]
fn lines_at_fault() {
    for (fault, said) in [
        ("set 10.0.0.0/33 1", "length over 32: 10.0.0.0/33"),
        ("remove 10.0.0.0/33", "length over 32: 10.0.0.0/33"),
        (
            "set 10.20.0.0/8 1",
            "address has bits set behind the length: 10.20.0.0/8 (the prefix is 10.0.0.0/8)",
        ),
        ("set 10.0.0.0/8 0", "next hop not from 1 to 65,535: 0"),
        ("set 10.0.0.0/8 65536", "next hop not from 1 to 65,535: 65536"),
        ("set 10.0.0/8 1", "not a prefix in the form 10.0.0.0/8: 10.0.0/8"),
        (
            "set 10.0.0.0/8",
            "neither 'set PREFIX HOP' nor 'remove PREFIX': set 10.0.0.0/8",
        ),
        (
            " remove 10.0.0.0/8 0 # no hop",
            "neither 'set PREFIX HOP' nor 'remove PREFIX': remove 10.0.0.0/8 0 # no hop",
        ),
    ] {
        let said = format!("records: line 4: {said}\n");
        for behind in ["", "\n", "\nset 10.0.0.0/8 1\n"] {
            expect("encode", format!("{LINES}{fault}{behind}"), "", &said, 1);
        }
    }
    let lines = b"set 10.0.0.0/8 1\nremove\n\xff\nset 0.0.0.0/0 70000\n";
    let said = "\
records: line 2: neither 'set PREFIX HOP' nor 'remove PREFIX': remove
records: line 3: not text in UTF-8
records: line 4: next hop not from 1 to 65,535: 70000
";
    expect("encode", lines, "", said, 1);
}

/// The records before one that cannot be read are written; it is named with its number, its first byte and the refusal.
#[test]
fn bytes_that_cannot_be_read() {
    for (bytes, said) in [
        (&[1, 33, 10, 1][..], "refusal 1 at 13: length over 32"),
        (
            &[0, 1, 2],
            "refusal 2 at 14: address not a multiple of the prefix's span, or too large",
        ),
        (&[1, 8, 10, 0], "refusal 3 at 15: hop 0 or over 65,535"),
        (
            &[0x81, 0x00, 8, 10, 1],
            "refusal 11 at 12: number longer than needed, or too large",
        ),
        (&[1, 8], "refusal 12 at 14: bytes end inside a record"),
        (&[2, 8, 10], "refusal 13 at 12: kind over 1"),
    ] {
        let said = format!("records: record 4, from byte 12: {said}\n");
        expect("decode", [&BYTES, bytes].concat(), LINES, &said, 1);
    }
    let said = "records: record 3, from byte 9: refusal 12 at 11: bytes end inside a record\n";
    expect(
        "decode",
        &BYTES[..11],
        "set 10.0.0.0/8 1\nset 10.20.0.0/16 2\n",
        said,
        1,
    );
    let said = "records: record 1, from byte 0: refusal 13 at 0: kind over 1\n";
    expect("decode", LINES, "", said, 1);
}

#[test]
fn help_and_usage() {
    let help = run(&["--help"], &[]);
    assert!(help.status.success() && help.stderr.is_empty());
    assert_eq!(run(&["-h"], &[]), help);
    let text = String::from_utf8(help.stdout).unwrap();
    for part in [LINES.lines().next().unwrap(), "encode", "decode", "passed over"] {
        assert!(text.contains(part), "{text}");
    }
    let (usage, _) = text.split_once("\n\n").unwrap();
    for arguments in [
        &[][..],
        &["code"],
        &["--encode"],
        &["encode", "decode"],
        &["decode", "FILE"],
        &[""],
    ] {
        let ran = run(arguments, &[]);
        assert_eq!(ran.status.code(), Some(2), "{arguments:?}");
        assert_eq!(String::from_utf8(ran.stderr).unwrap(), format!("{usage}\n"));
        assert!(ran.stdout.is_empty());
    }
}

/// A reader that goes away is no fault; an output that cannot be written and an input that cannot be read are.
#[test]
fn ends_of_the_program_that_fail() {
    let mut child = program(&["decode"]).spawn().unwrap();
    drop(child.stdout.take());
    let ran = finish(child, &BYTES.repeat(50_000));
    assert!(ran.status.success() && ran.stderr.is_empty(), "{ran:?}");

    let full = File::options().write(true).open("/dev/full").unwrap();
    let ran = program(&["--help"]).stdout(full).output().unwrap();
    assert_eq!(ran.status.code(), Some(1));
    assert!(ran.stderr.starts_with(b"records: cannot write standard output: "));

    let folder = File::open(env!("CARGO_MANIFEST_DIR")).unwrap();
    let ran = program(&["encode"]).stdin(folder).output().unwrap();
    assert_eq!(ran.status.code(), Some(1));
    assert!(ran.stderr.starts_with(b"records: cannot read standard input: "));
}
