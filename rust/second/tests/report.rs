//! The report program, run as a process: its whole output beside the second program's. Random streams of updates, cut and damaged
//! ones, each refusal by hand, inputs about the limit, tables that are full, and pipes that are slow.

use second::both::records::{bytes_of, random_records, REPORT};
use second::program;
use second::random::Random;
use second::records::Record;
use second::report::{report, MOST, SLOTS};
use second::streams::{damage, Updates};
use std::fs::File;
use std::io::{ErrorKind, Read, Write};
use std::process::{Child, ChildStdin, ChildStdout, Command, Stdio};
use std::thread::{self, sleep};
use std::time::{Duration, Instant};

/// Long enough for the other side of a pipe to be waiting.
const A_WHILE: Duration = Duration::from_millis(20);

/// The program, with a pipe to it and one from it.
fn start(mut command: Command) -> (Child, ChildStdin, ChildStdout) {
    let command = command.stdin(Stdio::piped()).stdout(Stdio::piped());
    let mut child = command.spawn().unwrap();
    let (input, output) = (child.stdin.take().unwrap(), child.stdout.take().unwrap());
    (child, input, output)
}

/// What the program prints, where one function gives it its input and at the same time another takes its output; that one also
/// knows the number of the process.
fn run(give: impl FnOnce(ChildStdin) + Send, take: impl FnOnce(ChildStdout, u32) -> Vec<u8>) -> String {
    let (mut child, input, output) = start(Command::new(program::report()));
    let printed = thread::scope(|scope| {
        scope.spawn(|| give(input));
        take(output, child.id())
    });
    let ended = child.wait().unwrap();
    assert!(ended.success(), "{ended}");
    String::from_utf8(printed).unwrap()
}

/// Gives bytes. The program may go away once it has read too many of them.
fn give(mut pipe: &ChildStdin, bytes: &[u8]) {
    if let Err(error) = pipe.write_all(bytes) {
        assert!(
            error.kind() == ErrorKind::BrokenPipe && bytes.len() > MOST,
            "{} bytes: {error}",
            bytes.len()
        );
    }
}

/// Gives bytes piece by piece, each of up to so many, with pauses between.
fn give_pieces(pipe: ChildStdin, bytes: &[u8], most: u64, random: &mut Random) {
    let mut rest = bytes;
    while !rest.is_empty() {
        let piece = (1 + random.below(most) as usize).min(rest.len());
        give(&pipe, &rest[..piece]);
        rest = &rest[piece..];
        sleep(Duration::from_micros(100));
    }
}

fn take(mut pipe: ChildStdout, _: u32) -> Vec<u8> {
    let mut printed = Vec::new();
    pipe.read_to_end(&mut printed).unwrap();
    printed
}

/// Takes all output by reads of up to so many bytes, with something done before each.
fn take_pieces(mut pipe: ChildStdout, most: usize, mut before: impl FnMut()) -> Vec<u8> {
    let (mut printed, mut piece) = (Vec::new(), vec![0; most]);
    loop {
        before();
        match pipe.read(&mut piece).unwrap() {
            0 => return printed,
            read => printed.extend(&piece[..read]),
        }
    }
}

/// Whatever the program printed is what is expected, to the last byte.
fn same(printed: &str, expected: &str) {
    if printed == expected {
        return;
    }
    let (mut found, mut right) = (printed.split_inclusive('\n'), expected.split_inclusive('\n'));
    for line in 1.. {
        let lines = (found.next(), right.next());
        assert!(lines.0 == lines.1, "line {line}: {:?}, not {:?}", lines.0, lines.1);
    }
}

/// What both programs print for an input.
fn both_print(input: &[u8]) -> String {
    let expected = report(input);
    same(&run(|pipe| give(&pipe, input), take), &expected);
    expected
}

/// How often each kind of line came.
#[derive(Default, Debug)]
struct Seen {
    /// Sets, by their writes.
    sets: [usize; 18],
    /// Removals, by their writes.
    removals: [usize; 19],
    /// Refusals, by their number.
    refused: [usize; 14],
}

impl Seen {
    fn add(&mut self, report: &str) {
        let number = |word: &str| -> usize { word.parse().unwrap() };
        for line in report.lines() {
            let words: Vec<&str> = line.split(' ').collect();
            match words[..] {
                [_, "set", _, _, writes, _] => self.sets[number(writes)] += 1,
                [_, "remove", _, _, writes, _] => self.removals[number(writes)] += 1,
                [_, "refused", refusal] => self.refused[number(refusal)] += 1,
                _ => {}
            }
        }
    }

    /// Each of some counts is at least so much.
    fn each_at_least(&self, least: usize, counts: &[usize]) {
        assert!(counts.iter().all(|&count| count >= least), "{self:?}");
    }

    /// The lines of a full table came at least so often: sets of another hop, removals, refusals 5 and 6.
    fn full_at_least(&self, least: usize) {
        let removals = self.removals.iter().sum();
        self.each_at_least(least, &[self.sets[1], removals, self.refused[5], self.refused[6]]);
    }
}

#[test]
fn the_report_of_the_example() {
    let printed = "\
routes 1024
1 set 10.0.0.0/8 1 1 1
2 set 10.20.0.0/16 2 1 2
3 remove 10.0.0.0/8 0 1 1
slot 0 10.20.0.0/16 2
end
";
    same(&both_print(&REPORT), printed);
}

#[test]
fn the_report_of_no_input() {
    same(&both_print(&[]), "routes 1024\nend\n");
}

/// A record that cannot be read is the last; behind a refused update the run goes on.
#[test]
fn each_refusal_of_a_report() {
    let set = [1, 8, 10, 1];
    for (bytes, refusal) in [
        (&[1, 33, 10, 1][..], 1),
        (&[0, 0xff, 0xff, 0xff, 0xff, 0x0f], 1),
        (&[1, 8, 0x80, 0x02, 1], 2),
        (&[0, 0, 1], 2),
        (&[1, 8, 10, 0], 3),
        (&[1, 8, 10, 0x80, 0x80, 0x04], 3),
        (&[0x80, 0x00], 11),
        (&[1, 0x88, 0x00], 11),
        (&[1, 32, 0xff, 0xff, 0xff, 0xff, 0x10], 11),
        (&[1, 8, 10, 0x81, 0x00], 11),
        (&[2, 8, 10], 13),
        (&[0xff, 0xff, 0xff, 0xff, 0x0f], 13),
    ] {
        let alone = [bytes, &set].concat();
        same(&both_print(&alone), &format!("routes 1024\n1 refused {refusal}\nend\n"));
        let behind = [&set, bytes, &set].concat();
        let printed =
            format!("routes 1024\n1 set 10.0.0.0/8 1 1 1\n2 refused {refusal}\nslot 1023 10.0.0.0/8 1\nend\n");
        same(&both_print(&behind), &printed);
    }
    for cut in [
        &[1][..],
        &[0x80],
        &[1, 16],
        &[1, 16, 0x94],
        &[1, 16, 0x94, 0x14],
        &[0, 8],
    ] {
        same(&both_print(cut), "routes 1024\n1 refused 12\nend\n");
    }
    let absent = [0, 8, 10, 1, 8, 10, 1, 0, 16, 0x94, 0x14, 0, 8, 10];
    let printed = "\
routes 1024
1 refused 6
2 set 10.0.0.0/8 1 1 1
3 refused 6
4 remove 10.0.0.0/8 0 1 0
end
";
    same(&both_print(&absent), printed);
}

/// Numbers of every count of digits: octets, lengths, hops, slots, records, used slots.
#[test]
fn numbers_of_every_length_in_a_report() {
    let octets = [0, 1, 9, 10, 11, 99, 100, 101, 199, 200, 254, 255];
    let hops = [1, 9, 10, 99, 100, 999, 1000, 9999, 10_000, 65_535];
    let host = |i: usize| u32::from_be_bytes([i / 144, i / 12, i, i].map(|i| octets[i % 12]));
    let mut records: Vec<Record> = (0..=32).map(|length| [1, length, 0, 1]).collect();
    records.extend((700..1728).rev().map(|i| [1, 32, host(i), hops[i % 10]]));
    records.extend((0..=32).map(|length| [0, length, 0, 0]));
    let printed = both_print(&bytes_of(&records));
    let hops = hops.map(|hop| format!("/32 {hop} 17 "));
    let others = [
        "0.0.0.0/0 1",
        " 255.255.255.255/32 ",
        "\nslot 0 ",
        "\nslot 99 ",
        "\nslot 990 ",
        "\n1094 ",
        " 1024\n",
    ];
    for part in others.into_iter().chain(hops.iter().map(String::as_str)) {
        assert!(printed.contains(part), "{part}");
    }
}

#[test]
fn reports_of_random_streams() {
    let mut seen = Seen::default();
    for seed in 0..500 {
        let prefixes = match seed % 50 {
            0 => 600,
            1..=5 => 150,
            _ => [1, 2, 5, 12, 40][seed as usize % 5],
        };
        let mut updates = Updates::new(5000 + seed, prefixes);
        let count = updates.random.below(20 + 4 * prefixes as u64) as usize;
        seen.add(&both_print(&updates.stream(count)));
    }
    seen.each_at_least(
        20,
        &[&seen.sets[..16], &seen.removals[1..17], &seen.refused[6..7]].concat(),
    );
}

#[test]
fn reports_of_streams_of_any_prefixes() {
    let mut random = Random::new(51);
    for _ in 0..50 {
        let count = random.below(200) as usize;
        let records = random_records(&mut random, count);
        both_print(&bytes_of(&records));
    }
}

#[test]
fn reports_of_streams_cut_and_damaged() {
    let mut seen = Seen::default();
    for seed in 0..300 {
        let mut updates = Updates::new(6000 + seed, 1 + seed as usize / 10);
        let count = 1 + updates.random.below(60) as usize;
        let (mut bytes, random) = (updates.stream(count), &mut updates.random);
        let length = bytes.len() as u64;
        seen.add(&both_print(&bytes[..random.below(length) as usize]));
        damage(&mut bytes, random);
        seen.add(&both_print(&bytes));
    }
    seen.each_at_least(10, &[1, 2, 3, 6, 11, 12, 13].map(|refusal| seen.refused[refusal]));
}

/// The line of the last record of an input, and how many lines are before it.
fn last_record(printed: &str) -> (usize, &str) {
    let records = printed
        .lines()
        .take_while(|line| !line.starts_with("slot") && *line != "end");
    records.enumerate().last().unwrap()
}

#[test]
fn inputs_of_exactly_65536_bytes() {
    for length in [MOST - 1, MOST] {
        let whole = Updates::new(7000, 40).filling(length);
        let printed = both_print(&whole);
        assert!(last_record(&printed).0 > 10_000 && !printed.contains("refused 12\n"));
    }
    let cut = &Updates::new(7001, 40).filling(MOST + 2)[..MOST];
    let printed = both_print(cut);
    let (number, last) = last_record(&printed);
    assert_eq!(last, format!("{number} refused 12"));
    // the first record is refused, and the rest is not read
    same(&both_print(&[2; MOST]), "routes 1024\n1 refused 13\nend\n");
}

/// The table is full most of the time.
#[test]
fn an_input_of_65536_bytes_into_a_full_table() {
    let mut updates = Updates::new(7002, 1600);
    (updates.removal, updates.hops) = (4, 65_535);
    let mut seen = Seen::default();
    seen.add(&both_print(&updates.filling(MOST)));
    seen.full_at_least(500);
}

/// Whatever the bytes are, and even if the first of them are refused.
#[test]
fn inputs_of_more_than_65536_bytes() {
    let many = Updates::new(7003, 40).filling(1 << 20);
    for length in [MOST + 1, MOST + 2, 2 * MOST, 1 << 20] {
        same(&both_print(&many[..length]), "too long\n");
    }
    for byte in [0, 2, 0x80, 0xff] {
        same(&both_print(&[byte; MOST + 1]), "too long\n");
    }
}

/// A byte that is late is read, and so is the end.
#[test]
fn inputs_about_65536_bytes_with_a_pause() {
    let bytes = Updates::new(7004, 40).filling(MOST + 1);
    for before in [1, MOST - 1, MOST] {
        for length in [MOST, MOST + 1] {
            let late = |pipe: ChildStdin| {
                give(&pipe, &bytes[..before]);
                sleep(A_WHILE);
                give(&pipe, &bytes[before..length]);
                sleep(A_WHILE);
            };
            same(&run(late, take), &report(&bytes[..length]));
        }
    }
}

/// Sets up to a full table and beyond; then, of the last of these prefixes, sets of another hop, removals, and sets again.
#[test]
fn more_than_1024_routes() {
    let mut seen = Seen::default();
    for seed in [0, 1, 3] {
        let list = Updates::new(8000 + seed, SLOTS + 80).list;
        let prefixes = || list.addresses.iter().zip(&list.lengths);
        let sets = |hop| prefixes().map(move |(&address, &length)| [1, length, address, hop]);
        let removals = prefixes().map(|(&address, &length)| [0, length, address, 0]);
        let records: Vec<Record> = sets(1)
            .chain(sets(2).skip(SLOTS - 60))
            .chain(removals.skip(SLOTS - 60).step_by(3))
            .chain(sets(3).rev().take(200))
            .collect();
        let printed = both_print(&bytes_of(&records));
        let full = printed.lines().filter(|line| line.ends_with(" 1024")).count();
        assert!(full > 60, "{full}");
        assert_eq!(printed.lines().filter(|line| line.starts_with("slot ")).count(), SLOTS);
        seen.add(&printed);
    }
    seen.full_at_least(50);
}

#[test]
fn an_input_in_pieces() {
    let mut random = Random::new(9000);
    for (length, most) in [(300, 1), (5000, 7), (20_000, 300), (MOST, 5000), (MOST + 1, 5000)] {
        let input = Updates::new(9001, 40).filling(length);
        same(
            &run(|pipe| give_pieces(pipe, &input, most, &mut random), take),
            &report(&input),
        );
    }
}

/// As many records as an input can have, removals of a prefix that is absent: far more lines than a pipe holds.
#[test]
fn an_output_that_is_read_slowly() {
    let input = [0; MOST - 1];
    let expected = report(&input);
    assert!(expected.ends_with("\n21845 refused 6\nend\n") && expected.len() > 5 * MOST);
    let slowly = |pipe, _| take_pieces(pipe, 3000, || sleep(Duration::from_micros(200)));
    same(&run(|pipe| give(&pipe, &input), slowly), &expected);
    // where the program waits in a write for room in the pipe, a stop ends it with only a part written
    let stopping = |pipe, id| take_pieces(pipe, 30_000, || stop_and_continue(id));
    same(&run(|pipe| give(&pipe, &input), stopping), &expected);
}

/// Stops a process that waits, and lets it go on.
fn stop_and_continue(id: u32) {
    sleep(A_WHILE);
    let kill = "kill -STOP $0 && kill -CONT $0";
    assert!(Command::new("sh")
        .args(["-c", kill, &id.to_string()])
        .status()
        .unwrap()
        .success());
}

/// Where nobody reads any more, the program ends: by a signal, or because it cannot write if it ignores that signal.
#[test]
fn a_reader_that_goes_away() {
    let input = Updates::new(9200, 40).filling(MOST);
    for trap in ["", "trap '' PIPE && "] {
        let mut command = Command::new("sh");
        command
            .arg("-c")
            .arg(format!("{trap}exec \"$0\""))
            .arg(program::report());
        command.stderr(Stdio::null());
        let (mut child, pipe, mut output) = start(command);
        give(&pipe, &input);
        drop(pipe);
        output.read_exact(&mut [0; 100]).unwrap();
        drop(output);
        let started = Instant::now();
        while child.try_wait().unwrap().is_none() {
            if started.elapsed() > Duration::from_secs(20) {
                child.kill().unwrap();
                panic!("the program does not end");
            }
            sleep(A_WHILE);
        }
    }
}

/// Where the input cannot be read nothing is printed; that, or that the output cannot be written, is said on standard error.
#[test]
fn ends_of_a_report_that_fail() {
    let folder = File::open(env!("CARGO_MANIFEST_DIR")).unwrap();
    let ran = Command::new(program::report()).stdin(folder).output().unwrap();
    assert!(ran.stdout.is_empty() && !ran.stderr.is_empty(), "{ran:?}");
    let full = File::options().write(true).open("/dev/full").unwrap();
    let ran = Command::new(program::report()).stdout(full).output().unwrap();
    assert!(!ran.stderr.is_empty(), "{ran:?}");
}
