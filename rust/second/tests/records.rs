//! The call that reads an update record, of the library and of the second program, compared: every short string of bytes, random
//! ones, streams of records with and without damage, limits, and each refusal by hand.

use hawkmortar::Records;
use second::both::fault;
use second::both::records::{
    bytes_of, follow, groups, in_groups, library_bytes, numbers, random_record, random_records, record_at, record_of,
    shortest, Answer, REPORT,
};
use second::ip;
use second::random::Random;
use second::records::Record;
use second::Fault;

/// The address 10.0.0.0.
const TEN: u32 = 10 << 24;

/// An answer that is so many bytes further on.
fn moved(answer: Answer, by: usize) -> Answer {
    match answer {
        Ok(read) => Ok(read.map(|(record, next)| (record, next + by))),
        Err((number, place)) => Err((number, place + by)),
    }
}

/// What both programs answer to the record at the first byte. With other bytes before it they answer the same, further on.
fn first(bytes: &[u8]) -> Answer {
    let answer = record_at(bytes, 0);
    for before in [1, 2, 5, 9] {
        let all = [&[0xff; 9][..before], bytes].concat();
        assert_eq!(record_at(&all, before), moved(answer, before), "{all:x?}");
    }
    answer
}

/// Asks both programs for each string of so many bytes out of some, at each place up to one past its end.
fn every_string(some: &[u8], length: usize, mut answered: impl FnMut(&[u8], usize, Answer)) {
    let mut indices = vec![0; length];
    let mut bytes = vec![some[0]; length];
    loop {
        for at in 0..=length + 1 {
            answered(&bytes, at, record_at(&bytes, at));
        }
        let Some(i) = indices.iter().position(|&index| index + 1 < some.len()) else {
            return;
        };
        indices[..i].fill(0);
        bytes[..i].fill(some[0]);
        indices[i] += 1;
        bytes[i] = some[indices[i]];
    }
}

/// Answers by their number, 0 for a record; the end is not counted.
#[derive(Default, PartialEq, Eq, Debug)]
struct Counts([u64; 14]);

impl Counts {
    fn add(&mut self, answer: Answer) {
        match answer {
            Ok(Some(_)) => self.0[0] += 1,
            Ok(None) => {}
            Err((number, _)) => self.0[usize::from(number)] += 1,
        }
    }

    fn of(counts: &[(usize, u64)]) -> Self {
        let mut all = Counts::default();
        counts.iter().for_each(|&(number, count)| all.0[number] += count);
        all
    }

    fn all_over(&self, least: u64) {
        for number in [0, 1, 2, 3, 11, 12, 13] {
            assert!(self.0[number] > least, "{number} in {self:?}");
        }
    }
}

#[test]
fn records_of_the_report() {
    let records = [
        ([1, 8, TEN, 1], 4),
        ([1, 16, ip([10, 20, 0, 0]), 2], 9),
        ([0, 8, TEN, 0], 12),
    ];
    assert_eq!(follow(&REPORT), (records.to_vec(), None));
    let records = records.map(|(record, _)| record);
    assert_eq!(bytes_of(&records), REPORT);
    assert_eq!(library_bytes(&records), REPORT);
    // the places between have the bytes of other records
    for (at, expected) in [
        (1, (13, 1)),
        (2, (13, 2)),
        (3, (2, 5)),
        (5, (13, 5)),
        (6, (13, 6)),
        (7, (13, 7)),
        (8, (13, 8)),
        (10, (13, 10)),
        (11, (13, 11)),
        (13, (8, 0)),
    ] {
        assert_eq!(record_at(&REPORT, at), Err(expected), "{at}");
    }
}

/// How many strings of one, two and three bytes get each answer at their first byte, counted by hand. At a later place the answer
/// is that of the shorter string from there.
#[test]
fn every_string_of_up_to_3_bytes_at_every_place() {
    let bytes: Vec<u8> = (0..=255).collect();
    // prefixes of the 33 lengths whose quotient takes one byte, and the single bytes that are too large for their length
    let (fit, large) = (127 + 26 * 128, 33 * 128 - (127 + 26 * 128));
    let expected = [
        Counts::default(),
        Counts::of(&[(12, 2 + 128), (13, 126)]),
        Counts::of(&[
            // kind 0 or 1, then the length
            (12, 2 * (33 + 128)),
            (1, 2 * 95),
            // the kind in one byte, in two, and longer
            (13, 126 * 256 + 128 * 127),
            (11, 128),
            (12, 128 * 128),
        ]),
        Counts::of(&[
            // kind 0 or 1 and a length up to 32, then the quotient, and behind it the end or the cut hop
            (0, fit),
            (12, fit),
            (2, 2 * large),
            (12, 2 * 33 * 128),
            // kind 0 or 1, then the length in one byte, in two, and longer
            (1, 2 * 95 * 256 + 2 * 128 * 127),
            (11, 2 * 128),
            (12, 2 * 128 * 128),
            // the kind in one byte, in two, in three, and longer
            (13, 126 * 65_536 + 128 * 127 * 256 + 128 * 128 * 127),
            (11, 128 * 256 + 128 * 128),
            (12, 128 * 128 * 128),
        ]),
    ];
    for length in 0..=3 {
        let mut counts: [Counts; 5] = Default::default();
        every_string(&bytes, length, |_, at, answer| counts[at].add(answer));
        let strings = 256u64.pow(length as u32);
        for at in 0..=length {
            let alike = 256u64.pow(at as u32);
            let expected = Counts(expected[length - at].0.map(|count| count * alike));
            assert_eq!(counts[at], expected, "at {at} of {length}");
        }
        assert_eq!(counts[length + 1], Counts::of(&[(8, strings)]));
    }
}

#[test]
fn every_string_of_4_and_5_chosen_bytes_at_every_place() {
    let some = [
        0, 1, 2, 3, 8, 10, 15, 16, 17, 24, 31, 32, 33, 64, 127, 128, 129, 130, 143, 144, 159, 160, 254, 255,
    ];
    let mut counts = Counts::default();
    for length in [4, 5] {
        every_string(&some, length, |bytes, at, answer| {
            counts.add(answer);
            if let Ok(Some((record, next))) = answer {
                assert!(at + 3 + usize::from(record[0] == 1) <= next, "{bytes:x?}");
            }
        });
    }
    counts.all_over(5000);
}

/// Each string is read record by record from its first byte, and at one other place; half of them have good records, some of these
/// with a changed byte. What is read is what the library writes for it, and goes by no other byte.
#[test]
fn random_bytes_and_records() {
    let mut random = Random::new(41);
    let (mut counts, mut lengths) = (Counts::default(), [0; 25]);
    let (mut bytes, mut written) = (Vec::new(), Vec::new());
    for round in 0..1_000_000 {
        let length = random.below(25) as usize;
        bytes.clear();
        if round % 2 == 0 {
            bytes.extend((0..length).map(|_| random.number() as u8));
        } else {
            while bytes.len() < length {
                record_of(random_record(&mut random)).append_to(&mut bytes);
            }
            bytes.truncate(length);
            if length > 0 && random.one_in(2) {
                bytes[random.below(length as u64) as usize] = random.number() as u8;
            }
        }
        lengths[length] += 1;
        let mut at = 0;
        loop {
            let answer = record_at(&bytes, at);
            counts.add(answer);
            let Ok(Some((record, next))) = answer else {
                break;
            };
            written.clear();
            record_of(record).append_to(&mut written);
            assert_eq!(written, bytes[at..next]);
            assert_eq!(record_at(&bytes[..next], at), answer);
            assert_eq!(moved(record_at(&bytes[at..], 0), at), answer);
            at = next;
        }
        counts.add(record_at(&bytes, random.below(length as u64 + 2) as usize));
    }
    counts.all_over(5000);
    assert!(lengths.iter().all(|&count| count > 30_000), "{lengths:?}");
}

/// Where each of some records ends.
fn ends(records: &[Record]) -> Vec<(Record, usize)> {
    let mut end = 0;
    let with_end = |&record: &Record| {
        end += bytes_of(&[record]).len();
        (record, end)
    };
    records.iter().map(with_end).collect()
}

#[test]
fn streams_are_read_back() {
    let mut random = Random::new(42);
    for round in 0..2000 {
        let count = if round == 0 { 20_000 } else { random.below(40) as usize };
        let records = random_records(&mut random, count);
        let bytes = bytes_of(&records);
        assert!(library_bytes(&records) == bytes, "{records:?}");
        assert!(follow(&bytes) == (ends(&records), None), "{records:?}");
    }
}

/// The words of each record, written without the library, are those that it shows, and are parsed back.
#[test]
fn records_in_words_are_parsed_back() {
    let mut random = Random::new(46);
    for record in random_records(&mut random, 100_000) {
        let [kind, length, address, hop] = record;
        let [a, b, c, d] = address.to_be_bytes();
        let words = match kind {
            1 => format!("set {a}.{b}.{c}.{d}/{length} {hop}"),
            _ => format!("remove {a}.{b}.{c}.{d}/{length}"),
        };
        let parsed: hawkmortar::Record = words.parse().unwrap();
        assert_eq!((numbers(parsed), parsed.to_string()), (record, words));
    }
}

/// At each length the quotients beside every power of two, removed, and set with hops at their limits and at those of their forms.
#[test]
fn records_at_the_limits_are_read_back() {
    for length in 0..=32 {
        let most = (1u64 << length) - 1;
        let powers = (0..length).flat_map(|bit| [1u64 << bit, (1 << bit) - 1]);
        for quotient in powers.chain([0, most]) {
            let address = (quotient << (32 - length)) as u32;
            for hop in [0, 1, 127, 128, 255, 256, 16_383, 16_384, 65_535] {
                let record = [u32::from(hop > 0), length, address, hop];
                let bytes = bytes_of(&[record]);
                assert_eq!(library_bytes(&[record]), bytes, "{record:?}");
                assert_eq!(first(&bytes), Ok(Some((record, bytes.len()))));
            }
        }
    }
}

/// The rest of the stream lies behind the input, which ends at the cut.
#[test]
fn streams_cut_at_every_byte() {
    let mut random = Random::new(43);
    for round in 0..400 {
        let count = if round == 0 { 300 } else { 1 + random.below(20) as usize };
        let records = random_records(&mut random, count);
        let (bytes, ends) = (bytes_of(&records), ends(&records));
        for cut in 0..=bytes.len() {
            let whole = ends.partition_point(|&(_, end)| end <= cut);
            let (read, refusal) = follow(&bytes[..cut]);
            assert_eq!(read, ends[..whole]);
            let at = if whole == 0 { 0 } else { ends[whole - 1].1 };
            let expected = (at < cut).then_some((12, cut));
            assert_eq!(refusal, expected, "{:x?}", &bytes[..cut]);
        }
    }
}

/// Every byte of short streams is changed to each of the 256 values, of long ones to some. The records before it stay.
#[test]
fn streams_with_every_byte_changed() {
    let mut random = Random::new(44);
    let mut counts = Counts::default();
    let every: Vec<u8> = (0..=255).collect();
    let some = [0, 1, 2, 15, 16, 32, 33, 127, 128, 143, 144, 255];
    for round in 0..330 {
        let (count, values) = if round < 300 { (5, &every[..]) } else { (60, &some[..]) };
        let records = random_records(&mut random, count);
        let (mut bytes, ends) = (bytes_of(&records), ends(&records));
        for i in 0..bytes.len() {
            let kept = ends.partition_point(|&(_, end)| end <= i);
            let byte = bytes[i];
            for &value in values {
                bytes[i] = value;
                let (read, refusal) = follow(&bytes);
                assert_eq!(read[..kept], ends[..kept], "{bytes:x?}");
                counts.add(refusal.map_or(Ok(None), Err));
                counts.0[0] += (read.len() - kept) as u64;
            }
            bytes[i] = byte;
        }
        assert_eq!(follow(&bytes), (ends, None));
    }
    counts.all_over(10_000);
}

/// One more than the largest number.
const FAR: u64 = 1 << 32;

/// The limits of the forms: of one, two and four groups, and of all.
const NUMBERS: [u64; 9] = [0, 127, 128, 16_383, 16_384, FAR / 16 - 1, FAR / 16, FAR - 1, FAR];

/// A record that has each of some numbers between other bytes is answered so where the number has its shortest form; an accepted
/// one ends with the input. Where the number has more groups, up to ten, it is refused with 11 at its first byte.
fn forms(before: &[u8], behind: &[u8], expected: &[(u64, Result<Record, Fault>)]) {
    for limit in NUMBERS {
        assert!(expected.iter().any(|&(number, _)| number == limit), "{limit}");
    }
    for &(number, answer) in expected {
        let bytes = [before, &shortest(number), behind].concat();
        let answer = answer.map(|record| Some((record, bytes.len())));
        assert_eq!(first(&bytes), answer, "{number} in {bytes:x?}");
        for groups in groups(number) + 1..=10 {
            let bytes = [before, &in_groups(number, groups), behind].concat();
            // with the bytes behind it and without
            for bytes in [&bytes[..], &bytes[..before.len() + groups]] {
                assert_eq!(first(bytes), Err((11, before.len())), "{number} in {bytes:x?}");
            }
        }
    }
}

#[test]
fn numbers_as_a_kind() {
    let expected = [
        (0, Ok([0, 8, TEN, 0])),
        // the hop is missing
        (1, Err((12, 3))),
        (2, Err((13, 0))),
        (3, Err((13, 0))),
        (127, Err((13, 0))),
        (128, Err((13, 0))),
        (129, Err((13, 0))),
        (16_383, Err((13, 0))),
        (16_384, Err((13, 0))),
        (FAR / 16 - 1, Err((13, 0))),
        (FAR / 16, Err((13, 0))),
        (FAR - 1, Err((13, 0))),
        (FAR, Err((11, 0))),
        (FAR + 1, Err((11, 0))),
        (8 * FAR - 1, Err((11, 0))),
    ];
    forms(&[], &[8, 10], &expected);
    assert_eq!(first(&[1, 8, 10, 1]), Ok(Some(([1, 8, TEN, 1], 4))));
    assert_eq!(first(&[0, 8, 10, 1]), Ok(Some(([0, 8, TEN, 0], 3))));
}

#[test]
fn numbers_as_a_length() {
    for (before, behind, kind, hop) in [([1], &[0, 9][..], 1, 9), ([0], &[0], 0, 0)] {
        let expected = [
            (0, Ok([kind, 0, 0, hop])),
            (1, Ok([kind, 1, 0, hop])),
            (31, Ok([kind, 31, 0, hop])),
            (32, Ok([kind, 32, 0, hop])),
            (33, Err((1, 1))),
            (127, Err((1, 1))),
            (128, Err((1, 1))),
            // the lower bits are those of a length
            (256, Err((1, 1))),
            (16_383, Err((1, 1))),
            (16_384, Err((1, 1))),
            (FAR / 16 - 1, Err((1, 1))),
            (FAR / 16, Err((1, 1))),
            (FAR - 1, Err((1, 1))),
            (FAR, Err((11, 1))),
            (FAR + 8, Err((11, 1))),
        ];
        forms(&before, behind, &expected);
    }
}

/// For each of some lengths the addresses that `NUMBERS` below 2^32 are divided from; those that are too large have none.
#[test]
fn numbers_as_an_address() {
    for (length, addresses) in [
        (0, &[0][..]),
        (6, &[0]),
        (7, &[0, 0xfe00_0000]),
        (8, &[0, 0x7f00_0000, 0x8000_0000]),
        (14, &[0, 0x01fc_0000, 0x0200_0000, 0xfffc_0000]),
        (15, &[0, 0x00fe_0000, 0x0100_0000, 0x7ffe_0000, 0x8000_0000]),
        (28, &[0, 0x07f0, 0x0800, 0x0003_fff0, 0x0004_0000, 0xffff_fff0]),
        (
            29,
            &[0, 0x03f8, 0x0400, 0x0001_fff8, 0x0002_0000, 0x7fff_fff8, 0x8000_0000],
        ),
        (31, &[0, 0xfe, 0x0100, 0x7ffe, 0x8000, 0x1fff_fffe, 0x2000_0000]),
        (
            32,
            &[0, 0x7f, 0x80, 0x3fff, 0x4000, 0x0fff_ffff, 0x1000_0000, 0xffff_ffff],
        ),
    ] {
        for (kind, behind, hop) in [(1, &[9][..], 9), (0, &[], 0)] {
            let mut expected = vec![(FAR, Err((11, 2))), (FAR + 1, Err((11, 2)))];
            for (i, &number) in NUMBERS[..8].iter().enumerate() {
                let address = addresses.get(i).ok_or((2, 2));
                expected.push((number, address.map(|&address| [kind, length, address, hop])));
            }
            forms(&[kind as u8, length as u8], behind, &expected);
        }
    }
}

#[test]
fn numbers_as_a_hop() {
    let expected = [
        (0, Err((3, 3))),
        (1, Ok([1, 8, TEN, 1])),
        (127, Ok([1, 8, TEN, 127])),
        (128, Ok([1, 8, TEN, 128])),
        (16_383, Ok([1, 8, TEN, 16_383])),
        (16_384, Ok([1, 8, TEN, 16_384])),
        (65_535, Ok([1, 8, TEN, 65_535])),
        (65_536, Err((3, 3))),
        // the lower bits are those of a hop
        (65_537, Err((3, 3))),
        (FAR / 16 - 1, Err((3, 3))),
        (FAR / 16, Err((3, 3))),
        (FAR - 1, Err((3, 3))),
        (FAR, Err((11, 3))),
        (FAR + 1, Err((11, 3))),
    ];
    forms(&[1, 8, 10], &[], &expected);
}

/// Each value of a fifth byte in each of the four numbers, with bytes behind it and without. One from 1 to 15 ends a number.
#[test]
fn fifth_bytes_over_15() {
    for groups in [[0x80; 4], [0xff; 4], [0x81, 0x80, 0xff, 0x80]] {
        let low = (0..4).fold(0, |low, i| low | u32::from(groups[i] & 0x7f) << (7 * i));
        for fifth in 0..=255 {
            let number = [&groups[..], &[fifth]].concat();
            let ends = (1..=15).contains(&fifth);
            let address = low | u32::from(fifth) << 28;
            for (before, judged) in [
                (&[][..], Err((13, 0))),
                (&[1], Err((1, 1))),
                (&[1, 8], Err((2, 2))),
                (&[0, 32], Ok(Some(([0, 32, address, 0], 7)))),
                (&[1, 8, 10], Err((3, 3))),
            ] {
                let expected = if ends { judged } else { Err((11, before.len())) };
                for behind in [&[][..], &[0], &[1], &[0x80], &[0xff; 8]] {
                    let bytes = [before, &number, behind].concat();
                    assert_eq!(first(&bytes), expected, "{bytes:x?}");
                }
            }
        }
    }
}

#[test]
fn limits_of_lengths_and_hops_in_records() {
    for (bytes, expected) in [
        (&[0, 0, 0][..], Ok([0, 0, 0, 0])),
        (&[0, 32, 7], Ok([0, 32, 7, 0])),
        (&[0, 33, 7], Err((1, 1))),
        (&[1, 0, 0, 1], Ok([1, 0, 0, 1])),
        (&[1, 32, 7, 1], Ok([1, 32, 7, 1])),
        (&[1, 33, 7, 1], Err((1, 1))),
        (&[1, 0, 0, 0], Err((3, 3))),
        (&[1, 32, 7, 0], Err((3, 3))),
        // 65,535 and 65,536
        (&[1, 0, 0, 0xff, 0xff, 0x03], Ok([1, 0, 0, 65_535])),
        (&[1, 32, 7, 0xff, 0xff, 0x03], Ok([1, 32, 7, 65_535])),
        (&[1, 0, 0, 0x80, 0x80, 0x04], Err((3, 3))),
        (&[1, 32, 7, 0x80, 0x80, 0x04], Err((3, 3))),
    ] {
        let expected = expected.map(|record| Some((record, bytes.len())));
        assert_eq!(first(bytes), expected, "{bytes:x?}");
    }
}

/// At each length n the quotients 2^n - 1 and 2^n.
#[test]
fn limits_of_addresses_in_records() {
    for length in 0..=32 {
        let power = 1u64 << length;
        let last = (FAR - FAR / power) as u32;
        for (kind, behind, hop) in [(0, &[][..], 0), (1, &[5], 5)] {
            let bytes = |quotient| [&[kind, length][..], &shortest(quotient), behind].concat();
            let good = bytes(power - 1);
            let record = [kind.into(), length.into(), last, hop];
            assert_eq!(first(&good), Ok(Some((record, good.len()))), "{good:x?}");
            // 2^32 is too large for a number
            let refusal = if length < 32 { 2 } else { 11 };
            for quotient in [power, power + 1, 2 * power - 1] {
                assert_eq!(first(&bytes(quotient)), Err((refusal, 2)), "{quotient}");
            }
        }
    }
}

#[test]
fn places_past_the_input() {
    let past = [1, 2, 3, 4, 5, 100, 1 << 31, 1 << 32, usize::MAX / 2];
    for bytes in [&[][..], &[0], &[0x80], &[0, 0, 0], &[0xff; 5], &REPORT] {
        let length = bytes.len();
        for at in past.map(|by| length + by).into_iter().chain([usize::MAX]) {
            assert_eq!(record_at(bytes, at), Err((8, 0)), "{at} in {bytes:x?}");
        }
        assert_eq!(record_at(bytes, length), Ok(None));
    }
    // bytes behind the input are no part of it
    for length in 0..REPORT.len() {
        assert_eq!(record_at(&REPORT[..length], length), Ok(None));
        assert_eq!(record_at(&REPORT[..length], length + 1), Err((8, 0)));
    }
}

#[test]
fn each_refusal_of_a_record_at_its_place() {
    for (bytes, at, refusal) in [
        // longer than needed
        (&[0x80, 0x00, 8, 10][..], 0, (11, 0)),
        (&[0x81, 0x00, 8, 10, 1], 0, (11, 0)),
        (&[0x81, 0x80, 0x00, 8, 10, 1], 0, (11, 0)),
        (&[0, 0x88, 0x00, 10], 0, (11, 1)),
        (&[1, 0x88, 0x80, 0x80, 0x00, 10, 1], 0, (11, 1)),
        (&[0, 8, 0x8a, 0x00], 0, (11, 2)),
        (&[0, 16, 0x94, 0x94, 0x00], 0, (11, 2)),
        (&[1, 8, 10, 0x81, 0x00], 0, (11, 3)),
        (&[1, 16, 0x94, 0x14, 0x82, 0x00], 0, (11, 4)),
        // too large
        (&[0xff, 0xff, 0xff, 0xff, 0x10], 0, (11, 0)),
        (&[1, 0x80, 0x80, 0x80, 0x80, 0x10], 0, (11, 1)),
        (&[1, 32, 0x80, 0x80, 0x80, 0x80, 0x10, 1], 0, (11, 2)),
        (
            &[1, 32, 0xff, 0xff, 0xff, 0xff, 0x0f, 0x80, 0x80, 0x80, 0x80, 0x80],
            0,
            (11, 7),
        ),
        // cut
        (&[0], 0, (12, 1)),
        (&[0x80], 0, (12, 1)),
        (&[0xff, 0xff, 0xff, 0xff], 0, (12, 4)),
        (&[1, 8], 0, (12, 2)),
        (&[1, 0x88], 0, (12, 2)),
        (&[0, 16, 0x94], 0, (12, 3)),
        (&[1, 8, 10], 0, (12, 3)),
        (&[1, 8, 10, 0x81], 0, (12, 4)),
        (&[1, 8, 10, 1, 0, 8], 4, (12, 6)),
        // kind, length, address, hop
        (&[2, 8, 10], 0, (13, 0)),
        (&[0x80, 0x01, 8, 10], 0, (13, 0)),
        (&[0, 33, 10], 0, (1, 1)),
        (&[1, 0x80, 0x01, 10, 1], 0, (1, 1)),
        (&[0, 0, 1], 0, (2, 2)),
        (&[1, 3, 8, 1], 0, (2, 2)),
        (&[1, 8, 0x80, 0x02, 1], 0, (2, 2)),
        (&[1, 8, 10, 0], 0, (3, 3)),
        (&[1, 16, 0x94, 0x14, 0], 0, (3, 4)),
        (&[1, 32, 0xff, 0xff, 0xff, 0xff, 0x0f, 0x80, 0x80, 0x04], 0, (3, 7)),
        // the second record
        (&[0, 8, 10, 2, 8, 10], 3, (13, 3)),
        (&[0, 8, 10, 0, 33, 10], 3, (1, 4)),
        (&[0, 8, 10, 0, 1, 2], 3, (2, 5)),
        (&[0, 8, 10, 1, 1, 1, 0], 3, (3, 6)),
        (&[0, 8, 10, 0x80, 0x00], 3, (11, 3)),
        // past the input
        (&[0, 8, 10], 4, (8, 0)),
        (&[], 1, (8, 0)),
    ] {
        assert_eq!(record_at(bytes, at), Err(refusal), "{at} in {bytes:x?}");
    }
}

/// The numbers of a record, each good or with a fault, in all combinations, and cut at every byte: the first fault is given, and
/// 12 only where the bytes end before it.
#[test]
fn refusals_of_a_record_come_in_their_order() {
    // the first of each is good
    let kinds = [
        (&[1][..], 0),
        (&[2], 13),
        (&[0xff, 0x01], 13),
        (&[0x81, 0x00], 11),
        (&[0x82, 0x00], 11),
        (&[0x81, 0x80, 0x80, 0x80, 0x10], 11),
    ];
    let lengths = [
        (&[8][..], 0),
        (&[33], 1),
        (&[0xff, 0xff, 0xff, 0xff, 0x0f], 1),
        (&[0x88, 0x00], 11),
        (&[0xa1, 0x00], 11),
        (&[0xff, 0xff, 0xff, 0xff, 0xff], 11),
    ];
    let quotients = [
        (&[10][..], 0),
        (&[0x80, 0x02], 2),
        (&[0xff, 0xff, 0xff, 0xff, 0x0f], 2),
        (&[0x8a, 0x00], 11),
        (&[0x80, 0x82, 0x00], 11),
        (&[0x80, 0x80, 0x80, 0x80, 0x10], 11),
    ];
    let hops = [
        (&[1][..], 0),
        (&[0], 3),
        (&[0x80, 0x80, 0x04], 3),
        (&[0x81, 0x00], 11),
        (&[0x80, 0x00], 11),
        (&[0x80, 0x80, 0x80, 0x80, 0x80], 11),
    ];
    for choice in 0..6usize.pow(4) {
        let numbers = [
            kinds[choice % 6],
            lengths[choice / 6 % 6],
            quotients[choice / 36 % 6],
            hops[choice / 216],
        ];
        let bytes = numbers.map(|(bytes, _)| bytes).concat();
        let (mut place, mut answer) = (0, Ok(Some(([1, 8, TEN, 1], 4))));
        for (number, refusal) in numbers {
            // up to the number's last byte
            for cut in place.max(1)..place + number.len() {
                assert_eq!(record_at(&bytes[..cut], 0), Err((12, cut)), "{bytes:x?}");
            }
            if refusal > 0 {
                answer = Err((refusal, place));
                place += number.len();
                break;
            }
            place += number.len();
        }
        for cut in place..=bytes.len() {
            assert_eq!(first(&bytes[..cut]), answer, "{:x?}", &bytes[..cut]);
        }
    }
}

/// `Records` over random bytes and streams: the records, the places and the refusal of the second program, then nothing more.
#[test]
fn records_do_what_the_call_does() {
    let mut random = Random::new(45);
    let (mut ended, mut refused) = (0, 0);
    for round in 0..40_000 {
        let mut bytes = if round % 4 == 0 {
            (0..random.below(9)).map(|_| random.below(4) as u8).collect()
        } else {
            let count = random.below(12) as usize;
            bytes_of(&random_records(&mut random, count))
        };
        if round % 2 == 0 && !bytes.is_empty() {
            let i = random.below(bytes.len() as u64) as usize;
            bytes[i] = random.number() as u8;
        }
        let (read, refusal) = follow(&bytes);
        let mut records = Records::new(&bytes);
        let mut place = 0;
        assert_eq!(records.place(), 0);
        for (record, next) in read {
            assert_eq!(records.next().map(|read| read.map(numbers)), Some(Ok(record)));
            assert_eq!(records.place(), next, "{bytes:x?}");
            place = next;
        }
        match refusal {
            Some(refusal) => {
                assert_eq!(records.next().map(|read| read.map_err(fault)), Some(Err(refusal)));
                refused += 1;
            }
            None => {
                assert_eq!(place, bytes.len());
                ended += 1;
            }
        }
        for _ in 0..3 {
            assert_eq!(records.next(), None, "{bytes:x?}");
            assert_eq!(records.place(), place);
        }
    }
    assert!(ended > 10_000 && refused > 10_000, "{ended} {refused}");
}
