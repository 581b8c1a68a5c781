//! The list calls of the library and of the second program, compared.

use hawkmortar::{list as proved, NextHop, MAX_ROUTES};
use second::both::list::{check, edges, lookup, lookups, one, set_p, with_one_fault};
use second::ip;
use second::random::{Random, Rows};
use std::thread;

/// Both programs test the list alike, and answer each key alike.
fn same(rows: &Rows, keys: &[u32]) {
    let _ = check(rows);
    let _ = lookups(rows, keys);
}

#[test]
fn board_cases_a_to_e() {
    let mut rows = set_p();
    assert_eq!(lookup(&rows, ip([10, 20, 4, 9])), Ok(2));
    assert_eq!(lookup(&rows, ip([10, 20, 4, 10])), Ok(3));
    assert_eq!(lookup(&rows, ip([10, 20, 5, 0])), Ok(2));
    assert_eq!(lookup(&rows, ip([255, 255, 255, 255])), Ok(7));
    same(&rows, &edges(&rows, 0, 1));
    rows.addresses.pop();
    rows.lengths.pop();
    rows.hops.pop();
    assert_eq!(lookup(&rows, ip([11, 0, 0, 0])), Ok(0));
    same(&rows, &edges(&rows, 0, 1));
}

#[test]
fn limits_of_lengths_and_hops() {
    assert_eq!(lookup(&one(7, 32, 1), 7), Ok(1));
    assert_eq!(lookup(&one(7, 32, 1), 8), Ok(0));
    assert_eq!(lookup(&one(7, 33, 1), 7), Err((1, 0)));
    assert_eq!(lookup(&one(0, u32::MAX, 1), 7), Err((1, 0)));
    assert_eq!(lookup(&one(0, 0, 1), u32::MAX), Ok(1));
    assert_eq!(lookup(&one(0, 0, 0), 7), Err((3, 0)));
    assert_eq!(lookup(&one(0, 0, 65_535), 7), Ok(65_535));
    assert_eq!(lookup(&one(0, 0, 65_536), 7), Err((3, 0)));
    assert_eq!(lookup(&one(0, 0, u32::MAX), 7), Err((3, 0)));
    assert_eq!(lookup(&one(1 << 31, 0, 1), 7), Err((2, 0)));
    assert_eq!(lookup(&one(1 << 31, 1, 1), u32::MAX), Ok(1));
}

#[test]
fn limits_of_the_list() {
    assert_eq!(MAX_ROUTES, 4096);
    let mut rows = Rows::default();
    assert_eq!(check(&rows), Ok(0));
    assert_eq!(lookup(&rows, 7), Ok(0));
    for i in 0..4096 {
        rows.push(i << 8, 24, i + 1);
    }
    assert_eq!(check(&rows), Ok(4096));
    assert_eq!(lookup(&rows, 4095 << 8), Ok(4096));
    rows.push(4096 << 8, 24, 4097);
    assert_eq!(check(&rows), Err((8, 0)));
    assert_eq!(lookup(&rows, 0), Err((8, 0)));
    for row in 0..3 {
        for extra in [0, 2] {
            let mut rows = set_p();
            let row = [&mut rows.addresses, &mut rows.lengths, &mut rows.hops]
                .into_iter()
                .nth(row)
                .unwrap();
            row.resize(4 + extra, 1);
            assert_eq!(check(&rows), Err((8, 0)));
            assert_eq!(lookup(&rows, 7), Err((8, 0)));
        }
    }
}

#[test]
fn each_refusal_at_each_place() {
    for (rows, fault) in with_one_fault(&set_p()) {
        assert_eq!(check(&rows), Err(fault));
        assert_eq!(lookup(&rows, 7), Err(fault));
    }
}

#[test]
fn refusals_come_in_their_order() {
    // of one entry 1 before 2 before 3 before 4
    assert_eq!(check(&one(1, 33, 0)), Err((1, 0)));
    assert_eq!(check(&one(1, 24, 0)), Err((2, 0)));
    let mut rows = one(0, 24, 1);
    rows.push(0, 24, 0);
    assert_eq!(check(&rows), Err((3, 1)));
    // an entry is refused before the next is looked at
    rows.push(0, 33, 1);
    rows.hops[1] = 1;
    assert_eq!(check(&rows), Err((4, 1)));
    // the size before any entry
    rows.hops.pop();
    assert_eq!(check(&rows), Err((8, 0)));
}

#[test]
fn no_match_is_no_hop() {
    let rows = one(ip([10, 0, 0, 0]), 8, 5);
    same(&rows, &edges(&rows, 0, 1));
    let found = proved::lookup(&rows.addresses, &rows.lengths, &rows.hops, ip([11, 0, 0, 0]));
    assert_eq!(found, Ok(None));
    let found = proved::lookup(&rows.addresses, &rows.lengths, &rows.hops, ip([10, 9, 9, 9]));
    assert_eq!(found, Ok(NextHop::new(5)));
}

#[test]
fn random_small_lists() {
    let mut random = Random::new(1);
    let (mut accepted, mut refused) = (0, [0; 9]);
    for round in 0..100_000 {
        let entries = random.below(12) as usize;
        let mut rows = Rows::valid(
            &mut random,
            entries,
            if round % 3 == 0 { u32::MAX } else { 0x8180_c0e0 },
        );
        for _ in 0..random.below(4) {
            rows.damage(&mut random);
        }
        match check(&rows) {
            Ok(_) => accepted += 1,
            Err((number, _)) => refused[usize::from(number)] += 1,
        }
        let mut keys = edges(&rows, 0, 1);
        keys.push(random.number() as u32);
        same(&rows, &keys);
    }
    // the lists are of every kind
    for number in [1, 2, 3, 4, 8] {
        assert!(refused[number] > 1000, "{refused:?}");
    }
    assert!(accepted > 20_000, "{accepted}");
}

/// Every edge of every prefix on 50 lists; then 50 times one fault somewhere. Two threads have 25 lists each.
#[test]
fn random_lists_of_4096() {
    let lists = |mut random: Random| {
        for _ in 0..25 {
            let rows = Rows::valid(&mut random, 4096, u32::MAX);
            assert_eq!(check(&rows), Ok(4096));
            lookups(&rows, &edges(&rows, 0, 1));
            for _ in 0..50 {
                let mut faulty = rows.clone();
                faulty.damage(&mut random);
                same(&faulty, &[0]);
            }
        }
    };
    thread::scope(|scope| {
        scope.spawn(|| lists(Random::new(2)));
        lists(Random::new(5));
    });
}

/// Every edge of every prefix on lists of which many prefixes lie inside each other.
#[test]
fn every_edge_of_a_list_of_4096() {
    let mut random = Random::new(3);
    for rows in [
        Rows::valid(&mut random, 4096, 0xf0f0_f0f0),
        Rows::near(&mut random, 4096, 65_535),
        Rows::routed(&mut random, 4096, 300),
    ] {
        assert_eq!(check(&rows), Ok(4096));
        lookups(&rows, &edges(&rows, 0, 1));
    }
}
