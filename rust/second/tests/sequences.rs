//! Random sequences of updates on tables of many sizes, and how often each kind of call has to come.

use second::both::sequence::{supply, Run, Seen};
use second::random::Random;
use std::ops::{Range, RangeInclusive};
use std::thread;

/// Each of these refusals, and sets and removals of each of these numbers of writes, came at least so often.
fn frequent(
    seen: &Seen,
    least: usize,
    refusals: &[usize],
    sets: RangeInclusive<usize>,
    removals: RangeInclusive<usize>,
) {
    for &number in refusals {
        assert!(seen.refused[number] >= least, "refusal {number}: {seen:?}");
    }
    for writes in sets {
        assert!(seen.sets[writes] >= least, "sets of {writes} writes: {seen:?}");
    }
    for writes in removals {
        assert!(seen.removals[writes] >= least, "removals of {writes} writes: {seen:?}");
    }
}

/// Mends of each of these numbers of writes came at least so often.
fn mended(seen: &Seen, least: usize, writes: RangeInclusive<usize>) {
    for writes in writes {
        assert!(seen.mends[writes] >= least, "mends of {writes} writes: {seen:?}");
    }
}

/// An empty table of so many slots, and one call in `odd` at odds with its filling.
fn start(seed: u64, slots: usize, odd: u64, seen: &mut Seen) -> Run<'_> {
    let mut random = Random::new(seed);
    let supply = supply(&mut random, slots);
    Run::new(random, supply, slots, odd, seen)
}

/// Sequences of 200 calls on tables of 1 to `most` slots.
fn small_tables(seeds: Range<u64>, most: u64) -> Seen {
    let mut seen = Seen::default();
    for seed in seeds {
        let slots = 1 + Random::new(seed).below(most) as usize;
        start(seed, slots, 5, &mut seen).calls(200);
    }
    assert!(seen.full > 3000 && seen.empty > 3000, "{seen:?}");
    assert!(seen.edge_moves > 2000, "{seen:?}");
    assert!(seen.other_hop > 500 && seen.same_hop > 500, "{seen:?}");
    seen
}

#[test]
fn sequences_on_up_to_12_slots() {
    let seen = small_tables(0..250, 12);
    frequent(&seen, 300, &[1, 2, 3, 5, 6, 7, 8, 9, 10], 1..=5, 1..=5);
    mended(&seen, 300, 0..=5);
}

#[test]
fn sequences_on_up_to_64_slots() {
    let seen = small_tables(250..1000, 64);
    frequent(&seen, 1000, &[1, 2, 3, 5, 6, 7, 8, 9, 10], 1..=8, 1..=8);
    frequent(&seen, 20, &[], 1..=17, 1..=18);
    mended(&seen, 20, 0..=17);
}

/// Sequences on 4,096 slots, each in a thread of its own: sets in an empty table up to so many entries, then 5,000 calls. One of
/// these in `odd` is against the filling or emptying, which turn at `least` entries and at a full table.
fn large_tables(seeds: Range<u64>, entries: usize, least: usize, odd: u64) -> Seen {
    let sequence = |seed| {
        let mut seen = Seen::default();
        let mut run = start(seed, 4096, odd, &mut seen);
        run.prefill(entries);
        run.filling = entries < 4096;
        run.least = least;
        run.calls(5000);
        seen
    };
    let mut all = Seen::default();
    thread::scope(|scope| {
        let threads: Vec<_> = seeds.map(|seed| scope.spawn(move || sequence(seed))).collect();
        threads.into_iter().for_each(|thread| all += thread.join().unwrap());
    });
    all
}

#[test]
fn sequences_on_4096_slots_from_empty() {
    let seen = large_tables(2000..2008, 0, 0, 40);
    frequent(&seen, 100, &[1, 2, 3, 7, 8, 9, 10], 1..=17, 2..=9);
    frequent(&seen, 20, &[5, 6], 1..=17, 2..=18);
    mended(&seen, 20, 0..=10);
}

#[test]
fn sequences_on_4096_slots_from_full() {
    let seen = large_tables(2008..2016, 4096, 0, 40);
    frequent(&seen, 100, &[1, 2, 6, 7, 8, 9, 10], 1..=7, 2..=18);
    assert!(seen.edge_moves > 20_000, "{seen:?}");
    mended(&seen, 20, 0..=10);
}

#[test]
fn sequences_on_4096_slots_about_full() {
    let seen = large_tables(2016..2020, 4090, 4060, 3);
    frequent(&seen, 100, &[1, 2, 3, 5, 6, 7, 8, 9, 10], 1..=6, 2..=9);
    frequent(&seen, 20, &[], 1..=17, 2..=18);
    mended(&seen, 20, 0..=8);
    assert!(
        seen.other_hop > 300 && seen.same_hop > 300 && seen.full > 300,
        "{seen:?}"
    );
}
