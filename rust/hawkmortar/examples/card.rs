//! A card that is pulled in the middle of an update, comes back half-written and is mended: `card [SEED] [ROUNDS]`.
//!
//! The card is a file with 8 bytes for each slot. In each round a child process makes random updates on it, one slot to a write, and
//! ends without notice after some of the writes. This process is left with the file, and with the child's seed, from which it knows
//! the routes that lookups have to answer for. It mends the table in the file, in some rounds after a child that ended in the
//! middle of a mend.

use hawkmortar::{Entry, NextHop, Plan, Prefix, Table, Write};
use std::collections::BTreeMap;
use std::error::Error;
use std::fs::{self, File};
use std::os::unix::fs::FileExt;
use std::path::{Path, PathBuf};
use std::process::{self, Command};
use std::{env, time::SystemTime};

const SLOTS: usize = 32;

/// Lengths of the prefixes, of which there are up to four each, around one address.
const LENGTHS: [u32; 14] = [0, 4, 8, 10, 12, 14, 15, 16, 17, 20, 22, 24, 28, 32];

/// With this code a child ends where the card is pulled.
const PULLED: i32 = 3;

type Routes = BTreeMap<Prefix, NextHop>;
type Result<T> = std::result::Result<T, Box<dyn Error>>;

fn main() -> Result<()> {
    let arguments: Vec<String> = env::args().skip(1).collect();
    match &arguments.iter().map(String::as_str).collect::<Vec<_>>()[..] {
        ["update", card, seed, writes] => {
            updates(seed.parse()?, writes.parse()?, |write| put(card.as_ref(), write))?;
            process::exit(PULLED)
        }
        ["mend", card, writes] => {
            let plan = table_on(card.as_ref())?.plan_mend()?;
            let made = plan.writes().take(writes.parse()?);
            made.for_each(|write| put(card.as_ref(), write));
            process::exit(PULLED)
        }
        [] => rounds(SystemTime::UNIX_EPOCH.elapsed()?.as_secs(), 20),
        [seed] => rounds(seed.parse()?, 20),
        [seed, count] => rounds(seed.parse()?, count.parse()?),
        _ => Err("usage: card [SEED] [ROUNDS]".into()),
    }
}

/// All rounds; the story of the first that was half-written, and how many were.
fn rounds(seed: u64, count: usize) -> Result<()> {
    println!("seed {seed}, {count} rounds");
    let card = Card(env::temp_dir().join(format!("hawkmortar-card-{}", process::id())));
    let (mut random, mut above, mut below, mut mends) = (Random(seed), 0, 0, 0);
    for _ in 0..count {
        let mut story = Vec::new();
        let (twice, mend_pulled) = round(&card.0, &mut random, &mut story)?;
        if twice.is_some() && above + below == 0 {
            println!("{}", story.join("\n"));
        }
        above += usize::from(twice.is_some_and(|prefix| prefix.length() >= 16));
        below += usize::from(twice.is_some_and(|prefix| prefix.length() <= 15));
        mends += usize::from(mend_pulled);
    }
    println!("half-written: {above} above the pool, {below} below; pulled in a mend: {mends}; every lookup was right");
    Ok(())
}

/// One round: the prefix that stood twice, and whether the card was pulled in the middle of the mend.
fn round(card: &Path, random: &mut Random, story: &mut Vec<String>) -> Result<(Option<Prefix>, bool)> {
    let (seed, writes) = (random.below(1 << 32), random.below(250));
    fs::write(card, [0; 8 * SLOTS])?;
    pull("update", card, &[seed, writes])?;
    let Cut { update, routes, when } = updates(seed, writes as usize, |_| ())?;
    let table = table_on(card)?;
    check(&table, &routes);
    let twice = twice(&table);
    if let Some((prefix, earlier, later)) = twice {
        story.push(format!("{update}: {prefix} stands in slots {earlier} and {later}"));
        story.push(format!("lookups answer for the routes {when} the update"));
    }
    let mend_pulled = mend(card, &routes, random, story)?;

    let (addresses, tags) = rows(card)?;
    let mut table = Table::from_rows(addresses, tags)?;
    let mut held: Routes = table.iter().map(|entry| (entry.prefix, entry.hop)).collect();
    assert_eq!(held, routes, "{update}");
    let count = held.len();
    story.push(format!("the card holds these {count} routes and takes updates"));
    for _ in 0..5 {
        let (_, plan, _) = random_update(random, &table, &mut held)?;
        table.apply(&plan, plan.len())?;
        check(&table, &held);
    }
    Ok((twice.map(|(prefix, ..)| prefix), mend_pulled))
}

/// Mends the card, on which lookups answer for these routes all along; whether it was pulled in the middle of that.
fn mend(card: &Path, routes: &Routes, random: &mut Random, story: &mut Vec<String>) -> Result<bool> {
    let mut plan = table_on(card)?.plan_mend()?;
    let (made, of) = (random.below(2 * plan.len() as u64 + 1), plan.len());
    let pulled = (1..of as u64).contains(&made);
    if pulled {
        pull("mend", card, &[made])?;
        check(&table_on(card)?, routes);
        story.push(format!("pulled again after {made} of {of} writes of the mend"));
        plan = table_on(card)?.plan_mend()?;
    }
    for (write, k) in plan.writes().zip(1..) {
        put(card, write);
        check(&table_on(card)?, routes);
        let holds = |entry: Entry| format!("holds {}", entry.prefix);
        let now = write.entry().map_or("is free".to_string(), holds);
        let (of, slot) = (plan.len(), write.slot());
        story.push(format!("mend, write {k} of {of}: slot {slot} {now}, lookups as before"));
    }
    Ok(pulled)
}

/// Where the card is pulled: the update, and the routes that show then, those before it or after it.
struct Cut {
    update: String,
    routes: Routes,
    when: &'static str,
}

/// Random updates of an empty table, of which so many writes are made.
fn updates(seed: u64, mut left: usize, mut put: impl FnMut(Write)) -> Result<Cut> {
    let (mut random, mut table, mut routes) = (Random(seed), Table::new(SLOTS)?, Routes::new());
    loop {
        let before = routes.clone();
        let (name, plan, absent) = random_update(&mut random, &table, &mut routes)?;
        let made = left.min(plan.len());
        plan.writes().take(made).for_each(&mut put);
        if made < plan.len() {
            let update = format!("{name}, pulled after {made} of {} writes", plan.len());
            // a set of an absent prefix shows at its last write, every other plan at its first
            let shown = !absent && made > 0;
            let (routes, when) = if shown { (routes, "after") } else { (before, "before") };
            return Ok(Cut { update, routes, when });
        }
        table.apply(&plan, made)?;
        left -= made;
    }
}

/// An update, and whether it sets an absent prefix; the routes become those after it.
fn random_update(random: &mut Random, table: &Table, routes: &mut Routes) -> Result<(String, Plan, bool)> {
    if routes.len() == SLOTS || (!routes.is_empty() && random.below(3) == 0) {
        let one = random.below(routes.len() as u64) as usize;
        let prefix = *routes.keys().nth(one).expect("a route");
        routes.remove(&prefix);
        return Ok((format!("remove {prefix}"), table.plan_remove(prefix)?, false));
    }
    let length = LENGTHS[random.below(LENGTHS.len() as u64) as usize];
    let prefix = prefix(length, random.below(4));
    let hop = NextHop::new(1 + random.below(9) as u16).expect("not 0");
    let absent = routes.insert(prefix, hop).is_none();
    Ok((format!("set {prefix} {hop}"), table.plan_set(prefix, hop)?, absent))
}

/// The prefix of a length around the one address, with its last bits turned.
fn prefix(length: u32, turned: u64) -> Prefix {
    let bits = (0x0a14_0409 >> (32 - length) ^ turned) << (32 - length);
    Prefix::new(bits as u32, length).expect("no bits behind the length")
}

/// Lookups answer for these routes, at both ends of each prefix that there can be and beside them.
fn check(table: &Table, routes: &Routes) {
    for prefix in LENGTHS
        .iter()
        .flat_map(|&length| (0..4).map(move |turned| prefix(length, turned)))
    {
        let first = u32::from(prefix.address());
        let last = first | (u64::from(u32::MAX) >> prefix.length()) as u32;
        for q in [first, last, first.wrapping_sub(1), last.wrapping_add(1)] {
            let matches = |p: &Prefix| u64::from(q ^ u32::from(p.address())) >> (32 - p.length()) == 0;
            let matching = routes.iter().filter(|(p, _)| matches(p));
            let longest = matching.max_by_key(|(p, _)| p.length());
            assert_eq!(table.lookup(q), longest.map(|(_, &hop)| hop), "{q:08x}");
        }
    }
}

/// The prefix that stands in two slots, with these.
fn twice(table: &Table) -> Option<(Prefix, usize, usize)> {
    let mut slots = BTreeMap::new();
    table.iter().find_map(|Entry { prefix, slot, .. }| {
        let earlier = slots.insert(prefix, slot)?;
        Some((prefix, earlier, slot))
    })
}

/// The card's file, removed in the end.
struct Card(PathBuf);

impl Drop for Card {
    fn drop(&mut self) {
        let _ = fs::remove_file(&self.0);
    }
}

/// A child that works on the card until it is pulled.
fn pull(work: &str, card: &Path, numbers: &[u64]) -> Result<()> {
    let mut child = Command::new(env::current_exe()?);
    child.arg(work).arg(card).args(numbers.iter().map(u64::to_string));
    assert_eq!(child.status()?.code(), Some(PULLED), "{work}");
    Ok(())
}

fn put(card: &Path, write: Write) {
    let cell = u64::from(write.tag()) << 32 | u64::from(write.address());
    let file = File::options().write(true).open(card).expect("the card's file");
    let written = file.write_at(&cell.to_le_bytes(), 8 * write.slot() as u64);
    assert_eq!(written.expect("the card takes a write"), 8);
}

fn rows(card: &Path) -> Result<(Vec<u32>, Vec<u32>)> {
    let bytes = fs::read(card)?;
    let cells = bytes
        .chunks(8)
        .map(|cell| u64::from_le_bytes(cell.try_into().expect("8 bytes")));
    Ok(cells.map(|cell| (cell as u32, (cell >> 32) as u32)).unzip())
}

fn table_on(card: &Path) -> Result<Table> {
    let (addresses, tags) = rows(card)?;
    Ok(Table::from_half_written(addresses, tags)?)
}

/// Random numbers of a seed (SplitMix64).
struct Random(u64);

impl Random {
    fn below(&mut self, bound: u64) -> u64 {
        self.0 = self.0.wrapping_add(0x9e37_79b9_7f4a_7c15);
        let z = (self.0 ^ (self.0 >> 30)).wrapping_mul(0xbf58_476d_1ce4_e5b9);
        let z = (z ^ (z >> 27)).wrapping_mul(0x94d0_49bb_1331_11eb);
        (z ^ (z >> 31)) % bound
    }
}
