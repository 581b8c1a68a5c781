//! The lesson of docs/CLASS.md: four beliefs about route tables and five errors, each with what the tables really do, a table that
//! is read out while it is updated, what the test of a table compares, and the mend of a table that an update left half-written.
//! `make class` prints it.

use hawkmortar::{dxr, list, slots, Download, DxrTable, Entry, NextHop, Plan, Prefix, RangeTable, Refusal, Table};
use std::fmt::Write as _;
use std::net::Ipv4Addr;

/// A route as text has it: prefix and hop.
type Route = (&'static str, u16);

/// The board's set P.
const BOARD: [Route; 5] = [
    ("10.0.0.0/8", 1),
    ("10.20.0.0/16", 2),
    ("10.20.4.0/24", 3),
    ("10.20.4.9/32", 2),
    ("0.0.0.0/0", 7),
];

/// A set with several prefixes of some lengths.
const RUNS: [Route; 10] = [
    ("10.20.4.9/32", 1),
    ("10.20.4.10/32", 2),
    ("10.20.1.0/24", 3),
    ("10.20.2.0/24", 4),
    ("10.20.3.0/24", 5),
    ("10.20.4.0/24", 6),
    ("10.20.0.0/16", 7),
    ("10.30.0.0/16", 8),
    ("10.0.0.0/8", 9),
    ("0.0.0.0/0", 10),
];

/// A set below the pool, with several prefixes of one length.
const SHORT: [Route; 4] = [
    ("10.16.0.0/12", 1),
    ("10.0.0.0/8", 2),
    ("11.0.0.0/8", 3),
    ("12.0.0.0/8", 4),
];

fn main() -> Result<(), Refusal> {
    print!("{}", lesson()?);
    Ok(())
}

/// The whole lesson, part by part.
pub fn lesson() -> Result<String, Refusal> {
    let mut page = String::new();
    let parts = [
        update_is_a_row_of_writes,
        removal_is_no_addition_backwards,
        no_route_is_an_answer,
        tables_of_one_set_agree,
        slot_is_opened_first,
        gap_is_filled_from_its_own_run,
        default_route_matches_all,
        chunk_starts_at_0,
        hop_0_is_refused,
        locked_reader,
        download_while_updates_go_on,
        reader_by_slot,
        compared_with_a_run,
        set_that_was_cut,
        removal_that_was_cut,
        either_copy_taken_out,
        entry_written_on_itself,
        images_that_are_not_mended,
    ];
    for part in parts {
        part(&mut page)?;
    }
    Ok(page)
}

/// 1. A set of three writes, with a lookup before and after each.
fn update_is_a_row_of_writes(page: &mut String) -> Result<(), Refusal> {
    line(page, "1. An update is a row of writes");
    let mut table = board()?;
    let q = "10.20.4.8";
    let plan = table.plan_set(prefix("10.20.4.8/31"), hop(9))?;
    line(page, &format!("set 10.20.4.8/31 9 is {} writes", plan.len()));
    line(page, &format!("before: {}", found(q, table.lookup(address(q)))));
    for k in 1..=plan.len() {
        table.apply(&plan, k)?;
        let answer = found(q, table.lookup(address(q)));
        line(page, &format!("after write {k}, {}: {answer}", written(&plan, k)));
    }
    Ok(())
}

/// 2. A set, and a removal beside it that takes one write more.
fn removal_is_no_addition_backwards(page: &mut String) -> Result<(), Refusal> {
    line(page, "2. A removal can take one write more than the set");
    let mut table = board()?;
    for (text, number) in [("10.20.5.0/24", 4), ("10.20.6.0/24", 5)] {
        let writes = table.set(prefix(text), hop(number))?;
        line(page, &format!("set {text} {number}: {writes} writes"));
    }
    let plan = table.plan_remove(prefix("10.20.4.0/24"))?;
    line(page, &format!("remove 10.20.4.0/24: {} writes", plan.len()));
    for k in 1..=plan.len() {
        line(page, &format!("write {k}: {}", written(&plan, k)));
    }
    Ok(())
}

/// 3. An address beside a prefix, in the four tables.
fn no_route_is_an_answer(page: &mut String) -> Result<(), Refusal> {
    line(page, "3. Where no prefix matches there is no hop");
    let tables = Tables::of(&BOARD[..4])?;
    tables.ask(page, "10.255.255.255")?;
    tables.ask(page, "11.0.0.0")
}

/// 4. The first and the last address, in the four tables.
fn tables_of_one_set_agree(page: &mut String) -> Result<(), Refusal> {
    line(page, "4. The tables of one set agree, at the last address too");
    let tables = Tables::of(&[("0.0.0.0/1", 1), ("255.255.255.0/24", 2), ("255.255.255.255/32", 3)])?;
    for q in ["0.0.0.0", "128.0.0.0", "255.255.255.254", "255.255.255.255"] {
        tables.ask(page, q)?;
    }
    Ok(())
}

/// 5. A set of two writes, in its order and in two others, with a lookup after the first write of each.
fn slot_is_opened_first(page: &mut String) -> Result<(), Refusal> {
    line(page, "5. The slot is opened, then written");
    let table = filled(8, &[("10.0.0.0/8", 1), ("10.20.0.0/16", 2)])?;
    let plan = table.plan_set(prefix("10.20.4.0/24"), hop(3))?;
    let (moved, put) = plan.cells().split_at(3);
    // the moved entry's old place is where the new entry goes
    let cleared = [put[0], 0, 0];
    let orders = [
        ("as planned", vec![moved, put]),
        ("old place cleared first", vec![&cleared, moved, put]),
        ("new entry first", vec![put, moved]),
    ];
    for (name, writes) in orders {
        let (mut addresses, mut tags) = (table.addresses().to_vec(), table.tags().to_vec());
        slots::apply(&mut addresses, &mut tags, &writes.concat(), 1)?;
        let q = "10.20.5.0";
        let answer = found(q, slots::lookup(&addresses, &tags, address(q))?);
        line(
            page,
            &format!("{name}, {} writes, after the first: {answer}", writes.len()),
        );
    }
    Ok(())
}

/// 6. A removal from the middle of a run, with and without the move of the run's own last entry.
fn gap_is_filled_from_its_own_run(page: &mut String) -> Result<(), Refusal> {
    line(page, "6. The gap is filled from its own run");
    let routes = [("10.20.4.0/24", 3), ("10.20.5.0/24", 4), ("10.20.0.0/16", 2)];
    let table = filled(8, &routes)?;
    let plan = table.plan_remove(prefix("10.20.4.0/24"))?;
    // the /16 to the gap, and its own slot cleared
    let (address, tag) = (table.addresses()[2], table.tags()[2]);
    let without = [0, address, tag, 2, 0, 0];
    for (name, cells) in [("planned", plan.cells()), ("without the edge move", &without)] {
        let (mut addresses, mut tags) = (table.addresses().to_vec(), table.tags().to_vec());
        let writes = slots::apply(&mut addresses, &mut tags, cells, cells.len() / 3)?;
        line(page, &format!("{name}, {writes} writes: {}", test(&addresses, &tags)));
    }
    Ok(())
}

/// 7. A set of the default route alone.
fn default_route_matches_all(page: &mut String) -> Result<(), Refusal> {
    line(page, "7. Length 0 matches every address");
    let tables = Tables::of(&BOARD[4..])?;
    for q in ["0.0.0.0", "127.255.255.255", "255.255.255.255"] {
        tables.ask(page, q)?;
    }
    line(page, &format!("ranges: {}", shown(&tables.ranges)));
    Ok(())
}

/// 8. A range that goes on into a chunk with entries of its own, and the chunk without the entry that it makes there.
fn chunk_starts_at_0(page: &mut String) -> Result<(), Refusal> {
    const CHUNK: usize = 10 << 8 | 1;
    line(page, "8. Every chunk has an entry that starts at 0");
    let routes = [("10.0.0.0/15", 1), ("10.1.128.0/17", 2), ("10.1.192.0/18", 3)];
    let Tables { ranges, dxr, .. } = Tables::of(&routes)?;
    line(page, &format!("ranges: {}", shown(&ranges)));
    let mut main = dxr.main().to_vec();
    chunk(page, CHUNK, &main, dxr.words());
    // two short entries, which start at 128 x 256 and 192 x 256
    main[CHUNK] = 2 << 30 | 2 << 16;
    chunk(page, CHUNK, &main, &[0x8002_c003]);
    Ok(())
}

/// A chunk's words, and what a lookup at its first address says.
fn chunk(page: &mut String, chunk: usize, main: &[u32], words: &[u32]) {
    let answer = match dxr::lookup(main, words, (chunk as u32) << 16) {
        Ok(hop) => format!("hop {}", hop_or_none(hop)),
        Err(refusal) => refusal.to_string(),
    };
    let words: Vec<String> = words.iter().map(|word| format!("{word:08x}")).collect();
    let words = words.join(" ");
    line(
        page,
        &format!(
            "chunk {chunk}, main word {:08x}, range words {words}: {answer}",
            main[chunk]
        ),
    );
}

/// 9. A list with hop 0, and a set without a route for an address.
fn hop_0_is_refused(page: &mut String) -> Result<(), Refusal> {
    line(page, "9. 0 is an answer, never a hop");
    if let Err(refusal) = list::check(&[0], &[0], &[0]) {
        line(page, &format!("0.0.0.0/0 with hop 0: {refusal}"));
    }
    Tables::of(&[("128.0.0.0/1", 1)])?.ask(page, "0.0.0.0")
}

/// 10. A reader that holds a lock from its first slot to its last, while an update comes with each entry that it reads.
fn locked_reader(page: &mut String) -> Result<(), Refusal> {
    line(page, "10. A reader that locks the table");
    let mut table = board()?;
    let (q, mut waiting, mut history) = ("10.20.4.10", Vec::new(), Vec::new());
    let seen = |page: &mut String, what: &str, table: &Table, history: &[String]| {
        let history = match history {
            [] => "empty".to_string(),
            [.., last] => format!("{} lines, the last {last}", history.len()),
        };
        let answer = found(q, table.lookup(address(q)));
        line(page, &format!("{what}; {answer}; history {history}"));
    };
    for (entry, number) in table.iter().zip(21..) {
        waiting.push(("10.20.4.0/24", number));
        let what = format!("slot {} is read, set 10.20.4.0/24 {number} waits", entry.slot);
        seen(page, &what, &table, &history);
    }
    for (text, number) in waiting {
        let writes = table.set(prefix(text), hop(number))?;
        history.push(format!("set {text} {number}, writes {writes}"));
    }
    seen(page, "the lock is given back", &table, &history);
    Ok(())
}

/// 11. A download of the board's table: one prefix moves to a slot that was read, one is added behind the walk, one removed ahead.
fn download_while_updates_go_on(page: &mut String) -> Result<(), Refusal> {
    line(page, "11. A download while updates go on");
    let mut table = board()?;
    let mut walk = Download::new();
    for _ in 0..3 {
        call(page, &mut walk, &table)?;
    }
    let set = table.plan_set(prefix("10.10.0.0/25"), hop(5))?;
    write(page, &mut table, "set 10.10.0.0/25 5", &set, 1)?;
    write(page, &mut table, "set 10.10.0.0/25 5", &set, 2)?;
    call(page, &mut walk, &table)?;
    write(page, &mut table, "set 10.10.0.0/25 5", &set, 3)?;
    let remove = table.plan_remove(prefix("10.20.4.9/32"))?;
    write(page, &mut table, "remove 10.20.4.9/32", &remove, 1)?;
    call(page, &mut walk, &table)
}

/// One write of a plan.
fn write(page: &mut String, table: &mut Table, name: &str, plan: &Plan, k: usize) -> Result<(), Refusal> {
    table.apply(plan, k)?;
    line(page, &format!("{name}, write {k}: {}", written(plan, k)));
    Ok(())
}

/// A step of a walk, and the slots as it saw them.
fn call(page: &mut String, walk: &mut Download, table: &Table) -> Result<(), Refusal> {
    let given = match walk.next(table)? {
        Some(route) => route.to_string(),
        None => "the end".to_string(),
    };
    let slots: Vec<String> = (0..table.slots()).map(|slot| in_slot(table, slot)).collect();
    line(page, &format!("{given}, of {}", slots.join(" ")));
    Ok(())
}

/// 12. A reader that goes by slot, with a removal between two of its steps, and with a set.
fn reader_by_slot(page: &mut String) -> Result<(), Refusal> {
    line(page, "12. The same table read by slot");
    let remove = board()?.plan_remove(prefix("10.20.4.0/24"))?;
    let set = board()?.plan_set(prefix("10.20.4.8/31"), hop(9))?;
    for (name, plan) in [("remove 10.20.4.0/24", remove), ("set 10.20.4.8/31 9", set)] {
        let mut table = board()?;
        let first: Vec<String> = (0..2).map(|slot| in_slot(&table, slot)).collect();
        let writes = table.apply(&plan, plan.len())?;
        let rest: Vec<String> = (2..table.slots()).map(|slot| in_slot(&table, slot)).collect();
        let (first, rest) = (first.join(" "), rest.join(" "));
        line(page, &format!("{first}; {name}, {writes} writes; {rest}"));
    }
    Ok(())
}

/// 13. A table with its runs, and how many comparisons each entry takes; then a prefix copied within its run, and behind it.
fn compared_with_a_run(page: &mut String) -> Result<(), Refusal> {
    line(page, "13. What S5 compares");
    let table = filled(12, &RUNS)?;
    let (with_runs, with_all) = show_runs(page, &table);
    let counts = format!("comparisons: {with_runs} with the runs, {with_all} with all earlier entries");
    line(page, &counts);
    for (from, to) in [(2, 5), (2, 7)] {
        let (mut addresses, mut tags) = (table.addresses().to_vec(), table.tags().to_vec());
        (addresses[to], tags[to]) = (addresses[from], tags[from]);
        let refused = slots::check(&addresses, &tags).expect_err("a prefix in two slots");
        line(page, &format!("{} in slot {to} too: {refused}", in_slot(&table, from)));
    }
    Ok(())
}

/// The slots of a table, by runs; the comparisons of all entries with their runs, and with all earlier entries.
fn show_runs(page: &mut String, table: &Table) -> (usize, usize) {
    let mut lengths = vec![None; table.slots()];
    for entry in table.iter() {
        lengths[entry.slot] = Some(entry.prefix.length());
    }
    let (mut slot, mut earlier, mut with_runs, mut with_all) = (0, 0, 0, 0);
    for run in lengths.chunk_by(|one, next| one == next) {
        line(page, &run[0].map_or("pool".to_string(), |n| format!("run of /{n}")));
        for in_run in 0..run.len() {
            let shown = format!("  slot {slot:<2}  {:<13}", in_slot(table, slot));
            if run[0].is_none() {
                line(page, shown.trim_end());
            } else {
                line(page, &format!("{shown}  {in_run} of {earlier} earlier entries"));
                (with_runs, with_all, earlier) = (with_runs + in_run, with_all + earlier, earlier + 1);
            }
            slot += 1;
        }
    }
    (with_runs, with_all)
}

/// 14. A set that was cut after two of its three writes, and its mend.
fn set_that_was_cut(page: &mut String) -> Result<(), Refusal> {
    line(page, "14. A set that was cut, and its mend");
    let table = filled(12, &RUNS)?;
    let plan = table.plan_set(prefix("10.20.4.11/32"), hop(11))?;
    show_mend(
        page,
        &table,
        "set 10.20.4.11/32 11",
        &plan,
        2,
        &["10.20.1.7", "10.20.4.11"],
    )
}

/// 15. A removal that was cut after its first write, and its mend.
fn removal_that_was_cut(page: &mut String) -> Result<(), Refusal> {
    line(page, "15. A removal that was cut, and its mend");
    let table = filled(12, &RUNS)?;
    let plan = table.plan_remove(prefix("10.20.2.0/24"))?;
    show_mend(
        page,
        &table,
        "remove 10.20.2.0/24",
        &plan,
        1,
        &["10.20.2.7", "10.20.4.11"],
    )
}

/// 16. Either copy taken out of the table of 14, and of one in which the copies have two hops.
fn either_copy_taken_out(page: &mut String) -> Result<(), Refusal> {
    line(page, "16. Either copy taken out");
    let mut table = filled(12, &RUNS)?;
    let set = table.plan_set(prefix("10.20.4.11/32"), hop(11))?;
    table.apply(&set, 2)?;
    let (addresses, mut tags) = (table.addresses().to_vec(), table.tags().to_vec());
    let (q, mend) = ("10.20.1.7", table.plan_mend()?);
    let later = take_out(page, "the later", (&addresses, &tags), mend.cells(), q)?;
    let cells = removal(&addresses, &tags, 2);
    let earlier = take_out(page, "the earlier", (&addresses, &tags), &cells, q)?;
    let equal = if later == earlier { "equal" } else { "not equal" };
    line(page, &format!("in the end the two tables are {equal}"));
    line(page, "with hop 12 in slot 6");
    tags[6] = 24 << 16 | 12;
    for (name, slot) in [("the later", 6), ("the earlier", 2)] {
        take_out(page, name, (&addresses, &tags), &removal(&addresses, &tags, slot), q)?;
    }
    Ok(())
}

/// 17. A mend below the pool, where the first entry of the run is the other copy; and one where it is another entry.
fn entry_written_on_itself(page: &mut String) -> Result<(), Refusal> {
    line(page, "17. A mend below the pool");
    let mut table = filled(8, &SHORT)?;
    let plan = table.plan_set(prefix("0.0.0.0/0"), hop(5))?;
    show_mend(page, &table, "set 0.0.0.0/0 5", &plan, 2, &["10.0.0.1", "12.0.0.1"])?;
    table.apply(&plan, 2)?;
    let (mut addresses, mut tags) = (table.addresses().to_vec(), table.tags().to_vec());
    let cells = removal(&addresses, &tags, 4);
    take_out(page, "the earlier", (&addresses, &tags), &cells, "10.0.0.1")?;
    line(page, "with 12.0.0.0/8 in slot 4 and 10.0.0.0/8 in slots 5 and 7");
    addresses.swap(4, 5);
    tags.swap(4, 5);
    let table = Table::from_half_written(addresses, tags)?;
    let (rows, mend) = ((table.addresses(), table.tags()), table.plan_mend()?);
    take_out(page, "the later", rows, mend.cells(), "12.0.0.1")?;
    take_out(page, "without the edge move", rows, &mend.cells()[3..], "12.0.0.1")?;
    Ok(())
}

/// 18. Four images that no cut of an update leaves.
fn images_that_are_not_mended(page: &mut String) -> Result<(), Refusal> {
    type Cells = Vec<(u32, u32)>;
    type Image = (&'static str, fn(&mut Cells));
    line(page, "18. What is not mended");
    let table = filled(12, &RUNS)?;
    let images: [Image; 4] = [
        ("10.20.1.0/24 in slots 2 and 5, with hops 3 and 12", |cells| {
            cells[5] = (cells[2].0, 24 << 16 | 12)
        }),
        ("10.20.1.0/24 in slots 2, 3 and 4", |cells| {
            (cells[3], cells[4]) = (cells[2], cells[2])
        }),
        (
            "10.20.1.0/24 in slots 2 and 3, 10.20.3.0/24 in slots 4 and 5",
            |cells| (cells[3], cells[5]) = (cells[2], cells[4]),
        ),
        (
            "10.20.1.0/24 in slots 2 and 5, slot 7 free, 10.30.0.0/16 in slot 9",
            |cells| {
                cells[5] = cells[2];
                cells.swap(7, 9)
            },
        ),
    ];
    for (name, edit) in images {
        let mut cells: Cells = table
            .addresses()
            .iter()
            .copied()
            .zip(table.tags().iter().copied())
            .collect();
        edit(&mut cells);
        let (addresses, tags): (Vec<u32>, Vec<u32>) = cells.into_iter().unzip();
        let mend = slots::plan_mend(&addresses, &tags, &mut []).expect_err("no half-written table");
        line(page, name);
        line(page, &format!("  the next update: {}", test(&addresses, &tags)));
        line(page, &format!("  mend: {mend}"));
    }
    Ok(())
}

/// An update that is cut after k writes, and its mend: the table before, as it was left, and after each write of the mend.
fn show_mend(
    page: &mut String,
    table: &Table,
    name: &str,
    plan: &Plan,
    k: usize,
    asked: &[&str],
) -> Result<(), Refusal> {
    let (mut left, mut whole) = (table.clone(), table.clone());
    left.apply(plan, k)?;
    whole.apply(plan, plan.len())?;
    line(
        page,
        &format!("{name} is {} writes; the card is pulled after {k}", plan.len()),
    );
    line(
        page,
        &format!("the next update: {}", test(left.addresses(), left.tags())),
    );
    let mut states = vec![
        ("before".to_string(), table.clone()),
        ("pulled".to_string(), left.clone()),
    ];
    let mend = left.plan_mend()?;
    for k in 1..=mend.len() {
        left.apply(&mend, k)?;
        line(
            page,
            &format!("mend, write {k} of {}: {}", mend.len(), written(&mend, k)),
        );
        states.push((format!("mend, write {k}"), left.clone()));
    }
    side_by_side(page, &states, asked);
    let set = match &left {
        left if left == table => "the table before",
        left if *left == whole => "the table after",
        _ => "another table",
    };
    line(page, &format!("mended: {}, {set}", test(left.addresses(), left.tags())));
    Ok(())
}

/// What the test of an image says.
fn test(addresses: &[u32], tags: &[u32]) -> String {
    match slots::check(addresses, tags) {
        Ok(used) => format!("{used} slots used, every rule kept"),
        Err(refusal) => refusal.to_string(),
    }
}

/// States of a table, slot by slot, with the next hop of some addresses in each.
fn side_by_side(page: &mut String, states: &[(String, Table)], asked: &[&str]) {
    let mut row = |name: &str, cell: &dyn Fn(&(String, Table)) -> String| {
        let cells: String = states.iter().map(|state| format!("  {:<13}", cell(state))).collect();
        line(page, format!("{name:<10}{cells}").trim_end());
    };
    row("", &|(name, _)| name.clone());
    for slot in 0..states[0].1.slots() {
        row(&format!("slot {slot}"), &|(_, table)| in_slot(table, slot));
    }
    for q in asked {
        row(q, &|(_, table)| {
            format!("hop {}", hop_or_none(table.lookup(address(q))))
        });
    }
}

/// Writes that take a copy out, with the next hop of an address before them and after each; the rows in the end.
fn take_out(
    page: &mut String,
    name: &str,
    (addresses, tags): (&[u32], &[u32]),
    cells: &[u32],
    q: &str,
) -> Result<(Vec<u32>, Vec<u32>), Refusal> {
    let (mut addresses, mut tags) = (addresses.to_vec(), tags.to_vec());
    let answer = found(q, slots::lookup(&addresses, &tags, address(q))?);
    line(page, &format!("{name}, {} writes: {answer}", cells.len() / 3));
    for write in cells.chunks(3) {
        slots::apply(&mut addresses, &mut tags, write, 1)?;
        let answer = found(q, slots::lookup(&addresses, &tags, address(q))?);
        line(page, &format!("  {}: {answer}", shown_write(write)));
    }
    Ok((addresses, tags))
}

/// The removal rule of what a slot holds, on any image that keeps S1 to S4: each slot is written with what the next one held.
fn removal(addresses: &[u32], tags: &[u32], slot: usize) -> Vec<u32> {
    let length = tags[slot] >> 16;
    let of_length = |n: u32| (0..tags.len()).filter(move |&slot| tags[slot] != 0 && tags[slot] >> 16 == n);
    let edges: Vec<usize> = match length {
        16.. => (16..=length).rev().filter_map(|n| of_length(n).next_back()).collect(),
        _ => (length..16).filter_map(|n| of_length(n).next()).collect(),
    };
    let mut path = vec![slot];
    path.extend(edges.into_iter().filter(|&edge| edge != slot));
    let held = path[1..].iter().map(|&next| (addresses[next], tags[next]));
    let written = held.chain([(0, 0)]);
    path.iter()
        .zip(written)
        .flat_map(|(&slot, (address, tag))| [slot as u32, address, tag])
        .collect()
}

/// The prefix in a slot.
fn in_slot(table: &Table, slot: usize) -> String {
    let entry = table.iter().find(|entry: &Entry| entry.slot == slot);
    entry.map_or("-".to_string(), |entry| entry.prefix.to_string())
}

/// One set of routes as a list, in slots, as ranges and as a DXR table.
struct Tables {
    rows: [Vec<u32>; 3],
    slots: Table,
    ranges: RangeTable,
    dxr: DxrTable,
}

impl Tables {
    fn of(routes: &[Route]) -> Result<Self, Refusal> {
        let routes: Vec<(Prefix, NextHop)> = routes
            .iter()
            .map(|&(text, number)| (prefix(text), hop(number)))
            .collect();
        let row =
            |number: fn(Prefix, NextHop) -> u32| routes.iter().map(|&(prefix, hop)| number(prefix, hop)).collect();
        let mut slots = Table::new(8)?;
        for &(prefix, hop) in &routes {
            slots.set(prefix, hop)?;
        }
        Ok(Tables {
            rows: [
                row(|prefix, _| prefix.address().into()),
                row(|prefix, _| prefix.length()),
                row(|_, hop| hop.get().into()),
            ],
            slots,
            ranges: RangeTable::of(routes.iter().copied())?,
            dxr: DxrTable::of(routes)?,
        })
    }

    /// What each of the four says of an address.
    fn ask(&self, page: &mut String, q: &str) -> Result<(), Refusal> {
        let [addresses, lengths, hops] = &self.rows;
        let q_address = address(q);
        let answers = [
            ("list", list::lookup(addresses, lengths, hops, q_address)?),
            ("slots", self.slots.lookup(q_address)),
            ("ranges", self.ranges.lookup(q_address)),
            ("DXR", self.dxr.lookup(q_address)),
        ];
        let said: Vec<String> = answers
            .iter()
            .map(|(name, hop)| format!("{name} {}", hop_or_none(*hop)))
            .collect();
        line(page, &format!("{q}: {}", said.join(", ")));
        Ok(())
    }
}

fn board() -> Result<Table, Refusal> {
    filled(8, &BOARD)
}

fn filled(slots: usize, routes: &[Route]) -> Result<Table, Refusal> {
    let mut table = Table::new(slots)?;
    for &(text, number) in routes {
        table.set(prefix(text), hop(number))?;
    }
    Ok(table)
}

fn line(page: &mut String, text: &str) {
    writeln!(page, "{text}").expect("a string takes any text");
}

fn written(plan: &Plan, k: usize) -> String {
    shown_write(&plan.cells()[3 * (k - 1)..3 * k])
}

fn shown_write(write: &[u32]) -> String {
    match *write {
        [slot, _, 0] => format!("slot {slot} cleared"),
        [slot, address, tag] => {
            let prefix = Prefix::new(address, tag >> 16).expect("an entry of the lesson");
            format!("{prefix} to slot {slot}")
        }
        _ => unreachable!("a write is three numbers"),
    }
}

fn shown(ranges: &RangeTable) -> String {
    let ranges: Vec<String> = ranges.iter().map(|range| range.to_string()).collect();
    ranges.join(", ")
}

fn found(q: &str, hop: Option<NextHop>) -> String {
    format!("{q} has hop {}", hop_or_none(hop))
}

fn hop_or_none(hop: Option<NextHop>) -> String {
    hop.map_or("none".to_string(), |hop| hop.to_string())
}

fn prefix(text: &str) -> Prefix {
    text.parse().expect("a prefix of the lesson")
}

fn hop(number: u16) -> NextHop {
    NextHop::new(number).expect("a hop of the lesson")
}

fn address(text: &str) -> Ipv4Addr {
    text.parse().expect("an address of the lesson")
}
