//! The board's set P: the list asked for the addresses of cases a to e, then case f, the sets in 8 slots, case g, the removal of
//! the /24 write by write, case h, the ranges, and cases i and j, the DXR table with and without the /32:
//! `cargo run --release --example board`.

use hawkmortar::{list, DxrTable, NextHop, Prefix, RangeTable, Refusal, Table};
use std::net::Ipv4Addr;

/// Octets, length and hop.
const SET: [([u8; 4], u32, u16); 5] = [
    ([10, 0, 0, 0], 8, 1),
    ([10, 20, 0, 0], 16, 2),
    ([10, 20, 4, 0], 24, 3),
    ([10, 20, 4, 9], 32, 2),
    ([0, 0, 0, 0], 0, 7),
];

fn main() -> Result<(), Refusal> {
    cases_a_to_e()?;
    let mut table = case_f()?;
    case_g(&mut table)?;
    case_h()?;
    cases_i_and_j()
}

fn cases_a_to_e() -> Result<(), Refusal> {
    let addresses = SET.map(|(octets, _, _)| u32::from_be_bytes(octets));
    let lengths = SET.map(|(_, length, _)| length);
    let hops = SET.map(|(_, _, hop)| hop.into());

    let questions = [[10, 20, 4, 9], [10, 20, 4, 10], [10, 20, 5, 0], [255; 4]];
    for q in questions.map(Ipv4Addr::from) {
        show(q, list::lookup(&addresses, &lengths, &hops, q)?);
    }
    println!("without the default route:");
    let q = Ipv4Addr::new(11, 0, 0, 0);
    show(q, list::lookup(&addresses[..4], &lengths[..4], &hops[..4], q)?);
    Ok(())
}

fn case_f() -> Result<Table, Refusal> {
    println!("in 8 slots:");
    let mut table = Table::new(8)?;
    for (prefix, hop) in routes()? {
        let writes = table.set(prefix, hop)?;
        println!("set {prefix} {hop}, writes {writes}");
    }
    show_slots(&table);
    Ok(table)
}

fn case_g(table: &mut Table) -> Result<(), Refusal> {
    let prefix = Prefix::new(Ipv4Addr::new(10, 20, 4, 0), 24)?;
    let plan = table.plan_remove(prefix)?;
    println!("remove {prefix}, writes {}", plan.len());
    let q = Ipv4Addr::new(10, 20, 4, 10);
    show(q, table.lookup(q));
    for (k, write) in plan.writes().enumerate() {
        table.apply(&plan, k + 1)?;
        match write.entry() {
            Some(entry) => println!("slot {entry}"),
            None => println!("slot {} cleared", write.slot()),
        }
        show(q, table.lookup(q));
    }
    show_slots(table);
    Ok(())
}

fn case_h() -> Result<(), Refusal> {
    let table = RangeTable::of(routes()?)?;
    println!("{} ranges:", table.iter().len());
    for range in table.iter() {
        println!("range {range}");
    }
    let q = Ipv4Addr::new(10, 20, 4, 10);
    show(q, table.lookup(q));
    Ok(())
}

fn cases_i_and_j() -> Result<(), Refusal> {
    let mut routes = routes()?;
    show_chunk(&DxrTable::of(routes.iter().copied())?);
    println!("without the /32:");
    routes.remove(3);
    show_chunk(&DxrTable::of(routes)?);
    Ok(())
}

fn routes() -> Result<Vec<(Prefix, NextHop)>, Refusal> {
    let route = |(octets, length, hop)| {
        let hop = NextHop::new(hop).expect("the board's hops are not 0");
        Ok((Prefix::new(Ipv4Addr::from(octets), length)?, hop))
    };
    SET.into_iter().map(route).collect()
}

fn show(q: Ipv4Addr, hop: Option<NextHop>) {
    match hop {
        Some(hop) => println!("{q} via {hop}"),
        None => println!("{q} no route"),
    }
}

fn show_slots(table: &Table) {
    println!("{} of {} slots used", table.len(), table.slots());
    for entry in table.iter() {
        println!("slot {entry}");
    }
}

/// Chunk 10.20, the only one of the set's that has range words.
fn show_chunk(table: &DxrTable) {
    const CHUNK: usize = 10 << 8 | 20;
    println!("chunk {CHUNK}, word {}", table.main()[CHUNK]);
    for word in table.words() {
        println!("range word {word}");
    }
    let q = Ipv4Addr::new(10, 20, 4, 9);
    show(q, table.lookup(q));
}
