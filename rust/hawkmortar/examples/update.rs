use hawkmortar::{NextHop, Prefix, Refusal, Table};
use std::net::Ipv4Addr;

fn main() -> Result<(), Refusal> {
    let hop = |number| NextHop::new(number).expect("a hop is not 0");
    let wide = Prefix::new(Ipv4Addr::new(10, 0, 0, 0), 8)?;
    let narrow = Prefix::new(Ipv4Addr::new(10, 20, 0, 0), 16)?;
    let mut table = Table::new(1024)?;
    table.set(wide, hop(1))?;
    table.set(narrow, hop(2))?;

    // every cut of a plan answers for the set before it or, here from the first write on, for the set after it
    let q = Ipv4Addr::new(10, 20, 4, 9);
    assert_eq!(table.lookup(q), Some(hop(2)));
    let plan = table.plan_remove(narrow)?;
    for k in 1..=plan.len() {
        table.apply(&plan, k)?;
        assert_eq!(table.lookup(q), Some(hop(1)));
    }
    assert_eq!(table.lookup(Ipv4Addr::new(11, 0, 0, 0)), None);
    assert_eq!(table.remove(narrow), Err(Refusal::Absent));
    Ok(())
}
