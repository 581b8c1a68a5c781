//! How many calls of the library a thread has made, by call and by refusal.

use crate::Fault;
use std::cell::RefCell;
use std::fmt;
use std::ops::AddAssign;

/// The calls of the library.
#[derive(Clone, Copy, PartialEq, Eq, Debug)]
pub enum Call {
    ListCheck,
    ListLookup,
    PrefixesCheck,
    PrefixesLookup,
    SlotCheck,
    SlotLookup,
    PlanSet,
    PlanRemove,
    PlanMend,
    Apply,
    DownloadFirst,
    DownloadNext,
    RangesBuild,
    RangeLookup,
    DxrBuild,
    DxrLookup,
    RecordAt,
}

/// Each call with its name in include/hawkmortar.h, without the library's, and the refusals that it can give.
pub const CALLS: [(Call, &str, &[u8]); 17] = [
    (Call::ListCheck, "list_check", &[1, 2, 3, 4, 8]),
    (Call::ListLookup, "list_lookup", &[1, 2, 3, 4, 8]),
    (Call::PrefixesCheck, "prefixes_check", &[1, 2, 3, 4, 8]),
    (Call::PrefixesLookup, "prefixes_lookup", &[1, 2, 3, 4, 8]),
    (Call::SlotCheck, "slot_check", &[7, 8]),
    (Call::SlotLookup, "slot_lookup", &[7, 8]),
    (Call::PlanSet, "plan_set", &[1, 2, 3, 5, 7, 8, 9]),
    (Call::PlanRemove, "plan_remove", &[1, 2, 6, 7, 8, 9]),
    (Call::PlanMend, "plan_mend", &[7, 8, 9]),
    (Call::Apply, "apply", &[8, 10]),
    (Call::DownloadFirst, "download_first", &[7, 8]),
    (Call::DownloadNext, "download_next", &[1, 2, 7, 8]),
    (Call::RangesBuild, "ranges_build", &[1, 2, 3, 4, 8, 9]),
    (Call::RangeLookup, "range_lookup", &[7, 8]),
    (Call::DxrBuild, "dxr_build", &[1, 2, 3, 4, 8, 9]),
    (Call::DxrLookup, "dxr_lookup", &[7, 8]),
    (Call::RecordAt, "record_at", &[1, 2, 3, 8, 11, 12, 13]),
];

/// Calls counted by their kind and by the refusal's number, which is 0 for those accepted.
#[derive(Clone, Copy, Default, PartialEq, Eq, Debug)]
pub struct Calls([[u64; 14]; CALLS.len()]);

impl Calls {
    /// All calls.
    pub fn total(&self) -> u64 {
        self.0.iter().flatten().sum()
    }

    /// The calls of one kind that got this refusal, or were accepted where it is 0.
    pub fn of(&self, call: Call, refusal: u8) -> u64 {
        self.0[call as usize][usize::from(refusal)]
    }
}

impl AddAssign for Calls {
    fn add_assign(&mut self, other: Self) {
        let cells = self.0.as_flattened_mut().iter_mut();
        cells.zip(other.0.as_flattened()).for_each(|(cell, more)| *cell += more);
    }
}

/// A line for each call: its name, how many there were, how many of them were accepted and how many got each refusal.
impl fmt::Display for Calls {
    fn fmt(&self, f: &mut fmt::Formatter<'_>) -> fmt::Result {
        for (call, name, refusals) in CALLS {
            let total: u64 = self.0[call as usize].iter().sum();
            write!(f, "{name:16}{total:12}: accepted {}", self.of(call, 0))?;
            for &refusal in refusals {
                write!(f, ", refusal {refusal} {}", self.of(call, refusal))?;
            }
            writeln!(f)?;
        }
        Ok(())
    }
}

thread_local! {
    static MADE: RefCell<Calls> = const { RefCell::new(Calls([[0; 14]; CALLS.len()])) };
}

/// The calls that this thread made since it was last asked.
pub fn taken() -> Calls {
    MADE.take()
}

/// Counts a call with this answer, and hands the answer on.
pub(super) fn counted<T>(call: Call, found: Result<T, Fault>) -> Result<T, Fault> {
    let refusal = found.as_ref().err().map_or(0, |fault| fault.0);
    MADE.with_borrow_mut(|calls| calls.0[call as usize][usize::from(refusal)] += 1);
    found
}
