//! What branch and bound (02's job 6) brings about beside its refusals: the cases that generated inputs must come to, and whether one did.

use crate::calls::{Call, Input, Outcome};
use crate::reference::costs::{self, Cost};
use crate::reference::{search, table};

#[derive(Clone, Copy, PartialEq, Eq, Debug)]
pub enum Case {
    /// Accepted, with more assignments than the exhaustive search takes.
    PastLimit,
    /// Accepted, and a later assignment totals the same.
    Tie,
}

/// The cases that a call can come to.
pub fn cases(call: Call) -> Vec<Case> {
    match call {
        Call::BranchAndBound => vec![Case::PastLimit, Case::Tie],
        _ => Vec::new(),
    }
}

/// Whether an input came to a case; the outcome is the reference's.
pub fn came_to(case: Case, input: &Input, outcome: &Outcome) -> bool {
    let Input::BranchAndBound { stream } = input else { return false };
    let accepted = outcome.refusal == 0;
    match case {
        Case::PastLimit => accepted && search::assignments(stream) > search::MAX_ASSIGNMENTS,
        Case::Tie => accepted && search::assignments(stream) <= 64 && least_twice(stream, outcome.numbers[0]),
    }
}

/// That more than one assignment has this total, found by trying all.
fn least_twice(stream: &[u8], least: u64) -> bool {
    let n = table::head(stream).0 as usize;
    let totals = search::ascending(stream).map(|values| costs::total(stream, &values[..n]));
    totals.filter(|total| matches!(total, Cost::Of(sum) if u64::from(*sum) == least)).count() > 1
}
