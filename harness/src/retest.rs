//! What a retest (02's job 12) brings about beside its refusal: the cases that generated inputs must come to, and whether one did.

use crate::calls::{Call, Input, Outcome};
use crate::reference::{FORBIDDEN_PAIR, MAX_COST, MAX_TOTAL, NONE};
use Case::*;

#[derive(Clone, Copy, PartialEq, Eq, Debug)]
pub enum Case {
    /// Refused for this alone.
    OldAbove,
    NewAbove,
    TotalPast,
    OldForbidden,
    NewForbidden,
    /// Refused though the total is none.
    NoneRefused,
    /// Each at its limit, and accepted.
    Largest,
    Raised,
    Lowered,
    Unchanged,
    /// Lowered by more than the total.
    LowerEndZero,
    /// The upper end is past the limit of totals.
    UpperEndPast,
    NoneLeft,
}

/// The cases that a call can come to.
pub fn cases(call: Call) -> Vec<Case> {
    let refused = [OldAbove, NewAbove, TotalPast, OldForbidden, NewForbidden, NoneRefused];
    let accepted = [Largest, Raised, Lowered, Unchanged, LowerEndZero, UpperEndPast, NoneLeft];
    match call {
        Call::Ends => [&refused[..], &accepted].concat(),
        _ => Vec::new(),
    }
}

/// Whether an input came to a case; the outcome is the reference's.
pub fn came_to(case: Case, input: &Input, outcome: &Outcome) -> bool {
    let Input::Ends { total, old, new } = *input else { return false };
    let (old_good, new_good) = (old <= MAX_COST, new <= MAX_COST);
    let (none, total_good) = (total == NONE, total == NONE || total <= MAX_TOTAL);
    let given = outcome.refusal == 0;
    let forbidden = u32::from(FORBIDDEN_PAIR);
    match case {
        OldAbove => !old_good && new_good && total_good,
        NewAbove => old_good && !new_good && total_good,
        TotalPast => old_good && new_good && !total_good,
        OldForbidden => old == forbidden && new_good && total_good,
        NewForbidden => new == forbidden && old_good && total_good,
        NoneRefused => none && !given,
        Largest => given && total == MAX_TOTAL && old == 0 && new == MAX_COST,
        Raised => given && !none && old < new,
        Lowered => given && !none && new < old,
        Unchanged => given && !none && old == new,
        LowerEndZero => given && old > new && old - new > total,
        UpperEndPast => given && !none && outcome.numbers[1] > u64::from(MAX_TOTAL),
        NoneLeft => given && none && old != new,
    }
}
