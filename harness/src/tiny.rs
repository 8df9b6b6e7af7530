//! What a tiny table's number (02's job 13) brings about beside its refusals: the cases that generated inputs must come to, and whether one did.

use crate::calls::{Call, Input, Outcome};
use crate::reference::{table, tiny};

#[derive(Clone, Copy, PartialEq, Eq, Debug)]
pub enum Case {
    /// Accepted, of two units; of three.
    Two,
    Three,
    /// Accepted, the first number and the last.
    First,
    Last,
    /// Refused, the number just past the last; one that two units don't have, though three do; no unit count that there is a table of.
    PastLast,
    PastTwo,
    OtherCount,
    /// 02: 21 comes "before 13".
    AheadOfRoom,
}

const CASES: [Case; 8] = [
    Case::Two,
    Case::Three,
    Case::First,
    Case::Last,
    Case::PastLast,
    Case::PastTwo,
    Case::OtherCount,
    Case::AheadOfRoom,
];

/// The cases that a call can come to.
pub fn cases(call: Call) -> Vec<Case> {
    match call {
        Call::Tiny => CASES.to_vec(),
        _ => Vec::new(),
    }
}

/// Whether an input came to a case; the outcome is the reference's.
pub fn came_to(case: Case, input: &Input, outcome: &Outcome) -> bool {
    let Input::Tiny { units, number, stream } = input else { return false };
    let accepted = outcome.refusal == 0;
    match case {
        Case::Two => accepted && *units == 2,
        Case::Three => accepted && *units == 3,
        Case::First => accepted && *number == 0,
        Case::Last => accepted && Ok(number + 1) == tiny::tables(*units),
        Case::PastLast => Ok(*number) == tiny::tables(*units),
        Case::PastTwo => *units == 2 && (16..4_096).contains(number),
        Case::OtherCount => !(2..=3).contains(units) && *number < 16,
        Case::AheadOfRoom => outcome.refusal == 21 && stream.len() < table::MAX_STREAM,
    }
}
