//! What a start from blocks brings about beside its refusals: the cases that generated inputs must come to, and whether one did.

use crate::calls::{Call, Input, Outcome};
use crate::cases::{begin_in_stream, stream_in};
use crate::reference::costs;
use crate::reference::start::{COSTS, MAX_BLOCKS};
use crate::reference::table::{self, BLOCK, PAYLOAD};

#[derive(Clone, Copy, PartialEq, Eq, Debug)]
pub enum Case {
    /// Accepted, of one block; of several.
    OneBlock,
    Blocks,
    /// Accepted, a cost of the unit standing in two blocks.
    SplitCost,
    /// Accepted, although a block was refused before: it was handed over again.
    Again,
    /// Refused by 1 with as many blocks in as a table has.
    OneBlockMore,
    /// Refused by 5, by 6, by 7 and by 10 with the last of several blocks.
    LateShape,
    LateLength,
    LateCost,
    LateUnit,
    /// Refused by 3, a last block that is named no last one; one before it that is named the last.
    NotLast,
    TooSoon,
}

const CASES: [Case; 11] = [
    Case::OneBlock,
    Case::Blocks,
    Case::SplitCost,
    Case::Again,
    Case::OneBlockMore,
    Case::LateShape,
    Case::LateLength,
    Case::LateCost,
    Case::LateUnit,
    Case::NotLast,
    Case::TooSoon,
];

/// The cases that a call can come to.
pub fn cases(call: Call) -> Vec<Case> {
    match call {
        Call::Start => CASES.to_vec(),
        _ => Vec::new(),
    }
}

/// Whether an input came to a case; the outcome is the reference's.
pub fn came_to(case: Case, input: &Input, outcome: &Outcome) -> bool {
    let Input::Start { blocks, costs: room, .. } = input else { return false };
    let calls = outcome.numbers.len() - TOLD;
    let accepted = outcome.numbers[..calls].iter().filter(|refusal| **refusal == 0).count();
    let begun = outcome.refusal == 0;
    let handed = calls.checked_sub(1).map(|last| &blocks[last]);
    let last = handed.is_some_and(|handed| handed.last != 0);
    let count = handed.map_or(0, |handed| count_in(&handed.block));
    match case {
        Case::OneBlock => begun && accepted == 1,
        Case::Blocks => begun && accepted > 1,
        Case::SplitCost => begun && accepted > 1 && split(input, outcome),
        Case::Again => begun && accepted < calls,
        Case::OneBlockMore => outcome.refusal == 1 && accepted == MAX_BLOCKS && room.len() >= COSTS,
        Case::LateShape => outcome.refusal == 5 && accepted > 0,
        Case::LateLength => outcome.refusal == 6 && accepted > 0,
        Case::LateCost => outcome.refusal == 7 && accepted > 0,
        Case::LateUnit => outcome.refusal == 10 && accepted > 0,
        Case::NotLast => outcome.refusal == 3 && !last && (1..PAYLOAD).contains(&count),
        Case::TooSoon => outcome.refusal == 6 && last && calls < blocks.len(),
    }
}

/// How many numbers an outcome has behind the refusals of its calls: the length, n and the sizes.
pub const TOLD: usize = 18;

fn count_in(block: &[u8]) -> usize {
    if block.len() == BLOCK {
        table::number_at(block, 2).into()
    } else {
        0
    }
}

/// Whether both bytes at a block's end are of one cost that the unit keeps.
fn split(input: &Input, outcome: &Outcome) -> bool {
    let Input::Start { own, .. } = input else { return false };
    let Some(stream) = stream_in(input) else { return false };
    let begun = outcome.numbers[outcome.numbers.len() - TOLD] as usize;
    // a byte that is turned among the costs that the unit keeps turns what is kept
    let kept = |at: usize| {
        let mut turned = stream.clone();
        turned[at] ^= 1;
        costs::of_unit(&turned, *own as usize) != outcome.lent[..begun]
    };
    let (unary, _) = begin_in_stream(&stream);
    let ends = (1..).map(|block| block * PAYLOAD).take_while(|end| *end < stream.len());
    ends.filter(|end| *end > unary && (end - unary) % 2 == 1).any(|end| kept(end - 1) && kept(end))
}
