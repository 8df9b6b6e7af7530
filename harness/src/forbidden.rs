//! What forbidden pairs (02's job 3) bring about beside the refusals: the cases that generated inputs must come to, and whether one did.

use crate::calls::{self, Call, Input, Outcome};
use crate::cases::{costs_in, first_made, pairs_lent, units_in, Seat, Stepped};
use crate::reference::costs::Cost;
use crate::reference::message;
use crate::reference::{table, Places, FORBIDDEN_PAIR, MAX_COST, NONE};

#[derive(Clone, Copy, PartialEq, Eq, Debug)]
pub enum Case {
    /// Accepted with a forbidden pair.
    Pair,
    /// Refused by 7 for pairs of 65,534 alone, or by 9 an estimate of one less than *none*.
    OneBelow,
    /// An estimate of *none* read or written.
    Estimate,
    /// An estimate of *none* came, and the unit assigned, though with no bound.
    Assigns,
    /// An estimate of *none* was stale.
    Stale,
    /// An estimate of *none* was refused by 11.
    NotOut,
    /// An estimate of *none* was sent.
    Reply,
    /// With no bound, a value was passed over that is forbidden with a filled one.
    Filled,
    /// With no bound, a value was passed over for its h alone.
    NoH,
    /// A state was out of range for its own value alone, forbidden with a filled one.
    OwnValue,
    /// A state in range, though its own value has no h.
    OwnNoH,
    /// Unit 1 of several stopped when made.
    Stops,
    /// No assignment is permitted, and unit 1 did not stop when made.
    NoneLeft,
    /// More than 1,048,576 assignments, forbidden ones among them.
    Counted,
}

/// The cases that a call can come to.
pub fn cases(call: Call) -> &'static [Case] {
    use Case::*;
    match call {
        Call::Sum | Call::Block | Call::Readings | Call::Tiny | Call::SlotOf | Call::Newer | Call::Ends => &[],
        Call::Project | Call::ProjectUnary | Call::Extend | Call::ProjectAll => &[],
        Call::Read | Call::Write | Call::ToFormTwo | Call::ToFormOne | Call::Lent | Call::Start => &[Pair, OneBelow],
        Call::Hold | Call::LowerBound => &[Pair, OneBelow],
        Call::Parse | Call::Encode => &[Estimate, OneBelow],
        Call::Make(_) | Call::MakeNetwork(_) | Call::MakeSlots(_) => &[Pair, OneBelow, NoH, Stops],
        Call::InRange(_) => &[Pair, OneBelow, OwnValue, OwnNoH],
        Call::Step(_) | Call::Deliver(_) | Call::Echo(_) | Call::DeliverSlots(_) => {
            &[Pair, OneBelow, OwnValue, OwnNoH, Assigns, Stale, NotOut, Reply, Filled, NoH]
        }
        Call::ReplaySlots(_) => &[Pair, OneBelow],
        Call::Settle(_) | Call::SettleSlots(_) => &[Pair, OneBelow, Stops, NoneLeft],
        Call::Search => &[Pair, OneBelow, NoneLeft, Counted],
        Call::BranchAndBound => &[Pair, OneBelow, NoneLeft],
    }
}

/// Whether an input came to a case; the outcome is the reference's.
pub fn came_to(case: Case, input: &Input, outcome: &Outcome) -> bool {
    let accepted = outcome.refusal == 0;
    match case {
        Case::Pair => accepted && has_forbidden(input),
        Case::OneBelow => one_below(input, outcome.refusal),
        Case::Estimate => accepted && estimate_in(input) == Some(NONE),
        Case::OwnValue => {
            outcome.refusal == 5 && has_forbidden(input) && calls::reference(permitted(input.clone())).refusal != 5
        }
        Case::OwnNoH => accepted && own_without_h(input),
        Case::Stops => accepted && outcome.units[0].has_stopped() && stopped_when_made(input, outcome),
        Case::NoneLeft => accepted && none_left(input, outcome),
        Case::Counted => outcome.refusal == 16 && has_forbidden(input),
        Case::NoH if matches!(input, Input::Make { .. } | Input::MakeNetwork { .. } | Input::MakeSlots { .. }) => {
            accepted && first_without_h(input, outcome)
        }
        Case::Assigns | Case::Stale | Case::NotOut | Case::Reply | Case::Filled | Case::NoH => {
            Stepped::new(input, outcome).is_some_and(|step| step.came_to(case, accepted))
        }
    }
}

// Costs

fn has_forbidden(input: &Input) -> bool {
    costs_in(input).1.contains(&FORBIDDEN_PAIR)
}

/// The cost of an estimate that is read or written.
fn estimate_in(input: &Input) -> Option<u32> {
    let (kind, cost) = match input {
        Input::Parse { packet, .. } => (*packet.first()?, u32::from_le_bytes(packet.get(36..40)?.try_into().ok()?)),
        Input::Encode { kind, message, .. } => (*kind, message.cost),
        _ => return None,
    };
    (kind == message::ESTIMATE).then_some(cost)
}

fn one_below(input: &Input, refusal: u8) -> bool {
    let (unary, mut above) = costs_in(input);
    above.retain(|cost| u32::from(*cost) > MAX_COST && *cost != FORBIDDEN_PAIR);
    above.dedup();
    let alone = above == [FORBIDDEN_PAIR - 1] && unary.iter().all(|cost| u32::from(*cost) <= MAX_COST);
    (refusal == 7 && alone) || (refusal == 9 && estimate_in(input) == Some(NONE - 1))
}

/// The same input, 0 for every forbidden pair.
fn permitted(mut input: Input) -> Input {
    let costs = pairs_lent(&mut input);
    for cost in costs.chunks_exact_mut(2).filter(|cost| **cost == FORBIDDEN_PAIR.to_le_bytes()) {
        cost.fill(0);
    }
    input
}

// Units

impl Seat {
    /// Of the values after one of them, up to the one that was written (0: none was), whether one can't be for this reason.
    fn passed_over(&self, values: &Places, written: u8, case: Case) -> bool {
        let view = self.view();
        let mut passed = view.after(values[self.own - 1].into()).iter().take_while(|v| **v != written as usize);
        passed.any(|v| {
            let filled = view.added(values, self.own - 1, *v) == Cost::Forbidden;
            if case == Case::Filled {
                filled
            } else {
                !filled && view.h(*v) == Cost::Forbidden
            }
        })
    }
}

/// Unit 1 was made, and passed a value over.
fn first_without_h(input: &Input, outcome: &Outcome) -> bool {
    first_made(input).is_some_and(|seat| seat.passed_over(&[0; 16], outcome.units[0].values[0], Case::NoH))
}

fn stopped_when_made(input: &Input, outcome: &Outcome) -> bool {
    match input {
        Input::Make { n, .. } => *n > 1,
        Input::MakeNetwork { stream, .. } | Input::MakeSlots { stream, .. } => table::head(stream).0 > 1,
        Input::Settle { stream, .. } | Input::SettleSlots { stream, .. } => {
            table::head(stream).0 > 1 && deliveries(outcome) == 0
        }
        _ => false,
    }
}

fn none_left(input: &Input, outcome: &Outcome) -> bool {
    match input {
        Input::Settle { .. } | Input::SettleSlots { .. } => outcome.units[0].bound == NONE && deliveries(outcome) > 0,
        _ => outcome.numbers == [NONE.into()],
    }
}

/// Of a network, over either pool, the low word: its two words come last.
fn deliveries(outcome: &Outcome) -> u64 {
    outcome.numbers[outcome.numbers.len() - 2]
}

fn own_without_h(input: &Input) -> bool {
    units_in(input).iter().any(|(seat, unit)| {
        let value = unit.values[seat.own - 1] as usize;
        value != 0 && seat.view().h(value) == Cost::Forbidden
    })
}

impl Stepped {
    fn came_to(&self, case: Case, accepted: bool) -> bool {
        let no_estimate = self.kind == message::ESTIMATE && self.message.cost == NONE;
        let changed = self.before != self.after;
        match case {
            Case::NotOut => no_estimate && !accepted,
            Case::Stale => no_estimate && accepted && !changed,
            Case::Assigns => no_estimate && accepted && changed && self.before.bound == NONE,
            Case::Reply => {
                let none = |sent: &[u8]| sent[0] == message::ESTIMATE && sent[36..40] == NONE.to_le_bytes();
                self.sent.chunks(64).any(none)
            }
            _ => accepted && changed && self.passed_over(case),
        }
    }

    /// With no bound a CPA is assigned, and every value passed over can't be written.
    fn passed_over(&self, case: Case) -> bool {
        let own = self.seat.own;
        let down = self.kind == message::CPA && (self.message.sender as usize) < own;
        let values = if down { &self.message.values } else { &self.before.values };
        let assigned = down || (values[own - 1] != 0 && matches!(self.kind, message::CPA | message::ESTIMATE));
        assigned && self.after.bound == NONE && self.seat.passed_over(values, self.after.values[own - 1], case)
    }
}
