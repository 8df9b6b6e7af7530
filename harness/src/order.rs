//! What the order in which values are tried (02's job 9) brings about beside the refusals: the cases that generated inputs must come to, and
//! whether one did. `Change` is an order like the one asked for but for one thing: inputs must be able to tell the two apart.

use crate::calls::{self, Call, Input, Named, Outcome};
use crate::cases::{checked, first_made, units_in, Seat, Stepped};
use crate::reference::costs::{Cost, View};
use crate::reference::order::ValueOrder;
use crate::reference::unit;
use std::cmp::Reverse;

#[derive(Clone, Copy, PartialEq, Eq, Debug)]
pub enum Case {
    /// By the call that names no order.
    Unnamed,
    /// By an order's number that is neither 0 nor 1.
    OtherNumber,
    /// Accepted in both orders, with another outcome.
    OrderDecides,
    /// The same total as in the other order, of another assignment.
    OtherBest,
    /// A state in range, and not in the other order: its counter is above its value's place there.
    OnlyHere,
    /// A state out of range, and in range in the other order.
    NotHere,
    /// Another state than with the higher number first on a tie.
    Tie,
    /// A state whose range is another one with the higher number first on a tie.
    TieInRange,
    /// Another state than with the values without an h first.
    NoHLast,
    /// A state whose range is another one with the values without an h first.
    NoHInRange,
}

/// The cases that a call can come to.
pub fn cases(call: Call) -> Vec<Case> {
    use Case::*;
    let (order, both, cheapest): (_, &[Case], &[Case]) = match call {
        Call::Make(order) | Call::MakeNetwork(order) | Call::MakeSlots(order) => (order, &[OrderDecides], &[Tie]),
        Call::InRange(order) => (order, &[OnlyHere, NotHere], &[TieInRange, NoHInRange]),
        Call::Step(order) | Call::Deliver(order) | Call::Echo(order) | Call::DeliverSlots(order) => {
            (order, &[OrderDecides, OnlyHere, NotHere], &[Tie, TieInRange, NoHLast, NoHInRange])
        }
        Call::ReplaySlots(order) => (order, &[OrderDecides, OnlyHere, NotHere], &[]),
        Call::Settle(order) | Call::SettleSlots(order) => (order, &[OrderDecides, OtherBest], &[]),
        _ => return Vec::new(),
    };
    match order {
        ValueOrder::Ascending => both.to_vec(),
        ValueOrder::CheapestFirst => [both, cheapest, &[Unnamed, OtherNumber]].concat(),
    }
}

/// Whether an input came to a case; the outcome is the reference's.
pub fn came_to(case: Case, input: &Input, outcome: &Outcome) -> bool {
    let accepted = outcome.refusal == 0;
    let other = || in_other_order(input.clone());
    match case {
        Case::Unnamed => named(input) == Some(None),
        Case::OtherNumber => named(input).flatten().is_some_and(|number| number > 1),
        Case::OrderDecides => accepted && another_outcome(outcome, &other()),
        Case::OtherBest => accepted && other_best(outcome, &other()),
        Case::OnlyHere => accepted && other().refusal == 5,
        Case::NotHere => outcome.refusal == 5 && other().refusal != 5,
        Case::Tie => accepted && another_state(Change::HigherOnTie, input, outcome),
        Case::TieInRange => another_range(Change::HigherOnTie, input, outcome),
        Case::NoHLast => accepted && another_state(Change::NoHFirst, input, outcome),
        Case::NoHInRange => another_range(Change::NoHFirst, input, outcome),
    }
}

fn named(input: &Input) -> Option<Named> {
    input.clone().named().copied()
}

fn in_other_order(mut input: Input) -> Outcome {
    if let Some(named) = input.named() {
        *named = Some(calls::order_of(*named).other().number());
    }
    calls::reference(input)
}

fn another_outcome(outcome: &Outcome, other: &Outcome) -> bool {
    other.refusal == 0 && other != outcome
}

/// Of networks that settled.
fn other_best(outcome: &Outcome, other: &Outcome) -> bool {
    let (here, there) = (&outcome.units[0], &other.units[0]);
    here.bound == there.bound && here.best != there.best
}

/// Cheapest first but for one thing.
#[derive(Clone, Copy, Debug)]
pub enum Change {
    /// The higher number first on a tie.
    HigherOnTie,
    /// Values without an h first.
    NoHFirst,
}

impl Change {
    pub fn apply(self, view: &mut View) {
        let mut tried = view.tried.clone();
        match self {
            Change::HigherOnTie => tried.sort_by_key(|v| (view.h(*v), Reverse(*v))),
            Change::NoHFirst => tried.sort_by_key(|v| (view.h(*v) != Cost::Forbidden, view.h(*v), *v)),
        }
        view.tried = tried;
    }

    fn view(self, seat: &Seat) -> View<'_> {
        let mut view = seat.view();
        self.apply(&mut view);
        view
    }
}

/// Of unit 1 when made, or of a unit after a step.
fn another_state(change: Change, input: &Input, outcome: &Outcome) -> bool {
    if let Some(seat) = first_made(input) {
        return unit::start(&change.view(&seat)).unit != outcome.units[0];
    }
    Stepped::new(input, outcome).is_some_and(|step| {
        let changed = unit::decide(&change.view(&step.seat), &step.before, step.kind, &step.message);
        changed.is_ok_and(|decision| decision.unit != step.after)
    })
}

/// Whether all states are in range, so far as the order says.
fn another_range(change: Change, input: &Input, outcome: &Outcome) -> bool {
    if !matches!(outcome.refusal, 0 | 5) || !checked(input) {
        return false;
    }
    let units = units_in(input);
    let changed = units.iter().all(|(seat, unit)| unit::check_state(&change.view(seat), unit).is_ok());
    changed != units.iter().all(|(seat, unit)| unit::check_state(&seat.view(), unit).is_ok())
}
