//! What unary costs, form two and the larger limits (02's job 7) bring about beside the refusals: the cases that generated inputs must come
//! to, and whether one did. In order: tables, the converter, limits, units, reports.

use crate::calls::{self, Call, Input, Outcome};
use crate::cases::{checked, costs_in, stream_in, units_in, Stepped};
use crate::reference::convert::{self, in_form};
use crate::reference::costs::{self, Cost, View};
use crate::reference::message::{self, Message};
use crate::reference::table::{self, Form, FORM_TWO};
use crate::reference::unit::{self, Unit};
use crate::reference::{check_sizes, cost_limit, filled, search, Places};
use crate::reference::{FORBIDDEN_PAIR, MAX_COST, MAX_ESTIMATE, MAX_TOTAL};
use crate::start::TOLD;
use std::ops::RangeInclusive;

#[derive(Clone, Copy, PartialEq, Eq, Debug)]
pub enum Case {
    /// Accepted with a unary cost above zero.
    Unary,
    /// Accepted in form two with every unary cost zero.
    ZeroUnary,
    /// A unit's costs out of form one: its unary costs are zeros.
    FormOne,
    /// Accepted with a unary cost above zero and a forbidden pair.
    UnaryAndForbidden,
    /// Refused by 7 for a unary cost alone that is not 65,535.
    UnaryAbove,
    /// Refused by 7 for a unary cost of 65,535 alone.
    NeverForbidden,
    /// Byte 200 alone.
    NoCount,
    /// Form two, cut before its last size: refused by 6.
    CutSizes,
    /// As large as form two can be.
    Largest,
    /// As many blocks as form two can have, and a stream longer than its n and sizes need: refused by 6.
    LongStream,
    /// One block more: refused by 1.
    OneBlockMore,
    /// Refused by 13 with room for any stream in form one.
    RoomForFormOne,
    /// Out of the other form, and back to the same bytes.
    ThereAndBack,
    /// In the form wanted, so that it comes out as it went in, though a unary cost may be above zero.
    AsItWas,
    /// The converter's file has another number of blocks than the one that it was made of.
    OtherBlocks,
    /// Refused by 13 with room for the file as it came, or accepted without.
    RoomForResult,
    /// Refused by 13 before 18.
    RoomFirst,
    /// Refused by 18 for one unary cost alone, its low byte zero.
    HighByte,
    /// Refused by 18 for the last unary cost alone.
    LastCost,
    /// A bound above 7,200,000 accepted.
    LargeBound,
    /// Refused for a bound of one above its limit alone.
    BoundAbove,
    /// A CPA or a request, or a state's CPA, accepted that costs more than its pairs can.
    DearPrefix,
    /// Refused for a CPA or a request of one above its limit alone.
    PrefixAbove,
    /// Refused for an estimate alone that a bound could be.
    EstimateAbove,
    /// Refused by 6 for costs lent without the unary ones.
    UnaryMissing,
    /// Out of range for the limit for one unit fewer alone, which is not zero.
    OneFewer,
    /// Out of range alone for a CPA of unit 1 that costs more than its value does by itself.
    FirstOverpays,
    /// Out of range alone for a CPA that costs less than its own value does, its unary cost counted.
    UnaryUnpaid,
    /// A CPA of unit 1 that costs something.
    FirstPays,
    /// Other values written than without unary costs, or another report.
    Decides,
    /// An estimate sent that is above the one without unary costs.
    DearReply,
    /// One unit alone, whose value is not its first.
    LeastOfOne,
    /// The largest total that there is, reported.
    LargestTotal,
}

/// The cases that a call can come to.
pub fn cases(call: Call) -> Vec<Case> {
    use Case::*;
    let costs = [Unary, UnaryAndForbidden, UnaryAbove, NeverForbidden];
    let table = [&costs[..], &[ZeroUnary, NoCount, CutSizes]].concat();
    let file = [LongStream, OneBlockMore];
    let converter = [ThereAndBack, AsItWas, OtherBlocks, RoomForResult];
    let limits = [LargeBound, BoundAbove, DearPrefix, EstimateAbove];
    let state = [&limits[..], &[OneFewer, FirstOverpays, UnaryUnpaid, FirstPays]].concat();
    match call {
        Call::Sum | Call::Block | Call::SlotOf | Call::Newer | Call::Ends => Vec::new(),
        Call::Project | Call::ProjectUnary | Call::Extend | Call::ProjectAll => Vec::new(),
        Call::Hold | Call::LowerBound => [&table[..], &[FormOne]].concat(),
        Call::Read => [&table[..], &file, &[Largest, RoomForFormOne]].concat(),
        Call::Write => [&table[..], &[Largest]].concat(),
        Call::ToFormTwo => [&table[..], &file, &converter, &[Largest]].concat(),
        Call::ToFormOne => {
            let refused = [UnaryAbove, NeverForbidden, NoCount, CutSizes, RoomFirst, HighByte, LastCost];
            [&refused[..], &file, &converter, &[ZeroUnary]].concat()
        }
        Call::Readings | Call::Tiny => vec![RoomForFormOne],
        Call::Lent | Call::Start => [&table[..], &[FormOne, Largest]].concat(),
        Call::Parse | Call::Encode => [&limits[..], &[PrefixAbove]].concat(),
        Call::Make(_) => [&costs[..], &[UnaryMissing, Largest, FirstPays, LeastOfOne]].concat(),
        Call::InRange(_) => [&costs[..], &state, &[UnaryMissing]].concat(),
        Call::Step(_) => [&costs[..], &state, &[UnaryMissing, Decides, DearReply]].concat(),
        Call::MakeNetwork(_) | Call::MakeSlots(_) => [&table[..], &[Largest, FirstPays, LeastOfOne]].concat(),
        Call::Deliver(_) | Call::Echo(_) | Call::DeliverSlots(_) => {
            [&table[..], &state, &[Decides, DearReply]].concat()
        }
        Call::ReplaySlots(_) => table,
        Call::Settle(_) | Call::SettleSlots(_) | Call::Search | Call::BranchAndBound => {
            [&table[..], &[Decides, LeastOfOne, LargestTotal]].concat()
        }
    }
}

/// Whether an input came to a case; the outcome is the reference's.
pub fn came_to(case: Case, input: &Input, outcome: &Outcome) -> bool {
    let accepted = outcome.refusal == 0;
    let opens_form_two = || stream_in(input).is_some_and(|stream| table::form(&stream) == Form::Two);
    match case {
        Case::Unary => accepted && above_zero(input),
        Case::ZeroUnary => accepted && opens_form_two() && !above_zero(input),
        Case::FormOne => accepted && !opens_form_two(),
        Case::UnaryAndForbidden => accepted && above_zero(input) && costs_in(input).1.contains(&FORBIDDEN_PAIR),
        Case::UnaryAbove => outcome.refusal == 7 && unary_above(input).is_some_and(|cost| cost != FORBIDDEN_PAIR),
        Case::NeverForbidden => outcome.refusal == 7 && unary_above(input) == Some(FORBIDDEN_PAIR),
        Case::NoCount => stream_in(input).as_deref() == Some(&[FORM_TWO]) && refused_alone(input, outcome),
        Case::CutSizes => outcome.refusal == 6 && stream_in(input).is_some_and(|stream| cut_sizes(&stream)),
        Case::Largest => accepted && largest(input, outcome),
        Case::LongStream => outcome.refusal == 6 && file_in(input).len() == table::MAX_FILE,
        Case::OneBlockMore => outcome.refusal == 1 && file_in(input).len() == table::MAX_FILE + table::BLOCK,
        Case::RoomForFormOne => outcome.refusal == 13 && outcome.lent.len() >= 61_457,
        Case::ThereAndBack => accepted && there_and_back(input, outcome),
        Case::AsItWas => accepted && as_it_was(input, outcome),
        Case::OtherBlocks => accepted && outcome.numbers != [file_in(input).len() as u64],
        Case::RoomForResult => {
            let enough = outcome.lent.len() >= file_in(input).len();
            (outcome.refusal == 13 && enough) || (accepted && !enough)
        }
        Case::RoomFirst => outcome.refusal == 13 && opens_form_two() && above_zero(input),
        Case::HighByte => outcome.refusal == 18 && only_cost(input).is_some_and(|(_, cost)| cost & 255 == 0),
        Case::LastCost => outcome.refusal == 18 && only_cost(input).is_some_and(|(left, _)| left == 0),
        Case::LargeBound => accepted && bounds_in(input).any(|bound| BEYOND_ESTIMATES.contains(&bound)),
        Case::BoundAbove => refused_for_one(input, outcome, lower_bound, lower_kept_bound),
        Case::DearPrefix => accepted && dear_prefix(input),
        Case::PrefixAbove => refused_for_one(input, outcome, lower_prefix, |_, _| false),
        Case::EstimateAbove => refused_for_one(input, outcome, lower_estimate, lower_kept_estimate),
        Case::UnaryMissing => outcome.refusal == 6 && unary_missing(input),
        Case::OneFewer => {
            refused_for_one(input, outcome, |_, _| false, |unit, view| view.own > 1 && overpaid(unit, view))
        }
        Case::FirstOverpays => {
            refused_for_one(input, outcome, |_, _| false, |unit, view| view.own == 1 && overpaid(unit, view))
        }
        Case::UnaryUnpaid => refused_for_one(input, outcome, |_, _| false, pay_unary),
        Case::FirstPays => accepted && first_pays(input, outcome),
        Case::Decides => accepted && decides(input, outcome),
        Case::DearReply => Stepped::new(input, outcome).is_some_and(|step| step.dear_reply()),
        Case::LeastOfOne => accepted && least_of_one(input, outcome),
        Case::LargestTotal => accepted && total(outcome) == MAX_TOTAL.into(),
    }
}

// Tables

fn above_zero(input: &Input) -> bool {
    costs_in(input).0.iter().any(|cost| *cost > 0)
}

/// The one cost that is too high, if it is a unary one.
fn unary_above(input: &Input) -> Option<u16> {
    let (mut unary, pairs) = costs_in(input);
    unary.retain(|cost| u32::from(*cost) > MAX_COST);
    let permitted = |cost: &u16| u32::from(*cost) <= MAX_COST || *cost == FORBIDDEN_PAIR;
    if unary.len() == 1 && pairs.iter().all(permitted) {
        Some(unary[0])
    } else {
        None
    }
}

/// By 6, or where a unit's number is checked before the length, by 10: there is no unit.
fn refused_alone(input: &Input, outcome: &Outcome) -> bool {
    outcome.refusal == if matches!(input, Input::Lent { .. }) { 10 } else { 6 }
}

fn cut_sizes(stream: &[u8]) -> bool {
    let counted = table::from_count(stream);
    table::form(stream) == Form::Two && counted.first().is_some_and(|n| counted.len() <= *n as usize)
}

fn largest(input: &Input, outcome: &Outcome) -> bool {
    match input {
        Input::Read { file, .. } => file.len() == table::MAX_FILE,
        Input::Write { .. } | Input::Convert { .. } => outcome.numbers == [table::MAX_FILE as u64],
        Input::Lent { .. } => outcome.numbers[0] == 7_712,
        Input::Start { .. } => outcome.numbers[outcome.numbers.len() - TOLD] == 7_712,
        Input::Make { costs, .. } => costs.len() == 7_712,
        Input::MakeNetwork { stream, .. } | Input::MakeSlots { stream, .. } => stream.len() == table::MAX_STREAM,
        _ => false,
    }
}

// The converter

fn file_in(input: &Input) -> &[u8] {
    match input {
        Input::Read { file, .. } | Input::Convert { file, .. } => file,
        _ => &[],
    }
}

/// What the converter wrote.
fn converted(outcome: &Outcome) -> &[u8] {
    &outcome.lent[..outcome.numbers[0] as usize]
}

fn there_and_back(input: &Input, outcome: &Outcome) -> bool {
    let Input::Convert { file, wanted, .. } = input else { return false };
    let from = match wanted {
        Form::One => Form::Two,
        Form::Two => Form::One,
    };
    let mut back = vec![0; file.len()];
    let length = convert::convert(converted(outcome), from, &mut back);
    converted(outcome) != file && length == Ok(file.len()) && back == *file
}

/// Form two has unary costs above zero here.
fn as_it_was(input: &Input, outcome: &Outcome) -> bool {
    let Input::Convert { file, wanted, .. } = input else { return false };
    converted(outcome) == file && (*wanted == Form::One || above_zero(input))
}

/// Of the one unary cost above zero: how many come after it, and the cost.
fn only_cost(input: &Input) -> Option<(usize, u16)> {
    let (unary, _) = costs_in(input);
    let at = unary.iter().position(|cost| *cost > 0)?;
    let left = &unary[at + 1..];
    left.iter().all(|cost| *cost == 0).then_some((left.len(), unary[at]))
}

// Limits

/// What a bound may be, and an estimate not.
const BEYOND_ESTIMATES: RangeInclusive<u32> = MAX_ESTIMATE + 1..=MAX_TOTAL;

/// The message that an input comes with, if its bytes are 64.
fn message_in(input: &Input) -> Option<(u8, Places, u8, Message)> {
    match input {
        Input::Parse { n, sizes, packet } if packet.len() == message::SIZE => {
            let (kind, message) = message::fields(packet);
            Some((*n, *sizes, kind, message))
        }
        Input::Encode { n, sizes, kind, message, .. } => Some((*n, *sizes, *kind, *message)),
        _ => None,
    }
}

/// Whether an input is refused by 9 for its message, or by 5 for a unit's state, and would not be with one thing changed in it.
fn refused_for_one(
    input: &Input,
    outcome: &Outcome,
    change_message: impl Fn(u8, &mut Message) -> bool,
    change_unit: impl Fn(&mut Unit, &View) -> bool,
) -> bool {
    if let (9, Some((n, sizes, kind, message))) = (outcome.refusal, message_in(input)) {
        let written = |message: &Message| message::write(n, &sizes, kind, message, &mut [0; message::SIZE]);
        let mut changed = message;
        return written(&message) == Err(9) && change_message(kind, &mut changed) && written(&changed).is_ok();
    }
    if outcome.refusal != 5 || !checked(input) {
        return false;
    }
    units_in(input).into_iter().any(|(seat, mut unit)| {
        let mut again = input.clone();
        let changed = change_unit(&mut unit, &seat.view());
        match &mut again {
            Input::InRange { unit: lent, .. } | Input::Step { unit: lent, .. } => *lent = unit,
            Input::Deliver { network, .. } => network.units[seat.own - 1] = unit,
            Input::DeliverSlots { shed, .. } => shed.units[seat.own - 1] = unit,
            _ => {}
        }
        changed && calls::reference(again).refusal != 5
    })
}

fn lower_bound(_: u8, message: &mut Message) -> bool {
    let above = message.bound == MAX_TOTAL + 1;
    message.bound = message.bound.wrapping_sub(1);
    above
}

fn lower_kept_bound(unit: &mut Unit, _: &View) -> bool {
    let above = unit.bound == MAX_TOTAL + 1;
    unit.bound = MAX_TOTAL;
    above
}

fn lower_prefix(kind: u8, message: &mut Message) -> bool {
    message.cost = message.cost.wrapping_sub(1);
    matches!(kind, message::CPA | message::REQUEST)
}

fn lower_estimate(kind: u8, message: &mut Message) -> bool {
    let above = BEYOND_ESTIMATES.contains(&message.cost);
    message.cost = MAX_ESTIMATE;
    above && kind == message::ESTIMATE
}

fn lower_kept_estimate(unit: &mut Unit, _: &View) -> bool {
    let above = |estimate: &&mut u32| BEYOND_ESTIMATES.contains(*estimate);
    unit.estimates.iter_mut().find(above).map(|estimate| *estimate = MAX_ESTIMATE).is_some()
}

/// What a unit pays for the own value of its CPA out, if that is a CPA.
fn paid(unit: &Unit, view: &View) -> Option<u32> {
    if !filled(&unit.values, view.own, &view.sizes) {
        return None;
    }
    match view.added(&unit.values, view.own - 1, unit.values[view.own - 1] as usize) {
        Cost::Of(cost) => Some(cost),
        Cost::Forbidden => None,
    }
}

/// The CPA's cost brought down to what the own value costs and the limit for one unit fewer.
fn overpaid(unit: &mut Unit, view: &View) -> bool {
    let Some(paid) = paid(unit, view) else { return false };
    let most = paid + cost_limit(view.own - 1);
    let above = unit.cost > most && unit.cost <= cost_limit(view.own);
    unit.cost = most;
    above
}

/// The CPA's cost brought up to what the own value costs, from what its pairs cost or more.
fn pay_unary(unit: &mut Unit, view: &View) -> bool {
    let Some(paid) = paid(unit, view) else { return false };
    let unary = view.unary(unit.values[view.own - 1] as usize);
    let unpaid = unit.cost < paid && unit.cost >= paid - unary;
    unit.cost = paid;
    unpaid
}

/// The bounds that an accepted input comes with.
fn bounds_in(input: &Input) -> impl Iterator<Item = u32> {
    let units = units_in(input).into_iter().map(|(_, unit)| unit.bound);
    units.chain(message_in(input).map(|(_, _, _, message)| message.bound))
}

/// What k units can cost by their pairs alone.
fn pairs_limit(k: usize) -> u32 {
    30_000 * k as u32 * (k as u32).saturating_sub(1)
}

fn dear_prefix(input: &Input) -> bool {
    let dear = |values: &Places, cost: u32| cost > pairs_limit(values.iter().filter(|value| **value != 0).count());
    let unit = units_in(input).iter().any(|(seat, unit)| seat.own > 1 && dear(&unit.values, unit.cost));
    let sent = |kind: u8| matches!(kind, message::CPA | message::REQUEST);
    unit || message_in(input).is_some_and(|(_, _, kind, message)| sent(kind) && dear(&message.values, message.cost))
}

// Units

fn unary_missing(input: &Input) -> bool {
    let (Input::Make { own, n, sizes, costs, .. }
    | Input::InRange { own, n, sizes, costs, .. }
    | Input::Step { own, n, sizes, costs, .. }) = input
    else {
        return false;
    };
    let right = check_sizes(*n, sizes).is_ok() && (1..=*n).contains(own);
    right && costs.len() == 2 * costs::pairs_of_unit(*own as usize, *n as usize, sizes)
}

/// A unit 1 that was lent, or else was made.
fn first_pays(input: &Input, outcome: &Outcome) -> bool {
    let pays = |unit: &Unit| unit.values[0] != 0 && unit.cost > 0;
    match input {
        Input::Make { own: 1, .. } | Input::MakeNetwork { .. } | Input::MakeSlots { .. } => pays(&outcome.units[0]),
        _ => units_in(input).iter().any(|(seat, unit)| seat.own == 1 && pays(unit)),
    }
}

impl Stepped {
    /// The same step without unary costs, the one paid for the own value out of the CPA's cost, too.
    fn without_unary(&self) -> Option<unit::Decision> {
        let seat = &self.seat;
        let value = self.before.values[seat.own - 1] as usize;
        let paid = if value == 0 { 0 } else { seat.view().unary(value) };
        let (mut before, mut message) = (self.before, self.message);
        before.cost -= paid;
        if self.kind == message::CPA && message.sender as usize > seat.own {
            message.cost = message.cost.saturating_sub(paid);
        }
        let mut costs = seat.costs.clone();
        costs[..2 * seat.view().size(seat.own)].fill(0);
        let view = View::new_by(seat.order, seat.own, seat.n, &seat.sizes, &costs);
        unit::decide(&view, &before, self.kind, &message).ok()
    }

    fn unary_decides(&self) -> bool {
        let written = |unit: &Unit| (unit.values[self.seat.own - 1], unit.best);
        self.without_unary().is_some_and(|decision| written(&decision.unit) != written(&self.after))
    }

    fn dear_reply(&self) -> bool {
        let Some(sent) = self.sent.get(..64).filter(|_| self.kind == message::REQUEST) else { return false };
        let (_, reply) = message::fields(sent);
        self.without_unary().is_some_and(|decision| reply.cost > decision.sent[0].1.cost)
    }
}

// Reports

/// Of a table, that the assignment reported would not be a least one without unary costs.
fn decides(input: &Input, outcome: &Outcome) -> bool {
    let (stream, best) = match input {
        Input::Settle { stream, .. } | Input::SettleSlots { stream, .. } => (stream, outcome.units[0].best.to_vec()),
        Input::Search { stream } | Input::BranchAndBound { stream } => (stream, outcome.lent.clone()),
        _ => return Stepped::new(input, outcome).is_some_and(|step| step.unary_decides()),
    };
    let plain = in_form(stream, Form::One);
    best[0] != 0 && search::exhaustive(&plain).is_ok_and(|(least, _)| costs::total(&plain, &best) != Cost::Of(least))
}

/// That the bench or unit 1 reports.
fn total(outcome: &Outcome) -> u64 {
    outcome.units.first().map_or(outcome.numbers[0], |first| first.bound.into())
}

fn least_of_one(input: &Input, outcome: &Outcome) -> bool {
    let units = match input {
        Input::Make { n, .. } => *n,
        _ => stream_in(input).map_or(0, |stream| table::head(&stream).0),
    };
    let best = if outcome.units.is_empty() { outcome.lent[0] } else { outcome.units[0].best[0] };
    units == 1 && best > 1
}
