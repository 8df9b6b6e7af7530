//! What an input comes to beside the refusals: the cases of echoes (02's job 2), of forbidden pairs (its job 3), of the pool of slots (its job
//! 4), of branch and bound (its job 6), of unary costs (its job 7), of costs pushed forward (its job 8), of the order of values (its job 9), of a
//! retest (its job 12), of tiny tables (its job 13), of replays (its job 14) and of a start from blocks, each of which generated inputs must come
//! to; then what they look at: an input's costs, and a unit's step.

use crate::calls::{order_of, Call, Input, Named, Outcome};
use crate::reference::costs::{self, View};
use crate::reference::message::{self, Message};
use crate::reference::order::ValueOrder;
use crate::reference::table::{self, Form};
use crate::reference::unit::{self, Unit};
use crate::reference::Places;
use crate::replay::{self, Replayed};
use crate::{bound, echo, forbidden, order, projections, retest, slots, start, tiny, unary};
use std::fmt;

#[derive(Clone, Copy, PartialEq, Eq)]
pub enum Case {
    Echo(echo::Case),
    Forbidden(forbidden::Case),
    Unary(unary::Case),
    Order(order::Case),
    Slots(slots::Case),
    Bound(bound::Case),
    Tiny(tiny::Case),
    Replay(replay::Case),
    Retest(retest::Case),
    Projections(projections::Case),
    Start(start::Case),
}

impl fmt::Display for Case {
    fn fmt(&self, out: &mut fmt::Formatter) -> fmt::Result {
        match self {
            Case::Echo(case) => write!(out, "{case:?}"),
            Case::Forbidden(case) => write!(out, "{case:?}"),
            Case::Unary(case) => write!(out, "{case:?}"),
            Case::Order(case) => write!(out, "{case:?}"),
            Case::Slots(case) => write!(out, "{case:?}"),
            Case::Bound(case) => write!(out, "{case:?}"),
            Case::Tiny(case) => write!(out, "{case:?}"),
            Case::Replay(case) => write!(out, "{case:?}"),
            Case::Retest(case) => write!(out, "{case:?}"),
            Case::Projections(case) => write!(out, "{case:?}"),
            Case::Start(case) => write!(out, "{case:?}"),
        }
    }
}

/// The cases that a call can come to.
pub fn cases(call: Call) -> Vec<Case> {
    let forbidden = forbidden::cases(call).iter().map(|case| Case::Forbidden(*case));
    let unary = unary::cases(call).into_iter().map(Case::Unary);
    let order = order::cases(call).into_iter().map(Case::Order);
    let echo = echo::cases(call).into_iter().map(Case::Echo);
    let slots = slots::cases(call).into_iter().map(Case::Slots);
    let bound = bound::cases(call).into_iter().map(Case::Bound);
    let tiny = tiny::cases(call).into_iter().map(Case::Tiny);
    let replay = replay::cases(call).into_iter().map(Case::Replay);
    let retest = retest::cases(call).into_iter().map(Case::Retest);
    let projections = projections::cases(call).into_iter().map(Case::Projections);
    let start = start::cases(call).into_iter().map(Case::Start);
    let costs = forbidden.chain(unary).chain(order);
    let jobs = echo.chain(slots).chain(bound).chain(tiny).chain(replay).chain(retest).chain(projections);
    costs.chain(jobs).chain(start).collect()
}

/// The cases that an input came to; the outcome is the reference's.
pub fn reached(call: Call, input: &Input, outcome: &Outcome) -> Vec<Case> {
    let mut cases = cases(call);
    let replayed = Replayed::new(input, outcome);
    cases.retain(|case| match case {
        Case::Echo(case) => echo::came_to(*case, input, outcome),
        Case::Forbidden(case) => forbidden::came_to(*case, input, outcome),
        Case::Unary(case) => unary::came_to(*case, input, outcome),
        Case::Order(case) => order::came_to(*case, input, outcome),
        Case::Slots(case) => slots::came_to(*case, input, outcome),
        Case::Bound(case) => bound::came_to(*case, input, outcome),
        Case::Tiny(case) => tiny::came_to(*case, input, outcome),
        Case::Replay(case) => replayed.as_ref().is_some_and(|replayed| replayed.came_to(*case)),
        Case::Retest(case) => retest::came_to(*case, input, outcome),
        Case::Projections(case) => projections::came_to(*case, input, outcome),
        Case::Start(case) => start::came_to(*case, input, outcome),
    });
    cases
}

// Costs

/// The stream that an input comes with, whatever its bytes.
pub fn stream_in(input: &Input) -> Option<Vec<u8>> {
    match input {
        Input::Read { file, .. } | Input::Convert { file, .. } => Some(payloads(file)),
        Input::Start { blocks, .. } => {
            let kept = blocks.iter().filter(|handed| !handed.again).flat_map(|handed| handed.block.clone());
            Some(payloads(&kept.collect::<Vec<u8>>()))
        }
        Input::Write { stream, .. }
        | Input::Lent { stream, .. }
        | Input::MakeNetwork { stream, .. }
        | Input::Deliver { stream, .. }
        | Input::Settle { stream, .. }
        | Input::MakeSlots { stream, .. }
        | Input::DeliverSlots { stream, .. }
        | Input::ReplaySlots { stream, .. }
        | Input::SettleSlots { stream, .. }
        | Input::Search { stream }
        | Input::BranchAndBound { stream }
        | Input::Hold { stream, .. }
        | Input::LowerBound { stream, .. } => Some(stream.clone()),
        _ => None,
    }
}

/// The payloads of a file's blocks, joined.
fn payloads(file: &[u8]) -> Vec<u8> {
    let payload = |block: &[u8]| {
        let count = u16::from_le_bytes([block[2], block[3]]) as usize;
        block[4..4 + count.min(table::PAYLOAD)].to_vec()
    };
    file.chunks_exact(table::BLOCK).flat_map(payload).collect()
}

/// Where the unary and the pair costs of a stream begin, whatever its bytes.
pub fn begin_in_stream(stream: &[u8]) -> (usize, usize) {
    let counted = table::from_count(stream);
    let n = counted.first().map_or(0, |n| *n as usize);
    let sizes: usize = costs::sizes_in(stream).iter().map(|d| *d as usize).sum();
    let unary = stream.len() - counted.len() + 1 + n;
    let pairs = if table::form(stream) == Form::Two { unary + 2 * sizes } else { unary };
    (unary.min(stream.len()), pairs.min(stream.len()))
}

/// Where the pair costs begin in what a unit is lent, whatever the bytes.
fn pairs_begin_in_lent(own: u8, sizes: &Places, costs: &[u8]) -> usize {
    let size = (own as usize).checked_sub(1).and_then(|place| sizes.get(place)).map_or(0, |d| *d as usize);
    (2 * size).min(costs.len())
}

/// The costs that an input comes with, of a table or of a unit: unary, pairs.
pub fn costs_in(input: &Input) -> (Vec<u16>, Vec<u16>) {
    let numbers = |bytes: &[u8]| bytes.chunks_exact(2).map(|cost| u16::from_le_bytes([cost[0], cost[1]])).collect();
    match input {
        Input::Make { own, sizes, costs, .. }
        | Input::InRange { own, sizes, costs, .. }
        | Input::Step { own, sizes, costs, .. } => {
            let (unary, pairs) = costs.split_at(pairs_begin_in_lent(*own, sizes, costs));
            (numbers(unary), numbers(pairs))
        }
        _ => {
            let stream = stream_in(input).unwrap_or_default();
            let (unary, pairs) = begin_in_stream(&stream);
            (numbers(&stream[unary..pairs]), numbers(&stream[pairs..]))
        }
    }
}

/// The pair costs of what a step or a delivery is lent, to be changed.
pub fn pairs_lent(input: &mut Input) -> &mut [u8] {
    match input {
        Input::InRange { own, sizes, costs, .. } | Input::Step { own, sizes, costs, .. } => {
            let pairs = pairs_begin_in_lent(*own, sizes, costs);
            &mut costs[pairs..]
        }
        Input::Deliver { stream, .. } | Input::DeliverSlots { stream, .. } => {
            let (_, pairs) = begin_in_stream(stream);
            &mut stream[pairs..]
        }
        _ => &mut [],
    }
}

// Units

/// A unit's place in a table, its costs its own, and the order in which it tries its values.
pub struct Seat {
    pub order: ValueOrder,
    pub own: usize,
    pub n: usize,
    pub sizes: Places,
    pub costs: Vec<u8>,
}

impl Seat {
    pub fn lent(order: ValueOrder, own: u8, n: u8, sizes: &Places, costs: &[u8]) -> Seat {
        Seat { order, own: own as usize, n: n as usize, sizes: *sizes, costs: costs.to_vec() }
    }

    pub fn of_stream(order: ValueOrder, stream: &[u8], own: usize) -> Seat {
        let (n, sizes) = table::head(stream);
        Seat { order, own, n: n as usize, sizes, costs: costs::of_unit(stream, own) }
    }

    pub fn view(&self) -> View<'_> {
        View::new_by(self.order, self.own, self.n, &self.sizes, &self.costs)
    }
}

/// Whether the sizes and costs that states are lent with are right.
pub fn checked(input: &Input) -> bool {
    match input {
        Input::InRange { own, n, sizes, costs, .. } | Input::Step { own, n, sizes, costs, .. } => {
            unit::check_lent(&unit::fresh(), *own, *n, sizes, costs).is_ok()
        }
        Input::Deliver { stream, .. } | Input::DeliverSlots { stream, .. } => table::check_stream(stream).is_ok(),
        _ => false,
    }
}

/// The units that an input of checked sizes and costs comes with.
pub fn units_in(input: &Input) -> Vec<(Seat, Unit)> {
    match input {
        Input::InRange { order, unit, own, n, sizes, costs }
        | Input::Step { order, unit, own, n, sizes, costs, .. } => {
            vec![(Seat::lent(order_of(*order), *own, *n, sizes, costs), *unit)]
        }
        Input::Deliver { order, network, stream, .. } => seated(*order, stream, &network.units),
        Input::DeliverSlots { order, shed, stream, .. } => seated(*order, stream, &shed.units),
        _ => Vec::new(),
    }
}

/// The units of a shed.
fn seated(order: Named, stream: &[u8], units: &[Unit; 16]) -> Vec<(Seat, Unit)> {
    let n = table::head(stream).0 as usize;
    (1..=n).map(|own| (Seat::of_stream(order_of(order), stream, own), units[own - 1])).collect()
}

/// Unit 1 that a call makes, alone or with its network. The call was accepted.
pub fn first_made(input: &Input) -> Option<Seat> {
    match input {
        Input::Make { order, own: 1, n, sizes, costs, .. } => Some(Seat::lent(order_of(*order), 1, *n, sizes, costs)),
        Input::MakeNetwork { order, stream, .. } | Input::MakeSlots { order, stream, .. } => {
            Some(Seat::of_stream(order_of(*order), stream, 1))
        }
        _ => None,
    }
}

/// A step alone, of a delivery or of an echo, accepted or refused by 11.
pub struct Stepped {
    pub seat: Seat,
    pub before: Unit,
    pub after: Unit,
    pub kind: u8,
    pub message: Message,
    pub sent: Vec<u8>,
}

impl Stepped {
    pub fn new(input: &Input, outcome: &Outcome) -> Option<Stepped> {
        if outcome.refusal != 0 && outcome.refusal != 11 {
            return None;
        }
        let cells = |from: u64, to: u64| outcome.lent[64 * from as usize..64 * to.max(from) as usize].to_vec();
        match input {
            Input::Step { order, unit, own, n, sizes, costs, packet, .. } => {
                let (kind, message) = message::parse(*n, sizes, packet).ok()?;
                let seat = Seat::lent(order_of(*order), *own, *n, sizes, costs);
                let sent = cells(0, outcome.numbers[0]);
                Some(Stepped { seat, before: *unit, after: outcome.units[0], kind, message, sent })
            }
            Input::Deliver { order, network, stream, event, pool } => {
                let (n, sizes) = table::head(stream);
                let (kind, message) = message::parse(n, &sizes, event.packet(pool)).ok()?;
                let seat = Seat::of_stream(order_of(*order), stream, message.receiver as usize);
                let (before, after) = (network.units[seat.own - 1], outcome.units[seat.own - 1]);
                let stay = event.stay(network.count);
                let sent = if outcome.refusal == 0 { cells(stay, outcome.numbers[0]) } else { Vec::new() };
                Some(Stepped { seat, before, after, kind, message, sent })
            }
            Input::DeliverSlots { order, shed, stream, cell, pool } => {
                let (n, sizes) = table::head(stream);
                let cells = || pool.chunks_exact(64).zip(outcome.lent.chunks_exact(64)).enumerate();
                let (kind, message) = message::parse(n, &sizes, cells().nth(*cell as usize)?.1 .0).ok()?;
                let seat = Seat::of_stream(order_of(*order), stream, message.receiver as usize);
                let (before, after) = (shed.units[seat.own - 1], outcome.units[seat.own - 1]);
                // a fresh message that is the older one's bytes can't be told
                let fresh = cells().filter(|(at, (before, after))| *at as u64 != *cell && before != after);
                let sent = fresh.flat_map(|(_, (_, after))| after.to_vec()).collect();
                Some(Stepped { seat, before, after, kind, message, sent })
            }
            _ => None,
        }
    }
}
