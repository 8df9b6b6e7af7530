//! What an echo (02's job 2) brings about beside the refusals that it has as a delivery: the cases that generated inputs must come to, and
//! whether one did.

use crate::calls::{self, Call, Event, Input, Outcome};
use crate::reference::message::SIZE;
use crate::reference::network::{Network, CELLS};
use crate::reference::table;

#[derive(Clone, Copy, PartialEq, Eq, Debug)]
pub enum Case {
    /// Accepted while the same bytes wait at a cell.
    Waits,
    /// Accepted while they don't.
    Gone,
    /// Accepted, and something is sent.
    Answered,
    /// Accepted, and nothing changes but the count.
    Quiet,
    /// Accepted with no cell in use.
    NoCell,
    /// Accepted, and fills the last cell.
    Fills,
    /// Accepted with every cell in use: nothing is sent.
    Full,
    /// Refused by 14 where the cell that a delivery frees would be enough.
    OneTooMany,
    /// Too short to name a unit: refused by 8.
    NamesNone,
    /// A packet with more bytes behind it: refused by 8.
    Longer,
    /// Names a unit that isn't there: refused by 10.
    NoUnit,
    /// Its unit has stopped and unit 1 has not: refused by 12.
    OtherStopped,
    /// Accepted, and the count of deliveries goes on in its second word, or starts again at 0.
    Carries,
}

/// The cases that a call can come to.
pub fn cases(call: Call) -> Vec<Case> {
    use Case::*;
    let accepted = [Waits, Gone, Answered, Quiet, NoCell, Fills, Full, Carries];
    let refused = [OneTooMany, NamesNone, Longer, NoUnit, OtherStopped];
    match call {
        Call::Echo(_) => [&accepted[..], &refused].concat(),
        _ => Vec::new(),
    }
}

/// Whether an input came to a case; the outcome is the reference's.
pub fn came_to(case: Case, input: &Input, outcome: &Outcome) -> bool {
    let Input::Deliver { network, stream, event: Event::Echo(packet), pool, .. } = input else { return false };
    let (accepted, used) = (outcome.refusal == 0, network.count);
    match case {
        Case::Waits => accepted && waits(packet, used, pool),
        Case::Gone => accepted && !waits(packet, used, pool),
        Case::Answered => accepted && used_after(outcome) > used,
        Case::Quiet => accepted && only_counted(network, outcome),
        Case::NoCell => accepted && used == 0,
        Case::Fills => accepted && used < CELLS as u64 && used_after(outcome) == CELLS as u64,
        Case::Full => accepted && used == CELLS as u64,
        Case::OneTooMany => outcome.refusal == 14 && fits_with_one_cell_less(input),
        Case::NamesNone => outcome.refusal == 8 && packet.len() < 3,
        Case::Longer => outcome.refusal == 8 && packet.len() > SIZE && reads(input),
        Case::NoUnit => outcome.refusal == 10 && !(1..=table::head(stream).0).contains(&packet[2]),
        Case::OtherStopped => outcome.refusal == 12 && !network.units[0].has_stopped(),
        Case::Carries => accepted && network.deliveries as u64 == u64::MAX,
    }
}

fn used_after(outcome: &Outcome) -> u64 {
    outcome.numbers[0]
}

fn waits(packet: &[u8], used: u64, pool: &[u8]) -> bool {
    pool.chunks_exact(SIZE).take(used as usize).any(|cell| cell == packet)
}

fn only_counted(network: &Network, outcome: &Outcome) -> bool {
    let counted = Network { deliveries: network.deliveries.wrapping_add(1), ..network.clone() };
    calls::network_in(outcome) == counted
}

/// The same input with its last cell not in use.
fn fits_with_one_cell_less(input: &Input) -> bool {
    let mut input = input.clone();
    if let Input::Deliver { network, .. } = &mut input {
        network.count -= 1;
    }
    calls::reference(input).refusal == 0
}

/// Whether the first 64 bytes alone are accepted.
fn reads(input: &Input) -> bool {
    let mut input = input.clone();
    if let Input::Deliver { event: Event::Echo(packet), .. } = &mut input {
        packet.truncate(SIZE);
    }
    calls::reference(input).refusal == 0
}
