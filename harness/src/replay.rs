//! What a recorded run (02's job 14), replayed, brings about beside the refusals: the cases that generated inputs must come to, and whether one did.

use crate::calls::{self, Call, Input, Outcome};
use crate::reference::message::{self, SIZE};
use crate::reference::slots::{self, Shed};
use crate::reference::table;

#[derive(Clone, Copy, PartialEq, Eq, Debug)]
pub enum Case {
    /// An empty list is accepted, and any cell would be refused by this number, or by the 5 of a state.
    EmptyDespite(u8),
    EmptyDespiteState,
    /// Refused by 22, more than a byte, and without its last one by this number, or by the 5 of a state; 0: it would be accepted.
    OddBefore(u8),
    OddBeforeState,
    /// One byte alone.
    OneByte,
    /// Refused by this number at its first cell; at a later one, and the deliveries before it stand.
    First(u8),
    Later(u8),
    /// Refused by 5, though the table is right.
    State,
    /// Refused by 9 at its first cell, or a later one, a message that reads, in another one's cell.
    FirstStray,
    LaterStray,
    /// Refused by 12, for unit 1 stopped in this list; for another unit has stopped, at its first cell or a later one.
    StoppedHere,
    FirstOtherStopped,
    LaterOtherStopped,
    /// Refused by 15, and cells follow that would be accepted.
    GoesOn,
    /// Refused by 15: a cell that this list has emptied; one past those that the units use, which is not all zero; none of the pool's.
    Emptied,
    Past,
    NoSuchCell,
    /// Refused by 13 with room for the cells that the units use.
    RoomForUsed,
    /// Delivers a cell that was empty before; the same cell twice; one above 255.
    Filled,
    Twice,
    HighByte,
    /// Accepted: unit 1 stops at the last cell; the same, on the shed as it was made; a hundred deliveries or more; one.
    Stops,
    Whole,
    Hundred,
    One,
    /// Accepted, and bytes past the cells that the units use are not zero.
    PastStay,
    /// On its way the count of deliveries goes on in its second word, or starts again at 0.
    Carries,
}

/// The cases that a call can come to.
pub fn cases(call: Call) -> Vec<Case> {
    use Case::*;
    let Call::ReplaySlots(_) = call else { return Vec::new() };
    let mut cases: Vec<Case> = [13, 5, 6, 7, 12].map(EmptyDespite).to_vec();
    cases.extend([0, 13, 5, 6, 7, 12, 15, 9].map(OddBefore));
    cases.extend([13, 5, 6, 7, 12, 15, 8, 10, 9, 11].map(First));
    cases.extend([12, 15, 8, 10, 9, 11].map(Later));
    cases.extend([EmptyDespiteState, OddBeforeState, OneByte, State, FirstStray, LaterStray]);
    cases.extend([StoppedHere, FirstOtherStopped, LaterOtherStopped, GoesOn, Emptied, Past, NoSuchCell, RoomForUsed]);
    cases.extend([Filled, Twice, HighByte, Stops, Whole, Hundred, One, PastStay, Carries]);
    cases
}

/// A replay with its outcome, which is the reference's.
pub struct Replayed<'a> {
    input: &'a Input,
    shed: &'a Shed,
    stream: &'a [u8],
    list: &'a [u8],
    pool: &'a [u8],
    outcome: &'a Outcome,
    after: Shed,
    cells: Vec<u64>,
    /// How many were delivered.
    done: usize,
}

impl<'a> Replayed<'a> {
    pub fn new(input: &'a Input, outcome: &'a Outcome) -> Option<Replayed<'a>> {
        let Input::ReplaySlots { shed, stream, list, pool, .. } = input else { return None };
        let after = calls::shed_in(outcome);
        let cells = list.chunks_exact(2).map(|pair| u16::from_le_bytes([pair[0], pair[1]]).into()).collect();
        let done = after.deliveries.wrapping_sub(shed.deliveries) as usize;
        Some(Replayed { input, shed, stream, list, pool, outcome, after, cells, done })
    }

    pub fn came_to(&self, case: Case) -> bool {
        let (refusal, odd) = (self.outcome.refusal, !self.list.len().is_multiple_of(2));
        let (first, later) = (self.done == 0 && !odd, self.done > 0);
        let other_stopped = refusal == 12 && !self.after.has_stopped();
        let state = |refusal: u8| refusal == 5 && self.used().is_some();
        match case {
            Case::EmptyDespite(number) => self.list.is_empty() && self.of_list(&[0; 2]) == number,
            Case::EmptyDespiteState => self.list.is_empty() && state(self.of_list(&[0; 2])),
            Case::OddBefore(number) => odd && self.list.len() > 1 && self.of_whole_pairs() == number,
            Case::OddBeforeState => odd && state(self.of_whole_pairs()),
            Case::OneByte => self.list.len() == 1,
            Case::First(number) => first && refusal == number,
            Case::Later(number) => later && refusal == number,
            Case::State => state(refusal),
            Case::FirstStray => first && self.is_stray(),
            Case::LaterStray => later && self.is_stray(),
            Case::StoppedHere => refusal == 12 && !self.shed.has_stopped() && self.after.has_stopped(),
            Case::FirstOtherStopped => first && other_stopped,
            Case::LaterOtherStopped => later && other_stopped,
            Case::GoesOn => refusal == 15 && self.goes_on(),
            Case::Emptied => refusal == 15 && self.delivered().contains(&self.cells[self.done]),
            Case::Past | Case::NoSuchCell => refusal == 15 && self.is_past(case),
            Case::RoomForUsed => refusal == 13 && self.used().is_some_and(|used| self.pool.len() >= SIZE * used),
            Case::Filled => self.delivered().iter().any(|cell| !slots::waits(self.pool, *cell as usize)),
            Case::Twice => (0..self.done).any(|at| self.cells[..at].contains(&self.cells[at])),
            Case::HighByte => self.delivered().iter().any(|cell| *cell > 255),
            Case::Stops => refusal == 0 && later && self.after.has_stopped(),
            Case::Whole => refusal == 0 && later && self.after.has_stopped() && self.shed.deliveries == 0,
            Case::Hundred => refusal == 0 && self.done >= 100,
            Case::One => refusal == 0 && self.done == 1,
            Case::PastStay => refusal == 0 && later && self.past().iter().any(|byte| *byte != 0),
            Case::Carries => (self.after.deliveries as u64) < self.shed.deliveries as u64,
        }
    }

    /// The cells that were delivered.
    fn delivered(&self) -> &[u64] {
        &self.cells[..self.done]
    }

    /// How many cells the units use; none where the stream is not a table.
    fn used(&self) -> Option<usize> {
        table::check_stream(self.stream).ok()?;
        Some(slots::slots(table::head(self.stream).0).len())
    }

    /// The bytes past those cells.
    fn past(&self) -> &[u8] {
        self.used().and_then(|used| self.pool.get(SIZE * used..)).unwrap_or_default()
    }

    /// The refusal of another list on the same shed.
    fn of_list(&self, other: &[u8]) -> u8 {
        let mut input = self.input.clone();
        if let Input::ReplaySlots { list, .. } = &mut input {
            *list = other.to_vec();
        }
        calls::reference(input).refusal
    }

    fn of_whole_pairs(&self) -> u8 {
        self.of_list(&self.list[..self.list.len() - 1])
    }

    /// Whether the rest of the list, without the cell that is refused, does better.
    fn goes_on(&self) -> bool {
        let (before, rest) = (&self.list[..2 * self.done], &self.list[2 * self.done + 2..]);
        !rest.is_empty() && self.of_list(&[before, rest].concat()) == 0
    }

    /// A message that reads, in another one's cell; the refusal is that 9.
    fn is_stray(&self) -> bool {
        if self.outcome.refusal != 9 {
            return false;
        }
        let (n, sizes) = table::head(self.stream);
        let packet = &self.outcome.lent[SIZE * self.cells[self.done] as usize..][..SIZE];
        message::parse(n, &sizes, packet).is_ok()
    }

    fn is_past(&self, case: Case) -> bool {
        let cell = self.cells[self.done] as usize;
        match case {
            Case::NoSuchCell => cell >= slots::CELLS,
            _ => cell < slots::CELLS && self.used().is_some_and(|used| cell >= used) && slots::waits(self.pool, cell),
        }
    }
}
