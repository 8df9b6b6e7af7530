//! What costs pushed forward (02's job 8) bring about beside the refusals' numbers: each reason of a refusal, and the moves that must be seen.
//! The cases that generated inputs must come to, and whether one did.

use crate::calls::{Call, Held, Input, Outcome};
use crate::reference::projections::{self, BARRED};
use crate::reference::table;

#[derive(Clone, Copy, PartialEq, Eq, Debug)]
pub enum Case {
    /// 5 for n, 5 for a size.
    BadCount,
    BadSize,
    /// 6 for too few costs, and for too many.
    TooFew,
    TooMany,
    /// 10 for a unit that isn't there, a value, the other unit, and a unit with itself.
    NoUnit,
    NoValue,
    NoOther,
    Itself,
    /// 19 for an own cost lent barred, and for the floor.
    OwnBarred,
    FloorBarred,
    /// 19 for an own cost, the floor or a pair cost above the range, and for a part larger than the own cost.
    OwnAbove,
    FloorAbove,
    PairAbove,
    PartAbove,
    /// 5 before 6, 6 before 10, 10 before 19.
    ShapeFirst,
    LengthFirst,
    PlaceFirst,
    /// Accepted, and the other unit comes before, or after.
    Earlier,
    Later,
    /// Accepted, and the row is barred whole: nothing moves; or in part.
    RowBarred,
    PartlyBarred,
    /// Accepted, and costs are moved; with an extension of 0 none.
    Moves,
    NoPart,
    /// Accepted, up to the last number that isn't barred.
    AtTheTop,
    /// Everything projected, up to a refusal that leaves moves standing.
    Stops,
    /// Room for just as many costs, and for one fewer.
    JustRoom,
    OneFewer,
    /// A floor above 0.
    Floor,
}

/// The cases that a call can come to.
pub fn cases(call: Call) -> Vec<Case> {
    use Case::*;
    let lent = [BadCount, BadSize, TooFew, TooMany, OwnBarred, FloorBarred, ShapeFirst, Moves];
    let row =
        [NoUnit, NoValue, NoOther, Itself, LengthFirst, PlaceFirst, Earlier, Later, RowBarred, PartlyBarred, AtTheTop];
    match call {
        Call::Project => [&lent[..], &row, &[OwnAbove]].concat(),
        Call::ProjectUnary => [&lent[..], &[NoUnit, LengthFirst, PlaceFirst, FloorAbove, AtTheTop]].concat(),
        Call::Extend => [&lent[..], &row, &[PairAbove, PartAbove, NoPart]].concat(),
        Call::ProjectAll => [&lent[..], &[OwnAbove, FloorAbove, Stops]].concat(),
        Call::Hold => vec![JustRoom, OneFewer],
        Call::LowerBound => vec![JustRoom, OneFewer, Floor],
        _ => Vec::new(),
    }
}

/// A move: what it is lent, the unit, and for a row its value, the other unit and the part.
struct Move<'a> {
    held: &'a Held,
    unit: Option<u8>,
    row: Option<(u8, u8)>,
    part: Option<u32>,
}

impl Move<'_> {
    fn new(input: &Input) -> Option<Move<'_>> {
        match input {
            Input::Project { held, unit, value, other } => {
                Some(Move { held, unit: Some(*unit), row: Some((*value, *other)), part: None })
            }
            Input::ProjectUnary { held, unit } => Some(Move { held, unit: Some(*unit), row: None, part: None }),
            Input::Extend { held, unit, value, other, part } => {
                Some(Move { held, unit: Some(*unit), row: Some((*value, *other)), part: Some(*part) })
            }
            Input::ProjectAll { held } => Some(Move { held, unit: None, row: None, part: None }),
            _ => None,
        }
    }

    fn count_good(&self) -> bool {
        (1..=16).contains(&self.held.n)
    }

    fn unit_there(&self) -> bool {
        self.unit.is_none_or(|unit| (1..=self.held.n).contains(&unit))
    }

    fn value_there(&self) -> bool {
        let size = self.unit.map_or(0, |unit| self.held.sizes[unit as usize - 1]);
        self.row.is_none_or(|(value, _)| (1..=size).contains(&value))
    }

    fn other_there(&self) -> bool {
        self.row.is_none_or(|(_, other)| (1..=self.held.n).contains(&other))
    }

    fn with_itself(&self) -> bool {
        self.row.is_some_and(|(_, other)| self.unit == Some(other))
    }

    fn own(&self) -> &[u32] {
        let values = self.held.sizes[..self.held.n as usize].iter().map(|d| *d as usize).sum();
        &self.held.costs[..values]
    }

    /// The row's costs; the move is of a row that is there.
    fn row_costs(&self) -> Vec<u32> {
        let (unit, (value, other)) = (self.unit.expect("a row"), self.row.expect("a row"));
        projections::row(self.held.n, &self.held.sizes, &self.held.costs, unit, value, other)
    }
}

/// Whether an input came to a case; the outcome is the reference's.
pub fn came_to(case: Case, input: &Input, outcome: &Outcome) -> bool {
    match Move::new(input) {
        Some(moved) => move_came_to(case, &moved, outcome),
        None => table_came_to(case, input, outcome),
    }
}

fn move_came_to(case: Case, moved: &Move, outcome: &Outcome) -> bool {
    let held = moved.held;
    let needed = || projections::count(held.n, &held.sizes);
    let (accepted, refused) = (outcome.refusal == 0, |number: u8| outcome.refusal == number);
    let lent = || held.floor != BARRED && !moved.own().contains(&BARRED);
    let same = || outcome.lent == crate::calls::bytes_of(&held.costs) && outcome.numbers == [u64::from(held.floor)];
    let row_barred = || moved.row_costs().iter().filter(|cost| **cost == BARRED).count();
    let last = BARRED - 1;
    match case {
        Case::BadCount => refused(5) && !moved.count_good(),
        Case::BadSize => refused(5) && moved.count_good(),
        Case::TooFew => refused(6) && held.costs.len() < needed(),
        Case::TooMany => refused(6) && held.costs.len() > needed(),
        Case::NoUnit => refused(10) && !moved.unit_there(),
        Case::NoValue => refused(10) && moved.unit_there() && !moved.value_there(),
        Case::NoOther => refused(10) && moved.unit_there() && moved.value_there() && !moved.other_there(),
        Case::Itself => refused(10) && moved.unit_there() && moved.value_there() && moved.with_itself(),
        Case::OwnBarred => refused(19) && held.floor != BARRED && moved.own().contains(&BARRED),
        Case::FloorBarred => refused(19) && held.floor == BARRED && !moved.own().contains(&BARRED),
        Case::OwnAbove => refused(19) && lent() && outcome.numbers == [u64::from(held.floor)],
        Case::FloorAbove => {
            refused(19) && lent() && (moved.unit.is_some() || outcome.numbers[0] > u64::from(held.floor))
        }
        Case::PairAbove => refused(19) && lent() && moved.part.is_some_and(|part| part <= own_cost(moved)),
        Case::PartAbove => refused(19) && lent() && moved.part.is_some_and(|part| part > own_cost(moved)),
        Case::ShapeFirst => refused(5) && moved.count_good() && held.costs.len() != needed(),
        Case::LengthFirst => refused(6) && !(moved.unit_there() && moved.value_there() && moved.other_there()),
        Case::PlaceFirst => refused(10) && !lent(),
        Case::Earlier => accepted && moved.row.is_some_and(|(_, other)| Some(other) < moved.unit),
        Case::Later => accepted && moved.row.is_some_and(|(_, other)| Some(other) > moved.unit),
        Case::RowBarred => accepted && row_barred() == moved.row_costs().len(),
        Case::PartlyBarred => accepted && (1..moved.row_costs().len()).contains(&row_barred()) && !same(),
        Case::Moves => accepted && !same(),
        Case::NoPart => accepted && moved.part == Some(0) && same(),
        Case::AtTheTop => {
            let top = |cost: &[u8]| cost == last.to_le_bytes();
            let costs = outcome.lent.chunks(4).filter(|cost| top(cost)).count();
            let before = held.costs.iter().filter(|cost| **cost == last).count();
            accepted && !same() && (costs > before || outcome.numbers == [u64::from(last)])
        }
        Case::Stops => refused(19) && lent() && !same(),
        _ => false,
    }
}

/// The own cost of the move's value; the value is there.
fn own_cost(moved: &Move) -> u32 {
    let (unit, (value, _)) = (moved.unit.expect("a row"), moved.row.expect("a row"));
    let before: usize = moved.held.sizes[..unit as usize - 1].iter().map(|d| *d as usize).sum();
    moved.held.costs[before + value as usize - 1]
}

fn table_came_to(case: Case, input: &Input, outcome: &Outcome) -> bool {
    let (Input::Hold { stream, costs } | Input::LowerBound { stream, costs }) = input else { return false };
    if table::check_stream(stream).is_err() {
        return false;
    }
    let (n, sizes) = table::head(stream);
    let needed = projections::count(n, &sizes);
    match case {
        Case::JustRoom => outcome.refusal == 0 && costs.len() == needed,
        Case::OneFewer => outcome.refusal == 13 && costs.len() + 1 == needed,
        Case::Floor => outcome.refusal == 0 && outcome.numbers[0] > 0,
        _ => false,
    }
}
