//! What the pool of slots (02's job 4) and the newer of two messages bring about beside the refusals: the cases that generated inputs must come
//! to, and whether one did. In order: a slot's cell, two messages, making, deliveries, settling.

use crate::calls::{self, Call, Input, Outcome};
use crate::reference::message::{self, Message, SIZE};
use crate::reference::network;
use crate::reference::slots::{self, Slot};
use crate::reference::{check_sizes, table, Places};
use std::cmp::Ordering;

#[derive(Clone, Copy, PartialEq, Eq, Debug)]
pub enum Case {
    /// A cell of this kind.
    Cell(u8),
    /// The last of the 300.
    LastCell,
    /// No such kind, though the two units are there.
    NoKind,
    /// The same two units have a cell of another kind.
    OtherKind,
    /// A unit to itself.
    ToItself,
    /// A unit that is not there.
    NotThere,
    /// More than 16 units.
    MoreUnits,
    /// The first is newer by its stamp, the second is.
    FirstStamp,
    SecondStamp,
    /// Equal stamps on messages that are not the same.
    SameStamp,
    /// Decided by the last unit that the stamps name.
    LastPlace,
    /// Decided by a unit before one that says otherwise.
    EarlierPlace,
    /// A CPA is newer, though its bound is the higher.
    StampNotBound,
    /// News: the first has the lower bound, the second has, neither has.
    FirstBound,
    SecondBound,
    SameBound,
    /// Two stops that are not the same.
    Stops,
    /// Both read, and differ in kind alone, sender alone, receiver alone.
    KindAlone,
    SenderAlone,
    ReceiverAlone,
    /// Neither reads, and the second by itself has another refusal.
    FirstsRefusal,
    /// The first reads, the second does not.
    SecondsRefusal,
    /// Made: a cell that the units use was in use before, and isn't now.
    Zeroed,
    /// Accepted, and bytes past the cells that the units use are not zero.
    PastStay,
    /// Accepted with 16 units, which use every cell.
    AllCells,
    /// Accepted with one unit, which uses none.
    NoCell,
    /// Refused by 13 with room for the cells that the units use.
    RoomForUsed,
    /// Refused by 9 a message in another one's cell, which is accepted in its own.
    Stray,
    /// The same, in a cell of its kind.
    StrayOfKind,
    /// Refused by 9 in another one's cell, and by 12 or 11 in its own.
    StrayBefore(u8),
    /// Refused by 15 an empty cell, while another is in use.
    Empty,
    /// Refused by 15 a cell past those that the units use, which is not all zero.
    Past,
    /// Refused by 15 a cell that is none of the pool's.
    NoSuchCell,
    /// Refused by 8 a cell with one byte that is not zero.
    OneByte,
    /// Accepted, and a message goes into a cell in use, into an empty one.
    Overwrites,
    Fills,
    /// Accepted, and something that is no message is overwritten.
    OverwritesNoMessage,
    /// Accepted, and a message is overwritten that is newer.
    OverwritesNewer,
    /// Accepted with every cell in use that the units use, and something is sent: no 14.
    Full,
    /// Accepted, and nothing changes but the cell and the count.
    Quiet,
    /// Accepted, and no other cell is in use.
    OnlyOne,
    /// Its unit has stopped and unit 1 has not: refused by 12.
    OtherStopped,
    /// Accepted, and the count of deliveries goes on in its second word, or starts again at 0.
    Carries,
    /// Settled by fewer deliveries than over 01's pool.
    Fewer,
    /// Settled with more records than over 01's pool, or fewer.
    OtherRecords,
}

/// The cases that a call can come to.
pub fn cases(call: Call) -> Vec<Case> {
    use Case::*;
    match call {
        Call::SlotOf => {
            let mut cells: Vec<Case> = (message::CPA..=message::STOP).map(Cell).collect();
            cells.extend([LastCell, NoKind, OtherKind, ToItself, NotThere, MoreUnits]);
            cells
        }
        Call::Newer => {
            let stamps = [FirstStamp, SecondStamp, SameStamp, LastPlace, EarlierPlace, StampNotBound];
            let bounds = [FirstBound, SecondBound, SameBound, Stops];
            let refused = [KindAlone, SenderAlone, ReceiverAlone, FirstsRefusal, SecondsRefusal];
            [&stamps[..], &bounds, &refused].concat()
        }
        Call::MakeSlots(_) => vec![Zeroed, PastStay, AllCells, NoCell, RoomForUsed],
        Call::DeliverSlots(_) => {
            let strays = [Stray, StrayOfKind, StrayBefore(12), StrayBefore(11)];
            let refused = [Empty, Past, NoSuchCell, OneByte, OtherStopped, RoomForUsed];
            let sent = [Overwrites, Fills, OverwritesNoMessage, OverwritesNewer, Full, Quiet, OnlyOne];
            [&strays[..], &refused, &sent, &[PastStay, AllCells, Carries]].concat()
        }
        Call::SettleSlots(_) => vec![Zeroed, PastStay, AllCells, NoCell, RoomForUsed, Fewer, OtherRecords],
        _ => Vec::new(),
    }
}

/// Whether an input came to a case; the outcome is the reference's.
pub fn came_to(case: Case, input: &Input, outcome: &Outcome) -> bool {
    match input {
        Input::SlotOf { n, slot } => of_slot(case, *n, *slot, outcome),
        Input::Newer { n, sizes, first, second } => of_two(case, *n, sizes, [first, second], outcome),
        Input::MakeSlots { stream, pool, .. } => of_made(case, stream, pool, outcome),
        Input::SettleSlots { stream, pool, .. } => {
            of_made(case, stream, pool, outcome) || of_settled(case, input, outcome)
        }
        Input::DeliverSlots { stream, cell, pool, .. } => {
            of_pool(case, stream, pool, outcome) || of_delivery(case, input, (stream, *cell, pool), outcome)
        }
        _ => false,
    }
}

// A slot's cell

fn of_slot(case: Case, n: u8, slot: Slot, outcome: &Outcome) -> bool {
    let allowed = slots::cell_of(n, slot).is_some();
    let there = |unit: u8| (1..=n).contains(&unit);
    let (both_there, few) = (there(slot.sender) && there(slot.receiver), n <= 16);
    let other_kind = |kind: u8| slots::cell_of(n, Slot { kind, ..slot }).is_some();
    match case {
        Case::Cell(kind) => allowed && few && slot.kind == kind,
        Case::LastCell => few && outcome.numbers == [slots::CELLS as u64 - 1],
        Case::NoKind => both_there && !(message::CPA..=message::STOP).contains(&slot.kind),
        Case::OtherKind => {
            let kind = (message::CPA..=message::STOP).contains(&slot.kind);
            kind && !allowed && (message::CPA..=message::STOP).any(other_kind)
        }
        Case::ToItself => both_there && slot.sender == slot.receiver,
        Case::NotThere => !both_there && (1..=16).contains(&n),
        Case::MoreUnits => allowed && !few,
        _ => false,
    }
}

// Two messages

fn of_two(case: Case, n: u8, sizes: &Places, packets: [&[u8]; 2], outcome: &Outcome) -> bool {
    let read = packets.map(|packet| message::parse(n, sizes, packet));
    match (case, read) {
        (Case::FirstsRefusal, [Err(first), Err(second)]) => first != second && outcome.refusal == first,
        (Case::SecondsRefusal, [Ok(_), Err(second)]) => outcome.refusal == second,
        (_, [Ok(one), Ok(other)]) if outcome.refusal == 9 => differ_alone(case, one, other),
        (_, [Ok((kind, one)), Ok((_, other))]) => of_alike(case, kind, [one, other], outcome.numbers[0]),
        _ => false,
    }
}

fn differ_alone(case: Case, (kind, one): (u8, Message), (other_kind, other): (u8, Message)) -> bool {
    let differ = [kind != other_kind, one.sender != other.sender, one.receiver != other.receiver];
    match case {
        Case::KindAlone => differ == [true, false, false],
        Case::SenderAlone => differ == [false, true, false],
        Case::ReceiverAlone => differ == [false, false, true],
        _ => false,
    }
}

/// Two that share all three, and which one is handed back.
fn of_alike(case: Case, kind: u8, [one, other]: [Message; 2], which: u64) -> bool {
    let (stamped, news) = (kind <= message::ESTIMATE, kind == message::SOLUTION);
    let stamps = one.stamp.cmp(&other.stamp);
    let places: Vec<Ordering> = one.stamp.iter().zip(&other.stamp).map(|(a, b)| a.cmp(b)).collect();
    let filled = one.stamp.iter().filter(|place| **place != 0).count();
    let against = places.iter().any(|place| *place == stamps.reverse());
    match case {
        Case::FirstStamp => stamped && stamps == Ordering::Greater,
        Case::SecondStamp => stamped && stamps == Ordering::Less && which == 2,
        Case::SameStamp => stamped && stamps == Ordering::Equal && one != other,
        Case::LastPlace => {
            filled > 1 && places[..filled - 1].iter().all(|place| place.is_eq()) && places[filled - 1].is_ne()
        }
        Case::EarlierPlace => stamps.is_ne() && against,
        Case::StampNotBound => {
            let (newer, older) = if which == 1 { (one, other) } else { (other, one) };
            kind == message::CPA && stamps.is_ne() && newer.bound > older.bound
        }
        Case::FirstBound => news && one.bound < other.bound,
        Case::SecondBound => news && one.bound > other.bound && which == 2,
        Case::SameBound => news && one.bound == other.bound && one != other,
        Case::Stops => kind == message::STOP && one != other,
        _ => false,
    }
}

// Sheds

/// How many cells the units of a stream use; none where it is not a table.
fn used(stream: &[u8]) -> Option<usize> {
    table::check_stream(stream).ok()?;
    Some(slots::slots(table::head(stream).0).len())
}

fn of_pool(case: Case, stream: &[u8], pool: &[u8], outcome: &Outcome) -> bool {
    let (accepted, Some(used)) = (outcome.refusal == 0, used(stream)) else { return false };
    match case {
        Case::PastStay => accepted && pool[SIZE * used..].iter().any(|byte| *byte != 0),
        Case::AllCells => accepted && used == slots::CELLS,
        Case::NoCell => accepted && used == 0,
        Case::RoomForUsed => outcome.refusal == 13 && used > 0 && pool.len() >= SIZE * used,
        _ => false,
    }
}

fn of_made(case: Case, stream: &[u8], pool: &[u8], outcome: &Outcome) -> bool {
    let zeroed = || {
        let used = used(stream).unwrap_or(0);
        (0..used).any(|cell| slots::waits(pool, cell) && !slots::waits(&outcome.lent, cell))
    };
    match case {
        Case::Zeroed => outcome.refusal == 0 && zeroed(),
        _ => of_pool(case, stream, pool, outcome),
    }
}

// Deliveries

fn of_delivery(case: Case, input: &Input, lent: (&[u8], u64, &[u8]), outcome: &Outcome) -> bool {
    match outcome.refusal {
        0 => of_accepted(case, input, lent, outcome),
        refusal => of_refused(case, input, lent, refusal),
    }
}

/// The bytes of a cell, if it is one of the pool's.
fn bytes(pool: &[u8], cell: u64) -> Option<&[u8]> {
    pool.chunks_exact(SIZE).nth(usize::try_from(cell).ok()?)
}

fn of_refused(case: Case, input: &Input, (stream, cell, pool): (&[u8], u64, &[u8]), refusal: u8) -> bool {
    let Input::DeliverSlots { shed, .. } = input else { return false };
    let (n, Some(used)) = (table::from_count(stream).first().copied().unwrap_or(0), used(stream)) else { return false };
    let in_its_own = || delivered_in_its_own(input, n);
    let waits = |cell: usize| slots::waits(pool, cell);
    match case {
        Case::Stray => refusal == 9 && in_its_own().is_some_and(|(_, refusal)| refusal == 0),
        Case::StrayOfKind => {
            let of_kind = |own: usize| slots::slots(n)[own].kind == slots::slots(n)[cell as usize].kind;
            refusal == 9 && in_its_own().is_some_and(|(own, refusal)| refusal == 0 && of_kind(own))
        }
        Case::StrayBefore(later) => refusal == 9 && in_its_own().is_some_and(|(_, refusal)| refusal == later),
        Case::Empty => refusal == 15 && cell < used as u64 && (0..used).any(waits),
        Case::Past => refusal == 15 && (used as u64..slots::CELLS as u64).contains(&cell) && waits(cell as usize),
        Case::NoSuchCell => refusal == 15 && cell >= slots::CELLS as u64,
        Case::OneByte => {
            let not_zero = |bytes: &[u8]| bytes.iter().filter(|byte| **byte != 0).count();
            refusal == 8 && bytes(pool, cell).map(not_zero) == Some(1)
        }
        Case::OtherStopped => refusal == 12 && !shed.has_stopped(),
        _ => false,
    }
}

/// The cell of the message that is to be delivered, where it is another, and the refusal of the same delivery with it there.
fn delivered_in_its_own(input: &Input, n: u8) -> Option<(usize, u8)> {
    let mut input = input.clone();
    let Input::DeliverSlots { cell, pool, .. } = &mut input else { return None };
    let packet = bytes(pool, *cell)?.to_vec();
    let (kind, message) = message::fields(&packet);
    let own = slots::cell_of(n, Slot::of(kind, &message)).filter(|own| *own as u64 != *cell)?;
    pool[SIZE * own..][..SIZE].copy_from_slice(&packet);
    *cell = own as u64;
    Some((own, calls::reference(input).refusal))
}

fn of_accepted(case: Case, input: &Input, (stream, cell, pool): (&[u8], u64, &[u8]), outcome: &Outcome) -> bool {
    let Input::DeliverSlots { shed, .. } = input else { return false };
    let (n, sizes) = table::head(stream);
    let used = slots::slots(n).len();
    let cells = |pool: &[u8], at: usize| pool[SIZE * at..][..SIZE].to_vec();
    // what is there before and after, of the cells into which something goes
    let changed = (0..used).filter(|at| *at as u64 != cell).map(|at| (cells(pool, at), cells(&outcome.lent, at)));
    let mut changed = changed.filter(|(before, after)| before != after);
    let empty = |bytes: &[u8]| bytes.iter().all(|byte| *byte == 0);
    let waiting = || slots::waiting(n, pool);
    match case {
        Case::Overwrites => changed.any(|(before, _)| !empty(&before)),
        Case::Fills => changed.any(|(before, _)| empty(&before)),
        Case::OverwritesNoMessage => {
            changed.any(|(before, _)| !empty(&before) && message::parse(n, &sizes, &before).is_err())
        }
        Case::OverwritesNewer => {
            check_sizes(n, &sizes).is_ok()
                && changed.any(|(before, after)| slots::newer(n, &sizes, &after, &before) == Ok(&before[..]))
        }
        Case::Full => waiting().len() == used && changed.next().is_some(),
        Case::Quiet => {
            let shed_after = calls::shed_in(outcome);
            shed_after.units == shed.units && shed_after.records == shed.records && changed.next().is_none()
        }
        Case::OnlyOne => waiting().len() == 1,
        Case::Carries => shed.deliveries as u64 == u64::MAX,
        _ => false,
    }
}

// Settling

fn of_settled(case: Case, input: &Input, outcome: &Outcome) -> bool {
    let Input::SettleSlots { order, stream, .. } = input else { return false };
    if !matches!(case, Case::Fewer | Case::OtherRecords) || outcome.refusal != 0 {
        return false;
    }
    let shed = calls::shed_in(outcome);
    let mut pool = vec![0; network::POOL];
    network::settle_by(calls::order_of(*order), stream, &mut pool).is_ok_and(|network| match case {
        Case::Fewer => shed.deliveries < network.deliveries,
        _ => shed.records != network.records,
    })
}
