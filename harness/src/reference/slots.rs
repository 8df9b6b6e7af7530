//! 02's job 4: the shed with the pool that keeps "one cell for each sender, receiver and kind that the rules allow", and the newer of two
//! messages; job 14: a recorded run, replayed on such a shed.

use super::costs::{self, View};
use super::message::{self, Message, CPA, ESTIMATE, REQUEST, SIZE, SOLUTION, STOP};
use super::network;
use super::order::ValueOrder;
use super::table;
use super::unit::{self, Unit};
use super::{check_sizes, Places, Refusal};
use std::cmp::Ordering;

/// 02: "300 cells for 16 units"; "The pool is 19,200 bytes".
pub const CELLS: usize = 300;
pub const POOL: usize = CELLS * SIZE;

/// The shed beside its pool. 02: "This pool has no count".
#[derive(Clone, PartialEq, Eq, Debug, Default)]
pub struct Shed {
    /// Those past n are new units after making; nothing looks at them or changes them.
    pub units: [Unit; 16],
    pub records: u128,
    pub deliveries: u128,
}

impl Shed {
    pub fn has_stopped(&self) -> bool {
        self.units[0].has_stopped()
    }
}

// Cells

/// What a cell is for.
#[derive(Clone, Copy, PartialEq, Eq, Debug)]
pub struct Slot {
    pub kind: u8,
    pub sender: u8,
    pub receiver: u8,
}

impl Slot {
    pub fn of(kind: u8, message: &Message) -> Slot {
        Slot { kind, sender: message.sender, receiver: message.receiver }
    }

    /// 01's rules for who sends a message of a kind to whom, both of them units 1 to n.
    fn is_allowed(self, n: u8) -> bool {
        let Slot { kind, sender, receiver } = self;
        match kind {
            // "receiver is sender + 1 (going down) or sender - 1 (going back)"
            CPA => sender.abs_diff(receiver) == 1,
            REQUEST => sender < receiver,
            ESTIMATE => sender > receiver,
            // "News (from unit n) and stop (from unit 1), to another unit"
            SOLUTION => sender == n && receiver != sender,
            STOP => sender == 1 && receiver != sender,
            _ => false,
        }
    }
}

/// What the cells are for that n units use, the first cell's first. 02: "ordered by kind, sender, receiver".
pub fn slots(n: u8) -> Vec<Slot> {
    let kinds = CPA..=STOP;
    let of_kind = |kind: u8| (1..=n).map(move |sender| (kind, sender));
    let of_sender = |(kind, sender): (u8, u8)| (1..=n).map(move |receiver| Slot { kind, sender, receiver });
    kinds.flat_map(of_kind).flat_map(of_sender).filter(|slot| slot.is_allowed(n)).collect()
}

/// A slot's cell; none where the rules allow none.
pub fn cell_of(n: u8, slot: Slot) -> Option<usize> {
    slots(n).iter().position(|allowed| *allowed == slot)
}

/// 02: "a message waiting while its cell isn't all zero". The cell is one of the pool's.
pub fn waits(pool: &[u8], cell: usize) -> bool {
    pool[SIZE * cell..][..SIZE].iter().any(|byte| *byte != 0)
}

/// The cells in use, of those that n units use.
pub fn waiting(n: u8, pool: &[u8]) -> Vec<usize> {
    (0..slots(n).len()).filter(|cell| waits(pool, *cell)).collect()
}

// The shed

/// Refusals 5, 6, 7, 13.
pub fn make(stream: &[u8], pool: &mut [u8]) -> Result<Shed, Refusal> {
    make_by(ValueOrder::default(), stream, pool)
}

pub fn make_by(order: ValueOrder, stream: &[u8], pool: &mut [u8]) -> Result<Shed, Refusal> {
    table::check_stream(stream)?;
    check_pool(pool)?;
    let (n, sizes) = table::head(stream);
    // "n units use the first (n-1) × (n+4), which making the shed zeroes before unit 1's messages go in"
    pool[..SIZE * slots(n).len()].fill(0);
    let mut shed = Shed { units: [unit::fresh(); 16], ..Shed::default() };
    for own in 1..=n as usize {
        let costs = costs::of_unit(stream, own);
        let made = unit::start(&View::new_by(order, own, n as usize, &sizes, &costs));
        shed.units[own - 1] = made.unit;
        shed.records += u128::from(made.records());
        place(n, pool, &made.sent);
    }
    Ok(shed)
}

/// Refusals 13, 5, 6, 7, 5 (states), 12, 15, the message's own 8, 10, 9, then 9 in a cell not its own, then 12 and 11. Refused: nothing changes.
pub fn deliver(shed: &mut Shed, stream: &[u8], pool: &mut [u8], cell: u64) -> Result<(), Refusal> {
    deliver_by(ValueOrder::default(), shed, stream, pool, cell)
}

pub fn deliver_by(
    order: ValueOrder,
    shed: &mut Shed,
    stream: &[u8],
    pool: &mut [u8],
    cell: u64,
) -> Result<(), Refusal> {
    check_pool(pool)?;
    table::check_stream(stream)?;
    network::check_states(order, &shed.units, stream)?;
    if shed.has_stopped() {
        return Err(12);
    }
    let (n, sizes) = table::head(stream);
    let used = slots(n).len();
    if cell >= used as u64 || !waits(pool, cell as usize) {
        return Err(15);
    }
    let bytes = SIZE * cell as usize..SIZE * (cell as usize + 1);
    let (kind, message) = message::parse_for(n, &sizes, &pool[bytes.clone()], None)?;
    // "A message in a cell not its own gets 9"
    if cell_of(n, Slot::of(kind, &message)) != Some(cell as usize) {
        return Err(9);
    }
    let (own, decision) = network::step(order, &shed.units, stream, &pool[bytes.clone()])?;
    // "taking fills it with zeros"
    pool[bytes].fill(0);
    shed.units[own - 1] = decision.unit;
    shed.records = shed.records.wrapping_add(u128::from(decision.records()));
    shed.deliveries = shed.deliveries.wrapping_add(1);
    place(n, pool, &decision.sent);
    Ok(())
}

/// 02's job 14: "a list of cells in the order delivered, one byte pair each, low byte first". Refusal 22, then the deliveries'. Refused: "the
/// deliveries before it stand".
pub fn replay(shed: &mut Shed, stream: &[u8], pool: &mut [u8], list: &[u8]) -> Result<(), Refusal> {
    replay_by(ValueOrder::default(), shed, stream, pool, list)
}

pub fn replay_by(
    order: ValueOrder,
    shed: &mut Shed,
    stream: &[u8],
    pool: &mut [u8],
    list: &[u8],
) -> Result<(), Refusal> {
    // "A list of odd length is 22, before any other check"
    if !list.len().is_multiple_of(2) {
        return Err(22);
    }
    // "It ends at the first refusal, with that refusal's number"; "an empty one is never refused", as nothing is delivered
    for pair in list.chunks_exact(2) {
        let cell = u16::from_le_bytes([pair[0], pair[1]]);
        deliver_by(order, shed, stream, pool, cell.into())?;
    }
    Ok(())
}

/// Making, then the lowest cell in use each time until unit 1 has stopped.
pub fn settle(stream: &[u8], pool: &mut [u8]) -> Result<Shed, Refusal> {
    settle_by(ValueOrder::default(), stream, pool)
}

pub fn settle_by(order: ValueOrder, stream: &[u8], pool: &mut [u8]) -> Result<Shed, Refusal> {
    let mut shed = make_by(order, stream, pool)?;
    let n = table::head(stream).0;
    while !shed.has_stopped() {
        let lowest = waiting(n, pool).first().map_or(CELLS, |cell| *cell);
        deliver_by(order, &mut shed, stream, pool, lowest as u64)?;
    }
    Ok(shed)
}

/// "The pool is 19,200 bytes, and 13 reads so for this pool".
fn check_pool(pool: &[u8]) -> Result<(), Refusal> {
    if pool.len() < POOL {
        return Err(13);
    }
    Ok(())
}

/// "A fresh message overwrites the older one in its cell".
fn place(n: u8, pool: &mut [u8], sent: &[(u8, Message)]) {
    for (kind, message) in sent {
        let cell = cell_of(n, Slot::of(*kind, message)).expect("what a unit sends is allowed");
        pool[SIZE * cell..SIZE * (cell + 1)].copy_from_slice(&message::encode(*kind, message));
    }
}

// Two messages

/// "For two lent messages that share sender, receiver and kind, the newer of the two is handed back as part of the buffer that held it".
/// Refusals 5, the first's 8, 10, 9, the second's, then 9 where they differ in one of the three.
pub fn newer<'a>(n: u8, sizes: &Places, first: &'a [u8], second: &'a [u8]) -> Result<&'a [u8], Refusal> {
    check_sizes(n, sizes)?;
    let (kind, one) = message::parse_for(n, sizes, first, None)?;
    let (other_kind, other) = message::parse_for(n, sizes, second, None)?;
    if Slot::of(kind, &one) != Slot::of(other_kind, &other) {
        return Err(9);
    }
    // "by stamp, or by lower bound for news, the first on a tie"; a stop has no stamp
    let age = match kind {
        SOLUTION => one.bound.cmp(&other.bound),
        _ => other.stamp.cmp(&one.stamp),
    };
    Ok(if age == Ordering::Greater { second } else { first })
}
