//! The same over the pool of slots (02's job 4): a cell's number is worked out, and a run knows which cells are in use; a replay (its job 14)
//! checks once.

use super::{
    assign, check_packet, check_states, open, respond, seats, send_with, wide_costs, Costs, Done, Layout, Seat,
};
use crate::reference::message::{CPA, ESTIMATE, REQUEST, SIZE, SOLUTION};
use crate::reference::order::ValueOrder;
use crate::reference::slots::{Shed, CELLS, POOL};
use crate::reference::unit;
use crate::reference::Refusal;

fn used_cells(n: usize) -> usize {
    (n - 1) * (n + 4)
}

/// The cell of a message that reads; sender and receiver count from 1.
fn cell_of(n: usize, kind: u8, sender: usize, receiver: usize) -> usize {
    let (cpas, pairs) = (2 * (n - 1), n * (n - 1) / 2);
    match kind {
        CPA if sender < receiver => 2 * sender - 2,
        CPA => 2 * sender - 3,
        REQUEST => cpas + (sender - 1) * n - sender * (sender - 1) / 2 + receiver - sender - 1,
        ESTIMATE => cpas + pairs + (sender - 1) * (sender - 2) / 2 + receiver - 1,
        SOLUTION => cpas + 2 * pairs + receiver - 1,
        _ => cpas + 2 * pairs + n - 1 + receiver - 2,
    }
}

/// A bit for each cell in use.
#[derive(Default)]
struct InUse {
    words: [u64; CELLS.div_ceil(64)],
}

impl InUse {
    fn put(&mut self, cell: usize) {
        self.words[cell / 64] |= 1 << (cell % 64);
    }

    fn take_lowest(&mut self) -> Option<usize> {
        let word = self.words.iter().position(|word| *word != 0)?;
        let bit = self.words[word].trailing_zeros() as usize;
        self.words[word] &= self.words[word] - 1;
        Some(64 * word + bit)
    }
}

/// What a step sends goes into cells of its own, and all is counted.
fn carry<C: Costs>(seat: &Seat<C>, done: &Done, shed: &mut Shed, pool: &mut [u8], mut sent: impl FnMut(usize)) {
    shed.records = shed.records.wrapping_add(done.records.into());
    send_with(seat, &shed.units[seat.own], done, |template, receiver| {
        let cell = cell_of(seat.n, template.kind(), seat.own + 1, receiver + 1);
        template.put(receiver, &mut pool[SIZE * cell..SIZE * (cell + 1)]);
        sent(cell);
    });
}

fn packet_at(pool: &[u8], cell: usize) -> [u8; SIZE] {
    pool[SIZE * cell..SIZE * (cell + 1)].try_into().unwrap()
}

/// The message at a cell, which is its own. Refusals 15, 8, 10, 9.
fn check_cell(layout: &Layout, pool: &[u8], cell: u64) -> Result<(usize, [u8; SIZE]), Refusal> {
    let n = layout.n;
    if cell >= used_cells(n) as u64 {
        return Err(15);
    }
    let cell = cell as usize;
    let packet = packet_at(pool, cell);
    if packet == [0; SIZE] {
        return Err(15);
    }
    let own = if packet[2].wrapping_sub(1) < n as u8 { packet[2] } else { 1 };
    check_packet(n, &layout.sizes, own, &packet)?;
    if cell_of(n, packet[0], packet[1].into(), packet[2].into()) != cell {
        return Err(9);
    }
    Ok((cell, packet))
}

/// One delivery, all that is lent checked. Refusals as the reference's.
pub fn deliver_by(
    order: ValueOrder,
    shed: &mut Shed,
    stream: &[u8],
    pool: &mut [u8],
    cell: u64,
) -> Result<(), Refusal> {
    if pool.len() < POOL {
        return Err(13);
    }
    let layout = open(stream)?;
    check_states(order, &layout, &shed.units)?;
    if shed.has_stopped() {
        return Err(12);
    }
    let (cell, packet) = check_cell(&layout, pool, cell)?;
    let seat = layout.seat(order, packet[2] as usize - 1, layout.costs);
    hand_over(&seat, shed, pool, (cell, &packet))
}

/// The deliveries of a list, the table and the states checked once. Refusals as the reference's.
pub fn replay_by(
    order: ValueOrder,
    shed: &mut Shed,
    stream: &[u8],
    pool: &mut [u8],
    list: &[u8],
) -> Result<(), Refusal> {
    if !list.len().is_multiple_of(2) {
        return Err(22);
    }
    if list.is_empty() {
        return Ok(());
    }
    if pool.len() < POOL {
        return Err(13);
    }
    let layout = open(stream)?;
    check_states(order, &layout, &shed.units)?;
    let costs = wide_costs(&layout);
    let seats = seats(order, &layout, &costs);
    for pair in list.chunks_exact(2) {
        if shed.has_stopped() {
            return Err(12);
        }
        let (cell, packet) = check_cell(&layout, pool, u16::from_le_bytes([pair[0], pair[1]]).into())?;
        hand_over(&seats[packet[2] as usize - 1], shed, pool, (cell, &packet))?;
    }
    Ok(())
}

/// A message that was checked goes to its unit. Refusals 12, 11.
fn hand_over<C: Costs>(
    seat: &Seat<C>,
    shed: &mut Shed,
    pool: &mut [u8],
    (cell, packet): (usize, &[u8; SIZE]),
) -> Result<(), Refusal> {
    if shed.units[seat.own].has_stopped() {
        return Err(12);
    }
    let done = respond(seat, &mut shed.units[seat.own], packet)?;
    pool[SIZE * cell..SIZE * (cell + 1)].fill(0);
    shed.deliveries = shed.deliveries.wrapping_add(1);
    carry(seat, &done, shed, pool, |_| {});
    Ok(())
}

/// Making, then the lowest cell in use until unit 1 has stopped, at most `most` times. Refusals 5, 6, 7, 13.
pub fn settle_by(order: ValueOrder, stream: &[u8], pool: &mut [u8], most: u128) -> Result<Shed, Refusal> {
    let layout = open(stream)?;
    if pool.len() < POOL {
        return Err(13);
    }
    let costs = wide_costs(&layout);
    let seats = seats(order, &layout, &costs);
    pool[..SIZE * used_cells(layout.n)].fill(0);
    let mut in_use = InUse::default();
    let mut shed = Shed { units: [unit::fresh(); 16], ..Shed::default() };
    let done = assign(&seats[0], &mut shed.units[0], 0);
    carry(&seats[0], &done, &mut shed, pool, |cell| in_use.put(cell));
    while !shed.has_stopped() && shed.deliveries < most {
        let cell = in_use.take_lowest().ok_or(15)?;
        let packet = packet_at(pool, cell);
        let seat = &seats[packet[2] as usize - 1];
        let done = respond(seat, &mut shed.units[seat.own], &packet)?;
        pool[SIZE * cell..SIZE * (cell + 1)].fill(0);
        shed.deliveries += 1;
        carry(seat, &done, &mut shed, pool, |cell| in_use.put(cell));
    }
    Ok(shed)
}
