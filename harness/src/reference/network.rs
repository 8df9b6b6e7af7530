//! The shed: n units, a pool of waiting messages and two counts.

use super::costs::{self, View};
use super::message::{self, SIZE};
use super::order::ValueOrder;
use super::table;
use super::unit::{self, Unit};
use super::Refusal;

pub const CELLS: usize = 1_024;
pub const POOL: usize = CELLS * SIZE;

#[derive(Clone, PartialEq, Eq, Debug, Default)]
pub struct Network {
    /// Those past n are new units after making; nothing looks at them or changes them.
    pub units: [Unit; 16],
    /// Cells in use.
    pub count: u64,
    pub records: u128,
    pub deliveries: u128,
}

/// Refusals 5, 6, 7, 13.
pub fn make(stream: &[u8], pool: &mut [u8]) -> Result<Network, Refusal> {
    make_by(ValueOrder::default(), stream, pool)
}

pub fn make_by(order: ValueOrder, stream: &[u8], pool: &mut [u8]) -> Result<Network, Refusal> {
    table::check_stream(stream)?;
    if pool.len() < POOL {
        return Err(13);
    }
    let (n, sizes) = table::head(stream);
    let mut network = Network { units: [unit::fresh(); 16], ..Network::default() };
    for own in 1..=n as usize {
        let costs = costs::of_unit(stream, own);
        let made = unit::start(&View::new_by(order, own, n as usize, &sizes, &costs));
        network.units[own - 1] = made.unit;
        network.records += u128::from(made.records());
        append(&mut network, pool, &made.sent);
    }
    Ok(network)
}

/// Refusals 13, 5, 6, 7, 5 (states, pool count), 12, 15, the step's from 8 on, 14. Refused: nothing changes.
pub fn deliver(network: &mut Network, stream: &[u8], pool: &mut [u8], cell: u64) -> Result<(), Refusal> {
    deliver_by(ValueOrder::default(), network, stream, pool, cell)
}

/// 02's job 9: "in a run, the making and every delivery or echo name the same" order.
pub fn deliver_by(
    order: ValueOrder,
    network: &mut Network,
    stream: &[u8],
    pool: &mut [u8],
    cell: u64,
) -> Result<(), Refusal> {
    check_shed(order, network, stream, pool)?;
    if cell >= network.count {
        return Err(15);
    }
    let cell = cell as usize;
    let packet = &pool[SIZE * cell..SIZE * (cell + 1)];
    let (own, decision) = step(order, &network.units, stream, packet)?;
    check_room(network.count - 1, &decision)?;
    take(network, pool, cell);
    accept(network, pool, own, decision);
    Ok(())
}

/// 02's job 2: "the 64 bytes are lent again, nothing leaves the pool, and 15 is left out; the rest, counts included, goes as in a delivery".
/// Refusals 13, 5, 6, 7, 5 (states, pool count), 12, the step's from 8 on, 14. Refused: nothing changes.
pub fn echo(network: &mut Network, stream: &[u8], pool: &mut [u8], packet: &[u8]) -> Result<(), Refusal> {
    echo_by(ValueOrder::default(), network, stream, pool, packet)
}

pub fn echo_by(
    order: ValueOrder,
    network: &mut Network,
    stream: &[u8],
    pool: &mut [u8],
    packet: &[u8],
) -> Result<(), Refusal> {
    check_shed(order, network, stream, pool)?;
    let (own, decision) = step(order, &network.units, stream, packet)?;
    check_room(network.count, &decision)?;
    accept(network, pool, own, decision);
    Ok(())
}

/// Making, then cell 0 each time until unit 1 has stopped.
pub fn settle(stream: &[u8], pool: &mut [u8]) -> Result<Network, Refusal> {
    settle_by(ValueOrder::default(), stream, pool)
}

pub fn settle_by(order: ValueOrder, stream: &[u8], pool: &mut [u8]) -> Result<Network, Refusal> {
    let mut network = make_by(order, stream, pool)?;
    while !network.units[0].has_stopped() {
        deliver_by(order, &mut network, stream, pool, 0)?;
    }
    Ok(network)
}

// What a delivery and an echo share

/// Refusals 13, 5, 6, 7, 5 (states, pool count), and 12 for unit 1.
fn check_shed(order: ValueOrder, network: &Network, stream: &[u8], pool: &[u8]) -> Result<(), Refusal> {
    if pool.len() < POOL {
        return Err(13);
    }
    table::check_stream(stream)?;
    check_states(order, &network.units, stream)?;
    if network.count > CELLS as u64 {
        return Err(5);
    }
    if network.units[0].has_stopped() {
        return Err(12);
    }
    Ok(())
}

/// Refusal 5 for any unit's state.
pub fn check_states(order: ValueOrder, units: &[Unit; 16], stream: &[u8]) -> Result<(), Refusal> {
    let (n, sizes) = table::head(stream);
    for own in 1..=n as usize {
        let costs = costs::of_unit(stream, own);
        unit::check_state(&View::new_by(order, own, n as usize, &sizes, &costs), &units[own - 1])?;
    }
    Ok(())
}

/// The unit that a packet goes to, and what it does with it: the step's refusals from 8 on.
pub fn step(
    order: ValueOrder,
    units: &[Unit; 16],
    stream: &[u8],
    packet: &[u8],
) -> Result<(usize, unit::Decision), Refusal> {
    let (n, sizes) = table::head(stream);
    let own = receiver_of(packet, n);
    let costs = costs::of_unit(stream, own);
    let view = View::new_by(order, own, n as usize, &sizes, &costs);
    let decision = unit::step_packet(&view, &units[own - 1], packet)?;
    Ok((own, decision))
}

/// The unit that a packet names as its receiver; unit 1 where it names none, whose step then refuses it by 8 or 10.
fn receiver_of(packet: &[u8], n: u8) -> usize {
    match packet.get(2) {
        Some(own) if (1..=n).contains(own) => *own as usize,
        _ => 1,
    }
}

/// Refusal 14: what is sent doesn't fit behind the cells that stay in use.
fn check_room(stay: u64, decision: &unit::Decision) -> Result<(), Refusal> {
    if stay as usize + decision.sent.len() > CELLS {
        return Err(14);
    }
    Ok(())
}

/// 01: "The shed counts records and accepted deliveries, stale ones included, .. modulo 2^128".
fn accept(network: &mut Network, pool: &mut [u8], own: usize, decision: unit::Decision) {
    network.units[own - 1] = decision.unit;
    network.records = network.records.wrapping_add(u128::from(decision.records()));
    network.deliveries = network.deliveries.wrapping_add(1);
    append(network, pool, &decision.sent);
}

/// 01: "closes the gap by moving later cells down one".
fn take(network: &mut Network, pool: &mut [u8], cell: usize) {
    let end = SIZE * network.count as usize;
    pool.copy_within(SIZE * (cell + 1)..end, SIZE * cell);
    network.count -= 1;
}

/// 01: "adds what the step sends at the end".
fn append(network: &mut Network, pool: &mut [u8], sent: &[(u8, message::Message)]) {
    for (kind, message) in sent {
        let at = SIZE * network.count as usize;
        pool[at..at + SIZE].copy_from_slice(&message::encode(*kind, message));
        network.count += 1;
    }
}
