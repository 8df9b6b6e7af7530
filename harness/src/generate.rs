//! Random inputs for every public call: right ones, ones with a single damage, and wrong lengths.
//!
//! In order: readings; messages; units; networks; `input`, which picks one for a call. Tables and their files are in `tables`, costs held in
//! 32 bits in `held`, sheds on their way in `runs`, all about the pool of slots in `slots`.

mod held;
mod runs;
mod slots;
mod tables;

use crate::calls::{Call, Event, Handed, Input, Named};
use crate::random::Random;
use crate::reference::convert;
use crate::reference::costs::{self, Cost, View};
use crate::reference::message::{self, Message};
use crate::reference::network::{self, Network};
use crate::reference::order::ValueOrder;
use crate::reference::slots::Slot;
use crate::reference::start::COSTS;
use crate::reference::table::Form;
use crate::reference::unit::Unit;
use crate::reference::{cost_limit, table, tiny, Places, MAX_COST, MAX_ESTIMATE, MAX_TOTAL, NONE};
use crate::sample;
use runs::{ran, Ran};
use tables::{damage_cost, damage_file, damage_stream, dearest, file, past_limit, sizes, some_stream, stream};
pub use tables::{searched, searched_wide, stream_of};

// Readings

/// Readings in range: any, with gaps at the ends of the schedule, or near one another.
fn readings(random: &mut Random, lines: u8) -> Vec<u8> {
    let style = random.below(4);
    let finest = random.between(100, 375) as u16;
    let mut reading = || match style {
        0 => random.between(100, 400) as u16,
        1 => *random.pick(&[100, 101, 119, 120, 380, 381, 399, 400]),
        _ => finest + random.below(26) as u16,
    };
    (0..lines).flat_map(|_| reading().to_le_bytes()).collect()
}

/// At times: a reading at an end of the range or out of it; too few or too many bytes.
fn damage_readings(random: &mut Random, readings: &mut Vec<u8>) {
    if random.once_in(3) {
        let at = 2 * random.below(readings.len() as u64 / 2) as usize;
        let any = random.word() as u16;
        let reading = *random.pick(&[0, 99, 100, 400, 401, 65_535, any]);
        readings[at..at + 2].copy_from_slice(&reading.to_le_bytes());
    }
    match random.below(30) {
        0 => readings.truncate(readings.len() - 1),
        1 => readings.truncate(readings.len() - 2),
        2 => readings.clear(),
        3 => readings.push(random.byte()),
        4 => readings.extend([random.byte(), 1]),
        _ => {}
    }
}

// Messages

fn filled(random: &mut Random, sizes: &Places, count: usize) -> Places {
    let mut places = [0; 16];
    for k in 0..count {
        places[k] = random.between(1, u64::from(sizes[k].max(1))) as u8;
    }
    places
}

/// At most `limit`, often at one of its ends.
fn up_to(random: &mut Random, limit: u32) -> u32 {
    match random.below(6) {
        0 => limit,
        1 => 0,
        2 => random.below(u64::from(limit) + 1) as u32,
        _ => random.below(u64::from(limit).min(60) + 1) as u32,
    }
}

fn solution(random: &mut Random, n: u8, sizes: &Places) -> (u32, Places) {
    (up_to(random, MAX_TOTAL), filled(random, sizes, n as usize))
}

fn bound(random: &mut Random, n: u8, sizes: &Places) -> (u32, Places) {
    if random.once_in(3) {
        (NONE, [0; 16])
    } else {
        solution(random, n, sizes)
    }
}

/// Sender and receiver that a kind allows; any two where n allows none.
fn ends(random: &mut Random, n: u8, kind: u8) -> (u8, u8) {
    let n = u64::from(n);
    if n == 1 {
        return (1, 1);
    }
    let low = random.between(1, n - 1);
    let ends = match kind {
        message::CPA => *random.pick(&[(low, low + 1), (low + 1, low)]),
        message::REQUEST => (low, random.between(low + 1, n)),
        message::ESTIMATE => (random.between(low + 1, n), low),
        message::SOLUTION => (n, low),
        _ => (1, low + 1),
    };
    (ends.0 as u8, ends.1 as u8)
}

/// A message that reads, for n above 1.
pub fn message(random: &mut Random, n: u8, sizes: &Places) -> (u8, Message) {
    let kind = random.between(1, 5) as u8;
    let (sender, receiver) = ends(random, n, kind);
    (kind, message_of(random, n, sizes, Slot { kind, sender, receiver }))
}

/// The same of this kind, from this sender to this receiver.
fn message_of(random: &mut Random, n: u8, sizes: &Places, slot: Slot) -> Message {
    let Slot { kind, sender, receiver } = slot;
    let mut m = Message { sender, receiver, ..Message::default() };
    match kind {
        message::CPA | message::REQUEST => {
            let count = sender.min(if kind == message::CPA { receiver } else { sender }) as usize;
            m.stamp = filled(random, sizes, count);
            m.values = filled(random, sizes, count);
            m.cost = up_to(random, cost_limit(count));
        }
        message::ESTIMATE => {
            m.stamp = filled(random, sizes, receiver as usize);
            m.cost = if random.once_in(3) { NONE } else { up_to(random, MAX_ESTIMATE) };
        }
        _ => {}
    }
    match kind {
        message::CPA | message::STOP => (m.bound, m.best) = bound(random, n, sizes),
        message::SOLUTION => (m.bound, m.best) = solution(random, n, sizes),
        _ => {}
    }
    m
}

/// One damage to a message before it is written; sometimes to its kind.
pub fn damage_message(random: &mut Random, kind: &mut u8, m: &mut Message) {
    let place = random.below(16) as usize;
    match random.below(9) {
        0 => *kind = *random.pick(&[0, 1, 2, 3, 4, 5, 6, 255]),
        1 => m.sender = *random.pick(&[0, 1, 2, 16, 17, 255]),
        2 => m.receiver = *random.pick(&[0, 1, 2, 16, 17, 255]),
        3 => m.stamp[place] = *random.pick(&[0, 1, 16, 17, 255]),
        4 => m.values[place] = *random.pick(&[0, 1, 16, 17, 255]),
        5 => m.best[place] = *random.pick(&[0, 1, 16, 17, 255]),
        6 => {
            let above = cost_limit(m.values.iter().filter(|value| **value != 0).count()) + 1;
            let limit = *random.pick(&[60_000, 60_001, 7_200_000, 7_200_001, 8_160_000, 8_160_001]);
            m.cost = *random.pick(&[0, 1, above, limit, limit, NONE - 1, NONE]);
        }
        7 => m.bound = *random.pick(&[0, 1, 7_200_000, 7_200_001, 8_160_000, 8_160_001, NONE - 1, NONE]),
        _ => std::mem::swap(&mut m.sender, &mut m.receiver),
    }
}

/// One damage to the bytes of a message.
pub fn damage_packet(random: &mut Random, packet: &mut Vec<u8>) {
    match random.below(6) {
        0 => {
            let at = random.below(64) as usize;
            packet[at] ^= 1 << random.below(8);
        }
        1 => packet.truncate(*random.pick(&[0, 1, 63])),
        2 => packet.extend([0; 64].iter().take(*random.pick(&[1, 64]))),
        3 => {
            let at = *random.pick(&[3, 60, 61]);
            packet[at] = random.between(1, 255) as u8;
            reseal(packet);
        }
        4 => {
            // one that checks, with any byte put anywhere
            let at = random.below(62) as usize;
            packet[at] = *random.pick(&[0, 1, 2, 3, 16, 17, 255]);
            reseal(packet);
        }
        _ => packet[62..64].copy_from_slice(&[random.byte(), 255]),
    }
}

fn reseal(packet: &mut [u8]) {
    let bytes: &mut [u8; 64] = (&mut packet[..64]).try_into().unwrap();
    message::seal(bytes);
}

// Units

/// What own value v costs by itself and with the units before, forbidden pairs left out; and whether there is one.
fn permitted_part(view: &View, values: &Places, v: u8) -> (u32, bool) {
    let pairs = (1..view.own).map(|j| view.pair(j, values[j - 1] as usize, v as usize));
    pairs.fold((view.unary(v as usize), false), |(sum, forbidden), pair| match pair {
        Cost::Of(cost) => (sum + cost, forbidden),
        Cost::Forbidden => (sum, true),
    })
}

fn values_without_h(view: &View) -> Vec<usize> {
    view.tried.iter().copied().filter(|v| view.h(*v) == Cost::Forbidden).collect()
}

/// Values of a CPA that a unit has out, its own at times one without an h, if it has such.
fn values_out(random: &mut Random, view: &View) -> Places {
    let mut values = filled(random, &view.sizes, view.own);
    let without_h = values_without_h(view);
    if !without_h.is_empty() && random.once_in(2) {
        values[view.own - 1] = *random.pick(&without_h) as u8;
    }
    values
}

/// A unit in range, with or without a CPA out; at times out of range for one thing alone: its bound is too high, its own value is forbidden with
/// an earlier one, its counter may be above that value's place, or its CPA costs too little or too much.
pub fn unit(random: &mut Random, view: &View) -> Unit {
    let mut unit = Unit::default();
    (unit.bound, unit.best) = bound(random, view.n as u8, &view.sizes);
    if unit.bound != NONE && random.once_in(40) {
        unit.bound = MAX_TOTAL + 1;
    }
    unit.stopped = u8::from(random.once_in(12));
    let thresholds = *random.pick(&[2, 18]);
    for k in 0..16 {
        unit.threshold[k] = random.below(thresholds) as u8;
        if random.once_in(3) {
            unit.estimates[k] = up_to(random, MAX_ESTIMATE);
        }
    }
    if random.once_in(4) {
        unit.counter = random.byte();
        return unit;
    }
    let own = view.own;
    unit.values = values_out(random, view);
    let mut paid = permitted_part(view, &unit.values, unit.values[own - 1]);
    for _ in 0..random.below(20) {
        if paid.1 {
            unit.values = values_out(random, view);
            paid = permitted_part(view, &unit.values, unit.values[own - 1]);
        }
    }
    unit.stamp = filled(random, &view.sizes, own);
    let value = unit.values[own - 1];
    let most = if random.once_in(8) { view.size(own) } else { view.place(value.into()) };
    unit.stamp[own - 1] = random.between(1, most as u64) as u8;
    unit.counter = unit.stamp[own - 1];
    unit.cost = match random.below(24) {
        0 => paid.0 - view.unary(value as usize),
        1 => paid.0.saturating_sub(1),
        2 => paid.0 + cost_limit(own - 1) + 1,
        _ => paid.0 + up_to(random, cost_limit(own - 1)),
    };
    for k in 0..own {
        unit.threshold[k] = unit.stamp[k];
    }
    if random.once_in(3) {
        let at = random.below(own as u64) as usize;
        unit.threshold[at] = (unit.threshold[at] + 1).min(17);
    }
    unit
}

/// One damage to a unit's state; some leave it in range.
pub fn damage_unit(random: &mut Random, unit: &mut Unit) {
    let place = random.below(16) as usize;
    let byte = *random.pick(&[0, 1, 2, 16, 17, 18, 255]);
    match random.below(12) {
        0 => unit.threshold[place] = byte,
        1 => unit.bound = *random.pick(&[0, 7_200_000, 7_200_001, 8_160_000, 8_160_001, NONE - 1, NONE]),
        2 => unit.best[place] = byte,
        3 => unit.estimates[place] = *random.pick(&[0, 7_200_000, 7_200_001, 8_160_000, u32::MAX]),
        4 => unit.stamp[place] = byte,
        5 => unit.values[place] = byte,
        6 => unit.cost = *random.pick(&[0, 1, 60_000, 60_001, 7_200_000, 7_200_001, 8_160_000, 8_160_001, u32::MAX]),
        7 => unit.counter = byte,
        8 => unit.stopped ^= 1,
        9 => unit.cost = unit.cost.wrapping_add(1),
        10 => unit.cost = unit.cost.wrapping_sub(1),
        _ => unit.stopped = *random.pick(&[2, 3, 128, 255]),
    }
}

/// The CPA that a unit has out comes back with the bound that the unit knows: it tries its next values.
fn given_back(view: &View, unit: &Unit) -> Message {
    Message {
        sender: view.own as u8 + 1,
        receiver: view.own as u8,
        stamp: unit.stamp,
        values: unit.values,
        cost: unit.cost,
        bound: unit.bound,
        best: unit.best,
    }
}

/// A message to a unit that has to do with its state: of its CPA out or with a stamp near its threshold.
fn message_for(random: &mut Random, view: &View, unit: &Unit) -> (u8, Message) {
    let (n, own) = (view.n as u8, view.own);
    if unit.values[own - 1] != 0 && own < view.n && random.once_in(2) {
        return (message::CPA, given_back(view, unit));
    }
    let (mut kind, mut m) = message(random, n, &view.sizes);
    for _ in 0..40 {
        if m.receiver as usize == own {
            break;
        }
        (kind, m) = message(random, n, &view.sizes);
    }
    let back = kind == message::CPA && m.sender > m.receiver;
    if unit.values[own - 1] != 0 && (back || kind == message::ESTIMATE) {
        m.stamp = unit.stamp;
        if back {
            m.values = unit.values;
            m.cost = unit.cost;
        }
    } else if m.stamp != [0; 16] && random.once_in(2) {
        for k in 0..16 {
            if m.stamp[k] != 0 {
                m.stamp[k] = unit.threshold[k].clamp(1, view.sizes[k]);
            }
        }
    }
    if random.once_in(8) && m.stamp != [0; 16] {
        let at = random.below(own as u64) as usize;
        m.stamp[at] = (m.stamp[at] + 1).min(view.sizes[at]);
    }
    if random.once_in(8) && kind == message::CPA {
        m.cost = up_to(random, cost_limit(1));
    }
    if unit.bound == NONE && kind == message::CPA && random.once_in(2) {
        (m.bound, m.best) = (NONE, [0; 16]);
    }
    (kind, m)
}

// Networks

/// Fills the pool up to `count` cells with messages that wait already.
fn crowd(random: &mut Random, network: &mut Network, pool: &mut [u8], count: u64) {
    let waiting = network.count;
    for cell in waiting..count {
        let from = 64 * random.below(waiting.max(1)) as usize;
        pool.copy_within(from..from + 64, 64 * cell as usize);
        network.count = cell + 1;
    }
}

/// A unit of a table, rather one that has a value without an h, and others with one.
fn some_unit(random: &mut Random, stream: &[u8]) -> usize {
    let (n, sizes) = table::head(stream);
    let mixed = |own: usize| {
        let costs = costs::of_unit(stream, own);
        let without_h = values_without_h(&View::new(own, n.into(), &sizes, &costs)).len();
        without_h > 0 && without_h < sizes[own - 1].into()
    };
    let own = random.between(1, n.into()) as usize;
    if random.once_in(4) {
        return own;
    }
    (1..=n.into()).find(|own| mixed(*own)).unwrap_or(own)
}

/// A packet into a cell, cut or filled up to its 64 bytes, where the pool has not been cut itself.
fn put(pool: &mut [u8], cell: u64, mut packet: Vec<u8>) {
    packet.resize(64, 1);
    let at = 64 * cell as usize;
    if let Some(bytes) = pool.get_mut(at..at + 64) {
        bytes.copy_from_slice(&packet);
    }
}

/// A state of another run, a message that has to do with a unit's state, or both.
fn meet_another_run(
    random: &mut Random,
    order: ValueOrder,
    units: &mut [Unit; 16],
    packet: &mut Vec<u8>,
    stream: &[u8],
) {
    let (n, sizes) = table::head(stream);
    let own = some_unit(random, stream);
    let costs = costs::of_unit(stream, own);
    let view = View::new_by(order, own, n.into(), &sizes, &costs);
    let style = random.below(7);
    if style < 6 {
        units[own - 1] = unit(random, &view);
    }
    if style > 1 {
        let (kind, m) = message_for(random, &view, &units[own - 1]);
        *packet = message::encode(kind, &m).to_vec();
    }
}

/// One damage to a network, to its pool or to the packet that will be heard, in this order.
fn damage_network(random: &mut Random, order: ValueOrder, ran: &mut Ran, packet: &mut Vec<u8>, stream: &[u8]) {
    let Ran { network, pool, .. } = ran;
    let (n, sizes) = table::head(stream);
    match random.below(19) {
        0 | 1 => {
            let own = random.below(n.into()) as usize;
            damage_unit(random, &mut network.units[own]);
        }
        2 => network.count = *random.pick(&[0, 1_024, 1_025, 65_536, 4_294_967_295]),
        3 | 4 => {
            let count = random.between(1_020, 1_024);
            crowd(random, network, pool, count);
        }
        5 => pool.truncate(*random.pick(&[0, 64, 65_535])),
        6 => pool.extend([7; 100]),
        7 => {
            network.records = *random.pick(&[u64::MAX.into(), u128::MAX, u128::MAX - 1, 1 << 64]);
            network.deliveries = *random.pick(&[u64::MAX.into(), u128::MAX, u128::MAX - 1, 1 << 64]);
        }
        8 => {
            // units past n are not looked at
            for unit in network.units.iter_mut().skip(n.into()) {
                unit.threshold = [255; 16];
                unit.cost = u32::MAX;
                unit.stopped = random.byte();
            }
        }
        9 => {
            packet.resize(64, 1);
            damage_packet(random, packet);
        }
        10..=16 => meet_another_run(random, order, &mut network.units, packet, stream),
        _ => *packet = self::packet(random, n, &sizes),
    }
}

// Inputs

/// A length for a buffer: mostly what is asked for, at times one too few, none, or more.
fn length(random: &mut Random, asked: usize) -> usize {
    match random.below(30) {
        0 => asked - 1,
        1 => 0,
        2 => asked / 2,
        3..=6 => asked + random.between(1, 70) as usize,
        _ => asked,
    }
}

/// A buffer with something in it, so that a byte written or left can be told.
fn buffer(random: &mut Random, asked: usize) -> Vec<u8> {
    let length = length(random, asked);
    let first = random.byte();
    (0..length).map(|k| first.wrapping_add((k % 251) as u8)).collect()
}

/// n and sizes with bytes past n that nobody may look at.
fn head(random: &mut Random, stream: &[u8]) -> (u8, Places) {
    let (n, mut sizes) = table::head(stream);
    for place in sizes.iter_mut().skip(n as usize) {
        *place = *random.pick(&[0, 1, 17, 255]);
    }
    (n, sizes)
}

/// Rarely: n or a size out of range.
fn damage_head(random: &mut Random, n: &mut u8, sizes: &mut Places) {
    match random.below(30) {
        0 => *n = *random.pick(&[0, 17, 255]),
        1 => sizes[random.below(16) as usize] = *random.pick(&[0, 17, 255]),
        _ => {}
    }
}

/// Rarely: too few or too many costs, none of the unary ones, which are `values`, or one above 60,000, the forbidden one among them.
fn damage_costs(random: &mut Random, costs: &mut Vec<u8>, values: u8) {
    let unary = (2 * values as usize).min(costs.len());
    match random.below(40) {
        0 => costs.truncate(random.below(costs.len() as u64 + 1) as usize),
        1 => costs.extend(vec![0; random.between(1, 2) as usize]),
        2 => damage_cost(random, &mut costs[unary..]),
        3 => damage_cost(random, &mut costs[..unary]),
        4 => drop(costs.drain(..unary)),
        _ => {}
    }
}

/// An own number, at times out of range.
fn own_number(random: &mut Random, n: u8) -> u8 {
    if random.once_in(30) {
        *random.pick(&[0, n + 1, 255])
    } else {
        random.between(1, u64::from(n)) as u8
    }
}

/// A name for an order. Cheapest first has several: none, and every number but 0.
fn named(random: &mut Random, order: ValueOrder) -> Named {
    match order {
        ValueOrder::Ascending => Some(0),
        ValueOrder::CheapestFirst => *random.pick(&[None, None, Some(1), Some(1), Some(2), Some(128), Some(255)]),
    }
}

/// The bytes of a message, half of them damaged.
pub fn packet(random: &mut Random, n: u8, sizes: &Places) -> Vec<u8> {
    let (mut kind, mut m) = message(random, n, sizes);
    if random.once_in(2) {
        damage_message(random, &mut kind, &mut m);
    }
    let mut packet = message::encode(kind, &m).to_vec();
    if random.once_in(5) {
        damage_packet(random, &mut packet);
    }
    packet
}

fn make(random: &mut Random, order: ValueOrder) -> Input {
    let stream = stream(random);
    let (mut n, mut sizes) = head(random, &stream);
    let own = own_number(random, n);
    let seated = if (1..=n).contains(&own) { own } else { 1 };
    let mut costs = costs::of_unit(&stream, seated as usize);
    damage_costs(random, &mut costs, sizes[seated as usize - 1]);
    damage_head(random, &mut n, &mut sizes);
    Input::Make { order: named(random, order), own, n, sizes, costs, out: buffer(random, 1_024) }
}

fn step(random: &mut Random, order: ValueOrder) -> Input {
    let stream = stream(random);
    let (mut n, mut sizes) = head(random, &stream);
    let own = random.between(1, u64::from(n)) as u8;
    let mut costs = costs::of_unit(&stream, own as usize);
    let view = View::new_by(order, own as usize, n as usize, &sizes, &costs);
    let mut unit = unit(random, &view);
    let (mut kind, mut m) = message_for(random, &view, &unit);
    if random.once_in(12) {
        damage_message(random, &mut kind, &mut m);
    }
    let mut packet = message::encode(kind, &m).to_vec();
    if random.once_in(12) {
        damage_packet(random, &mut packet);
    }
    if random.once_in(12) {
        damage_unit(random, &mut unit);
    }
    damage_costs(random, &mut costs, sizes[own as usize - 1]);
    let own = if random.once_in(40) { own_number(random, n) } else { own };
    damage_head(random, &mut n, &mut sizes);
    Input::Step { order: named(random, order), unit, own, n, sizes, costs, packet, out: buffer(random, 1_024) }
}

/// A run on its way, rather one that has not stopped when made, and its stream.
fn some_run(random: &mut Random, order: ValueOrder, echoes: bool) -> (Ran, Vec<u8>) {
    loop {
        let stream = stream(random);
        let ran = ran(random, order, &stream, echoes);
        if !ran.has_stopped() || ran.network.deliveries > 0 || random.once_in(4) {
            return (ran, stream);
        }
    }
}

/// A delivery or an echo. Once in 8 the run was in the other order.
fn deliver(random: &mut Random, order: ValueOrder, echo: bool) -> Input {
    let run = if random.once_in(8) { order.other() } else { order };
    let (mut ran, mut stream) = some_run(random, run, echo);
    let cell = ran.any_cell(random);
    let mut packet = if echo { ran.heard_again(random) } else { Event::Cell(cell).packet(&ran.pool).to_vec() };
    for _ in 0..random.below(3) {
        damage_network(random, order, &mut ran, &mut packet, &stream);
        if ran.pool.len() < network::POOL {
            break;
        }
    }
    let event = if echo { lent_again(random, packet) } else { at_cell(random, &mut ran, cell, packet) };
    if random.once_in(6) {
        damage_stream(random, &mut stream);
    }
    let Ran { network, pool, .. } = ran;
    Input::Deliver { order: named(random, order), network: Box::new(network), stream, event, pool }
}

/// The packet stands at its cell, and at times another cell is named.
fn at_cell(random: &mut Random, ran: &mut Ran, cell: u64, packet: Vec<u8>) -> Event {
    put(&mut ran.pool, cell, packet);
    if random.once_in(10) {
        return Event::Cell(*random.pick(&[ran.network.count, 1_023, 1_024, u64::MAX, 1 << 32, (1 << 32) + 1]));
    }
    Event::Cell(cell)
}

/// At times bytes that are no packet, of any length, or a packet that is cut or goes on.
fn lent_again(random: &mut Random, mut packet: Vec<u8>) -> Event {
    match random.below(20) {
        0 => {
            let length = random.below(131);
            packet = bytes(random, length);
        }
        1 => packet.truncate(random.below(64) as usize),
        2 => packet.truncate(random.below(3) as usize),
        3 => {
            let more = random.between(1, 66);
            packet.extend(bytes(random, more));
        }
        4 => {
            packet = bytes(random, 64);
            reseal(&mut packet);
        }
        _ => {}
    }
    Event::Echo(packet)
}

fn bytes(random: &mut Random, length: u64) -> Vec<u8> {
    (0..length).map(|_| random.byte()).collect()
}

/// A table of few enough deliveries to be settled often; damaged at times.
fn settle(random: &mut Random, order: ValueOrder) -> Input {
    let n = random.between(1, 5);
    let sizes: Vec<u8> = (0..n).map(|_| random.between(1, 3) as u8).collect();
    let mut stream = if random.once_in(40) { dearest(random) } else { stream_of(random, &sizes) };
    if random.once_in(6) {
        damage_stream(random, &mut stream);
    }
    Input::Settle { order: named(random, order), stream, pool: buffer(random, network::POOL) }
}

fn exhaustive(random: &mut Random) -> Input {
    let few = |sizes: &[u8]| sizes.iter().map(|d| u128::from(*d)).product::<u128>() <= 5_000;
    let mut shape = sizes(random);
    while !few(&shape) && !random.once_in(2) {
        shape = sizes(random);
    }
    if !few(&shape) {
        shape = vec![16; random.between(6, 16) as usize];
    }
    let mut stream = if random.once_in(40) { dearest(random) } else { stream_of(random, &shape) };
    if random.once_in(3) {
        damage_stream(random, &mut stream);
    }
    Input::Search { stream }
}

/// Of any number of assignments, though few that branch and bound has to go to.
fn branch_and_bound(random: &mut Random) -> Input {
    let mut stream = match random.below(40) {
        0 => dearest(random),
        1..=9 => searched_wide(random),
        10..=19 => past_limit(random),
        _ => searched(random),
    };
    if random.once_in(3) {
        damage_stream(random, &mut stream);
    }
    Input::BranchAndBound { stream }
}

/// A total and two costs at the ends of their ranges, near one another or any; at times past them.
fn retest(random: &mut Random) -> Input {
    let past = random.below(8);
    let mut cost = |past: bool| match random.below(6) {
        _ if past => *random.pick(&[60_001, 65_534, 65_535, 65_536, 120_000, MAX_TOTAL, NONE - 1, NONE]),
        0 => 0,
        1 => MAX_COST,
        2 | 3 => random.below(20) as u32,
        _ => random.below(u64::from(MAX_COST) + 1) as u32,
    };
    let (old, new) = (cost(past == 1), cost(past == 2));
    let new = if random.once_in(6) { old } else { new };
    let total = match random.below(8) {
        _ if past == 3 => *random.pick(&[MAX_TOTAL + 1, MAX_TOTAL + 60_000, NONE - 60_000, NONE - 1]),
        0 => NONE,
        1 => MAX_TOTAL,
        2 => 0,
        3 | 4 => random.below(100_000) as u32,
        _ => random.below(u64::from(MAX_TOTAL) + 1) as u32,
    };
    Input::Ends { total, old, new }
}

fn table_read(random: &mut Random) -> Input {
    Input::Read { file: file(random), stream: buffer(random, table::MAX_STREAM) }
}

/// With room for what is asked for, or for the file as it is.
fn convert(random: &mut Random, wanted: Form) -> Input {
    let file = file(random);
    let asked = match table::stream_of(&file) {
        Ok(stream) => *random.pick(&[file.len(), table::file_of(&convert::in_form(&stream, wanted)).len()]),
        Err(_) => file.len().max(1),
    };
    Input::Convert { out: buffer(random, asked), file, wanted }
}

/// A unit of a table's stream, and room for about as many bytes as its costs have.
fn lent(random: &mut Random) -> Input {
    let stream = some_stream(random, 2);
    let n = table::from_count(&stream).first().copied().unwrap_or(0);
    let own = own_number(random, n.clamp(1, 16));
    let exact = costs::gather(&stream, own, &mut [0; 7_712]).unwrap_or(64);
    let room = *random.pick(&[exact, 2, 1_024, 7_712]);
    Input::Lent { stream, own, out: buffer(random, room) }
}

/// A file's blocks, and a unit of its table. At times a block is damaged, and comes again as it is; or is named the last one, or none, against the
/// file. An empty file is one empty block.
fn start(random: &mut Random) -> Input {
    let file = file(random);
    let n = file.get(if file.get(4) == Some(&table::FORM_TWO) { 5 } else { 4 }).copied().unwrap_or(0);
    let own = own_number(random, n.clamp(1, 16));
    let mut parts: Vec<Vec<u8>> = file.chunks(table::BLOCK).map(<[u8]>::to_vec).collect();
    if parts.is_empty() {
        parts.push(Vec::new());
    }
    let count = parts.len();
    let wrong = if random.once_in(12) { random.below(count as u64) as usize } else { count };
    let mut blocks = Vec::new();
    for (k, block) in parts.into_iter().enumerate() {
        let last = if (k + 1 == count) != (k == wrong) { *random.pick(&[1, 1, 2, 128, 255]) } else { 0 };
        if block.len() == table::BLOCK && random.once_in(20) {
            let mut damaged = block.clone();
            damaged[random.below(512) as usize] ^= 1 << random.below(8);
            blocks.push(Handed { block: damaged, last, again: true });
        }
        blocks.push(Handed { block, last, again: false });
    }
    Input::Start { own, blocks, costs: buffer(random, COSTS) }
}

fn readings_stream(random: &mut Random) -> Input {
    let shape = if random.once_in(100) { vec![16; 16] } else { sizes(random) };
    let (mut n, mut sizes) = head(random, &sample::stream(&shape, &[]));
    let mut readings = readings(random, n);
    damage_readings(random, &mut readings);
    damage_head(random, &mut n, &mut sizes);
    let mut stream = buffer(random, table::MAX_STREAM);
    stream.iter_mut().for_each(|byte| *byte = random.byte());
    Input::Readings { n, sizes, readings, stream }
}

/// Two or three units at most times, and a number that one of the two has, an end of theirs or any.
fn tiny_stream(random: &mut Random) -> Input {
    let any = random.byte();
    let units = *random.pick(&[2, 2, 2, 2, 3, 3, 3, 3, 3, 0, 1, 4, 16, 130, any]);
    let tables = tiny::tables(units).unwrap_or(4_096);
    let number = match random.below(12) {
        0 => 0,
        1 => tables - 1,
        2 => tables,
        3 => random.below(4_200) as u32,
        4 => random.word() as u32,
        5 => u32::MAX,
        _ => random.below(tables.into()) as u32,
    };
    Input::Tiny { units, number, stream: buffer(random, table::MAX_STREAM) }
}

fn block(random: &mut Random) -> Input {
    let mut file = table::file_of(&stream(random));
    let mut expected = random.below(file.len() as u64 / 512) as u16;
    let mut last = (expected as usize + 1) * 512 == file.len();
    if random.once_in(2) {
        damage_file(random, &mut file);
    }
    if random.once_in(12) {
        expected = *random.pick(&[0, 1, 121, 122, 65_535]);
    }
    if random.once_in(12) {
        last = !last;
    }
    let start = (512 * expected as usize).min(file.len());
    let end = (start + length(random, 512)).min(file.len());
    let last = if last { *random.pick(&[1, 1, 2, 128, 255]) } else { 0 };
    Input::Block { block: file[start..end].to_vec(), expected, last }
}

/// One input for this call.
pub fn input(random: &mut Random, call: Call) -> Input {
    match call {
        Call::Sum => {
            let length = *random.pick(&[0, 1, 2, 61, 62, 64, 510, 512, 3_000]);
            let extra = random.below(4);
            let length = if random.once_in(200) { 70_000 } else { length + extra };
            let all = random.once_in(4);
            Input::Sum { bytes: (0..length).map(|_| if all { 255 } else { random.byte() }).collect() }
        }
        Call::Block => block(random),
        Call::Read => table_read(random),
        Call::Write => {
            let stream = some_stream(random, 2);
            let asked = 512 * stream.len().div_ceil(table::PAYLOAD).max(1);
            Input::Write { file: buffer(random, asked), stream }
        }
        Call::ToFormTwo => convert(random, Form::Two),
        Call::ToFormOne => convert(random, Form::One),
        Call::Readings => readings_stream(random),
        Call::Tiny => tiny_stream(random),
        Call::Lent => lent(random),
        Call::Start => start(random),
        Call::Parse => {
            let stream = stream(random);
            let (mut n, mut sizes) = head(random, &stream);
            let packet = packet(random, n, &sizes);
            damage_head(random, &mut n, &mut sizes);
            Input::Parse { n, sizes, packet }
        }
        Call::Encode => {
            let stream = stream(random);
            let (mut n, mut sizes) = head(random, &stream);
            let (mut kind, mut message) = message(random, n, &sizes);
            if random.once_in(2) {
                damage_message(random, &mut kind, &mut message);
            }
            damage_head(random, &mut n, &mut sizes);
            Input::Encode { n, sizes, kind, message, out: buffer(random, 64) }
        }
        Call::Make(order) => make(random, order),
        Call::InRange(order) => {
            let step = step(random, order);
            let Input::Step { order, unit, own, n, sizes, costs, .. } = step else { unreachable!("a step") };
            Input::InRange { order, unit, own, n, sizes, costs }
        }
        Call::Step(order) => step(random, order),
        Call::MakeNetwork(order) => {
            let stream = some_stream(random, 3);
            Input::MakeNetwork { order: named(random, order), stream, pool: buffer(random, network::POOL) }
        }
        Call::Deliver(order) => deliver(random, order, false),
        Call::Echo(order) => deliver(random, order, true),
        Call::Settle(order) => settle(random, order),
        Call::SlotOf => slots::slot_of(random),
        Call::Newer => slots::newer(random),
        Call::MakeSlots(order) => slots::make(random, order),
        Call::DeliverSlots(order) => slots::deliver(random, order),
        Call::ReplaySlots(order) => slots::replay(random, order),
        Call::SettleSlots(order) => slots::settle(random, order),
        Call::Search => exhaustive(random),
        Call::BranchAndBound => branch_and_bound(random),
        Call::Ends => retest(random),
        Call::Hold => held::hold(random),
        Call::Project => held::project(random),
        Call::ProjectUnary => held::project_unary(random),
        Call::Extend => held::extend(random),
        Call::ProjectAll => held::project_all(random),
        Call::LowerBound => held::lower_bound(random),
    }
}
