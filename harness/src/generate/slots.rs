//! Inputs for the pool of slots (02's job 4): a slot's cell, two messages, sheds over that pool on their way, recorded runs (job 14).

use super::tables::{damage_stream, dearest, sizes, some_stream, stream, stream_of};
use super::{
    buffer, bytes, damage_head, damage_packet, damage_unit, head, meet_another_run, message, message_of, named,
};
use super::{packet, put};
use crate::calls::Input;
use crate::random::Random;
use crate::recorded;
use crate::reference::message::{Message, SIZE};
use crate::reference::order::ValueOrder;
use crate::reference::slots::{self, Shed, Slot};
use crate::reference::{table, Places};

// A slot's cell

/// Units that are there, of a kind that there is; at times not.
pub fn slot_of(random: &mut Random) -> Input {
    let any = random.byte();
    let n = if random.once_in(12) { *random.pick(&[0, 17, 255, any]) } else { random.between(1, 16) as u8 };
    let unit = |random: &mut Random| match random.below(12) {
        0 => *random.pick(&[0, n.wrapping_add(1), 255, any]),
        _ => random.between(1, n.max(1).into()) as u8,
    };
    let kind = if random.once_in(12) { *random.pick(&[0, 6, 128, 255, any]) } else { random.between(1, 5) as u8 };
    let (sender, mut receiver) = (unit(random), unit(random));
    if random.once_in(3) {
        receiver = *random.pick(&[sender.wrapping_sub(1), sender, sender.wrapping_add(1)]);
    }
    let allowed = slots::slots(n);
    let slot = match random.below(6) {
        0 | 1 if !allowed.is_empty() => *random.pick(&allowed),
        2 if !allowed.is_empty() => *random.pick(&[allowed[0], allowed[allowed.len() - 1]]),
        _ => Slot { kind, sender, receiver },
    };
    Input::SlotOf { n, slot }
}

// Two messages

/// Another slot that shares two of the three, if there is one.
fn near(random: &mut Random, n: u8, slot: Slot) -> Slot {
    let shared = |other: &Slot| {
        let same = [other.kind == slot.kind, other.sender == slot.sender, other.receiver == slot.receiver];
        same.iter().filter(|same| **same).count()
    };
    let near: Vec<Slot> = slots::slots(n).into_iter().filter(|other| shared(other) == 2).collect();
    if near.is_empty() {
        slot
    } else {
        *random.pick(&near)
    }
}

/// A second message: of the same slot, and near the first one or the same but for one thing; at times of another slot.
fn second(random: &mut Random, n: u8, sizes: &Places, (kind, first): (u8, &Message)) -> (u8, Message) {
    let slot = Slot::of(kind, first);
    let mut other = message_of(random, n, sizes, slot);
    match random.below(12) {
        0 => return message(random, n, sizes),
        1..=3 => {
            let slot = near(random, n, slot);
            return (slot.kind, message_of(random, n, sizes, slot));
        }
        4 => other = *first,
        5 | 6 => other.stamp = first.stamp,
        7 | 8 => {
            // one place of the stamp is another, if it is filled
            let place = random.below(16) as usize;
            let filled = first.stamp.iter().take_while(|byte| **byte != 0).count().max(1);
            let place = if random.once_in(3) { filled - 1 } else { place };
            other.stamp = first.stamp;
            if other.stamp[place] != 0 {
                other.stamp[place] = random.between(1, sizes[place].into()) as u8;
            }
        }
        9 => (other.bound, other.best) = (first.bound, first.best),
        10 => other.bound = first.bound,
        _ => {}
    }
    (kind, other)
}

pub fn newer(random: &mut Random) -> Input {
    let stream = stream(random);
    let (mut n, mut sizes) = head(random, &stream);
    let (kind, first) = message(random, n, &sizes);
    let (other_kind, other) = second(random, n, &sizes, (kind, &first));
    let mut packets =
        [message::encode(kind, &first), message::encode(other_kind, &other)].map(|packet| packet.to_vec());
    for bytes in &mut packets {
        match random.below(12) {
            0 => damage_packet(random, bytes),
            1 => *bytes = packet(random, n, &sizes),
            _ => {}
        }
    }
    damage_head(random, &mut n, &mut sizes);
    let [first, second] = packets;
    Input::Newer { n, sizes, first, second }
}

// Sheds

/// What a pool was before the shed was made: something, zeros, or messages of another shed.
fn old_pool(random: &mut Random) -> Vec<u8> {
    let mut pool = buffer(random, slots::POOL);
    if random.once_in(4) {
        pool.fill(0);
    }
    pool
}

pub fn make(random: &mut Random, order: ValueOrder) -> Input {
    let stream = some_stream(random, 3);
    let mut pool = old_pool(random);
    room_for_used(random, &stream, &mut pool);
    Input::MakeSlots { order: named(random, order), stream, pool }
}

/// Rarely: room for the cells alone that the units use.
fn room_for_used(random: &mut Random, stream: &[u8], pool: &mut Vec<u8>) {
    if random.once_in(40) && table::check_stream(stream).is_ok() {
        pool.truncate(SIZE * slots::slots(table::head(stream).0).len());
    }
}

/// A table of few enough deliveries to be settled often; damaged at times.
pub fn settle(random: &mut Random, order: ValueOrder) -> Input {
    let n = random.between(1, 5);
    let sizes: Vec<u8> = (0..n).map(|_| random.between(1, 3) as u8).collect();
    let mut stream = if random.once_in(40) { dearest(random) } else { stream_of(random, &sizes) };
    if random.once_in(6) {
        damage_stream(random, &mut stream);
    }
    let mut pool = old_pool(random);
    room_for_used(random, &stream, &mut pool);
    Input::SettleSlots { order: named(random, order), stream, pool }
}

/// A shed on its way, the cell that will be named, and the bytes that will stand there.
#[derive(Clone)]
struct Ran {
    n: u8,
    sizes: Places,
    shed: Shed,
    pool: Vec<u8>,
    /// Messages that were sent, the oldest first.
    sent: Vec<Vec<u8>>,
    cell: u64,
    packet: Vec<u8>,
}

impl Ran {
    fn make(random: &mut Random, order: ValueOrder, stream: &[u8]) -> Ran {
        let mut pool = vec![random.byte(); slots::POOL];
        let shed = slots::make_by(order, stream, &mut pool).expect("an accepted table");
        let (n, sizes) = table::head(stream);
        let mut ran = Ran { n, sizes, shed, pool, sent: Vec::new(), cell: 0, packet: vec![0; SIZE] };
        ran.keep_sent(&vec![0; slots::POOL]);
        ran
    }

    fn used(&self) -> usize {
        slots::slots(self.n).len()
    }

    /// What stands at a cell where other bytes stood before was sent.
    fn keep_sent(&mut self, before: &[u8]) {
        for cell in slots::waiting(self.n, &self.pool) {
            let bytes = SIZE * cell..SIZE * (cell + 1);
            if self.pool[bytes.clone()] != before[bytes.clone()] {
                self.sent.push(self.pool[bytes].to_vec());
            }
        }
    }

    fn deliver(&mut self, order: ValueOrder, stream: &[u8], cell: u64) {
        let before = self.pool.clone();
        if slots::deliver_by(order, &mut self.shed, stream, &mut self.pool, cell).is_ok() {
            self.keep_sent(&before);
        }
    }

    /// A cell in use; cell 0 where none is.
    fn any_waiting(&self, random: &mut Random) -> u64 {
        let waiting = slots::waiting(self.n, &self.pool);
        waiting.get(random.below(waiting.len() as u64) as usize).map_or(0, |cell| *cell as u64)
    }

    fn name(&mut self, cell: u64) {
        self.cell = cell;
        self.packet = self.pool[SIZE * cell as usize..][..SIZE].to_vec();
    }

    /// The packet goes to its own cell, if it has one; at times to any.
    fn name_own(&mut self, random: &mut Random) {
        self.packet.resize(SIZE, 1);
        let (kind, message) = message::fields(&self.packet);
        let own = slots::cell_of(self.n, Slot::of(kind, &message));
        self.cell = match own {
            Some(cell) if !random.once_in(5) => cell as u64,
            _ => random.below(self.used().max(1) as u64),
        };
    }

    /// Every cell that the units use with a message of its own that reads.
    fn crowd(&mut self, random: &mut Random) {
        for (cell, slot) in slots::slots(self.n).into_iter().enumerate() {
            if !slots::waits(&self.pool, cell) {
                let message = message_of(random, self.n, &self.sizes, slot);
                put(&mut self.pool, cell as u64, message::encode(slot.kind, &message).to_vec());
            }
        }
    }
}

/// A shed after some deliveries in this order, each of any cell in use.
fn ran(random: &mut Random, order: ValueOrder, stream: &[u8]) -> Ran {
    let mut ran = Ran::make(random, order, stream);
    for _ in 0..random.below(40) {
        if ran.shed.has_stopped() && !random.once_in(10) {
            break;
        }
        let before = ran.clone();
        let cell = ran.any_waiting(random);
        ran.deliver(order, stream, cell);
        if ran.shed.has_stopped() && !random.once_in(5) {
            return before;
        }
    }
    ran
}

/// A run on its way, rather one that has not stopped when made, and its stream; one in 20 of 16 units.
fn some_run(random: &mut Random, order: ValueOrder) -> (Ran, Vec<u8>) {
    loop {
        let mut shape = sizes(random);
        if random.once_in(20) {
            shape = (0..16).map(|_| random.between(1, 2) as u8).collect();
        }
        let stream = stream_of(random, &shape);
        let ran = ran(random, order, &stream);
        if !ran.shed.has_stopped() || ran.shed.deliveries > 0 || random.once_in(4) {
            return (ran, stream);
        }
    }
}

/// One damage to a shed, to its pool or to the cell that will be named, in this order.
fn damage(random: &mut Random, order: ValueOrder, ran: &mut Ran, stream: &[u8]) {
    let used = ran.used() as u64;
    match random.below(44) {
        0..=3 => {
            let own = random.below(ran.n.into()) as usize;
            damage_unit(random, &mut ran.shed.units[own]);
        }
        // a message in a cell that is not its own
        4..=8 => ran.cell = random.below(used.max(1)),
        9 => {
            // of its kind, if there is another
            let kind = ran.packet[0];
            let cells: Vec<u64> =
                (0..).zip(slots::slots(ran.n)).filter(|(_, slot)| slot.kind == kind).map(|c| c.0).collect();
            ran.cell = cells.get(random.below(cells.len() as u64) as usize).copied().unwrap_or(ran.cell);
        }
        10 => ran.packet = vec![0; SIZE],
        11 => {
            ran.packet = vec![0; SIZE];
            ran.packet[random.below(64) as usize] = random.between(1, 255) as u8;
        }
        12 => ran.cell = random.between(used.min(299), 299),
        13 => ran.pool.truncate(*random.pick(&[0, 64, SIZE * used as usize, slots::POOL - 1])),
        14 => ran.pool.extend([7; 100]),
        15 => {
            ran.shed.records = *random.pick(&[u64::MAX.into(), u128::MAX, u128::MAX - 1, 1 << 64]);
            ran.shed.deliveries = *random.pick(&[u64::MAX.into(), u128::MAX, u128::MAX - 1, 1 << 64]);
        }
        16 => {
            // units past n are not looked at
            for unit in ran.shed.units.iter_mut().skip(ran.n.into()) {
                unit.threshold = [255; 16];
                unit.cost = u32::MAX;
                unit.stopped = random.byte();
            }
        }
        17 | 18 => {
            damage_packet(random, &mut ran.packet);
            ran.packet.resize(SIZE, 1);
        }
        19 | 20 => ran.crowd(random),
        21 => {
            // no messages at all in the other cells
            let length = SIZE * used as usize;
            ran.pool[..length].fill(random.byte());
        }
        22 => {
            // only this one waits
            ran.pool[..SIZE * used as usize].fill(0);
        }
        23 if !ran.sent.is_empty() => {
            ran.packet = random.pick(&ran.sent).clone();
            ran.name_own(random);
        }
        24..=40 => {
            meet_another_run(random, order, &mut ran.shed.units, &mut ran.packet, stream);
            ran.name_own(random);
        }
        41 => {
            // a unit that has stopped
            let own = (ran.packet[2] as usize).clamp(1, 16);
            ran.shed.units[own - 1].stopped = 1;
        }
        42 => {
            ran.packet = bytes(random, SIZE as u64);
            message::seal(ran.packet.as_mut_slice().try_into().expect("64 bytes"));
        }
        _ => {
            ran.packet = packet(random, ran.n, &ran.sizes);
            ran.name_own(random);
        }
    }
}

/// Once in 8 the run was in the other order.
fn run_order(random: &mut Random, order: ValueOrder) -> ValueOrder {
    if random.once_in(8) {
        order.other()
    } else {
        order
    }
}

/// A cell of a shed is named, the shed is damaged at times, and the packet goes into the cell.
fn damage_run(random: &mut Random, order: ValueOrder, ran: &mut Ran, stream: &[u8]) {
    let cell = ran.any_waiting(random);
    ran.name(cell);
    for _ in 0..random.below(3) {
        damage(random, order, ran, stream);
        if ran.pool.len() < slots::POOL {
            break;
        }
    }
    put(&mut ran.pool, ran.cell, ran.packet.clone());
}

pub fn deliver(random: &mut Random, order: ValueOrder) -> Input {
    let run = run_order(random, order);
    let (mut ran, mut stream) = some_run(random, run);
    damage_run(random, order, &mut ran, &stream);
    let used = ran.used() as u64;
    let Ran { shed, pool, cell, .. } = ran;
    let cell = match random.below(40) {
        0 | 1 => random.below(used.max(1)),
        2 => *random.pick(&[used, 299, 300, u64::MAX, 1 << 32, (1 << 32) + cell, (1 << 58) + cell]),
        _ => cell,
    };
    if random.once_in(6) {
        damage_stream(random, &mut stream);
    }
    Input::DeliverSlots { order: named(random, order), shed: Box::new(shed), stream, cell, pool }
}

// Recorded runs

/// The cells that a shed delivers from here on, the lowest in use each time, the highest or any, up to the first that is refused; not
/// always beyond unit 1's stop.
fn cells_onward(random: &mut Random, order: ValueOrder, ran: &Ran, stream: &[u8]) -> Vec<u16> {
    let (mut shed, mut pool) = (ran.shed.clone(), ran.pool.clone());
    let style = random.below(3);
    let most = if random.once_in(6) { 300 } else { random.below(20) };
    let mut cells = Vec::new();
    for _ in 0..most {
        let waiting = slots::waiting(ran.n, &pool);
        let next = match style {
            0 => waiting.first(),
            1 => waiting.last(),
            _ => waiting.get(random.below(waiting.len() as u64) as usize),
        };
        let Some(cell) = next else { break };
        cells.push(*cell as u16);
        let refused = slots::deliver_by(order, &mut shed, stream, &mut pool, *cell as u64).is_err();
        if refused || (shed.has_stopped() && !random.once_in(3)) {
            break;
        }
    }
    cells
}

/// The packet in the cell that is named does not read: its sender or receiver, a byte that must be zero, or its check is another.
fn spoil(random: &mut Random, ran: &mut Ran) {
    ran.packet.resize(SIZE, 1);
    ran.packet[*random.pick(&[1, 1, 2, 60, 62])] = random.byte();
    if !random.once_in(3) {
        message::seal(ran.packet.as_mut_slice().try_into().expect("64 bytes"));
    }
    put(&mut ran.pool, ran.cell, ran.packet.clone());
}

/// A cell that is none of the run's next: rather the one with the damaged packet; any of those used; any number.
fn other_cell(random: &mut Random, ran: &Ran) -> u16 {
    let used = ran.used() as u16;
    match random.below(8) {
        0..=3 => ran.cell as u16,
        4 | 5 => random.below(used.max(1).into()) as u16,
        6 => *random.pick(&[used, 255, 256, 299, 300, 512, 65_535]),
        _ => random.word() as u16,
    }
}

/// The cells that are recorded, once in 8 in the other order; at times others among them.
fn recorded_cells(random: &mut Random, order: ValueOrder, ran: &Ran, stream: &[u8]) -> Vec<u16> {
    let run = run_order(random, order);
    let mut cells = match ran.pool.len() < slots::POOL {
        true => vec![ran.cell as u16],
        false => cells_onward(random, run, ran, stream),
    };
    for _ in 0..*random.pick(&[0, 0, 0, 1, 1, 2]) {
        let at = random.below(cells.len() as u64 + 1) as usize;
        cells.insert(at, other_cell(random, ran));
    }
    cells
}

/// At times it is empty, or of odd length.
fn damage_list(random: &mut Random, list: &mut Vec<u8>) {
    match random.below(24) {
        0..=2 => list.clear(),
        3 | 4 => list.push(random.byte()),
        5 => list.truncate(list.len().saturating_sub(1)),
        6 => *list = vec![random.byte()],
        _ => {}
    }
}

pub fn replay(random: &mut Random, order: ValueOrder) -> Input {
    let run = run_order(random, order);
    let (mut ran, mut stream) = some_run(random, run);
    if random.once_in(4) {
        ran = Ran::make(random, run, &stream);
    }
    damage_run(random, order, &mut ran, &stream);
    if random.once_in(6) {
        spoil(random, &mut ran);
    }
    let mut list = recorded::list(&recorded_cells(random, order, &ran, &stream));
    damage_list(random, &mut list);
    room_for_used(random, &stream, &mut ran.pool);
    if random.once_in(6) {
        damage_stream(random, &mut stream);
    }
    let Ran { shed, pool, .. } = ran;
    Input::ReplaySlots { order: named(random, order), shed: Box::new(shed), stream, list, pool }
}
