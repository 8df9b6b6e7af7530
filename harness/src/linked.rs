//! The Rattle library behind the same inputs and outcomes: include/riksamoe.h declared again, and one function that calls it.
//!
//! Nothing checks these declarations against the library: the sizes at the end are all that the compiler can hold, the differential test does the rest.
//! A slice passes as a pointer and a length; structs pass by value and are `repr(C)`. A call that tries values is two, one that names no
//! order and one that names it by its number: here one function for both.

use crate::calls::{bytes_of, floor_outcome, lent_outcome, start_outcome, Event, Handed, Held, Input, Named, Outcome};
use crate::reference;
use crate::reference::network::Network as PlainNetwork;
use crate::reference::slots::{Shed, Slot};
use crate::reference::start::Begun;
use crate::reference::table::Form;
use crate::reference::Places;

#[repr(C)]
#[derive(Clone, Copy, PartialEq, Eq, Debug)]
pub struct Sizes {
    pub places: Places,
}

#[repr(C)]
#[derive(Clone, Copy)]
pub struct Length {
    pub refusal: u8,
    pub length: usize,
}

/// How far a box is with the blocks of its table.
#[repr(C)]
#[derive(Clone, Copy, PartialEq, Eq, Debug)]
pub struct Start {
    pub own: u8,
    pub stage: u8,
    pub blocks: u16,
    pub count: u32,
    pub n: u8,
    pub sizes: Sizes,
    pub row: u8,
    pub unit: u8,
    pub low: u8,
    pub left: u16,
    pub refusal: u8,
}

#[repr(C)]
#[derive(Clone, Copy)]
pub struct Started {
    pub refusal: u8,
    pub length: usize,
    pub start: Start,
}

#[repr(C)]
#[derive(Clone, Copy)]
pub struct Message {
    pub sender: u8,
    pub receiver: u8,
    pub stamp: Places,
    pub values: Places,
    pub cost: u32,
    pub bound: u32,
    pub best: Places,
}

#[repr(C)]
#[derive(Clone, Copy)]
pub struct Parsed {
    pub refusal: u8,
    pub kind: u8,
    pub message: Message,
}

#[repr(C)]
#[derive(Clone, Copy)]
pub struct Unit {
    pub threshold: Places,
    pub bound: u32,
    pub best: Places,
    pub estimates: [u32; 16],
    pub stamp: Places,
    pub values: Places,
    pub cost: u32,
    pub counter: u8,
    pub stopped: u8,
}

#[repr(C)]
#[derive(Clone, Copy)]
pub struct UnitOutcome {
    pub refusal: u8,
    pub unit: Unit,
    pub sent: u8,
    pub records: u8,
}

/// What the step in place hands back; the unit is where it was lent.
#[repr(C)]
#[derive(Clone, Copy)]
pub struct Report {
    pub refusal: u8,
    pub sent: u8,
    pub records: u8,
}

#[repr(C)]
#[derive(Clone, Copy)]
pub struct Count {
    pub low: u64,
    pub high: u64,
}

#[repr(C)]
#[derive(Clone, Copy)]
pub struct Core {
    pub units: [Unit; 16],
    pub records: Count,
    pub deliveries: Count,
}

#[repr(C)]
#[derive(Clone, Copy)]
pub struct Network {
    pub core: Core,
    pub used: u64,
}

#[repr(C)]
#[derive(Clone, Copy)]
pub struct NetworkOutcome {
    pub refusal: u8,
    pub network: Network,
}

/// Of the pool of slots.
#[repr(C)]
#[derive(Clone, Copy)]
pub struct SlotsAnswer {
    pub refusal: u8,
    pub core: Core,
}

#[repr(C)]
#[derive(Clone, Copy)]
pub struct Found {
    pub refusal: u8,
    pub total: u32,
    pub values: Places,
}

#[repr(C)]
#[derive(Clone, Copy)]
pub struct Range {
    pub refusal: u8,
    pub lower: u32,
    pub upper: u32,
}

#[repr(C)]
#[derive(Clone, Copy)]
pub struct Moved {
    pub refusal: u8,
    pub floor: u32,
}

extern "C" {
    fn riksamoe_checksum(bytes: *const u8, length: usize) -> u32;
    fn riksamoe_block_refusal(block: *const u8, length: usize, expected: u16, last: u8) -> u8;
    fn riksamoe_table_read(file: *const u8, length: usize, stream: *mut u8, room: usize) -> Length;
    fn riksamoe_table_write(stream: *const u8, length: usize, file: *mut u8, room: usize) -> Length;
    fn riksamoe_to_form_two(file: *const u8, length: usize, out: *mut u8, room: usize) -> Length;
    fn riksamoe_to_form_one(file: *const u8, length: usize, out: *mut u8, room: usize) -> Length;
    fn riksamoe_readings_stream(
        n: u8,
        sizes: Sizes,
        readings: *const u8,
        length: usize,
        stream: *mut u8,
        room: usize,
    ) -> Length;
    fn riksamoe_tiny_stream(units: u8, number: u32, stream: *mut u8, room: usize) -> Length;
    fn riksamoe_units(stream: *const u8, length: usize) -> u8;
    fn riksamoe_sizes(stream: *const u8, length: usize) -> Sizes;
    fn riksamoe_costs(stream: *const u8, length: usize, own: u8, out: *mut u8, room: usize) -> Length;
    fn riksamoe_start(own: u8) -> Start;
    fn riksamoe_start_block(
        start: Start,
        block: *const u8,
        length: usize,
        last: u8,
        costs: *mut u8,
        room: usize,
    ) -> Started;
    fn riksamoe_message_parse(n: u8, sizes: Sizes, bytes: *const u8, length: usize) -> Parsed;
    fn riksamoe_message_write(n: u8, sizes: Sizes, kind: u8, message: Message, out: *mut u8, room: usize) -> u8;
    fn riksamoe_unit_make(
        own: u8,
        n: u8,
        sizes: Sizes,
        costs: *const u8,
        costs_length: usize,
        out: *mut u8,
        room: usize,
    ) -> UnitOutcome;
    fn riksamoe_unit_make_by(
        order: u8,
        own: u8,
        n: u8,
        sizes: Sizes,
        costs: *const u8,
        costs_length: usize,
        out: *mut u8,
        room: usize,
    ) -> UnitOutcome;
    fn riksamoe_unit_in_range(unit: Unit, own: u8, n: u8, sizes: Sizes, costs: *const u8, costs_length: usize) -> u8;
    fn riksamoe_unit_in_range_by(
        order: u8,
        unit: Unit,
        own: u8,
        n: u8,
        sizes: Sizes,
        costs: *const u8,
        costs_length: usize,
    ) -> u8;
    fn riksamoe_unit_step(
        unit: Unit,
        own: u8,
        n: u8,
        sizes: Sizes,
        costs: *const u8,
        costs_length: usize,
        packet: *const u8,
        packet_length: usize,
        out: *mut u8,
        room: usize,
    ) -> UnitOutcome;
    fn riksamoe_unit_step_by(
        order: u8,
        unit: Unit,
        own: u8,
        n: u8,
        sizes: Sizes,
        costs: *const u8,
        costs_length: usize,
        packet: *const u8,
        packet_length: usize,
        out: *mut u8,
        room: usize,
    ) -> UnitOutcome;
    fn riksamoe_unit_step_in_place(
        unit: &mut Unit,
        own: u8,
        n: u8,
        sizes: Sizes,
        costs: *const u8,
        costs_length: usize,
        packet: *const u8,
        packet_length: usize,
        out: *mut u8,
        room: usize,
    ) -> Report;
    fn riksamoe_unit_step_in_place_by(
        order: u8,
        unit: &mut Unit,
        own: u8,
        n: u8,
        sizes: Sizes,
        costs: *const u8,
        costs_length: usize,
        packet: *const u8,
        packet_length: usize,
        out: *mut u8,
        room: usize,
    ) -> Report;
    fn riksamoe_network_make(stream: *const u8, length: usize, pool: *mut u8, room: usize) -> NetworkOutcome;
    fn riksamoe_network_make_by(
        order: u8,
        stream: *const u8,
        length: usize,
        pool: *mut u8,
        room: usize,
    ) -> NetworkOutcome;
    fn riksamoe_network_deliver(
        network: Network,
        stream: *const u8,
        length: usize,
        pool: *mut u8,
        room: usize,
        cell: u64,
    ) -> NetworkOutcome;
    fn riksamoe_network_deliver_by(
        order: u8,
        network: Network,
        stream: *const u8,
        length: usize,
        pool: *mut u8,
        room: usize,
        cell: u64,
    ) -> NetworkOutcome;
    fn riksamoe_network_echo(
        network: Network,
        stream: *const u8,
        length: usize,
        pool: *mut u8,
        room: usize,
        bytes: *const u8,
        count: usize,
    ) -> NetworkOutcome;
    fn riksamoe_network_echo_by(
        order: u8,
        network: Network,
        stream: *const u8,
        length: usize,
        pool: *mut u8,
        room: usize,
        bytes: *const u8,
        count: usize,
    ) -> NetworkOutcome;
    fn riksamoe_network_settle(stream: *const u8, length: usize, pool: *mut u8, room: usize) -> NetworkOutcome;
    fn riksamoe_network_settle_by(
        order: u8,
        stream: *const u8,
        length: usize,
        pool: *mut u8,
        room: usize,
    ) -> NetworkOutcome;
    fn riksamoe_slot_of(n: u8, kind: u8, sender: u8, receiver: u8) -> u64;
    fn riksamoe_newer(
        n: u8,
        sizes: Sizes,
        first: *const u8,
        first_length: usize,
        second: *const u8,
        second_length: usize,
    ) -> u8;
    fn riksamoe_newer_refusal(
        n: u8,
        sizes: Sizes,
        first: *const u8,
        first_length: usize,
        second: *const u8,
        second_length: usize,
    ) -> u8;
    fn riksamoe_slots_make(stream: *const u8, length: usize, pool: *mut u8, room: usize) -> SlotsAnswer;
    fn riksamoe_slots_make_by(order: u8, stream: *const u8, length: usize, pool: *mut u8, room: usize) -> SlotsAnswer;
    fn riksamoe_slots_deliver(
        core: Core,
        stream: *const u8,
        length: usize,
        pool: *mut u8,
        room: usize,
        cell: u64,
    ) -> SlotsAnswer;
    fn riksamoe_slots_deliver_by(
        order: u8,
        core: Core,
        stream: *const u8,
        length: usize,
        pool: *mut u8,
        room: usize,
        cell: u64,
    ) -> SlotsAnswer;
    fn riksamoe_slots_replay(
        core: Core,
        stream: *const u8,
        length: usize,
        pool: *mut u8,
        room: usize,
        list: *const u8,
        count: usize,
    ) -> SlotsAnswer;
    fn riksamoe_slots_replay_by(
        order: u8,
        core: Core,
        stream: *const u8,
        length: usize,
        pool: *mut u8,
        room: usize,
        list: *const u8,
        count: usize,
    ) -> SlotsAnswer;
    fn riksamoe_slots_settle(stream: *const u8, length: usize, pool: *mut u8, room: usize) -> SlotsAnswer;
    fn riksamoe_slots_settle_by(order: u8, stream: *const u8, length: usize, pool: *mut u8, room: usize)
        -> SlotsAnswer;
    fn riksamoe_search(stream: *const u8, length: usize) -> Found;
    fn riksamoe_branch_and_bound(stream: *const u8, length: usize) -> Found;
    fn riksamoe_ends(total: u32, old: u32, new: u32) -> Range;
    fn riksamoe_hold_costs(stream: *const u8, length: usize, costs: *mut u32, room: usize) -> Length;
    fn riksamoe_project(
        costs: *mut u32,
        length: usize,
        n: u8,
        sizes: Sizes,
        floor: u32,
        unit: u8,
        value: u8,
        other: u8,
    ) -> Moved;
    fn riksamoe_project_unary(costs: *mut u32, length: usize, n: u8, sizes: Sizes, floor: u32, unit: u8) -> Moved;
    fn riksamoe_extend(
        costs: *mut u32,
        length: usize,
        n: u8,
        sizes: Sizes,
        floor: u32,
        unit: u8,
        value: u8,
        other: u8,
        part: u32,
    ) -> Moved;
    fn riksamoe_project_all(costs: *mut u32, length: usize, n: u8, sizes: Sizes, floor: u32) -> Moved;
    fn riksamoe_lower_bound(stream: *const u8, length: usize, costs: *mut u32, room: usize) -> Moved;
}

// The calls made safe: every pointer comes with the length of the slice that it points into, and the library keeps none.

pub fn checksum(bytes: &[u8]) -> u32 {
    unsafe { riksamoe_checksum(bytes.as_ptr(), bytes.len()) }
}

pub fn block_refusal(block: &[u8], expected: u16, last: u8) -> u8 {
    unsafe { riksamoe_block_refusal(block.as_ptr(), block.len(), expected, last) }
}

pub fn table_read(file: &[u8], stream: &mut [u8]) -> Length {
    unsafe { riksamoe_table_read(file.as_ptr(), file.len(), stream.as_mut_ptr(), stream.len()) }
}

pub fn table_write(stream: &[u8], file: &mut [u8]) -> Length {
    unsafe { riksamoe_table_write(stream.as_ptr(), stream.len(), file.as_mut_ptr(), file.len()) }
}

pub fn to_form_two(file: &[u8], out: &mut [u8]) -> Length {
    unsafe { riksamoe_to_form_two(file.as_ptr(), file.len(), out.as_mut_ptr(), out.len()) }
}

pub fn to_form_one(file: &[u8], out: &mut [u8]) -> Length {
    unsafe { riksamoe_to_form_one(file.as_ptr(), file.len(), out.as_mut_ptr(), out.len()) }
}

pub fn readings_stream(n: u8, sizes: &Places, readings: &[u8], stream: &mut [u8]) -> Length {
    let sizes = Sizes { places: *sizes };
    let (stream, room) = (stream.as_mut_ptr(), stream.len());
    unsafe { riksamoe_readings_stream(n, sizes, readings.as_ptr(), readings.len(), stream, room) }
}

pub fn tiny_stream(units: u8, number: u32, stream: &mut [u8]) -> Length {
    unsafe { riksamoe_tiny_stream(units, number, stream.as_mut_ptr(), stream.len()) }
}

pub fn hold_costs(stream: &[u8], costs: &mut [u32]) -> Length {
    unsafe { riksamoe_hold_costs(stream.as_ptr(), stream.len(), costs.as_mut_ptr(), costs.len()) }
}

pub fn project(held: &mut Held, unit: u8, value: u8, other: u8) -> Moved {
    let sizes = Sizes { places: held.sizes };
    let (costs, length) = (held.costs.as_mut_ptr(), held.costs.len());
    unsafe { riksamoe_project(costs, length, held.n, sizes, held.floor, unit, value, other) }
}

pub fn project_unary(held: &mut Held, unit: u8) -> Moved {
    let sizes = Sizes { places: held.sizes };
    let (costs, length) = (held.costs.as_mut_ptr(), held.costs.len());
    unsafe { riksamoe_project_unary(costs, length, held.n, sizes, held.floor, unit) }
}

pub fn extend(held: &mut Held, unit: u8, value: u8, other: u8, part: u32) -> Moved {
    let sizes = Sizes { places: held.sizes };
    let (costs, length) = (held.costs.as_mut_ptr(), held.costs.len());
    unsafe { riksamoe_extend(costs, length, held.n, sizes, held.floor, unit, value, other, part) }
}

pub fn project_all(held: &mut Held) -> Moved {
    let sizes = Sizes { places: held.sizes };
    let (costs, length) = (held.costs.as_mut_ptr(), held.costs.len());
    unsafe { riksamoe_project_all(costs, length, held.n, sizes, held.floor) }
}

pub fn lower_bound(stream: &[u8], costs: &mut [u32]) -> Moved {
    unsafe { riksamoe_lower_bound(stream.as_ptr(), stream.len(), costs.as_mut_ptr(), costs.len()) }
}

pub fn units(stream: &[u8]) -> u8 {
    unsafe { riksamoe_units(stream.as_ptr(), stream.len()) }
}

pub fn sizes(stream: &[u8]) -> Places {
    unsafe { riksamoe_sizes(stream.as_ptr(), stream.len()) }.places
}

pub fn costs(stream: &[u8], own: u8, out: &mut [u8]) -> Length {
    unsafe { riksamoe_costs(stream.as_ptr(), stream.len(), own, out.as_mut_ptr(), out.len()) }
}

pub fn start(own: u8) -> Start {
    unsafe { riksamoe_start(own) }
}

pub fn start_block(start: Start, block: &[u8], last: u8, costs: &mut [u8]) -> Started {
    unsafe { riksamoe_start_block(start, block.as_ptr(), block.len(), last, costs.as_mut_ptr(), costs.len()) }
}

pub fn message_parse(n: u8, sizes: &Places, bytes: &[u8]) -> Parsed {
    unsafe { riksamoe_message_parse(n, Sizes { places: *sizes }, bytes.as_ptr(), bytes.len()) }
}

pub fn message_write(n: u8, sizes: &Places, kind: u8, message: Message, out: &mut [u8]) -> u8 {
    unsafe { riksamoe_message_write(n, Sizes { places: *sizes }, kind, message, out.as_mut_ptr(), out.len()) }
}

/// What a step is lent beside the state, as C passes it.
#[derive(Clone, Copy)]
pub struct Lent<'a> {
    pub order: Named,
    pub own: u8,
    pub n: u8,
    pub sizes: &'a Places,
    pub costs: &'a [u8],
}

pub fn unit_make(lent: Lent, out: &mut [u8]) -> UnitOutcome {
    let Lent { order, own, n, sizes, costs } = lent;
    let sizes = Sizes { places: *sizes };
    let (costs, length) = (costs.as_ptr(), costs.len());
    let (out, room) = (out.as_mut_ptr(), out.len());
    match order {
        None => unsafe { riksamoe_unit_make(own, n, sizes, costs, length, out, room) },
        Some(order) => unsafe { riksamoe_unit_make_by(order, own, n, sizes, costs, length, out, room) },
    }
}

pub fn unit_in_range(unit: Unit, lent: Lent) -> u8 {
    let Lent { order, own, n, sizes, costs } = lent;
    let sizes = Sizes { places: *sizes };
    let (costs, length) = (costs.as_ptr(), costs.len());
    match order {
        None => unsafe { riksamoe_unit_in_range(unit, own, n, sizes, costs, length) },
        Some(order) => unsafe { riksamoe_unit_in_range_by(order, unit, own, n, sizes, costs, length) },
    }
}

pub fn unit_step(unit: Unit, lent: Lent, packet: &[u8], out: &mut [u8]) -> UnitOutcome {
    let Lent { order, own, n, sizes, costs } = lent;
    let sizes = Sizes { places: *sizes };
    let (costs, costs_length) = (costs.as_ptr(), costs.len());
    let (packet, length) = (packet.as_ptr(), packet.len());
    let (out, room) = (out.as_mut_ptr(), out.len());
    match order {
        None => unsafe { riksamoe_unit_step(unit, own, n, sizes, costs, costs_length, packet, length, out, room) },
        Some(order) => unsafe {
            riksamoe_unit_step_by(order, unit, own, n, sizes, costs, costs_length, packet, length, out, room)
        },
    }
}

pub fn unit_step_in_place(unit: &mut Unit, lent: Lent, packet: &[u8], out: &mut [u8]) -> Report {
    let Lent { order, own, n, sizes, costs } = lent;
    let sizes = Sizes { places: *sizes };
    let (costs, costs_length) = (costs.as_ptr(), costs.len());
    let (packet, length) = (packet.as_ptr(), packet.len());
    let (out, room) = (out.as_mut_ptr(), out.len());
    match order {
        None => unsafe {
            riksamoe_unit_step_in_place(unit, own, n, sizes, costs, costs_length, packet, length, out, room)
        },
        Some(order) => unsafe {
            riksamoe_unit_step_in_place_by(order, unit, own, n, sizes, costs, costs_length, packet, length, out, room)
        },
    }
}

pub fn network_make(order: Named, stream: &[u8], pool: &mut [u8]) -> NetworkOutcome {
    let (stream, length) = (stream.as_ptr(), stream.len());
    let (pool, room) = (pool.as_mut_ptr(), pool.len());
    match order {
        None => unsafe { riksamoe_network_make(stream, length, pool, room) },
        Some(order) => unsafe { riksamoe_network_make_by(order, stream, length, pool, room) },
    }
}

pub fn network_deliver(order: Named, network: Network, stream: &[u8], pool: &mut [u8], cell: u64) -> NetworkOutcome {
    let (stream, length) = (stream.as_ptr(), stream.len());
    let (pool, room) = (pool.as_mut_ptr(), pool.len());
    match order {
        None => unsafe { riksamoe_network_deliver(network, stream, length, pool, room, cell) },
        Some(order) => unsafe { riksamoe_network_deliver_by(order, network, stream, length, pool, room, cell) },
    }
}

pub fn network_echo(order: Named, network: Network, stream: &[u8], pool: &mut [u8], packet: &[u8]) -> NetworkOutcome {
    let (stream, length) = (stream.as_ptr(), stream.len());
    let (pool, room) = (pool.as_mut_ptr(), pool.len());
    let (bytes, count) = (packet.as_ptr(), packet.len());
    match order {
        None => unsafe { riksamoe_network_echo(network, stream, length, pool, room, bytes, count) },
        Some(order) => unsafe { riksamoe_network_echo_by(order, network, stream, length, pool, room, bytes, count) },
    }
}

pub fn network_settle(order: Named, stream: &[u8], pool: &mut [u8]) -> NetworkOutcome {
    let (stream, length) = (stream.as_ptr(), stream.len());
    let (pool, room) = (pool.as_mut_ptr(), pool.len());
    match order {
        None => unsafe { riksamoe_network_settle(stream, length, pool, room) },
        Some(order) => unsafe { riksamoe_network_settle_by(order, stream, length, pool, room) },
    }
}

pub fn slot_of(n: u8, slot: Slot) -> u64 {
    unsafe { riksamoe_slot_of(n, slot.kind, slot.sender, slot.receiver) }
}

/// Which one is handed back, and the refusal.
pub fn newer(n: u8, sizes: &Places, first: &[u8], second: &[u8]) -> (u8, u8) {
    let sizes = Sizes { places: *sizes };
    let (first, first_length) = (first.as_ptr(), first.len());
    let (second, second_length) = (second.as_ptr(), second.len());
    unsafe {
        (
            riksamoe_newer(n, sizes, first, first_length, second, second_length),
            riksamoe_newer_refusal(n, sizes, first, first_length, second, second_length),
        )
    }
}

pub fn slots_make(order: Named, stream: &[u8], pool: &mut [u8]) -> SlotsAnswer {
    let (stream, length) = (stream.as_ptr(), stream.len());
    let (pool, room) = (pool.as_mut_ptr(), pool.len());
    match order {
        None => unsafe { riksamoe_slots_make(stream, length, pool, room) },
        Some(order) => unsafe { riksamoe_slots_make_by(order, stream, length, pool, room) },
    }
}

pub fn slots_deliver(order: Named, core: Core, stream: &[u8], pool: &mut [u8], cell: u64) -> SlotsAnswer {
    let (stream, length) = (stream.as_ptr(), stream.len());
    let (pool, room) = (pool.as_mut_ptr(), pool.len());
    match order {
        None => unsafe { riksamoe_slots_deliver(core, stream, length, pool, room, cell) },
        Some(order) => unsafe { riksamoe_slots_deliver_by(order, core, stream, length, pool, room, cell) },
    }
}

pub fn slots_replay(order: Named, core: Core, stream: &[u8], pool: &mut [u8], list: &[u8]) -> SlotsAnswer {
    let (stream, length) = (stream.as_ptr(), stream.len());
    let (pool, room) = (pool.as_mut_ptr(), pool.len());
    let (list, count) = (list.as_ptr(), list.len());
    match order {
        None => unsafe { riksamoe_slots_replay(core, stream, length, pool, room, list, count) },
        Some(order) => unsafe { riksamoe_slots_replay_by(order, core, stream, length, pool, room, list, count) },
    }
}

pub fn slots_settle(order: Named, stream: &[u8], pool: &mut [u8]) -> SlotsAnswer {
    let (stream, length) = (stream.as_ptr(), stream.len());
    let (pool, room) = (pool.as_mut_ptr(), pool.len());
    match order {
        None => unsafe { riksamoe_slots_settle(stream, length, pool, room) },
        Some(order) => unsafe { riksamoe_slots_settle_by(order, stream, length, pool, room) },
    }
}

pub fn search(stream: &[u8]) -> Found {
    unsafe { riksamoe_search(stream.as_ptr(), stream.len()) }
}

pub fn branch_and_bound(stream: &[u8]) -> Found {
    unsafe { riksamoe_branch_and_bound(stream.as_ptr(), stream.len()) }
}

pub fn ends(total: u32, old: u32, new: u32) -> Range {
    unsafe { riksamoe_ends(total, old, new) }
}

// From one side's structs to the other's

impl From<&reference::unit::Unit> for Unit {
    fn from(u: &reference::unit::Unit) -> Unit {
        Unit {
            threshold: u.threshold,
            bound: u.bound,
            best: u.best,
            estimates: u.estimates,
            stamp: u.stamp,
            values: u.values,
            cost: u.cost,
            counter: u.counter,
            stopped: u.stopped,
        }
    }
}

impl From<&Unit> for reference::unit::Unit {
    fn from(u: &Unit) -> reference::unit::Unit {
        reference::unit::Unit {
            threshold: u.threshold,
            bound: u.bound,
            best: u.best,
            estimates: u.estimates,
            stamp: u.stamp,
            values: u.values,
            cost: u.cost,
            counter: u.counter,
            stopped: u.stopped,
        }
    }
}

impl From<&reference::message::Message> for Message {
    fn from(m: &reference::message::Message) -> Message {
        Message {
            sender: m.sender,
            receiver: m.receiver,
            stamp: m.stamp,
            values: m.values,
            cost: m.cost,
            bound: m.bound,
            best: m.best,
        }
    }
}

impl From<&Message> for reference::message::Message {
    fn from(m: &Message) -> reference::message::Message {
        reference::message::Message {
            sender: m.sender,
            receiver: m.receiver,
            stamp: m.stamp,
            values: m.values,
            cost: m.cost,
            bound: m.bound,
            best: m.best,
        }
    }
}

fn core(units: &[reference::unit::Unit; 16], records: u128, deliveries: u128) -> Core {
    let words = |count: u128| Count { low: count as u64, high: (count >> 64) as u64 };
    Core { units: units.each_ref().map(Unit::from), records: words(records), deliveries: words(deliveries) }
}

impl From<&PlainNetwork> for Network {
    fn from(network: &PlainNetwork) -> Network {
        Network { core: core(&network.units, network.records, network.deliveries), used: network.count }
    }
}

impl From<&Shed> for Core {
    fn from(shed: &Shed) -> Core {
        core(&shed.units, shed.records, shed.deliveries)
    }
}

// Outcomes

fn length_outcome(answer: Length, lent: Vec<u8>) -> Outcome {
    Outcome { refusal: answer.refusal, numbers: vec![answer.length as u64], lent, ..Outcome::default() }
}

fn unit_outcome(answer: &UnitOutcome, lent: Vec<u8>) -> Outcome {
    Outcome {
        refusal: answer.refusal,
        numbers: vec![answer.sent.into(), answer.records.into()],
        units: vec![(&answer.unit).into()],
        lent,
        ..Outcome::default()
    }
}

fn core_outcome(refusal: u8, core: &Core, lent: Vec<u8>) -> Outcome {
    let (records, deliveries) = (core.records, core.deliveries);
    Outcome {
        refusal,
        numbers: vec![records.low, records.high, deliveries.low, deliveries.high],
        units: core.units.iter().map(|unit| unit.into()).collect(),
        lent,
        ..Outcome::default()
    }
}

fn network_outcome(answer: &NetworkOutcome, lent: Vec<u8>) -> Outcome {
    let mut outcome = core_outcome(answer.refusal, &answer.network.core, lent);
    outcome.numbers.insert(0, answer.network.used);
    outcome
}

fn slots_outcome(answer: &SlotsAnswer, lent: Vec<u8>) -> Outcome {
    core_outcome(answer.refusal, &answer.core, lent)
}

/// The linked library's outcome on an input.
pub fn linked(input: Input) -> Outcome {
    match input {
        Input::Sum { bytes } => Outcome { numbers: vec![checksum(&bytes).into()], ..Outcome::default() },
        Input::Block { block, expected, last } => {
            let refusal = block_refusal(&block, expected, last);
            let lent = if refusal == 0 { payload(&block) } else { Vec::new() };
            Outcome { refusal, lent, ..Outcome::default() }
        }
        Input::Read { file, mut stream } => length_outcome(table_read(&file, &mut stream), stream),
        Input::Write { stream, mut file } => length_outcome(table_write(&stream, &mut file), file),
        Input::Convert { file, wanted, mut out } => {
            let answer = match wanted {
                Form::Two => to_form_two(&file, &mut out),
                Form::One => to_form_one(&file, &mut out),
            };
            length_outcome(answer, out)
        }
        Input::Readings { n, sizes, readings, mut stream } => {
            length_outcome(readings_stream(n, &sizes, &readings, &mut stream), stream)
        }
        Input::Tiny { units, number, mut stream } => length_outcome(tiny_stream(units, number, &mut stream), stream),
        Input::Lent { stream, own, mut out } => {
            let answer = costs(&stream, own, &mut out);
            lent_outcome(units(&stream), &sizes(&stream), length_outcome(answer, out))
        }
        Input::Start { own, blocks, costs } => start_from(own, &blocks, costs),
        Input::Parse { n, sizes, packet } => {
            let answer = message_parse(n, &sizes, &packet);
            let numbers = vec![answer.kind.into()];
            Outcome { refusal: answer.refusal, numbers, message: (&answer.message).into(), ..Outcome::default() }
        }
        Input::Encode { n, sizes, kind, message, mut out } => {
            let refusal = message_write(n, &sizes, kind, (&message).into(), &mut out);
            Outcome { refusal, lent: out, ..Outcome::default() }
        }
        Input::Make { order, own, n, sizes, costs, mut out } => {
            unit_outcome(&unit_make(Lent { order, own, n, sizes: &sizes, costs: &costs }, &mut out), out)
        }
        Input::InRange { order, unit, own, n, sizes, costs } => {
            let refusal = unit_in_range((&unit).into(), Lent { order, own, n, sizes: &sizes, costs: &costs });
            Outcome { refusal, ..Outcome::default() }
        }
        Input::Step { order, unit, own, n, sizes, costs, packet, out } => {
            step_both_ways((&unit).into(), Lent { order, own, n, sizes: &sizes, costs: &costs }, &packet, out)
        }
        Input::MakeNetwork { order, stream, mut pool } => {
            network_outcome(&network_make(order, &stream, &mut pool), pool)
        }
        Input::Deliver { order, network, stream, event, mut pool } => {
            let network = (&*network).into();
            let answer = match event {
                Event::Cell(cell) => network_deliver(order, network, &stream, &mut pool, cell),
                Event::Echo(packet) => network_echo(order, network, &stream, &mut pool, &packet),
            };
            network_outcome(&answer, pool)
        }
        Input::Settle { order, stream, mut pool } => network_outcome(&network_settle(order, &stream, &mut pool), pool),
        Input::SlotOf { n, slot } => Outcome { numbers: vec![slot_of(n, slot)], ..Outcome::default() },
        Input::Newer { n, sizes, first, second } => {
            let (which, refusal) = newer(n, &sizes, &first, &second);
            Outcome { refusal, numbers: vec![which.into()], ..Outcome::default() }
        }
        Input::MakeSlots { order, stream, mut pool } => slots_outcome(&slots_make(order, &stream, &mut pool), pool),
        Input::DeliverSlots { order, shed, stream, cell, mut pool } => {
            slots_outcome(&slots_deliver(order, (&*shed).into(), &stream, &mut pool, cell), pool)
        }
        Input::ReplaySlots { order, shed, stream, list, mut pool } => {
            slots_outcome(&slots_replay(order, (&*shed).into(), &stream, &mut pool, &list), pool)
        }
        Input::SettleSlots { order, stream, mut pool } => slots_outcome(&slots_settle(order, &stream, &mut pool), pool),
        Input::Search { stream } => found_outcome(&search(&stream)),
        Input::BranchAndBound { stream } => found_outcome(&branch_and_bound(&stream)),
        Input::Ends { total, old, new } => {
            let Range { refusal, lower, upper } = ends(total, old, new);
            Outcome { refusal, numbers: vec![lower.into(), upper.into()], ..Outcome::default() }
        }
        Input::Hold { stream, mut costs } => {
            let answer = hold_costs(&stream, &mut costs);
            length_outcome(answer, bytes_of(&costs))
        }
        Input::Project { mut held, unit, value, other } => {
            let moved = project(&mut held, unit, value, other);
            moved_outcome(moved, &held.costs)
        }
        Input::ProjectUnary { mut held, unit } => {
            let moved = project_unary(&mut held, unit);
            moved_outcome(moved, &held.costs)
        }
        Input::Extend { mut held, unit, value, other, part } => {
            let moved = extend(&mut held, unit, value, other, part);
            moved_outcome(moved, &held.costs)
        }
        Input::ProjectAll { mut held } => {
            let moved = project_all(&mut held);
            moved_outcome(moved, &held.costs)
        }
        Input::LowerBound { stream, mut costs } => {
            let moved = lower_bound(&stream, &mut costs);
            moved_outcome(moved, &costs)
        }
    }
}

fn moved_outcome(answer: Moved, costs: &[u32]) -> Outcome {
    floor_outcome(answer.refusal, answer.floor, costs)
}

fn found_outcome(answer: &Found) -> Outcome {
    let numbers = vec![answer.total.into()];
    Outcome { refusal: answer.refusal, numbers, lent: answer.values.to_vec(), ..Outcome::default() }
}

/// The blocks one after the other; a refused one must leave all as it was.
fn start_from(own: u8, blocks: &[Handed], mut costs: Vec<u8>) -> Outcome {
    let mut now = start(own);
    let (mut refusals, mut begun) = (Vec::new(), None);
    for Handed { block, last, again } in blocks {
        let before = costs.clone();
        let answer = start_block(now, block, *last, &mut costs);
        let refused = answer.refusal != 0;
        if refused {
            assert_eq!((answer.start, answer.length), (now, 0), "a refused block leaves the state");
            assert!(costs == before, "a refused block leaves the costs");
        }
        now = answer.start;
        let Start { n, sizes, .. } = now;
        let whole = !refused && *last != 0;
        begun = whole.then_some(Begun { n, sizes: sizes.places, length: answer.length });
        refusals.push(answer.refusal);
        if refused && !again {
            break;
        }
    }
    start_outcome(&refusals, begun, costs)
}

/// The step by value, and in place: the two must agree.
fn step_both_ways(unit: Unit, lent: Lent, packet: &[u8], mut out: Vec<u8>) -> Outcome {
    let mut in_place = unit;
    let mut again = out.clone();
    let sent = unit_step_in_place(&mut in_place, lent, packet, &mut again);
    let placed = UnitOutcome { refusal: sent.refusal, unit: in_place, sent: sent.sent, records: sent.records };
    let answer = unit_step(unit, lent, packet, &mut out);
    let by_value = unit_outcome(&answer, out);
    assert_eq!(by_value, unit_outcome(&placed, again), "the step in place is the step by value");
    by_value
}

/// The part of an accepted block that the library says holds its payload: its count says how long.
fn payload(block: &[u8]) -> Vec<u8> {
    let count = u16::from_le_bytes([block[2], block[3]]) as usize;
    block[4..4 + count].to_vec()
}

/// Sizes and places as include/riksamoe.h states them.
const _: () = {
    use std::mem::{offset_of, size_of};
    assert!(size_of::<Message>() == 60);
    assert!(offset_of!(Message, stamp) == 2 && offset_of!(Message, cost) == 36 && offset_of!(Message, best) == 44);
    assert!(size_of::<Unit>() == 140);
    assert!(offset_of!(Unit, estimates) == 36 && offset_of!(Unit, cost) == 132 && offset_of!(Unit, stopped) == 137);
    assert!(size_of::<UnitOutcome>() == 148 && size_of::<Report>() == 3);
    assert!(size_of::<Start>() == 32 && offset_of!(Start, count) == 4 && offset_of!(Start, left) == 28);
    assert!(size_of::<Started>() == 48 && offset_of!(Started, start) == 16);
    assert!(size_of::<Found>() == 24 && size_of::<Parsed>() == 64);
    assert!(size_of::<Range>() == 12 && offset_of!(Range, lower) == 4 && offset_of!(Range, upper) == 8);
    assert!(size_of::<Moved>() == 8 && offset_of!(Moved, floor) == 4);
    assert!(size_of::<Network>() == 2_280 && offset_of!(Core, records) == 2_240 && offset_of!(Network, used) == 2_272);
    assert!(size_of::<SlotsAnswer>() == 2_280 && offset_of!(SlotsAnswer, core) == 8);
};
