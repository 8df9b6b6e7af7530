//! Every public call as one input and one outcome, so that two implementations can be compared on all that a caller sees.

use crate::reference::message::{self, Message};
use crate::reference::network::{self, Network};
use crate::reference::order::ValueOrder::{self, Ascending, CheapestFirst};
use crate::reference::projections::{self, Lent};
use crate::reference::slots::{self, Shed, Slot};
use crate::reference::start::{Begun, Start};
use crate::reference::table::Form;
use crate::reference::unit::{self, Unit};
use crate::reference::{checksum, convert, costs, readings, retest, search, table, tiny, Places, Refusal};

/// Those that try values do so in one order.
#[derive(Clone, Copy, PartialEq, Eq, Debug)]
pub enum Call {
    Sum,
    Block,
    Read,
    Write,
    ToFormTwo,
    ToFormOne,
    Readings,
    Tiny,
    Lent,
    Start,
    Parse,
    Encode,
    Make(ValueOrder),
    InRange(ValueOrder),
    Step(ValueOrder),
    MakeNetwork(ValueOrder),
    Deliver(ValueOrder),
    Echo(ValueOrder),
    Settle(ValueOrder),
    SlotOf,
    Newer,
    MakeSlots(ValueOrder),
    DeliverSlots(ValueOrder),
    ReplaySlots(ValueOrder),
    SettleSlots(ValueOrder),
    Search,
    BranchAndBound,
    Ends,
    Hold,
    Project,
    ProjectUnary,
    Extend,
    ProjectAll,
    LowerBound,
}

const MAKE: &[u8] = &[5, 10, 6, 7, 13];
const IN_RANGE: &[u8] = &[5, 10, 6, 7];
const STEP: &[u8] = &[13, 5, 10, 6, 7, 8, 9, 12, 11];
const MAKE_NETWORK: &[u8] = &[5, 6, 7, 13];
const DELIVER: &[u8] = &[13, 5, 6, 7, 12, 15, 8, 10, 9, 11, 14];
const ECHO: &[u8] = &[13, 5, 6, 7, 12, 8, 10, 9, 11, 14];
/// 02's job 4: "14 is shown never to occur here".
const DELIVER_SLOTS: &[u8] = &[13, 5, 6, 7, 12, 15, 8, 10, 9, 11];
/// 02's job 14: 22 "before any other check".
const REPLAY_SLOTS: &[u8] = &[22, 13, 5, 6, 7, 12, 15, 8, 10, 9, 11];

/// How many numbers a refusal can be, 0 for accepted among them.
pub const NUMBERS: usize = 23;

/// Each call, its name in the Rattle code with the order in which it tries values, and the refusals it can give.
pub const CALLS: [(Call, &str, &[u8]); 45] = [
    (Call::Sum, "checksum::sum", &[]),
    (Call::Block, "table::read_block", &[1, 4, 2, 3]),
    (Call::Read, "table::read", &[13, 1, 4, 2, 3, 5, 6, 7]),
    (Call::Write, "table::write", &[5, 6, 7, 13]),
    (Call::ToFormTwo, "table::convert to form two", &[1, 4, 2, 3, 5, 6, 7, 13]),
    (Call::ToFormOne, "table::convert to form one", &[1, 4, 2, 3, 5, 6, 7, 13, 18]),
    (Call::Readings, "readings::write_stream", &[5, 6, 17, 13]),
    (Call::Tiny, "tiny::write_stream", &[21, 13]),
    (Call::Lent, "table::units_of, costs::sizes_of and costs::gather", &[5, 10, 6, 7, 13]),
    (Call::Start, "start::begin and start::take_block", &[13, 1, 4, 2, 3, 5, 6, 7, 10]),
    (Call::Parse, "message::parse", &[5, 8, 10, 9]),
    (Call::Encode, "message::write", &[5, 10, 9, 13]),
    (Call::Make(Ascending), "unit::make, ascending", MAKE),
    (Call::Make(CheapestFirst), "unit::make, cheapest first", MAKE),
    (Call::InRange(Ascending), "unit::in_range, ascending", IN_RANGE),
    (Call::InRange(CheapestFirst), "unit::in_range, cheapest first", IN_RANGE),
    (Call::Step(Ascending), "unit::step, ascending", STEP),
    (Call::Step(CheapestFirst), "unit::step, cheapest first", STEP),
    (Call::MakeNetwork(Ascending), "network::make, ascending", MAKE_NETWORK),
    (Call::MakeNetwork(CheapestFirst), "network::make, cheapest first", MAKE_NETWORK),
    (Call::Deliver(Ascending), "network::deliver, ascending", DELIVER),
    (Call::Deliver(CheapestFirst), "network::deliver, cheapest first", DELIVER),
    (Call::Echo(Ascending), "network::echo, ascending", ECHO),
    (Call::Echo(CheapestFirst), "network::echo, cheapest first", ECHO),
    (Call::Settle(Ascending), "network::settle, ascending", MAKE_NETWORK),
    (Call::Settle(CheapestFirst), "network::settle, cheapest first", MAKE_NETWORK),
    (Call::SlotOf, "slots::slot_of", &[]),
    (Call::Newer, "slots::newer", &[5, 8, 10, 9]),
    (Call::MakeSlots(Ascending), "slots::make, ascending", MAKE_NETWORK),
    (Call::MakeSlots(CheapestFirst), "slots::make, cheapest first", MAKE_NETWORK),
    (Call::DeliverSlots(Ascending), "slots::deliver, ascending", DELIVER_SLOTS),
    (Call::DeliverSlots(CheapestFirst), "slots::deliver, cheapest first", DELIVER_SLOTS),
    (Call::ReplaySlots(Ascending), "slots::replay, ascending", REPLAY_SLOTS),
    (Call::ReplaySlots(CheapestFirst), "slots::replay, cheapest first", REPLAY_SLOTS),
    (Call::SettleSlots(Ascending), "slots::settle, ascending", MAKE_NETWORK),
    (Call::SettleSlots(CheapestFirst), "slots::settle, cheapest first", MAKE_NETWORK),
    (Call::Search, "search::exhaustive", &[5, 6, 7, 16]),
    (Call::BranchAndBound, "search::branch_and_bound", &[5, 6, 7]),
    (Call::Ends, "sensitivity::ends", &[20]),
    (Call::Hold, "projections::hold", &[5, 6, 7, 13]),
    (Call::Project, "projections::project", &[5, 6, 10, 19]),
    (Call::ProjectUnary, "projections::project_unary", &[5, 6, 10, 19]),
    (Call::Extend, "projections::extend", &[5, 6, 10, 19]),
    (Call::ProjectAll, "projections::project_all", &[5, 6, 19]),
    (Call::LowerBound, "projections::lower_bound", &[5, 6, 7, 13]),
];

/// The order that a call names by its number, as C does; `None` is the call that names nothing.
pub type Named = Option<u8>;

pub fn order_of(named: Named) -> ValueOrder {
    named.map_or_else(ValueOrder::default, ValueOrder::numbered)
}

/// What a unit of a shed hears: the packet at a cell, or the echo of one, whose bytes are lent again.
#[derive(Clone, PartialEq, Eq, Debug)]
pub enum Event {
    Cell(u64),
    Echo(Vec<u8>),
}

impl Event {
    /// The packet that is heard. A cell is one of the pool's.
    pub fn packet<'a>(&'a self, pool: &'a [u8]) -> &'a [u8] {
        match self {
            Event::Cell(cell) => &pool[message::SIZE * *cell as usize..][..message::SIZE],
            Event::Echo(packet) => packet,
        }
    }

    /// The cells that stay in use of so many. 02's job 2: of an echo "nothing leaves the pool".
    pub fn stay(&self, used: u64) -> u64 {
        match self {
            Event::Cell(_) => used.saturating_sub(1),
            Event::Echo(_) => used,
        }
    }
}

/// What every move of 02's job 8 is lent.
#[derive(Clone, Debug)]
pub struct Held {
    pub n: u8,
    pub sizes: Places,
    pub floor: u32,
    pub costs: Vec<u32>,
}

/// A block that a box is handed, any `last` but 0 for the table's last one. Where it is refused and comes again, the next is handed over all
/// the same.
#[derive(Clone, PartialEq, Eq, Debug)]
pub struct Handed {
    pub block: Vec<u8>,
    pub last: u8,
    pub again: bool,
}

/// What a call is lent; `Start` is a call for each block, up to one that is refused and doesn't come again; `Deliver` is a delivery or an
/// echo. The last buffer of each is the one that it may write.
#[derive(Clone, Debug)]
pub enum Input {
    Sum { bytes: Vec<u8> },
    Block { block: Vec<u8>, expected: u16, last: u8 },
    Read { file: Vec<u8>, stream: Vec<u8> },
    Write { stream: Vec<u8>, file: Vec<u8> },
    Convert { file: Vec<u8>, wanted: Form, out: Vec<u8> },
    Readings { n: u8, sizes: Places, readings: Vec<u8>, stream: Vec<u8> },
    Tiny { units: u8, number: u32, stream: Vec<u8> },
    Lent { stream: Vec<u8>, own: u8, out: Vec<u8> },
    Start { own: u8, blocks: Vec<Handed>, costs: Vec<u8> },
    Parse { n: u8, sizes: Places, packet: Vec<u8> },
    Encode { n: u8, sizes: Places, kind: u8, message: Message, out: Vec<u8> },
    Make { order: Named, own: u8, n: u8, sizes: Places, costs: Vec<u8>, out: Vec<u8> },
    InRange { order: Named, unit: Unit, own: u8, n: u8, sizes: Places, costs: Vec<u8> },
    Step { order: Named, unit: Unit, own: u8, n: u8, sizes: Places, costs: Vec<u8>, packet: Vec<u8>, out: Vec<u8> },
    MakeNetwork { order: Named, stream: Vec<u8>, pool: Vec<u8> },
    Deliver { order: Named, network: Box<Network>, stream: Vec<u8>, event: Event, pool: Vec<u8> },
    Settle { order: Named, stream: Vec<u8>, pool: Vec<u8> },
    SlotOf { n: u8, slot: Slot },
    Newer { n: u8, sizes: Places, first: Vec<u8>, second: Vec<u8> },
    MakeSlots { order: Named, stream: Vec<u8>, pool: Vec<u8> },
    DeliverSlots { order: Named, shed: Box<Shed>, stream: Vec<u8>, cell: u64, pool: Vec<u8> },
    ReplaySlots { order: Named, shed: Box<Shed>, stream: Vec<u8>, list: Vec<u8>, pool: Vec<u8> },
    SettleSlots { order: Named, stream: Vec<u8>, pool: Vec<u8> },
    Search { stream: Vec<u8> },
    BranchAndBound { stream: Vec<u8> },
    Ends { total: u32, old: u32, new: u32 },
    Hold { stream: Vec<u8>, costs: Vec<u32> },
    Project { held: Held, unit: u8, value: u8, other: u8 },
    ProjectUnary { held: Held, unit: u8 },
    Extend { held: Held, unit: u8, value: u8, other: u8, part: u32 },
    ProjectAll { held: Held },
    LowerBound { stream: Vec<u8>, costs: Vec<u32> },
}

impl Input {
    /// The order that a call which tries values names.
    pub fn named(&mut self) -> Option<&mut Named> {
        match self {
            Input::Make { order, .. }
            | Input::InRange { order, .. }
            | Input::Step { order, .. }
            | Input::MakeNetwork { order, .. }
            | Input::Deliver { order, .. }
            | Input::Settle { order, .. }
            | Input::MakeSlots { order, .. }
            | Input::DeliverSlots { order, .. }
            | Input::ReplaySlots { order, .. }
            | Input::SettleSlots { order, .. } => Some(order),
            _ => None,
        }
    }
}

/// All that a caller sees afterwards; what a call does not give is left as it is here by default.
#[derive(Clone, PartialEq, Eq, Debug, Default)]
pub struct Outcome {
    pub refusal: u8,
    /// Lengths, counts and totals, in the order in which the call gives them.
    pub numbers: Vec<u64>,
    pub message: Message,
    pub units: Vec<Unit>,
    /// The buffer that the call may write, afterwards; for a block the payload handed back.
    pub lent: Vec<u8>,
}

/// Each in its two words, the low one first.
fn words(counts: [u128; 2]) -> impl Iterator<Item = u64> {
    counts.into_iter().flat_map(|count| [count as u64, (count >> 64) as u64])
}

pub fn network_outcome(refusal: u8, network: &Network, lent: Vec<u8>) -> Outcome {
    let mut numbers = vec![network.count];
    numbers.extend(words([network.records, network.deliveries]));
    Outcome { refusal, numbers, units: network.units.to_vec(), lent, ..Outcome::default() }
}

pub fn shed_outcome(refusal: u8, shed: &Shed, lent: Vec<u8>) -> Outcome {
    let numbers = words([shed.records, shed.deliveries]).collect();
    Outcome { refusal, numbers, units: shed.units.to_vec(), lent, ..Outcome::default() }
}

/// The network of an outcome, to be lent again.
pub fn network_in(outcome: &Outcome) -> Network {
    let word = |at: usize| u128::from(outcome.numbers[at]);
    Network {
        units: std::array::from_fn(|k| outcome.units[k]),
        count: outcome.numbers[0],
        records: word(1) | word(2) << 64,
        deliveries: word(3) | word(4) << 64,
    }
}

/// The shed over the pool of 02's job 4 of an outcome, to be lent again.
pub fn shed_in(outcome: &Outcome) -> Shed {
    let word = |at: usize| u128::from(outcome.numbers[at]);
    Shed {
        units: std::array::from_fn(|k| outcome.units[k]),
        records: word(0) | word(1) << 64,
        deliveries: word(2) | word(3) << 64,
    }
}

/// Of a network that was made or settled; refused it is all zero.
pub fn made_outcome(made: Result<Network, u8>, lent: Vec<u8>) -> Outcome {
    match made {
        Ok(network) => network_outcome(0, &network, lent),
        Err(refusal) => network_outcome(refusal, &Network::default(), lent),
    }
}

/// The same of a shed over the pool of 02's job 4.
pub fn made_shed_outcome(made: Result<Shed, u8>, lent: Vec<u8>) -> Outcome {
    match made {
        Ok(shed) => shed_outcome(0, &shed, lent),
        Err(refusal) => shed_outcome(refusal, &Shed::default(), lent),
    }
}

pub fn unit_outcome(answer: &unit::Answer, lent: Vec<u8>) -> Outcome {
    let numbers = vec![u64::from(answer.sent), answer.records];
    Outcome { refusal: answer.refusal, numbers, units: vec![answer.unit], lent, ..Outcome::default() }
}

fn length_outcome(answer: Result<usize, u8>, lent: Vec<u8>) -> Outcome {
    let (refusal, length) = answer.map_or_else(|refusal| (refusal, 0), |length| (0, length));
    Outcome { refusal, numbers: vec![length as u64], lent, ..Outcome::default() }
}

/// The outcome of gathering, with n and the sizes of the stream.
pub fn lent_outcome(n: u8, sizes: &Places, mut gathered: Outcome) -> Outcome {
    gathered.numbers.push(n.into());
    gathered.numbers.extend(sizes.map(u64::from));
    gathered
}

/// Of a start: the refusal of each call, the last one's being the outcome's; and what the box has. Where it has nothing yet, what it lent for
/// its costs is not to be looked at.
pub fn start_outcome(refusals: &[u8], begun: Option<Begun>, costs: Vec<u8>) -> Outcome {
    let refusal = refusals.last().copied().unwrap_or(0);
    let numbers = refusals.iter().copied().map(u64::from).collect();
    let lent = if begun.is_some() { costs } else { Vec::new() };
    let Begun { n, sizes, length } = begun.unwrap_or(Begun { n: 0, sizes: [0; 16], length: 0 });
    let mut outcome = Outcome { refusal, numbers, lent, ..Outcome::default() };
    outcome.numbers.push(length as u64);
    lent_outcome(n, &sizes, outcome)
}

/// The blocks by the reference implementation.
fn start(own: u8, blocks: &[Handed], mut costs: Vec<u8>) -> Outcome {
    let mut start = Start::new(own);
    let (mut refusals, mut begun) = (Vec::new(), None);
    for Handed { block, last, again } in blocks {
        let answer = start.take(block, *last != 0, &mut costs);
        refusals.push(answer.err().unwrap_or(0));
        begun = answer.unwrap_or(None);
        if answer.is_err() && !again {
            break;
        }
    }
    start_outcome(&refusals, begun, costs)
}

/// A delivery or an echo by the reference implementation.
pub fn hear(order: ValueOrder, network: &mut Network, stream: &[u8], event: &Event, pool: &mut [u8]) -> Result<(), u8> {
    match event {
        Event::Cell(cell) => network::deliver_by(order, network, stream, pool, *cell),
        Event::Echo(packet) => network::echo_by(order, network, stream, pool, packet),
    }
}

/// The reference implementation's outcome.
pub fn reference(input: Input) -> Outcome {
    match input {
        Input::Sum { bytes } => Outcome { numbers: vec![checksum::sum(&bytes).into()], ..Outcome::default() },
        Input::Block { block, expected, last } => match table::read_block(&block, expected, last != 0) {
            Ok(payload) => Outcome { lent: payload.to_vec(), ..Outcome::default() },
            Err(refusal) => Outcome { refusal, ..Outcome::default() },
        },
        Input::Read { file, mut stream } => length_outcome(table::read(&file, &mut stream), stream),
        Input::Write { stream, mut file } => length_outcome(table::write(&stream, &mut file), file),
        Input::Convert { file, wanted, mut out } => length_outcome(convert::convert(&file, wanted, &mut out), out),
        Input::Readings { n, sizes, readings, mut stream } => {
            length_outcome(readings::write_stream(n, &sizes, &readings, &mut stream), stream)
        }
        Input::Tiny { units, number, mut stream } => {
            length_outcome(tiny::write_stream(units, number, &mut stream), stream)
        }
        Input::Lent { stream, own, mut out } => {
            let answer = costs::gather(&stream, own, &mut out);
            lent_outcome(costs::units_in(&stream), &costs::sizes_in(&stream), length_outcome(answer, out))
        }
        Input::Start { own, blocks, costs } => start(own, &blocks, costs),
        Input::Parse { n, sizes, packet } => match message::parse(n, &sizes, &packet) {
            Ok((kind, message)) => Outcome { numbers: vec![kind.into()], message, ..Outcome::default() },
            Err(refusal) => Outcome { refusal, numbers: vec![0], ..Outcome::default() },
        },
        Input::Encode { n, sizes, kind, message, mut out } => {
            let refusal = message::write(n, &sizes, kind, &message, &mut out).err().unwrap_or(0);
            Outcome { refusal, lent: out, ..Outcome::default() }
        }
        Input::Make { order, own, n, sizes, costs, mut out } => {
            unit_outcome(&unit::make_by(order_of(order), own, n, &sizes, &costs, &mut out), out)
        }
        Input::InRange { order, unit, own, n, sizes, costs } => {
            let refusal = unit::check_lent_by(order_of(order), &unit, own, n, &sizes, &costs).err().unwrap_or(0);
            Outcome { refusal, ..Outcome::default() }
        }
        Input::Step { order, unit, own, n, sizes, costs, packet, mut out } => {
            unit_outcome(&unit::step_by(order_of(order), &unit, own, n, &sizes, &costs, &packet, &mut out), out)
        }
        Input::MakeNetwork { order, stream, mut pool } => {
            made_outcome(network::make_by(order_of(order), &stream, &mut pool), pool)
        }
        Input::Deliver { order, mut network, stream, event, mut pool } => {
            let heard = hear(order_of(order), &mut network, &stream, &event, &mut pool);
            network_outcome(heard.err().unwrap_or(0), &network, pool)
        }
        Input::Settle { order, stream, mut pool } => {
            made_outcome(network::settle_by(order_of(order), &stream, &mut pool), pool)
        }
        Input::SlotOf { n, slot } => {
            let cell = slots::cell_of(n, slot).unwrap_or(slots::CELLS) as u64;
            Outcome { numbers: vec![cell], ..Outcome::default() }
        }
        Input::Newer { n, sizes, first, second } => match slots::newer(n, &sizes, &first, &second) {
            Ok(newer) => {
                Outcome { numbers: vec![if std::ptr::eq(newer, &first[..]) { 1 } else { 2 }], ..Outcome::default() }
            }
            Err(refusal) => Outcome { refusal, numbers: vec![0], ..Outcome::default() },
        },
        Input::MakeSlots { order, stream, mut pool } => {
            made_shed_outcome(slots::make_by(order_of(order), &stream, &mut pool), pool)
        }
        Input::DeliverSlots { order, mut shed, stream, cell, mut pool } => {
            let delivered = slots::deliver_by(order_of(order), &mut shed, &stream, &mut pool, cell);
            shed_outcome(delivered.err().unwrap_or(0), &shed, pool)
        }
        Input::ReplaySlots { order, mut shed, stream, list, mut pool } => {
            let replayed = slots::replay_by(order_of(order), &mut shed, &stream, &mut pool, &list);
            shed_outcome(replayed.err().unwrap_or(0), &shed, pool)
        }
        Input::SettleSlots { order, stream, mut pool } => {
            made_shed_outcome(slots::settle_by(order_of(order), &stream, &mut pool), pool)
        }
        Input::Search { stream } => found_outcome(search::exhaustive(&stream)),
        Input::BranchAndBound { stream } => found_outcome(search::branch_and_bound(&stream)),
        Input::Ends { total, old, new } => {
            let ends = retest::ends(total, old, new);
            let (lower, upper) = ends.unwrap_or((0, 0));
            let numbers = vec![lower.into(), upper.into()];
            Outcome { refusal: ends.err().unwrap_or(0), numbers, ..Outcome::default() }
        }
        Input::Hold { stream, mut costs } => length_outcome(projections::hold(&stream, &mut costs), bytes_of(&costs)),
        Input::Project { held, unit, value, other } => moved_outcome(held, |lent| lent.project(unit, value, other)),
        Input::ProjectUnary { held, unit } => moved_outcome(held, |lent| lent.project_unary(unit)),
        Input::Extend { held, unit, value, other, part } => {
            moved_outcome(held, |lent| lent.extend(unit, value, other, part))
        }
        Input::ProjectAll { held } => moved_outcome(held, |lent| lent.project_all()),
        Input::LowerBound { stream, mut costs } => {
            let (refusal, floor) = projections::lower_bound(&stream, &mut costs);
            floor_outcome(refusal, floor, &costs)
        }
    }
}

/// Numbers of 32 bits as their bytes, the low one first.
pub fn bytes_of(numbers: &[u32]) -> Vec<u8> {
    numbers.iter().flat_map(|number| number.to_le_bytes()).collect()
}

/// Of a move: the floor, and the costs, afterwards.
pub fn floor_outcome(refusal: u8, floor: u32, costs: &[u32]) -> Outcome {
    Outcome { refusal, numbers: vec![floor.into()], lent: bytes_of(costs), ..Outcome::default() }
}

fn moved_outcome(held: Held, make: impl FnOnce(&mut Lent) -> Result<(), Refusal>) -> Outcome {
    let Held { n, sizes, mut floor, mut costs } = held;
    let moved = make(&mut Lent { n, sizes, floor: &mut floor, costs: &mut costs });
    floor_outcome(moved.err().unwrap_or(0), floor, &costs)
}

fn found_outcome(found: Result<(u32, Places), Refusal>) -> Outcome {
    let refusal = found.err().unwrap_or(0);
    let (total, values) = found.unwrap_or((0, [0; 16]));
    Outcome { refusal, numbers: vec![total.into()], lent: values.to_vec(), ..Outcome::default() }
}
