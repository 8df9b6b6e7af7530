//! How fast the Rattle library's calls are, beside a yardstick: the tuned run of `harness::tuned` for settle, deliver, echo and step, and for settle,
//! deliver and replay over the pool of slots, the second implementation for the others. One table, a row for each call and sample; those of the tuned run
//! in both orders of values.
//!
//! speed [--counts FOLDER] [WORD]   times; WORD: the rows alone whose name has it. FOLDER: callgrind's dumps of a run with --once
//! speed --once [WORD]              does the work of every row once, with a call of `riksamoe_mark` before and after, for callgrind to dump at
//!
//! Both are built for release and get the same inputs in the same buffers, which are not cleared between rounds. They work in turn,
//! a hundredth of a second of processor time or more each; each number is the median of 31 turns. scripts/speed runs it.

use harness::calls::Held;
use harness::linked;
use harness::random::Random;
use harness::reference::message::{self, Message};
use harness::reference::network::{self, Network};
use harness::reference::order::ValueOrder;
use harness::reference::projections::{self, Lent};
use harness::reference::table::{self, Form};
use harness::reference::unit::{self, Unit};
use harness::reference::{convert, costs, readings, retest, search, slots, tiny, Places, MAX_COST, MAX_TOTAL};
use harness::{generate, recorded, sample, tuned};
use std::cell::RefCell;
use std::hint::black_box;
use std::path::Path;

/// What is measured. Each gives how many deliveries, echoes, steps or calls it made.
trait Library {
    fn settle(&self, order: ValueOrder, stream: &[u8], pool: &mut [u8]) -> u64;
    /// Makes a network and delivers cell 0 at most this often.
    fn deliver(&self, order: ValueOrder, stream: &[u8], pool: &mut [u8], most: u64) -> u64;
    /// Makes a network and echoes these packets, until one is refused.
    fn echo(&self, order: ValueOrder, stream: &[u8], pool: &mut [u8], packets: &[Vec<u8>]) -> u64;
    /// The same as settle, over the pool of slots.
    fn slots_settle(&self, order: ValueOrder, stream: &[u8], pool: &mut [u8]) -> u64;
    /// Makes a network over the pool of slots and delivers these cells, until one is refused.
    fn slots_deliver(&self, order: ValueOrder, stream: &[u8], pool: &mut [u8], cells: &[u64]) -> u64;
    /// Makes a network over the pool of slots and replays a list of cells.
    fn slots_replay(&self, order: ValueOrder, stream: &[u8], pool: &mut [u8], list: &[u8]) -> u64;
    fn step(&self, steps: &[Step], out: &mut [u8]) -> u64;
    /// The same, beside the second implementation.
    fn plain_step(&self, steps: &[Step], out: &mut [u8]) -> u64;
    fn table_read(&self, file: &[u8], stream: &mut [u8]) -> u64;
    fn table_write(&self, stream: &[u8], file: &mut [u8]) -> u64;
    fn convert(&self, file: &[u8], wanted: Form, out: &mut [u8]) -> u64;
    fn readings_stream(&self, n: u8, sizes: &Places, readings: &[u8], stream: &mut [u8]) -> u64;
    fn tiny_stream(&self, units: u8, number: u32, stream: &mut [u8]) -> u64;
    fn message_parse(&self, n: u8, sizes: &Places, packets: &[[u8; 64]]) -> u64;
    fn message_write(&self, n: u8, sizes: &Places, messages: &[(u8, Message)], out: &mut [u8]) -> u64;
    fn search(&self, stream: &[u8]) -> u64;
    /// Of each a total, an old and a new cost.
    fn ends(&self, retests: &[[u32; 3]]) -> u64;
    /// Of a copy of these costs.
    fn project_all(&self, held: &Held) -> u64;
}

/// One step of a run.
struct Step {
    order: ValueOrder,
    unit: Unit,
    own: u8,
    n: u8,
    sizes: Places,
    costs: Vec<u8>,
    packet: Vec<u8>,
}

struct Yardstick;

impl Library for Yardstick {
    fn settle(&self, order: ValueOrder, stream: &[u8], pool: &mut [u8]) -> u64 {
        tuned::settle_by(order, stream, pool, u128::MAX).map_or(0, |network| network.deliveries as u64)
    }

    fn deliver(&self, order: ValueOrder, stream: &[u8], pool: &mut [u8], most: u64) -> u64 {
        let mut network = tuned::settle_by(order, stream, pool, 0).expect("an accepted table");
        let mut delivered = 0;
        while delivered < most && tuned::deliver_by(order, &mut network, stream, pool, 0).is_ok() {
            delivered += 1;
        }
        delivered
    }

    fn echo(&self, order: ValueOrder, stream: &[u8], pool: &mut [u8], packets: &[Vec<u8>]) -> u64 {
        let mut network = tuned::settle_by(order, stream, pool, 0).expect("an accepted table");
        let mut accepted = |packet: &&Vec<u8>| tuned::echo_by(order, &mut network, stream, pool, packet).is_ok();
        packets.iter().take_while(|packet| accepted(packet)).count() as u64
    }

    fn slots_settle(&self, order: ValueOrder, stream: &[u8], pool: &mut [u8]) -> u64 {
        tuned::slots::settle_by(order, stream, pool, u128::MAX).map_or(0, |shed| shed.deliveries as u64)
    }

    fn slots_deliver(&self, order: ValueOrder, stream: &[u8], pool: &mut [u8], cells: &[u64]) -> u64 {
        let mut shed = tuned::slots::settle_by(order, stream, pool, 0).expect("an accepted table");
        let mut accepted = |cell: &&u64| tuned::slots::deliver_by(order, &mut shed, stream, pool, **cell).is_ok();
        cells.iter().take_while(|cell| accepted(cell)).count() as u64
    }

    fn slots_replay(&self, order: ValueOrder, stream: &[u8], pool: &mut [u8], list: &[u8]) -> u64 {
        let mut shed = tuned::slots::settle_by(order, stream, pool, 0).expect("an accepted table");
        let _ = black_box(tuned::slots::replay_by(order, &mut shed, stream, pool, list));
        shed.deliveries as u64
    }

    fn step(&self, steps: &[Step], out: &mut [u8]) -> u64 {
        for s in steps {
            let mut unit = s.unit;
            let _ = black_box(tuned::step_by(s.order, &mut unit, s.own, s.n, &s.sizes, &s.costs, &s.packet, out));
        }
        steps.len() as u64
    }

    fn plain_step(&self, steps: &[Step], out: &mut [u8]) -> u64 {
        for s in steps {
            let _ = black_box(unit::step_by(s.order, &s.unit, s.own, s.n, &s.sizes, &s.costs, &s.packet, out));
        }
        steps.len() as u64
    }

    fn table_read(&self, file: &[u8], stream: &mut [u8]) -> u64 {
        u64::from(black_box(table::read(file, stream)).is_ok())
    }

    fn table_write(&self, stream: &[u8], file: &mut [u8]) -> u64 {
        u64::from(black_box(table::write(stream, file)).is_ok())
    }

    fn convert(&self, file: &[u8], wanted: Form, out: &mut [u8]) -> u64 {
        u64::from(black_box(convert::convert(file, wanted, out)).is_ok())
    }

    fn readings_stream(&self, n: u8, sizes: &Places, readings: &[u8], stream: &mut [u8]) -> u64 {
        u64::from(black_box(readings::write_stream(n, sizes, readings, stream)).is_ok())
    }

    fn tiny_stream(&self, units: u8, number: u32, stream: &mut [u8]) -> u64 {
        u64::from(black_box(tiny::write_stream(units, number, stream)).is_ok())
    }

    fn message_parse(&self, n: u8, sizes: &Places, packets: &[[u8; 64]]) -> u64 {
        packets.iter().map(|packet| u64::from(black_box(message::parse(n, sizes, packet)).is_ok())).sum()
    }

    fn message_write(&self, n: u8, sizes: &Places, messages: &[(u8, Message)], out: &mut [u8]) -> u64 {
        messages.iter().map(|(kind, m)| u64::from(black_box(message::write(n, sizes, *kind, m, out)).is_ok())).sum()
    }

    fn search(&self, stream: &[u8]) -> u64 {
        u64::from(black_box(search::exhaustive(stream)).is_ok())
    }

    fn ends(&self, retests: &[[u32; 3]]) -> u64 {
        retests.iter().map(|&[total, old, new]| u64::from(black_box(retest::ends(total, old, new)).is_ok())).sum()
    }

    fn project_all(&self, held: &Held) -> u64 {
        let Held { n, sizes, mut floor, mut costs } = held.clone();
        let moved = Lent { n, sizes, floor: &mut floor, costs: &mut costs }.project_all();
        black_box((floor, costs));
        u64::from(moved.is_ok())
    }
}

struct Rattle;

impl Library for Rattle {
    fn settle(&self, order: ValueOrder, stream: &[u8], pool: &mut [u8]) -> u64 {
        linked::network_settle(Some(order.number()), stream, pool).network.core.deliveries.low
    }

    fn deliver(&self, order: ValueOrder, stream: &[u8], pool: &mut [u8], most: u64) -> u64 {
        let named = Some(order.number());
        let mut network = linked::network_make(named, stream, pool).network;
        let mut delivered = 0;
        while delivered < most {
            let answer = linked::network_deliver(named, network, stream, pool, 0);
            if answer.refusal != 0 {
                break;
            }
            network = answer.network;
            delivered += 1;
        }
        delivered
    }

    fn echo(&self, order: ValueOrder, stream: &[u8], pool: &mut [u8], packets: &[Vec<u8>]) -> u64 {
        let named = Some(order.number());
        let mut network = linked::network_make(named, stream, pool).network;
        let mut accepted = |packet: &&Vec<u8>| {
            let answer = linked::network_echo(named, network, stream, pool, packet);
            network = answer.network;
            answer.refusal == 0
        };
        packets.iter().take_while(|packet| accepted(packet)).count() as u64
    }

    fn slots_settle(&self, order: ValueOrder, stream: &[u8], pool: &mut [u8]) -> u64 {
        linked::slots_settle(Some(order.number()), stream, pool).core.deliveries.low
    }

    fn slots_deliver(&self, order: ValueOrder, stream: &[u8], pool: &mut [u8], cells: &[u64]) -> u64 {
        let named = Some(order.number());
        let mut core = linked::slots_make(named, stream, pool).core;
        let mut accepted = |cell: &&u64| {
            let answer = linked::slots_deliver(named, core, stream, pool, **cell);
            core = answer.core;
            answer.refusal == 0
        };
        cells.iter().take_while(|cell| accepted(cell)).count() as u64
    }

    fn slots_replay(&self, order: ValueOrder, stream: &[u8], pool: &mut [u8], list: &[u8]) -> u64 {
        let named = Some(order.number());
        let core = linked::slots_make(named, stream, pool).core;
        linked::slots_replay(named, core, stream, pool, list).core.deliveries.low
    }

    fn step(&self, steps: &[Step], out: &mut [u8]) -> u64 {
        for s in steps {
            let mut unit = (&s.unit).into();
            let order = Some(s.order.number());
            let lent = linked::Lent { order, own: s.own, n: s.n, sizes: &s.sizes, costs: &s.costs };
            black_box(linked::unit_step_in_place(&mut unit, lent, &s.packet, out));
        }
        steps.len() as u64
    }

    fn plain_step(&self, steps: &[Step], out: &mut [u8]) -> u64 {
        self.step(steps, out)
    }

    fn table_read(&self, file: &[u8], stream: &mut [u8]) -> u64 {
        u64::from(linked::table_read(file, stream).refusal == 0)
    }

    fn table_write(&self, stream: &[u8], file: &mut [u8]) -> u64 {
        u64::from(linked::table_write(stream, file).refusal == 0)
    }

    fn convert(&self, file: &[u8], wanted: Form, out: &mut [u8]) -> u64 {
        let answer = match wanted {
            Form::Two => linked::to_form_two(file, out),
            Form::One => linked::to_form_one(file, out),
        };
        u64::from(answer.refusal == 0)
    }

    fn readings_stream(&self, n: u8, sizes: &Places, readings: &[u8], stream: &mut [u8]) -> u64 {
        u64::from(linked::readings_stream(n, sizes, readings, stream).refusal == 0)
    }

    fn tiny_stream(&self, units: u8, number: u32, stream: &mut [u8]) -> u64 {
        u64::from(linked::tiny_stream(units, number, stream).refusal == 0)
    }

    fn message_parse(&self, n: u8, sizes: &Places, packets: &[[u8; 64]]) -> u64 {
        packets.iter().map(|packet| u64::from(linked::message_parse(n, sizes, packet).refusal == 0)).sum()
    }

    fn message_write(&self, n: u8, sizes: &Places, messages: &[(u8, Message)], out: &mut [u8]) -> u64 {
        let write = |(kind, m): &(u8, Message)| linked::message_write(n, sizes, *kind, m.into(), out);
        messages.iter().map(write).map(|refusal| u64::from(refusal == 0)).sum()
    }

    fn search(&self, stream: &[u8]) -> u64 {
        u64::from(linked::search(stream).refusal == 0)
    }

    fn ends(&self, retests: &[[u32; 3]]) -> u64 {
        retests.iter().map(|&[total, old, new]| u64::from(black_box(linked::ends(total, old, new)).refusal == 0)).sum()
    }

    fn project_all(&self, held: &Held) -> u64 {
        let mut held = held.clone();
        u64::from(linked::project_all(&mut held).refusal == 0)
    }
}

// Rows

struct Row {
    name: String,
    /// What the yardstick is, and what is counted.
    beside: &'static str,
    counted: &'static str,
    /// The bytes that one call goes over, where that is what counts.
    bytes: usize,
    work: Box<dyn Fn(&dyn Library) -> u64>,
}

fn row(name: String, counted: &'static str, work: impl Fn(&dyn Library) -> u64 + 'static) -> Row {
    let beside = if counted == "call" { "second" } else { "tuned" };
    Row { name, beside, counted, bytes: 0, work: Box::new(work) }
}

impl Row {
    fn over(self, bytes: usize) -> Row {
        Row { bytes, ..self }
    }
}

/// The sample sheds, but those that stop when made: name, stream, and whether its run is short enough to be done whole.
fn sheds() -> Vec<(String, Vec<u8>, bool)> {
    let shed = |path: &std::path::PathBuf| {
        let stream = sample::read(&std::fs::read(path).unwrap()).expect("an accepted table");
        let name = path.file_stem().unwrap().to_string_lossy().into_owned();
        (name, stream, path.with_extension("listing").exists())
    };
    let runs = |stream: &[u8]| !steps(ValueOrder::Ascending, stream, 1).is_empty();
    sample::tables().iter().map(shed).filter(|(_, stream, _)| runs(stream)).collect()
}

/// The first steps of a run, cell 0 each time.
fn steps(order: ValueOrder, stream: &[u8], most: usize) -> Vec<Step> {
    let (n, sizes) = table::head(stream);
    let mut pool = vec![0; network::POOL];
    let mut shed: Network = network::make_by(order, stream, &mut pool).expect("an accepted table");
    let mut steps = Vec::new();
    while steps.len() < most && !shed.units[0].has_stopped() {
        let packet = pool[..64].to_vec();
        let own = packet[2];
        let costs = costs::of_unit(stream, own as usize);
        steps.push(Step { order, unit: shed.units[own as usize - 1], own, n, sizes, costs, packet });
        network::deliver_by(order, &mut shed, stream, &mut pool, 0).expect("a delivery of a run");
    }
    steps
}

/// The first cells that a run over the pool of slots delivers, the lowest in use each time.
fn cells(order: ValueOrder, stream: &[u8], most: usize) -> Vec<u64> {
    let mut pool = vec![0; slots::POOL];
    let mut shed = slots::make_by(order, stream, &mut pool).expect("an accepted table");
    let mut cells = Vec::new();
    while cells.len() < most && !shed.has_stopped() {
        let lowest = slots::waiting(table::head(stream).0, &pool)[0] as u64;
        slots::deliver_by(order, &mut shed, stream, &mut pool, lowest).expect("a delivery of a run");
        cells.push(lowest);
    }
    cells
}

/// Ascending, a call has its plain name.
fn name(call: &str, order: ValueOrder, sample: &str) -> String {
    match order {
        ValueOrder::Ascending => format!("{call} {sample}"),
        ValueOrder::CheapestFirst => format!("{call}-cheapest {sample}"),
    }
}

fn settle_row(order: ValueOrder, sample: &str, stream: Vec<u8>) -> Row {
    let pool = RefCell::new(vec![0; network::POOL]);
    let work = move |library: &dyn Library| library.settle(order, black_box(&stream), &mut pool.borrow_mut());
    row(name("settle", order, sample), "delivery", work)
}

fn deliver_row(order: ValueOrder, sample: &str, stream: Vec<u8>) -> Row {
    let pool = RefCell::new(vec![0; network::POOL]);
    let work = move |library: &dyn Library| library.deliver(order, black_box(&stream), &mut pool.borrow_mut(), 500);
    row(name("deliver", order, sample), "delivery", work)
}

/// The packets that the run of `deliver_row` delivers: the same steps, and nothing leaves the pool.
fn echo_row(order: ValueOrder, sample: &str, stream: Vec<u8>) -> Row {
    let packets: Vec<Vec<u8>> = steps(order, &stream, 500).into_iter().map(|step| step.packet).collect();
    let pool = RefCell::new(vec![0; network::POOL]);
    let work = move |library: &dyn Library| library.echo(order, black_box(&stream), &mut pool.borrow_mut(), &packets);
    row(name("echo", order, sample), "echo", work)
}

fn slots_settle_row(order: ValueOrder, sample: &str, stream: Vec<u8>) -> Row {
    let pool = RefCell::new(vec![0; slots::POOL]);
    let work = move |library: &dyn Library| library.slots_settle(order, black_box(&stream), &mut pool.borrow_mut());
    row(name("slots-settle", order, sample), "delivery", work)
}

fn slots_deliver_row(order: ValueOrder, sample: &str, stream: Vec<u8>) -> Row {
    let (cells, pool) = (cells(order, &stream, 500), RefCell::new(vec![0; slots::POOL]));
    let work =
        move |library: &dyn Library| library.slots_deliver(order, black_box(&stream), &mut pool.borrow_mut(), &cells);
    row(name("slots-deliver", order, sample), "delivery", work)
}

/// The cells of `slots_deliver_row`, recorded.
fn slots_replay_row(order: ValueOrder, sample: &str, stream: Vec<u8>) -> Row {
    let cells: Vec<u16> = cells(order, &stream, 500).into_iter().map(|cell| cell as u16).collect();
    let (list, pool) = (recorded::list(&cells), RefCell::new(vec![0; slots::POOL]));
    let work = move |library: &dyn Library| {
        library.slots_replay(order, black_box(&stream), &mut pool.borrow_mut(), black_box(&list))
    };
    row(name("slots-replay", order, sample), "delivery", work)
}

fn step_row(order: ValueOrder, sample: &str, stream: Vec<u8>) -> Row {
    let (steps, out) = (steps(order, &stream, 500), RefCell::new([0; unit::OUT]));
    let work = move |library: &dyn Library| library.step(black_box(&steps), &mut *out.borrow_mut());
    row(name("step", order, sample), "step", work)
}

/// Of each call the rows in ascending order, then those cheapest first.
fn run_rows() -> Vec<Row> {
    let mut rows = Vec::new();
    for make in [settle_row, slots_settle_row] {
        for order in ValueOrder::BOTH {
            let whole = sheds().into_iter().filter(|(_, _, whole)| *whole);
            rows.extend(whole.map(|(name, stream, _)| make(order, &name, stream)));
        }
    }
    for make in [deliver_row, echo_row, slots_deliver_row, slots_replay_row, step_row] {
        for order in ValueOrder::BOTH {
            rows.extend(sheds().into_iter().map(|(name, stream, _)| make(order, &name, stream)));
        }
    }
    rows
}

/// A random table of n units of d values, costs 0 to 60,000.
fn stream(n: usize, d: u8) -> Vec<u8> {
    let mut random = Random::new(n as u64);
    let sizes = vec![d; n];
    let count = costs::pairs_in_table(n, &[d; 16]);
    let costs: Vec<u16> = (0..count).map(|_| random.between(0, 60_000) as u16).collect();
    sample::stream(&sizes, &costs)
}

/// Reading, writing and converting the largest table of each form, unary costs zero.
fn table_rows() -> Vec<Row> {
    let one = stream(16, 16);
    let two = convert::in_form(&one, Form::Two);
    let lent = || RefCell::new(vec![0; table::MAX_FILE]);
    let mut rows = Vec::new();
    for stream in [&one, &two] {
        let (stream, file, out) = (stream.clone(), table::file_of(stream), lent());
        let blocks = file.len() / table::BLOCK;
        let bytes = file.len();
        let read = move |library: &dyn Library| library.table_read(black_box(&file), &mut out.borrow_mut());
        rows.push(row(format!("table read, {blocks} blocks"), "call", read).over(bytes));
        let out = lent();
        let write = move |library: &dyn Library| library.table_write(black_box(&stream), &mut out.borrow_mut());
        rows.push(row(format!("table write, {blocks} blocks"), "call", write).over(bytes));
    }
    for (stream, wanted, name) in [(&one, Form::Two, "convert, to form two"), (&two, Form::One, "convert, to form one")]
    {
        let (file, out) = (table::file_of(stream), lent());
        let bytes = file.len();
        let work = move |library: &dyn Library| library.convert(black_box(&file), wanted, &mut out.borrow_mut());
        rows.push(row(name.into(), "call", work).over(bytes));
    }
    rows
}

fn other_rows() -> Vec<Row> {
    let mut random = Random::new(3);
    let sizes = [4; 16];
    let messages: Vec<(u8, Message)> = (0..64).map(|_| generate::message(&mut random, 16, &sizes)).collect();
    let packets: Vec<[u8; 64]> = messages.iter().map(|(kind, m)| message::encode(*kind, m)).collect();
    let readings: Vec<u8> = (0..16).flat_map(|_| (random.between(160, 210) as u16).to_le_bytes()).collect();
    let retests: Vec<[u32; 3]> =
        (0..64).map(|_| [MAX_TOTAL, MAX_COST, MAX_COST].map(|most| random.below(u64::from(most) + 1) as u32)).collect();
    let mut held = Held { n: 16, sizes: [16; 16], floor: 0, costs: vec![0; projections::count(16, &[16; 16])] };
    projections::hold(&stream(16, 16), &mut held.costs).expect("an accepted table");
    let bytes = 4 * held.costs.len();
    let lent = || RefCell::new(vec![0; table::MAX_STREAM]);
    let (made, tiny, out) = (lent(), lent(), RefCell::new([0; 64]));
    let mut rows = vec![
        row("readings, 16 lines of 16".into(), "call", move |library| {
            library.readings_stream(16, &[16; 16], black_box(&readings), &mut made.borrow_mut())
        })
        .over(61_457),
        row("tiny, 3 units".into(), "call", move |library| {
            library.tiny_stream(3, black_box(2_730), &mut tiny.borrow_mut())
        })
        .over(28),
        row("message read, 16 units".into(), "call", move |library| {
            library.message_parse(16, &sizes, black_box(&packets))
        })
        .over(64),
        row("message write, 16 units".into(), "call", move |library| {
            library.message_write(16, &sizes, black_box(&messages), &mut *out.borrow_mut())
        })
        .over(64),
        row("ends, of a retest".into(), "call", move |library| library.ends(black_box(&retests))),
        row("project all, 16 units of 16".into(), "call", move |library| library.project_all(black_box(&held)))
            .over(bytes),
    ];
    for n in [4, 8, 16] {
        let (steps, out) = (steps(ValueOrder::Ascending, &stream(n, 4), 500), RefCell::new([0; unit::OUT]));
        let work = move |library: &dyn Library| library.plain_step(black_box(&steps), &mut *out.borrow_mut());
        rows.push(row(format!("plain step, {n} units of 4"), "call", work));
    }
    // the largest shapes that the limit of 1,048,576 assignments allows, and all that binary sheds have
    for (n, values) in [(10, 4), (5, 16), (16, 2)] {
        let stream = stream(n, values);
        let name = format!("search, {n} units of {values}");
        rows.push(row(name, "call", move |library| library.search(black_box(&stream))));
    }
    rows
}

// Measuring

extern "C" {
    /// The C library's: processor time of this process, in millionths of a second.
    fn clock() -> i64;
}

/// How many a second of processor time, in one slice of a hundredth of a second or more.
fn a_second(work: impl Fn() -> u64) -> f64 {
    let now = || unsafe { clock() };
    let (start, mut done) = (now(), 0);
    while now() - start < 10_000 {
        done += work();
    }
    done as f64 * 1e6 / (now() - start) as f64
}

fn median(mut numbers: Vec<f64>) -> f64 {
    numbers.sort_by(f64::total_cmp);
    numbers[numbers.len() / 2]
}

/// How many a second of processor time each of two does, and how many times slower the first is. They work in turn, a slice each, so that what
/// slows the machine down slows both; each number is the median of 31 turns.
fn in_turn(work: impl Fn(usize) -> u64) -> ([f64; 2], f64) {
    let turns: Vec<[f64; 2]> = (0..31).map(|_| [0, 1].map(|side| a_second(|| work(side)))).collect();
    let speed = [0, 1].map(|side| median(turns.iter().map(|turn| turn[side]).collect()));
    (speed, median(turns.iter().map(|turn| turn[1] / turn[0]).collect()))
}

/// Callgrind dumps here.
#[no_mangle]
#[inline(never)]
pub extern "C" fn riksamoe_mark() {
    black_box(());
}

/// The instructions between the marks of the k-th work, as callgrind dumped them.
fn instructions(folder: Option<&str>, k: usize) -> Option<u64> {
    let dump = std::fs::read_to_string(Path::new(folder?).join(format!("dump.{}", 2 * k + 2))).ok()?;
    dump.lines().find_map(|line| line.strip_prefix("totals: "))?.trim().parse().ok()
}

const LIBRARIES: [&dyn Library; 2] = [&Rattle, &Yardstick];

fn once(rows: &[Row]) {
    for row in rows {
        for library in LIBRARIES {
            riksamoe_mark();
            black_box((row.work)(library));
            riksamoe_mark();
        }
    }
}

const HEAD: &str = "\
Rattle library beside a yardstick: tuned, the harness's tuned run (settle and replay check once; the others check all that they are lent), or second,
its second implementation. A second: how many deliveries, echoes, steps or calls. Instructions: for each of them, by callgrind, - without it.
Values are tried in ascending order; cheapest first in the rows that say so.
";

fn main() {
    let mut words: Vec<String> = std::env::args().skip(1).collect();
    let counts = words.iter().position(|word| word == "--counts").map(|at| words.drain(at..at + 2).nth(1).unwrap());
    let only_once = words.iter().position(|word| word == "--once").map(|at| words.remove(at)).is_some();
    let mut rows = run_rows();
    rows.extend(table_rows());
    rows.extend(other_rows());
    rows.retain(|row| row.name.contains(words.first().map_or("", String::as_str)));
    if only_once {
        return once(&rows);
    }
    println!("{HEAD}");
    print!("{:<39} {:<9} {:<9}", "call and sample", "yardstick", "counted");
    print!(" {:>14} {:>14} {:>7}", "Rattle/second", "yardstick/sec", "slower");
    println!(" {:>14} {:>14} {:>7}", "Rattle instr.", "yardst. instr.", "more");
    let mut means: Vec<(String, Vec<f64>, Vec<f64>)> = Vec::new();
    for (k, row) in rows.iter().enumerate() {
        let (speed, slower) = in_turn(|side| black_box((row.work)(LIBRARIES[side])));
        let done = LIBRARIES.map(|library| (row.work)(library).max(1));
        let cost = [0, 1]
            .map(|side| instructions(counts.as_deref(), 2 * k + side).map(|number| number as f64 / done[side] as f64));
        print!("{:<39} {:<9} {:<9}", row.name, row.beside, row.counted);
        print!(" {:>14.0} {:>14.0} {slower:>7.2}", speed[0], speed[1]);
        let rate = match row.bytes {
            0 => String::new(),
            bytes => format!("   {:.0} and {:.0} MB/s", speed[0] * bytes as f64 / 1e6, speed[1] * bytes as f64 / 1e6),
        };
        let more = match cost {
            [Some(rattle), Some(yardstick)] => {
                println!(" {rattle:>14.0} {yardstick:>14.0} {:>7.1}{rate}", rattle / yardstick);
                Some(rattle / yardstick)
            }
            _ => {
                println!(" {:>14} {:>14} {:>7}{rate}", "-", "-", "-");
                None
            }
        };
        let call = row.name.split([' ', ',']).next().unwrap_or_default().to_string();
        if means.last().is_none_or(|(last, ..)| *last != call) {
            means.push((call, Vec::new(), Vec::new()));
        }
        let (_, times, numbers) = means.last_mut().expect("just put there");
        times.push(slower);
        numbers.extend(more);
    }
    for (call, times, numbers) in means {
        let mean = |of: &[f64]| (of.iter().map(|x| x.ln()).sum::<f64>() / of.len() as f64).exp();
        let more = if numbers.is_empty() { "-".to_string() } else { format!("{:.1}", mean(&numbers)) };
        let what = format!("{call}, mean of all");
        println!(
            "{what:<39} {:<9} {:<9} {:>14} {:>14} {:>7.1} {:>14} {:>14} {more:>7}",
            "",
            "",
            "",
            "",
            mean(&times),
            "",
            ""
        );
    }
}
