//! Prints data for test programs out of a table's file, in hex, from the reference implementation.
//!
//! vectors stream TABLE            the stream, one line
//! vectors packets TABLE [LIMIT]   the packets of a run in the order delivered (cell 0 each time), one a line
//! vectors steps TABLE [LIMIT]     each step of that run: own number, unit before, packet, refusal, unit after, records, packets sent
//! vectors messages TABLE COUNT    messages good and bad, each after the number that reading it gives (0 accepted)
//!
//! Values are tried in ascending order, as in 01's listing.
//! A unit is 138 bytes, its fields in the order of 01's state: threshold (16 bytes), bound (4), best (16), estimates (16 × 4),
//! stamp (16), values (16), cost (4), counter (1), stopped (1); numbers little-endian.

use harness::generate;
use harness::random::Random;
use harness::reference::network::{self, Network};
use harness::reference::order::ValueOrder;
use harness::reference::unit::{self, Unit};
use harness::reference::{costs, message, table};
use harness::sample;
use std::process::exit;

fn hex(bytes: &[u8]) -> String {
    bytes.iter().map(|byte| format!("{byte:02x}")).collect()
}

fn unit_bytes(unit: &Unit) -> Vec<u8> {
    let mut bytes = unit.threshold.to_vec();
    bytes.extend(unit.bound.to_le_bytes());
    bytes.extend(unit.best);
    bytes.extend(unit.estimates.iter().flat_map(|estimate| estimate.to_le_bytes()));
    bytes.extend(unit.stamp);
    bytes.extend(unit.values);
    bytes.extend(unit.cost.to_le_bytes());
    bytes.push(unit.counter);
    bytes.push(unit.stopped);
    bytes
}

const ORDER: ValueOrder = ValueOrder::Ascending;

/// Calls `each` with the network and the packet before every delivery of the run.
fn run(stream: &[u8], limit: usize, mut each: impl FnMut(&Network, &[u8])) {
    let mut pool = vec![0; network::POOL];
    let mut shed = network::make_by(ORDER, stream, &mut pool).unwrap_or_else(refused);
    for _ in 0..limit {
        if shed.units[0].has_stopped() {
            return;
        }
        each(&shed, &pool[..64]);
        network::deliver_by(ORDER, &mut shed, stream, &mut pool, 0).unwrap_or_else(refused);
    }
}

fn print_step(stream: &[u8], shed: &Network, packet: &[u8]) {
    let (n, sizes) = table::head(stream);
    let own = packet[2];
    let before = &shed.units[own as usize - 1];
    let mut out = [0; unit::OUT];
    let costs = costs::of_unit(stream, own as usize);
    let answer = unit::step_by(ORDER, before, own, n, &sizes, &costs, packet, &mut out);
    println!("own {own}");
    println!("before {}", hex(&unit_bytes(before)));
    println!("packet {}", hex(packet));
    println!("refusal {}", answer.refusal);
    println!("after {}", hex(&unit_bytes(&answer.unit)));
    println!("records {}", answer.records);
    for sent in out.chunks(64).take(answer.sent as usize) {
        println!("sent {}", hex(sent));
    }
    println!();
}

/// The same ones every time.
fn print_messages(stream: &[u8], count: usize) {
    let (n, sizes) = table::head(stream);
    let mut random = Random::new(u64::from(n));
    for _ in 0..count {
        let packet = generate::packet(&mut random, n, &sizes);
        println!("{} {}", message::parse(n, &sizes, &packet).err().unwrap_or(0), hex(&packet));
    }
}

fn refused<T>(refusal: u8) -> T {
    eprintln!("refused {refusal}");
    exit(1)
}

fn usage<T>() -> T {
    eprintln!("vectors stream|packets|steps|messages TABLE [LIMIT]");
    exit(2)
}

fn main() {
    let arguments: Vec<String> = std::env::args().skip(1).collect();
    let [what, path, rest @ ..] = &arguments[..] else { usage() };
    let limit = rest.first().map_or(usize::MAX, |text| text.parse().unwrap_or_else(|_| usage()));
    let file = std::fs::read(path).unwrap_or_else(|error| {
        eprintln!("{path}: {error}");
        exit(2)
    });
    let stream = sample::read(&file).unwrap_or_else(refused);
    match what.as_str() {
        "stream" => println!("{}", hex(&stream)),
        "packets" => run(&stream, limit, |_, packet| println!("{}", hex(packet))),
        "steps" => run(&stream, limit, |shed, packet| print_step(&stream, shed, packet)),
        "messages" if !rest.is_empty() => print_messages(&stream, limit),
        _ => usage(),
    }
}
