//! A shed of boxes in Rust: every box is one unit, all it knows of the others is the packets that reach it.
//!
//!     shed FILE      FILE: a stored table, as harness/vectors/t.table
//!
//! The radio is a queue here: what was sent first arrives first. The boxes are told to try their values ascending, so it prints what the
//! shed program prints: the least total, each unit's value, and how many records were written and packets accepted by the time box 1
//! stopped. scripts/examples builds and runs it.

use std::collections::VecDeque;
use std::process::exit;

mod riksamoe;
use riksamoe::*;

fn run(path: &str) -> Result<(), String> {
    let mut air: VecDeque<Packet> = VecDeque::new();
    let mut nodes = Vec::new();
    let (mut records, mut accepted) = (0, 0);
    let mut units = 1; // until box 1 tells
    while nodes.len() < usize::from(units) {
        let kept = Kept::load(nodes.len() as u8 + 1, path)?;
        units = kept.n;
        let (node, done) = Node::make(ASCENDING, kept).map_err(refused)?;
        nodes.push(node);
        records += u64::from(done.records);
        air.extend(done.sent);
    }
    let mut printed = false;
    loop {
        let first = nodes[0].unit;
        if first.stopped == 1 && !printed {
            match first.bound {
                u32::MAX => println!("total none"), // every assignment has a forbidden pair
                total => println!("total {total}"),
            }
            for (k, value) in first.best.iter().take(nodes.len()).enumerate() {
                println!("unit {} value {value}", k + 1);
            }
            println!("records {records} deliveries {accepted}");
            printed = true;
        }
        let Some(packet) = air.pop_front() else { break };
        match nodes[usize::from(packet[2]) - 1].receive(&packet) {
            Ok(done) => {
                records += u64::from(done.records);
                accepted += 1;
                air.extend(done.sent);
            }
            Err(12) => {} // a late packet to a box that has stopped
            Err(refusal) => return Err(refused(refusal)),
        }
    }
    // what box 1 sent last tells the others: in the end all have the same answer
    let first = nodes[0].unit;
    let same = |unit: &Unit| unit.stopped == 1 && unit.bound == first.bound && unit.best == first.best;
    match nodes.iter().find(|node| !same(&node.unit)) {
        Some(node) => Err(format!("another answer in box {}", node.kept.own)),
        None => Ok(()),
    }
}

fn main() {
    let Some(path) = std::env::args().nth(1) else {
        eprintln!("usage: shed FILE");
        exit(2);
    };
    if let Err(what) = run(&path) {
        eprintln!("{what}");
        exit(1);
    }
}
