//! Every exported call of the Rattle library against the reference implementation, on the same generated inputs, and runs of boxes on the air, of
//! sheds that hear packets again and of sheds over the pool of slots.
//!
//! differential [ROUNDS] [SEED] [WORD]: rounds for each call (20,000 and 1 unless named; a fifth for the calls on a whole network),
//! of the calls alone whose name has the word, if there is one.
//! A call that tries values comes twice, in ascending order and cheapest first; the latter is named by numbers and not named at all.
//! Prints for each call how often it was accepted and how often each refusal came and each case of forbidden pairs, of unary costs, of the
//! order, of echoes, of the pool of slots, of branch and bound, of costs pushed forward, of a retest, of tiny tables, of replays or of a start from
//! blocks; ends with 1 at a difference or at one of these never reached.
//! Then `boxes`, in either order: a tenth as many tables, run on the air, in the shed and on the bench by both, as src/boxes.rs says. Prints how many
//! packets were accepted, how many refused by 12, and how often each case came; a run that isn't what it must be is a fault, too.
//! Then `heard twice`, likewise: a fiftieth as many tables, run in the shed with echoes among the deliveries, as src/heard_twice.rs says.
//! Then `last packet`, likewise: a fiftieth as many tables, run over the pool of slots, as src/last_packet.rs says.

use harness::boxes;
use harness::calls::{Call, CALLS};
use harness::differential;
use harness::heard_twice;
use harness::last_packet;
use harness::linked;
use harness::reference::order::ValueOrder;
use harness::trials::{Library, Report, REFERENCE};
use std::fmt::Debug;
use std::process::exit;

const ORDERS: [(ValueOrder, &str); 2] =
    [(ValueOrder::Ascending, "ascending"), (ValueOrder::CheapestFirst, "cheapest first")];

const LIBRARIES: [Library; 2] = [REFERENCE, Library { name: "the library", call: &linked::linked }];

/// Prints what runs on many tables came to: how many there were, and faults.
fn tell<C: Copy + Debug>(name: &str, report: &Report<C>) -> (u64, u64) {
    println!("{name}: {report}");
    if let Some(fault) = &report.fault {
        println!("  {fault}");
        return (report.runs, 1);
    }
    report.never_reached().for_each(|case| println!("  {case:?} was never reached"));
    (report.runs, report.never_reached().count() as u64)
}

/// Boxes on the air, sheds whose boxes hear packets again, and sheds over the pool of slots, in both orders, of those whose name has the word.
fn try_runs(rounds: u64, seed: u64, word: &str) -> (u64, u64) {
    let (mut runs, mut faults) = (0, 0);
    let mut add = |told: (u64, u64)| (runs, faults) = (runs + told.0, faults + told.1);
    for (order, name) in ORDERS {
        let name = format!("boxes, {name}");
        if name.contains(word) {
            add(tell(&name, &boxes::try_tables(&LIBRARIES, order, rounds.div_ceil(10), seed)));
        }
    }
    for (order, name) in ORDERS {
        let name = format!("heard twice, {name}");
        if name.contains(word) {
            add(tell(&name, &heard_twice::try_tables(&LIBRARIES, order, rounds.div_ceil(50), seed)));
        }
    }
    for (order, name) in ORDERS {
        let name = format!("last packet, {name}");
        if name.contains(word) {
            add(tell(&name, &last_packet::try_tables(&LIBRARIES, order, rounds.div_ceil(50), seed)));
        }
    }
    (runs, faults)
}

fn main() {
    let numbers: Vec<u64> = std::env::args().skip(1).filter_map(|text| text.parse().ok()).collect();
    let rounds = numbers.first().copied().unwrap_or(20_000);
    let seed = numbers.get(1).copied().unwrap_or(1);
    let word = std::env::args().nth(3).unwrap_or_default();
    println!(
        "seed {seed}, {rounds} inputs for each call, a fifth for deliver, echo, replay, settle, the two searches and all projections"
    );
    println!("a tenth as many tables for boxes, a fiftieth for packets heard twice and for the last packet");
    let mut compared = 0;
    let mut faults = 0;
    for (call, name, refusals) in CALLS.into_iter().filter(|(_, name, _)| name.contains(&word)) {
        let rounds = match call {
            Call::Deliver(_) | Call::Echo(_) | Call::Settle(_) => rounds.div_ceil(5),
            Call::Search | Call::BranchAndBound => rounds.div_ceil(5),
            Call::ProjectAll | Call::LowerBound => rounds.div_ceil(5),
            Call::DeliverSlots(_) | Call::ReplaySlots(_) | Call::SettleSlots(_) => rounds.div_ceil(5),
            _ => rounds,
        };
        let report = differential::compare(call, rounds, seed, linked::linked);
        println!("{name}: {}", differential::counted(&report, refusals));
        compared += report.counts.iter().sum::<u64>();
        if let Some(difference) = &report.difference {
            print!("  differs in {}", differential::describe(difference));
            faults += 1;
            continue;
        }
        for refusal in refusals.iter().filter(|refusal| report.counts[**refusal as usize] == 0) {
            println!("  refusal {refusal} was never reached");
            faults += 1;
        }
        for (case, _) in report.cases.iter().filter(|(_, times)| *times == 0) {
            println!("  {case} was never reached");
            faults += 1;
        }
    }
    let (runs, wrong) = try_runs(rounds, seed, &word);
    faults += wrong;
    println!("{compared} inputs compared, {runs} runs of boxes and of sheds, {faults} faults");
    exit(i32::from(faults > 0));
}
