//! Runs in which packets are heard again keep what 02's job 2 says of them, by the second implementation and, with the feature `linked`, by the
//! Rattle library; and the check finds a run that doesn't.

use harness::boxes::problem::Problem;
use harness::boxes::run::Schedule as Deliveries;
use harness::calls::{self, Event, Input, Outcome};
use harness::heard_twice::run::{run, Echoes, Heard, Run, Schedule};
use harness::heard_twice::{check, try_tables};
use harness::reference::message::{self, SIZE};
use harness::reference::network::CELLS;
use harness::reference::order::ValueOrder::{self, Ascending, CheapestFirst};
use harness::reference::unit::Unit;
use harness::reference::NONE;
use harness::sample;
use harness::trials::{Library, REFERENCE};

fn try_both_orders(libraries: &[Library], tables: u64) {
    for order in ValueOrder::BOTH {
        let report = try_tables(libraries, order, tables, 1);
        println!("{order:?}: {report}");
        assert_eq!(report.fault, None, "{order:?}");
        let never: Vec<_> = report.never_reached().collect();
        assert!(never.is_empty(), "{order:?} never came to {never:?}");
    }
}

#[test]
fn runs_of_the_second_implementation() {
    try_both_orders(&[REFERENCE], 300);
}

#[cfg(feature = "linked")]
#[test]
fn runs_of_the_library() {
    try_both_orders(&[REFERENCE, Library { name: "the library", call: &harness::linked::linked }], 300);
}

/// The run of tests/echo.rs that a full pool holds: box 1 knows the bound, and each estimate would have it go on. All that waits is refused by
/// 14, a packet that was never accepted among it.
#[test]
fn a_run_that_a_full_pool_holds() {
    let t = sample::t();
    let problem = Problem::new(Ascending, &t);
    let deliveries = Deliveries::First(message::SOLUTION);
    let schedule = Schedule { deliveries, echoes: Echoes::Answered, times: 1_000, first: 2, most: 1_100 };
    let mut runs = (0..20).map(|seed| run(&REFERENCE, &problem, schedule, seed).unwrap());
    let held = runs.find(|run| !run.has_stopped()).expect("a run that is held");
    assert_eq!(check(&problem, &held), Ok(()));
    assert_eq!(held.shed.count, CELLS as u64);
    let last = &held.heard[held.heard.len() - CELLS..];
    assert!(last.iter().all(|heard| heard.fresh && matches!(heard.refusal, 14 | 15)));
}

// Runs that are wrong

/// Values 1, 2, then 2, 1 and 2, 2 have the least total.
fn tied() -> Vec<u8> {
    sample::stream(&[2, 2], &[65_535, 3, 3, 3])
}

fn some_run(problem: &Problem) -> Run {
    let schedule = Schedule { deliveries: Deliveries::OldestFirst, echoes: Echoes::Any, times: 2, first: 0, most: 40 };
    run(&REFERENCE, problem, schedule, 1).unwrap()
}

/// A right run, changed.
fn fault_in(change: impl Fn(&mut Run)) -> String {
    let stream = tied();
    let problem = Problem::new(Ascending, &stream);
    let mut run = some_run(&problem);
    assert_eq!(check(&problem, &run), Ok(()));
    change(&mut run);
    check(&problem, &run).expect_err("a fault")
}

/// An echo that was accepted, changed.
fn fault_in_echo(change: impl Fn(&mut Heard)) -> String {
    fault_in(|run| {
        change(run.heard.iter_mut().find(|heard| heard.echo && heard.refusal == 0).expect("an echo that is accepted"))
    })
}

#[test]
fn a_beginning_written_twice_is_found() {
    let twice = |run: &mut Run| {
        run.written.push(run.written[0]);
        run.shed.records += 1;
    };
    assert!(fault_in(twice).contains("is written twice"));
    assert!(fault_in(|run| run.shed.records += 1).contains("records are counted"));
}

#[test]
fn another_report_is_found() {
    let stream = tied();
    for tie in Problem::new(Ascending, &stream).ties {
        assert!(fault_in(|run| run.shed.units[0].best = tie).contains(&format!("box 1 holds {tie:?}")));
    }
    assert!(fault_in(|run| run.shed.units[0].bound = NONE).contains("the least is 3"));
    assert!(fault_in(|run| run.shed.units[0].stopped = 0).contains("box 1 has not stopped"));
}

#[test]
fn wrong_refusals_are_found() {
    for refusal in [8, 9, 10, 11, 12, 14, 15] {
        let fault = fault_in_echo(|heard| heard.refusal = refusal);
        assert!(fault.contains(&format!("the refusal is {refusal}, and not 0")), "{fault}");
    }
    assert!(fault_in_echo(|heard| heard.stopped = true).contains("the refusal is 0, and not 12"));
    assert!(fault_in_echo(|heard| heard.fits = false).contains("the refusal is 0, and not 14"));
    let changed = fault_in(|run| run.heard.last_mut().expect("one after the stop").changed = true);
    assert!(changed.contains("it is refused by 12, and something changes"));
}

#[test]
fn a_run_where_nothing_new_waits_is_found() {
    assert!(fault_in_echo(|heard| heard.fresh = false).contains("nothing waits that was never accepted"));
    assert!(fault_in(|run| run.fresh = false).contains("when made"));
}

#[test]
fn another_count_is_found() {
    assert!(fault_in(|run| run.shed.deliveries -= 1).contains("deliveries are counted"));
}

// Implementations that are wrong

fn fault_of(order: ValueOrder, call: &dyn Fn(Input) -> Outcome) -> String {
    try_tables(&[Library { name: "a wrong one", call }], order, 300, 1).fault.expect("a fault")
}

/// What a delivery or an echo is about: the receiver's unit, and the packet. None where the cell is not in use.
fn heard(input: &mut Input) -> Option<(&mut Unit, [u8; SIZE])> {
    let Input::Deliver { network, event, pool, .. } = input else { return None };
    let packet: [u8; SIZE] = match event {
        Event::Cell(cell) if *cell >= network.count => return None,
        event => event.packet(pool).try_into().ok()?,
    };
    Some((&mut network.units[packet[2] as usize - 1], packet))
}

/// A box that compares a CPA with its threshold on the units before it alone: one that it has had is not stale when it comes again.
fn compares_on_earlier_units(mut input: Input) -> Outcome {
    let lent = input.clone();
    if let Some((unit, packet)) = heard(&mut input) {
        let (kind, m) = message::fields(&packet);
        let before = m.receiver as usize - 1;
        let down = kind == message::CPA && m.sender < m.receiver;
        if down && m.stamp[..before] == unit.threshold[..before] {
            // as if it had never had it
            let Unit { bound, best, stopped, .. } = *unit;
            *unit = Unit { threshold: m.stamp, bound, best, stopped, ..Unit::default() };
        }
    }
    let mut outcome = calls::reference(input);
    if let (1.., Input::Deliver { network, .. }) = (outcome.refusal, lent) {
        outcome.units = network.units.to_vec();
    }
    outcome
}

/// It writes what it has written, a record more each time, and its CPA comes back twice. No run without echoes tells.
#[test]
fn a_cpa_that_is_taken_twice_is_found() {
    let wrong = Library { name: "a wrong one", call: &compares_on_earlier_units };
    let stream = sample::stream(&[2, 2, 2], &[1, 1, 1, 0, 1, 0, 1, 1, 0, 1, 1, 1]);
    let problem = Problem::new(CheapestFirst, &stream);
    let deliveries = Deliveries::AnyOrder;
    let mut faults = Vec::new();
    for seed in 0..100 {
        let echoes = Schedule { deliveries, echoes: Echoes::Any, times: 2, first: 0, most: 100 };
        let nothing = Schedule { echoes: Echoes::Nothing, ..echoes };
        assert_eq!(check(&problem, &run(&wrong, &problem, nothing, seed).unwrap()), Ok(()));
        faults.extend(check(&problem, &run(&wrong, &problem, echoes, seed).unwrap()).err());
    }
    for found in ["the refusal is 11, and not 0", "records are counted"] {
        assert!(faults.iter().any(|fault| fault.contains(found)), "{faults:?}");
    }
    fault_of(Ascending, &compares_on_earlier_units);
    fault_of(CheapestFirst, &compares_on_earlier_units);
}

/// 01's shortcut: "Leaving the threshold's own place as it was on backing up refuses an old estimate by 11".
#[test]
fn a_threshold_left_as_it_was_is_found() {
    let call = |mut input: Input| {
        let before = heard(&mut input).map(|(unit, packet)| (*unit, packet[2] as usize));
        let mut outcome = calls::reference(input);
        if let (0, Some((before, own))) = (outcome.refusal, before) {
            let unit = &mut outcome.units[own - 1];
            if unit.values == [0; 16] && unit.threshold[own - 1] > 0 && unit.threshold != before.threshold {
                unit.threshold[own - 1] -= 1;
            }
        }
        outcome
    };
    assert!(fault_of(Ascending, &call).contains("the refusal is 11, and not 0"));
}

/// An echo takes the last cell away; or is not counted.
#[test]
fn an_echo_that_is_no_echo_is_found() {
    let echo = |input: &Input| matches!(input, Input::Deliver { event: Event::Echo(_), .. });
    let loses = |input: Input| {
        let echo = echo(&input);
        let mut outcome = calls::reference(input);
        if echo && outcome.refusal == 0 {
            outcome.numbers[0] = outcome.numbers[0].saturating_sub(1);
        }
        outcome
    };
    let fault = fault_of(CheapestFirst, &loses);
    assert!(fault.contains("nothing waits that was never accepted"), "{fault}");
    let not_counted = |input: Input| {
        let echo = echo(&input);
        let mut outcome = calls::reference(input);
        outcome.numbers[3] -= u64::from(echo && outcome.refusal == 0);
        outcome
    };
    let fault = fault_of(CheapestFirst, &not_counted);
    assert!(fault.contains("deliveries are counted"), "{fault}");
}

/// Another one that is right but for a threshold place past n.
#[test]
fn two_runs_that_differ_are_found() {
    let call = |input: Input| {
        let mut outcome = calls::reference(input);
        outcome.units.iter_mut().for_each(|unit| unit.threshold[15] |= unit.stopped);
        outcome
    };
    let libraries = [REFERENCE, Library { name: "another", call: &call }];
    let fault = try_tables(&libraries, Ascending, 300, 1).fault.expect("a fault");
    assert!(fault.contains("differ after"), "{fault}");
}
