//! Boxes on the air keep what is said of their runs, by the second implementation and, with the feature `linked`, by the Rattle library; and the
//! check finds a run that doesn't.

use harness::boxes::problem::{beginnings, most_on_air, Problem};
use harness::boxes::run::{run, Handed, Run, Schedule};
use harness::boxes::try_tables;
use harness::calls::{self, Input, Outcome};
use harness::generate;
use harness::random::Random;
use harness::reference::order::ValueOrder::{self, Ascending, CheapestFirst};
use harness::reference::{message, table, NONE};
use harness::sample;
use harness::trials::{Library, REFERENCE};

fn try_both_orders(libraries: &[Library], tables: u64) {
    for order in ValueOrder::BOTH {
        let report = try_tables(libraries, order, tables, 1);
        println!("{order:?}: {report}");
        assert_eq!(report.fault, None, "{order:?}");
        let never: Vec<_> = report.never_reached().collect();
        assert!(never.is_empty(), "{order:?} never came to {never:?}");
    }
}

#[test]
fn runs_of_the_second_implementation() {
    try_both_orders(&[REFERENCE], 1_000);
}

#[cfg(feature = "linked")]
#[test]
fn runs_of_the_library() {
    try_both_orders(&[REFERENCE, Library { name: "the library", call: &harness::linked::linked }], 1_000);
}

/// The limit itself: as 01's (3n - 1) × N or less, and a stop for each unit but the first. T's run in 01's case 9 has all that are allowed.
#[test]
fn most_packets() {
    let mut random = Random::new(1);
    for _ in 0..1_000 {
        let stream = generate::searched(&mut random);
        let n = u128::from(table::head(&stream).0);
        let (all, stops) = (beginnings(&stream).iter().sum::<u128>(), n - 1);
        assert!(most_on_air(&stream) <= (3 * n - 1) * all + stops);
    }
    let t = sample::t();
    let newest_first = run(&REFERENCE, &Problem::new(Ascending, &t), Schedule::NewestFirst, 1).unwrap();
    assert_eq!((newest_first.accepted(), most_on_air(&t)), (11, 11));
    // n = 4: 8, 6 and 7 packets for beginnings of 1, 2 and 3 units, 3 stops
    let four = sample::stream(&[2, 3, 1, 5], &[0; 2 * 3 + 2 + 2 * 5 + 3 + 3 * 5 + 5]);
    assert_eq!(most_on_air(&four), 8 * 2 + 6 * 6 + 7 * 6 + 3);
}

/// Two units of two values, all alike but for a forbidden pair: values 1, 2, then 2, 1 and 2, 2 have the least total.
fn tied() -> Vec<u8> {
    sample::stream(&[2, 2], &[65_535, 3, 3, 3])
}

/// Unit 1's values cost the same in all, the first more with unit 2: cheapest first tries the second before it.
fn tied_with_another_h() -> Vec<u8> {
    sample::stream_in_form_two(&[2, 1], &[0, 1, 0], &[1, 0])
}

#[test]
fn first_in_the_order_tried() {
    let stream = tied();
    let problem = Problem::new(Ascending, &stream);
    let starts = |places: &[u8; 16]| [places[0], places[1]];
    assert_eq!((problem.total, starts(&problem.best)), (3, [1, 2]));
    assert_eq!(problem.ties.iter().map(starts).collect::<Vec<_>>(), [[2, 1], [2, 2]]);
    let stream = tied_with_another_h();
    let best = |order| starts(&Problem::new(order, &stream).best);
    assert_eq!([best(Ascending), best(CheapestFirst)], [[1, 1], [2, 1]]);
    let barred = sample::stream(&[1, 1], &[65_535]);
    let problem = Problem::new(CheapestFirst, &barred);
    assert_eq!((problem.total, problem.best), (NONE, [0; 16]));
}

// Runs that are wrong

/// A right run of the tied table, changed. Box 1 has stopped before its estimates come.
fn fault_in(change: impl Fn(&mut Run)) -> String {
    let stream = tied();
    let problem = Problem::new(Ascending, &stream);
    let mut run = run(&REFERENCE, &problem, Schedule::Last(message::ESTIMATE), 1).unwrap();
    assert_eq!(problem.check(&run), Ok(()));
    change(&mut run);
    problem.check(&run).expect_err("a fault")
}

#[test]
fn another_least_assignment_is_found() {
    let stream = tied();
    for order in ValueOrder::BOTH {
        for tie in Problem::new(order, &stream).ties {
            for own in 1..=2 {
                let fault = fault_in(|run| run.boxes[own - 1].best = tie);
                assert!(fault.contains(&format!("box {own} holds {tie:?}")), "{fault}");
            }
        }
    }
}

#[test]
fn another_total_is_found() {
    let fault = fault_in(|run| run.boxes[1].bound = NONE);
    assert!(fault.contains("box 2 holds the total 4294967295, the least is 3"), "{fault}");
}

#[test]
fn a_beginning_written_twice_is_found() {
    let twice = |run: &mut Run| {
        run.written.push(run.written[0]);
        run.records += 1;
    };
    assert!(fault_in(twice).contains("is written twice"));
    assert!(fault_in(|run| run.records += 1).contains("records are counted"));
}

#[test]
fn a_packet_too_many_is_found() {
    let repeat = |run: &mut Run| run.handed.extend(vec![run.handed[0].clone(); 12]);
    assert!(fault_in(repeat).contains("11 are the most"));
}

#[test]
fn wrong_refusals_are_found() {
    let refused = |change: fn(&mut Handed)| {
        fault_in(|run| change(run.handed.iter_mut().find(|handed| handed.refusal == 12).expect("a refusal")))
    };
    assert!(refused(|handed| handed.stopped = false).contains("has not stopped, and refuses it by 12"));
    assert!(refused(|handed| handed.refusal = 11).contains("has stopped, and refuses it by 11"));
    assert!(refused(|handed| handed.refusal = 0).contains("has stopped, and accepts it"));
    assert!(refused(|handed| handed.changed = true).contains("something changes"));
}

// Implementations that are wrong

fn fault_of(order: ValueOrder, call: &dyn Fn(Input) -> Outcome) -> String {
    try_tables(&[Library { name: "a wrong one", call }], order, 300, 1).fault.expect("a fault")
}

/// Boxes that try their values in the order that isn't named.
#[test]
fn another_order_is_found() {
    let call = |mut input: Input| {
        if let Some(named) = input.named() {
            *named = Some(calls::order_of(*named).other().number());
        }
        calls::reference(input)
    };
    let wrong = Library { name: "a wrong one", call: &call };
    let stream = tied_with_another_h();
    for order in ValueOrder::BOTH {
        let problem = Problem::new(order, &stream);
        let fault = problem.check(&run(&wrong, &problem, Schedule::AnyOrder, 1).unwrap()).expect_err("a fault");
        assert!(fault.contains("box 1 holds"), "{fault}");
    }
}

/// Stops that don't read.
#[test]
fn a_stop_that_is_refused_is_found() {
    let call = |input: Input| {
        let mut outcome = calls::reference(input);
        for packet in outcome.lent.chunks_exact_mut(message::SIZE).filter(|packet| packet[0] == message::STOP) {
            packet[63] ^= 1;
        }
        outcome
    };
    let fault = fault_of(Ascending, &call);
    assert!(fault.contains("has not stopped, and refuses it by 8"), "{fault}");
}

/// Box 1 sends no stop: the others wait for ever.
#[test]
fn a_run_that_never_ends_is_found() {
    let call = |input: Input| {
        let makes_or_steps = matches!(input, Input::Make { .. } | Input::Step { .. });
        let mut outcome = calls::reference(input);
        if makes_or_steps && outcome.refusal == 0 && outcome.lent[0] == message::STOP {
            outcome.numbers[0] = 0;
        }
        outcome
    };
    let fault = fault_of(CheapestFirst, &call);
    assert!(fault.contains("has not stopped, and nothing more is accepted"), "{fault}");
}

/// A shed that is settled in the other order, boxes on the air that are not.
#[test]
fn a_shed_with_another_assignment_is_found() {
    let call = |mut input: Input| {
        if let Input::Settle { order, .. } = &mut input {
            *order = Some(calls::order_of(*order).other().number());
        }
        calls::reference(input)
    };
    let fault = fault_of(CheapestFirst, &call);
    assert!(fault.contains("settled: box 1 holds"), "{fault}");
}

/// Another one that is right but for a threshold place past n.
#[test]
fn two_runs_that_differ_are_found() {
    let call = |input: Input| {
        let mut outcome = calls::reference(input);
        outcome.units.iter_mut().for_each(|unit| unit.threshold[15] |= unit.stopped);
        outcome
    };
    let libraries = [REFERENCE, Library { name: "another", call: &call }];
    let fault = try_tables(&libraries, Ascending, 300, 1).fault.expect("a fault");
    assert!(fault.contains("differ after"), "{fault}");
}
