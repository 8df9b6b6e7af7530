//! Runs over the pool of slots keep what 02's job 4 says of them, by the second implementation and, with the feature `linked`, by the Rattle
//! library; and the check finds a run or an implementation that doesn't.

use harness::boxes::problem::Problem;
use harness::boxes::run::Schedule as Deliveries;
use harness::calls::{self, Input, Outcome};
use harness::generate;
use harness::last_packet::run::{run, Delivered, Run, Schedule};
use harness::last_packet::{check, most, try_tables};
use harness::random::Random;
use harness::reference::message::{self, SIZE};
use harness::reference::order::ValueOrder::{self, Ascending, CheapestFirst};
use harness::reference::slots;
use harness::reference::{table, NONE};
use harness::sample;
use harness::trials::{Library, REFERENCE};

fn try_both_orders(libraries: &[Library], tables: u64) {
    for order in ValueOrder::BOTH {
        let report = try_tables(libraries, order, tables, 1);
        println!("{order:?}: {report}");
        assert_eq!(report.fault, None, "{order:?}");
        let never: Vec<_> = report.never_reached().collect();
        assert!(never.is_empty(), "{order:?} never came to {never:?}");
    }
}

#[test]
fn runs_of_the_second_implementation() {
    try_both_orders(&[REFERENCE], 300);
}

#[cfg(feature = "linked")]
#[test]
fn runs_of_the_library() {
    try_both_orders(&[REFERENCE, Library { name: "the library", call: &harness::linked::linked }], 300);
}

/// T's limit is 10; as tests/slots.rs has it, a run can come to it.
#[test]
fn most_deliveries() {
    assert_eq!(most(&sample::t()), 10);
    assert_eq!(most(&sample::stream(&[3], &[])), 0);
    // n = 4: 11 times 2 + 6 + 6
    assert_eq!(most(&sample::stream(&[2, 3, 1, 5], &[0; 2 * 3 + 2 + 2 * 5 + 3 + 3 * 5 + 5])), 11 * 14);
}

/// Box 1 reports the same total, whatever the order of values and the cells: over either pool.
#[test]
fn two_sheds_of_a_table() {
    let mut random = Random::new(5);
    for _ in 0..200 {
        let stream = generate::searched(&mut random);
        let runs = ValueOrder::BOTH.map(|order| {
            let problem = Problem::new(order, &stream);
            run(&REFERENCE, &problem, Schedule::Aged(Deliveries::AnyOrder), random.word()).unwrap().shed.units[0].bound
        });
        assert_eq!(runs[0], runs[1]);
    }
}

// Runs that are wrong

/// Values 1, 2, then 2, 1 and 2, 2 have the least total.
fn tied() -> Vec<u8> {
    sample::stream(&[2, 2], &[65_535, 3, 3, 3])
}

/// A right run, changed: T's, its lowest cell each time, which overwrites a request and news.
fn fault_in(change: impl Fn(&mut Run)) -> String {
    fault_in_run(&sample::t(), change)
}

fn fault_in_run(stream: &[u8], change: impl Fn(&mut Run)) -> String {
    let problem = Problem::new(Ascending, stream);
    let mut run = run(&REFERENCE, &problem, Schedule::Lowest, 1).unwrap();
    assert_eq!(check(&problem, &run), Ok(()));
    change(&mut run);
    check(&problem, &run).expect_err("a fault")
}

/// The last delivery that is accepted, changed.
fn fault_in_delivery(change: impl Fn(&mut Delivered)) -> String {
    let accepted = |delivered: &&mut Delivered| delivered.refusal == 0;
    fault_in(|run| change(run.delivered.iter_mut().rev().find(accepted).expect("one that is accepted")))
}

#[test]
fn a_beginning_written_twice_is_found() {
    let twice = |run: &mut Run| {
        run.written.push(run.written[0]);
        run.shed.records += 1;
    };
    assert!(fault_in(twice).contains("is written twice"));
    assert!(fault_in(|run| run.shed.records += 1).contains("records are counted"));
}

#[test]
fn another_report_is_found() {
    let stream = tied();
    for tie in Problem::new(Ascending, &stream).ties {
        let fault = fault_in_run(&stream, |run| run.shed.units[0].best = tie);
        assert!(fault.contains(&format!("box 1 holds {tie:?}")));
    }
    assert!(fault_in(|run| run.shed.units[0].bound = NONE).contains("the least is 2"));
    assert!(fault_in(|run| run.shed.units[0].stopped = 0).contains("box 1 has not stopped"));
}

#[test]
fn wrong_refusals_are_found() {
    for refusal in [8, 9, 10, 11, 12, 14, 15] {
        let fault = fault_in_delivery(|delivered| delivered.refusal = refusal);
        assert!(fault.contains(&format!("is {refusal}, and not 0")), "{fault}");
    }
    assert!(fault_in_delivery(|delivered| delivered.stopped = true).contains("is 0, and not 12"));
    assert!(fault_in_delivery(|delivered| delivered.packet = None).contains("is 0, and not 15"));
    let changed = fault_in(|run| run.delivered.last_mut().expect("one after the stop").changed = true);
    assert!(changed.contains("it is refused by 12, and something changes"));
}

/// A state where nothing waits, and one where a message that waits is refused, when made and later.
#[test]
fn a_state_that_is_stuck_is_found() {
    assert!(fault_in(|run| run.made.waiting = 0).contains("when made, box 1 has not stopped, and nothing waits"));
    assert!(fault_in(|run| run.made.refused = Some((2, 14))).contains("cell 2, in use, is refused by 14"));
    assert!(fault_in(|run| run.delivered[0].after.waiting = 0).contains("delivery 1: box 1 has not stopped"));
    assert!(fault_in(|run| run.delivered[0].after.refused = Some((1, 11))).contains("cell 1, in use, is refused by 11"));
}

#[test]
fn other_counts_are_found() {
    assert!(fault_in(|run| run.shed.deliveries -= 1).contains("deliveries are counted"));
    assert!(fault_in(|run| run.made_sent += 1).contains("10 are sent, 4 handed over, 3 wait, 2 were overwritten"));
    assert!(fault_in_delivery(|delivered| delivered.sent = 0).contains("8 are sent"));
    assert!(fault_in(|run| run.pool[5 * SIZE..6 * SIZE].fill(0)).contains("2 wait"));
    // a delivery more than T allows, all of them accepted
    let more = |run: &mut Run| {
        let accepted = run.delivered.iter().find(|delivered| delivered.refusal == 0).unwrap().clone();
        run.delivered.extend(vec![accepted; 7]);
        run.shed.deliveries = 11;
    };
    assert!(fault_in(more).contains("11 deliveries are accepted, 10 are the most"));
}

/// The older one comes upon the newer, or something upon a packet of another slot.
#[test]
fn a_newer_packet_overwritten_is_found() {
    let turned = |run: &mut Run| {
        run.delivered.iter_mut().flat_map(|delivered| &mut delivered.overwritten).for_each(|two| *two = (two.1, two.0))
    };
    assert!(fault_in(turned).contains("which is not newer"));
    let other = |run: &mut Run| {
        let news: [u8; SIZE] = run.pool[4 * SIZE..5 * SIZE].try_into().unwrap();
        let overwritten = run.delivered.iter_mut().flat_map(|delivered| &mut delivered.overwritten);
        overwritten.filter(|two| two.0[0] == message::REQUEST).for_each(|two| two.1 = news);
    };
    assert!(fault_in(other).contains("the two are refused by 9"));
}

#[test]
fn other_bytes_are_found() {
    assert!(fault_in_delivery(|delivered| delivered.past_changed = true).contains("past the cells used"));
    assert!(fault_in_delivery(|delivered| delivered.others = true).contains("another packet than was sent"));
}

// Implementations that are wrong

fn fault_of(order: ValueOrder, call: &dyn Fn(Input) -> Outcome) -> String {
    try_tables(&[Library { name: "a wrong one", call }], order, 300, 1).fault.expect("a fault")
}

/// The reference with its pool changed after a delivery that it accepts: what is handed over is the units, the cell, the pool before, and after.
fn with_pool(change: impl Fn(u8, u64, &[u8], &mut [u8])) -> impl Fn(Input) -> Outcome {
    move |input: Input| {
        let lent = match &input {
            Input::DeliverSlots { stream, cell, pool, .. } => Some((table::head(stream).0, *cell, pool.clone())),
            _ => None,
        };
        let mut outcome = calls::reference(input);
        if let (0, Some((n, cell, pool))) = (outcome.refusal, lent) {
            change(n, cell, &pool, &mut outcome.lent);
        }
        outcome
    }
}

fn cells(n: u8, taken: u64) -> impl Iterator<Item = usize> {
    (0..slots::slots(n).len()).filter(move |cell| *cell as u64 != taken)
}

/// A cell in use keeps its packet, the older one: the fresh one is lost.
#[test]
fn keeping_the_older_one_is_found() {
    let keeps = with_pool(|n, taken, before, after| {
        for cell in cells(n, taken).filter(|cell| slots::waits(before, *cell)) {
            let bytes = SIZE * cell..SIZE * (cell + 1);
            after[bytes.clone()].copy_from_slice(&before[bytes]);
        }
    });
    for order in ValueOrder::BOTH {
        assert!(fault_of(order, &keeps).contains("another packet than was sent"));
    }
}

/// What is sent goes into the cell before its own, or its own where that is the first: it overwrites what it must not, or is refused there.
#[test]
fn the_wrong_cell_is_found() {
    let misplaces = with_pool(|n, taken, before, after| {
        for cell in cells(n, taken).filter(|cell| *cell > 0) {
            let bytes = SIZE * cell..SIZE * (cell + 1);
            if before[bytes.clone()] != after[bytes.clone()] {
                after.copy_within(bytes.clone(), SIZE * (cell - 1));
                after[bytes.clone()].copy_from_slice(&before[bytes]);
            }
        }
    });
    for order in ValueOrder::BOTH {
        let fault = fault_of(order, &misplaces);
        assert!(fault.contains("is refused by 9") || fault.contains("the two are refused by 9"), "{fault}");
    }
}

/// The packet stays in its cell when it is taken.
#[test]
fn a_packet_that_stays_is_found() {
    let stays = with_pool(|_, taken, before, after| {
        let bytes = SIZE * taken as usize..SIZE * (taken as usize + 1);
        after[bytes.clone()].copy_from_slice(&before[bytes]);
    });
    assert!(fault_of(CheapestFirst, &stays).contains("another packet than was sent"));
}

/// Zeros past the cells used.
#[test]
fn bytes_past_the_cells_used_are_found() {
    let clears = with_pool(|n, _, _, after| after[SIZE * slots::slots(n).len()..].fill(0));
    assert!(fault_of(Ascending, &clears).contains("past the cells used"));
}

/// Making that leaves the cells used as they were: what stands there is no message.
#[test]
fn cells_that_are_not_zeroed_are_found() {
    let leaves = |input: Input| {
        let lent = match &input {
            Input::MakeSlots { stream, pool, .. } => Some((table::head(stream).0, pool.clone())),
            _ => None,
        };
        let mut outcome = calls::reference(input);
        if let Some((n, pool)) = lent {
            let empty = cells(n, u64::MAX).filter(|cell| !slots::waits(&outcome.lent, *cell));
            for cell in empty.collect::<Vec<_>>() {
                let bytes = SIZE * cell..SIZE * (cell + 1);
                outcome.lent[bytes.clone()].copy_from_slice(&pool[bytes]);
            }
        }
        outcome
    };
    assert!(fault_of(Ascending, &leaves).contains("is refused by 8"));
}

/// Another one that is right but for a threshold place past n.
#[test]
fn two_runs_that_differ_are_found() {
    let call = |input: Input| {
        let mut outcome = calls::reference(input);
        outcome.units.iter_mut().for_each(|unit| unit.threshold[15] |= unit.stopped);
        outcome
    };
    let libraries = [REFERENCE, Library { name: "another", call: &call }];
    let fault = try_tables(&libraries, Ascending, 300, 1).fault.expect("a fault");
    assert!(fault.contains("differ after"), "{fault}");
}

/// Boxes that keep the older of two packets never get the newer one, and some wait for it for ever; two that may be compared are refused.
#[test]
fn boxes_that_keep_the_older_one_are_found() {
    let older = |input: Input| {
        let newer = matches!(input, Input::Newer { .. });
        let mut outcome = calls::reference(input);
        if newer && outcome.refusal == 0 {
            outcome.numbers[0] = 3 - outcome.numbers[0];
        }
        outcome
    };
    for order in ValueOrder::BOTH {
        let fault = fault_of(order, &older);
        assert!(
            fault.starts_with("held") && fault.contains("has not stopped, and nothing more is accepted"),
            "{fault}"
        );
    }
    let refused = |input: Input| match input {
        Input::Newer { .. } => Outcome { refusal: 9, numbers: vec![0], ..Outcome::default() },
        input => calls::reference(input),
    };
    assert!(fault_of(Ascending, &refused).contains("two packets of one slot are refused by 9"));
}

/// Settling that goes on in another order than the lowest cell first.
#[test]
fn another_run_settled_is_found() {
    let highest = |input: Input| {
        let Input::SettleSlots { order, stream, mut pool } = input else { return calls::reference(input) };
        let order = calls::order_of(order);
        let settled = slots::make_by(order, &stream, &mut pool).and_then(|mut shed| {
            while !shed.has_stopped() {
                let cell = slots::waiting(table::head(&stream).0, &pool).pop().unwrap_or(0);
                slots::deliver_by(order, &mut shed, &stream, &mut pool, cell as u64)?;
            }
            Ok(shed)
        });
        calls::made_shed_outcome(settled, pool)
    };
    assert!(fault_of(Ascending, &highest).contains("settled: it is not the run"));
}
