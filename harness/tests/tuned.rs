//! The yardstick of scripts/speed is the reference, call by call: what each gives and every byte that it leaves.

use harness::calls::Call;
use harness::differential::{compare, describe};
use harness::reference::order::ValueOrder;
use harness::reference::{network, slots};
use harness::{sample, tuned};
use std::fs;

#[test]
fn every_sample_run() {
    let mut compared = 0;
    for path in sample::tables().iter().filter(|path| path.with_extension("listing").exists()) {
        let stream = sample::read(&fs::read(path).unwrap()).unwrap();
        for order in ValueOrder::BOTH {
            let mut pool: Vec<u8> = (0..network::POOL + 70).map(|k| (k % 251) as u8).collect();
            let mut again = pool.clone();
            let expected = network::settle_by(order, &stream, &mut pool);
            let settled = tuned::settle_by(order, &stream, &mut again, u128::MAX);
            assert!(settled == expected, "{}, {order:?}", path.display());
            assert!(again == pool, "the pool of {}, {order:?}", path.display());
            let expected = slots::settle_by(order, &stream, &mut pool);
            let settled = tuned::slots::settle_by(order, &stream, &mut again, u128::MAX);
            assert!(settled == expected, "over slots, {}, {order:?}", path.display());
            assert!(again == pool, "the pool of slots of {}, {order:?}", path.display());
        }
        compared += 1;
    }
    assert_eq!(compared, 18);
}

/// Any input, refused or not.
#[test]
fn any_call() {
    for order in ValueOrder::BOTH {
        let (step, settle) = ((Call::Step(order), 40_000), (Call::Settle(order), 3_000));
        let (deliver, echo) = ((Call::Deliver(order), 8_000), (Call::Echo(order), 8_000));
        let replay = (Call::ReplaySlots(order), 4_000);
        let slots = [(Call::DeliverSlots(order), 8_000), replay, (Call::SettleSlots(order), 3_000)];
        for (call, rounds) in [step, deliver, echo, settle].into_iter().chain(slots) {
            let report = compare(call, rounds, 7, tuned::tuned);
            assert!(report.difference.is_none(), "{call:?}: {}", describe(&report.difference.unwrap()));
        }
    }
}
