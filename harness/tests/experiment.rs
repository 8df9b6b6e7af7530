//! The experiment's shed with clocks is the reference's shed in either order: same least total, same counts.

use harness::maxcsp;
use harness::random::Random;
use harness::reference::network;
use harness::reference::order::ValueOrder;

#[test]
fn clocked_shed_is_the_shed() {
    let mut random = Random::new(5);
    for round in 0..40 {
        let (n, values) = [(1, 4), (2, 10), (4, 4), (6, 3)][round % 4];
        let problem = maxcsp::problem(&mut random, n, values, 0.7, 0.8);
        let (synchronous, whole) = maxcsp::branch_and_bound(&problem, u64::MAX - 1);
        assert!(whole);
        for order in ValueOrder::BOTH {
            let mut pool = vec![0; network::POOL];
            let shed = network::settle_by(order, &problem.stream, &mut pool).unwrap();
            let effort = maxcsp::forward_bounding(order, &problem);
            assert_eq!((effort.least, synchronous.least), (shed.units[0].bound, shed.units[0].bound));
            assert_eq!(u128::from(effort.messages), shed.deliveries + u128::from(shed.count));
            assert_eq!((u128::from(effort.deliveries), u128::from(effort.records)), (shed.deliveries, shed.records));
        }
    }
}
