//! Runs of the reference in any order of delivery, and in either order of values (02's job 9: "Demand 3 .. then hold for either order"), keep
//! what 01 demands of a run: the least total at the stop (over permitted assignments, *none* if there is none), no beginning written twice,
//! no more deliveries than allowed, a message waiting until the stop, and no refusal. Two sheds of one table report the same total, though
//! they differ in their order.

use harness::boxes::problem::beginnings;
use harness::random::Random;
use harness::reference::costs::{self, Cost};
use harness::reference::message;
use harness::reference::network::{self, Network};
use harness::reference::order::ValueOrder;
use harness::reference::{search, table, NONE};
use harness::{generate, sample};
use std::collections::HashSet;

/// 01: "N is d(1) + d(1) × d(2) + .. up to d(1) × .. × d(n-1)", times 3n - 1.
fn most_deliveries(stream: &[u8]) -> u128 {
    let n = u128::from(table::head(stream).0);
    (3 * n - 1) * beginnings(stream).iter().sum::<u128>()
}

fn cell(random: &mut Random, style: u64, count: u64) -> u64 {
    match style {
        0 => 0,
        1 => count - 1,
        2 => random.below(count),
        _ => *random.pick(&[0, count - 1, count / 2]),
    }
}

/// The beginnings that units below n hold out now; unit n never keeps one.
fn held_out(shed: &Network, n: usize) -> impl Iterator<Item = (usize, [u8; 16])> + '_ {
    (1..=n).map(|own| (own, shed.units[own - 1].values)).filter(|(own, values)| values[own - 1] != 0)
}

/// A run to its end; cells are picked in one of four styles.
fn run(random: &mut Random, order: ValueOrder, style: u64, stream: &[u8]) -> Network {
    let n = table::head(stream).0 as usize;
    let mut pool = vec![0; network::POOL];
    let mut shed = network::make_by(order, stream, &mut pool).unwrap();
    let mut written: HashSet<_> = held_out(&shed, n).collect();
    while !shed.units[0].has_stopped() {
        assert!(shed.count > 0, "a message waits until unit 1 has stopped");
        let before = shed.clone();
        let cell = cell(random, style, shed.count);
        let (_, packet) = message::fields(&pool[64 * cell as usize..][..64]);
        network::deliver_by(order, &mut shed, stream, &mut pool, cell).unwrap();
        if shed.records > before.records {
            // unit n tries each of its values once on a CPA, so its beginnings differ where the CPAs do
            if packet.receiver as usize == n {
                assert!(written.insert((n, packet.values)), "a CPA that unit n has extended before");
            }
            let old: HashSet<_> = held_out(&before, n).collect();
            for new in held_out(&shed, n).filter(|held| !old.contains(held)) {
                assert!(written.insert(new), "a beginning written twice");
            }
        }
    }
    assert!(shed.deliveries <= most_deliveries(stream));
    assert_eq!(network::deliver_by(order, &mut shed, stream, &mut pool, 0), Err(12));
    shed
}

#[test]
fn runs_in_any_order() {
    let mut random = Random::new(11);
    let (mut deliveries, mut none, mut differ) = ([0; 2], [0; 2], 0);
    for round in 0..1_000 {
        let n = random.between(1, 6);
        let sizes: Vec<u8> = (0..n).map(|_| random.between(1, 4) as u8).collect();
        let stream = generate::stream_of(&mut random, &sizes);
        let (least, _) = search::exhaustive(&stream).unwrap();
        let sheds = ValueOrder::BOTH.map(|order| run(&mut random, order, round % 4, &stream));
        for (k, shed) in sheds.iter().enumerate() {
            let first = &shed.units[0];
            assert_eq!(first.bound, least);
            if least == NONE {
                assert_eq!(first.best, [0; 16]);
                none[k] += u32::from(shed.deliveries > 0);
            } else {
                assert_eq!(costs::total(&stream, &first.best), Cost::Of(least));
            }
            deliveries[k] += shed.deliveries;
        }
        differ += u32::from(sheds[0].units[0].best != sheds[1].units[0].best);
    }
    assert!(deliveries.iter().all(|times| *times > 50_000), "{deliveries:?} deliveries are few");
    assert!(none.iter().all(|times| *times > 50), "{none:?} runs that search and find nothing permitted are few");
    assert!(differ > 10, "{differ} tables whose sheds report two assignments are few");
}

/// Case 9 calls its 10 deliveries "the most allowed".
#[test]
fn most_deliveries_of_t() {
    assert_eq!(most_deliveries(&sample::t()), 10);
}
