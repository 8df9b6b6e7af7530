//! 02's job 13 on the reference implementation and, with the feature `linked`, on the Rattle library: each table comes once and in order, what is
//! refused, and the totals of shed and bench, which agree on all of them.

use harness::calls::{self, Input, Outcome};
use harness::reference::order::ValueOrder::{Ascending, CheapestFirst};
use harness::reference::{network, slots, table};
use harness::sample;
use std::collections::HashSet;

type Implementation = fn(Input) -> Outcome;

#[cfg(not(feature = "linked"))]
const IMPLEMENTATIONS: [Implementation; 1] = [calls::reference];

#[cfg(feature = "linked")]
const IMPLEMENTATIONS: [Implementation; 2] = [calls::reference, harness::linked::linked];

/// The table's stream, or the refusal; what stands behind the stream stays, and all where it is refused.
fn tiny(call: Implementation, units: u8, number: u32, room: usize) -> Result<Vec<u8>, u8> {
    let Outcome { refusal, numbers, mut lent, .. } = call(Input::Tiny { units, number, stream: vec![0xaa; room] });
    let length = numbers[0] as usize;
    assert!(lent[length..].iter().all(|byte| *byte == 0xaa));
    lent.truncate(length);
    if refusal == 0 {
        Ok(lent)
    } else {
        assert_eq!(length, 0);
        Err(refusal)
    }
}

/// All cost lists in their order, by counting: the last cost turns first.
fn counted(costs: usize) -> Vec<Vec<u16>> {
    let mut all = vec![vec![0; costs]];
    loop {
        let mut next = all[all.len() - 1].clone();
        let Some(turned) = next.iter().rposition(|cost| *cost == 0) else { return all };
        next[turned] = 1;
        next[turned + 1..].fill(0);
        all.push(next);
    }
}

/// 02: "Each legal table comes once", "16 and 4,096", "counting up from zero".
#[test]
fn each_comes_once_in_order() {
    for call in IMPLEMENTATIONS {
        for (units, costs, count) in [(2, 4, 16), (3, 12, 4_096)] {
            let all = counted(costs);
            assert_eq!(all.len(), count);
            let given: Vec<_> = (0..count as u32).map(|x| tiny(call, units, x, table::MAX_STREAM).unwrap()).collect();
            for (stream, costs) in given.iter().zip(&all) {
                assert_eq!(*stream, sample::stream(&vec![2; units as usize], costs));
                assert_eq!(table::check_stream(stream), Ok(()));
            }
            assert_eq!(given.iter().collect::<HashSet<_>>().len(), count);
            assert_eq!(tiny(call, units, count as u32, table::MAX_STREAM), Err(21));
        }
    }
}

/// By hand: 8 is 1000, and the top digit is the first cost, of values 1 and 1 of units 1 and 2; 1 is that of values 2 and 2 of the last two.
#[test]
fn the_first_cost_is_the_top_digit() {
    for call in IMPLEMENTATIONS {
        let two = |number| tiny(call, 2, number, table::MAX_STREAM).unwrap();
        assert_eq!(two(0), [2, 2, 2, 0, 0, 0, 0, 0, 0, 0, 0]);
        assert_eq!(two(8), [2, 2, 2, 1, 0, 0, 0, 0, 0, 0, 0]);
        assert_eq!(two(6), [2, 2, 2, 0, 0, 1, 0, 1, 0, 0, 0]);
        let three = tiny(call, 3, 1, table::MAX_STREAM).unwrap();
        assert_eq!((three.len(), &three[..4], three[26..].to_vec()), (28, &[3, 2, 2, 2][..], vec![1, 0]));
        assert!(three[4..26].iter().all(|byte| *byte == 0));
    }
}

/// 02: "A number past the last, or a unit count other than 2 or 3, is 21, before 13."
#[test]
fn refusals_in_order() {
    let short = table::MAX_STREAM - 1;
    for call in IMPLEMENTATIONS {
        for units in 0..=255 {
            let tables = match units {
                2 => 16,
                3 => 4_096,
                _ => 0,
            };
            for number in [tables, tables + 1, 65_536, u32::MAX] {
                for room in [0, 27, 28, short, table::MAX_STREAM] {
                    assert_eq!(tiny(call, units, number, room), Err(21), "{units} units, number {number}");
                }
            }
        }
        for (units, number) in [(2, 0), (2, 15), (3, 0), (3, 4_095)] {
            for room in [0, 28, short] {
                assert_eq!(tiny(call, units, number, room), Err(13));
            }
            assert!(tiny(call, units, number, table::MAX_STREAM).is_ok());
        }
    }
}

/// The totals that shed and bench give of a stream: in both orders over both pools, and by both searches.
fn totals(call: Implementation, stream: &[u8]) -> Vec<u32> {
    let mut totals = Vec::new();
    for order in [Ascending, CheapestFirst].map(|order| Some(order.number())) {
        let pool = vec![0; network::POOL];
        let settled = call(Input::Settle { order, stream: stream.to_vec(), pool });
        let pool = vec![0; slots::POOL];
        let over_slots = call(Input::SettleSlots { order, stream: stream.to_vec(), pool });
        for outcome in [settled, over_slots] {
            assert_eq!((outcome.refusal, outcome.units[0].stopped), (0, 1));
            totals.push(outcome.units[0].bound);
        }
    }
    let exhaustive = call(Input::Search { stream: stream.to_vec() });
    let bounded = call(Input::BranchAndBound { stream: stream.to_vec() });
    for outcome in [exhaustive, bounded] {
        assert_eq!(outcome.refusal, 0);
        totals.push(outcome.numbers[0] as u32);
    }
    totals
}

/// 02: "Each goes through shed, full search and branch and bound, and the three totals agree". Each total from 0 to the number of pairs comes, that
/// number only of the table of ones.
#[test]
fn all_totals_agree() {
    for call in IMPLEMENTATIONS {
        for (units, count) in [(2, 16), (3, 4_096)] {
            let pairs = u32::from(units) * (u32::from(units) - 1) / 2;
            let mut seen = vec![0; 4];
            for number in 0..count {
                let totals = totals(call, &tiny(call, units, number, table::MAX_STREAM).unwrap());
                assert!(totals.iter().all(|total| *total == totals[0]), "{units} units, number {number}: {totals:?}");
                seen[totals[0] as usize] += 1;
            }
            assert_eq!(seen.iter().sum::<u32>(), count);
            assert_eq!(seen[pairs as usize], 1);
            assert!((0..=pairs as usize).all(|total| seen[total] > 0));
        }
    }
}
