//! 02's job 3 on the reference implementation: forbidden pairs in checks 7 and 9, in h and estimates, in a unit's range and step, and in
//! the reports.

use harness::lent::{places, Lent};
use harness::reference::costs::{self, Cost};
use harness::reference::message::{self, Message};
use harness::reference::order::ValueOrder::Ascending;
use harness::reference::unit::{self, Unit};
use harness::reference::{network, search, table, FORBIDDEN_PAIR, MAX_ESTIMATE, NONE};
use harness::sample;

const F: u16 = FORBIDDEN_PAIR;

/// The two programs' output on a stream's table.
fn printed(stream: &[u8]) -> [String; 2] {
    let file = table::file_of(stream);
    [sample::shed(&file), sample::bench(&file)]
}

/// A unit of a table of these sizes and pair costs. It tries its values in ascending order.
fn lent(own: u8, sizes: &[u8], pairs: &[u16]) -> Lent {
    Lent::new(Ascending, own, &sample::stream(sizes, pairs))
}

// Check 7

#[test]
fn only_one_number_above_the_limit_passes() {
    for (cost, refusal) in [(60_000, 0), (60_001, 7), (65_534, 7), (65_535, 0), (32_768, 0), (61_440, 7)] {
        let expected = if refusal == 0 { Ok(()) } else { Err(refusal) };
        let stream = sample::stream(&[1, 2], &[1, cost]);
        assert_eq!(table::check_stream(&stream), expected, "{cost}");
        assert_eq!(sample::read(&table::file_of(&stream)).err().unwrap_or(0), refusal, "{cost}");
        assert_eq!(table::write(&stream, &mut [0; 512]).err().unwrap_or(0), refusal, "{cost}");
        assert_eq!(costs::gather(&stream, 2, &mut [0; 8]).err().unwrap_or(0), refusal, "{cost}");
        for own in 1..=2 {
            assert_eq!(lent(own, &[1, 2], &[1, cost]).make().refusal, refusal, "{cost}");
        }
    }
}

/// 65,535 passes as a cost only, and in a stream of the right length.
#[test]
fn the_head_is_checked_as_before() {
    assert_eq!(table::check_stream(&[255, 255, 255, 255]), Err(5));
    assert_eq!(table::check_stream(&sample::stream(&[1, 255], &[F])), Err(5));
    assert_eq!(table::check_stream(&sample::stream(&[1, 2], &[F])), Err(6));
}

// Sums

#[test]
fn a_forbidden_part_makes_the_sum_forbidden() {
    let (three, four, none) = (Cost::Of(3), Cost::Of(4), Cost::Forbidden);
    assert_eq!(three + four, Cost::Of(7));
    assert_eq!([three + none, none + three, none + none], [none; 3]);
    assert_eq!([three, none, four].into_iter().sum::<Cost>(), none);
    assert_eq!(Cost::least([none, four, none, three].into_iter()), three);
    assert_eq!(Cost::least([none, none].into_iter()), none);
    assert_eq!(Cost::least([].into_iter()), none);
    assert_eq!([Cost::of_pair(60_000), Cost::of_pair(F)], [Cost::Of(60_000), none]);
}

/// Sizes 3, 2, 2. Unit 1's value 2 can't go with unit 3, its value 3 goes with one value of each.
const SOME: [u16; 16] = [5, 3, 1, 2, F, 9, 4, 6, F, F, 7, F, 2, F, F, 8];

#[test]
fn h_over_what_is_permitted() {
    let view = lent(1, &[3, 2, 2], &SOME);
    let view = view.view();
    assert_eq!([view.h(1), view.h(2), view.h(3)], [Cost::Of(7), Cost::Forbidden, Cost::Of(16)]);
    let view = lent(2, &[3, 2, 2], &SOME);
    let view = view.view();
    assert_eq!([view.h(1), view.h(2)], [Cost::Of(2), Cost::Of(8)]);
    // value 1 of unit 2 is forbidden with value 3 of unit 1
    assert_eq!([1, 2, 3].map(|v| view.estimate(&places(&[v]), 1)), [Cost::Of(7), Cost::Of(3), Cost::Of(17)]);
    let view = lent(3, &[3, 2, 2], &SOME);
    let view = view.view();
    assert_eq!([view.h(1), view.h(2)], [Cost::Of(0); 2]);
    assert_eq!([1, 2, 3].map(|v| view.estimate(&places(&[v]), 1)), [Cost::Of(4), Cost::Forbidden, Cost::Of(7)]);
    assert_eq!(view.estimate(&places(&[3, 2]), 2), Cost::Forbidden);
    assert_eq!(view.estimate(&places(&[1, 2]), 2), Cost::Of(14));
}

#[test]
fn the_least_over_permitted_assignments() {
    let stream = sample::stream(&[3, 2, 2], &SOME);
    // of 12 only 1, 1, 1 and 1, 2, 2 are left
    assert_eq!(costs::total(&stream, &[1, 1, 1]), Cost::Of(11));
    assert_eq!(costs::total(&stream, &[1, 2, 2]), Cost::Of(17));
    assert_eq!(costs::total(&stream, &[2, 1, 1]), Cost::Forbidden);
    assert_eq!(search::exhaustive(&stream), Ok((11, places(&[1, 1, 1]))));
    // T, its cheapest pair forbidden
    let t = sample::stream(&[2, 2], &[5, 3, F, 4]);
    assert_eq!(search::exhaustive(&t), Ok((3, places(&[1, 2]))));
    // dearer than a forbidden pair's number
    let dear = sample::stream(&[1, 1, 2], &[60_000, 60_000, F, 60_000, 0]);
    assert_eq!(search::exhaustive(&dear), Ok((180_000, places(&[1, 1, 1]))));
}

// Check 9

#[test]
fn an_estimate_of_none_is_read_and_written() {
    let sizes = places(&[2, 2]);
    let of = |cost: u32| Message { sender: 2, receiver: 1, stamp: places(&[1]), cost, ..Message::default() };
    for (cost, refusal) in [(MAX_ESTIMATE, 0), (MAX_ESTIMATE + 1, 9), (NONE - 1, 9), (NONE, 0)] {
        let packet = message::encode(message::ESTIMATE, &of(cost));
        let mut out = [0xaa; 64];
        assert_eq!(message::write(2, &sizes, message::ESTIMATE, &of(cost), &mut out).err().unwrap_or(0), refusal);
        if refusal == 0 {
            assert_eq!(message::parse(2, &sizes, &packet), Ok((message::ESTIMATE, of(cost))));
            assert_eq!(out, packet);
        } else {
            assert_eq!(message::parse(2, &sizes, &packet), Err(refusal));
            assert_eq!(out, [0xaa; 64]);
        }
    }
}

#[test]
fn no_other_kind_carries_it() {
    let sizes = places(&[2, 2, 2]);
    let (stamp, values) = (places(&[1]), places(&[2]));
    let cpa = Message { sender: 1, receiver: 2, stamp, values, cost: 0, bound: NONE, best: [0; 16] };
    assert!(message::parse(3, &sizes, &message::encode(message::CPA, &cpa)).is_ok());
    let told = Message { stamp: [0; 16], values: [0; 16], ..cpa };
    assert!(message::parse(3, &sizes, &message::encode(message::STOP, &told)).is_ok());
    let request = Message { bound: 0, ..cpa };
    assert!(message::parse(3, &sizes, &message::encode(message::REQUEST, &request)).is_ok());
    for (kind, m) in [(message::CPA, cpa), (message::STOP, told), (message::REQUEST, request)] {
        let packet = message::encode(kind, &Message { cost: NONE, ..m });
        assert_eq!(message::parse(3, &sizes, &packet), Err(9), "kind {kind}");
    }
    // nor an estimate in its bound
    let estimate = Message { sender: 2, receiver: 1, stamp, bound: NONE, ..Message::default() };
    assert_eq!(message::parse(3, &sizes, &message::encode(message::ESTIMATE, &estimate)), Err(9));
}

// Steps

/// Sizes 2, 2, 2, all pairs 1 but those of unit 1's value 1 with unit 3, which are forbidden but for one.
const ONE_LEFT: [u16; 12] = [1, 1, 1, 1, F, 1, 1, 1, 1, 1, 1, 1];

#[test]
fn an_estimate_of_none_makes_the_unit_assign() {
    let mut first = lent(1, &[2; 3], &ONE_LEFT);
    let made = first.make();
    assert_eq!((made.refusal, made.records, made.sent, made.unit.values[0], made.unit.bound), (0, 1, 3, 1, NONE));
    let estimate =
        |sender: u8, cost: u32| Message { sender, receiver: 1, stamp: made.unit.stamp, cost, ..Message::default() };
    // the largest number is kept while there is no bound
    let kept = first.step(&made.unit, message::ESTIMATE, &estimate(2, MAX_ESTIMATE));
    assert_eq!((kept.refusal, kept.records, kept.sent, kept.unit.estimates[1]), (0, 0, 0, MAX_ESTIMATE));
    // *none* is not, from whomever it comes
    for (unit, sender) in [(made.unit, 2), (made.unit, 3), (kept.unit, 2), (kept.unit, 3)] {
        let after = first.step(&unit, message::ESTIMATE, &estimate(sender, NONE));
        assert_eq!((after.refusal, after.records, after.sent), (0, 1, 3));
        assert_eq!((after.unit.values[0], after.unit.counter, after.unit.bound), (2, 2, NONE));
        assert_eq!(after.unit.estimates, [0; 16]);
        assert_eq!(first.sent(0).1.values[0], 2);
    }
    let second = first.step(&kept.unit, message::ESTIMATE, &estimate(3, NONE));
    // of value 1 it is stale now
    let stale = first.step(&second.unit, message::ESTIMATE, &estimate(2, NONE));
    assert_eq!((stale.refusal, stale.unit, stale.sent, stale.records), (0, second.unit, 0, 0));
    // of value 2 it leaves nothing to try: unit 1 stops, with no bound
    let last = Message { stamp: second.unit.stamp, ..estimate(2, NONE) };
    let stopped = first.step(&second.unit, message::ESTIMATE, &last);
    assert_eq!((stopped.refusal, stopped.records, stopped.sent), (0, 0, 2));
    assert_eq!((stopped.unit.stopped, stopped.unit.bound, stopped.unit.best), (1, NONE, [0; 16]));
    assert_eq!(first.sent(0), (message::STOP, Message { sender: 1, receiver: 2, bound: NONE, ..Message::default() }));
    // then 12; and 11 with no CPA out or one of another stamp
    assert_eq!(first.step(&stopped.unit, message::ESTIMATE, &last).refusal, 12);
    assert_eq!(first.step(&unit::fresh(), message::ESTIMATE, &last).refusal, 11);
    assert_eq!(first.step(&made.unit, message::ESTIMATE, &last).refusal, 11);
}

#[test]
fn a_request_with_no_value_left_is_answered_by_none() {
    let mut third = lent(3, &[3, 2, 2], &SOME);
    let made = third.make().unit;
    let request = |values: &[u8]| Message {
        sender: values.len() as u8,
        receiver: 3,
        stamp: places(&[1, 1][..values.len()]),
        values: places(values),
        ..Message::default()
    };
    for (values, cost) in [(&[1][..], 4), (&[2], NONE), (&[3], 7), (&[1, 1], 6), (&[1, 2], 14), (&[3, 2], NONE)] {
        let replied = third.step(&made, message::REQUEST, &request(values));
        assert_eq!((replied.refusal, replied.sent, replied.records), (0, 1, 0));
        let (kind, reply) = third.sent(0);
        assert_eq!((kind, reply.cost, reply.receiver), (message::ESTIMATE, cost, values.len() as u8), "{values:?}");
    }
    // without an h: unit 2 of a table whose units 2 and 3 can't meet
    let mut second = lent(2, &[1; 3], &[1, 1, F]);
    let made = second.make().unit;
    let request = Message { receiver: 2, ..request(&[1]) };
    second.step(&made, message::REQUEST, &request);
    assert_eq!(second.sent(0).1.cost, NONE);
}

#[test]
fn a_forbidden_value_is_not_written_even_with_no_bound() {
    // unit 2: values 1 and 3 forbidden with unit 1's value 2, value 2 without an h, value 4 free
    let (with_first, with_third) = ([0, 0, 0, 0, F, 0, F, 9], [0, 0, F, F, 0, 0, 5, F]);
    let mut second = lent(2, &[2, 4, 2], &[&with_first[..], &[0; 4], &with_third].concat());
    let made = second.make().unit;
    let cpa = Message {
        sender: 1,
        receiver: 2,
        stamp: places(&[2]),
        values: places(&[2]),
        bound: NONE,
        ..Message::default()
    };
    let wrote = second.step(&made, message::CPA, &cpa);
    assert_eq!((wrote.refusal, wrote.records, wrote.sent), (0, 1, 2));
    assert_eq!((wrote.unit.values[1], wrote.unit.counter, wrote.unit.cost), (4, 1, 9));
    // it comes back: nothing is left, and what goes back has its cost without the own value
    let back = Message {
        sender: 3,
        receiver: 2,
        bound: NONE,
        stamp: wrote.unit.stamp,
        values: wrote.unit.values,
        cost: 9,
        best: [0; 16],
    };
    let backed = second.step(&wrote.unit, message::CPA, &back);
    assert_eq!((backed.refusal, backed.records, backed.sent), (0, 0, 1));
    assert_eq!(second.sent(0), (message::CPA, Message { sender: 2, receiver: 1, ..cpa }));
}

#[test]
fn a_cpa_with_all_values_forbidden_goes_back() {
    for (own, sizes, costs) in [(2, vec![1, 2], vec![F, F]), (2, vec![1, 2, 1], vec![0, 0, 0, F, F])] {
        let mut unit = lent(own, &sizes, &costs);
        let made = unit.make().unit;
        let cpa = Message {
            sender: 1,
            receiver: 2,
            stamp: places(&[1]),
            values: places(&[1]),
            bound: NONE,
            ..Message::default()
        };
        let backed = unit.step(&made, message::CPA, &cpa);
        assert_eq!((backed.refusal, backed.records, backed.sent), (0, 0, 1));
        assert_eq!(unit.sent(0), (message::CPA, Message { sender: 2, receiver: 1, ..cpa }));
        assert_eq!((backed.unit.bound, backed.unit.values, backed.unit.threshold), (NONE, [0; 16], places(&[1, 1])));
    }
}

// The range of a state

#[test]
fn an_own_value_forbidden_with_a_filled_one_is_out_of_range() {
    let second = lent(2, &[2, 3, 1], &[0, F, 4, 0, 0, 0, 0, 0, F, 0, F]);
    let out = |first: u8, value: u8, cost: u32| Unit {
        values: places(&[first, value]),
        stamp: places(&[1, 1]),
        threshold: places(&[1, 1]),
        counter: 1,
        cost,
        ..unit::fresh()
    };
    assert_eq!(second.range(&out(1, 3, 4)), 0);
    assert_eq!(second.range(&out(1, 3, 3)), 5);
    for cost in [0, 4, 60_000, 65_535] {
        assert_eq!(second.range(&out(1, 2, cost)), 5);
    }
    // the same value with the other of unit 1's
    assert_eq!(second.range(&out(2, 2, 0)), 0);
    // value 1 has no h, which plays no part
    assert_eq!(second.view().h(1), Cost::Forbidden);
    assert_eq!(second.range(&out(1, 1, 0)), 0);
}

#[test]
fn a_kept_estimate_is_not_none() {
    let first = lent(1, &[2; 3], &ONE_LEFT);
    for (estimate, refusal) in [(MAX_ESTIMATE, 0), (MAX_ESTIMATE + 1, 5), (NONE - 1, 5), (NONE, 5)] {
        for place in 0..16 {
            let mut unit = unit::fresh();
            unit.estimates[place] = estimate;
            assert_eq!(first.range(&unit), refusal);
        }
    }
}

#[test]
fn a_delivery_to_a_network_with_such_a_state_is_refused() {
    let stream = sample::stream(&[2, 2], &[5, F, 2, 4]);
    let mut pool = vec![0; network::POOL];
    let mut shed = network::make_by(Ascending, &stream, &mut pool).unwrap();
    let mut forged = shed.clone();
    let out = Unit {
        values: places(&[1, 2]),
        stamp: places(&[1, 1]),
        threshold: places(&[1, 1]),
        counter: 1,
        ..unit::fresh()
    };
    forged.units[1] = out;
    let before = forged.clone();
    assert_eq!(network::deliver_by(Ascending, &mut forged, &stream, &mut pool, 0), Err(5));
    assert_eq!(forged, before);
    assert_eq!(network::deliver_by(Ascending, &mut shed, &stream, &mut pool, 0), Ok(()));
}

// Nothing permitted

#[test]
fn unit_1_stops_on_making() {
    // two units that can't meet; three, of which 1 and 3 can't
    for (sizes, costs) in [(vec![2, 2], vec![F; 4]), (vec![2, 1, 2], vec![0, 0, F, F, F, F, 0, 0])] {
        let n = sizes.len() as u8;
        let mut first = lent(1, &sizes, &costs);
        let made = first.make();
        assert_eq!((made.refusal, made.records, made.sent), (0, 0, n - 1));
        assert_eq!(made.unit, Unit { stopped: 1, threshold: places(&[1]), ..unit::fresh() });
        let stream = sample::stream(&sizes, &costs);
        let mut pool = vec![0xaa; network::POOL];
        let mut shed = network::make_by(Ascending, &stream, &mut pool).unwrap();
        assert_eq!((shed.units[0], shed.records, shed.deliveries), (made.unit, 0, 0));
        assert_eq!(shed.count, u64::from(n) - 1);
        for receiver in 2..=n {
            let stop = Message { sender: 1, receiver, bound: NONE, ..Message::default() };
            assert_eq!(first.sent(receiver as usize - 2), (message::STOP, stop));
            let cell = 64 * (receiver as usize - 2);
            assert_eq!(pool[cell..cell + 64], message::encode(message::STOP, &stop));
        }
        assert!(pool[64 * shed.count as usize..].iter().all(|byte| *byte == 0xaa));
        assert_eq!(network::deliver_by(Ascending, &mut shed, &stream, &mut pool, 0), Err(12));
        assert_eq!(network::settle_by(Ascending, &stream, &mut pool), Ok(shed));
        // a box that the stop reaches has stopped too
        let mut second = lent(2, &sizes, &costs);
        let other = second.make().unit;
        let (kind, stop) = first.sent(0);
        assert_eq!(second.step(&other, kind, &stop).unit, Unit { stopped: 1, ..other });
    }
}

/// Only one of unit 1's values has no h.
#[test]
fn unit_1_passes_a_value_over_on_making() {
    let made = lent(1, &[2, 2], &[F, F, 1, F]).make();
    assert_eq!((made.refusal, made.records, made.sent), (0, 1, 2));
    assert_eq!((made.unit.values[0], made.unit.counter), (2, 1));
}

#[test]
fn the_listing_says_none() {
    let counts = "records 0 deliveries 0\n";
    let none = "total none\nunit 1 value 0\nunit 2 value 0\n";
    let [shed, bench] = printed(&sample::stream(&[2, 2], &[F; 4]));
    assert_eq!((shed, bench), (format!("{none}{counts}"), none.to_string()));
    // every value of unit 1 has an h: no two units may be alike, and there are three units of two values
    let alike = [F, 0, 0, F];
    let [shed, bench] = printed(&sample::stream(&[2; 3], &[alike; 3].concat()));
    let none = format!("{none}unit 3 value 0\n");
    assert_eq!(bench, none);
    assert!(shed.starts_with(&none) && !shed.ends_with(counts), "{shed}");
    // one assignment is left
    let [shed, bench] = printed(&sample::stream(&[2, 2], &[F, F, F, 0]));
    assert_eq!(bench, "total 0\nunit 1 value 2\nunit 2 value 2\n");
    assert_eq!(shed, format!("{bench}records 2 deliveries 3\n"));
}

#[test]
fn the_bench_counts_forbidden_assignments() {
    let forbidden = |sizes: &[u8]| sample::stream(sizes, &vec![F; costs::pairs_in_table(sizes.len(), &places(sizes))]);
    assert_eq!(search::exhaustive(&forbidden(&[16; 5])), Ok((NONE, [0; 16])));
    assert_eq!(search::exhaustive(&forbidden(&[13, 13, 11, 8, 6, 12])), Err(16));
    assert_eq!(search::exhaustive(&forbidden(&[16; 16])), Err(16));
    assert_eq!(search::branch_and_bound(&forbidden(&[16; 16])), Ok((NONE, [0; 16])));
    assert_eq!(search::exhaustive(&forbidden(&[7])), Ok((0, places(&[1]))));
}
