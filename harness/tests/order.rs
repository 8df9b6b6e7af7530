//! 02's job 9 on the reference implementation: values by rising h, the lower number first on a tie, those without an h last; what comes after
//! the current one; the range check by place; the default; runs. Expected values are worked out by hand, as the comments say.

use harness::lent::{places, Lent};
use harness::random::Random;
use harness::reference::message::{self, Message};
use harness::reference::network::{self, Network};
use harness::reference::order::ValueOrder::{self, Ascending, CheapestFirst};
use harness::reference::unit::{self, Unit};
use harness::reference::{readings, search, table, FORBIDDEN_PAIR, NONE};
use harness::{generate, sample};

const F: u16 = FORBIDDEN_PAIR;

/// Unit 1's six values: their costs with unit 2's two, and with unit 3's two. The least of each row and their sum:
///
/// | value | with 2 | with 3 | h |
/// |---|---|---|---|
/// | 1 | 5 | 2 | 7 |
/// | 2 | none | 0 | none |
/// | 3 | 4 | 0 | 4 |
/// | 4 | 2 | 5 | 7 |
/// | 5 | 0 | none | none |
/// | 6 | 3 | 1 | 4 |
///
/// So by rising h 3, 6 (a tie), 1, 4 (a tie), and last 2, 5.
const SIZES: [u8; 3] = [6, 2, 2];
const WITH_2: [u16; 12] = [5, 9, F, F, 4, 6, 2, 8, 1, 0, 3, 3];
const WITH_3: [u16; 12] = [2, 3, 0, 0, F, 0, 5, 6, F, F, 1, 9];
/// The place of values 1 to 6 in that order.
const PLACES: [u8; 6] = [3, 5, 1, 4, 6, 2];

fn table() -> Vec<u8> {
    sample::stream(&SIZES, &[&WITH_2[..], &WITH_3, &[0; 4]].concat())
}

fn pool() -> Vec<u8> {
    vec![0; network::POOL]
}

/// The CPA that a unit has out comes back with no bound.
fn given_back(lent: &Lent, unit: &Unit) -> Message {
    Message {
        sender: lent.own + 1,
        receiver: lent.own,
        stamp: unit.stamp,
        values: unit.values,
        cost: unit.cost,
        bound: NONE,
        best: [0; 16],
    }
}

/// The values that a unit writes from this state on, each given back with no bound.
fn written(lent: &mut Lent, mut unit: Unit) -> Vec<u8> {
    let mut values = Vec::new();
    let own = lent.own as usize;
    while unit.values[own - 1] != 0 {
        values.push(unit.values[own - 1]);
        let back = given_back(lent, &unit);
        let answer = lent.step(&unit, message::CPA, &back);
        assert_eq!(answer.refusal, 0);
        unit = answer.unit;
    }
    values
}

/// Unit 1 with this value out, tried as the so-many-th.
fn out(value: u8, counter: u8) -> Unit {
    let stamp = places(&[counter]);
    Unit { values: places(&[value]), stamp, threshold: stamp, counter, ..unit::fresh() }
}

// The order

#[test]
fn by_rising_h() {
    let cheapest = Lent::new(CheapestFirst, 1, &table());
    let view = cheapest.view();
    assert_eq!(view.tried, [3, 6, 1, 4, 2, 5]);
    assert_eq!([1, 2, 3, 4, 5, 6].map(|v| view.place(v)), PLACES.map(usize::from));
    let ascending = Lent::new(Ascending, 1, &table());
    let view = ascending.view();
    assert_eq!(view.tried, [1, 2, 3, 4, 5, 6]);
    assert_eq!([1, 2, 3, 4, 5, 6].map(|v| view.place(v)), [1, 2, 3, 4, 5, 6]);
}

/// 2 and 5 can't be written in either order.
#[test]
fn values_are_written_in_that_order() {
    for (order, values) in [(CheapestFirst, [3, 6, 1, 4]), (Ascending, [1, 3, 4, 6])] {
        let mut first = Lent::new(order, 1, &table());
        let made = first.make();
        assert_eq!((made.refusal, made.records, made.sent), (0, 1, 3));
        assert_eq!((made.unit.values[0], made.unit.counter, made.unit.stamp[0]), (values[0], 1, 1));
        assert_eq!(first.sent(0).1.values[0], values[0]);
        assert_eq!(written(&mut first, made.unit), values);
    }
}

/// The lowest h of those left, the lowest number that has it; once no h is left, the lowest number.
#[test]
fn the_order_by_picking() {
    let mut random = Random::new(51);
    let (mut ties, mut without) = (0, 0);
    for _ in 0..400 {
        let n = random.between(1, 4);
        let sizes: Vec<u8> = (0..n).map(|_| random.between(1, 16) as u8).collect();
        let stream = generate::stream_of(&mut random, &sizes);
        for own in 1..=n as u8 {
            let unit = Lent::new(CheapestFirst, own, &stream);
            let h = h_by_hand(&stream, own as usize);
            let mut left: Vec<usize> = (1..=h.len()).collect();
            let mut picked = Vec::new();
            while !left.is_empty() {
                let lowest = left.iter().filter_map(|v| h[*v - 1]).min();
                let at = left.iter().position(|v| h[*v - 1] == lowest).unwrap();
                picked.push(left.remove(at));
            }
            assert_eq!(unit.view().tried, picked);
            let mut numbers: Vec<u32> = h.iter().copied().flatten().collect();
            numbers.sort();
            ties += u32::from(numbers.windows(2).any(|two| two[0] == two[1]));
            without += u32::from(h.contains(&None) && !numbers.is_empty());
        }
    }
    assert!(ties > 100 && without > 50, "{ties} units with ties, {without} with and without an h");
}

/// h of each value of a unit, read off the stream's pair costs.
fn h_by_hand(stream: &[u8], own: usize) -> Vec<Option<u32>> {
    let (n, sizes) = table::head(stream);
    let mut costs = table::pair_costs(stream).chunks(2).map(|cost| u16::from_le_bytes([cost[0], cost[1]]));
    let mut h = vec![Some(0); sizes[own - 1].into()];
    for i in 1..=n as usize {
        for j in i + 1..=n as usize {
            let mut least = || costs.by_ref().take(sizes[j - 1].into()).filter(|cost| *cost != F).min();
            let row: Vec<Option<u16>> = (0..sizes[i - 1]).map(|_| least()).collect();
            if i == own {
                h.iter_mut().zip(row).for_each(|(sum, least)| *sum = sum.and_then(|sum| Some(sum + u32::from(least?))));
            }
        }
    }
    h
}

/// h is of later units: the last unit's is 0, all a tie; what a value costs with earlier units and alone plays no part.
#[test]
fn only_h_counts() {
    // unit 2: h is 8 and 2; with unit 1 value 2 costs 100, alone 500, and value 1 nothing
    let stream = sample::stream_in_form_two(&[1, 2, 1], &[0, 0, 500, 0], &[0, 100, 0, 8, 2]);
    let mut second = Lent::new(CheapestFirst, 2, &stream);
    assert_eq!(second.view().tried, [2, 1]);
    let cpa = Message {
        sender: 1,
        receiver: 2,
        stamp: places(&[1]),
        values: places(&[1]),
        bound: NONE,
        ..Message::default()
    };
    let wrote = second.step(&unit::fresh(), message::CPA, &cpa);
    assert_eq!((wrote.refusal, wrote.unit.values[1], wrote.unit.cost), (0, 2, 600));
    assert_eq!(written(&mut second, wrote.unit), [2, 1]);
    // unit 2 of T with value 1: 5, then 3
    for order in ValueOrder::BOTH {
        let mut last = Lent::new(order, 2, &sample::t());
        let found = last.step(&unit::fresh(), message::CPA, &cpa);
        assert_eq!((found.refusal, found.records, found.unit.bound), (0, 2, 3));
        assert_eq!(found.unit.best, places(&[1, 2]));
    }
}

#[test]
fn numbers_for_orders() {
    assert_eq!(
        [0, 1, 2, 128, 255].map(ValueOrder::numbered),
        [Ascending, CheapestFirst, CheapestFirst, CheapestFirst, CheapestFirst]
    );
    assert_eq!(ValueOrder::BOTH.map(|order| ValueOrder::numbered(order.number())), ValueOrder::BOTH);
}

// After the current one

#[test]
fn the_next_value() {
    // after each of values 1 to 6, in order 3, 6, 1, 4, 2, 5: what is written next, 0 for none
    for (order, next) in [(CheapestFirst, [4, 0, 6, 0, 0, 1]), (Ascending, [3, 3, 4, 6, 6, 0])] {
        let mut first = Lent::new(order, 1, &table());
        for (value, next) in (1..=6).zip(next) {
            let unit = out(value, 1);
            let back = given_back(&first, &unit);
            let after = first.step(&unit, message::CPA, &back);
            assert_eq!(after.refusal, 0);
            assert_eq!(
                (after.unit.values[0], after.unit.stopped),
                (next, u8::from(next == 0)),
                "{order:?}, after {value}"
            );
            assert_eq!(after.unit.stamp[0], if next == 0 { 0 } else { 2 });
        }
    }
}

/// The bound passes values over in that order, and does not end it: 3 and 6 have an h of 4, 1 and 4 of 7, and 6 costs 5 alone.
#[test]
fn a_value_passed_over_for_its_cost() {
    let unary = [0, 0, 0, 0, 0, 5, 0, 0, 0, 0];
    let stream = sample::stream_in_form_two(&SIZES, &unary, &[&WITH_2[..], &WITH_3, &[0; 4]].concat());
    for (bound, next) in [(10, 6), (9, 1), (8, 1), (7, 0)] {
        let mut first = Lent::new(CheapestFirst, 1, &stream);
        let unit = Unit { bound, best: places(&[1, 1, 1]), ..out(3, 1) };
        let back = given_back(&first, &unit);
        let after = first.step(&unit, message::CPA, &back);
        assert_eq!((after.refusal, after.unit.values[0]), (0, next), "below {bound}");
    }
}

// The range check

#[test]
fn the_range_goes_by_place() {
    for (order, most) in [(CheapestFirst, PLACES), (Ascending, [1, 2, 3, 4, 5, 6])] {
        let mut first = Lent::new(order, 1, &table());
        for (value, most) in (1..=6).zip(most) {
            for counter in 0..=7 {
                let refusal = if (1..=most).contains(&counter) { 0 } else { 5 };
                let unit = out(value, counter);
                assert_eq!(first.range(&unit), refusal, "{order:?}, value {value} as number {counter}");
                let back = given_back(&first, &unit);
                assert_eq!(first.step(&unit, message::CPA, &back).refusal, refusal);
            }
        }
        // no value 7, whatever its counter
        assert_eq!(first.range(&out(7, 1)), 5);
    }
}

/// Value 1 as the third tried, value 3 as the second: each is in range in one order alone.
#[test]
fn a_network_checks_in_the_order_named() {
    let stream = table();
    for (unit, good) in [(out(1, 3), CheapestFirst), (out(3, 2), Ascending)] {
        let mut pool = pool();
        let mut shed = network::make_by(good, &stream, &mut pool).unwrap();
        shed.units[0] = unit;
        let before = (shed.clone(), pool.clone());
        assert_eq!(network::deliver_by(good.other(), &mut shed, &stream, &mut pool, 0), Err(5));
        assert!((&shed, &pool) == (&before.0, &before.1));
        assert_eq!(network::deliver_by(good, &mut shed, &stream, &mut pool, 0), Ok(()));
    }
}

// The default

/// Each call that names nothing does what it does cheapest first, which is not what it does ascending.
#[test]
fn whoever_names_nothing_gets_the_new_one() {
    let stream = table();
    let Lent { own, n, sizes, costs, .. } = Lent::new(Ascending, 1, &stream);
    let made = |order: Option<ValueOrder>| {
        let mut sent = vec![0; unit::OUT];
        let answer = match order {
            None => unit::make(own, n, &sizes, &costs, &mut sent),
            Some(order) => unit::make_by(order, own, n, &sizes, &costs, &mut sent),
        };
        (answer, sent)
    };
    let (unit, packet) =
        (out(3, 1), message::encode(message::CPA, &given_back(&Lent::new(Ascending, 1, &stream), &out(3, 1))));
    let stepped = |order: Option<ValueOrder>| {
        let mut sent = vec![0; unit::OUT];
        let answer = match order {
            None => unit::step(&unit, own, n, &sizes, &costs, &packet, &mut sent),
            Some(order) => unit::step_by(order, &unit, own, n, &sizes, &costs, &packet, &mut sent),
        };
        (answer, sent)
    };
    for call in [&made as &dyn Fn(Option<ValueOrder>) -> _, &stepped] {
        assert!(call(None) == call(Some(CheapestFirst)));
        assert!(call(None) != call(Some(Ascending)));
    }
    let forged = out(1, 3);
    assert_eq!(unit::check_lent(&forged, own, n, &sizes, &costs), Ok(()));
    assert_eq!(unit::check_lent_by(CheapestFirst, &forged, own, n, &sizes, &costs), Ok(()));
    assert_eq!(unit::check_lent_by(Ascending, &forged, own, n, &sizes, &costs), Err(5));
    assert_eq!(ValueOrder::default(), CheapestFirst);
}

#[test]
fn a_network_that_names_nothing() {
    let stream = table();
    let settled = |settle: &dyn Fn(&mut Vec<u8>) -> Network| {
        let mut pool = pool();
        (settle(&mut pool), pool)
    };
    let step_by_step = |pool: &mut Vec<u8>| {
        let mut shed = network::make(&stream, pool).unwrap();
        while !shed.units[0].has_stopped() {
            network::deliver(&mut shed, &stream, pool, 0).unwrap();
        }
        shed
    };
    let cheapest = settled(&|pool| network::settle_by(CheapestFirst, &stream, pool).unwrap());
    assert!(settled(&|pool| network::settle(&stream, pool).unwrap()) == cheapest);
    assert!(settled(&step_by_step) == cheapest);
    assert!(settled(&|pool| network::settle_by(Ascending, &stream, pool).unwrap()) != cheapest);
}

// Runs

/// T cheapest first: h of unit 1 is 3 and 2, so value 2 is written, and unit 2 finds 2 with its value 1. The copy is answered, the paper comes
/// back, and value 1 with its h of 3 is not below 2: stop, after 2 records and 3 deliveries.
#[test]
fn the_listing_of_t() {
    let file = table::file_of(&sample::t());
    assert_eq!(sample::shed(&file), "total 2\nunit 1 value 2\nunit 2 value 1\nrecords 5 deliveries 8\n");
    let cheapest = "total 2\nunit 1 value 2\nunit 2 value 1\nrecords 2 deliveries 3\n";
    assert_eq!(sample::shed_by(CheapestFirst, &file), cheapest);
}

/// The cell of the first waiting message of this kind.
fn cell_of(shed: &Network, pool: &[u8], kind: u8) -> u64 {
    (0..shed.count).find(|cell| pool[64 * *cell as usize] == kind).unwrap()
}

/// 01's cases 6 and 9 in the other order. Paper, news, copy, estimate: the estimate of 2 reaches the bound, and nothing is left to try. Newest
/// first: the copy, its estimate (with no bound yet), the paper, the news, the paper back.
#[test]
fn cases_6_and_9_cheapest_first() {
    let stream = sample::t();
    let mut pool = pool();
    let mut shed = network::make_by(CheapestFirst, &stream, &mut pool).unwrap();
    for kind in [message::CPA, message::SOLUTION, message::REQUEST, message::ESTIMATE] {
        assert!(!shed.units[0].has_stopped());
        let cell = cell_of(&shed, &pool, kind);
        network::deliver_by(CheapestFirst, &mut shed, &stream, &mut pool, cell).unwrap();
    }
    assert_eq!((shed.units[0].stopped, shed.units[0].bound, shed.records, shed.deliveries), (1, 2, 2, 4));
    let mut shed = network::make_by(CheapestFirst, &stream, &mut pool).unwrap();
    while !shed.units[0].has_stopped() {
        let newest = shed.count - 1;
        network::deliver_by(CheapestFirst, &mut shed, &stream, &mut pool, newest).unwrap();
    }
    assert_eq!((shed.units[0].bound, shed.records, shed.deliveries), (2, 2, 5));
}

/// Totals are 14, 6, 6, 9; unit 1's h is 6 and 1, unit 2's 5 and 0. Ascending, 1, 2, 1 is found first, and then nothing lower. Cheapest first:
/// unit 1 writes 2, unit 2 its 2 for 9, then its 1 for 6; unit 1's value 1 has an h of 6.
#[test]
fn the_same_total_of_two_assignments() {
    let stream = sample::stream(&[2, 2, 1], &[9, 6, 1, 9, 0, 0, 5, 0]);
    let report = |order: ValueOrder| {
        let shed = network::settle_by(order, &stream, &mut pool()).unwrap();
        (shed.units[0].bound, shed.units[0].best)
    };
    assert_eq!(report(Ascending), (6, places(&[1, 2, 1])));
    assert_eq!(report(CheapestFirst), (6, places(&[2, 1, 1])));
    assert_eq!(search::exhaustive(&stream), Ok((6, places(&[1, 2, 1]))));
}

/// Where every h of a unit is the same, as in tables made of readings with two lots or more, the orders are one: to the byte.
#[test]
fn all_ties() {
    let mut random = Random::new(53);
    for _ in 0..60 {
        let n = random.between(1, 5);
        let sizes: Vec<u8> = (0..n).map(|_| random.between(2, 3) as u8).collect();
        let lines: Vec<u8> = (0..n).flat_map(|_| (random.between(180, 200) as u16).to_le_bytes()).collect();
        let mut stream = vec![0; table::MAX_STREAM];
        let length = readings::write_stream(n as u8, &places(&sizes), &lines, &mut stream).unwrap();
        stream.truncate(length);
        let (mut one, mut two) = (pool(), pool());
        let settled = network::settle_by(Ascending, &stream, &mut one);
        assert_eq!(settled, network::settle_by(CheapestFirst, &stream, &mut two));
        assert!(one == two);
    }
}

/// With nothing permitted unit 1 stops when made, or once all that have an h are tried.
#[test]
fn nothing_permitted() {
    let alike = [F, 0, 0, F];
    for costs in [vec![F; 12], [alike; 3].concat()] {
        let stream = sample::stream(&[2; 3], &costs);
        let [one, two] = ValueOrder::BOTH.map(|order| network::settle_by(order, &stream, &mut pool()).unwrap());
        assert_eq!((one.units[0].bound, one.units[0].best), (NONE, [0; 16]));
        assert_eq!((two.units[0].bound, two.units[0].best), (NONE, [0; 16]));
    }
}
