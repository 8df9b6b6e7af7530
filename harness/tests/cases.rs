//! Document 01's cases 1 to 10 and the listing of T, on the reference implementation. 02's job 9: the listing and cases 6 and 9 "name the
//! plain ascending order and get it"; the others hold in either order.

use harness::reference::costs::{self, Cost, View};
use harness::reference::message::{self, Message};
use harness::reference::order::ValueOrder::{self, Ascending};
use harness::reference::{checksum, network, search, table, unit};
use harness::sample;

fn view_of_t(costs: &[u8], own: usize) -> View<'_> {
    let mut sizes = [0; 16];
    sizes[0] = 2;
    sizes[1] = 2;
    View::new(own, 2, &sizes, costs)
}

fn pool() -> Vec<u8> {
    vec![0; network::POOL]
}

#[test]
fn case_1_stream_and_check_of_t() {
    let stream = sample::t();
    assert_eq!(stream.len(), 11);
    let mut file = [0; 512];
    assert_eq!(table::write(&stream, &mut file), Ok(512));
    assert_eq!(u16::from_le_bytes([file[510], file[511]]), 219);
    assert_eq!(checksum::sum(&file[..510]), 219);
    assert_eq!(table::read_block(&file, 0, true), Ok(&stream[..]));
}

#[test]
fn case_2_h_of_unit_1() {
    let costs = costs::of_unit(&sample::t(), 1);
    let view = view_of_t(&costs, 1);
    assert_eq!([view.h(1), view.h(2)], [Cost::Of(3), Cost::Of(2)]);
}

#[test]
fn case_3_least_total_of_t() {
    let (total, values) = search::exhaustive(&sample::t()).unwrap();
    assert_eq!((total, &values[..2]), (2, &[2, 1][..]));
}

#[test]
fn case_4_one_unit() {
    let stream = sample::stream(&[3], &[]);
    for order in ValueOrder::BOTH {
        let shed = network::make_by(order, &stream, &mut pool()).unwrap();
        let first = &shed.units[0];
        assert!(first.has_stopped());
        assert_eq!((first.bound, first.best[0]), (0, 1));
        assert_eq!((shed.records, shed.deliveries, shed.count), (1, 0, 0));
    }
}

#[test]
fn case_5_estimates() {
    let costs = costs::of_unit(&sample::t(), 2);
    let view = view_of_t(&costs, 2);
    let mut values = [0; 16];
    values[0] = 1;
    assert_eq!(view.estimate(&values, 1), Cost::Of(3));
    values[0] = 2;
    assert_eq!(view.estimate(&values, 1), Cost::Of(2));
}

/// The cell of the first waiting message of this kind for this unit.
fn cell_of(shed: &network::Network, pool: &[u8], kind: u8, receiver: u8) -> u64 {
    (0..shed.count).find(|c| pool[64 * *c as usize] == kind && pool[64 * *c as usize + 2] == receiver).unwrap()
}

#[test]
fn case_6_estimate_before_the_paper_comes_back() {
    let stream = sample::t();
    let mut pool = pool();
    let mut shed = network::make_by(Ascending, &stream, &mut pool).unwrap();
    let delivered = [(message::CPA, 2), (message::SOLUTION, 1), (message::REQUEST, 2), (message::ESTIMATE, 1)];
    for (kind, receiver) in delivered {
        let cell = cell_of(&shed, &pool, kind, receiver);
        network::deliver_by(Ascending, &mut shed, &stream, &mut pool, cell).unwrap();
    }
    assert_eq!((shed.units[0].values[0], shed.units[0].stamp[0]), (2, 2));
    let before = shed.clone();
    let cell = cell_of(&shed, &pool, message::CPA, 1);
    network::deliver_by(Ascending, &mut shed, &stream, &mut pool, cell).unwrap();
    assert_eq!(shed.units, before.units);
    assert_eq!((shed.count, shed.records), (before.count - 1, before.records));
    assert_eq!(shed.deliveries, 5);
}

#[test]
fn case_7_largest_cost() {
    assert_eq!(table::check_stream(&sample::stream(&[1, 1], &[60_000])), Ok(()));
    assert_eq!(table::check_stream(&sample::stream(&[1, 1], &[60_001])), Err(7));
}

#[test]
fn case_8_number_of_units() {
    let costs = [0; 120];
    assert_eq!(table::check_stream(&sample::stream(&[1; 16], &costs)), Ok(()));
    assert_eq!(table::check_stream(&sample::stream(&[1; 17], &[0; 136])), Err(5));
    assert_eq!(table::check_stream(&sample::stream(&[], &[])), Err(5));
}

#[test]
fn case_9_newest_first() {
    let stream = sample::t();
    let mut pool = pool();
    let mut shed = network::make_by(Ascending, &stream, &mut pool).unwrap();
    while !shed.units[0].has_stopped() {
        let newest = shed.count - 1;
        network::deliver_by(Ascending, &mut shed, &stream, &mut pool, newest).unwrap();
    }
    assert_eq!((shed.records, shed.deliveries), (5, 10));
    assert_eq!((shed.units[0].bound, &shed.units[0].best[..2]), (2, &[2, 1][..]));
}

#[test]
fn case_10_most_assignments() {
    let zeros = |sizes: &[u8]| {
        let mut padded = [0; 16];
        padded[..sizes.len()].copy_from_slice(sizes);
        sample::stream(sizes, &vec![0; costs::pairs_in_table(sizes.len(), &padded)])
    };
    let (total, values) = search::exhaustive(&zeros(&[16; 5])).unwrap();
    assert_eq!((total, &values[..6]), (0, &[1, 1, 1, 1, 1, 0][..]));
    assert_eq!(search::exhaustive(&zeros(&[4; 10])).map(|found| found.0), Ok(0));
    // 13 × 13 × 11 × 8 × 6 × 12 = 1,070,784 and 15 × 15 × 15 × 15 × 7 × 3 = 1,063,125
    assert_eq!(search::exhaustive(&zeros(&[13, 13, 11, 8, 6, 12])), Err(16));
    assert_eq!(search::exhaustive(&zeros(&[15, 15, 15, 15, 7, 3])), Err(16));
    assert_eq!(search::exhaustive(&zeros(&[16; 6])), Err(16));
    assert_eq!(search::exhaustive(&zeros(&[16; 16])), Err(16));
    // 02's job 6: "16 isn't given here"
    assert_eq!(search::branch_and_bound(&zeros(&[16; 16])), Ok((0, [1; 16])));
}

#[test]
fn listing_of_t() {
    let mut file = [0; 512];
    table::write(&sample::t(), &mut file).unwrap();
    assert_eq!(sample::shed(&file), "total 2\nunit 1 value 2\nunit 2 value 1\nrecords 5 deliveries 8\n");
}

/// 01's shortcut: an old estimate that comes after backing up is stale, not 11.
#[test]
fn old_estimate_after_backing_up_is_stale() {
    let sizes = [2, 2, 2, 0, 0, 0, 0, 0, 0, 0, 0, 0, 0, 0, 0, 0];
    let stream = sample::stream(&[2, 2, 2], &[0; 12]);
    let costs = costs::of_unit(&stream, 2);
    let mut out = [0; 1024];
    let made = unit::make(2, 3, &sizes, &costs, &mut out);
    let mut cpa = Message { sender: 1, receiver: 2, bound: 5, ..Message::default() };
    cpa.stamp[0] = 1;
    cpa.values[0] = 1;
    cpa.best = [1, 1, 1, 0, 0, 0, 0, 0, 0, 0, 0, 0, 0, 0, 0, 0];
    let wrote = unit::step(&made.unit, 2, 3, &sizes, &costs, &message::encode(1, &cpa), &mut out);
    assert_eq!((wrote.refusal, wrote.records, wrote.sent), (0, 1, 2));
    let back = Message { sender: 3, receiver: 2, bound: 0, stamp: wrote.unit.stamp, values: wrote.unit.values, ..cpa };
    let backed = unit::step(&wrote.unit, 2, 3, &sizes, &costs, &message::encode(1, &back), &mut out);
    assert_eq!((backed.refusal, backed.records, backed.sent), (0, 0, 1));
    assert_eq!(backed.unit.threshold[..3], [1, 2, 0]);
    let old = Message { sender: 3, receiver: 2, stamp: wrote.unit.stamp, ..Message::default() };
    let stale = unit::step(&backed.unit, 2, 3, &sizes, &costs, &message::encode(3, &old), &mut out);
    assert_eq!((stale.refusal, stale.unit, stale.sent), (0, backed.unit, 0));
}
