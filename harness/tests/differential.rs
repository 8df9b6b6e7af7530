//! The comparison finds a fault where there is one, and none where there is none.

use harness::calls::{self, order_of, Call, Event, Input, Outcome, CALLS};
use harness::cases;
use harness::differential::{compare, describe, Difference};
use harness::order::Change;
use harness::reference::costs::{self, Cost, View};
use harness::reference::network::Network;
use harness::reference::order::ValueOrder::{self, Ascending, CheapestFirst};
use harness::reference::slots::{self, Slot};
use harness::reference::table::{self, Form};
use harness::reference::unit::{self, Unit};
use harness::reference::{convert, message, search, tiny, Places, FORBIDDEN_PAIR, MAX_COST, MAX_TOTAL, NONE};

#[test]
fn equal_implementations_agree() {
    for (call, name, _) in CALLS {
        let report = compare(call, 300, 4, calls::reference);
        assert!(report.difference.is_none(), "{name}");
        assert_eq!(report.counts.iter().sum::<u64>(), 300);
    }
}

/// The reference with 01's shortcut in it: a state's own threshold place left as it was on backing up.
fn backs_up_without_raising(input: Input) -> Outcome {
    let before = match &input {
        Input::Step { unit, own, .. } => Some((unit.threshold, *own as usize)),
        _ => None,
    };
    let mut outcome = calls::reference(input);
    if let Some((threshold, own)) = before {
        let unit = &mut outcome.units[0];
        if outcome.refusal == 0 && unit.threshold[own - 1] == threshold[own - 1] + 1 && unit.values == [0; 16] {
            unit.threshold = threshold;
        }
    }
    outcome
}

#[test]
fn a_threshold_left_as_it_was_is_found() {
    let found = compare(Call::Step(Ascending), 20_000, 1, backs_up_without_raising).difference.expect("a difference");
    assert!(describe(&found).contains("unit 1"));
}

#[test]
fn one_byte_written_too_much_is_found() {
    let writes_on = |input: Input| {
        let mut outcome = calls::reference(input);
        if let (0, Some(byte)) = (outcome.refusal, outcome.lent.get_mut(64)) {
            *byte ^= 1;
        }
        outcome
    };
    let found = compare(Call::Encode, 20_000, 1, writes_on).difference.expect("a difference");
    assert!(describe(&found).contains("byte 64"));
}

#[test]
fn checks_in_another_order_are_found() {
    let kind_before_ends = |input: Input| {
        let mut outcome = calls::reference(input);
        if outcome.refusal == 10 {
            outcome.refusal = 9;
        }
        outcome
    };
    let found = compare(Call::Parse, 20_000, 1, kind_before_ends).difference.expect("a difference");
    assert!(describe(&found).contains("refusal 10 by the reference, 9 by the other"));
}

/// Readings turned about, 100 for 400: every gap the other way round, the refusals the same.
#[test]
fn gaps_the_other_way_round_are_found() {
    let turned = |input: Input| {
        let Input::Readings { n, sizes, mut readings, stream } = input else { unreachable!("readings") };
        for reading in readings.chunks_exact_mut(2) {
            let turned = 500u16.wrapping_sub(u16::from_le_bytes([reading[0], reading[1]]));
            reading.copy_from_slice(&turned.to_le_bytes());
        }
        calls::reference(Input::Readings { n, sizes, readings, stream })
    };
    let found = compare(Call::Readings, 20_000, 1, turned).difference.expect("a difference");
    assert_eq!((found.reference.refusal, found.other.refusal), (0, 0));
    assert!(describe(&found).contains("byte "));
}

#[test]
fn room_looked_at_before_the_readings_is_found() {
    let room_first = |input: Input| {
        let Input::Readings { stream, .. } = &input else { unreachable!("readings") };
        let short = stream.len() < table::MAX_STREAM;
        let mut outcome = calls::reference(input);
        if outcome.refusal == 17 && short {
            outcome.refusal = 13;
        }
        outcome
    };
    let found = compare(Call::Readings, 20_000, 1, room_first).difference.expect("a difference");
    assert!(describe(&found).contains("refusal 17 by the reference, 13 by the other"));
}

/// Costs with 60,000 for every forbidden pair.
fn dear(costs: &mut [u8]) {
    for cost in costs.chunks_exact_mut(2).filter(|cost| **cost == [255, 255]) {
        cost.copy_from_slice(&60_000u16.to_le_bytes());
    }
}

#[test]
fn a_forbidden_pair_taken_as_a_dear_one_is_found() {
    let in_search = |input: Input| {
        let Input::Search { mut stream } = input else { unreachable!("a search") };
        let (_, pairs) = cases::begin_in_stream(&stream);
        dear(&mut stream[pairs..]);
        calls::reference(Input::Search { stream })
    };
    let found = compare(Call::Search, 4_000, 1, in_search).difference.expect("a difference");
    assert!(describe(&found).contains("numbers"));
    let in_make = |input: Input| {
        let Input::Make { order, own, n, sizes, mut costs, out } = input else { unreachable!("a making") };
        dear(&mut costs);
        calls::reference(Input::Make { order, own, n, sizes, costs, out })
    };
    let found = compare(Call::Make(Ascending), 20_000, 1, in_make).difference.expect("a difference");
    assert!(describe(&found).contains("unit 1"));
}

/// As a sum of 32 bits would, which an estimate of *none* takes round to the start.
#[test]
fn an_estimate_of_none_that_is_kept_is_found() {
    let keeps = |input: Input| {
        let Input::Step { unit, packet, out, .. } = &input else { unreachable!("a step") };
        let (unit, packet, out) = (*unit, packet.clone(), out.clone());
        let mut outcome = calls::reference(input);
        let none = packet.first() == Some(&message::ESTIMATE) && packet.get(36..40) == Some(&NONE.to_le_bytes());
        if outcome.refusal == 0 && none && outcome.units[0] != unit {
            outcome = Outcome { numbers: vec![0, 0], units: vec![unit], lent: out, ..Outcome::default() };
        }
        outcome
    };
    let found = compare(Call::Step(Ascending), 20_000, 1, keeps).difference.expect("a difference");
    assert!(describe(&found).contains("unit 1"));
}

/// Branch and bound that counts assignments.
#[test]
fn a_limit_on_assignments_is_found() {
    let limited = |input: Input| {
        let Input::BranchAndBound { stream } = input else { unreachable!("a search") };
        calls::reference(Input::Search { stream })
    };
    let found = compare(Call::BranchAndBound, 4_000, 1, limited).difference.expect("a difference");
    assert!(describe(&found).contains("refusal 0 by the reference, 16 by the other"));
}

/// Branch and bound that lets a value through where the cost so far is the best total: the last of equal assignments takes the first one's place.
#[test]
fn the_last_of_equal_assignments_is_found() {
    let last = |input: Input| {
        let Input::BranchAndBound { stream } = input else { unreachable!("a search") };
        let mut outcome = calls::reference(Input::BranchAndBound { stream: stream.clone() });
        if outcome.refusal == 0 && search::assignments(&stream) <= 64 {
            let n = table::head(&stream).0 as usize;
            let least = |values: &Places| costs::total(&stream, &values[..n]) == Cost::Of(outcome.numbers[0] as u32);
            if let Some(values) = search::ascending(&stream).filter(least).last() {
                outcome.lent = values.to_vec();
            }
        }
        outcome
    };
    assert!(compare(Call::BranchAndBound, 4_000, 1, last).difference.is_some());
}

/// 02's job 12 with a change that moves both ends; with an upper end cut at the limit of totals; with numbers for a table that has no assignment;
/// with a forbidden cost that counts as 60,000.
#[test]
fn wrong_ends_of_a_retest_are_found() {
    let find = |change: fn(u32, u32, u32, &mut Outcome)| {
        let wrong = move |input: Input| {
            let Input::Ends { total, old, new } = input else { unreachable!("a retest") };
            let mut outcome = calls::reference(input);
            change(total, old, new, &mut outcome);
            outcome
        };
        describe(&compare(Call::Ends, 20_000, 1, wrong).difference.expect("a difference"))
    };
    let both_moved = |total, old, new, outcome: &mut Outcome| {
        if outcome.refusal == 0 && total != NONE && old < new {
            outcome.numbers[0] = outcome.numbers[1];
        }
    };
    assert!(find(both_moved).contains("numbers"));
    let cut = |total, _, _, outcome: &mut Outcome| {
        if total != NONE {
            outcome.numbers[1] = outcome.numbers[1].min(MAX_TOTAL.into());
        }
    };
    assert!(find(cut).contains("numbers"));
    let numbers_for_none = |total: u32, old, new, outcome: &mut Outcome| {
        if outcome.refusal == 0 && total == NONE && old > new {
            outcome.numbers[0] = u64::from(total - (old - new));
        }
    };
    assert!(find(numbers_for_none).contains("numbers"));
    let forbidden_taken = |total, old, new: u32, outcome: &mut Outcome| {
        if old == u32::from(FORBIDDEN_PAIR) {
            *outcome = calls::reference(Input::Ends { total, old: MAX_COST, new });
        }
    };
    assert!(find(forbidden_taken).contains("refusal 20 by the reference, 0 by the other"));
}

/// A projection that takes the least off barred costs too.
#[test]
fn a_barred_cost_that_is_lowered_is_found() {
    let lowered = |input: Input| {
        let Input::Project { held, .. } = &input else { unreachable!("a projection") };
        let before = held.costs.clone();
        let mut outcome = calls::reference(input);
        let taken = before.iter().zip(outcome.lent.chunks(4)).find(|(cost, now)| cost.to_le_bytes() != **now);
        if outcome.refusal == 0 && taken.is_some() {
            let barred = outcome.lent.chunks_mut(4).find(|cost| *cost == NONE.to_le_bytes());
            barred.into_iter().for_each(|cost| cost.copy_from_slice(&(NONE - 1).to_le_bytes()));
        }
        outcome
    };
    assert!(compare(Call::Project, 4_000, 1, lowered).difference.is_some());
}

/// An extension that stays on the own cost.
#[test]
fn a_part_that_stays_is_found() {
    let stays = |input: Input| {
        let Input::Extend { held, .. } = &input else { unreachable!("an extension") };
        let (before, values) = (held.costs.clone(), held.sizes.iter().map(|d| *d as usize).sum::<usize>());
        let mut outcome = calls::reference(input);
        if outcome.refusal == 0 {
            let own = before.iter().zip(outcome.lent.chunks_mut(4)).take(values);
            own.for_each(|(cost, now)| now.copy_from_slice(&cost.to_le_bytes()));
        }
        outcome
    };
    assert!(compare(Call::Extend, 4_000, 1, stays).difference.is_some());
}

/// A unary projection that checks the amount before the unit.
#[test]
fn an_amount_before_the_unit_is_found() {
    let amount_first = |input: Input| {
        let Input::ProjectUnary { held, .. } = &input else { unreachable!("a projection") };
        let barred = held.floor == NONE;
        let mut outcome = calls::reference(input);
        if outcome.refusal == 10 && barred {
            outcome.refusal = 19;
        }
        outcome
    };
    let found = compare(Call::ProjectUnary, 20_000, 1, amount_first).difference.expect("a difference");
    assert!(describe(&found).contains("refusal 10 by the reference, 19 by the other"));
}

/// A step or a search without unary costs in its sums, though checked.
#[test]
fn unary_costs_left_out_are_found() {
    let in_step = |input: Input| {
        let Input::Step { order, unit, own, n, sizes, mut costs, packet, out } = input else { unreachable!("a step") };
        let size = sizes.get((own as usize).wrapping_sub(1)).map_or(0, |d| 2 * *d as usize).min(costs.len());
        if costs[..size].chunks_exact(2).all(|cost| u16::from_le_bytes([cost[0], cost[1]]) <= 60_000) {
            costs[..size].fill(0);
        }
        calls::reference(Input::Step { order, unit, own, n, sizes, costs, packet, out })
    };
    assert!(compare(Call::Step(Ascending), 20_000, 1, in_step).difference.is_some());
    let in_search = |input: Input| {
        let Input::Search { stream } = input else { unreachable!("a search") };
        let form_one = table::check_stream(&stream).map(|()| convert::in_form(&stream, Form::One));
        calls::reference(Input::Search { stream: form_one.unwrap_or(stream) })
    };
    let found = compare(Call::Search, 4_000, 1, in_search).difference.expect("a difference");
    assert!(describe(&found).contains("numbers"));
}

#[test]
fn an_old_limit_on_bounds_is_found() {
    let old_limit = |input: Input| {
        let mut outcome = calls::reference(input);
        if outcome.refusal == 0 && (7_200_001..NONE).contains(&outcome.message.bound) {
            outcome = Outcome { refusal: 9, numbers: vec![0], ..Outcome::default() };
        }
        outcome
    };
    let found = compare(Call::Parse, 20_000, 1, old_limit).difference.expect("a difference");
    assert!(describe(&found).contains("refusal 0 by the reference, 9 by the other"));
}

#[test]
fn a_converter_that_asks_for_other_room_is_found() {
    // for the file's blocks, or for the costs before the room
    let for_the_file = |input: Input| {
        let Input::Convert { file, out, .. } = &input else { unreachable!("a conversion") };
        let short = out.len() < file.len();
        let lent = out.clone();
        let mut outcome = calls::reference(input);
        if outcome.refusal == 0 && short {
            outcome = Outcome { refusal: 13, numbers: vec![0], lent, ..Outcome::default() };
        }
        outcome
    };
    let found = compare(Call::ToFormOne, 20_000, 1, for_the_file).difference.expect("a difference");
    assert!(describe(&found).contains("refusal 0 by the reference, 13 by the other"));
    let costs_first = |input: Input| {
        let Input::Convert { file, wanted, out } = input else { unreachable!("a conversion") };
        let room = [out.clone(), vec![0; table::MAX_FILE]].concat();
        let mut outcome = calls::reference(Input::Convert { file: file.clone(), wanted, out: room });
        if outcome.refusal != 18 {
            return calls::reference(Input::Convert { file, wanted, out });
        }
        outcome.lent.truncate(out.len());
        outcome
    };
    let found = compare(Call::ToFormOne, 20_000, 1, costs_first).difference.expect("a difference");
    assert!(describe(&found).contains("refusal 13 by the reference, 18 by the other"));
}

#[test]
fn a_converter_that_writes_past_its_file_is_found() {
    let clears_the_rest = |input: Input| {
        let mut outcome = calls::reference(input);
        if outcome.refusal == 0 {
            outcome.lent[outcome.numbers[0] as usize..].fill(0);
        }
        outcome
    };
    for call in [Call::ToFormOne, Call::ToFormTwo] {
        assert!(compare(call, 20_000, 1, clears_the_rest).difference.is_some());
    }
}

/// The reference's step with the order of its values changed: where its range is checked, and where values are tried after the current one.
fn step_over(input: Input, ranged: impl Fn(&mut View), tried: impl Fn(&mut View, usize)) -> Outcome {
    let Input::Step { order, unit, own, n, sizes, costs, packet, mut out } = input else { unreachable!("a step") };
    let decided = unit::check_out(&out).and_then(|()| {
        let view = || unit::check_seat(order_of(order), own, n, &sizes, &costs);
        let (mut in_range, mut in_step) = (view()?, view()?);
        ranged(&mut in_range);
        unit::check_state(&in_range, &unit)?;
        tried(&mut in_step, unit.values[own as usize - 1].into());
        unit::step_packet(&in_step, &unit, &packet)
    });
    calls::unit_outcome(&unit::answer(decided, &unit, &mut out), out)
}

/// A fault in what is tried alone, in the range alone.
fn faults_in_order(change: impl Fn(&mut View) + Copy) -> [Option<Difference>; 2] {
    let tried = |input: Input| step_over(input, |_| {}, |view, _| change(view));
    let ranged = |input: Input| step_over(input, change, |_, _| {});
    [compare(Call::Step(CheapestFirst), 20_000, 1, tried), compare(Call::Step(CheapestFirst), 20_000, 1, ranged)]
        .map(|report| report.difference)
}

#[test]
fn a_tie_that_goes_to_the_higher_number_is_found() {
    let [tried, ranged] = faults_in_order(|view| Change::HigherOnTie.apply(view)).map(Option::unwrap);
    assert!(describe(&tried).contains("unit 1"));
    assert!(describe(&ranged).contains("refusal"));
    let in_make = |input: Input| {
        let Input::Make { order, own, n, sizes, costs, mut out } = input else { unreachable!("a making") };
        let made = unit::check_seat(order_of(order), own, n, &sizes, &costs).and_then(|mut view| {
            unit::check_out(&out)?;
            Change::HigherOnTie.apply(&mut view);
            Ok(unit::start(&view))
        });
        calls::unit_outcome(&unit::answer(made, &Unit::default(), &mut out), out)
    };
    assert!(compare(Call::Make(CheapestFirst), 20_000, 1, in_make).difference.is_some());
}

#[test]
fn values_without_an_h_first_are_found() {
    let [tried, ranged] = faults_in_order(|view| Change::NoHFirst.apply(view)).map(Option::unwrap);
    assert!(describe(&tried).contains("unit 1"));
    assert!(describe(&ranged).contains("refusal"));
}

#[test]
fn an_order_by_number_is_found() {
    let [tried, ranged] = faults_in_order(|view| view.tried.sort()).map(Option::unwrap);
    assert!(describe(&tried).contains("unit 1"));
    assert!(describe(&ranged).contains("refusal"));
    let in_range = |mut input: Input| {
        input.named().unwrap().replace(0);
        calls::reference(input)
    };
    assert!(compare(Call::InRange(CheapestFirst), 20_000, 1, in_range).difference.is_some());
}

/// The right order, but of the values alone whose number is above the current one's.
#[test]
fn values_after_the_current_number_are_found() {
    let after = |view: &mut View, current: usize| view.tried.sort_by_key(|v| (*v > current, *v == current));
    let fault = |input: Input| step_over(input, |_| {}, after);
    let found = compare(Call::Step(CheapestFirst), 20_000, 1, fault).difference.expect("a difference");
    assert!(describe(&found).contains("unit 1"));
}

/// Whoever names nothing, or a number that is not one of the two, gets the ascending order.
#[test]
fn another_default_is_found() {
    for number in [None, Some(2), Some(128), Some(255)] {
        let fault = |mut input: Input| {
            let named = input.named().unwrap();
            if *named == number {
                *named = Some(0);
            }
            calls::reference(input)
        };
        let units = [Call::Make, Call::InRange, Call::Step];
        let networks = [Call::MakeNetwork, Call::Deliver, Call::Echo, Call::Settle];
        let slots = [Call::MakeSlots, Call::DeliverSlots, Call::ReplaySlots, Call::SettleSlots];
        for call in units.iter().chain(&networks).chain(&slots).map(|call| call(CheapestFirst)) {
            assert!(compare(call, 4_000, 1, fault).difference.is_some(), "{call:?}, {number:?}");
        }
    }
}

// Echoes

/// An echo by the reference, of what it is lent changed first, or with its outcome changed; it is handed the bytes and the outcome.
fn fault_in_echo(before: impl Fn(&mut Network, &mut Vec<u8>), after: impl Fn(&Input, &mut Outcome)) -> String {
    let other = |mut input: Input| {
        let lent = input.clone();
        let Input::Deliver { network, event: Event::Echo(packet), .. } = &mut input else { unreachable!("an echo") };
        before(network, packet);
        let mut outcome = calls::reference(input);
        after(&lent, &mut outcome);
        outcome
    };
    let found = ValueOrder::BOTH.map(|order| compare(Call::Echo(order), 4_000, 1, other).difference);
    let [ascending, _] = found.map(|difference| describe(&difference.expect("a difference")));
    ascending
}

/// The outcome of a refusal, with all as it was lent.
fn refused(lent: &Input, refusal: u8) -> Outcome {
    let Input::Deliver { network, pool, .. } = lent else { unreachable!("an echo") };
    calls::network_outcome(refusal, network, pool.clone())
}

fn used(lent: &Input) -> u64 {
    let Input::Deliver { network, .. } = lent else { unreachable!("an echo") };
    network.count
}

fn heard(lent: &Input) -> &[u8] {
    let Input::Deliver { event: Event::Echo(packet), .. } = lent else { unreachable!("an echo") };
    packet
}

#[test]
fn an_echo_without_a_cell_that_is_refused_is_found() {
    let empty = |lent: &Input, outcome: &mut Outcome| {
        if outcome.refusal == 0 && used(lent) == 0 {
            *outcome = refused(lent, 15);
        }
    };
    assert!(fault_in_echo(|_, _| {}, empty).contains("refusal 0 by the reference, 15 by the other"));
}

/// 14 as in a delivery, which frees a cell: one packet more than fits, or one fewer.
#[test]
fn room_for_one_packet_more_or_fewer_is_found() {
    let fewer = |lent: &Input, outcome: &mut Outcome| {
        if outcome.refusal == 0 && used(lent) < 1_024 && outcome.numbers[0] == 1_024 {
            *outcome = refused(lent, 14);
        }
    };
    assert!(fault_in_echo(|_, _| {}, fewer).contains("refusal 0 by the reference, 14 by the other"));
    let more = |lent: &Input, outcome: &mut Outcome| {
        let mut freed = lent.clone();
        let Input::Deliver { network, .. } = &mut freed else { unreachable!("an echo") };
        network.count = network.count.saturating_sub(1);
        let with_room = calls::reference(freed);
        if outcome.refusal == 14 && with_room.refusal == 0 {
            *outcome = with_room;
        }
    };
    assert!(fault_in_echo(|_, _| {}, more).contains("refusal 14 by the reference, 0 by the other"));
}

/// An echo that takes the packet out of the pool, if it waits there; one that isn't counted; one that is added to the pool.
#[test]
fn an_echo_that_is_no_echo_is_found() {
    let taken = |lent: &Input, outcome: &mut Outcome| {
        let cell = outcome.lent.chunks_exact(64).take(used(lent) as usize).position(|cell| cell == heard(lent));
        if let (0, Some(cell)) = (outcome.refusal, cell) {
            outcome.lent.copy_within(64 * (cell + 1)..64 * outcome.numbers[0] as usize, 64 * cell);
            outcome.numbers[0] -= 1;
        }
    };
    assert!(fault_in_echo(|_, _| {}, taken).contains("numbers"));
    let not_counted = |lent: &Input, outcome: &mut Outcome| {
        let Input::Deliver { network, .. } = lent else { unreachable!("an echo") };
        outcome.numbers[3] = network.deliveries as u64;
    };
    assert!(fault_in_echo(|_, _| {}, not_counted).contains("numbers"));
    let kept = |_: &Input, outcome: &mut Outcome| outcome.numbers[0] += u64::from(outcome.refusal == 0);
    assert!(fault_in_echo(|_, _| {}, kept).contains("numbers"));
}

/// The first 64 bytes alone are read; the length is looked at before all else.
#[test]
fn bytes_of_another_length_are_found() {
    let cut = |_: &mut Network, packet: &mut Vec<u8>| packet.truncate(64);
    assert!(fault_in_echo(cut, |_, _| {}).contains("refusal 8 by the reference"));
    let length_first = |lent: &Input, outcome: &mut Outcome| {
        if heard(lent).len() != 64 {
            outcome.refusal = 8;
        }
    };
    assert!(fault_in_echo(|_, _| {}, length_first).contains("8 by the other"));
}

/// The receiver's 12 before the packet is read, and unit 1's after.
#[test]
fn a_stop_looked_at_at_another_time_is_found() {
    let before_reading = |lent: &Input, outcome: &mut Outcome| {
        let Input::Deliver { network, .. } = lent else { unreachable!("an echo") };
        let named = heard(lent).get(2).map_or(0, |own| *own as usize);
        let stopped = (1..=16).contains(&named) && network.units[named - 1].has_stopped();
        if matches!(outcome.refusal, 8..=10) && stopped {
            outcome.refusal = 12;
        }
    };
    assert!(fault_in_echo(|_, _| {}, before_reading).contains("12 by the other"));
    let after_reading = |lent: &Input, outcome: &mut Outcome| {
        if outcome.refusal == 12 && heard(lent).len() != 64 {
            outcome.refusal = 8;
        }
    };
    assert!(fault_in_echo(|_, _| {}, after_reading).contains("refusal 12 by the reference, 8 by the other"));
}

// The pool of slots

/// What the other gives on a call of the pool of slots, in both orders if it has one: the difference in the first.
fn fault_in_slots(call: fn(ValueOrder) -> Call, other: impl Fn(Input) -> Outcome) -> String {
    let found = ValueOrder::BOTH.map(|order| compare(call(order), 4_000, 1, &other).difference);
    let [ascending, _] = found.map(|difference| describe(&difference.expect("a difference")));
    ascending
}

/// A delivery by the reference, with its outcome changed; it is handed the shed, the stream, the cell and the pool.
fn fault_in_delivery(after: impl Fn(&Lent, &mut Outcome)) -> String {
    fault_in_slots(Call::DeliverSlots, |input| {
        let Input::DeliverSlots { order, shed, stream, cell, pool } = input.clone() else { unreachable!("a delivery") };
        let mut outcome = calls::reference(input);
        let n = table::from_count(&stream).first().copied().unwrap_or(0);
        after(&Lent { order, shed: *shed, stream, n, cell, pool }, &mut outcome);
        outcome
    })
}

struct Lent {
    order: calls::Named,
    shed: slots::Shed,
    stream: Vec<u8>,
    n: u8,
    cell: u64,
    pool: Vec<u8>,
}

impl Lent {
    fn refused(&self, refusal: u8) -> Outcome {
        calls::shed_outcome(refusal, &self.shed, self.pool.clone())
    }

    fn deliver(&self, pool: Vec<u8>, cell: u64) -> Outcome {
        let (order, stream) = (self.order, self.stream.clone());
        calls::reference(Input::DeliverSlots { order, shed: Box::new(self.shed.clone()), stream, cell, pool })
    }

    /// The bytes at the cell, and the cell that is their own.
    fn packet(&self) -> Option<(&[u8], Option<usize>)> {
        let packet = self.pool.chunks_exact(64).nth(usize::try_from(self.cell).ok()?)?;
        let (kind, message) = message::fields(packet);
        Some((packet, slots::cell_of(self.n, Slot::of(kind, &message))))
    }

    fn is_stray(&self) -> bool {
        self.packet().is_some_and(|(_, own)| own != Some(self.cell as usize))
    }

    /// The same delivery with the message in its own cell.
    fn in_its_own(&self) -> Option<Outcome> {
        let (packet, own) = self.packet()?;
        let mut pool = self.pool.clone();
        pool.chunks_exact_mut(64).nth(own?)?.copy_from_slice(packet);
        Some(self.deliver(pool, own? as u64))
    }
}

/// A stray accepted; 9 of it before the message's own 8 and 10; and after its unit's 12 and 11.
#[test]
fn a_stray_at_another_time_is_found() {
    let accepted = |lent: &Lent, outcome: &mut Outcome| {
        if let (9, true, Some(delivered)) = (outcome.refusal, lent.is_stray(), lent.in_its_own()) {
            *outcome = delivered;
        }
    };
    assert!(fault_in_delivery(accepted).contains("refusal 9 by the reference, 0 by the other"));
    let before_reading = |lent: &Lent, outcome: &mut Outcome| {
        if matches!(outcome.refusal, 8 | 10) && lent.is_stray() {
            outcome.refusal = 9;
        }
    };
    assert!(fault_in_delivery(before_reading).contains("9 by the other"));
    for later in [12, 11] {
        let after_the_step = |lent: &Lent, outcome: &mut Outcome| {
            let in_its_own = if lent.is_stray() { lent.in_its_own() } else { None };
            if outcome.refusal == 9 && in_its_own.is_some_and(|delivered| delivered.refusal == later) {
                outcome.refusal = later;
            }
        };
        let found = fault_in_delivery(after_the_step);
        assert!(found.contains(&format!("refusal 9 by the reference, {later} by the other")), "{found}");
    }
}

/// An empty cell is read, or one past those used; a cell with zeros in front is taken as empty.
#[test]
fn another_empty_cell_is_found() {
    let reads = |lent: &Lent, outcome: &mut Outcome| {
        if outcome.refusal == 15 && lent.cell < slots::CELLS as u64 {
            outcome.refusal = 8;
        }
    };
    assert!(fault_in_delivery(reads).contains("refusal 15 by the reference, 8 by the other"));
    let past = |lent: &Lent, outcome: &mut Outcome| {
        let holds = lent.packet().is_some_and(|(packet, _)| packet.iter().any(|byte| *byte != 0));
        if outcome.refusal == 15 && holds {
            outcome.refusal = 9;
        }
    };
    assert!(fault_in_delivery(past).contains("refusal 15 by the reference, 9 by the other"));
    let kind_alone = |lent: &Lent, outcome: &mut Outcome| {
        let empty = lent.packet().is_some_and(|(packet, _)| packet[0] == 0);
        if matches!(outcome.refusal, 8..=10) && empty {
            *outcome = lent.refused(15);
        }
    };
    assert!(fault_in_delivery(kind_alone).contains("15 by the other"));
}

/// A cell's number cut to 32 bits, or to what its bytes can be.
#[test]
fn a_cell_cut_to_fewer_bits_is_found() {
    for bits in [32, 58] {
        let cut = |lent: &Lent, outcome: &mut Outcome| {
            if outcome.refusal == 15 {
                *outcome = lent.deliver(lent.pool.clone(), lent.cell & ((1 << bits) - 1));
            }
        };
        assert!(fault_in_delivery(cut).contains("refusal 15 by the reference"), "{bits} bits");
    }
}

/// The packet stays; a cell in use is left; the newer of the two is kept; the pool is full, which is 14.
#[test]
fn another_pool_is_found() {
    let cell = |pool: &[u8], cell: usize| pool[64 * cell..64 * (cell + 1)].to_vec();
    let stays = |lent: &Lent, outcome: &mut Outcome| {
        if outcome.refusal == 0 {
            let at = lent.cell as usize;
            outcome.lent[64 * at..64 * (at + 1)].copy_from_slice(&cell(&lent.pool, at));
        }
    };
    assert!(fault_in_delivery(stays).contains("byte "));
    let keeps = |lent: &Lent, outcome: &mut Outcome, keeps: &dyn Fn(&[u8], &[u8]) -> bool| {
        let used = if outcome.refusal == 0 { slots::slots(lent.n).len() } else { 0 };
        for at in (0..used).filter(|at| *at as u64 != lent.cell && slots::waits(&lent.pool, *at)) {
            let (older, fresh) = (cell(&lent.pool, at), cell(&outcome.lent, at));
            if keeps(&older, &fresh) {
                outcome.lent[64 * at..64 * (at + 1)].copy_from_slice(&older);
            }
        }
    };
    assert!(fault_in_delivery(|lent, outcome| keeps(lent, outcome, &|_, _| true)).contains("byte "));
    let newer = |lent: &Lent, outcome: &mut Outcome| {
        let (n, sizes) = (lent.n, harness::reference::costs::sizes_in(&lent.stream));
        keeps(lent, outcome, &|older, fresh| slots::newer(n, &sizes, fresh, older).is_ok_and(|newer| newer == older));
    };
    assert!(fault_in_delivery(newer).contains("byte "));
    let full = |lent: &Lent, outcome: &mut Outcome| {
        let used = if outcome.refusal == 0 { slots::slots(lent.n).len() } else { return };
        if slots::waiting(lent.n, &lent.pool).len() == used {
            *outcome = lent.refused(14);
        }
    };
    assert!(fault_in_delivery(full).contains("refusal 0 by the reference, 14 by the other"));
}

// Recorded runs

/// A replay by the reference, of another list on what it is lent, or with its outcome changed; it is handed the list, and the input and the outcome.
fn fault_in_replay(before: impl Fn(&mut Vec<u8>), after: impl Fn(&Input, &mut Outcome)) -> String {
    fault_in_slots(Call::ReplaySlots, |mut input| {
        let lent = input.clone();
        if let Input::ReplaySlots { list, .. } = &mut input {
            before(list);
        }
        let mut outcome = calls::reference(input);
        after(&lent, &mut outcome);
        outcome
    })
}

/// The outcome with another list.
fn replay_of(lent: &Input, other: &[u8]) -> Outcome {
    let mut lent = lent.clone();
    if let Input::ReplaySlots { list, .. } = &mut lent {
        *list = other.to_vec();
    }
    calls::reference(lent)
}

fn list_lent(lent: &Input) -> &[u8] {
    let Input::ReplaySlots { list, .. } = lent else { unreachable!("a replay") };
    list
}

/// The high byte first; the low byte alone; the last pair left out; the list from its end on.
#[test]
fn another_list_is_found() {
    let high_first = |list: &mut Vec<u8>| list.chunks_exact_mut(2).for_each(|pair| pair.swap(0, 1));
    assert!(fault_in_replay(high_first, |_, _| {}).contains("refusal "));
    let low_alone = |list: &mut Vec<u8>| list.chunks_exact_mut(2).for_each(|pair| pair[1] = 0);
    assert!(fault_in_replay(low_alone, |_, _| {}).contains("refusal 15 by the reference"));
    let shorter = |list: &mut Vec<u8>| list.truncate(list.len().saturating_sub(2));
    assert!(fault_in_replay(shorter, |_, _| {}).contains("0 by the other"));
    let turned = |list: &mut Vec<u8>| {
        list.reverse();
        list.chunks_exact_mut(2).for_each(|pair| pair.swap(0, 1));
    };
    assert!(fault_in_replay(turned, |_, _| {}).contains("refusal "));
}

/// A refusal undoes the deliveries before it, as in a single call; a refused cell is passed over; a refusal is not told.
#[test]
fn another_end_of_a_replay_is_found() {
    let undone = |lent: &Input, outcome: &mut Outcome| {
        let Input::ReplaySlots { shed, pool, .. } = lent else { unreachable!("a replay") };
        if outcome.refusal != 0 {
            *outcome = calls::shed_outcome(outcome.refusal, shed, pool.clone());
        }
    };
    assert!(fault_in_replay(|_| {}, undone).contains("numbers"));
    let passed_over = |lent: &Input, outcome: &mut Outcome| {
        let Input::ReplaySlots { shed, list, .. } = lent else { unreachable!("a replay") };
        let done = 2 * calls::shed_in(outcome).deliveries.wrapping_sub(shed.deliveries) as usize;
        if outcome.refusal == 15 {
            *outcome = replay_of(lent, &[&list[..done], &list[done + 2..]].concat());
        }
    };
    assert!(fault_in_replay(|_| {}, passed_over).contains("refusal 15 by the reference"));
    let not_told = |_: &Input, outcome: &mut Outcome| outcome.refusal = 0;
    assert!(fault_in_replay(|_| {}, not_told).contains("0 by the other"));
}

/// Unit 1's stop is looked at before the first cell alone: what waits then is 15 or accepted, not 12.
#[test]
fn a_stop_on_the_way_that_is_not_seen_is_found() {
    let not_seen = |lent: &Input, outcome: &mut Outcome| {
        let Input::ReplaySlots { shed, .. } = lent else { unreachable!("a replay") };
        if outcome.refusal == 12 && outcome.units[0].has_stopped() && !shed.has_stopped() {
            outcome.refusal = 15;
        }
    };
    assert!(fault_in_replay(|_| {}, not_seen).contains("refusal 12 by the reference, 15 by the other"));
}

/// A list of odd length: its whole pairs are delivered, with 22 or without; another check comes first.
#[test]
fn an_odd_list_taken_otherwise_is_found() {
    let whole_pairs = |list: &mut Vec<u8>| list.truncate(list.len() / 2 * 2);
    assert!(fault_in_replay(whole_pairs, |_, _| {}).contains("refusal 22 by the reference"));
    let pairs_of = |lent: &Input| {
        let list = list_lent(lent);
        replay_of(lent, &list[..list.len() / 2 * 2])
    };
    let at_the_end = |lent: &Input, outcome: &mut Outcome| {
        if outcome.refusal == 22 {
            *outcome = Outcome { refusal: 22, ..pairs_of(lent) };
        }
    };
    assert!(fault_in_replay(|_| {}, at_the_end).contains("numbers"));
    for other in [13, 5, 6, 7, 12, 15] {
        let later = |lent: &Input, outcome: &mut Outcome| {
            if outcome.refusal == 22 && pairs_of(lent).refusal == other {
                outcome.refusal = other;
            }
        };
        let found = fault_in_replay(|_| {}, later);
        assert!(found.contains(&format!("refusal 22 by the reference, {other} by the other")), "{found}");
    }
}

/// An empty list is refused, by 22, or by what a delivery finds first.
#[test]
fn an_empty_list_that_is_refused_is_found() {
    let odd = |lent: &Input, outcome: &mut Outcome| {
        if list_lent(lent).is_empty() {
            outcome.refusal = 22;
        }
    };
    assert!(fault_in_replay(|_| {}, odd).contains("refusal 0 by the reference, 22 by the other"));
    for refusal in [13, 5, 6, 7, 12] {
        let checked = |lent: &Input, outcome: &mut Outcome| {
            if list_lent(lent).is_empty() && replay_of(lent, &[0; 2]).refusal == refusal {
                outcome.refusal = refusal;
            }
        };
        let found = fault_in_replay(|_| {}, checked);
        assert!(found.contains(&format!("refusal 0 by the reference, {refusal} by the other")), "{found}");
    }
}

// Making and the numbers of cells

/// A making by the reference, with its outcome changed; it is handed the stream and the pool.
fn fault_in_making(change: impl Fn(&[u8], &[u8], &mut Outcome)) -> String {
    fault_in_slots(Call::MakeSlots, |input| {
        let Input::MakeSlots { stream, pool, .. } = input.clone() else { unreachable!("a making") };
        let mut outcome = calls::reference(input);
        change(&stream, &pool, &mut outcome);
        outcome
    })
}

/// How many cells the units of a stream use, all where it is no table.
fn used_slots(stream: &[u8]) -> usize {
    table::check_stream(stream).map_or(slots::CELLS, |()| slots::slots(table::head(stream).0).len())
}

/// Making that zeroes nothing, or the whole pool; and one that asks for the room of the cells used alone.
#[test]
fn another_making_of_slots_is_found() {
    let zeroes_nothing = |stream: &[u8], pool: &[u8], outcome: &mut Outcome| {
        let used = if outcome.refusal == 0 { used_slots(stream) } else { 0 };
        for at in 0..used {
            if !slots::waits(&outcome.lent, at) {
                outcome.lent[64 * at..64 * (at + 1)].copy_from_slice(&pool[64 * at..64 * (at + 1)]);
            }
        }
    };
    assert!(fault_in_making(zeroes_nothing).contains("byte "));
    let zeroes_all = |stream: &[u8], _: &[u8], outcome: &mut Outcome| {
        if outcome.refusal == 0 {
            outcome.lent[64 * used_slots(stream)..].fill(0);
        }
    };
    assert!(fault_in_making(zeroes_all).contains("byte "));
    let less_room = |stream: &[u8], pool: &[u8], outcome: &mut Outcome| {
        if outcome.refusal == 13 && pool.len() >= 64 * used_slots(stream) {
            outcome.refusal = 0;
        }
    };
    assert!(fault_in_making(less_room).contains("refusal 13 by the reference, 0 by the other"));
}

/// CPAs down before CPAs back; cells by receiver before sender.
#[test]
fn other_cells_are_found() {
    let numbered = |key: &dyn Fn(&Slot) -> (u8, u8, u8)| {
        let other = |input: Input| {
            let Input::SlotOf { n, slot } = input else { unreachable!("a slot") };
            let mut all = slots::slots(n);
            all.sort_by_key(key);
            let cell = all.iter().position(|other| *other == slot).unwrap_or(slots::CELLS);
            Outcome { numbers: vec![cell as u64], ..Outcome::default() }
        };
        describe(&compare(Call::SlotOf, 4_000, 1, other).difference.expect("a difference"))
    };
    assert!(numbered(&|slot| (slot.kind, slot.receiver, slot.sender)).contains("numbers"));
    assert!(numbered(&|slot| (slot.sender, slot.receiver, slot.kind)).contains("numbers"));
    let down_first = |slot: &Slot| {
        let back = slot.kind == message::CPA && slot.sender > slot.receiver;
        (2 * slot.kind + u8::from(back), slot.sender, slot.receiver)
    };
    assert!(numbered(&down_first).contains("numbers"));
}

/// Two messages that read, each with its kind.
type Two = [(u8, message::Message); 2];

/// The newer of two by the reference, changed where both read.
fn fault_in_newer(change: impl Fn(&Two, &mut Outcome)) -> String {
    let other = |input: Input| {
        let Input::Newer { n, sizes, first, second } = input.clone() else { unreachable!("two messages") };
        let mut outcome = calls::reference(input);
        if let [Ok(one), Ok(two)] = [first, second].map(|packet| message::parse(n, &sizes, &packet)) {
            change(&[one, two], &mut outcome);
        }
        outcome
    };
    describe(&compare(Call::Newer, 20_000, 1, other).difference.expect("a difference"))
}

/// Of two alike, another one is handed back where the second is newer so.
fn newer_where(second: impl Fn(u8, &message::Message, &message::Message) -> bool) -> String {
    fault_in_newer(|[(kind, one), (_, two)], outcome| {
        if outcome.refusal == 0 {
            outcome.numbers = vec![if second(*kind, one, two) { 2 } else { 1 }];
        }
    })
}

/// The second on a tie; stops or CPAs by their bound, too; news by the higher bound; stamps without their last place.
#[test]
fn another_newer_one_is_found() {
    let news = |kind: u8| kind == message::SOLUTION;
    let on_a_tie =
        newer_where(|kind, one, two| if news(kind) { two.bound <= one.bound } else { two.stamp >= one.stamp });
    assert!(on_a_tie.contains("numbers"));
    let by_bound =
        newer_where(|_, one, two| two.stamp > one.stamp || (two.stamp == one.stamp && two.bound < one.bound));
    assert!(by_bound.contains("numbers"));
    let higher = newer_where(|kind, one, two| if news(kind) { two.bound > one.bound } else { two.stamp > one.stamp });
    assert!(higher.contains("numbers"));
    let shorter = newer_where(|kind, one, two| {
        let filled = one.stamp.iter().filter(|byte| **byte != 0).count().max(1);
        if news(kind) {
            two.bound < one.bound
        } else {
            two.stamp[..filled - 1] > one.stamp[..filled - 1]
        }
    });
    assert!(shorter.contains("numbers"));
}

/// One of kind, sender and receiver is not looked at.
#[test]
fn two_of_another_slot_are_found() {
    for passed_over in 0..3 {
        let found = fault_in_newer(|[(kind, one), (other, two)], outcome| {
            let same = [kind == other, one.sender == two.sender, one.receiver == two.receiver];
            if outcome.refusal == 9 && (0..3).all(|k| k == passed_over || same[k]) {
                (outcome.refusal, outcome.numbers) = (0, vec![1]);
            }
        });
        assert!(found.contains("refusal 9 by the reference, 0 by the other"));
    }
}

/// The second is looked at first.
#[test]
fn the_second_checked_first_is_found() {
    let turned = |input: Input| {
        let Input::Newer { n, sizes, second, .. } = input.clone() else { unreachable!("two messages") };
        let mut outcome = calls::reference(input);
        if let Err(refusal) = message::parse(n, &sizes, &second) {
            outcome.refusal = refusal;
        }
        outcome
    };
    let found = compare(Call::Newer, 20_000, 1, turned).difference.expect("a difference");
    assert!(describe(&found).contains("refusal "));
}

/// 02's job 13 with the first cost as the lowest digit: the digits the other way round.
#[test]
fn the_first_cost_as_the_lowest_digit_is_found() {
    let turned = |input: Input| {
        let Input::Tiny { units, number, stream } = input else { unreachable!("a tiny table") };
        let tables = tiny::tables(units).unwrap_or(0);
        let turned = if number < tables { number.reverse_bits() >> (tables.leading_zeros() + 1) } else { number };
        calls::reference(Input::Tiny { units, number: turned, stream })
    };
    let found = compare(Call::Tiny, 20_000, 1, turned).difference.expect("a difference");
    assert_eq!((found.reference.refusal, found.other.refusal), (0, 0));
    assert!(describe(&found).contains("byte "));
}

#[test]
fn room_looked_at_before_a_tiny_tables_number_is_found() {
    let room_first = |input: Input| {
        let Input::Tiny { stream, .. } = &input else { unreachable!("a tiny table") };
        let short = stream.len() < table::MAX_STREAM;
        let mut outcome = calls::reference(input);
        if outcome.refusal == 21 && short {
            outcome.refusal = 13;
        }
        outcome
    };
    let found = compare(Call::Tiny, 20_000, 1, room_first).difference.expect("a difference");
    assert!(describe(&found).contains("refusal 21 by the reference, 13 by the other"));
}

/// A start that asks for the unit's number before the stream's 5, 6 and 7.
#[test]
fn a_units_number_before_its_stream_is_found() {
    let number_first = |input: Input| {
        let Input::Start { own, .. } = input else { unreachable!("a start") };
        let mut outcome = calls::reference(input);
        if (5..=7).contains(&outcome.refusal) && !(1..=16).contains(&own) {
            outcome.refusal = 10;
        }
        outcome
    };
    let found = compare(Call::Start, 20_000, 1, number_first).difference.expect("a difference");
    assert!(describe(&found).contains("10 by the other"));
}

/// A start that a refused block ends, although it comes again.
#[test]
fn a_start_that_a_refused_block_ends_is_found() {
    let ended = |mut input: Input| {
        let Input::Start { blocks, .. } = &mut input else { unreachable!("a start") };
        blocks.iter_mut().for_each(|handed| handed.again = false);
        calls::reference(input)
    };
    let found = compare(Call::Start, 20_000, 1, ended).difference.expect("a difference");
    assert!(describe(&found).contains("numbers "));
}
