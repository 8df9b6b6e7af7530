//! The generators reach every refusal of every call in either order of values, and every case of forbidden pairs, of unary costs, of the
//! order, of echoes, of the pool of slots, of branch and bound, of costs pushed forward, of a retest, of tiny tables, of replays and of a start from
//! blocks, and a refused call of the reference leaves what it was lent, a replay's but for the deliveries before it, all projections' but for the
//! moves before it.

use harness::calls::{self, Call, Input, Outcome, CALLS, NUMBERS};
use harness::cases;
use harness::generate;
use harness::random::Random;

fn inputs(call: Call) -> u32 {
    match call {
        Call::Deliver(_) | Call::Echo(_) | Call::Settle(_) => 4_000,
        Call::Search | Call::BranchAndBound => 4_000,
        Call::ProjectAll | Call::LowerBound => 2_000,
        Call::DeliverSlots(_) | Call::ReplaySlots(_) | Call::SettleSlots(_) => 4_000,
        _ => 20_000,
    }
}

/// The buffer that a call may write, before it; not that of a replay or of all projections, where what comes before the refusal stands.
fn lent(input: &Input) -> Option<Vec<u8>> {
    match input {
        Input::Read { stream: lent, .. }
        | Input::Write { file: lent, .. }
        | Input::Convert { out: lent, .. }
        | Input::Readings { stream: lent, .. }
        | Input::Tiny { stream: lent, .. }
        | Input::Lent { out: lent, .. }
        | Input::Encode { out: lent, .. }
        | Input::Make { out: lent, .. }
        | Input::Step { out: lent, .. }
        | Input::MakeNetwork { pool: lent, .. }
        | Input::Deliver { pool: lent, .. }
        | Input::Settle { pool: lent, .. }
        | Input::MakeSlots { pool: lent, .. }
        | Input::DeliverSlots { pool: lent, .. }
        | Input::SettleSlots { pool: lent, .. } => Some(lent.clone()),
        Input::Hold { costs, .. } | Input::LowerBound { costs, .. } => Some(calls::bytes_of(costs)),
        Input::Project { held, .. } | Input::ProjectUnary { held, .. } | Input::Extend { held, .. } => {
            Some(calls::bytes_of(&held.costs))
        }
        _ => None,
    }
}

/// What the cells leave that a refused replay delivered, with its refusal.
fn up_to_refused(mut input: Input, outcome: &Outcome) -> Outcome {
    if let Input::ReplaySlots { shed, list, .. } = &mut input {
        let done = calls::shed_in(outcome).deliveries.wrapping_sub(shed.deliveries);
        list.truncate(2 * done as usize);
    }
    let replayed = calls::reference(input);
    assert_eq!(replayed.refusal, 0);
    Outcome { refusal: outcome.refusal, ..replayed }
}

#[test]
fn every_refusal_is_reached_and_leaves_what_was_lent() {
    for (call, name, refusals) in CALLS {
        let mut random = Random::new(1);
        let mut reached = [0u32; NUMBERS];
        let mut came_to = Vec::new();
        for _ in 0..inputs(call) {
            let input = generate::input(&mut random, call);
            let before = input.clone();
            let outcome = calls::reference(input);
            reached[outcome.refusal as usize] += 1;
            came_to.extend(cases::reached(call, &before, &outcome));
            if outcome.refusal == 0 {
                continue;
            }
            if let Some(bytes) = lent(&before) {
                assert_eq!(outcome.lent, bytes, "{name} refused by {} wrote", outcome.refusal);
            }
            match before {
                Input::Step { unit, .. } => assert_eq!(outcome.units, [unit], "{name}"),
                Input::Deliver { network, .. } => assert_eq!(calls::network_in(&outcome), *network, "{name}"),
                Input::DeliverSlots { shed, .. } => assert_eq!(calls::shed_in(&outcome), *shed, "{name}"),
                Input::ReplaySlots { .. } => assert!(outcome == up_to_refused(before, &outcome), "{name}"),
                _ => {}
            }
        }
        println!("{name}: accepted {}, refused {:?}", reached[0], &reached[1..]);
        assert!(reached[0] > 100, "{name} was accepted {} times", reached[0]);
        for refusal in 1..NUMBERS as u8 {
            let times = reached[refusal as usize];
            let can = refusals.contains(&refusal);
            assert!(can == (times > 0), "{name}: refusal {refusal} came {times} times");
        }
        for case in cases::cases(call) {
            let times = came_to.iter().filter(|reached| **reached == case).count();
            println!("  {case} {times} times");
            assert!(times > 0, "{name} never came to {case}");
        }
    }
}
