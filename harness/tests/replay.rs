//! 02's job 14 on the reference implementation and, with the feature `linked`, on the Rattle library: T's runs replayed, the bytes of a list, what
//! stands after a refusal, refusals in their order, lists that are empty or odd; a replay is the deliveries one after another, and a list that is
//! cut gives the same as the whole. Expected values are worked out by hand, as the comments say.

use harness::calls::{self, Call, Input, Named, Outcome};
use harness::generate;
use harness::lent::places;
use harness::random::Random;
use harness::recorded::{self, Schedule};
use harness::reference::message::{self, Message, SIZE};
use harness::reference::order::ValueOrder::{self, Ascending, CheapestFirst};
use harness::reference::slots::{self, Shed, POOL};
use harness::sample;
use std::fs;

type Implementation = fn(Input) -> Outcome;

#[cfg(not(feature = "linked"))]
const IMPLEMENTATIONS: [Implementation; 1] = [calls::reference];

#[cfg(feature = "linked")]
const IMPLEMENTATIONS: [Implementation; 2] = [calls::reference, harness::linked::linked];

// Runs of T

/// What a replay is lent beside its list.
#[derive(Clone)]
struct Rig {
    order: Named,
    stream: Vec<u8>,
    shed: Shed,
    pool: Vec<u8>,
}

impl Rig {
    /// A shed as it is made; its pool held something before.
    fn of(order: ValueOrder, stream: Vec<u8>) -> Rig {
        let mut pool = vec![0xaa; POOL + 70];
        let shed = slots::make_by(order, &stream, &mut pool).unwrap();
        Rig { order: Some(order.number()), stream, shed, pool }
    }

    fn input(&self, list: &[u8]) -> Input {
        let Rig { order, stream, shed, pool } = self.clone();
        Input::ReplaySlots { order, shed: Box::new(shed), stream, list: list.to_vec(), pool }
    }

    /// By one implementation; what it was lent stays.
    fn replay(&self, call: Implementation, list: &[u8]) -> Outcome {
        call(self.input(list))
    }

    /// The shed as it is lent, with this number.
    fn as_lent(&self, refusal: u8) -> Outcome {
        calls::shed_outcome(refusal, &self.shed, self.pool.clone())
    }

    /// Delivered one after another by the reference, each of them accepted.
    fn after(&self, cells: &[u64]) -> Rig {
        let mut rig = self.clone();
        for cell in cells {
            let order = calls::order_of(rig.order);
            slots::deliver_by(order, &mut rig.shed, &rig.stream, &mut rig.pool, *cell).expect("a delivery of the run");
        }
        rig
    }
}

/// tests/slots.rs has T's runs cell by cell. The lowest cell in use each time, values ascending: 0, 1, 0, 1; then unit 1 has stopped with total 2 of
/// values 2, 1, after 5 records and 4 deliveries, and request, news and stop wait. Cheapest first: 0, 1, with 2 records.
#[test]
fn the_runs_of_t() {
    for call in IMPLEMENTATIONS {
        for (order, list, records) in [(Ascending, &[0, 0, 1, 0, 0, 0, 1, 0][..], 5), (CheapestFirst, &[0, 0, 1, 0], 2)]
        {
            let replayed = Rig::of(order, sample::t()).replay(call, list);
            let shed = calls::shed_in(&replayed);
            assert_eq!((replayed.refusal, shed.records, shed.deliveries), (0, records, list.len() as u128 / 2));
            let first = &shed.units[0];
            assert_eq!((first.stopped, first.bound, first.best), (1, 2, places(&[2, 1])));
            assert_eq!(slots::waiting(2, &replayed.lent), [2, 4, 5]);
            assert!(replayed.lent[6 * SIZE..].iter().all(|byte| *byte == 0xaa), "bytes past the cells used stay");
        }
    }
}

/// "low byte first": 1, 0 is cell 1, which is empty; 0, 1 is cell 256, and T has 6; 2, 0 is the request.
#[test]
fn the_low_byte_comes_first() {
    let rig = Rig::of(Ascending, sample::t());
    for call in IMPLEMENTATIONS {
        assert_eq!(rig.replay(call, &[1, 0]), rig.as_lent(15));
        assert_eq!((rig.replay(call, &[0, 1]), rig.replay(call, &[0, 2])), (rig.as_lent(15), rig.as_lent(15)));
        assert_eq!(rig.replay(call, &[2, 0]), rig.after(&[2]).as_lent(0));
    }
    // of 16 units cell 269 is the estimate of unit 16 for unit 15: 269 is 13 and 256
    let mut rig = Rig::of(Ascending, sample::stream(&[1; 16], &[0; 120]));
    let estimate = Message { sender: 16, receiver: 15, stamp: places(&[1; 15]), ..Message::default() };
    rig.pool[SIZE * 269..][..SIZE].copy_from_slice(&message::encode(message::ESTIMATE, &estimate));
    for call in IMPLEMENTATIONS {
        assert_eq!((rig.replay(call, &[13, 1]), rig.replay(call, &[13, 0])), (rig.as_lent(11), rig.as_lent(15)));
    }
}

/// "It ends at the first refusal, with that refusal's number, and the deliveries before it stand": after cell 0 of T, cell 5 is empty; what would
/// follow is not looked at. After unit 1's stop any cell is 12.
#[test]
fn what_stands_after_a_refusal() {
    let rig = Rig::of(Ascending, sample::t());
    for call in IMPLEMENTATIONS {
        let refused = rig.replay(call, &[0, 0, 5, 0, 1, 0, 0, 0, 1, 0]);
        assert_eq!(refused, rig.after(&[0]).as_lent(15));
        assert_eq!(calls::shed_in(&refused).deliveries, 1);
        // a cell that was taken is empty until something goes in again
        assert_eq!(rig.replay(call, &[0, 0, 0, 0]), rig.after(&[0]).as_lent(15));
        let stopped = rig.after(&[0, 1, 0, 1]);
        for next in [0, 2, 4, 5, 200, 255] {
            assert_eq!(rig.replay(call, &[0, 0, 1, 0, 0, 0, 1, 0, next, 0, 2, 0]), stopped.as_lent(12));
            assert_eq!(stopped.replay(call, &[next, 0]), stopped.as_lent(12));
        }
    }
}

// Refusals

type Fault = fn(&mut Rig);

/// What can be wrong with all that is lent, in the order in which a delivery finds it, of T as it is made.
const FAULTS: [(u8, Fault); 10] = [
    (13, |rig| rig.pool.truncate(19_199)),
    (5, |rig| rig.stream[1] = 17),
    (6, |rig| rig.stream.push(0)),
    (7, |rig| rig.stream[3..5].copy_from_slice(&60_001u16.to_le_bytes())),
    (5, |rig| rig.shed.units[1].threshold[15] = 18),
    (12, |rig| rig.shed.units[0].stopped = 1),
    (15, |rig| rig.pool[..SIZE].fill(0)),
    (8, |rig| rig.pool[63] ^= 1),
    (10, |rig| reseal(&mut rig.pool[..SIZE], 2, 3)),
    (9, |rig| reseal(&mut rig.pool[..SIZE], 60, 1)),
];

/// A byte put anywhere, and the check made right again.
fn reseal(packet: &mut [u8], at: usize, byte: u8) {
    packet[at] = byte;
    message::seal(packet.try_into().expect("64 bytes"));
}

/// With the faults from one to another, the later ones first: a cell that was emptied is damaged no more.
fn faulty(first: usize, last: usize) -> Rig {
    let mut rig = Rig::of(Ascending, sample::t());
    FAULTS[first..=last].iter().rev().for_each(|(_, fault)| fault(&mut rig));
    rig
}

/// Each refusal in its order, alone and with those that come after it, at the first cell: nothing changes.
#[test]
fn refusals_in_their_order() {
    for call in IMPLEMENTATIONS {
        for (first, (refusal, _)) in FAULTS.iter().enumerate() {
            for last in first..FAULTS.len() {
                let rig = faulty(first, last);
                assert_eq!(rig.replay(call, &[0, 0, 1, 0]), rig.as_lent(*refusal), "faults {first} to {last}");
            }
        }
    }
}

/// "A list of odd length is 22, before any other check": with every fault, and with none, where its whole pairs would be accepted.
#[test]
fn a_list_of_odd_length() {
    for call in IMPLEMENTATIONS {
        for list in [&[0][..], &[0, 0, 1], &[0, 0, 1, 0, 0], &[9; 601]] {
            let right = Rig::of(Ascending, sample::t());
            assert_eq!(right.replay(call, list), right.as_lent(22), "{list:?}");
            for first in 0..FAULTS.len() {
                for last in first..FAULTS.len() {
                    let rig = faulty(first, last);
                    assert_eq!(rig.replay(call, list), rig.as_lent(22), "{list:?}, faults {first} to {last}");
                }
            }
        }
    }
}

/// "an empty one is never refused": whatever else is lent, and nothing changes.
#[test]
fn an_empty_list() {
    for call in IMPLEMENTATIONS {
        for first in 0..FAULTS.len() {
            for last in first..FAULTS.len() {
                let rig = faulty(first, last);
                assert_eq!(rig.replay(call, &[]), rig.as_lent(0), "faults {first} to {last}");
            }
        }
        let nothing = Rig { order: None, stream: Vec::new(), shed: Shed::default(), pool: Vec::new() };
        assert_eq!((nothing.replay(call, &[]), nothing.replay(call, &[0])), (nothing.as_lent(0), nothing.as_lent(22)));
        assert_eq!(nothing.replay(call, &[0, 0]), nothing.as_lent(13));
    }
}

/// A message in a cell not its own is 9, and 11 is the last: an estimate for a unit that has no CPA out. Both after a delivery that stands.
#[test]
fn a_stray_and_an_estimate_of_no_cpa() {
    let mut rig = Rig::of(Ascending, sample::stream(&[2; 3], &[1; 12]));
    // of three units cell 4 is the request of unit 1 for unit 2, cell 13 a stop, cell 9 the estimate of unit 3 for unit 2
    let estimate = Message { sender: 3, receiver: 2, stamp: places(&[1, 1]), cost: 3, ..Message::default() };
    rig.pool.copy_within(..SIZE, 13 * SIZE);
    rig.pool[9 * SIZE..10 * SIZE].copy_from_slice(&message::encode(message::ESTIMATE, &estimate));
    for call in IMPLEMENTATIONS {
        assert_eq!(rig.replay(call, &[13, 0, 4, 0]), rig.as_lent(9));
        assert_eq!(rig.replay(call, &[4, 0, 13, 0, 0, 0]), rig.after(&[4]).as_lent(9));
        assert_eq!(rig.replay(call, &[4, 0, 9, 0, 0, 0]), rig.after(&[4]).as_lent(11));
    }
}

/// Whoever names no order gets the cheapest first: unit 1 of T has then out value 2, and its counter of 2 is out of range there alone.
#[test]
fn whoever_names_nothing_gets_the_new_one() {
    let mut rig = Rig::of(CheapestFirst, sample::t());
    rig.order = None;
    for call in IMPLEMENTATIONS {
        let cheapest = Rig { order: Some(1), ..rig.clone() };
        assert_eq!(rig.replay(call, &[0, 0, 1, 0]), cheapest.replay(call, &[0, 0, 1, 0]));
        let mut second = rig.clone();
        let first = &mut second.shed.units[0];
        (first.stamp, first.threshold, first.counter) = (places(&[2]), places(&[2]), 2);
        assert_eq!(second.replay(call, &[2, 0]), second.as_lent(5));
        assert_eq!(Rig { order: Some(0), ..second }.replay(call, &[2, 0]).refusal, 0);
    }
}

// Deliveries one after another, and parts

/// An input's list, and the same input with another list on the shed and the pool that an outcome left.
fn onward(input: &Input, left: &Outcome, other: &[u8]) -> Input {
    let Input::ReplaySlots { order, stream, .. } = input else { unreachable!("a replay") };
    let shed = Box::new(calls::shed_in(left));
    Input::ReplaySlots { order: *order, shed, stream: stream.clone(), list: other.to_vec(), pool: left.lent.clone() }
}

fn list_of(input: &Input) -> &[u8] {
    let Input::ReplaySlots { list, .. } = input else { unreachable!("a replay") };
    list
}

/// All as it was lent, and no refusal.
fn as_lent(input: &Input) -> Outcome {
    let Input::ReplaySlots { shed, pool, .. } = input else { unreachable!("a replay") };
    calls::shed_outcome(0, shed, pool.clone())
}

/// The deliveries of a list of whole pairs by single calls, up to the first that is refused.
fn delivered_singly(call: Implementation, input: &Input) -> Outcome {
    let Input::ReplaySlots { order, stream, list, .. } = input else { unreachable!("a replay") };
    let mut outcome = as_lent(input);
    for pair in list.chunks_exact(2) {
        let cell = u64::from(pair[0]) + 256 * u64::from(pair[1]);
        let (shed, pool) = (Box::new(calls::shed_in(&outcome)), outcome.lent);
        outcome = call(Input::DeliverSlots { order: *order, shed, stream: stream.clone(), cell, pool });
        if outcome.refusal != 0 {
            break;
        }
    }
    outcome
}

/// "state, pool and counts equal those of the deliveries one after another".
fn is_its_deliveries(call: Implementation, input: &Input) -> Outcome {
    let replayed = call(input.clone());
    let expected = match list_of(input).len() % 2 {
        0 => delivered_singly(call, input),
        _ => Outcome { refusal: 22, ..as_lent(input) },
    };
    assert!(replayed == expected, "{:?}: {}, {}", list_of(input), replayed.refusal, expected.refusal);
    replayed
}

/// "a list cut between two pairs, its parts replayed in turn, gives the same as the whole, if its first part meets no refusal". Whether it meets
/// none; else the whole ends there, too.
fn is_its_parts(call: Implementation, input: &Input, at: usize) -> bool {
    let (first, rest) = list_of(input).split_at(2 * at);
    let left = call(onward(input, &as_lent(input), first));
    let accepted = left.refusal == 0;
    let parts = if accepted { call(onward(input, &left, rest)) } else { left };
    assert!(call(input.clone()) == parts, "{:?} cut at {at}: {}", list_of(input), parts.refusal);
    accepted
}

/// On any input of the differential test; a list of odd length is one that can't be cut.
#[test]
fn any_replay() {
    for call in IMPLEMENTATIONS {
        for order in ValueOrder::BOTH {
            let mut random = Random::new(5);
            let (mut stand, mut cut, mut cut_off) = (0, 0, 0);
            for _ in 0..4_000 {
                let input = generate::input(&mut random, Call::ReplaySlots(order));
                let replayed = is_its_deliveries(call, &input);
                let stood = calls::shed_in(&replayed).deliveries != calls::shed_in(&as_lent(&input)).deliveries;
                stand += u32::from(replayed.refusal != 0 && stood);
                let pairs = list_of(&input).len() / 2;
                if list_of(&input).len().is_multiple_of(2) {
                    let accepted = is_its_parts(call, &input, random.below(pairs as u64 + 1) as usize);
                    cut += u32::from(accepted && pairs > 1);
                    cut_off += u32::from(!accepted);
                }
            }
            println!("{order:?}: refused after deliveries {stand}, cut {cut}, first part refused {cut_off}");
            assert!(stand > 500 && cut > 1_000 && cut_off > 500, "{order:?}: {stand}, {cut}, {cut_off}");
        }
    }
}

/// The recorded runs of the smaller sample sheds, in both orders and on several schedules: cut at some places, of T at all.
#[test]
fn recorded_runs_of_the_samples() {
    let names = ["t", "three", "five", "none-three", "barred-five", "priced-three", "two-by-sixteen"];
    let small = sample::tables().into_iter().filter(|path| names.iter().any(|name| path.file_stem().unwrap() == *name));
    let mut random = Random::new(9);
    let mut replayed = 0;
    for path in small {
        let stream = sample::read(&fs::read(&path).unwrap()).unwrap();
        for (order, schedule) in ValueOrder::BOTH.into_iter().flat_map(|order| schedules().map(|s| (order, s))) {
            let list = recorded::run(order, schedule, &stream).expect("an accepted table");
            let (rig, pairs) = (Rig::of(order, stream.clone()), list.len() / 2);
            let places: Vec<usize> = if pairs <= 10 {
                (0..=pairs).collect()
            } else {
                (0..5).map(|_| random.below(pairs as u64) as usize).collect()
            };
            for call in IMPLEMENTATIONS {
                let whole = is_its_deliveries(call, &rig.input(&list));
                assert_eq!((whole.refusal, whole.units[0].stopped), (0, 1), "{}, {schedule:?}", path.display());
                assert_eq!(calls::shed_in(&whole).deliveries, pairs as u128);
                assert!(places.iter().all(|at| is_its_parts(call, &rig.input(&list), *at)));
                replayed += 1;
            }
        }
    }
    assert_eq!(replayed, names.len() * 2 * schedules().len() * IMPLEMENTATIONS.len());
}

fn schedules() -> [Schedule; 4] {
    [Schedule::Lowest, Schedule::Highest, Schedule::Random(1), Schedule::Random(2)]
}

#[test]
fn schedules_by_name() {
    let named = ["lowest", "highest", "random:1", "random:2"].map(|name| Schedule::named(name).unwrap());
    assert_eq!(named, schedules());
    assert!(["", "random", "random:", "random:-1", "Lowest"].iter().all(|name| Schedule::named(name).is_none()));
}
