//! 02's job 4 on the reference implementation, at the end on the Rattle library, too, with the feature `linked`: the numbers of the cells, T's run
//! over this pool, making and a delivery, their refusals in their order, a pool with every cell in use, and the newer of two messages. Expected
//! values are worked out by hand, as the comments say.

use harness::calls::{self, Call, Event, Input, Outcome};
use harness::generate;
use harness::lent::places;
use harness::random::Random;
use harness::reference::message::{self, Message, SIZE};
use harness::reference::network::{self, Network};
use harness::reference::order::ValueOrder::{self, Ascending, CheapestFirst};
use harness::reference::slots::{self, Shed, Slot, CELLS, POOL};
use harness::reference::{table, Places, Refusal, NONE};
use harness::sample;
use std::collections::HashSet;

// Cells

fn slot((kind, sender, receiver): (u8, u8, u8)) -> Slot {
    Slot { kind, sender, receiver }
}

/// Of two units: each CPA one way, a request and an estimate, news and a stop. Of three: 02's order goes by kind, then sender, then receiver.
#[test]
fn cells_of_two_and_three_units() {
    let two = [(1, 1, 2), (1, 2, 1), (2, 1, 2), (3, 2, 1), (4, 2, 1), (5, 1, 2)];
    assert_eq!(slots::slots(2), two.map(slot));
    let cpas = [(1, 1, 2), (1, 2, 1), (1, 2, 3), (1, 3, 2)];
    let requests = [(2, 1, 2), (2, 1, 3), (2, 2, 3)];
    let estimates = [(3, 2, 1), (3, 3, 1), (3, 3, 2)];
    let told = [(4, 3, 1), (4, 3, 2), (5, 1, 2), (5, 1, 3)];
    assert_eq!(
        slots::slots(3),
        [&cpas[..], &requests, &estimates, &told].concat().into_iter().map(slot).collect::<Vec<_>>()
    );
}

/// 02: "n units use the first (n-1) × (n+4)", "300 cells for 16 units"; each of the triples has a cell of its own, and each cell one.
#[test]
fn a_cell_each() {
    for n in 1..=16u8 {
        let all = slots::slots(n);
        assert_eq!(all.len(), (n as usize - 1) * (n as usize + 4), "{n} units");
        let key = |slot: &Slot| (slot.kind, slot.sender, slot.receiver);
        assert!(all.windows(2).all(|two| key(&two[0]) < key(&two[1])), "{n} units");
        let mut cells = HashSet::new();
        for kind in 0..=255 {
            for sender in 0..=17 {
                for receiver in 0..=17 {
                    cells.extend(slots::cell_of(n, Slot { kind, sender, receiver }));
                }
            }
        }
        assert_eq!(cells, (0..all.len()).collect(), "{n} units");
    }
    assert_eq!(slots::slots(16).len(), CELLS);
    // two CPAs, a request or an estimate of each other unit, news and a stop: as include/riksamoe.h counts them
    let to = |receiver: u8| slots::slots(16).iter().filter(|slot| slot.receiver == receiver).count();
    assert_eq!((1..=16).map(to).max(), Some(19));
    let of_kind = |kind: u8| slots::slots(16).iter().filter(|slot| slot.kind == kind).count();
    assert_eq!([1, 2, 3, 4, 5].map(of_kind), [30, 120, 120, 15, 15]);
}

/// Whether a message of this slot reads, whatever its fields: with so many places filled by ones, and with a bound or without.
fn reads(n: u8, Slot { kind, sender, receiver }: Slot) -> bool {
    let sizes = [1; 16];
    let ones = |count: usize| places(&[1; 16][..count]);
    let mut some = (0..=16).flat_map(|stamped| {
        [0, stamped].into_iter().flat_map(move |filled| [0, n as usize].map(|best| (stamped, filled, best)))
    });
    some.any(|(stamped, filled, best)| {
        let (stamp, values, best) = (ones(stamped), ones(filled), ones(best));
        let message = Message { sender, receiver, stamp, values, best, ..Message::default() };
        message::parse(n, &sizes, &message::encode(kind, &message)).is_ok()
    })
}

/// "that the rules allow": a triple has a cell where a message of it reads.
#[test]
fn a_cell_for_what_reads() {
    for n in 1..=16 {
        let units: Vec<u8> = (0..=n + 1).collect();
        for (sender, receiver) in units.iter().flat_map(|sender| units.iter().map(|receiver| (*sender, *receiver))) {
            for kind in 0..=6 {
                let slot = Slot { kind, sender, receiver };
                assert_eq!(slots::cell_of(n, slot).is_some(), reads(n, slot), "{n} units, {slot:?}");
            }
        }
    }
}

// Runs of T

/// A shed over this pool, its values tried in one order, and its pool, which held something before.
struct Rig {
    order: ValueOrder,
    stream: Vec<u8>,
    shed: Shed,
    pool: Vec<u8>,
}

impl Rig {
    fn of(order: ValueOrder, stream: Vec<u8>) -> Rig {
        let mut pool = vec![0xaa; POOL + 70];
        let shed = slots::make_by(order, &stream, &mut pool).unwrap();
        Rig { order, stream, shed, pool }
    }

    fn n(&self) -> u8 {
        table::head(&self.stream).0
    }

    fn packet(&self, cell: usize) -> &[u8] {
        &self.pool[SIZE * cell..SIZE * (cell + 1)]
    }

    fn message(&self, cell: usize) -> (u8, Message) {
        let (n, sizes) = table::head(&self.stream);
        message::parse(n, &sizes, self.packet(cell)).expect("a message that reads")
    }

    /// 0 or the refusal, after which nothing is another.
    fn deliver(&mut self, cell: u64) -> u8 {
        let before = (self.shed.clone(), self.pool.clone());
        let delivered = slots::deliver_by(self.order, &mut self.shed, &self.stream, &mut self.pool, cell);
        if delivered.is_err() {
            assert!((&before.0, &before.1) == (&self.shed, &self.pool));
        }
        delivered.err().unwrap_or(0)
    }

    fn waiting(&self) -> Vec<usize> {
        slots::waiting(self.n(), &self.pool)
    }

    fn counts(&self) -> (u128, u128) {
        (self.shed.records, self.shed.deliveries)
    }

    /// The lowest cell in use each time until box 1 has stopped: those that are delivered.
    fn settle(&mut self) -> Vec<usize> {
        let mut cells = Vec::new();
        while !self.shed.has_stopped() {
            cells.push(self.waiting()[0]);
            assert_eq!(self.deliver(cells[cells.len() - 1] as u64), 0);
        }
        cells
    }
}

/// T has the cells 0 CPA down, 1 CPA back, 2 request, 3 estimate, 4 news, 5 stop. The lowest cell in use each time, values ascending:
///
/// - Made: unit 1 writes value 1 (h 3, no bound) and sends its CPA, stamp 1, and a request: cells 0 and 2.
/// - Cell 0: unit 2 writes 1 at 5, then 2 at 3, and has no more: it gives the CPA back with the bound 3, best 1, 2, and sends news of it: cells 1,
///   2 and 4.
/// - Cell 1: unit 1 takes the bound 3. Value 2 has 0 + h 2 below it: it is written, stamp 2. The request goes upon the one that waits: cells 0,
///   2 (now stamp 2) and 4.
/// - Cell 0: unit 2 writes 1 at 2, below 3; 2 at 4 is not. The CPA goes back, and the news, 2, go upon those of 3: cells 1, 2 and 4.
/// - Cell 1: unit 1 takes the bound 2, best 2, 1, has no value left and stops: cells 2, 4 and 5.
///
/// 5 records, 4 deliveries. 9 packets were sent, 4 handed over, 3 wait, and 2 were overwritten.
#[test]
fn t_ascending() {
    let mut rig = Rig::of(Ascending, sample::t());
    assert_eq!((rig.waiting(), rig.counts()), (vec![0, 2], (1, 0)));
    assert_eq!((rig.message(0).1.stamp, rig.message(2).1.stamp), (places(&[1]), places(&[1])));
    assert_eq!(rig.deliver(0), 0);
    assert_eq!((rig.waiting(), rig.counts()), (vec![1, 2, 4], (3, 1)));
    assert_eq!((rig.message(1).1.bound, rig.message(4).1.bound, rig.message(4).1.best), (3, 3, places(&[1, 2])));
    let older = [rig.packet(2).to_vec(), rig.packet(4).to_vec()];
    assert_eq!(rig.deliver(1), 0);
    assert_eq!((rig.waiting(), rig.counts()), (vec![0, 2, 4], (4, 2)));
    assert_eq!((rig.message(0).1.stamp, rig.message(2).1.stamp), (places(&[2]), places(&[2])));
    assert_eq!(rig.deliver(0), 0);
    assert_eq!((rig.waiting(), rig.counts()), (vec![1, 2, 4], (5, 3)));
    assert_eq!((rig.message(4).1.bound, rig.message(4).1.best), (2, places(&[2, 1])));
    let sizes = places(&[2, 2]);
    for (older, cell) in older.iter().zip([2, 4]) {
        assert_eq!(slots::newer(2, &sizes, older, rig.packet(cell)), Ok(rig.packet(cell)));
    }
    assert_eq!(rig.deliver(1), 0);
    assert_eq!((rig.waiting(), rig.counts()), (vec![2, 4, 5], (5, 4)));
    let first = &rig.shed.units[0];
    assert_eq!((first.stopped, first.bound, first.best), (1, 2, places(&[2, 1])));
    assert!((0..CELLS as u64 + 2).all(|cell| rig.deliver(cell) == 12));
    assert!(rig.pool[SIZE * 6..].iter().all(|byte| *byte == 0xaa), "bytes past the cells used stay");
    assert_eq!(Rig::of(Ascending, sample::t()).settle(), [0, 1, 0, 1]);
}

/// Cheapest first: unit 1 tries value 2, h 2, before value 1, h 3. Unit 2 writes 1 at 2, and gives the CPA back with that bound, which h of value 1
/// reaches: unit 1 stops. Cells 0 and 1; the request, the news and the stop wait.
#[test]
fn t_cheapest_first() {
    let mut rig = Rig::of(CheapestFirst, sample::t());
    assert_eq!(rig.message(0).1.values, places(&[2]));
    assert_eq!(rig.settle(), [0, 1]);
    assert_eq!((rig.waiting(), rig.counts()), (vec![2, 4, 5], (2, 2)));
    assert_eq!((rig.shed.units[0].bound, rig.shed.units[0].best), (2, places(&[2, 1])));
}

/// All of T's packets, each before another comes upon it: as in 01's case 9, 10 deliveries, the most allowed. The first of unit 1's values: the
/// CPA, the request, the estimate, then the news and the CPA back; the same of the second.
#[test]
fn t_without_overwriting() {
    let mut rig = Rig::of(Ascending, sample::t());
    for cell in [2, 3, 0, 4, 1] {
        assert_eq!(rig.deliver(cell), 0);
    }
    assert_eq!((rig.waiting(), rig.counts()), (vec![0, 2], (4, 5)));
    for cell in [2, 3, 0, 4] {
        assert_eq!(rig.deliver(cell), 0);
        assert!(!rig.shed.has_stopped());
    }
    assert_eq!((rig.deliver(1), rig.counts()), (0, (5, 10)));
    assert_eq!((rig.shed.has_stopped(), rig.waiting()), (true, vec![5]));
}

/// 01's case 6 over this pool: CPA, news, request, estimate. Unit 1 gives up value 1 on the estimate, 3, and writes value 2 with stamp 2; the CPA
/// that goes back is then stale: taken, and nothing else.
#[test]
fn a_stale_packet_is_taken() {
    let mut rig = Rig::of(Ascending, sample::t());
    for cell in [0, 4, 2, 3] {
        assert_eq!(rig.deliver(cell), 0);
    }
    assert_eq!((rig.shed.units[0].values, rig.shed.units[0].stamp), (places(&[2]), places(&[2])));
    assert_eq!(rig.waiting(), [0, 1, 2]);
    let (units, pool) = (rig.shed.units, rig.pool.clone());
    assert_eq!((rig.deliver(1), rig.counts()), (0, (4, 5)));
    assert_eq!((rig.waiting(), rig.shed.units), (vec![0, 2], units));
    assert_eq!((&rig.pool[..SIZE], &rig.pool[2 * SIZE..]), (&pool[..SIZE], &pool[2 * SIZE..]));
}

// Making

/// "which making the shed zeroes before unit 1's messages go in"; "Cells past" those are left, and one unit uses none.
#[test]
fn making_zeroes_the_cells_used() {
    let rig = Rig::of(Ascending, sample::stream(&[1, 2, 2], &[1; 8]));
    assert_eq!(rig.waiting(), [0, 4, 5]);
    assert_eq!((rig.message(0).0, rig.message(4).1.receiver, rig.message(5).1.receiver), (message::CPA, 2, 3));
    let zero = |cell: usize| rig.packet(cell).iter().all(|byte| *byte == 0);
    assert!((0..14).filter(|cell| ![0, 4, 5].contains(cell)).all(zero));
    assert!(rig.pool[SIZE * 14..].iter().all(|byte| *byte == 0xaa));
    let alone = Rig::of(Ascending, sample::stream(&[3], &[]));
    assert!(alone.shed.has_stopped() && alone.pool.iter().all(|byte| *byte == 0xaa));
    assert_eq!(alone.counts(), (1, 0));
    let all = Rig::of(Ascending, sample::stream(&[1; 16], &[0; 120]));
    assert!(all.pool[POOL..].iter().all(|byte| *byte == 0xaa));
    // the CPA is cell 0; requests begin behind 30 CPAs
    assert_eq!(all.waiting(), [0].into_iter().chain(30..45).collect::<Vec<_>>());
    // unit 1 has no value to write: it stops when made, and its stops are the last cells
    let none = Rig::of(Ascending, sample::stream(&[1, 1, 1], &[65_535; 3]));
    assert_eq!((none.shed.has_stopped(), none.waiting(), none.counts()), (true, vec![12, 13], (0, 0)));
}

/// One thing wrong with a stream or a pool.
type FaultInMaking = fn(&mut Vec<u8>, &mut Vec<u8>);

/// 5, 6, 7, then 13, which reads 19,200 for this pool.
#[test]
fn making_refused() {
    let faults: [(u8, FaultInMaking); 4] = [
        (5, |stream, _| stream[1] = 17),
        (6, |stream, _| stream.push(0)),
        (7, |stream, _| stream[3..5].copy_from_slice(&60_001u16.to_le_bytes())),
        (13, |_, pool| pool.truncate(19_199)),
    ];
    for first in 0..faults.len() {
        for last in first..faults.len() {
            let (mut stream, mut pool) = (sample::t(), vec![0xaa; POOL]);
            faults[first..=last].iter().rev().for_each(|(_, fault)| fault(&mut stream, &mut pool));
            assert_eq!(slots::make(&stream, &mut pool), Err(faults[first].0), "faults {first} to {last}");
            assert_eq!(slots::settle(&stream, &mut pool), Err(faults[first].0), "faults {first} to {last}");
            assert!(pool.iter().all(|byte| *byte == 0xaa));
        }
    }
    assert!(slots::make(&sample::t(), &mut [0; 19_200]).is_ok());
}

// Refusals of a delivery

#[test]
fn no_message_at_that_cell() {
    let mut rig = Rig::of(Ascending, sample::t());
    for cell in [1, 3, 4, 5] {
        assert_eq!(rig.deliver(cell), 15, "cell {cell}, which is all zero");
    }
    // those past 5 hold something
    for cell in (6..302).chain([1 << 32, 1 << 58, u64::MAX]) {
        assert_eq!(rig.deliver(cell), 15, "cell {cell}, past those used");
    }
    // numbers that are 0 and 2 in fewer bits
    assert_eq!((rig.deliver(1 << 32), rig.deliver((1 << 32) + 2), rig.deliver((1 << 58) + 2)), (15, 15, 15));
    for at in 0..SIZE {
        rig.pool[SIZE + at] = 1;
        assert_eq!(rig.deliver(1), 8, "byte {at} is not zero");
        rig.pool[SIZE + at] = 0;
    }
}

/// Every message of T, in every cell but its own: 9. In its own it is accepted.
#[test]
fn a_message_in_a_cell_not_its_own() {
    let mut rig = Rig::of(Ascending, sample::t());
    for _ in 0..4 {
        let lowest = rig.waiting()[0];
        for cell in rig.waiting() {
            let packet = rig.packet(cell).to_vec();
            for other in (0..6).filter(|other| *other != cell) {
                let mut stray =
                    Rig { stream: rig.stream.clone(), shed: rig.shed.clone(), pool: rig.pool.clone(), ..rig };
                stray.pool[SIZE * other..][..SIZE].copy_from_slice(&packet);
                assert_eq!(stray.deliver(other as u64), 9, "that of cell {cell} in cell {other}");
                assert_eq!(stray.deliver(cell as u64), 0, "cell {cell}");
            }
        }
        assert_eq!(rig.deliver(lowest as u64), 0);
    }
}

/// A shed before a delivery, the cell that is named, and what stands there.
struct Lent {
    rig: Rig,
    cell: u64,
    packet: Vec<u8>,
}

type Fault = fn(&mut Lent);

/// Each refusal in its order, alone and with those that come after it. 01: "Delivery: 13, 5 (n, sizes), 6, 7, 5 (any unit's state ..), 12, 15, the
/// step's from 8 on"; 02's "9" of another cell comes after the message's own. Of three units of two values; unit 2 is the one that hears.
#[test]
fn refusals_in_their_order() {
    let faults: [(u8, Fault); 14] = [
        (13, |lent| lent.rig.pool.truncate(19_199)),
        (5, |lent| lent.rig.stream[1] = 17),
        (6, |lent| lent.rig.stream.push(0)),
        (7, |lent| lent.rig.stream[4..6].copy_from_slice(&60_001u16.to_le_bytes())),
        (5, |lent| lent.rig.shed.units[1].threshold[15] = 18),
        (12, |lent| lent.rig.shed.units[0].stopped = 1),
        (15, |lent| lent.cell = 14),
        (15, |lent| lent.packet = vec![0; SIZE]),
        (8, |lent| lent.packet[63] ^= 1),
        (10, |lent| reseal(&mut lent.packet, 1, 4)),
        (9, |lent| reseal(&mut lent.packet, 60, 1)),
        (9, |lent| lent.cell = 13),
        (12, |lent| lent.rig.shed.units[1].stopped = 1),
        (11, |lent| (lent.packet, lent.cell) = (estimate_of_no_cpa(), 9)),
    ];
    for (first, (refusal, _)) in faults.iter().enumerate() {
        for last in first..faults.len() {
            let rig = Rig::of(Ascending, sample::stream(&[2; 3], &[1; 12]));
            let mut lent = Lent { cell: 0, packet: rig.packet(0).to_vec(), rig };
            // the later ones first: those that change bytes build on a packet that reads
            for (_, fault) in faults[first..=last].iter().rev() {
                fault(&mut lent);
            }
            let Lent { mut rig, cell, packet } = lent;
            let at = SIZE * cell as usize;
            rig.pool[at..at + SIZE].copy_from_slice(&packet);
            assert_eq!(rig.deliver(cell), *refusal, "faults {first} to {last}");
        }
    }
}

/// A byte put anywhere, and the check made right again.
fn reseal(packet: &mut [u8], at: usize, byte: u8) {
    packet[at] = byte;
    message::seal(packet.try_into().expect("64 bytes"));
}

/// To unit 2, which has no CPA out.
fn estimate_of_no_cpa() -> Vec<u8> {
    let estimate = Message { sender: 3, receiver: 2, stamp: places(&[1, 1]), cost: 3, ..Message::default() };
    message::encode(message::ESTIMATE, &estimate).to_vec()
}

// Every cell in use

/// Unit 16 has all 15 units before it out, writes its value, and answers with its CPA and 15 news: 16 packets, though no cell is free but the one
/// taken. "14 is shown never to occur here".
#[test]
fn every_cell_in_use() {
    let stream = sample::stream(&[1; 16], &[0; 120]);
    let mut rig = Rig::of(Ascending, stream);
    let sizes = table::head(&rig.stream).1;
    let down = Slot { kind: message::CPA, sender: 15, receiver: 16 };
    let ones = |count: usize| places(&[1; 16][..count]);
    let mut fills = |slot: Slot| {
        let Slot { kind, sender, receiver } = slot;
        let filled = match kind {
            message::CPA if sender < receiver => sender as usize,
            message::CPA => receiver as usize,
            message::REQUEST => sender as usize,
            _ => 0,
        };
        let stamped = if kind == message::ESTIMATE { receiver as usize } else { filled };
        let (bound, best) = match kind {
            message::SOLUTION => (7, ones(16)),
            message::CPA | message::STOP => (NONE, ones(0)),
            _ => (0, ones(0)),
        };
        let message =
            Message { sender, receiver, stamp: ones(stamped), values: ones(filled), bound, best, ..Message::default() };
        let cell = slots::cell_of(16, slot).unwrap();
        rig.pool[SIZE * cell..][..SIZE].copy_from_slice(&message::encode(kind, &message));
        assert!(message::parse(16, &sizes, &message::encode(kind, &message)).is_ok(), "{slot:?}");
    };
    slots::slots(16).into_iter().for_each(&mut fills);
    assert_eq!(rig.waiting().len(), CELLS);
    let cell = slots::cell_of(16, down).unwrap();
    // behind unit 1's CPA, two of each unit from 2 to 14, and unit 15's back
    assert_eq!((cell, rig.deliver(cell as u64)), (28, 0));
    assert_eq!((rig.waiting().len(), rig.counts()), (CELLS - 1, (2, 1)));
    let news = (0..CELLS).filter(|cell| rig.packet(*cell)[0] == message::SOLUTION);
    assert!(news.clone().count() == 15 && news.clone().all(|cell| rig.message(cell).1.bound == 0));
    assert_eq!((rig.message(29).1.sender, rig.message(29).1.bound), (16, 0));
}

#[test]
fn counts_start_again_at_0() {
    let mut rig = Rig::of(Ascending, sample::t());
    (rig.shed.records, rig.shed.deliveries) = (u128::MAX, u128::MAX);
    assert_eq!((rig.deliver(0), rig.counts()), (0, (1, 0)));
}

/// A fresh message goes upon whatever stands in its cell, though it be newer or no message. 02: "A fresh message overwrites the older one in its
/// cell" – in a run there is no newer one.
#[test]
fn whatever_stands_there_is_overwritten() {
    let mut rig = Rig::of(Ascending, sample::t());
    rig.pool[SIZE..2 * SIZE].fill(0xff);
    let newer = Message { sender: 2, receiver: 1, bound: 0, best: places(&[2, 2]), ..Message::default() };
    rig.pool[4 * SIZE..5 * SIZE].copy_from_slice(&message::encode(message::SOLUTION, &newer));
    assert_eq!(rig.deliver(0), 0);
    assert_eq!((rig.message(1).1.bound, rig.message(4).1.bound), (3, 3));
}

// The newer of two

const SIZES: [u8; 4] = [3, 3, 3, 3];

/// Which one is handed back: it must be the very buffer.
fn which(first: &[u8], second: &[u8]) -> Result<u8, Refusal> {
    let newer = slots::newer(4, &places(&SIZES), first, second)?;
    assert_eq!(newer.len(), SIZE);
    Ok(if std::ptr::eq(newer, first) { 1 } else { 2 })
}

fn cpa(stamp: &[u8], cost: u32) -> Vec<u8> {
    let stamp: Places = places(stamp);
    let values = stamp.map(|byte| u8::from(byte != 0));
    let message = Message { sender: 3, receiver: 4, stamp, values, cost, bound: NONE, ..Message::default() };
    message::encode(message::CPA, &message).to_vec()
}

fn news(bound: u32, last: u8) -> Vec<u8> {
    let message = Message { sender: 4, receiver: 2, bound, best: places(&[1, 1, 1, last]), ..Message::default() };
    message::encode(message::SOLUTION, &message).to_vec()
}

fn stop(bound: u32) -> Vec<u8> {
    let best = if bound == NONE { [0; 16] } else { places(&[1; 4]) };
    message::encode(message::STOP, &Message { sender: 1, receiver: 2, bound, best, ..Message::default() }).to_vec()
}

/// "by stamp": from unit 1 on, the bigger is newer, whatever the rest.
#[test]
fn newer_by_stamp() {
    assert_eq!(
        (which(&cpa(&[1, 1, 1], 0), &cpa(&[1, 1, 2], 0)), which(&cpa(&[1, 1, 2], 0), &cpa(&[1, 1, 1], 0))),
        (Ok(2), Ok(1))
    );
    assert_eq!(
        (which(&cpa(&[1, 3, 3], 0), &cpa(&[2, 1, 1], 0)), which(&cpa(&[2, 1, 1], 0), &cpa(&[1, 3, 3], 0))),
        (Ok(2), Ok(1))
    );
    // "the first on a tie"
    assert_eq!(
        (which(&cpa(&[1, 2, 3], 5), &cpa(&[1, 2, 3], 4)), which(&cpa(&[1, 2, 3], 4), &cpa(&[1, 2, 3], 5))),
        (Ok(1), Ok(1))
    );
    let estimate = |stamp: &[u8], cost: u32| {
        let message = Message { sender: 4, receiver: 2, stamp: places(stamp), cost, ..Message::default() };
        message::encode(message::ESTIMATE, &message).to_vec()
    };
    assert_eq!(
        (which(&estimate(&[2, 1], 9), &estimate(&[2, 2], 1)), which(&estimate(&[2, 1], 9), &estimate(&[2, 1], NONE))),
        (Ok(2), Ok(1))
    );
}

/// "by lower bound for news, the first on a tie"; stops have no stamp: the first.
#[test]
fn newer_news_and_stops() {
    assert_eq!((which(&news(7, 1), &news(6, 1)), which(&news(6, 1), &news(7, 1))), (Ok(2), Ok(1)));
    assert_eq!((which(&news(7, 1), &news(7, 2)), which(&news(7, 2), &news(7, 1))), (Ok(1), Ok(1)));
    assert_eq!((which(&news(256, 1), &news(255, 1)), which(&news(255, 1), &news(256, 1))), (Ok(2), Ok(1)));
    assert_eq!(
        (which(&stop(NONE), &stop(5)), which(&stop(5), &stop(NONE)), which(&stop(6), &stop(5))),
        (Ok(1), Ok(1), Ok(1))
    );
}

/// "Each must read, the first checked first, and two that differ in any of the three get 9": 5, the first's 8, 10, 9, the second's, 9.
#[test]
fn newer_refused() {
    let good = news(7, 1);
    let eight = good[..63].to_vec();
    let ten = reseal_new(&good, 1, 5);
    let nine = reseal_new(&good, 60, 1);
    for (bad, refusal) in [(&eight, 8), (&ten, 10), (&nine, 9)] {
        assert_eq!(which(bad, &good), Err(refusal));
        assert_eq!(which(&good, bad), Err(refusal));
        for other in [&eight, &ten, &nine, &stop(5)] {
            assert_eq!(which(bad, other), Err(refusal));
        }
        let sizes = places(&[3, 3, 17, 3]);
        assert_eq!(slots::newer(4, &sizes, bad, &good), Err(5));
        assert_eq!((slots::newer(0, &sizes, &good, bad), slots::newer(17, &[1; 16], &good, &good)), (Err(5), Err(5)));
    }
    assert_eq!(which(&[&good[..], &[0]].concat(), &good), Err(8));
    assert_eq!(which(&good, &[]), Err(8));
    // another kind, another receiver, another sender
    let to_two = Message { sender: 4, receiver: 2, stamp: places(&[1, 1]), ..Message::default() };
    assert_eq!(which(&good, &message::encode(message::ESTIMATE, &to_two)), Err(9));
    assert_eq!(which(&good, &reseal_new(&good, 2, 3)), Err(9));
    let from_three = Message { sender: 3, ..to_two };
    let estimates = [to_two, from_three].map(|message| message::encode(message::ESTIMATE, &message));
    assert_eq!((which(&estimates[0], &estimates[1]), which(&estimates[0], &estimates[0])), (Err(9), Ok(1)));
}

fn reseal_new(packet: &[u8], at: usize, byte: u8) -> Vec<u8> {
    let mut packet = packet.to_vec();
    reseal(&mut packet, at, byte);
    packet
}

// The order of values

/// Unit 1 of T tries value 2 first, unless an order is named.
#[test]
fn whoever_names_nothing_gets_the_new_one() {
    let stream = sample::t();
    let mut pool = vec![0; POOL];
    let made = slots::make(&stream, &mut pool).unwrap();
    assert_eq!(made.units[0].values, places(&[2]));
    assert_eq!(slots::settle(&stream, &mut pool.clone()), slots::settle_by(CheapestFirst, &stream, &mut pool.clone()));
    // unit 1 has out value 2, the first of its order and the second of the other: a counter of 2 is in range in one alone
    let stamp = places(&[2]);
    let mut shed = made.clone();
    (shed.units[0].stamp, shed.units[0].threshold, shed.units[0].counter) = (stamp, stamp, 2);
    let back = Message { sender: 2, receiver: 1, stamp, values: places(&[2]), bound: NONE, ..Message::default() };
    pool[SIZE..2 * SIZE].copy_from_slice(&message::encode(message::CPA, &back));
    assert_eq!(slots::deliver(&mut shed, &stream, &mut pool, 1), Err(5));
    assert_eq!(slots::deliver_by(CheapestFirst, &mut shed, &stream, &mut pool, 1), Err(5));
    assert_eq!(slots::deliver_by(Ascending, &mut shed, &stream, &mut pool, 1), Ok(()));
}

// A delivery over either pool

/// The same delivery over 01's pool, where the message alone waits. None where the cell is not one with a message of its own.
fn over_the_old_pool(input: &Input) -> Option<Input> {
    let Input::DeliverSlots { order, shed, stream, cell, pool } = input else { return None };
    table::check_stream(stream).ok()?;
    let packet = pool.chunks_exact(SIZE).nth(usize::try_from(*cell).ok()?)?;
    let (kind, message) = message::fields(packet);
    let own = slots::cell_of(table::head(stream).0, Slot::of(kind, &message))?;
    if pool.len() < POOL || own as u64 != *cell {
        return None;
    }
    let mut old = vec![0; network::POOL];
    old[..SIZE].copy_from_slice(packet);
    let Shed { units, records, deliveries } = **shed;
    let network = Box::new(Network { units, count: 1, records, deliveries });
    Some(Input::Deliver { order: *order, network, stream: stream.clone(), event: Event::Cell(0), pool: old })
}

/// What the delivery over 01's pool left, over this one.
fn over_the_slots(old: &Outcome, input: &Input) -> Outcome {
    let Input::DeliverSlots { stream, cell, pool, .. } = input else { unreachable!("a delivery") };
    let (n, mut pool) = (table::head(stream).0, pool.clone());
    if old.refusal == 0 {
        pool[SIZE * *cell as usize..][..SIZE].fill(0);
        for packet in old.lent.chunks_exact(SIZE).take(old.numbers[0] as usize) {
            let (kind, message) = message::fields(packet);
            let own = slots::cell_of(n, Slot::of(kind, &message)).expect("what is sent has a cell");
            pool[SIZE * own..][..SIZE].copy_from_slice(packet);
        }
    }
    Outcome { numbers: old.numbers[1..].to_vec(), lent: pool, ..old.clone() }
}

/// A message in its own cell is delivered as over 01's pool; what it sends goes into cells of its own.
fn deliveries_are_deliveries(call: &dyn Fn(Input) -> Outcome) {
    for order in ValueOrder::BOTH {
        let mut random = Random::new(2);
        let mut accepted = 0;
        for _ in 0..4_000 {
            let input = generate::input(&mut random, Call::DeliverSlots(order));
            let Some(old) = over_the_old_pool(&input) else { continue };
            let delivered = call(input.clone());
            assert!(delivered == over_the_slots(&call(old), &input), "{order:?}, {}", delivered.refusal);
            accepted += u32::from(delivered.refusal == 0);
        }
        assert!(accepted > 1_000, "{order:?}: {accepted} accepted");
    }
}

#[test]
fn a_delivery_is_one_over_the_old_pool() {
    deliveries_are_deliveries(&calls::reference);
}

// The library

#[cfg(feature = "linked")]
#[test]
fn a_delivery_of_the_library_is_one_over_the_old_pool() {
    deliveries_are_deliveries(&harness::linked::linked);
}

/// Every kind, and every sender and receiver up to past the 16 units; then more units than there may be.
#[cfg(feature = "linked")]
#[test]
fn every_cell_of_the_library() {
    use harness::linked;
    for n in (0..=17).chain([18, 33, 128, 254, 255]) {
        let cells: std::collections::HashMap<_, _> = slots::slots(n)
            .into_iter()
            .zip(0u64..)
            .map(|(slot, cell)| ((slot.kind, slot.sender, slot.receiver), cell))
            .collect();
        let (kinds, most) = if n <= 17 { (0..=255, 18) } else { (0..=6, 255) };
        for kind in kinds {
            for sender in 0..=most {
                for receiver in 0..=most {
                    let cell = cells.get(&(kind, sender, receiver)).copied().unwrap_or(CELLS as u64);
                    let slot = Slot { kind, sender, receiver };
                    assert_eq!(linked::slot_of(n, slot), cell, "{n} units, {slot:?}");
                }
            }
        }
    }
}
