//! 02's job 2 on the reference implementation, at the end on the Rattle library, too, with the feature `linked`: an echo on T, what of it is as in a delivery and what is not, its refusals in their order, and the
//! pool when it is full. Expected values are worked out by hand, as the comments say.

use harness::calls::{self, Call, Event, Input, Outcome};
use harness::generate;
use harness::lent::places;
use harness::random::Random;
use harness::reference::message::{self, Message, SIZE};
use harness::reference::network::{self, Network, CELLS};
use harness::reference::order::ValueOrder::{self, Ascending, CheapestFirst};
use harness::reference::NONE;
use harness::sample;

/// A shed, its values tried ascending: unit 1 has written value 1, and its CPA and its requests wait.
struct Shed {
    stream: Vec<u8>,
    network: Network,
    pool: Vec<u8>,
}

const CPA: usize = 0;
const REQUEST: usize = 1;

impl Shed {
    fn of(stream: Vec<u8>) -> Shed {
        let mut pool = vec![0xaa; network::POOL];
        let network = network::make_by(Ascending, &stream, &mut pool).unwrap();
        Shed { stream, network, pool }
    }

    /// Of T.
    fn new() -> Shed {
        let shed = Shed::of(sample::t());
        assert_eq!(shed.counts(), (2, 1, 0));
        shed
    }

    fn packet(&self, cell: usize) -> Vec<u8> {
        self.pool[SIZE * cell..SIZE * (cell + 1)].to_vec()
    }

    fn message(&self, cell: usize) -> (u8, Message) {
        message::parse(2, &places(&[2, 2]), &self.packet(cell)).expect("a message that reads")
    }

    /// 0 or the refusal, after which nothing is another.
    fn hear(&mut self, event: &Event) -> u8 {
        let before = (self.network.clone(), self.pool.clone());
        let heard = calls::hear(Ascending, &mut self.network, &self.stream, event, &mut self.pool);
        if heard.is_err() {
            assert!((&before.0, &before.1) == (&self.network, &self.pool));
        }
        heard.err().unwrap_or(0)
    }

    fn echo(&mut self, packet: &[u8]) -> u8 {
        self.hear(&Event::Echo(packet.to_vec()))
    }

    fn deliver(&mut self, cell: usize) -> u8 {
        self.hear(&Event::Cell(cell as u64))
    }

    /// Cells in use, records, deliveries.
    fn counts(&self) -> (u64, u128, u128) {
        (self.network.count, self.network.records, self.network.deliveries)
    }

    /// Cells up to so many in use, each with the request.
    fn crowd(&mut self, used: usize) {
        for cell in self.network.count as usize..used {
            self.pool.copy_within(SIZE * REQUEST..SIZE * (REQUEST + 1), SIZE * cell);
        }
        self.network.count = used as u64;
    }
}

// An echo on T

/// Unit 2 hears the CPA before it is delivered: it writes 5, then 3, gives the CPA back and sends news. Both first packets still wait. Delivered
/// then, the CPA is stale.
#[test]
fn an_echo_before_its_packet() {
    let mut shed = Shed::new();
    let waiting = [shed.packet(CPA), shed.packet(REQUEST)];
    assert_eq!(shed.echo(&waiting[CPA]), 0);
    assert_eq!(shed.counts(), (4, 3, 1));
    assert_eq!([shed.packet(CPA), shed.packet(REQUEST)], waiting);
    let (back, news) = (shed.message(2), shed.message(3));
    assert_eq!((back.0, back.1.sender, back.1.receiver, back.1.bound), (message::CPA, 2, 1, 3));
    assert_eq!((news.0, news.1.receiver, news.1.bound, news.1.best), (message::SOLUTION, 1, 3, places(&[1, 2])));
    assert!(shed.pool[SIZE * 4..].iter().all(|byte| *byte == 0xaa), "bytes past the cells in use stay");
    let unit = shed.network.units[1];
    assert_eq!(shed.deliver(CPA), 0);
    assert_eq!((shed.counts(), shed.network.units[1]), ((3, 3, 2), unit));
}

/// A stale echo changes nothing and sends nothing, and counts.
#[test]
fn an_echo_after_its_packet() {
    let mut shed = Shed::new();
    let cpa = shed.packet(CPA);
    assert_eq!(shed.deliver(CPA), 0);
    let (units, pool) = (shed.network.units, shed.pool.clone());
    for times in 1..=20 {
        assert_eq!(shed.echo(&cpa), 0);
        assert_eq!(shed.counts(), (3, 3, 1 + times));
    }
    assert!((units, &pool) == (shed.network.units, &shed.pool));
}

/// Case 5's estimate, 3, each time that the copy is heard; unit 2 does not change.
#[test]
fn a_request_is_answered_each_time() {
    let mut shed = Shed::new();
    let request = shed.packet(REQUEST);
    assert_eq!(shed.echo(&request), 0);
    let unit = shed.network.units[1];
    for times in 2..=10 {
        assert_eq!(shed.echo(&request), 0);
        assert_eq!((shed.counts(), shed.network.units[1]), ((2 + times, 1, times.into()), unit));
        let (kind, estimate) = shed.message(1 + times as usize);
        assert_eq!((kind, estimate.sender, estimate.receiver, estimate.cost), (message::ESTIMATE, 2, 1, 3));
    }
}

/// 02: "15 is left out".
#[test]
fn no_cell_is_in_use() {
    let mut shed = Shed::new();
    let cpa = shed.packet(CPA);
    shed.network.count = 0;
    assert_eq!(shed.deliver(CPA), 15);
    assert_eq!(shed.echo(&cpa), 0);
    assert_eq!(shed.counts(), (2, 3, 1));
    assert_eq!((shed.message(0).0, shed.message(1).0), (message::CPA, message::SOLUTION));
}

#[test]
fn counts_start_again_at_0() {
    let mut shed = Shed::new();
    let cpa = shed.packet(CPA);
    (shed.network.records, shed.network.deliveries) = (u128::MAX, u128::MAX);
    assert_eq!(shed.echo(&cpa), 0);
    assert_eq!(shed.counts(), (4, 1, 0));
}

// Refusals

#[test]
fn bytes_that_are_no_packet() {
    let mut shed = Shed::new();
    let cpa = shed.packet(CPA);
    let repeated = cpa.repeat(3);
    for length in (0..=130).filter(|length| *length != SIZE) {
        assert_eq!(shed.echo(&repeated[..length]), 8, "{length} bytes");
    }
    for at in 0..SIZE {
        let mut damaged = cpa.clone();
        damaged[at] ^= 1;
        assert_eq!(shed.echo(&damaged), 8, "byte {at}");
    }
    let (kind, m) = shed.message(CPA);
    for receiver in [0, 3, 16, 17, 255] {
        assert_eq!(shed.echo(&message::encode(kind, &Message { receiver, ..m })), 10, "receiver {receiver}");
    }
    assert_eq!(shed.echo(&message::encode(kind, &Message { receiver: 1, ..m })), 9);
    assert_eq!(shed.echo(&message::encode(6, &m)), 9);
}

/// One thing wrong with a shed, or with the packet to be heard.
type Fault = fn(&mut Shed, &mut Vec<u8>);

/// Each refusal in the order of a delivery's, 15 left out, alone and with those that come after it. 01: "Delivery: 13, 5 (n, sizes), 6, 7,
/// 5 (any unit's state, pool count), 12, 15, the step's from 8 on, 14". Of three units of two values; unit 2 is the one that hears.
#[test]
fn refusals_in_their_order() {
    let faults: [(u8, Fault); 13] = [
        (13, |shed, _| shed.pool.truncate(65_535)),
        (5, |shed, _| shed.stream[1] = 17),
        (6, |shed, _| shed.stream.push(0)),
        (7, |shed, _| shed.stream[4..6].copy_from_slice(&60_001u16.to_le_bytes())),
        (5, |shed, _| shed.network.units[1].threshold[15] = 18),
        (5, |shed, _| shed.network.count = 1_025),
        (12, |shed, _| shed.network.units[0].stopped = 1),
        (8, |_, packet| packet[63] ^= 1),
        (10, |_, packet| reseal(packet, 1, 4)),
        (9, |_, packet| reseal(packet, 60, 1)),
        (12, |shed, _| shed.network.units[1].stopped = 1),
        (11, |_, packet| *packet = estimate_of_no_cpa()),
        (14, |shed, _| shed.crowd(CELLS)),
    ];
    for (first, (refusal, _)) in faults.iter().enumerate() {
        for last in first..faults.len() {
            let mut shed = Shed::of(sample::stream(&[2; 3], &[1; 12]));
            let mut packet = shed.packet(CPA);
            // the later ones first: those that change bytes build on a packet that reads
            for (_, fault) in faults[first..=last].iter().rev() {
                fault(&mut shed, &mut packet);
            }
            assert_eq!(shed.echo(&packet), *refusal, "faults {first} to {last}");
        }
    }
}

/// A byte put anywhere, and the check made right again.
fn reseal(packet: &mut [u8], at: usize, byte: u8) {
    packet[at] = byte;
    message::seal(packet.try_into().expect("64 bytes"));
}

/// To unit 2, which has no CPA out.
fn estimate_of_no_cpa() -> Vec<u8> {
    let estimate = Message { sender: 3, receiver: 2, stamp: places(&[1, 1]), cost: 3, ..Message::default() };
    message::encode(message::ESTIMATE, &estimate).to_vec()
}

/// 14: "count + sent". Unit 2 answers the CPA with two packets, the request with one, a second CPA with none.
#[test]
fn a_pool_that_is_nearly_full() {
    for (used, refusal) in [(1_021, 0), (1_022, 0), (1_023, 14), (1_024, 14)] {
        let mut shed = Shed::new();
        let cpa = shed.packet(CPA);
        shed.crowd(used);
        assert_eq!(shed.echo(&cpa), refusal, "{used} cells in use");
        // a delivery frees its cell
        let mut shed = Shed::new();
        shed.crowd(used);
        assert_eq!(shed.deliver(CPA), if used == 1_024 { 14 } else { 0 });
    }
    for (used, refusal) in [(1_023, 0), (1_024, 14)] {
        let mut shed = Shed::new();
        let request = shed.packet(REQUEST);
        shed.crowd(used);
        assert_eq!(shed.echo(&request), refusal, "{used} cells in use");
    }
    let mut shed = Shed::new();
    let cpa = shed.packet(CPA);
    assert_eq!(shed.echo(&cpa), 0);
    shed.crowd(CELLS);
    assert_eq!((shed.echo(&cpa), shed.network.count), (0, 1_024));
}

/// With echoes a full pool can hold a run for good, which 02 leaves out ("in a run where no delivery is refused"): the CPA was delivered and its news,
/// so unit 1 would go on to value 2 on the CPA given back and on each of the estimates, and send two packets; but only the cell of the one heard
/// gets free. The CPA given back waits all the time, and was never delivered.
#[test]
fn a_full_pool_that_holds_a_run() {
    let mut shed = Shed::new();
    let request = shed.packet(REQUEST);
    assert_eq!(shed.deliver(CPA), 0);
    let kinds: Vec<u8> = (0..3).map(|cell| shed.message(cell).0).collect();
    assert_eq!(kinds, [message::REQUEST, message::CPA, message::SOLUTION]);
    assert_eq!(shed.deliver(2), 0);
    while shed.network.count < CELLS as u64 {
        assert_eq!(shed.echo(&request), 0);
    }
    assert_eq!((shed.echo(&request), shed.deliver(0)), (14, 0));
    let (kind, back) = shed.message(0);
    assert_eq!((kind, back.receiver, back.bound), (message::CPA, 1, 3));
    assert_eq!((shed.network.count, shed.network.units[0].stopped), (1_024, 0));
    for cell in 0..CELLS {
        assert_eq!(shed.deliver(cell), 14, "cell {cell}");
    }
    assert!((1..CELLS).all(|cell| shed.message(cell).0 == message::ESTIMATE));
}

// The order of values

/// Unit 1 of T tries value 2 first, unless an order is named.
#[test]
fn whoever_names_nothing_gets_the_new_one() {
    let stream = sample::t();
    let mut pool = vec![0; network::POOL];
    let made = network::make(&stream, &mut pool).unwrap();
    // unit 1 has out value 2, the first of its order and the second of the other: a counter of 2 is in range in one alone
    let stamp = places(&[2]);
    let mut shed = made.clone();
    (shed.units[0].stamp, shed.units[0].threshold, shed.units[0].counter) = (stamp, stamp, 2);
    let back = Message { sender: 2, receiver: 1, stamp, values: places(&[2]), bound: NONE, ..Message::default() };
    let packet = message::encode(message::CPA, &back);
    assert_eq!(made.units[0].values, places(&[2]));
    assert_eq!(network::echo(&mut shed, &stream, &mut pool, &packet), Err(5));
    assert_eq!(network::echo_by(CheapestFirst, &mut shed, &stream, &mut pool, &packet), Err(5));
    assert_eq!(network::echo_by(Ascending, &mut shed, &stream, &mut pool, &packet), Ok(()));
}

// An echo and a delivery

/// An echo as a delivery: the packet is laid behind the cells in use, and delivered from there. None where every cell is in use, or the bytes are
/// not a cell's.
fn as_delivery(input: Input) -> Option<Input> {
    let Input::Deliver { order, mut network, stream, event: Event::Echo(packet), mut pool } = input else {
        return None;
    };
    let cell = network.count;
    if cell >= CELLS as u64 || packet.len() != SIZE || pool.len() < network::POOL {
        return None;
    }
    pool[SIZE * cell as usize..][..SIZE].copy_from_slice(&packet);
    network.count += 1;
    Some(Input::Deliver { order, network, stream, event: Event::Cell(cell), pool })
}

/// What the delivery left, with the cell where the packet lay as it was, if nothing was sent there.
fn as_echo(mut delivered: Outcome, echo: &Input) -> Outcome {
    let Input::Deliver { network, pool, .. } = echo else { unreachable!("an echo") };
    let at = SIZE * network.count as usize;
    if delivered.refusal != 0 {
        delivered.numbers[0] -= 1;
    }
    if delivered.numbers[0] == network.count {
        delivered.lent[at..at + SIZE].copy_from_slice(&pool[at..at + SIZE]);
    }
    delivered
}

fn echoes_are_deliveries(call: &dyn Fn(Input) -> Outcome) {
    for order in ValueOrder::BOTH {
        let mut random = Random::new(2);
        let mut accepted = 0;
        for _ in 0..4_000 {
            let echo = generate::input(&mut random, Call::Echo(order));
            let Some(delivery) = as_delivery(echo.clone()) else { continue };
            let heard = call(echo.clone());
            assert!(heard == as_echo(call(delivery), &echo), "{order:?}, {}", heard.refusal);
            accepted += u32::from(heard.refusal == 0);
        }
        assert!(accepted > 1_000, "{order:?}: {accepted} accepted");
    }
}

#[test]
fn an_echo_is_a_delivery_of_one_cell_more() {
    echoes_are_deliveries(&calls::reference);
}

#[cfg(feature = "linked")]
#[test]
fn an_echo_of_the_library_is_a_delivery_of_one_cell_more() {
    echoes_are_deliveries(&harness::linked::linked);
}
