//! The air between boxes that are processes, without its sockets: what it hands on, and that all it adds is refused by the number it says.

use harness::radio::air::{Air, Manner};
use harness::radio::counts::Counts;
use harness::radio::noise;
use harness::radio::shadow::{Lent, Shadows};
use harness::random::Random;
use harness::reference::message::{self, SIZE};
use harness::reference::order::ValueOrder;
use harness::reference::{costs, network, Places};
use harness::sample;
use std::collections::{BTreeMap, VecDeque};

const ORDER: ValueOrder = ValueOrder::Ascending;

fn five() -> Vec<u8> {
    let file = std::fs::read(concat!(env!("CARGO_MANIFEST_DIR"), "/vectors/five.table")).unwrap();
    sample::read(&file).unwrap()
}

/// n, the sizes and packets of a run: of each kind but stops some.
fn packets() -> (u8, Places, Vec<[u8; SIZE]>) {
    let stream = five();
    let mut pool = vec![0; network::POOL];
    let mut shed = network::make_by(ORDER, &stream, &mut pool).unwrap();
    let mut packets = Vec::new();
    for _ in 0..60 {
        packets.push(pool[..SIZE].try_into().unwrap());
        network::deliver_by(ORDER, &mut shed, &stream, &mut pool, 0).unwrap();
    }
    let kinds: Vec<u8> = packets.iter().map(|packet: &[u8; SIZE]| packet[0]).collect();
    assert!((1..=4).all(|kind| kinds.contains(&kind)), "{kinds:?}");
    (costs::units_in(&stream), costs::sizes_in(&stream), packets)
}

#[test]
fn one_flipped_bit_is_refused_by_8() {
    let (n, sizes, packets) = packets();
    for packet in &packets {
        assert!(message::parse_for(n, &sizes, packet, Some(packet[2])).is_ok());
        for bit in 0..8 * SIZE {
            let mut damaged = *packet;
            damaged[bit / 8] ^= 1 << (bit % 8);
            assert_eq!(message::parse_for(n, &sizes, &damaged, Some(packet[2])), Err(8), "bit {bit} of {packet:?}");
        }
    }
}

#[test]
fn noise_is_refused_by_the_number_it_has() {
    let (n, sizes, packets) = packets();
    let mut random = Random::new(7);
    let (mut numbers, mut lengths) = (BTreeMap::new(), BTreeMap::new());
    for turn in 0..100_000 {
        let packet = (turn % 5 > 0).then(|| random.pick(&packets));
        let added = noise::noise(&mut random, n, packet);
        let parsed = message::parse_for(n, &sizes, &added.bytes, Some(added.to));
        assert_eq!(parsed, Err(added.refusal), "{added:?}");
        *numbers.entry(added.refusal).or_insert(0) += 1;
        *lengths.entry(added.bytes.len()).or_insert(0) += 1;
    }
    assert!([8, 9, 10].iter().all(|number| numbers[number] > 5_000), "{numbers:?}");
    assert!((0..=100).all(|length| lengths.contains_key(&length)), "{lengths:?}");
}

/// All that an air hands on, by what it holds; it hears everything first.
fn handed(seed: u64, manner: Manner, packets: &[[u8; SIZE]]) -> (Vec<Vec<u8>>, Counts) {
    let mut air = Air::new(seed, 5, manner);
    packets.iter().for_each(|packet| air.hear(packet).unwrap());
    let mut handed = Vec::new();
    while let Some((to, bytes)) = air.hand_on(false) {
        assert!((1..=5).contains(&to));
        assert!(manner.noise || to == bytes[2]);
        handed.push(bytes);
    }
    assert!(air.is_empty() && !air.is_due());
    (handed, air.counts)
}

fn sorted(mut packets: Vec<Vec<u8>>) -> Vec<Vec<u8>> {
    packets.sort();
    packets
}

#[test]
fn each_packet_is_handed_on_once_in_another_order() {
    let packets = packets().2;
    let sent: Vec<Vec<u8>> = packets.iter().map(|packet| packet.to_vec()).collect();
    let mut orders = Vec::new();
    for seed in 1..=20 {
        let (handed, counts) = handed(seed, Manner::default(), &packets);
        assert_ne!(handed, sent);
        assert!(!orders.contains(&handed));
        assert_eq!(sorted(handed.clone()), sorted(sent.clone()));
        assert_eq!((counts.of("heard"), counts.of("handed"), counts.of("echoed")), (60, 60, 0));
        assert!(counts.of("overtaken") > 10 && counts.all_refused() == 0);
        orders.push(handed);
    }
}

#[test]
fn echoes_noise_and_losses_are_counted() {
    let packets = packets().2;
    for seed in 1..=20 {
        let (echoed, counts) = handed(seed, Manner { echo: true, ..Manner::default() }, &packets);
        assert!(packets.iter().all(|packet| echoed.iter().any(|bytes| bytes == packet)));
        assert_eq!(echoed.len() as u64, 60 + counts.of("echoed"));
        let (noisy, counts) = handed(seed, Manner { noise: true, ..Manner::default() }, &packets);
        assert!(counts.all_refused() >= 10);
        assert_eq!(noisy.len() as u64, 60 + counts.all_refused());
        let (rest, counts) = handed(seed, Manner { lose: true, ..Manner::default() }, &packets);
        assert_eq!((rest.len(), counts.of("heard"), counts.of("handed")), (59, 60, 59));
    }
}

/// What is done to the packets that boxes send when they are made: from whom, and what.
type Change = fn(&mut Vec<(u8, Vec<u8>)>);

/// Boxes that send what they should, the oldest packet handed over each time, until nothing is in the air; the first of them is changed where `change`
/// is.
fn shadowed(change: Option<Change>) -> Result<(), String> {
    let stream = five();
    let lent = Lent::new(&stream);
    let (mut shadows, mut others) = (Shadows::new(ORDER, &lent), Shadows::new(ORDER, &lent));
    let mut sent = others.take();
    if let Some(change) = change {
        change(&mut sent);
    }
    let (mut air, mut stops) = (VecDeque::new(), 0);
    loop {
        for (from, bytes) in sent.drain(..) {
            shadows.sent(from, &bytes)?;
            air.push_back(bytes);
        }
        let Some(bytes) = air.pop_front() else { break };
        stops += u32::from(bytes[0] == message::STOP);
        shadows.hand(bytes[2], &bytes);
        others.hand(bytes[2], &bytes);
        sent = others.take();
    }
    assert_eq!(stops, 4);
    shadows.ended()
}

#[test]
fn a_box_must_send_what_the_second_implementation_sends() {
    assert_eq!(shadowed(None), Ok(()));
    let changes: [Change; 5] = [
        |sent| sent.swap(0, 1),
        |sent| sent[2].0 = 2,
        |sent| sent[4].1[62] ^= 1,
        |sent| sent.push(sent[0].clone()),
        |sent| sent[0].0 = 6,
    ];
    assert!(changes.iter().all(|change| shadowed(Some(*change)).is_err()));
    let stream = five();
    let lent = Lent::new(&stream);
    let mut shadows = Shadows::new(ORDER, &lent);
    assert!(shadows.ended().is_err());
    let made = Shadows::new(ORDER, &lent).take();
    assert_eq!(made.len(), 5);
    made.iter().for_each(|(from, bytes)| shadows.sent(*from, bytes).unwrap());
    assert_eq!(shadows.ended(), Ok(()));
}

#[test]
fn the_air_takes_only_packets_for_its_boxes() {
    let packet = packets().2[0];
    let mut air = Air::new(1, 5, Manner::default());
    assert!(air.hear(&packet[..63]).is_err());
    let (mut to_none, mut to_six) = (packet, packet);
    (to_none[2], to_six[2]) = (0, 6);
    assert!(air.hear(&to_none).is_err() && air.hear(&to_six).is_err());
    assert!(air.hear(&packet).is_ok());
}

#[test]
fn counts_read_back() {
    let line = "accepted 5 heard 9 sent 6 refused 8:3 12:1";
    let counts = Counts::parse(line).unwrap();
    assert_eq!(counts.to_string(), line);
    assert_eq!((counts.of("heard"), counts.refused_by(8), counts.refused_by(9), counts.all_refused()), (9, 3, 0, 4));
    assert_eq!(Counts::parse("refused").unwrap(), Counts::default());
    for wrong in
        ["", "heard 9", "heard refused", "heard 9 heard 9 refused", "refused 8", "refused 8:1 8:1", "refused 300:1"]
    {
        assert_eq!(Counts::parse(wrong), None, "{wrong:?}");
    }
}
