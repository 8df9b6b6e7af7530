//! 02's job 1 on the reference implementation: what gaps cost, the order of the costs, and the refusals.

use harness::calls::{Call, Input};
use harness::random::Random;
use harness::reference::{readings, table, Places};
use harness::{generate, sample};

fn bytes(readings: &[u16]) -> Vec<u8> {
    readings.iter().flat_map(|reading| reading.to_le_bytes()).collect()
}

/// The sizes with places past n that nobody may look at.
fn places(sizes: &[u8]) -> Places {
    let mut places = [255; 16];
    places[..sizes.len()].copy_from_slice(sizes);
    places
}

/// The stream of lines with this many lots, into a buffer some bytes longer than asked, which stay.
fn made(sizes: &[u8], lines: &[u16]) -> Vec<u8> {
    let mut buffer = vec![0xaa; table::MAX_STREAM + 9];
    let length = readings::write_stream(sizes.len() as u8, &places(sizes), &bytes(lines), &mut buffer).unwrap();
    assert!(buffer[length..].iter().all(|byte| *byte == 0xaa));
    buffer.truncate(length);
    buffer
}

/// The refusal of a call, which leaves its buffer.
fn refused(n: u8, sizes: &[u8], readings: &[u8], room: usize) -> u8 {
    let mut buffer = vec![0xaa; room];
    let refusal = readings::write_stream(n, &places(sizes), readings, &mut buffer).unwrap_err();
    assert!(buffer.iter().all(|byte| *byte == 0xaa));
    refusal
}

#[test]
fn sixteen_lines() {
    let lines = [200, 175, 187, 184, 186, 200, 197, 167, 199, 182, 178, 203, 180, 182, 199, 182];
    let file = include_bytes!("../vectors/readings-sixteen.table");
    assert_eq!(made(&[3; 16], &lines), sample::read(file).unwrap());
}

#[test]
fn gaps_at_the_ends() {
    let costs =
        [(-300, 30_000), (-20, 30_000), (-19, 77), (-1, 0), (0, 0), (1, 0), (19, 154), (20, 60_000), (300, 60_000)];
    for (gap, cost) in costs {
        assert_eq!(readings::cost_of_gap(gap), cost, "gap {gap}");
        let earlier: i32 = if gap < 0 { 400 } else { 100 };
        let lines = [earlier as u16, (earlier + gap) as u16];
        assert_eq!(made(&[1, 1], &lines), sample::stream(&[1, 1], &[cost]), "gap {gap}");
    }
}

/// From gap 3 on the schedule's steps are 1, 2, 3 and so on.
#[test]
fn the_schedule() {
    let costs: Vec<u16> = (0..20).map(readings::cost_of_gap).collect();
    assert_eq!(costs[..3], [0, 0, 1]);
    for gap in 3..20 {
        assert_eq!(costs[gap] - costs[gap - 1], gap as u16 - 2);
    }
    let finer: Vec<u16> = (0..20).map(|gap| readings::cost_of_gap(-gap)).collect();
    assert_eq!(finer, [0, 0, 0, 1, 2, 3, 5, 8, 11, 14, 18, 23, 28, 33, 39, 46, 53, 60, 68, 77]);
}

#[test]
fn only_the_same_lot_costs() {
    assert_eq!(made(&[2, 3], &[200, 230]), sample::stream(&[2, 3], &[60_000, 0, 0, 0, 60_000, 0]));
    assert_eq!(made(&[3, 2], &[206, 194]), sample::stream(&[3, 2], &[28, 0, 0, 28, 0, 0]));
}

/// 01: "for pairs (1,2), (1,3) .. (n-1,n)".
#[test]
fn pairs_in_the_streams_order() {
    let stream = made(&[1, 2, 1], &[150, 160, 155]);
    assert_eq!(stream, sample::stream(&[1, 2, 1], &[37, 0, 7, 3, 0]));
}

#[test]
fn one_line_has_no_cost() {
    assert_eq!(made(&[7], &[100]), [1, 7]);
    assert_eq!(refused(1, &[7], &bytes(&[99]), table::MAX_STREAM), 17);
}

#[test]
fn readings_in_range() {
    for reading in [0, 1, 99, 401, 25_600, 65_535] {
        for line in 0..3 {
            let mut lines = [200; 3];
            lines[line] = reading;
            assert_eq!(refused(3, &[2; 3], &bytes(&lines), table::MAX_STREAM), 17, "{reading}");
        }
    }
    assert_eq!(made(&[1; 3], &[100, 400, 100])[4..], [0x60, 0xea, 0, 0, 0x30, 0x75]);
}

#[test]
fn one_reading_a_line() {
    let lines = bytes(&[200; 4]);
    for length in [0, 1, 2, 4, 5, 7, 8] {
        assert_eq!(refused(3, &[2; 3], &lines[..length], table::MAX_STREAM), 6, "{length} bytes");
    }
}

/// 02: 17 is "found after 5 and 6 and before any cost is made; 13 comes last".
#[test]
fn refusals_in_order() {
    let (good, bad) = (bytes(&[200; 2]), bytes(&[200, 99]));
    let short = table::MAX_STREAM - 1;
    for n in [0, 17, 255] {
        assert_eq!(refused(n, &[2; 2], &bad[..3], short), 5);
    }
    for size in [0, 17, 255] {
        assert_eq!(refused(2, &[2, size], &bad[..3], short), 5);
    }
    assert_eq!(refused(1, &[2], &bad, short), 6);
    assert_eq!(refused(2, &[2; 2], &bad, short), 17);
    assert_eq!(refused(2, &[2; 2], &bad, 0), 17);
    assert_eq!(refused(2, &[2; 2], &good, short), 13);
    assert_eq!(refused(2, &[2; 2], &good, 0), 13);
    let mut buffer = vec![0xaa; table::MAX_STREAM];
    assert_eq!(readings::write_stream(2, &places(&[2; 2]), &good, &mut buffer), Ok(11));
}

#[test]
fn the_largest_stream() {
    let lines: Vec<u16> = (0..16).map(|line| 100 + 20 * line).collect();
    let mut buffer = vec![0xaa; table::MAX_STREAM];
    // form one's longest, though room for form two's is asked for
    assert_eq!(readings::write_stream(16, &[16; 16], &bytes(&lines), &mut buffer), Ok(61_457));
    assert_eq!(refused(16, &[16; 16], &bytes(&lines), 61_457), 13);
    assert_eq!(buffer[61_457..], [0xaa; 513]);
    let costs = buffer[17..61_457].chunks(2).map(|cost| u16::from_le_bytes([cost[0], cost[1]]));
    // 120 pairs of 16 same lots
    assert_eq!(costs.clone().filter(|cost| *cost == 60_000).count(), 1_920);
    assert_eq!(costs.filter(|cost| *cost == 0).count(), 28_800);
}

#[test]
fn a_stream_made_is_a_tables() {
    let mut random = Random::new(9);
    let mut accepted = 0;
    for _ in 0..3_000 {
        let Input::Readings { n, sizes, readings, mut stream } = generate::input(&mut random, Call::Readings) else {
            unreachable!("readings")
        };
        let Ok(length) = readings::write_stream(n, &sizes, &readings, &mut stream) else { continue };
        assert_eq!(table::check_stream(&stream[..length]), Ok(()));
        assert_eq!(stream[0], n);
        assert_eq!(stream[1..1 + n as usize], sizes[..n as usize]);
        accepted += 1;
    }
    assert!(accepted > 1_000);
}
