//! 02's job 7 on the reference implementation: form two of the stream, unary costs (02's own costs) in checks, in what a unit is lent, in its
//! range and step, and in the reports; and every assignment's total by a reading of the file that shares nothing with the reference.

use harness::lent::{places, Lent};
use harness::random::Random;
use harness::reference::costs::{self, Cost};
use harness::reference::message::{self, Message};
use harness::reference::order::ValueOrder::{self, Ascending};
use harness::reference::unit::{self, Unit};
use harness::reference::{cost_limit, network, search, table, MAX_ESTIMATE, MAX_TOTAL, NONE};
use harness::{generate, sample};
use std::fs;
use std::path::Path;

// Files read by hand

/// A table as its file says.
struct Plain {
    sizes: Vec<usize>,
    unary: Vec<Vec<u32>>,
    /// Of the pairs (1,2), (1,3) .. (n-1,n), by the value of the lower unit, then of the higher.
    pairs: Vec<Vec<Vec<u32>>>,
}

impl Plain {
    fn of(file: &[u8]) -> Plain {
        let mut stream = Vec::new();
        for block in file.chunks(512) {
            let count = block[2] as usize + 256 * block[3] as usize;
            stream.extend(&block[4..4 + count]);
        }
        let form_two = stream[0] == 200;
        let mut bytes = stream.into_iter().skip(usize::from(form_two));
        let n = bytes.next().unwrap();
        let sizes: Vec<usize> = (0..n).map(|_| bytes.next().unwrap() as usize).collect();
        let mut row = |count: usize| -> Vec<u32> {
            let mut number = || u32::from(bytes.next().unwrap()) + 256 * u32::from(bytes.next().unwrap());
            (0..count).map(|_| number()).collect()
        };
        let unary = sizes.iter().map(|size| if form_two { row(*size) } else { vec![0; *size] }).collect();
        let mut pairs = Vec::new();
        for (i, size) in sizes.iter().enumerate() {
            for other in &sizes[i + 1..] {
                pairs.push((0..*size).map(|_| row(*other)).collect());
            }
        }
        assert_eq!(bytes.next(), None);
        Plain { sizes, unary, pairs }
    }

    /// None where a pair is forbidden; values count from 0.
    fn total(&self, values: &[usize]) -> Option<u32> {
        let mut sum = 0;
        let mut pairs = self.pairs.iter();
        for (i, value) in values.iter().enumerate() {
            sum += self.unary[i][*value];
            for other in &values[i + 1..] {
                let cost = pairs.next().unwrap()[*value][*other];
                if cost == 65_535 {
                    return None;
                }
                sum += cost;
            }
        }
        Some(sum)
    }

    /// Every assignment in ascending order, one after another.
    fn assignments(&self) -> Vec<Vec<usize>> {
        let mut all = vec![Vec::new()];
        for size in &self.sizes {
            let longer = |begun: Vec<usize>| (0..*size).map(move |value| [&begun[..], &[value]].concat());
            all = all.into_iter().flat_map(longer).collect();
        }
        all
    }

    /// The bench's report.
    fn report(&self) -> String {
        let mut best: Option<(u32, Vec<usize>)> = None;
        for values in self.assignments() {
            if let Some(total) = self.total(&values) {
                if best.as_ref().is_none_or(|(least, _)| total < *least) {
                    best = Some((total, values));
                }
            }
        }
        let numbers = |values: &[usize]| -> Vec<usize> { values.iter().map(|value| value + 1).collect() };
        let (total, values) = match &best {
            Some((total, values)) => (total.to_string(), numbers(values)),
            None => ("none".to_string(), vec![0; self.sizes.len()]),
        };
        let lines = values.iter().enumerate().map(|(k, value)| format!("unit {} value {value}\n", k + 1));
        format!("total {total}\n{}", lines.collect::<String>())
    }

    /// The total of the values that a listing names, if its first line says the same.
    fn listed(&self, listing: &str) -> Option<u32> {
        let word = |line: &str| line.rsplit(' ').next().unwrap().to_string();
        let values = listing.lines().filter(|line| line.starts_with("unit")).map(|line| word(line).parse::<usize>());
        let values: Vec<usize> = values.map(|value| value.unwrap() - 1).collect();
        let total = self.total(&values)?;
        (word(listing.lines().next()?) == total.to_string()).then_some(total)
    }
}

/// The bench's report whole; of the shed the total, and that its assignment has it.
fn same_as_by_hand(file: &[u8], shed: &str, bench: &str) {
    let plain = Plain::of(file);
    let report = plain.report();
    assert_eq!(bench, report);
    let first = report.lines().next().unwrap();
    assert_eq!(shed.lines().next().unwrap(), first);
    if first == "total none" {
        assert!(shed.starts_with(&report));
    } else {
        assert_eq!(plain.listed(shed).map(|total| format!("total {total}")), Some(first.to_string()));
    }
}

#[test]
fn totals_by_hand() {
    let mut random = Random::new(31);
    let (mut priced, mut none) = (0, 0);
    for _ in 0..600 {
        let n = random.between(1, 5);
        let sizes: Vec<u8> = (0..n).map(|_| random.between(1, 4) as u8).collect();
        let stream = generate::stream_of(&mut random, &sizes);
        let file = table::file_of(&stream);
        for order in ValueOrder::BOTH {
            same_as_by_hand(&file, &sample::shed_by(order, &file), &sample::bench(&file));
        }
        let plain = Plain::of(&file);
        for values in plain.assignments() {
            let assignment: Vec<u8> = values.iter().map(|value| *value as u8 + 1).collect();
            let total = plain.total(&values).map_or(Cost::Forbidden, Cost::Of);
            assert_eq!(costs::total(&stream, &assignment), total);
        }
        priced += u32::from(plain.unary.iter().flatten().any(|cost| *cost > 0));
        none += u32::from(plain.report().starts_with("total none"));
    }
    assert!(priced > 150 && none > 50, "{priced} tables with unary costs, {none} with nothing permitted");
}

/// The samples in form two, of which some have a listing in each order.
#[test]
fn samples_by_hand() {
    let folder = Path::new(env!("CARGO_MANIFEST_DIR")).join("vectors");
    let mut listed = 0;
    for path in fs::read_dir(folder).unwrap().map(|entry| entry.unwrap().path()) {
        if !path.file_name().is_some_and(|name| name.to_string_lossy().starts_with("priced")) {
            continue;
        }
        let Some("listing" | "cheapest") = path.extension().and_then(|end| end.to_str()) else { continue };
        let bench = fs::read_to_string(path.with_extension("bench")).unwrap();
        let file = fs::read(path.with_extension("table")).unwrap();
        assert_eq!(file[4], 200);
        same_as_by_hand(&file, &fs::read_to_string(path).unwrap(), &bench);
        listed += 1;
    }
    assert_eq!(listed, 6);
}

// The stream

fn checked(stream: &[u8]) -> u8 {
    table::check_stream(stream).err().unwrap_or(0)
}

/// 01: "those present are checked by 5, then it is 6".
#[test]
fn the_head_of_form_two() {
    for (stream, refusal) in [
        (&[200][..], 6),
        (&[200, 0], 5),
        (&[200, 17], 5),
        (&[200, 200], 5),
        (&[200, 2], 6),
        (&[200, 2, 0], 5),
        (&[200, 2, 3], 6),
        (&[200, 2, 3, 17], 5),
        (&[200, 2, 3, 16], 6),
        (&[201, 1, 1, 0, 0], 5),
        (&[199, 1, 1, 0, 0], 5),
        (&[200, 1, 1, 0, 0], 0),
        (&[200, 1, 1, 0], 6),
        (&[200, 1, 1], 6),
        (&[200, 1, 1, 0, 0, 0], 6),
        (&[1, 1], 0),
        (&[1, 1, 0, 0], 6),
    ] {
        assert_eq!(checked(stream), refusal, "{stream:?}");
        assert_eq!(sample::read(&table::file_of(stream)).err().unwrap_or(0), refusal, "{stream:?}");
        assert_eq!(table::write(stream, &mut [0; 512]).err().unwrap_or(0), refusal, "{stream:?}");
        assert_eq!(search::exhaustive(stream).err().unwrap_or(0), refusal, "{stream:?}");
        assert_eq!(network::make(stream, &mut vec![0; network::POOL]).err().unwrap_or(0), refusal, "{stream:?}");
    }
}

/// A unary cost is 0 to 60,000; a pair may be forbidden in form two as well.
#[test]
fn costs_of_form_two() {
    for (cost, unary, pair) in
        [(0, 0, 0), (1, 0, 0), (60_000, 0, 0), (60_001, 7, 7), (65_534, 7, 7), (65_535, 7, 0), (32_768, 0, 0)]
    {
        for place in 0..3 {
            let mut own = [5; 3];
            own[place] = cost;
            let stream = sample::stream_in_form_two(&[1, 2], &own, &[1, 2]);
            assert_eq!(checked(&stream), unary, "{cost} at {place}");
            let gathered = |own: u8| costs::gather(&stream, own, &mut [0; 8]).err().unwrap_or(0);
            assert_eq!((gathered(1), gathered(2)), (unary, unary));
            let (unit, value) = [(1, 0), (2, 0), (2, 1)][place];
            let mut unit = lent(unit, &[1, 2], &[5; 3], &[1, 2]);
            unit.costs[2 * value..2 * value + 2].copy_from_slice(&cost.to_le_bytes());
            assert_eq!(unit.make().refusal, unary);
        }
        for place in 0..2 {
            let mut pairs = [5; 2];
            pairs[place] = cost;
            assert_eq!(checked(&sample::stream_in_form_two(&[1, 2], &[0; 3], &pairs)), pair, "{cost}");
        }
    }
    // 6 comes before 7
    let mut stream = sample::stream_in_form_two(&[1, 2], &[65_535; 3], &[1, 2]);
    assert_eq!(checked(&stream), 7);
    stream.pop();
    assert_eq!(checked(&stream), 6);
}

#[test]
fn the_largest_table() {
    let unary: Vec<u16> = (0..256).collect();
    let pairs: Vec<u16> = (0..30_720).collect();
    let stream = sample::stream_in_form_two(&[16; 16], &unary, &pairs);
    assert_eq!(stream.len(), 61_970);
    let mut file = vec![0xaa; 62_976];
    assert_eq!(table::write(&stream, &mut file[..62_975]), Err(13));
    assert_eq!(table::write(&stream, &mut file), Ok(62_976));
    let mut again = vec![0xaa; 61_970];
    assert_eq!(table::read(&file, &mut again[..61_969]), Err(13));
    assert_eq!(table::read(&file, &mut again), Ok(61_970));
    assert_eq!(again, stream);
    // a block more is 1, and form one in so many blocks 6
    assert_eq!(table::read(&[&file[..], &[0; 512]].concat(), &mut again), Err(1));
    let mut long = sample::stream(&[16; 16], &pairs);
    long.resize(61_970, 0);
    assert_eq!(table::read(&table::file_of(&long), &mut again), Err(6));
    // so is a small table's with a buffer for form one
    assert_eq!(table::read(&table::file_of(&sample::t()), &mut again[..61_457]), Err(13));
    // what a unit is lent
    let mut lent = vec![0xaa; 7_712];
    for own in 1..=16 {
        assert_eq!(costs::gather(&stream, own, &mut lent[..7_711]), Err(13));
        assert_eq!(costs::gather(&stream, own, &mut lent), Ok(7_712));
        let first = 16 * u16::from(own - 1);
        let expected: Vec<u8> = (first..first + 16).flat_map(|cost| cost.to_le_bytes()).collect();
        assert_eq!(lent[..32], expected);
    }
}

// What a unit is lent

#[test]
fn unary_costs_are_lent_before_pairs() {
    let (sizes, unary, pairs) = ([2, 1, 2], [1, 2, 3, 4, 5], [10, 11, 12, 13, 14, 15, 16, 17]);
    let numbers =
        |bytes: &[u8]| -> Vec<u16> { bytes.chunks(2).map(|cost| u16::from_le_bytes([cost[0], cost[1]])).collect() };
    let two = sample::stream_in_form_two(&sizes, &unary, &pairs);
    assert_eq!(numbers(&costs::of_unit(&two, 1)), [1, 2, 10, 11, 12, 13, 14, 15]);
    assert_eq!(numbers(&costs::of_unit(&two, 2)), [3, 10, 11, 16, 17]);
    assert_eq!(numbers(&costs::of_unit(&two, 3)), [4, 5, 12, 13, 14, 15, 16, 17]);
    let one = sample::stream(&sizes, &pairs);
    assert_eq!(numbers(&costs::of_unit(&one, 1)), [0, 0, 10, 11, 12, 13, 14, 15]);
    assert_eq!(numbers(&costs::of_unit(&one, 2)), [0, 10, 11, 16, 17]);
    for stream in [&one, &two] {
        assert_eq!(costs::sizes_in(stream), places(&sizes));
        for (own, refusal) in [(0, 10), (4, 10), (255, 10)] {
            assert_eq!(costs::gather(stream, own, &mut [0; 64]), Err(refusal));
        }
        for (own, length) in [(1, 16), (2, 10), (3, 16)] {
            let mut out = [0xaa; 20];
            assert_eq!(costs::gather(stream, own, &mut out[..length - 1]), Err(13));
            assert_eq!(out, [0xaa; 20]);
            assert_eq!(costs::gather(stream, own, &mut out), Ok(length));
            assert_eq!(out[..length], costs::of_unit(stream, own.into()));
            assert_eq!(out[length..], [0xaa; 20][length..]);
        }
    }
    // n and the sizes of any bytes
    assert_eq!([&[][..], &[200], &[200, 3], &[3], &[201, 3]].map(costs::units_in), [0, 0, 3, 3, 201]);
    assert_eq!(costs::sizes_in(&[200]), [0; 16]);
    assert_eq!(costs::sizes_in(&[200, 3, 7, 200]), places(&[7, 200]));
    assert_eq!(costs::sizes_in(&[[200].repeat(2), vec![9; 20]].concat()), [9; 16]);
    assert_eq!(costs::gather(&[200], 1, &mut []), Err(10));
    assert_eq!(costs::gather(&[200, 1], 1, &mut []), Err(6));
}

/// A unit of a table of these sizes and costs. It tries its values in ascending order.
fn lent(own: u8, sizes: &[u8], unary: &[u16], pairs: &[u16]) -> Lent {
    Lent::new(Ascending, own, &sample::stream_in_form_two(sizes, unary, pairs))
}

#[test]
fn costs_without_the_unary_ones_are_too_short() {
    for own in 1..=3 {
        let mut unit = lent(own, &[2, 1, 2], &[1, 2, 3, 4, 5], &[0; 8]);
        let size = unit.view().size(own.into());
        assert_eq!((unit.make().refusal, unit.range(&unit::fresh())), (0, 0));
        unit.costs.drain(..2 * size);
        assert_eq!((unit.make().refusal, unit.range(&unit::fresh())), (6, 6));
    }
}

// Limits

#[test]
fn limits_of_messages() {
    let sizes = [3; 16];
    let filled = |k: usize| places(&vec![2; k]);
    let read = |n: u8, kind: u8, m: Message| message::parse(n, &sizes, &message::encode(kind, &m)).err().unwrap_or(0);
    for k in 1..=15 {
        let limit = (30_000 * k * (k - 1) + 60_000 * k) as u32;
        assert_eq!(cost_limit(k), limit);
        for (cost, refusal) in [(limit, 0), (limit + 1, 9), (0, 0)] {
            let m = Message { stamp: filled(k), values: filled(k), cost, ..Message::default() };
            let (low, high) = (k as u8, k as u8 + 1);
            let down = Message { sender: low, receiver: high, bound: NONE, ..m };
            assert_eq!(read(16, message::CPA, down), refusal, "down, {k} filled, {cost}");
            let back = Message { sender: high, receiver: low, bound: NONE, ..m };
            assert_eq!(read(16, message::CPA, back), refusal, "back, {k} filled, {cost}");
            let request = Message { sender: low, receiver: 16, ..m };
            assert_eq!(read(16, message::REQUEST, request), refusal, "request, {k} filled, {cost}");
        }
    }
    assert_eq!((cost_limit(0), cost_limit(16)), (0, MAX_TOTAL));
    let best = filled(16);
    for (bound, refusal) in [(7_200_001, 0), (8_160_000, 0), (8_160_001, 9)] {
        let told = Message { sender: 16, receiver: 1, bound, best, ..Message::default() };
        assert_eq!(read(16, message::SOLUTION, told), refusal, "{bound}");
        assert_eq!(read(16, message::STOP, Message { sender: 1, receiver: 16, ..told }), refusal, "{bound}");
        let cpa = Message { sender: 1, receiver: 2, stamp: filled(1), values: filled(1), ..told };
        assert_eq!(read(16, message::CPA, cpa), refusal, "{bound}");
    }
    for (cost, refusal) in [(7_200_000, 0), (7_200_001, 9), (8_160_000, 9), (NONE, 0)] {
        let estimate = Message { sender: 2, receiver: 1, stamp: filled(1), cost, ..Message::default() };
        assert_eq!(read(16, message::ESTIMATE, estimate), refusal, "{cost}");
    }
}

/// A unit with a CPA out, all stamps 1.
fn out(values: &[u8], cost: u32) -> Unit {
    let stamp = places(&vec![1; values.len()]);
    Unit { values: places(values), stamp, threshold: stamp, counter: 1, cost, ..unit::fresh() }
}

#[test]
fn limits_of_a_state() {
    let first = lent(1, &[2, 2], &[7, 0, 1, 2], &[0; 4]);
    for (bound, refusal) in [(7_200_001, 0), (8_160_000, 0), (8_160_001, 5), (NONE, 5)] {
        assert_eq!(first.range(&Unit { bound, best: places(&[1, 1]), ..unit::fresh() }), refusal, "{bound}");
    }
    for (estimate, refusal) in [(MAX_ESTIMATE, 0), (MAX_ESTIMATE + 1, 5), (MAX_TOTAL, 5)] {
        assert_eq!(first.range(&Unit { estimates: [estimate; 16], ..unit::fresh() }), refusal, "{estimate}");
    }
    // unit 1's CPA costs what its value does by itself, no more and no less
    for (value, cost, refusal) in [(1, 7, 0), (1, 6, 5), (1, 8, 5), (1, 0, 5), (2, 0, 0), (2, 1, 5)] {
        assert_eq!(first.range(&out(&[value], cost)), refusal, "value {value}, cost {cost}");
    }
    // unit 3's: own value 1 costs 50 by itself and 3 and 4 with those before, which may cost at most 180,000
    let third = lent(3, &[1, 1, 1, 1], &[0, 0, 50, 0], &[0, 3, 0, 4, 0, 0]);
    for (cost, refusal) in [(57, 0), (56, 5), (7, 5), (0, 5), (180_057, 0), (180_058, 5), (360_000, 5)] {
        assert_eq!(third.range(&out(&[1, 1, 1], cost)), refusal, "{cost}");
    }
    // the dearest that there is
    let last = lent(16, &[1; 16], &[60_000; 16], &[60_000; 120]);
    assert_eq!(last.range(&out(&[1; 16], MAX_TOTAL)), 0);
    assert_eq!(last.range(&out(&[1; 16], MAX_TOTAL + 1)), 5);
    assert_eq!(last.range(&out(&[1; 16], 959_999)), 5);
}

// Steps

/// Sizes 2, 2, 2: unary costs, then the costs of pairs (1,2), (1,3), (2,3).
const UNARY: [u16; 6] = [20, 1, 0, 9, 30, 4];
const PAIRS: [u16; 12] = [5, 3, 2, 4, 1, 8, 7, 6, 2, 2, 3, 9];

#[test]
fn unary_costs_in_estimates_and_not_in_h() {
    let first = lent(1, &[2; 3], &UNARY, &PAIRS);
    let first = first.view();
    assert_eq!([first.h(1), first.h(2)], [Cost::Of(4), Cost::Of(8)]);
    let second = lent(2, &[2; 3], &UNARY, &PAIRS);
    let second = second.view();
    assert_eq!([second.h(1), second.h(2)], [Cost::Of(2), Cost::Of(3)]);
    assert_eq!([second.unary(1), second.unary(2)], [0, 9]);
    // value 1: 0 + 5 + 2, value 2: 9 + 3 + 3; then 0 + 2 + 2, 9 + 4 + 3
    assert_eq!([1, 2].map(|v| second.estimate(&places(&[v]), 1)), [Cost::Of(7), Cost::Of(4)]);
    let third = lent(3, &[2; 3], &UNARY, &PAIRS);
    let third = third.view();
    assert_eq!([third.h(1), third.h(2)], [Cost::Of(0); 2]);
    // 30 + 1 against 4 + 8: without unary costs value 1 would be the least
    assert_eq!(third.estimate(&places(&[1]), 1), Cost::Of(12));
    assert_eq!(third.estimate(&places(&[1, 2]), 2), Cost::Of(21));
}

#[test]
fn a_unary_cost_counts_when_its_value_is_written() {
    let mut first = lent(1, &[2; 3], &UNARY, &PAIRS);
    let made = first.make();
    assert_eq!((made.refusal, made.records, made.sent), (0, 1, 3));
    assert_eq!((made.unit.values[0], made.unit.cost), (1, 20));
    assert_eq!((first.sent(0).1.cost, first.sent(1).1.cost), (20, 20));
    // 20 + 4 is reached by estimates: then value 2, which costs 1
    let solution = Message { sender: 3, receiver: 1, bound: 30, best: places(&[1, 1, 1]), ..Message::default() };
    let told = first.step(&made.unit, message::SOLUTION, &solution);
    let estimate =
        |sender: u8, cost: u32| Message { sender, receiver: 1, stamp: made.unit.stamp, cost, ..Message::default() };
    let kept = first.step(&told.unit, message::ESTIMATE, &estimate(2, 9));
    assert_eq!((kept.refusal, kept.records, kept.sent), (0, 0, 0));
    let second = first.step(&told.unit, message::ESTIMATE, &estimate(2, 10));
    assert_eq!((second.refusal, second.records, second.sent), (0, 1, 3));
    assert_eq!((second.unit.values[0], second.unit.cost), (2, 1));
}

/// Unit 2 passes over a value for its unary cost alone, and gives the CPA back without what its own value cost.
#[test]
fn a_unary_cost_decides_a_step() {
    // with unit 1's value 1: value 1 costs 9 + 1, value 2 costs 2 + 3
    let (unary, pairs) = ([0, 9, 2, 0], [1, 3, 0, 0]);
    let cpa = |bound: u32| Message {
        sender: 1,
        receiver: 2,
        stamp: places(&[1]),
        values: places(&[1]),
        cost: 100,
        bound,
        best: places(&[1, 1, 1]),
    };
    for (bound, value, cost) in [(111, 1, 110), (110, 2, 105), (106, 2, 105)] {
        let mut second = lent(2, &[1, 2, 1], &unary, &[pairs[0], pairs[1], 0, 0, 0]);
        let fresh = second.make().unit;
        let wrote = second.step(&fresh, message::CPA, &cpa(bound));
        assert_eq!((wrote.refusal, wrote.records, wrote.sent), (0, 1, 2), "{bound}");
        assert_eq!((wrote.unit.values[1], wrote.unit.cost), (value, cost), "{bound}");
        // lower than what is left: back
        let lower = Message { bound: 100, ..cpa(bound) };
        let back = Message { sender: 3, stamp: wrote.unit.stamp, values: wrote.unit.values, cost, ..lower };
        let backed = second.step(&wrote.unit, message::CPA, &back);
        assert_eq!((backed.refusal, backed.records, backed.sent), (0, 0, 1));
        assert_eq!(second.sent(0), (message::CPA, Message { sender: 2, receiver: 1, ..lower }));
    }
    let mut second = lent(2, &[1, 2, 1], &unary, &[pairs[0], pairs[1], 0, 0, 0]);
    let fresh = second.make().unit;
    let backed = second.step(&fresh, message::CPA, &cpa(105));
    assert_eq!((backed.refusal, backed.records, backed.sent), (0, 0, 1));
    // without unary costs value 1 is written
    let mut second = lent(2, &[1, 2, 1], &[0; 4], &[pairs[0], pairs[1], 0, 0, 0]);
    let wrote = second.step(&fresh, message::CPA, &cpa(105));
    assert_eq!((wrote.records, wrote.unit.values[1], wrote.unit.cost), (1, 1, 101));
}

// Reports

#[test]
fn one_unit_takes_its_cheapest_value() {
    let file = table::file_of(&sample::stream_in_form_two(&[3], &[7, 2, 5], &[]));
    assert_eq!(sample::shed(&file), "total 2\nunit 1 value 2\nrecords 2 deliveries 0\n");
    assert_eq!(sample::bench(&file), "total 2\nunit 1 value 2\n");
}

#[test]
fn the_largest_total() {
    let stream = sample::stream_in_form_two(&[1; 16], &[60_000; 16], &[60_000; 120]);
    assert_eq!(search::exhaustive(&stream), Ok((MAX_TOTAL, [1; 16])));
    assert_eq!(search::branch_and_bound(&stream), Ok((MAX_TOTAL, [1; 16])));
    assert_eq!(costs::total(&stream, &[1; 16]), Cost::Of(8_160_000));
    let settled = network::settle(&stream, &mut vec![0; network::POOL]).unwrap();
    assert_eq!((settled.units[0].bound, settled.units[0].best), (MAX_TOTAL, [1; 16]));
    assert_eq!(settled.records, 16);
}

/// In form two with every unary cost zero a table is what it is in form one, in each delivery.
#[test]
fn zero_unary_costs_change_nothing() {
    let mut random = Random::new(41);
    for _ in 0..100 {
        let n = random.between(1, 5);
        let sizes: Vec<u8> = (0..n).map(|_| random.between(1, 3) as u8).collect();
        let stream = generate::stream_of(&mut random, &sizes);
        let pairs: Vec<u16> =
            table::pair_costs(&stream).chunks(2).map(|cost| u16::from_le_bytes([cost[0], cost[1]])).collect();
        let values = sizes.iter().map(|d| *d as usize).sum();
        let (one, two) = (sample::stream(&sizes, &pairs), sample::stream_in_form_two(&sizes, &vec![0; values], &pairs));
        for order in ValueOrder::BOTH {
            let (mut pool, mut other) = (vec![0; network::POOL], vec![0; network::POOL]);
            assert_eq!(network::settle_by(order, &one, &mut pool), network::settle_by(order, &two, &mut other));
            assert!(pool == other);
        }
        assert_eq!(search::exhaustive(&one), search::exhaustive(&two));
    }
}
