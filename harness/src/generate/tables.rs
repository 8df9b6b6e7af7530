//! Tables, right and damaged: as streams in either form, and as files.

use crate::cases;
use crate::random::Random;
use crate::reference::table::{self, Form, FORM_TWO};
use crate::reference::FORBIDDEN_PAIR;
use crate::sample;

// Streams

/// Sizes of a table that is quick to work on; once in 40 of any shape at all, and once in 160 of the largest.
pub fn sizes(random: &mut Random) -> Vec<u8> {
    if random.once_in(160) {
        return vec![16; 16];
    }
    let (n, most) = match random.below(40) {
        0 => (random.between(1, 16), 16),
        1..=4 => (random.between(1, 16), 3),
        5..=9 => (random.between(2, 3), 16),
        _ => (random.between(1, 6), 4),
    };
    (0..n).map(|_| random.between(1, most) as u8).collect()
}

fn cost(random: &mut Random, style: u64) -> u16 {
    match style {
        0 => random.below(2) as u16,
        1 => random.below(10) as u16,
        2 => random.between(0, 60_000) as u16,
        3 => 60_000,
        _ => *random.pick(&[0, 0, 0, 1, 255, 256, 257, 60_000]),
    }
}

/// Which pairs of a table are forbidden; in half of the tables some are.
#[derive(Clone, Copy)]
enum Forbidding {
    Nothing,
    /// Each pair once in so many.
    OnceIn(u64),
    /// Equal values: with more units than values nothing is permitted, though values have an h.
    Alike,
    /// All pairs of two units: no value of the first has an h.
    Units(usize, usize),
    /// All pairs of a unit's value with another unit.
    Value(usize, u8, usize),
    All,
}

impl Forbidding {
    fn any(random: &mut Random, sizes: &[u8]) -> Forbidding {
        let n = sizes.len() as u64;
        if n == 1 {
            return Forbidding::Nothing;
        }
        let one = random.below(n) as usize;
        let other = (one + random.between(1, n - 1) as usize) % n as usize;
        match random.below(26) {
            0..=12 => Forbidding::Nothing,
            13 | 14 => Forbidding::OnceIn(20),
            15 | 16 => Forbidding::OnceIn(5),
            17 => Forbidding::OnceIn(2),
            18 | 19 => Forbidding::Alike,
            20 => Forbidding::Units(one.min(other), one.max(other)),
            21 => Forbidding::Value(one, random.below(u64::from(sizes[one])) as u8, other),
            // one value of a unit without an h
            22..=24 => {
                let (one, other) = (one.min(other), one.max(other));
                Forbidding::Value(one, random.below(u64::from(sizes[one])) as u8, other)
            }
            _ => *random.pick(&[Forbidding::Units(0, one.max(1)), Forbidding::All]),
        }
    }

    /// Whether the pair of unit i's value u and unit j's value v is; all count from 0.
    fn holds(self, random: &mut Random, (i, u): (usize, u8), (j, v): (usize, u8)) -> bool {
        match self {
            Forbidding::Nothing => false,
            Forbidding::OnceIn(times) => random.once_in(times),
            Forbidding::Alike => u == v,
            Forbidding::Units(one, other) => (i, j) == (one, other),
            Forbidding::Value(one, value, other) => {
                ((i, u), j) == ((one, value), other) || ((j, v), i) == ((one, value), other)
            }
            Forbidding::All => true,
        }
    }
}

fn pair_costs(random: &mut Random, sizes: &[u8], cost: impl Fn(&mut Random) -> u16) -> Vec<u16> {
    let forbidding = Forbidding::any(random, sizes);
    let mut costs = Vec::new();
    for i in 0..sizes.len() {
        for j in i + 1..sizes.len() {
            for (u, v) in (0..sizes[i]).flat_map(|u| (0..sizes[j]).map(move |v| (u, v))) {
                let forbidden = forbidding.holds(random, (i, u), (j, v));
                costs.push(if forbidden { FORBIDDEN_PAIR } else { cost(random) });
            }
        }
    }
    costs
}

/// All zero, one alone above zero, or any.
fn unary_costs(random: &mut Random, sizes: &[u8]) -> Vec<u16> {
    let mut costs = vec![0; sizes.iter().map(|d| *d as usize).sum()];
    let style = random.below(5);
    match random.below(8) {
        0 | 1 => {}
        2 => {
            let last = costs.len() - 1;
            let any = random.below(costs.len() as u64) as usize;
            costs[*random.pick(&[0, any, last])] = *random.pick(&[1, 255, 256, 512, 60_000]);
        }
        _ => costs.fill_with(|| cost(random, style)),
    }
    costs
}

/// A stream of these sizes, half of them in form two.
pub fn stream_of(random: &mut Random, sizes: &[u8]) -> Vec<u8> {
    let style = random.below(5);
    let pairs = pair_costs(random, sizes, |random| cost(random, style));
    if random.once_in(2) {
        return sample::stream(sizes, &pairs);
    }
    sample::stream_in_form_two(sizes, &unary_costs(random, sizes), &pairs)
}

/// A stream that is quick to search; three in four are full of ties.
pub fn searched(random: &mut Random) -> Vec<u8> {
    let n = random.between(1, 6);
    let sizes: Vec<u8> = (0..n).map(|_| *random.pick(&[1, 2, 2, 3, 3, 3, 4])).collect();
    if random.once_in(4) {
        stream_of(random, &sizes)
    } else {
        tied(random, &sizes)
    }
}

/// The same of 7 to 16 units; as most of them have one value, no table has more than 64 assignments.
pub fn searched_wide(random: &mut Random) -> Vec<u8> {
    let n = random.between(7, 20).min(16);
    let mut sizes = vec![1; n as usize];
    for _ in 0..random.between(1, 6) {
        sizes[random.below(n) as usize] = random.between(1, 2) as u8;
    }
    if random.once_in(4) {
        stream_of(random, &sizes)
    } else {
        tied(random, &sizes)
    }
}

/// A stream of more assignments than the exhaustive search takes; as only the first few units cost anything, branch and bound goes to few of
/// them.
pub fn past_limit(random: &mut Random) -> Vec<u8> {
    let few = random.between(1, 5) as usize;
    let n = random.between(few as u64 + 6, 16) as usize;
    let size = |random: &mut Random, k: usize| if k < few { random.between(1, 4) } else { random.between(11, 16) };
    let sizes: Vec<u8> = (0..n).map(|k| size(random, k) as u8).collect();
    let front = sizes[..few].to_vec();
    let style = random.below(5);
    let mut costly = pair_costs(random, &front, |random| cost(random, style)).into_iter();
    let mut pairs = Vec::new();
    for i in 0..n {
        for j in i + 1..n {
            let count = sizes[i] as usize * sizes[j] as usize;
            pairs.extend((0..count).map(|_| if j < few { costly.next().unwrap_or(0) } else { 0 }));
        }
    }
    if random.once_in(2) {
        return sample::stream(&sizes, &pairs);
    }
    let mut unary = unary_costs(random, &front);
    unary.resize(sizes.iter().map(|d| *d as usize).sum(), 0);
    sample::stream_in_form_two(&sizes, &unary, &pairs)
}

/// Costs are the same, or differ by 1 or 2; half of the streams are in form two.
fn tied(random: &mut Random, sizes: &[u8]) -> Vec<u8> {
    let least = *random.pick(&[0, 0, 0, 1, 7]);
    let most = least + *random.pick(&[0, 1, 1, 2, 2]);
    let cost = |random: &mut Random| random.between(least, most) as u16;
    let pairs = pair_costs(random, sizes, cost);
    if random.once_in(2) {
        return sample::stream(sizes, &pairs);
    }
    let unary: Vec<u16> = sizes.iter().flat_map(|d| 0..*d).map(|_| cost(random)).collect();
    sample::stream_in_form_two(sizes, &unary, &pairs)
}

/// The dearest table that there is; in half of them one unit has a choice of two values.
pub fn dearest(random: &mut Random) -> Vec<u8> {
    let mut sizes = [1; 16];
    sizes[random.below(16) as usize] = random.between(1, 2) as u8;
    let values: usize = sizes.iter().map(|d| *d as usize).sum();
    let pairs = if values == 16 { 120 } else { 135 };
    sample::stream_in_form_two(&sizes, &vec![60_000; values], &vec![60_000; pairs])
}

/// A stream that every call accepts.
pub fn stream(random: &mut Random) -> Vec<u8> {
    let sizes = sizes(random);
    stream_of(random, &sizes)
}

/// A table's stream, damaged once in `times`.
pub fn some_stream(random: &mut Random, times: u64) -> Vec<u8> {
    let mut stream = stream(random);
    if random.once_in(times) {
        damage_stream(random, &mut stream);
    }
    stream
}

/// One damage to a stream, which was right.
pub fn damage_stream(random: &mut Random, stream: &mut Vec<u8>) {
    let form = table::form(stream);
    let count = usize::from(form == Form::Two);
    let n = stream[count] as usize;
    let (unary, pairs) = cases::begin_in_stream(stream);
    match random.below(12) {
        0 => stream[count] = *random.pick(&[0, 17, 200, 201, 255]),
        1 => stream[count + random.between(1, n as u64) as usize] = *random.pick(&[0, 17, 255]),
        2 => stream.truncate(random.below(stream.len() as u64) as usize),
        3 => stream.truncate(random.below((count + n) as u64 + 2) as usize),
        4 => stream.truncate(1),
        5 => stream.extend(vec![random.byte(); random.between(1, 3) as usize]),
        6 => damage_cost(random, &mut stream[pairs..]),
        7..=9 => damage_cost(random, &mut stream[unary..pairs]),
        10 if form == Form::Two => drop(stream.remove(0)),
        10 => stream.insert(0, FORM_TWO),
        _ => {
            let at = random.below(stream.len() as u64) as usize;
            stream[at] = random.byte();
        }
    }
}

/// A cost above 60,000, where there is a cost; at times the forbidden one, which is no damage among pairs.
pub fn damage_cost(random: &mut Random, costs: &mut [u8]) {
    if costs.len() >= 2 {
        let at = 2 * random.below(costs.len() as u64 / 2) as usize;
        let above = *random.pick(&[60_001, FORBIDDEN_PAIR - 1, FORBIDDEN_PAIR]);
        costs[at..at + 2].copy_from_slice(&above.to_le_bytes());
    }
}

// Files

/// A table's file, mostly right; at times filled up with zeros to about as many blocks as a file may have.
pub fn file(random: &mut Random) -> Vec<u8> {
    let mut stream = some_stream(random, 3);
    if random.once_in(60) {
        let blocks = random.between(121, 123) as usize;
        stream.resize(blocks * table::PAYLOAD + random.between(1, 506) as usize, 0);
    }
    let mut file = table::file_of(&stream);
    if random.once_in(3) && !file.is_empty() {
        damage_file(random, &mut file);
    }
    file
}

fn reseal_block(file: &mut [u8], block: usize) {
    let bytes = &mut file[512 * block..512 * (block + 1)];
    let check = crate::reference::checksum::sum(&bytes[..510]);
    bytes[510..512].copy_from_slice(&check.to_le_bytes());
}

/// One damage to a table's file. It has at least one block.
pub fn damage_file(random: &mut Random, file: &mut Vec<u8>) {
    let block = random.below(file.len() as u64 / 512) as usize;
    let at = 512 * block;
    match random.below(10) {
        0 => {
            let any = random.below(file.len() as u64) as usize;
            file[any] ^= 1 << random.below(8);
        }
        1 => file[at + random.below(2) as usize] ^= 1 << random.below(8),
        2 => {
            file[at] = file[at].wrapping_add(1);
            reseal_block(file, block);
        }
        3 => {
            let count = *random.pick(&[0u16, 1, 505, 506, 507, 65_535]);
            file[at + 2..at + 4].copy_from_slice(&count.to_le_bytes());
            reseal_block(file, block);
        }
        4 => {
            file[at + 4 + random.below(506) as usize] ^= 1 << random.below(8);
            reseal_block(file, block);
        }
        5 => file[at + 510..at + 512].copy_from_slice(&[random.byte(), 255]),
        6 => file.truncate(random.below(file.len() as u64) as usize),
        7 => file.truncate(at),
        8 => file.extend_from_within(at..at + 512),
        _ => file.extend(vec![0; *random.pick(&[1, 511, 512, 62_976])]),
    }
}
