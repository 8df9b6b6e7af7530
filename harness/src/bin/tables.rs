//! `tables FOLDER COUNT` writes random tables there, each as K.table (stored, in form one or two) and K.wcsp (for toulbar2). The same ones
//! every time; about half of them have forbidden pairs, and some of these no permitted assignment; about a third have unary costs.
//! `tables FOLDER sheds` writes the sheds that scripts/bound-speed measures on.

use harness::generate;
use harness::random::Random;
use harness::reference::table::{self, Form};
use harness::reference::{readings, FORBIDDEN_PAIR, MAX_TOTAL};
use harness::sample;
use std::fmt::Write;
use std::path::Path;
use std::process::exit;

/// Units and values of the sheds.
const SHAPES: [(usize, u8); 3] = [(8, 16), (12, 5), (16, 4)];

fn numbers(bytes: &[u8]) -> impl Iterator<Item = u16> + '_ {
    bytes.chunks(2).map(|cost| u16::from_le_bytes([cost[0], cost[1]]))
}

/// The weighted CSP format: name, variables, largest domain, functions, upper bound; sizes; then each function's costs above 0, those of one
/// variable first. No solution costs the upper bound or more, so a pair of that cost is forbidden.
fn wcsp(name: &str, stream: &[u8]) -> String {
    let (n, sizes) = table::head(stream);
    let n = n as usize;
    let d = |k: usize| sizes[k - 1] as usize;
    let largest = (1..=n).map(d).max().unwrap_or(0);
    let sizes: Vec<String> = (1..=n).map(|k| d(k).to_string()).collect();
    let top = MAX_TOTAL + 1;
    let of_one = if table::form(stream) == Form::Two { n } else { 0 };
    let mut text = format!("{name} {n} {largest} {} {top}\n{}\n", of_one + n * (n - 1) / 2, sizes.join(" "));
    let mut unary = numbers(table::unary_costs(stream));
    for i in 1..=of_one {
        let costs: Vec<(usize, u16)> = unary.by_ref().take(d(i)).enumerate().filter(|(_, cost)| *cost > 0).collect();
        let _ = writeln!(text, "1 {} 0 {}", i - 1, costs.len());
        text.extend(costs.iter().map(|(value, cost)| format!("{value} {cost}\n")));
    }
    let mut costs = numbers(table::pair_costs(stream));
    for i in 1..=n {
        for j in i + 1..=n {
            let mut lines = Vec::new();
            for u in 0..d(i) {
                for v in 0..d(j) {
                    match costs.next() {
                        Some(0) | None => {}
                        Some(FORBIDDEN_PAIR) => lines.push(format!("{u} {v} {top}\n")),
                        Some(cost) => lines.push(format!("{u} {v} {cost}\n")),
                    }
                }
            }
            let _ = writeln!(text, "2 {} {} 0 {}", i - 1, j - 1, lines.len());
            text.extend(lines);
        }
    }
    text
}

/// Up to 12 units of up to 6 values; some have more assignments than the bench takes.
fn sizes(random: &mut Random) -> Vec<u8> {
    let n = random.between(1, 12);
    let (least, most) = match n {
        1..=7 => (1, 6),
        8..=10 => (1, 4),
        _ => (3, 4),
    };
    (0..n).map(|_| random.between(least, most) as u8).collect()
}

fn write(path: &Path, bytes: &[u8]) {
    if let Err(error) = std::fs::write(path, bytes) {
        eprintln!("{}: {error}", path.display());
        exit(2);
    }
}

/// Pair costs of 0 to 99, between as many pairs of units as the density says; the others cost nothing.
fn costs_between(random: &mut Random, n: usize, d: u8, density: f64) -> Vec<u8> {
    let each = d as usize * d as usize;
    let mut costs = Vec::new();
    for _ in 0..n * (n - 1) / 2 {
        let most = if random.chance(density) { 99 } else { 0 };
        costs.extend((0..each).map(|_| random.between(0, most) as u16));
    }
    sample::stream(&vec![d; n], &costs)
}

/// Readings of 16.0 to 17.9 microns, so that any two lines may share a lot at a cost.
fn by_readings(random: &mut Random, n: usize, d: u8) -> Vec<u8> {
    let readings: Vec<u8> = (0..n).flat_map(|_| (random.between(160, 179) as u16).to_le_bytes()).collect();
    let mut stream = vec![0; table::MAX_STREAM];
    let length = readings::write_stream(n as u8, &[d; 16], &readings, &mut stream).expect("readings in range");
    stream.truncate(length);
    stream
}

/// Of 8, 12 and 16 units, the more of them the fewer values.
fn sheds() -> Vec<(String, Vec<u8>)> {
    let mut random = Random::new(6);
    let mut sheds = Vec::new();
    for (n, d) in SHAPES {
        sheds.push((format!("uniform-{n}-of-{d}"), costs_between(&mut random, n, d, 1.0)));
        sheds.push((format!("sparse-{n}-of-{d}"), costs_between(&mut random, n, d, 0.3)));
        sheds.push((format!("readings-{n}-of-{d}"), by_readings(&mut random, n, d)));
    }
    sheds
}

fn random_tables(count: u64) -> Vec<(String, Vec<u8>)> {
    let mut random = Random::new(8);
    let mut table = |k: u64| {
        let sizes = sizes(&mut random);
        (k.to_string(), generate::stream_of(&mut random, &sizes))
    };
    (1..=count).map(&mut table).collect()
}

fn main() {
    let arguments: Vec<String> = std::env::args().skip(1).collect();
    let [folder, which] = &arguments[..] else {
        eprintln!("tables FOLDER COUNT|sheds");
        exit(2)
    };
    let tables = if which == "sheds" { sheds() } else { random_tables(which.parse().unwrap_or(0)) };
    for (name, stream) in tables {
        let mut file = vec![0; table::MAX_FILE];
        let length = table::write(&stream, &mut file).expect("a table made here is accepted");
        write(&Path::new(folder).join(format!("{name}.table")), &file[..length]);
        write(&Path::new(folder).join(format!("{name}.wcsp")), wcsp(&format!("table{name}"), &stream).as_bytes());
    }
}
