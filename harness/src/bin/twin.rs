//! The two programs of document 01 by the reference implementation: `twin shed` and `twin bench` read a table's file on standard input.
//! The shed tries values in ascending order, as 01's listing does; `twin shed cheapest` tries the cheapest first (02's job 9). `twin slots` and
//! `twin slots cheapest` are the same over the pool of 02's job 4, the lowest cell in use delivered each time. `twin replay LIST` and `twin
//! replay cheapest LIST` list the shed over that pool after a recorded run (02's job 14), the file LIST. `twin bench bound` is the bench by branch
//! and bound (02's job 6). `twin retest own UNIT VALUE NEW` and `twin retest pair UNIT VALUE UNIT VALUE NEW` say what a retest of one cost can do
//! (02's job 12).

use harness::reference::order::ValueOrder;
use harness::reference::retest::Which;
use harness::sample;
use std::io::Read;
use std::process::exit;

/// The bytes, or an end with 2.
fn read(bytes: std::io::Result<Vec<u8>>, name: &str) -> Vec<u8> {
    bytes.unwrap_or_else(|error| {
        eprintln!("{name}: {error}");
        exit(2)
    })
}

/// The cost that the words name and its new number.
fn retest(words: &[&str]) -> Option<(Which, u32)> {
    let small = |word: &str| word.parse::<u8>().ok();
    match *words {
        ["own", unit, value, new] => {
            Some((Which::Unary { unit: small(unit)?, value: small(value)? }, new.parse().ok()?))
        }
        ["pair", i, u, j, v, new] => {
            let mut ends = [(small(i)?, small(u)?), (small(j)?, small(v)?)];
            ends.sort_unstable();
            Some((Which::Pair { first: ends[0], second: ends[1] }, new.parse().ok()?))
        }
        _ => None,
    }
}

fn main() {
    let words: Vec<String> = std::env::args().skip(1).collect();
    let words: Vec<&str> = words.iter().map(String::as_str).collect();
    let mut input = Vec::new();
    let file = || read(std::io::stdin().read_to_end(&mut input).map(|_| input), "standard input");
    let list = |path: &str| read(std::fs::read(path), path);
    let text = match words[..] {
        ["shed"] => sample::shed(&file()),
        ["shed", "cheapest"] => sample::shed_by(ValueOrder::CheapestFirst, &file()),
        ["slots"] => sample::slots_by(ValueOrder::Ascending, &file()),
        ["slots", "cheapest"] => sample::slots_by(ValueOrder::CheapestFirst, &file()),
        ["replay", path] => sample::replayed_by(ValueOrder::Ascending, &file(), &list(path)),
        ["replay", "cheapest", path] => sample::replayed_by(ValueOrder::CheapestFirst, &file(), &list(path)),
        ["bench"] => sample::bench(&file()),
        ["bench", "bound"] => sample::bench_bound(&file()),
        ["retest", ref said @ ..] if retest(said).is_some() => {
            retest(said).map_or_else(String::new, |(which, new)| sample::retest(&file(), which, new))
        }
        _ => {
            eprintln!(
                "twin shed|shed cheapest|slots|slots cheapest|replay LIST|replay cheapest LIST|bench|bench bound"
            );
            eprintln!("twin retest own UNIT VALUE NEW|retest pair UNIT VALUE UNIT VALUE NEW");
            exit(2)
        }
    };
    print!("{text}");
}
