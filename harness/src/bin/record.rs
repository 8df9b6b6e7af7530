//! Writes the list of a recorded run (02's job 14) of a table's file to standard output, from the reference implementation: the cells that
//! the shed over the pool of slots delivers until box 1 has stopped, two bytes each, the low one first.
//!
//! record ORDER SCHEDULE TABLE: the order of values is ascending or cheapest; the schedule says which cell in use is delivered next: lowest,
//! highest or random:SEED. `twin replay` prints the listing after such a list.

use harness::recorded::{self, Schedule};
use harness::reference::order::ValueOrder;
use harness::sample;
use std::io::Write;
use std::process::exit;

fn fail<T>(code: i32, text: &str) -> T {
    eprintln!("{text}");
    exit(code)
}

fn usage<T>() -> T {
    fail(2, "record ascending|cheapest lowest|highest|random:SEED TABLE")
}

fn main() {
    let words: Vec<String> = std::env::args().skip(1).collect();
    let [order, schedule, path] = &words[..] else { usage() };
    let order = match order.as_str() {
        "ascending" => ValueOrder::Ascending,
        "cheapest" => ValueOrder::CheapestFirst,
        _ => usage(),
    };
    let schedule = Schedule::named(schedule).unwrap_or_else(usage);
    let file = std::fs::read(path).unwrap_or_else(|error| fail(2, &format!("{path}: {error}")));
    let list = sample::read(&file).and_then(|stream| recorded::run(order, schedule, &stream));
    let list = list.unwrap_or_else(|refusal| fail(1, &format!("refused {refusal}")));
    if let Err(error) = std::io::stdout().write_all(&list) {
        fail(2, &error.to_string())
    }
}
