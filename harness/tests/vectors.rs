//! Every sample table against the listings, one for each order of values and each pool, and the bench report that lie beside it; branch and bound
//! against the listing in ascending order.

use harness::recorded::{self, Schedule};
use harness::reference::order::ValueOrder;
use harness::reference::table;
use harness::sample::{self, tables};
use std::fs;

fn compare_all(end: &str, program: fn(&[u8]) -> String) -> usize {
    let mut compared = 0;
    for path in tables() {
        let Ok(expected) = fs::read_to_string(path.with_extension(end)) else { continue };
        assert_eq!(program(&fs::read(&path).unwrap()), expected, "{}", path.display());
        compared += 1;
    }
    compared
}

#[test]
fn listings() {
    assert_eq!(compare_all("listing", sample::shed), 18);
}

#[test]
fn listings_cheapest_first() {
    assert_eq!(compare_all("cheapest", |file| sample::shed_by(ValueOrder::CheapestFirst, file)), 18);
}

/// Over the pool of slots (02's job 4), the lowest cell in use delivered each time.
#[test]
fn listings_over_slots() {
    assert_eq!(compare_all("slots", |file| sample::slots_by(ValueOrder::Ascending, file)), 18);
    assert_eq!(compare_all("slots-cheapest", |file| sample::slots_by(ValueOrder::CheapestFirst, file)), 18);
}

/// The last number of a listing.
fn deliveries(listing: &str) -> u64 {
    listing.trim_end().rsplit(' ').next().expect("a count line").parse().expect("a number")
}

/// All but the last line of a listing.
fn report(listing: &str) -> &str {
    listing.rsplit_once("records").expect("a count line").0
}

/// A run that delivers the lowest cell in use each time, recorded and replayed (02's job 14), comes to its listing; on another schedule to the
/// same assignment. Of the samples whose runs are not too long.
#[test]
fn listings_of_recorded_runs() {
    let mut compared = 0;
    for (order, end) in [(ValueOrder::Ascending, "slots"), (ValueOrder::CheapestFirst, "slots-cheapest")] {
        for path in tables() {
            let Ok(expected) = fs::read_to_string(path.with_extension(end)) else { continue };
            if deliveries(&expected) > 4_000 {
                continue;
            }
            let file = fs::read(&path).unwrap();
            let replayed = |schedule: Schedule| {
                let list = recorded::run(order, schedule, &sample::read(&file).unwrap()).unwrap();
                sample::replayed_by(order, &file, &list)
            };
            assert_eq!(replayed(Schedule::Lowest), expected, "{}", path.display());
            for schedule in [Schedule::Highest, Schedule::Random(3)] {
                assert_eq!(report(&replayed(schedule)), report(&expected), "{}, {schedule:?}", path.display());
            }
            compared += 1;
        }
    }
    assert_eq!(compared, 32);
}

/// All listings of a table have the same total; those of one order over either pool the same assignment.
#[test]
fn totals_of_both_orders_and_pools() {
    for path in tables() {
        let Ok(listing) = fs::read_to_string(path.with_extension("listing")) else { continue };
        let read = |end: &str| fs::read_to_string(path.with_extension(end)).unwrap();
        let (cheapest, over_slots) = (read("cheapest"), [read("slots"), read("slots-cheapest")]);
        assert_eq!(cheapest.lines().next(), listing.lines().next(), "{}", path.display());
        for (old, new) in [&listing, &cheapest].into_iter().zip(&over_slots) {
            assert_eq!(report(old), report(new), "{}", path.display());
        }
    }
}

#[test]
fn bench_reports() {
    assert_eq!(compare_all("bench", sample::bench), 20);
}

/// Branch and bound (02's job 6) finds what the shed reports that tries values ascending, past the exhaustive search's limit too.
#[test]
fn bench_reports_by_branch_and_bound() {
    let mut past_limit = 0;
    for path in tables() {
        let Ok(listing) = fs::read_to_string(path.with_extension("listing")) else { continue };
        let file = fs::read(&path).unwrap();
        assert_eq!(sample::bench_bound(&file), report(&listing), "{}", path.display());
        past_limit += u32::from(sample::bench(&file) == "refused 16\n");
    }
    assert_eq!(past_limit, 1);
}

/// An accepted file written again is the same bytes.
#[test]
fn read_then_written() {
    for path in tables() {
        let file = fs::read(&path).unwrap();
        let stream = sample::read(&file).unwrap();
        let mut again = vec![0xaa; file.len() + 7];
        assert_eq!(table::write(&stream, &mut again), Ok(file.len()));
        assert_eq!(again[..file.len()], file);
        assert_eq!(again[file.len()..], [0xaa; 7]);
    }
}
