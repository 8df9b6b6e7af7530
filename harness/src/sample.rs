//! Tables for tests and programs, those of vectors/ among them, and what the two programs print of them.

use crate::reference::order::ValueOrder;
use crate::reference::retest::{self, Which};
use crate::reference::unit::Unit;
use crate::reference::{network, search, slots, table, Places, NONE};
use std::path::{Path, PathBuf};

/// A stream in form one out of its sizes and its pair costs in the stream's order.
pub fn stream(sizes: &[u8], costs: &[u16]) -> Vec<u8> {
    let mut bytes = vec![sizes.len() as u8];
    bytes.extend_from_slice(sizes);
    for cost in costs {
        bytes.extend_from_slice(&cost.to_le_bytes());
    }
    bytes
}

/// A stream in form two.
pub fn stream_in_form_two(sizes: &[u8], unary: &[u16], pairs: &[u16]) -> Vec<u8> {
    let mut bytes = vec![table::FORM_TWO];
    bytes.extend(stream(sizes, &[unary, pairs].concat()));
    bytes
}

/// 01: "Table T: n = 2, sizes 2 and 2, costs 5, 3, 2, 4".
pub fn t() -> Vec<u8> {
    stream(&[2, 2], &[5, 3, 2, 4])
}

/// The files of the sample tables, by name.
pub fn tables() -> Vec<PathBuf> {
    let folder = Path::new(env!("CARGO_MANIFEST_DIR")).join("vectors");
    let mut files: Vec<_> = std::fs::read_dir(folder).expect("vectors").map(|entry| entry.unwrap().path()).collect();
    files.retain(|path| path.extension().is_some_and(|end| end == "table"));
    files.sort();
    files
}

/// The stream of a table's file, or the refusal.
pub fn read(file: &[u8]) -> Result<Vec<u8>, u8> {
    let mut buffer = vec![0; table::MAX_STREAM];
    let length = table::read(file, &mut buffer)?;
    buffer.truncate(length);
    Ok(buffer)
}

/// 02's job 3: "The listing then has the word none and values 0".
fn report(total: u32, values: &[u8]) -> String {
    let total = if total == NONE { "none".to_string() } else { total.to_string() };
    let mut text = format!("total {total}\n");
    for (k, value) in values.iter().enumerate() {
        text += &format!("unit {} value {value}\n", k + 1);
    }
    text
}

/// What the shed program prints on a table's file. 02's job 9: "The shed listing in document 01 .. name the plain ascending order".
pub fn shed(file: &[u8]) -> String {
    shed_by(ValueOrder::Ascending, file)
}

pub fn shed_by(order: ValueOrder, file: &[u8]) -> String {
    listing(file, |stream| {
        let network = network::settle_by(order, stream, &mut vec![0; network::POOL])?;
        Ok((network.units[0], network.records, network.deliveries))
    })
}

/// The listing of the run over 02's pool of job 4 that delivers the lowest cell in use each time.
pub fn slots_by(order: ValueOrder, file: &[u8]) -> String {
    listing(file, |stream| {
        let shed = slots::settle_by(order, stream, &mut vec![0; slots::POOL])?;
        Ok((shed.units[0], shed.records, shed.deliveries))
    })
}

/// The listing after a recorded run (02's job 14) is replayed on the shed as it is made.
pub fn replayed_by(order: ValueOrder, file: &[u8], list: &[u8]) -> String {
    listing(file, |stream| {
        let mut pool = vec![0; slots::POOL];
        let mut shed = slots::make_by(order, stream, &mut pool)?;
        slots::replay_by(order, &mut shed, stream, &mut pool, list)?;
        Ok((shed.units[0], shed.records, shed.deliveries))
    })
}

/// Unit 1, records and deliveries are what a table's stream settles to.
fn listing(file: &[u8], settle: impl Fn(&[u8]) -> Result<(Unit, u128, u128), u8>) -> String {
    let settled = read(file).and_then(|stream| Ok((table::head(&stream).0 as usize, settle(&stream)?)));
    match settled {
        Ok((n, (unit, records, deliveries))) => {
            report(unit.bound, &unit.best[..n]) + &format!("records {records} deliveries {deliveries}\n")
        }
        Err(refusal) => format!("refused {refusal}\n"),
    }
}

/// What the bench program prints on a table's file.
pub fn bench(file: &[u8]) -> String {
    found(file, search::exhaustive)
}

/// The same with the word `bound`.
pub fn bench_bound(file: &[u8]) -> String {
    found(file, search::branch_and_bound)
}

/// What the retest program prints of a table's file, a cost of it and its new number (02's job 12); nothing where it has no such cost.
pub fn retest(file: &[u8], which: Which, new: u32) -> String {
    let retested = read(file).and_then(|stream| {
        let number = u16::try_from(new).unwrap_or(u16::MAX);
        let Some((changed, old)) = retest::retested(&stream, which, number) else { return Ok(String::new()) };
        let total = search::branch_and_bound(&stream)?.0;
        let (lower, upper) = retest::ends(total, old.into(), new)?;
        let again = search::branch_and_bound(&changed)?.0;
        let word = |total: u32| if total == NONE { "none".to_string() } else { total.to_string() };
        let lines = [("total", total), ("lower end", lower), ("upper end", upper), ("new total", again)];
        Ok(lines.map(|(name, total)| format!("{name} {}\n", word(total))).concat())
    });
    retested.unwrap_or_else(|refusal| format!("refused {refusal}\n"))
}

fn found(file: &[u8], search: impl Fn(&[u8]) -> Result<(u32, Places), u8>) -> String {
    let found = read(file).and_then(|stream| Ok((table::head(&stream).0 as usize, search(&stream)?)));
    match found {
        Ok((n, (total, values))) => report(total, &values[..n]),
        Err(refusal) => format!("refused {refusal}\n"),
    }
}
