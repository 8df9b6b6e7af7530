//! 02's job 12: how far the least total may go when one cost is retested; and a table with that cost in it.

use super::table::{self, Form};
use super::{convert, Refusal, FORBIDDEN_PAIR, MAX_COST, MAX_TOTAL, NONE};

/// Both ends, "from the old total and the change, the lower end never below 0". Refusal 20.
pub fn ends(total: u32, old: u32, new: u32) -> Result<(u32, u32), Refusal> {
    let past = total != NONE && total > MAX_TOTAL;
    if past || old.max(new) > MAX_COST {
        return Err(20);
    }
    if total == NONE {
        return Ok((NONE, NONE));
    }
    let (total, change) = (i64::from(total), i64::from(new) - i64::from(old));
    let ends = [total, total + change];
    let lower = ends.into_iter().min().map_or(0, |end| end.max(0));
    let upper = ends.into_iter().max().unwrap_or(total);
    Ok((lower as u32, upper as u32))
}

/// Which cost; units and values count from 1.
#[derive(Clone, Copy, PartialEq, Eq, Debug)]
pub enum Which {
    Unary { unit: u8, value: u8 },
    Pair { first: (u8, u8), second: (u8, u8) },
}

/// All costs of these sizes, in the order in which form two has them.
pub fn all(sizes: &[u8]) -> Vec<Which> {
    let units = || (1..=sizes.len() as u8).map(|unit| (unit, sizes[unit as usize - 1]));
    let mut all = Vec::new();
    for (unit, size) in units() {
        all.extend((1..=size).map(|value| Which::Unary { unit, value }));
    }
    for (i, first_size) in units() {
        for (j, second_size) in units().filter(|(j, _)| *j > i) {
            for u in 1..=first_size {
                all.extend((1..=second_size).map(|v| Which::Pair { first: (i, u), second: (j, v) }));
            }
        }
    }
    all
}

/// The table in form two with another number for one cost, and the number that it had; none where there is no such cost.
pub fn retested(stream: &[u8], which: Which, new: u16) -> Option<(Vec<u8>, u16)> {
    let mut stream = convert::in_form(stream, Form::Two);
    let (n, sizes) = table::head(&stream);
    let index = all(&sizes[..n as usize]).into_iter().position(|cost| cost == which)?;
    let at = 2 + n as usize + 2 * index;
    let old = u16::from_le_bytes([stream[at], stream[at + 1]]);
    stream[at..at + 2].copy_from_slice(&new.to_le_bytes());
    Some((stream, old))
}

/// "Barred marks are neither raised nor lowered".
pub fn is_mark(number: u16) -> bool {
    number == FORBIDDEN_PAIR
}
