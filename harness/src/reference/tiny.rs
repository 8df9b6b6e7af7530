//! 02's job 13: all tables of two or three units with two values each, pair costs 0 or 1 and no own costs, by number.

use super::{table, Refusal};

/// How many pair costs such a table has, four for each pair. 02: "a unit count other than 2 or 3, is 21".
fn cost_count(units: u8) -> Result<usize, Refusal> {
    match units {
        2 => Ok(4),
        3 => Ok(3 * 4),
        _ => Err(21),
    }
}

/// How many tables there are. 02: "16 and 4,096".
pub fn tables(units: u8) -> Result<u32, Refusal> {
    Ok(1 << cost_count(units)?)
}

/// The table's stream in form one; gives its length. 02: "The order is the cost list read as a binary number, first cost as the top digit". Refusals
/// 21, 13.
pub fn write_stream(units: u8, number: u32, stream: &mut [u8]) -> Result<usize, Refusal> {
    let count = cost_count(units)?;
    if number >= tables(units)? {
        return Err(21);
    }
    if stream.len() < table::MAX_STREAM {
        return Err(13);
    }
    let mut made = vec![units];
    made.resize(1 + units as usize, 2);
    for digit in format!("{number:0count$b}").bytes() {
        made.extend_from_slice(&u16::from(digit - b'0').to_le_bytes());
    }
    stream[..made.len()].copy_from_slice(&made);
    Ok(made.len())
}
