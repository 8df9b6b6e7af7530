//! 02's job 1: a table's stream out of one reading a line. Lines are units, lots are values.

use super::{check_sizes, table, Places, Refusal};

/// What a gap of 0 to 19 costs.
const SCHEDULE: [u16; 20] = [0, 0, 1, 2, 4, 7, 11, 16, 22, 29, 37, 46, 56, 67, 79, 92, 106, 121, 137, 154];

/// What two lines cost in the same lot. 02: "A negative gap costs half of its positive twin, rounded down".
pub fn cost_of_gap(gap: i32) -> u16 {
    let twin = SCHEDULE.get(gap.unsigned_abs() as usize).copied().unwrap_or(60_000);
    if gap < 0 {
        twin / 2
    } else {
        twin
    }
}

/// Adds the costs of a pair of lines. 02: "two lines in different lots cost 0".
fn add_pair(stream: &mut Vec<u8>, gap: i32, lots: u8, later_lots: u8) {
    let cost = cost_of_gap(gap);
    for lot in 1..=lots {
        for later_lot in 1..=later_lots {
            let cost = if lot == later_lot { cost } else { 0 };
            stream.extend_from_slice(&cost.to_le_bytes());
        }
    }
}

/// The stream of these readings, 2 bytes each; gives its length. Refusals 5, 6, 17, 13.
pub fn write_stream(n: u8, sizes: &Places, readings: &[u8], stream: &mut [u8]) -> Result<usize, Refusal> {
    check_sizes(n, sizes)?;
    let lines = n as usize;
    if readings.len() != 2 * lines {
        return Err(6);
    }
    let readings: Vec<i32> = readings.chunks(2).map(|r| u16::from_le_bytes([r[0], r[1]]).into()).collect();
    if readings.iter().any(|reading| !(100..=400).contains(reading)) {
        return Err(17);
    }
    if stream.len() < table::MAX_STREAM {
        return Err(13);
    }
    let mut made = vec![n];
    made.extend_from_slice(&sizes[..lines]);
    for i in 0..lines {
        for j in i + 1..lines {
            add_pair(&mut made, readings[j] - readings[i], sizes[i], sizes[j]);
        }
    }
    stream[..made.len()].copy_from_slice(&made);
    Ok(made.len())
}
