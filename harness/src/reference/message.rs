//! The radio message of 64 bytes. Names are the field's: cpa is 01's paper, request its copy, solution its news.

use super::{bound_in_range, check_sizes, checksum, cost_limit, filled, solution_in_range};
use super::{Places, Refusal, MAX_ESTIMATE, NONE};

pub const SIZE: usize = 64;

pub const CPA: u8 = 1;
pub const REQUEST: u8 = 2;
pub const ESTIMATE: u8 = 3;
pub const SOLUTION: u8 = 4;
pub const STOP: u8 = 5;

#[derive(Clone, Copy, PartialEq, Eq, Debug, Default)]
pub struct Message {
    pub sender: u8,
    pub receiver: u8,
    pub stamp: Places,
    pub values: Places,
    pub cost: u32,
    pub bound: u32,
    pub best: Places,
}

/// Bytes into kind and message. Refusals 5, 8, 10, 9.
pub fn parse(n: u8, sizes: &Places, bytes: &[u8]) -> Result<(u8, Message), Refusal> {
    check_sizes(n, sizes)?;
    parse_for(n, sizes, bytes, None)
}

/// The same once n and sizes are checked; with a receiver named, 10 where the message is for another.
pub fn parse_for(n: u8, sizes: &Places, bytes: &[u8], receiver: Option<u8>) -> Result<(u8, Message), Refusal> {
    if bytes.len() != SIZE {
        return Err(8);
    }
    if u16::from_le_bytes([bytes[62], bytes[63]]) != checksum::sum(&bytes[..62]) {
        return Err(8);
    }
    let (kind, message) = fields(bytes);
    check_ends(n, &message)?;
    if receiver.is_some_and(|own| own != message.receiver) {
        return Err(10);
    }
    if bytes[3] != 0 || bytes[60] != 0 || bytes[61] != 0 {
        return Err(9);
    }
    check_fields(n, sizes, kind, &message)?;
    Ok((kind, message))
}

/// A message into the first 64 bytes lent. Refusals 5, 10, 9, 13.
pub fn write(n: u8, sizes: &Places, kind: u8, message: &Message, bytes: &mut [u8]) -> Result<(), Refusal> {
    check_sizes(n, sizes)?;
    check_ends(n, message)?;
    check_fields(n, sizes, kind, message)?;
    if bytes.len() < SIZE {
        return Err(13);
    }
    bytes[..SIZE].copy_from_slice(&encode(kind, message));
    Ok(())
}

/// Refusal 10: sender or receiver not 1 to n.
fn check_ends(n: u8, message: &Message) -> Result<(), Refusal> {
    if (1..=n).contains(&message.sender) && (1..=n).contains(&message.receiver) {
        Ok(())
    } else {
        Err(10)
    }
}

/// Refusal 9: a field against its kind.
fn check_fields(n: u8, sizes: &Places, kind: u8, m: &Message) -> Result<(), Refusal> {
    let zero = [0; 16];
    let no_solution = m.bound == 0 && m.best == zero;
    let no_prefix = m.stamp == zero && m.values == zero && m.cost == 0;
    let prefix = |k: u8| {
        let k = k as usize;
        filled(&m.stamp, k, sizes) && filled(&m.values, k, sizes) && m.cost <= cost_limit(k)
    };
    let bounded = bound_in_range(m.bound, &m.best, n as usize, sizes);
    let good = match kind {
        CPA => {
            let down = m.receiver == m.sender + 1 && prefix(m.receiver - 1);
            let back = m.receiver + 1 == m.sender && prefix(m.receiver);
            (down || back) && bounded
        }
        REQUEST => m.sender < m.receiver && prefix(m.sender) && no_solution,
        ESTIMATE => {
            let stamped = filled(&m.stamp, m.receiver as usize, sizes) && m.values == zero;
            // 02's job 3: "An estimate with no value left carries 4,294,967,295, which check 9 lets through"
            let estimated = m.cost <= MAX_ESTIMATE || m.cost == NONE;
            m.sender > m.receiver && stamped && estimated && no_solution
        }
        SOLUTION => {
            let solved = solution_in_range(m.bound, &m.best, n as usize, sizes);
            m.sender == n && m.receiver != n && no_prefix && solved
        }
        STOP => m.sender == 1 && m.receiver != 1 && no_prefix && bounded,
        _ => false,
    };
    if good {
        Ok(())
    } else {
        Err(9)
    }
}

/// The fields as they stand, unchecked. The bytes are 64.
pub fn fields(bytes: &[u8]) -> (u8, Message) {
    let places = |at: usize| -> Places { bytes[at..at + 16].try_into().unwrap() };
    let number = |at: usize| u32::from_le_bytes(bytes[at..at + 4].try_into().unwrap());
    let message = Message {
        sender: bytes[1],
        receiver: bytes[2],
        stamp: places(4),
        values: places(20),
        cost: number(36),
        bound: number(40),
        best: places(44),
    };
    (bytes[0], message)
}

/// The 64 bytes of a message, its checksum right, nothing else checked.
pub fn encode(kind: u8, m: &Message) -> [u8; SIZE] {
    let mut bytes = [0; SIZE];
    bytes[0] = kind;
    bytes[1] = m.sender;
    bytes[2] = m.receiver;
    bytes[4..20].copy_from_slice(&m.stamp);
    bytes[20..36].copy_from_slice(&m.values);
    bytes[36..40].copy_from_slice(&m.cost.to_le_bytes());
    bytes[40..44].copy_from_slice(&m.bound.to_le_bytes());
    bytes[44..60].copy_from_slice(&m.best);
    seal(&mut bytes);
    bytes
}

/// Puts the right checksum into a message.
pub fn seal(bytes: &mut [u8; SIZE]) {
    let check = checksum::sum(&bytes[..62]);
    bytes[62..64].copy_from_slice(&check.to_le_bytes());
}
