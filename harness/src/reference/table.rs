//! The stored table: blocks of 512 bytes, and the stream that their payloads carry, in either form.

use super::{checksum, costs, Places, Refusal, FORBIDDEN_PAIR, MAX_COST};

pub const BLOCK: usize = 512;
pub const PAYLOAD: usize = 506;
/// 02's job 7: "at most 123 blocks or 62,976 bytes, and a stream buffer of 61,970".
pub const MAX_STREAM: usize = 61_970;
pub const MAX_FILE: usize = 62_976;

/// How a stream lays its table out: 01's form, and 02's job 7: "Stored form two: the stream opens with byte 200, then n, sizes, own costs
/// unit by unit, pair costs".
#[derive(Clone, Copy, PartialEq, Eq, Debug)]
pub enum Form {
    One,
    Two,
}

/// What a stream in form two opens with.
pub const FORM_TWO: u8 = 200;

pub fn number_at(bytes: &[u8], at: usize) -> u16 {
    u16::from_le_bytes([bytes[at], bytes[at + 1]])
}

/// A block read alone: its payload, as a part of the block. Refusals 1, 4, 2, 3.
pub fn read_block(block: &[u8], expected: u16, last: bool) -> Result<&[u8], Refusal> {
    if block.len() != BLOCK {
        return Err(1);
    }
    if number_at(block, 510) != checksum::sum(&block[..510]) {
        return Err(4);
    }
    if number_at(block, 0) != expected {
        return Err(2);
    }
    let count = number_at(block, 2) as usize;
    let count_right = if last { (1..=PAYLOAD).contains(&count) } else { count == PAYLOAD };
    if !count_right || block[4 + count..510].iter().any(|byte| *byte != 0) {
        return Err(3);
    }
    Ok(&block[4..4 + count])
}

/// A table's file into its stream; gives the stream's length. Refusals 13, 1, each block's, 5, 6, 7.
pub fn read(file: &[u8], stream: &mut [u8]) -> Result<usize, Refusal> {
    if stream.len() < MAX_STREAM {
        return Err(13);
    }
    let joined = stream_of(file)?;
    stream[..joined.len()].copy_from_slice(&joined);
    Ok(joined.len())
}

/// The stream that a table's file carries. Refusals 1, each block's, 5, 6, 7.
pub fn stream_of(file: &[u8]) -> Result<Vec<u8>, Refusal> {
    if file.is_empty() || !file.len().is_multiple_of(BLOCK) || file.len() > MAX_FILE {
        return Err(1);
    }
    let blocks = file.len() / BLOCK;
    let mut joined = Vec::new();
    for k in 0..blocks {
        let block = &file[k * BLOCK..(k + 1) * BLOCK];
        joined.extend_from_slice(read_block(block, k as u16, k + 1 == blocks)?);
    }
    check_stream(&joined)?;
    Ok(joined)
}

/// A stream into its file, in the stream's form; gives the file's length. Refusals 5, 6, 7, 13.
pub fn write(stream: &[u8], file: &mut [u8]) -> Result<usize, Refusal> {
    check_stream(stream)?;
    let blocks = file_of(stream);
    if file.len() < blocks.len() {
        return Err(13);
    }
    file[..blocks.len()].copy_from_slice(&blocks);
    Ok(blocks.len())
}

/// The blocks that carry any bytes taken as a stream.
pub fn file_of(stream: &[u8]) -> Vec<u8> {
    let blocks = stream.chunks(PAYLOAD).enumerate();
    blocks.flat_map(|(k, payload)| make_block(k as u16, payload)).collect()
}

/// One block with its checksum. The payload has at most 506 bytes.
pub fn make_block(number: u16, payload: &[u8]) -> [u8; BLOCK] {
    let mut block = [0; BLOCK];
    block[0..2].copy_from_slice(&number.to_le_bytes());
    block[2..4].copy_from_slice(&(payload.len() as u16).to_le_bytes());
    block[4..4 + payload.len()].copy_from_slice(payload);
    let check = checksum::sum(&block[..510]);
    block[510..512].copy_from_slice(&check.to_le_bytes());
    block
}

/// Refusals 5, 6, 7 of a stream. 01: "In a stream too short for n or the sizes, those present are checked by 5, then it is 6".
pub fn check_stream(stream: &[u8]) -> Result<(), Refusal> {
    let Some((n, rest)) = from_count(stream).split_first() else { return Err(6) };
    if !(1..=16).contains(n) {
        return Err(5);
    }
    let n = *n as usize;
    if rest.iter().take(n).any(|d| !(1..=16).contains(d)) {
        return Err(5);
    }
    if rest.len() < n {
        return Err(6);
    }
    let (_, sizes) = head(stream);
    if rest.len() != n + 2 * (stored_unary(stream) + costs::pairs_in_table(n, &sizes)) {
        return Err(6);
    }
    check_unary(unary_costs(stream))?;
    check_pairs(pair_costs(stream))
}

/// Refusal 7 of unary costs. 02's job 7: "0 to 60,000, never barred". The number of bytes is even.
pub fn check_unary(bytes: &[u8]) -> Result<(), Refusal> {
    if bytes.chunks(2).any(|cost| u32::from(number_at(cost, 0)) > MAX_COST) {
        return Err(7);
    }
    Ok(())
}

/// Refusal 7 of pair costs, which lets 65,535 through. The number of bytes is even.
pub fn check_pairs(bytes: &[u8]) -> Result<(), Refusal> {
    let above = |cost: u16| u32::from(cost) > MAX_COST && cost != FORBIDDEN_PAIR;
    if bytes.chunks(2).any(|cost| above(number_at(cost, 0))) {
        return Err(7);
    }
    Ok(())
}

// The parts of a stream

/// The form of any bytes taken as a stream.
pub fn form(stream: &[u8]) -> Form {
    if stream.first() == Some(&FORM_TWO) {
        Form::Two
    } else {
        Form::One
    }
}

/// Any bytes taken as a stream, from n on.
pub fn from_count(stream: &[u8]) -> &[u8] {
    stream.strip_prefix(&[FORM_TWO]).unwrap_or(stream)
}

/// n and the sizes of a stream that has them, places past n zero.
pub fn head(stream: &[u8]) -> (u8, Places) {
    let counted = from_count(stream);
    let n = counted[0] as usize;
    let mut sizes = [0; 16];
    sizes[..n].copy_from_slice(&counted[1..1 + n]);
    (n as u8, sizes)
}

/// How many unary costs a stream with these sizes holds.
fn stored_unary(stream: &[u8]) -> usize {
    let (n, sizes) = head(stream);
    match form(stream) {
        Form::One => 0,
        Form::Two => costs::values_in_table(n as usize, &sizes),
    }
}

/// The bytes of a stream's unary costs, none in form one. The stream has its right length.
pub fn unary_costs(stream: &[u8]) -> &[u8] {
    let (n, _) = head(stream);
    &from_count(stream)[1 + n as usize..][..2 * stored_unary(stream)]
}

/// The bytes of its pair costs.
pub fn pair_costs(stream: &[u8]) -> &[u8] {
    let (n, _) = head(stream);
    &from_count(stream)[1 + n as usize..][2 * stored_unary(stream)..]
}
