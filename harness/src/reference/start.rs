//! A box's start from the blocks of its stored table, one after the other: what it keeps is what reading the file, then gathering, gives. Here the
//! payloads are kept until the last block is in.

use super::{costs, table, Places, Refusal};

/// The most bytes of the costs that touch a unit: what is to be lent for them.
pub const COSTS: usize = 7_712;

/// 02's job 7: "at most 123 blocks".
pub const MAX_BLOCKS: usize = 123;

/// How far a box has come with its table.
#[derive(Clone, PartialEq, Eq, Debug)]
pub struct Start {
    own: u8,
    blocks: usize,
    joined: Vec<u8>,
}

/// What a box has once the last block is in; its costs are in front of what it lent for them.
#[derive(Clone, Copy, PartialEq, Eq, Debug)]
pub struct Begun {
    pub n: u8,
    pub sizes: Places,
    pub length: usize,
}

impl Start {
    pub fn new(own: u8) -> Start {
        Start { own, blocks: 0, joined: Vec::new() }
    }

    /// One block more; a refused one changes nothing. Refusals 13, 1, the block's 4, 2, 3, and with the last block the stream's 5, 6, 7, then 10.
    pub fn take(&mut self, block: &[u8], last: bool, out: &mut [u8]) -> Result<Option<Begun>, Refusal> {
        if out.len() < COSTS {
            return Err(13);
        }
        if self.blocks == MAX_BLOCKS {
            return Err(1);
        }
        let payload = table::read_block(block, self.blocks as u16, last)?;
        let joined = [&self.joined[..], payload].concat();
        let begun = if last { Some(begin(&joined, self.own, out)?) } else { None };
        *self = Start { own: self.own, blocks: self.blocks + 1, joined };
        Ok(begun)
    }
}

fn begin(stream: &[u8], own: u8, out: &mut [u8]) -> Result<Begun, Refusal> {
    table::check_stream(stream)?;
    let length = costs::gather(stream, own, out)?;
    let (n, sizes) = table::head(stream);
    Ok(Begun { n, sizes, length })
}
