//! What a box needs of include/riksamoe.h, for shed.rs and box.rs: the calls declared again (the header says what each does), and a box over them
//! that lends whole slices, so that no pointer goes further than its bytes.

use std::fs::File;
use std::io::{self, Read};

pub type Packet = [u8; 64];
pub type Refusal = u8;

/// Bytes of a block of the stored table; to lend for what a step sends, for a unit's costs.
const BLOCK: usize = 512;
const SENDING: usize = 1_024;
const COSTS: usize = 7_712;

/// An order in which a unit tries its values: by number.
pub const ASCENDING: u8 = 0;

// ---- a box

/// What a box keeps of the table: n, the sizes and the costs that touch it.
pub struct Kept {
    pub own: u8,
    pub n: u8,
    sizes: Sizes,
    costs: Vec<u8>,
}

/// A box that has been made, and the order in which it tries its values.
pub struct Node {
    pub kept: Kept,
    order: u8,
    pub unit: Unit,
}

/// What a making or an accepted packet brought.
pub struct Done {
    pub sent: Vec<Packet>,
    pub records: u8,
}

pub fn refused(refusal: Refusal) -> String {
    format!("refused {refusal}")
}

pub fn failed(what: &str) -> impl Fn(io::Error) -> String + '_ {
    move |error| format!("{what}: {error}")
}

impl Kept {
    /// Out of the file of a stored table, whose blocks are taken one after the other; the last two that are held are gone when this returns.
    pub fn load(own: u8, path: &str) -> Result<Kept, String> {
        let mut file = File::open(path).map_err(failed(path))?;
        let mut blocks = [[0; BLOCK]; 2];
        let kept = Kept::take_all(own, &mut blocks, |block| read_block(&mut file, block).map_err(failed(path)));
        blocks.iter_mut().for_each(|block| wipe(block));
        kept
    }

    /// Of two blocks one is handed over, and the other is the next, which tells whether it is the last.
    fn take_all(
        own: u8,
        blocks: &mut [[u8; BLOCK]; 2],
        mut read: impl FnMut(&mut [u8]) -> Result<usize, String>,
    ) -> Result<Kept, String> {
        let mut costs = vec![0; COSTS];
        let mut start = unsafe { riksamoe_start(own) };
        let mut length = read(&mut blocks[0])?;
        let mut k = 0;
        loop {
            let next = read(&mut blocks[1 - k])?;
            let (block, room) = (&blocks[k][..length], costs.len());
            let (last, lent) = (u8::from(next == 0), costs.as_mut_ptr());
            let now = unsafe { riksamoe_start_block(start, block.as_ptr(), block.len(), last, lent, room) };
            start = accepted(now.refusal, now.start).map_err(refused)?;
            if next == 0 {
                costs.truncate(now.length);
                return Ok(Kept { own, n: start.n, sizes: start.sizes, costs });
            }
            (k, length) = (1 - k, next);
        }
    }
}

/// The next block of the file, straight into `block`: nothing keeps a part of it in a buffer. At the end of the file it is shorter.
fn read_block(file: &mut File, block: &mut [u8]) -> io::Result<usize> {
    let mut length = 0;
    while length < block.len() {
        match file.read(&mut block[length..])? {
            0 => break,
            more => length += more,
        }
    }
    Ok(length)
}

/// Overwrites bytes that nobody reads again, which a compiler would leave out.
fn wipe(bytes: &mut [u8]) {
    bytes.iter_mut().for_each(|byte| unsafe { std::ptr::write_volatile(byte, 0) });
}

impl Node {
    /// Power on: unit 1 sends its first packets.
    pub fn make(order: u8, kept: Kept) -> Result<(Node, Done), Refusal> {
        let mut out = [0; SENDING];
        let (room, lent) = (out.len(), out.as_mut_ptr());
        let Kept { own, n, sizes, ref costs } = kept;
        let made = unsafe { riksamoe_unit_make_by(order, own, n, sizes, costs.as_ptr(), costs.len(), lent, room) };
        let done = accepted(made.refusal, Done { sent: packets(&out, made.sent), records: made.records })?;
        Ok((Node { kept, order, unit: made.unit }, done))
    }

    /// A packet has arrived: this is all that a box does from then on.
    pub fn receive(&mut self, packet: &[u8]) -> Result<Done, Refusal> {
        let mut out = [0; SENDING];
        let (room, lent) = (out.len(), out.as_mut_ptr());
        let Kept { own, n, sizes, ref costs } = self.kept;
        let report = unsafe {
            riksamoe_unit_step_in_place_by(
                self.order,
                &mut self.unit,
                own,
                n,
                sizes,
                costs.as_ptr(),
                costs.len(),
                packet.as_ptr(),
                packet.len(),
                lent,
                room,
            )
        };
        accepted(report.refusal, Done { sent: packets(&out, report.sent), records: report.records })
    }
}

fn accepted<T>(refusal: Refusal, value: T) -> Result<T, Refusal> {
    match refusal {
        0 => Ok(value),
        _ => Err(refusal),
    }
}

fn packets(out: &[u8], sent: u8) -> Vec<Packet> {
    out.chunks_exact(64).take(sent.into()).map(|bytes| bytes.try_into().expect("64 bytes")).collect()
}

// ---- the header

#[repr(C)]
#[derive(Clone, Copy)]
struct Sizes {
    places: [u8; 16],
}

/// How far a box is with the blocks of its table. The header says what the other fields are.
#[repr(C)]
#[derive(Clone, Copy)]
struct Start {
    own: u8,
    stage: u8,
    blocks: u16,
    count: u32,
    n: u8,
    sizes: Sizes,
    row: u8,
    unit: u8,
    low: u8,
    left: u16,
    refusal: u8,
}

#[repr(C)]
struct Started {
    refusal: u8,
    length: usize,
    start: Start,
}

#[repr(C)]
#[derive(Clone, Copy, PartialEq, Eq)]
pub struct Unit {
    pub threshold: [u8; 16],
    pub bound: u32,
    pub best: [u8; 16],
    pub estimates: [u32; 16],
    pub stamp: [u8; 16],
    pub values: [u8; 16],
    pub cost: u32,
    pub counter: u8,
    pub stopped: u8,
}

#[repr(C)]
struct Outcome {
    refusal: u8,
    unit: Unit,
    sent: u8,
    records: u8,
}

#[repr(C)]
struct Report {
    refusal: u8,
    sent: u8,
    records: u8,
}

const _: () = assert!(std::mem::size_of::<Unit>() == 140 && std::mem::size_of::<Outcome>() == 148);
const _: () = assert!(std::mem::size_of::<Start>() == 32 && std::mem::size_of::<Started>() == 48);

extern "C" {
    fn riksamoe_start(own: u8) -> Start;
    fn riksamoe_start_block(
        start: Start,
        block: *const u8,
        length: usize,
        last: u8,
        costs: *mut u8,
        room: usize,
    ) -> Started;
    fn riksamoe_unit_make_by(
        order: u8,
        own: u8,
        n: u8,
        sizes: Sizes,
        costs: *const u8,
        costs_length: usize,
        out: *mut u8,
        room: usize,
    ) -> Outcome;
    fn riksamoe_unit_step_in_place_by(
        order: u8,
        unit: &mut Unit,
        own: u8,
        n: u8,
        sizes: Sizes,
        costs: *const u8,
        costs_length: usize,
        packet: *const u8,
        packet_length: usize,
        out: *mut u8,
        room: usize,
    ) -> Report;
}
