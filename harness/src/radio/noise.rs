//! What the air adds that no box has sent there. A box refuses each, by a number that is known beforehand.

use crate::random::Random;
use crate::reference::message::{self, SIZE};
use crate::reference::{checksum, Refusal};

#[derive(Clone, PartialEq, Eq, Debug)]
pub struct Noise {
    /// The box that hears it.
    pub to: u8,
    pub bytes: Vec<u8>,
    /// What the box refuses it by.
    pub refusal: Refusal,
}

/// One of six kinds, for one of n boxes; three of them are made of a packet that was sent.
pub fn noise(random: &mut Random, n: u8, packet: Option<&[u8; SIZE]>) -> Noise {
    let to = random.between(1, n.into()) as u8;
    match (random.below(6), packet) {
        (0, Some(packet)) => damaged(random, packet),
        (1, Some(packet)) => resized(random, packet),
        (2, Some(packet)) if to != packet[2] => overheard(to, packet),
        (3, _) => sealed(random, n, to),
        (4, _) => unsealed(random, to),
        _ => scrap(random, to),
    }
}

/// A packet with one bit flipped. One byte is then another, so the sum is, or, in the last two, what it is compared with: 8, always.
pub fn damaged(random: &mut Random, packet: &[u8; SIZE]) -> Noise {
    let mut bytes = packet.to_vec();
    bytes[random.below(SIZE as u64) as usize] ^= 1 << random.below(8);
    Noise { to: packet[2], bytes, refusal: 8 }
}

/// A packet that is cut short, or has bytes behind it: 8.
pub fn resized(random: &mut Random, packet: &[u8; SIZE]) -> Noise {
    let mut bytes = packet.to_vec();
    bytes.extend((SIZE..100).map(|_| random.byte()));
    bytes.truncate(other_length(random));
    Noise { to: packet[2], bytes, refusal: 8 }
}

/// A packet that is for another box: 10.
pub fn overheard(to: u8, packet: &[u8; SIZE]) -> Noise {
    Noise { to, bytes: packet.to_vec(), refusal: 10 }
}

/// Random bytes between two boxes, of a kind that there isn't, with the right sum: 9.
pub fn sealed(random: &mut Random, n: u8, to: u8) -> Noise {
    let mut bytes = random_packet(random);
    bytes[0] = random.between(6, 255) as u8;
    bytes[1] = random.between(1, n.into()) as u8;
    bytes[2] = to;
    message::seal(&mut bytes);
    Noise { to, bytes: bytes.to_vec(), refusal: 9 }
}

/// 64 random bytes: 8. Where they have the right sum, once in 65,536, a bit of it is flipped.
pub fn unsealed(random: &mut Random, to: u8) -> Noise {
    let mut bytes = random_packet(random);
    if checksum::sum(&bytes[..62]).to_le_bytes() == bytes[62..] {
        bytes[62] ^= 1;
    }
    Noise { to, bytes: bytes.to_vec(), refusal: 8 }
}

/// 0 to 100 random bytes, but not 64: 8.
pub fn scrap(random: &mut Random, to: u8) -> Noise {
    let length = other_length(random);
    Noise { to, bytes: (0..length).map(|_| random.byte()).collect(), refusal: 8 }
}

/// 0 to 100, but not 64.
fn other_length(random: &mut Random) -> usize {
    let length = random.below(100) as usize;
    length + usize::from(length >= SIZE)
}

fn random_packet(random: &mut Random) -> [u8; SIZE] {
    std::array::from_fn(|_| random.byte())
}
