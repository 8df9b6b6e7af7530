//! What the air does to datagrams: each is held back for a random while, so that later ones overtake it, and then handed to the box that it
//! names. A while is counted in datagrams handed on, not in seconds. No sockets here: they are in src/bin/air.rs.

use super::counts::Counts;
use super::noise::{noise, Noise};
use crate::random::Random;
use crate::reference::message::{self, SIZE, STOP};
use crate::reference::NONE;
use std::cmp::Reverse;
use std::collections::BinaryHeap;

/// What the air does beside holding back.
#[derive(Clone, Copy, PartialEq, Eq, Debug, Default)]
pub struct Manner {
    /// A packet that is handed on stays, one time in eight, to be handed on again.
    pub echo: bool,
    /// Something is added to every fourth packet, and some to begin with.
    pub noise: bool,
    /// A fault, so that one can see it noticed: one of the first packets is lost.
    pub lose: bool,
    /// A fault: stops tell a total that is lower by one, with the right sum.
    pub forge: bool,
}

impl Manner {
    /// What the words ask for, if the air knows them all.
    pub fn named<'a>(words: impl Iterator<Item = &'a str>) -> Option<Manner> {
        let mut manner = Manner::default();
        for word in words {
            *manner.called(word)? = true;
        }
        Some(manner)
    }

    fn called(&mut self, word: &str) -> Option<&mut bool> {
        match word {
            "echo" => Some(&mut self.echo),
            "noise" => Some(&mut self.noise),
            "lose" => Some(&mut self.lose),
            "forge" => Some(&mut self.forge),
            _ => None,
        }
    }
}

/// A datagram on its way; the one that is due first goes first.
#[derive(PartialEq, Eq, PartialOrd, Ord)]
struct Held {
    due: u64,
    /// Decides between those due at once.
    lot: u64,
    to: u8,
    bytes: Vec<u8>,
    /// The place among all that was heard, for a packet; nothing for noise.
    heard: Option<u64>,
}

pub struct Air {
    random: Random,
    boxes: u8,
    manner: Manner,
    held: BinaryHeap<Reverse<Held>>,
    /// Moves on with each datagram that is handed on.
    clock: u64,
    /// The latest packet handed on, by its place among all that was heard.
    latest: u64,
    /// Which packet is lost, if one is.
    lost: u64,
    pub counts: Counts,
}

impl Air {
    pub fn new(seed: u64, boxes: u8, manner: Manner) -> Air {
        let mut random = Random::new(seed);
        let lost = random.between(1, 4);
        let (held, counts) = (BinaryHeap::new(), Counts::default());
        let mut air = Air { random, boxes, manner, held, clock: 0, latest: 0, lost, counts };
        if manner.noise {
            (0..2 * boxes).for_each(|_| air.add_noise(None));
        }
        air
    }

    /// A box has sent a packet. One that is not 64 bytes for one of the boxes is none, and the air says so.
    pub fn hear(&mut self, bytes: &[u8]) -> Result<(), String> {
        let mut packet: [u8; SIZE] = bytes.try_into().map_err(|_| format!("a box has sent {} bytes", bytes.len()))?;
        if !(1..=self.boxes).contains(&packet[2]) {
            return Err(format!("a box has sent a packet to {}", packet[2]));
        }
        self.counts.count("heard");
        if self.manner.forge && packet[0] == STOP {
            forge(&mut packet);
        }
        if !self.manner.lose || self.counts.of("heard") != self.lost {
            self.hold(packet[2], packet.to_vec(), Some(self.counts.of("heard")));
        }
        Ok(())
    }

    fn hold(&mut self, to: u8, bytes: Vec<u8>, heard: Option<u64>) {
        let longest = if self.random.once_in(8) { 256 } else { 16 };
        let due = self.clock + self.random.below(longest);
        let lot = self.random.word();
        self.held.push(Reverse(Held { due, lot, to, bytes, heard }));
    }

    fn add_noise(&mut self, packet: Option<&[u8; SIZE]>) {
        let Noise { to, bytes, refusal } = noise(&mut self.random, self.boxes, packet);
        self.counts.refuse(refusal);
        self.hold(to, bytes, None);
    }

    pub fn is_empty(&self) -> bool {
        self.held.is_empty()
    }

    /// Whether one is due now; if not, those to come may still overtake the next.
    pub fn is_due(&self) -> bool {
        self.held.peek().is_some_and(|Reverse(next)| next.due <= self.clock)
    }

    /// The box and the bytes that are handed on next; the clock moves to where they are due. Once it is `ending` nothing is added.
    pub fn hand_on(&mut self, ending: bool) -> Option<(u8, Vec<u8>)> {
        let Reverse(Held { due, to, bytes, heard, .. }) = self.held.pop()?;
        self.clock = self.clock.max(due) + 1;
        if let (Some(heard), Ok(packet)) = (heard, <&[u8; SIZE]>::try_from(&bytes[..])) {
            self.counts.count("handed");
            if heard < self.latest {
                self.counts.count("overtaken");
            }
            self.latest = self.latest.max(heard);
            if self.manner.echo && !ending && self.random.once_in(8) {
                self.counts.count("echoed");
                self.hold(to, bytes.clone(), Some(heard));
            }
            if self.manner.noise && !ending && self.random.once_in(4) {
                self.add_noise(Some(packet));
            }
        }
        Some((to, bytes))
    }
}

/// A total lower by one, where there is one, with the right sum.
fn forge(packet: &mut [u8; SIZE]) {
    let (kind, mut message) = message::fields(packet);
    if message.bound != NONE && message.bound != 0 {
        message.bound -= 1;
        *packet = message::encode(kind, &message);
    }
}
