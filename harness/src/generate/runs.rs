//! Runs on their way: a shed after some deliveries, or deliveries and echoes, of any packets.

use crate::calls::{self, Event};
use crate::random::Random;
use crate::reference::message::SIZE;
use crate::reference::network::{self, Network};
use crate::reference::order::ValueOrder;

#[derive(Clone)]
pub struct Ran {
    pub network: Network,
    pub pool: Vec<u8>,
    /// Every packet that was sent, the oldest first.
    sent: Vec<Vec<u8>>,
}

impl Ran {
    fn make(random: &mut Random, order: ValueOrder, stream: &[u8]) -> Ran {
        let mut pool = vec![random.byte(); network::POOL];
        let network = network::make_by(order, stream, &mut pool).expect("an accepted table");
        let mut ran = Ran { network, pool, sent: Vec::new() };
        ran.keep_sent(0);
        ran
    }

    fn hear(&mut self, order: ValueOrder, stream: &[u8], event: &Event) {
        let stay = event.stay(self.network.count);
        if calls::hear(order, &mut self.network, stream, event, &mut self.pool).is_ok() {
            self.keep_sent(stay);
        }
    }

    /// What stands behind the cells that stayed in use was sent.
    fn keep_sent(&mut self, stay: u64) {
        let cells = self.pool.chunks_exact(SIZE).take(self.network.count as usize);
        self.sent.extend(cells.skip(stay as usize).map(|packet| packet.to_vec()));
    }

    pub fn has_stopped(&self) -> bool {
        self.network.units[0].has_stopped()
    }

    pub fn any_cell(&self, random: &mut Random) -> u64 {
        random.below(self.network.count.max(1))
    }

    /// Any packet that was sent; no bytes where none was.
    fn any_sent(&self, random: &mut Random) -> Vec<u8> {
        let at = random.below(self.sent.len() as u64) as usize;
        self.sent.get(at).cloned().unwrap_or_default()
    }

    /// A packet that waits, or any that was sent, so that an echo of it is one.
    pub fn heard_again(&self, random: &mut Random) -> Vec<u8> {
        if self.network.count > 0 && random.once_in(2) {
            Event::Cell(self.any_cell(random)).packet(&self.pool).to_vec()
        } else {
            self.any_sent(random)
        }
    }
}

/// A shed after some deliveries in this order; with echoes, about half of them are echoes.
pub fn ran(random: &mut Random, order: ValueOrder, stream: &[u8], echoes: bool) -> Ran {
    let mut ran = Ran::make(random, order, stream);
    let steps = random.below(40);
    for _ in 0..steps {
        if ran.has_stopped() && !random.once_in(10) {
            break;
        }
        let before = ran.clone();
        let event = if echoes && random.once_in(2) {
            Event::Echo(ran.any_sent(random))
        } else {
            Event::Cell(ran.any_cell(random))
        };
        ran.hear(order, stream, &event);
        if ran.has_stopped() && random.once_in(2) {
            return before;
        }
    }
    ran
}
