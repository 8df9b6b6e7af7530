//! One unit of a table with all that it is lent, for tests that take it step by step.

use crate::reference::costs::{self, View};
use crate::reference::message::{self, Message};
use crate::reference::order::ValueOrder;
use crate::reference::unit::{self, Answer, Unit};
use crate::reference::{table, Places};

pub struct Lent {
    pub order: ValueOrder,
    pub own: u8,
    pub n: u8,
    pub sizes: Places,
    pub costs: Vec<u8>,
    /// What it sent last.
    pub out: Vec<u8>,
}

impl Lent {
    pub fn new(order: ValueOrder, own: u8, stream: &[u8]) -> Lent {
        let (n, sizes) = table::head(stream);
        Lent { order, own, n, sizes, costs: costs::of_unit(stream, own.into()), out: vec![0xaa; unit::OUT] }
    }

    pub fn view(&self) -> View<'_> {
        View::new_by(self.order, self.own.into(), self.n.into(), &self.sizes, &self.costs)
    }

    pub fn make(&mut self) -> Answer {
        unit::make_by(self.order, self.own, self.n, &self.sizes, &self.costs, &mut self.out)
    }

    pub fn step(&mut self, unit: &Unit, kind: u8, message: &Message) -> Answer {
        let packet = message::encode(kind, message);
        unit::step_by(self.order, unit, self.own, self.n, &self.sizes, &self.costs, &packet, &mut self.out)
    }

    /// 0 or the refusal.
    pub fn range(&self, unit: &Unit) -> u8 {
        let Lent { order, own, n, sizes, costs, .. } = self;
        unit::check_lent_by(*order, unit, *own, *n, sizes, costs).err().unwrap_or(0)
    }

    /// The k-th packet sent.
    pub fn sent(&self, k: usize) -> (u8, Message) {
        message::parse(self.n, &self.sizes, &self.out[64 * k..64 * (k + 1)]).expect("a message that reads")
    }
}

/// Zeros behind these bytes.
pub fn places(bytes: &[u8]) -> Places {
    let mut places = [0; 16];
    places[..bytes.len()].copy_from_slice(bytes);
    places
}
