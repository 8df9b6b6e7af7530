//! Every box once more, by the second implementation: it is handed what the box is handed, in the same order, and the box must send what it sends.

use crate::reference::costs::{self, View};
use crate::reference::message::{self, SIZE};
use crate::reference::order::ValueOrder;
use crate::reference::table;
use crate::reference::unit::{self, Decision, Unit};
use std::collections::VecDeque;

/// What each unit of a table is lent.
pub struct Lent {
    pub boxes: u8,
    sizes: [u8; 16],
    costs: Vec<Vec<u8>>,
}

impl Lent {
    pub fn new(stream: &[u8]) -> Lent {
        let (boxes, sizes) = table::head(stream);
        Lent { boxes, sizes, costs: (1..=boxes.into()).map(|own| costs::of_unit(stream, own)).collect() }
    }
}

pub struct Shadows<'a>(Vec<Shadow<'a>>);

struct Shadow<'a> {
    view: View<'a>,
    unit: Unit,
    /// What it has sent and its box has not, the oldest first.
    ahead: VecDeque<[u8; SIZE]>,
}

impl Shadow<'_> {
    fn follow(&mut self, decision: Decision) {
        self.unit = decision.unit;
        self.ahead.extend(decision.sent.iter().map(|(kind, message)| message::encode(*kind, message)));
    }
}

impl<'a> Shadows<'a> {
    /// All boxes made.
    pub fn new(order: ValueOrder, lent: &'a Lent) -> Shadows<'a> {
        let shadow = |(own, costs): (usize, &'a Vec<u8>)| {
            let view = View::new_by(order, own, lent.boxes.into(), &lent.sizes, costs);
            let made = unit::start(&view);
            let mut shadow = Shadow { view, unit: unit::fresh(), ahead: VecDeque::new() };
            shadow.follow(made);
            shadow
        };
        Shadows((1..).zip(&lent.costs).map(shadow).collect())
    }

    /// A box will be handed these bytes; a refusal changes nothing.
    pub fn hand(&mut self, to: u8, bytes: &[u8]) {
        let shadow = &mut self.0[usize::from(to) - 1];
        if let Ok(decision) = unit::step_packet(&shadow.view, &shadow.unit, bytes) {
            shadow.follow(decision);
        }
    }

    /// A box has sent these bytes.
    pub fn sent(&mut self, from: u8, bytes: &[u8]) -> Result<(), String> {
        let shadow = self.0.get_mut(usize::from(from).wrapping_sub(1)).ok_or(format!("there is no box {from}"))?;
        match shadow.ahead.pop_front() {
            Some(packet) if packet == bytes => Ok(()),
            Some(packet) => Err(format!("box {from} has sent {} where {} should come", hex(bytes), hex(&packet))),
            None => Err(format!("box {from} has sent {} where nothing should come", hex(bytes))),
        }
    }

    /// What the boxes should send and have not, taken as if they had: by box, the oldest of each first.
    pub fn take(&mut self) -> Vec<(u8, Vec<u8>)> {
        let taken = (1..)
            .zip(&mut self.0)
            .flat_map(|(own, shadow)| shadow.ahead.drain(..).map(move |bytes| (own, bytes.to_vec())));
        taken.collect()
    }

    /// Once no box sends any more: each has sent all that it should.
    pub fn ended(&self) -> Result<(), String> {
        let ahead = (1..).zip(&self.0).find(|(_, shadow)| !shadow.ahead.is_empty());
        ahead.map_or(Ok(()), |(own, shadow): (usize, _)| {
            Err(format!("box {own} has not sent {}", hex(&shadow.ahead[0])))
        })
    }
}

fn hex(bytes: &[u8]) -> String {
    bytes.iter().map(|byte| format!("{byte:02x}")).collect()
}
