//! Boxes on the air that can't step at once: each holds what arrives in a slot for its kind and sender, and of two keeps the newer one. As in
//! `boxes`, every box must come to its stop with the first least assignment, though what gave way never reaches it.

use crate::boxes::problem::Problem;
use crate::boxes::run::{Air, Packet, Run, Schedule as Arrivals};
use crate::calls::Input;
use crate::random::Random;
use crate::reference::table;
use crate::trials::Library;
use std::collections::BTreeMap;

/// In which order packets arrive, and how many for each step.
#[derive(Clone, Copy, Debug)]
pub struct Schedule {
    pub arrivals: Arrivals,
    pub times: u64,
}

impl Schedule {
    /// Those that a table of n units is tried with.
    pub fn some(random: &mut Random, n: u8) -> Vec<Schedule> {
        let arrivals = Arrivals::some(random, n);
        [1, 3, 10].map(|times| Schedule { arrivals: *random.pick(&arrivals), times }).to_vec()
    }
}

#[derive(Clone, PartialEq, Eq, Debug)]
pub struct Held {
    pub run: Run,
    /// How many packets gave way to a newer one that arrived later, and to one that was there.
    pub replaced: u64,
    pub dropped: u64,
}

/// Until every box has stopped; or nothing is left to arrive or to be stepped, or more was accepted than may be. Fails where a box can't be made, or
/// two packets are refused.
pub fn run(library: &Library, problem: &Problem, schedule: Schedule, seed: u64) -> Result<Held, String> {
    let mut random = Random::new(seed);
    let mut boxes =
        Boxes { library, problem, air: Air::make_all(library, problem)?, slots: BTreeMap::new(), given_way: [0; 2] };
    let mut steps = 0;
    while !boxes.air.run.has_ended() && steps <= problem.most {
        let arrives = !boxes.air.run.air.is_empty() && (boxes.slots.is_empty() || !random.once_in(schedule.times + 1));
        if arrives {
            let at = schedule.arrivals.places(&mut random, &boxes.air.run.air)[0];
            boxes.arrive(at)?;
        } else if boxes.slots.is_empty() {
            break;
        } else {
            steps += 1;
            boxes.step(random.below(boxes.slots.len() as u64) as usize);
        }
    }
    let [replaced, dropped] = boxes.given_way;
    Ok(Held { run: boxes.air.run, replaced, dropped })
}

/// Receiver, kind and sender.
type Slot = (u8, u8, u8);

struct Boxes<'a> {
    library: &'a Library<'a>,
    problem: &'a Problem<'a>,
    air: Air<'a>,
    slots: BTreeMap<Slot, Packet>,
    given_way: [u64; 2],
}

impl Boxes<'_> {
    /// Into its slot; where that is filled, the newer one stays. It is lent first, as include/riksamoe.h has it.
    fn arrive(&mut self, at: usize) -> Result<(), String> {
        let packet = self.air.run.air.remove(at);
        let slot = (packet[2], packet[0], packet[1]);
        let Some(there) = self.slots.get(&slot) else {
            self.slots.insert(slot, packet);
            return Ok(());
        };
        let (n, sizes) = table::head(self.problem.stream);
        let newer = (self.library.call)(Input::Newer { n, sizes, first: packet.to_vec(), second: there.to_vec() });
        match (newer.refusal, newer.numbers[0]) {
            (0, 1) => {
                self.slots.insert(slot, packet);
                self.given_way[0] += 1;
            }
            (0, _) => self.given_way[1] += 1,
            (refusal, _) => return Err(format!("two packets of one slot are refused by {refusal}")),
        }
        Ok(())
    }

    /// The packet of a slot goes to its box; one that is refused is gone, too.
    fn step(&mut self, place: usize) {
        let slot = *self.slots.keys().nth(place).expect("a slot that is filled");
        let packet = self.slots.remove(&slot).expect("a packet");
        self.air.run.air.push(packet);
        let last = self.air.run.air.len() - 1;
        if !self.air.hand(last) {
            self.air.run.air.remove(last);
        }
    }
}
