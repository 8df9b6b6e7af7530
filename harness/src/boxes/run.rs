//! One run on the air, by any implementation: what was handed to whom, and what came of it.

use super::problem::Problem;
use crate::calls::Input;
use crate::cases::Seat;
use crate::random::Random;
use crate::reference::message::{self, SIZE};
use crate::reference::unit::{self, Unit};
use crate::reference::Places;
use crate::trials::Library;

pub type Packet = [u8; SIZE];

/// Which packet in the air is handed over next; all but the first two leave a choice, which is made at random.
#[derive(Clone, Copy, Debug)]
pub enum Schedule {
    OldestFirst,
    NewestFirst,
    AnyOrder,
    /// One kind before all others.
    First(u8),
    /// One kind after all others.
    Last(u8),
    /// Packets to one box after all others.
    LastTo(u8),
    /// By kind, sender and receiver, in an order that the number fixes: some are slow all the time.
    Ranked(u64),
}

impl Schedule {
    /// Those that a table of n units is tried with.
    pub fn some(random: &mut Random, n: u8) -> [Schedule; 9] {
        use Schedule::*;
        let mut kind = || random.between(message::CPA.into(), message::SOLUTION.into()) as u8;
        let (first, last) = (First(kind()), Last(kind()));
        let starved = LastTo(random.between(1, n.into()) as u8);
        let ranked = Ranked(random.word());
        [OldestFirst, NewestFirst, AnyOrder, First(message::STOP), Last(message::STOP), first, last, starved, ranked]
    }

    /// The places of all packets in the air, the one to be handed over first in front.
    pub fn places(self, random: &mut Random, air: &[Packet]) -> Vec<usize> {
        let mut places: Vec<usize> = (0..air.len()).collect();
        match self {
            Schedule::OldestFirst => {}
            Schedule::NewestFirst => places.reverse(),
            _ => places.sort_by_cached_key(|_| random.word()),
        }
        match self {
            Schedule::First(kind) => places.sort_by_key(|at| air[*at][0] != kind),
            Schedule::Last(kind) => places.sort_by_key(|at| air[*at][0] == kind),
            Schedule::LastTo(own) => places.sort_by_key(|at| receiver(&air[*at]) == own.into()),
            Schedule::Ranked(number) => places.sort_by_cached_key(|at| rank(number, &air[*at])),
            _ => {}
        }
        places
    }
}

fn rank(number: u64, packet: &Packet) -> u64 {
    let [kind, sender, receiver] = [packet[0], packet[1], packet[2]].map(u64::from);
    Random::new(number ^ (kind << 16 | sender << 8 | receiver)).word()
}

fn receiver(packet: &Packet) -> usize {
    packet[2].into()
}

/// A packet that was handed to its box.
#[derive(Clone, PartialEq, Eq, Debug)]
pub struct Handed {
    pub packet: Packet,
    /// Whether the box had stopped before.
    pub stopped: bool,
    pub refusal: u8,
    /// Whether the state or the output is another one afterwards, or something counts as sent or written.
    pub changed: bool,
    pub after: Unit,
}

impl Handed {
    pub fn receiver(&self) -> usize {
        receiver(&self.packet)
    }
}

#[derive(Clone, PartialEq, Eq, Debug, Default)]
pub struct Run {
    /// As the run left them.
    pub boxes: Vec<Unit>,
    /// What is left in the air, the oldest first.
    pub air: Vec<Packet>,
    pub handed: Vec<Handed>,
    /// As the boxes count.
    pub records: u64,
    /// The beginnings that the second implementation writes on the same packets.
    pub written: Vec<Places>,
}

impl Run {
    pub fn accepted(&self) -> u128 {
        self.handed.iter().filter(|handed| handed.refusal == 0).count() as u128
    }

    pub fn has_ended(&self) -> bool {
        self.boxes.iter().all(Unit::has_stopped)
    }
}

/// Until every box has stopped; or nothing in the air is accepted, or more was than may be. Then all that is left is handed over once. Fails where
/// a box can't be made.
pub fn run(library: &Library, problem: &Problem, schedule: Schedule, seed: u64) -> Result<Run, String> {
    let mut random = Random::new(seed);
    let mut air = Air::make_all(library, problem)?;
    for _ in 0..=problem.most {
        let places = schedule.places(&mut random, &air.run.air);
        if air.run.has_ended() || !places.into_iter().any(|at| air.hand(at)) {
            break;
        }
    }
    for at in (0..air.run.air.len()).rev() {
        air.hand(at);
    }
    Ok(air.run)
}

/// A box's place in the table, gathered by the library.
fn seat(library: &Library, problem: &Problem, own: u8) -> Result<Seat, String> {
    let gathered = (library.call)(Input::Lent { stream: problem.stream.to_vec(), own, out: vec![0; 7_712] });
    if gathered.refusal != 0 {
        return Err(format!("gathering the costs of box {own} is refused by {}", gathered.refusal));
    }
    let (length, n) = (gathered.numbers[0] as usize, gathered.numbers[1] as u8);
    let sizes = std::array::from_fn(|k| gathered.numbers[2 + k] as u8);
    Ok(Seat::lent(problem.order, own, n, &sizes, &gathered.lent[..length]))
}

/// A run on its way, with the seats of the boxes made so far.
pub struct Air<'a> {
    library: &'a Library<'a>,
    seats: Vec<Seat>,
    pub run: Run,
}

impl<'a> Air<'a> {
    /// Every box made, and nothing handed over. Fails where one can't be.
    pub fn make_all(library: &'a Library, problem: &Problem) -> Result<Air<'a>, String> {
        let mut air = Air { library, seats: Vec::new(), run: Run::default() };
        (1..=problem.units()).try_for_each(|own| air.make(problem, own))?;
        Ok(air)
    }

    fn make(&mut self, problem: &Problem, own: u8) -> Result<(), String> {
        let seat = seat(self.library, problem, own)?;
        let made = (self.library.call)(Input::Make {
            order: Some(seat.order.number()),
            own,
            n: seat.n as u8,
            sizes: seat.sizes,
            costs: seat.costs.clone(),
            out: vec![0xaa; unit::OUT],
        });
        if made.refusal != 0 {
            return Err(format!("making box {own} is refused by {}", made.refusal));
        }
        self.run.boxes.push(made.units[0]);
        self.send(&made.numbers, &made.lent);
        self.run.written.extend(unit::start(&seat.view()).written);
        self.seats.push(seat);
        Ok(())
    }

    /// The packet at this place goes to its box. Accepted, it leaves the air; refused, it stays. Whether it was accepted.
    pub fn hand(&mut self, at: usize) -> bool {
        let packet = self.run.air[at];
        let own = receiver(&packet);
        let seat = &self.seats[own - 1];
        let before = self.run.boxes[own - 1];
        let lent = vec![0xaa; unit::OUT];
        let stepped = (self.library.call)(Input::Step {
            order: Some(seat.order.number()),
            unit: before,
            own: own as u8,
            n: seat.n as u8,
            sizes: seat.sizes,
            costs: seat.costs.clone(),
            packet: packet.to_vec(),
            out: lent.clone(),
        });
        let (refusal, after) = (stepped.refusal, stepped.units[0]);
        let changed = after != before || stepped.numbers != [0, 0] || stepped.lent != lent;
        self.run.handed.push(Handed { packet, stopped: before.has_stopped(), refusal, changed, after });
        self.run.boxes[own - 1] = after;
        if refusal == 0 {
            let decided = unit::step_packet(&seat.view(), &before, &packet);
            self.run.written.extend(decided.map_or(Vec::new(), |decision| decision.written));
            self.run.air.remove(at);
            self.send(&stepped.numbers, &stepped.lent);
        }
        refusal == 0
    }

    /// How many packets making or a step sent and how many records it counts, and the output with the packets.
    fn send(&mut self, numbers: &[u64], out: &[u8]) {
        let packets = out.chunks_exact(SIZE).take(numbers[0] as usize);
        self.run.air.extend(packets.map(|packet| Packet::try_from(packet).expect("64 bytes")));
        self.run.records += numbers[1];
    }
}
