//! One run of a shed, by any implementation, in which packets that were sent are heard again: what was heard, and what came of it.

use crate::boxes::problem::Problem;
use crate::boxes::run::{Packet, Schedule as Deliveries};
use crate::calls::{self, Event, Input};
use crate::cases::Seat;
use crate::random::Random;
use crate::reference::message::{self, SIZE};
use crate::reference::network::{Network, CELLS, POOL};
use crate::reference::unit::{self, Decision};
use crate::reference::Places;
use crate::trials::Library;
use std::collections::HashSet;

// Schedules

/// Which packet is heard again; one of several at random.
#[derive(Clone, Copy, PartialEq, Eq, Debug)]
pub enum Echoes {
    /// No packet: a run of deliveries alone.
    Nothing,
    /// Any that was sent.
    Any,
    /// One of the newest.
    Newest,
    /// One that waits.
    Waiting,
    /// The one that was heard last.
    Last,
    /// One of a kind.
    Kind(u8),
    /// One to a box.
    To(u8),
    /// The newest request that its box answers, so that the pool fills; at times any.
    Answered,
}

/// Deliveries as on the air, and so many echoes to each.
#[derive(Clone, Copy, Debug)]
pub struct Schedule {
    pub deliveries: Deliveries,
    pub echoes: Echoes,
    pub times: u64,
    /// How many packets are delivered before the first echo.
    pub first: u64,
    /// How many echoes there are at most; then all that waits is delivered.
    pub most: u64,
}

impl Schedule {
    /// Those that a table is tried with; once in 5 tables one that fills the pool.
    pub fn some(random: &mut Random, problem: &Problem) -> Vec<Schedule> {
        use Echoes::*;
        let n = u64::from(problem.units());
        let kind = Kind(random.between(message::CPA.into(), message::SOLUTION.into()) as u8);
        let to = To(random.between(1, n) as u8);
        let mut schedules: Vec<Schedule> = [Nothing, Any, Newest, Waiting, Last, kind, to]
            .map(|echoes| Schedule::any(random, problem, echoes))
            .to_vec();
        if random.once_in(5) {
            schedules.push(Schedule::filling(random, problem));
        }
        schedules
    }

    /// More echoes than the pool has cells, one after another; then the CPAs that wait come first, or any packet.
    fn filling(random: &mut Random, problem: &Problem) -> Schedule {
        let (cpas_first, estimates_last) = (Deliveries::First(message::CPA), Deliveries::Last(message::ESTIMATE));
        let deliveries = *random.pick(&[cpas_first, estimates_last, Deliveries::AnyOrder]);
        let (times, first) = (*random.pick(&[50, 400]), random.below(6));
        Schedule { deliveries, times, first, most: 1_300, ..Schedule::any(random, problem, Echoes::Answered) }
    }

    fn any(random: &mut Random, problem: &Problem, echoes: Echoes) -> Schedule {
        let deliveries = Deliveries::some(random, problem.units());
        let most = (4 * problem.most as u64 + 20).min(500);
        let (deliveries, times) = (*random.pick(&deliveries), *random.pick(&[1, 1, 2, 5]));
        Schedule { deliveries, echoes, times, first: 0, most }
    }
}

// Runs

/// A delivery or an echo.
#[derive(Clone, PartialEq, Eq, Debug)]
pub struct Heard {
    pub echo: bool,
    /// None where the cell is not in use.
    pub packet: Option<Packet>,
    /// Whether box 1 had stopped before.
    pub stopped: bool,
    /// Whether the pool has room for what the second implementation sends.
    pub fits: bool,
    pub refusal: u8,
    /// Whether a box, a count or a cell in use is another one afterwards.
    pub changed: bool,
    /// Whether nothing is another one but the count of deliveries.
    pub quiet: bool,
    /// How many beginnings were written, and packets sent.
    pub wrote: usize,
    pub sent: usize,
    /// Whether box 1 has stopped afterwards.
    pub stops: bool,
    /// Whether a packet waits afterwards whose bytes were never accepted.
    pub fresh: bool,
}

#[derive(Clone, PartialEq, Eq, Debug)]
pub struct Run {
    pub shed: Network,
    pub pool: Vec<u8>,
    /// Every packet that was sent, the oldest first.
    pub sent: Vec<Packet>,
    pub heard: Vec<Heard>,
    /// The beginnings that the second implementation writes on the same packets.
    pub written: Vec<Places>,
    /// Whether a packet waited when the shed was made.
    pub fresh: bool,
}

impl Run {
    pub fn has_stopped(&self) -> bool {
        self.shed.units[0].has_stopped()
    }

    pub fn accepted(&self) -> impl Iterator<Item = &Heard> {
        self.heard.iter().filter(|heard| heard.refusal == 0)
    }

    /// Whether the last packet was refused by 14.
    fn just_full(&self) -> bool {
        self.heard.last().is_some_and(|heard| heard.refusal == 14)
    }

    fn waiting(&self) -> Vec<Packet> {
        packets(&self.pool, 0, self.shed.count)
    }
}

fn packets(pool: &[u8], from: u64, to: u64) -> Vec<Packet> {
    let cells = pool.chunks_exact(SIZE).take(to as usize).skip(from as usize);
    cells.map(|packet| packet.try_into().expect("64 bytes")).collect()
}

/// Until box 1 has stopped, or nothing that waits is accepted. Then some more is heard. Fails where the shed can't be made.
pub fn run(library: &Library, problem: &Problem, schedule: Schedule, seed: u64) -> Result<Run, String> {
    let mut shed = Shed::make(library, problem, seed)?;
    let mut left = if schedule.echoes == Echoes::Nothing { 0 } else { schedule.most };
    while !shed.run.has_stopped() {
        let echoes = left > 0 && shed.run.shed.deliveries >= schedule.first.into() && !shed.run.just_full();
        if echoes && !shed.random.once_in(schedule.times + 1) {
            left -= 1;
            shed.echo(schedule.echoes);
        } else if !shed.deliver(schedule.deliveries) {
            break;
        }
    }
    for _ in 0..3 {
        shed.deliver_any();
        shed.echo(Echoes::Any);
    }
    Ok(shed.run)
}

/// A run on its way, with the seats of its boxes, and the bytes that were accepted.
struct Shed<'a> {
    library: &'a Library<'a>,
    problem: &'a Problem<'a>,
    random: Random,
    seats: Vec<Seat>,
    accepted: HashSet<Packet>,
    run: Run,
}

impl<'a> Shed<'a> {
    fn make(library: &'a Library, problem: &'a Problem, seed: u64) -> Result<Shed<'a>, String> {
        let (order, stream, pool) = (Some(problem.order.number()), problem.stream.to_vec(), vec![0xaa; POOL]);
        let made = (library.call)(Input::MakeNetwork { order, stream, pool });
        if made.refusal != 0 {
            return Err(format!("making is refused by {}", made.refusal));
        }
        let seat = |own: u8| Seat::of_stream(problem.order, problem.stream, own.into());
        let seats: Vec<Seat> = (1..=problem.units()).map(seat).collect();
        let shed = calls::network_in(&made);
        let sent = packets(&made.lent, 0, shed.count);
        let written = unit::start(&seats[0].view()).written;
        let fresh = !sent.is_empty();
        let run = Run { shed, pool: made.lent, sent, heard: Vec::new(), written, fresh };
        Ok(Shed { library, problem, random: Random::new(seed), seats, accepted: HashSet::new(), run })
    }

    // What is heard next

    /// The first packet in a schedule's order that is accepted; whether one is.
    fn deliver(&mut self, deliveries: Deliveries) -> bool {
        if self.random.once_in(40) {
            self.deliver_any();
        }
        let waiting = self.run.waiting();
        let places = deliveries.places(&mut self.random, &waiting);
        self.run.has_stopped() || places.into_iter().any(|cell| self.hear(Event::Cell(cell as u64)))
    }

    /// Any cell, those behind the cells in use too.
    fn deliver_any(&mut self) {
        let past = self.random.below(3);
        let cell = self.random.below(self.run.shed.count + past);
        self.hear(Event::Cell(cell));
    }

    /// Nothing where there is no such packet.
    fn echo(&mut self, echoes: Echoes) {
        if let Some(packet) = self.again(echoes) {
            self.hear(Event::Echo(packet.to_vec()));
        }
    }

    fn again(&mut self, echoes: Echoes) -> Option<Packet> {
        let sent = &self.run.sent;
        let some: Vec<Packet> = match echoes {
            Echoes::Nothing => Vec::new(),
            Echoes::Any => return one_of(&mut self.random, sent),
            Echoes::Newest => sent.iter().rev().take(8).copied().collect(),
            Echoes::Waiting => self.run.waiting(),
            Echoes::Last => self.run.heard.iter().rev().find_map(|heard| heard.packet).into_iter().collect(),
            Echoes::Kind(kind) => sent.iter().filter(|packet| packet[0] == kind).copied().collect(),
            Echoes::To(own) => sent.iter().filter(|packet| packet[2] == own).copied().collect(),
            Echoes::Answered if self.random.once_in(200) => return one_of(&mut self.random, &self.run.sent),
            Echoes::Answered => self.answered_request().into_iter().collect(),
        };
        one_of(&mut self.random, &some)
    }

    fn answered_request(&self) -> Option<Packet> {
        let requests = self.run.sent.iter().rev().filter(|packet| packet[0] == message::REQUEST);
        let answered = |packet: &Packet| self.decided(packet).is_some_and(|decision| !decision.sent.is_empty());
        requests.copied().find(answered)
    }

    // What comes of it

    /// What the second implementation does with a packet; none where it refuses it.
    fn decided(&self, packet: &Packet) -> Option<Decision> {
        let place = (packet[2] as usize).checked_sub(1)?;
        unit::step_packet(&self.seats.get(place)?.view(), &self.run.shed.units[place], packet).ok()
    }

    /// Whether it is accepted.
    fn hear(&mut self, event: Event) -> bool {
        let (before, waiting) = (self.run.shed.clone(), self.run.waiting());
        let packet = match &event {
            Event::Cell(cell) => waiting.get(*cell as usize).copied(),
            Event::Echo(packet) => packet.as_slice().try_into().ok(),
        };
        let (echo, stay) = (matches!(event, Event::Echo(_)), event.stay(before.count));
        let decision = packet.and_then(|packet| self.decided(&packet));
        let fits = decision.as_ref().is_none_or(|decision| stay as usize + decision.sent.len() <= CELLS);
        let refusal = self.call(event);
        let changed = self.run.shed != before || packets(&self.run.pool, 0, before.count) != waiting;
        let [wrote, sent] = if refusal == 0 { self.accept(packet, decision, stay) } else { [0, 0] };
        let quiet = self.run.shed.units == before.units && sent == 0;
        let (stopped, stops, fresh) = (before.units[0].has_stopped(), self.run.has_stopped(), self.fresh());
        self.run.heard.push(Heard { echo, packet, stopped, fits, refusal, changed, quiet, wrote, sent, stops, fresh });
        refusal == 0
    }

    /// The library's refusal, and what it leaves.
    fn call(&mut self, event: Event) -> u8 {
        let Run { shed, pool, .. } = &mut self.run;
        let (order, network) = (Some(self.problem.order.number()), Box::new(shed.clone()));
        let (stream, pool) = (self.problem.stream.to_vec(), std::mem::take(pool));
        let heard = (self.library.call)(Input::Deliver { order, network, stream, event, pool });
        self.run.shed = calls::network_in(&heard);
        self.run.pool = heard.lent;
        heard.refusal
    }

    /// How many beginnings are written, and packets sent: those behind the cells that stayed in use.
    fn accept(&mut self, packet: Option<Packet>, decision: Option<Decision>, stay: u64) -> [usize; 2] {
        let written = decision.map_or(Vec::new(), |decision| decision.written);
        let sent = packets(&self.run.pool, stay, self.run.shed.count);
        self.accepted.extend(packet);
        self.run.written.extend(&written);
        self.run.sent.extend(&sent);
        [written.len(), sent.len()]
    }

    fn fresh(&self) -> bool {
        let mut cells = self.run.pool.chunks_exact(SIZE).take(self.run.shed.count as usize);
        cells.any(|packet| !self.accepted.contains(packet))
    }
}

fn one_of(random: &mut Random, packets: &[Packet]) -> Option<Packet> {
    packets.get(random.below(packets.len() as u64) as usize).copied()
}
