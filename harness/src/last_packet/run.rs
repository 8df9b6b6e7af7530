//! One run of a shed over the pool of slots, by any implementation: what was delivered, and what came of it.

use super::most;
use crate::boxes::problem::Problem;
use crate::boxes::run::{Packet, Schedule as Deliveries};
use crate::calls::{self, Input, Outcome};
use crate::cases::Seat;
use crate::random::Random;
use crate::reference::message::{self, SIZE};
use crate::reference::slots::{self, Shed, Slot};
use crate::reference::unit::{self, Decision};
use crate::reference::Places;
use crate::trials::Library;
use std::cmp::Reverse;
use std::collections::HashSet;

// Schedules

/// Which cell in use is delivered next.
#[derive(Clone, Copy, Debug)]
pub enum Schedule {
    Lowest,
    Highest,
    /// As on the air, by what waits from the oldest on.
    Aged(Deliveries),
}

impl Schedule {
    /// Those that a table of n units is tried with.
    pub fn some(random: &mut Random, n: u8) -> Vec<Schedule> {
        let aged = Deliveries::some(random, n).into_iter().map(Schedule::Aged);
        [Schedule::Lowest, Schedule::Highest].into_iter().chain(aged).collect()
    }
}

// Runs

/// How a shed stands when it was made, or after a delivery.
#[derive(Clone, PartialEq, Eq, Debug)]
pub struct State {
    /// Whether box 1 has stopped.
    pub stopped: bool,
    /// How many cells are in use.
    pub waiting: usize,
    /// The first of them that would be refused, and by what: as the second implementation says, or, in one state of 8, the one that runs.
    pub refused: Option<(u64, u8)>,
}

/// A delivery, accepted or refused.
#[derive(Clone, PartialEq, Eq, Debug)]
pub struct Delivered {
    pub cell: u64,
    /// None where the cell is empty, or past those used.
    pub packet: Option<Packet>,
    /// Whether box 1 had stopped before.
    pub stopped: bool,
    pub refusal: u8,
    /// Whether a box, a count or a byte of the pool is another one afterwards.
    pub changed: bool,
    /// Whether a byte past the cells used is another one.
    pub past_changed: bool,
    /// Whether what is new in the pool is not what the second implementation sends.
    pub others: bool,
    /// Whether nothing is another one but the cell and the count of deliveries.
    pub quiet: bool,
    /// How many packets the second implementation sends.
    pub sent: usize,
    /// Packets that others came upon, each with the fresh one.
    pub overwritten: Vec<(Packet, Packet)>,
    pub after: State,
}

#[derive(Clone, PartialEq, Eq, Debug)]
pub struct Run {
    pub n: u8,
    pub shed: Shed,
    pub pool: Vec<u8>,
    pub made: State,
    /// How many packets box 1 sent when made.
    pub made_sent: usize,
    pub delivered: Vec<Delivered>,
    /// The beginnings that the second implementation writes on the same packets.
    pub written: Vec<Places>,
}

impl Run {
    pub fn has_stopped(&self) -> bool {
        self.shed.has_stopped()
    }

    pub fn accepted(&self) -> impl Iterator<Item = &Delivered> {
        self.delivered.iter().filter(|delivered| delivered.refusal == 0)
    }

    /// Each with the fresh one.
    pub fn overwritten(&self) -> impl Iterator<Item = &(Packet, Packet)> {
        self.delivered.iter().flat_map(|delivered| &delivered.overwritten)
    }

    /// How many packets wait.
    pub fn waiting(&self) -> usize {
        slots::waiting(self.n, &self.pool).len()
    }
}

fn packet(pool: &[u8], cell: usize) -> Packet {
    pool[SIZE * cell..][..SIZE].try_into().expect("64 bytes")
}

/// Until box 1 has stopped; or nothing that waits is accepted, or more was than may be. Then some more cells are named. Fails where the shed can't
/// be made.
pub fn run(library: &Library, problem: &Problem, schedule: Schedule, seed: u64) -> Result<Run, String> {
    let mut rig = Rig::make(library, problem, seed)?;
    for _ in 0..=most(problem.stream) {
        if rig.random.once_in(40) {
            rig.deliver_any();
        }
        let cells = rig.cells(schedule);
        if rig.run.has_stopped() || !cells.into_iter().any(|cell| rig.deliver(cell as u64)) {
            break;
        }
    }
    for _ in 0..3 {
        rig.deliver_any();
    }
    Ok(rig.run)
}

/// The lowest cell in use each time, and nothing else.
pub fn run_alone(library: &Library, problem: &Problem) -> Result<Run, String> {
    let mut rig = Rig::make(library, problem, 0)?;
    for _ in 0..=most(problem.stream) {
        let lowest = rig.cells(Schedule::Lowest).first().copied();
        if rig.run.has_stopped() || !lowest.is_some_and(|cell| rig.deliver(cell as u64)) {
            break;
        }
    }
    Ok(rig.run)
}

/// A run on its way, with the seats of its boxes, and how old what stands at each cell is.
struct Rig<'a> {
    library: &'a Library<'a>,
    problem: &'a Problem<'a>,
    random: Random,
    seats: Vec<Seat>,
    /// The number of the delivery that sent it, and its place in the pool.
    ages: Vec<(usize, usize)>,
    run: Run,
}

impl<'a> Rig<'a> {
    fn make(library: &'a Library, problem: &'a Problem, seed: u64) -> Result<Rig<'a>, String> {
        let (order, stream, pool) = (Some(problem.order.number()), problem.stream.to_vec(), vec![0xaa; slots::POOL]);
        let made = (library.call)(Input::MakeSlots { order, stream, pool });
        if made.refusal != 0 {
            return Err(format!("making is refused by {}", made.refusal));
        }
        let (n, shed) = (problem.units(), calls::shed_in(&made));
        let seat = |own: u8| Seat::of_stream(problem.order, problem.stream, own.into());
        let seats: Vec<Seat> = (1..=n).map(seat).collect();
        let first = unit::start(&seats[0].view());
        let state = State { stopped: false, waiting: 0, refused: None };
        let (made_sent, written) = (first.sent.len(), first.written);
        let run = Run { n, shed, pool: made.lent, made: state, made_sent, delivered: Vec::new(), written };
        let ages = (0..slots::CELLS).map(|cell| (0, cell)).collect();
        let mut rig = Rig { library, problem, random: Random::new(seed), seats, ages, run };
        rig.run.made = rig.state();
        Ok(rig)
    }

    // What is delivered next

    /// The cells in use in a schedule's order.
    fn cells(&mut self, schedule: Schedule) -> Vec<usize> {
        let mut cells = slots::waiting(self.run.n, &self.run.pool);
        match schedule {
            Schedule::Lowest => {}
            Schedule::Highest => cells.sort_by_key(|cell| Reverse(*cell)),
            Schedule::Aged(deliveries) => {
                cells.sort_by_key(|cell| self.ages[*cell]);
                let waiting: Vec<Packet> = cells.iter().map(|cell| packet(&self.run.pool, *cell)).collect();
                let places = deliveries.places(&mut self.random, &waiting);
                cells = places.into_iter().map(|place| cells[place]).collect();
            }
        }
        cells
    }

    /// 01: "Each names any number as its cell".
    fn deliver_any(&mut self) {
        let used = slots::slots(self.run.n).len() as u64;
        let any = self.random.below(used.max(1));
        let past = self.random.between(used.min(299), 299);
        let cell = *self.random.pick(&[any, any, any, past, used, 300, 1 << 32, (1 << 32) + any, u64::MAX]);
        self.deliver(cell);
    }

    // What comes of it

    /// What the second implementation does with a packet, or its refusal; one that names no unit is unit 1's, which refuses it.
    fn decided(&self, packet: &Packet) -> Result<Decision, u8> {
        let place = if (1..=self.run.n).contains(&packet[2]) { packet[2] as usize - 1 } else { 0 };
        unit::step_packet(&self.seats[place].view(), &self.run.shed.units[place], packet)
    }

    fn call(&self, cell: u64) -> Outcome {
        let Run { shed, pool, .. } = &self.run;
        (self.library.call)(Input::DeliverSlots {
            order: Some(self.problem.order.number()),
            shed: Box::new(shed.clone()),
            stream: self.problem.stream.to_vec(),
            cell,
            pool: pool.clone(),
        })
    }

    /// Whether it is accepted.
    fn deliver(&mut self, cell: u64) -> bool {
        let used = slots::slots(self.run.n).len();
        let (before, pool) = (self.run.shed.clone(), self.run.pool.clone());
        let lies = cell < used as u64 && slots::waits(&pool, cell as usize);
        let packet = lies.then(|| packet(&pool, cell as usize));
        let decision = packet.and_then(|packet| self.decided(&packet).ok());
        let heard = self.call(cell);
        self.run.shed = calls::shed_in(&heard);
        self.run.pool = heard.lent;
        let changed = self.run.shed != before || self.run.pool != pool;
        let past_changed = self.run.pool[SIZE * used..] != pool[SIZE * used..];
        let mut delivered = Delivered {
            cell,
            packet,
            stopped: before.has_stopped(),
            refusal: heard.refusal,
            changed,
            past_changed,
            others: false,
            quiet: false,
            sent: 0,
            overwritten: Vec::new(),
            after: State { stopped: false, waiting: 0, refused: None },
        };
        if heard.refusal == 0 {
            self.accept(&mut delivered, decision, &pool);
            delivered.quiet = self.run.shed.units == before.units && delivered.sent == 0;
        }
        delivered.after = self.state();
        self.run.delivered.push(delivered);
        heard.refusal == 0
    }

    /// What is new in the pool, beside what the second implementation sends.
    fn accept(&mut self, delivered: &mut Delivered, decision: Option<Decision>, before: &[u8]) {
        let (sent, written) = decision.map_or((Vec::new(), Vec::new()), |decision| (decision.sent, decision.written));
        let mut fresh = HashSet::new();
        for cell in (0..slots::slots(self.run.n).len()).filter(|cell| *cell as u64 != delivered.cell) {
            let (old, new) = (packet(before, cell), packet(&self.run.pool, cell));
            if old != new {
                fresh.insert(new);
                self.ages[cell] = (self.run.delivered.len() + 1, cell);
                if old != [0; SIZE] {
                    delivered.overwritten.push((old, new));
                }
            }
        }
        let taken = slots::waits(&self.run.pool, delivered.cell as usize);
        delivered.others = taken || fresh != sent.iter().map(|(kind, m)| message::encode(*kind, m)).collect();
        delivered.sent = sent.len();
        self.run.written.extend(written);
    }

    /// The refusal of a cell in use, as the second implementation says, 0 for accepted. The table is right, and so are the states that it left.
    fn refusal(&self, cell: usize) -> u8 {
        let packet = packet(&self.run.pool, cell);
        let (kind, message) = message::fields(&packet);
        match self.decided(&packet) {
            Err(refusal @ 8..=10) => refusal,
            _ if slots::cell_of(self.run.n, Slot::of(kind, &message)) != Some(cell) => 9,
            decided => decided.err().unwrap_or(0),
        }
    }

    /// Once in 8 states every cell in use is delivered, each to the shed as it is now.
    fn state(&mut self) -> State {
        let waiting = slots::waiting(self.run.n, &self.run.pool);
        let (stopped, by_call) = (self.run.has_stopped(), self.random.once_in(8));
        let refusal = |cell: usize| match by_call {
            true => self.call(cell as u64).refusal,
            false => self.refusal(cell),
        };
        let refused = |cell: &usize| Some((*cell as u64, refusal(*cell))).filter(|(_, refusal)| *refusal != 0);
        let refused = if stopped { None } else { waiting.iter().find_map(refused) };
        State { stopped, waiting: waiting.len(), refused }
    }
}
