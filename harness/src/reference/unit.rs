//! One unit: making and step.

use super::costs::{self, Cost, View};
use super::message::{self, Message};
use super::order::ValueOrder;
use super::{bound_in_range, check_sizes, cost_limit, filled, table, Places, Refusal, MAX_ESTIMATE, NONE};
use std::cmp::Ordering;

/// Bytes that a buffer for sending must have.
pub const OUT: usize = 1_024;

#[derive(Clone, Copy, PartialEq, Eq, Debug, Default)]
pub struct Unit {
    pub threshold: Places,
    pub bound: u32,
    pub best: Places,
    pub estimates: [u32; 16],
    /// stamp, values and cost are the CPA out; all zero with none out.
    pub stamp: Places,
    pub values: Places,
    pub cost: u32,
    pub counter: u8,
    /// 0 or 1: a lent state may have any byte here, and is out of range with another.
    pub stopped: u8,
}

impl Unit {
    pub fn has_stopped(&self) -> bool {
        self.stopped == 1
    }
}

/// What making or a step gives beside the bytes sent.
#[derive(Clone, Copy, PartialEq, Eq, Debug)]
pub struct Answer {
    pub refusal: Refusal,
    pub unit: Unit,
    pub sent: u8,
    pub records: u64,
}

/// A step that was decided, its messages not yet written out.
#[derive(Clone, Debug)]
pub struct Decision {
    pub unit: Unit,
    pub sent: Vec<(u8, Message)>,
    /// 01: "At each record unit i writes a beginning: the values of units 1 to i".
    pub written: Vec<Places>,
}

impl Decision {
    pub fn records(&self) -> u64 {
        self.written.len() as u64
    }
}

/// Refusals 5, 10, 6, 7, 13. A refused making gives an all-zero unit.
pub fn make(own: u8, n: u8, sizes: &Places, costs: &[u8], out: &mut [u8]) -> Answer {
    make_by(ValueOrder::default(), own, n, sizes, costs, out)
}

pub fn make_by(order: ValueOrder, own: u8, n: u8, sizes: &Places, costs: &[u8], out: &mut [u8]) -> Answer {
    let decided = check_seat(order, own, n, sizes, costs).and_then(|view| {
        check_out(out)?;
        Ok(start(&view))
    });
    answer(decided, &Unit::default(), out)
}

/// Refusals 13, 5 (n, sizes), 10 (own number), 6, 7, 5 (state), 8, 10, 9, 12, 11. A refused step gives the unit as lent.
pub fn step(unit: &Unit, own: u8, n: u8, sizes: &Places, costs: &[u8], packet: &[u8], out: &mut [u8]) -> Answer {
    step_by(ValueOrder::default(), unit, own, n, sizes, costs, packet, out)
}

#[allow(clippy::too_many_arguments)] // as C lends them
pub fn step_by(
    order: ValueOrder,
    unit: &Unit,
    own: u8,
    n: u8,
    sizes: &Places,
    costs: &[u8],
    packet: &[u8],
    out: &mut [u8],
) -> Answer {
    let decided = check_out(out).and_then(|()| {
        let view = check_seat(order, own, n, sizes, costs)?;
        check_state(&view, unit)?;
        step_packet(&view, unit, packet)
    });
    answer(decided, unit, out)
}

/// Whether a lent state is in range: 5 (n, sizes), 10 (own number), 6, 7, 5 (state).
pub fn check_lent(unit: &Unit, own: u8, n: u8, sizes: &Places, costs: &[u8]) -> Result<(), Refusal> {
    check_lent_by(ValueOrder::default(), unit, own, n, sizes, costs)
}

pub fn check_lent_by(
    order: ValueOrder,
    unit: &Unit,
    own: u8,
    n: u8,
    sizes: &Places,
    costs: &[u8],
) -> Result<(), Refusal> {
    check_state(&check_seat(order, own, n, sizes, costs)?, unit)
}

/// Refusal 13 of a buffer for sending.
pub fn check_out(out: &[u8]) -> Result<(), Refusal> {
    if out.len() < OUT {
        Err(13)
    } else {
        Ok(())
    }
}

/// The table as a unit sees it. Refusals 5 (n, sizes), 10 (own number), 6, 7.
pub fn check_seat<'a>(order: ValueOrder, own: u8, n: u8, sizes: &Places, costs: &'a [u8]) -> Result<View<'a>, Refusal> {
    check_sizes(n, sizes)?;
    check_own(own, n)?;
    check_costs(own, n, sizes, costs)?;
    Ok(View::new_by(order, own as usize, n as usize, sizes, costs))
}

/// Refusal 5 of a state.
pub fn check_state(view: &View, unit: &Unit) -> Result<(), Refusal> {
    if in_range(view, unit) {
        Ok(())
    } else {
        Err(5)
    }
}

/// The part of a step that a delivery shares: refusals 8, 10, 9, 12, 11.
pub fn step_packet(view: &View, unit: &Unit, packet: &[u8]) -> Result<Decision, Refusal> {
    let (kind, message) = message::parse_for(view.n as u8, &view.sizes, packet, Some(view.own as u8))?;
    if unit.has_stopped() {
        return Err(12);
    }
    decide(view, unit, kind, &message)
}

/// What is sent goes to the front of `out`; a refusal comes with the unit named, and leaves `out`.
pub fn answer(decided: Result<Decision, Refusal>, refused: &Unit, out: &mut [u8]) -> Answer {
    let decision = match decided {
        Ok(decision) => decision,
        Err(refusal) => return Answer { refusal, unit: *refused, sent: 0, records: 0 },
    };
    for (k, (kind, message)) in decision.sent.iter().enumerate() {
        out[64 * k..64 * (k + 1)].copy_from_slice(&message::encode(*kind, message));
    }
    Answer { refusal: 0, unit: decision.unit, sent: decision.sent.len() as u8, records: decision.records() }
}

/// Refusal 10 for the own number.
fn check_own(own: u8, n: u8) -> Result<(), Refusal> {
    if (1..=n).contains(&own) {
        Ok(())
    } else {
        Err(10)
    }
}

/// Refusals 6 and 7 for the costs lent to a unit. 02's job 7: "A unit's own costs are lent before its pair costs".
fn check_costs(own: u8, n: u8, sizes: &Places, costs: &[u8]) -> Result<(), Refusal> {
    if costs.len() != 2 * costs::lent_to_unit(own as usize, n as usize, sizes) {
        return Err(6);
    }
    let (unary, pairs) = costs.split_at(2 * sizes[own as usize - 1] as usize);
    table::check_unary(unary)?;
    table::check_pairs(pairs)
}

/// 01: "A lent state is in range when ..".
fn in_range(view: &View, unit: &Unit) -> bool {
    let limits = unit.stopped <= 1
        && unit.threshold.iter().all(|byte| *byte <= 17)
        && unit.estimates.iter().all(|estimate| *estimate <= MAX_ESTIMATE)
        && bound_in_range(unit.bound, &unit.best, view.n, &view.sizes);
    limits && cpa_in_range(view, unit)
}

fn cpa_in_range(view: &View, unit: &Unit) -> bool {
    let own = view.own;
    let value = unit.values[own - 1];
    if value == 0 {
        return unit.stamp == [0; 16] && unit.values == [0; 16] && unit.cost == 0;
    }
    let message_limits =
        filled(&unit.stamp, own, &view.sizes) && filled(&unit.values, own, &view.sizes) && unit.cost <= cost_limit(own);
    if !message_limits {
        return false;
    }
    // 01: "at most the own value's place in the order tried"
    let counted = unit.counter == unit.stamp[own - 1] && unit.counter as usize <= view.place(value as usize);
    let fresh = compare(&unit.threshold, &unit.stamp, own) != Ordering::Less;
    // 02's job 3: "A lent paper whose own value is barred with a filled one is out of range"
    let Cost::Of(own_costs) = view.added(&unit.values, own - 1, value as usize) else { return false };
    let before = unit.cost.checked_sub(own_costs);
    counted && fresh && before.is_some_and(|cost| cost <= cost_limit(own - 1))
}

/// 01: "Stamps compare from unit 1 on", here on the first `count` units.
fn compare(left: &Places, right: &Places, count: usize) -> Ordering {
    left[..count].cmp(&right[..count])
}

/// 01: "It starts with bound *none*, all else zero".
pub fn fresh() -> Unit {
    Unit { bound: NONE, ..Unit::default() }
}

/// 01: "It starts with bound *none*, all else zero"; "Making unit 1 assigns".
pub fn start(view: &View) -> Decision {
    let mut work = Work::new(view, &fresh());
    if view.own == 1 {
        work.assign();
    }
    work.decision()
}

/// What an unstopped unit in range does with a message that was read. Refusal 11.
pub fn decide(view: &View, unit: &Unit, kind: u8, message: &Message) -> Result<Decision, Refusal> {
    let mut work = Work::new(view, unit);
    match kind {
        message::CPA => work.on_cpa(message)?,
        message::REQUEST => work.on_request(message),
        message::ESTIMATE => work.on_estimate(message)?,
        message::SOLUTION => work.take_if_lower(message),
        _ => {
            work.take_if_lower(message);
            work.unit.stopped = 1;
        }
    }
    Ok(work.decision())
}

/// A unit at work: its state, and what it has sent and written in this step.
struct Work<'a> {
    view: &'a View<'a>,
    unit: Unit,
    cpa_sent: Option<(u8, Message)>,
    others_sent: Vec<(u8, Message)>,
    improved: bool,
    written: Vec<Places>,
}

impl<'a> Work<'a> {
    fn new(view: &'a View<'a>, unit: &Unit) -> Work<'a> {
        Work { view, unit: *unit, cpa_sent: None, others_sent: Vec::new(), improved: false, written: Vec::new() }
    }

    /// 01: "unit n sends one news, after its last improvement in a step, to all others";
    /// "Outgoing order: paper first, the rest by receiver ascending".
    fn decision(mut self) -> Decision {
        if self.improved {
            for receiver in (1..=self.view.n).filter(|j| *j != self.view.own) {
                let news = self.solution(receiver);
                self.others_sent.push((message::SOLUTION, news));
            }
        }
        let mut sent: Vec<_> = self.cpa_sent.into_iter().collect();
        sent.extend(self.others_sent);
        Decision { unit: self.unit, sent, written: self.written }
    }

    // Messages

    fn on_cpa(&mut self, m: &Message) -> Result<(), Refusal> {
        let down = (m.sender as usize) < self.view.own;
        match compare(&m.stamp, &self.unit.threshold, self.view.own) {
            Ordering::Less => return Ok(()),
            Ordering::Greater if down => self.unit.threshold = m.stamp,
            _ => {}
        }
        let same = m.stamp == self.unit.stamp && m.values == self.unit.values && m.cost == self.unit.cost;
        if !down && !same {
            return Err(11);
        }
        self.unit.stamp = m.stamp;
        self.unit.values = m.values;
        self.unit.cost = m.cost;
        self.take_if_lower(m);
        if self.cost_without_own() >= self.unit.bound {
            self.back_up();
        } else {
            self.assign();
        }
        Ok(())
    }

    fn on_request(&mut self, m: &Message) {
        match compare(&m.stamp, &self.unit.threshold, self.view.own - 1) {
            Ordering::Less => return,
            Ordering::Greater => self.unit.threshold = m.stamp,
            Ordering::Equal => {}
        }
        let reply = Message {
            sender: self.view.own as u8,
            receiver: m.sender,
            stamp: m.stamp,
            cost: self.view.estimate(&m.values, m.sender as usize).or_none(),
            ..Message::default()
        };
        self.others_sent.push((message::ESTIMATE, reply));
    }

    fn on_estimate(&mut self, m: &Message) -> Result<(), Refusal> {
        let own = self.view.own;
        let order = compare(&m.stamp, &self.unit.threshold, own);
        if order == Ordering::Less {
            return Ok(());
        }
        let out = self.unit.values[own - 1] != 0 && m.stamp[..own] == self.unit.stamp[..own];
        if order == Ordering::Greater || !out {
            return Err(11);
        }
        self.unit.estimates[m.sender as usize - 1] = m.cost;
        // an estimate of *none* reaches any bound, *none* too, so it is never kept: assigning clears it
        let estimated: u64 = self.unit.estimates[own..self.view.n].iter().map(|estimate| u64::from(*estimate)).sum();
        if u64::from(self.unit.cost) + estimated >= u64::from(self.unit.bound) {
            self.assign();
        }
        Ok(())
    }

    fn take_if_lower(&mut self, m: &Message) {
        if m.bound < self.unit.bound {
            self.unit.bound = m.bound;
            self.unit.best = m.best;
        }
    }

    // What they lead to

    fn own_value(&self) -> usize {
        self.unit.values[self.view.own - 1] as usize
    }

    fn cost_without_own(&self) -> u32 {
        let value = self.own_value();
        if value == 0 {
            return self.unit.cost;
        }
        let own_costs = self.view.added(&self.unit.values, self.view.own - 1, value);
        self.unit.cost.saturating_sub(own_costs.or_none())
    }

    fn assign(&mut self) {
        let own = self.view.own;
        loop {
            self.unit.estimates = [0; 16];
            if self.own_value() == 0 {
                self.unit.counter = 0;
            }
            let Some((value, cost)) = self.next_value() else { return self.back_up() };
            self.unit.counter += 1;
            self.unit.stamp[own - 1] = self.unit.counter;
            self.unit.values[own - 1] = value as u8;
            self.unit.cost = cost;
            self.unit.threshold = self.unit.stamp;
            self.written.push(self.unit.values);
            if own < self.view.n {
                return self.send_down();
            }
            self.unit.bound = self.unit.cost;
            self.unit.best = self.unit.values;
            self.improved = true;
        }
    }

    /// The first value after the current one with cost + h(v) below the bound, and that cost.
    /// 02's job 3: without an h "the value can't be written, even with no bound"; nor if a pair with a filled unit is forbidden.
    fn next_value(&self) -> Option<(usize, u32)> {
        let own = self.view.own;
        let before = self.cost_without_own();
        for v in self.view.after(self.own_value()) {
            let cost = Cost::Of(before) + self.view.added(&self.unit.values, own - 1, *v);
            let (Cost::Of(cost), Cost::Of(h)) = (cost, self.view.h(*v)) else { continue };
            if cost + h < self.unit.bound {
                return Some((*v, cost));
            }
        }
        None
    }

    fn back_up(&mut self) {
        let own = self.view.own;
        self.unit.cost = self.cost_without_own();
        self.unit.values[own - 1] = 0;
        self.unit.threshold[own - 1] += 1;
        self.unit.stamp[own - 1] = 0;
        self.unit.estimates = [0; 16];
        if own == 1 {
            self.unit.stopped = 1;
            for receiver in 2..=self.view.n {
                let stop = self.solution(receiver);
                self.others_sent.push((message::STOP, stop));
            }
        } else {
            self.cpa_sent = Some((message::CPA, self.cpa(own - 1)));
        }
        self.unit.stamp = [0; 16];
        self.unit.values = [0; 16];
        self.unit.cost = 0;
    }

    fn send_down(&mut self) {
        let own = self.view.own;
        self.cpa_sent = Some((message::CPA, self.cpa(own + 1)));
        for receiver in own + 1..=self.view.n {
            let request = Message { bound: 0, best: [0; 16], ..self.cpa(receiver) };
            self.others_sent.push((message::REQUEST, request));
        }
    }

    fn cpa(&self, receiver: usize) -> Message {
        Message {
            sender: self.view.own as u8,
            receiver: receiver as u8,
            stamp: self.unit.stamp,
            values: self.unit.values,
            cost: self.unit.cost,
            bound: self.unit.bound,
            best: self.unit.best,
        }
    }

    /// News and stop carry only bound and best.
    fn solution(&self, receiver: usize) -> Message {
        Message {
            sender: self.view.own as u8,
            receiver: receiver as u8,
            bound: self.unit.bound,
            best: self.unit.best,
            ..Message::default()
        }
    }
}
