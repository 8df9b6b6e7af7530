//! The experiment of the AFB paper's section 5 (source document 000): random MaxDisCSPs, solved by the shed's rules and by
//! synchronous branch and bound, with messages and non-concurrent constraint checks counted.

use crate::random::Random;
use crate::reference::costs::{self, Cost, View};
use crate::reference::message::Message;
use crate::reference::order::ValueOrder;
use crate::reference::unit::{self, Decision, Unit};
use crate::reference::{table, NONE};
use std::collections::VecDeque;

/// A random problem: its stream, and which pairs have a constraint.
pub struct Problem {
    pub stream: Vec<u8>,
    constrained: Vec<Vec<bool>>,
}

/// What one search took.
#[derive(Clone, Copy, PartialEq, Eq, Debug)]
pub struct Effort {
    pub least: u32,
    /// All messages sent, those that still wait at the end included.
    pub messages: u64,
    /// Messages that reached their unit; the shed's count.
    pub deliveries: u64,
    /// Values written; the shed's count.
    pub records: u64,
    /// The paper's measure of time: the largest clock of any unit at the end.
    pub checks: u64,
    /// The most messages that waited at once; the shed's pool has 1,024 cells.
    pub waiting: usize,
}

/// A pair has a constraint with probability `density`; two of its values then cost 1 with probability `tightness`.
#[allow(clippy::needless_range_loop)] // both triangles are written
pub fn problem(random: &mut Random, n: usize, values: usize, density: f64, tightness: f64) -> Problem {
    let mut stream = vec![n as u8];
    stream.extend(vec![values as u8; n]);
    let mut constrained = vec![vec![false; n]; n];
    for i in 0..n {
        for j in i + 1..n {
            let pair = random.chance(density);
            constrained[i][j] = pair;
            constrained[j][i] = pair;
            for _ in 0..values * values {
                let cost = u16::from(pair && random.chance(tightness));
                stream.extend(cost.to_le_bytes());
            }
        }
    }
    Problem { stream, constrained }
}

/// A message under way, with the clock of its sender.
type Waiting = (u8, Message, u64);

/// The shed with a clock for each unit: cell 0 is delivered until unit 1 has stopped.
struct Clocked<'a> {
    views: Vec<View<'a>>,
    problem: &'a Problem,
    units: Vec<Unit>,
    clocks: Vec<u64>,
    waiting: VecDeque<Waiting>,
    sent: u64,
    deliveries: u64,
    records: u64,
    most_waiting: usize,
}

/// Messages and checks of the shed's rules. The unit's own step decides; only the pool is kept as a queue here.
pub fn forward_bounding(order: ValueOrder, problem: &Problem) -> Effort {
    let (n, sizes) = table::head(&problem.stream);
    let costs: Vec<Vec<u8>> = (1..=n as usize).map(|own| costs::of_unit(&problem.stream, own)).collect();
    let view = |own: usize| View::new_by(order, own, n as usize, &sizes, &costs[own - 1]);
    let views: Vec<View> = (1..=n as usize).map(view).collect();
    let mut shed = Clocked {
        views,
        problem,
        units: Vec::new(),
        clocks: Vec::new(),
        waiting: VecDeque::new(),
        sent: 0,
        deliveries: 0,
        records: 0,
        most_waiting: 0,
    };
    for own in 1..=n as usize {
        shed.make(own);
    }
    while !shed.units[0].has_stopped() {
        shed.deliver_oldest();
    }
    let checks = shed.clocks.iter().copied().max().unwrap_or(0);
    Effort {
        least: shed.units[0].bound,
        messages: shed.sent,
        deliveries: shed.deliveries,
        records: shed.records,
        checks,
        waiting: shed.most_waiting,
    }
}

impl Clocked<'_> {
    /// Making a unit; the paper's agents work out h once, here.
    fn make(&mut self, own: usize) {
        let view = &self.views[own - 1];
        let later = own + 1..=view.n;
        let for_h: usize =
            later.filter(|j| self.problem.constrained[own - 1][j - 1]).map(|j| view.size(own) * view.size(j)).sum();
        self.units.push(Unit::default());
        self.clocks.push(for_h as u64);
        let decision = unit::start(view);
        self.take(own, decision);
    }

    fn deliver_oldest(&mut self) {
        let (kind, message, clock) = self.waiting.pop_front().expect("a message waits until unit 1 has stopped");
        let own = message.receiver as usize;
        self.clocks[own - 1] = self.clocks[own - 1].max(clock);
        let decision = unit::decide(&self.views[own - 1], &self.units[own - 1], kind, &message);
        self.deliveries += 1;
        self.take(own, decision.expect("no unit refuses another's message"));
    }

    /// Keeps the state, turns the clock by the checks made, sends.
    fn take(&mut self, own: usize, decision: Decision) {
        let view = &self.views[own - 1];
        for (j, looked_up) in view.checks.iter().enumerate() {
            let times = looked_up.replace(0);
            if j < view.n && self.problem.constrained[own - 1][j] {
                self.clocks[own - 1] += times;
            }
        }
        self.units[own - 1] = decision.unit;
        self.records += decision.records();
        self.sent += decision.sent.len() as u64;
        let clock = self.clocks[own - 1];
        self.waiting.extend(decision.sent.into_iter().map(|(kind, message)| (kind, message, clock)));
        self.most_waiting = self.most_waiting.max(self.waiting.len());
    }
}

/// Synchronous branch and bound as the paper names it: one CPA, values ascending, a value dropped when the cost so far
/// reaches the best. It gives up past this many checks: the second answer says whether the search is whole.
pub fn branch_and_bound(problem: &Problem, most_checks: u64) -> (Effort, bool) {
    let stream = &problem.stream;
    let (n, sizes) = table::head(stream);
    let n = n as usize;
    let costs: Vec<Vec<u8>> = (1..=n).map(|own| costs::of_unit(stream, own)).collect();
    let views: Vec<View> = (1..=n).map(|own| View::new(own, n, &sizes, &costs[own - 1])).collect();
    let earlier: Vec<Vec<usize>> =
        (1..=n).map(|i| (1..i).filter(|j| problem.constrained[i - 1][j - 1]).collect()).collect();
    let mut search = Synchronous {
        views,
        earlier,
        values: vec![0; n],
        least: NONE,
        messages: 0,
        records: 0,
        checks: 0,
        most_checks,
    };
    search.extend_at(1, 0);
    let Synchronous { least, messages, records, checks, .. } = search;
    let effort = Effort { least, messages, deliveries: messages, records, checks, waiting: 1 };
    (effort, checks <= most_checks)
}

struct Synchronous<'a> {
    views: Vec<View<'a>>,
    /// For each unit the earlier ones that it has a constraint with.
    earlier: Vec<Vec<usize>>,
    values: Vec<usize>,
    least: u32,
    messages: u64,
    records: u64,
    checks: u64,
    most_checks: u64,
}

impl Synchronous<'_> {
    fn extend_at(&mut self, own: usize, cost: u32) {
        let n = self.views.len();
        for value in 1..=self.views[own - 1].size(own) {
            let Cost::Of(added) = self.added(own, value) else { continue };
            let total = cost + added;
            if total >= self.least || self.checks > self.most_checks {
                continue;
            }
            self.values[own - 1] = value;
            self.records += 1;
            if own == n {
                self.least = total;
            } else {
                self.messages += 2; // the CPA down, and later back
                self.extend_at(own + 1, total);
            }
        }
    }

    fn added(&mut self, own: usize, value: usize) -> Cost {
        let earlier = &self.earlier[own - 1];
        self.checks += earlier.len() as u64;
        let view = &self.views[own - 1];
        Cost::Of(view.unary(value)) + earlier.iter().map(|j| view.pair(*j, self.values[*j - 1], value)).sum()
    }
}
