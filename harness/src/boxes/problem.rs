//! What runs of a table must come to, worked out from the table alone, and whether a run on the air did.

use super::run::{Handed, Run};
use crate::calls::Input;
use crate::cases::{costs_in, Seat};
use crate::reference::costs::{self, Cost};
use crate::reference::order::ValueOrder;
use crate::reference::unit::Unit;
use crate::reference::{table, Places, FORBIDDEN_PAIR, NONE};
use std::collections::HashSet;

/// d(1), d(1) × d(2), .. up to d(1) × .. × d(n-1): how many beginnings of 1, 2, .. units there are. 01's N is their sum.
pub fn beginnings(stream: &[u8]) -> Vec<u128> {
    let (n, sizes) = table::head(stream);
    let mut count = 1;
    let with = |size: &u8| {
        count *= u128::from(*size);
        count
    };
    sizes[..n as usize - 1].iter().map(with).collect()
}

/// The most packets that boxes on the air accept. A beginning of k units has its CPA down and back, and a request to and an estimate from each
/// later unit; one of n - 1 units has unit n's news to all others, too. And each unit but the first has a stop.
pub fn most_on_air(stream: &[u8]) -> u128 {
    let n = u128::from(table::head(stream).0);
    let packets = |k: u128| if k == n - 1 { n + 3 } else { 2 * (n - k + 1) };
    let of_beginnings: u128 = (1..).zip(beginnings(stream)).map(|(k, count)| packets(k) * count).sum();
    of_beginnings + n - 1
}

/// Every assignment in the order tried: unit 1's value first, the values of each unit as it tries them.
fn assignments(order: ValueOrder, stream: &[u8]) -> Vec<Places> {
    let mut all = vec![[0; 16]];
    for own in 1..=table::head(stream).0 as usize {
        let tried = Seat::of_stream(order, stream, own).view().tried;
        let mut longer = Vec::new();
        for mut places in all {
            for value in &tried {
                places[own - 1] = *value as u8;
                longer.push(places);
            }
        }
        all = longer;
    }
    all
}

/// A table, the order in which its boxes try their values, and what every run of them comes to.
pub struct Problem<'a> {
    pub order: ValueOrder,
    pub stream: &'a [u8],
    /// The most packets accepted on the air.
    pub most: u128,
    /// The least, or *none*.
    pub total: u32,
    /// The first least assignment in the order tried, or all zero.
    pub best: Places,
    /// The other least assignments.
    pub ties: Vec<Places>,
}

impl Problem<'_> {
    /// Of a table whose assignments are few enough to be tried one by one.
    pub fn new(order: ValueOrder, stream: &[u8]) -> Problem<'_> {
        let most = most_on_air(stream);
        let mut problem = Problem { order, stream, most, total: NONE, best: [0; 16], ties: Vec::new() };
        for assignment in assignments(order, stream) {
            let Cost::Of(total) = costs::total(stream, &assignment) else { continue };
            if total < problem.total {
                problem = Problem { total, best: assignment, ties: Vec::new(), ..problem };
            } else if total == problem.total {
                problem.ties.push(assignment);
            }
        }
        problem
    }

    pub fn units(&self) -> u8 {
        table::head(self.stream).0
    }

    /// More than one assignment has the least total.
    pub fn has_ties(&self) -> bool {
        !self.ties.is_empty()
    }

    /// The first of them is another one in the other order.
    pub fn order_decides(&self) -> bool {
        Problem::new(self.order.other(), self.stream).best != self.best
    }

    /// A pair is forbidden, and an assignment is permitted.
    pub fn has_forbidden(&self) -> bool {
        self.total != NONE && self.costs().1.contains(&FORBIDDEN_PAIR)
    }

    /// A unary cost is above 0.
    pub fn has_unary(&self) -> bool {
        self.costs().0.iter().any(|cost| *cost > 0)
    }

    /// Unary, pairs.
    fn costs(&self) -> (Vec<u16>, Vec<u16>) {
        costs_in(&Input::Search { stream: self.stream.to_vec() })
    }

    /// What is wrong with a run on the air, if anything is.
    pub fn check(&self, run: &Run) -> Result<(), String> {
        for (k, handed) in (1..).zip(&run.handed) {
            check_handed(handed).map_err(|fault| format!("packet {k} that is handed over: {fault}"))?;
        }
        if run.accepted() > self.most {
            return Err(format!("{} packets are accepted, {} are the most", run.accepted(), self.most));
        }
        (1..).zip(&run.boxes).try_for_each(|(own, unit)| check_stopped(own, unit))?;
        (1..).zip(&run.boxes).try_for_each(|(own, unit)| self.check_report(own, unit))?;
        check_written(run.records.into(), &run.written)
    }

    /// What a box that has stopped holds.
    pub fn check_report(&self, own: usize, unit: &Unit) -> Result<(), String> {
        if unit.bound != self.total {
            return Err(format!("box {own} holds the total {}, the least is {}", unit.bound, self.total));
        }
        if unit.best != self.best {
            return Err(format!("box {own} holds {:?}, the first least is {:?}", unit.best, self.best));
        }
        Ok(())
    }
}

/// A box that has stopped refuses by 12, and nothing changes; any other accepts.
fn check_handed(handed: &Handed) -> Result<(), String> {
    let own = handed.receiver();
    match (handed.stopped, handed.refusal) {
        (false, 0) => Ok(()),
        (false, refusal) => Err(format!("box {own} has not stopped, and refuses it by {refusal}")),
        (true, 12) if handed.changed => Err(format!("box {own} refuses it by 12, and something changes")),
        (true, 12) => Ok(()),
        (true, 0) => Err(format!("box {own} has stopped, and accepts it")),
        (true, refusal) => Err(format!("box {own} has stopped, and refuses it by {refusal}")),
    }
}

/// No beginning is written twice, and each is a record.
pub fn check_written(records: u128, written: &[Places]) -> Result<(), String> {
    if records != written.len() as u128 {
        return Err(format!("{records} records are counted, {} beginnings are written", written.len()));
    }
    let mut seen = HashSet::new();
    match written.iter().find(|beginning| !seen.insert(**beginning)) {
        Some(twice) => Err(format!("the beginning {twice:?} is written twice")),
        None => Ok(()),
    }
}

/// At the end of a run every box has stopped.
pub fn check_stopped(own: usize, unit: &Unit) -> Result<(), String> {
    if !unit.has_stopped() {
        return Err(format!("box {own} has not stopped, and nothing more is accepted"));
    }
    Ok(())
}
