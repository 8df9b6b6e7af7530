//! 02's job 2: sheds whose boxes hear packets again, any number of times, among the deliveries. Tables full of ties, run by one implementation or
//! by several, the same run by each; `check` says what holds of every run:
//!
//! - no beginning is written twice, and each is a record; every packet that is accepted is counted;
//! - box 1 has not stopped: a packet that was sent is refused by nothing but 14, and only where it must be; a cell not in use by 15;
//! - box 1 has stopped: it holds the first least assignment in the order tried, and every packet is refused by 12;
//! - until then a packet waits whose bytes were never accepted;
//! - what is refused changes nothing.
//!
//! 02 speaks of runs "where no delivery is refused"; here what is refused stays in the run. With the pool full, all that waits may be refused by
//! 14, for good: such a run ends there, and the rest holds of it.

pub mod run;

use crate::boxes::problem::{check_stopped, check_written, Problem};
use crate::random::Random;
use crate::reference::network::CELLS;
use crate::reference::order::ValueOrder;
use crate::reference::unit::OUT;
use crate::reference::NONE;
use crate::trials::{self, Library, Report};
use run::{Heard, Run, Schedule};
use std::collections::HashMap;

// Trials

/// Tables in one order of values; stops at the first fault.
pub fn try_tables(libraries: &[Library], order: ValueOrder, tables: u64, seed: u64) -> Report<Case> {
    trials::try_tables(&cases(), order, tables, seed, |problem, random, report| {
        try_table(libraries, problem, random, report)
    })
}

fn try_table(
    libraries: &[Library],
    problem: &Problem,
    random: &mut Random,
    report: &mut Report<Case>,
) -> Result<(), String> {
    report.count(|case| table_comes_to(case, problem));
    for schedule in Schedule::some(random, problem) {
        let seed = random.word();
        let run = try_schedule(libraries, problem, schedule, seed);
        let run = run.map_err(|fault| format!("{schedule:?}, seed {seed}: {fault}"))?;
        report.count_run(run.heard.iter().map(|heard| heard.refusal));
        report.count(|case| run_comes_to(case, problem, &run));
    }
    Ok(())
}

fn try_schedule(libraries: &[Library], problem: &Problem, schedule: Schedule, seed: u64) -> Result<Run, String> {
    let checked = |library: &Library| {
        let run = run::run(library, problem, schedule, seed)?;
        check(problem, &run)?;
        Ok(run)
    };
    trials::by_each(libraries, checked, |one, other| trials::same_start(&one.heard, &other.heard))
}

// What holds of a run

/// What is wrong with a run, if anything is.
pub fn check(problem: &Problem, run: &Run) -> Result<(), String> {
    let stopped_when_made = run.heard.first().map_or(run.has_stopped(), |first| first.stopped);
    if !stopped_when_made && !run.fresh {
        return Err("when made, box 1 has not stopped, and nothing waits".to_string());
    }
    for (k, heard) in (1..).zip(&run.heard) {
        check_heard(heard).map_err(|fault| format!("packet {k} that is handed over: {fault}"))?;
    }
    let accepted = run.accepted().count() as u128;
    if run.shed.deliveries != accepted {
        return Err(format!("{} deliveries are counted, {accepted} packets are accepted", run.shed.deliveries));
    }
    check_written(run.shed.records, &run.written)?;
    check_end(problem, run)
}

fn check_heard(heard: &Heard) -> Result<(), String> {
    let expected = expected(heard);
    if heard.refusal != expected {
        return Err(format!("the refusal is {}, and not {expected}", heard.refusal));
    }
    if heard.refusal != 0 && heard.changed {
        return Err(format!("it is refused by {expected}, and something changes"));
    }
    if !heard.stops && !heard.fresh {
        return Err("box 1 has not stopped, and nothing waits that was never accepted".to_string());
    }
    Ok(())
}

/// The packet was sent: it reads, it is for a unit that is there, and that unit refuses it only when it has stopped.
fn expected(heard: &Heard) -> u8 {
    if heard.stopped {
        12
    } else if heard.packet.is_none() {
        15
    } else if !heard.fits {
        14
    } else {
        0
    }
}

/// Box 1 has stopped with its report, unless no step's packets are sure to fit the pool.
fn check_end(problem: &Problem, run: &Run) -> Result<(), String> {
    let first = &run.shed.units[0];
    if !run.has_stopped() && nearly_full(run) {
        return Ok(());
    }
    check_stopped(1, first)?;
    problem.check_report(1, first)
}

fn nearly_full(run: &Run) -> bool {
    64 * (run.shed.count as usize) + OUT > 64 * CELLS
}

// Cases

/// What tables and runs must come to at times.
#[derive(Clone, Copy, PartialEq, Eq, Debug)]
pub enum Case {
    /// More than one assignment has the least total.
    Tie,
    /// The first of them is another one in the other order.
    OrderDecides,
    /// A pair is forbidden, and an assignment is permitted.
    Forbidden,
    /// A unary cost is above 0.
    Unary,
    /// An echo changes no box and sends nothing.
    Quiet,
    /// An echo is answered, though it writes nothing.
    Answered,
    /// An echo writes a beginning: it comes before its packet.
    Writes,
    /// Box 1 stops on an echo.
    Stops,
    /// An echo is refused by 14.
    EchoRefused,
    /// An echo comes after box 1 has stopped.
    After,
    /// No assignment is permitted, and box 1 does not stop when made.
    NoneSearched,
    /// A packet is accepted 10 times or more.
    Often,
    /// More packets are accepted than boxes on the air ever do without echoes.
    MoreThanMost,
    /// A delivery is refused by 14.
    DeliveryRefused,
    /// Box 1 stops after something was refused by 14.
    GoesOn,
    /// A cell that is not in use is named.
    NoCell,
}

fn cases() -> Vec<Case> {
    use Case::*;
    let of_tables = [Tie, OrderDecides, Forbidden, Unary];
    let of_echoes = [Quiet, Answered, Writes, Stops, EchoRefused, After];
    let of_runs = [NoneSearched, Often, MoreThanMost, DeliveryRefused, GoesOn, NoCell];
    [&of_tables[..], &of_echoes, &of_runs].concat()
}

fn table_comes_to(case: Case, problem: &Problem) -> bool {
    match case {
        Case::Tie => problem.has_ties(),
        Case::OrderDecides => problem.order_decides(),
        Case::Forbidden => problem.has_forbidden(),
        Case::Unary => problem.has_unary(),
        _ => false,
    }
}

fn run_comes_to(case: Case, problem: &Problem, run: &Run) -> bool {
    let echo = |is: &dyn Fn(&Heard) -> bool| run.heard.iter().any(|heard| heard.echo && is(heard));
    let any = |refusal: u8| run.heard.iter().any(|heard| heard.refusal == refusal);
    match case {
        Case::Quiet => echo(&|heard| heard.refusal == 0 && heard.quiet),
        Case::Answered => echo(&|heard| heard.sent > 0 && heard.wrote == 0),
        Case::Writes => echo(&|heard| heard.wrote > 0),
        Case::Stops => echo(&|heard| heard.stops && !heard.stopped),
        Case::EchoRefused => echo(&|heard| heard.refusal == 14),
        Case::After => echo(&|heard| heard.stopped),
        Case::NoneSearched => problem.total == NONE && run.shed.records > 0 && run.has_stopped(),
        Case::Often => most_often(run) >= 10,
        Case::MoreThanMost => run.accepted().count() as u128 > problem.most,
        Case::DeliveryRefused => run.heard.iter().any(|heard| !heard.echo && heard.refusal == 14),
        Case::GoesOn => run.has_stopped() && any(14),
        Case::NoCell => any(15),
        _ => false,
    }
}

/// How often the packet was accepted that was so most often.
fn most_often(run: &Run) -> usize {
    let mut times = HashMap::new();
    for packet in run.accepted().filter_map(|heard| heard.packet) {
        *times.entry(packet).or_insert(0) += 1;
    }
    times.into_values().max().unwrap_or(0)
}
