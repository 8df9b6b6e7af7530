//! Boxes on the air: each is made with the costs gathered for it out of one table, and packets go to their boxes one at a time, in any order,
//! until every box has its stop. 01's shed ends with box 1's; boxes on radio run on, and each of them reports. Here are tables full of ties,
//! run by one implementation or by several: on the air, which must give what `problem` says and the same run by each, in the shed, and on the bench.

pub mod problem;
pub mod run;

use crate::calls::{self, Event, Input, Outcome};
use crate::random::Random;
use crate::reference::message;
use crate::reference::network;
use crate::reference::order::ValueOrder;
use crate::reference::NONE;
use crate::trials::{self, Library, Report};
use problem::{check_stopped, Problem};
use run::{Run, Schedule};

// Trials

/// Tables in one order of values; stops at the first fault.
pub fn try_tables(libraries: &[Library], order: ValueOrder, tables: u64, seed: u64) -> Report<Case> {
    trials::try_tables(&CASES, order, tables, seed, |problem, random, report| {
        try_table(libraries, problem, random, report)
    })
}

/// On the air by several schedules, in the shed, on the bench.
fn try_table(
    libraries: &[Library],
    problem: &Problem,
    random: &mut Random,
    report: &mut Report<Case>,
) -> Result<(), String> {
    report.count(|case| table_comes_to(case, problem));
    for schedule in Schedule::some(random, problem.units()) {
        let seed = random.word();
        let run = try_air(libraries, problem, schedule, seed);
        let run = run.map_err(|fault| format!("{schedule:?}, seed {seed}: {fault}"))?;
        report.count_run(run.handed.iter().map(|handed| handed.refusal));
        report.count(|case| run_comes_to(case, problem, &run));
    }
    let seed = random.word();
    libraries.iter().try_for_each(|library| {
        let tried = try_shed(library, problem, seed).and_then(|()| try_bench(library, problem));
        tried.map_err(|fault| format!("{}: {fault}", library.name))
    })
}

fn try_air(libraries: &[Library], problem: &Problem, schedule: Schedule, seed: u64) -> Result<Run, String> {
    let checked = |library: &Library| {
        let run = run::run(library, problem, schedule, seed)?;
        problem.check(&run)?;
        Ok(run)
    };
    trials::by_each(libraries, checked, |one, other| trials::same_start(&one.handed, &other.handed))
}

/// Box 1 of the shed: settled, and with any cell delivered each time.
fn try_shed(library: &Library, problem: &Problem, seed: u64) -> Result<(), String> {
    for (name, shed) in [("settled", settle(library, problem)), ("delivered", deliver_any(library, problem, seed))] {
        if shed.refusal != 0 {
            return Err(format!("{name}: refused by {}", shed.refusal));
        }
        let first = &shed.units[0];
        let checked = check_stopped(1, first).and_then(|()| problem.check_report(1, first));
        checked.map_err(|fault| format!("{name}: {fault}"))?;
    }
    Ok(())
}

fn settle(library: &Library, problem: &Problem) -> Outcome {
    let (stream, pool) = (problem.stream.to_vec(), vec![0; network::POOL]);
    (library.call)(Input::Settle { order: Some(problem.order.number()), stream, pool })
}

/// Until box 1 has stopped; or a call is refused, or there were more than the air can have.
fn deliver_any(library: &Library, problem: &Problem, seed: u64) -> Outcome {
    let mut random = Random::new(seed);
    let (order, pool) = (Some(problem.order.number()), vec![0; network::POOL]);
    let mut shed = (library.call)(Input::MakeNetwork { order, stream: problem.stream.to_vec(), pool });
    for _ in 0..problem.most {
        if shed.refusal != 0 || shed.units[0].has_stopped() {
            break;
        }
        let network = Box::new(calls::network_in(&shed));
        let event = Event::Cell(random.below(network.count));
        let (stream, pool) = (problem.stream.to_vec(), shed.lent);
        shed = (library.call)(Input::Deliver { order, network, stream, event, pool });
    }
    shed
}

/// In ascending order the bench finds what the boxes hold.
fn try_bench(library: &Library, problem: &Problem) -> Result<(), String> {
    if problem.order != ValueOrder::Ascending {
        return Ok(());
    }
    let found = (library.call)(Input::Search { stream: problem.stream.to_vec() });
    if found.refusal != 0 || found.numbers != [problem.total.into()] || found.lent != problem.best {
        return Err(format!("the bench gives {:?} with the total {:?}", found.lent, found.numbers));
    }
    Ok(())
}

// Cases

/// What tables and runs must come to at times.
#[derive(Clone, Copy, PartialEq, Eq, Debug)]
pub enum Case {
    /// More than one assignment has the least total.
    Tie,
    /// The first of them is another one in the other order.
    OrderDecides,
    /// A pair is forbidden, and an assignment is permitted.
    Forbidden,
    /// A unary cost is above 0.
    Unary,
    /// No assignment is permitted, and box 1 stops when made.
    NoneMade,
    /// No assignment is permitted, and box 1 does not stop when made.
    NoneSearched,
    /// As many packets are accepted as may be.
    Most,
    /// Box 1 has stopped and refuses a packet.
    FirstRefuses,
    /// Another box has stopped and refuses a packet.
    OtherRefuses,
    /// A box accepts a packet other than a stop after box 1 has stopped.
    RunsOn,
}

const CASES: [Case; 10] = {
    use Case::*;
    [Tie, OrderDecides, Forbidden, Unary, NoneMade, NoneSearched, Most, FirstRefuses, OtherRefuses, RunsOn]
};

fn table_comes_to(case: Case, problem: &Problem) -> bool {
    match case {
        Case::Tie => problem.has_ties(),
        Case::OrderDecides => problem.order_decides(),
        Case::Forbidden => problem.has_forbidden(),
        Case::Unary => problem.has_unary(),
        _ => false,
    }
}

fn run_comes_to(case: Case, problem: &Problem, run: &Run) -> bool {
    let refused =
        |first: bool| run.handed.iter().any(|handed| handed.refusal == 12 && first == (handed.receiver() == 1));
    match case {
        // a box 1 that does not stop when made has written a record
        Case::NoneMade => problem.total == NONE && run.records == 0,
        Case::NoneSearched => problem.total == NONE && run.records > 0,
        Case::Most => problem.most > 0 && run.accepted() == problem.most,
        Case::FirstRefuses => refused(true),
        Case::OtherRefuses => refused(false),
        Case::RunsOn => runs_on(run),
        _ => false,
    }
}

fn runs_on(run: &Run) -> bool {
    let by_first = |handed: &run::Handed| handed.receiver() == 1 && handed.after.has_stopped();
    let mut later = run.handed.iter().skip_while(|handed| !by_first(handed)).skip(1);
    later.any(|handed| handed.refusal == 0 && handed.packet[0] != message::STOP)
}
