//! 02's job 4: sheds over the pool that keeps the last packet of each kind, sender and receiver. Tables full of ties, some of up to 16 units, run
//! by one implementation or by several, the same run by each; `check` says what holds of every run:
//!
//! - no beginning is written twice, and each is a record; every packet that is accepted is counted;
//! - no more packets are accepted than 01 allows, (3n - 1) × N, so that with this many box 1 has stopped;
//! - box 1 has not stopped: a packet waits, and every one that waits is accepted, 14 not among the refusals; an empty cell and one past those used
//!   are refused by 15;
//! - box 1 has stopped: it holds the first least assignment in the order tried, and every cell is refused by 12;
//! - what is sent was handed over, waits or was overwritten, and that by a newer one of the same slot;
//! - what is refused changes nothing, and nothing changes past the cells used.
//!
//! And box 1 reports the same where the shed is settled, over this pool and over 01's. Boxes on the air that keep the newer of two packets hold the
//! same, too: `held`.

pub mod held;
pub mod run;

use crate::boxes::problem::{beginnings, check_stopped, check_written, Problem};
use crate::calls::{self, Input};
use crate::generate;
use crate::random::Random;
use crate::reference::message;
use crate::reference::network;
use crate::reference::order::ValueOrder;
use crate::reference::slots;
use crate::reference::{table, NONE};
use crate::trials::{self, Library, Report};
use held::Held;
use run::{Delivered, Run, Schedule};

// Trials

/// Tables in one order of values, one in 8 of 7 to 16 units; stops at the first fault.
pub fn try_tables(libraries: &[Library], order: ValueOrder, tables: u64, seed: u64) -> Report<Case> {
    let stream = |random: &mut Random| match random.below(8) {
        0 => generate::searched_wide(random),
        _ => generate::searched(random),
    };
    trials::try_tables_of(stream, &cases(), order, tables, seed, |problem, random, report| {
        try_table(libraries, problem, random, report)
    })
}

fn try_table(
    libraries: &[Library],
    problem: &Problem,
    random: &mut Random,
    report: &mut Report<Case>,
) -> Result<(), String> {
    report.count(|case| table_comes_to(case, problem));
    for schedule in Schedule::some(random, problem.units()) {
        let seed = random.word();
        let run = try_schedule(libraries, problem, schedule, seed);
        let run = run.map_err(|fault| format!("{schedule:?}, seed {seed}: {fault}"))?;
        report.count_run(run.delivered.iter().map(|delivered| delivered.refusal));
        report.count(|case| run_comes_to(case, problem, &run));
    }
    for schedule in held::Schedule::some(random, problem.units()) {
        let seed = random.word();
        let held = try_held(libraries, problem, schedule, seed);
        let held = held.map_err(|fault| format!("held, {schedule:?}, seed {seed}: {fault}"))?;
        report.count_run(held.run.handed.iter().map(|handed| handed.refusal));
        report.count(|case| held_comes_to(case, &held));
    }
    libraries.iter().try_for_each(|library| {
        try_settled(library, problem).map_err(|fault| format!("{}, settled: {fault}", library.name))
    })
}

fn try_held(libraries: &[Library], problem: &Problem, schedule: held::Schedule, seed: u64) -> Result<Held, String> {
    let checked = |library: &Library| {
        let held = held::run(library, problem, schedule, seed)?;
        problem.check(&held.run)?;
        Ok(held)
    };
    trials::by_each(libraries, checked, |one, other| trials::same_start(&one.run.handed, &other.run.handed))
}

fn try_schedule(libraries: &[Library], problem: &Problem, schedule: Schedule, seed: u64) -> Result<Run, String> {
    let checked = |library: &Library| {
        let run = run::run(library, problem, schedule, seed)?;
        check(problem, &run)?;
        Ok(run)
    };
    trials::by_each(libraries, checked, |one, other| trials::same_start(&one.delivered, &other.delivered))
}

/// Settled, the shed is the run that delivers the lowest cell each time; over 01's pool it reports the same.
fn try_settled(library: &Library, problem: &Problem) -> Result<(), String> {
    let (order, stream) = (Some(problem.order.number()), problem.stream.to_vec());
    let lowest = run::run_alone(library, problem)?;
    let pool = vec![0xaa; slots::POOL];
    let settled = (library.call)(Input::SettleSlots { order, stream: stream.clone(), pool });
    if settled.refusal != 0 {
        return Err(format!("refused by {}", settled.refusal));
    }
    if (calls::shed_in(&settled), &settled.lent) != (lowest.shed, &lowest.pool) {
        return Err("it is not the run that delivers the lowest cell in use each time".to_string());
    }
    problem.check_report(1, &settled.units[0])?;
    let over_the_old = (library.call)(Input::Settle { order, stream, pool: vec![0; network::POOL] });
    let (here, there) = (&settled.units[0], &over_the_old.units[0]);
    if over_the_old.refusal != 0 || (here.bound, here.best) != (there.bound, there.best) {
        return Err(format!("over 01's pool box 1 reports {} by {:?}", there.bound, there.best));
    }
    Ok(())
}

// What holds of a run

/// 01's limit: "N is d(1) + d(1) × d(2) + .. up to d(1) × .. × d(n-1)", times 3n - 1.
pub fn most(stream: &[u8]) -> u128 {
    let n = u128::from(table::head(stream).0);
    (3 * n - 1) * beginnings(stream).iter().sum::<u128>()
}

/// What is wrong with a run, if anything is.
pub fn check(problem: &Problem, run: &Run) -> Result<(), String> {
    check_state(&run.made).map_err(|fault| format!("when made, {fault}"))?;
    for (k, delivered) in (1..).zip(&run.delivered) {
        check_delivered(problem, delivered).map_err(|fault| format!("delivery {k}: {fault}"))?;
    }
    let accepted = run.accepted().count() as u128;
    if run.shed.deliveries != accepted {
        return Err(format!("{} deliveries are counted, {accepted} are accepted", run.shed.deliveries));
    }
    if accepted > most(problem.stream) {
        return Err(format!("{accepted} deliveries are accepted, {} are the most", most(problem.stream)));
    }
    check_written(run.shed.records, &run.written)?;
    check_sent(run)?;
    check_stopped(1, &run.shed.units[0])?;
    problem.check_report(1, &run.shed.units[0])
}

fn check_delivered(problem: &Problem, delivered: &Delivered) -> Result<(), String> {
    let expected = match (delivered.stopped, delivered.packet) {
        (true, _) => 12,
        (false, None) => 15,
        (false, Some(_)) => 0,
    };
    let Delivered { cell, refusal, .. } = delivered;
    if *refusal != expected {
        return Err(format!("the refusal of cell {cell} is {refusal}, and not {expected}"));
    }
    if delivered.refusal != 0 && delivered.changed {
        return Err(format!("it is refused by {expected}, and something changes"));
    }
    if delivered.past_changed {
        return Err("a byte past the cells used changes".to_string());
    }
    if delivered.others {
        return Err("a cell holds another packet than was sent".to_string());
    }
    check_overwritten(problem, delivered)?;
    check_state(&delivered.after)
}

/// The fresh one is newer, and not by a tie: it comes second.
fn check_overwritten(problem: &Problem, delivered: &Delivered) -> Result<(), String> {
    let (n, sizes) = table::head(problem.stream);
    for (older, fresh) in &delivered.overwritten {
        match slots::newer(n, &sizes, older, fresh) {
            Ok(newer) if newer == fresh => {}
            Ok(_) => return Err(format!("{older:?} is overwritten by {fresh:?}, which is not newer")),
            Err(refusal) => {
                return Err(format!("{older:?} is overwritten by {fresh:?}, the two are refused by {refusal}"))
            }
        }
    }
    Ok(())
}

/// Until box 1 has stopped a packet waits, and every one that waits is accepted.
fn check_state(state: &run::State) -> Result<(), String> {
    if state.stopped {
        return Ok(());
    }
    if state.waiting == 0 {
        return Err("box 1 has not stopped, and nothing waits".to_string());
    }
    match state.refused {
        Some((cell, refusal)) => {
            Err(format!("box 1 has not stopped, and cell {cell}, in use, is refused by {refusal}"))
        }
        None => Ok(()),
    }
}

/// What is sent was handed over, waits or was overwritten.
fn check_sent(run: &Run) -> Result<(), String> {
    let sent = run.made_sent + run.delivered.iter().map(|delivered| delivered.sent).sum::<usize>();
    let overwritten = run.overwritten().count();
    let (handed, waiting) = (run.accepted().count(), run.waiting());
    if sent != handed + waiting + overwritten {
        return Err(format!("{sent} are sent, {handed} handed over, {waiting} wait, {overwritten} were overwritten"));
    }
    Ok(())
}

// Cases

/// What tables and runs must come to at times.
#[derive(Clone, Copy, PartialEq, Eq, Debug)]
pub enum Case {
    /// More than one assignment has the least total.
    Tie,
    /// The first of them is another one in the other order.
    OrderDecides,
    /// A pair is forbidden, and an assignment is permitted.
    Forbidden,
    /// A unary cost is above 0.
    Unary,
    /// 16 units, which use every cell.
    AllCells,
    /// No assignment is permitted, and box 1 stops when made, does not.
    NoneMade,
    NoneSearched,
    /// A packet of this kind is overwritten.
    Overwritten(u8),
    /// As many are overwritten as are handed over, or more.
    ManyOverwritten,
    /// Nothing is overwritten, though more than two units search.
    NothingOverwritten,
    /// As many deliveries are accepted as may be.
    Most,
    /// A packet is accepted that changes no box and sends nothing.
    Quiet,
    /// An empty cell is named, one past those used, one past the pool.
    Empty,
    Past,
    NoSuchCell,
    /// A cell is named after box 1 has stopped.
    After,
    /// A packet that a box holds gives way to a newer one; one that arrives gives way to a newer one there.
    Replaced,
    Dropped,
}

fn cases() -> Vec<Case> {
    use Case::*;
    let of_tables = [Tie, OrderDecides, Forbidden, Unary, AllCells, NoneMade, NoneSearched];
    let overwritten = (message::CPA..=message::SOLUTION).map(Overwritten);
    let of_runs = [ManyOverwritten, NothingOverwritten, Most, Quiet, Empty, Past, NoSuchCell, After];
    of_tables.into_iter().chain(overwritten).chain(of_runs).chain([Replaced, Dropped]).collect()
}

fn held_comes_to(case: Case, held: &Held) -> bool {
    match case {
        Case::Replaced => held.replaced > 0,
        Case::Dropped => held.dropped > 0,
        _ => false,
    }
}

fn table_comes_to(case: Case, problem: &Problem) -> bool {
    match case {
        Case::Tie => problem.has_ties(),
        Case::OrderDecides => problem.order_decides(),
        Case::Forbidden => problem.has_forbidden(),
        Case::Unary => problem.has_unary(),
        Case::AllCells => problem.units() == 16,
        _ => false,
    }
}

fn run_comes_to(case: Case, problem: &Problem, run: &Run) -> bool {
    let used = slots::slots(problem.units()).len() as u64;
    let handed = run.accepted().count();
    let refused = |refusal: u8, is: &dyn Fn(u64) -> bool| {
        run.delivered.iter().any(|delivered| delivered.refusal == refusal && is(delivered.cell))
    };
    match case {
        Case::NoneMade => problem.total == NONE && run.shed.records == 0,
        Case::NoneSearched => problem.total == NONE && run.shed.records > 0,
        Case::Overwritten(kind) => run.overwritten().any(|(older, _)| older[0] == kind),
        Case::ManyOverwritten => handed > 0 && run.overwritten().count() >= handed,
        Case::NothingOverwritten => problem.units() > 2 && handed > 2 && run.overwritten().next().is_none(),
        Case::Most => handed > 0 && handed as u128 == most(problem.stream),
        Case::Quiet => run.accepted().any(|delivered| delivered.quiet),
        Case::Empty => refused(15, &|cell| cell < used),
        Case::Past => refused(15, &|cell| (used..slots::CELLS as u64).contains(&cell)),
        Case::NoSuchCell => refused(15, &|cell| cell >= slots::CELLS as u64),
        Case::After => refused(12, &|_| true),
        _ => false,
    }
}
