//! Many tables, each tried by one implementation of the calls or by several: what the trials came to, and the first fault.

use crate::boxes::problem::Problem;
use crate::calls::{self, Input, Outcome, NUMBERS};
use crate::generate;
use crate::random::Random;
use crate::reference::order::ValueOrder;
use std::fmt;

/// An implementation of every call.
pub struct Library<'a> {
    pub name: &'a str,
    pub call: &'a dyn Fn(Input) -> Outcome,
}

pub const REFERENCE: Library = Library { name: "the second implementation", call: &calls::reference };

/// What was tried. Packets and cases are those of the first implementation: the others come to the same.
pub struct Report<C> {
    pub tables: u64,
    pub runs: u64,
    /// How often each number came when a packet was to be handed over, 0 for accepted.
    pub counts: [u64; NUMBERS],
    /// What tables and runs must come to at times, and how often they did.
    pub cases: Vec<(C, u64)>,
    pub fault: Option<String>,
}

impl<C: Copy> Report<C> {
    fn new(cases: &[C]) -> Report<C> {
        let cases = cases.iter().map(|case| (*case, 0)).collect();
        Report { tables: 0, runs: 0, counts: [0; NUMBERS], cases, fault: None }
    }

    pub fn count(&mut self, comes_to: impl Fn(C) -> bool) {
        self.cases.iter_mut().for_each(|(case, times)| *times += u64::from(comes_to(*case)));
    }

    /// One run more, and what each packet that was to be handed over came to.
    pub fn count_run(&mut self, refusals: impl Iterator<Item = u8>) {
        self.runs += 1;
        refusals.for_each(|refusal| self.counts[refusal as usize] += 1);
    }

    pub fn never_reached(&self) -> impl Iterator<Item = C> + '_ {
        self.cases.iter().filter(|(_, times)| *times == 0).map(|(case, _)| *case)
    }
}

/// `tables 4, runs 32, accepted 900, 12: 60, Tie: 3`.
impl<C: fmt::Debug> fmt::Display for Report<C> {
    fn fmt(&self, out: &mut fmt::Formatter) -> fmt::Result {
        let Report { tables, runs, counts, .. } = self;
        write!(out, "tables {tables}, runs {runs}, accepted {}", counts[0])?;
        for (refusal, times) in counts.iter().enumerate().skip(1).filter(|(_, times)| **times > 0) {
            write!(out, ", {refusal}: {times}")?;
        }
        self.cases.iter().try_for_each(|(case, times)| write!(out, ", {case:?}: {times}"))
    }
}

/// Tables that are quick to search, in one order of values; stops at the first fault.
pub fn try_tables<C: Copy>(
    cases: &[C],
    order: ValueOrder,
    tables: u64,
    seed: u64,
    try_table: impl Fn(&Problem, &mut Random, &mut Report<C>) -> Result<(), String>,
) -> Report<C> {
    try_tables_of(generate::searched, cases, order, tables, seed, try_table)
}

/// The same, of streams that are made so.
pub fn try_tables_of<C: Copy>(
    stream: impl Fn(&mut Random) -> Vec<u8>,
    cases: &[C],
    order: ValueOrder,
    tables: u64,
    seed: u64,
    try_table: impl Fn(&Problem, &mut Random, &mut Report<C>) -> Result<(), String>,
) -> Report<C> {
    let mut random = Random::new(seed);
    let mut report = Report::new(cases);
    while report.tables < tables && report.fault.is_none() {
        let stream = stream(&mut random);
        let tried = try_table(&Problem::new(order, &stream), &mut random, &mut report);
        report.fault = tried.err().map(|fault| format!("{fault}; the stream is {stream:?}"));
        report.tables += 1;
    }
    report
}

/// One run by each implementation, which must be the same one; it is handed back. `alike` says for how many packets two runs are.
pub fn by_each<R: PartialEq>(
    libraries: &[Library],
    run: impl Fn(&Library) -> Result<R, String>,
    alike: impl Fn(&R, &R) -> usize,
) -> Result<R, String> {
    let runs = libraries.iter().map(|library| run(library).map_err(|fault| format!("{}: {fault}", library.name)));
    let mut runs = runs.collect::<Result<Vec<R>, String>>()?;
    if let Some(k) = runs.iter().position(|run| *run != runs[0]) {
        let names = format!("{} and {}", libraries[0].name, libraries[k].name);
        let same = alike(&runs[0], &runs[k]);
        return Err(format!("{names} differ after {same} packets that are handed over alike"));
    }
    Ok(runs.swap_remove(0))
}

/// How many are the same from the start on.
pub fn same_start<T: PartialEq>(one: &[T], other: &[T]) -> usize {
    one.iter().zip(other).take_while(|(one, other)| one == other).count()
}
