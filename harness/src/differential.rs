//! Two implementations on the same inputs: what each call gave, counted by refusal and by case, and the first difference.

use crate::calls::{self, Call, Input, Outcome, NUMBERS};
use crate::cases::{self, Case};
use crate::generate;
use crate::random::Random;

pub struct Report {
    /// How often each number came, 0 for accepted.
    pub counts: [u64; NUMBERS],
    /// How often each case came that the call can come to.
    pub cases: Vec<(Case, u64)>,
    pub difference: Option<Difference>,
}

#[derive(Debug)]
pub struct Difference {
    pub round: u64,
    pub input: Input,
    pub reference: Outcome,
    pub other: Outcome,
}

/// Stops at the first difference.
pub fn compare(call: Call, rounds: u64, seed: u64, other: impl Fn(Input) -> Outcome) -> Report {
    let mut random = Random::new(seed);
    let cases = cases::cases(call).into_iter().map(|case| (case, 0)).collect();
    let mut report = Report { counts: [0; NUMBERS], cases, difference: None };
    for round in 0..rounds {
        let input = generate::input(&mut random, call);
        let reference = calls::reference(input.clone());
        let other = other(input.clone());
        report.counts[reference.refusal as usize] += 1;
        let reached = cases::reached(call, &input, &reference);
        report.cases.iter_mut().for_each(|(case, times)| *times += u64::from(reached.contains(case)));
        if reference != other {
            report.difference = Some(Difference { round, input, reference, other });
            break;
        }
    }
    report
}

/// `accepted 12, 5: 3, 13: 1, Pair: 4`, the refusals in the order in which the call checks them.
pub fn counted(report: &Report, refusals: &[u8]) -> String {
    let mut text = format!("accepted {}", report.counts[0]);
    for refusal in refusals {
        text += &format!(", {refusal}: {}", report.counts[*refusal as usize]);
    }
    for (case, times) in &report.cases {
        text += &format!(", {case}: {times}");
    }
    text
}

/// What differs, without the bytes that are the same.
pub fn describe(difference: &Difference) -> String {
    let (left, right) = (&difference.reference, &difference.other);
    let mut text = format!("round {}\n", difference.round);
    if left.refusal != right.refusal {
        text += &format!("  refusal {} by the reference, {} by the other\n", left.refusal, right.refusal);
    }
    if left.numbers != right.numbers {
        text += &format!("  numbers {:?} and {:?}\n", left.numbers, right.numbers);
    }
    if left.message != right.message {
        text += &format!("  message {:?}\n      and {:?}\n", left.message, right.message);
    }
    for (k, (one, two)) in left.units.iter().zip(&right.units).enumerate() {
        if one != two {
            text += &format!("  unit {} {one:?}\n      and {two:?}\n", k + 1);
        }
    }
    if left.lent.len() != right.lent.len() {
        text += &format!("  {} and {} bytes\n", left.lent.len(), right.lent.len());
    }
    let bytes = left.lent.iter().zip(&right.lent);
    if let Some((at, (one, two))) = bytes.enumerate().find(|(_, (one, two))| one != two) {
        text += &format!("  byte {at} is {one} and {two}\n");
    }
    text
}
