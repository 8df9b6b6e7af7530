//! 02's job 12: the ends that a change of one cost gives, their refusal; and of many small tables, one cost or several of them changed, that the
//! new least total lies between the ends, reaches either of them, and is none just where it was. With the feature `linked` the ends are those of the
//! Rattle library too.

use harness::calls::{self, Input, Outcome};
use harness::generate;
use harness::random::Random;
use harness::reference::retest::{self, Which};
use harness::reference::{search, table, FORBIDDEN_PAIR, MAX_COST, MAX_TOTAL, NONE};
use harness::sample;

type Ends = Result<(u32, u32), u8>;

fn in_outcome(outcome: &Outcome) -> Ends {
    match outcome.refusal {
        0 => Ok((outcome.numbers[0] as u32, outcome.numbers[1] as u32)),
        refusal => {
            assert_eq!(outcome.numbers, [0, 0]);
            Err(refusal)
        }
    }
}

/// The ends by every implementation that there is.
fn ends(total: u32, old: u32, new: u32) -> Ends {
    let input = Input::Ends { total, old, new };
    let ends = in_outcome(&calls::reference(input.clone()));
    #[cfg(feature = "linked")]
    assert_eq!(in_outcome(&harness::linked::linked(input)), ends);
    #[cfg(not(feature = "linked"))]
    drop(input);
    ends
}

#[test]
fn a_raise_moves_the_upper_end_and_a_lowering_the_lower_one() {
    assert_eq!(ends(100, 20, 50), Ok((100, 130)));
    assert_eq!(ends(100, 50, 20), Ok((70, 100)));
    assert_eq!(ends(100, 50, 50), Ok((100, 100)));
    assert_eq!(ends(100, 0, MAX_COST), Ok((100, 60_100)));
    assert_eq!(ends(MAX_TOTAL, 0, MAX_COST), Ok((MAX_TOTAL, MAX_TOTAL + MAX_COST)));
}

#[test]
fn the_lower_end_is_never_below_0() {
    assert_eq!(ends(100, 200, 99), Ok((0, 100)));
    assert_eq!(ends(101, 200, 99), Ok((0, 101)));
    assert_eq!(ends(102, 200, 99), Ok((1, 102)));
    assert_eq!(ends(0, MAX_COST, 0), Ok((0, 0)));
}

#[test]
fn none_stays_none() {
    for (old, new) in [(0, 0), (5, 7), (7, 5), (MAX_COST, 0), (0, MAX_COST)] {
        assert_eq!(ends(NONE, old, new), Ok((NONE, NONE)));
    }
}

#[test]
fn what_is_past_a_limit_is_refused() {
    for wrong in [MAX_COST + 1, u32::from(FORBIDDEN_PAIR), NONE] {
        for total in [0, MAX_TOTAL, NONE] {
            assert_eq!(ends(total, wrong, 5), Err(20));
            assert_eq!(ends(total, 5, wrong), Err(20));
            assert_eq!(ends(total, wrong, wrong), Err(20));
        }
    }
    for total in [MAX_TOTAL + 1, NONE - 1] {
        assert_eq!(ends(total, 5, 5), Err(20));
        assert_eq!(ends(total, 0, MAX_COST), Err(20));
    }
    assert_eq!(ends(MAX_TOTAL, MAX_COST, MAX_COST), Ok((MAX_TOTAL, MAX_TOTAL)));
}

fn least(stream: &[u8]) -> u32 {
    search::branch_and_bound(stream).unwrap().0
}

/// One of the table's costs that is no forbidden pair, the number that it has, and the table with another number for it.
fn retest_one(random: &mut Random, stream: &[u8]) -> Option<(u32, u32, Vec<u8>)> {
    let (n, sizes) = table::head(stream);
    let which = *random.pick(&retest::all(&sizes[..n as usize]));
    let any = random.below(60_001) as u16;
    let new = *random.pick(&[0, 1, 2, 8, 60_000, any]);
    let (changed, old) = retest::retested(stream, which, new)?;
    (!retest::is_mark(old)).then_some((old.into(), new.into(), changed))
}

/// How often something came of so many tables.
#[derive(Default, Debug)]
struct Came {
    lower: u32,
    upper: u32,
    between: u32,
    none: u32,
}

impl Came {
    fn note(&mut self, total: u32, (lower, upper): (u32, u32)) {
        assert!(lower <= total && total <= upper, "{total} is not in {lower} to {upper}");
        self.none += u32::from(total == NONE);
        self.lower += u32::from(total == lower && lower < upper);
        self.upper += u32::from(total == upper && lower < upper);
        self.between += u32::from(lower < total && total < upper);
    }

    fn all(&self) {
        assert!(self.lower.min(self.upper).min(self.between).min(self.none) > 20, "{self:?}");
    }
}

#[test]
fn the_new_least_total_lies_between_the_ends() {
    let mut random = Random::new(12);
    let mut came = Came::default();
    for _ in 0..6_000 {
        let stream = generate::searched(&mut random);
        let Some((old, new, changed)) = retest_one(&mut random, &stream) else { continue };
        let (was, is) = (least(&stream), least(&changed));
        came.note(is, ends(was, old, new).unwrap());
        assert_eq!(was == NONE, is == NONE);
    }
    came.all();
}

/// "the ends add up: lowerings for the lower end, raises for the upper", where some costs are raised and others lowered.
#[test]
fn the_ends_of_several_retests_add_up() {
    let mut random = Random::new(21);
    let mut came = Came::default();
    for _ in 0..6_000 {
        let first = generate::searched(&mut random);
        let (n, sizes) = table::head(&first);
        let mut stream = first.clone();
        for _ in 0..random.between(2, 8) {
            if let Some((_, _, changed)) = retest_one(&mut random, &stream) {
                stream = changed;
            }
        }
        let (mut lowered, mut raised) = (0, 0);
        for which in retest::all(&sizes[..n as usize]) {
            let number = |stream: &[u8]| u32::from(retest::retested(stream, which, 0).unwrap().1);
            let (old, new) = (number(&first), number(&stream));
            lowered += old.saturating_sub(new);
            raised += new.saturating_sub(old);
        }
        let (was, is) = (least(&first), least(&stream));
        let ends = if was == NONE { (NONE, NONE) } else { (was.saturating_sub(lowered), was + raised) };
        came.note(is, ends);
    }
    came.all();
}

#[test]
fn a_cost_is_found_by_its_units_and_values() {
    let t = sample::t();
    let pair = |u, v| Which::Pair { first: (1, u), second: (2, v) };
    for (which, old) in [(pair(1, 1), 5), (pair(1, 2), 3), (pair(2, 1), 2), (pair(2, 2), 4)] {
        let (changed, was) = retest::retested(&t, which, 9).unwrap();
        assert_eq!((was, table::head(&changed)), (old, table::head(&t)));
        assert_eq!(retest::retested(&changed, which, 0).unwrap().1, 9);
    }
    let (changed, was) = retest::retested(&t, Which::Unary { unit: 2, value: 1 }, 7).unwrap();
    assert_eq!((was, search::exhaustive(&changed).unwrap().0), (0, 3));
    assert_eq!(retest::retested(&t, pair(3, 1), 0), None);
    assert_eq!(retest::retested(&t, Which::Pair { first: (2, 1), second: (1, 1) }, 0), None);
    assert_eq!(retest::retested(&t, Which::Unary { unit: 3, value: 1 }, 0), None);
}
