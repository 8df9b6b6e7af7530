//! Costs held in 32 bits, 02's job 8, and moves of them: right ones, ones that move too much, and damaged ones.

use super::{damage_head, head, length, sizes, some_stream};
use crate::calls::{Held, Input};
use crate::random::Random;
use crate::reference::projections::{self, BARRED};
use crate::reference::table;
use crate::sample;

/// How large costs are: small ones, a table's, or any, with many at the top of the range.
fn cost(random: &mut Random, style: u64) -> u32 {
    match style {
        0 => random.below(4) as u32,
        1 => random.between(0, 60_000) as u32,
        2 => *random.pick(&[0, 1, 2, BARRED / 2, BARRED / 2 + 1, BARRED - 2, BARRED - 1]),
        _ => random.word() as u32 % BARRED,
    }
}

/// Own costs, then pair costs, of which none, some, or all are barred.
fn costs(random: &mut Random, own: usize, count: usize) -> Vec<u32> {
    let (style, pair_style) = (random.below(4), random.below(4));
    let barred = *random.pick(&[0, 0, 8, 2, 1]);
    let mut costs: Vec<u32> = (0..own).map(|_| cost(random, style)).collect();
    costs.extend((own..count).map(|_| {
        if barred != 0 && random.once_in(barred) {
            BARRED
        } else {
            cost(random, pair_style)
        }
    }));
    costs
}

/// At times an own cost or the floor is barred, or there are too few or too many costs.
fn damage(random: &mut Random, held: &mut Held, own: usize) {
    match random.below(24) {
        0 => held.costs[random.below(own as u64) as usize] = BARRED,
        1 => held.floor = BARRED,
        2 => held.costs.truncate(random.below(held.costs.len() as u64) as usize),
        3 => held.costs.extend(vec![0; random.between(1, 3) as usize]),
        _ => {}
    }
}

fn held(random: &mut Random) -> Held {
    let shape = sizes(random);
    let (n, sizes) = head(random, &sample::stream(&shape, &[]));
    let own = shape.iter().map(|d| *d as usize).sum();
    let costs = costs(random, own, projections::count(n, &sizes));
    let floor = *random.pick(&[0, 0, 1, 60_000, BARRED / 2, BARRED - 2, BARRED - 1]);
    let mut held = Held { n, sizes, floor, costs };
    damage(random, &mut held, own);
    damage_head(random, &mut held.n, &mut held.sizes);
    held
}

/// A unit's number, mostly one that is there.
fn unit(random: &mut Random, n: u8) -> u8 {
    let any = random.byte();
    match random.below(20) {
        0 => *random.pick(&[0, n.wrapping_add(1), 17, 255, any]),
        _ => random.between(1, u64::from(n.max(1))) as u8,
    }
}

/// A unit, one of its values and another unit, mostly all there.
fn row(random: &mut Random, held: &Held) -> (u8, u8, u8) {
    let one = unit(random, held.n);
    let size = held.sizes.get((one as usize).wrapping_sub(1)).copied().unwrap_or(1);
    let value = match random.below(20) {
        0 => *random.pick(&[0, size.wrapping_add(1), 17, 255]),
        _ => random.between(1, u64::from(size.max(1))) as u8,
    };
    let mut other = unit(random, held.n);
    if other == one && !random.once_in(6) {
        other = one % held.n.max(1) + 1;
    }
    (one, value, other)
}

pub fn project(random: &mut Random) -> Input {
    let held = held(random);
    let (unit, value, other) = row(random, &held);
    Input::Project { held, unit, value, other }
}

pub fn project_unary(random: &mut Random) -> Input {
    let held = held(random);
    let unit = unit(random, held.n);
    Input::ProjectUnary { held, unit }
}

/// A part of the own cost, at times all of it, one more, or any number.
pub fn extend(random: &mut Random) -> Input {
    let held = held(random);
    let (unit, value, other) = row(random, &held);
    let before: usize = held.sizes.iter().take((unit as usize).saturating_sub(1)).map(|d| *d as usize).sum();
    let own = held.costs.get(before + (value as usize).saturating_sub(1)).copied().unwrap_or(0);
    let part = match random.below(8) {
        0 => 0,
        1 => own.wrapping_add(1),
        2 => random.word() as u32,
        3 => own,
        _ => random.below(u64::from(own) + 1) as u32,
    };
    Input::Extend { held, unit, value, other, part }
}

pub fn project_all(random: &mut Random) -> Input {
    Input::ProjectAll { held: held(random) }
}

/// Room for about as many costs as the table has, filled with numbers that tell places apart.
fn room(random: &mut Random, stream: &[u8]) -> Vec<u32> {
    let count = match table::check_stream(stream) {
        Ok(()) => {
            let (n, sizes) = table::head(stream);
            projections::count(n, &sizes)
        }
        Err(_) => 40,
    };
    let first = random.word() as u32;
    (0..length(random, count)).map(|k| first.wrapping_add(k as u32)).collect()
}

pub fn hold(random: &mut Random) -> Input {
    let stream = some_stream(random, 2);
    Input::Hold { costs: room(random, &stream), stream }
}

pub fn lower_bound(random: &mut Random) -> Input {
    let stream = some_stream(random, 2);
    Input::LowerBound { costs: room(random, &stream), stream }
}
