//! Unary and pair costs, as a whole table and as one unit sees them; units and values count from 1. A unary cost is what 02's job 7 calls a
//! value's own cost.

use super::order::ValueOrder;
use super::table::{self, number_at};
use super::{Places, Refusal, FORBIDDEN_PAIR, NONE};
use std::cell::Cell;
use std::iter::Sum;
use std::ops::Add;

/// 02's job 3: "Looking up a cost now gives a number or "barred"". Any number is less than forbidden.
#[derive(Clone, Copy, PartialEq, Eq, PartialOrd, Ord, Debug)]
pub enum Cost {
    Of(u32),
    Forbidden,
}

impl Cost {
    /// Of a pair, as tables hold it.
    pub fn of_pair(stored: u16) -> Cost {
        if stored == FORBIDDEN_PAIR {
            Cost::Forbidden
        } else {
            Cost::Of(stored.into())
        }
    }

    /// The least of those that are not forbidden; none left: forbidden.
    pub fn least(costs: impl Iterator<Item = Cost>) -> Cost {
        costs.min().unwrap_or(Cost::Forbidden)
    }

    /// The number, *none* for forbidden.
    pub fn or_none(self) -> u32 {
        match self {
            Cost::Of(number) => number,
            Cost::Forbidden => NONE,
        }
    }
}

impl Add for Cost {
    type Output = Cost;

    /// Forbidden as soon as a part is.
    fn add(self, other: Cost) -> Cost {
        match (self, other) {
            (Cost::Of(left), Cost::Of(right)) => Cost::Of(left + right),
            _ => Cost::Forbidden,
        }
    }
}

impl Sum for Cost {
    fn sum<I: Iterator<Item = Cost>>(costs: I) -> Cost {
        costs.fold(Cost::Of(0), Cost::add)
    }
}

/// How many values the units of a table have, a unary cost each.
pub fn values_in_table(n: usize, sizes: &Places) -> usize {
    sizes[..n].iter().map(|d| *d as usize).sum()
}

/// How many pair costs the whole table has.
pub fn pairs_in_table(n: usize, sizes: &Places) -> usize {
    let d = |k: usize| sizes[k - 1] as usize;
    (1..=n).map(|i| (i + 1..=n).map(|j| d(i) * d(j)).sum::<usize>()).sum()
}

/// How many pair costs touch a unit.
pub fn pairs_of_unit(own: usize, n: usize, sizes: &Places) -> usize {
    let d = |k: usize| sizes[k - 1] as usize;
    (1..=n).filter(|j| *j != own).map(|j| d(own) * d(j)).sum()
}

/// How many costs a unit is lent: its unary costs and the pair costs that touch it.
pub fn lent_to_unit(own: usize, n: usize, sizes: &Places) -> usize {
    sizes[own - 1] as usize + pairs_of_unit(own, n, sizes)
}

/// The unary costs of a unit, out of the stream of a table. 02's job 7: "Old files read as own costs all zero".
fn unary_of_unit(stream: &[u8], own: usize) -> Vec<u8> {
    let (_, sizes) = table::head(stream);
    let size = 2 * sizes[own - 1] as usize;
    match table::form(stream) {
        table::Form::One => vec![0; size],
        table::Form::Two => {
            let at = 2 * values_in_table(own - 1, &sizes);
            table::unary_costs(stream)[at..at + size].to_vec()
        }
    }
}

/// The costs that a unit is lent, out of the stream of a table. 02's job 7: "A unit's own costs are lent before its pair costs";
/// 01: "by the other unit ascending, each pair in the stream's order".
pub fn of_unit(stream: &[u8], own: usize) -> Vec<u8> {
    let (n, sizes) = table::head(stream);
    let d = |k: usize| sizes[k - 1] as usize;
    let mut costs = unary_of_unit(stream, own);
    let mut pairs = table::pair_costs(stream);
    for i in 1..=n as usize {
        for j in i + 1..=n as usize {
            let (pair, rest) = pairs.split_at(2 * d(i) * d(j));
            if i == own || j == own {
                costs.extend_from_slice(pair);
            }
            pairs = rest;
        }
    }
    costs
}

/// n in any bytes taken as a stream, 0 where it is missing.
pub fn units_in(stream: &[u8]) -> u8 {
    table::from_count(stream).first().copied().unwrap_or(0)
}

/// The sizes in any bytes taken as a stream: of the first 16 units of n, 0 where there is none.
pub fn sizes_in(stream: &[u8]) -> Places {
    let n = units_in(stream) as usize;
    std::array::from_fn(|k| if k < n { table::from_count(stream).get(1 + k).copied().unwrap_or(0) } else { 0 })
}

/// The costs that a unit is lent, out of any bytes taken as a stream: how many bytes were written. Refusals in making's order, 5, 10, 6, 7, 13.
pub fn gather(stream: &[u8], own: u8, out: &mut [u8]) -> Result<usize, Refusal> {
    let checked = table::check_stream(stream);
    if checked == Err(5) {
        return Err(5);
    }
    if !(1..=units_in(stream)).contains(&own) {
        return Err(10);
    }
    checked?;
    let costs = of_unit(stream, own as usize);
    if out.len() < costs.len() {
        return Err(13);
    }
    out[..costs.len()].copy_from_slice(&costs);
    Ok(costs.len())
}

/// The cost of a full assignment: the sum over all units and all pairs, forbidden where a pair is.
pub fn total(stream: &[u8], assignment: &[u8]) -> Cost {
    let (n, sizes) = table::head(stream);
    let d = |k: usize| sizes[k - 1] as usize;
    let value = |k: usize| assignment[k - 1] as usize - 1;
    let mut sum = Cost::Of(0);
    let mut at = 0;
    for i in 1..=n as usize {
        sum = sum + Cost::Of(number_at(&unary_of_unit(stream, i), 2 * value(i)).into());
        for j in i + 1..=n as usize {
            let place = at + 2 * (value(i) * d(j) + value(j));
            sum = sum + Cost::of_pair(number_at(table::pair_costs(stream), place));
            at += 2 * d(i) * d(j);
        }
    }
    sum
}

/// The table as one unit sees it.
pub struct View<'a> {
    pub own: usize,
    pub n: usize,
    pub sizes: Places,
    /// Unary costs first.
    costs: &'a [u8],
    /// Where the costs with each other unit begin.
    starts: [usize; 16],
    /// h of each own value.
    h: Vec<Cost>,
    /// The own values in the order in which they are tried.
    pub tried: Vec<usize>,
    /// How often a cost with each other unit was looked up, those for h left out. For the experiment only.
    pub checks: [Cell<u64>; 16],
}

impl<'a> View<'a> {
    /// All of it has been checked: n, sizes, own number and the number of costs.
    pub fn new(own: usize, n: usize, sizes: &Places, costs: &'a [u8]) -> View<'a> {
        View::new_by(ValueOrder::default(), own, n, sizes, costs)
    }

    pub fn new_by(order: ValueOrder, own: usize, n: usize, sizes: &Places, costs: &'a [u8]) -> View<'a> {
        let (h, tried, checks) = (Vec::new(), Vec::new(), Default::default());
        let mut view = View { own, n, sizes: *sizes, costs, starts: [0; 16], h, tried, checks };
        let mut at = 2 * view.size(own);
        for j in (1..=n).filter(|j| *j != own) {
            view.starts[j - 1] = at;
            at += 2 * view.size(own) * view.size(j);
        }
        view.h = (1..=view.size(own)).map(|v| (own + 1..=n).map(|j| view.least_with(j, v)).sum()).collect();
        view.tried = order.tried(&view.h);
        view
    }

    pub fn size(&self, unit: usize) -> usize {
        self.sizes[unit - 1] as usize
    }

    /// What own value v costs by itself.
    pub fn unary(&self, v: usize) -> u32 {
        number_at(self.costs, 2 * (v - 1)).into()
    }

    /// The cost of own value v with unit j's value u.
    pub fn pair(&self, j: usize, u: usize, v: usize) -> Cost {
        let place = if j < self.own { (u - 1) * self.size(self.own) + v - 1 } else { (v - 1) * self.size(j) + u - 1 };
        let at = self.starts[j - 1] + 2 * place;
        Cost::of_pair(number_at(self.costs, at))
    }

    fn least_with(&self, j: usize, v: usize) -> Cost {
        Cost::least((1..=self.size(j)).map(|u| self.pair(j, u, v)))
    }

    /// 01: "h(v) is the sum, over later units, of the least cost of v with any value of that unit".
    /// 02's job 3: "h takes the least over values not barred"; forbidden where a later unit has none. 02's job 7: the unary cost "isn't part
    /// of h".
    pub fn h(&self, v: usize) -> Cost {
        self.h[v - 1]
    }

    /// 01: "the own value's place in the order tried", from 1. It is one of the unit's.
    pub fn place(&self, v: usize) -> usize {
        1 + self.tried.iter().position(|tried| *tried == v).expect("a value of the unit")
    }

    /// 01: "the values after the current one", all of them after none, 0. 02's job 9: ""After the current one" means in that order".
    pub fn after(&self, current: usize) -> &[usize] {
        let tried_before = if current == 0 { 0 } else { self.place(current) };
        &self.tried[tried_before..]
    }

    /// What own value v adds to the values of units 1 to `count`: its unary cost, and its costs with them.
    pub fn added(&self, values: &Places, count: usize, v: usize) -> Cost {
        let mut sum = Cost::Of(self.unary(v));
        for j in 1..=count {
            self.checks[j - 1].set(self.checks[j - 1].get() + 1);
            sum = sum + self.pair(j, values[j - 1] as usize, v);
        }
        sum
    }

    /// 01: "the least, over own values v, of costs to the filled units plus h(v)"; 02's job 7: the unary cost counts "in estimates".
    pub fn estimate(&self, values: &Places, count: usize) -> Cost {
        Cost::least((1..=self.size(self.own)).map(|v| self.added(values, count, v) + self.h(v)))
    }
}
