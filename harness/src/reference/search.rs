//! The bench's two searches: exhaustive, and 02's branch and bound.

use super::costs::Cost;
use super::{table, Places, Refusal, NONE};

pub const MAX_ASSIGNMENTS: u128 = 1_048_576;

/// The least total with its first assignment in ascending order, places past n zero. Refusals 5, 6, 7, 16.
/// 02's job 3: "If no lotting remains, stop and bench give *none* with best all zero".
pub fn exhaustive(stream: &[u8]) -> Result<(u32, Places), Refusal> {
    table::check_stream(stream)?;
    if assignments(stream) > MAX_ASSIGNMENTS {
        return Err(16);
    }
    let mut search = Search::new(stream);
    search.extend_at(0, 0);
    Ok(search.found())
}

/// How many there are, forbidden ones counted.
pub fn assignments(stream: &[u8]) -> u128 {
    let (n, sizes) = table::head(stream);
    sizes[..n as usize].iter().map(|d| u128::from(*d)).product()
}

/// All of them in ascending order, forbidden ones too; places past n zero.
pub fn ascending(stream: &[u8]) -> impl Iterator<Item = Places> {
    let (n, sizes) = table::head(stream);
    let n = n as usize;
    let next = move |values: &Places| {
        let mut values = *values;
        let unit = (0..n).rev().find(|unit| values[*unit] < sizes[*unit])?;
        values[unit] += 1;
        values[unit + 1..n].fill(1);
        Some(values)
    };
    let first = std::array::from_fn(|k| u8::from(k < n));
    std::iter::successors(Some(first), next)
}

/// 02's job 6: "On every accepted table it gives the least total with its first lotting in ascending order .. It has no limit on lottings, so 16
/// isn't given here". Refusals 5, 6, 7.
pub fn branch_and_bound(stream: &[u8]) -> Result<(u32, Places), Refusal> {
    table::check_stream(stream)?;
    let mut search = Search::new(stream);
    search.write_at(0, 0);
    Ok(search.found())
}

/// The next so many costs.
fn take(costs: &mut impl Iterator<Item = u16>, count: usize) -> Vec<u16> {
    costs.take(count).collect()
}

fn numbers(bytes: &[u8]) -> impl Iterator<Item = u16> + '_ {
    bytes.chunks(2).map(|cost| u16::from_le_bytes([cost[0], cost[1]]))
}

/// The unary costs of each unit, units from 0; zeros where the stream has none.
fn unary_tables(stream: &[u8]) -> Vec<Vec<u16>> {
    let (n, sizes) = table::head(stream);
    let mut costs = numbers(table::unary_costs(stream)).chain(std::iter::repeat(0));
    (0..n as usize).map(|i| take(&mut costs, sizes[i].into())).collect()
}

/// The costs of each pair (i, j), i < j, units from 0.
fn pair_tables(stream: &[u8]) -> Vec<Vec<Vec<u16>>> {
    let (n, sizes) = table::head(stream);
    let n = n as usize;
    let mut costs = numbers(table::pair_costs(stream));
    let mut tables = vec![vec![Vec::new(); n]; n];
    for i in 0..n {
        for j in i + 1..n {
            tables[i][j] = take(&mut costs, sizes[i] as usize * sizes[j] as usize);
        }
    }
    tables
}

struct Search {
    n: usize,
    sizes: Places,
    unary: Vec<Vec<u16>>,
    pairs: Vec<Vec<Vec<u16>>>,
    values: Places,
    best: Option<(u32, Places)>,
}

impl Search {
    fn new(stream: &[u8]) -> Search {
        let (n, sizes) = table::head(stream);
        let (unary, pairs) = (unary_tables(stream), pair_tables(stream));
        Search { n: n as usize, sizes, unary, pairs, values: [0; 16], best: None }
    }

    fn found(&self) -> (u32, Places) {
        self.best.unwrap_or((NONE, [0; 16]))
    }

    /// 01: "The bench search goes unit by unit, each choice handing on to the next unit's".
    fn extend_at(&mut self, unit: usize, cost: u32) {
        if unit == self.n {
            if self.best.is_none_or(|(least, _)| cost < least) {
                self.best = Some((cost, self.values));
            }
            return;
        }
        for value in 1..=self.sizes[unit] {
            self.values[unit] = value;
            // 02's job 3: "A lotting with a barred pair isn't a lotting"
            if let Cost::Of(added) = self.added(unit) {
                self.extend_at(unit + 1, cost + added);
            }
        }
    }

    /// 02's job 6: "one paper, values ascending, a value dropped when the cost so far reaches the best". A full paper is a new best.
    fn write_at(&mut self, unit: usize, paid: u32) {
        if unit == self.n {
            self.best = Some((paid, self.values));
            return;
        }
        for value in 1..=self.sizes[unit] {
            self.values[unit] = value;
            let Cost::Of(added) = self.added(unit) else { continue };
            if self.best.is_some_and(|(best, _)| paid + added >= best) {
                continue;
            }
            self.write_at(unit + 1, paid + added);
        }
    }

    /// What a unit's value costs alone and with those of the units before it.
    fn added(&self, unit: usize) -> Cost {
        let pairs: Cost = (0..unit).map(|before| self.pair(before, unit)).sum();
        Cost::Of(self.unary[unit][self.values[unit] as usize - 1].into()) + pairs
    }

    fn pair(&self, i: usize, j: usize) -> Cost {
        let place = (self.values[i] as usize - 1) * self.sizes[j] as usize + self.values[j] as usize - 1;
        Cost::of_pair(self.pairs[i][j][place])
    }
}
