//! 02's job 8, "Costs pushed forward": projections and extension of costs held in 32 bits. The costs are taken apart into a table for each unit and
//! each pair, moved there, and joined again.

use super::{check_sizes, table, Places, Refusal, FORBIDDEN_PAIR};

/// 02: "4,294,967,295 as barred".
pub const BARRED: u32 = 4_294_967_295;

/// What is lent to every move. Units and values count from 1.
pub struct Lent<'a> {
    pub n: u8,
    pub sizes: Places,
    pub floor: &'a mut u32,
    pub costs: &'a mut [u32],
}

/// Own costs by unit and value, and the costs of each pair of units by the value of the lower one and of the higher; all from 0.
struct Tables {
    own: Vec<Vec<u32>>,
    pairs: Vec<((usize, usize), Vec<Vec<u32>>)>,
}

/// How many costs n units of these sizes have.
pub fn count(n: u8, sizes: &Places) -> usize {
    let sizes: Vec<usize> = sizes[..n as usize].iter().map(|d| *d as usize).collect();
    let pairs = (0..sizes.len()).flat_map(|i| (i + 1..sizes.len()).map(move |j| (i, j)));
    sizes.iter().sum::<usize>() + pairs.map(|(i, j)| sizes[i] * sizes[j]).sum::<usize>()
}

impl Tables {
    /// 02: "own costs before pair costs in form two's order".
    fn of(n: u8, sizes: &Places, costs: &[u32]) -> Tables {
        let n = n as usize;
        let mut rest = costs.iter().copied();
        let own = (0..n).map(|i| rest.by_ref().take(sizes[i].into()).collect()).collect();
        let mut pairs = Vec::new();
        for i in 0..n {
            for j in i + 1..n {
                let rows = (0..sizes[i]).map(|_| rest.by_ref().take(sizes[j].into()).collect()).collect();
                pairs.push(((i, j), rows));
            }
        }
        Tables { own, pairs }
    }

    fn join(self) -> Vec<u32> {
        let pairs = self.pairs.into_iter().flat_map(|(_, rows)| rows.into_iter().flatten());
        self.own.into_iter().flatten().chain(pairs).collect()
    }

    /// The costs of a unit's value with each value of another unit.
    fn row(&mut self, unit: usize, value: usize, other: usize) -> Vec<&mut u32> {
        let pair = (unit.min(other), unit.max(other));
        let rows = self
            .pairs
            .iter_mut()
            .find(|(units, _)| *units == pair)
            .map(|(_, rows)| rows)
            .expect("the pair of two units");
        if unit < other {
            rows[value].iter_mut().collect()
        } else {
            rows.iter_mut().map(|row| &mut row[value]).collect()
        }
    }
}

/// The costs of a unit's value with each value of another, all there; units and values count from 1.
pub fn row(n: u8, sizes: &Places, costs: &[u32], unit: u8, value: u8, other: u8) -> Vec<u32> {
    let mut tables = Tables::of(n, sizes, costs);
    tables.row(unit as usize - 1, value as usize - 1, other as usize - 1).into_iter().map(|cost| *cost).collect()
}

/// 02: "a move that would take a cost or the floor above 4,294,967,294, is 19".
fn add(cost: u32, more: u32) -> Result<u32, Refusal> {
    cost.checked_add(more).filter(|sum| *sum != BARRED).ok_or(19)
}

impl Lent<'_> {
    /// 02: "5 and 6 come first"; 10, given by `there`, "before 19"; "An own cost or floor lent as 4,294,967,295 is 19 too".
    fn check(&self, there: impl Fn(&Self) -> bool) -> Result<(), Refusal> {
        check_sizes(self.n, &self.sizes)?;
        if self.costs.len() != count(self.n, &self.sizes) {
            return Err(6);
        }
        if !there(self) {
            return Err(10);
        }
        let values: usize = self.sizes[..self.n as usize].iter().map(|d| *d as usize).sum();
        if *self.floor == BARRED || self.costs[..values].contains(&BARRED) {
            return Err(19);
        }
        Ok(())
    }

    fn has_unit(&self, unit: u8) -> bool {
        (1..=self.n).contains(&unit)
    }

    /// 02: "A unit or value that isn't there, or a unit paired with itself, is 10".
    fn has_row(&self, unit: u8, value: u8, other: u8) -> bool {
        self.has_unit(unit)
            && (1..=self.sizes[unit as usize - 1]).contains(&value)
            && self.has_unit(other)
            && unit != other
    }

    fn tables(&self) -> Tables {
        Tables::of(self.n, &self.sizes, self.costs)
    }

    fn put(&mut self, tables: Tables) {
        self.costs.copy_from_slice(&tables.join());
    }

    /// 02: "Projection takes, for a value, the least permitted cost with one other unit off that row and adds it to the value's own cost; a row fully
    /// barred is passed over".
    pub fn project(&mut self, unit: u8, value: u8, other: u8) -> Result<(), Refusal> {
        self.check(|lent| lent.has_row(unit, value, other))?;
        let (i, u, j) = (unit as usize - 1, value as usize - 1, other as usize - 1);
        let mut tables = self.tables();
        let row = tables.row(i, u, j);
        let Some(least) = row.iter().map(|cost| **cost).filter(|cost| *cost != BARRED).min() else { return Ok(()) };
        for cost in row {
            if *cost != BARRED {
                *cost -= least;
            }
        }
        tables.own[i][u] = add(tables.own[i][u], least)?;
        self.put(tables);
        Ok(())
    }

    /// 02: "Unary projection takes the least own cost off all values of a unit and adds it to a floor".
    pub fn project_unary(&mut self, unit: u8) -> Result<(), Refusal> {
        self.check(|lent| lent.has_unit(unit))?;
        let mut tables = self.tables();
        let own = &mut tables.own[unit as usize - 1];
        let least = *own.iter().min().expect("a unit has a value");
        own.iter_mut().for_each(|cost| *cost -= least);
        *self.floor = add(*self.floor, least)?;
        self.put(tables);
        Ok(())
    }

    /// 02: "Extension moves a stated part of a value's own cost into all its costs with one unit; barred ones stay barred"; "An extension larger than
    /// the own cost .. is 19".
    pub fn extend(&mut self, unit: u8, value: u8, other: u8, part: u32) -> Result<(), Refusal> {
        self.check(|lent| lent.has_row(unit, value, other))?;
        let (i, u, j) = (unit as usize - 1, value as usize - 1, other as usize - 1);
        let mut tables = self.tables();
        tables.own[i][u] = tables.own[i][u].checked_sub(part).ok_or(19)?;
        for cost in tables.row(i, u, j) {
            if *cost != BARRED {
                *cost = add(*cost, part)?;
            }
        }
        self.put(tables);
        Ok(())
    }

    /// Every value of every unit projected with every other unit, then each unit's own costs; up to the first refusal.
    pub fn project_all(&mut self) -> Result<(), Refusal> {
        self.check(|_| true)?;
        for unit in 1..=self.n {
            for value in 1..=self.sizes[unit as usize - 1] {
                for other in (1..=self.n).filter(|other| *other != unit) {
                    self.project(unit, value, other)?;
                }
            }
        }
        (1..=self.n).try_for_each(|unit| self.project_unary(unit))
    }
}

/// The costs of a table to the front of `costs`; gives how many. Refusals 5, 6, 7, 13.
pub fn hold(stream: &[u8], costs: &mut [u32]) -> Result<usize, Refusal> {
    table::check_stream(stream)?;
    let (n, sizes) = table::head(stream);
    let values: usize = sizes[..n as usize].iter().map(|d| *d as usize).sum();
    let number = |cost: &[u8]| u16::from_le_bytes([cost[0], cost[1]]);
    let mut held: Vec<u32> = table::unary_costs(stream).chunks(2).map(|cost| number(cost).into()).collect();
    held.resize(values, 0);
    let pairs = table::pair_costs(stream).chunks(2).map(number);
    held.extend(pairs.map(|cost| if cost == FORBIDDEN_PAIR { BARRED } else { cost.into() }));
    let front = costs.get_mut(..held.len()).ok_or(13)?;
    front.copy_from_slice(&held);
    Ok(held.len())
}

/// The refusal, or 0, and the floor that projecting everything once leaves of a table's costs, which stand at the front of `costs` then.
pub fn lower_bound(stream: &[u8], costs: &mut [u32]) -> (Refusal, u32) {
    let count = match hold(stream, costs) {
        Ok(count) => count,
        Err(refusal) => return (refusal, 0),
    };
    let (n, sizes) = table::head(stream);
    let mut floor = 0;
    let moved = Lent { n, sizes, floor: &mut floor, costs: &mut costs[..count] }.project_all();
    (moved.err().unwrap_or(0), floor)
}
