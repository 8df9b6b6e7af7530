//! Recorded runs (02's job 14): the cells that a run over the pool of slots delivers until box 1 has stopped, by the reference implementation.

use crate::random::Random;
use crate::reference::order::ValueOrder;
use crate::reference::{slots, table, Refusal};

/// Which cell in use is delivered next.
#[derive(Clone, Copy, PartialEq, Eq, Debug)]
pub enum Schedule {
    Lowest,
    Highest,
    /// Any, fixed by a seed.
    Random(u64),
}

impl Schedule {
    /// lowest, highest or random:SEED.
    pub fn named(name: &str) -> Option<Schedule> {
        match name {
            "lowest" => Some(Schedule::Lowest),
            "highest" => Some(Schedule::Highest),
            _ => name.strip_prefix("random:")?.parse().ok().map(Schedule::Random),
        }
    }

    /// The cells, of those in use, that are delivered next in turn.
    fn picks(self) -> impl FnMut(&[usize]) -> usize {
        let mut random = Random::new(if let Schedule::Random(seed) = self { seed } else { 0 });
        move |waiting| match self {
            Schedule::Lowest => waiting[0],
            Schedule::Highest => waiting[waiting.len() - 1],
            Schedule::Random(_) => *random.pick(waiting),
        }
    }
}

/// A list of cells, "one byte pair each, low byte first".
pub fn list(cells: &[u16]) -> Vec<u8> {
    cells.iter().flat_map(|cell| cell.to_le_bytes()).collect()
}

/// The list of a whole run, or the refusal of its making.
pub fn run(order: ValueOrder, schedule: Schedule, stream: &[u8]) -> Result<Vec<u8>, Refusal> {
    let mut pool = vec![0; slots::POOL];
    let mut shed = slots::make_by(order, stream, &mut pool)?;
    let n = table::head(stream).0;
    let (mut next, mut cells) = (schedule.picks(), Vec::new());
    while !shed.has_stopped() {
        let cell = next(&slots::waiting(n, &pool));
        slots::deliver_by(order, &mut shed, stream, &mut pool, cell as u64)?;
        cells.push(cell as u16);
    }
    Ok(list(&cells))
}
