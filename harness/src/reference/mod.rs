//! Documents 01 and 02 (jobs 1, 2, 3, 4, 6, 7, 8, 9, 12, 13 and 14) in plain Rust, one module for each part of them. Refusals are their numbers, the first in
//! their order. A call that tries values has a twin whose name ends in `by`, and whose first argument is the order in which it tries them.

pub mod checksum;
pub mod convert;
pub mod costs;
pub mod message;
pub mod network;
pub mod order;
pub mod projections;
pub mod readings;
pub mod retest;
pub mod search;
pub mod slots;
pub mod start;
pub mod table;
pub mod tiny;
pub mod unit;

/// 1 to 16, as in 01's table of refusals, and 02's 17, 18, 19, 20, 21 and 22.
pub type Refusal = u8;

/// A byte per unit; those past n are not looked at where sizes are lent.
pub type Places = [u8; 16];

/// 01: "*None* as a bound".
pub const NONE: u32 = 4_294_967_295;

/// 02's job 7: "The limit on bounds and totals (not estimates) becomes 8,160,000".
pub const MAX_TOTAL: u32 = 8_160_000;

/// 01: "an estimate at most 7,200,000".
pub const MAX_ESTIMATE: u32 = 7_200_000;

/// The most that a pair may cost, and a value by itself.
pub const MAX_COST: u32 = 60_000;

/// 02's job 3: "A pair cost of 65,535 means barred".
pub const FORBIDDEN_PAIR: u16 = 65_535;

/// 01: "A paper or copy with k filled units costs at most 30,000 × k × (k-1)"; 02's job 7: "may cost 60,000 × k more".
pub fn cost_limit(filled: usize) -> u32 {
    let k = filled as u32;
    30_000 * k * k.saturating_sub(1) + 60_000 * k
}

/// 01: "Filled stamp and value bytes are 1 to d(k), others 0".
pub fn filled(places: &Places, count: usize, sizes: &Places) -> bool {
    (0..16).all(|k| if k < count { places[k] >= 1 && places[k] <= sizes[k] } else { places[k] == 0 })
}

/// 01: "A bound is at most 7,200,000 with best filled for all n and zero after"; 02's job 7 has another limit.
pub fn solution_in_range(bound: u32, best: &Places, n: usize, sizes: &Places) -> bool {
    bound <= MAX_TOTAL && filled(best, n, sizes)
}

/// 01: "or, on papers and stops only, *none* with best all zero". A unit's own bound may be *none* too.
pub fn bound_in_range(bound: u32, best: &Places, n: usize, sizes: &Places) -> bool {
    solution_in_range(bound, best, n, sizes) || (bound == NONE && *best == [0; 16])
}

/// Refusal 5 for n and the sizes.
pub fn check_sizes(n: u8, sizes: &Places) -> Result<(), Refusal> {
    if !(1..=16).contains(&n) {
        return Err(5);
    }
    if sizes[..n as usize].iter().any(|d| !(1..=16).contains(d)) {
        return Err(5);
    }
    Ok(())
}
