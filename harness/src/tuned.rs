//! Settle, deliver, echo and step for the clock: the yardstick of scripts/speed, held equal to the reference by tests/tuned.rs. Settle and deliver
//! over the pool of slots are in `slots`.
//!
//! What it does that the reference doesn't: a run checks its table once, knows each unit's h and the order of its values, and trusts the packets that it wrote itself;
//! nothing allocates once the run has begun; costs are read where they stand, a row of own values at a time; packets are read and written in
//! place, those of one step from one template with one remainder each; a unit changes where it is.
//! A delivery, an echo or a step alone is lent everything, so it checks everything, as the calls for C do.

pub mod slots;

use crate::calls::{self, order_of, Event, Input, Outcome};
use crate::reference::message::{CPA, ESTIMATE, REQUEST, SIZE, SOLUTION, STOP};
use crate::reference::network::{Network, CELLS, POOL};
use crate::reference::order::ValueOrder;
use crate::reference::table::FORM_TWO;
use crate::reference::unit::{self, Unit, OUT};
use crate::reference::{check_sizes, cost_limit, Places, Refusal};
use crate::reference::{FORBIDDEN_PAIR, MAX_COST, MAX_ESTIMATE, MAX_TOTAL, NONE};
use std::cell::OnceCell;
use std::cmp::Ordering;

// Costs

/// A forbidden pair in sums: above any cost, and one for each other unit fits 32 bits. A sum from here on is forbidden.
const FORBIDDEN: u32 = 1 << 24;

/// A stored cost in sums.
fn wide(cost: u16) -> u32 {
    if cost == FORBIDDEN_PAIR {
        FORBIDDEN
    } else {
        u32::from(cost)
    }
}

/// Costs as they are lent, or as numbers.
trait Costs: Copy {
    fn at(&self, place: usize) -> u16;
    /// Adds the costs from a place on to each of the sums.
    fn add_row(&self, place: usize, sums: &mut [u32]);
}

impl Costs for &[u8] {
    fn at(&self, place: usize) -> u16 {
        u16::from_le_bytes([self[2 * place], self[2 * place + 1]])
    }

    fn add_row(&self, place: usize, sums: &mut [u32]) {
        let row = &self[2 * place..2 * (place + sums.len())];
        for (sum, cost) in sums.iter_mut().zip(row.chunks_exact(2)) {
            *sum += wide(u16::from_le_bytes([cost[0], cost[1]]));
        }
    }
}

impl Costs for &[u16] {
    fn at(&self, place: usize) -> u16 {
        self[place]
    }

    fn add_row(&self, place: usize, sums: &mut [u32]) {
        let row = &self[place..place + sums.len()];
        for (sum, cost) in sums.iter_mut().zip(row) {
            *sum += wide(*cost);
        }
    }
}

/// h of each own value, and the values from the lowest h on, the lower number first on a tie.
struct Known {
    h: [u32; 16],
    cheapest: [u8; 16],
}

const ASCENDING: [u8; 16] = [1, 2, 3, 4, 5, 6, 7, 8, 9, 10, 11, 12, 13, 14, 15, 16];

/// Where a unit sits: its place (from 0), and where its unary costs and its costs with each other unit begin; and how it tries its values.
struct Seat<C> {
    order: ValueOrder,
    own: usize,
    n: usize,
    sizes: Places,
    costs: C,
    /// None where all are zero, as in form one.
    unary: Option<u32>,
    starts: [u32; 16],
    /// A run knows it beforehand; a call alone works it out if it tries the cheapest value first, when it first needs it.
    known: OnceCell<Known>,
}

impl<C: Costs> Seat<C> {
    fn size(&self, unit: usize) -> usize {
        self.sizes[unit] as usize
    }

    /// Own value v with the value w of an earlier unit: rows of own values.
    fn earlier(&self, j: usize, w: u8) -> usize {
        self.starts[j] as usize + (w as usize - 1) * self.size(self.own)
    }

    /// What own value v costs by itself and with the values of the units before.
    fn paid(&self, values: &[u8], v: u8) -> u32 {
        let v = v as usize - 1;
        let unary = self.unary.map_or(0, |start| u32::from(self.costs.at(start as usize + v)));
        let pair = |j: usize| wide(self.costs.at(self.earlier(j, values[j]) + v));
        unary + (0..self.own).map(pair).sum::<u32>()
    }

    /// The same with the first `count` units, for every own value.
    fn sums(&self, values: &[u8], count: usize) -> [u32; 16] {
        let mut sums = [0; 16];
        let size = self.size(self.own);
        if let Some(start) = self.unary {
            self.costs.add_row(start as usize, &mut sums[..size]);
        }
        for j in 0..count {
            self.costs.add_row(self.earlier(j, values[j]), &mut sums[..size]);
        }
        sums
    }

    fn h(&self, v: usize) -> u32 {
        match self.known.get() {
            Some(known) => known.h[v - 1],
            None => self.h_now(v),
        }
    }

    /// The values in the order in which they are tried.
    fn tried(&self) -> &[u8] {
        let all = match self.order {
            ValueOrder::Ascending => &ASCENDING,
            ValueOrder::CheapestFirst => &self.known().cheapest,
        };
        &all[..self.size(self.own)]
    }

    /// A value's place in that order, from 1; 0 for none.
    fn place(&self, v: u8) -> usize {
        match self.order {
            ValueOrder::CheapestFirst if v > 0 => 1 + self.tried().iter().take_while(|tried| **tried != v).count(),
            _ => v as usize,
        }
    }

    fn known(&self) -> &Known {
        self.known.get_or_init(|| {
            let size = self.size(self.own);
            let (mut h, mut keys, mut cheapest) = ([0; 16], [0; 16], [0; 16]);
            for v in 0..size {
                h[v] = self.h_now(v + 1);
                // without an h all are alike
                keys[v] = h[v].min(FORBIDDEN) << 4 | v as u32;
            }
            keys[..size].sort_unstable();
            for (value, key) in cheapest.iter_mut().zip(&keys[..size]) {
                *value = (key & 15) as u8 + 1;
            }
            Known { h, cheapest }
        })
    }

    /// The forbidden cost is the top of 16 bits: it is the least of a row only where all are forbidden.
    fn h_now(&self, v: usize) -> u32 {
        let least = |j: usize| {
            let row = self.starts[j] as usize + (v - 1) * self.size(j);
            wide((row..row + self.size(j)).map(|place| self.costs.at(place)).min().unwrap_or(FORBIDDEN_PAIR))
        };
        (self.own + 1..self.n).map(least).sum()
    }

    fn estimate(&self, values: &[u8], count: usize) -> u32 {
        let sums = self.sums(values, count);
        let least = (1..=self.size(self.own)).map(|v| sums[v - 1] + self.h(v)).min().unwrap_or(FORBIDDEN);
        if least < FORBIDDEN {
            least
        } else {
            NONE
        }
    }
}

/// A stream that was checked: n, the sizes, its cost bytes, and where in them each unit's unary costs and the costs of each pair begin.
struct Layout<'a> {
    n: usize,
    sizes: Places,
    costs: &'a [u8],
    unary: Option<[u32; 16]>,
    starts: [[u32; 16]; 16],
}

impl Layout<'_> {
    fn seat<C>(&self, order: ValueOrder, own: usize, costs: C) -> Seat<C> {
        let (unary, known) = (self.unary.map(|starts| starts[own]), OnceCell::new());
        Seat { order, own, n: self.n, sizes: self.sizes, costs, unary, starts: self.starts[own], known }
    }
}

/// Where the costs of each pair begin that come after others, and where they end.
fn starts(n: usize, sizes: &Places, first: u32) -> ([[u32; 16]; 16], usize) {
    let mut starts = [[0; 16]; 16];
    let mut at = first;
    for i in 0..n {
        for j in i + 1..n {
            starts[i][j] = at;
            starts[j][i] = at;
            at += u32::from(sizes[i]) * u32::from(sizes[j]);
        }
    }
    (starts, at as usize)
}

/// Where the unary costs of each unit begin, and where they end.
fn unary_starts(n: usize, sizes: &Places) -> ([u32; 16], u32) {
    let mut starts = [0; 16];
    let mut at = 0;
    for i in 0..n {
        starts[i] = at;
        at += u32::from(sizes[i]);
    }
    (starts, at)
}

/// A unit's seat over the costs that it alone is lent, and how many they are.
fn lent_seat<'a>(order: ValueOrder, own: usize, n: usize, sizes: &Places, costs: &'a [u8]) -> (Seat<&'a [u8]>, usize) {
    let known = OnceCell::new();
    let mut seat = Seat { order, own, n, sizes: *sizes, costs, unary: Some(0), starts: [0; 16], known };
    let mut at = u32::from(sizes[own]);
    for j in (0..n).filter(|j| *j != own) {
        seat.starts[j] = at;
        at += u32::from(sizes[own]) * u32::from(sizes[j]);
    }
    (seat, at as usize)
}

// Checks

/// No unary cost is above 60,000.
fn unary_good(costs: &[u8]) -> bool {
    costs.chunks_exact(2).all(|cost| u32::from(u16::from_le_bytes([cost[0], cost[1]])) <= MAX_COST)
}

/// No pair cost is above 60,000 but the forbidden one, which is 0 when one is added.
fn pairs_good(costs: &[u8]) -> bool {
    let one_more = |cost: &[u8]| u16::from_le_bytes([cost[0], cost[1]]).wrapping_add(1);
    let most = costs.chunks_exact(2).fold(0, |most: u16, cost| most.max(one_more(cost)));
    u32::from(most) <= MAX_COST + 1
}

/// Refusals 5, 6, 7 of a stream.
fn open(stream: &[u8]) -> Result<Layout<'_>, Refusal> {
    let form_two = stream.first() == Some(&FORM_TWO);
    let counted = &stream[usize::from(form_two)..];
    let Some(n) = counted.first().map(|n| *n as usize) else { return Err(6) };
    let present = &counted[1..counted.len().min(1 + n)];
    if !(1..=16).contains(&n) || present.iter().any(|d| !(1..=16).contains(d)) {
        return Err(5);
    }
    if present.len() < n {
        return Err(6);
    }
    let mut sizes = [0; 16];
    sizes[..n].copy_from_slice(present);
    let (unary, first) = if form_two {
        let (starts, first) = unary_starts(n, &sizes);
        (Some(starts), first)
    } else {
        (None, 0)
    };
    let (starts, count) = starts(n, &sizes, first);
    let costs = &counted[1 + n..];
    if costs.len() != 2 * count {
        return Err(6);
    }
    if !unary_good(&costs[..2 * first as usize]) || !pairs_good(&costs[2 * first as usize..]) {
        return Err(7);
    }
    Ok(Layout { n, sizes, costs, unary, starts })
}

/// The first `count` places are 1 to their size, the others 0.
fn filled(places: &[u8], count: usize, sizes: &Places) -> bool {
    (0..16).fold(true, |good, k| {
        let place = places[k];
        good & if k < count { place.wrapping_sub(1) < sizes[k] } else { place == 0 }
    })
}

fn zero(places: &[u8]) -> bool {
    u128::from_le_bytes(places[..16].try_into().unwrap()) == 0
}

/// A bound with its best, or *none* with none.
fn bounded(bound: u32, best: &[u8], n: usize, sizes: &Places) -> bool {
    if bound == NONE {
        zero(best)
    } else {
        bound <= MAX_TOTAL && filled(best, n, sizes)
    }
}

fn in_range<C: Costs>(seat: &Seat<C>, unit: &Unit) -> bool {
    let flat = unit.threshold.iter().fold(true, |good, byte| good & (*byte <= 17))
        & unit.estimates.iter().fold(true, |good, estimate| good & (*estimate <= MAX_ESTIMATE));
    if !flat || unit.stopped > 1 || !bounded(unit.bound, &unit.best, seat.n, &seat.sizes) {
        return false;
    }
    let own = seat.own;
    let value = unit.values[own];
    if value == 0 {
        return zero(&unit.stamp) && zero(&unit.values) && unit.cost == 0;
    }
    let out = filled(&unit.stamp, own + 1, &seat.sizes)
        && filled(&unit.values, own + 1, &seat.sizes)
        && unit.cost <= cost_limit(own + 1)
        && unit.counter == unit.stamp[own]
        // no place is below 1
        && (unit.counter <= 1 || unit.counter as usize <= seat.place(value))
        && unit.threshold[..=own] >= unit.stamp[..=own];
    // a forbidden own value costs more than any CPA
    let before = if out { unit.cost.checked_sub(seat.paid(&unit.values, value)) } else { None };
    before.is_some_and(|cost| cost <= cost_limit(own))
}

/// 01: the sum of (k+1) × byte k, before its remainder is taken.
fn weigh(packet: &[u8; SIZE]) -> u32 {
    packet[..62].iter().zip(1..).fold(0, |sum, (byte, weight)| sum + u32::from(*byte) * weight)
}

fn number(packet: &[u8; SIZE], at: usize) -> u32 {
    u32::from_le_bytes([packet[at], packet[at + 1], packet[at + 2], packet[at + 3]])
}

/// Refusals 8, 10, 9 of a packet read by unit `own` (from 1).
fn check_packet(n: usize, sizes: &Places, own: u8, bytes: &[u8]) -> Result<(), Refusal> {
    let Ok(p) = <&[u8; SIZE]>::try_from(bytes) else { return Err(8) };
    if u32::from(u16::from_le_bytes([p[62], p[63]])) != weigh(p) % 65_521 {
        return Err(8);
    }
    let (sender, receiver) = (p[1], p[2]);
    if sender.wrapping_sub(1) >= n as u8 || receiver != own {
        return Err(10);
    }
    let (stamp, values, best) = (&p[4..20], &p[20..36], &p[44..60]);
    let (cost, bound) = (number(p, 36), number(p, 40));
    let prefix =
        |k: u8| filled(stamp, k as usize, sizes) && filled(values, k as usize, sizes) && cost <= cost_limit(k as usize);
    let plain = || zero(stamp) && zero(values) && cost == 0;
    let unsolved = || bound == 0 && zero(best);
    let good = p[3] == 0
        && p[60] == 0
        && p[61] == 0
        && match p[0] {
            CPA => {
                let ends = sender + 1 == receiver || receiver + 1 == sender;
                ends && prefix(receiver.min(sender)) && bounded(bound, best, n, sizes)
            }
            REQUEST => sender < receiver && prefix(sender) && unsolved(),
            ESTIMATE => {
                let stamped = filled(stamp, receiver as usize, sizes) && zero(values);
                sender > receiver && stamped && (cost <= MAX_ESTIMATE || cost == NONE) && unsolved()
            }
            SOLUTION => {
                let ends = sender == n as u8 && receiver != n as u8;
                ends && plain() && bound != NONE && bounded(bound, best, n, sizes)
            }
            STOP => sender == 1 && receiver != 1 && plain() && bounded(bound, best, n, sizes),
            _ => false,
        };
    if good {
        Ok(())
    } else {
        Err(9)
    }
}

// What a unit does

/// The CPA that goes back.
struct Carried {
    stamp: Places,
    values: Places,
    cost: u32,
}

enum Plan {
    Nothing,
    Forward,
    Back(Carried),
    Reply { to: u8, stamp: Places, cost: u32 },
}

struct Done {
    plan: Plan,
    improved: bool,
    records: u64,
}

const QUIET: Done = Done { plan: Plan::Nothing, improved: false, records: 0 };

/// The packet has been checked, and the unit has not stopped. Refusal 11, before anything is changed.
fn respond<C: Costs>(seat: &Seat<C>, unit: &mut Unit, p: &[u8; SIZE]) -> Result<Done, Refusal> {
    match p[0] {
        CPA => on_cpa(seat, unit, p),
        REQUEST => Ok(on_request(seat, unit, p)),
        ESTIMATE => on_estimate(seat, unit, p),
        kind => {
            take_if_lower(unit, p);
            unit.stopped |= u8::from(kind == STOP);
            Ok(QUIET)
        }
    }
}

fn on_cpa<C: Costs>(seat: &Seat<C>, unit: &mut Unit, p: &[u8; SIZE]) -> Result<Done, Refusal> {
    let own = seat.own;
    let down = p[1] as usize <= own;
    let stamp: &Places = p[4..20].try_into().unwrap();
    let order = stamp[..=own].cmp(&unit.threshold[..=own]);
    if order == Ordering::Less {
        return Ok(QUIET);
    }
    let cost = number(p, 36);
    if down {
        if order == Ordering::Greater {
            unit.threshold = *stamp;
        }
        unit.stamp = *stamp;
        unit.values.copy_from_slice(&p[20..36]);
        unit.cost = cost;
    } else if *stamp != unit.stamp || p[20..36] != unit.values || cost != unit.cost {
        return Err(11);
    }
    take_if_lower(unit, p);
    let bare = without_own(seat, unit);
    Ok(if bare >= unit.bound { back_up(seat, unit, bare, false, 0) } else { assign(seat, unit, bare) })
}

fn on_request<C: Costs>(seat: &Seat<C>, unit: &mut Unit, p: &[u8; SIZE]) -> Done {
    let stamp: &Places = p[4..20].try_into().unwrap();
    match stamp[..seat.own].cmp(&unit.threshold[..seat.own]) {
        Ordering::Less => return QUIET,
        Ordering::Greater => unit.threshold = *stamp,
        Ordering::Equal => {}
    }
    let cost = seat.estimate(&p[20..36], p[1] as usize);
    Done { plan: Plan::Reply { to: p[1], stamp: *stamp, cost }, improved: false, records: 0 }
}

fn on_estimate<C: Costs>(seat: &Seat<C>, unit: &mut Unit, p: &[u8; SIZE]) -> Result<Done, Refusal> {
    let own = seat.own;
    let stamp = &p[4..=4 + own];
    let order = stamp.cmp(&unit.threshold[..=own]);
    if order == Ordering::Less {
        return Ok(QUIET);
    }
    if order == Ordering::Greater || unit.values[own] == 0 || *stamp != unit.stamp[..=own] {
        return Err(11);
    }
    let estimate = number(p, 36);
    if estimate != NONE {
        unit.estimates[p[1] as usize - 1] = estimate;
        let estimated: u32 = unit.estimates[own + 1..seat.n].iter().sum();
        if unit.cost + estimated < unit.bound {
            return Ok(QUIET);
        }
    }
    let bare = without_own(seat, unit);
    Ok(assign(seat, unit, bare))
}

fn take_if_lower(unit: &mut Unit, p: &[u8; SIZE]) {
    let bound = number(p, 40);
    if bound < unit.bound {
        unit.bound = bound;
        unit.best.copy_from_slice(&p[44..60]);
    }
}

fn without_own<C: Costs>(seat: &Seat<C>, unit: &Unit) -> u32 {
    match unit.values[seat.own] {
        0 => unit.cost,
        v => unit.cost - seat.paid(&unit.values, v),
    }
}

/// `bare` is the CPA's cost without the own value.
fn assign<C: Costs>(seat: &Seat<C>, unit: &mut Unit, bare: u32) -> Done {
    let own = seat.own;
    unit.estimates = [0; 16];
    if unit.values[own] == 0 {
        unit.counter = 0;
    }
    let after = &seat.tried()[seat.place(unit.values[own])..];
    let (mut improved, mut records) = (false, 0);
    if after.is_empty() {
        return back_up(seat, unit, bare, false, 0);
    }
    let sums = seat.sums(&unit.values, own);
    for v in after.iter().map(|v| *v as usize) {
        let cost = bare + sums[v - 1];
        let limit = unit.bound.min(FORBIDDEN);
        if cost >= limit || cost + seat.h(v) >= limit {
            continue;
        }
        unit.counter += 1;
        unit.stamp[own] = unit.counter;
        unit.values[own] = v as u8;
        unit.cost = cost;
        unit.threshold = unit.stamp;
        records += 1;
        if own + 1 < seat.n {
            return Done { plan: Plan::Forward, improved, records };
        }
        unit.bound = cost;
        unit.best = unit.values;
        improved = true;
    }
    back_up(seat, unit, bare, improved, records)
}

fn back_up<C>(seat: &Seat<C>, unit: &mut Unit, bare: u32, improved: bool, records: u64) -> Done {
    let own = seat.own;
    unit.values[own] = 0;
    unit.stamp[own] = 0;
    unit.threshold[own] += 1;
    unit.estimates = [0; 16];
    unit.stopped |= u8::from(own == 0);
    let carried = Carried { stamp: unit.stamp, values: unit.values, cost: bare };
    unit.stamp = [0; 16];
    unit.values = [0; 16];
    unit.cost = 0;
    Done { plan: Plan::Back(carried), improved, records }
}

// What it sends

/// How many packets a step sends.
fn sent<C>(seat: &Seat<C>, done: &Done) -> usize {
    let others = seat.n - 1;
    match done.plan {
        Plan::Nothing => 0,
        Plan::Forward => seat.n - seat.own,
        Plan::Back(_) if seat.own == 0 => others,
        Plan::Back(_) => 1 + if done.improved { others } else { 0 },
        Plan::Reply { .. } => 1,
    }
}

/// A packet for no one yet, with the weighted sum of its bytes.
struct Template {
    bytes: [u8; SIZE],
    weight: u32,
}

impl Template {
    fn new(kind: u8, own: usize, fill: impl FnOnce(&mut [u8; SIZE])) -> Template {
        let mut bytes = [0; SIZE];
        bytes[0] = kind;
        bytes[1] = own as u8 + 1;
        fill(&mut bytes);
        Template { weight: weigh(&bytes), bytes }
    }

    fn kind(&self) -> u8 {
        self.bytes[0]
    }

    fn put(&self, receiver: usize, out: &mut [u8]) {
        let out: &mut [u8; SIZE] = out.try_into().unwrap();
        *out = self.bytes;
        out[2] = receiver as u8 + 1;
        let check = ((self.weight + 3 * (receiver as u32 + 1)) % 65_521) as u16;
        out[62..64].copy_from_slice(&check.to_le_bytes());
    }
}

fn put_prefix(p: &mut [u8; SIZE], stamp: &Places, values: &Places, cost: u32) {
    p[4..20].copy_from_slice(stamp);
    p[20..36].copy_from_slice(values);
    p[36..40].copy_from_slice(&cost.to_le_bytes());
}

fn put_solution(p: &mut [u8; SIZE], unit: &Unit) {
    p[40..44].copy_from_slice(&unit.bound.to_le_bytes());
    p[44..60].copy_from_slice(&unit.best);
}

/// The packets of a step, one after another. `out` has room for them.
fn send<C>(seat: &Seat<C>, unit: &Unit, done: &Done, out: &mut [u8]) {
    let mut cells = out.chunks_exact_mut(SIZE);
    send_with(seat, unit, done, |template, receiver| {
        template.put(receiver, cells.next().expect("room for what is sent"));
    });
}

/// The same, each put where the caller has it.
fn send_with<C>(seat: &Seat<C>, unit: &Unit, done: &Done, mut put: impl FnMut(&Template, usize)) {
    let own = seat.own;
    match &done.plan {
        Plan::Nothing => {}
        Plan::Forward => {
            let cpa = Template::new(CPA, own, |p| {
                put_prefix(p, &unit.stamp, &unit.values, unit.cost);
                put_solution(p, unit);
            });
            put(&cpa, own + 1);
            let request = Template::new(REQUEST, own, |p| put_prefix(p, &unit.stamp, &unit.values, unit.cost));
            for receiver in own + 1..seat.n {
                put(&request, receiver);
            }
        }
        Plan::Back(carried) => {
            if own > 0 {
                let cpa = Template::new(CPA, own, |p| {
                    put_prefix(p, &carried.stamp, &carried.values, carried.cost);
                    put_solution(p, unit);
                });
                put(&cpa, own - 1);
            }
            if own == 0 || done.improved {
                let kind = if own == 0 { STOP } else { SOLUTION };
                let told = Template::new(kind, own, |p| put_solution(p, unit));
                for receiver in (0..seat.n).filter(|receiver| *receiver != own) {
                    put(&told, receiver);
                }
            }
        }
        Plan::Reply { to, stamp, cost } => {
            let estimate = Template::new(ESTIMATE, own, |p| put_prefix(p, stamp, &[0; 16], *cost));
            put(&estimate, *to as usize - 1);
        }
    }
}

// The calls

/// The step on a lent state: how many packets it sends and values it writes down. Refusals as the reference's.
#[allow(clippy::too_many_arguments)] // as C lends them
pub fn step_by(
    order: ValueOrder,
    unit: &mut Unit,
    own: u8,
    n: u8,
    sizes: &Places,
    costs: &[u8],
    packet: &[u8],
    out: &mut [u8],
) -> Result<(u8, u64), Refusal> {
    if out.len() < OUT {
        return Err(13);
    }
    check_sizes(n, sizes)?;
    if own.wrapping_sub(1) >= n {
        return Err(10);
    }
    let (seat, count) = lent_seat(order, own as usize - 1, n as usize, sizes, costs);
    if costs.len() != 2 * count {
        return Err(6);
    }
    let (unary, pairs) = costs.split_at(2 * seat.size(seat.own));
    if !unary_good(unary) || !pairs_good(pairs) {
        return Err(7);
    }
    if !in_range(&seat, unit) {
        return Err(5);
    }
    check_packet(n as usize, sizes, own, packet)?;
    if unit.has_stopped() {
        return Err(12);
    }
    let done = respond(&seat, unit, packet.try_into().unwrap())?;
    send(&seat, unit, &done, out);
    Ok((sent(&seat, &done) as u8, done.records))
}

/// What stands at the cell is taken out.
fn take_out(network: &mut Network, pool: &mut [u8], cell: usize) {
    let end = SIZE * network.count as usize;
    pool.copy_within(SIZE * (cell + 1)..end, SIZE * cell);
    network.count -= 1;
}

/// What is sent is added, and all is counted.
fn carry<C: Costs>(seat: &Seat<C>, done: &Done, network: &mut Network, pool: &mut [u8]) {
    let end = SIZE * network.count as usize;
    network.count += sent(seat, done) as u64;
    network.records = network.records.wrapping_add(done.records.into());
    network.deliveries = network.deliveries.wrapping_add(1);
    send(seat, &network.units[seat.own], done, &mut pool[end..]);
}

/// Refusal 5 of the units of a stream that is open.
fn check_states(order: ValueOrder, layout: &Layout, units: &[Unit; 16]) -> Result<(), Refusal> {
    let in_range = |own: usize| in_range(&layout.seat(order, own, layout.costs), &units[own]);
    if (0..layout.n).all(in_range) {
        Ok(())
    } else {
        Err(5)
    }
}

/// Refusals 5 of a network whose stream is open, and 12 of its unit 1.
fn check_shed(order: ValueOrder, layout: &Layout, network: &Network) -> Result<(), Refusal> {
    check_states(order, layout, &network.units)?;
    if network.count > CELLS as u64 {
        return Err(5);
    }
    if network.units[0].has_stopped() {
        return Err(12);
    }
    Ok(())
}

/// The unit that a packet names hears it; it leaves its cell, if it has one. Refusals 8, 10, 9, 12, 11, 14; then all is as it was.
fn hear(
    order: ValueOrder,
    layout: &Layout,
    network: &mut Network,
    pool: &mut [u8],
    packet: &[u8],
    cell: Option<usize>,
) -> Result<(), Refusal> {
    let named = packet.get(2).copied().unwrap_or(0);
    let own = if named.wrapping_sub(1) < layout.n as u8 { named } else { 1 };
    check_packet(layout.n, &layout.sizes, own, packet)?;
    let seat = layout.seat(order, own as usize - 1, layout.costs);
    let before = network.units[seat.own];
    if before.has_stopped() {
        return Err(12);
    }
    let done = respond(&seat, &mut network.units[seat.own], packet.try_into().unwrap())?;
    let stay = network.count as usize - usize::from(cell.is_some());
    if stay + sent(&seat, &done) > CELLS {
        network.units[seat.own] = before;
        return Err(14);
    }
    if let Some(cell) = cell {
        take_out(network, pool, cell);
    }
    carry(&seat, &done, network, pool);
    Ok(())
}

/// One delivery, all that is lent checked. Refusals as the reference's.
pub fn deliver_by(
    order: ValueOrder,
    network: &mut Network,
    stream: &[u8],
    pool: &mut [u8],
    cell: u64,
) -> Result<(), Refusal> {
    if pool.len() < POOL {
        return Err(13);
    }
    let layout = open(stream)?;
    check_shed(order, &layout, network)?;
    if cell >= network.count {
        return Err(15);
    }
    let cell = cell as usize;
    let packet: [u8; SIZE] = pool[SIZE * cell..SIZE * (cell + 1)].try_into().unwrap();
    hear(order, &layout, network, pool, &packet, Some(cell))
}

/// One echo, all that is lent checked. Refusals as the reference's.
pub fn echo_by(
    order: ValueOrder,
    network: &mut Network,
    stream: &[u8],
    pool: &mut [u8],
    packet: &[u8],
) -> Result<(), Refusal> {
    if pool.len() < POOL {
        return Err(13);
    }
    let layout = open(stream)?;
    check_shed(order, &layout, network)?;
    hear(order, &layout, network, pool, packet, None)
}

/// The costs of a stream that is open, as numbers.
fn wide_costs(layout: &Layout) -> Vec<u16> {
    layout.costs.chunks_exact(2).map(|c| u16::from_le_bytes([c[0], c[1]])).collect()
}

/// The units of a run, which knows the h of each and the order of its values.
fn seats<'a>(order: ValueOrder, layout: &Layout, costs: &'a [u16]) -> [Seat<&'a [u16]>; 16] {
    std::array::from_fn(|own| {
        let seat = layout.seat(order, own, costs);
        seat.known();
        seat
    })
}

/// Making, then cell 0 until unit 1 has stopped, at most `most` times. Refusals 5, 6, 7, 13.
pub fn settle_by(order: ValueOrder, stream: &[u8], pool: &mut [u8], most: u128) -> Result<Network, Refusal> {
    let layout = open(stream)?;
    if pool.len() < POOL {
        return Err(13);
    }
    let costs = wide_costs(&layout);
    let seats = seats(order, &layout, &costs);
    let mut network = Network { units: [unit::fresh(); 16], ..Network::default() };
    let done = assign(&seats[0], &mut network.units[0], 0);
    network.records = done.records.into();
    network.count = sent(&seats[0], &done) as u64;
    send(&seats[0], &network.units[0], &done, pool);
    while !network.units[0].has_stopped() && network.deliveries < most {
        let packet: [u8; SIZE] = pool[..SIZE].try_into().unwrap();
        let seat = &seats[packet[2] as usize - 1];
        let done = respond(seat, &mut network.units[seat.own], &packet)?;
        if network.count as usize - 1 + sent(seat, &done) > CELLS {
            return Err(14);
        }
        take_out(&mut network, pool, 0);
        carry(seat, &done, &mut network, pool);
    }
    Ok(network)
}

/// The outcome of settle and deliver over either pool, of replay, of echo and of step here, of the other calls the reference's.
pub fn tuned(input: Input) -> Outcome {
    match input {
        Input::Step { order, mut unit, own, n, sizes, costs, packet, mut out } => {
            let answer = step_by(order_of(order), &mut unit, own, n, &sizes, &costs, &packet, &mut out);
            let refusal = answer.err().unwrap_or(0);
            let (sent, records) = answer.unwrap_or((0, 0));
            calls::unit_outcome(&unit::Answer { refusal, unit, sent, records }, out)
        }
        Input::Deliver { order, mut network, stream, event, mut pool } => {
            let order = order_of(order);
            let heard = match event {
                Event::Cell(cell) => deliver_by(order, &mut network, &stream, &mut pool, cell),
                Event::Echo(packet) => echo_by(order, &mut network, &stream, &mut pool, &packet),
            };
            calls::network_outcome(heard.err().unwrap_or(0), &network, pool)
        }
        Input::Settle { order, stream, mut pool } => {
            calls::made_outcome(settle_by(order_of(order), &stream, &mut pool, u128::MAX), pool)
        }
        Input::DeliverSlots { order, mut shed, stream, cell, mut pool } => {
            let delivered = slots::deliver_by(order_of(order), &mut shed, &stream, &mut pool, cell);
            calls::shed_outcome(delivered.err().unwrap_or(0), &shed, pool)
        }
        Input::ReplaySlots { order, mut shed, stream, list, mut pool } => {
            let replayed = slots::replay_by(order_of(order), &mut shed, &stream, &mut pool, &list);
            calls::shed_outcome(replayed.err().unwrap_or(0), &shed, pool)
        }
        Input::SettleSlots { order, stream, mut pool } => {
            calls::made_shed_outcome(slots::settle_by(order_of(order), &stream, &mut pool, u128::MAX), pool)
        }
        other => calls::reference(other),
    }
}
