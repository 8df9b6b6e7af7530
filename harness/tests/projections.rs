//! 02's job 8: projections and extension, by hand and on random tables, where every assignment keeps floor plus total.

use harness::calls::Held;
use harness::random::Random;
use harness::reference::costs::{self, Cost};
use harness::reference::projections::{self, Lent, BARRED};
use harness::reference::{search, table, Places};
use harness::{generate, sample};

/// Floor plus total of an assignment, values from 1; nothing where it has a barred pair.
fn worth(held: &Held, values: &Places) -> Option<u64> {
    let n = held.n as usize;
    let sizes: Vec<usize> = held.sizes[..n].iter().map(|d| *d as usize).collect();
    let value = |unit: usize| values[unit] as usize - 1;
    let mut sum = u64::from(held.floor);
    let mut at = 0;
    for unit in 0..n {
        sum += u64::from(held.costs[at + value(unit)]);
        at += sizes[unit];
    }
    for i in 0..n {
        for j in i + 1..n {
            let cost = held.costs[at + value(i) * sizes[j] + value(j)];
            if cost == BARRED {
                return None;
            }
            sum += u64::from(cost);
            at += sizes[i] * sizes[j];
        }
    }
    Some(sum)
}

/// The costs of a table and a floor of 0.
fn held(stream: &[u8]) -> Held {
    let (n, sizes) = table::head(stream);
    let mut costs = vec![0; projections::count(n, &sizes)];
    assert_eq!(projections::hold(stream, &mut costs), Ok(costs.len()));
    Held { n, sizes, floor: 0, costs }
}

fn lent(held: &mut Held) -> Lent<'_> {
    Lent { n: held.n, sizes: held.sizes, floor: &mut held.floor, costs: &mut held.costs }
}

/// A table with few enough assignments to try them all.
fn small(random: &mut Random) -> Vec<u8> {
    loop {
        let stream = generate::searched(random);
        if table::check_stream(&stream).is_ok() && search::assignments(&stream) <= 200 {
            return stream;
        }
    }
}

#[test]
fn by_hand() {
    // table T: costs 5, 3 of value 1 of unit 1, and 2, 4 of value 2
    let mut t = held(&sample::t());
    assert_eq!(t.costs, [0, 0, 0, 0, 5, 3, 2, 4]);
    assert_eq!(lent(&mut t).project(1, 1, 2), Ok(()));
    assert_eq!(t.costs, [3, 0, 0, 0, 2, 0, 2, 4]);
    assert_eq!(lent(&mut t).project(1, 2, 2), Ok(()));
    assert_eq!(t.costs, [3, 2, 0, 0, 2, 0, 0, 2]);
    assert_eq!(lent(&mut t).project_unary(1), Ok(()));
    assert_eq!((t.floor, &t.costs[..]), (2, &[1, 0, 0, 0, 2, 0, 0, 2][..]));
    // the part goes into the column of unit 2's value 1
    t.costs[2] = 7;
    assert_eq!(lent(&mut t).extend(2, 1, 1, 4), Ok(()));
    assert_eq!((t.floor, &t.costs[..]), (2, &[1, 0, 3, 0, 6, 0, 4, 2][..]));
}

#[test]
fn refused_by_hand() {
    let mut t = held(&sample::t());
    let refused = |change: &dyn Fn(&mut Held), moved: &dyn Fn(&mut Lent) -> Result<(), u8>| {
        let mut held = t.clone();
        change(&mut held);
        let before = (held.floor, held.costs.clone());
        let answer = moved(&mut lent(&mut held));
        assert_eq!((held.floor, held.costs), before);
        answer
    };
    let nothing = |_: &mut Held| {};
    assert_eq!(refused(&|held| held.n = 0, &|lent| lent.project(9, 9, 9)), Err(5));
    assert_eq!(refused(&|held| held.sizes[1] = 17, &|lent| lent.project(1, 1, 2)), Err(5));
    assert_eq!(refused(&|held| held.costs.truncate(7), &|lent| lent.project(9, 9, 9)), Err(6));
    for (unit, value, other) in [(0, 1, 2), (3, 1, 2), (1, 0, 2), (1, 3, 2), (1, 1, 0), (1, 1, 3), (1, 1, 1)] {
        assert_eq!(refused(&|held| held.floor = BARRED, &|lent| lent.project(unit, value, other)), Err(10));
        assert_eq!(refused(&nothing, &|lent| lent.extend(unit, value, other, 0)), Err(10));
    }
    assert_eq!(refused(&|held| held.costs[3] = BARRED, &|lent| lent.project(1, 1, 2)), Err(19));
    assert_eq!(refused(&|held| held.floor = BARRED, &|lent| lent.extend(1, 1, 2, 0)), Err(19));
    assert_eq!(refused(&|held| held.costs[0] = BARRED - 3, &|lent| lent.project(1, 1, 2)), Err(19));
    assert_eq!(refused(&nothing, &|lent| lent.extend(1, 1, 2, 1)), Err(19));
    let near = |held: &mut Held| (held.costs[0], held.costs[5]) = (9, BARRED - 9);
    assert_eq!(refused(&near, &|lent| lent.extend(1, 1, 2, 9)), Err(19));
    let low = |held: &mut Held| (held.floor, held.costs[0], held.costs[1]) = (BARRED - 2, 2, 2);
    assert_eq!(refused(&low, &|lent| lent.project_unary(1)), Err(19));
    // up to the last number that isn't barred
    t.costs[0] = BARRED - 4;
    assert_eq!(lent(&mut t).project(1, 1, 2), Ok(()));
    assert_eq!(t.costs[0], BARRED - 1);
}

#[test]
fn barred_rows() {
    let mut barred = held(&sample::stream(&[2, 2], &[65_535, 65_535, 7, 65_535]));
    assert_eq!(lent(&mut barred).project(1, 1, 2), Ok(()));
    assert_eq!(barred.costs, [0, 0, 0, 0, BARRED, BARRED, 7, BARRED]);
    assert_eq!(lent(&mut barred).project(1, 2, 2), Ok(()));
    assert_eq!(barred.costs, [0, 7, 0, 0, BARRED, BARRED, 0, BARRED]);
    assert_eq!(lent(&mut barred).extend(1, 2, 2, 5), Ok(()));
    assert_eq!(barred.costs, [0, 2, 0, 0, BARRED, BARRED, 5, BARRED]);
}

/// Any moves of any table, one after another: every assignment keeps floor plus total, and the same pairs are barred.
#[test]
fn every_move_keeps_floor_plus_total() {
    let mut random = Random::new(8);
    let mut accepted = 0;
    for _ in 0..400 {
        let stream = small(&mut random);
        let mut held = held(&stream);
        let first: Vec<_> = search::ascending(&stream).map(|values| worth(&held, &values)).collect();
        let totals = search::ascending(&stream).map(|values| costs::total(&stream, &values[..held.n as usize]));
        let totals: Vec<_> =
            totals.map(|total| if let Cost::Of(sum) = total { Some(u64::from(sum)) } else { None }).collect();
        assert_eq!(first, totals, "held costs total what the table's do");
        for _ in 0..30 {
            let bars: Vec<_> = held.costs.iter().map(|cost| *cost == BARRED).collect();
            let mut number = |most: u8| random.between(1, u64::from(most)) as u8;
            let (unit, other) = (number(held.n), number(held.n));
            let value = number(held.sizes[unit as usize - 1]);
            let part = random.below(70_000) as u32;
            let moved = match random.below(4) {
                0 => lent(&mut held).project_unary(unit),
                1 => lent(&mut held).extend(unit, value, other, part),
                _ => lent(&mut held).project(unit, value, other),
            };
            accepted += usize::from(moved.is_ok());
            let now: Vec<_> = search::ascending(&stream).map(|values| worth(&held, &values)).collect();
            assert_eq!(now, first);
            assert_eq!(held.costs.iter().map(|cost| *cost == BARRED).collect::<Vec<_>>(), bars);
        }
    }
    assert!(accepted > 4_000, "{accepted} moves");
}

/// Of a table's costs nothing is refused, and the floor is at most the least total.
#[test]
fn the_floor_is_a_lower_bound() {
    let mut random = Random::new(9);
    let mut above = 0;
    for _ in 0..400 {
        let stream = small(&mut random);
        let mut costs = vec![0; 31_000];
        let (refusal, floor) = projections::lower_bound(&stream, &mut costs);
        let (least, _) = search::exhaustive(&stream).expect("a small table");
        assert_eq!(refusal, 0);
        assert!(floor <= least, "{floor} above {least}");
        above += usize::from(floor > 0);
    }
    assert!(above > 100, "{above} floors above 0");
}
