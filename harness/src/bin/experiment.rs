//! The AFB paper's experiment on the shed's rules: `experiment FOLDER [PROBLEMS]` writes results.csv, messages.svg and checks.svg there, values
//! tried in ascending order; and what the order of values does to the same problems (orders.csv, orders.svg) and to the sample sheds (sheds.csv).
//!
//! PROBLEMS a point, 10 unless named. The seed is fixed: the same numbers every time. Ends with 1 where the two algorithms or the two orders
//! disagree on a least total.

use harness::maxcsp::{self, Effort};
use harness::plot::{Curve, Plot};
use harness::random::Random;
use harness::reference::network::{self, Network};
use harness::reference::order::ValueOrder::{self, Ascending, CheapestFirst};
use harness::sample;
use std::cmp::Ordering;
use std::path::Path;
use std::process::exit;

const UNITS: usize = 10;
const VALUES: usize = 10;
const DENSITIES: [f64; 2] = [0.4, 0.7];
const TIGHTNESS: [f64; 13] = [0.5, 0.6, 0.7, 0.8, 0.85, 0.9, 0.92, 0.94, 0.95, 0.96, 0.97, 0.98, 0.99];
const SEED: u64 = 2006;
/// Branch and bound gives up past this many checks; where half of its runs do, its median is only a lower limit.
const MOST_CHECKS: u64 = 50_000_000;

/// The problems of one point.
struct Point {
    density: f64,
    tightness: f64,
    /// In ascending order, as the paper has it.
    afb: Vec<Effort>,
    cheapest: Vec<Effort>,
    synchronous: Vec<Effort>,
    given_up: usize,
}

impl Point {
    /// Whether the median of branch and bound is only a lower limit.
    fn cut_short(&self) -> bool {
        2 * self.given_up >= self.synchronous.len()
    }
}

/// Ends the program where two searches of one problem disagree.
fn agree(one: u32, other: u32) {
    if one != other {
        eprintln!("least totals differ: {one} and {other}");
        exit(1);
    }
}

fn measure(random: &mut Random, problems: usize, density: f64, tightness: f64) -> Point {
    let (afb, cheapest, synchronous) = (Vec::new(), Vec::new(), Vec::new());
    let mut point = Point { density, tightness, afb, cheapest, synchronous, given_up: 0 };
    for _ in 0..problems {
        let problem = maxcsp::problem(random, UNITS, VALUES, density, tightness);
        let [effort, cheapest] = [Ascending, CheapestFirst].map(|order| maxcsp::forward_bounding(order, &problem));
        agree(effort.least, cheapest.least);
        let (other, whole) = maxcsp::branch_and_bound(&problem, MOST_CHECKS);
        if whole {
            agree(effort.least, other.least);
        }
        point.given_up += usize::from(!whole);
        point.afb.push(effort);
        point.cheapest.push(cheapest);
        point.synchronous.push(other);
    }
    point
}

fn deliveries(effort: &Effort) -> u64 {
    effort.deliveries
}

fn records(effort: &Effort) -> u64 {
    effort.records
}

fn messages(effort: &Effort) -> u64 {
    effort.messages
}

fn checks(effort: &Effort) -> u64 {
    effort.checks
}

fn least(effort: &Effort) -> u64 {
    effort.least.into()
}

fn mean(efforts: &[Effort], of: fn(&Effort) -> u64) -> f64 {
    efforts.iter().map(|effort| of(effort) as f64).sum::<f64>() / efforts.len() as f64
}

/// The mean of the two in the middle where the number is even.
fn median(efforts: &[Effort], of: fn(&Effort) -> u64) -> f64 {
    let mut sorted: Vec<u64> = efforts.iter().map(of).collect();
    sorted.sort_unstable();
    let half = sorted.len() / 2;
    (sorted[(sorted.len() - 1) / 2] + sorted[half]) as f64 / 2.0
}

const HEADER: &str = "density,tightness,problems,least total (mean),\
afb messages (median),afb messages (mean),afb checks (median),afb checks (mean),most waiting,\
sbb messages (median),sbb checks (median),sbb given up";

fn row(point: &Point) -> String {
    let numbers = [
        median(&point.afb, messages),
        mean(&point.afb, messages),
        median(&point.afb, checks),
        mean(&point.afb, checks),
        point.afb.iter().map(|effort| effort.waiting).max().unwrap_or(0) as f64,
        median(&point.synchronous, messages),
        median(&point.synchronous, checks),
        point.given_up as f64,
    ];
    let numbers = numbers.map(|number| format!("{number:.0}")).join(",");
    let problems = point.afb.len();
    format!("{},{},{problems},{:.1},{numbers}", point.density, point.tightness, mean(&point.afb, least))
}

const ORDERS: &str = "density,tightness,problems,\
deliveries ascending (median),deliveries cheapest first (median),deliveries ascending (mean),deliveries cheapest first (mean),\
records ascending (median),records cheapest first (median),records ascending (mean),records cheapest first (mean),\
fewer deliveries cheapest first,more deliveries cheapest first";

fn orders_row(point: &Point) -> String {
    let mut row = format!("{},{},{}", point.density, point.tightness, point.afb.len());
    for of in [deliveries, records] {
        for middle in [median, mean] {
            row += &format!(",{:.0},{:.0}", middle(&point.afb, of), middle(&point.cheapest, of));
        }
    }
    let compared: Vec<Ordering> =
        point.cheapest.iter().zip(&point.afb).map(|(one, other)| one.deliveries.cmp(&other.deliveries)).collect();
    let times = |which: Ordering| compared.iter().filter(|order| **order == which).count();
    row + &format!(",{},{}", times(Ordering::Less), times(Ordering::Greater))
}

const SHEDS: &str = "table,deliveries ascending,deliveries cheapest first,records ascending,records cheapest first";

/// The sample sheds that are easy enough to finish: cell 0 delivered until unit 1 has stopped.
fn sheds() -> String {
    let mut text = format!("{SHEDS}\n");
    for path in sample::tables().iter().filter(|path| path.with_extension("listing").exists()) {
        let file = std::fs::read(path).expect("a sample table");
        let stream = sample::read(&file).expect("an accepted table");
        let settle = |order: ValueOrder| -> Network {
            network::settle_by(order, &stream, &mut vec![0; network::POOL]).expect("an accepted table")
        };
        let [one, two] = [settle(Ascending), settle(CheapestFirst)];
        agree(one.units[0].bound, two.units[0].bound);
        let name = path.file_stem().unwrap_or_default().to_string_lossy();
        text += &format!("{name},{},{},{},{}\n", one.deliveries, two.deliveries, one.records, two.records);
    }
    text
}

/// What a curve shows of a point, if anything.
type Shown<'a> = &'a dyn Fn(&Point) -> Option<f64>;

/// Two curves for each density: the first whole, the second dashed.
fn curves(points: &[Point], names: [&str; 2], of: [Shown; 2]) -> Vec<Curve> {
    let mut curves = Vec::new();
    for (density, colour) in DENSITIES.into_iter().zip(["#0b6fa4", "#c2410c"]) {
        for k in [0, 1] {
            let here = points.iter().filter(|point| point.density == density);
            let points = here.filter_map(|point| Some((point.tightness, of[k](point)?))).collect();
            curves.push(Curve { name: format!("{}, {density}", names[k]), colour, dashed: k == 1, points });
        }
    }
    curves
}

/// Medians of both algorithms, those left out that are only a lower limit.
fn of_algorithms(points: &[Point], of: fn(&Effort) -> u64) -> Vec<Curve> {
    let afb = |point: &Point| Some(median(&point.afb, of));
    let synchronous = |point: &Point| (!point.cut_short()).then(|| median(&point.synchronous, of));
    curves(points, ["AFB", "SBB"], [&afb, &synchronous])
}

/// Medians of both orders.
fn of_orders(points: &[Point], of: fn(&Effort) -> u64) -> Vec<Curve> {
    let ascending = |point: &Point| Some(median(&point.afb, of));
    let cheapest = |point: &Point| Some(median(&point.cheapest, of));
    curves(points, ["ascending", "cheapest"], [&ascending, &cheapest])
}

fn plot(title: &str, y_name: &str, curves: Vec<Curve>) -> String {
    Plot {
        title: title.to_string(),
        x_name: "tightness".to_string(),
        y_name: y_name.to_string(),
        x_range: (0.5, 1.0),
        x_marks: vec![0.5, 0.6, 0.7, 0.8, 0.9, 1.0],
        curves,
    }
    .svg()
}

fn write(folder: &Path, name: &str, text: &str) {
    if let Err(error) = std::fs::write(folder.join(name), text) {
        eprintln!("{}: {error}", folder.join(name).display());
        exit(2);
    }
}

fn main() {
    let arguments: Vec<String> = std::env::args().skip(1).collect();
    let Some(folder) = arguments.first().map(Path::new) else {
        eprintln!("experiment FOLDER [PROBLEMS]");
        exit(2);
    };
    let problems = arguments.get(1).and_then(|text| text.parse().ok()).unwrap_or(10);
    let mut random = Random::new(SEED);
    let mut points = Vec::new();
    let (mut table, mut orders) = (format!("{HEADER}\n"), format!("{ORDERS}\n"));
    println!("{HEADER}");
    for density in DENSITIES {
        for tightness in TIGHTNESS {
            let point = measure(&mut random, problems, density, tightness);
            let row = row(&point);
            println!("{row}");
            table += &format!("{row}\n");
            orders += &format!("{}\n", orders_row(&point));
            points.push(point);
        }
    }
    write(folder, "results.csv", &table);
    write(folder, "orders.csv", &orders);
    write(folder, "sheds.csv", &sheds());
    write(folder, "messages.svg", &plot("Messages sent, median", "messages", of_algorithms(&points, messages)));
    let title = "Non-concurrent constraint checks, median";
    write(folder, "checks.svg", &plot(title, "checks", of_algorithms(&points, checks)));
    write(folder, "orders.svg", &plot("Deliveries, median", "deliveries", of_orders(&points, deliveries)));
}
