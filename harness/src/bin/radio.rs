//! Boxes as processes on the sample tables or on one table: `radio [OPTION...] [TABLE [BOX...]]`, which scripts/radio builds and runs.
//!
//! For each table and seed one process a box is started, and an air between them, and what every box reports is compared with the bench.
//! A box is `c`, `rust` or a program; box 1's comes first, and from the first again where there are more boxes. Without any they are C and
//! Rust in turn, the other way round with the next seed. Without a table it is each sample table with a listing; then the memory of boxes is looked
//! into, and two airs that are wrong must be noticed.
//!
//!     --seeds N     seeds 1 to N, 3 if not said       --seed N      this seed alone
//!     --echo        the air hands packets on again    --clean       the air adds nothing to be refused
//!     --cheapest    the cheapest value first          --limit S     how many seconds a run may take, 300 if not said
//!
//! Prints one row for each table, of all its seeds; ends with 1 where a run isn't what it must be.

use harness::boxes::problem::most_on_air;
use harness::radio::memory::{self, Looked};
use harness::radio::run::{run, Ended, Setup};
use harness::reference::table;
use harness::sample;
use std::fs::{self, File};
use std::path::{Path, PathBuf};
use std::process::{exit, Command};
use std::time::{Duration, Instant};

struct Asked {
    seeds: Vec<u64>,
    echo: bool,
    noise: bool,
    cheapest: bool,
    limit: Duration,
    hushed: bool,
    table: Option<PathBuf>,
    boxes: Vec<PathBuf>,
}

fn main() {
    let asked = asked().unwrap_or_else(|| {
        eprintln!("radio [--seeds N | --seed N] [--echo] [--clean] [--cheapest] [--limit SECONDS] [TABLE [c|rust|PROGRAM]...]");
        exit(2)
    });
    let faults = match &asked.table {
        Some(table) => tables(&asked, std::slice::from_ref(table)),
        None => tables(&asked, &samples()) + memories(&asked) + wrong_airs(&asked),
    };
    exit(i32::from(faults > 0));
}

fn asked() -> Option<Asked> {
    let (mut table, mut boxes) = (None, Vec::new());
    let (mut seeds, mut limit) = ((1..=3).collect(), Duration::from_secs(300));
    let (mut echo, mut noise, mut cheapest) = (false, true, false);
    let mut words = std::env::args().skip(1);
    while let Some(word) = words.next() {
        match word.as_str() {
            "--seeds" => seeds = (1..=words.next()?.parse().ok()?).collect(),
            "--seed" => seeds = vec![words.next()?.parse().ok()?],
            "--limit" => limit = Duration::from_secs(words.next()?.parse().ok()?),
            "--echo" => echo = true,
            "--clean" => noise = false,
            "--cheapest" => cheapest = true,
            _ if word.starts_with("--") => return None,
            _ if table.is_none() => table = Some(word.into()),
            "c" | "rust" => boxes.push(built(&format!("target/examples/box-{word}"))),
            _ => boxes.push(word.into()),
        }
    }
    Some(Asked { seeds, echo, noise, cheapest, limit, hushed: false, table, boxes })
}

/// Something of this repository.
fn built(path: &str) -> PathBuf {
    Path::new(env!("CARGO_MANIFEST_DIR")).join("..").join(path)
}

/// The sample tables that a shed comes to an end with.
fn samples() -> Vec<PathBuf> {
    let mut tables = sample::tables();
    tables.retain(|path| path.with_extension("listing").exists());
    tables
}

fn sample_named(name: &str) -> PathBuf {
    built("harness/vectors").join(name).with_extension("table")
}

// ---- runs

/// What is printed of a table's runs: how many, packets sent, handed on again, added to be refused, overtaken, accepted, refused by number; seconds of
/// wall time, and of processor time.
const COLUMNS: [&str; 15] = [
    "Table",
    "boxes",
    "runs",
    "sent",
    "echoed",
    "added",
    "overtaken",
    "accepted",
    "by 8",
    "by 9",
    "by 10",
    "by 12",
    "wall, s",
    "boxes, s",
    "air, s",
];

/// What the runs of a table came to; summed for all tables.
#[derive(Default)]
struct Row {
    runs: u64,
    ended: Ended,
    wall: f64,
}

impl Row {
    fn add(&mut self, other: &Row) {
        self.runs += other.runs;
        self.ended.add(&other.ended);
        self.wall += other.wall;
    }

    fn print(&self, name: &str, units: &str) {
        let Ended { boxes, air, boxes_seconds, air_seconds } = &self.ended;
        let mut counted = vec![self.runs, boxes.of("sent"), air.of("echoed"), air.all_refused(), air.of("overtaken")];
        counted.push(boxes.of("accepted"));
        counted.extend([8, 9, 10, 12].map(|number| boxes.refused_by(number)));
        let counted: Vec<String> = counted.into_iter().map(grouped).collect();
        let seconds = [self.wall, *boxes_seconds, *air_seconds].map(|seconds| format!("{seconds:.1}"));
        println!("| {name} | {units} | {} | {} |", counted.join(" | "), seconds.join(" | "));
    }
}

/// A number with a comma before every three digits.
fn grouped(number: u64) -> String {
    match number {
        0..1000 => number.to_string(),
        _ => format!("{},{:03}", grouped(number / 1000), number % 1000),
    }
}

/// Runs each table by each seed; how many runs were wrong.
fn tables(asked: &Asked, tables: &[PathBuf]) -> u32 {
    println!("| {} |", COLUMNS.join(" | "));
    println!("|{}", "---|".repeat(COLUMNS.len()));
    let (mut all, mut faults) = (Row::default(), 0);
    for path in tables {
        let name = path.file_stem().unwrap_or_default().to_string_lossy().into_owned();
        let (row, units) = (seeds(asked, path, &mut faults), units_of(path));
        row.print(&name, &units.map_or_else(|fault| fault, |units| units.to_string()));
        all.add(&row);
    }
    all.print("**all**", "");
    // an air that changes no order tries nothing
    if all.ended.boxes.of("sent") > 100 && all.ended.air.of("overtaken") == 0 {
        eprintln!("no packet was overtaken");
        faults += 1;
    }
    faults
}

fn seeds(asked: &Asked, table: &Path, faults: &mut u32) -> Row {
    let mut row = Row::default();
    let answer = answer(asked, table);
    let start = Instant::now();
    for seed in &asked.seeds {
        let manner = [(asked.echo, "echo"), (asked.noise, "noise")];
        let manner: Vec<&str> = manner.iter().filter(|(wanted, _)| *wanted).map(|(_, word)| *word).collect();
        let ended = answer.as_ref().map_err(String::clone).and_then(|answer| one(asked, table, *seed, &manner, answer));
        match ended {
            Ok(ended) => row.ended.add(&ended),
            Err(fault) => {
                eprintln!("{}, seed {seed}: {fault}", table.display());
                *faults += 1;
            }
        }
        row.runs += 1;
    }
    row.wall = start.elapsed().as_secs_f64();
    row
}

fn one(asked: &Asked, table: &Path, seed: u64, manner: &[&str], answer: &str) -> Result<Ended, String> {
    let boxes = boxes(asked, seed);
    run(&setup(asked, table, &boxes, seed, manner)?, answer)
}

fn setup<'a>(
    asked: &Asked,
    table: &'a Path,
    boxes: &'a [PathBuf],
    seed: u64,
    manner: &'a [&'a str],
) -> Result<Setup<'a>, String> {
    let air = std::env::current_exe().map_err(|error| error.to_string())?.with_file_name("air");
    let Asked { cheapest, limit, hushed, .. } = *asked;
    let stream = stream_of(table)?;
    let (units, most) = (table::head(&stream).0, most_on_air(&stream));
    Ok(Setup { table, units, most, boxes, cheapest, air, seed, manner, limit, hushed })
}

fn boxes(asked: &Asked, seed: u64) -> Vec<PathBuf> {
    let mut boxes = asked.boxes.clone();
    if boxes.is_empty() {
        boxes = ["target/examples/box-c", "target/examples/box-rust"].map(built).to_vec();
        boxes.rotate_left((seed % 2) as usize);
    }
    boxes
}

fn stream_of(table: &Path) -> Result<Vec<u8>, String> {
    let file = fs::read(table).map_err(|error| error.to_string())?;
    sample::read(&file).map_err(|refusal| format!("refused {refusal}"))
}

fn units_of(table: &Path) -> Result<u8, String> {
    stream_of(table).map(|stream| table::head(&stream).0)
}

// ---- what the boxes should say

/// The bench's answer; with the cheapest value first the shed's, which may be another lotting of the bench's total.
fn answer(asked: &Asked, table: &Path) -> Result<String, String> {
    let bench = program("bench", "bound", table)?;
    if !asked.cheapest {
        return Ok(bench);
    }
    let shed = program("shed", "cheapest", table)?;
    let total = |answer: &str| answer.split(" values").next().map(str::to_string);
    match total(&shed) == total(&bench) {
        true => Ok(shed),
        false => Err(format!("the bench says {bench:?}, the shed {shed:?}")),
    }
}

/// What a program prints of a table, in a box's words: `total 2 values 2 1`.
fn program(name: &str, word: &str, table: &Path) -> Result<String, String> {
    let text = |error: std::io::Error| format!("{name}: {error}");
    let output =
        Command::new(built("target/bin").join(name)).arg(word).stdin(File::open(table).map_err(text)?).output();
    let output = String::from_utf8_lossy(&output.map_err(text)?.stdout).into_owned();
    let (mut total, mut values) = (String::new(), String::new());
    for line in output.lines() {
        match line.split(' ').collect::<Vec<_>>()[..] {
            ["total", number] => total = number.to_string(),
            ["unit", _, "value", value] => values = values + " " + value,
            ["records", ..] => {}
            _ => return Err(format!("{name} says {line:?}")),
        }
    }
    Ok(format!("total {total} values{values}"))
}

// ---- what is tried beside runs

/// Boxes keep nothing of the table but their own costs.
fn memories(asked: &Asked) -> u32 {
    let mut faults = 0;
    for seed in [1, 2] {
        let (path, boxes) = (sample_named("largest"), boxes(asked, seed));
        let looked = setup(asked, &path, &boxes, seed, &[]).and_then(|setup| memory::look(&setup, &stream_of(&path)?));
        match looked {
            Ok(Looked { own, gone }) => {
                println!(
                    "memory, {}: all {own} rows of boxes' own pairs are there, none of {gone} others",
                    path_name(&boxes[0])
                );
            }
            Err(fault) => {
                eprintln!("memory: {fault}");
                faults += 1;
            }
        }
    }
    faults
}

fn path_name(path: &Path) -> String {
    path.file_name().unwrap_or_default().to_string_lossy().into_owned()
}

/// An air that loses a packet, and one that forges stops, must be noticed, and for what they do: by a packet that is missing, if not by boxes that
/// never stop; by a total that is another.
fn wrong_airs(asked: &Asked) -> u32 {
    let (limit, boxes) = (Duration::from_secs(5), asked.boxes.clone());
    let asked = Asked { seeds: Vec::new(), limit, hushed: true, table: None, boxes, ..*asked };
    let signs = [("lose", ["packets accepted", "not stopped"]), ("forge", ["is said where", "is said where"])];
    let mut faults = 0;
    for (word, signs) in signs {
        for seed in 1..=3 {
            match wrong_air(&asked, word, seed) {
                Err(fault) if signs.iter().any(|sign| fault.contains(sign)) => {
                    println!("{word}, seed {seed}, is noticed: {fault}");
                }
                other => {
                    eprintln!("{word}, seed {seed}, is not noticed: {:?}", other.err());
                    faults += 1;
                }
            }
        }
    }
    faults
}

fn wrong_air(asked: &Asked, word: &str, seed: u64) -> Result<Ended, String> {
    let path = sample_named("five");
    one(asked, &path, seed, &[word], &answer(asked, &path)?)
}
