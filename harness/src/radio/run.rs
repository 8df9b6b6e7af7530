//! A run: one process for each box, one for the air, from start to end, and what must hold of what they say.
//!
//! Every box is waited for until it says that it has stopped. Then the air is switched off, which hands on what it still holds, and then the
//! boxes, which read what still waits; so every datagram is counted by a sender and by a receiver, and the counts must agree.

use super::counts::Counts;
use std::fs;
use std::io::{self, BufRead, BufReader};
use std::path::{Path, PathBuf};
use std::process::{Child, ChildStdin, Command, Stdio};
use std::sync::mpsc::{channel, Receiver, Sender};
use std::thread;
use std::time::{Duration, Instant};

pub struct Setup<'a> {
    pub table: &'a Path,
    pub units: u8,
    /// How many packets the boxes accept at most, where none is echoed.
    pub most: u128,
    /// The programs of the boxes: box 1's first, and from the first again where there are more boxes.
    pub boxes: &'a [PathBuf],
    pub cheapest: bool,
    pub air: PathBuf,
    pub seed: u64,
    /// What the air is told beside its seed.
    pub manner: &'a [&'a str],
    /// How long all boxes may take to stop.
    pub limit: Duration,
    /// What the processes write to standard error is thrown away.
    pub hushed: bool,
}

/// What all boxes counted, and what the air did; processor seconds of the boxes and of the air.
#[derive(Clone, Default)]
pub struct Ended {
    pub boxes: Counts,
    pub air: Counts,
    pub boxes_seconds: f64,
    pub air_seconds: f64,
}

impl Ended {
    pub fn add(&mut self, other: &Ended) {
        self.boxes.add(&other.boxes);
        self.air.add(&other.air);
        self.boxes_seconds += other.boxes_seconds;
        self.air_seconds += other.air_seconds;
    }
}

/// Runs them all. `answer` is what each box must say when it has stopped, as in `total 2 values 2 1`.
pub fn run(setup: &Setup, answer: &str) -> Result<Ended, String> {
    let ended = processes(setup, answer)?;
    let (boxes, air) = (&ended.boxes, &ended.air);
    let agree = |what: &str, one: u64, other: u64| match one == other {
        true => Ok(()),
        false => Err(format!("{what}: {one} and {other}")),
    };
    agree("datagrams that boxes sent, that the air heard", boxes.of("sent"), air.of("heard"))?;
    let added = air.all_refused();
    agree("datagrams that boxes heard, that the air handed on", boxes.of("heard"), air.of("handed") + added)?;
    // a packet that was sent is accepted, or refused by 12 by a box that has stopped; the air's echoes count as sent
    let ended_well = boxes.of("accepted") + boxes.refused_by(12);
    agree("packets accepted or late, sent or echoed", ended_well, boxes.of("sent") + air.of("echoed"))?;
    for number in (0..=255).filter(|number| *number != 12) {
        let what = format!("refused by {number}, added to be refused so");
        agree(&what, boxes.refused_by(number), air.refused_by(number))?;
    }
    if air.of("echoed") == 0 && u128::from(boxes.of("accepted")) > setup.most {
        return Err(format!("{} packets are accepted, {} are the most", boxes.of("accepted"), setup.most));
    }
    Ok(ended)
}

/// A folder for the sockets of one run, gone with it.
struct Folder(PathBuf);

impl Folder {
    fn new(seed: u64) -> io::Result<Folder> {
        let path = std::env::temp_dir().join(format!("radio-{}-{seed}", std::process::id()));
        fs::create_dir(&path)?;
        Ok(Folder(path))
    }
}

impl Drop for Folder {
    fn drop(&mut self) {
        let _ = fs::remove_dir_all(&self.0);
    }
}

/// A line of a process, 0 the air, the others by the number of their box; nothing once it prints no more.
type Said = (usize, Option<String>);

/// A process that is ended with its owner, if it hasn't ended by itself.
pub struct Process {
    name: String,
    child: Child,
    switch: Option<ChildStdin>,
}

impl Process {
    fn start(setup: &Setup, name: String, command: &mut Command) -> Result<Process, String> {
        if setup.hushed {
            command.stderr(Stdio::null());
        }
        let piped = command.stdin(Stdio::piped()).stdout(Stdio::piped());
        let mut child = piped.spawn().map_err(|error| format!("{name}: {error}"))?;
        let switch = child.stdin.take();
        Ok(Process { name, child, switch })
    }

    pub fn number(&self) -> u32 {
        self.child.id()
    }

    /// Sends each line that the process prints, and at the end of them nothing.
    fn report(&mut self, who: usize, told: &Sender<Said>) {
        let lines = self.child.stdout.take().map(BufReader::new);
        let told = told.clone();
        thread::spawn(move || {
            for line in lines.into_iter().flat_map(BufReader::lines).map_while(Result::ok) {
                let _ = told.send((who, Some(line)));
            }
            let _ = told.send((who, None));
        });
    }

    fn switch_off(&mut self) {
        self.switch = None;
    }

    fn end(&mut self) -> Result<(), String> {
        match self.child.wait() {
            Ok(status) if status.success() => Ok(()),
            Ok(status) => Err(format!("{}: {status}", self.name)),
            Err(error) => Err(format!("{}: {error}", self.name)),
        }
    }
}

impl Drop for Process {
    fn drop(&mut self) {
        let _ = self.child.kill();
        let _ = self.child.wait();
    }
}

/// The processes of the boxes 1 to n, in a folder.
pub fn start_boxes(setup: &Setup, folder: &Path) -> Result<Vec<Process>, String> {
    let start = |own: u8| {
        let program = &setup.boxes[usize::from(own - 1) % setup.boxes.len()];
        let mut command = Command::new(program);
        command.arg(own.to_string()).arg(setup.table).arg(folder);
        if setup.cheapest {
            command.arg("cheapest");
        }
        Process::start(setup, name(own.into()), &mut command)
    };
    (1..=setup.units).map(start).collect()
}

/// In a folder for sockets that is gone afterwards.
pub fn in_folder<T>(seed: u64, work: impl FnOnce(&Path) -> Result<T, String>) -> Result<T, String> {
    let folder = Folder::new(seed).map_err(|error| format!("a folder for sockets: {error}"))?;
    work(&folder.0)
}

fn processes(setup: &Setup, answer: &str) -> Result<Ended, String> {
    in_folder(setup.seed, |folder| {
        let (told, lines) = channel();
        let mut air = Command::new(&setup.air);
        let order = if setup.cheapest { "cheapest" } else { "ascending" };
        air.arg(folder).arg(setup.table).arg(order).arg(setup.seed.to_string()).args(setup.manner);
        let mut air = Process::start(setup, name(0), &mut air)?;
        air.report(0, &told);
        let mut boxes = start_boxes(setup, folder)?;
        (1..).zip(&mut boxes).for_each(|(own, process)| process.report(own, &told));
        wait_for_stops(setup, answer, &lines)?;
        air.switch_off();
        let mut ended = Ended { air: last_words(0, &lines)?, ..Ended::default() };
        let before = children_seconds();
        air.end()?;
        ended.air_seconds = children_seconds() - before;
        for (own, process) in (1..).zip(&mut boxes) {
            process.switch_off();
            ended.boxes.add(&last_words(own, &lines)?);
            process.end()?;
        }
        ended.boxes_seconds = children_seconds() - before - ended.air_seconds;
        Ok(ended)
    })
}

/// Processor seconds of all processes that were started and have ended, user and system: words 16 and 17 of /proc/self/stat, in hundredths of a
/// second. The second word is this program's name, in brackets.
fn children_seconds() -> f64 {
    let stat = fs::read_to_string("/proc/self/stat").unwrap_or_default();
    let behind = stat.rsplit(')').next().unwrap_or_default();
    let ticks = behind.split_whitespace().skip(13).take(2).filter_map(|word| word.parse::<f64>().ok());
    ticks.sum::<f64>() / 100.0
}

/// Each box tells its answer once, in any order.
fn wait_for_stops(setup: &Setup, answer: &str, lines: &Receiver<Said>) -> Result<(), String> {
    let last = Instant::now() + setup.limit;
    let mut waited: Vec<usize> = (1..=setup.units.into()).collect();
    while !waited.is_empty() {
        let left = last.saturating_duration_since(Instant::now());
        let (who, line) =
            lines.recv_timeout(left).map_err(|_| format!("not stopped in {:?}: boxes {waited:?}", setup.limit))?;
        let line = line.ok_or_else(|| format!("{} has ended too early", name(who)))?;
        if !waited.contains(&who) || line != format!("{} {answer}", name(who)) {
            return Err(format!("{line:?} is said where the answer is {answer:?}"));
        }
        waited.retain(|own| *own != who);
    }
    Ok(())
}

/// What a process counted: the one line that is said once it is switched off.
fn last_words(who: usize, lines: &Receiver<Said>) -> Result<Counts, String> {
    let said = [(); 2].map(|()| lines.recv_timeout(Duration::from_secs(60)));
    let counts = match &said {
        [Ok((first, Some(line))), Ok((second, None))] if (*first, *second) == (who, who) => {
            line.strip_prefix(&format!("{} ", name(who))).and_then(Counts::parse)
        }
        _ => None,
    };
    counts.ok_or_else(|| format!("{} should end with what it counted, but {said:?}", name(who)))
}

fn name(who: usize) -> String {
    match who {
        0 => "air".to_string(),
        own => format!("box {own}"),
    }
}
