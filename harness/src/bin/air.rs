//! The air between boxes that are processes: `air FOLDER TABLE ascending|cheapest SEED [WORD...]`.
//!
//! It listens at FOLDER/air, and hands every datagram that a box sends to the box that byte 2 names, at FOLDER/NUMBER, later and in another order;
//! src/radio/air.rs says how, and what the words `echo`, `noise`, `lose` and `forge` add. The seed fixes what is drawn; what arrives when is not
//! the air's to say, so two runs of one seed differ.
//!
//! It knows the table, to compare every packet that a box sends with what the second implementation sends after the same datagrams
//! (src/radio/shadow.rs): at the first other one it says so and ends with 1.
//!
//! No two processes can wait for each other: one thread does nothing but listen, and keeps all that comes, so a box that sends is
//! never kept waiting for long; only the other hands on, and waits where a box has much to read.
//!
//! When its standard input ends it hands on what it holds, prints what it counted and ends: the datagrams heard from boxes, handed on, handed
//! on again (echoed), handed on behind a later one (overtaken), and after `refused` those added, by the number that refuses them.

use harness::radio::air::{Air, Manner};
use harness::radio::shadow::{Lent, Shadows};
use harness::reference::order::ValueOrder;
use harness::sample;
use std::ffi::OsStr;
use std::fs;
use std::io::{self, ErrorKind};
use std::os::unix::net::UnixDatagram;
use std::path::Path;
use std::process::exit;
use std::sync::mpsc::{channel, Receiver, RecvTimeoutError, Sender};
use std::thread;
use std::time::Duration;

/// How long nothing must arrive before a datagram is handed on that isn't due yet.
const QUIET: Duration = Duration::from_micros(20);

enum Event {
    /// From which box, and what.
    Heard(u8, Vec<u8>),
    Off,
}

struct Asked<'a> {
    folder: &'a Path,
    table: &'a Path,
    order: ValueOrder,
    seed: u64,
    manner: Manner,
}

fn main() {
    let words: Vec<String> = std::env::args().skip(1).collect();
    let words: Vec<&str> = words.iter().map(String::as_str).collect();
    let Some(asked) = asked(&words) else {
        eprintln!("air FOLDER TABLE ascending|cheapest SEED [echo] [noise] [lose] [forge]");
        exit(2);
    };
    match run(&asked) {
        Ok(counts) => println!("air {counts}"),
        Err(fault) => {
            eprintln!("air: {fault}");
            exit(1);
        }
    }
}

fn asked<'a>(words: &[&'a str]) -> Option<Asked<'a>> {
    let [folder, table, order, seed, manner @ ..] = words else { return None };
    let order = match *order {
        "ascending" => ValueOrder::Ascending,
        "cheapest" => ValueOrder::CheapestFirst,
        _ => return None,
    };
    let (folder, table, seed) = (Path::new(*folder), Path::new(*table), seed.parse().ok()?);
    Some(Asked { folder, table, order, seed, manner: Manner::named(manner.iter().copied())? })
}

fn run(asked: &Asked) -> Result<String, String> {
    let Asked { folder, table, order, seed, manner } = *asked;
    let stream = sample::read(&fs::read(table).map_err(text)?).map_err(|refusal| format!("refused {refusal}"))?;
    let lent = Lent::new(&stream);
    let (mut air, mut shadows) = (Air::new(seed, lent.boxes, manner), Shadows::new(order, &lent));
    let radio = UnixDatagram::bind(folder.join("air")).map_err(text)?;
    let events = listen(folder, &radio).map_err(text)?;
    (1..=lent.boxes).for_each(|to| wait_for(&folder.join(to.to_string())));
    let mut off = false;
    while let Some(event) = next(&events, &air, off) {
        match event {
            Some(Event::Heard(from, bytes)) => {
                shadows.sent(from, &bytes)?;
                air.hear(&bytes)?;
            }
            Some(Event::Off) => off = true,
            None => {
                let Some((to, bytes)) = air.hand_on(off) else { continue };
                shadows.hand(to, &bytes);
                radio.send_to(&bytes, folder.join(to.to_string())).map_err(|error| format!("box {to}: {error}"))?;
            }
        }
    }
    shadows.ended()?;
    Ok(air.counts.to_string())
}

fn text(error: io::Error) -> String {
    error.to_string()
}

/// What has arrived, or that it is time to hand one on (none arrived); nothing at the end. Before one is handed on that isn't due the air listens for a
/// moment, as its answers may overtake it.
fn next(events: &Receiver<Event>, air: &Air, off: bool) -> Option<Option<Event>> {
    if let Ok(event) = events.try_recv() {
        return Some(Some(event));
    }
    match (air.is_empty(), off) {
        (true, true) => None,
        (true, false) => events.recv().ok().map(Some),
        (false, false) if !air.is_due() => match events.recv_timeout(QUIET) {
            Ok(event) => Some(Some(event)),
            Err(RecvTimeoutError::Timeout) => Some(None),
            Err(RecvTimeoutError::Disconnected) => None,
        },
        _ => Some(None),
    }
}

/// Starts the thread that listens, and the one that waits for the end of standard input. That one says so by an empty datagram from a
/// socket without a name, as no box has; so it comes behind all that was sent before.
fn listen(folder: &Path, radio: &UnixDatagram) -> io::Result<Receiver<Event>> {
    let (sender, receiver) = channel();
    let ear = radio.try_clone()?;
    thread::spawn(move || hear_all(&ear, &sender));
    let path = folder.join("air");
    thread::spawn(move || {
        let _ = io::copy(&mut io::stdin(), &mut io::sink());
        let _ = UnixDatagram::unbound().and_then(|switch| switch.send_to(&[], path));
    });
    Ok(receiver)
}

fn hear_all(ear: &UnixDatagram, sender: &Sender<Event>) {
    let mut datagram = [0; 128];
    while let Ok((length, from)) = ear.recv_from(&mut datagram) {
        let name = from.as_pathname().and_then(Path::file_name).and_then(OsStr::to_str);
        let event = match name {
            Some(name) => Event::Heard(name.parse().unwrap_or(0), datagram[..length].to_vec()),
            None => Event::Off,
        };
        let off = matches!(event, Event::Off);
        if sender.send(event).is_err() || off {
            return;
        }
    }
}

/// Until a box listens there, ten seconds at most: a box that never does is noticed when something is handed to it.
fn wait_for(path: &Path) {
    for _ in 0..5000 {
        match UnixDatagram::unbound().and_then(|probe| probe.connect(path)) {
            Err(error) if error.kind() != ErrorKind::PermissionDenied => thread::sleep(Duration::from_millis(2)),
            _ => return, // it is there, and denied where the box hears the air alone already
        }
    }
}
