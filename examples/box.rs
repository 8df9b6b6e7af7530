//! One box in Rust: this process is one unit, and all it knows of the others is the datagrams that reach it.
//!
//!     box NUMBER TABLE FOLDER [cheapest]      TABLE: a stored table, as harness/vectors/t.table
//!
//! It does what box.c does, which says how: it listens at FOLDER/NUMBER, what it sends goes to FOLDER/air, it prints a line when it has stopped
//! and one when its standard input ends. scripts/radio builds it, and runs it among others.

use std::io::{self, ErrorKind};
use std::os::unix::net::UnixDatagram;
use std::path::Path;
use std::process::exit;
use std::sync::atomic::{AtomicBool, Ordering};
use std::sync::Arc;
use std::thread;
use std::time::Duration;

mod riksamoe;
use riksamoe::*;

const CHEAPEST_FIRST: u8 = 1; // RIKSAMOE_CHEAPEST_FIRST
const MOMENT: Duration = Duration::from_millis(5);

// ---- the radio

/// The box's own socket, which hears the air alone. The air may come up later than the box: it is waited for, ten seconds at most.
fn tune(folder: &Path, own: u8) -> io::Result<UnixDatagram> {
    let radio = UnixDatagram::bind(folder.join(own.to_string()))?;
    let mut tries = 0;
    while let Err(error) = radio.connect(folder.join("air")) {
        tries += 1;
        if !matches!(error.kind(), ErrorKind::NotFound | ErrorKind::ConnectionRefused) || tries == 2000 {
            return Err(error);
        }
        thread::sleep(MOMENT);
    }
    radio.set_read_timeout(Some(4 * MOMENT))?;
    Ok(radio)
}

/// Where the air takes no more, sending waits; nothing is dropped.
fn transmit(radio: &UnixDatagram, packet: &Packet) -> io::Result<()> {
    while let Err(error) = radio.send(packet) {
        if error.kind() != ErrorKind::Interrupted {
            return Err(error);
        }
    }
    Ok(())
}

/// The box's switch: true once its standard input has ended.
fn switch() -> Arc<AtomicBool> {
    let off = Arc::new(AtomicBool::new(false));
    let told = Arc::clone(&off);
    thread::spawn(move || {
        let _ = io::copy(&mut io::stdin(), &mut io::sink());
        told.store(true, Ordering::Release);
    });
    off
}

// ---- what a box does

struct Set {
    node: Node,
    radio: UnixDatagram,
    told: bool,
    heard: u64,
    accepted: u64,
    sent: u64,
    records: u64,
    refused: [u64; 256],
}

impl Set {
    /// What was sent goes on the air; then the box's answer is told, once it has one.
    fn follow(&mut self, done: Done) -> io::Result<()> {
        done.sent.iter().try_for_each(|packet| transmit(&self.radio, packet))?;
        self.sent += done.sent.len() as u64;
        self.records += u64::from(done.records);
        if self.node.unit.stopped == 1 && !self.told {
            self.told = true;
            println!("{}", self.answer());
        }
        Ok(())
    }

    fn answer(&self) -> String {
        let Node { kept, unit, .. } = &self.node;
        let total = match unit.bound {
            u32::MAX => "none".to_string(), // every assignment has a forbidden pair
            total => total.to_string(),
        };
        let values: String = unit.best.iter().take(kept.n.into()).map(|value| format!(" {value}")).collect();
        format!("box {} total {total} values{values}", kept.own)
    }

    /// A datagram has arrived, and is lent as it came, however long. A refused one changes nothing, which is looked at here although it is
    /// proved.
    fn receive(&mut self, datagram: &[u8]) -> Result<(), String> {
        let before = self.node.unit;
        self.heard += 1;
        match self.node.receive(datagram) {
            Ok(done) => {
                self.accepted += 1;
                self.follow(done).map_err(failed("send"))
            }
            Err(refusal) if self.node.unit == before => {
                self.refused[usize::from(refusal)] += 1;
                Ok(())
            }
            Err(refusal) => {
                Err(format!("box {} is changed by a packet that it refuses by {refusal}", self.node.kept.own))
            }
        }
    }

    /// Listens until the box is switched off and nothing waits any more.
    fn listen(&mut self, off: &AtomicBool) -> Result<(), String> {
        let mut datagram = [0; 128]; // what is longer is cut, and is still no packet
        loop {
            let switched_off = off.load(Ordering::Acquire);
            match self.radio.recv(&mut datagram) {
                Ok(length) => self.receive(&datagram[..length])?,
                Err(error) => match error.kind() {
                    ErrorKind::WouldBlock | ErrorKind::TimedOut if switched_off => return Ok(()),
                    ErrorKind::WouldBlock | ErrorKind::TimedOut | ErrorKind::Interrupted => {}
                    _ => return Err(failed("recv")(error)),
                },
            }
        }
    }

    fn counts(&self) -> String {
        let Set { heard, accepted, sent, records, .. } = self;
        let refused = self.refused.iter().enumerate().filter(|(_, times)| **times > 0);
        let refused: String = refused.map(|(number, times)| format!(" {number}:{times}")).collect();
        let own = self.node.kept.own;
        format!("box {own} heard {heard} accepted {accepted} sent {sent} records {records} refused{refused}")
    }
}

fn run(own: u8, table: &str, folder: &str, order: u8) -> Result<(), String> {
    let kept = Kept::load(own, table)?;
    let radio = tune(Path::new(folder), own).map_err(failed(folder))?;
    let (node, done) = Node::make(order, kept).map_err(refused)?;
    let mut set = Set { node, radio, told: false, heard: 0, accepted: 0, sent: 0, records: 0, refused: [0; 256] };
    set.follow(done).map_err(failed("send"))?;
    set.listen(&switch())?;
    println!("{}", set.counts());
    Ok(())
}

fn usage() -> ! {
    eprintln!("usage: box NUMBER TABLE FOLDER [cheapest]");
    exit(2);
}

fn main() {
    let words: Vec<String> = std::env::args().skip(1).collect();
    let words: Vec<&str> = words.iter().map(String::as_str).collect();
    let (own, table, folder, order) = match words[..] {
        [own, table, folder] => (own, table, folder, ASCENDING),
        [own, table, folder, "cheapest"] => (own, table, folder, CHEAPEST_FIRST),
        _ => usage(),
    };
    let Ok(own) = own.parse() else { usage() };
    if let Err(what) = run(own, table, folder, order) {
        eprintln!("{what}");
        exit(1);
    }
}
