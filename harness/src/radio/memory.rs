//! A look into the memory of boxes that have started (Linux: /proc): what touches a box is there, and nothing else of the table.
//!
//! Looked for are rows: the costs of one value of the lower unit of a pair beside all of the higher. They should be long and differ, as in
//! `largest.table`, where a row has 32 bytes.

use super::run::{in_folder, start_boxes, Setup};
use crate::reference::table;
use std::collections::HashMap;
use std::fs::{self, File};
use std::io;
use std::os::unix::fs::FileExt;
use std::os::unix::net::UnixDatagram;
use std::path::Path;
use std::thread;
use std::time::Duration;

/// How many rows of its own each box has, and how many of others it had to start with and keeps no more.
#[derive(Clone, Copy, PartialEq, Eq, Debug, Default)]
pub struct Looked {
    pub own: usize,
    pub gone: usize,
}

/// Starts the boxes of a table, with an air that carries nothing, and looks into each. An error where a row of its own is missing, or one of others
/// is there.
pub fn look(setup: &Setup, stream: &[u8]) -> Result<Looked, String> {
    in_folder(setup.seed, |folder| {
        let _air = UnixDatagram::bind(folder.join("air")).map_err(|error| error.to_string())?;
        let boxes = start_boxes(setup, folder)?;
        let rows = rows(stream);
        let mut looked = Looked::default();
        for (own, process) in (1..).zip(&boxes) {
            wait_for(&folder.join(own.to_string()));
            let seen =
                seen(&rows, &writable(process.number()).map_err(|error| format!("memory of box {own}: {error}"))?);
            let touches = |row: &Row| row.pair.0 == own || row.pair.1 == own;
            if let Some((row, there)) = rows.iter().zip(&seen).find(|(row, there)| touches(row) != **there) {
                let state = if *there { "has" } else { "has not" };
                return Err(format!("box {own} {state} in its memory a row of the pair {:?}", row.pair));
            }
            let count = rows.iter().filter(|row| touches(row)).count();
            looked = Looked { own: looked.own + count, gone: looked.gone + rows.len() - count };
        }
        Ok(looked)
    })
}

/// Until a box has its socket, by when it has kept what it keeps; ten seconds at most.
fn wait_for(socket: &Path) {
    let moment = Duration::from_millis(2);
    (0..5000).take_while(|_| !socket.exists()).for_each(|_| thread::sleep(moment));
}

struct Row<'a> {
    pair: (usize, usize),
    bytes: &'a [u8],
}

/// All rows of a stream of form one.
fn rows(stream: &[u8]) -> Vec<Row<'_>> {
    let (n, sizes) = table::head(stream);
    let mut at = 1 + usize::from(n);
    let mut rows = Vec::new();
    for i in 1..=n.into() {
        for j in i + 1..=n.into() {
            for _ in 0..sizes[i - 1] {
                let length = 2 * usize::from(sizes[j - 1]);
                rows.push(Row { pair: (i, j), bytes: &stream[at..at + length] });
                at += length;
            }
        }
    }
    rows
}

/// Which rows stand somewhere in memory. A row is looked for by its first eight bytes.
fn seen(rows: &[Row], memory: &[Vec<u8>]) -> Vec<bool> {
    let mut starts: HashMap<&[u8], Vec<usize>> = HashMap::new();
    rows.iter().enumerate().for_each(|(k, row)| starts.entry(&row.bytes[..8]).or_default().push(k));
    let mut seen = vec![false; rows.len()];
    for part in memory {
        for at in (0..part.len().saturating_sub(8)).filter(|at| part[*at..*at + 8] != [0; 8]) {
            for k in starts.get(&part[at..at + 8]).into_iter().flatten() {
                seen[*k] |= part[at..].starts_with(rows[*k].bytes);
            }
        }
    }
    seen
}

/// Each part of a process's memory that it can write. What stands side by side is one part, as a row may lie across.
fn writable(process: u32) -> io::Result<Vec<Vec<u8>>> {
    let memory = File::open(format!("/proc/{process}/mem"))?;
    let (mut parts, mut end) = (Vec::<Vec<u8>>::new(), 0);
    for line in fs::read_to_string(format!("/proc/{process}/maps"))?.lines() {
        let mut words = line.split_whitespace();
        let (Some(range), Some(rights)) = (words.next(), words.next()) else { continue };
        let Some((from, to)) = range.split_once('-') else { continue };
        let (Ok(from), Ok(to)) = (u64::from_str_radix(from, 16), u64::from_str_radix(to, 16)) else { continue };
        if rights.starts_with("rw") {
            let mut part = vec![0; (to - from) as usize];
            memory.read_exact_at(&mut part, from)?;
            match parts.last_mut() {
                Some(before) if end == from => before.append(&mut part),
                _ => parts.push(part),
            }
            end = to;
        }
    }
    Ok(parts)
}
