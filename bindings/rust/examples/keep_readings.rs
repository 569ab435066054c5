//! Keeps the readings of a capture file in logs of four records each, and prints them. Where a log is
//! full, the walk goes on with another:
//!
//!     cargo run --example keep_readings ../../samples/first.capture
use fenhamper::{limits, records, Capture, End, Kept, Log, LogView, Refusal, Station, Status};
use std::error::Error;
use std::io::{self, Write};
use std::{env, fs};

/// Keeps the readings of a capture in logs of so many records. Each is lent out once nothing more is
/// appended to it, to be sent away or written to a file.
///
/// # Errors
///
/// A refusal of the walk.
pub fn keep(
    station: &mut Station,
    capture: Capture,
    capacity: usize,
    mut take: impl FnMut(LogView),
) -> Result<Kept, Refusal> {
    let mut octets = vec![0; capacity * limits::RECORD_SIZE];
    let mut place = 0;
    loop {
        let mut log = Log::new(&mut octets)?;
        let kept = station.walk_log(capture, place, &mut log)?;
        take(log.view());
        // a log with no record would be full again and again
        if kept.end != End::Full || kept.records == 0 {
            return Ok(kept);
        }
        // the next one begins as all zeros
        octets.fill(0);
        place = kept.next;
    }
}

/// Prints a line for each log, one for each of its records, and one for an open Start.
///
/// # Errors
///
/// Records that are no capture, and what `out` cannot take.
pub fn print(records: &[u8], capacity: usize, out: &mut impl Write) -> Result<(), Box<dyn Error>> {
    let mut octets = vec![0; limits::MOST_SYMBOLS];
    let mut marks = vec![0; limits::MOST_SYMBOLS];
    let capture = records::capture(records, &mut octets, &mut marks)?;

    let mut logs = Vec::new();
    let kept = keep(&mut Station::default(), capture, capacity, |log| {
        logs.push(log.octets().to_vec());
    })?;
    for (number, octets) in (1..).zip(&logs) {
        let log = LogView::new(octets)?;
        let (used, capacity) = (log.used(), log.capacity());
        writeln!(out, "log {number}, {used} of {capacity} records:")?;
        print_log(log, out)?;
    }
    if kept.end == End::Open {
        writeln!(out, "{:6} open", kept.next)?;
    }
    Ok(())
}

// Place, outcome, which address let the frame in, octets handed out and status of each record.
fn print_log(log: LogView, out: &mut impl Write) -> io::Result<()> {
    for record in log {
        write!(out, "{:6} ", record.place)?;
        match record.outcome() {
            Some(outcome) => write!(out, "{outcome}")?,
            // no reading gives such a record
            None => write!(out, "outcome {}", record.outcome_number)?,
        }
        if let Some(way) = record.way() {
            write!(out, " ({way})")?;
        }
        if record.status != Status::default() {
            write!(out, ": {} octets; {}", record.data_length, record.status)?;
        }
        writeln!(out)?;
    }
    Ok(())
}

fn main() -> Result<(), Box<dyn Error>> {
    let name = env::args().nth(1).ok_or("which capture file?")?;
    print(&fs::read(name)?, 4, &mut io::stdout().lock())
}
