//! Reads a capture file, records of mark then octet, as the printing program's station, and prints
//! each reading with names:
//!
//!     cargo run --example read_capture ../../samples/first.capture
use fenhamper::{limits, records, Counted, Outcome, Station, Status};
use std::error::Error;
use std::io::{self, Write};
use std::{env, fs};

/// Prints a line for each counted Start, one for an open one, and how often each outcome came.
///
/// # Errors
///
/// Records that are no capture, and what `out` cannot take.
pub fn print(records: &[u8], out: &mut impl Write) -> Result<(), Box<dyn Error>> {
    let mut octets = vec![0; limits::MOST_SYMBOLS];
    let mut marks = vec![0; limits::MOST_SYMBOLS];
    let capture = records::capture(records, &mut octets, &mut marks)?;

    let mut station = Station::default();
    let mut readings = station.readings(capture);
    for counted in readings.by_ref() {
        print_counted(&counted?, out)?;
    }
    if readings.ended_open() {
        writeln!(out, "{:6} open", readings.place())?;
    }

    for outcome in Outcome::ALL {
        let count = station.state.counter(outcome);
        if count > 0 {
            writeln!(out, "{count:6} {outcome}")?;
        }
    }
    Ok(())
}

// Place, outcome, status, and what the frame has of addresses, tags and field.
fn print_counted(counted: &Counted, out: &mut impl Write) -> io::Result<()> {
    let frame = counted.frame();
    write!(out, "{:6} {}", counted.start, counted.outcome)?;
    if counted.status != Status::default() {
        write!(out, ": {}", counted.status)?;
    }
    if let Some(destination) = frame.destination() {
        write!(out, "; to {destination}")?;
    }
    if let Some(source) = frame.source() {
        write!(out, " from {source}")?;
    }
    for tag in frame.tags() {
        write!(out, ", tag {:04X} {:04X}", tag.kind.number(), tag.control)?;
    }
    match frame.field() {
        Some(field) if field >= limits::LEAST_TYPE => write!(out, ", type {field:04X}")?,
        Some(field) => write!(out, ", length {field}")?,
        None => {}
    }
    writeln!(out)
}

fn main() -> Result<(), Box<dyn Error>> {
    let name = env::args().nth(1).ok_or("which capture file?")?;
    print(&fs::read(name)?, &mut io::stdout().lock())
}
