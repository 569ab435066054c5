//! Symbols as a short text.
use crate::generate::{Listener, Sending};
use std::fmt::Write;

/// Most pieces that are shown from either end of a shortened text.
const PIECES: usize = 40;

/// Octets in hexadecimal, a control symbol in brackets with its mark unless that is 1, and `x n`
/// for the same symbol n times. Only both ends of a long text are shown, unless it is to be whole.
pub fn symbols(octets: &[u8], marks: &[u8], whole: bool) -> String {
    let pieces = pieces(octets.iter().copied().zip(marks.iter().copied()), whole);
    format!("{} octets, {} marks: {pieces}", octets.len(), marks.len())
}

/// Octets alone.
pub fn octets(octets: &[u8], whole: bool) -> String {
    let pieces = pieces(octets.iter().map(|&octet| (octet, 0)), whole);
    format!("{} octets: {pieces}", octets.len())
}

fn pieces(symbols: impl Iterator<Item = (u8, u8)>, whole: bool) -> String {
    let mut pieces = Vec::new();
    let mut symbols = symbols.peekable();
    while let Some((octet, mark)) = symbols.next() {
        let mut times = 1;
        while symbols.next_if_eq(&(octet, mark)).is_some() {
            times += 1;
        }
        let mut piece = match mark {
            0 => format!("{octet:02X}"),
            1 => format!("[{octet:02X}]"),
            _ => format!("[{octet:02X} mark {mark}]"),
        };
        if times > 1 {
            let _ = write!(piece, " x {times}");
        }
        pieces.push(piece);
    }
    shortened(pieces, whole)
}

/// Both ends of a long list, or all of it.
fn shortened(mut pieces: Vec<String>, whole: bool) -> String {
    let left_out = pieces.len().saturating_sub(2 * PIECES);
    if left_out > 0 && !whole {
        pieces.splice(PIECES..PIECES + left_out, ["...".to_string()]);
    }
    pieces.join(", ")
}

/// A log, a group of digits for each record and for what is left over.
pub fn log(octets: &[u8], whole: bool) -> String {
    let digits = |slot: &[u8]| slot.iter().map(|octet| format!("{octet:02X}")).collect();
    let records: Vec<String> = octets.chunks(16).map(digits).collect();
    format!("{} octets: {}", octets.len(), shortened(records, whole))
}

/// A table, a group for each entry: holder, digits of the address, spare octet.
pub fn table(octets: &[u8]) -> String {
    let digits = |octets: &[u8]| -> String { octets.iter().map(|o| format!("{o:02X}")).collect() };
    let entry = |entry: &[u8]| format!("{} {} {}", entry[0], digits(&entry[1..7]), entry[7]);
    let entries: Vec<_> = octets.chunks_exact(8).map(entry).collect();
    format!("table: {}", entries.join(", "))
}

/// A job and the table.
pub fn listener(listener: &Listener) -> String {
    format!("job {}, {}", listener.job, table(&listener.octets))
}

/// Totals, `x n` behind one that stands n times.
pub fn totals(totals: &[u16], whole: bool) -> String {
    let equal = totals.chunk_by(|a, b| a == b);
    let piece = |run: &[u16]| match run.len() {
        1 => run[0].to_string(),
        times => format!("{} x {times}", run[0]),
    };
    let pieces = shortened(equal.map(piece).collect(), whole);
    format!("{} totals: {pieces}", totals.len())
}

/// A sending call but for settings, state, buffers and place.
pub fn sending(call: &Sending, whole: bool) -> String {
    match call {
        Sending::Client(client, data) => format!("{client:?}, data: {}", octets(data, whole)),
        other => format!("{other:?}"),
    }
}
