//! Symbols in hexadecimal, with marks under those that are evidence.
use crate::names::control_name;
use std::ops::Range;

/// Symbols in a row.
pub const ROW: usize = 16;

/// A symbol and its place in the file.
#[derive(Clone, Copy, Debug)]
pub struct Symbol {
    /// Its place.
    pub place: u64,
    /// Its octet.
    pub octet: u8,
    /// Its mark.
    pub mark: u8,
}

/// What the signs mean.
pub const LEGEND: &str =
    "/S/ Start  /T/ Terminate  /I/ Idle  /E/ Error  *9C another control symbol  ^^ evidence\n";

/// Parts of a file in rows, each with a line of marks below it where it has evidence. Each part
/// begins a row. Rows that are neither near the evidence nor near the ends are left out.
#[must_use]
pub fn dump(parts: &[&[Symbol]], evidence: &[Range<u64>]) -> String {
    let rows: Vec<&[Symbol]> = parts.iter().flat_map(|part| rows(part)).collect();
    let near = near(&rows, evidence);
    let mut text = head();
    let mut left_out = false;
    for (row, near) in rows.iter().zip(near) {
        if near {
            text += &line(row);
            text += &marks(row, evidence);
        } else if !left_out {
            text += &format!("{:>9}\n", "...");
        }
        left_out = !near;
    }
    text
}

// Sixteen symbols each, fewer where places go on elsewhere.
fn rows(part: &[Symbol]) -> impl Iterator<Item = &[Symbol]> {
    let joined = part.chunk_by(|a, b| a.place + 1 == b.place);
    joined.flat_map(|joined| joined.chunks(ROW))
}

// Which rows are shown: the first three, the last two, and those beside an end of the evidence.
fn near(rows: &[&[Symbol]], evidence: &[Range<u64>]) -> Vec<bool> {
    let holds = |row: &[Symbol], place| row.iter().any(|symbol| symbol.place == place);
    let ends = |row: &&[Symbol]| {
        evidence
            .iter()
            .any(|range| holds(row, range.start) || holds(row, range.end.saturating_sub(1)))
    };
    let marked: Vec<bool> = rows.iter().map(ends).collect();
    let beside = |at: usize| marked.get(at).copied().unwrap_or_default();
    let is_near = |at: usize| {
        at < 3 || at + 2 >= rows.len() || beside(at) || beside(at + 1) || at > 0 && beside(at - 1)
    };
    (0..rows.len()).map(is_near).collect()
}

fn head() -> String {
    let columns: Vec<String> = (0..ROW).map(|n| format!(" {n:>2}")).collect();
    format!("{:>9} {}\n", "place", columns.join(" "))
}

fn line(row: &[Symbol]) -> String {
    let place = row.first().map_or(0, |symbol| symbol.place);
    let cells: String = row.iter().map(|symbol| cell(*symbol)).collect();
    let letters: String = row.iter().map(|symbol| letter(*symbol)).collect();
    format!("{place:>9} {cells:width$} |{letters}|\n", width = 4 * ROW)
}

// A line of marks, where the row has any.
fn marks(row: &[Symbol], evidence: &[Range<u64>]) -> String {
    let is_marked = |symbol: &Symbol| evidence.iter().any(|range| range.contains(&symbol.place));
    if !row.iter().any(is_marked) {
        return String::new();
    }
    let mark = |symbol| if is_marked(symbol) { " ^^ " } else { "    " };
    let marks: String = row.iter().map(mark).collect();
    format!("{:>9} {marks}", "").trim_end().to_owned() + "\n"
}

// Four letters wide.
fn cell(symbol: Symbol) -> String {
    if symbol.mark == 0 {
        return format!(" {:02X} ", symbol.octet);
    }
    match control_name(symbol.octet) {
        Some(name) => format!("/{}/ ", &name[..1]),
        None => format!("*{:02X} ", symbol.octet),
    }
}

// Data that is a letter, as it is.
fn letter(symbol: Symbol) -> char {
    match symbol {
        Symbol { mark: 0, octet, .. } if matches!(octet, b' '..=b'~') => char::from(octet),
        _ => '.',
    }
}

#[cfg(test)]
mod tests {
    use super::*;

    #[test]
    fn far_rows_are_left_out_and_gaps_begin_a_row() {
        let symbol = |place| Symbol {
            place,
            octet: 0x41,
            mark: 0,
        };
        let symbols: Vec<Symbol> = (0..400).chain(1000..1010).map(symbol).collect();
        let text = dump(&[&symbols], &[100..101, 1009..1010]);
        let places: Vec<&str> = text.lines().map(|line| line[..9].trim()).collect();
        let expected = "place 0 16 32 ... 80 96  112 ... 384 1000 ";
        assert_eq!(places, expected.split(' ').collect::<Vec<_>>());
        assert!(text.lines().all(|line| line.len() <= 94));
    }
}
