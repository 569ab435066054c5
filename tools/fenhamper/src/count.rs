//! `count`: how often each outcome came.
use crate::columns::{wrapped, Columns, WIDTH};
use crate::failure::Failure;
use crate::found::End;
use crate::io::{Io, Verdict};
use crate::progress::Progress;
use crate::sizes::lines;
use crate::stretch::Stretches;
use crate::who::{reading, thrown_away, Reading, Who, FILES, STATION};
use crate::words::{switch, valued, Command, Words};
use fenhamper::{Listener, Outcome, Sizes, State};
use std::ffi::OsStr;

/// The command.
pub const COUNT: Command = Command {
    name: "count",
    takes: "FILE..",
    does: "a table by outcome with shares, one row a file and a sum",
    about: "\
Each cell is how many Starts of the file had that outcome, and which share of its Starts that is.
Outcomes that no file has are named below the table. An open Start is one whose run has not ended
inside the file; it has no outcome. Timers that run at the end of a file are told below it.
With --sizes there is a second table, of all files together: how many frames of each length were
handed out, taken or dropped as control frames, and their octets, destination to FCS.",
    groups: &[
        (
            "What is counted",
            &[
                valued("--from", "PLACE", "reads from this place on"),
                switch(SIZES, "frames and octets by length too, with bars"),
            ],
        ),
        FILES,
        STATION,
    ],
    run,
};

const SIZES: &str = "--sizes";

/// The longest name of a file that is shown whole.
const NAME: usize = 30;

/// What was counted of a file.
pub struct Counted {
    /// The state after it: counters and timers.
    pub state: State,
    /// How it ended.
    pub end: End,
    /// Its frames by length, if that was asked for.
    pub sizes: Sizes,
}

/// Counts all that a file has, and frames by length if that is asked for.
pub fn count(
    stretches: &mut Stretches<'_>,
    listener: Listener<'_>,
    with_sizes: bool,
) -> Result<Counted, Failure> {
    let (mut state, mut sizes) = (State::default(), Sizes::new());
    let (mut starts, mut open) = (0, None);
    while let Some(stretch) = stretches.next_stretch()? {
        let walk = stretch.walk(listener, &mut state)?;
        if with_sizes {
            // an open end adds nothing here, and what it becomes with the next stretch
            sizes.add_capture(listener, stretch.capture)?;
        }
        starts += walk.starts as u64;
        if stretch.last && walk.open {
            open = stretch.open();
        }
    }
    let symbols = stretches.read();
    Ok(Counted {
        state,
        end: End {
            starts,
            open,
            symbols,
        },
        sizes,
    })
}

fn run(words: &Words, io: &mut Io<'_>) -> Result<Verdict, Failure> {
    let asked = Asked {
        who: Who::of(words)?,
        reading: reading(words)?,
        with_sizes: words.has(SIZES),
    };
    let (mut rows, mut verdict) = (Vec::new(), Verdict::default());
    for file in words.files()? {
        match asked.count(file, io) {
            Ok(row) => {
                verdict.thrown_away |= thrown_away(words, &row.state.counters());
                rows.push(row);
            }
            Err(failure) => verdict.failed |= io.goes_on(failure)?,
        }
    }
    if rows.is_empty() {
        return Ok(verdict);
    }
    let sum = sum(&rows);
    io.print(&told(&rows, &sum))?;
    if asked.with_sizes {
        io.print(&format!("\n{}", lines(&sum.sizes)))?;
    }
    Ok(verdict)
}

// A row of the table.
struct Row {
    name: String,
    state: State,
    starts: u64,
    open: u64,
    sizes: Sizes,
}

impl Row {
    fn count(&self, outcome: Outcome) -> u64 {
        self.state.counter(outcome)
    }
}

// What is counted of each file.
struct Asked {
    who: Who,
    reading: Reading,
    with_sizes: bool,
}

impl Asked {
    fn count(&self, file: &OsStr, io: &mut Io<'_>) -> Result<Row, Failure> {
        let progress = Progress::new(io.errors, io.terminal);
        let mut stretches = self.reading.open(file, io.input, progress)?;
        let counted = count(&mut stretches, self.who.listener(), self.with_sizes)?;
        Ok(Row {
            name: stretches.name().to_owned(),
            state: counted.state,
            starts: counted.end.starts,
            open: counted.end.open.is_some().into(),
            sizes: counted.sizes,
        })
    }
}

// All rows together.
fn sum(rows: &[Row]) -> Row {
    let counters = Outcome::ALL.map(|outcome| rows.iter().map(|row| row.count(outcome)).sum());
    let mut sizes = Sizes::new();
    for row in rows {
        sizes += row.sizes;
    }
    Row {
        name: "sum".to_owned(),
        state: State::with(counters, [0; 8]),
        starts: rows.iter().map(|row| row.starts).sum(),
        open: rows.iter().map(|row| row.open).sum(),
        sizes,
    }
}

// The table, what is not in it, and the timers.
fn told(rows: &[Row], sum: &Row) -> String {
    let (come, none): (Vec<_>, Vec<_>) = Outcome::ALL
        .into_iter()
        .partition(|&outcome| sum.count(outcome) > 0);
    let mut columns = Columns::default();
    columns.row(heads(&come));
    for row in rows {
        columns.row(cells(row, &come));
    }
    if rows.len() > 1 {
        columns.row(cells(sum, &come));
    }
    let none: Vec<&str> = none.into_iter().map(Outcome::name).collect();
    let mut text = columns.lines();
    if !none.is_empty() {
        let none = format!("none: {}", none.join(", "));
        // names stay whole
        let names = none.split_inclusive(", ").map(str::trim_end);
        text += &(wrapped(names, WIDTH).join("\n") + "\n");
    }
    text + &rows.iter().map(timers).collect::<String>()
}

fn heads(come: &[Outcome]) -> Vec<String> {
    let outcomes = come.iter().map(|outcome| outcome.name());
    let all = ["file", "Starts"]
        .into_iter()
        .chain(outcomes)
        .chain(["open"]);
    all.map(str::to_owned).collect()
}

fn cells(row: &Row, come: &[Outcome]) -> Vec<String> {
    let mut cells = vec![shortened(&row.name), row.starts.to_string()];
    let of = |outcome: &Outcome| share(row.count(*outcome), row.starts);
    cells.extend(come.iter().map(of));
    cells.push(row.open.to_string());
    cells
}

// A count, and which share of all it is, in tenths of a percent.
fn share(count: u64, all: u64) -> String {
    if count == 0 {
        return format!("0 {:>6}", "");
    }
    let tenths = (u128::from(count) * 2000 / u128::from(all)).div_ceil(2);
    format!("{count} {:>6}", format!("{}.{}%", tenths / 10, tenths % 10))
}

// A long name is known by its end.
fn shortened(name: &str) -> String {
    let letters: Vec<char> = name.chars().collect();
    if letters.len() <= NAME {
        return name.to_owned();
    }
    let end: String = letters[letters.len() - (NAME - 3)..].iter().collect();
    format!("...{end}")
}

// The timers that run at the end of a file.
fn timers(row: &Row) -> String {
    let timers = row.state.timers();
    if timers == [0; 8] {
        return String::new();
    }
    let texts: Vec<String> = (0..8)
        .map(|class| format!("{class}: {}", timers[class]))
        .collect();
    format!(
        "{}: timers by class, in slots\n  {}\n",
        row.name,
        texts.join("  ")
    )
}

#[cfg(test)]
mod tests {
    use super::*;

    #[test]
    fn shares_are_rounded() {
        let text = |count, all| share(count, all).replace(' ', "|");
        assert_eq!(text(1, 9), "1||11.1%");
        assert_eq!(text(2, 3), "2||66.7%");
        assert_eq!(text(9, 9), "9|100.0%");
        assert_eq!(text(1, 10_000), "1|||0.0%");
        assert_eq!(text(1, 2_000), "1|||0.1%");
        assert_eq!(text(u64::MAX, u64::MAX), format!("{}|100.0%", u64::MAX));
    }

    #[test]
    fn long_names_keep_their_ends() {
        let name = "captures/of/a/long/day/0123456789.capture";
        assert_eq!(shortened(name), "...long/day/0123456789.capture");
        assert_eq!(shortened("short"), "short");
    }
}
