//! `list`: a line for each Start.
mod csv;
mod json;
mod plain;
mod table;

use crate::failure::Failure;
use crate::found::{each_found, End, Found};
use crate::io::{print, Io, Verdict};
use crate::names::parse_outcome;
use crate::progress::Progress;
use crate::source::Source;
use crate::stretch::Stretches;
use crate::who::{reading, thrown_away, Reading, Who, FILES, STATION};
use crate::words::{switch, valued, Command, Words};
use fenhamper::{Outcome, State};
use std::ffi::OsStr;

/// The command.
pub const LIST: Command = Command {
    name: "list",
    takes: "FILE..",
    does: "a line for each Start: place, outcome, addresses, tags, lengths, and why",
    about: "\
Columns: the Start's place in the file; its outcome; source > destination; tags, c5 a customer's
tag (0x8100) of VLAN 5 and s100 a service tag (0x88A8) of VLAN 100, the outermost first; octets of
the frame, destination to FCS; octets of data; and which address let the frame in, or why it was
thrown away. Of a wrong FCS that is the one that stands there != the one that should.",
    groups: &[
        (
            "What is listed",
            &[
                valued(
                    "--only",
                    "OUTCOME",
                    "only this outcome, by name (wrong-fcs) or number; may be given again and again",
                ),
                valued("--from", "PLACE", "reads from this place on"),
            ],
        ),
        (
            "How",
            &[
                switch(
                    "--plain",
                    "as the program readings prints it: place, outcome, status word, octets handed out",
                ),
                switch("--json", "as one JSON document, with all that is known of each Start"),
                switch("--csv", "as comma-separated values under a line of names, likewise"),
                valued("--colour", "auto|always|never", "colours outcomes (auto: on a terminal)"),
            ],
        ),
        FILES,
        STATION,
    ],
    run,
};

// How a list is written.
trait Format {
    // Before the first file.
    fn begin(&mut self) -> String {
        String::new()
    }
    // Before a file's first line.
    fn open(&mut self, file: &str, symbols: Option<u64>) -> String;
    // Of a Start.
    fn found(&mut self, found: &Found<'_>) -> String;
    // Behind a file's last line.
    fn close(&mut self, end: &End, state: &State) -> String;
    // Behind the last line of a file that could not be read to its end.
    fn broken(&mut self, _what: &Failure) -> String {
        String::new()
    }
    // In place of a file that is no capture.
    fn bad(&mut self) -> String {
        String::new()
    }
    // Behind the last file.
    fn end(&mut self) -> String {
        String::new()
    }
}

// The format that the flags name.
fn format(words: &Words, io: &Io<'_>, files: usize) -> Result<Box<dyn Format>, Failure> {
    let named = ["--plain", "--json", "--csv"].map(|flag| words.has(flag));
    if named.iter().filter(|&&named| named).count() > 1 {
        return Err(words.wrong("of --plain, --json and --csv one can be given"));
    }
    let colour = words.choice("--colour", &["auto", "always", "never"])?;
    let colours = match colour {
        Some(1) => true,
        Some(2) => false,
        _ => io.colours,
    };
    Ok(match named {
        [true, ..] => Box::new(plain::Plain),
        [_, true, _] => Box::new(json::Json::default()),
        [.., true] => Box::new(csv::Csv::default()),
        _ => Box::new(table::Table::new(colours, files > 1)),
    })
}

// The outcomes that are listed.
fn only(words: &Words) -> Result<Vec<Outcome>, Failure> {
    let texts = words.texts("--only")?;
    if texts.is_empty() {
        return Ok(Outcome::ALL.to_vec());
    }
    let outcome = |text| {
        let names = Outcome::ALL.map(|outcome| outcome.name().replace(' ', "-"));
        let names = names.join(", ");
        let wrong = || words.wrong(&format!("--only {text}: no outcome; there are {names}"));
        parse_outcome(text).ok_or_else(wrong)
    };
    texts.into_iter().map(outcome).collect()
}

fn run(words: &Words, io: &mut Io<'_>) -> Result<Verdict, Failure> {
    let asked = Asked {
        who: Who::of(words)?,
        only: only(words)?,
        reading: reading(words)?,
    };
    let files = words.files()?;
    let mut format = format(words, io, files.len())?;
    let mut verdict = Verdict::default();
    io.print(&format.begin())?;
    for file in files {
        match asked.list(format.as_mut(), file, io) {
            Ok(state) => verdict.thrown_away |= thrown_away(words, &state.counters()),
            Err(failure) => verdict.failed |= io.goes_on(failure)?,
        }
    }
    io.print(&format.end())?;
    Ok(verdict)
}

// What is listed of each file.
struct Asked {
    who: Who,
    only: Vec<Outcome>,
    reading: Reading,
}

impl Asked {
    fn list(
        &self,
        format: &mut dyn Format,
        file: &OsStr,
        io: &mut Io<'_>,
    ) -> Result<State, Failure> {
        let source = Source::open(file, io.input)?;
        let (output, mut state) = (&mut *io.output, State::default());
        // where the list itself is seen to grow, nothing is written between its lines
        let progress = Progress::new(io.errors, io.terminal && !io.shown);
        let mut stretches = match Stretches::new(source, self.reading.force) {
            Ok(stretches) => stretches.telling(progress).from(self.reading.from)?,
            Err(failure) => {
                print(output, &format.bad())?;
                return Err(failure);
            }
        };
        print(output, &format.open(stretches.name(), stretches.symbols()))?;
        let (listener, take) = (self.who.listener(), |found: &Found<'_>| {
            if self.only.contains(&found.outcome()) {
                print(output, &format.found(found))?;
            }
            Ok(())
        });
        let listed = each_found(&mut stretches, listener, &mut state, take);
        match listed {
            Ok(end) => print(output, &format.close(&end, &state))?,
            Err(failure) => {
                print(output, &format.broken(&failure))?;
                return Err(failure);
            }
        }
        Ok(state)
    }
}
