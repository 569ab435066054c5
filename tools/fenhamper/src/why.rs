//! `why`: the reason of one Start's outcome, with the octets around it.
use crate::dump::{dump, Symbol, LEGEND, ROW};
use crate::evidence::evidence;
use crate::failure::Failure;
use crate::found::{first_found, First, Found, BEFORE_FRAME};
use crate::io::{print, Io, Verdict};
use crate::names::{control_text, field_text, octets, whole_tag};
use crate::progress::Progress;
use crate::stretch::Stretch;
use crate::who::{reading, thrown_away, Reading, Who, FILES, STATION};
use crate::words::{number, Command, Words};
use fenhamper::State;
use std::ops::Range;

/// The command.
pub const WHY: Command = Command {
    name: "why",
    takes: "FILE PLACE",
    does: "why a Start has its outcome, with the evidence marked in the octets around it",
    about: "\
The Start is the first one at PLACE or later. The symbols around it are shown in hexadecimal, of a
long frame those near the evidence and near its ends. Nothing else of the file is read.",
    groups: &[FILES, STATION],
    run,
};

fn run(words: &Words, io: &mut Io<'_>) -> Result<Verdict, Failure> {
    let [file, place] = words.exactly()?;
    let place = place.to_str().and_then(number);
    let from = place.ok_or_else(|| words.wrong("PLACE is a number from 0 on"))?;
    let (who, mut state) = (Who::of(words)?, State::default());
    let reading = Reading {
        from,
        ..reading(words)?
    };
    let progress = Progress::new(io.errors, io.terminal);
    let mut stretches = reading.open(file, io.input, progress)?;
    let told = |found: &Found<'_>| told(found, from);
    let found = first_found(&mut stretches, who.listener(), &mut state, told)?;
    let text = match found {
        First::Found(text) => text,
        First::Open(start) => {
            format!("the Start at {start} is open: the file ends inside its run\n")
        }
        First::Nothing(end) => format!("no Start from {from} up to the end at {end}\n"),
    };
    print(io.output, &format!("{}: {text}", stretches.name()))?;
    Ok(Verdict {
        thrown_away: thrown_away(words, &state.counters()),
        failed: false,
    })
}

// All that is said of the first Start from a place on.
fn told(found: &Found<'_>, from: u64) -> String {
    let (start, next) = (found.start(), found.next());
    let (r, frame, evidence) = (&found.counted, found.frame(), evidence(found));
    let ended = control_text(found.stretch.capture.octets[r.next]);
    let mut text = if start == from {
        format!("the Start at {start}: {}\n", r.outcome)
    } else {
        format!(
            "the first Start from {from} on, at {start}: {}\n",
            r.outcome
        )
    };
    let mut say = |name: &str, what: &str| text += &format!("  {name:12}{what}\n");
    say("why", &found.reason().to_string());
    say("evidence", &evidence.words);
    let frame_at = match found.frame_length() {
        0 => "none".to_owned(),
        length => format!("{} from {}", octets(length), start + BEFORE_FRAME),
    };
    say("frame", &format!("{frame_at}, ended by {ended} at {next}"));
    if let Some(destination) = frame.destination() {
        say("destination", &destination.to_string());
    }
    if let Some(source) = frame.source() {
        say("source", &source.to_string());
    }
    let tags: Vec<String> = frame.tags().map(whole_tag).collect();
    if !tags.is_empty() {
        say("tags", &tags.join(", "));
    }
    if let Some(field) = frame.field() {
        say("field", &field_text(field));
    }
    if let Some(way) = r.way {
        say("let in by", &way.to_string());
    }
    let [before, behind] = around(found);
    text + "\n" + &dump(&[&before, &behind], &evidence.places) + "\n" + LEGEND
}

// The row before the Start, and from the Start on to the end of the row in which the run ends.
fn around(found: &Found<'_>) -> [Vec<Symbol>; 2] {
    let (start, end) = (found.counted.start, found.counted.next + 1);
    let rest = (end - start).next_multiple_of(ROW);
    let length = found.stretch.capture.octets.len();
    let mut before = kept(&found.stretch);
    before.extend(symbols(&found.stretch, start.saturating_sub(ROW)..start));
    before.drain(..before.len().saturating_sub(ROW));
    [
        before,
        symbols(&found.stretch, start..length.min(start + rest)),
    ]
}

// The symbols right before a stretch.
fn kept(stretch: &Stretch<'_>) -> Vec<Symbol> {
    let first = stretch.place(0) - stretch.before.len() as u64;
    let symbol = |(place, &(octet, mark))| Symbol { place, octet, mark };
    (first..).zip(stretch.before).map(symbol).collect()
}

// Symbols of a stretch.
fn symbols(stretch: &Stretch<'_>, places: Range<usize>) -> Vec<Symbol> {
    let symbol = |at| Symbol {
        place: stretch.place(at),
        octet: stretch.capture.octets[at],
        mark: stretch.capture.marks[at],
    };
    places.map(symbol).collect()
}
