//! `draw`: the line as a picture.
mod picture;
mod sign;
mod svg;

use crate::failure::Failure;
use crate::found::Found;
use crate::io::{Io, Verdict};
use crate::progress::Progress;
use crate::sink::Sink;
use crate::stretch::Stretches;
use crate::who::{reading, thrown_away, Who, FILES, STATION};
use crate::words::{valued, Command, Words, OUT};
use fenhamper::{Listener, State};
use picture::Picture;

/// The command.
pub const DRAW: Command = Command {
    name: "draw",
    takes: "FILE -o OUT.svg",
    does: "the line as a picture: Starts, runs and gaps, by outcome",
    about: "\
Rows of symbols from left to right. A flag is a Start, the box behind it its run, filled by outcome
with a colour and a pattern of its own; the thin line is Idle. Runs that are too short for a box are
drawn together, by the lowest outcome among them. A box says more where the pointer rests on it.
A picture shows 65,536 symbols at most, and octets where it shows 512 or fewer.",
    groups: &[
        (
            "The picture",
            &[
                valued(OUT, "OUT.svg", "where it is written; - is standard output"),
                valued("--from", "PLACE", "from this place on (0)"),
                valued(
                    "--to",
                    "PLACE",
                    "up to this place (the file's end, or 65,536 symbols on)",
                ),
            ],
        ),
        FILES,
        STATION,
    ],
    run,
};

/// The most symbols of a picture.
const MOST: u64 = 65_536;

fn run(words: &Words, io: &mut Io<'_>) -> Result<Verdict, Failure> {
    let [file] = words.exactly()?;
    let (who, reading) = (Who::of(words)?, reading(words)?);
    let from = reading.from;
    let to = to(words, from)?;
    let progress = Progress::new(io.errors, io.terminal);
    let mut stretches = reading.open(file, io.input, progress)?;
    let end = stretches.symbols().unwrap_or(u64::MAX);
    let places = from..to.unwrap_or(from + MOST).min(end);
    let mut picture = Picture::new(places);
    let whole = draw(&mut stretches, &mut picture, who.listener())?;
    let (name, own) = (stretches.name().to_owned(), who.settings().own());
    drop(stretches);
    let mut sink = Sink::open(words, Some(file), io.output)?;
    sink.write(picture.svg(&name, &own.to_string()).as_bytes())?;
    sink.finish()?;
    if to.is_none() && !whole {
        let to = picture.places().end;
        let what = format!("drawn from {from} to {to}; --from and --to show another part");
        io.complain(&Failure::input(&name, what));
    }
    Ok(Verdict {
        thrown_away: thrown_away(words, &picture.counters()),
        failed: false,
    })
}

// The place that a picture ends at, if one is named.
fn to(words: &Words, from: u64) -> Result<Option<u64>, Failure> {
    let Some(to) = words.number("--to", 0..=u64::MAX)? else {
        return Ok(None);
    };
    if to <= from || to - from > MOST {
        let what = format!("--to {to} is not 1 to {MOST} symbols behind --from {from}");
        return Err(words.wrong(&what));
    }
    Ok(Some(to))
}

// Draws stretch after stretch; whether the file ends in the picture.
fn draw(
    stretches: &mut Stretches<'_>,
    picture: &mut Picture,
    listener: Listener<'_>,
) -> Result<bool, Failure> {
    let mut state = State::default();
    while let Some(stretch) = stretches.next_stretch()? {
        let mut readings = stretch.capture.readings(listener, &mut state);
        let mut at = 0;
        for counted in readings.by_ref() {
            let counted = counted?;
            picture.gap(&stretch, at..counted.start);
            at = counted.next;
            picture.run(&Found::new(counted, stretch, listener));
        }
        let read = readings.place();
        picture.gap(&stretch, at..read);
        if stretch.last && readings.ended_open() {
            picture.open(&stretch, read);
        }
        if stretch.place(read) >= picture.places().end {
            break;
        }
    }
    let whole = stretches.at_end()?;
    if whole {
        picture.ends_at(stretches.read());
    }
    Ok(whole && stretches.read() <= picture.places().end)
}
