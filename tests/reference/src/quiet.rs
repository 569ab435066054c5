//! "Quiet means quiet", item 14 of document 02: a watch over any sequence of
//! calls on one state with fixed settings. It never asks a timer: what a reading
//! set it takes from the captured octets, and what a call wrote from the line.

use crate::check::Check;
use crate::frame::number_at;
use crate::line::{is_start, PREAMBLE};
use crate::log::{record, walk_log, RECORD_LEN};
use crate::plain::PlainReader;
use crate::port::Port;
use crate::receive::{read, walk_with, Answer, Reading};
use crate::send::{client_frame, idles, pause_frame, pfc_frame, Client, Line, Sent};
use crate::settings::{is_named, Settings, State};
use crate::table::Table;
use crate::totals::{blocks, fill_totals};

/// Symbols in a quantum: "the next 64 × q symbols that we write".
const QUANTUM: u64 = 64;

/// What is watched. Symbols are numbered from 0 on as they are written, by
/// whatever call and at whatever place.
#[derive(Clone, Copy, Debug, Default, PartialEq, Eq)]
pub struct Quiet {
    /// How many symbols were written: the number of the next one.
    pub written: u64,
    /// For each class the number of the first symbol that may be the Start of a
    /// client frame again.
    pub free: [u64; 8],
    /// How often a reading set a class.
    pub sets: usize,
    /// How many client frames started.
    pub starts: usize,
    /// How many client frames were refused with 9.
    pub held: usize,
}

/// A Start of a client frame that stands where it mustn't.
#[derive(Clone, Copy, Debug, PartialEq, Eq)]
pub struct Loud {
    /// Its class.
    pub class: u8,
    /// Its number.
    pub symbol: u64,
    /// The number of the first symbol that might have been it.
    pub free: u64,
}

impl Quiet {
    /// A reading set a class, 0 to 7, to so many quanta. A later one that sets it "again
    /// first" is the one that counts from then on.
    pub fn set(&mut self, class: u8, quanta: u16) {
        self.free[usize::from(class)] = self.written + QUANTUM * u64::from(quanta);
        self.sets += 1;
    }

    /// A call wrote these symbols, in their order. If it was asked for a client
    /// frame of a class, 0 to 7, each Start among them is one of that class:
    /// "Control frames and other classes may start."
    pub fn wrote(&mut self, client: Option<u8>, octets: &[u8], marks: &[u8]) -> Result<(), Loud> {
        for (&octet, &mark) in octets.iter().zip(marks) {
            if let Some(class) = client.filter(|_| is_start(octet, mark)) {
                let (symbol, free) = (self.written, self.free[usize::from(class)]);
                if symbol < free {
                    return Err(Loud {
                        class,
                        symbol,
                        free,
                    });
                }
                self.starts += 1;
            }
            self.written += 1;
        }
        Ok(())
    }

    /// How many symbols of quiet a class still has to get.
    pub fn left(&self, class: u8) -> u64 {
        self.free[usize::from(class)].saturating_sub(self.written)
    }
}

/// A way to read a capture.
#[derive(Clone, Copy, Debug, PartialEq, Eq)]
pub enum Hearing {
    /// One reading, from this place on.
    Read(usize),
    /// The walk.
    Walk,
    /// The walk that keeps its readings.
    WalkLog {
        /// From this place on.
        place: usize,
        /// Into a log of zero octets that has so many records.
        records: usize,
    },
    /// The plain reader, symbol by symbol.
    Plain,
}

/// What is written.
#[derive(Clone, Debug, PartialEq, Eq)]
pub enum Writing {
    /// A client frame with its data.
    Client(Client, Vec<u8>),
    /// A pause frame with its quanta.
    Pause(u16),
    /// A PFC frame with its class octet and quanta.
    Pfc(u8, [u16; 8]),
    /// So many Idles.
    Idle(usize),
}

/// A call on the state.
#[derive(Clone, Debug, PartialEq, Eq)]
pub enum Call {
    /// A call that reads.
    Hear {
        /// The job.
        job: u8,
        /// The table.
        table: Table,
        /// Octets and marks of its capture; the line that is written into, if
        /// there are none.
        capture: Option<(Vec<u8>, Vec<u8>)>,
        /// How it is read.
        how: Hearing,
    },
    /// A call that writes.
    Write {
        /// The port, for a frame.
        port: Port,
        /// The place.
        place: usize,
        /// In the form that takes the totals of the line, which are true.
        counting: bool,
        /// What it writes.
        what: Writing,
    },
}

/// Reads, and gives the outcome of each counted Start and its place.
#[allow(clippy::too_many_arguments)] // Those of the readings.
fn hear(
    kind: Check,
    s: &Settings,
    state: &mut State,
    job: u8,
    table: &Table,
    octets: &[u8],
    marks: &[u8],
    how: Hearing,
) -> Vec<(u8, usize)> {
    let mut heard = vec![];
    let mut see = |reading: &Reading| {
        if let Answer::Counted { outcome, .. } = reading.answer {
            heard.push((outcome, reading.start));
        }
    };
    match how {
        Hearing::Read(place) => see(&read(kind, s, state, job, table, octets, marks, place)),
        Hearing::Walk => {
            walk_with(kind, s, state, job, table, octets, marks, see);
        }
        Hearing::WalkLog { place, records } => {
            let mut log = vec![0; RECORD_LEN * records];
            walk_log(kind, s, state, job, table, octets, marks, place, &mut log);
            let records = (0..records).map_while(|number| record(&log, number).ok());
            heard.extend(records.map(|record| (record.outcome, record.place as usize)));
        }
        Hearing::Plain => {
            let (mut reader, mut start) = (PlainReader::new(*state), 0);
            for (place, (&octet, &mark)) in octets.iter().zip(marks).enumerate() {
                if let Ok(Some(ended)) = reader.take(kind, s, job, table, octet, mark) {
                    heard.push((ended.outcome, start));
                }
                if is_start(octet, mark) {
                    start = place;
                }
            }
            *state = *reader.state();
        }
    }
    heard
}

/// The quanta to which the frame behind this Start sets each class, by the outcome
/// that it got: with 8 and 9 the frame is there.
fn quanta_set(octets: &[u8], outcome: u8, start: usize) -> [Option<u16>; 8] {
    let frame = start + 1 + PREAMBLE.len();
    match outcome {
        8 => [Some(number_at(octets, frame + 16)); 8],
        9 => std::array::from_fn(|class| {
            let named = is_named(octets[frame + 17], class);
            named.then(|| number_at(octets, frame + 18 + 2 * class))
        }),
        _ => [None; 8],
    }
}

/// Writes into the line.
fn write(
    kind: Check,
    s: &Settings,
    state: &mut State,
    port: Port,
    line: Line,
    what: &Writing,
) -> Sent {
    match what {
        Writing::Client(client, data) => client_frame(kind, s, state, port, line, client, data),
        Writing::Pause(quanta) => pause_frame(kind, s, state, port, line, *quanta),
        Writing::Pfc(named, quanta) => pfc_frame(kind, s, state, port, line, *named, quanta),
        Writing::Idle(n) => idles(state, line, *n),
    }
    .into()
}

/// Makes these calls one after the other on one state, with one line to write into,
/// and watches them: "after a reading that sets a class to q quanta, none of the
/// next 64 × q symbols that we write is the Start of a client frame of that class,
/// unless a later reading sets that class again first". Any call may be refused.
///
/// Open point: the captures, jobs, tables, ports and places may be others each
/// time; only state and settings are "one" and "fixed".
pub fn run_quietly(
    kind: Check,
    s: &Settings,
    state: &mut State,
    octets: &mut [u8],
    marks: &mut [u8],
    calls: &[Call],
) -> Result<Quiet, Loud> {
    let mut quiet = Quiet::default();
    for call in calls {
        match call {
            Call::Hear {
                job,
                table,
                capture,
                how,
            } => {
                let (octets, marks) = match capture {
                    Some((octets, marks)) => (&octets[..], &marks[..]),
                    None => (&*octets, &*marks),
                };
                for (outcome, start) in hear(kind, s, state, *job, table, octets, marks, *how) {
                    for (class, quanta) in (0..).zip(quanta_set(octets, outcome, start)) {
                        if let Some(quanta) = quanta {
                            quiet.set(class, quanta);
                        }
                    }
                }
            }
            Call::Write {
                port,
                place,
                counting,
                what,
            } => {
                let mut totals = vec![0; blocks(octets.len())];
                let line = if *counting {
                    // Refused only where the call itself is.
                    let _ = fill_totals(octets, marks, &mut totals);
                    Line::with_totals(octets, marks, &mut totals, *place)
                } else {
                    Line::new(octets, marks, *place)
                };
                let client = match what {
                    Writing::Client(client, _) => Some(client.class),
                    _ => None,
                };
                match write(kind, s, state, *port, line, what) {
                    Sent::Wrote(after) => {
                        quiet.wrote(client, &octets[*place..after], &marks[*place..after])?;
                    }
                    Sent::Refused(9) => quiet.held += 1,
                    Sent::Refused(_) => (),
                }
            }
        }
    }
    Ok(quiet)
}
