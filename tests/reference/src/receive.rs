//! "Reading one Start", "Control frames" and the walk over a capture; "Which
//! address let it in?", item 7 of document 02. What the rules give is a reason
//! by item 8, and the reading has its outcome. By item 10 it is a job that reads,
//! with the table that has the listed addresses.

use crate::check::Check;
use crate::frame::{number_at, Frame, MIN_FRAME};
use crate::line::{find_control, find_start, PAUSE_OPCODE, PFC_OPCODE};
use crate::line::{PREAMBLE, RESERVED_GROUP, TERMINATE};
use crate::reason::Reason;
use crate::refusal::{self, Checked};
use crate::settings::{Flow, Settings, State, BY_NONE, BY_RESERVED_GROUP};
use crate::table::Table;

/// What a reading answers.
#[derive(Clone, Copy, Debug, PartialEq, Eq)]
pub enum Answer {
    /// Refused, with the number of the refusal.
    Refused(u8),
    /// No further Start.
    None,
    /// A Start whose run hasn't ended.
    Open,
    /// A Start that was counted.
    Counted {
        /// Number of the outcome, 1 to 11.
        outcome: u8,
        /// The status word.
        status: u64,
        /// Where the client data begins in the captured octets; 0 for
        /// outcomes 1 to 10.
        at: usize,
        /// How many octets of client data are handed out; 0 for outcomes 1
        /// to 10.
        len: usize,
        /// Which address let it in: 1 own, 6 broadcast, 7 promiscuous only, 8
        /// the reserved group of a control frame, 16 to 31 the entry of the
        /// table that matches; 0 for outcomes 1 to 7.
        address: u8,
    },
}

/// A reading: the answer and its two places.
#[derive(Clone, Copy, Debug, PartialEq, Eq)]
pub struct Reading {
    /// The answer.
    pub answer: Answer,
    /// The Start's place.
    pub start: usize,
    /// The next place.
    pub next: usize,
}

/// How a walk ended.
#[derive(Clone, Copy, Debug, PartialEq, Eq)]
pub enum Walked {
    /// Refused, with the number of the refusal; the state is unchanged.
    Refused(u8),
    /// All of the capture was read.
    Ended {
        /// The number of counted Starts.
        starts: usize,
        /// The walk ended `open`.
        open: bool,
    },
}

/// What is done with a frame that passed rules 1 to 7.
enum Use {
    Pause(u16),
    Pfc { named: u8, quanta: [u16; 8] },
    Drop,
    HandOut { length: usize },
}

/// A frame that passed rules 1 to 7.
pub(crate) struct Taken<'a> {
    frame: Frame<'a>,
    /// The place of the destination's first octet.
    frame_at: usize,
    what: Use,
    address: u8,
}

impl Taken<'_> {
    /// Why it has its outcome.
    pub(crate) fn reason(&self) -> Reason {
        let opcode = number_at(self.frame.data(), 0);
        match self.what {
            Use::Pause(_) => Reason::PauseTaken { opcode },
            Use::Pfc { .. } => Reason::PfcTaken { opcode },
            Use::Drop => Reason::ControlDropped { opcode },
            Use::HandOut { length } => Reason::HandedOut {
                place: self.frame_at + self.frame.data_at(),
                length,
            },
        }
    }

    /// Sets the timers that a pause or PFC frame names.
    fn set_timers(&self, state: &mut State) {
        match &self.what {
            Use::Pause(quanta) => state.pause(*quanta),
            Use::Pfc { named, quanta } => state.pause_classes(*named, quanta),
            Use::Drop | Use::HandOut { .. } => (),
        }
    }

    /// "Status word".
    fn status(&self) -> u64 {
        let all = self.frame.data().len();
        match self.what {
            Use::Pause(_) => self.frame.status(all) | 1 << 35,
            Use::Pfc { .. } => self.frame.status(all) | 1 << 39,
            Use::Drop => self.frame.status(all),
            Use::HandOut { length } => self.frame.status(length),
        }
    }
}

/// Which address lets a frame in: "Every control frame to the reserved group
/// says 8, listed or not." Nothing refuses one to the own address, which is the
/// first that the address rule tries.
fn address(s: &Settings, job: u8, table: &Table, frame: &Frame) -> u8 {
    if frame.is_control() && frame.destination == RESERVED_GROUP {
        BY_RESERVED_GROUP
    } else {
        s.let_in_by(job, table, &frame.destination)
    }
}

/// "Control frames": rules 8 to 11 for a frame whose first field is 0x8808.
/// It isn't undersized and has no tag, so its data is 46 octets or more, and
/// all the octets named here are there.
fn control_use(s: &Settings, frame: &Frame) -> Use {
    let data = frame.data();
    let opcode = number_at(data, 0);
    let to_group = frame.destination == RESERVED_GROUP;
    let to_us = to_group || frame.destination == s.own;

    if to_us && opcode == PAUSE_OPCODE && s.flow == Flow::Pause {
        return Use::Pause(number_at(data, 2));
    }
    if to_group && opcode == PFC_OPCODE && s.flow == Flow::Pfc {
        // data[2] is the unused octet.
        return Use::Pfc {
            named: data[3],
            quanta: std::array::from_fn(|class| number_at(data, 4 + 2 * class)),
        };
    }
    if s.pass_control {
        Use::HandOut { length: data.len() }
    } else {
        Use::Drop
    }
}

/// What is wrong with the preamble of the run behind the Start, if anything is.
fn preamble(run: &[u8], start: usize) -> Option<Reason> {
    if run.len() < PREAMBLE.len() {
        return Some(Reason::ShortRun { length: run.len() });
    }
    let mut pairs = run.iter().zip(PREAMBLE);
    let wrong = pairs.position(|(&octet, right)| octet != right)?;
    let place = start + 1 + wrong;
    Some(Reason::WrongPreamble { place })
}

/// The rules in their order, for the Start at `start` whose run ends with the
/// control symbol at `end`. An error is the reason of an outcome from 1 to 7.
pub(crate) fn judge<'a>(
    kind: Check,
    s: &Settings,
    job: u8,
    table: &Table,
    octets: &'a [u8],
    start: usize,
    end: usize,
) -> Result<Taken<'a>, Reason> {
    let (run, octet) = (&octets[start + 1..end], octets[end]);
    if octet != TERMINATE {
        return Err(Reason::Cut { place: end, octet });
    }
    if let Some(wrong) = preamble(run, start) {
        return Err(wrong);
    }
    let octets = &run[PREAMBLE.len()..];
    let length = octets.len();
    let frame = Frame::parse(octets).ok_or(Reason::Undersized {
        length,
        limit: MIN_FRAME,
    })?;
    let limit = frame.limit(s.limit);
    if length > limit {
        return Err(Reason::Oversized { length, limit });
    }
    let (stands, computed) = frame.checks(kind);
    if stands != computed {
        return Err(Reason::WrongFcs { stands, computed });
    }
    let data = frame.data().len();
    let length = if s.checking {
        let field = frame.field;
        let wrong = Reason::WrongLength { field, data };
        frame.checked_length().ok_or(wrong)?
    } else {
        data
    };
    let address = address(s, job, table, &frame);
    if address == BY_NONE {
        let destination = frame.destination;
        return Err(Reason::Filtered { destination });
    }
    let what = if frame.is_control() {
        control_use(s, &frame)
    } else {
        Use::HandOut { length }
    };
    Ok(Taken {
        frame,
        frame_at: start + 1 + PREAMBLE.len(),
        what,
        address,
    })
}

/// Counts the outcome, sets the timers and forms the answer.
fn settle(state: &mut State, judged: Result<Taken, Reason>) -> Answer {
    let (reason, status, address) = match judged {
        Err(reason) => (reason, 0, BY_NONE),
        Ok(taken) => {
            taken.set_timers(state);
            (taken.reason(), taken.status(), taken.address)
        }
    };
    let (at, len) = match reason {
        Reason::HandedOut { place, length } => (place, length),
        _ => (0, 0),
    };
    state.count(reason.of());
    Answer::Counted {
        outcome: reason.outcome(),
        status,
        at,
        len,
        address,
    }
}

/// Refusals 1, 14, 2, 3 and 20.
pub(crate) fn check(
    s: &Settings,
    job: u8,
    table: &Table,
    octets: &[u8],
    marks: &[u8],
    place: usize,
) -> Checked {
    refusal::settings(s)?;
    refusal::job(job)?;
    refusal::line(octets, marks, place)?;
    refusal::table(table)
}

/// What there is at a place or later.
pub(crate) enum Found {
    /// Refused, with the number of the refusal.
    Refused(u8),
    /// No further Start.
    None,
    /// A Start whose run hasn't ended.
    Open { start: usize },
    /// A Start whose run ends with the control symbol at `end`.
    Run { start: usize, end: usize },
}

/// Finds the first Start at `place` or later and its run.
pub(crate) fn find(
    s: &Settings,
    job: u8,
    table: &Table,
    octets: &[u8],
    marks: &[u8],
    place: usize,
) -> Found {
    if let Err(number) = check(s, job, table, octets, marks, place) {
        return Found::Refused(number);
    }
    let Some(start) = find_start(octets, marks, place) else {
        return Found::None;
    };
    match find_control(marks, start + 1) {
        None => Found::Open { start },
        Some(end) => Found::Run { start, end },
    }
}

/// Reads the first Start at `place` or later, for a job whose capture this is.
/// Gives 1, 14, 2, 3 and 20, in that order.
#[allow(clippy::too_many_arguments)] // The shape is that of the compared call.
pub fn read(
    kind: Check,
    s: &Settings,
    state: &mut State,
    job: u8,
    table: &Table,
    octets: &[u8],
    marks: &[u8],
    place: usize,
) -> Reading {
    let at = |answer, start, next| Reading {
        answer,
        start,
        next,
    };
    match find(s, job, table, octets, marks, place) {
        Found::Refused(number) => at(Answer::Refused(number), place, place),
        Found::None => at(Answer::None, octets.len(), octets.len()),
        Found::Open { start } => at(Answer::Open, start, start),
        Found::Run { start, end } => {
            let judged = judge(kind, s, job, table, octets, start, end);
            at(settle(state, judged), start, end)
        }
    }
}

/// Walks a capture and shows each counted reading to `see`. Every reading
/// goes on where the last one stopped, so each symbol is looked at a fixed
/// number of times.
#[allow(clippy::too_many_arguments)] // Those of the walk, and `see`.
pub(crate) fn walk_with(
    kind: Check,
    s: &Settings,
    state: &mut State,
    job: u8,
    table: &Table,
    octets: &[u8],
    marks: &[u8],
    mut see: impl FnMut(&Reading),
) -> Walked {
    let mut place = 0;
    let mut starts = 0;
    loop {
        let reading = read(kind, s, state, job, table, octets, marks, place);
        let open = match reading.answer {
            // Only the first reading can be refused, before anything changed.
            Answer::Refused(number) => return Walked::Refused(number),
            Answer::Counted { .. } => {
                see(&reading);
                starts += 1;
                place = reading.next;
                continue;
            }
            Answer::None => false,
            Answer::Open => true,
        };
        return Walked::Ended { starts, open };
    }
}

/// Readings from place 0 until `none` or `open`.
///
/// Open point: document 01 knows no call for the walk. It is refused as its
/// first reading is, and `starts` is the number of counted Starts, as in the
/// last line of the printing program.
pub fn walk(
    kind: Check,
    s: &Settings,
    state: &mut State,
    job: u8,
    table: &Table,
    octets: &[u8],
    marks: &[u8],
) -> Walked {
    walk_with(kind, s, state, job, table, octets, marks, |_| ())
}
