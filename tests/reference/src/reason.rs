//! "Why was it thrown away?", item 8 of document 02: the reason of each outcome
//! with its evidence.

use crate::check::Check;
use crate::receive::{find, judge, Found};
use crate::settings::{Outcome, Settings};
use crate::table::Table;

/// Why a Start has its outcome. A place is an index into the capture.
#[derive(Clone, Copy, Debug, PartialEq, Eq)]
pub enum Reason {
    /// Outcome 1: "the place and octet of the ending symbol".
    Cut {
        /// Its place, which is the next place.
        place: usize,
        /// Its octet, which isn't Terminate.
        octet: u8,
    },
    /// Outcome 2, "the run's length if under 7".
    ShortRun {
        /// The run's length.
        length: usize,
    },
    /// Outcome 2, "else the first wrong place".
    WrongPreamble {
        /// The first of the seven places whose octet is wrong.
        place: usize,
    },
    /// Outcome 3: "length and limit".
    Undersized {
        /// The frame's length.
        length: usize,
        /// The limit that it is under, 64.
        limit: usize,
    },
    /// Outcome 4: "length and limit".
    Oversized {
        /// The frame's length.
        length: usize,
        /// The limit that it is over: M, and 4 for each tag.
        limit: usize,
    },
    /// Outcome 5: "both values", each with the octet that comes first on the
    /// line as its lowest.
    WrongFcs {
        /// The one that stands in the frame.
        stands: u32,
        /// The one that belongs there.
        computed: u32,
    },
    /// Outcome 6: "field and data length".
    WrongLength {
        /// The field behind the last tag.
        field: u16,
        /// The length of all the data.
        data: usize,
    },
    /// Outcome 7: "the destination".
    Filtered {
        /// The destination.
        destination: [u8; 6],
    },
    /// Outcome 8: "the opcode".
    PauseTaken {
        /// The opcode.
        opcode: u16,
    },
    /// Outcome 9: "the opcode".
    PfcTaken {
        /// The opcode.
        opcode: u16,
    },
    /// Outcome 10: "the opcode".
    ControlDropped {
        /// The opcode.
        opcode: u16,
    },
    /// Outcome 11: "place and length of the data" that is handed out.
    HandedOut {
        /// Where it begins, also if its length is 0.
        place: usize,
        /// How many octets it has.
        length: usize,
    },
}

impl Reason {
    /// The outcome that it is a reason of.
    pub(crate) fn of(&self) -> Outcome {
        match self {
            Reason::Cut { .. } => Outcome::Cut,
            Reason::ShortRun { .. } | Reason::WrongPreamble { .. } => Outcome::BadPreamble,
            Reason::Undersized { .. } => Outcome::Undersized,
            Reason::Oversized { .. } => Outcome::Oversized,
            Reason::WrongFcs { .. } => Outcome::WrongFcs,
            Reason::WrongLength { .. } => Outcome::WrongLength,
            Reason::Filtered { .. } => Outcome::Filtered,
            Reason::PauseTaken { .. } => Outcome::PauseTaken,
            Reason::PfcTaken { .. } => Outcome::PfcTaken,
            Reason::ControlDropped { .. } => Outcome::ControlDropped,
            Reason::HandedOut { .. } => Outcome::HandedOut,
        }
    }

    /// The number of that outcome, 1 to 11.
    pub fn outcome(&self) -> u8 {
        self.of() as u8
    }
}

/// What the tool answers.
#[derive(Clone, Copy, Debug, PartialEq, Eq)]
pub enum Why {
    /// Refused, with the number of the refusal.
    Refused(u8),
    /// No further Start, and so no reason.
    None,
    /// A Start whose run hasn't ended, and so no reason.
    Open,
    /// Why the Start has its outcome.
    Because(Reason),
}

/// The tool's answer with its two places, which are those of a reading.
#[derive(Clone, Copy, Debug, PartialEq, Eq)]
pub struct Explained {
    /// The answer.
    pub why: Why,
    /// The Start's place.
    pub start: usize,
    /// The next place.
    pub next: usize,
}

/// Names the reason of the first Start at `place` or later. Gives 1, 14, 2, 3 and
/// 20 as a reading does.
pub fn explain(
    kind: Check,
    s: &Settings,
    job: u8,
    table: &Table,
    octets: &[u8],
    marks: &[u8],
    place: usize,
) -> Explained {
    let at = |why, start, next| Explained { why, start, next };
    match find(s, job, table, octets, marks, place) {
        Found::Refused(number) => at(Why::Refused(number), place, place),
        Found::None => at(Why::None, octets.len(), octets.len()),
        Found::Open { start } => at(Why::Open, start, start),
        Found::Run { start, end } => {
            let judged = judge(kind, s, job, table, octets, start, end);
            let reason = judged.map_or_else(|reason| reason, |taken| taken.reason());
            at(Why::Because(reason), start, end)
        }
    }
}
