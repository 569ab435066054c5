//! Why a Start has its outcome.
use crate::address::Address;
use crate::answers::{Outcome, Refusal};
use crate::listener::Listener;
use crate::receive::Capture;
use crate::sys;
use core::fmt;

/// Why a Start has its outcome, with the evidence: what the rule of that outcome looked at. Places
/// are places in the capture.
///
/// ```
/// use fenhamper::{Outcome, Reason};
///
/// let reason = Reason::TooLong { length: 1523, limit: 1522 };
/// assert_eq!(reason.outcome(), Outcome::Oversized);
/// assert_eq!(reason.to_string(), "oversized: length 1523, limit 1522");
/// ```
#[derive(Clone, Copy, Debug, PartialEq, Eq, Hash)]
pub enum Reason {
    /// Cut: anything but Terminate ended the run.
    CutAt {
        /// The place of the ending symbol.
        place: usize,
        /// Its octet.
        octet: u8,
    },
    /// Bad preamble: the run is under 7 octets.
    ShortRun {
        /// The run's length.
        length: usize,
    },
    /// Bad preamble: the run has 7 octets, and not all of them are the preamble's.
    WrongOctet {
        /// The first wrong place.
        place: usize,
    },
    /// Undersized.
    TooShort {
        /// The frame's length, destination to FCS.
        length: usize,
        /// The limit that it is under, 64.
        limit: usize,
    },
    /// Oversized.
    TooLong {
        /// The frame's length, destination to FCS.
        length: usize,
        /// The limit that it is over: M, and 4 for each tag.
        limit: usize,
    },
    /// Wrong FCS. Both are numbers as [`fcs`](crate::fcs) gives them.
    FcsDiffers {
        /// The one that stands in the frame.
        stands: u32,
        /// The one of the octets before it.
        computed: u32,
    },
    /// Wrong length.
    LengthBroken {
        /// The field behind the last tag.
        field: u16,
        /// The length of all the data, padding included.
        data_length: usize,
    },
    /// Filtered.
    NotForUs {
        /// The destination.
        destination: Address,
    },
    /// Pause taken.
    TookPause {
        /// The opcode.
        opcode: u16,
    },
    /// PFC taken.
    TookPfc {
        /// The opcode.
        opcode: u16,
    },
    /// Control dropped.
    DroppedControl {
        /// The opcode.
        opcode: u16,
    },
    /// Handed out.
    Handed {
        /// Where the client data stands in the capture's octets.
        place: usize,
        /// How many octets it has.
        length: usize,
    },
}

impl Reason {
    /// The outcome that it is a reason of.
    ///
    /// ```
    /// use fenhamper::{Outcome, Reason};
    ///
    /// // there are two for bad preamble
    /// let reasons = [Reason::ShortRun { length: 6 }, Reason::WrongOctet { place: 7 }];
    /// assert_eq!(reasons.map(|r| r.outcome()), [Outcome::BadPreamble; 2]);
    /// ```
    #[must_use]
    pub const fn outcome(&self) -> Outcome {
        match self {
            Reason::CutAt { .. } => Outcome::Cut,
            Reason::ShortRun { .. } | Reason::WrongOctet { .. } => Outcome::BadPreamble,
            Reason::TooShort { .. } => Outcome::Undersized,
            Reason::TooLong { .. } => Outcome::Oversized,
            Reason::FcsDiffers { .. } => Outcome::WrongFcs,
            Reason::LengthBroken { .. } => Outcome::WrongLength,
            Reason::NotForUs { .. } => Outcome::Filtered,
            Reason::TookPause { .. } => Outcome::PauseTaken,
            Reason::TookPfc { .. } => Outcome::PfcTaken,
            Reason::DroppedControl { .. } => Outcome::ControlDropped,
            Reason::Handed { .. } => Outcome::HandedOut,
        }
    }

    // Of an answer's numbers; none where they have no meaning here.
    fn of(reason: u64, first: u64, second: u64) -> Option<Reason> {
        let opcode = || u16::try_from(first).ok();
        Some(match reason {
            sys::REASON_CUT_AT => Reason::CutAt {
                place: first as usize,
                octet: u8::try_from(second).ok()?,
            },
            sys::REASON_SHORT_RUN => Reason::ShortRun {
                length: first as usize,
            },
            sys::REASON_WRONG_OCTET => Reason::WrongOctet {
                place: first as usize,
            },
            sys::REASON_TOO_SHORT => Reason::TooShort {
                length: first as usize,
                limit: second as usize,
            },
            sys::REASON_TOO_LONG => Reason::TooLong {
                length: first as usize,
                limit: second as usize,
            },
            sys::REASON_FCS_DIFFERS => Reason::FcsDiffers {
                stands: u32::try_from(first).ok()?,
                computed: u32::try_from(second).ok()?,
            },
            sys::REASON_LENGTH_BROKEN => Reason::LengthBroken {
                field: u16::try_from(first).ok()?,
                data_length: second as usize,
            },
            sys::REASON_NOT_FOR_US => Reason::NotForUs {
                destination: address(first)?,
            },
            sys::REASON_TOOK_PAUSE => Reason::TookPause { opcode: opcode()? },
            sys::REASON_TOOK_PFC => Reason::TookPfc { opcode: opcode()? },
            sys::REASON_DROPPED_CONTROL => Reason::DroppedControl { opcode: opcode()? },
            sys::REASON_HANDED => Reason::Handed {
                place: first as usize,
                length: second as usize,
            },
            _ => return None,
        })
    }
}

// An address as one number, its first octet highest.
fn address(number: u64) -> Option<Address> {
    let [0, 0, octets @ ..] = number.to_be_bytes() else {
        return None;
    };
    Some(Address(octets))
}

// A control octet that cut a run, by its name in document 01.
fn control_name(octet: u8) -> &'static str {
    match octet {
        0x07 => "Idle",
        0xFB => "Start",
        0xFE => "Error",
        _ => "like Error",
    }
}

/// In words, as the program `why` prints it.
///
/// ```
/// use fenhamper::Reason;
///
/// let cut = Reason::CutAt { place: 484, octet: 0xFB };
/// assert_eq!(cut.to_string(), "cut at 484 by 0xFB (Start)");
/// let differs = Reason::FcsDiffers { stands: 0x1234ABCD, computed: 0x89ABCDEF };
/// assert_eq!(differs.to_string(), "wrong FCS: stands 0x1234ABCD, should be 0x89ABCDEF");
/// ```
impl fmt::Display for Reason {
    fn fmt(&self, f: &mut fmt::Formatter<'_>) -> fmt::Result {
        match self {
            Reason::CutAt { place, octet } => {
                let name = control_name(*octet);
                write!(f, "cut at {place} by 0x{octet:02X} ({name})")
            }
            Reason::ShortRun { length } => write!(f, "bad preamble: run length {length}"),
            Reason::WrongOctet { place } => write!(f, "bad preamble: first wrong place {place}"),
            Reason::TooShort { length, limit } => {
                write!(f, "undersized: length {length}, limit {limit}")
            }
            Reason::TooLong { length, limit } => {
                write!(f, "oversized: length {length}, limit {limit}")
            }
            Reason::FcsDiffers { stands, computed } => write!(
                f,
                "wrong FCS: stands 0x{stands:08X}, should be 0x{computed:08X}"
            ),
            Reason::LengthBroken { field, data_length } => write!(
                f,
                "wrong length: field 0x{field:04X}, data length {data_length}"
            ),
            Reason::NotForUs { destination } => write!(f, "filtered: to {destination}"),
            Reason::TookPause { opcode } => write!(f, "pause taken: opcode 0x{opcode:04X}"),
            Reason::TookPfc { opcode } => write!(f, "PFC taken: opcode 0x{opcode:04X}"),
            Reason::DroppedControl { opcode } => {
                write!(f, "control dropped: opcode 0x{opcode:04X}")
            }
            Reason::Handed { place, length } => {
                write!(f, "handed out: data at {place}, length {length}")
            }
        }
    }
}

/// What [`Capture::explain`] found: where a reading counts a Start, the reason of its outcome.
///
/// ```
/// use fenhamper::{Capture, Explained, Settings};
///
/// let capture = Capture::new(&[0xFB, 0x07, 0xFB, 0x55], &[1, 1, 1, 0]);
/// match capture.explain(&Settings::default(), 1)? {
///     Explained::Because { start, reason, .. } => println!("{start} {reason}"),
///     Explained::Open { start } => assert_eq!(start, 2),
///     Explained::Nothing { end } => println!("no Start before {end}"),
/// }
/// # Ok::<(), fenhamper::Refusal>(())
/// ```
#[derive(Clone, Copy, Debug, PartialEq, Eq, Hash)]
pub enum Explained {
    /// No further Start, and so no reason.
    Nothing {
        /// The capture's length.
        end: usize,
    },
    /// A Start whose run has not ended inside the capture, and so no reason.
    Open {
        /// The Start's place.
        start: usize,
    },
    /// A Start that a reading counts, with the reason of its outcome.
    Because {
        /// The Start's place.
        start: usize,
        /// The place of the control symbol that ended the run: where to read on.
        next: usize,
        /// Why the outcome is what it is.
        reason: Reason,
    },
}

impl Explained {
    /// The Start's place; the capture's length if there is none. It is the reading's.
    #[must_use]
    pub const fn start(&self) -> usize {
        match self {
            Explained::Nothing { end } => *end,
            Explained::Open { start } | Explained::Because { start, .. } => *start,
        }
    }

    /// Where to read on. It is the reading's.
    ///
    /// ```
    /// use fenhamper::{Capture, Settings};
    ///
    /// let capture = Capture::new(&[0x07, 0xFB, 0xFD], &[1, 1, 1]);
    /// let explained = capture.explain(&Settings::default(), 0)?;
    /// assert_eq!((explained.start(), explained.next()), (1, 2));
    /// # Ok::<(), fenhamper::Refusal>(())
    /// ```
    #[must_use]
    pub const fn next(&self) -> usize {
        match self {
            Explained::Nothing { end } => *end,
            Explained::Open { start } => *start,
            Explained::Because { next, .. } => *next,
        }
    }

    /// The reason, if there is one.
    ///
    /// ```
    /// use fenhamper::{Capture, Reason, Settings};
    ///
    /// let capture = Capture::new(&[0x07, 0xFB, 0xFD], &[1, 1, 1]);
    /// let why = |place| Ok(capture.explain(&Settings::default(), place)?.reason());
    /// assert_eq!(why(0)?, Some(Reason::ShortRun { length: 0 }));
    /// assert_eq!(why(2)?, None);
    /// # Ok::<(), fenhamper::Refusal>(())
    /// ```
    #[must_use]
    pub const fn reason(&self) -> Option<Reason> {
        match self {
            Explained::Nothing { .. } | Explained::Open { .. } => None,
            Explained::Because { reason, .. } => Some(*reason),
        }
    }
}

impl Capture<'_> {
    /// Why the first Start at `place` or later has its outcome, with the evidence. It takes no
    /// state: nothing is counted, and no timer is set.
    ///
    /// ```
    /// use fenhamper::{Capture, Explained, Settings};
    ///
    /// // Start, Idle; Start, one data octet, Terminate; Start, one data octet
    /// let capture = Capture::new(
    ///     &[0xFB, 0x07, 0xFB, 0x55, 0xFD, 0xFB, 0x55],
    ///     &[1, 1, 1, 0, 1, 1, 0],
    /// );
    /// let mut place = 0;
    /// let mut lines = Vec::new();
    /// while let Explained::Because { start, next, reason } =
    ///     capture.explain(&Settings::default(), place)?
    /// {
    ///     lines.push(format!("{start} {reason}"));
    ///     place = next;
    /// }
    /// assert_eq!(
    ///     lines,
    ///     ["0 cut at 1 by 0x07 (Idle)", "2 bad preamble: run length 1"]
    /// );
    /// # Ok::<(), fenhamper::Refusal>(())
    /// ```
    ///
    /// # Errors
    ///
    /// Refusals 1, 2, 3 and 20, as [`Capture::read`] has them.
    pub fn explain<'t>(
        &self,
        listener: impl Into<Listener<'t>>,
        place: usize,
    ) -> Result<Explained, Refusal> {
        let who = listener.into();
        let e = sys::explain(
            who.settings.record(),
            who.job.number(),
            who.table.record(),
            self.octets,
            self.marks,
            place,
        );
        Refusal::check(e.refusal)?;
        let start = e.start as usize;
        match e.kind {
            sys::COUNTED => Reason::of(e.reason, e.first, e.second)
                .filter(|reason| e.outcome == reason.outcome().number().into())
                .map(|reason| Explained::Because {
                    start,
                    next: e.next as usize,
                    reason,
                })
                .ok_or(Refusal::Unknown(0)),
            sys::NONE => Ok(Explained::Nothing { end: start }),
            sys::OPEN => Ok(Explained::Open { start }),
            _ => Err(Refusal::Unknown(0)),
        }
    }
}

#[cfg(test)]
mod tests {
    use super::*;

    // An archive of another version says what has no meaning here; nothing of it is made up.
    #[test]
    fn numbers_without_a_meaning_are_none() {
        let wide = 1 << 16;
        for (reason, first, second) in [
            (sys::REASON_NONE, 0, 0),
            (sys::REASON_HANDED + 1, 0, 0),
            (u64::MAX, 0, 0),
            (sys::REASON_CUT_AT, 0, 256),
            (sys::REASON_FCS_DIFFERS, 1 << 32, 0),
            (sys::REASON_FCS_DIFFERS, 0, 1 << 32),
            (sys::REASON_LENGTH_BROKEN, wide, 0),
            (sys::REASON_NOT_FOR_US, 1 << 48, 0),
            (sys::REASON_TOOK_PAUSE, wide, 0),
            (sys::REASON_TOOK_PFC, wide, 0),
            (sys::REASON_DROPPED_CONTROL, wide, 0),
        ] {
            assert_eq!(Reason::of(reason, first, second), None, "{reason}");
        }
    }

    #[test]
    fn an_address_has_its_first_octet_highest() {
        let own = Address([0x02, 0, 0, 0, 0, 0xAB]);
        assert_eq!(address(0x0200_0000_00AB), Some(own));
        assert_eq!(address((1 << 48) - 1), Some(Address::BROADCAST));
    }
}
