//! What a call that names a reason was given and answered, for the coverage table.
use crate::seen::{FrameSeen, ReadingSeen};
use reference::{Explained, Reason, Why};

/// Through which face a call was made.
#[derive(Clone, Copy, Debug, PartialEq, Eq)]
pub enum Face {
    /// The Rust face.
    Rust,
    /// The C face.
    C,
}

/// A reason asked for.
pub struct ReasonSeen<'a> {
    /// Through which face.
    pub face: Face,
    /// The reading at that place, of a fresh state.
    pub reading: ReadingSeen<'a>,
    /// The answer.
    pub explained: Explained,
}

impl ReasonSeen<'_> {
    /// The reason, if there is one.
    pub fn reason(&self) -> Option<Reason> {
        match self.explained.why {
            Why::Because(reason) => Some(reason),
            _ => None,
        }
    }

    /// It is this one.
    pub fn is(&self, reason: Reason) -> bool {
        self.reason() == Some(reason)
    }

    /// It is not for this outcome, but for a later one.
    pub fn beyond(&self, outcome: u8) -> bool {
        self.reason()
            .is_some_and(|reason| reason.outcome() > outcome)
    }

    /// The refusal, or 0.
    pub fn refusal(&self) -> u8 {
        match self.explained.why {
            Why::Refused(number) => number,
            _ => 0,
        }
    }

    /// There is a frame of which this is true.
    pub fn framed(&self, test: impl FnOnce(&FrameSeen) -> bool) -> bool {
        self.reading.frame.as_ref().is_some_and(test)
    }
}
