//! What a call of a sequence on one state was given and answered, beside the count that is kept of
//! each class: item 14 of document 02.
use crate::generate::Sending;
use crate::watch::{Ear, Set, Watch};
use reference::Port;

/// Which call it was.
pub enum QuietCall<'a> {
    /// One that reads.
    Hear {
        /// Which.
        by: Ear,
        /// How often it set a class.
        sets: usize,
        /// It stopped at a full log.
        full: bool,
        /// What was read is the line itself, into which a client frame was written before.
        own_frames: bool,
    },
    /// One that writes.
    Write {
        /// What.
        sending: &'a Sending,
        /// On this port.
        port: Port,
        /// With totals.
        counted: bool,
    },
}

/// A call of a sequence.
pub struct QuietSeen<'a> {
    /// The call.
    pub call: QuietCall<'a>,
    /// The refusal, or 0.
    pub refusal: u8,
    /// The count before it, and after it.
    pub before: Watch,
    pub after: Watch,
}

impl QuietSeen<'_> {
    /// A client frame was asked for: how its class was set last, and how many symbols it had to wait.
    pub fn client(&self) -> Option<(Set, u64)> {
        let QuietCall::Write {
            sending: Sending::Client(client, _),
            ..
        } = self.call
        else {
            return None;
        };
        let class = usize::from(client.class);
        Some((self.before.set[class]?, self.before.left[class]))
    }

    /// A client frame was tried right at the end of its wait, so many symbols before it, with this
    /// answer.
    pub fn at_the_end(&self, left: u64, refusal: u8) -> bool {
        self.refusal == refusal
            && self.client().is_some_and(|(set, waits)| {
                set.quanta > 0 && waits == left && set.written + left == 64 * u64::from(set.quanta)
            })
    }

    /// Written on this port, with totals or without.
    pub fn written_so(&self, on: Port, with: bool) -> bool {
        matches!(self.call, QuietCall::Write { port, counted, .. } if port == on && counted == with)
    }

    /// What was asked for is so called.
    pub fn is(&self, name: &str) -> bool {
        matches!(self.call, QuietCall::Write { sending, .. } if sending.name() == name)
    }

    /// Whether a call that reads was made in this way.
    pub fn heard(&self, ear: Ear) -> bool {
        matches!(self.call, QuietCall::Hear { by, .. } if by == ear)
    }
}
