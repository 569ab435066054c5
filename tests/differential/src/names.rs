//! Outcomes, refusals and the status word as the documents have them.

/// Document 01's names of the outcomes 1 to 11.
pub const OUTCOMES: [&str; 11] = [
    "cut",
    "bad preamble",
    "undersized",
    "oversized",
    "wrong FCS",
    "wrong length",
    "filtered",
    "pause taken",
    "PFC taken",
    "control dropped",
    "handed out",
];

/// The header's names of the refusals, in words, behind their numbers.
pub const REFUSALS: [(u8, &str); 22] = [
    (1, "bad settings"),
    (2, "bad buffers"),
    (3, "bad place"),
    (4, "other flow"),
    (5, "bad class"),
    (6, "bad type"),
    (7, "long data"),
    (8, "no room"),
    (9, "held"),
    (10, "many tags"),
    (11, "bad log"),
    (12, "log full"),
    (13, "not used"),
    (14, "bad job"),
    (15, "holds twelve"),
    (16, "all in use"),
    (17, "already listed"),
    (18, "not listed"),
    (19, "high deficit"),
    (20, "bad table"),
    (21, "wrong totals"),
    (22, "high total"),
];

/// The name of an outcome.
pub fn outcome(number: u8) -> &'static str {
    OUTCOMES[usize::from(number) - 1]
}

/// The name of a refusal.
pub fn refusal(number: u8) -> &'static str {
    let mut named = REFUSALS.iter().filter(|(of, _)| *of == number);
    named.next().map_or("unknown", |(_, name)| name)
}

/// A status word taken apart: its bits 39 to 32, the frame's length and the data's.
#[derive(Debug, PartialEq, Eq)]
pub struct StatusParts {
    /// PFC taken, unicast, multicast, broadcast, pause taken, control, one tag, two or more.
    pub bits: [bool; 8],
    /// Bits 31 to 16.
    pub frame_length: u16,
    /// Bits 15 to 0.
    pub data_length: u16,
}

/// By the documents' numbers of its bits.
pub fn status(word: u64) -> StatusParts {
    StatusParts {
        bits: [39, 38, 37, 36, 35, 34, 33, 32].map(|bit| word >> bit & 1 == 1),
        frame_length: (word >> 16 & 0xFFFF) as u16,
        data_length: (word & 0xFFFF) as u16,
    }
}
