//! The ports and their gaps: "The four-lane port", item 5 of document 02.

/// The port that a frame is sent on.
#[derive(Clone, Copy, Debug, PartialEq, Eq)]
pub enum Port {
    /// A Start at any place; each gap is Terminate and eleven Idles.
    Plain,
    /// "accepts Start only at places divisible by four", and the gaps vary.
    FourLane,
}

/// Symbols of a gap that isn't varied, Terminate included.
const GAP: usize = 12;
/// Lanes of the four-lane port.
const LANES: usize = 4;
/// "a deficit count from 0 to 3".
const MAX_DEFICIT: u8 = 3;

/// How far past a multiple of four a place is.
fn past(place: usize) -> usize {
    place % LANES
}

/// What stands behind a frame.
pub(crate) struct Gap {
    /// Its symbols, Terminate included.
    pub(crate) symbols: usize,
    /// The deficit count behind it.
    pub(crate) deficit: u8,
}

impl Port {
    /// May a Start stand at this place?
    pub(crate) fn accepts(self, place: usize) -> bool {
        self == Port::Plain || past(place) == 0
    }

    /// May a frame be sent with this deficit count?
    pub(crate) fn allows(self, deficit: u8) -> bool {
        self == Port::Plain || deficit <= MAX_DEFICIT
    }

    /// The gap whose Terminate stands at `place`, with a deficit count that
    /// is allowed: "only frames sent on this port change it".
    pub(crate) fn gap(self, place: usize, deficit: u8) -> Gap {
        if self == Port::Plain {
            let symbols = GAP;
            return Gap { symbols, deficit };
        }
        let r = past(place + GAP);
        // Both are at most 3, and what is taken off is at most the count.
        let grown = deficit + r as u8;
        if grown <= MAX_DEFICIT {
            return Gap {
                symbols: GAP - r,
                deficit: grown,
            };
        }
        let more = LANES - r;
        Gap {
            symbols: GAP + more,
            deficit: deficit - more as u8,
        }
    }
}
