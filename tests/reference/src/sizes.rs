//! "Size table for a day of captures", item 13 of document 02: how many frames
//! of each size were read, and how many octets they had.

use crate::check::Check;
use crate::line::PREAMBLE;
use crate::receive::{walk_with, Answer, Reading, Walked};
use crate::settings::{Settings, State};
use crate::table::Table;

/// The bands by the longest frame of each; "above" has none. The first has
/// frames of 64 octets alone, since shorter ones are undersized.
const LONGEST: [usize; 6] = [64, 127, 255, 511, 1023, 1518];

/// The band of a frame that isn't undersized.
fn band(length: usize) -> usize {
    LONGEST.partition_point(|&longest| longest < length)
}

/// "frames of outcomes 8 to 11 by frame length: 64, 65 to 127, 128 to 255, 256 to
/// 511, 512 to 1023, 1024 to 1518, above .. and the octets in each band". A fresh
/// table is all zeros.
#[derive(Clone, Copy, Debug, Default, PartialEq, Eq)]
pub struct SizeTable {
    /// Frames of each band, modulo 2^64.
    pub frames: [u64; 7],
    /// Their octets, from destination to FCS, modulo 2^64.
    pub octets: [u64; 7],
}

impl SizeTable {
    /// Adds a capture: the readings of a walk from place 0. Gives how many frames
    /// were added. Gives 1, 14, 2 and 20 as the walk does; "a refused capture adds
    /// nothing".
    ///
    /// Open point: it takes no state, as a frame's outcome and length don't depend
    /// on one. The counters whose rise the bands are equal to are those of a walk
    /// over the same capture.
    pub fn add(
        &mut self,
        kind: Check,
        s: &Settings,
        job: u8,
        table: &Table,
        octets: &[u8],
        marks: &[u8],
    ) -> Result<usize, u8> {
        let mut state = State::default();
        let mut added = 0;
        let see = |reading: &Reading| {
            if let Answer::Counted { outcome: 8.., .. } = reading.answer {
                // Without the Start and the preamble.
                self.count(reading.next - reading.start - 1 - PREAMBLE.len());
                added += 1;
            }
        };
        match walk_with(kind, s, &mut state, job, table, octets, marks, see) {
            Walked::Refused(number) => Err(number),
            Walked::Ended { .. } => Ok(added),
        }
    }

    /// Counts one frame of this length.
    fn count(&mut self, length: usize) {
        let band = band(length);
        self.frames[band] = self.frames[band].wrapping_add(1);
        self.octets[band] = self.octets[band].wrapping_add(length as u64);
    }
}
