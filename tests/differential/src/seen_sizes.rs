//! What a call on a size table was given and left, for the coverage table.
use crate::seen_reason::Face;
use reference::{Settings, SizeTable};

/// A call on a size table.
pub enum SizesSeen<'a> {
    /// A capture was added.
    Capture(&'a CaptureSized<'a>),
    /// Another table was added.
    Table {
        /// Through which face.
        face: Face,
        /// The two tables, and what they gave.
        tables: [SizeTable; 3],
    },
    /// Captures were added in order, in another one, and in two parts.
    Orders {
        /// How many frames each one added; none of one that was refused.
        added: &'a [Option<usize>],
        /// Where they were cut in two.
        cut: usize,
    },
}

/// A capture, and the table before and after it.
pub struct CaptureSized<'a> {
    /// Through which face.
    pub face: Face,
    /// The settings.
    pub s: &'a Settings,
    /// The refusals that hold, in their order: 1, 14, 2 and 20.
    pub holds: [bool; 4],
    /// The refusal, or 0.
    pub refusal: u8,
    /// How many octets the capture has.
    pub symbols: usize,
    /// The Starts that a walk counts: outcome, frame and data length by the run and the status word.
    pub starts: &'a [(u8, usize, usize)],
    /// The walk ended open.
    pub open: bool,
    /// The table before and after.
    pub before: SizeTable,
    pub after: SizeTable,
}

/// What a table has more than another.
pub fn rise(before: &SizeTable, after: &SizeTable) -> SizeTable {
    let less = |a: [u64; 7], b: [u64; 7]| std::array::from_fn(|k| a[k].wrapping_sub(b[k]));
    SizeTable {
        frames: less(after.frames, before.frames),
        octets: less(after.octets, before.octets),
    }
}

impl CaptureSized<'_> {
    /// It rose by one frame of so many octets, in this band, and by nothing else.
    pub fn rose_by(&self, band: usize, length: usize) -> bool {
        let mut one = SizeTable::default();
        one.frames[band] = 1;
        one.octets[band] = length as u64;
        self.refusal == 0 && rise(&self.before, &self.after) == one
    }

    /// The table stayed.
    pub fn stayed(&self) -> bool {
        self.before == self.after
    }

    /// The capture has one Start that is counted, and nothing open.
    pub fn only(&self, outcome: u8) -> bool {
        self.starts.len() == 1 && self.starts[0].0 == outcome && !self.open
    }
}
