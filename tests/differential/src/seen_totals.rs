//! What a call over the totals of a capture was given and answered, beside counts from nothing: item
//! 9 of document 02.
use crate::generate::START;
use crate::seen::{bad_buffers, Kind, SendingSeen};
use std::ops::Range;

/// Symbols of a block.
pub const BLOCK: usize = 256;

/// How many Starts stand at these places.
pub fn starts_in(octets: &[u8], marks: &[u8], places: Range<usize>) -> usize {
    let symbols = octets[places.clone()].iter().zip(&marks[places]);
    let starts = symbols.filter(|(&octet, &mark)| octet == START && mark != 0);
    starts.count()
}

/// The true totals: a count from nothing of each block. Octets without marks are no Starts.
pub fn truth(octets: &[u8], marks: &[u8]) -> Vec<u16> {
    let symbols = octets.len().min(marks.len());
    let total = |k: usize| {
        let places = [k, k + 1].map(|k| (BLOCK * k).min(symbols));
        starts_in(octets, marks, places[0]..places[1]) as u16
    };
    (0..octets.len().div_ceil(BLOCK)).map(total).collect()
}

/// The blocks of the places from one up to another; none where there is no place.
pub fn blocks(written: &Range<usize>) -> Range<usize> {
    if written.is_empty() {
        return 0..0;
    }
    written.start / BLOCK..(written.end - 1) / BLOCK + 1
}

/// A question and its answer, beside those made here.
#[derive(Clone, Copy)]
pub struct Asked {
    /// The place asked.
    pub place: usize,
    /// The answer, unless it was refused.
    pub starts: Option<usize>,
    /// Whole blocks by the totals given, and a look into the last.
    pub by_totals: usize,
    /// A count over everything before the place.
    pub counted: usize,
}

/// Which call it was.
pub enum TotalsCall<'a> {
    /// The one that fills all totals.
    Fill,
    /// The question.
    Ask(Asked),
    /// A sending that keeps the totals.
    Send(SendingSeen<'a>),
}

/// A call over the totals of a capture.
pub struct TotalsSeen<'a> {
    /// The call.
    pub call: TotalsCall<'a>,
    /// The octets, after it.
    pub octets: &'a [u8],
    /// The marks, after it.
    pub marks: &'a [u8],
    /// The totals given.
    pub before: &'a [u16],
    /// The totals after.
    pub after: &'a [u16],
    /// What would have been true before.
    pub were: &'a [u16],
    /// What would be true after.
    pub are: &'a [u16],
    /// The answer's refusal, or 0.
    pub refusal: u8,
    /// The blocks that were written into, or counted for the first time.
    pub blocks: Range<usize>,
    /// How many calls were made on this capture before.
    pub earlier: usize,
}

impl TotalsSeen<'_> {
    /// The call's name.
    pub fn name(&self) -> &'static str {
        match &self.call {
            TotalsCall::Fill => "fill_totals",
            TotalsCall::Ask(_) => "starts_before",
            TotalsCall::Send(w) => w.call.name(),
        }
    }

    /// The question, if it is one.
    pub fn asked(&self) -> Option<&Asked> {
        match &self.call {
            TotalsCall::Ask(asked) => Some(asked),
            _ => None,
        }
    }

    /// The sending of that kind, if it is one.
    pub fn sent(&self, kind: Kind) -> Option<&SendingSeen<'_>> {
        match &self.call {
            TotalsCall::Send(w) if w.kind() == kind => Some(w),
            _ => None,
        }
    }

    /// Whether a row of the table of refusals holds, by itself. For a deficit count above 3 there is
    /// no room if there is none for any gap.
    pub fn holds(&self, refusal: u8) -> bool {
        match (refusal, &self.call) {
            (2, _) => bad_buffers(self.octets.len(), self.marks.len()),
            (21, _) => self.before.len() != self.were.len(),
            (22, TotalsCall::Fill) => false,
            (22, _) => self.before.iter().any(|&total| total > 256),
            (3, TotalsCall::Ask(asked)) => asked.place > self.octets.len(),
            (8, TotalsCall::Send(w)) if w.needed().is_none() => w.room() < w.call.before_gap(),
            (_, TotalsCall::Send(w)) => w.holds(refusal),
            _ => false,
        }
    }

    /// There is such a total, and it is false before the call and would be after it.
    pub fn is_false(&self, k: usize) -> bool {
        let total = self.before.get(k);
        total.is_some() && total != self.were.get(k) && total != self.are.get(k)
    }

    /// There are totals, and each is false likewise.
    pub fn all_false(&self) -> bool {
        !self.before.is_empty() && (0..self.before.len()).all(|k| self.is_false(k))
    }

    /// All totals are true before the call.
    pub fn all_true(&self) -> bool {
        self.before == self.were
    }

    /// No total changed.
    pub fn stays(&self) -> bool {
        self.before == self.after
    }

    /// This total was counted anew.
    pub fn anew(&self, k: usize) -> bool {
        k < self.after.len() && self.after.get(k) == self.are.get(k)
    }

    /// Not refused; each total of a block that was written into is true now, and any other is that of
    /// before.
    pub fn right(&self) -> bool {
        let right = |k: usize| {
            if self.blocks.contains(&k) {
                self.anew(k)
            } else {
                self.after.get(k) == self.before.get(k)
            }
        };
        self.refusal == 0
            && self.after.len() == self.before.len()
            && (0..self.after.len()).all(right)
    }
}
