//! "Frame": a captured frame taken apart, with the "Length rule"; tags by
//! "Stacked tags", item 1 of document 02, and "Short tagged frames from
//! bridges", item 2.

use crate::check::{fcs, Check};
use crate::line::{is_group, is_tag, BROADCAST, CONTROL_FIELD, FCS_LEN, FIRST_TYPE, LAST_LENGTH};
use crate::line::{MAX_TAGS, MIN_DATA, TAG_LEN};

/// Shortest frame that isn't undersized.
pub(crate) const MIN_FRAME: usize = 64;
/// Destination and source.
const ADDRESSES: usize = 12;
/// The field behind the addresses or behind the last tag.
const FIELD: usize = 2;

/// A frame of 64 octets or more, from destination to FCS.
pub(crate) struct Frame<'a> {
    octets: &'a [u8],
    pub(crate) destination: [u8; 6],
    /// How many tags stand behind the addresses, up to eight.
    pub(crate) tags: usize,
    /// The real field: behind the last tag, if there is one.
    pub(crate) field: u16,
}

/// Two octets at `at`, high octet first; zero beyond the end, which the
/// callers never reach.
pub(crate) fn number_at(octets: &[u8], at: usize) -> u16 {
    match octets.get(at..) {
        Some([high, low, ..]) => u16::from_be_bytes([*high, *low]),
        _ => 0,
    }
}

/// How many tags stand at the front, up to eight: each is four octets, and
/// the run ends before the first that doesn't begin with a tag's field.
fn count_tags(octets: &[u8]) -> usize {
    let fours = octets.chunks_exact(TAG_LEN).take(MAX_TAGS);
    fours.take_while(|four| is_tag(number_at(four, 0))).count()
}

impl<'a> Frame<'a> {
    /// Nothing for an undersized frame; all others have every part.
    pub(crate) fn parse(octets: &'a [u8]) -> Option<Self> {
        if octets.len() < MIN_FRAME {
            return None;
        }
        let destination = *octets.first_chunk()?;
        // Eight tags, the field and the FCS take 50 octets of the 64.
        let tags = count_tags(&octets[ADDRESSES..]);
        Some(Frame {
            octets,
            destination,
            tags,
            field: number_at(octets, ADDRESSES + tags * TAG_LEN),
        })
    }

    /// Length from destination to FCS.
    pub(crate) fn len(&self) -> usize {
        self.octets.len()
    }

    /// Where the data begins in the frame.
    pub(crate) fn data_at(&self) -> usize {
        ADDRESSES + self.tags * TAG_LEN + FIELD
    }

    /// From after the field to before the FCS.
    pub(crate) fn data(&self) -> &'a [u8] {
        &self.octets[self.data_at()..self.octets.len() - FCS_LEN]
    }

    /// Its limit, from M: each tag adds four octets, the size doesn't.
    pub(crate) fn limit(&self, limit: u16) -> usize {
        usize::from(limit) + self.tags * TAG_LEN
    }

    /// The last four octets, low octet first, and the check of all before
    /// them.
    pub(crate) fn checks(&self, kind: Check) -> (u32, u32) {
        let (covered, last) = self.octets.split_at(self.octets.len() - FCS_LEN);
        let low_first = |number, &octet: &u8| number << 8 | u32::from(octet);
        (last.iter().rev().fold(0, low_first), fcs(kind, covered))
    }

    /// "Length rule", checking on: how many octets of data are the client's,
    /// or nothing if the rule is broken.
    pub(crate) fn checked_length(&self) -> Option<usize> {
        let data = self.data().len();
        if self.field >= FIRST_TYPE {
            return Some(data);
        }
        if self.field > LAST_LENGTH {
            return None;
        }
        let field = usize::from(self.field);
        let kept = data == field.max(MIN_DATA) || data == self.shortest(field);
        kept.then_some(field)
    }

    /// How much data a bridge leaves of a short frame that it tags: for each
    /// tag four octets of padding less. As long as the field otherwise.
    fn shortest(&self, field: usize) -> usize {
        field.max(MIN_DATA.saturating_sub(self.tags * TAG_LEN))
    }

    /// First field 0x8808: behind any tag it is an ordinary type.
    pub(crate) fn is_control(&self) -> bool {
        self.tags == 0 && self.field == CONTROL_FIELD
    }

    /// "Status word", but for bits 39 and 35, which belong to the outcome.
    pub(crate) fn status(&self, data_length: usize) -> u64 {
        let kind = if self.destination == BROADCAST {
            36
        } else if is_group(&self.destination) {
            37
        } else {
            38
        };
        1 << kind
            | u64::from(self.is_control()) << 34
            | u64::from(self.tags == 1) << 33
            | u64::from(self.tags > 1) << 32
            | (self.len() as u64 & 0xFFFF) << 16
            | (data_length as u64 & 0xFFFF)
    }
}
