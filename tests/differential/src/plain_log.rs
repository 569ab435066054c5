//! A log as a plain list of its slots, in the words of items 4 and 11 of document 02 and apart from
//! the reference.
use crate::seen_log::{octets_of, LogCall};

/// "One record of 16 octets".
pub const RECORD: usize = 16;

/// The octets of one record.
pub type Slot = [u8; RECORD];

/// The slots of a log, side by side; an octet that is left over is in none.
pub fn slots(octets: &[u8]) -> impl DoubleEndedIterator<Item = &Slot> + ExactSizeIterator {
    let slots = octets.chunks_exact(RECORD);
    slots.map(|slot| slot.try_into().expect("as many octets as a record has"))
}

/// "A record is used if its outcome octet isn't zero".
pub fn is_used(slot: &Slot) -> bool {
    slot[4] != 0
}

/// The place that stands in a record, low octet first.
pub fn place_of(slot: &Slot) -> usize {
    let octets = slot[..4].iter().rev();
    octets.fold(0, |n, &octet| n << 8 | usize::from(octet))
}

/// A log, slot by slot.
#[derive(Clone, Debug, PartialEq, Eq)]
pub struct PlainLog(Vec<Slot>);

impl PlainLog {
    /// The records of a log; none if an octet is left over.
    pub fn of(octets: &[u8]) -> Option<PlainLog> {
        let whole = octets.len().is_multiple_of(RECORD);
        whole.then(|| PlainLog(slots(octets).copied().collect()))
    }

    /// Its octets.
    pub fn octets(&self) -> Vec<u8> {
        self.0.concat()
    }

    /// "A deleted record's outcome octet becomes 0": whether the record was used.
    pub fn delete(&mut self, number: usize) -> bool {
        match self.0.get_mut(number).filter(|slot| is_used(slot)) {
            Some(slot) => {
                slot[4] = 0;
                true
            }
            None => false,
        }
    }

    /// Deletes each record of an outcome: how many there were.
    pub fn delete_outcome(&mut self, outcome: u8) -> usize {
        let of = |list: &PlainLog, k: usize| is_used(&list.0[k]) && list.0[k][4] == outcome;
        let numbers: Vec<_> = (0..self.0.len()).filter(|&k| of(self, k)).collect();
        numbers.into_iter().filter(|&k| self.delete(k)).count()
    }

    /// "Compaction moves the remaining ones to the front in their order and fills the rest with zero
    /// octets".
    pub fn compact(&mut self) {
        let records = self.0.len();
        self.0.retain(is_used);
        self.0.resize(records, [0; RECORD]);
    }

    /// "Appending now goes after the last used record, and compacts first if that one is the last
    /// slot": whether there was room, which is "exactly" unless "every record is used".
    pub fn append(&mut self, record: Slot) -> bool {
        if self.0.iter().all(is_used) {
            return false;
        }
        if self.0.last().is_some_and(is_used) {
            self.compact();
        }
        let behind = self.0.iter().rposition(is_used).map_or(0, |last| last + 1);
        self.0[behind] = record;
        true
    }

    /// A call that may change the log: its refusal or 0, and the number that it gives, if it gives
    /// one.
    fn answer(&mut self, call: &LogCall) -> (u8, Option<usize>) {
        let refused = |refusal, fine: bool| (if fine { 0 } else { refusal }, None);
        match call {
            // "with outcome 0 .. it appends nothing"
            LogCall::Append(record) | LogCall::AppendReading(_, record) => {
                refused(12, record.outcome == 0 || self.append(octets_of(record)))
            }
            LogCall::Delete(number) => refused(13, self.delete(*number)),
            LogCall::DeleteOutcome(outcome) => (0, Some(self.delete_outcome(*outcome))),
            LogCall::Compact => {
                self.compact();
                (0, None)
            }
            LogCall::Record(_) | LogCall::Next(_) | LogCall::Used => (0, None),
        }
    }
}

/// A call that may change a log: its refusal or 0, the number that it gives, if it gives one, and the
/// octets after it.
pub fn answered(octets: &[u8], call: &LogCall) -> (u8, Option<usize>, Vec<u8>) {
    let Some(mut list) = PlainLog::of(octets) else {
        return (11, None, octets.to_vec());
    };
    let (refusal, number) = list.answer(call);
    (refusal, number, list.octets())
}

/// The octets of a log after these records were appended, one after the other.
pub fn appended(octets: &[u8], records: &[Slot]) -> Option<Vec<u8>> {
    let mut list = PlainLog::of(octets)?;
    let all = records.iter().all(|&record| list.append(record));
    all.then(|| list.octets())
}
