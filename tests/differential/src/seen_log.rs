//! What a call with a log was given and answered, taken apart for the coverage table. What a record
//! is, stands here once more, in the words of item 4 of document 02; what a call leaves, in
//! `plain_log`.
use crate::generate::Listener;
use crate::plain_log::{self, is_used, slots, Slot, RECORD};
use crate::raw;
use crate::seen::{bad_buffers, bad_settings};
use crate::seen_jobs::TableOf;
use reference::{read, Answer, Check, LogEnd, Logged, Record, Settings, State};

/// "place (4 octets, low first), outcome (1), zero (1), octets handed out (2, low first), status
/// word (8, low first)"; item 7's number stands in the zero octet.
pub fn octets_of(r: &Record) -> Slot {
    let octet = |number: u64, i: usize| (number >> (8 * i) & 0xFF) as u8;
    std::array::from_fn(|i| match i {
        0..=3 => octet(r.place.into(), i),
        4 => r.outcome,
        5 => r.address,
        6..=7 => octet(r.handed.into(), i - 6),
        _ => octet(r.status, i - 8),
    })
}

/// A log, by its records.
#[derive(Clone, Copy)]
pub struct LogOf<'a> {
    /// Its octets.
    pub octets: &'a [u8],
    /// How many records are used.
    pub in_use: usize,
    /// How many records are unused.
    pub unused: usize,
    /// The number of the slot behind the last used record; 0 if none is used.
    pub behind: usize,
}

impl<'a> LogOf<'a> {
    /// Takes a log apart.
    pub fn new(octets: &'a [u8]) -> LogOf<'a> {
        let in_use = slots(octets).filter(|slot| is_used(slot)).count();
        LogOf {
            octets,
            in_use,
            unused: octets.len() / RECORD - in_use,
            behind: slots(octets).rposition(is_used).map_or(0, |last| last + 1),
        }
    }

    /// No octet is left over.
    pub fn whole(self) -> bool {
        self.octets.len().is_multiple_of(RECORD)
    }

    /// How many records there are.
    pub fn len(self) -> usize {
        self.octets.len() / RECORD
    }

    /// The octets of a record, if the log has it.
    pub fn slot(self, k: usize) -> Option<&'a Slot> {
        // so great a number is none of a record, and none of an octet either
        let from = k.checked_mul(RECORD)?;
        self.octets.get(from..)?.first_chunk()
    }

    /// Whether there is such a record, and it is used.
    pub fn used(self, k: usize) -> bool {
        self.slot(k).is_some_and(is_used)
    }

    /// The number of the first used record from this one on.
    pub fn next_used(self, at: usize) -> Option<usize> {
        (at..self.len()).find(|&k| self.used(k))
    }

    /// Whether there is such a record, and an octet of it beside the outcome is not 0, so that it
    /// shows if it is written or filled with zeros.
    pub fn shows(self, k: usize) -> bool {
        let others = |slot: &Slot| slot[..4] != [0; 4] || slot[5..] != [0; 11];
        self.slot(k).is_some_and(others)
    }

    /// The same of an unused one.
    pub fn unused_and_other(self, k: usize) -> bool {
        self.shows(k) && !self.used(k)
    }

    /// There are records, and each is used.
    pub fn full(self) -> bool {
        self.len() > 0 && self.unused == 0
    }

    /// An unused record stands in front of a used one.
    pub fn has_hole(self) -> bool {
        self.in_use < self.behind
    }

    /// The last slot is used, and not every record: appending has to compact.
    pub fn wants_compaction(self) -> bool {
        self.has_hole() && self.behind == self.len()
    }
}

/// The octets of the records that a walk appended, in their order: what remained in front of them
/// does so still.
pub fn appended<'a>(before: LogOf<'a>, after: LogOf<'a>) -> impl Iterator<Item = &'a Slot> {
    let used = slots(after.octets).filter(|slot| is_used(slot));
    used.skip(before.in_use)
}

/// Which call on a log it was, with what it was given besides.
pub enum LogCall<'a> {
    /// Appends this record.
    Append(Record),
    /// Appends the record of these numbers.
    AppendReading(&'a [u64; raw::READING], Record),
    /// The record of a number.
    Record(usize),
    /// The next record of a reader at a number.
    Next(usize),
    /// How many are used.
    Used,
    /// Deletes the record of a number.
    Delete(usize),
    /// Deletes the records of an outcome.
    DeleteOutcome(u8),
    /// Compacts.
    Compact,
}

impl LogCall<'_> {
    /// A name for it.
    pub fn name(&self) -> &'static str {
        match self {
            LogCall::Append(_) => "append",
            LogCall::AppendReading(..) => "append reading",
            LogCall::Record(_) => "record",
            LogCall::Next(_) => "next",
            LogCall::Used => "used",
            LogCall::Delete(_) => "delete",
            LogCall::DeleteOutcome(_) => "delete outcome",
            LogCall::Compact => "compact",
        }
    }
}

/// A call on a log.
pub struct LogSeen<'a> {
    /// The call.
    pub call: LogCall<'a>,
    /// The log given.
    pub before: LogOf<'a>,
    /// The log after.
    pub after: LogOf<'a>,
    /// The answer's refusal, or 0.
    pub refusal: u8,
    /// The record that was handed out, if one was.
    pub given: Option<Record>,
    /// The number after the call: a reader's record number, how many are used or how many were
    /// deleted.
    pub number: usize,
}

impl LogSeen<'_> {
    /// A name for it.
    pub fn name(&self) -> &'static str {
        self.call.name()
    }

    /// No octet changed.
    pub fn stays(&self) -> bool {
        self.before.octets == self.after.octets
    }

    /// Appending this record was not refused, and this is true of it.
    pub fn appends(&self, test: impl FnOnce(&Record) -> bool) -> bool {
        matches!(&self.call, LogCall::Append(record) if self.refusal == 0 && test(record))
    }

    /// The record that an appending was given.
    pub fn record(&self) -> Option<&Record> {
        match &self.call {
            LogCall::Append(record) | LogCall::AppendReading(_, record) => Some(record),
            _ => None,
        }
    }

    /// The log after it is that of a plain list, and it was not refused.
    pub fn done(&self) -> bool {
        let (refusal, _, octets) = plain_log::answered(self.before.octets, &self.call);
        (self.refusal, refusal) == (0, 0) && self.after.octets == octets
    }

    /// A record was appended, and stands where it has to, as has all else.
    pub fn wrote(&self) -> bool {
        self.record().is_some_and(|record| record.outcome != 0) && self.done()
    }

    /// The number of the slot that a record was appended to.
    pub fn taken(&self) -> usize {
        if self.before.behind < self.before.len() {
            self.before.behind
        } else {
            self.before.in_use
        }
    }

    /// A record was appended behind the last used one, and no other octet changed.
    pub fn wrote_behind(&self) -> bool {
        let (before, after) = (self.before.octets, self.after.octets);
        let from = RECORD * self.before.behind;
        let to = from + RECORD;
        self.wrote()
            && self.before.behind < self.before.len()
            && before[..from] == after[..from]
            && before[to..] == after[to..]
    }

    /// The record of this number was deleted, and this is true of it: its outcome is 0 and no other
    /// octet changed.
    pub fn deletes(&self, test: impl FnOnce(usize, &Slot) -> bool) -> bool {
        let LogCall::Delete(k) = self.call else {
            return false;
        };
        let slot = self.before.slot(k);
        self.done() && slot.is_some_and(|slot| is_used(slot) && test(k, slot))
    }

    /// The records of this outcome were deleted, none or more.
    pub fn deletes_all(&self, test: impl FnOnce(u8) -> bool) -> bool {
        matches!(self.call, LogCall::DeleteOutcome(outcome) if self.done() && test(outcome))
    }

    /// The log was compacted.
    pub fn compacts(&self) -> bool {
        matches!(self.call, LogCall::Compact) && self.done()
    }

    /// A record was handed out as it stands, this one, and this is true of it. A reader hands out
    /// the next used one.
    pub fn reads(&self, test: impl FnOnce(usize, &Record) -> bool) -> bool {
        let k = match self.call {
            LogCall::Record(k) => Some(k),
            LogCall::Next(at) => self.before.next_used(at),
            _ => None,
        };
        let (Some(k), Some(record)) = (k, self.given) else {
            return false;
        };
        let stands = self.before.slot(k) == Some(&octets_of(&record));
        stands && self.before.used(k) && test(k, &record)
    }
}

/// What a walk that found its log full would have counted.
pub struct Further {
    /// Its outcome.
    pub outcome: u8,
    /// It would have set a timer.
    pub sets_timers: bool,
    /// No Start behind it would have been counted.
    pub last: bool,
}

/// A walk that keeps its readings.
pub struct KeepSeen<'a> {
    /// The settings.
    pub s: &'a Settings,
    /// The job.
    pub job: u8,
    /// The table given.
    pub table: TableOf<'a>,
    /// The octets given.
    pub octets: &'a [u8],
    /// The marks given.
    pub marks: &'a [u8],
    /// The place given.
    pub place: usize,
    /// The state given.
    pub before: &'a State,
    /// The state after.
    pub after: &'a State,
    /// The log given.
    pub log: LogOf<'a>,
    /// The log after.
    pub log_after: LogOf<'a>,
    /// The octets of the records that were appended, in their order.
    pub kept: Vec<&'a Slot>,
    /// The answer.
    pub logged: Logged,
    /// What a full log did not take.
    pub further: Option<Further>,
}

impl<'a> KeepSeen<'a> {
    /// Takes a walk apart.
    pub fn new(
        (s, l): (&'a Settings, &'a Listener),
        (octets, marks, place): (&'a [u8], &'a [u8], usize),
        (before, after): (&'a State, &'a State),
        (log, log_after): (&'a [u8], &'a [u8]),
        logged: Logged,
    ) -> KeepSeen<'a> {
        let further = || {
            let mut state = *after;
            let mut read_on = |at| {
                let (kind, job, table) = (Check::Slicing16, l.job, &l.table);
                let reading = read(kind, s, &mut state, job, table, octets, marks, at);
                (reading, state.timers != after.timers)
            };
            let (reading, sets_timers) = read_on(logged.next);
            let (behind, _) = read_on(reading.next);
            match reading.answer {
                Answer::Counted { outcome, .. } => Some(Further {
                    outcome,
                    sets_timers,
                    last: !matches!(behind.answer, Answer::Counted { .. }),
                }),
                _ => None,
            }
        };
        let full = logged.end == LogEnd::Full;
        let (log, log_after) = (LogOf::new(log), LogOf::new(log_after));
        KeepSeen {
            s,
            job: l.job,
            table: TableOf(&l.octets),
            octets,
            marks,
            place,
            before,
            after,
            log,
            log_after,
            kept: appended(log, log_after).collect(),
            logged,
            further: full.then(further).flatten(),
        }
    }

    /// The answer's refusal, or 0.
    pub fn refusal(&self) -> u8 {
        match self.logged.end {
            LogEnd::Refused(number) => number,
            _ => 0,
        }
    }

    /// Whether a row of the table of refusals holds, by itself.
    pub fn holds(&self, refusal: u8) -> bool {
        match refusal {
            1 => bad_settings(self.s),
            14 => self.job > 1,
            2 => bad_buffers(self.octets.len(), self.marks.len()),
            3 => self.place > self.octets.len(),
            20 => self.table.broken(),
            11 => !self.log.whole(),
            _ => false,
        }
    }

    /// The log after it is that of a plain list to which one record after the other was appended.
    pub fn appended(&self) -> bool {
        let kept: Vec<_> = self.kept.iter().map(|&slot| *slot).collect();
        let octets = plain_log::appended(self.log.octets, &kept);
        octets.is_some_and(|octets| octets == self.log_after.octets)
    }

    /// How many Starts had this outcome.
    pub fn risen(&self, outcome: u8) -> u64 {
        let i = usize::from(outcome - 1);
        self.after.counters[i].wrapping_sub(self.before.counters[i])
    }

    /// Is there a Start?
    pub fn start_at(&self, at: usize) -> bool {
        self.octets.get(at) == Some(&0xFB) && self.control_at(at)
    }

    /// Is there a control symbol?
    pub fn control_at(&self, at: usize) -> bool {
        self.marks.get(at).is_some_and(|&mark| mark != 0)
    }
}

/// Walks that went on, from where the one before was full, each with a log of its own or all with one
/// log, of which records were deleted.
pub struct GoingOnSeen {
    /// How many records each of them appended.
    pub appended: Vec<usize>,
    /// How the last one ended.
    pub end: LogEnd,
    /// Whether a log had an unused record in front of a used one.
    pub holes: bool,
    /// One log.
    pub one_log: bool,
}
