//! "A reading log", item 4 of document 02: records of 16 octets in a lent
//! buffer. Every call but the walk gives the number of its refusal as the
//! error. By item 7 "the log's zero octet holds" which address let a frame in.
//! By "Room in the log", item 11, records are deleted and compacted, and
//! appending goes behind the last used one.

use crate::check::Check;
use crate::receive::{check, read, Answer, Reading};
use crate::refusal;
use crate::settings::{Settings, State};
use crate::table::Table;

/// Octets of a record.
pub(crate) const RECORD_LEN: usize = 16;
/// Where the outcome octet stands in a record.
const OUTCOME_AT: usize = 4;

/// The five fields of a record, at their widths.
#[derive(Clone, Copy, Debug, Default, PartialEq, Eq)]
pub struct Record {
    /// The Start's place.
    pub place: u32,
    /// Number of the outcome.
    pub outcome: u8,
    /// Which address let it in: the octet that was zero before item 7.
    pub address: u8,
    /// Octets handed out.
    pub handed: u16,
    /// The status word.
    pub status: u64,
}

impl Record {
    /// "place (4 octets, low first), outcome (1), zero (1), octets handed out
    /// (2, low first), status word (8, low first)", the address in the place
    /// of the zero.
    pub fn to_octets(&self) -> [u8; 16] {
        let mut octets = [0; RECORD_LEN];
        octets[..4].copy_from_slice(&self.place.to_le_bytes());
        octets[OUTCOME_AT] = self.outcome;
        octets[5] = self.address;
        octets[6..8].copy_from_slice(&self.handed.to_le_bytes());
        octets[8..].copy_from_slice(&self.status.to_le_bytes());
        octets
    }

    /// "Records are read as they stand": no octet is refused.
    pub fn from_octets(octets: &[u8; 16]) -> Self {
        let [p0, p1, p2, p3, outcome, address, h0, h1, status @ ..] = *octets;
        Record {
            place: u32::from_le_bytes([p0, p1, p2, p3]),
            outcome,
            address,
            handed: u16::from_le_bytes([h0, h1]),
            status: u64::from_le_bytes(status),
        }
    }

    /// The fields of a reading: "outcome 0, which stands for `none`, `open`
    /// and a refused reading".
    ///
    /// Open point: the other four fields of those are zero too. They are never
    /// written.
    pub fn of(reading: &Reading) -> Self {
        match reading.answer {
            Answer::Refused(_) | Answer::None | Answer::Open => Record::default(),
            Answer::Counted {
                outcome,
                status,
                len,
                address,
                ..
            } => Record {
                // A capture has at most 65,536 symbols and a frame at most
                // 9,650 octets, so both numbers have their room.
                place: reading.start as u32,
                outcome,
                address,
                handed: len as u16,
                status,
            },
        }
    }
}

/// "A record is used if its outcome octet isn't zero".
fn is_used(record: &[u8]) -> bool {
    record[OUTCOME_AT] != 0
}

/// How many used records stand in front of the first unused one; all of them
/// if none is unused. Gives 11.
pub fn used_in_front(log: &[u8]) -> Result<usize, u8> {
    refusal::log(log)?;
    let records = log.chunks_exact(RECORD_LEN);
    Ok(records.take_while(|record| is_used(record)).count())
}

/// Number of the first unused record, which since item 11 isn't the one that
/// appending takes. Gives 11 and 12.
pub fn first_unused(log: &[u8]) -> Result<usize, u8> {
    let front = used_in_front(log)?;
    refusal::unused(front < log.len() / RECORD_LEN)?;
    Ok(front)
}

/// How many records are used. Gives 11.
pub fn used_records(log: &[u8]) -> Result<usize, u8> {
    refusal::log(log)?;
    let records = log.chunks_exact(RECORD_LEN);
    Ok(records.filter(|record| is_used(record)).count())
}

/// Number of the record behind the last used one, 0 if none is used; of a log
/// whose last record is used, the count of its records. The length is right.
fn behind_last_used(log: &[u8]) -> usize {
    let mut records = log.chunks_exact(RECORD_LEN);
    records.rposition(is_used).map_or(0, |last| last + 1)
}

/// Deletes a record: "A deleted record's outcome octet becomes 0", and every
/// other octet stays. Gives 11 and 13.
pub fn delete_record(log: &mut [u8], number: usize) -> Result<(), u8> {
    refusal::log(log)?;
    let found = log.chunks_exact_mut(RECORD_LEN).nth(number);
    let record = refusal::used(found.filter(|record| is_used(record)))?;
    record[OUTCOME_AT] = 0;
    Ok(())
}

/// Deletes all records of an outcome, and gives how many there were. Gives 11.
///
/// Open point: no record of outcome 0 is used, so none is deleted for it, and an
/// outcome of which there is no record isn't refused.
pub fn delete_outcome(log: &mut [u8], outcome: u8) -> Result<usize, u8> {
    refusal::log(log)?;
    let mut deleted = 0;
    for record in log.chunks_exact_mut(RECORD_LEN) {
        if is_used(record) && record[OUTCOME_AT] == outcome {
            record[OUTCOME_AT] = 0;
            deleted += 1;
        }
    }
    Ok(deleted)
}

/// "Compaction moves the remaining ones to the front in their order and fills
/// the rest with zero octets": gives how many remain. Gives 11.
pub fn compact(log: &mut [u8]) -> Result<usize, u8> {
    refusal::log(log)?;
    Ok(compact_in(log))
}

/// The compaction of a log whose length is right.
fn compact_in(log: &mut [u8]) -> usize {
    let mut front = 0;
    for at in (0..log.len()).step_by(RECORD_LEN) {
        let record = at..at + RECORD_LEN;
        if is_used(&log[record.clone()]) {
            log.copy_within(record, front);
            front += RECORD_LEN;
        }
    }
    log[front..].fill(0);
    front / RECORD_LEN
}

/// "Appending now goes after the last used record, and compacts first if that
/// one is the last slot": gives the number of the record that it takes, or
/// nothing for outcome 0. Gives 11 and 12, "for an outcome other than 0, exactly
/// when every record is used", but "with outcome 0 .. it appends nothing". A
/// refused call changes no octet.
///
/// Open point: outcome 0 doesn't hide a wrong log length, as only 12 is named,
/// and it compacts nothing. In a log without records every one is used.
///
/// Open point: no value of a field is refused. An outcome above 11 is written,
/// and so is an address that no reading has, so that reading back "gives what was
/// appended".
pub fn append(log: &mut [u8], record: &Record) -> Result<Option<usize>, u8> {
    refusal::log(log)?;
    if record.outcome == 0 {
        return Ok(None);
    }
    let records = log.len() / RECORD_LEN;
    refusal::unused(used_records(log)? < records)?;
    let mut number = behind_last_used(log);
    if number == records {
        number = compact_in(log);
    }
    put(log, number, record);
    Ok(Some(number))
}

/// Writes a record where it belongs.
fn put(log: &mut [u8], number: usize, record: &Record) {
    let at = number * RECORD_LEN;
    log[at..at + RECORD_LEN].copy_from_slice(&record.to_octets());
}

/// Appends the fields of a reading.
pub fn append_reading(log: &mut [u8], reading: &Reading) -> Result<Option<usize>, u8> {
    append(log, &Record::of(reading))
}

/// A record as it stands. Gives 11 and 13.
///
/// Open point: a number at or behind the count of records isn't used, and one
/// behind an unused record may be: 13 asks for that record alone.
pub fn record(log: &[u8], number: usize) -> Result<Record, u8> {
    refusal::log(log)?;
    let found = log.chunks_exact(RECORD_LEN).nth(number);
    let used = found.filter(|record| is_used(record));
    let octets = refusal::used(used.and_then(<[u8]>::first_chunk))?;
    Ok(Record::from_octets(octets))
}

/// "A reader that keeps the lent log and its place and hands out the next
/// record". It "skips deleted records".
#[derive(Clone, Debug, PartialEq, Eq)]
pub struct LogReader<'a> {
    /// The lent log.
    pub log: &'a [u8],
    /// Number of the record from which on it looks for the next.
    pub place: usize,
}

impl<'a> LogReader<'a> {
    /// A reader of a log from its first record on.
    ///
    /// Open point: this isn't refused, whatever the log's length is; each
    /// handing out gives 11 then.
    pub fn new(log: &'a [u8]) -> Self {
        LogReader { log, place: 0 }
    }

    /// Hands out the first used record at its place or later, and goes on
    /// behind it. Gives 11 and 13; a refused call leaves the place.
    ///
    /// Open point: a deleted record is one that isn't used, whether it ever was
    /// or not. Where only such records follow, nothing is there to be handed
    /// out, and 13 is given.
    pub fn next_record(&mut self) -> Result<Record, u8> {
        refusal::log(self.log)?;
        let records = self.log.chunks_exact(RECORD_LEN).enumerate();
        let mut used = records
            .skip(self.place)
            .filter(|(_, octets)| is_used(octets));
        let (number, _) = refusal::used(used.next())?;
        let next = record(self.log, number)?;
        self.place = number + 1;
        Ok(next)
    }
}

/// Why a walk that keeps its readings ended.
#[derive(Clone, Copy, Debug, PartialEq, Eq)]
pub enum LogEnd {
    /// Refused, with the number of the refusal; state and log are unchanged.
    Refused(u8),
    /// No further Start.
    None,
    /// A Start whose run hasn't ended.
    Open,
    /// A Start whose run has ended, and every record is used.
    Full,
}

/// What a walk that keeps its readings answers.
#[derive(Clone, Copy, Debug, PartialEq, Eq)]
pub struct Logged {
    /// Why it ended.
    pub end: LogEnd,
    /// Where to go on: the capture's length for `none`, that Start's place for
    /// `open`, the next place of the last reading that was appended for a full
    /// log. A walk that is refused, or that finds the log full before it
    /// appended anything, gives the place it was called with.
    pub next: usize,
    /// How many readings were appended, each with its Start counted.
    pub appended: usize,
}

/// A walk that keeps its readings: from `place` on, reading after reading, each
/// counted Start's record appended, until `none`, `open` or a full log. Gives 1,
/// 14, 2, 3 and 20 as a reading at that place does, then 11, and never 12.
///
/// Open point: the documents know no call for this, and "Support wants the
/// readings of a run kept", for which one log may be too short. So a Start that
/// finds no unused record isn't counted and sets no timer: it is the first
/// Start of a walk from `next` on, and with another log there nothing is lost
/// and nothing comes twice. Where the reading is `none` or `open`, that is the
/// end, whether or not an unused record is left. Each record goes where
/// appending puts it, so the log is compacted only for a Start that is counted.
#[allow(clippy::too_many_arguments)] // The shape is that of the compared call.
pub fn walk_log(
    kind: Check,
    s: &Settings,
    state: &mut State,
    job: u8,
    table: &Table,
    octets: &[u8],
    marks: &[u8],
    place: usize,
    log: &mut [u8],
) -> Logged {
    let logged = |end, next, appended| Logged {
        end,
        next,
        appended,
    };
    let checked = check(s, job, table, octets, marks, place);
    if let Err(number) = checked.and_then(|()| refusal::log(log)) {
        return logged(LogEnd::Refused(number), place, 0);
    }

    // Where appending goes. Each record that is appended is the last used one
    // then, so behind it is the next.
    let records = log.len() / RECORD_LEN;
    let mut number = behind_last_used(log);
    let (mut next, mut appended) = (place, 0);
    loop {
        let mut after = *state;
        let reading = read(kind, s, &mut after, job, table, octets, marks, next);
        match reading.answer {
            // Not reached: no next place lies beyond the capture.
            Answer::Refused(number) => return logged(LogEnd::Refused(number), next, appended),
            Answer::None => return logged(LogEnd::None, reading.next, appended),
            Answer::Open => return logged(LogEnd::Open, reading.next, appended),
            Answer::Counted { .. } => {
                if number == records {
                    // A log of used records alone stays as it is by this.
                    number = compact_in(log);
                }
                if number == records {
                    return logged(LogEnd::Full, next, appended);
                }
                put(log, number, &Record::of(&reading));
                number += 1;
                *state = after;
                next = reading.next;
                appended += 1;
            }
        }
    }
}
