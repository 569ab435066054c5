//! What the records of the C face mean, by the header's words: of those that a call takes the
//! reference's values, of those that it answers the numbers.
use crate::raw;
use reference::{Answer, Client, Entry, Flow, Form, LogEnd, Logged, Reading, Record};
use reference::{Port, Sent, Settings, State, Table, Tag, TagKind, Walked};
use std::array::from_fn;

/// So many octets of a record.
fn part<const N: usize>(octets: &[u8], at: usize) -> [u8; N] {
    from_fn(|i| octets[at + i])
}

/// "0 no, anything else yes"; of the flow mode "anything else is NONE". Spare octets mean nothing.
pub fn settings(record: &raw::Settings) -> Settings {
    let octets = &record.0;
    let on = |at: usize| octets[at] != 0;
    Settings {
        own: part(octets, raw::OWN),
        broadcast: on(raw::BROADCAST),
        promiscuous: on(raw::PROMISCUOUS),
        checking: on(raw::CHECKING),
        limit: raw::number(part(octets, raw::LIMIT)),
        flow: match octets[raw::FLOW] {
            1 => Flow::Pause,
            2 => Flow::Pfc,
            _ => Flow::None,
        },
        pass_control: on(raw::PASS_CONTROL),
    }
}

/// Of an entry's holder "anything else" is free, whatever else it has; a spare octet means nothing.
pub fn table(octets: &raw::Table) -> Table {
    Table::from_entries(from_fn(|k| {
        let entry = &octets[raw::ENTRY * k..];
        let address = part(entry, raw::LISTED);
        match entry[raw::HOLDER] {
            raw::JOB_0 => Entry::Job0(address),
            raw::JOB_1 => Entry::Job1(address),
            _ => Entry::Free,
        }
    }))
}

/// A table after a call: of an entry that was taken or freed all eight octets are written, a free
/// one's as zeros, and no other octet.
pub fn table_written(before: &raw::Table, after: &Table) -> raw::Table {
    let mut octets = *before;
    let entries = table(before);
    let entries = entries.entries().iter().zip(after.entries());
    for (entry, (before, after)) in octets.chunks_exact_mut(raw::ENTRY).zip(entries) {
        if before == after {
            continue;
        }
        let (holder, address) = match *after {
            Entry::Free => (raw::FREE, [0; raw::ADDRESS]),
            Entry::Job0(address) => (raw::JOB_0, address),
            Entry::Job1(address) => (raw::JOB_1, address),
        };
        entry[raw::HOLDER] = holder;
        entry[raw::LISTED..][..raw::ADDRESS].copy_from_slice(&address);
        entry[raw::ENTRY_SPARE] = 0;
    }
    octets
}

/// Of form and kind "anything but 0" is a type, and 0x88A8; tags beyond the count are not looked at.
pub fn client(record: &raw::Client) -> Client {
    let octets = &record.0;
    let tag = |k: usize| {
        // a count above 8 is refused, whatever its tags are
        let at = raw::TAGS + raw::TAG * k.min(raw::MOST_TAGS - 1);
        Tag {
            kind: match octets[at + raw::TAG_KIND] {
                0 => TagKind::Customer,
                _ => TagKind::Service,
            },
            control: raw::number(part(octets, at + raw::TAG_CONTROL)),
        }
    };
    Client {
        dest: part(octets, raw::DESTINATION),
        tags: (0..usize::from(octets[raw::TAG_COUNT])).map(tag).collect(),
        form: match octets[raw::FORM] {
            0 => Form::Length,
            _ => Form::Type(raw::number(part(octets, raw::TYPE))),
        },
        class: octets[raw::CLASS],
    }
}

/// "port 0 is PLAIN, anything else FOUR_LANE".
pub fn port(octet: u8) -> Port {
    match octet {
        0 => Port::Plain,
        _ => Port::FourLane,
    }
}

/// "Of each timer the low 32 bits are read; counters and the deficit count are read whole". The
/// reference's is an octet: the greatest stands for what it cannot say, which is above 3 alike.
/// Spare numbers mean nothing.
pub fn state(record: &raw::State) -> State {
    State {
        counters: from_fn(|i| record[raw::COUNTERS + i]),
        timers: from_fn(|i| record[raw::TIMERS + i] as u32),
        deficit: u8::try_from(record[raw::DEFICIT]).unwrap_or(u8::MAX),
    }
}

/// "The rest is written as 0", and so are spare numbers. A deficit count that the reference cannot
/// say stays as it was.
pub fn state_written(before: &raw::State, state: &State) -> raw::State {
    let mut record = [0; raw::STATE];
    record[raw::COUNTERS..][..11].copy_from_slice(&state.counters);
    record[raw::TIMERS..][..8].copy_from_slice(&state.timers.map(u64::from));
    record[raw::DEFICIT] = if before[raw::DEFICIT] > u64::from(u8::MAX) {
        before[raw::DEFICIT]
    } else {
        state.deficit.into()
    };
    record
}

/// A reading's numbers.
pub fn reading(reading: Reading) -> [u64; raw::READING] {
    let mut record = [0; raw::READING];
    record[raw::READING_START] = reading.start as u64;
    record[raw::READING_NEXT] = reading.next as u64;
    match reading.answer {
        Answer::Refused(number) => record[raw::READING_REFUSAL] = u64::from(number),
        Answer::None => record[raw::READING_KIND] = raw::NONE,
        Answer::Open => record[raw::READING_KIND] = raw::OPEN,
        Answer::Counted {
            outcome,
            status,
            at,
            len,
            address,
        } => {
            record[raw::READING_KIND] = raw::COUNTED;
            record[raw::READING_OUTCOME] = u64::from(outcome);
            record[raw::READING_STATUS] = status;
            record[raw::READING_DATA_PLACE] = at as u64;
            record[raw::READING_DATA_LENGTH] = len as u64;
            record[raw::READING_WAY] = u64::from(address);
        }
    }
    record
}

/// A walk's numbers.
pub fn walked(walked: Walked) -> [u64; raw::WALKED] {
    let mut record = [0; raw::WALKED];
    match walked {
        Walked::Refused(number) => record[raw::WALKED_REFUSAL] = u64::from(number),
        Walked::Ended { starts, open } => {
            record[raw::WALKED_STARTS] = starts as u64;
            record[raw::WALKED_OPEN] = u64::from(open);
        }
    }
    record
}

/// A record of a log: five fields, low octet first.
pub fn record(record: &raw::Record) -> Record {
    let octets = &record.0;
    Record {
        place: u32::from_le_bytes(part(octets, raw::RECORD_PLACE)),
        outcome: octets[raw::RECORD_OUTCOME],
        address: octets[raw::RECORD_WAY],
        handed: u16::from_le_bytes(part(octets, raw::RECORD_DATA_LENGTH)),
        status: u64::from_le_bytes(part(octets, raw::RECORD_STATUS)),
    }
}

/// The octets of a record.
pub fn record_written(record: &Record) -> raw::Record {
    let mut octets = [0; raw::RECORD];
    octets[raw::RECORD_PLACE..][..4].copy_from_slice(&record.place.to_le_bytes());
    octets[raw::RECORD_OUTCOME] = record.outcome;
    octets[raw::RECORD_WAY] = record.address;
    octets[raw::RECORD_DATA_LENGTH..][..2].copy_from_slice(&record.handed.to_le_bytes());
    octets[raw::RECORD_STATUS..][..8].copy_from_slice(&record.status.to_le_bytes());
    raw::Record(octets)
}

/// The record of a reading's numbers, of each its low bits, as many as the field has; the other
/// numbers mean nothing here.
pub fn reading_record(reading: &[u64; raw::READING]) -> Record {
    Record {
        place: reading[raw::READING_START] as u32,
        outcome: reading[raw::READING_OUTCOME] as u8,
        address: reading[raw::READING_WAY] as u8,
        handed: reading[raw::READING_DATA_LENGTH] as u16,
        status: reading[raw::READING_STATUS],
    }
}

/// The numbers of a walk that keeps its readings; a refusal gives the call's place back.
pub fn kept(logged: &Logged) -> [u64; raw::KEPT] {
    let mut record = [0; raw::KEPT];
    match logged.end {
        LogEnd::Refused(number) => record[raw::KEPT_REFUSAL] = u64::from(number),
        LogEnd::None => record[raw::KEPT_END] = raw::END_NONE,
        LogEnd::Open => record[raw::KEPT_END] = raw::END_OPEN,
        LogEnd::Full => record[raw::KEPT_END] = raw::END_FULL,
    }
    record[raw::KEPT_NEXT] = logged.next as u64;
    record[raw::KEPT_RECORDS] = logged.appended as u64;
    record
}

/// A sending's numbers; a refusal gives the call's place back.
pub fn sent(sent: Sent, place: usize) -> [u64; raw::SENT] {
    let mut record = [0; raw::SENT];
    let (refusal, after) = match sent {
        Sent::Refused(number) => (number, place),
        Sent::Wrote(after) => (0, after),
    };
    record[raw::SENT_REFUSAL] = u64::from(refusal);
    record[raw::SENT_PLACE] = after as u64;
    record
}
