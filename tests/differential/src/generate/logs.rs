//! Logs, records, record numbers and the numbers of readings that are to be appended.
use super::BEYOND_32_BITS;
use crate::prng::Prng;
use crate::raw::{self, RECORD, RECORD_OUTCOME};

/// Lengths on both sides of a multiple of 16.
const LENGTHS: [usize; 13] = [0, 1, 8, 15, 16, 17, 24, 31, 32, 33, 47, 48, 49];

/// Numbers of records whose places are that of record 0, if high bits are lost.
pub const BEYOND_THE_LOG: [usize; 3] = [BEYOND_32_BITS / RECORD, BEYOND_32_BITS, 1 << 60];

/// An outcome's octet: mostly a reading's, at times one that no reading gives.
fn outcome(prng: &mut Prng) -> u8 {
    let any = prng.between(1, 255) as u8;
    match prng.below(4) {
        0 => prng.pick(&[12, 128, 255, any]),
        _ => prng.between(1, 11) as u8,
    }
}

/// One of these, or any number.
fn number(prng: &mut Prng, at_limits: &[u64]) -> u64 {
    if prng.coin() {
        prng.pick(at_limits)
    } else {
        prng.number()
    }
}

/// A record to append; one in eight has outcome 0.
pub fn record(prng: &mut Prng) -> raw::Record {
    let mut octets = [0; RECORD];
    let place = number(prng, &[0, 1, 65_535, 65_536, 1 << 31, u64::from(u32::MAX)]);
    octets[raw::RECORD_PLACE..][..4].copy_from_slice(&(place as u32).to_le_bytes());
    let any = outcome(prng);
    octets[RECORD_OUTCOME] = prng.pick(&[0, any, any, any, any, any, any, any]);
    let any = prng.octet();
    octets[raw::RECORD_WAY] = prng.pick(&[0, 0, 1, 8, 16, 31, 128, any]);
    let handed = number(prng, &[0, 1, 255, 256, 1500, 9600, 65_535]);
    octets[raw::RECORD_DATA_LENGTH..][..2].copy_from_slice(&(handed as u16).to_le_bytes());
    let status = number(prng, &[0, 0x40_0040_002E, 1, 1 << 63, u64::MAX]);
    octets[raw::RECORD_STATUS..][..8].copy_from_slice(&status.to_le_bytes());
    raw::Record(octets)
}

/// The octets of a record that is used, or of one that is not; what else it has is anything.
fn slot(prng: &mut Prng, used: bool) -> [u8; RECORD] {
    let mut octets = match prng.below(3) {
        0 => [0; RECORD],
        1 => record(prng).0,
        _ => [(); RECORD].map(|()| prng.octet()),
    };
    octets[RECORD_OUTCOME] = if used { outcome(prng) } else { 0 };
    octets
}

/// A log of so many records: fresh, filled in front, full, or with unused records anywhere.
pub fn log(prng: &mut Prng, records: usize) -> Vec<u8> {
    let front = prng.below(records + 1);
    let kind = prng.below(8);
    let mut log = Vec::with_capacity(RECORD * records);
    for k in 0..records {
        log.extend(match kind {
            0..=2 => [0; RECORD],
            3 if k >= front => [0; RECORD],
            3 => slot(prng, true),
            4 => slot(prng, k != front),
            5 => slot(prng, true),
            _ => {
                let used = prng.coin();
                slot(prng, used)
            }
        });
    }
    log
}

/// A log of a few records, at times of no whole number of them.
pub fn short_log(prng: &mut Prng) -> Vec<u8> {
    let records = match prng.below(8) {
        0 => prng.between(6, 20),
        _ => prng.below(6),
    };
    let mut log = log(prng, records);
    if prng.one_in(5) {
        let length = prng.pick(&LENGTHS);
        log.resize(length, 0);
        // what is left of a record may be used, too
        if prng.coin() {
            let rest = length % RECORD;
            log[length - rest..].fill_with(|| prng.octet());
        }
    }
    log
}

/// A log with an unused record or more, and so many records.
pub fn log_with_room(prng: &mut Prng, records: usize) -> Vec<u8> {
    let mut log = log(prng, records.max(1));
    let unused = prng.below(records.max(1));
    log[RECORD * unused + RECORD_OUTCOME] = 0;
    log
}

/// A log of a few records of two or three outcomes, with unused records anywhere.
pub fn alike_log(prng: &mut Prng) -> Vec<u8> {
    let mut log = log(prng, 3);
    let few = [outcome(prng), outcome(prng), outcome(prng)];
    for _ in 0..prng.between(0, 6) {
        let used = !prng.one_in(4);
        log.extend(slot(prng, used));
    }
    for slot in log.chunks_exact_mut(RECORD) {
        if slot[RECORD_OUTCOME] != 0 {
            slot[RECORD_OUTCOME] = prng.pick(&few);
        }
    }
    log
}

/// An outcome of which records are to be deleted: mostly one that a record of the log has, at times 0.
pub fn outcome_of(prng: &mut Prng, log: &[u8]) -> u8 {
    let records = log.chunks_exact(RECORD);
    let used: Vec<_> = records
        .map(|slot| slot[RECORD_OUTCOME])
        .filter(|&outcome| outcome != 0)
        .collect();
    if used.is_empty() || prng.one_in(8) {
        let any = outcome(prng);
        return prng.pick(&[0, any]);
    }
    prng.pick(&used)
}

/// The number of a record, of one behind the last, or a great one.
pub fn record_number(prng: &mut Prng, records: usize) -> usize {
    let any = prng.below(records + 2);
    match prng.below(8) {
        0 => prng.pick(&[0, records.saturating_sub(1), records, records + 1]),
        1 => prng.pick(&BEYOND_THE_LOG) + prng.pick(&[0, any]),
        2 => prng.pick(&[usize::MAX, usize::MAX - 1, usize::MAX / RECORD]),
        _ => any,
    }
}

/// Any numbers of a reading, which no reading need give.
pub fn reading_record(prng: &mut Prng) -> [u64; raw::READING] {
    let mut reading = [(); raw::READING].map(|()| prng.number());
    let any = u64::from(outcome(prng));
    reading[raw::READING_REFUSAL] = number(prng, &[0, 0, 0, 1, 2, 3]);
    reading[raw::READING_KIND] = number(prng, &[raw::COUNTED, raw::NONE, raw::OPEN]);
    reading[raw::READING_OUTCOME] = number(prng, &[0, any, any, any, 256, 256 + any, 1 << 32]);
    reading[raw::READING_START] = number(prng, &[0, 65_535, 1 << 31, 1 << 32, u64::MAX]);
    reading[raw::READING_DATA_LENGTH] = number(prng, &[0, 46, 65_535, 65_536, 1 << 32]);
    reading[raw::READING_WAY] = number(prng, &[0, 1, 8, 16, 31, 255, 256, 272, 1 << 32]);
    reading
}
