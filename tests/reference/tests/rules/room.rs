//! "Room in the log", item 11 of document 02: deleting, compacting, and what the
//! other calls on a log do with deleted records.

use reference::{append_reading, compact, delete_outcome, delete_record, used_records};
use reference::{LogReader, Record, State};

use crate::hand::{Capture, IDLE, PLAIN, START, TERMINATE};
use crate::log::{any_record, append_to, log_of, log_with, read_back, remaining};
use crate::log::{used_octets, written};
use crate::robust::Dice;

/// Deletes a record, and checks what holds each time: its outcome octet alone
/// changes.
fn delete(log: &mut [u8], number: usize) -> Result<(), u8> {
    let mut before = log.to_vec();
    let deleted = delete_record(log, number);
    if deleted.is_ok() {
        assert_ne!(before[16 * number + 4], 0);
        before[16 * number + 4] = 0;
    }
    assert_eq!(log, before);
    deleted
}

/// The same for all records of an outcome.
fn delete_all(log: &mut [u8], outcome: u8) -> Result<usize, u8> {
    let mut before = log.to_vec();
    let deleted = delete_outcome(log, outcome);
    if let Ok(deleted) = deleted {
        let mut count = 0;
        for record in before.chunks_exact_mut(16) {
            if outcome != 0 && record[4] == outcome {
                record[4] = 0;
                count += 1;
            }
        }
        assert_eq!(deleted, count);
    }
    assert_eq!(log, before);
    deleted
}

/// Compacts, and checks what holds each time.
fn compacted(log: &mut [u8]) -> Result<usize, u8> {
    let before = log.to_vec();
    let answer = compact(log);
    let Ok(count) = answer else {
        assert_eq!(log, before);
        return answer;
    };
    let used = used_octets(&before);
    assert_eq!(count, used.len());
    assert_eq!(log, log_with(&used, before.len()));
    // "doing it twice changes nothing more"
    let once = log.to_vec();
    assert_eq!(compact(log), Ok(count));
    assert_eq!(log, once);
    // "written into a zero log of that length they give the compacted one"
    let back = read_back(&before);
    assert_eq!(back, read_back(log));
    assert_eq!(written(before.len(), &back), log);
    answer
}

/// Used records of which no two are alike, with these outcomes; 0 is an unused
/// one that isn't zero octets.
fn log_by(outcomes: &[u8]) -> Vec<u8> {
    let mut log = log_of(&vec![true; outcomes.len()]);
    for (n, (record, &outcome)) in log.chunks_exact_mut(16).zip(outcomes).enumerate() {
        record[0] = n as u8;
        record[4] = outcome;
    }
    log
}

/// The numbers that these records had in such a log.
fn numbers(log: &[u8]) -> Vec<u8> {
    used_octets(log).iter().map(|record| record[0]).collect()
}

const FIELDS: Record = Record {
    place: 0x77,
    outcome: 9,
    address: 1,
    handed: 2,
    status: 3,
};

#[test]
fn deleting_a_record() {
    for number in 0..4 {
        let mut log = log_by(&[1, 2, 255, 11]);
        assert_eq!(delete(&mut log, number), Ok(()));
        assert_eq!(delete(&mut log, number), Err(13));
        assert_eq!(used_records(&log), Ok(3));
        let left: Vec<u8> = (0..4).filter(|&n| usize::from(n) != number).collect();
        assert_eq!(numbers(&log), left);
    }
    // A number that isn't used: behind the last record, or of an unused one.
    let mut log = log_by(&[0, 1]);
    for number in [0, 2, 3, usize::MAX / 16, usize::MAX / 16 + 1, usize::MAX] {
        assert_eq!(delete(&mut log, number), Err(13), "{number}");
    }
    assert_eq!(delete(&mut [], 0), Err(13));
}

#[test]
fn deleting_an_outcome() {
    let outcomes = [7, 1, 0, 7, 255, 7];
    for (outcome, deleted, left) in [
        (7, 3, &[1, 4][..]),
        (1, 1, &[0, 3, 4, 5]),
        (255, 1, &[0, 1, 3, 5]),
        (2, 0, &[0, 1, 3, 4, 5]),
        (0, 0, &[0, 1, 3, 4, 5]),
    ] {
        let mut log = log_by(&outcomes);
        assert_eq!(delete_all(&mut log, outcome), Ok(deleted));
        assert_eq!(delete_all(&mut log, outcome), Ok(0));
        assert_eq!(numbers(&log), left);
    }
    for outcome in 0..=255 {
        assert_eq!(delete_all(&mut [], outcome), Ok(0));
    }
}

#[test]
fn refusal_11_comes_first() {
    for len in (0..=100).filter(|len| len % 16 != 0) {
        for octet in [0, 7] {
            let mut log = vec![octet; len];
            assert_eq!(delete(&mut log, 0), Err(11));
            assert_eq!(delete(&mut log, usize::MAX), Err(11));
            assert_eq!(delete_all(&mut log, 7), Err(11));
            assert_eq!(delete_all(&mut log, 0), Err(11));
            assert_eq!(compacted(&mut log), Err(11));
            assert_eq!(used_records(&log), Err(11));
        }
    }
}

#[test]
fn every_pattern_of_six() {
    for pattern in 0..1_u32 << 6 {
        let used = |k: usize| pattern >> k & 1 == 1;
        let outcomes: Vec<u8> = (0..6).map(|k| u8::from(used(k))).collect();
        let left: Vec<u8> = (0..6).filter(|&k| used(usize::from(k))).collect();
        let log = log_by(&outcomes);
        // By compaction, and from a log of six by deletions.
        let mut front = log.clone();
        assert_eq!(compacted(&mut front), Ok(left.len()));
        assert_eq!(numbers(&front), left);
        let mut deleted = log_by(&[1; 6]);
        for number in (0..6).filter(|&k| !used(k)) {
            assert_eq!(delete(&mut deleted, number), Ok(()));
        }
        assert_eq!(deleted, log);
        // What the reader hands out is what remains.
        let places: Vec<u8> = read_back(&log).iter().map(|r| r.place as u8).collect();
        assert_eq!(places, left);
        // Appending, into the log as it is and behind the compaction.
        for mut log in [log, front] {
            let mut expected = left.clone();
            for _ in left.len()..6 {
                assert!(append_to(&mut log, &FIELDS).is_ok());
                expected.push(0x77);
                assert_eq!(numbers(&log), expected);
            }
            assert_eq!(append_to(&mut log, &FIELDS), Err(12));
        }
    }
}

#[test]
fn where_appending_goes() {
    for (outcomes, number, left) in [
        (&[0, 0, 0][..], 0, &[0x77][..]),
        (&[1, 0, 0], 1, &[0, 0x77]),
        (&[0, 1, 0], 2, &[1, 0x77]),
        (&[0, 0, 1], 1, &[2, 0x77]),
        (&[1, 1, 0], 2, &[0, 1, 0x77]),
        (&[1, 0, 1], 2, &[0, 2, 0x77]),
        (&[0, 1, 1], 2, &[1, 2, 0x77]),
    ] {
        let mut log = log_by(outcomes);
        assert_eq!(append_to(&mut log, &FIELDS), Ok(Some(number)));
        assert_eq!(numbers(&log), left);
        let moved = outcomes.last() == Some(&1);
        // What isn't used keeps its octets, unless it was compacted.
        let unused = log.chunks_exact(16).filter(|record| record[4] == 0);
        for record in unused {
            assert_eq!(record == [0; 16], moved);
        }
    }
}

#[test]
fn refusal_12_exactly_when_every_record_is_used() {
    for records in 0..=5 {
        let mut log = log_by(&vec![1; records]);
        assert_eq!(append_to(&mut log, &FIELDS), Err(12));
        // One deletion, whichever it is, makes room for one.
        for number in 0..records {
            let mut log = log.clone();
            assert_eq!(delete(&mut log, number), Ok(()));
            let last = Ok(Some(records - 1));
            assert_eq!(append_to(&mut log, &FIELDS), last);
            assert_eq!(append_to(&mut log, &FIELDS), Err(12));
        }
    }
}

#[test]
fn outcome_0_compacts_nothing() {
    let nothing = Record {
        outcome: 0,
        ..FIELDS
    };
    for outcomes in [[1, 0, 1], [0, 0, 1], [1, 1, 1], [0, 0, 0]] {
        assert_eq!(append_to(&mut log_by(&outcomes), &nothing), Ok(None));
    }
    // Nor does a reading that isn't counted.
    for capture in [Capture::new().control(IDLE), Capture::new().control(START)] {
        let reading = capture.read(&PLAIN, &mut State::default(), 0);
        let mut log = log_by(&[1, 0, 1]);
        assert_eq!(append_reading(&mut log, &reading), Ok(None));
        assert_eq!(log, log_by(&[1, 0, 1]));
    }
    let counted = Capture::new().control(START).control(TERMINATE);
    let reading = counted.read(&PLAIN, &mut State::default(), 0);
    let mut log = log_by(&[1, 0, 1]);
    assert_eq!(append_reading(&mut log, &reading), Ok(Some(2)));
    assert_eq!(numbers(&log), [0, 2, 0]);
}

#[test]
fn the_reader_skips() {
    let log = log_by(&[0, 0, 3, 0, 4, 0, 0]);
    let mut reader = LogReader::new(&log);
    for (outcome, behind) in [(3, 3), (4, 5)] {
        assert_eq!(reader.next_record().map(|r| r.outcome), Ok(outcome));
        assert_eq!(reader.place, behind);
    }
    assert_eq!(reader.next_record(), Err(13));
    assert_eq!(reader.place, 5);
    for log in [log_by(&[0]), log_by(&[0; 5]), vec![]] {
        let mut reader = LogReader::new(&log);
        assert_eq!(reader.next_record(), Err(13));
        assert_eq!(reader.place, 0);
    }
}

#[test]
fn calls_on_a_log_of_all_sorts() {
    let mut dice = Dice::new(12);
    let mut answers = [0; 14];
    for _ in 0..300 {
        let mut log = vec![0; 16 * dice.roll(8)];
        // What remains, told without a log.
        let mut remain: Vec<Record> = vec![];
        for _ in 0..40 {
            let error = match dice.roll(8) {
                0 => {
                    let number = dice.roll(log.len() / 16 + 1);
                    let found = remaining(&log).iter().position(|&(n, _)| n == number);
                    if let Some(at) = found {
                        remain.remove(at);
                    }
                    delete(&mut log, number).err()
                }
                1 => {
                    let outcome = 1 + dice.roll(3) as u8;
                    remain.retain(|record| record.outcome != outcome);
                    delete_all(&mut log, outcome).err()
                }
                2 => compacted(&mut log).err(),
                _ => {
                    let mut record = any_record(&mut dice);
                    record.outcome = 1 + record.outcome % 3;
                    let full = remain.len() == log.len() / 16;
                    if !full {
                        remain.push(record);
                    }
                    let appended = append_to(&mut log, &record);
                    assert_eq!(appended == Err(12), full);
                    appended.err()
                }
            };
            answers[usize::from(error.unwrap_or(0))] += 1;
            assert_eq!(read_back(&log), remain);
            let front = written(log.len(), &remain);
            let mut log = log.clone();
            assert_eq!(compacted(&mut log), Ok(remain.len()));
            assert_eq!(log, front);
        }
    }
    for number in [0, 12, 13] {
        assert!(answers[number] > 0, "{answers:?}");
    }
    assert_eq!(answers[1..12], [0; 11]);
}
