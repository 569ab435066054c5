//! "A reading log", item 4 of document 02, as it is with "Room in the log", item
//! 11, whose own calls are in `room`.

use reference::{append, append_reading, compact, delete_outcome, delete_record, first_unused};
use reference::{read, record, used_in_front, used_records, walk_log};
use reference::{
    Answer, Check, LogEnd, LogReader, Logged, Reading, Record, Settings, State, Table,
};

use crate::hand::{frame, listing, ramp, see_with, Capture, Reader, BROADCAST, IDLE, KINDS};
use crate::hand::{MULTICAST, OTHER, OWN, PAUSE, PFC, PLAIN, RESERVED, START, TERMINATE};
use crate::robust::Dice;

/// Fields of which no two octets are alike, and the same as they stand.
const FIELDS: Record = Record {
    place: 0x1413_1211,
    outcome: 0x21,
    address: 0x31,
    handed: 0x4241,
    status: 0x5857_5655_5453_5251,
};
const STANDING: [u8; 16] = [
    0x11, 0x12, 0x13, 0x14, 0x21, 0x31, 0x41, 0x42, 0x51, 0x52, 0x53, 0x54, 0x55, 0x56, 0x57, 0x58,
];

/// Every octet at its greatest value.
const GREATEST: Record = Record {
    place: u32::MAX,
    outcome: u8::MAX,
    address: u8::MAX,
    handed: u16::MAX,
    status: u64::MAX,
};

/// A log whose records are used or not, as it says; every other octet is 0xA7.
pub fn log_of(used: &[bool]) -> Vec<u8> {
    let mut log = vec![0xA7; 16 * used.len()];
    for (record, &used) in log.chunks_exact_mut(16).zip(used) {
        record[4] = u8::from(used);
    }
    log
}

/// A log of these records, with zero octets behind them to that length.
pub fn log_with(records: &[[u8; 16]], len: usize) -> Vec<u8> {
    let mut log = records.concat();
    log.resize(len, 0);
    log
}

/// The used records of a log as they stand, each with its number.
pub fn remaining(log: &[u8]) -> Vec<(usize, [u8; 16])> {
    let records = log
        .chunks_exact(16)
        .map(|octets| octets.try_into().unwrap());
    let used = records
        .enumerate()
        .filter(|(_, octets): &(_, [u8; 16])| octets[4] != 0);
    used.collect()
}

/// The used records of a log without their numbers.
pub fn used_octets(log: &[u8]) -> Vec<[u8; 16]> {
    remaining(log)
        .into_iter()
        .map(|(_, octets)| octets)
        .collect()
}

/// What is left of a log when these are appended to it, of a right length: they
/// go behind the last used record, and from the end of the log on it is that of
/// all used ones. As many are appended as there is room for.
fn appended_by_hand(log: &[u8], records: &[Record]) -> (usize, Vec<u8>) {
    let (slots, used) = (log.len() / 16, remaining(log));
    let behind = used.last().map_or(0, |(last, _)| last + 1);
    let kept = &records[..records.len().min(slots - used.len())];
    let new: Vec<[u8; 16]> = kept.iter().map(Record::to_octets).collect();
    if behind + kept.len() > slots {
        let all = [used_octets(log), new].concat();
        return (kept.len(), log_with(&all, log.len()));
    }
    let mut log = log.to_vec();
    log[16 * behind..][..16 * kept.len()].copy_from_slice(&new.concat());
    (kept.len(), log)
}

/// Appends, and checks what holds each time: where the record goes, what else
/// changes, and that it holds the fields and is the last used one.
pub fn append_to(log: &mut [u8], fields: &Record) -> Result<Option<usize>, u8> {
    let before = log.to_vec();
    let appended = append(log, fields);
    let Ok(Some(number)) = appended else {
        assert_eq!(log, before);
        return appended;
    };
    assert_ne!(fields.outcome, 0);
    assert_eq!((1, log.to_vec()), appended_by_hand(&before, &[*fields]));
    assert_eq!(record(log, number), Ok(*fields));
    let expected = [used_octets(&before), vec![fields.to_octets()]].concat();
    assert_eq!(used_octets(log), expected);
    assert_eq!(remaining(log).pop(), Some((number, fields.to_octets())));
    appended
}

/// Reads a log back: all that a reader hands out until it is refused.
pub fn read_back(log: &[u8]) -> Vec<Record> {
    let mut reader = LogReader::new(log);
    let mut records = Vec::new();
    while let Ok(next) = reader.next_record() {
        records.push(next);
    }
    // Behind the last one that it handed out.
    let last = remaining(log).pop();
    assert_eq!(reader.place, last.map_or(0, |(last, _)| last + 1));
    records
}

/// A zero log of that length with these records appended.
pub fn written(len: usize, records: &[Record]) -> Vec<u8> {
    let mut log = vec![0; len];
    for (number, fields) in records.iter().enumerate() {
        assert_eq!(append_to(&mut log, fields), Ok(Some(number)));
    }
    log
}

fn with_outcome(outcome: u8) -> Record {
    Record { outcome, ..FIELDS }
}

#[test]
fn where_the_octets_stand() {
    assert_eq!(FIELDS.to_octets(), STANDING);
    assert_eq!(Record::from_octets(&STANDING), FIELDS);
    let mut log = vec![0; 48];
    assert_eq!(append_to(&mut log, &FIELDS), Ok(Some(0)));
    assert_eq!(log[..16], STANDING);
    assert_eq!(log[16..], [0; 32]);
    assert_eq!(append_to(&mut log, &FIELDS), Ok(Some(1)));
    assert_eq!(log[..16], STANDING);
    assert_eq!(log[16..32], STANDING);
    assert_eq!(log[32..], [0; 16]);
}

#[test]
fn widths_at_both_ends() {
    let alone = [
        Record {
            place: u32::MAX,
            ..with_outcome(1)
        },
        Record {
            address: u8::MAX,
            ..with_outcome(1)
        },
        Record {
            handed: u16::MAX,
            ..with_outcome(1)
        },
        Record {
            status: u64::MAX,
            ..with_outcome(1)
        },
        with_outcome(u8::MAX),
        Record {
            outcome: 1,
            ..Record::default()
        },
        GREATEST,
    ];
    assert_eq!(GREATEST.to_octets(), [0xFF; 16]);
    assert_eq!(Record::from_octets(&[0xFF; 16]), GREATEST);
    assert_eq!(Record::default().to_octets(), [0; 16]);
    assert_eq!(Record::from_octets(&[0; 16]), Record::default());
    let log = written(16 * alone.len(), &alone);
    assert_eq!(read_back(&log), alone);
}

/// The refusals of all calls on a log, 0 for none: appending outcome 1 and
/// outcome 0, the first unused record, the number of used ones in front and of
/// all of them, record 0, a reader, a walk, deleting record 0 and an outcome,
/// compacting.
fn refusals_of(log: &[u8]) -> [u8; 11] {
    fn number<T>(result: Result<T, u8>) -> u8 {
        result.err().unwrap_or(0)
    }
    let mut reader = LogReader::new(log);
    let capture = Capture::new().control(START).control(TERMINATE);
    [
        number(append_to(&mut log.to_vec(), &with_outcome(1))),
        number(append_to(&mut log.to_vec(), &with_outcome(0))),
        number(first_unused(log)),
        number(used_in_front(log)),
        number(used_records(log)),
        number(record(log, 0)),
        number(reader.next_record()),
        match walk_checked(&PLAIN, &capture, &mut BEFORE.clone(), 0, &mut log.to_vec()).end {
            LogEnd::Refused(number) => number,
            _ => 0,
        },
        number(delete_record(&mut log.to_vec(), 0)),
        number(delete_outcome(&mut log.to_vec(), 0xA7)),
        number(compact(&mut log.to_vec())),
    ]
}

#[test]
fn lengths() {
    // Without a record, with an unused one and with a used one in front.
    let none = [12, 0, 12, 0, 0, 13, 13, 0, 13, 0, 0];
    let unused = [0, 0, 0, 0, 0, 13, 13, 0, 13, 0, 0];
    let used = [12, 0, 12, 0, 0, 0, 0, 0, 0, 0, 0];
    for len in 0..=100 {
        let full = [0xA7].repeat(len);
        let zero = [0].repeat(len);
        if len % 16 != 0 {
            assert_eq!(refusals_of(&full), [11; 11], "{len}");
            assert_eq!(refusals_of(&zero), [11; 11], "{len}");
        } else if len == 0 {
            assert_eq!(refusals_of(&zero), none);
        } else {
            assert_eq!(refusals_of(&full), used, "{len}");
            assert_eq!(refusals_of(&zero), unused, "{len}");
        }
    }
    for len in [15, 17, 31, 33, 1_048_575, 1_048_577] {
        assert_eq!(refusals_of(&[1].repeat(len)), [11; 11]);
    }
}

#[test]
fn one_octet_too_many_or_too_few() {
    // 11 comes before 12 and 13, and no octet of the whole records changes.
    for (len, expected) in [
        (0, Err(12)),
        (15, Err(11)),
        (16, Ok(Some(0))),
        (17, Err(11)),
        (31, Err(11)),
        (32, Ok(Some(0))),
    ] {
        assert_eq!(append_to(&mut vec![0; len], &FIELDS), expected, "{len}");
    }
    for len in [15, 17, 31] {
        let mut log = vec![0xA7; len];
        assert_eq!(append_to(&mut log, &FIELDS), Err(11));
        assert_eq!(record(&log, 0), Err(11));
        assert_eq!(record(&log, usize::MAX), Err(11));
    }
}

#[test]
fn outcome_0_appends_nothing() {
    let nothing = with_outcome(0);
    for len in 0..=64 {
        let expected = if len % 16 == 0 { Ok(None) } else { Err(11) };
        for octet in [0, 1, 0xFF] {
            let mut log = vec![octet; len];
            assert_eq!(append_to(&mut log, &nothing), expected);
            assert_eq!(append_to(&mut log, &Record::default()), expected);
            let greatest = Record {
                outcome: 0,
                ..GREATEST
            };
            assert_eq!(append_to(&mut log, &greatest), expected);
        }
    }
    // Full, and with a hole: neither 12 nor a record.
    for used in [[true, true, true], [true, false, true]] {
        assert_eq!(append_to(&mut log_of(&used), &nothing), Ok(None));
    }
}

#[test]
fn all_used() {
    for records in 0..=4 {
        let mut log = log_of(&vec![true; records]);
        assert_eq!(append_to(&mut log, &FIELDS), Err(12));
        assert_eq!(first_unused(&log), Err(12));
        assert_eq!(used_in_front(&log), Ok(records));
        assert_eq!(read_back(&log).len(), records);
        // One more record in the log, and it is taken.
        log.resize(16 * records + 16, 0);
        assert_eq!(append_to(&mut log, &FIELDS), Ok(Some(records)));
        assert_eq!(append_to(&mut log, &FIELDS), Err(12));
    }
}

#[test]
fn every_pattern_of_five() {
    for pattern in 0..1usize << 5 {
        let used: Vec<bool> = (0..5).map(|k| pattern >> k & 1 == 1).collect();
        let mut log = log_of(&used);
        let front = used.iter().position(|&used| !used);
        let count = used.iter().filter(|&&used| used).count();
        assert_eq!(first_unused(&log), front.ok_or(12));
        assert_eq!(used_in_front(&log), Ok(front.unwrap_or(5)));
        assert_eq!(used_records(&log), Ok(count));
        assert_eq!(read_back(&log).len(), count);
        for (k, &used) in used.iter().enumerate() {
            assert_eq!(record(&log, k).is_ok(), used);
        }
        // There is room for as many as aren't used, then there is none.
        let behind = used.iter().rposition(|&used| used).map_or(0, |k| k + 1);
        for appended in 0..5 - count {
            let compacted = behind + appended >= 5;
            let number = if compacted { count } else { behind } + appended;
            assert_eq!(append_to(&mut log, &FIELDS), Ok(Some(number)));
        }
        assert_eq!(append_to(&mut log, &FIELDS), Err(12));
        for k in 0..5 {
            assert_eq!(record(&log, k) == Ok(FIELDS), k >= count);
        }
    }
}

#[test]
fn a_hole_in_the_middle() {
    let mut log = log_of(&[true, true, false, true, true]);
    assert_eq!(used_in_front(&log), Ok(2));
    assert_eq!(first_unused(&log), Ok(2));
    assert_eq!(record(&log, 2), Err(13));
    // A record behind it is used all the same, and reading back skips it.
    assert_eq!(record(&log, 3).map(|record| record.outcome), Ok(1));
    assert_eq!(read_back(&log).len(), 4);
    // The last slot is used, so those behind the hole move up.
    assert_eq!(append_to(&mut log, &FIELDS), Ok(Some(4)));
    assert_eq!(read_back(&log).len(), 5);
    assert_eq!(append_to(&mut log, &FIELDS), Err(12));
}

#[test]
fn used_by_the_outcome_octet_alone() {
    for outcome in 0..=255 {
        for other in [0, 1, 0xFF] {
            let mut log = vec![other; 16];
            log[4] = outcome;
            let found = record(&log, 0);
            if outcome == 0 {
                assert_eq!(found, Err(13));
                // All of it is written over, whatever stood there.
                assert_eq!(append_to(&mut log, &FIELDS), Ok(Some(0)));
                assert_eq!(log, STANDING);
            } else {
                assert_eq!(found.map(|record| record.outcome), Ok(outcome));
                assert_eq!(append_to(&mut log, &FIELDS), Err(12));
            }
        }
        let appended = append_to(&mut [0; 16], &with_outcome(outcome));
        assert_eq!(appended, Ok((outcome != 0).then_some(0)));
    }
}

#[test]
fn record_numbers() {
    for records in 0..=4 {
        let log = log_of(&vec![true; records]);
        for number in 0..records {
            assert!(record(&log, number).is_ok());
        }
        // The last are those whose sixteenfold doesn't fit in a number.
        let far = [usize::MAX / 16, usize::MAX / 16 + 1, usize::MAX];
        for number in [records, records + 1, 16 * records + 1]
            .into_iter()
            .chain(far)
        {
            assert_eq!(record(&log, number), Err(13), "{records} {number}");
        }
    }
    // The last record, used and not.
    assert!(record(&log_of(&[false, true]), 1).is_ok());
    assert_eq!(record(&log_of(&[true, false]), 1), Err(13));
    assert_eq!(record(&[0; 32], 0), Err(13));
}

/// The number whose lowest octet comes first.
fn low_first(octets: &[u8]) -> u64 {
    let from_the_top = octets.iter().rev();
    from_the_top.fold(0, |number, &octet| number << 8 | u64::from(octet))
}

#[test]
fn read_as_they_stand() {
    let mut dice = Dice::new(5);
    for _ in 0..500 {
        let log: Vec<u8> = (0..64).map(|_| dice.roll(256) as u8).collect();
        for (number, octets) in log.chunks_exact(16).enumerate() {
            let fields = Record::from_octets(octets.try_into().unwrap());
            assert_eq!(fields.to_octets(), octets);
            assert_eq!(u64::from(fields.place), low_first(&octets[..4]));
            assert_eq!(fields.outcome, octets[4]);
            assert_eq!(fields.address, octets[5]);
            assert_eq!(u64::from(fields.handed), low_first(&octets[6..8]));
            assert_eq!(fields.status, low_first(&octets[8..]));
            let expected = if octets[4] == 0 { Err(13) } else { Ok(fields) };
            assert_eq!(record(&log, number), expected);
        }
    }
}

/// A used record of any octets.
pub fn any_record(dice: &mut Dice) -> Record {
    let mut octets = [(); 16].map(|()| dice.roll(256) as u8);
    octets[4] = 1 + dice.roll(255) as u8;
    Record::from_octets(&octets)
}

#[test]
fn read_back_and_written_again() {
    let mut dice = Dice::new(6);
    for records in 0..=8 {
        for spare in 0..=3 {
            let len = 16 * (records + spare);
            let appended: Vec<Record> = (0..records).map(|_| any_record(&mut dice)).collect();
            let log = written(len, &appended);
            assert_eq!(log[16 * records..], [0].repeat(16 * spare));
            let back = read_back(&log);
            assert_eq!(back, appended);
            assert_eq!(written(len, &back), log);
            assert_eq!(used_in_front(&log), Ok(records));
        }
    }
}

#[test]
fn outcome_0_in_between_leaves_no_trace() {
    let mut log = vec![0; 48];
    let kept: Vec<Record> = (1..=3).map(with_outcome).collect();
    for fields in &kept {
        assert_eq!(append_to(&mut log, &with_outcome(0)), Ok(None));
        assert!(append_to(&mut log, fields).is_ok());
        assert_eq!(append_to(&mut log, &with_outcome(0)), Ok(None));
    }
    assert_eq!(read_back(&log), kept);
    assert_eq!(written(48, &kept), log);
}

#[test]
fn the_reader_keeps_its_place() {
    let mut log = log_of(&[true, true, false, false, true, false]);
    log[16 * 4] = 0x77;
    let mut reader = LogReader::new(&log);
    for (place, number) in [(0, 0), (1, 1), (2, 4)] {
        assert_eq!(reader.place, place);
        assert_eq!(reader.next_record(), record(&log, number));
    }
    for _ in 0..3 {
        assert_eq!(reader.next_record(), Err(13));
        assert_eq!(
            reader,
            LogReader {
                log: &log,
                place: 5
            }
        );
    }
    // From any place, also one where nothing is or nothing follows.
    for (place, number) in [(2, 4), (3, 4), (4, 4)] {
        let mut reader = LogReader { log: &log, place };
        assert_eq!(reader.next_record(), record(&log, number));
        assert_eq!(reader.place, 5);
    }
    for place in [5, 6, 7, usize::MAX / 16 + 1, usize::MAX] {
        let mut reader = LogReader { log: &log, place };
        assert_eq!(reader.next_record(), Err(13));
        assert_eq!(reader.place, place);
    }
    let mut reader = LogReader::new(&log[1..]);
    assert_eq!(reader.next_record(), Err(11));
    assert_eq!(reader.place, 0);
    assert_eq!(LogReader::new(&[]).next_record(), Err(13));
}

#[test]
fn the_reader_goes_on_behind_what_is_appended_later() {
    let mut log = written(48, &[FIELDS]);
    let mut reader = LogReader::new(&log);
    assert_eq!(reader.next_record(), Ok(FIELDS));
    assert_eq!(reader.next_record(), Err(13));
    let place = reader.place;
    assert_eq!(append_to(&mut log, &GREATEST), Ok(Some(1)));
    let mut reader = LogReader { log: &log, place };
    assert_eq!(reader.next_record(), Ok(GREATEST));
    assert_eq!(reader.next_record(), Err(13));
}

/// The reading at a place of a capture, with a fresh state.
fn reading(s: &Settings, capture: &Capture, place: usize) -> Reading {
    capture.read(s, &mut State::default(), place)
}

#[test]
fn uncounted_readings() {
    let none = Capture::new().control(IDLE);
    let open = Capture::new().control(IDLE).control(START);
    let bad = Settings { limit: 0, ..PLAIN };
    let readings = [
        (reading(&PLAIN, &none, 0), Answer::None),
        (reading(&PLAIN, &open, 0), Answer::Open),
        (reading(&bad, &open, 0), Answer::Refused(1)),
        (reading(&PLAIN, &open, 3), Answer::Refused(3)),
        (reading(&PLAIN, &open, usize::MAX), Answer::Refused(3)),
    ];
    for (reading, answer) in readings {
        assert_eq!(reading.answer, answer);
        assert_eq!(Record::of(&reading).outcome, 0);
        for used in [&[][..], &[true], &[false], &[true, false, true]] {
            let mut log = log_of(used);
            let before = log.clone();
            assert_eq!(append_reading(&mut log, &reading), Ok(None));
            assert_eq!(log, before);
            log.push(0);
            assert_eq!(append_reading(&mut log, &reading), Err(11));
            assert_eq!(log[..before.len()], before);
        }
    }
}

/// Frames of all eleven outcomes with the settings that give them, by outcome.
fn frames() -> Vec<(Settings, Vec<u8>)> {
    let control = |opcode: u16| {
        let mut data = opcode.to_be_bytes().to_vec();
        data.resize(46, 0);
        frame(RESERVED, &[0x8808], &data)
    };
    let good = frame(OWN, &[0x0800], &ramp(77));
    let mut wrong = good.clone();
    wrong[30] ^= 1;
    vec![
        (PLAIN, good[..63].to_vec()),
        (PLAIN, frame(OWN, &[0x0800], &ramp(1501))),
        (PLAIN, wrong),
        (PLAIN, frame(OWN, &[45], &ramp(47))),
        (PLAIN, frame(OTHER, &[0x0800], &ramp(46))),
        (PAUSE, control(0x0001)),
        (PFC, control(0x0101)),
        (PLAIN, control(0x0001)),
        (PLAIN, good),
    ]
}

#[test]
fn counted_readings_by_outcome() {
    for (expected, (s, octets)) in (3..).zip(frames()) {
        let seen = see_with(&s, &mut State::default(), &octets);
        assert_eq!(seen.outcome, expected);
        let capture = Capture::new().control(IDLE).data(&[START]).frame(&octets);
        let mut log = vec![0; 16];
        let reading = reading(&s, &capture, 0);
        assert_eq!(append_reading(&mut log, &reading), Ok(Some(0)));
        let fields = Record {
            place: 2,
            outcome: expected,
            address: match expected {
                3..=7 => 0,
                8..=10 => 8,
                _ => 1,
            },
            handed: seen.data.len() as u16,
            status: seen.status,
        };
        assert_eq!(seen.address, fields.address);
        assert_eq!(read_back(&log), [fields]);
        assert_eq!(log[5], fields.address);
        assert_eq!(append_reading(&mut log, &reading), Err(12));
    }
    for (ending, outcome) in [(START, 1), (TERMINATE, 2)] {
        let capture = Capture::new().control(START).control(ending);
        let mut log = vec![0; 16];
        let reading = reading(&PLAIN, &capture, 0);
        assert_eq!(append_reading(&mut log, &reading), Ok(Some(0)));
        let fields = Record {
            outcome,
            ..Record::default()
        };
        assert_eq!(read_back(&log), [fields]);
    }
}

#[test]
fn the_longest_data_and_the_farthest_place() {
    let s = Settings {
        limit: 9618,
        ..PLAIN
    };
    let octets = frame(OWN, &[0x0800], &ramp(9600));
    let ahead = 65_536 - 8 - octets.len() - 1;
    let capture = Capture::new().data(&[0].repeat(ahead)).frame(&octets);
    assert_eq!(capture.octets.len(), 65_536);
    let mut log = vec![0; 16];
    let reading = reading(&s, &capture, 0);
    assert_eq!(append_reading(&mut log, &reading), Ok(Some(0)));
    assert_eq!(
        read_back(&log),
        [Record {
            place: ahead as u32,
            outcome: 11,
            address: 1,
            handed: 9600,
            status: 1 << 38 | 9618 << 16 | 9600,
        }]
    );

    let last = Capture {
        octets: [START].repeat(65_536),
        marks: [1].repeat(65_536),
    };
    let reading = last.read(&PLAIN, &mut State::default(), 65_534);
    assert_eq!(Record::of(&reading).place, 65_534);
}

#[test]
fn a_reading_as_wide_as_its_record() {
    let reading = Reading {
        answer: Answer::Counted {
            outcome: u8::MAX,
            status: u64::MAX,
            at: 0,
            len: 65_535,
            address: u8::MAX,
        },
        start: u32::MAX as usize,
        next: 0,
    };
    assert_eq!(Record::of(&reading), GREATEST);
}

/// A state in which every counter and every timer would show a change.
const BEFORE: State = State {
    counters: [u64::MAX; 11],
    timers: [5; 8],
    deficit: 9,
};

fn ended(end: LogEnd, next: usize, appended: usize) -> Logged {
    Logged {
        end,
        next,
        appended,
    }
}

/// All readings from a place on, each with the state behind it; all but the
/// last one are counted.
fn readings_from(
    by: &Reader,
    capture: &Capture,
    mut state: State,
    mut place: usize,
) -> Vec<(Reading, State)> {
    let mut readings = Vec::new();
    let Reader { s, job, table } = by;
    loop {
        let kind = Check::ByteTable;
        let (octets, marks) = (&capture.octets, &capture.marks);
        let reading = read(kind, s, &mut state, *job, table, octets, marks, place);
        readings.push((reading, state));
        let Answer::Counted { .. } = reading.answer else {
            return readings;
        };
        place = reading.next;
    }
}

/// What a walk with a log must give, by readings with an appending behind each.
fn by_hand(
    by: &Reader,
    capture: &Capture,
    state: &mut State,
    place: usize,
    log: &mut [u8],
) -> Logged {
    let mut next = place;
    for appended in 0.. {
        let mut after = *state;
        let reading = capture.read(by, &mut after, next);
        match (reading.answer, append_reading(log, &reading)) {
            (Answer::Counted { .. }, Ok(Some(_))) => *state = after,
            (Answer::Counted { .. }, Err(12)) => return ended(LogEnd::Full, next, appended),
            (Answer::None, Ok(None)) => return ended(LogEnd::None, reading.next, appended),
            (Answer::Open, Ok(None)) => return ended(LogEnd::Open, reading.next, appended),
            other => panic!("{other:?}"),
        }
        next = reading.next;
    }
    unreachable!()
}

/// Walks with a log in all three ways, and checks the whole answer: it is
/// refused as a reading is, then for the log's length, and changes nothing
/// then; else it keeps as many of the readings that there are from that place
/// on as there are unused records, behind the used ones.
fn walk_checked(
    by: impl Into<Reader>,
    capture: &Capture,
    state: &mut State,
    place: usize,
    log: &mut [u8],
) -> Logged {
    let by = by.into();
    let Reader { s, job, table } = &by;
    let mut results = KINDS.iter().map(|&kind| {
        let (mut after, mut kept) = (*state, log.to_vec());
        let (octets, marks) = (&capture.octets, &capture.marks);
        let logged = walk_log(
            kind, s, &mut after, *job, table, octets, marks, place, &mut kept,
        );
        (logged, after, kept)
    });
    let first = results.next().unwrap();
    assert!(results.all(|other| other == first));
    let (logged, after, log_after) = first;

    let readings = readings_from(&by, capture, *state, place);
    let ((last, state_at_end), counted) = readings.split_last().unwrap();
    let behind = log.len() % 16;
    let refusal = match last.answer {
        Answer::Refused(number) => Some(number),
        _ => (behind > 0).then_some(11),
    };
    if let Some(number) = refusal {
        assert_eq!(logged, ended(LogEnd::Refused(number), place, 0));
        assert_eq!(after, *state);
        assert_eq!(log_after, log);
        return logged;
    }
    let records: Vec<Record> = counted.iter().map(|(r, _)| Record::of(r)).collect();
    let (appended, expected_log) = appended_by_hand(log, &records);
    log.copy_from_slice(&expected_log);
    let kept = &counted[..appended];
    let (end, next, expected) = if kept.len() < counted.len() {
        let stands = kept.last().map(|(reading, state)| (reading.next, *state));
        let (next, state) = stands.unwrap_or((place, *state));
        (LogEnd::Full, next, state)
    } else if last.answer == Answer::Open {
        (LogEnd::Open, last.start, *state_at_end)
    } else {
        (LogEnd::None, capture.octets.len(), *state_at_end)
    };
    assert_eq!(logged, ended(end, next, kept.len()));
    assert_eq!(after, expected);
    assert_eq!(log_after, log);
    *state = after;
    logged
}

/// Walks on with another log of zero octets each time one is full: the last
/// answer, and the records of all these logs.
fn walk_on(
    by: impl Into<Reader>,
    capture: &Capture,
    state: &mut State,
    mut place: usize,
    sizes: impl IntoIterator<Item = usize>,
) -> (Logged, Vec<Record>) {
    let by = by.into();
    let mut records = Vec::new();
    for size in sizes {
        let mut log = vec![0; 16 * size];
        let logged = walk_checked(by, capture, state, place, &mut log);
        records.extend(read_back(&log));
        if logged.end != LogEnd::Full {
            return (logged, records);
        }
        place = logged.next;
    }
    panic!("too few logs");
}

/// Five Starts are counted. The last of them ends with this control octet, at
/// the end of the capture.
fn five_starts(last: u8) -> Capture {
    Capture::new()
        .data(&[START])
        .frame(&frame(OWN, &[45], &ramp(46)))
        .frame(&frame(BROADCAST, &[0x0800], &ramp(100)))
        .frame(&frame(MULTICAST, &[0x0800], &ramp(100)))
        .frame(&frame(OWN, &[0x8808], &ramp(46)))
        .control(START)
        .control(last)
}

/// The records of its counted Starts: place, outcome, address, octets, status.
fn five_records() -> Vec<Record> {
    [
        (1, 11, 1, 45, 0x40_0040_002D),
        (74, 11, 6, 100, 0x10_0076_0064),
        (201, 7, 0, 0, 0),
        (328, 10, 1, 0, 0x44_0040_002E),
        (401, 1, 0, 0, 0),
    ]
    .map(|(place, outcome, address, handed, status)| Record {
        place,
        outcome,
        address,
        handed,
        status,
    })
    .to_vec()
}

/// Where a walk from place 0 stands behind its first Starts.
const STANDS: [usize; 5] = [0, 73, 200, 327, 400];

/// How a walk with room ends, by that last octet; as a Start it is open.
const LAST: [(u8, LogEnd, usize); 2] = [(IDLE, LogEnd::None, 403), (START, LogEnd::Open, 402)];

/// The state with the Starts of these records counted.
fn counting(mut state: State, records: &[Record]) -> State {
    for record in records {
        let counter = &mut state.counters[usize::from(record.outcome) - 1];
        *counter = counter.wrapping_add(1);
    }
    state
}

#[test]
fn as_many_records_as_starts_and_one_fewer() {
    for (last, end, at) in LAST {
        for records in 0..=7 {
            let mut log = vec![0; 16 * records];
            let mut state = BEFORE;
            let logged = walk_checked(&PLAIN, &five_starts(last), &mut state, 0, &mut log);
            let expected = match STANDS.get(records) {
                Some(&stands) => ended(LogEnd::Full, stands, records),
                None => ended(end, at, 5),
            };
            assert_eq!(logged, expected);
            let kept = &five_records()[..logged.appended];
            assert_eq!(read_back(&log), kept);
            assert_eq!(log, written(16 * records, kept));
            // A Start without a record isn't counted.
            assert_eq!(state, counting(BEFORE, kept));
        }
    }
}

#[test]
fn another_log_gets_the_rest() {
    for (last, end, at) in LAST {
        let capture = five_starts(last);
        for (first, stands) in STANDS.into_iter().enumerate() {
            let mut state = BEFORE;
            let mut log = vec![0; 16 * first];
            let logged = walk_checked(&PLAIN, &capture, &mut state, 0, &mut log);
            assert_eq!(logged, ended(LogEnd::Full, stands, first));
            // The same log again, and one without records: nothing moves.
            let (stood, kept) = (state, log.clone());
            for log in [&mut log, &mut vec![]] {
                let again = walk_checked(&PLAIN, &capture, &mut state, logged.next, log);
                assert_eq!(again, ended(LogEnd::Full, logged.next, 0));
                assert_eq!(state, stood);
            }
            assert_eq!(log, kept);
            let mut other = vec![0; 16 * (5 - first)];
            let rest = walk_checked(&PLAIN, &capture, &mut state, logged.next, &mut other);
            assert_eq!(rest, ended(end, at, 5 - first));
            assert_eq!(read_back(&other), five_records()[first..]);
            assert_eq!(state, counting(BEFORE, &five_records()));
        }
        for sizes in [&[1][..], &[2], &[3], &[4], &[5], &[6], &[0, 1], &[3, 0, 1]] {
            let mut state = BEFORE;
            let logs = sizes.iter().copied().cycle();
            let (logged, records) = walk_on(&PLAIN, &capture, &mut state, 0, logs);
            assert_eq!((logged.end, logged.next), (end, at));
            assert_eq!(records, five_records());
            assert_eq!(state, counting(BEFORE, &five_records()));
        }
    }
}

#[test]
fn no_unused_record_and_what_is_ahead() {
    for used in [&[][..], &[true], &[true; 3]] {
        for (ahead, place, expected) in [
            (&[][..], 0, ended(LogEnd::None, 0, 0)),
            (&[IDLE, IDLE], 0, ended(LogEnd::None, 2, 0)),
            (&[IDLE, IDLE], 2, ended(LogEnd::None, 2, 0)),
            (&[START], 0, ended(LogEnd::Open, 0, 0)),
            (&[START], 1, ended(LogEnd::None, 1, 0)),
            (&[IDLE, START], 0, ended(LogEnd::Open, 1, 0)),
            (&[START, START], 0, ended(LogEnd::Full, 0, 0)),
            (&[START, START], 1, ended(LogEnd::Open, 1, 0)),
            (&[IDLE, IDLE, START, IDLE], 0, ended(LogEnd::Full, 0, 0)),
            (&[IDLE, IDLE, START, IDLE], 1, ended(LogEnd::Full, 1, 0)),
            (&[IDLE, IDLE, START, IDLE], 2, ended(LogEnd::Full, 2, 0)),
            (&[IDLE, IDLE, START, IDLE], 3, ended(LogEnd::None, 4, 0)),
        ] {
            let capture = ahead.iter().fold(Capture::new(), |c, &o| c.control(o));
            let (mut state, mut log) = (BEFORE, log_of(used));
            let logged = walk_checked(&PLAIN, &capture, &mut state, place, &mut log);
            assert_eq!(logged, expected, "{ahead:?} {place}");
            assert_eq!(state, BEFORE);
            assert_eq!(log, log_of(used));
        }
    }
}

#[test]
fn a_walk_that_appends_nothing_writes_nothing() {
    for (capture, expected) in [
        (Capture::new(), ended(LogEnd::None, 0, 0)),
        (Capture::new().control(IDLE), ended(LogEnd::None, 1, 0)),
        (Capture::new().control(START), ended(LogEnd::Open, 0, 0)),
    ] {
        for used in [&[][..], &[true], &[false], &[false, true]] {
            let (mut state, mut log) = (BEFORE, log_of(used));
            let logged = walk_checked(&PLAIN, &capture, &mut state, 0, &mut log);
            assert_eq!(logged, expected);
            assert_eq!(state, BEFORE);
            assert_eq!(log, log_of(used));
        }
    }
}

#[test]
fn a_pause_without_a_record_sets_no_timer() {
    let pause = |quanta: u16| {
        let mut data = [1_u16, quanta].map(u16::to_be_bytes).concat();
        data.resize(46, 0);
        frame(RESERVED, &[0x8808], &data)
    };
    let capture = Capture::new().frame(&pause(3)).frame(&pause(7));
    let (mut state, mut place) = (BEFORE, 0);
    for (records, expected, timer) in [
        (0, ended(LogEnd::Full, 0, 0), 5),
        (1, ended(LogEnd::Full, 72, 1), 3 * 64),
        (0, ended(LogEnd::Full, 72, 0), 3 * 64),
        (1, ended(LogEnd::None, 146, 1), 7 * 64),
    ] {
        let mut log = vec![0; 16 * records];
        let logged = walk_checked(&PAUSE, &capture, &mut state, place, &mut log);
        assert_eq!(logged, expected);
        assert_eq!(state.timers, [timer; 8]);
        place = logged.next;
    }
    assert_eq!(state.counters[7], 1);
}

#[test]
fn a_walk_goes_on_behind_an_earlier_one() {
    let mut log = vec![0; 16 * 11];
    let mut state = State::default();
    for expected in [
        ended(LogEnd::Open, 402, 5),
        ended(LogEnd::Open, 402, 5),
        ended(LogEnd::Full, 73, 1),
        ended(LogEnd::Full, 0, 0),
    ] {
        let logged = walk_checked(&PLAIN, &five_starts(START), &mut state, 0, &mut log);
        assert_eq!(logged, expected);
    }
    let all: Vec<Record> = five_records().into_iter().cycle().take(11).collect();
    assert_eq!(read_back(&log), all);
    assert_eq!(state, counting(State::default(), &all));
}

#[test]
fn a_walk_compacts_for_room() {
    // Room behind the last used record for all five, for some of them, for none;
    // and the number of the first of them, with what is left of the others.
    let five = [false, true, false, false, false, false, false];
    let some = [true, false, true, false, false, true, false, false];
    let none = [false, true, false, false, false, true, false, true];
    let few = [true, false, true, false, false, true];
    for (used, first, expected) in [
        (&five[..], 2, ended(LogEnd::None, 403, 5)),
        (&some, 3, ended(LogEnd::None, 403, 5)),
        (&none, 3, ended(LogEnd::None, 403, 5)),
        (&few, 3, ended(LogEnd::Full, 327, 3)),
    ] {
        let mut log = log_of(used);
        let logged = walk_checked(&PLAIN, &five_starts(IDLE), &mut BEFORE.clone(), 0, &mut log);
        assert_eq!(logged, expected);
        let kept = &five_records()[..logged.appended];
        for (number, fields) in (first..).zip(kept) {
            assert_eq!(record(&log, number), Ok(*fields));
        }
        let mut expected = used_octets(&log_of(used));
        expected.extend(kept.iter().map(Record::to_octets));
        assert_eq!(used_octets(&log), expected);
        if first == 3 {
            assert_eq!(log, log_with(&expected, 16 * used.len()));
        }
    }
}

#[test]
fn a_walk_from_any_place() {
    for (last, end, at) in LAST {
        let capture = five_starts(last);
        let len = capture.octets.len();
        assert_eq!(len, 403);
        for place in 0..=len {
            let ahead = five_records().into_iter();
            let ahead: Vec<Record> = ahead.filter(|r| r.place as usize >= place).collect();
            // Behind the last Start of all there is no open one either.
            let (end, at) = match place {
                403 => (LogEnd::None, 403),
                _ => (end, at),
            };
            for spare in 0..=1 {
                let mut state = BEFORE;
                let mut log = vec![0; 16 * (ahead.len() + spare)];
                let logged = walk_checked(&PLAIN, &capture, &mut state, place, &mut log);
                assert_eq!(logged, ended(end, at, ahead.len()));
                assert_eq!(read_back(&log), ahead);
                assert_eq!(state, counting(BEFORE, &ahead));
            }
            let Some(fewer) = ahead.len().checked_sub(1) else {
                continue;
            };
            let stands = if fewer == 0 { place } else { 400 };
            let mut state = BEFORE;
            let mut log = vec![0; 16 * fewer];
            let logged = walk_checked(&PLAIN, &capture, &mut state, place, &mut log);
            assert_eq!(logged, ended(LogEnd::Full, stands, fewer));
            assert_eq!(read_back(&log), ahead[..fewer]);
            assert_eq!(state, counting(BEFORE, &ahead[..fewer]));
        }
        for beyond in [len + 1, 65_536, usize::MAX] {
            for mut log in [vec![], vec![0; 16], log_of(&[true])] {
                let logged = walk_checked(&PLAIN, &capture, &mut BEFORE.clone(), beyond, &mut log);
                assert_eq!(logged, ended(LogEnd::Refused(3), beyond, 0));
            }
        }
    }
}

#[test]
fn ladder_of_a_walk_with_a_log() {
    let mut by = Reader {
        s: Settings { limit: 0, ..PLAIN },
        job: 2,
        table: listing(1, &[OTHER, OTHER]),
    };
    let mut capture = five_starts(START);
    capture.marks.push(0);
    let mut place = 404;
    let mut log = vec![0xA7; 17];
    let mut state = BEFORE;
    let mut answer = |by: &Reader, capture: &Capture, place, log: &mut [u8]| {
        walk_checked(by, capture, &mut state, place, log)
    };
    let refused = |number, place| ended(LogEnd::Refused(number), place, 0);
    assert_eq!(answer(&by, &capture, place, &mut log), refused(1, 404));
    by.s = PLAIN;
    assert_eq!(answer(&by, &capture, place, &mut log), refused(14, 404));
    by.job = 1;
    assert_eq!(answer(&by, &capture, place, &mut log), refused(2, 404));
    capture.marks.pop();
    assert_eq!(answer(&by, &capture, place, &mut log), refused(3, 404));
    place = 403;
    assert_eq!(answer(&by, &capture, place, &mut log), refused(20, 403));
    by.table = Table::EMPTY;
    assert_eq!(answer(&by, &capture, place, &mut log), refused(11, 403));
    place = 0;
    assert_eq!(answer(&by, &capture, place, &mut log), refused(11, 0));
    // 11 is given too if there is nothing to append.
    let empty = Capture::new();
    assert_eq!(answer(&by, &empty, place, &mut log), refused(11, 0));
    assert_eq!(log, [0xA7; 17]);
    // Never 12: a log without an unused record is an end.
    log.pop();
    let full = ended(LogEnd::Full, 0, 0);
    assert_eq!(answer(&by, &capture, place, &mut log), full);
    assert_eq!(log, [0xA7; 16]);
    log[4] = 0;
    let full = ended(LogEnd::Full, 73, 1);
    assert_eq!(answer(&by, &capture, place, &mut log), full);
    log.extend([0; 16 * 4]);
    let open = ended(LogEnd::Open, 402, 4);
    assert_eq!(answer(&by, &capture, 73, &mut log), open);
    assert_eq!(read_back(&log), five_records());
}

#[test]
fn walks_of_all_sorts() {
    let mut dice = Dice::new(7);
    let mut refusals = [0; 21];
    let mut ends = [0; 3];
    for _ in 0..4_000 {
        let by = dice.reader();
        let mut capture = Capture::new();
        for _ in 0..dice.roll(8) {
            capture = dice.piece(capture);
        }
        let place = match dice.roll(3) {
            0 => dice.roll(capture.octets.len() + 3),
            _ => 0,
        };
        if dice.roll(8) == 0 {
            capture.marks.push(0);
        }
        let used: Vec<bool> = (0..dice.roll(10)).map(|_| dice.roll(3) == 0).collect();
        let mut log = log_of(&used);
        if dice.roll(8) == 0 {
            log.resize(log.len() + 1 + dice.roll(15), 0);
        }
        let mut expected_log = log.clone();
        let (mut state, mut expected_state) = (BEFORE, BEFORE);
        let logged = walk_checked(by, &capture, &mut state, place, &mut log);
        match logged.end {
            LogEnd::Refused(number) => {
                refusals[usize::from(number)] += 1;
                continue;
            }
            LogEnd::None => ends[0] += 1,
            LogEnd::Open => ends[1] += 1,
            LogEnd::Full => ends[2] += 1,
        }
        let expected = by_hand(&by, &capture, &mut expected_state, place, &mut expected_log);
        assert_eq!(logged, expected);
        assert_eq!((state, log), (expected_state, expected_log));

        // With any logs one after the other it is the walk with room.
        let mut state = BEFORE;
        let (whole, records) = walk_on(by, &capture, &mut state, place, [capture.octets.len()]);
        let sizes: Vec<usize> = (0..1_000).map(|_| dice.roll(4)).collect();
        let mut stepped = BEFORE;
        let (last, stepped_records) = walk_on(by, &capture, &mut stepped, place, sizes);
        assert_eq!((last.end, last.next), (whole.end, whole.next));
        assert_eq!((stepped, stepped_records), (state, records));
    }
    for number in [1, 2, 3, 11, 14, 20] {
        assert!(refusals[number] > 0, "{refusals:?}");
    }
    assert!(ends.iter().all(|&count| count > 0), "{ends:?}");
}

#[test]
fn a_long_walk() {
    // Nothing but Starts, of which the last is open: room for each of the
    // others, or for all of them but one.
    let capture = Capture {
        octets: [START].repeat(65_536),
        marks: [1].repeat(65_536),
    };
    for (records, end) in [(65_535, LogEnd::Open), (65_534, LogEnd::Full)] {
        let mut log = vec![0; 16 * records];
        let mut state = State::default();
        let logged = walk_checked(&PLAIN, &capture, &mut state, 0, &mut log);
        assert_eq!(logged, ended(end, records, records));
        assert_eq!(state.counters[0], records as u64);
        for (number, fields) in read_back(&log).into_iter().enumerate() {
            let cut = Record {
                place: number as u32,
                outcome: 1,
                ..Record::default()
            };
            assert_eq!(fields, cut);
        }
        assert_eq!(used_in_front(&log), Ok(records));
        let (logged, rest) = walk_on(&PLAIN, &capture, &mut state, records, [1]);
        assert_eq!(logged, ended(LogEnd::Open, 65_535, 65_535 - records));
        assert_eq!(rest.len(), 65_535 - records);
        assert_eq!(state.counters[0], 65_535);
    }
}
