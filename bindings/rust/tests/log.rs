//! Logs: records in octets, appending, reading back, and walks that keep their readings.
use fenhamper::{
    limits, Address, Capture, End, Flow, Frame, Kept, Log, LogView, Outcome, Reading, Record,
    Refusal, Sender, Settings, State, Station, Status, Way, SYMBOLS,
};

const OWN: Address = Address([0x02, 0, 0, 0, 0, 1]);
const SIZE: usize = limits::RECORD_SIZE;

// A record with an octet of its own in each place.
const TOLD: Record = Record {
    place: 0x0403_0201,
    outcome_number: 5,
    way_number: 6,
    data_length: 0x0807,
    status: Status::new(0x100F_0E0D_0C0B_0A09),
};

const TOLD_OCTETS: [u8; SIZE] = [1, 2, 3, 4, 5, 6, 7, 8, 9, 10, 11, 12, 13, 14, 15, 16];

// Octets that look random, from a fixed seed.
fn noise(seed: u64, n: usize) -> Vec<u8> {
    let mut x = seed;
    let mut octet = || {
        x ^= x << 13;
        x ^= x >> 7;
        x ^= x << 17;
        x.to_le_bytes()[3]
    };
    (0..n).map(|_| octet()).collect()
}

// A log of so many records, of which those are used whose bit is set; the rest of each is anything.
fn log_of(records: usize, used: u32) -> Vec<u8> {
    let mut octets = noise(u64::from(used) + 1, SIZE * records);
    for (k, record) in octets.chunks_exact_mut(SIZE).enumerate() {
        record[4] = if used >> k & 1 == 1 { record[4] | 1 } else { 0 };
    }
    octets
}

#[test]
fn a_record_is_16_octets_low_first() {
    let mut octets = [0; 3 * SIZE];
    let mut log = Log::new(&mut octets).unwrap();
    log.append(TOLD).unwrap();
    assert_eq!(log.octets()[..SIZE], TOLD_OCTETS);
    assert_eq!(log.octets()[SIZE..], [0; 2 * SIZE]);
    assert_eq!(log.record(0), Ok(TOLD));
    assert_eq!(log.view().octets(), log.octets());
}

#[test]
fn other_lengths_are_no_log() {
    for n in 0..=100 {
        let mut octets = noise(7, n);
        let before = octets.clone();
        let capacity = match n % SIZE {
            0 => Ok(n / SIZE),
            _ => Err(Refusal::BadLog),
        };
        let view = LogView::new(&octets);
        assert_eq!(view.map(|log| log.capacity()), capacity, "{n}");
        let log = Log::new(&mut octets);
        assert_eq!(log.map(|log| log.capacity()), capacity, "{n}");
        assert_eq!(octets, before);
    }
    assert_eq!(Refusal::BadLog.number(), 11);
    assert_eq!(
        Refusal::BadLog.to_string(),
        "refusal 11, bad log: length of the log no multiple of 16"
    );
}

// Whether the record of a number is used, by its bit.
fn is_used(used: u32, k: usize) -> bool {
    k < 32 && used >> k & 1 == 1
}

// The octets of a record, as they stand.
fn slot(octets: &[u8], k: usize) -> &[u8] {
    &octets[SIZE * k..][..SIZE]
}

// The record that stands there.
fn stands(octets: &[u8], k: usize) -> Record {
    let octets = slot(octets, k);
    Record {
        place: u32::from_le_bytes(octets[..4].try_into().unwrap()),
        outcome_number: octets[4],
        way_number: octets[5],
        data_length: u16::from_le_bytes(octets[6..8].try_into().unwrap()),
        status: Status::new(u64::from_le_bytes(octets[8..].try_into().unwrap())),
    }
}

// The used records side by side, and zeros behind them.
fn compacted(octets: &[u8]) -> Vec<u8> {
    let used = octets.chunks_exact(SIZE).filter(|record| record[4] != 0);
    let mut front = used.collect::<Vec<_>>().concat();
    front.resize(octets.len(), 0);
    front
}

// Every log of up to five records, by which of them are used: with holes in front, in the middle and
// at the end, full, empty, with no record.
fn patterns() -> impl Iterator<Item = (usize, u32)> {
    (0..=5).flat_map(|records| (0..1 << records).map(move |used| (records, used)))
}

// Numbers that no log has. Some lead back into it if high bits of their places are lost.
const BEYOND: [usize; 5] = [usize::MAX, 1 << 60, usize::MAX / SIZE + 2, 1 << 32, 1 << 28];

#[test]
fn appending_goes_behind_the_last_used_record() {
    let mut compactions = 0;
    for (records, used) in patterns() {
        let before = log_of(records, used);
        let behind = (u32::BITS - used.leading_zeros()) as usize;
        let count = used.count_ones() as usize;
        let (answer, mut expected, number) = if count == records {
            (Err(Refusal::LogFull), before.clone(), records)
        } else if behind == records {
            compactions += 1;
            (Ok(()), compacted(&before), count)
        } else {
            (Ok(()), before.clone(), behind)
        };
        if answer.is_ok() {
            expected[SIZE * number..][..SIZE].copy_from_slice(&TOLD_OCTETS);
        }
        let mut octets = before.clone();
        let mut log = Log::new(&mut octets).unwrap();
        assert_eq!(log.used(), count);
        // outcome 0 appends nothing, compacts nothing, and is not refused where the log is full
        let uncounted = Record {
            outcome_number: 0,
            ..TOLD
        };
        assert_eq!(log.append(uncounted), Ok(()));
        for reading in [Reading::Nothing { end: 9 }, Reading::Open { start: 9 }] {
            assert_eq!(log.append_reading(&reading), Ok(()));
        }
        assert_eq!(log.octets(), before);
        assert_eq!(log.append(TOLD), answer);
        assert_eq!(log.octets(), expected);
        assert_eq!(log.used(), count + usize::from(answer.is_ok()));
    }
    assert!(compactions > 10);
    assert_eq!(Refusal::LogFull.number(), 12);
    assert_eq!(
        Refusal::LogFull.to_string(),
        "refusal 12, log full: no unused record"
    );
}

// As many as are unused can be appended, wherever these stand, and no more.
#[test]
fn a_log_is_full_exactly_when_every_record_is_used() {
    for (records, used) in patterns() {
        let mut octets = log_of(records, used);
        let remain: Vec<_> = LogView::new(&octets).unwrap().into_iter().collect();
        let mut log = Log::new(&mut octets).unwrap();
        for n in remain.len()..records {
            assert_eq!(log.append(TOLD), Ok(()));
            let appended = vec![TOLD; n + 1 - remain.len()];
            assert!(log.records().eq(remain.iter().copied().chain(appended)));
        }
        assert_eq!(log.append(TOLD), Err(Refusal::LogFull));
        // one deletion makes room for one
        for number in 0..records {
            log.delete(number).unwrap();
            assert_eq!(log.append(TOLD), Ok(()));
            assert_eq!(log.append(TOLD), Err(Refusal::LogFull));
        }
    }
}

#[test]
fn records_are_read_and_deleted_ones_skipped() {
    for (records, used) in patterns() {
        let octets = log_of(records, used);
        let log = LogView::new(&octets).unwrap();
        for k in 0..=records + 1 {
            let record = if is_used(used, k) {
                Ok(stands(&octets, k))
            } else {
                Err(Refusal::NotUsed)
            };
            assert_eq!(log.record(k), record);
            // a reader that begins there ends behind the last used one, or stays
            let numbers = (k..records).filter(|&n| is_used(used, n));
            let end = numbers.clone().next_back().map_or(k, |last| last + 1);
            let mut reader = log.records().at(k);
            assert_eq!(reader.size_hint(), (0, Some(records.saturating_sub(k))));
            for number in numbers {
                assert_eq!(reader.next(), Some(stands(&octets, number)));
                assert_eq!(reader.number(), number + 1);
            }
            assert_eq!(reader.next(), None);
            assert_eq!(reader.number(), end);
        }
        for number in BEYOND {
            assert_eq!(log.record(number), Err(Refusal::NotUsed));
            let mut reader = log.records().at(number);
            assert_eq!((reader.next(), reader.number()), (None, number));
        }
        let all = (0..records).filter(|&n| is_used(used, n));
        assert!(log.into_iter().eq(all.map(|n| stands(&octets, n))));
    }
    assert_eq!(Refusal::NotUsed.number(), 13);
    assert_eq!(
        Refusal::NotUsed.to_string(),
        "refusal 13, not used: record number not used"
    );
}

#[test]
fn a_deleted_records_outcome_becomes_0() {
    for (records, used) in patterns() {
        let before = log_of(records, used);
        for number in (0..=records + 1).chain(BEYOND) {
            let mut octets = before.clone();
            let mut expected = before.clone();
            let mut log = Log::new(&mut octets).unwrap();
            let answer = if is_used(used, number) {
                expected[SIZE * number + 4] = 0;
                Ok(())
            } else {
                Err(Refusal::NotUsed)
            };
            assert_eq!(log.delete(number), answer);
            assert_eq!(log.octets(), expected);
            // once is enough
            assert_eq!(log.delete(number), Err(Refusal::NotUsed));
            assert_eq!(log.octets(), expected);
        }
    }
}

#[test]
fn every_record_of_an_outcome_is_deleted() {
    let outcomes = [7, 1, 0, 7, 255, 7];
    for records in 0..=outcomes.len() {
        // nothing but the outcome octet is an outcome, so there are ones and sevens all around it
        let mut before = [vec![7; SIZE], vec![1; SIZE]].concat().repeat(3);
        before.truncate(SIZE * records);
        for (record, &outcome) in before.chunks_exact_mut(SIZE).zip(&outcomes) {
            record[4] = outcome;
        }
        // of outcome 0, or of one that none has, none is deleted
        for outcome in 0..=255 {
            let mut octets = before.clone();
            let mut expected = before.clone();
            let mut deleted = 0;
            for record in expected.chunks_exact_mut(SIZE) {
                if record[4] == outcome && outcome != 0 {
                    record[4] = 0;
                    deleted += 1;
                }
            }
            let mut log = Log::new(&mut octets).unwrap();
            let used = log.used();
            assert_eq!(log.delete_outcome(outcome), deleted);
            assert_eq!(log.octets(), expected);
            assert_eq!(log.used(), used - deleted);
            assert_eq!(log.delete_outcome(outcome), 0);
        }
    }
}

#[test]
fn compaction_moves_what_remains_to_the_front() {
    for (records, used) in patterns() {
        let before = log_of(records, used);
        let remain: Vec<_> = LogView::new(&before).unwrap().into_iter().collect();
        let mut octets = before.clone();
        let mut log = Log::new(&mut octets).unwrap();
        log.compact();
        assert_eq!(log.octets(), compacted(&before));
        assert!(log.records().eq(remain.iter().copied()));
        // twice changes nothing more
        log.compact();
        assert_eq!(log.octets(), compacted(&before));
        // what remains, written into a log of zeros
        let mut zeros = vec![0; before.len()];
        let mut fresh = Log::new(&mut zeros).unwrap();
        for record in remain {
            fresh.append(record).unwrap();
        }
        assert_eq!(fresh.octets(), log.octets());
    }
}

// Call after call, with a plain list beside the log of what is in each slot.
#[test]
fn any_calls_against_a_plain_list() {
    let mut dice = noise(11, 40_000).into_iter().map(usize::from);
    let mut roll = move |n: usize| dice.next().unwrap() % n;
    let mut answers = [0; 14];
    for round in 0..200 {
        let records = round % 7;
        let mut octets = vec![0; SIZE * records];
        let mut log = Log::new(&mut octets).unwrap();
        let mut list: Vec<Option<Record>> = vec![None; records];
        for n in 0..40 {
            let remain: Vec<_> = list.iter().flatten().copied().collect();
            let front = |remain: Vec<Record>| {
                let mut list: Vec<_> = remain.into_iter().map(Some).collect();
                list.resize(records, None);
                list
            };
            let answer = match roll(8) {
                0..=3 => {
                    let record = Record {
                        place: n,
                        outcome_number: roll(4) as u8,
                        ..TOLD
                    };
                    let answer = log.append(record);
                    if record.outcome_number != 0 && remain.len() < records {
                        if list.last().unwrap().is_some() {
                            list = front(remain);
                        }
                        let behind = list.iter().rposition(Option::is_some).map_or(0, |k| k + 1);
                        list[behind] = Some(record);
                        assert_eq!(answer, Ok(()));
                    }
                    answer
                }
                4..=5 => {
                    let number = roll(records + 1);
                    let answer = log.delete(number);
                    let slot = list.get_mut(number).and_then(Option::take);
                    assert_eq!(answer.is_ok(), slot.is_some());
                    answer
                }
                6 => {
                    let outcome = roll(4) as u8;
                    let deleted = log.delete_outcome(outcome);
                    for slot in &mut list {
                        slot.take_if(|record| record.outcome_number == outcome);
                    }
                    let left = list.iter().flatten().count();
                    assert_eq!(deleted, remain.len() - left);
                    Ok(())
                }
                _ => {
                    log.compact();
                    list = front(remain);
                    Ok(())
                }
            };
            answers[answer.map_or_else(|refusal| usize::from(refusal.number()), |()| 0)] += 1;
            assert!(log.records().eq(list.iter().flatten().copied()));
            assert_eq!(log.used(), list.iter().flatten().count());
            for (number, slot) in list.iter().enumerate() {
                assert_eq!(log.record(number).ok(), *slot);
            }
        }
    }
    for number in [0, 12, 13] {
        assert!(answers[number] > 0, "{answers:?}");
    }
    assert_eq!(answers[1..12], [0; 11]);
}

// From a log of zeros: reading back gives what was appended, and writing that again the same octets.
#[test]
fn what_is_appended_is_read_back() {
    for outcome_number in 0..=u8::MAX {
        let record = |k: u32| Record {
            place: u32::MAX >> (k % 32),
            outcome_number: outcome_number.wrapping_add(k as u8),
            way_number: !outcome_number,
            data_length: u16::MAX - k as u16,
            status: Status::new(u64::MAX >> k),
        };
        assert_eq!(
            record(0).outcome().map(Outcome::number),
            (1..=11).contains(&outcome_number).then_some(outcome_number)
        );
        assert_eq!(record(0).way(), Way::from_number(!outcome_number));
        let appended: Vec<_> = (0..5).map(record).collect();
        let mut octets = [0; 6 * SIZE];
        let mut log = Log::new(&mut octets).unwrap();
        for &record in &appended {
            log.append(record).unwrap();
        }
        let counted: Vec<_> = appended
            .into_iter()
            .filter(|r| r.outcome_number != 0)
            .collect();
        assert!(log.records().eq(counted.iter().copied()));
        assert_eq!(log.used(), counted.len());

        let mut again = [0; 6 * SIZE];
        let mut copy = Log::new(&mut again).unwrap();
        for record in &log {
            copy.append(record).unwrap();
        }
        assert_eq!(again, octets);
    }
}

// Frames of several outcomes, among them a pause frame; the last Start is open if `open`.
fn line(settings: &Settings, open: bool) -> (Vec<u8>, Vec<u8>) {
    let (mut octets, mut marks) = ([0; 1000], [0; 1000]);
    let mut sender = Sender::new(&mut octets, &mut marks);
    let mut state = State::default();
    let to_another = Frame::to(Address([0x02, 0, 0, 0, 0, 9]));
    sender
        .client(settings, &mut state, &Frame::to(OWN), b"one")
        .unwrap();
    sender.idle(&mut state, 3).unwrap();
    sender
        .client(settings, &mut state, &to_another, b"")
        .unwrap();
    let damaged = sender
        .client(settings, &mut state, &Frame::to(OWN), b"two")
        .unwrap();
    sender.pause(settings, &mut state, 5).unwrap();
    let long = Frame::to(Address::BROADCAST).by_type(0x0800);
    let last = sender
        .client(settings, &mut state, &long, &[7; 300])
        .unwrap();
    let end = sender
        .client(settings, &mut state, &Frame::to(OWN), b"three")
        .unwrap();
    octets[damaged - 30] ^= 1;
    // a Start right before a Start
    octets[damaged - 1] = 0xFB;
    let end = if open { last + 20 } else { end };
    (octets[..end].to_vec(), marks[..end].to_vec())
}

// A walk by single readings, each appended.
fn by_readings(station: &mut Station, capture: Capture, mut place: usize, log: &mut Log) -> Kept {
    let mut records = 0;
    loop {
        let mut after = station.clone();
        let reading = after.read(capture, place).unwrap();
        let end = match reading {
            Reading::Nothing { .. } => End::None,
            Reading::Open { .. } => End::Open,
            Reading::Counted(counted) => match log.append_reading(&reading) {
                Ok(()) => {
                    (*station, place) = (after, counted.next);
                    records += 1;
                    continue;
                }
                Err(refusal) => {
                    assert_eq!(refusal, Refusal::LogFull);
                    assert_eq!(log.append_counted(&counted), Err(refusal));
                    let (end, next) = (End::Full, place);
                    return Kept { end, next, records };
                }
            },
        };
        let next = reading.next();
        return Kept { end, next, records };
    }
}

#[test]
fn a_walk_keeps_its_readings() {
    let settings = Settings::new(OWN).flow(Flow::Pause);
    let mut ends = Vec::new();
    for open in [false, true] {
        let (octets, marks) = line(&settings, open);
        let capture = Capture::new(&octets, &marks);
        let starts = Station::new(settings).walk(capture).unwrap().starts;
        assert_eq!(starts, if open { 6 } else { 7 });
        for place in 0..=octets.len() {
            // every log of up to three records, and fresh ones about as long as the capture needs
            let all = (0..=3).flat_map(|n| (0..1 << n).map(move |used| log_of(n, used)));
            let fresh = (starts - 1..=starts + 1).map(|n| log_of(n, 0));
            for mut log in all.chain(fresh) {
                let mut expected = log.clone();
                let (mut station, mut one_by_one) =
                    (Station::new(settings), Station::new(settings));
                let mut log = Log::new(&mut log).unwrap();
                let kept = station.walk_log(capture, place, &mut log).unwrap();
                let mut expected = Log::new(&mut expected).unwrap();
                assert_eq!(
                    kept,
                    by_readings(&mut one_by_one, capture, place, &mut expected)
                );
                assert_eq!(log.octets(), expected.octets());
                assert_eq!(station, one_by_one);
                ends.push((kept.end, kept.records > 0));
            }
        }
    }
    for end in [End::None, End::Open, End::Full] {
        assert!(
            ends.contains(&(end, false)) && ends.contains(&(end, true)),
            "{end:?}"
        );
    }
}

#[test]
fn another_log_goes_on_where_one_was_full() {
    let settings = Settings::new(OWN).flow(Flow::Pause);
    for open in [false, true] {
        let (octets, marks) = line(&settings, open);
        let capture = Capture::new(&octets, &marks);
        let mut large = [0; 10 * SIZE];
        let mut large = Log::new(&mut large).unwrap();
        let mut whole = Station::new(settings);
        let kept = whole.walk_log(capture, 0, &mut large).unwrap();
        assert_eq!(kept.end, if open { End::Open } else { End::None });
        let readings: Vec<_> = Station::new(settings)
            .readings(capture)
            .map(Result::unwrap)
            .collect();
        assert!(large.records().eq(readings.iter().map(|r| Record {
            place: r.start as u32,
            outcome_number: r.outcome.number(),
            way_number: r.way.map_or(0, Way::number),
            data_length: r.data.len() as u16,
            status: r.status,
        })));
        for capacity in 1..=8 {
            let mut station = Station::new(settings);
            let (mut place, mut records) = (0, Vec::new());
            let last = loop {
                let mut octets = vec![0; capacity * SIZE];
                let mut log = Log::new(&mut octets).unwrap();
                let kept = station.walk_log(capture, place, &mut log).unwrap();
                assert_eq!(log.used(), kept.records);
                records.extend(&log);
                place = kept.next;
                if kept.end != End::Full {
                    break kept;
                }
            };
            assert!(large.records().eq(records));
            assert_eq!((last.end, last.next), (kept.end, kept.next));
            assert_eq!(station, whole);
        }
    }
}

// Where a log was full, the walk goes on with the same one once records are deleted.
#[test]
fn a_deletion_makes_room_for_the_walk() {
    let settings = Settings::new(OWN).flow(Flow::Pause);
    let (octets, marks) = line(&settings, false);
    let capture = Capture::new(&octets, &marks);
    for capacity in 1..=8 {
        let mut station = Station::new(settings);
        let mut octets = vec![0; capacity * SIZE];
        let mut log = Log::new(&mut octets).unwrap();
        let (mut place, mut starts, mut seen) = (0, 0, Vec::new());
        loop {
            let kept = station.walk_log(capture, place, &mut log).unwrap();
            starts += kept.records;
            if kept.end != End::Full {
                break;
            }
            assert_eq!(log.used(), capacity);
            // the last in, and those of the outcome that stands first
            seen.push(log.record(capacity - 1).unwrap());
            log.delete(capacity - 1).unwrap();
            if let Some(first) = log.records().next() {
                let alike = log
                    .records()
                    .filter(|r| r.outcome_number == first.outcome_number);
                seen.extend(alike);
                assert!(log.delete_outcome(first.outcome_number) > 0);
            }
            place = kept.next;
        }
        seen.extend(&log);
        // each Start once, whether its record was deleted or stands
        let mut places: Vec<_> = seen.iter().map(|record| record.place).collect();
        places.sort_unstable();
        places.dedup();
        let all = Station::new(settings);
        let expected: Vec<_> = all
            .clone()
            .readings(capture)
            .map(|counted| counted.unwrap().start as u32)
            .collect();
        assert_eq!(places, expected);
        assert_eq!((starts, seen.len()), (expected.len(), expected.len()));
    }
}

// A Start that finds no record sets no timer and is not counted.
#[test]
fn a_full_log_counts_no_further_start() {
    let settings = Settings::new(OWN).flow(Flow::Pause);
    let (mut octets, mut marks) = ([0; 84], [0; 84]);
    let mut sender = Sender::new(&mut octets, &mut marks);
    sender.pause(&settings, &mut State::default(), 5).unwrap();
    let capture = sender.capture();
    for mut full in [vec![], vec![1; SIZE], vec![1; 3 * SIZE]] {
        let mut station = Station::new(settings);
        let mut log = Log::new(&mut full).unwrap();
        let kept = station.walk_log(capture, 0, &mut log);
        assert_eq!(
            kept,
            Ok(Kept {
                end: End::Full,
                next: 0,
                records: 0
            })
        );
        assert_eq!(station, Station::new(settings));
        // where no Start would be counted, it is not full
        let kept = station.walk_log(capture, 1, &mut log);
        assert_eq!(
            kept,
            Ok(Kept {
                end: End::None,
                next: 84,
                records: 0
            })
        );
        let begun = Capture::new(&capture.octets[..9], &capture.marks[..9]);
        let kept = station.walk_log(begun, 0, &mut log);
        assert_eq!(
            kept,
            Ok(Kept {
                end: End::Open,
                next: 0,
                records: 0
            })
        );
        assert!(log.octets().iter().all(|&octet| octet == 1));
    }
}

#[test]
fn a_refused_walk_changes_nothing() {
    let refused = |settings: Settings, octets: &[u8], marks: &[u8], place: usize, why: Refusal| {
        let capture = Capture::new(octets, marks);
        let old = State::with([u64::from(u32::MAX); 11], [7; 8]);
        for used in 0..4 {
            let before = log_of(2, used);
            let mut after = before.clone();
            let mut log = Log::new(&mut after).unwrap();
            let mut state = old.clone();
            let kept = capture.walk_log(&settings, &mut state, place, &mut log);
            assert_eq!(kept, Err(why));
            let mut station = Station::new(settings);
            station.state = state;
            assert_eq!(station.walk_log(capture, place, &mut log), Err(why));
            assert_eq!((station.state, after), (old.clone(), before));
        }
    };
    let good = Settings::new(OWN);
    let many = vec![0; SYMBOLS + 1];
    // the lowest number comes first
    refused(good.limit(0), &[0xFB], &[1, 1], 9, Refusal::BadSettings);
    refused(good, &[0xFB], &[1, 1], 9, Refusal::BadBuffers);
    refused(good, &many, &many, 0, Refusal::BadBuffers);
    refused(good, &[0xFB, 0xFD], &[1, 1], 3, Refusal::BadPlace);
    refused(good, &[0xFB, 0xFD], &[1; 2], usize::MAX, Refusal::BadPlace);
}

// 65,535 Starts and one that is open, in one log.
#[test]
fn every_start_of_the_longest_capture_is_kept() {
    let (octets, marks) = (vec![0xFB; SYMBOLS], vec![1; SYMBOLS]);
    let capture = Capture::new(&octets, &marks);
    let mut log = vec![0; SYMBOLS * SIZE];
    let mut log = Log::new(&mut log).unwrap();
    let mut station = Station::default();
    let kept = station.walk_log(capture, 0, &mut log).unwrap();
    let (next, records) = (SYMBOLS - 1, SYMBOLS - 1);
    assert_eq!(
        kept,
        Kept {
            end: End::Open,
            next,
            records
        }
    );
    assert_eq!(log.used(), records);
    assert!(log.records().map(|r| r.place).eq(0..65535));
    assert!(log.records().all(|r| r.outcome() == Some(Outcome::Cut)));
    assert_eq!(station.state.counter(Outcome::Cut), 65535);
}
