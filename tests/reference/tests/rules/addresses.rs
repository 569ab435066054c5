//! "Which address let it in?", item 7 of document 02. That outcomes 1 to 7 say 0
//! and the others don't, the captures check with every frame.

use reference::Table;
use reference::{append_reading, walk_log, Answer, Check, Entry, LogEnd, Record, Settings, State};

use crate::hand::{frame, listing, ramp, see, Capture, Reader, Seen};
use crate::hand::{BROADCAST, MULTICAST, OTHER, OWN, PAUSE, PFC, PLAIN, RESERVED};

/// Four listed addresses, no two alike; none of them is OTHER or MULTICAST.
const LISTED: [[u8; 6]; 4] = [
    [0x01, 0, 0x5E, 0, 0, 1],
    [0x01, 0, 0x5E, 0, 0, 2],
    [0x02, 0, 0, 0, 0, 3],
    [0x01, 0, 0x5E, 0, 0, 4],
];

/// Each job with these addresses in its first entries, and nothing of the other
/// job's.
fn readers(s: Settings, listed: &[[u8; 6]]) -> [Reader; 2] {
    [0, 1].map(|job| Reader {
        s,
        job,
        table: listing(job, listed),
    })
}

/// Outcome and address of a frame with a type.
fn typed(by: impl Into<Reader>, dest: [u8; 6]) -> (u8, u8) {
    let Seen {
        outcome, address, ..
    } = see(by, &frame(dest, &[0x0800], &ramp(46)));
    (outcome, address)
}

/// Outcome and address of a control frame.
fn control(by: impl Into<Reader>, dest: [u8; 6], opcode: u16) -> (u8, u8) {
    let mut data = opcode.to_be_bytes().to_vec();
    data.resize(46, 0);
    let Seen {
        outcome, address, ..
    } = see(by, &frame(dest, &[0x8808], &data));
    (outcome, address)
}

/// Each job with promiscuous off and on, and what is said of a destination that
/// nothing but it accepts.
fn with_promiscuous(s: Settings, listed: &[[u8; 6]]) -> Vec<(Reader, (u8, u8))> {
    [(false, (7, 0)), (true, (11, 7))]
        .into_iter()
        .flat_map(|(promiscuous, said)| {
            let s = Settings { promiscuous, ..s };
            readers(s, listed).map(|by| (by, said))
        })
        .collect()
}

#[test]
fn own_and_listed_before_promiscuous() {
    for count in 0..=4 {
        for (by, other) in with_promiscuous(PLAIN, &LISTED[..count]) {
            assert_eq!(typed(by, OWN), (11, 1));
            for (entry, dest) in (0..).zip(LISTED) {
                let said = if usize::from(entry) < count {
                    (11, 16 + entry)
                } else {
                    other
                };
                assert_eq!(typed(by, dest), said, "{count} {entry}");
            }
            for dest in [OTHER, MULTICAST, RESERVED, [0; 6]] {
                assert_eq!(typed(by, dest), other);
            }
        }
    }
}

#[test]
fn sixteen_plus_the_entry() {
    // In each entry alone, for one job and not for the other.
    for entry in 0..16_u8 {
        for job in [0, 1] {
            let mut entries = [Entry::Free; 16];
            entries[usize::from(entry)] = Entry::held(job, MULTICAST);
            let table = Table::from_entries(entries);
            for promiscuous in [false, true] {
                let s = Settings {
                    promiscuous,
                    ..PLAIN
                };
                let other = if promiscuous { (11, 7) } else { (7, 0) };
                let by = Reader { s, job, table };
                assert_eq!(typed(by, MULTICAST), (11, 16 + entry));
                let job = 1 - job;
                assert_eq!(typed(Reader { s, job, table }, MULTICAST), other);
            }
        }
    }
}

#[test]
fn both_jobs_with_the_same_address() {
    for first in 0..16_u8 {
        for second in (0..16).filter(|&second| second != first) {
            let mut entries = [Entry::Free; 16];
            entries[usize::from(first)] = Entry::Job0(MULTICAST);
            entries[usize::from(second)] = Entry::Job1(MULTICAST);
            let table = Table::from_entries(entries);
            for (job, entry) in [(0, first), (1, second)] {
                let s = PLAIN;
                let by = Reader { s, job, table };
                assert_eq!(typed(by, MULTICAST), (11, 16 + entry));
            }
        }
    }
}

#[test]
fn an_own_address_that_is_listed() {
    for entry in 0..4 {
        let mut listed = LISTED;
        listed[entry] = OWN;
        for (by, _) in with_promiscuous(PLAIN, &listed) {
            assert_eq!(typed(by, OWN), (11, 1));
            assert_eq!(control(by, OWN, 2), (10, 1));
        }
    }
}

#[test]
fn all_six_octets() {
    for (by, other) in with_promiscuous(PLAIN, &LISTED) {
        for near in LISTED.into_iter().chain([OWN, BROADCAST]) {
            for at in 0..6 {
                let mut dest = near;
                dest[at] ^= 0x40;
                assert_eq!(typed(by, dest), other, "{dest:?}");
            }
        }
    }
}

#[test]
fn broadcast_listed_or_not() {
    for entry in 0..=4 {
        let mut listed = LISTED;
        if entry < 4 {
            listed[entry] = BROADCAST;
        }
        for (mut by, other) in with_promiscuous(PLAIN, &listed) {
            assert_eq!(typed(by, BROADCAST), (11, 6));
            assert_eq!(control(by, BROADCAST, 1), (10, 6));
            by.s.broadcast = false;
            assert_eq!(typed(by, BROADCAST), other);
            let dropped = if other == (7, 0) { (7, 0) } else { (10, 7) };
            assert_eq!(control(by, BROADCAST, 1), dropped);
        }
    }
}

#[test]
fn control_frames_to_the_reserved_group() {
    for (base, opcode, outcome) in [
        (PLAIN, 0x0001, 10),
        (PLAIN, 0x0101, 10),
        (PLAIN, 0x1234, 10),
        (PAUSE, 0x0001, 8),
        (PAUSE, 0x0101, 10),
        (PFC, 0x0101, 9),
        (PFC, 0x0001, 10),
    ] {
        for pass_control in [false, true] {
            for listed in [&[][..], &[OTHER], &[RESERVED], &[OTHER, RESERVED]] {
                let s = Settings {
                    pass_control,
                    ..base
                };
                let outcome = match outcome {
                    10 if pass_control => 11,
                    _ => outcome,
                };
                for (by, _) in with_promiscuous(s, listed) {
                    assert_eq!(control(by, RESERVED, opcode), (outcome, 8));
                }
            }
        }
    }
}

#[test]
fn the_reserved_group_in_other_frames() {
    // A tagged 0x8808 is an ordinary type.
    let tagged = |by: &Reader| {
        let octets = frame(RESERVED, &[0x8100, 0, 0x8808], &ramp(46));
        let seen = see(by, &octets);
        (seen.outcome, seen.address)
    };
    for (by, other) in with_promiscuous(PLAIN, &[]) {
        assert_eq!(typed(by, RESERVED), other);
        assert_eq!(tagged(&by), other);
    }
    for (by, _) in with_promiscuous(PLAIN, &[OTHER, RESERVED]) {
        assert_eq!(typed(by, RESERVED), (11, 17));
        assert_eq!(tagged(&by), (11, 17));
    }
}

#[test]
fn control_frames_to_others() {
    for (by, other) in with_promiscuous(PLAIN, &LISTED[..2]) {
        for pass_control in [false, true] {
            let mut by = by;
            by.s.pass_control = pass_control;
            let outcome = if pass_control { 11 } else { 10 };
            assert_eq!(control(by, OWN, 1), (outcome, 1));
            assert_eq!(control(by, LISTED[1], 1), (outcome, 17));
            assert_eq!(control(by, BROADCAST, 1), (outcome, 6));
            for dest in [LISTED[2], OTHER, MULTICAST] {
                let said = if other == (7, 0) { other } else { (outcome, 7) };
                assert_eq!(control(by, dest, 1), said);
            }
            by.s.flow = PAUSE.flow;
            assert_eq!(control(by, OWN, 1), (8, 1));
        }
    }
}

#[test]
fn earlier_outcomes_say_nothing() {
    // A destination that is accepted, in frames of outcomes 3 to 6.
    let good = frame(OWN, &[0x0800], &ramp(46));
    let mut wrong = good.clone();
    wrong[20] ^= 1;
    for (octets, outcome) in [
        (good[..63].to_vec(), 3),
        (frame(OWN, &[0x0800], &ramp(1_501)), 4),
        (wrong, 5),
        (frame(OWN, &[1501], &ramp(46)), 6),
    ] {
        let seen = see(&PLAIN, &octets);
        assert_eq!((seen.outcome, seen.address), (outcome, 0));
    }
}

/// What lets in the frames of the capture below, in order.
const NUMBERS: [u8; 8] = [1, 16, 17, 18, 19, 6, 7, 8];

/// A capture with a frame for each number, and who reads it.
fn each_number() -> (Reader, Capture) {
    let s = Settings {
        promiscuous: true,
        ..PLAIN
    };
    let [by, _] = readers(s, &LISTED);
    let mut capture = Capture::new();
    for dest in [OWN].into_iter().chain(LISTED).chain([BROADCAST, OTHER]) {
        capture = capture.frame(&frame(dest, &[0x0800], &ramp(46)));
    }
    (by, capture.frame(&frame(RESERVED, &[0x8808], &ramp(46))))
}

#[test]
fn the_log_holds_it() {
    let (by, capture) = each_number();
    let (octets, marks) = (&capture.octets, &capture.marks);
    // By readings with an appending behind each, and by the walk.
    let mut appended = [0; 16 * 8];
    let mut place = 0;
    for (record, number) in NUMBERS.into_iter().enumerate() {
        let reading = capture.read(by, &mut State::default(), place);
        let Answer::Counted { address, .. } = reading.answer else {
            panic!("{reading:?}");
        };
        assert_eq!(address, number);
        assert_eq!(Record::of(&reading).address, number);
        assert_eq!(append_reading(&mut appended, &reading), Ok(Some(record)));
        place = reading.next;
    }
    let mut walked = [0; 16 * 8];
    let kind = Check::ByteTable;
    let logged = walk_log(
        kind,
        &by.s,
        &mut State::default(),
        by.job,
        &by.table,
        octets,
        marks,
        0,
        &mut walked,
    );
    assert_eq!((logged.end, logged.appended), (LogEnd::None, 8));
    assert_eq!(walked, appended);
    let held: Vec<u8> = walked.chunks_exact(16).map(|record| record[5]).collect();
    assert_eq!(held, NUMBERS);
}

#[test]
fn a_filtered_frame_leaves_the_octet_zero() {
    let capture = Capture::new().frame(&frame(OTHER, &[0x0800], &ramp(46)));
    let mut log = [0xA7; 16];
    log[4] = 0;
    let reading = capture.read(&PLAIN, &mut State::default(), 0);
    assert_eq!(append_reading(&mut log, &reading), Ok(Some(0)));
    assert_eq!(log, [0, 0, 0, 0, 7, 0, 0, 0, 0, 0, 0, 0, 0, 0, 0, 0]);
}
