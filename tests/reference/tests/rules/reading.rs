//! "Reading one Start": each outcome, the order of the rules, addresses,
//! lengths, control frames and status words.

use reference::{read, Answer, Check, Flow, Reading, Settings, State, Table, Walked};

use crate::hand::{frame, listing, outcome, ramp, see, see_with, Capture, Reader};
use crate::hand::{
    BROADCAST, ERROR, IDLE, LENGTH_RULE, MULTICAST, OTHER, OWN, PAUSE, PFC, PLAIN, RESERVED,
};
use crate::hand::{START, TERMINATE};

fn good() -> Vec<u8> {
    frame(OWN, &[0x0800], &ramp(60))
}

/// A control frame with the opcode and what follows it.
fn control(dest: [u8; 6], opcode: u16, rest: &[u8]) -> Vec<u8> {
    let mut data = opcode.to_be_bytes().to_vec();
    data.extend(rest);
    data.resize(46, 0);
    frame(dest, &[0x8808], &data)
}

#[test]
fn outcome_1_cut() {
    for ending in [IDLE, START, ERROR, 0x9C, 0x00, 0x55, 0xD5] {
        let capture = Capture::new().open_frame(&good()).control(ending);
        let mut state = State::default();
        let reading = capture.read(&PLAIN, &mut state, 0);
        let answer = Answer::Counted {
            outcome: 1,
            status: 0,
            at: 0,
            len: 0,
            address: 0,
        };
        let next = capture.octets.len() - 1;
        assert_eq!(
            reading,
            Reading {
                answer,
                start: 0,
                next
            }
        );
        assert_eq!(state.counters, [1, 0, 0, 0, 0, 0, 0, 0, 0, 0, 0]);
    }
}

#[test]
fn start_that_cuts_is_read_next() {
    let capture = Capture::new().open_frame(&good()).frame(&good());
    assert_eq!(capture.outcomes(&PLAIN), (vec![1, 11], false));
}

#[test]
fn outcome_2_bad_preamble() {
    let preamble = [0x55, 0x55, 0x55, 0x55, 0x55, 0x55, 0xD5];
    for len in 0..7 {
        let capture = Capture::new()
            .control(START)
            .data(&preamble[..len])
            .control(TERMINATE);
        assert_eq!(capture.outcomes(&PLAIN), (vec![2], false));
    }
    for wrong in 0..7 {
        let mut preamble = preamble;
        preamble[wrong] ^= 0x80;
        let capture = Capture::new()
            .control(START)
            .data(&preamble)
            .data(&good())
            .control(TERMINATE);
        assert_eq!(capture.outcomes(&PLAIN), (vec![2], false));
    }
}

#[test]
fn outcome_3_undersized() {
    assert_eq!(outcome(&PLAIN, &[]), 3);
    assert_eq!(outcome(&PLAIN, &good()[..63]), 3);
    // Tagged frames have no other lower limit.
    let tagged = frame(OWN, &[0x8100, 0, 0x0800], &ramp(42));
    assert_eq!(tagged.len(), 64);
    let seen = see(&PLAIN, &tagged);
    assert_eq!((seen.outcome, seen.data), (11, ramp(42)));
    assert_eq!(seen.status, 0x42_0040_002A);
}

#[test]
fn outcome_4_oversized() {
    for limit in [1518, 1519, 5000, 9618] {
        let s = Settings { limit, ..PLAIN };
        let most = usize::from(limit);
        let untagged = |len: usize| frame(OWN, &[0x0800], &ramp(len - 18));
        let tagged = |len: usize| frame(OWN, &[0x8100, 0, 0x0800], &ramp(len - 22));
        assert_eq!(outcome(&s, &untagged(most)), 11);
        assert_eq!(outcome(&s, &untagged(most + 1)), 4);
        assert_eq!(outcome(&s, &tagged(most + 4)), 11);
        assert_eq!(outcome(&s, &tagged(most + 5)), 4);
        // Before the FCS.
        let mut wrong = untagged(most + 1);
        wrong[0] ^= 2;
        assert_eq!(outcome(&s, &wrong), 4);
    }
    // The longest run that a capture can have.
    assert_eq!(outcome(&PLAIN, &vec![0; 65_536 - 10]), 4);
}

#[test]
fn outcome_5_wrong_fcs() {
    let right = good();
    for at in 0..right.len() {
        let mut wrong = right.clone();
        wrong[at] ^= 0x10;
        assert_eq!(outcome(&PLAIN, &wrong), 5, "{at}");
    }
    // High octet first is wrong.
    let mut wrong = right.clone();
    let covered = right.len() - 4;
    wrong[covered..].reverse();
    assert_eq!(outcome(&PLAIN, &wrong), 5);
}

#[test]
fn outcome_6_wrong_length() {
    let off = Settings {
        checking: false,
        limit: 9000,
        ..PLAIN
    };
    let on = Settings {
        checking: true,
        ..off
    };
    for (field, len, kept) in LENGTH_RULE {
        for header in [&[field][..], &[0x8100, 0x2001, field][..]] {
            let octets = frame(OWN, header, &ramp(len));
            let seen = see(&on, &octets);
            match kept {
                Some(handed) => {
                    assert_eq!((seen.outcome, seen.data), (11, ramp(handed)));
                    assert_eq!(seen.status & 0xFFFF, handed as u64);
                }
                None => assert_eq!(seen.outcome, 6, "{field} {len}"),
            }
            let seen = see(&off, &octets);
            assert_eq!((seen.outcome, seen.data), (11, ramp(len)));
            assert_eq!(seen.status & 0xFFFF, len as u64);
        }
    }
    // Tagged data under 46 is kept only as short as a bridge leaves it.
    for (field, len) in [(41, 43), (0, 43), (44, 45), (46, 45)] {
        let octets = frame(OWN, &[0x8100, 0, field], &ramp(len));
        assert_eq!(outcome(&on, &octets), 6);
    }
    // Before the address.
    assert_eq!(outcome(&on, &frame(OTHER, &[1501], &ramp(46))), 6);
}

#[test]
fn outcome_7_filtered() {
    let to = |dest| frame(dest, &[0x0800], &ramp(46));
    let listed = [MULTICAST, OTHER, BROADCAST, [0x03, 1, 2, 3, 4, 5]];
    assert_eq!(outcome(&PLAIN, &to(OWN)), 11);
    for count in 0..=4 {
        let mut by = Reader {
            table: listing(0, &listed[..count]),
            ..Reader::from(&PLAIN)
        };
        for (number, dest) in listed.into_iter().enumerate() {
            if dest != BROADCAST {
                let expected = if number < count { 11 } else { 7 };
                assert_eq!(outcome(by, &to(dest)), expected);
            }
        }
        assert_eq!(outcome(by, &to(BROADCAST)), 11);
        by.s.broadcast = false;
        assert_eq!(outcome(by, &to(BROADCAST)), 7);
    }
    // All six octets count.
    let by = Reader {
        table: listing(0, &listed[..1]),
        ..Reader::from(&PLAIN)
    };
    for near in [OWN, MULTICAST] {
        for at in 0..6 {
            let mut dest = near;
            dest[at] ^= 0x80;
            assert_eq!(outcome(by, &to(dest)), 7);
        }
    }
    let promiscuous = Settings {
        promiscuous: true,
        broadcast: false,
        ..PLAIN
    };
    for dest in [OTHER, MULTICAST, RESERVED, BROADCAST, [0; 6]] {
        assert_eq!(outcome(&promiscuous, &to(dest)), 11);
    }
    // The reserved group is special only in control frames.
    assert_eq!(outcome(&PAUSE, &to(RESERVED)), 7);
}

#[test]
fn outcome_8_pause_taken() {
    let rest = [0x12, 0x34];
    for (dest, status) in [(RESERVED, 0x2C_0040_002E), (OWN, 0x4C_0040_002E)] {
        for pass_control in [false, true] {
            let s = Settings {
                pass_control,
                ..PAUSE
            };
            let mut state = State {
                timers: [9_999_999; 8],
                ..State::default()
            };
            let seen = see_with(&s, &mut state, &control(dest, 0x0001, &rest));
            assert_eq!((seen.outcome, seen.status), (8, status));
            assert_eq!(state.timers, [0x1234 * 64; 8]);
        }
    }
    // Longer pause frames are taken too.
    let mut data = vec![0, 1, 0, 2];
    data.resize(100, 0xEE);
    let mut state = State::default();
    let seen = see_with(&PAUSE, &mut state, &frame(RESERVED, &[0x8808], &data));
    assert_eq!((seen.outcome, seen.status), (8, 0x2C_0076_0064));
    assert_eq!(state.timers, [128; 8]);
}

#[test]
fn outcome_9_pfc_taken() {
    let quanta = [1, 2, 0x0300, 4, 5, 6, 7, 0xFFFF];
    for unused in [0x00, 0xA5] {
        for named in 0..=255 {
            let mut rest = vec![unused, named];
            rest.extend(quanta.iter().flat_map(|q: &u16| q.to_be_bytes()));
            let mut state = State {
                timers: [77; 8],
                ..State::default()
            };
            let seen = see_with(&PFC, &mut state, &control(RESERVED, 0x0101, &rest));
            assert_eq!((seen.outcome, seen.status), (9, 0xA4_0040_002E));
            for (class, &quanta) in quanta.iter().enumerate() {
                let set = named >> class & 1 == 1;
                let slots = if set { u32::from(quanta) * 64 } else { 77 };
                assert_eq!(state.timers[class], slots);
            }
        }
    }
}

#[test]
fn outcome_10_control_dropped_or_11() {
    let mut by = Reader {
        table: listing(0, &[MULTICAST]),
        ..Reader::from(&PLAIN)
    };
    let (pause, pfc, unknown) = (0x0001, 0x0101, 0x0002);
    // Flow mode, destination, opcode: none of them is taken.
    let cases = [
        (Flow::None, RESERVED, pause),
        (Flow::None, OWN, pause),
        (Flow::None, RESERVED, pfc),
        (Flow::Pause, RESERVED, pfc),
        (Flow::Pause, RESERVED, unknown),
        (Flow::Pause, OWN, unknown),
        (Flow::Pause, MULTICAST, pause),
        (Flow::Pause, BROADCAST, pause),
        (Flow::Pfc, RESERVED, pause),
        (Flow::Pfc, OWN, pause),
        (Flow::Pfc, OWN, pfc),
        (Flow::Pfc, MULTICAST, pfc),
        (Flow::Pfc, RESERVED, 0x0100),
    ];
    for (flow, dest, opcode) in cases {
        let octets = control(dest, opcode, &[0xFF; 18]);
        let kind = match dest {
            BROADCAST => 1 << 36,
            RESERVED | MULTICAST => 1 << 37,
            _ => 1 << 38,
        };
        let status = kind | 1 << 34 | 64 << 16 | 46;
        by.s = Settings { flow, ..PLAIN };
        let seen = see(by, &octets);
        assert_eq!((seen.outcome, seen.status), (10, status));
        by.s.pass_control = true;
        let seen = see(by, &octets);
        assert_eq!((seen.outcome, seen.status), (11, status));
        assert_eq!(seen.data, &octets[14..60]);
    }
}

#[test]
fn control_to_others_meets_the_address_rule() {
    for pass_control in [false, true] {
        for flow in [Flow::None, Flow::Pause, Flow::Pfc] {
            for opcode in [0x0001, 0x0101, 0] {
                let s = Settings {
                    pass_control,
                    flow,
                    broadcast: false,
                    ..PLAIN
                };
                for dest in [OTHER, MULTICAST, BROADCAST] {
                    let octets = control(dest, opcode, &[0xFF; 18]);
                    assert_eq!(outcome(&s, &octets), 7);
                    let all = Settings {
                        promiscuous: true,
                        ..s
                    };
                    let expected = if pass_control { 11 } else { 10 };
                    assert_eq!(outcome(&all, &octets), expected);
                }
            }
        }
    }
}

#[test]
fn outcome_11_status_words() {
    let all = Settings {
        promiscuous: true,
        ..PLAIN
    };
    let cases = [(OWN, 38), (OTHER, 38), (MULTICAST, 37), (BROADCAST, 36)];
    for (dest, bit) in cases {
        let seen = see(&all, &frame(dest, &[0x0800], &ramp(200)));
        assert_eq!(seen.status, 1 << bit | 218 << 16 | 200);
        assert_eq!(seen.data, ramp(200));
        let tagged = frame(dest, &[0x8100, 0xFFFF, 3], &ramp(46));
        let seen = see(&all, &tagged);
        assert_eq!(seen.status, 1 << bit | 1 << 33 | 68 << 16 | 3);
        assert_eq!(seen.data, ramp(3));
    }
}

#[test]
fn none_and_open_change_nothing() {
    let before = State {
        counters: [7; 11],
        timers: [9; 8],
        deficit: 5,
    };
    let mut state = before;
    let none = Capture::new().data(&[START; 9]).control(IDLE);
    for place in 0..=10 {
        let reading = none.read(&PLAIN, &mut state, place);
        let expected = Reading {
            answer: Answer::None,
            start: 10,
            next: 10,
        };
        assert_eq!(reading, expected);
    }
    let open = Capture::new().control(IDLE).open_frame(&good());
    for place in 0..=1 {
        let reading = open.read(&PLAIN, &mut state, place);
        let expected = Reading {
            answer: Answer::Open,
            start: 1,
            next: 1,
        };
        assert_eq!(reading, expected);
    }
    assert_eq!(open.read(&PLAIN, &mut state, 2).answer, Answer::None);
    let empty = Capture::new();
    assert_eq!(empty.read(&PLAIN, &mut state, 0).answer, Answer::None);
    assert_eq!(state, before);
}

#[test]
fn place_is_where_the_search_begins() {
    let capture = Capture::new()
        .control(IDLE)
        .frame(&good())
        .control(IDLE)
        .frame(&good())
        .control(IDLE);
    let first = 1;
    let second = 1 + 8 + good().len() + 2;
    for place in 0..=capture.octets.len() {
        let reading = capture.read(&PLAIN, &mut State::default(), place);
        let start = match place {
            0..=1 => first,
            _ if place <= second => second,
            _ => capture.octets.len(),
        };
        assert_eq!(reading.start, start);
    }
}

#[test]
fn marks_other_than_0_are_control() {
    for mark in [1, 2, 0x80, 0xFF] {
        let mut capture = Capture::new().frame(&good());
        for old in &mut capture.marks {
            *old *= mark;
        }
        assert_eq!(capture.outcomes(&PLAIN), (vec![11], false));
    }
}

#[test]
fn walk_counts_and_stops() {
    let capture = Capture::new()
        .data(&good())
        .frame(&good())
        .control(ERROR)
        .open_frame(&good())
        .frame(&frame(OTHER, &[0x0800], &ramp(46)))
        .open_frame(&good());
    let mut state = State::default();
    let walked = capture.walk(&PLAIN, &mut state);
    let expected = Walked::Ended {
        starts: 3,
        open: true,
    };
    assert_eq!(walked, expected);
    assert_eq!(state.counters, [1, 0, 0, 0, 0, 0, 1, 0, 0, 0, 1]);
}

#[test]
fn buffers_of_the_greatest_length() {
    let mut capture = Capture::new().data(&vec![0; 65_536 - 9 - good().len()]);
    capture = capture.frame(&good());
    assert_eq!(capture.octets.len(), 65_536);
    let mut state = State::default();
    let reading = read(
        Check::Slicing16,
        &PLAIN,
        &mut state,
        0,
        &Table::EMPTY,
        &capture.octets,
        &capture.marks,
        0,
    );
    assert_eq!(reading.next, 65_535);
    assert_eq!(state.counters[10], 1);
}
