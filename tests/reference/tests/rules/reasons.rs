//! "Why was it thrown away?", item 8 of document 02. Every reason here is held
//! against the capture: its fact holds, no earlier rule does, and outcome and
//! places are those of the reading.

use reference::{explain, Answer, Explained, Flow, Reason, Settings, State, Why};

use crate::hand::{clause_3, frame, listing, ramp, tagged, Capture, Reader, KINDS};
use crate::hand::{BROADCAST, ERROR, IDLE, MULTICAST, OTHER, OWN, PAUSE, PFC, PLAIN, RESERVED};
use crate::hand::{START, TERMINATE};
use crate::robust::Dice;

const PREAMBLE: [u8; 7] = [0x55, 0x55, 0x55, 0x55, 0x55, 0x55, 0xD5];

fn number(octets: &[u8]) -> u16 {
    u16::from_be_bytes([octets[0], octets[1]])
}

/// How many tags a frame has: the first place that isn't one, up to eight.
fn tag_count(octets: &[u8]) -> usize {
    let is_tag = |n: &usize| [0x8100, 0x88A8].contains(&number(&octets[12 + 4 * n..]));
    (0..8).take_while(is_tag).count()
}

/// Does the rule of this number hold? One that looks into a frame is asked only
/// where those before it hold for none, so that the frame is long enough.
fn holds(rule: u8, by: &Reader, run: &[u8], ending: u8) -> bool {
    let s = &by.s;
    let octets = run.get(7..).unwrap_or(&[]);
    let len = octets.len();
    match rule {
        1 => return ending != TERMINATE,
        2 => return run.len() < 7 || run[..7] != PREAMBLE,
        3 => return len < 64,
        _ => (),
    }
    let tags = tag_count(octets);
    let (field, data) = (number(&octets[12 + 4 * tags..]), len - 18 - 4 * tags);
    let dest: [u8; 6] = octets[..6].try_into().unwrap();
    let control = tags == 0 && field == 0x8808;
    let here = dest == RESERVED || dest == s.own;
    let opcode = number(&octets[14..]);
    match rule {
        4 => len > usize::from(s.limit) + 4 * tags,
        5 => clause_3(&octets[..len - 4]) != octets[len - 4..],
        6 => {
            let shortest = usize::from(field).max(46 - 4 * tags);
            let kept = match field {
                0..=45 => data == 46 || data == shortest,
                46..=1500 => data == usize::from(field),
                1501..=1535 => false,
                _ => true,
            };
            s.checking && !kept
        }
        7 => {
            let mut entries = by.table.entries().iter();
            let listed = entries.any(|entry| entry.address_of(by.job) == Some(dest));
            let accepted = match dest {
                _ if s.promiscuous => true,
                BROADCAST => s.broadcast,
                _ => dest == s.own || listed,
            };
            !(accepted || control && here)
        }
        8 => control && here && opcode == 1 && s.flow == Flow::Pause,
        9 => control && dest == RESERVED && opcode == 0x0101 && s.flow == Flow::Pfc,
        10 => control && !s.pass_control,
        _ => true,
    }
}

/// Is the evidence what stands in the capture?
fn is_evidence(reason: Reason, s: &Settings, octets: &[u8], start: usize, next: usize) -> bool {
    let run = &octets[start + 1..next];
    let framed = run.get(7..).unwrap_or(&[]);
    match reason {
        Reason::Cut { place, octet } => (place, octet) == (next, octets[next]),
        Reason::ShortRun { length } => length == run.len() && length < 7,
        Reason::WrongPreamble { place } => {
            let n = place - start - 1;
            run.len() >= 7 && run[..n] == PREAMBLE[..n] && run[n] != PREAMBLE[n]
        }
        Reason::Undersized { length, limit } => (length, limit) == (framed.len(), 64),
        Reason::Oversized { length, limit } => {
            let most = usize::from(s.limit) + 4 * tag_count(framed);
            (length, limit) == (framed.len(), most)
        }
        Reason::WrongFcs { stands, computed } => {
            let (covered, last) = framed.split_at(framed.len() - 4);
            stands.to_le_bytes() == last && computed.to_le_bytes() == clause_3(covered)
        }
        Reason::WrongLength { field, data } => {
            let at = 12 + 4 * tag_count(framed);
            field == number(&framed[at..]) && data == framed.len() - at - 6
        }
        Reason::Filtered { destination } => destination == framed[..6],
        Reason::PauseTaken { opcode } => opcode == 1 && number(&framed[14..]) == 1,
        Reason::PfcTaken { opcode } => opcode == 0x0101 && number(&framed[14..]) == 0x0101,
        Reason::ControlDropped { opcode } => opcode == number(&framed[14..]),
        Reason::HandedOut { place, length } => {
            let at = start + 8 + 14 + 4 * tag_count(framed);
            place == at && place + length <= next - 4
        }
    }
}

/// Explains in all three ways, and checks all that holds of every answer.
fn explained(by: impl Into<Reader>, capture: &Capture, place: usize) -> Explained {
    let by = by.into();
    let Reader { s, job, table } = &by;
    let (octets, marks) = (&capture.octets, &capture.marks);
    let answers = KINDS.map(|kind| explain(kind, s, *job, table, octets, marks, place));
    let answer = answers[0];
    assert_eq!(answers, [answer; 3]);
    let reading = capture.read(by, &mut State::default(), place);
    assert_eq!((answer.start, answer.next), (reading.start, reading.next));
    match (answer.why, reading.answer) {
        (Why::Refused(number), Answer::Refused(same)) => assert_eq!(number, same),
        (Why::None, Answer::None) | (Why::Open, Answer::Open) => (),
        (
            Why::Because(reason),
            Answer::Counted {
                outcome, at, len, ..
            },
        ) => {
            assert_eq!(reason.outcome(), outcome);
            if let Reason::HandedOut { place, length } = reason {
                assert_eq!((place, length), (at, len));
            }
            let (start, next) = (answer.start, answer.next);
            let run = &octets[start + 1..next];
            let mut rules = (1..=11).filter(|&rule| holds(rule, &by, run, octets[next]));
            assert_eq!(rules.next(), Some(outcome), "{reason:?}");
            assert!(is_evidence(reason, s, octets, start, next), "{reason:?}");
        }
        other => panic!("{other:?}"),
    }
    answer
}

/// The reason of the only Start, at place 3, of a frame behind a preamble.
fn reason(s: &Settings, octets: &[u8]) -> Reason {
    let capture = Capture::new().control(IDLE).data(&[START, 0]).frame(octets);
    only_reason(s, &capture, 3)
}

/// The reason of the Start at that place, asked for from every place up to it.
fn only_reason(s: &Settings, capture: &Capture, start: usize) -> Reason {
    let mut answers = (0..=start).map(|place| explained(s, capture, place));
    let first = answers.next().unwrap();
    assert!(answers.all(|answer| answer == first));
    assert_eq!(first.start, start);
    let Why::Because(reason) = first.why else {
        panic!("{first:?}");
    };
    reason
}

fn good() -> Vec<u8> {
    frame(OWN, &[0x0800], &ramp(60))
}

#[test]
fn no_reason() {
    let refused = |by: &Reader, capture: &Capture, place, number| {
        let answer = explained(by, capture, place);
        let expected = Explained {
            why: Why::Refused(number),
            start: place,
            next: place,
        };
        assert_eq!(answer, expected);
    };
    let mut by = Reader {
        s: Settings { limit: 0, ..PLAIN },
        job: 2,
        table: listing(1, &[OWN, OWN]),
    };
    let mut capture = Capture::new().control(IDLE).open_frame(&good());
    let len = capture.octets.len();
    capture.marks.push(0);
    refused(&by, &capture, len + 1, 1);
    by.s = PLAIN;
    refused(&by, &capture, len + 1, 14);
    by.job = 0;
    refused(&by, &capture, len + 1, 2);
    capture.marks.pop();
    refused(&by, &capture, len + 1, 3);
    refused(&by, &capture, usize::MAX, 3);
    refused(&by, &capture, len, 20);
    refused(&by, &capture, 0, 20);
    by.table = listing(1, &[OWN, OTHER]);
    for (place, why, both) in [
        (0, Why::Open, 1),
        (1, Why::Open, 1),
        (2, Why::None, len),
        (len, Why::None, len),
    ] {
        let answer = explained(by, &capture, place);
        assert_eq!((answer.why, answer.start, answer.next), (why, both, both));
    }
    let none = explained(by, &Capture::new(), 0);
    assert_eq!((none.why, none.start, none.next), (Why::None, 0, 0));
    for limit in [1517, 9619] {
        let s = Settings { limit, ..PLAIN };
        refused(&Reader::from(&s), &Capture::new(), 0, 1);
    }
    let long = Capture::new().data(&[0].repeat(65_537));
    refused(&Reader::from(&PLAIN), &long, 0, 2);
}

#[test]
fn cut() {
    for octet in [IDLE, START, ERROR, 0x9C, 0x00, 0x55, 0xFC] {
        for data in [&[][..], &PREAMBLE[..3], &[0x77; 7], &[0x55; 80]] {
            let capture = Capture::new().control(START).data(data).control(octet);
            let place = 1 + data.len();
            assert_eq!(
                only_reason(&PLAIN, &capture, 0),
                Reason::Cut { place, octet }
            );
        }
    }
    // The cutting Start has a reason of its own.
    let capture = Capture::new().control(START).frame(&good());
    let first = explained(&PLAIN, &capture, 0);
    let cut = Reason::Cut {
        place: 1,
        octet: START,
    };
    assert_eq!((first.why, first.next), (Why::Because(cut), 1));
    let second = explained(&PLAIN, &capture, first.next);
    let place = 1 + 8 + 14;
    let handed = Reason::HandedOut { place, length: 60 };
    assert_eq!(second.why, Why::Because(handed));
}

#[test]
fn bad_preamble() {
    for length in 0..7 {
        for octet in [0x55, 0x00] {
            let data = [octet].repeat(length);
            let capture = Capture::new()
                .control(IDLE)
                .control(START)
                .data(&data)
                .control(TERMINATE);
            let expected = Reason::ShortRun { length };
            assert_eq!(only_reason(&PLAIN, &capture, 1), expected);
        }
    }
    // The first wrong place of any that are wrong; a run of 7 is not too short.
    for wrong in 1..1_u32 << 7 {
        for more in [0, 1, 64] {
            let mut data = PREAMBLE.to_vec();
            for (n, octet) in data.iter_mut().enumerate() {
                *octet ^= (wrong >> n & 1) as u8;
            }
            data.resize(7 + more, 0xEE);
            let capture = Capture::new()
                .control(IDLE)
                .control(START)
                .data(&data)
                .control(TERMINATE);
            let place = 2 + wrong.trailing_zeros() as usize;
            let expected = Reason::WrongPreamble { place };
            assert_eq!(only_reason(&PLAIN, &capture, 1), expected);
        }
    }
}

#[test]
fn sizes() {
    for length in [0, 1, 45, 62, 63] {
        let limit = 64;
        let expected = Reason::Undersized { length, limit };
        assert_eq!(reason(&PLAIN, &good()[..length]), expected);
        assert_eq!(reason(&PLAIN, &[0x81].repeat(length)), expected);
    }
    assert_eq!(reason(&PLAIN, &good()[..64]).outcome(), 5);
    for m in [1518, 1519, 9618] {
        let s = Settings { limit: m, ..PLAIN };
        for n in 0..=9 {
            let limit = usize::from(m) + 4 * n.min(8);
            let sized = |len: usize| frame(OWN, &tagged(n, 0x0800), &ramp(len - 18 - 4 * n));
            assert_eq!(reason(&s, &sized(limit)).outcome(), 11);
            for length in [limit + 1, limit + 4] {
                let mut octets = sized(length);
                let expected = Reason::Oversized { length, limit };
                assert_eq!(reason(&s, &octets), expected);
                // Neither FCS nor field matter.
                octets[length - 1] ^= 1;
                assert_eq!(reason(&s, &octets), expected);
            }
        }
    }
    let length = 65_536 - 12;
    let limit = 1518;
    let expected = Reason::Oversized { length, limit };
    assert_eq!(reason(&PLAIN, &[0].repeat(length)), expected);
}

#[test]
fn wrong_fcs() {
    // An FCS that another program computed, in the frame that has it.
    let data = [&b"hello"[..], &[0; 41]].concat();
    let mut octets = [&BROADCAST[..], &OWN, &[8, 0], &data].concat();
    octets.extend([0xF1, 0x79, 0xDD, 0x32]);
    assert_eq!(reason(&PLAIN, &octets).outcome(), 11);
    octets[60..].copy_from_slice(&[1, 2, 3, 4]);
    let expected = Reason::WrongFcs {
        stands: 0x0403_0201,
        computed: 0x32DD_79F1,
    };
    assert_eq!(reason(&PLAIN, &octets), expected);
    // One bit of each value.
    let right = good();
    for at in 0..right.len() {
        let mut octets = right.clone();
        octets[at] ^= 0x80;
        let Reason::WrongFcs { stands, computed } = reason(&PLAIN, &octets) else {
            panic!("{at}");
        };
        assert_eq!(
            stands == u32::from_le_bytes(clause_3(&right[..74])),
            at < 74
        );
        assert_eq!(
            computed == u32::from_le_bytes(clause_3(&right[..74])),
            at >= 74
        );
    }
}

#[test]
fn wrong_length() {
    let s = Settings {
        limit: 9000,
        ..PLAIN
    };
    let off = Settings {
        checking: false,
        ..s
    };
    for n in 0..=8 {
        for (field, data) in [
            (0, 47),
            (45, 47),
            (46, 47),
            (47, 46),
            (1499, 1500),
            (1500, 1499),
            (1501, 1501),
            (1535, 1535),
        ] {
            // A listed address or not: the length comes first.
            for dest in [OWN, OTHER] {
                let octets = frame(dest, &tagged(n, field), &ramp(data));
                let expected = Reason::WrongLength { field, data };
                assert_eq!(reason(&s, &octets), expected);
                let without = reason(&off, &octets).outcome();
                assert_eq!(without, if dest == OWN { 11 } else { 7 });
            }
        }
    }
    // A bridge's frame with one octet too many and one too few.
    for data in [41, 43, 45, 47] {
        let octets = frame(OWN, &tagged(1, 10), &ramp(data));
        if octets.len() >= 64 {
            let expected = Reason::WrongLength { field: 10, data };
            assert_eq!(reason(&PLAIN, &octets), expected);
        }
    }
    for data in [42, 46] {
        let octets = frame(OWN, &tagged(1, 10), &ramp(data));
        assert_eq!(reason(&PLAIN, &octets).outcome(), 11);
    }
}

#[test]
fn filtered() {
    let deaf = Settings {
        broadcast: false,
        ..PLAIN
    };
    for destination in [OTHER, MULTICAST, RESERVED, BROADCAST, [0; 6]] {
        let octets = frame(destination, &[0x0800], &ramp(46));
        let expected = Reason::Filtered { destination };
        assert_eq!(reason(&deaf, &octets), expected);
        let all = Settings {
            promiscuous: true,
            ..deaf
        };
        assert_eq!(reason(&all, &octets).outcome(), 11);
    }
    // A control frame to others too.
    let destination = OTHER;
    let octets = frame(destination, &[0x8808], &ramp(46));
    assert_eq!(reason(&PLAIN, &octets), Reason::Filtered { destination });
}

#[test]
fn opcodes() {
    let control = |dest, opcode: u16| {
        let mut data = opcode.to_be_bytes().to_vec();
        data.resize(46, 0xEE);
        frame(dest, &[0x8808], &data)
    };
    for dest in [RESERVED, OWN] {
        let expected = Reason::PauseTaken { opcode: 1 };
        assert_eq!(reason(&PAUSE, &control(dest, 1)), expected);
        for opcode in [0, 1, 2, 0x0100, 0x0101, 0xFFFF] {
            let octets = control(dest, opcode);
            let expected = Reason::ControlDropped { opcode };
            assert_eq!(reason(&PLAIN, &octets), expected);
            let passing = Settings {
                pass_control: true,
                ..PLAIN
            };
            let handed = Reason::HandedOut {
                place: 3 + 8 + 14,
                length: 46,
            };
            assert_eq!(reason(&passing, &octets), handed);
        }
    }
    let expected = Reason::PfcTaken { opcode: 0x0101 };
    assert_eq!(reason(&PFC, &control(RESERVED, 0x0101)), expected);
    let expected = Reason::ControlDropped { opcode: 0x0101 };
    assert_eq!(reason(&PFC, &control(OWN, 0x0101)), expected);
    assert_eq!(reason(&PAUSE, &control(RESERVED, 0x0101)), expected);
}

#[test]
fn handed_out() {
    for n in 0..=8 {
        let place = 3 + 8 + 14 + 4 * n;
        for field in [0, 1, 45, 46, 60, 1500] {
            let length = usize::from(field);
            let octets = frame(OWN, &tagged(n, field), &ramp(length.max(46)));
            let expected = Reason::HandedOut { place, length };
            assert_eq!(reason(&PLAIN, &octets), expected);
        }
    }
    // A ninth tag is a field, and all behind it is data.
    let octets = frame(OWN, &tagged(9, 0), &ramp(46));
    let expected = Reason::HandedOut {
        place: 3 + 8 + 14 + 4 * 8,
        length: 50,
    };
    assert_eq!(reason(&PLAIN, &octets), expected);
    // No data at all, but its place.
    let s = Settings {
        checking: false,
        ..PLAIN
    };
    let octets = frame(OWN, &[0], &[0; 46]);
    for (s, length) in [(&PLAIN, 0), (&s, 46)] {
        let place = 3 + 8 + 14;
        assert_eq!(reason(s, &octets), Reason::HandedOut { place, length });
    }
}

#[test]
fn captures_of_all_sorts() {
    let mut dice = Dice::new(9);
    let mut counts = [0; 12];
    for _ in 0..2_000 {
        let by = dice.reader();
        let mut capture = Capture::new();
        for _ in 0..dice.roll(6) {
            capture = dice.piece(capture);
        }
        explained(by, &capture, dice.roll(capture.octets.len() + 3));
        let mut place = 0;
        while let Why::Because(reason) = explained(by, &capture, place).why {
            counts[usize::from(reason.outcome())] += 1;
            place = explained(by, &capture, place).next;
        }
    }
    // Oversized ones are too long for this test.
    for (outcome, &count) in counts.iter().enumerate().skip(1) {
        assert!(count > 0 || outcome == 4, "outcome {outcome}");
    }
}
