//! "A plain reader", item 12 of document 02: symbol by symbol it says what the
//! walk says. Every frame that the other modules look at by itself is shown to it
//! too.

use reference::{read, walk, Answer, Check, Ended, PlainReader, Settings, State, Walked};

use crate::hand::{frame, listing, ramp, tagged, Capture, Reader, KINDS, LENGTH_RULE};
use crate::hand::{BROADCAST, ERROR, IDLE, MULTICAST, OTHER, OWN, PAUSE, PFC, PLAIN, RESERVED};
use crate::hand::{START, TERMINATE};
use crate::robust::Dice;

/// Takes one symbol, and checks what holds each time: a refused call changes
/// nothing, any other takes one symbol, and only a control symbol behind a Start
/// gets an answer. The three ways of the FCS take turns, since the register is the
/// same for all.
fn take(by: &Reader, reader: &mut PlainReader, octet: u8, mark: u8) -> Result<Option<Ended>, u8> {
    let Reader { s, job, table } = by;
    let before = *reader;
    let kind = KINDS[before.taken() % 3];
    let answer = reader.take(kind, s, *job, table, octet, mark);
    match answer {
        Err(_) => assert_eq!(*reader, before),
        Ok(ended) => {
            assert_eq!(reader.taken(), before.taken() + 1);
            assert_eq!(ended.is_some(), mark != 0 && before.run().is_some());
            let run = match (mark, octet) {
                (0, _) => before.run().map(|count| count + 1),
                (_, START) => Some(0),
                _ => None,
            };
            assert_eq!(reader.run(), run);
            if ended.is_none() {
                assert_eq!(reader.state(), before.state());
            }
        }
    }
    answer
}

/// Takes a whole capture: the answers, or the refusal of a symbol.
fn take_all(by: &Reader, reader: &mut PlainReader, capture: &Capture) -> Result<Vec<Ended>, u8> {
    let symbols = capture.octets.iter().zip(&capture.marks);
    let answers = symbols.map(|(&octet, &mark)| take(by, reader, octet, mark));
    let answers: Result<Vec<_>, u8> = answers.collect();
    Ok(answers?.into_iter().flatten().collect())
}

/// What the walk says of a capture: an answer for each counted Start, the state
/// behind it, and whether it ended open.
fn walked(by: &Reader, capture: &Capture, before: State) -> Result<(Vec<Ended>, State, bool), u8> {
    let Reader { s, job, table } = by;
    let (kind, octets, marks) = (Check::Slicing16, &capture.octets, &capture.marks);
    let (mut answers, mut state, mut place) = (vec![], before, 0);
    loop {
        let reading = read(kind, s, &mut state, *job, table, octets, marks, place);
        place = reading.next;
        let open = match reading.answer {
            Answer::Refused(number) => return Err(number),
            Answer::None => false,
            Answer::Open => true,
            Answer::Counted {
                outcome,
                status,
                at,
                len,
                address,
            } => {
                answers.push(Ended {
                    outcome,
                    status,
                    at,
                    len,
                    address,
                });
                continue;
            }
        };
        // The walk as one call.
        let (mut after, starts) = (before, answers.len());
        let ended = walk(kind, s, &mut after, *job, table, octets, marks);
        assert_eq!(ended, Walked::Ended { starts, open });
        assert_eq!(after, state);
        return Ok((answers, state, open));
    }
}

/// Checks that the plain reader says of a capture what the walk says. One that is
/// refused is refused symbol by symbol, but for its buffers' lengths.
pub fn check(by: &Reader, capture: &Capture, before: State) {
    let mut reader = PlainReader::new(before);
    assert_eq!((reader.taken(), reader.run()), (0, None));
    let taken = take_all(by, &mut reader, capture);
    match walked(by, capture, before) {
        Ok((answers, state, open)) => {
            assert_eq!(taken, Ok(answers));
            assert_eq!(*reader.state(), state);
            assert_eq!(reader.run().is_some(), open);
            assert_eq!(reader.taken(), capture.octets.len());
        }
        Err(number @ (1 | 14 | 20)) => {
            let expected = if capture.octets.is_empty() {
                Ok(vec![])
            } else {
                Err(number)
            };
            assert_eq!(taken, expected);
            assert_eq!(reader, PlainReader::new(before));
        }
        Err(number) => assert_eq!(number, 2),
    }
}

/// A state that any counting and any setting would change.
const BEFORE: State = State {
    counters: [u64::MAX; 11],
    timers: [5; 8],
    deficit: 77,
};

/// The answers to a capture, which is taken from place 0 and held against the walk.
fn answers(by: impl Into<Reader>, capture: &Capture) -> Vec<Ended> {
    let by = by.into();
    check(&by, capture, BEFORE);
    take_all(&by, &mut PlainReader::default(), capture).unwrap()
}

/// The outcomes alone.
fn outcomes(by: impl Into<Reader>, capture: &Capture) -> Vec<u8> {
    let answers = answers(by, capture);
    answers.iter().map(|ended| ended.outcome).collect()
}

fn good() -> Vec<u8> {
    frame(OWN, &[0x0800], &ramp(60))
}

/// A control frame, its data filled up with zeros.
fn control(dest: [u8; 6], data: &[u8]) -> Vec<u8> {
    let mut data = data.to_vec();
    data.resize(46, 0);
    frame(dest, &[0x8808], &data)
}

#[test]
fn a_fresh_reader() {
    let reader = PlainReader::default();
    assert_eq!(reader, PlainReader::new(State::default()));
    assert_eq!((reader.taken(), reader.run()), (0, None));
    assert_eq!(*reader.state(), State::default());
    assert_eq!(*PlainReader::new(BEFORE).state(), BEFORE);
}

#[test]
fn each_outcome() {
    let mut wrong_fcs = good();
    wrong_fcs[20] ^= 1;
    let own_pause = control(OWN, &[0, 1, 0, 3]);
    let group_pfc = control(RESERVED, &[1, 1, 0, 0x81, 0, 3, 0, 4, 0, 5]);
    let with = |frame: &[u8]| Capture::new().control(IDLE).frame(frame);
    for (s, capture, outcome, status, at, len, address) in [
        (
            PLAIN,
            Capture::new().control(START).control(IDLE),
            1,
            0,
            0,
            0,
            0,
        ),
        (
            PLAIN,
            Capture::new().control(START).control(TERMINATE),
            2,
            0,
            0,
            0,
            0,
        ),
        (PLAIN, with(&good()[..63]), 3, 0, 0, 0, 0),
        (PLAIN, with(&[0; 1519]), 4, 0, 0, 0, 0),
        (PLAIN, with(&wrong_fcs), 5, 0, 0, 0, 0),
        (PLAIN, with(&frame(OWN, &[1501], &ramp(46))), 6, 0, 0, 0, 0),
        (
            PLAIN,
            with(&frame(OTHER, &[0x0800], &ramp(46))),
            7,
            0,
            0,
            0,
            0,
        ),
        (PAUSE, with(&own_pause), 8, 0x4C_0040_002E, 0, 0, 1),
        (PFC, with(&group_pfc), 9, 0xA4_0040_002E, 0, 0, 8),
        (PFC, with(&own_pause), 10, 0x44_0040_002E, 0, 0, 1),
        (PLAIN, with(&good()), 11, 0x40_004E_003C, 23, 60, 1),
    ] {
        let expected = Ended {
            outcome,
            status,
            at,
            len,
            address,
        };
        assert_eq!(answers(&s, &capture), [expected]);
        let mut reader = PlainReader::default();
        take_all(&Reader::from(&s), &mut reader, &capture).unwrap();
        let mut state = State::default();
        state.counters[usize::from(outcome) - 1] = 1;
        state.timers = match outcome {
            8 => [192; 8],
            9 => [192, 0, 0, 0, 0, 0, 0, 0],
            _ => [0; 8],
        };
        assert_eq!(*reader.state(), state);
    }
}

#[test]
fn every_ending_symbol() {
    for ending in 0..=255 {
        for mark in [1, 0x80, 0xFF] {
            let mut capture = Capture::new().open_frame(&good()).control(ending);
            *capture.marks.last_mut().unwrap() = mark;
            let expected = if ending == TERMINATE { 11 } else { 1 };
            assert_eq!(outcomes(&PLAIN, &capture), [expected]);
        }
    }
}

#[test]
fn only_a_control_symbol_starts_a_run() {
    let capture = Capture::new()
        .data(&[START, 0x55, TERMINATE])
        .control(ERROR)
        .data(&[START])
        .control(TERMINATE);
    assert_eq!(outcomes(&PLAIN, &capture), []);
    // Inside a run it is an octet like any other.
    let data = [START; 46];
    let capture = Capture::new().frame(&frame(OWN, &[0x0800], &data));
    assert_eq!(outcomes(&PLAIN, &capture), [11]);
}

#[test]
fn the_start_that_ends_a_run_begins_one() {
    let capture = Capture::new()
        .control(START)
        .control(START)
        .control(TERMINATE);
    assert_eq!(outcomes(&PLAIN, &capture), [1, 2]);
    let capture = Capture::new().open_frame(&good()).frame(&good());
    assert_eq!(outcomes(&PLAIN, &capture), [1, 11]);
}

#[test]
fn runs_of_every_length_up_to_a_frame() {
    let whole = Capture::new().open_frame(&good());
    for len in 1..=whole.octets.len() {
        let open = Capture {
            octets: whole.octets[..len].to_vec(),
            marks: whole.marks[..len].to_vec(),
        };
        let expected = match len - 1 {
            0..=6 => 2,
            7..=70 => 3,
            71..=84 => 5,
            _ => 11,
        };
        assert_eq!(outcomes(&PLAIN, &open), []);
        let capture = open.control(TERMINATE);
        assert_eq!(outcomes(&PLAIN, &capture), [expected], "{len}");
    }
}

#[test]
fn what_stands_in_the_run_before_is_forgotten() {
    // Each run is longer than the first octets, or shorter, behind any other.
    let runs = [&[][..], &[0x55; 6], &ramp(53), &ramp(54), &good()];
    for one in runs {
        for two in runs {
            let capture = Capture::new()
                .frame(one)
                .frame(two)
                .control(START)
                .data(one);
            let alone = outcomes(&PLAIN, &Capture::new().frame(two));
            assert_eq!(outcomes(&PLAIN, &capture)[1..], alone);
        }
    }
}

#[test]
fn place_and_length_of_the_data() {
    for n in 0..=9 {
        for (field, len, kept) in LENGTH_RULE {
            let s = Settings {
                limit: 9_000,
                ..PLAIN
            };
            let mut capture = Capture::new().control(IDLE);
            capture = capture.frame(&frame(OWN, &tagged(n, field), &ramp(len)));
            let [ended] = answers(&s, &capture)[..] else {
                panic!("one frame");
            };
            // A ninth tag is an ordinary type, and what follows it is data.
            let (at, handed) = match n {
                9 => (9 + 14 + 32, Some(len + 4)),
                _ => (9 + 14 + 4 * n, kept),
            };
            match handed {
                Some(handed) => assert_eq!((ended.outcome, ended.at, ended.len), (11, at, handed)),
                None => assert_eq!((ended.outcome, ended.at, ended.len), (6, 0, 0)),
            }
        }
    }
}

#[test]
fn limit_grows_by_four_for_each_tag() {
    for n in 0..=9 {
        let most = 1518 + 4 * n.min(8);
        for (length, outcome) in [(most, 11), (most + 1, 4)] {
            let data = ramp(length - 18 - 4 * n);
            let capture = Capture::new().frame(&frame(OWN, &tagged(n, 0x0800), &data));
            assert_eq!(outcomes(&PLAIN, &capture), [outcome]);
        }
    }
}

#[test]
fn numbers_of_the_addresses() {
    for job in [0, 1] {
        let by = Reader {
            s: PLAIN,
            job,
            table: listing(job, &[OTHER, BROADCAST, MULTICAST]),
        };
        let other = Reader { job: 1 - job, ..by };
        for (dest, number, of_other) in [
            (OWN, 1, 1),
            (OTHER, 16, 0),
            (MULTICAST, 18, 0),
            (BROADCAST, 6, 6),
            (RESERVED, 0, 0),
        ] {
            let capture = Capture::new().frame(&frame(dest, &[0x0800], &ramp(46)));
            assert_eq!(answers(by, &capture)[0].address, number);
            assert_eq!(answers(other, &capture)[0].address, of_other);
        }
    }
}

#[test]
fn in_progress_exactly_when_the_walk_says_open() {
    // Every front part of captures of all sorts.
    let mut dice = Dice::new(12);
    let mut open = [0; 2];
    for _ in 0..5 {
        let mut whole = Capture::new();
        for _ in 0..3 {
            whole = dice.piece(whole).control(IDLE).data(&[START; 20]);
        }
        for len in 0..=whole.octets.len() {
            let front = Capture {
                octets: whole.octets[..len].to_vec(),
                marks: whole.marks[..len].to_vec(),
            };
            check(&Reader::from(&PAUSE), &front, BEFORE);
            open[usize::from(front.outcomes(&PLAIN).1)] += 1;
        }
    }
    assert!(open.iter().all(|&count| count > 100), "{open:?}");
}

#[test]
fn captures_of_all_sorts() {
    let mut dice = Dice::new(13);
    let mut seen = [0; 12];
    let mut state = BEFORE;
    for round in 0..1_000 {
        let by = dice.reader();
        let mut capture = Capture::new();
        for _ in 0..dice.roll(6) {
            capture = dice.piece(capture);
        }
        if round % 50 == 0 {
            capture = capture.frame(&vec![0; 9_700]);
        }
        // From capture to capture the state goes on, and nothing else does.
        check(&by, &capture, state);
        if let Ok((answers, after, _)) = walked(&by, &capture, state) {
            for ended in answers {
                seen[usize::from(ended.outcome)] += 1;
            }
            state = after;
        }
    }
    assert!(seen[1..].iter().all(|&count| count > 0), "{seen:?}");
}

#[test]
fn ladder_of_the_plain_reader() {
    let mut full = PlainReader::new(BEFORE);
    let plain = Reader::from(&PLAIN);
    let idles = Capture {
        octets: vec![IDLE; 65_536],
        marks: vec![1; 65_536],
    };
    assert_eq!(take_all(&plain, &mut full, &idles), Ok(vec![]));
    for reader in [PlainReader::new(BEFORE), full] {
        let mut by = Reader {
            s: Settings { limit: 0, ..PLAIN },
            job: 2,
            table: listing(0, &[OTHER, OTHER]),
        };
        for (octet, mark) in [(0x55, 0), (START, 1), (TERMINATE, 1)] {
            by.s.limit = 0;
            by.job = 2;
            assert_eq!(take(&by, &mut reader.clone(), octet, mark), Err(1));
            by.s.limit = 1518;
            assert_eq!(take(&by, &mut reader.clone(), octet, mark), Err(14));
            by.job = 1;
            assert_eq!(take(&by, &mut reader.clone(), octet, mark), Err(20));
            let expected = if reader == full { Err(2) } else { Ok(None) };
            assert_eq!(take(&plain, &mut reader.clone(), octet, mark), expected);
        }
    }
}

#[test]
fn refused_inside_a_run_it_goes_on() {
    let bad = Reader {
        s: Settings { limit: 0, ..PLAIN },
        ..Reader::from(&PLAIN)
    };
    let capture = Capture::new().frame(&good());
    let mut reader = PlainReader::default();
    let mut answers = vec![];
    for (&octet, &mark) in capture.octets.iter().zip(&capture.marks) {
        assert_eq!(take(&bad, &mut reader, octet, mark), Err(1));
        answers.extend(take(&Reader::from(&PLAIN), &mut reader, octet, mark).unwrap());
    }
    assert_eq!(answers[0].outcome, 11);
}

#[test]
fn the_settings_of_the_ending_symbol_count() {
    let capture = Capture::new().open_frame(&control(RESERVED, &[0, 1, 0, 9]));
    for (s, outcome) in [(PLAIN, 10), (PAUSE, 8), (PFC, 10)] {
        let mut reader = PlainReader::default();
        assert_eq!(
            take_all(&Reader::from(&PLAIN), &mut reader, &capture),
            Ok(vec![])
        );
        let ended = take(&Reader::from(&s), &mut reader, TERMINATE, 1);
        assert_eq!(ended.unwrap().unwrap().outcome, outcome);
    }
}

#[test]
fn the_65_536th_symbol_is_the_last() {
    let plain = Reader::from(&PLAIN);
    // A frame whose Terminate is the last symbol that is taken, or the first that
    // isn't.
    let frame = Capture::new().frame(&good());
    for before in [65_536 - frame.octets.len(), 65_537 - frame.octets.len()] {
        let mut capture = Capture {
            octets: vec![IDLE; before],
            marks: vec![1; before],
        };
        capture.octets.extend(&frame.octets);
        capture.marks.extend(&frame.marks);
        let mut reader = PlainReader::new(BEFORE);
        let answers = take_all(&plain, &mut reader, &capture);
        assert_eq!(reader.taken(), 65_536);
        if capture.octets.len() == 65_536 {
            assert_eq!(answers.unwrap()[0].at, before + 22);
            assert_eq!(reader.run(), None);
        } else {
            assert_eq!(answers, Err(2));
            assert_eq!(reader.run(), Some(frame.octets.len() - 2));
            assert_eq!(*reader.state(), BEFORE);
        }
        for (octet, mark) in [(0, 0), (IDLE, 1), (START, 1), (TERMINATE, 1)] {
            assert_eq!(take(&plain, &mut reader, octet, mark), Err(2));
        }
    }
    // The longest run.
    let mut capture = Capture::new().control(START).data(&vec![0x55; 65_534]);
    check(&plain, &capture, BEFORE);
    capture = capture.control(TERMINATE);
    check(&plain, &capture, BEFORE);
    assert_eq!(capture.octets.len(), 65_536);
}
