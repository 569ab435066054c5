//! "Size table for a day of captures", item 13 of document 02: the bands and
//! their edges, what is added and what isn't, and what holds of all bands.

use reference::{walk, Answer, Check, Settings, SizeTable, State, Walked};

use crate::hand::{frame, listing, ramp, tagged, Capture, Reader, KINDS};
use crate::hand::{IDLE, MULTICAST, OTHER, OWN, PAUSE, PFC, PLAIN, RESERVED, START, TERMINATE};
use crate::robust::Dice;

/// The first and last length of each band; the longest frame that can be read has
/// eight tags.
const BANDS: [(usize, usize); 7] = [
    (64, 64),
    (65, 127),
    (128, 255),
    (256, 511),
    (512, 1023),
    (1024, 1518),
    (1519, 9_650),
];

/// Room for all sizes.
const LONG: Settings = Settings {
    limit: 9_618,
    ..PLAIN
};

/// Adds a capture in all three ways, and checks what holds each time: a refused
/// one adds nothing, and the bands rise by as much as the counters of the walk.
fn add(sizes: &mut SizeTable, by: impl Into<Reader>, capture: &Capture) -> Result<usize, u8> {
    let Reader { s, job, table } = by.into();
    let before = *sizes;
    let (octets, marks) = (&capture.octets, &capture.marks);
    let answer = sizes.add(KINDS[0], &s, job, &table, octets, marks);
    for &kind in &KINDS[1..] {
        let mut other = before;
        assert_eq!(other.add(kind, &s, job, &table, octets, marks), answer);
        assert_eq!(other, *sizes);
    }
    let mut state = State::default();
    let walked = walk(Check::Bitwise, &s, &mut state, job, &table, octets, marks);
    match (answer, walked) {
        (Err(number), Walked::Refused(other)) => {
            assert_eq!(number, other);
            assert_eq!(*sizes, before);
        }
        (Ok(added), Walked::Ended { .. }) => {
            let risen = all(&sizes.frames).wrapping_sub(all(&before.frames));
            assert_eq!(risen, all(&state.counters[7..]));
            assert_eq!(added as u64, risen);
        }
        _ => panic!("{answer:?} {walked:?}"),
    }
    answer
}

/// The sum modulo 2^64.
fn all(counts: &[u64]) -> u64 {
    counts.iter().fold(0, |sum, &count| sum.wrapping_add(count))
}

/// A frame of this length to the own address.
fn of_length(length: usize) -> Vec<u8> {
    frame(OWN, &[0x0800], &ramp(length - 18))
}

/// A table with these frames and octets in one band.
fn alone(band: usize, frames: u64, octets: u64) -> SizeTable {
    let mut sizes = SizeTable::default();
    sizes.frames[band] = frames;
    sizes.octets[band] = octets;
    sizes
}

/// The table of one capture.
fn sizes_of(by: impl Into<Reader>, capture: &Capture) -> SizeTable {
    let mut sizes = SizeTable::default();
    add(&mut sizes, by, capture).unwrap();
    sizes
}

#[test]
fn edges_of_the_bands() {
    for (band, (first, last)) in BANDS.into_iter().enumerate() {
        for length in [first, (first + last) / 2, last.min(9_618)] {
            let capture = Capture::new().frame(&of_length(length));
            let expected = alone(band, 1, length as u64);
            assert_eq!(sizes_of(&LONG, &capture), expected, "{length}");
        }
    }
}

#[test]
fn every_length_up_to_1600() {
    let mut sizes = SizeTable::default();
    let mut expected = SizeTable::default();
    for length in 60..1_600 {
        let capture = Capture::new().frame(&of_length(length));
        let added = add(&mut sizes, &LONG, &capture);
        let band = BANDS
            .into_iter()
            .position(|(first, last)| first <= length && length <= last);
        assert_eq!(added, Ok(usize::from(band.is_some())));
        if let Some(band) = band {
            expected.frames[band] += 1;
            expected.octets[band] += length as u64;
        }
        assert_eq!(sizes, expected);
    }
}

#[test]
fn tags_count_as_they_stand() {
    // The limit grows with them, and the bands don't.
    for n in 0..=8 {
        let octets = frame(OWN, &tagged(n, 0x0800), &ramp(1_500));
        let expected = match n {
            0 => alone(5, 1, 1_518),
            _ => alone(6, 1, 1_518 + 4 * n as u64),
        };
        assert_eq!(sizes_of(&PLAIN, &Capture::new().frame(&octets)), expected);
    }
    let longest = frame(OWN, &tagged(8, 0x0800), &ramp(9_600));
    assert_eq!(
        sizes_of(&LONG, &Capture::new().frame(&longest)),
        alone(6, 1, 9_650)
    );
}

#[test]
fn octets_handed_out_do_not_count() {
    // A length of 0: the padding is part of the frame.
    let capture = Capture::new().frame(&frame(OWN, &[0], &[0; 46]));
    assert_eq!(sizes_of(&PLAIN, &capture), alone(0, 1, 64));
}

#[test]
fn outcomes_8_to_11_and_no_other() {
    let mut wrong_fcs = of_length(64);
    wrong_fcs[20] ^= 1;
    let mut pause = vec![0, 1, 0, 3];
    pause.resize(46, 0);
    let mut pfc = vec![1, 1, 0, 0xFF];
    pfc.resize(60, 0);
    let pass = Settings {
        pass_control: true,
        ..PLAIN
    };
    let with = |frame: &[u8]| Capture::new().frame(frame);
    for (s, capture, expected) in [
        (
            PLAIN,
            Capture::new().open_frame(&of_length(64)).control(IDLE),
            None,
        ),
        (
            PLAIN,
            Capture::new().control(START).control(TERMINATE),
            None,
        ),
        (PLAIN, with(&of_length(64)[..63]), None),
        (PLAIN, with(&of_length(1_519)), None),
        (PLAIN, with(&wrong_fcs), None),
        (PLAIN, with(&frame(OWN, &[1501], &ramp(46))), None),
        (PLAIN, with(&frame(OTHER, &[0x0800], &ramp(46))), None),
        (
            PAUSE,
            with(&frame(RESERVED, &[0x8808], &pause)),
            Some((0, 64)),
        ),
        (PFC, with(&frame(RESERVED, &[0x8808], &pfc)), Some((1, 78))),
        (PFC, with(&frame(OWN, &[0x8808], &pfc)), Some((1, 78))),
        (pass, with(&frame(OWN, &[0x8808], &pfc)), Some((1, 78))),
        (PLAIN, with(&of_length(200)), Some((2, 200))),
        // Neither an open one.
        (PLAIN, Capture::new().open_frame(&of_length(64)), None),
        (PLAIN, Capture::new(), None),
    ] {
        let expected = expected.map_or(SizeTable::default(), |(band, length)| {
            alone(band, 1, length)
        });
        assert_eq!(sizes_of(&s, &capture), expected);
    }
}

#[test]
fn by_the_entries_of_the_job() {
    let capture = Capture::new().frame(&frame(MULTICAST, &[0x0800], &ramp(100)));
    for job in [0, 1] {
        let by = Reader {
            s: PLAIN,
            job,
            table: listing(job, &[MULTICAST]),
        };
        assert_eq!(sizes_of(by, &capture), alone(1, 1, 118));
        let other = Reader { job: 1 - job, ..by };
        assert_eq!(sizes_of(other, &capture), SizeTable::default());
    }
}

#[test]
fn a_refused_capture_adds_nothing() {
    let mut by = Reader {
        s: Settings { limit: 0, ..PLAIN },
        job: 2,
        table: listing(0, &[OTHER, OTHER]),
    };
    let good = Capture::new().frame(&of_length(64));
    let mut bad = good.clone();
    bad.marks.pop();
    let mut long = good.clone();
    long.octets.resize(65_537, IDLE);
    long.marks.resize(65_537, 1);
    let mut sizes = alone(3, 7, 8);
    for capture in [&bad, &long] {
        by.s.limit = 0;
        by.job = 2;
        assert_eq!(add(&mut sizes, by, capture), Err(1));
        by.s.limit = 1518;
        assert_eq!(add(&mut sizes, by, capture), Err(14));
        by.job = 1;
        assert_eq!(add(&mut sizes, by, capture), Err(2));
        assert_eq!(add(&mut sizes, by, &good), Err(20));
    }
    assert_eq!(sizes, alone(3, 7, 8));
    assert_eq!(add(&mut sizes, &PLAIN, &good), Ok(1));
}

#[test]
fn counts_roll_over() {
    let capture = Capture::new().frame(&of_length(64)).frame(&of_length(64));
    for (value, frames, octets) in [
        (u64::MAX, 1, 127),
        (u64::MAX - 1, 0, 126),
        (u64::MAX - 2, u64::MAX, 125),
        (u64::MAX - 127, u64::MAX - 125, 0),
        (u64::MAX - 128, u64::MAX - 126, u64::MAX),
        (u64::from(u32::MAX), 0x1_0000_0001, 0x1_0000_007F),
    ] {
        let mut sizes = SizeTable {
            frames: [value; 7],
            octets: [value; 7],
        };
        assert_eq!(add(&mut sizes, &PLAIN, &capture), Ok(2));
        assert_eq!((sizes.frames[0], sizes.octets[0]), (frames, octets));
        assert_eq!(
            (&sizes.frames[1..], &sizes.octets[1..]),
            (&[value; 6][..], &[value; 6][..])
        );
    }
}

/// Captures of all sorts with their readers, and long frames now and then.
fn day(dice: &mut Dice) -> Vec<(Reader, Capture)> {
    let captures = (0..dice.roll(8)).map(|_| {
        let mut capture = Capture::new();
        for _ in 0..dice.roll(6) {
            capture = dice.piece(capture);
        }
        let (first, last) = BANDS[dice.roll(7)];
        let length = first + dice.roll(last.min(3_000) - first + 1);
        (dice.reader(), capture.frame(&of_length(length)))
    });
    captures.collect()
}

#[test]
fn another_order_gives_the_same_table() {
    let mut dice = Dice::new(14);
    let mut total = SizeTable::default();
    for _ in 0..150 {
        let mut day = day(&mut dice);
        let mut sums = vec![];
        for _ in 0..3 {
            let mut sizes = SizeTable {
                frames: [u64::MAX; 7],
                octets: [u64::MAX - 100; 7],
            };
            for (by, capture) in &day {
                let _ = add(&mut sizes, by, capture);
            }
            sums.push(sizes);
            for at in (1..day.len()).rev() {
                day.swap(at, dice.roll(at + 1));
            }
        }
        assert_eq!(sums, [sums[0]; 3]);
        for (by, capture) in &day {
            let _ = add(&mut total, by, capture);
        }
    }
    assert!(total.frames.iter().all(|&count| count > 0), "{total:?}");
}

#[test]
fn as_the_status_words_say() {
    // Bits 31 to 16 of a status word are the frame's length.
    let mut dice = Dice::new(15);
    for _ in 0..150 {
        for (by, capture) in day(&mut dice) {
            let mut expected = SizeTable::default();
            let (mut state, mut place) = (State::default(), 0);
            loop {
                let reading = capture.read(by, &mut state, place);
                let Answer::Counted { status, .. } = reading.answer else {
                    break;
                };
                place = reading.next;
                let length = status >> 16 & 0xFFFF;
                let mut bands = BANDS.into_iter();
                let band =
                    bands.position(|(first, last)| (first..=last).contains(&(length as usize)));
                if let Some(band) = band {
                    expected.frames[band] += 1;
                    expected.octets[band] += length;
                }
            }
            let mut sizes = SizeTable::default();
            let _ = add(&mut sizes, by, &capture);
            assert_eq!(sizes, expected);
        }
    }
}
