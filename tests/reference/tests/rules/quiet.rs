//! "Quiet means quiet", item 14 of document 02: the watch by itself, the calls
//! under it one by one, and drawn sequences of all of them.

use reference::{run_quietly, Call, Client, Flow, Form, Hearing, Loud, Port, Quiet, Settings};
use reference::{State, Table, Writing};

use crate::hand::{frame, listing, ramp, tags, Capture, Reader, IDLE, KINDS, MULTICAST};
use crate::hand::{OTHER, OWN, PAUSE, PFC, PLAIN, RESERVED, START, TERMINATE};
use crate::robust::Dice;

/// Makes the calls in all three ways, on a line of this length, and checks what
/// holds each time: the timers end where the watch says, which is more than quiet,
/// unless one ran before the first reading.
fn run(s: &Settings, state: &mut State, len: usize, calls: &[Call]) -> Quiet {
    let before = *state;
    let [one, two, three] = KINDS.map(|kind| {
        let (mut after, mut octets, mut marks) = (before, vec![0xA7; len], vec![0xC9; len]);
        let watched = run_quietly(kind, s, &mut after, &mut octets, &mut marks, calls);
        (watched, after, octets, marks)
    });
    assert!(one == two && two == three);
    let (watched, after, ..) = one;
    let quiet = watched.unwrap();
    *state = after;
    if before.timers == [0; 8] {
        let left = [0, 1, 2, 3, 4, 5, 6, 7].map(|class| quiet.left(class));
        assert_eq!(after.timers.map(u64::from), left);
    }
    quiet
}

/// A call for a client frame of this class, 84 symbols long on the plain port.
fn client(class: u8, place: usize) -> Call {
    let client = Client {
        dest: OTHER,
        tags: vec![],
        form: Form::Length,
        class,
    };
    writes(place, Writing::Client(client, vec![]))
}

fn writes(place: usize, what: Writing) -> Call {
    Call::Write {
        port: Port::Plain,
        place,
        counting: false,
        what,
    }
}

fn idle(n: usize) -> Call {
    writes(0, Writing::Idle(n))
}

fn hears(capture: Capture, how: Hearing) -> Call {
    Call::Hear {
        job: 0,
        table: Table::EMPTY,
        capture: Some((capture.octets, capture.marks)),
        how,
    }
}

/// A frame that sets all classes.
fn pause(capture: Capture, quanta: u16) -> Capture {
    let mut data = vec![0, 1];
    data.extend(quanta.to_be_bytes());
    data.resize(46, 0);
    capture.frame(&frame(RESERVED, &[0x8808], &data))
}

/// A frame that sets the named classes.
fn pfc(capture: Capture, named: u8, quanta: [u16; 8]) -> Capture {
    let mut data = vec![1, 1, 0, named];
    data.extend(quanta.iter().flat_map(|quanta| quanta.to_be_bytes()));
    data.resize(46, 0);
    capture.frame(&frame(RESERVED, &[0x8808], &data))
}

fn hears_pause(quanta: u16) -> Call {
    hears(pause(Capture::new(), quanta), Hearing::Walk)
}

#[test]
fn the_watch_by_itself() {
    let (data, control) = ([0; 200], [1; 200]);
    let mut line = [IDLE; 200];
    for quanta in [1, 2, 3] {
        for before in 0..=64 * quanta {
            let mut quiet = Quiet::default();
            assert_eq!(quiet.wrote(None, &line[..7], &control[..7]), Ok(()));
            quiet.set(3, quanta);
            assert_eq!(quiet.left(3), 64 * u64::from(quanta));
            let n = usize::from(before);
            assert_eq!(quiet.wrote(None, &line[..n], &control[..n]), Ok(()));
            // A control frame's Start, another class's, and an octet like it.
            let start = ([START], [0x80]);
            for client in [None, Some(0), Some(2), Some(4), Some(7)] {
                assert_eq!(quiet.clone().wrote(client, &start.0, &start.1), Ok(()));
            }
            assert_eq!(quiet.clone().wrote(Some(3), &start.0, &data[..1]), Ok(()));
            let loud = Loud {
                class: 3,
                symbol: 7 + u64::from(before),
                free: 7 + 64 * u64::from(quanta),
            };
            let expected = if before < 64 * quanta {
                Err(loud)
            } else {
                Ok(())
            };
            assert_eq!(quiet.clone().wrote(Some(3), &start.0, &start.1), expected);
            // Again first: then the later one counts.
            for again in [0, 1] {
                let mut quiet = quiet;
                quiet.set(2, 9);
                quiet.set(3, again);
                let expected = quiet.wrote(Some(3), &start.0, &start.1);
                assert_eq!(expected.is_ok(), again == 0);
            }
        }
    }
    // The number of a Start counts the symbols in front of it, in its own call too.
    line[64] = START;
    let mut quiet = Quiet::default();
    quiet.set(0, 1);
    assert_eq!(
        quiet.clone().wrote(Some(0), &line[..65], &control[..65]),
        Ok(())
    );
    assert!(quiet.wrote(Some(0), &line[1..65], &control[1..65]).is_err());
}

#[test]
fn both_sides_of_the_quiet() {
    for class in 0..8 {
        for quanta in [1, 2, 40] {
            let slots = 64 * usize::from(quanta);
            for (n, starts) in [(0, 0), (slots - 1, 0), (slots, 1)] {
                let calls = [hears_pause(quanta), idle(n), client(class, 5)];
                let quiet = run(&PAUSE, &mut State::default(), 3_000, &calls);
                assert_eq!(
                    (quiet.sets, quiet.starts, quiet.held),
                    (8, starts, 1 - starts)
                );
            }
        }
    }
}

#[test]
fn every_call_that_writes_counts() {
    // 64 symbols and more of quiet pass by frames of other classes, control frames
    // and Idles, at whatever place they are written.
    let s = PFC;
    let hear = hears(pfc(Capture::new(), 2, [3; 8]), Hearing::Read(0));
    let other = writes(700, Writing::Pfc(9, [1; 8]));
    let calls = [hear, client(0, 100), client(1, 0), other, client(1, 0)];
    let quiet = run(&s, &mut State::default(), 1_000, &calls);
    assert_eq!((quiet.starts, quiet.held, quiet.left(1)), (1, 2, 24));
    let more = [&calls[..], &[idle(23), client(1, 0), idle(1), client(1, 0)]].concat();
    let quiet = run(&s, &mut State::default(), 1_000, &more);
    assert_eq!((quiet.starts, quiet.held, quiet.left(1)), (2, 3, 0));
}

#[test]
fn a_later_reading_counts_from_then_on() {
    for (first, second, n, starts) in [
        (1, 3, 64 * 3 - 1, 0),
        (1, 3, 64 * 3, 1),
        (3, 1, 63, 0),
        (3, 1, 64, 1),
        (3, 0, 0, 1),
        (0, 1, 0, 0),
    ] {
        let calls = [
            hears_pause(first),
            idle(10),
            hears_pause(second),
            idle(n),
            client(6, 0),
        ];
        let quiet = run(&PAUSE, &mut State::default(), 1_000, &calls);
        assert_eq!(quiet.starts, starts);
        // In one capture too.
        let both = pause(pause(Capture::new(), first), second);
        let calls = [hears(both, Hearing::Plain), idle(n), client(6, 0)];
        let quiet = run(&PAUSE, &mut State::default(), 1_000, &calls);
        assert_eq!((quiet.sets, quiet.starts), (16, starts));
    }
    // Another class, or a frame that sets none, is no reason.
    let other = hears(pfc(Capture::new(), 0b1011_1111, [0; 8]), Hearing::Walk);
    let none = hears(pfc(Capture::new(), 0, [0; 8]), Hearing::Walk);
    let dropped = hears_pause(0);
    let own = hears(pfc(Capture::new(), 0b0100_0000, [1; 8]), Hearing::Walk);
    let calls = [
        own,
        other,
        none,
        dropped,
        idle(63),
        client(6, 0),
        client(5, 0),
    ];
    let quiet = run(&PFC, &mut State::default(), 1_000, &calls);
    assert_eq!((quiet.sets, quiet.starts, quiet.held), (8, 1, 1));
}

#[test]
fn every_way_of_reading_sets() {
    let capture = pfc(pause(Capture::new().control(START), 5), 0x10, [2; 8]);
    let place = 1 + 72;
    for (s, how, sets, left) in [
        (PAUSE, Hearing::Read(0), 0, 0),
        (PAUSE, Hearing::Read(1), 8, 320),
        (PAUSE, Hearing::Read(place), 0, 0),
        (PFC, Hearing::Read(place), 1, 128),
        (PAUSE, Hearing::Walk, 8, 320),
        (PFC, Hearing::Walk, 1, 128),
        (PAUSE, Hearing::Plain, 8, 320),
        (PFC, Hearing::Plain, 1, 128),
        (
            PAUSE,
            Hearing::WalkLog {
                place: 0,
                records: 9,
            },
            8,
            320,
        ),
        (
            PAUSE,
            Hearing::WalkLog {
                place: 0,
                records: 2,
            },
            8,
            320,
        ),
        (
            PAUSE,
            Hearing::WalkLog {
                place: 0,
                records: 1,
            },
            0,
            0,
        ),
        (
            PFC,
            Hearing::WalkLog {
                place: 0,
                records: 3,
            },
            1,
            128,
        ),
        (
            PFC,
            Hearing::WalkLog {
                place: 0,
                records: 2,
            },
            0,
            0,
        ),
        (PFC, Hearing::WalkLog { place, records: 1 }, 1, 128),
        (PLAIN, Hearing::Walk, 0, 0),
    ] {
        let calls = [hears(capture.clone(), how), client(4, 0)];
        let quiet = run(&s, &mut State::default(), 100, &calls);
        assert_eq!(quiet.sets, sets, "{how:?}");
        let written = if left == 0 { 84 } else { 0 };
        assert_eq!((quiet.left(4), quiet.written), (left, written));
    }
}

#[test]
fn our_own_line_may_be_read() {
    let hear = |how| Call::Hear {
        job: 1,
        table: Table::EMPTY,
        capture: None,
        how,
    };
    for how in [Hearing::Read(0), Hearing::Walk, Hearing::Plain] {
        // What was written before the reading stays.
        let calls = [
            client(0, 84),
            writes(0, Writing::Pause(1)),
            hear(how),
            client(0, 0),
            writes(168, Writing::Idle(64)),
            hear(Hearing::Read(60)),
            client(0, 168),
        ];
        let quiet = run(&PAUSE, &mut State::default(), 252, &calls);
        assert_eq!((quiet.sets, quiet.starts, quiet.held), (8, 2, 1));
    }
}

#[test]
fn refused_calls_are_nothing() {
    let mut refused = Call::Hear {
        job: 2,
        table: Table::EMPTY,
        capture: None,
        how: Hearing::Walk,
    };
    let calls = [writes(0, Writing::Pause(9)), refused.clone(), client(0, 0)];
    assert_eq!(run(&PAUSE, &mut State::default(), 84, &calls).starts, 1);
    if let Call::Hear { job, table, .. } = &mut refused {
        *job = 0;
        *table = listing(1, &[OTHER, OTHER]);
    }
    let calls = [writes(0, Writing::Pause(9)), refused, client(0, 0)];
    assert_eq!(run(&PAUSE, &mut State::default(), 84, &calls).starts, 1);
    // A refused sending lowers nothing.
    let calls = [
        hears_pause(1),
        idle(101),
        client(8, 0),
        writes(90, Writing::Pause(9)),
        writes(0, Writing::Pfc(1, [9; 8])),
        client(0, 0),
    ];
    let quiet = run(&PAUSE, &mut State::default(), 100, &calls);
    assert_eq!((quiet.written, quiet.held, quiet.left(0)), (0, 1, 64));
}

/// A capture with a control frame or two, at times damaged, and other symbols.
fn captured(dice: &mut Dice) -> Capture {
    let mut capture = Capture::new();
    for _ in 0..1 + dice.roll(3) {
        let quanta = |dice: &mut Dice| [0, 1, 1, 2, 3, 5, 9, 30][dice.roll(8)];
        capture = match dice.roll(5) {
            0 => dice.piece(capture),
            1 | 2 => pause(capture, quanta(dice)),
            _ => {
                let named = dice.roll(256) as u8;
                pfc(capture, named, std::array::from_fn(|_| quanta(dice)))
            }
        };
        if dice.roll(8) == 0 {
            let at = dice.roll(capture.octets.len().max(1));
            capture.octets.insert(at, START);
            capture.marks.insert(at, 1);
        }
        capture = capture.control(TERMINATE);
    }
    capture
}

fn pick<T: Copy>(dice: &mut Dice, from: &[T]) -> T {
    from[dice.roll(from.len())]
}

/// Any call on a line of this length.
fn any_call(dice: &mut Dice, len: usize) -> Call {
    if dice.roll(5) == 0 {
        let Reader { job, table, .. } = dice.reader();
        let capture = captured(dice);
        let place = pick(dice, &[0, 0, 1, 80, 200]);
        let records = dice.roll(4);
        let how = pick(
            dice,
            &[
                Hearing::Read(place),
                Hearing::Walk,
                Hearing::WalkLog { place, records },
                Hearing::Plain,
            ],
        );
        let given = Some((capture.octets, capture.marks));
        return Call::Hear {
            job,
            table,
            capture: given.filter(|_| dice.roll(4) > 0),
            how,
        };
    }
    let small = || [0_u16, 1, 2, 4];
    let what = match dice.roll(8) {
        0 => Writing::Pause(pick(dice, &small())),
        1 => Writing::Pfc(
            dice.roll(256) as u8,
            std::array::from_fn(|_| pick(dice, &small())),
        ),
        2 | 3 => Writing::Idle(pick(dice, &[0, 1, 2, 20, 63, 64, 65, 300, len + 1])),
        _ => {
            let client = Client {
                dest: pick(dice, &[OWN, OTHER, MULTICAST]),
                tags: tags(pick(dice, &[0, 0, 0, 1, 8, 9])),
                form: pick(
                    dice,
                    &[
                        Form::Length,
                        Form::Length,
                        Form::Type(0x0800),
                        Form::Type(9),
                    ],
                ),
                class: pick(dice, &[0, 1, 2, 3, 4, 5, 6, 7, 7, 8]),
            };
            Writing::Client(client, ramp(pick(dice, &[0, 46, 47, 48, 49, 120])))
        }
    };
    Call::Write {
        port: pick(dice, &[Port::Plain, Port::FourLane]),
        place: pick(dice, &[0, 0, 1, 4, 84, 100, 256, len - 84, len, len + 1]),
        counting: dice.roll(3) == 0,
        what,
    }
}

#[test]
fn calls_of_all_sorts() {
    let mut dice = Dice::new(16);
    let mut total = Quiet::default();
    for round in 0..400 {
        let s = Settings {
            own: OWN,
            limit: pick(&mut dice, &[1518, 9_618]),
            flow: pick(
                &mut dice,
                &[Flow::Pause, Flow::Pfc, Flow::Pause, Flow::Pfc, Flow::None],
            ),
            ..dice.settings()
        };
        let len = pick(&mut dice, &[84, 400, 1_000]);
        let mut state = State {
            deficit: pick(&mut dice, &[0, 0, 1, 2, 3, 4]),
            ..State::default()
        };
        // At times the sequence begins with timers that no reading of it set.
        if round % 8 == 0 {
            state.timers = std::array::from_fn(|_| dice.roll(500) as u32);
        }
        let calls: Vec<Call> = (0..60).map(|_| any_call(&mut dice, len)).collect();
        let quiet = run(&s, &mut state, len, &calls);
        total.sets += quiet.sets;
        total.starts += quiet.starts;
        total.held += quiet.held;
        total.written += quiet.written;
    }
    let Quiet {
        sets, starts, held, ..
    } = total;
    assert!(sets > 5_000 && starts > 1_000 && held > 500, "{total:?}");
}

#[test]
fn the_longest_quiet() {
    // 64 times 65,535 symbols; one symbol earlier it still holds.
    let most: Vec<Call> = (0..63).map(|_| idle(65_535)).collect();
    let last = [idle(65_534), client(0, 0), idle(1), client(0, 0)];
    let calls = [&[hears_pause(65_535)][..], &most, &last].concat();
    let quiet = run(&PAUSE, &mut State::default(), 65_536, &calls);
    assert_eq!((quiet.held, quiet.starts), (1, 1));
    assert_eq!(quiet.written, 4_194_240 + 84);
}
