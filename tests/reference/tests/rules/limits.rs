//! "Both sides of the limits", every entry.

use reference::{send_client, Check, Client, Form, Port, Sent, Settings, State, Table};

use crate::hand::{frame, outcome, ramp, see, see_with, tags, Capture, Seen, KINDS};
use crate::hand::{OTHER, OWN, PAUSE, PFC, PLAIN, RESERVED, START, TERMINATE};

fn symbols(data: usize, n: usize) -> usize {
    let client = Client {
        dest: OTHER,
        tags: tags(n),
        form: Form::Length,
        class: 0,
    };
    let mut octets = [0xAA; 2000];
    let mut marks = [0xAA; 2000];
    let sent = send_client(
        Check::ByteTable,
        &PLAIN,
        &mut State::default(),
        Port::Plain,
        &mut octets,
        &mut marks,
        3,
        &client,
        &ramp(data),
    );
    let Sent::Wrote(after) = sent else {
        panic!("{sent:?}");
    };
    let written = marks.iter().filter(|&&mark| mark != 0xAA).count();
    assert_eq!(after, 3 + written);
    written
}

#[test]
fn symbols_of_the_length_form() {
    assert_eq!(symbols(0, 0), 84);
    assert_eq!(symbols(46, 0), 84);
    assert_eq!(symbols(47, 0), 85);
    assert_eq!(symbols(1500, 0), 1538);
    assert_eq!(symbols(0, 1), 88);
}

#[test]
fn field_45() {
    let kept = see(&PLAIN, &frame(OWN, &[45], &ramp(46)));
    assert_eq!(kept.outcome, 11);
    assert_eq!(kept.data, ramp(45));
    assert_eq!(outcome(&PLAIN, &frame(OWN, &[45], &ramp(47))), 6);
}

#[test]
fn field_1500_and_1501() {
    let kept = see(&PLAIN, &frame(OWN, &[1500], &ramp(1500)));
    assert_eq!((kept.outcome, kept.data), (11, ramp(1500)));
    let wide = Settings {
        limit: 1600,
        ..PLAIN
    };
    assert_eq!(outcome(&wide, &frame(OWN, &[1501], &ramp(1501))), 6);
}

#[test]
fn field_1535_and_1536() {
    let wide = Settings {
        limit: 1600,
        ..PLAIN
    };
    assert_eq!(outcome(&PLAIN, &frame(OWN, &[1535], &ramp(46))), 6);
    assert_eq!(outcome(&wide, &frame(OWN, &[1535], &ramp(1535))), 6);
    let kept = see(&PLAIN, &frame(OWN, &[1536], &ramp(99)));
    assert_eq!((kept.outcome, kept.data), (11, ramp(99)));
}

#[test]
fn start_start_terminate() {
    let capture = Capture::new()
        .control(START)
        .control(START)
        .control(TERMINATE);
    assert_eq!(capture.outcomes(&PLAIN), (vec![1, 2], false));
}

#[test]
fn sixty_three_octets() {
    let right = frame(OWN, &[0x0800], &ramp(45));
    assert_eq!(right.len(), 63);
    assert_eq!(outcome(&PLAIN, &right), 3);
    let mut wrong = right;
    wrong[62] ^= 1;
    assert_eq!(outcome(&PLAIN, &wrong), 3);
    assert_eq!(outcome(&PLAIN, &frame(OWN, &[0x0800], &ramp(46))), 11);
}

#[test]
fn limit_1518() {
    let untagged = |len: usize| frame(OWN, &[0x0800], &ramp(len - 18));
    let tagged = |len: usize| frame(OWN, &[0x8100, 7, 0x0800], &ramp(len - 22));
    assert_eq!(untagged(1519).len(), 1519);
    assert_eq!(tagged(1522).len(), 1522);
    assert_eq!(outcome(&PLAIN, &untagged(1518)), 11);
    assert_eq!(outcome(&PLAIN, &untagged(1519)), 4);
    assert_eq!(outcome(&PLAIN, &untagged(1522)), 4);
    assert_eq!(outcome(&PLAIN, &tagged(1519)), 11);
    assert_eq!(outcome(&PLAIN, &tagged(1522)), 11);
    assert_eq!(outcome(&PLAIN, &tagged(1523)), 4);
}

#[test]
fn quanta_and_slots() {
    for (quanta, slots) in [(0, 0), (1, 64), (65_535, 4_194_240)] {
        let mut state = State::default();
        let mut data = vec![0, 1];
        data.extend(u16::to_be_bytes(quanta));
        data.resize(46, 0);
        let seen = see_with(&PAUSE, &mut state, &frame(RESERVED, &[0x8808], &data));
        assert_eq!(seen.outcome, 8);
        assert_eq!(state.timers, [slots; 8]);
    }
}

#[test]
fn status_words() {
    let mut pause = vec![0, 1];
    pause.resize(46, 0);
    let seen = see(&PAUSE, &frame(RESERVED, &[0x8808], &pause));
    let expected = Seen {
        outcome: 8,
        status: 0x2C_0040_002E,
        data: vec![],
        address: 8,
    };
    assert_eq!(seen, expected);

    let mut pfc = vec![1, 1];
    pfc.resize(46, 0);
    let seen = see(&PFC, &frame(RESERVED, &[0x8808], &pfc));
    let expected = Seen {
        outcome: 9,
        status: 0xA4_0040_002E,
        data: vec![],
        address: 8,
    };
    assert_eq!(seen, expected);

    let seen = see(&PLAIN, &frame(OWN, &[0], &[0; 46]));
    let expected = Seen {
        outcome: 11,
        status: 0x40_0040_0000,
        data: vec![],
        address: 1,
    };
    assert_eq!(seen, expected);
}

#[test]
fn length_0_has_its_real_place() {
    let capture = Capture::new().frame(&frame(OWN, &[0], &[0; 46]));
    for kind in KINDS {
        let reading = reference::read(
            kind,
            &PLAIN,
            &mut State::default(),
            0,
            &Table::EMPTY,
            &capture.octets,
            &capture.marks,
            0,
        );
        let expected = reference::Answer::Counted {
            outcome: 11,
            status: 0x40_0040_0000,
            at: 22,
            len: 0,
            address: 1,
        };
        assert_eq!(reading.answer, expected);
    }
}
