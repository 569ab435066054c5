//! "Counters that outlast a weekend", item 6 of document 02: the wide counters,
//! and the 32-bit values of the management screen. That only one of them rises,
//! and by one, the captures check with every frame.

use reference::{screen, LogEnd, State, Table, Walked};

use crate::hand::{frame, ramp, see_with, Capture, OWN, PLAIN, START, TERMINATE};

/// Both sides of every power of two from 2^31 to 2^64, and the ends.
fn values() -> impl Iterator<Item = u64> {
    let powers = (31..64).map(|k| 1_u64 << k);
    powers
        .flat_map(|power| [power - 1, power, power + 1])
        .chain([0, 1, u64::MAX - 1, u64::MAX])
}

fn all_at(value: u64) -> State {
    State {
        counters: [value; 11],
        ..State::default()
    }
}

#[test]
fn they_roll_over_at_64_bits_only() {
    for value in values() {
        let mut state = all_at(value);
        let seen = see_with(&PLAIN, &mut state, &frame(OWN, &[0x0800], &ramp(60)));
        assert_eq!(seen.outcome, 11);
        let risen = if value == u64::MAX { 0 } else { value + 1 };
        assert_eq!(state.counters[10], risen);
        assert_eq!(state.counters[..10], [value; 10]);
    }
}

#[test]
fn a_walk_passes_both_ends() {
    // A cut one, a bad preamble, a cut one and an open one.
    let capture = Capture::new()
        .control(START)
        .control(START)
        .control(TERMINATE)
        .control(START)
        .control(START);
    for (value, once, twice) in [
        (0xFFFF_FFFE, 0xFFFF_FFFF, 0x1_0000_0000),
        (0xFFFF_FFFF, 0x1_0000_0000, 0x1_0000_0001),
        (u64::MAX - 1, u64::MAX, 0),
        (u64::MAX, 0, 1),
    ] {
        let mut state = all_at(value);
        let ended = Walked::Ended {
            starts: 3,
            open: true,
        };
        assert_eq!(capture.walk(&PLAIN, &mut state), ended);
        assert_eq!(state.counters[..2], [twice, once]);
        assert_eq!(state.counters[2..], [value; 9]);
        // The same by a walk that keeps its readings.
        let mut logged = all_at(value);
        let (octets, marks) = (&capture.octets, &capture.marks);
        let kind = reference::Check::Bitwise;
        let (table, log) = (&Table::EMPTY, &mut [0; 48]);
        let end = reference::walk_log(kind, &PLAIN, &mut logged, 0, table, octets, marks, 0, log);
        assert_eq!((end.end, end.appended), (LogEnd::Open, 3));
        assert_eq!(logged, state);
    }
}

#[test]
fn the_screen_shows_remainders() {
    for (wide, shown) in [
        (0, 0),
        (1, 1),
        (0xFFFF_FFFF, 0xFFFF_FFFF),
        (0x1_0000_0000, 0),
        (0x1_0000_0001, 1),
        (0x1_FFFF_FFFF, 0xFFFF_FFFF),
        (0x2_0000_0000, 0),
        (0x1234_5678_9ABC_DEF0, 0x9ABC_DEF0),
        (0xFFFF_FFFF_0000_0000, 0),
        (u64::MAX, u32::MAX),
    ] {
        assert_eq!(screen(&all_at(wide)), [shown; 11]);
    }
    for value in values() {
        let shown = u32::try_from(value & 0xFFFF_FFFF).unwrap();
        assert_eq!(screen(&all_at(value)), [shown; 11]);
    }
    // Each counter in its own place, and nothing else of the state.
    let state = State {
        counters: std::array::from_fn(|k| (k as u64 + 1) << 32 | (20 + k as u64)),
        timers: [9; 8],
        deficit: 3,
    };
    assert_eq!(screen(&state), std::array::from_fn(|k| 20 + k as u32));
    assert_eq!(screen(&State::default()), [0; 11]);
}

#[test]
fn the_screen_rises_as_before() {
    // What a counter of 32 bits would show.
    for value in values() {
        let mut state = all_at(value);
        let before = screen(&state);
        see_with(&PLAIN, &mut state, &frame(OWN, &[0x0800], &ramp(46)));
        let after = screen(&state);
        assert_eq!(after[10], before[10].wrapping_add(1));
        assert_eq!(after[..10], before[..10]);
    }
}
