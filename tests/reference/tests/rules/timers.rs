//! Timers: set by reading, lowered by sending, and how they hold back client
//! frames.

use reference::{Client, Flow, Form, Sent};

use crate::bench::Bench;
use crate::hand::{frame, Capture, OTHER, RESERVED};

fn client(class: u8) -> Client {
    Client {
        dest: OTHER,
        tags: vec![],
        form: Form::Length,
        class,
    }
}

/// Lets the bench read a control frame with this data.
fn hear(bench: &mut Bench, data: &[u8]) {
    let mut data = data.to_vec();
    data.resize(46, 0);
    let capture = Capture::new().frame(&frame(RESERVED, &[0x8808], &data));
    capture.walk(&bench.s, &mut bench.state);
}

fn hear_pause(bench: &mut Bench, quanta: u16) {
    bench.s.flow = Flow::Pause;
    let [high, low] = quanta.to_be_bytes();
    hear(bench, &[0, 1, high, low]);
}

fn hear_pfc(bench: &mut Bench, named: u8, quanta: [u16; 8]) {
    bench.s.flow = Flow::Pfc;
    let mut data = vec![1, 1, 0, named];
    data.extend(quanta.iter().flat_map(|q| q.to_be_bytes()));
    hear(bench, &data);
}

#[test]
fn goes_after_exactly_the_stated_slots() {
    for quanta in [1, 2, 100] {
        let slots = usize::from(quanta) * 64;
        for class in 0..8 {
            let mut bench = Bench::new(10_000);
            hear_pause(&mut bench, quanta);
            assert_eq!(bench.client(&client(class), &[]), Sent::Refused(9));
            assert_eq!(bench.idle(slots - 1), Sent::Wrote(slots - 1));
            assert_eq!(bench.client(&client(class), &[]), Sent::Refused(9));
            assert_eq!(bench.idle(1), Sent::Wrote(slots));
            assert_eq!(bench.client(&client(class), &[]), Sent::Wrote(slots + 84));
            assert_eq!(bench.state.timers, [0; 8]);
        }
    }
}

#[test]
fn symbols_count_and_not_calls() {
    let mut bench = Bench::new(10_000);
    hear_pause(&mut bench, 1);
    for written in 1..=64 {
        assert_eq!(bench.idle(0), Sent::Wrote(written - 1));
        assert_eq!(bench.client(&client(0), &[]), Sent::Refused(9));
        assert_eq!(bench.idle(1), Sent::Wrote(written));
    }
    assert_eq!(bench.client(&client(0), &[]), Sent::Wrote(64 + 84));
}

#[test]
fn longest_pause() {
    let mut bench = Bench::new(65_536);
    hear_pause(&mut bench, 65_535);
    assert_eq!(bench.state.timers, [4_194_240; 8]);
    for _ in 0..63 {
        bench.place = 0;
        assert_eq!(bench.idle(65_536), Sent::Wrote(65_536));
    }
    bench.place = 0;
    assert_eq!(bench.state.timers, [65_472; 8]);
    assert_eq!(bench.client(&client(0), &[]), Sent::Refused(9));
    assert_eq!(bench.idle(65_471), Sent::Wrote(65_471));
    bench.place = 0;
    assert_eq!(bench.client(&client(0), &[]), Sent::Refused(9));
    assert_eq!(bench.idle(1), Sent::Wrote(1));
    assert_eq!(bench.client(&client(0), &[]), Sent::Wrote(85));
}

#[test]
fn setting_replaces_and_zero_lets_go() {
    let mut bench = Bench::new(1_000);
    hear_pause(&mut bench, 500);
    hear_pause(&mut bench, 3);
    assert_eq!(bench.state.timers, [192; 8]);
    assert_eq!(bench.client(&client(4), &[]), Sent::Refused(9));
    hear_pause(&mut bench, 0);
    assert_eq!(bench.state.timers, [0; 8]);
    assert_eq!(bench.client(&client(4), &[]), Sent::Wrote(84));
}

#[test]
fn pfc_sets_named_classes_only() {
    let mut bench = Bench::new(1_000);
    hear_pfc(&mut bench, 0b0000_0110, [9; 8]);
    assert_eq!(bench.state.timers, [0, 576, 576, 0, 0, 0, 0, 0]);
    hear_pfc(&mut bench, 0b1000_0010, [7, 0, 7, 7, 7, 7, 7, 1]);
    assert_eq!(bench.state.timers, [0, 0, 576, 0, 0, 0, 0, 64]);
    hear_pfc(&mut bench, 0, [5; 8]);
    assert_eq!(bench.state.timers, [0, 0, 576, 0, 0, 0, 0, 64]);
    assert_eq!(bench.client(&client(2), &[]), Sent::Refused(9));
    assert_eq!(bench.client(&client(7), &[]), Sent::Refused(9));
    assert_eq!(bench.client(&client(1), &[]), Sent::Wrote(84));
    assert_eq!(bench.state.timers, [0, 0, 492, 0, 0, 0, 0, 0]);
    assert_eq!(bench.client(&client(7), &[]), Sent::Wrote(168));
}

#[test]
fn every_kind_of_sending_lowers_them() {
    let mut bench = Bench::new(1_000);
    bench.state.timers = [0, 1, 83, 84, 85, 1_000, u32::MAX, 168];
    assert_eq!(bench.client(&client(0), &[]), Sent::Wrote(84));
    let expected = [0, 0, 0, 0, 1, 916, u32::MAX - 84, 84];
    assert_eq!(bench.state.timers, expected);
    // Pause and PFC frames ignore the timers.
    bench.s.flow = Flow::Pause;
    assert_eq!(bench.pause(7), Sent::Wrote(168));
    let expected = [0, 0, 0, 0, 0, 832, u32::MAX - 168, 0];
    assert_eq!(bench.state.timers, expected);
    bench.s.flow = Flow::Pfc;
    assert_eq!(bench.pfc(0xFF, &[7; 8]), Sent::Wrote(252));
    let expected = [0, 0, 0, 0, 0, 748, u32::MAX - 252, 0];
    assert_eq!(bench.state.timers, expected);
}

#[test]
fn reading_other_frames_leaves_them() {
    let mut bench = Bench::new(1_000);
    bench.state.timers = [5; 8];
    bench.s.flow = Flow::Pfc;
    hear(&mut bench, &[0, 1, 0, 1]);
    bench.s.flow = Flow::Pause;
    hear(&mut bench, &[1, 1, 0, 0xFF, 0, 1]);
    bench.s.flow = Flow::None;
    hear(&mut bench, &[0, 1, 0, 1]);
    assert_eq!(bench.state.timers, [5; 8]);
    assert_eq!(bench.state.counters[9], 3);
}
