//! "Refusals and their order". In each ladder all refusals of a call hold at
//! first; then one after the other is mended, the first first, so every number
//! is seen with all later ones behind it. The single causes follow.

use reference::{Answer, Client, Flow, Form, Sent, Settings, Table, Walked};

use crate::bench::Bench;
use crate::hand::{listing, ramp, tags, OTHER, PLAIN};

const CLIENT: Client = Client {
    dest: OTHER,
    tags: Vec::new(),
    form: Form::Length,
    class: 0,
};

/// All that can be wrong with settings, job, buffers, place and table. No
/// sending call looks at job and table.
fn broken() -> Bench {
    let mut bench = Bench::new(10);
    bench.s.limit = 0;
    bench.job = 2;
    bench.table = listing(1, &[OTHER, OTHER]);
    bench.marks.pop();
    bench.place = usize::MAX;
    bench
}

fn mend_settings(bench: &mut Bench) {
    bench.s = PLAIN;
}

fn mend_job(bench: &mut Bench) {
    bench.job = 0;
}

fn mend_table(bench: &mut Bench) {
    bench.table = Table::EMPTY;
}

fn mend_buffers(bench: &mut Bench) {
    bench.marks.push(0);
}

fn mend_place(bench: &mut Bench) {
    bench.place = bench.octets.len();
}

#[test]
fn ladder_of_reading() {
    let mut bench = broken();
    let refused = |bench: &mut Bench| bench.read().answer;
    assert_eq!(refused(&mut bench), Answer::Refused(1));
    mend_settings(&mut bench);
    assert_eq!(refused(&mut bench), Answer::Refused(14));
    mend_job(&mut bench);
    assert_eq!(refused(&mut bench), Answer::Refused(2));
    mend_buffers(&mut bench);
    assert_eq!(refused(&mut bench), Answer::Refused(3));
    mend_place(&mut bench);
    assert_eq!(refused(&mut bench), Answer::Refused(20));
    mend_table(&mut bench);
    assert_eq!(refused(&mut bench), Answer::None);
}

#[test]
fn ladder_of_the_walk() {
    let mut bench = broken();
    assert_eq!(bench.walk(), Walked::Refused(1));
    mend_settings(&mut bench);
    assert_eq!(bench.walk(), Walked::Refused(14));
    mend_job(&mut bench);
    assert_eq!(bench.walk(), Walked::Refused(2));
    mend_buffers(&mut bench);
    assert_eq!(bench.walk(), Walked::Refused(20));
    mend_table(&mut bench);
    let ended = Walked::Ended {
        starts: 0,
        open: false,
    };
    assert_eq!(bench.walk(), ended);
}

#[test]
fn ladder_of_client_sending() {
    for limit in [1518, 9618] {
        let mut bench = broken();
        let mut client = Client {
            tags: tags(9),
            form: Form::Type(0x8808),
            class: 255,
            ..CLIENT
        };
        let most = usize::from(limit) - 18;
        let mut data = ramp(most + 1);
        bench.state.timers = [1; 8];

        assert_eq!(bench.client(&client, &data), Sent::Refused(1));
        bench.s.limit = limit;
        assert_eq!(bench.client(&client, &data), Sent::Refused(2));
        mend_buffers(&mut bench);
        assert_eq!(bench.client(&client, &data), Sent::Refused(3));
        mend_place(&mut bench);
        assert_eq!(bench.client(&client, &data), Sent::Refused(5));
        client.class = 7;
        assert_eq!(bench.client(&client, &data), Sent::Refused(6));
        client.form = Form::Type(1536);
        assert_eq!(bench.client(&client, &data), Sent::Refused(10));
        client.tags.pop();
        assert_eq!(bench.client(&client, &data), Sent::Refused(7));
        data.truncate(most);
        assert_eq!(bench.client(&client, &data), Sent::Refused(8));
        bench.octets.resize(10 + 38 + 32 + most, 0);
        bench.marks.resize(10 + 38 + 32 + most, 0);
        assert_eq!(bench.client(&client, &data), Sent::Refused(9));
        bench.state.timers[7] = 0;
        assert_eq!(bench.client(&client, &data), Sent::Wrote(80 + most));
    }
}

#[test]
fn ladder_of_pause_and_pfc() {
    for flow in [Flow::Pause, Flow::Pfc] {
        let call = |bench: &mut Bench| match flow {
            Flow::Pause => bench.pause(9),
            _ => bench.pfc(9, &[9; 8]),
        };
        for other in [Flow::None, Flow::Pause, Flow::Pfc] {
            if other == flow {
                continue;
            }
            let mut bench = broken();
            bench.s.flow = other;
            // Timers don't matter.
            bench.state.timers = [1_000_000; 8];
            assert_eq!(call(&mut bench), Sent::Refused(1));
            bench.s.limit = 1518;
            assert_eq!(call(&mut bench), Sent::Refused(2));
            mend_buffers(&mut bench);
            assert_eq!(call(&mut bench), Sent::Refused(3));
            mend_place(&mut bench);
            assert_eq!(call(&mut bench), Sent::Refused(4));
            bench.s.flow = flow;
            assert_eq!(call(&mut bench), Sent::Refused(8));
            bench.octets.resize(10 + 83, 0);
            bench.marks.resize(10 + 83, 0);
            assert_eq!(call(&mut bench), Sent::Refused(8));
            bench.octets.push(0);
            bench.marks.push(0);
            assert_eq!(call(&mut bench), Sent::Wrote(94));
        }
    }
}

#[test]
fn ladder_of_idle_fill() {
    let mut bench = broken();
    assert_eq!(bench.idle(usize::MAX), Sent::Refused(2));
    mend_buffers(&mut bench);
    assert_eq!(bench.idle(usize::MAX), Sent::Refused(3));
    bench.place = 4;
    assert_eq!(bench.idle(usize::MAX), Sent::Refused(8));
    assert_eq!(bench.idle(usize::MAX - 3), Sent::Refused(8));
    assert_eq!(bench.idle(7), Sent::Refused(8));
    assert_eq!(bench.idle(6), Sent::Wrote(10));
}

/// The answers of all four calls that look at settings.
fn by_settings(s: Settings) -> [bool; 4] {
    let mut bench = Bench::new(100);
    bench.s = s;
    let client = bench.clone().client(&CLIENT, &[]);
    bench.s.flow = Flow::Pause;
    let pause = bench.clone().pause(1);
    bench.s.flow = Flow::Pfc;
    let pfc = bench.clone().pfc(1, &[1; 8]);
    [
        bench.read().answer == Answer::Refused(1),
        client == Sent::Refused(1),
        pause == Sent::Refused(1),
        pfc == Sent::Refused(1),
    ]
}

#[test]
fn refusal_1() {
    let mut wrong = Vec::new();
    let mut right = Vec::new();
    for limit in [0, 1517, 9619, u16::MAX] {
        wrong.push(Settings { limit, ..PLAIN });
    }
    for limit in [1518, 1519, 9617, 9618] {
        right.push(Settings { limit, ..PLAIN });
    }
    for first in 0..=255u8 {
        let own = [first, 9, 9, 9, 9, 9];
        let s = Settings { own, ..PLAIN };
        if first % 2 == 1 {
            wrong.push(s);
        } else {
            right.push(s);
        }
    }
    for s in wrong {
        assert_eq!(by_settings(s), [true; 4], "{s:?}");
    }
    for s in right {
        assert_eq!(by_settings(s), [false; 4], "{s:?}");
    }
}

/// The refusal numbers of all five calls, 0 for none.
fn by_buffers(octets: usize, marks: usize, place: usize) -> [u8; 5] {
    let number = |sent| match sent {
        Sent::Refused(number) => number,
        Sent::Wrote(_) => 0,
    };
    let mut bench = Bench::new(0);
    bench.octets.resize(octets, 0);
    bench.marks.resize(marks, 0);
    bench.place = place;
    let client = number(bench.clone().client(&CLIENT, &[]));
    let idle = number(bench.clone().idle(0));
    bench.s.flow = Flow::Pause;
    let pause = number(bench.clone().pause(1));
    bench.s.flow = Flow::Pfc;
    let pfc = number(bench.clone().pfc(1, &[1; 8]));
    let reading = match bench.read().answer {
        Answer::Refused(number) => number,
        _ => 0,
    };
    [reading, client, pause, pfc, idle]
}

#[test]
fn refusals_2_3_and_8() {
    assert_eq!(by_buffers(100, 101, 0), [2; 5]);
    assert_eq!(by_buffers(101, 100, 0), [2; 5]);
    assert_eq!(by_buffers(0, 1, 0), [2; 5]);
    assert_eq!(by_buffers(65_537, 65_537, 0), [2; 5]);
    assert_eq!(by_buffers(65_536, 65_537, 0), [2; 5]);
    assert_eq!(by_buffers(65_537, 65_537, 65_538), [2; 5]);
    assert_eq!(by_buffers(65_536, 65_536, 0), [0; 5]);
    assert_eq!(by_buffers(100, 100, 101), [3; 5]);
    assert_eq!(by_buffers(0, 0, 1), [3; 5]);
    assert_eq!(by_buffers(65_536, 65_536, 65_537), [3; 5]);
    assert_eq!(by_buffers(100, 100, usize::MAX), [3; 5]);
    assert_eq!(by_buffers(100, 100, 100), [0, 8, 8, 8, 0]);
    assert_eq!(by_buffers(0, 0, 0), [0, 8, 8, 8, 0]);
    assert_eq!(by_buffers(100, 100, 17), [0, 8, 8, 8, 0]);
    assert_eq!(by_buffers(100, 100, 16), [0; 5]);
}

#[test]
fn refusal_4() {
    for flow in [Flow::None, Flow::Pause, Flow::Pfc] {
        let mut bench = Bench::new(100);
        bench.s.flow = flow;
        let expected = |asked| {
            if flow == asked {
                Sent::Wrote(84)
            } else {
                Sent::Refused(4)
            }
        };
        assert_eq!(bench.clone().pause(1), expected(Flow::Pause));
        assert_eq!(bench.clone().pfc(1, &[1; 8]), expected(Flow::Pfc));
        // Clients and Idles go in every mode.
        assert_eq!(bench.clone().client(&CLIENT, &[]), Sent::Wrote(84));
        assert_eq!(bench.clone().idle(84), Sent::Wrote(84));
    }
}

#[test]
fn refusal_5() {
    for class in 0..=255 {
        let expected = if class > 7 {
            Sent::Refused(5)
        } else {
            Sent::Wrote(84)
        };
        let client = Client { class, ..CLIENT };
        assert_eq!(Bench::new(84).client(&client, &[]), expected);
    }
}

#[test]
fn refusal_6() {
    for field in 0..=u16::MAX {
        let wrong_types = [0x8100, 0x8808, 0x88A8];
        let is_edge = |edge: u16| edge.abs_diff(field) <= 1;
        if field % 97 != 0 && !is_edge(1536) && !wrong_types.into_iter().any(is_edge) {
            continue;
        }
        let wrong = field < 1536 || wrong_types.contains(&field);
        let expected = if wrong {
            Sent::Refused(6)
        } else {
            Sent::Wrote(84)
        };
        let client = Client {
            form: Form::Type(field),
            ..CLIENT
        };
        assert_eq!(Bench::new(84).client(&client, &[]), expected, "{field}");
    }
}

#[test]
fn refusal_7() {
    for limit in [1518, 1519, 9618] {
        for n in [0, 1, 2, 8] {
            for (form, most) in [
                (Form::Length, 1500),
                (Form::Type(0x0800), usize::from(limit) - 18),
            ] {
                let client = Client {
                    form,
                    tags: tags(n),
                    ..CLIENT
                };
                let mut bench = Bench::new(10_000);
                bench.s.limit = limit;
                let sent = bench.clone().client(&client, &ramp(most));
                assert!(matches!(sent, Sent::Wrote(_)));
                for over in [most + 1, 9_601, 70_000] {
                    assert_eq!(bench.client(&client, &ramp(over)), Sent::Refused(7));
                }
            }
        }
    }
}

#[test]
fn refusal_8_for_each_length() {
    for len in [0, 45, 46, 47, 1500] {
        for n in 0..=8 {
            let client = Client {
                tags: tags(n),
                ..CLIENT
            };
            let needed = 38 + len.max(46) + 4 * n;
            let data = ramp(len);
            assert_eq!(
                Bench::new(needed - 1).client(&client, &data),
                Sent::Refused(8)
            );
            assert_eq!(
                Bench::new(needed).client(&client, &data),
                Sent::Wrote(needed)
            );
        }
    }
}

#[test]
fn refusal_9_in_every_flow_mode() {
    for flow in [Flow::None, Flow::Pause, Flow::Pfc] {
        for class in 0..8 {
            let client = Client { class, ..CLIENT };
            let mut bench = Bench::new(84);
            bench.s.flow = flow;
            bench.state.timers[usize::from(class)] = 1;
            assert_eq!(bench.clone().client(&client, &[]), Sent::Refused(9));
            // Only its own class holds a frame back.
            bench.state.timers = [1; 8];
            bench.state.timers[usize::from(class)] = 0;
            assert_eq!(bench.client(&client, &[]), Sent::Wrote(84));
        }
    }
}

#[test]
fn refusal_10() {
    for n in (0..=20).chain([255, 256, 257, 264, 300]) {
        let expected = if n > 8 {
            Sent::Refused(10)
        } else {
            Sent::Wrote(84 + 4 * n)
        };
        let client = Client {
            tags: tags(n),
            ..CLIENT
        };
        assert_eq!(Bench::new(2_000).client(&client, &[]), expected, "{n}");
    }
}
