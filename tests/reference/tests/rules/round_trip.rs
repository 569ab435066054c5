//! What is sent is read again, also behind damage (demand 3).

use reference::{Answer, Client, Flow, Form, Port, Sent, State, Walked};

use crate::bench::Bench;
use crate::hand::{frame, listing, ramp, tags, Capture, Reader};
use crate::hand::{MULTICAST, OTHER, OWN, PAUSE, PFC, PLAIN};
use crate::robust::Dice;

const PORTS: [Port; 2] = [Port::Plain, Port::FourLane];

/// The sender has another address than the receiver.
fn sender(len: usize, port: Port) -> Bench {
    let mut bench = Bench::new(len);
    bench.s.own = OTHER;
    bench.port = port;
    bench
}

fn clients() -> Vec<(Client, Vec<u8>)> {
    let mut all = Vec::new();
    for len in [0, 1, 45, 46, 47, 99, 1500] {
        for n in [0, 1, 2, 8] {
            for form in [Form::Length, Form::Type(0x0800), Form::Type(0xFFFF)] {
                for dest in [OWN, MULTICAST, [0xFF; 6]] {
                    let client = Client {
                        dest,
                        tags: tags(n),
                        form,
                        class: 0,
                    };
                    all.push((client, ramp(len)));
                }
            }
        }
    }
    all
}

/// Each job with a table that gives no 20.
fn receivers() -> [Reader; 2] {
    [0, 1].map(|job| Reader {
        s: PLAIN,
        job,
        table: listing(job, &[[0; 6], MULTICAST]),
    })
}

/// What comes out: the data, followed by zeros to 46 in the type form.
fn received(client: &Client, data: &[u8]) -> Vec<u8> {
    let mut data = data.to_vec();
    if client.form != Form::Length {
        data.resize(data.len().max(46), 0);
    }
    data
}

fn line(bench: &Bench) -> Capture {
    Capture {
        octets: bench.octets.clone(),
        marks: bench.marks.clone(),
    }
}

/// Reads from a place on and gives the data handed out, in order.
fn handed_out(bench: &Bench, by: impl Into<Reader>, from: usize) -> Vec<Vec<u8>> {
    let by = by.into();
    let capture = line(bench);
    let mut parts = Vec::new();
    let mut state = State::default();
    let mut place = 0;
    loop {
        let reading = capture.read(by, &mut state, place);
        match reading.answer {
            Answer::Counted {
                outcome, at, len, ..
            } => {
                if reading.start >= from {
                    assert_eq!(outcome, 11);
                    parts.push(bench.octets[at..at + len].to_vec());
                }
            }
            Answer::None => return parts,
            Answer::Open | Answer::Refused(_) => panic!("{reading:?}"),
        }
        place = reading.next;
    }
}

#[test]
fn clients_back_to_back() {
    PORTS.into_iter().for_each(clients_on);
}

fn clients_on(port: Port) {
    let mut bench = sender(65_536, port);
    let mut expected = Vec::new();
    for (client, data) in clients() {
        match bench.client(&client, &data) {
            Sent::Wrote(_) => expected.push(received(&client, &data)),
            refused => {
                assert_eq!(refused, Sent::Refused(8));
                break;
            }
        }
    }
    assert!(expected.len() > 100);
    let last = bench.place;
    bench.octets.truncate(last);
    bench.marks.truncate(last);
    for by in receivers() {
        assert_eq!(handed_out(&bench, by, 0), expected);

        let mut bench = Bench {
            s: by.s,
            job: by.job,
            table: by.table,
            ..bench.clone()
        };
        let walked = bench.walk();
        let ended = Walked::Ended {
            starts: expected.len(),
            open: false,
        };
        assert_eq!(walked, ended);
        let mut counters = [0; 11];
        counters[10] = expected.len() as u64;
        assert_eq!(bench.state.counters, counters);
    }
}

#[test]
fn frames_behind_damage() {
    let whole = {
        let mut line = vec![(1, 0xFB)];
        line.extend([0x55, 0x55, 0x55, 0x55, 0x55, 0x55, 0xD5].map(|octet| (0, octet)));
        line.extend(
            frame(OWN, &[0x0800], &ramp(46))
                .iter()
                .map(|&octet| (0, octet)),
        );
        line.push((1, 0xFD));
        line
    };
    let mut dice = Dice::new(3);
    let mut damages: Vec<Vec<(u8, u8)>> =
        (0..=whole.len()).map(|cut| whole[..cut].to_vec()).collect();
    for len in 0..200 {
        damages.push((0..len).map(|_| dice.symbol()).collect());
    }
    for (mut damage, port) in damages.into_iter().zip(PORTS.into_iter().cycle()) {
        // The four-lane port needs a place that it accepts.
        while port == Port::FourLane && damage.len() % 4 != 0 {
            damage.push(dice.symbol());
        }
        let mut bench = sender(damage.len() + 400, port);
        for (at, &(mark, octet)) in damage.iter().enumerate() {
            bench.marks[at] = mark;
            bench.octets[at] = octet;
        }
        bench.place = damage.len();
        let mut expected = Vec::new();
        for (form, n) in [
            (Form::Length, 1),
            (Form::Type(0x0800), 2),
            (Form::Length, 8),
        ] {
            let client = Client {
                dest: OWN,
                tags: tags(n),
                form,
                class: 1,
            };
            let data = ramp(30 + 17 * expected.len());
            assert!(matches!(bench.client(&client, &data), Sent::Wrote(_)));
            expected.push(received(&client, &data));
        }
        bench.octets.truncate(bench.place);
        bench.marks.truncate(bench.place);
        assert_eq!(handed_out(&bench, &PLAIN, damage.len()), expected);
    }
}

#[test]
fn pause_and_pfc_are_taken() {
    PORTS.into_iter().for_each(controls_on);
}

fn controls_on(port: Port) {
    let mut bench = sender(168, port);
    bench.s.flow = Flow::Pause;
    bench.pause(0xABCD);
    bench.s.flow = Flow::Pfc;
    let quanta = [1, 2, 3, 4, 5, 6, 7, 0xFFFF];
    bench.pfc(0xA6, &quanta);

    let mut state = State::default();
    let capture = line(&bench);
    let reading = capture.read(&PAUSE, &mut state, 0);
    assert!(matches!(reading.answer, Answer::Counted { outcome: 8, .. }));
    assert_eq!(state.timers, [0xABCD * 64; 8]);
    let mut state = State::default();
    let reading = capture.read(&PFC, &mut state, reading.next);
    assert!(matches!(reading.answer, Answer::Counted { outcome: 9, .. }));
    assert_eq!(state.timers, [0, 128, 192, 0, 0, 384, 0, 4_194_240]);
}
