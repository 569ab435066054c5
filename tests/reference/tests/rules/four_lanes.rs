//! "The four-lane port", item 5 of document 02. That a frame on it begins and
//! ends at a multiple of four, and that nothing else changes the deficit count,
//! the bench checks with every call; that its frames are read again is in
//! `round_trip`.

use reference::{Client, Flow, Form, Port, Sent, Walked};

use crate::bench::Bench;
use crate::hand::{ramp, tags, IDLE, OTHER, OWN, PLAIN, TERMINATE};
use crate::robust::Dice;

/// A client frame in the type form, so that `46 + r` octets of data let a gap
/// of 12 end r past a multiple of four.
const CLIENT: Client = Client {
    dest: OWN,
    tags: Vec::new(),
    form: Form::Type(0x0800),
    class: 0,
};

/// The gap by the count before it and by r, with the count behind it.
const GAPS: [[(usize, u8); 4]; 4] = [
    [(12, 0), (11, 1), (10, 2), (9, 3)],
    [(12, 1), (11, 2), (10, 3), (13, 0)],
    [(12, 2), (11, 3), (14, 0), (13, 1)],
    [(12, 3), (15, 0), (14, 1), (13, 2)],
];

/// A bench on the four-lane port with a deficit count.
fn lanes(len: usize, deficit: u8) -> Bench {
    let mut bench = Bench::new(len);
    bench.port = Port::FourLane;
    bench.state.deficit = deficit;
    bench
}

/// Every row of the table: count, r, gap, count behind it.
fn rows() -> impl Iterator<Item = (u8, usize, usize, u8)> {
    (0..).zip(GAPS).flat_map(|(count, row)| {
        let row = row.into_iter().enumerate();
        row.map(move |(r, (gap, behind))| (count, r, gap, behind))
    })
}

/// The symbols of the gap right before a place: those from the last Terminate
/// on, all of them control and all behind Terminate Idles.
fn gap_before(bench: &Bench, place: usize) -> usize {
    let data = bench.marks[..place].iter().rposition(|&mark| mark == 0);
    let at = data.expect("a frame") + 1;
    assert_eq!(bench.octets[at], TERMINATE);
    assert!(bench.octets[at + 1..place].iter().all(|&o| o == IDLE));
    assert!(bench.marks[at..place].iter().all(|&mark| mark == 1));
    place - at
}

#[test]
fn the_gap_of_each_count_and_r() {
    for (count, r, gap, behind) in rows() {
        for place in [0, 4, 100, 1_000] {
            for n in [0, 1, 8] {
                let mut bench = lanes(2_000, count);
                bench.place = place;
                let client = Client {
                    tags: tags(n),
                    ..CLIENT
                };
                let after = place + 72 + 4 * n + r + gap;
                let sent = bench.client(&client, &ramp(46 + r));
                assert_eq!(sent, Sent::Wrote(after), "{count} {r}");
                assert_eq!(gap_before(&bench, after), gap);
                assert_eq!(bench.state.deficit, behind);
            }
        }
    }
}

#[test]
fn only_the_gap_differs_from_the_plain_port() {
    for (count, r, gap, _) in rows() {
        let mut four = lanes(200, count);
        let mut plain = Bench::new(200);
        assert!(matches!(
            four.client(&CLIENT, &ramp(46 + r)),
            Sent::Wrote(_)
        ));
        assert!(matches!(
            plain.client(&CLIENT, &ramp(46 + r)),
            Sent::Wrote(_)
        ));
        assert_eq!((four.place, plain.place), (72 + r + gap, 84 + r));
        let same = four.place.min(plain.place);
        assert_eq!(four.octets[..same], plain.octets[..same]);
        assert_eq!(four.marks[..same], plain.marks[..same]);
    }
}

#[test]
fn refusal_8_counts_the_actual_gap() {
    for (count, r, gap, _) in rows() {
        let needed = 72 + r + gap;
        for place in [0, 8] {
            for (len, expected) in [
                (needed - 1, Sent::Refused(8)),
                (needed, Sent::Wrote(place + needed)),
                (needed + 1, Sent::Wrote(place + needed)),
            ] {
                let mut bench = lanes(place + len, count);
                bench.place = place;
                assert_eq!(bench.client(&CLIENT, &ramp(46 + r)), expected);
            }
        }
    }
}

#[test]
fn timers_fall_by_the_symbols_written() {
    for (count, r, gap, _) in rows() {
        let written = (72 + r + gap) as u32;
        let mut bench = lanes(200, count);
        bench.state.timers = [0, written - 1, written, written + 1, 84, 1, 500, u32::MAX];
        assert!(matches!(
            bench.client(&CLIENT, &ramp(46 + r)),
            Sent::Wrote(_)
        ));
        let expected = [
            0,
            0,
            0,
            1,
            84_u32.saturating_sub(written),
            0,
            500 - written,
            u32::MAX - written,
        ];
        assert_eq!(bench.state.timers, expected);
    }
}

#[test]
fn places_not_divisible_by_four() {
    for place in 0..=100 {
        for deficit in [0, 3, 4] {
            let mut bench = lanes(100, deficit);
            bench.place = place;
            let expected = match (place % 4, deficit, place) {
                (1..=3, ..) => Sent::Refused(3),
                (_, 4, _) => Sent::Refused(19),
                (_, _, 0..=16) => Sent::Wrote(place + 84),
                _ => Sent::Refused(8),
            };
            assert_eq!(bench.clone().client(&CLIENT, &[]), expected, "{place}");
            bench.s.flow = Flow::Pause;
            assert_eq!(bench.clone().pause(1), expected, "{place}");
            bench.s.flow = Flow::Pfc;
            assert_eq!(bench.clone().pfc(1, &[1; 8]), expected, "{place}");
        }
    }
    // Beyond the length 3 is given all the same.
    for place in [101, 104, usize::MAX - 3, usize::MAX] {
        let mut bench = lanes(100, 4);
        bench.place = place;
        assert_eq!(bench.client(&CLIENT, &[]), Sent::Refused(3));
    }
}

#[test]
fn counts_above_three() {
    for deficit in 0..=255 {
        let mut bench = lanes(84, deficit);
        let expected = match deficit {
            0..=3 => Sent::Wrote(84),
            _ => Sent::Refused(19),
        };
        assert_eq!(bench.clone().client(&CLIENT, &[]), expected);
        bench.s.flow = Flow::Pause;
        assert_eq!(bench.clone().pause(1), expected);
        bench.s.flow = Flow::Pfc;
        assert_eq!(bench.clone().pfc(1, &[1; 8]), expected);
    }
}

#[test]
fn the_plain_port_knows_neither() {
    for deficit in [0, 1, 3, 4, 255] {
        for place in 0..8 {
            for r in 0..4 {
                let mut bench = Bench::new(100);
                bench.state.deficit = deficit;
                bench.place = place;
                let sent = bench.clone().client(&CLIENT, &ramp(46 + r));
                assert_eq!(sent, Sent::Wrote(place + 84 + r));
                bench.s.flow = Flow::Pause;
                assert_eq!(bench.clone().pause(1), Sent::Wrote(place + 84));
                bench.s.flow = Flow::Pfc;
                assert_eq!(bench.clone().pfc(1, &[1; 8]), Sent::Wrote(place + 84));
            }
        }
    }
}

#[test]
fn reading_and_idle_fill_take_any_place_and_count() {
    for deficit in [0, 3, 4, 255] {
        for place in 0..=8 {
            let mut bench = lanes(8, deficit);
            bench.place = place;
            assert_eq!(bench.clone().idle(8 - place), Sent::Wrote(8));
            assert_eq!(bench.clone().idle(9 - place), Sent::Refused(8));
            assert_eq!(bench.read().start, 8);
            let ended = Walked::Ended {
                starts: 0,
                open: false,
            };
            assert_eq!(bench.walk(), ended);
        }
    }
}

#[test]
fn ladder_of_client_sending() {
    let mut bench = lanes(10, 4);
    bench.s.limit = 0;
    bench.marks.pop();
    bench.place = usize::MAX;
    bench.state.timers = [1; 8];
    let mut client = Client {
        dest: OTHER,
        tags: tags(9),
        form: Form::Type(0x8808),
        class: 255,
    };
    let mut data = ramp(1_501);
    assert_eq!(bench.client(&client, &data), Sent::Refused(1));
    bench.s = PLAIN;
    assert_eq!(bench.client(&client, &data), Sent::Refused(2));
    bench.marks.push(0);
    assert_eq!(bench.client(&client, &data), Sent::Refused(3));
    bench.place = 12;
    assert_eq!(bench.client(&client, &data), Sent::Refused(3));
    bench.place = 10;
    assert_eq!(bench.client(&client, &data), Sent::Refused(3));
    bench.place = 8;
    assert_eq!(bench.client(&client, &data), Sent::Refused(19));
    bench.state.deficit = 3;
    assert_eq!(bench.client(&client, &data), Sent::Refused(5));
    client.class = 7;
    assert_eq!(bench.client(&client, &data), Sent::Refused(6));
    client.form = Form::Type(1536);
    assert_eq!(bench.client(&client, &data), Sent::Refused(10));
    client.tags.pop();
    assert_eq!(bench.client(&client, &data), Sent::Refused(7));
    data.truncate(1_499);
    assert_eq!(bench.client(&client, &data), Sent::Refused(8));
    // r is 1 behind a count of 3, so the gap has 15 symbols.
    let needed = 8 + 18 + 32 + 1_499 + 15;
    for len in [needed - 3, needed - 1] {
        bench.octets.resize(8 + len, 0);
        bench.marks.resize(8 + len, 0);
        assert_eq!(bench.client(&client, &data), Sent::Refused(8));
    }
    bench.octets.push(0);
    bench.marks.push(0);
    assert_eq!(bench.client(&client, &data), Sent::Refused(9));
    bench.state.timers[7] = 0;
    assert_eq!(bench.client(&client, &data), Sent::Wrote(8 + needed));
    assert_eq!(bench.state.deficit, 0);
}

#[test]
fn ladder_of_pause_and_pfc() {
    for flow in [Flow::Pause, Flow::Pfc] {
        let call = |bench: &mut Bench| match flow {
            Flow::Pause => bench.pause(9),
            _ => bench.pfc(9, &[9; 8]),
        };
        let mut bench = lanes(91, 255);
        bench.s.limit = 0;
        bench.marks.pop();
        bench.place = 9;
        bench.state.timers = [1_000_000; 8];
        assert_eq!(call(&mut bench), Sent::Refused(1));
        bench.s = PLAIN;
        assert_eq!(call(&mut bench), Sent::Refused(2));
        bench.marks.push(0);
        assert_eq!(call(&mut bench), Sent::Refused(3));
        bench.place = 8;
        assert_eq!(call(&mut bench), Sent::Refused(19));
        bench.state.deficit = 3;
        assert_eq!(call(&mut bench), Sent::Refused(4));
        bench.s.flow = flow;
        assert_eq!(call(&mut bench), Sent::Refused(8));
        bench.octets.push(0);
        bench.marks.push(0);
        assert_eq!(call(&mut bench), Sent::Wrote(92));
        // 84 symbols with a gap of 12: the count stays.
        assert_eq!(bench.state.deficit, 3);
    }
}

#[test]
fn many_gaps_together() {
    let mut dice = Dice::new(8);
    for first in 0..40 {
        let mut bench = lanes(4_000, 0);
        let (mut n, mut symbols) = (0, 0);
        loop {
            // All alike at first, then of any length, with Idles in between.
            if first >= 8 && dice.roll(4) == 0 {
                bench.idle(4 * dice.roll(3));
            }
            let len = if first < 8 {
                46 + first
            } else {
                dice.roll(100)
            };
            let place = bench.place;
            let Sent::Wrote(after) = bench.client(&CLIENT, &ramp(len)) else {
                break;
            };
            let gap = after - place - 26 - len.max(46);
            n += 1;
            symbols += gap;
            assert!((9..=15).contains(&gap));
            // "n gaps together lie between 12 × n - 3 and 12 × n, and the
            // count is exactly what is missing"
            assert!(12 * n - 3 <= symbols && symbols <= 12 * n);
            assert_eq!(usize::from(bench.state.deficit), 12 * n - symbols);
        }
        assert!(n > 20);
    }
}
