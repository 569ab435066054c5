//! "Starts per stretch", item 9 of document 02. That a sending call does the
//! same with totals as without, and that with true ones it leaves true ones, the
//! bench checks with every call.

use reference::{fill_totals, starts_before, Client, Flow, Form, Port, Sent};

use crate::bench::Bench;
use crate::hand::{ramp, tags, IDLE, OTHER, PLAIN, START};
use crate::robust::Dice;

const CLIENT: Client = Client {
    dest: OTHER,
    tags: Vec::new(),
    form: Form::Length,
    class: 0,
};

/// Lengths around those where another block begins, with their blocks.
const BLOCKS: [(usize, usize); 11] = [
    (0, 0),
    (1, 1),
    (255, 1),
    (256, 1),
    (257, 2),
    (511, 2),
    (512, 2),
    (513, 3),
    (65_280, 255),
    (65_281, 256),
    (65_536, 256),
];

/// A capture of so many symbols, with Starts and data 0xFB among them.
fn noise(dice: &mut Dice, len: usize) -> Bench {
    let mut bench = Bench::new(len);
    for (octet, mark) in bench.octets.iter_mut().zip(&mut bench.marks) {
        (*mark, *octet) = dice.symbol();
    }
    bench
}

/// Asks for the Starts before a place, by the totals of the bench.
fn before(bench: &Bench, totals: &[u16], place: usize) -> Result<usize, u8> {
    starts_before(&bench.octets, &bench.marks, totals, place)
}

/// Fills totals, and checks that a refused call changes none.
fn fill(bench: &Bench, totals: &mut [u16]) -> Result<(), u8> {
    let old = totals.to_vec();
    let filled = fill_totals(&bench.octets, &bench.marks, totals);
    match filled {
        Ok(()) => assert_eq!(totals, bench.true_totals()),
        Err(_) => assert_eq!(totals, old),
    }
    filled
}

#[test]
fn equal_to_a_count_over_everything() {
    let mut dice = Dice::new(10);
    for (len, blocks) in BLOCKS {
        let bench = noise(&mut dice, len);
        let mut totals = vec![u16::MAX; blocks];
        assert_eq!(fill(&bench, &mut totals), Ok(()));
        let mut count = 0;
        for place in 0..=len {
            // All places of the short captures, and those around the blocks.
            if len < 600 || [0, 1, 2, 255].contains(&(place % 256)) || place == len {
                assert_eq!(before(&bench, &totals, place), Ok(count), "{len} {place}");
            }
            if place < len {
                let is_start = bench.octets[place] == START && bench.marks[place] != 0;
                count += usize::from(is_start);
            }
        }
    }
}

#[test]
fn nothing_but_starts() {
    let mut bench = Bench::new(65_536);
    bench.octets.fill(START);
    let mut totals = [0; 256];
    assert_eq!(fill(&bench, &mut totals), Ok(()));
    assert_eq!(totals, [256; 256]);
    for place in [0, 1, 255, 256, 257, 65_279, 65_280, 65_535, 65_536] {
        assert_eq!(before(&bench, &totals, place), Ok(place));
    }
    // As data they are none.
    bench.marks.fill(0);
    assert_eq!(fill(&bench, &mut totals), Ok(()));
    assert_eq!(totals, [0; 256]);
    assert_eq!(before(&bench, &totals, 65_536), Ok(0));
}

#[test]
fn adds_whole_blocks_and_looks_into_the_last() {
    // Totals that aren't true are added all the same.
    let mut bench = Bench::new(1_000);
    bench.octets.fill(START);
    let totals = [1, 20, 30, 40];
    for (place, answer) in [
        (0, 0),
        (255, 255),
        (256, 1),
        (257, 2),
        (511, 256),
        (512, 21),
        (768, 51),
        (999, 51 + 231),
        (1_000, 51 + 232),
    ] {
        assert_eq!(before(&bench, &totals, place), Ok(answer));
    }
    // At the end of a whole last block its total is added.
    let mut whole = Bench::new(512);
    whole.octets.fill(START);
    assert_eq!(before(&whole, &[3, 5], 511), Ok(3 + 255));
    assert_eq!(before(&whole, &[3, 5], 512), Ok(8));
}

#[test]
fn refusal_21() {
    for (len, blocks) in BLOCKS {
        let bench = Bench::new(len);
        for number in 0..=257 {
            let right = number == blocks;
            let mut totals = vec![0; number];
            let expected = if right { Ok(0) } else { Err(21) };
            assert_eq!(before(&bench, &totals, 0), expected, "{len} {number}");
            let expected = if right { Ok(()) } else { Err(21) };
            assert_eq!(fill(&bench, &mut totals), expected);
            if number.abs_diff(blocks) < 2 {
                let mut bench = Bench {
                    totals: Some(totals),
                    ..bench.clone()
                };
                let expected = if right {
                    Sent::Wrote(0)
                } else {
                    Sent::Refused(21)
                };
                assert_eq!(bench.idle(0), expected);
            }
        }
    }
}

#[test]
fn refusal_22() {
    let mut bench = Bench::new(1_000);
    for (total, wrong) in [
        (0, false),
        (255, false),
        (256, false),
        (257, true),
        (u16::MAX, true),
    ] {
        for block in 0..4 {
            let mut totals = vec![0; 4];
            totals[block] = total;
            for place in [0, 256, 1_000] {
                assert_eq!(before(&bench, &totals, place) == Err(22), wrong);
                bench.place = place;
                bench.totals = Some(totals.clone());
                assert_eq!(bench.idle(0) == Sent::Refused(22), wrong);
                if place < 1_000 {
                    let sent = bench.clone().client(&CLIENT, &[]);
                    assert_eq!(sent == Sent::Refused(22), wrong);
                }
            }
            // Filling doesn't look at what stood there.
            assert_eq!(fill(&bench, &mut totals), Ok(()));
        }
    }
}

#[test]
fn ladder_of_asking_and_filling() {
    let mut bench = Bench::new(300);
    bench.marks.pop();
    let mut totals = vec![257];
    assert_eq!(before(&bench, &totals, 301), Err(2));
    assert_eq!(fill(&bench, &mut totals), Err(2));
    bench.marks.push(0);
    assert_eq!(before(&bench, &totals, 301), Err(3));
    assert_eq!(before(&bench, &totals, usize::MAX), Err(3));
    assert_eq!(before(&bench, &totals, 300), Err(21));
    assert_eq!(fill(&bench, &mut totals), Err(21));
    totals.push(257);
    assert_eq!(before(&bench, &totals, 300), Err(22));
    totals[0] = 256;
    assert_eq!(before(&bench, &totals, 0), Err(22));
    totals[1] = 256;
    assert_eq!(before(&bench, &totals, 300), Ok(256));
    assert_eq!(fill(&bench, &mut totals), Ok(()));
    // Too long buffers.
    let long = Bench::new(65_537);
    assert_eq!(before(&long, &[0; 257], 0), Err(2));
    assert_eq!(fill(&long, &mut [0; 257]), Err(2));
}

#[test]
fn ladder_of_client_sending() {
    for port in [Port::Plain, Port::FourLane] {
        let mut bench = Bench::new(10);
        bench.port = port;
        bench.s.limit = 0;
        bench.marks.pop();
        bench.place = 11;
        bench.state.deficit = 4;
        bench.state.timers = [1; 8];
        bench.totals = Some(vec![257; 2]);
        let mut client = Client {
            tags: tags(9),
            form: Form::Type(0x8808),
            class: 255,
            ..CLIENT
        };
        let mut data = ramp(1_501);
        assert_eq!(bench.client(&client, &data), Sent::Refused(1));
        bench.s = PLAIN;
        assert_eq!(bench.client(&client, &data), Sent::Refused(2));
        bench.marks.push(0);
        assert_eq!(bench.client(&client, &data), Sent::Refused(3));
        bench.place = 9;
        if port == Port::FourLane {
            assert_eq!(bench.client(&client, &data), Sent::Refused(3));
            bench.place = 8;
            assert_eq!(bench.client(&client, &data), Sent::Refused(19));
            bench.state.deficit = 3;
        }
        assert_eq!(bench.client(&client, &data), Sent::Refused(21));
        bench.totals = Some(vec![257]);
        assert_eq!(bench.client(&client, &data), Sent::Refused(22));
        bench.totals = Some(vec![256]);
        assert_eq!(bench.client(&client, &data), Sent::Refused(5));
        client.class = 7;
        assert_eq!(bench.client(&client, &data), Sent::Refused(6));
        client.form = Form::Type(1536);
        assert_eq!(bench.client(&client, &data), Sent::Refused(10));
        client.tags.clear();
        assert_eq!(bench.client(&client, &data), Sent::Refused(7));
        data.clear();
        assert_eq!(bench.client(&client, &data), Sent::Refused(8));
        bench.octets.resize(bench.place + 84, 0);
        bench.marks.resize(bench.place + 84, 0);
        assert_eq!(bench.client(&client, &data), Sent::Refused(9));
        bench.state.timers = [0; 8];
        let after = bench.octets.len();
        assert_eq!(bench.client(&client, &data), Sent::Wrote(after));
        assert_eq!(bench.totals, Some(vec![1]));
    }
}

#[test]
fn ladder_of_pause_and_pfc() {
    for port in [Port::Plain, Port::FourLane] {
        for flow in [Flow::Pause, Flow::Pfc] {
            let call = |bench: &mut Bench| match flow {
                Flow::Pause => bench.pause(9),
                _ => bench.pfc(9, &[9; 8]),
            };
            let mut bench = Bench::new(83);
            bench.port = port;
            bench.s.limit = 0;
            bench.marks.pop();
            bench.place = 84;
            bench.state.deficit = 4;
            bench.totals = Some(vec![]);
            assert_eq!(call(&mut bench), Sent::Refused(1));
            bench.s = PLAIN;
            assert_eq!(call(&mut bench), Sent::Refused(2));
            bench.marks.push(0);
            assert_eq!(call(&mut bench), Sent::Refused(3));
            bench.place = 0;
            if port == Port::FourLane {
                assert_eq!(call(&mut bench), Sent::Refused(19));
                bench.state.deficit = 0;
            }
            assert_eq!(call(&mut bench), Sent::Refused(21));
            bench.totals = Some(vec![300]);
            assert_eq!(call(&mut bench), Sent::Refused(22));
            bench.totals = Some(vec![200]);
            assert_eq!(call(&mut bench), Sent::Refused(4));
            bench.s.flow = flow;
            assert_eq!(call(&mut bench), Sent::Refused(8));
            bench.octets.push(0);
            bench.marks.push(0);
            assert_eq!(call(&mut bench), Sent::Wrote(84));
            assert_eq!(bench.totals, Some(vec![1]));
        }
    }
}

#[test]
fn ladder_of_idle_fill() {
    let mut bench = Bench::new(300);
    bench.marks.pop();
    bench.place = 301;
    bench.totals = Some(vec![257]);
    assert_eq!(bench.idle(1), Sent::Refused(2));
    bench.marks.push(0);
    assert_eq!(bench.idle(1), Sent::Refused(3));
    bench.place = 299;
    assert_eq!(bench.idle(2), Sent::Refused(21));
    bench.totals = Some(vec![0, 257]);
    assert_eq!(bench.idle(2), Sent::Refused(22));
    bench.totals = Some(vec![256, 256]);
    assert_eq!(bench.idle(2), Sent::Refused(8));
    assert_eq!(bench.idle(1), Sent::Wrote(300));
    assert_eq!(bench.totals, Some(vec![256, 0]));
}

/// What the totals become that aren't true: the blocks from the first to the
/// last that holds a written symbol are counted anew, the others stay.
fn expected(old: &[u16], bench: &Bench, place: usize, after: usize) -> Vec<u16> {
    let mut totals = old.to_vec();
    let anew = bench.true_totals();
    for block in (place..after).map(|at| at / 256) {
        totals[block] = anew[block];
    }
    totals
}

#[test]
fn only_the_blocks_that_are_written_into() {
    let mut dice = Dice::new(11);
    let old = [101, 102, 103, 104, 105];
    for place in [0, 1, 171, 172, 173, 255, 256, 257, 428, 512, 767, 1_196] {
        let mut bench = noise(&mut dice, 1_280);
        bench.place = place;
        bench.totals = Some(old.to_vec());
        // The data makes a frame that lies in up to four blocks.
        for len in [0, 46, 47, 300, 600] {
            let mut bench = bench.clone();
            if let Sent::Wrote(after) = bench.client(&CLIENT, &ramp(len)) {
                let totals = expected(&old, &bench, place, after);
                assert_eq!(bench.totals, Some(totals), "{place} {len}");
            }
        }
        for flow in [Flow::Pause, Flow::Pfc] {
            let mut bench = bench.clone();
            bench.s.flow = flow;
            let sent = match flow {
                Flow::Pause => bench.pause(1),
                _ => bench.pfc(1, &[1; 8]),
            };
            assert_eq!(sent, Sent::Wrote(place + 84));
            let totals = expected(&old, &bench, place, place + 84);
            assert_eq!(bench.totals, Some(totals), "{place}");
        }
        for n in [0, 1, 84, 85, 255, 256, 257, 512] {
            let mut bench = bench.clone();
            if let Sent::Wrote(after) = bench.idle(n) {
                let totals = expected(&old, &bench, place, after);
                assert_eq!(bench.totals, Some(totals), "{place} {n}");
            }
        }
    }
}

#[test]
fn both_sides_of_a_block() {
    // Of 84 symbols one is a Start, and all around them are. They end right
    // before, at and right behind the end of a block.
    for (place, totals) in [
        (171, [171 + 1 + 1, 9, 9]),
        (172, [172 + 1, 9, 9]),
        (173, [173 + 1, 256 - 1, 9]),
        (255, [255 + 1, 256 - 83, 9]),
        (256, [9, 1 + 256 - 84, 9]),
        (428, [9, 172 + 1, 9]),
        (429, [9, 173 + 1, 88 - 1]),
        (516, [9, 9, 4 + 1]),
    ] {
        let mut bench = Bench::new(600);
        bench.octets.fill(START);
        bench.place = place;
        bench.totals = Some(vec![9; 3]);
        assert_eq!(bench.client(&CLIENT, &[]), Sent::Wrote(place + 84));
        assert_eq!(bench.totals, Some(totals.to_vec()), "{place}");
    }
}

#[test]
fn no_idles_touch_no_total() {
    for place in [0, 1, 255, 256, 257, 300] {
        let mut bench = Bench::new(300);
        bench.octets.fill(START);
        bench.place = place;
        bench.totals = Some(vec![7, 8]);
        assert_eq!(bench.idle(0), Sent::Wrote(place));
        assert_eq!(bench.totals, Some(vec![7, 8]));
    }
    let mut bench = Bench::new(300);
    bench.octets.fill(START);
    bench.place = 255;
    bench.totals = Some(vec![7, 8]);
    assert_eq!(bench.idle(1), Sent::Wrote(256));
    assert_eq!(bench.totals, Some(vec![255, 8]));
    assert_eq!(bench.octets[255], IDLE);
    assert_eq!(bench.idle(1), Sent::Wrote(257));
    assert_eq!(bench.totals, Some(vec![255, 43]));
}

#[test]
fn the_four_lane_port_too() {
    // The gap of 9 symbols ends at 256, the one of 13 behind it.
    for (count, gap, totals) in [(0, 9, [1, 9]), (3, 13, [1, 40])] {
        let mut bench = Bench::new(300);
        bench.port = Port::FourLane;
        bench.state.deficit = count;
        bench.octets[256..].fill(START);
        bench.place = 172;
        bench.totals = Some(vec![9; 2]);
        let sent = bench.client(&CLIENT, &ramp(49));
        assert_eq!(sent, Sent::Wrote(172 + 75 + gap));
        assert_eq!(bench.totals, Some(totals.to_vec()));
    }
}

#[test]
fn while_a_capture_grows() {
    let mut dice = Dice::new(12);
    for port in [Port::Plain, Port::FourLane] {
        let mut bench = noise(&mut dice, 3_000);
        bench.port = port;
        bench.totals = Some(bench.true_totals());
        loop {
            let sent = match dice.roll(3) {
                0 => bench.idle(4 * dice.roll(20)),
                _ => bench.client(&CLIENT, &ramp(dice.roll(200))),
            };
            let totals = bench.totals.clone().unwrap();
            assert_eq!(totals, bench.true_totals());
            let starts = totals.iter().map(|&total| usize::from(total)).sum();
            assert_eq!(before(&bench, &totals, 3_000), Ok(starts));
            if let Sent::Refused(_) = sent {
                break;
            }
        }
        assert!(bench.place > 2_000);
    }
}
