//! "Sending": the very symbols. The five FCS values below come from another
//! program.

use reference::{Client, Flow, Form, Sent, Settings, Tag, TagKind};

use crate::bench::Bench;
use crate::hand::{clause_3, ramp, tagged, tags};
use crate::hand::{BROADCAST, IDLE, OTHER, OWN, RESERVED, START, TERMINATE};

/// Checks that a frame of these octets, but for its FCS, stands alone at the
/// place, and gives its FCS.
fn expect(bench: &Bench, place: usize, parts: &[&[u8]]) -> [u8; 4] {
    let frame = parts.concat();
    let check = clause_3(&frame);
    let octets = [
        &[START, 0x55, 0x55, 0x55, 0x55, 0x55, 0x55, 0xD5],
        &frame[..],
        &check,
        &[TERMINATE],
        &[IDLE; 11],
    ]
    .concat();
    let marks = [
        vec![1],
        vec![0; 7 + frame.len() + 4],
        vec![1; 12],
        vec![0xC9; bench.marks.len() - place - octets.len()],
    ]
    .concat();
    assert_eq!(bench.place, place + octets.len());
    assert_eq!(bench.octets[place..bench.place], octets);
    assert_eq!(bench.marks[place..], marks);
    check
}

#[test]
fn client_frames() {
    let mut bench = Bench::new(2000);
    bench.place = 5;
    let client = Client {
        dest: BROADCAST,
        tags: vec![],
        form: Form::Type(0x0800),
        class: 7,
    };
    assert_eq!(bench.client(&client, b"hello"), Sent::Wrote(5 + 84));
    let parts: [&[u8]; 5] = [&BROADCAST, &OWN, &[8, 0], b"hello", &[0; 41]];
    assert_eq!(expect(&bench, 5, &parts), [0xF1, 0x79, 0xDD, 0x32]);

    let customer = Tag {
        kind: TagKind::Customer,
        control: 0x2005,
    };
    let service = Tag {
        kind: TagKind::Service,
        control: 0x2064,
    };
    let mut bench = Bench::new(2000);
    let mut client = Client {
        dest: OTHER,
        tags: vec![customer],
        form: Form::Length,
        class: 0,
    };
    assert_eq!(bench.client(&client, b"hello"), Sent::Wrote(88));
    let header = [0x81, 0x00, 0x20, 0x05, 0x00, 0x05];
    let parts: [&[u8]; 5] = [&OTHER, &OWN, &header, b"hello", &[0; 41]];
    assert_eq!(expect(&bench, 0, &parts), [0x9A, 0xB0, 0xDD, 0x36]);

    let mut bench = Bench::new(2000);
    client.tags = vec![service, customer];
    assert_eq!(bench.client(&client, b"hello"), Sent::Wrote(92));
    let header = [&[0x88, 0xA8, 0x20, 0x64], &header[..]].concat();
    let parts: [&[u8]; 5] = [&OTHER, &OWN, &header, b"hello", &[0; 41]];
    assert_eq!(expect(&bench, 0, &parts), [0x05, 0x7C, 0x02, 0x65]);

    for len in [0, 1, 45, 46, 47, 300, 1499, 1500] {
        for n in [0, 1, 2, 8] {
            for form in [Form::Length, Form::Type(1536), Form::Type(0xFFFF)] {
                let mut bench = Bench::new(2000);
                bench.place = 100;
                let client = Client {
                    dest: OTHER,
                    tags: tags(n),
                    form,
                    class: 3,
                };
                let field = match form {
                    Form::Length => len as u16,
                    Form::Type(field) => field,
                };
                let header = tagged(n, field).into_iter().flat_map(u16::to_be_bytes);
                let header: Vec<u8> = header.collect();
                let mut data = ramp(len);
                assert!(matches!(bench.client(&client, &data), Sent::Wrote(_)));
                data.resize(len.max(46), 0);
                expect(&bench, 100, &[&OTHER, &OWN, &header, &data]);
            }
        }
    }
}

#[test]
fn longest_client_frame() {
    for (limit, n) in [
        (1518, 0),
        (1518, 1),
        (1518, 8),
        (9618, 0),
        (9618, 1),
        (9618, 8),
    ] {
        let client = Client {
            dest: OTHER,
            tags: tags(n),
            form: Form::Type(0x0800),
            class: 0,
        };
        let most = usize::from(limit) - 18;
        let symbols = 38 + most + 4 * n;
        let mut bench = Bench::new(symbols);
        bench.s.limit = limit;
        assert_eq!(bench.client(&client, &ramp(most + 1)), Sent::Refused(7));
        assert_eq!(bench.client(&client, &ramp(most)), Sent::Wrote(symbols));
    }
}

#[test]
fn pause_frame() {
    let mut bench = Bench::new(100);
    bench.s.flow = Flow::Pause;
    bench.place = 16;
    assert_eq!(bench.pause(0x1234), Sent::Wrote(100));
    let payload = [0x88, 0x08, 0x00, 0x01, 0x12, 0x34];
    let check = expect(&bench, 16, &[&RESERVED, &OWN, &payload, &[0; 42]]);
    assert_eq!(check, [0xC8, 0xBE, 0x99, 0xFF]);
}

#[test]
fn pfc_frame() {
    let mut bench = Bench::new(100);
    bench.s.flow = Flow::Pfc;
    let quanta = [0x0102, 2, 3, 4, 5, 6, 7, 0xFFFE];
    assert_eq!(bench.pfc(0x81, &quanta), Sent::Wrote(84));
    let payload = [0x88, 0x08, 0x01, 0x01, 0x00, 0x81, 0x01, 0x02];
    let tail = [0xFF, 0xFE];
    let parts: [&[u8]; 6] = [&RESERVED, &OWN, &payload, &[0; 12], &tail, &[0; 26]];
    assert_eq!(expect(&bench, 0, &parts), [0x6C, 0x36, 0x88, 0x77]);

    for named in 0..=255u8 {
        let mut bench = Bench::new(84);
        bench.s.flow = Flow::Pfc;
        assert_eq!(bench.pfc(named, &quanta), Sent::Wrote(84));
        let mut data = vec![0x88, 0x08, 0x01, 0x01, 0x00, named];
        for (class, quanta) in quanta.iter().enumerate() {
            let sent = if named >> class & 1 == 1 { *quanta } else { 0 };
            data.extend(sent.to_be_bytes());
        }
        expect(&bench, 0, &[&RESERVED, &OWN, &data, &[0; 26]]);
    }
}

#[test]
fn idle_fill() {
    for n in [0, 1, 17, 90] {
        let mut bench = Bench::new(100);
        bench.place = 10;
        assert_eq!(bench.idle(n), Sent::Wrote(10 + n));
        assert_eq!(bench.octets[10..10 + n], vec![IDLE; n]);
        assert_eq!(bench.marks[10..10 + n], vec![1; n]);
    }
    let mut empty = Bench::new(0);
    assert_eq!(empty.idle(0), Sent::Wrote(0));
    let mut all = Bench::new(65_536);
    assert_eq!(all.idle(65_536), Sent::Wrote(65_536));
    assert_eq!(all.idle(0), Sent::Wrote(65_536));
}

#[test]
fn frames_that_just_fit() {
    let client = Client {
        dest: OTHER,
        tags: vec![],
        form: Form::Length,
        class: 0,
    };
    let settings = |flow| Settings {
        flow,
        ..Bench::new(0).s
    };
    for place in [0, 1, 500] {
        let mut bench = Bench::new(place + 84);
        bench.place = place;
        assert_eq!(bench.clone().client(&client, &[]), Sent::Wrote(place + 84));
        bench.s = settings(Flow::Pause);
        assert_eq!(bench.clone().pause(1), Sent::Wrote(place + 84));
        bench.s = settings(Flow::Pfc);
        assert_eq!(bench.clone().pfc(1, &[1; 8]), Sent::Wrote(place + 84));
    }
}
