//! Sequences of calls on one state: captures that set classes, and things to send next to the end of
//! a wait.
use super::captures::Symbols;
use super::frames::{build, quanta};
use super::listeners::Listener;
use super::sendings::{pfc, Sending};
use super::settings::RESERVED_GROUP;
use super::{sound_listener, IDLE, PREAMBLE, START, TERMINATE};
use crate::prng::Prng;
use reference::{Client, Flow, Form, Settings};

/// Quanta of a short wait, mostly.
fn short_quanta(prng: &mut Prng) -> u16 {
    match prng.below(16) {
        0 => quanta(prng),
        _ => prng.pick(&[0, 1, 1, 2, 3, 4, 5]),
    }
}

/// The data of a pause or PFC frame.
fn quieting_data(prng: &mut Prng, flow: Flow) -> Vec<u8> {
    let mut data = Vec::new();
    match flow {
        Flow::Pfc => {
            let any = prng.octet();
            data.extend(0x0101_u16.to_be_bytes());
            data.extend([prng.octet(), prng.pick(&[0xFF, 0xFF, 0x01, 0x80, any])]);
            let alike = prng.coin().then(|| short_quanta(prng));
            for _ in 0..8 {
                let quanta = alike.unwrap_or_else(|| short_quanta(prng));
                data.extend(quanta.to_be_bytes());
            }
        }
        Flow::Pause | Flow::None => {
            data.extend(0x0001_u16.to_be_bytes());
            data.extend(short_quanta(prng).to_be_bytes());
        }
    }
    data.resize(46, 0);
    data
}

/// A capture of up to four control frames, of the flow mode unless another is drawn; one in eight
/// is damaged, or has not ended.
pub fn quieting_capture(prng: &mut Prng, s: &Settings) -> Symbols {
    let mut symbols = Symbols {
        octets: Vec::new(),
        marks: Vec::new(),
    };
    let mut push = |octets: &[u8], mark: u8| {
        symbols.octets.extend(octets);
        symbols.marks.extend(vec![mark; octets.len()]);
    };
    for _ in 0..prng.pick(&[1, 1, 1, 2, 2, 3, 4]) {
        let flow = match prng.below(8) {
            0 => prng.pick(&[Flow::Pause, Flow::Pfc]),
            _ => s.flow,
        };
        let data = quieting_data(prng, flow);
        let to = prng.pick(&[RESERVED_GROUP, RESERVED_GROUP, s.own]);
        let mut frame = build(prng, to, 0, 0x8808, &data);
        push(&vec![IDLE; prng.below(4)], 1);
        push(&[START], prng.pick(&[1, 1, 1, 2, 255]));
        push(&PREAMBLE, 0);
        let damage = prng.below(24);
        if damage == 0 {
            let at = prng.below(frame.len());
            frame[at] ^= prng.bit();
        }
        push(&frame, 0);
        match damage {
            1 => push(&[START], 1),
            2 => break,
            _ => push(&[TERMINATE], 1),
        }
    }
    symbols
}

/// Who hears: a table that gives no 20, or, one in twelve, one that does.
pub fn quiet_listener(prng: &mut Prng, s: &Settings) -> Listener {
    let sound = sound_listener(prng, s);
    match prng.below(12) {
        0 => Listener::new(sound.job, super::broken_table(prng, s)),
        _ => sound,
    }
}

/// A control frame that has every class wait as long as it can.
pub fn longest_wait(prng: &mut Prng, s: &Settings) -> Symbols {
    let mut data = match s.flow {
        Flow::Pfc => vec![0x01, 0x01, 0, 0xFF],
        Flow::Pause | Flow::None => vec![0x00, 0x01],
    };
    data.extend([0xFF; 16]);
    data.resize(46, 0);
    let frame = build(prng, RESERVED_GROUP, 0, 0x8808, &data);
    let octets = [&[START][..], &PREAMBLE, &frame, &[TERMINATE]].concat();
    let mut marks = vec![0; octets.len()];
    marks[0] = 1;
    marks[octets.len() - 1] = 1;
    Symbols { octets, marks }
}

/// A short client frame of a class, to the own address.
pub fn quiet_client(prng: &mut Prng, s: &Settings, class: u8) -> Sending {
    let client = Client {
        dest: s.own,
        tags: Vec::new(),
        form: prng.pick(&[Form::Length, Form::Type(0x0800)]),
        class,
    };
    let length = prng.between(0, 60);
    Sending::Client(client, prng.octets(length))
}

/// Something to send: a client frame of a class, a control frame of the flow mode, or Idles, so many
/// that one of these waits ends there, or one symbol before or behind; `last` is the class of whose
/// wait that was last, and is mostly tried next.
pub fn quiet_sending(prng: &mut Prng, s: &Settings, left: &[u64; 8], last: &mut u8) -> Sending {
    let waits = |class: &u8| left[usize::from(*class)] > 0;
    let (waiting, free): (Vec<u8>, Vec<u8>) = (0..8).partition(waits);
    let mut one_of = |classes: &[u8]| match classes {
        [] => prng.below(8) as u8,
        _ => prng.pick(classes),
    };
    let (waiting, free) = (one_of(&waiting), one_of(&free));
    match prng.below(16) {
        0..=7 => {
            let class = prng.pick(&[*last, *last, waiting, free]);
            quiet_client(prng, s, class)
        }
        8..=9 => match s.flow {
            Flow::Pfc => pfc(prng),
            Flow::Pause | Flow::None => Sending::Pause(short_quanta(prng)),
        },
        _ => {
            *last = prng.pick(&[*last, waiting]);
            let wait = left[usize::from(*last)] as usize;
            let one_less = wait.saturating_sub(1);
            Sending::Idle(prng.pick(&[wait, wait, one_less, 1, wait + 1]))
        }
    }
}
