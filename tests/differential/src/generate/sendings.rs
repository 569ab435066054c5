//! Things to send, and the buffers they go to.
use super::captures::{unequal, Symbols};
use super::frames::quanta;
use super::settings::{deficit, destination, state, HIGHEST_BIT};
use super::tags::tags;
use super::{BEYOND_16_BITS, BEYOND_32_BITS, SYMBOLS};
use crate::prng::Prng;
use reference::{Client, Flow, Form, Port, Settings, State};

/// A sending call but for settings, state, port, buffers and place.
#[derive(Clone, Debug)]
pub enum Sending {
    /// A client frame and its data.
    Client(Client, Vec<u8>),
    /// A pause frame and its quanta.
    Pause(u16),
    /// A PFC frame: the classes that it names, and a count of quanta for each class.
    Pfc(u8, [u16; 8]),
    /// Idles.
    Idle(usize),
}

impl Sending {
    /// The call's name.
    pub fn name(&self) -> &'static str {
        match self {
            Sending::Client(..) => "client",
            Sending::Pause(_) => "pause",
            Sending::Pfc(..) => "PFC",
            Sending::Idle(_) => "idle",
        }
    }

    /// How many symbols stand before its gap: Start, preamble, destination to FCS; or all Idles.
    pub fn before_gap(&self) -> usize {
        match self {
            Sending::Client(client, data) => {
                1 + 7 + 12 + 4 * client.tags.len() + 2 + data.len().max(46) + 4
            }
            Sending::Pause(_) | Sending::Pfc(..) => 72,
            Sending::Idle(n) => *n,
        }
    }

    /// Whether it is a frame, behind which a gap stands.
    pub fn is_frame(&self) -> bool {
        !matches!(self, Sending::Idle(_))
    }

    /// How many symbols it takes with a gap of 12, if it has one.
    pub fn symbols(&self) -> usize {
        self.before_gap() + if self.is_frame() { 12 } else { 0 }
    }
}

/// The port of a call.
pub fn port(prng: &mut Prng) -> Port {
    prng.pick(&[Port::Plain, Port::Plain, Port::FourLane])
}

/// A short frame to the own address, which comes out as it goes in, or a control frame of the flow
/// mode.
pub fn short_frame(prng: &mut Prng, s: &Settings) -> Sending {
    match (s.flow, prng.below(6)) {
        (Flow::Pause, 0) => return Sending::Pause(quanta(prng)),
        (Flow::Pfc, 0) => return pfc(prng),
        _ => {}
    }
    let client = Client {
        dest: s.own,
        tags: if prng.one_in(4) {
            tags(prng).into_iter().take(8).collect()
        } else {
            Vec::new()
        },
        form: prng.pick(&[Form::Length, Form::Type(0x0800)]),
        class: prng.below(8) as u8,
    };
    let length = prng.between(40, 60);
    Sending::Client(client, prng.octets(length))
}

/// A state whose timers run out about when this frame has ended, whatever its gap; the class of a
/// client frame mostly does not hold it, and the deficit count is mostly allowed.
pub fn timed_frame(prng: &mut Prng, call: &Sending) -> State {
    let before_gap = call.before_gap() as u32;
    let mut state = state(prng);
    for timer in &mut state.timers {
        *timer = before_gap + prng.between(8, 16) as u32;
    }
    if let Sending::Client(client, _) = call {
        let own = state.timers.get_mut(usize::from(client.class));
        if let Some(own) = own.filter(|_| !prng.one_in(16)) {
            *own = 0;
        }
    }
    state.deficit = match prng.below(8) {
        0 => deficit(prng),
        _ => prng.below(4) as u8,
    };
    state
}

/// Buffers to send into, filled with anything; most take a few short frames.
pub fn blank_line(prng: &mut Prng, s: &Settings) -> Symbols {
    let n = match prng.below(400) {
        0..=3 => SYMBOLS,
        4..=5 => prng.pick(&[SYMBOLS + 1, SYMBOLS + 1, 70_000]),
        6..=84 if s.limit > 9_000 => prng.between(9_680, 9_800),
        6..=54 => prng.between(1_580, 2_000),
        55..=79 => prng.below(100),
        _ => prng.between(84, 500),
    };
    let mut symbols = Symbols {
        octets: prng.octets(n),
        marks: prng.octets(n),
    };
    if prng.one_in(32) {
        unequal(prng, &mut symbols);
    }
    symbols
}

/// Anything to send; `room` is the length of the buffers it is meant for.
pub fn sending(prng: &mut Prng, s: &Settings, room: usize) -> Sending {
    match prng.below(16) {
        0..=9 => client(prng, s, room),
        10..=11 => Sending::Idle(idles(prng, room)),
        12 => Sending::Pause(quanta(prng)),
        13 => pfc(prng),
        _ if s.flow == Flow::Pause => Sending::Pause(quanta(prng)),
        _ => pfc(prng),
    }
}

pub fn pfc(prng: &mut Prng) -> Sending {
    let any = prng.octet();
    let named = prng.pick(&[0x00, 0xFF, 0x01, 0x80, any]);
    Sending::Pfc(named, [(); 8].map(|()| quanta(prng)))
}

fn idles(prng: &mut Prng, room: usize) -> usize {
    match prng.below(12) {
        0..=1 => 0,
        2 => 1,
        3 => prng.pick(&[usize::MAX, usize::MAX - 1, BEYOND_32_BITS]),
        4 => prng.pick(&[room, room + 1]),
        // past the end of all numbers, and round again into the buffers
        5 => 0_usize.wrapping_sub(prng.below(room + 1)),
        _ => prng.below(120),
    }
}

fn client(prng: &mut Prng, s: &Settings, room: usize) -> Sending {
    let form = match prng.below(16) {
        0..=7 => Form::Length,
        8 => Form::Type(prng.pick(&[0, 46, 1500, 1535])),
        9 => Form::Type(prng.pick(&[0x8100, 0x8808, 0x88A8])),
        10..=11 => {
            Form::Type(prng.pick(&[1536, 0x80FF, 0x8101, 0x8807, 0x8809, 0x88A7, 0x88A9, 0xFFFF]))
        }
        _ => Form::Type(0x0800),
    };
    let class = match prng.below(16) {
        0 => prng.pick(&[8, 9, 255]),
        _ => prng.below(8) as u8,
    };
    // in so many frames one is long
    let long = match room {
        9_000.. => 1,
        1_500.. => 2,
        _ => 40,
    };
    let length = if prng.one_in(long) {
        let most = usize::from(s.limit).saturating_sub(18);
        prng.pick(&[
            1499,
            1500,
            1501,
            most.saturating_sub(1),
            most,
            most,
            most + 1,
            most + 1,
            most + 4,
            BEYOND_16_BITS,
        ])
    } else {
        let small = prng.between(0, 160);
        prng.pick(&[0, 1, 44, 45, 46, 47, small])
    };
    let client = Client {
        dest: destination(prng, s),
        tags: tags(prng),
        form,
        class,
    };
    Sending::Client(client, prng.octets(length))
}

/// Where to send: where the last call ended, so that the frame ends with the buffers, or one symbol
/// too late for that, or beyond. On the four-lane port mostly the next place that it accepts.
pub fn sending_place(
    prng: &mut Prng,
    length: usize,
    last: usize,
    call: &Sending,
    port: Port,
) -> usize {
    let latest = length.saturating_sub(call.symbols());
    let place = match prng.below(24) {
        0..=3 => latest,
        4..=5 => latest + 1,
        6 => length,
        7 => prng.pick(&[length + 1, usize::MAX, BEYOND_32_BITS]),
        8..=9 => prng.below(length + 1),
        10..=13 => last,
        14..=17 => 0,
        _ => prng.below(latest + 1),
    };
    if port == Port::FourLane && !prng.one_in(6) {
        return place.checked_next_multiple_of(4).unwrap_or(place);
    }
    place
}

/// A state whose timers run out about when this call has ended.
pub fn timed(prng: &mut Prng, call: &Sending) -> State {
    let mut state = state(prng);
    let n = u32::try_from(call.symbols()).unwrap_or(u32::MAX);
    for timer in &mut state.timers {
        let any = prng.number() as u32;
        let about = [n.saturating_sub(1), n, n.saturating_add(1)];
        let far = prng.pick(&[HIGHEST_BIT, u32::MAX, any]);
        *timer = prng.pick(&[0, 0, 1, about[0], about[1], about[2], u32::MAX, far]);
    }
    if let Sending::Client(client, _) = call {
        if let Some(own) = state.timers.get_mut(usize::from(client.class)) {
            if !prng.one_in(6) {
                *own = 0;
            }
        }
    }
    state
}
