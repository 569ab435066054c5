//! Captures with their totals, and calls over both: on both sides of the edges of blocks, and with
//! any refusals that can hold together.
use super::captures::{unequal, Symbols};
use super::sendings::{pfc, timed};
use super::settings::{destination, valid_settings};
use super::{Sending, BEYOND_32_BITS, IDLE, START, SYMBOLS};
use crate::prng::Prng;
use crate::seen_totals::{truth, BLOCK};
use reference::{Client, Flow, Form, Port, Settings, State, Tag, TagKind};

/// Lengths at the edges of blocks.
const LENGTHS: [usize; 8] = [0, 1, 255, 256, 257, 511, 512, 513];
/// Marks of control symbols: the usual one, each bit, many bits.
pub const MARKS: [u8; 12] = [1, 2, 3, 4, 8, 16, 32, 64, 127, 128, 254, 255];

/// So many symbols, rich in Starts and in what looks like one.
pub fn starry(prng: &mut Prng, n: usize) -> Symbols {
    let any = prng.between(1, 255) as u8;
    let listed = prng.pick(&MARKS);
    let mark = prng.pick(&[1, any, listed, listed]);
    let mut symbols = Symbols {
        octets: vec![IDLE; n],
        marks: vec![mark; n],
    };
    let sort = if n == SYMBOLS && prng.coin() {
        0
    } else {
        prng.below(8)
    };
    match sort {
        // nothing but Starts, or data that look like them
        0 => symbols.octets.fill(START),
        1 => {
            symbols.octets.fill(START);
            symbols.marks.fill(0);
        }
        // one Start
        2..=3 if n > 0 => {
            if prng.coin() {
                symbols.octets.fill(START);
                symbols.marks.fill(0);
            }
            let at = near_edge(prng, n - 1);
            (symbols.octets[at], symbols.marks[at]) = (START, mark);
        }
        // control symbols one bit off
        4 => {
            symbols.octets = prng.octets(n);
            for octet in &mut symbols.octets {
                *octet = START ^ 1 << (*octet & 7);
            }
        }
        // Starts, data and other control symbols
        5..=6 => {
            symbols.octets = prng.octets(n);
            symbols.marks = prng.octets(n);
            for octet in symbols.octets.iter_mut().filter(|octet| **octet & 1 == 0) {
                *octet = START;
            }
            for mark in symbols.marks.iter_mut().filter(|mark| **mark & 1 == 0) {
                *mark = 0;
            }
        }
        _ => {
            symbols.octets = prng.octets(n);
            symbols.marks = prng.octets(n);
        }
    }
    symbols
}

/// A place at the edge of a block or next to it, or any; up to this one.
fn near_edge(prng: &mut Prng, last: usize) -> usize {
    let edge = BLOCK * (1 + prng.below(((last + 1) / BLOCK).max(1)));
    let any = prng.below(last + 1);
    let at = prng.pick(&[0, edge - 1, edge, edge, edge + 1, any, last]);
    at.min(last)
}

/// A line that takes a few short frames, at times the longest.
pub fn line_length(prng: &mut Prng) -> usize {
    let least = prng.between(100, 700);
    length(prng, least)
}

/// How many symbols, at least so many: at the edges of blocks, up to some more than asked, or as many
/// as a call takes.
fn length(prng: &mut Prng, least: usize) -> usize {
    match prng.below(96) {
        0 => SYMBOLS,
        1..=48 => {
            let edges: Vec<_> = LENGTHS.into_iter().filter(|&n| n >= least).collect();
            if edges.is_empty() {
                least.next_multiple_of(BLOCK) + prng.below(3) * BLOCK
            } else {
                prng.pick(&edges)
            }
        }
        _ => least + prng.below(900),
    }
}

/// Totals of these symbols: true ones, or false ones of at most 256.
pub fn totals(prng: &mut Prng, symbols: &Symbols) -> Vec<u16> {
    let mut totals = truth(&symbols.octets, &symbols.marks);
    match prng.below(8) {
        0..=2 => {}
        3 => totals.fill(256),
        4 => totals.fill_with(|| prng.below(257) as u16),
        // every one next to the true one
        5..=6 => {
            for total in &mut totals {
                let off = prng.between(1, 3) as u16;
                *total = if *total >= off && prng.coin() || *total + off > 256 {
                    *total - off
                } else {
                    *total + off
                };
            }
        }
        _ => {
            if let Some(last) = totals.len().checked_sub(1) {
                let any = prng.below(last + 1);
                let at = prng.pick(&[0, last, any]);
                totals[at] = prng.pick(&[0, 1, 255, 256]);
            }
        }
    }
    totals
}

/// A place to ask at: at the edge of a block, next to a Start, at the end or beyond.
pub fn asked_place(prng: &mut Prng, (octets, marks): (&[u8], &[u8])) -> usize {
    let n = octets.len();
    match prng.below(16) {
        0 => prng.pick(&[n + 1, n + 2, usize::MAX, BEYOND_32_BITS]),
        1..=2 => prng.pick(&[n, n, n.saturating_sub(1)]),
        3..=6 => {
            let is_start =
                |i: &usize| octets[*i] == START && marks.get(*i).is_some_and(|&mark| mark != 0);
            let from = prng.below(n + 1);
            let start = (from..n).chain(0..from).find(is_start);
            start.map_or(n, |start| start + prng.below(2))
        }
        7..=13 => near_edge(prng, n),
        _ => prng.below(n + 1),
    }
}

/// A call that keeps totals, with all that it is given.
pub struct Stage {
    /// The settings.
    pub s: Settings,
    /// The state.
    pub state: State,
    /// The port.
    pub port: Port,
    /// The symbols.
    pub symbols: Symbols,
    /// The totals.
    pub totals: Vec<u16>,
    /// The place.
    pub place: usize,
    /// The call.
    pub call: Sending,
}

/// The refusals that a call can give, in the order of their tests.
fn refusals(call: &Sending) -> &'static [u8] {
    match call {
        Sending::Client(..) => &[1, 2, 3, 19, 21, 22, 5, 6, 10, 7, 8, 9],
        Sending::Pause(_) | Sending::Pfc(..) => &[1, 2, 3, 19, 21, 22, 4, 8],
        Sending::Idle(_) => &[2, 3, 21, 22, 8],
    }
}

/// Something to send that no rule refuses, with settings that allow it.
pub fn allowed(prng: &mut Prng, s: &mut Settings) -> Sending {
    match prng.below(16) {
        0..=6 => allowed_client(prng, s),
        7..=9 => {
            s.flow = Flow::Pause;
            Sending::Pause(prng.number() as u16)
        }
        10..=12 => {
            s.flow = Flow::Pfc;
            pfc(prng)
        }
        _ => {
            let any = prng.below(700);
            Sending::Idle(prng.pick(&[0, 0, 1, 255, 256, 257, 512, any, any]))
        }
    }
}

fn allowed_client(prng: &mut Prng, s: &Settings) -> Sending {
    let tag = |prng: &mut Prng| Tag {
        kind: prng.pick(&[TagKind::Customer, TagKind::Service]),
        control: prng.number() as u16,
    };
    let client = Client {
        dest: destination(prng, s),
        tags: (0..prng.pick(&[0, 0, 0, 1, 8]))
            .map(|_| tag(prng))
            .collect(),
        form: prng.pick(&[Form::Length, Form::Type(0x0800)]),
        class: prng.below(8) as u8,
    };
    let beside_data = 38 + 4 * client.tags.len();
    let any = prng.below(200);
    let length = match prng.below(16) {
        // a whole block or two
        0..=1 => prng.pick(&[BLOCK, 2 * BLOCK]) - beside_data,
        2 => prng.between(600, 1500),
        _ => prng.pick(&[46, any]),
    };
    let mut data = prng.octets(length);
    if prng.one_in(4) {
        data.fill(START);
    }
    Sending::Client(client, data)
}

/// A place that has room for a call, if there is one: its symbols begin or end at the edge of a
/// block, next to it or anywhere.
pub fn roomy_place(prng: &mut Prng, length: usize, call: &Sending) -> usize {
    let symbols = call.symbols();
    let latest = length.saturating_sub(symbols);
    let place = match prng.below(8) {
        0 => 0,
        1 => latest,
        2..=4 => near_edge(prng, latest),
        // where they end
        _ => near_edge(prng, length).saturating_sub(symbols),
    };
    place.min(latest)
}

/// Refusals that are to hold together: none, or up to three of those that a call can give.
struct Faults(Vec<u8>);

impl Faults {
    fn of(prng: &mut Prng, call: &Sending) -> Faults {
        let number = match prng.below(16) {
            0..=6 => 0,
            7..=9 => 1,
            10..=13 => 2,
            _ => 3,
        };
        let all = refusals(call);
        let fault = |_| match prng.below(4) {
            0 => prng.pick(&[21, 22]),
            _ => prng.pick(all),
        };
        Faults((0..number).map(fault).collect())
    }

    fn has(&self, refusal: u8) -> bool {
        self.0.contains(&refusal)
    }
}

/// Any call, with up to three refusals that hold together.
pub fn stage(prng: &mut Prng) -> Stage {
    let mut s = valid_settings(prng);
    let mut call = allowed(prng, &mut s);
    let faults = Faults::of(prng, &call);
    for fault in &faults.0 {
        spoil_call(prng, *fault, &mut s, &mut call);
    }
    let mut port = prng.pick(&[Port::Plain, Port::Plain, Port::FourLane]);
    if faults.has(19) {
        port = Port::FourLane;
    }
    let four_lanes = port == Port::FourLane && call.is_frame();
    let symbols = staged_symbols(prng, &faults, &mut call, four_lanes);
    let totals = staged_totals(prng, &faults, &symbols);
    let place = staged_place(prng, &faults, symbols.octets.len(), &mut call, four_lanes);
    let state = staged_state(prng, &faults, &call, four_lanes);
    Stage {
        s,
        state,
        port,
        symbols,
        totals,
        place,
        call,
    }
}

/// How many symbols a call takes at most.
fn needed(call: &Sending, four_lanes: bool) -> usize {
    call.symbols() + if four_lanes { 3 } else { 0 }
}

/// With room for the call; an Idle fill may become one of all symbols.
fn staged_symbols(
    prng: &mut Prng,
    faults: &Faults,
    call: &mut Sending,
    four_lanes: bool,
) -> Symbols {
    // what is refused anyway needs no room
    let n = match prng.below(64) {
        0 if faults.has(21) => SYMBOLS,
        1..=55 if faults.has(21) => prng.pick(&LENGTHS),
        _ if faults.has(8) => length(prng, 0),
        _ => length(prng, needed(call, four_lanes)),
    };
    match call {
        Sending::Idle(idles) if n == SYMBOLS || prng.one_in(8) => *idles = n,
        _ => {}
    }
    if faults.has(2) && prng.one_in(32) {
        return starry(prng, SYMBOLS + 1);
    }
    let mut symbols = starry(prng, n);
    if faults.has(2) {
        unequal(prng, &mut symbols);
    }
    symbols
}

/// One too few, one too many, none, more than any capture has; one above 256.
fn staged_totals(prng: &mut Prng, faults: &Faults, symbols: &Symbols) -> Vec<u16> {
    let mut totals = totals(prng, symbols);
    if faults.has(21) {
        let (number, any) = (totals.len(), prng.pick(&[0, 300]));
        let other = match prng.below(8) {
            0 if any != number => any,
            1..=4 if number > 0 => number - 1,
            _ => number + 1,
        };
        totals.resize(other, prng.pick(&[0, 1, 256]));
    }
    if faults.has(22) && !totals.is_empty() {
        let (last, any) = (totals.len() - 1, prng.below(totals.len()));
        let at = prng.pick(&[0, last, any]);
        let any = prng.between(257, 65_535) as u16;
        totals[at] = prng.pick(&[257, u16::MAX, any]);
    }
    totals
}

/// With room or without, inside or beyond; on the four-lane port mostly one that it accepts.
fn staged_place(
    prng: &mut Prng,
    faults: &Faults,
    length: usize,
    call: &mut Sending,
    four_lanes: bool,
) -> usize {
    let mut place = if faults.has(8) {
        crowded_place(prng, length, call)
    } else {
        let latest = length.saturating_sub(needed(call, four_lanes));
        roomy_place(prng, length, call).min(latest)
    };
    if four_lanes {
        place -= place % 4;
    }
    if !faults.has(3) {
        return place;
    }
    match prng.below(3) {
        0 if four_lanes => place + prng.between(1, 3),
        1 => prng.pick(&[BEYOND_32_BITS, usize::MAX]),
        _ => length + 1 + prng.below(8),
    }
}

/// The timer of a client frame's class is 0, unless it is to hold it.
fn staged_state(prng: &mut Prng, faults: &Faults, call: &Sending, four_lanes: bool) -> State {
    let mut state = timed(prng, call);
    state.deficit = match four_lanes {
        true if faults.has(19) => prng.pick(&[4, 5, u8::MAX]),
        true => prng.below(4) as u8,
        false => prng.pick(&[0, 1, 3, 4, u8::MAX]),
    };
    if let Sending::Client(client, _) = call {
        if let Some(own) = state.timers.get_mut(usize::from(client.class)) {
            *own = match faults.has(9) {
                true => prng.pick(&[1, 64, u32::MAX]),
                false => 0,
            };
        }
    }
    state
}

/// Makes a refusal of the settings or of what is to be sent hold.
fn spoil_call(prng: &mut Prng, refusal: u8, s: &mut Settings, call: &mut Sending) {
    match (refusal, call) {
        (1, _) => match prng.coin() {
            true => s.own[0] |= 1,
            false => s.limit = prng.pick(&[1517, 9619]),
        },
        (4, _) => s.flow = Flow::None,
        (5, Sending::Client(client, _)) => client.class = prng.pick(&[8, 255]),
        (6, Sending::Client(client, _)) => {
            client.form = Form::Type(prng.pick(&[1535, 0x8100, 0x8808, 0x88A8]));
        }
        (10, Sending::Client(client, _)) => {
            let tag = Tag {
                kind: TagKind::Customer,
                control: 0,
            };
            client.tags.resize(prng.pick(&[9, 9, 255]), tag);
        }
        (7, Sending::Client(client, data)) => {
            let most = match client.form {
                Form::Length => 1500,
                Form::Type(_) => usize::from(s.limit).saturating_sub(18),
            };
            data.resize(most + 1, START);
        }
        _ => {}
    }
}

/// A place without room for a call, which may become a longer Idle fill: one symbol short, or more.
fn crowded_place(prng: &mut Prng, length: usize, call: &mut Sending) -> usize {
    if let Sending::Idle(n) = call {
        let place = near_edge(prng, length);
        let room = length - place;
        *n = prng.pick(&[room + 1, room + 1, room + BLOCK, usize::MAX, BEYOND_32_BITS]);
        return place;
    }
    let latest = length.saturating_sub(call.symbols());
    let place = prng.pick(&[latest + 1, latest + 4, length]);
    place.min(length)
}
