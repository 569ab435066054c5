//! What the plain reader is given beside captures like those of the walk: captures that fill it, other
//! settings, job or table for some of the symbols, and any record of a reader.
use super::frames::frame;
use super::listeners::{broken_table, sound_listener, Listener};
use super::settings::{refuse, valid_settings};
use super::{Symbols, IDLE, PREAMBLE, START, SYMBOLS, TERMINATE};
use crate::prng::Prng;
use crate::raw::plain::{self as layout, Plain};
use reference::Settings;
use std::ops::Range;

/// Who listens for a stretch of a capture, in another's place.
pub struct Turn {
    /// The settings.
    pub s: Settings,
    /// The job and the table.
    pub l: Listener,
    /// The places of the stretch.
    pub places: Range<usize>,
}

/// Another listener at a Start, behind it, up to the end of its run, or there. Where it is refused, the
/// symbol is offered once more.
pub fn turn(prng: &mut Prng, s: &Settings, l: &Listener, symbols: &Symbols) -> Turn {
    let n = symbols.octets.len().min(symbols.marks.len());
    let starts: Vec<usize> = super::start_places(symbols).collect();
    let start = match starts.len() {
        0 => 0,
        many => starts[prng.below(many)],
    };
    let behind = (start + 1..n).find(|&i| symbols.marks[i] != 0);
    let end = behind.unwrap_or(n);
    let full = n >= SYMBOLS && prng.coin();
    let places = match prng.below(5) {
        _ if full => prng.pick(&[SYMBOLS - 1, SYMBOLS, SYMBOLS])..SYMBOLS + 1,
        0 => start..start + 1,
        1 => start..end,
        2 => end..end + 1,
        3 => end.saturating_sub(1)..end + 1,
        _ => start + 1..start + 1 + prng.pick(&[1, 7, 60]),
    };
    // what is refused is so before the reader is full
    let sort = prng.below(if full { 2 } else { 8 });
    let (s, l) = other(prng, s, l, sort);
    Turn { s, l, places }
}

/// Other settings, another job or another table; of eight sorts the first two are refused.
fn other(prng: &mut Prng, s: &Settings, l: &Listener, sort: usize) -> (Settings, Listener) {
    let (mut s, mut l) = (*s, *l);
    match sort {
        0 => refuse(prng, &mut s),
        1 => l = Listener::new(l.job, broken_table(prng, &s)),
        2..=3 => s.limit = if s.limit > 1518 { 1518 } else { 9618 },
        4 => s.promiscuous = !s.promiscuous,
        5 => s.checking = !s.checking,
        6 => l = l.of(1 - l.job.min(1)),
        _ => {
            s = valid_settings(prng);
            l = sound_listener(prng, &s);
        }
    }
    (s, l)
}

/// As many symbols as a reader takes, or one more. A frame ends with the last, or next to it; in front
/// of it is data, all alike.
pub fn filled_capture(prng: &mut Prng, s: &Settings, l: &Listener) -> Symbols {
    let n = prng.pick(&[SYMBOLS, SYMBOLS + 1, SYMBOLS + 2]);
    let fill = prng.pick(&[0x55, START, IDLE]);
    let mut symbols = Symbols {
        octets: vec![fill; n],
        marks: vec![0; n],
    };
    let frame = frame(prng, s, l);
    let run = [&PREAMBLE[..], &frame].concat();
    let end = prng.pick(&[SYMBOLS - 2, SYMBOLS - 1, SYMBOLS]);
    let start = end.min(n - 1) - run.len() - 1;
    (symbols.octets[start], symbols.marks[start]) = (START, 1);
    symbols.octets[start + 1..][..run.len()].copy_from_slice(&run);
    symbols.marks[start + 1..].fill(0);
    let by = prng.pick(&[TERMINATE, TERMINATE, TERMINATE, TERMINATE, START, IDLE]);
    let end = start + 1 + run.len();
    (symbols.octets[end], symbols.marks[end]) = (by, prng.pick(&[1, 1, 2, 255]));
    for i in end + 1..n {
        let next = prng.pick(&[(START, 1), (START, 1), (IDLE, 1), (TERMINATE, 1), (0x55, 0)]);
        (symbols.octets[i], symbols.marks[i]) = next;
    }
    symbols
}

/// Any record of a reader; at times one that has a preamble, or tags behind it.
pub fn any_reader(prng: &mut Prng, s: &Settings) -> Plain {
    let mut wide = |bits: u32| prng.pick(&[0, 1 << bits, u64::MAX << bits]);
    let (place, start, register, count) = (wide(32), wide(32), wide(32), wide(16));
    let any = [(); 4].map(|()| prng.number() & 0xFFFF_FFFF);
    let low = any[0] & 0xFFFF;
    let places = [0, 1, 65_534, 65_535, 65_536, 65_537, any[0], low];
    let tags = prng.pick(&[0, 1, 2, 8]);
    let most = u64::from(s.limit) + 4 * tags as u64 + 7;
    let counts = [0, 6, 7, 10, 11, 52, 53, 70, 71, most, most + 1];
    let counts = [&counts[..], &[most + 4, 65_535, any[1]]].concat();
    let mut reader = Plain {
        numbers: [
            place | prng.pick(&places),
            prng.pick(&[0, 1, 1, 2, 256, 1 << 63]),
            start | any[2],
            count | (prng.pick(&counts) & 0xFFFF),
            register | any[3],
            prng.number(),
            prng.number(),
            prng.number(),
        ],
        first: [(); layout::FIRST].map(|()| prng.octet()),
        last: [(); layout::LAST].map(|()| prng.octet()),
        unused: [(); 7].map(|()| prng.octet()),
    };
    if prng.below(3) > 0 {
        reader.first[..7].copy_from_slice(&PREAMBLE);
        for n in 0..tags {
            reader.first[19 + 4 * n..][..2].copy_from_slice(&[0x81, 0]);
        }
    }
    reader
}
