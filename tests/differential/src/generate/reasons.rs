//! Captures of one Start, drawn so that its reason is at one side of a limit.
use super::captures::unequal;
use super::frames::{build, checked, control, frame};
use super::listeners::{heard, Listener};
use super::settings::station;
use super::{Symbols, ERROR, IDLE, PREAMBLE, SEQUENCE, START, TERMINATE};
use crate::prng::Prng;
use reference::Settings;

/// Numbers of tags.
const TAGS: [usize; 4] = [0, 1, 2, 8];
/// Fields at the edges of the length rule.
const FIELDS: [usize; 12] = [0, 14, 15, 42, 43, 45, 46, 47, 1499, 1500, 1501, 1535];

/// A capture with one Start, seldom with more or none.
pub fn explained_capture(prng: &mut Prng, s: &Settings, l: &Listener) -> Symbols {
    let (run, by) = run(prng, s, l);
    let idles = prng.pick(&[0, 0, 1, 5]);
    let mark = prng.pick(&[1, 1, 1, 2, 128, 255]);
    let mut symbols = Symbols {
        octets: [&vec![IDLE; idles][..], &[START], &run, &[by, IDLE]].concat(),
        marks: [
            &vec![1; idles][..],
            &[mark],
            &vec![0; run.len()],
            &[mark, 1],
        ]
        .concat(),
    };
    if prng.one_in(12) {
        // the capture ends anywhere
        let n = prng.below(symbols.octets.len() + 1);
        symbols.octets.truncate(n);
        symbols.marks.truncate(n);
    }
    if prng.one_in(32) {
        unequal(prng, &mut symbols);
    }
    symbols
}

/// A run and the control octet that ends it.
fn run(prng: &mut Prng, s: &Settings, l: &Listener) -> (Vec<u8>, u8) {
    match prng.below(16) {
        0 => (short(prng), TERMINATE),
        1 => (behind(wrong_preamble(prng), &frame(prng, s, l)), TERMINATE),
        2 => cut(prng, s, l),
        3 => (behind(PREAMBLE, &small(prng, s, l)), TERMINATE),
        4 => (behind(PREAMBLE, &large(prng, s, l)), TERMINATE),
        5..=6 => (behind(PREAMBLE, &miscounted(prng, s, l)), TERMINATE),
        7..=11 => (behind(PREAMBLE, &at_length_rule(prng, s, l)), TERMINATE),
        12..=13 => (behind(PREAMBLE, &control(prng, s, l)), TERMINATE),
        14 => (behind(PREAMBLE, &of_type(prng, s, l)), TERMINATE),
        _ => (behind(PREAMBLE, &frame(prng, s, l)), TERMINATE),
    }
}

fn behind(preamble: [u8; 7], frame: &[u8]) -> Vec<u8> {
    [&preamble, frame].concat()
}

/// One octet of seven is wrong, at times others behind it too.
fn wrong_preamble(prng: &mut Prng) -> [u8; 7] {
    let mut octets = PREAMBLE;
    let at = prng.below(7);
    octets[at] ^= prng.bit();
    if prng.coin() {
        for octet in &mut octets[at + 1..] {
            *octet = prng.octet();
        }
    }
    octets
}

/// Up to eight octets, right or not.
fn short(prng: &mut Prng) -> Vec<u8> {
    let preamble = if prng.coin() {
        PREAMBLE
    } else {
        wrong_preamble(prng)
    };
    let mut run = behind(preamble, &[prng.octet()]);
    run.truncate(prng.below(9));
    run
}

/// A frame, or what there is of it, ended by anything.
fn cut(prng: &mut Prng, s: &Settings, l: &Listener) -> (Vec<u8>, u8) {
    let preamble = if prng.coin() {
        PREAMBLE
    } else {
        wrong_preamble(prng)
    };
    let mut run = behind(preamble, &frame(prng, s, l));
    if prng.coin() {
        let n = prng.below(run.len() + 1);
        run.truncate(prng.pick(&[0, 6, 7, n]));
    }
    let any = prng.octet();
    let by = prng.pick(&[START, IDLE, ERROR, SEQUENCE, 0x55, any]);
    (run, by)
}

/// Both sides of 64, down to nothing.
fn small(prng: &mut Prng, s: &Settings, l: &Listener) -> Vec<u8> {
    let size = prng.pick(&[0, 1, 4, 17, 18, 62, 63, 63, 63, 64, 64, 65]);
    resized(prng, (s, l), 0, size)
}

/// Both sides of the limit, which grows by tag.
fn large(prng: &mut Prng, s: &Settings, l: &Listener) -> Vec<u8> {
    let tags = prng.pick(&TAGS);
    let limit = usize::from(s.limit).clamp(1518, 9618) + 4 * tags;
    let size = limit + prng.pick(&[0, 0, 1, 1, 4]);
    resized(prng, (s, l), tags, size)
}

/// A frame of this size whose field is a type; one in four with a wrong FCS.
fn resized(prng: &mut Prng, (s, l): (&Settings, &Listener), tags: usize, size: usize) -> Vec<u8> {
    if size < 4 {
        return prng.octets(size);
    }
    let to = heard(prng, s, l);
    let data = prng.octets(size);
    let mut octets = build(prng, to, tags, 0x0800, &data);
    octets.truncate(size - 4);
    let mut octets = checked(octets);
    if prng.one_in(4) {
        octets[size - 1] ^= prng.bit();
    }
    octets
}

/// A frame whose FCS is off, or whose octets are.
fn miscounted(prng: &mut Prng, s: &Settings, l: &Listener) -> Vec<u8> {
    let mut octets = if prng.coin() {
        of_type(prng, s, l)
    } else {
        at_length_rule(prng, s, l)
    };
    let n = octets.len();
    if n < 4 {
        return octets;
    }
    match prng.below(6) {
        0..=2 => octets[n - 1 - prng.below(4)] ^= prng.bit(),
        3 => octets[n - 4..].reverse(),
        4 => octets[n - 4..]
            .iter_mut()
            .for_each(|octet| *octet = !*octet),
        _ => octets[prng.below(n)] ^= prng.bit(),
    }
    octets
}

/// Field and data at the edges of the length rule, with so many tags; mostly to us.
fn at_length_rule(prng: &mut Prng, s: &Settings, l: &Listener) -> Vec<u8> {
    let tags = prng.pick(&TAGS);
    let least = 46 - 4 * tags;
    let field = match prng.below(3) {
        0 => prng.pick(&[0, least - 1, least, least + 1, 44, 45]),
        _ => prng.pick(&FIELDS),
    };
    let right = field.max(46);
    let shortest = field.max(least);
    let length = prng.pick(&[
        right,
        right,
        right - 1,
        right + 1,
        shortest,
        shortest - 1,
        shortest + 1,
        46,
        47,
    ]);
    let to = match prng.below(4) {
        0 => heard(prng, s, l),
        _ => s.own,
    };
    let data = prng.octets(length);
    build(prng, to, tags, field as u16, &data)
}

/// A type, to anybody.
fn of_type(prng: &mut Prng, s: &Settings, l: &Listener) -> Vec<u8> {
    let tags = prng.pick(&TAGS);
    let to = if prng.one_in(4) {
        station(prng)
    } else {
        heard(prng, s, l)
    };
    let data = prng.octets(46);
    build(prng, to, tags, 0x0800, &data)
}
