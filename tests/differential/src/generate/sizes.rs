//! Captures for the size table, whose frames lie at the edges of its bands, and tables to add to.
use super::captures::{capture, longest_capture, tabled_capture, unequal};
use super::frames::{build, control, frame};
use super::listeners::{heard, Listener};
use super::{Symbols, ERROR, IDLE, PREAMBLE, START, TERMINATE};
use crate::prng::Prng;
use reference::{Settings, SizeTable};

/// Both sides of each band's edges, and 1522, which a tag makes of 1518.
const LENGTHS: [usize; 15] = [
    63, 64, 65, 127, 128, 255, 256, 511, 512, 1023, 1024, 1518, 1519, 1522, 1523,
];

/// A capture of one frame, or of a few; seldom any other.
pub fn sized_capture(prng: &mut Prng, s: &Settings, l: &Listener) -> Symbols {
    match prng.below(200) {
        0 => return tabled_capture(prng, s, l),
        1 => return longest_capture(prng),
        2..=9 => return capture(prng, s, l),
        _ => {}
    }
    let mut symbols = Symbols::default();
    let mark = prng.pick(&[1, 1, 1, 2, 128, 255]);
    for _ in 0..prng.pick(&[1, 1, 2, 6, 12]) {
        let idles = prng.pick(&[0, 1, 12]);
        let by = if prng.one_in(16) { ERROR } else { TERMINATE };
        let mut run = PREAMBLE.to_vec();
        run.extend(at_an_edge(prng, s, l));
        if prng.one_in(12) {
            // a wrong preamble or a wrong FCS, as often
            let last = prng.pick(&[PREAMBLE.len(), run.len()]);
            run[prng.below(last)] ^= prng.bit();
        }
        symbols.octets.extend(vec![IDLE; idles]);
        symbols.marks.extend(vec![1; idles]);
        symbols.octets.push(START);
        symbols.marks.push(mark);
        symbols.octets.extend(&run);
        symbols.marks.resize(symbols.octets.len(), 0);
        symbols.octets.push(by);
        symbols.marks.push(mark);
    }
    if prng.one_in(8) {
        // the capture ends anywhere
        let n = prng.below(symbols.octets.len());
        symbols.octets.truncate(n);
        symbols.marks.truncate(n);
    }
    if prng.one_in(32) {
        unequal(prng, &mut symbols);
    }
    symbols
}

/// A frame with the right FCS; most have a length at one side of an edge.
fn at_an_edge(prng: &mut Prng, s: &Settings, l: &Listener) -> Vec<u8> {
    match prng.below(8) {
        0..=1 => return control(prng, s, l),
        2 => return frame(prng, s, l),
        _ => {}
    }
    let tags = prng.pick(&[0, 0, 0, 1, 2, 8]);
    let length = prng.pick(&LENGTHS).max(18 + 4 * tags);
    // more of them to the own address than any reading asks for
    let to = if prng.coin() {
        s.own
    } else {
        heard(prng, s, l)
    };
    let data = prng.octets(length - 18 - 4 * tags);
    // a type; or a length, by which the data is padded, whole, or wrong
    let field = match prng.below(6) {
        0 => prng.pick(&[0, 3, 45]),
        1 => data.len() as u16,
        _ => 0x0800,
    };
    build(prng, to, tags, field, &data)
}

/// Counts that roll over soon, or at 32 bits, or any.
fn count(prng: &mut Prng) -> u64 {
    let (any, near) = (prng.number(), prng.below(3) as u64);
    let high = u64::from(u32::MAX);
    prng.pick(&[0, near, u64::MAX - near, high - near, any])
}

/// Any table.
pub fn sizes(prng: &mut Prng) -> SizeTable {
    SizeTable {
        frames: [(); 7].map(|()| count(prng)),
        octets: [(); 7].map(|()| count(prng).wrapping_sub(64)),
    }
}
