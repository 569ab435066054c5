//! Frames from destination to FCS, at the limits of the rules more often than not.
use super::listeners::{heard, heard_by_control, Listener};
use super::settings::station;
use super::tags::{tag_control, tag_count, TAG_KINDS};
use super::{IDLE, MOST_TAGS, START, TERMINATE};
use crate::prng::Prng;
use reference::{fcs, Check, Settings};

/// Fields that are types, next to those that mean something else.
const TYPES: [u16; 13] = [
    1536, 1537, 0x0800, 0x80FF, 0x8100, 0x8101, 0x8807, 0x8808, 0x8809, 0x88A7, 0x88A8, 0x88A9,
    0xFFFF,
];
/// Numbers of tags that are more than a frame has: the ninth is a type.
const TOO_MANY: [usize; 3] = [9, 10, 12];

/// A frame with the right FCS.
pub fn frame(prng: &mut Prng, s: &Settings, l: &Listener) -> Vec<u8> {
    match prng.below(24) {
        0..=8 => by_length(prng, s, l),
        9..=12 => by_type(prng, s, l),
        13..=19 => control(prng, s, l),
        _ => sized(prng, s, l),
    }
}

/// Closes a frame: the FCS goes behind what it covers.
pub(super) fn checked(mut covered: Vec<u8>) -> Vec<u8> {
    let check = fcs(Check::Slicing16, &covered);
    covered.extend(check.to_le_bytes());
    covered
}

/// Any data; one in three has octets that would be control symbols by another mark.
fn data(prng: &mut Prng, length: usize) -> Vec<u8> {
    let mut data = prng.octets(length);
    if length > 0 && prng.one_in(3) {
        for _ in 0..4 {
            let at = prng.below(length);
            data[at] = prng.pick(&[START, TERMINATE, IDLE, 0x55, 0xD5]);
        }
    }
    data
}

/// A frame of these parts, with so many tags of any kinds.
pub(super) fn build(prng: &mut Prng, to: [u8; 6], tags: usize, field: u16, data: &[u8]) -> Vec<u8> {
    let mut octets = Vec::with_capacity(data.len() + 18 + 4 * tags);
    octets.extend(to);
    octets.extend(station(prng));
    for _ in 0..tags {
        octets.extend(prng.pick(&TAG_KINDS).to_be_bytes());
        octets.extend(tag_control(prng).to_be_bytes());
    }
    octets.extend(field.to_be_bytes());
    octets.extend(data);
    checked(octets)
}

/// The field is a length, or would be one; the data is as long, or off by one.
fn by_length(prng: &mut Prng, s: &Settings, l: &Listener) -> Vec<u8> {
    let field = match prng.below(16) {
        0..=7 => prng.pick(&[0, 1, 14, 15, 42, 43, 44, 45, 46, 47]),
        8..=12 => prng.between(0, 160),
        13 => prng.pick(&[1501, 1535]),
        _ => prng.pick(&[1499, 1500, 1501, 1535]),
    };
    let tags = tag_count(prng, &TOO_MANY);
    let right = field.max(46);
    // what a bridge leaves: padded to 64 octets with the tags
    let shortest = field.max(46_usize.saturating_sub(4 * tags));
    let length = match prng.below(14) {
        0 | 1 => right + 1,
        2 | 3 => right - 1,
        4 => field,
        5 | 6 => shortest,
        7 => shortest + 1,
        8 => shortest.saturating_sub(1),
        9..=11 if field > 1500 => 46,
        _ => right,
    };
    let to = heard(prng, s, l);
    let data = data(prng, length);
    build(prng, to, tags, field as u16, &data)
}

/// The field is a type, a tag's or a control frame's.
fn by_type(prng: &mut Prng, s: &Settings, l: &Listener) -> Vec<u8> {
    let field = prng.pick(&TYPES);
    let length = match prng.below(4) {
        0 => 46,
        1 => prng.between(42, 50),
        _ => prng.between(46, 160),
    };
    let to = heard(prng, s, l);
    let tags = tag_count(prng, &TOO_MANY);
    let data = data(prng, length);
    build(prng, to, tags, field, &data)
}

/// Quanta at their limits.
pub fn quanta(prng: &mut Prng) -> u16 {
    let any = prng.number() as u16;
    prng.pick(&[0, 1, 2, u16::MAX, any])
}

/// A control frame: pause, PFC or another, seldom longer than it need be.
pub(super) fn control(prng: &mut Prng, s: &Settings, l: &Listener) -> Vec<u8> {
    let opcode: u16 = match prng.below(8) {
        0..=2 => 0x0001,
        3..=5 => 0x0101,
        6 => prng.pick(&[0x0000, 0x0002, 0x0100, 0x0102]),
        _ => prng.number() as u16,
    };
    let mut data = opcode.to_be_bytes().to_vec();
    if opcode == 0x0101 {
        let any = prng.octet();
        data.extend([
            prng.pick(&[0, any]),
            prng.pick(&[0x00, 0x01, 0x80, 0xFF, any]),
        ]);
        for _ in 0..8 {
            data.extend(quanta(prng).to_be_bytes());
        }
    } else {
        data.extend(quanta(prng).to_be_bytes());
    }
    let length = match prng.below(8) {
        0 => prng.between(46, 120),
        1 => 47,
        _ => 46,
    };
    let rest = length - data.len();
    if prng.coin() {
        data.extend(prng.octets(rest));
    } else {
        data.resize(length, 0);
    }
    let to = heard_by_control(prng, s, l);
    // three in four have none: behind a tag it is no control frame
    let tags = if prng.coin() {
        0
    } else {
        tag_count(prng, &TOO_MANY)
    };
    build(prng, to, tags, 0x8808, &data)
}

/// A frame of a size at the limits, down to nothing.
fn sized(prng: &mut Prng, s: &Settings, l: &Listener) -> Vec<u8> {
    let tags = tag_count(prng, &TOO_MANY);
    let limit = usize::from(s.limit).clamp(1518, 9618);
    // of a frame with so many tags
    let most = limit + 4 * tags.min(MOST_TAGS);
    let size = match prng.below(8) {
        0..=3 => prng.pick(&[62, 63, 63, 64, 64, 65]),
        4 => prng.below(64),
        5 => prng.pick(&[limit, limit + 1, limit + 4, limit + 5]),
        _ => prng.pick(&[most - 1, most, most, most + 1, most + 1, most + 4, most + 4]),
    };
    if size < 4 {
        return prng.octets(size);
    }
    let to = heard(prng, s, l);
    let field = prng.pick(&[0, 46, 0x0800, 0x0800, 0x0800, 0x8808]);
    let data = data(prng, size);
    let mut octets = build(prng, to, tags, field, &data);
    octets.truncate(size - 4);
    checked(octets)
}
