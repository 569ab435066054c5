//! Tags, of frames to be read and of frames to be sent.
use super::{BEYOND_8_BITS, MOST_TAGS};
use crate::prng::Prng;
use reference::{Tag, TagKind};

/// The kinds of tags, as fields.
pub const TAG_KINDS: [u16; 2] = [0x8100, 0x88A8];

/// How many tags a frame has: often none or one, at times as many as it may have, or too many.
pub fn tag_count(prng: &mut Prng, too_many: &[usize]) -> usize {
    match prng.below(16) {
        0..=5 => 0,
        6..=9 => 1,
        10..=11 => 2,
        12 => prng.between(3, MOST_TAGS - 1),
        13..=14 => MOST_TAGS,
        _ => prng.pick(too_many),
    }
}

/// Any tag control; one in four would be a field that means something.
pub fn tag_control(prng: &mut Prng) -> u16 {
    let any = prng.number() as u16;
    match prng.below(4) {
        0 => prng.pick(&[0x0000, 0x8100, 0x88A8, 0x8808]),
        _ => any,
    }
}

/// Tags to send.
pub fn tags(prng: &mut Prng) -> Vec<Tag> {
    let n = tag_count(prng, &[9, 9, 10, 255, BEYOND_8_BITS]);
    let tag = |_| Tag {
        kind: prng.pick(&[TagKind::Customer, TagKind::Service]),
        control: tag_control(prng),
    };
    (0..n).map(tag).collect()
}
