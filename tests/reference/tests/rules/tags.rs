//! "Stacked tags": runs of tags in frames that are read. What is sent with
//! them is in `sending`, how more than eight are refused in `refusals`.

use reference::Settings;

use crate::hand::{frame, outcome, ramp, see, tagged};
use crate::hand::{BROADCAST, LENGTH_RULE, MULTICAST, OTHER, OWN, PAUSE, PFC, PLAIN, RESERVED};

/// Bits 33 (exactly one tag) and 32 (two or more) of a frame with so many.
fn bits(n: usize) -> u64 {
    match n {
        0 => 0,
        1 => 1 << 33,
        _ => 1 << 32,
    }
}

#[test]
fn none_to_eight() {
    let all = Settings {
        promiscuous: true,
        ..PLAIN
    };
    for n in 0..=8 {
        for (dest, kind) in [(OWN, 38), (OTHER, 38), (MULTICAST, 37), (BROADCAST, 36)] {
            let seen = see(&all, &frame(dest, &tagged(n, 0x0800), &ramp(200)));
            let size = 218 + 4 * n as u64;
            assert_eq!(seen.status, 1 << kind | bits(n) | size << 16 | 200);
            assert_eq!((seen.outcome, seen.data), (11, ramp(200)));
        }
    }
}

#[test]
fn a_ninth_is_a_type() {
    for more in 0..4 {
        let octets = frame(OWN, &tagged(9 + more, 3), &ramp(46));
        let seen = see(&PLAIN, &octets);
        // the ninth tag's field is the type; all behind it is data
        let data = 46 + 4 * (1 + more);
        assert_eq!(seen.data, &octets[46..46 + data]);
        let status = 1 << 38 | 1 << 32 | (octets.len() as u64) << 16 | data as u64;
        assert_eq!((seen.outcome, seen.status), (11, status));
    }
}

#[test]
fn kinds_in_any_order() {
    let kinds = [0x8100, 0x88A8];
    // bit k of the choice is the kind of tag k
    for n in 1..=8 {
        for choice in 0..1usize << n {
            let tags = (0..n).flat_map(|k| [kinds[choice >> k & 1], 0x8100 + k as u16]);
            let header: Vec<u16> = tags.chain([10]).collect();
            let seen = see(&PLAIN, &frame(OWN, &header, &ramp(46)));
            assert_eq!((seen.outcome, seen.data), (11, ramp(10)));
            let size = 64 + 4 * n as u64;
            assert_eq!(seen.status, 1 << 38 | bits(n) | size << 16 | 10);
        }
    }
}

#[test]
fn tag_control_is_not_looked_at() {
    for control in [0x0000, 0x8100, 0x88A8, 0x8808, 0xFFFF] {
        let header = [0x88A8, control, 0x8100, control, 0x0800];
        let seen = see(&PLAIN, &frame(OWN, &header, &ramp(46)));
        assert_eq!((seen.outcome, seen.status), (11, 0x41_0048_002E));
        assert_eq!(seen.data, ramp(46));
    }
}

#[test]
fn near_kinds_are_types() {
    for field in [0x80FF, 0x8101, 0x88A7, 0x88A9, 0x9100] {
        for n in [0, 1, 7] {
            let octets = frame(OWN, &tagged(n, field), &ramp(60));
            let seen = see(&PLAIN, &octets);
            assert_eq!((seen.outcome, seen.data), (11, ramp(60)));
            assert_eq!(seen.status >> 32, 1 << 6 | bits(n) >> 32);
        }
    }
}

#[test]
fn limit_grows_by_four_for_each() {
    for limit in [1518, 1519, 9618] {
        let s = Settings { limit, ..PLAIN };
        for n in 0..=9 {
            // a ninth is none
            let most = usize::from(limit) + 4 * n.min(8);
            let sized = |len: usize| frame(OWN, &tagged(n, 0x0800), &ramp(len - 18 - 4 * n));
            assert_eq!(outcome(&s, &sized(most)), 11);
            assert_eq!(outcome(&s, &sized(most + 1)), 4);
            assert_eq!(outcome(&s, &sized(most + 4)), 4);
        }
    }
}

#[test]
fn length_rule_behind_the_last() {
    let s = Settings {
        limit: 9000,
        ..PLAIN
    };
    for n in 1..=8 {
        for (field, len, kept) in LENGTH_RULE {
            let seen = see(&s, &frame(OWN, &tagged(n, field), &ramp(len)));
            match kept {
                Some(handed) => assert_eq!((seen.outcome, seen.data), (11, ramp(handed))),
                None => assert_eq!(seen.outcome, 6, "{n} {field} {len}"),
            }
        }
        // Data under 46 is kept at the one length that a bridge leaves.
        for field in 0..=46 {
            for len in 46 - 4 * n..46 {
                let seen = see(&PLAIN, &frame(OWN, &tagged(n, field), &ramp(len)));
                if field < 46 && len == usize::from(field).max(46 - 4 * n) {
                    assert_eq!((seen.outcome, seen.data), (11, ramp(field.into())));
                } else {
                    assert_eq!(seen.outcome, 6, "{n} {field} {len}");
                }
            }
        }
    }
}

#[test]
fn one_tag_and_field_ten() {
    for (len, expected) in [(42, 11), (43, 6), (45, 6), (46, 11), (47, 6)] {
        let octets = frame(OWN, &tagged(1, 10), &ramp(len));
        assert_eq!(outcome(&PLAIN, &octets), expected, "{len}");
    }
}

#[test]
fn shortest_frames() {
    for n in 0..=8 {
        let data = ramp(46 - 4 * n);
        let octets = frame(OWN, &tagged(n, 0x0800), &data);
        assert_eq!(octets.len(), 64);
        let seen = see(&PLAIN, &octets);
        assert_eq!((seen.outcome, seen.data), (11, data));
    }
    // Nothing but tags from the addresses to the FCS.
    let octets = frame(OWN, &tagged(12, 0)[..24], &[]);
    assert_eq!(octets.len(), 64);
    let seen = see(&PLAIN, &octets);
    assert_eq!((seen.outcome, seen.status), (11, 0x41_0040_000E));
    assert_eq!(seen.data, &octets[46..60]);
}

#[test]
fn control_field_behind_tags_is_a_type() {
    let pause = [0, 1, 0, 9];
    let pfc = [1, 1, 0, 0xFF];
    for n in 1..=8 {
        for (s, start) in [(&PAUSE, pause), (&PFC, pfc)] {
            let mut data = start.to_vec();
            data.resize(46, 0);
            let to = |dest| frame(dest, &tagged(n, 0x8808), &data);
            let seen = see(s, &to(OWN));
            let status = 1 << 38 | bits(n) | (64 + 4 * n as u64) << 16 | 46;
            assert_eq!((seen.outcome, seen.status), (11, status));
            assert_eq!(seen.data, data);
            assert_eq!(outcome(s, &to(RESERVED)), 7);
        }
    }
}
