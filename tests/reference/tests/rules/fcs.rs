//! "FCS": the three ways against each other, against clause 3 as written and
//! against published values.

use reference::{fcs, fcs_update, Check};

use crate::hand::{clause_3, ramp, KINDS};

#[test]
fn published_values() {
    let ascending: Vec<u8> = (0..32).collect();
    let published: [(&[u8], u32); 13] = [
        (b"123456789", 0xCBF4_3926),
        (b"", 0x0000_0000),
        (b"a", 0xE8B7_BE43),
        (b"abc", 0x3524_41C2),
        (b"message digest", 0x2015_9D7F),
        (b"abcdefghijklmnopqrstuvwxyz", 0x4C27_50BD),
        (b"hello world", 0x0D4A_1185),
        (b"The quick brown fox jumps over the lazy dog", 0x414F_A339),
        (&[0x00; 4], 0x2144_DF1C),
        (&[0xFF; 4], 0xFFFF_FFFF),
        (&[0x00; 32], 0x190A_55AD),
        (&[0xFF; 32], 0xFF6C_AB0B),
        (&ascending, 0x9126_7E8A),
    ];
    for kind in KINDS {
        for (octets, value) in published {
            assert_eq!(fcs(kind, octets), value, "{kind:?} {octets:?}");
            assert_eq!(clause_3(octets), value.to_le_bytes());
        }
    }
}

#[test]
fn three_ways_agree() {
    let octets = ramp(1600);
    for len in (0..100).chain([255, 256, 257, 1514, 1599, 1600]) {
        for skip in 0..17.min(len + 1) {
            let part = &octets[skip..len];
            let check = clause_3(part);
            for kind in KINDS {
                assert_eq!(fcs(kind, part).to_le_bytes(), check);
            }
        }
    }
}

#[test]
fn update_goes_on_where_it_stopped() {
    let octets = ramp(80);
    for register in [0, 1, u32::MAX, 0x8000_0000, 0x1234_5678] {
        let whole = fcs_update(Check::Bitwise, register, &octets);
        for cut in 0..=octets.len() {
            let (first, second) = octets.split_at(cut);
            for kind in KINDS {
                let register = fcs_update(kind, register, first);
                assert_eq!(fcs_update(kind, register, second), whole);
            }
        }
    }
}

#[test]
fn residue() {
    let mut octets = ramp(77);
    octets.extend(clause_3(&octets));
    for kind in KINDS {
        assert_eq!(fcs_update(kind, u32::MAX, &octets), 0xDEBB_20E3);
    }
}
