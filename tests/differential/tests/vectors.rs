//! The library's FCS, and the reference's, against published values of CRC-32.
use fenhamper::{fcs, Fcs, State};
use reference::Check;

/// Octets and their CRC-32.
const PUBLISHED: [(&[u8], u32); 17] = [
    // the check value that catalogues of checks give
    (b"123456789", 0xCBF4_3926),
    // the texts of RFC 1321's test suite
    (b"", 0x0000_0000),
    (b"a", 0xE8B7_BE43),
    (b"abc", 0x3524_41C2),
    (b"message digest", 0x2015_9D7F),
    (b"abcdefghijklmnopqrstuvwxyz", 0x4C27_50BD),
    (
        b"ABCDEFGHIJKLMNOPQRSTUVWXYZabcdefghijklmnopqrstuvwxyz0123456789",
        0x1FC2_E6D2,
    ),
    (
        b"12345678901234567890123456789012345678901234567890123456789012345678901234567890",
        0x7CA9_4A72,
    ),
    // others that are often quoted
    (b"hello world", 0x0D4A_1185),
    (b"The quick brown fox jumps over the lazy dog", 0x414F_A339),
    (&[0x00; 32], 0x190A_55AD),
    (&[0xFF; 32], 0xFF6C_AB0B),
    (&ASCENDING, 0x9126_7E8A),
    (&[0x00], 0xD202_EF8D),
    (&[0xFF], 0xFF00_0000),
    (&[0x00; 4], 0x2144_DF1C),
    (&[0xFF; 4], 0xFFFF_FFFF),
];

const ASCENDING: [u8; 32] = {
    let mut octets = [0; 32];
    let mut i = 0;
    while i < 32 {
        octets[i] = i as u8;
        i += 1;
    }
    octets
};

#[test]
fn published_values() {
    for (octets, value) in PUBLISHED {
        assert_eq!(fcs(octets), value, "library, {octets:02X?}");
        for check in [Check::Bitwise, Check::ByteTable, Check::Slicing16] {
            let reference = reference::fcs(check, octets);
            assert_eq!(reference, value, "reference, {check:?}, {octets:02X?}");
        }
    }
}

#[test]
fn published_values_in_pieces() {
    for (octets, value) in PUBLISHED {
        for cut in 0..=octets.len() {
            let (first, second) = octets.split_at(cut);
            let pieces = Fcs::new().update(first).update(second).finish();
            assert_eq!(pieces, value, "{first:02X?}, {second:02X?}");
        }
        let one_by_one = octets.chunks(1).fold(Fcs::new(), Fcs::update);
        assert_eq!(one_by_one.finish(), value, "{octets:02X?}");
    }
}

/// Octets followed by their FCS, low octet first, leave the same register, whatever they are.
#[test]
fn residue() {
    for (octets, value) in PUBLISHED {
        let whole = [octets, &value.to_le_bytes()].concat();
        assert_eq!(!fcs(&whole), 0xDEBB_20E3, "{octets:02X?}");
    }
}

#[test]
fn fresh_state_is_all_zeros() {
    let fresh = State::default();
    assert_eq!((fresh.counters(), fresh.timers()), ([0; 11], [0; 8]));
}
