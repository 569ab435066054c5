//! Settings, states and addresses.
use crate::prng::Prng;
use reference::{Flow, Settings, State};

/// All ones.
pub const BROADCAST: [u8; 6] = [0xFF; 6];
/// The destination of pause and PFC frames.
pub const RESERVED_GROUP: [u8; 6] = [0x01, 0x80, 0xC2, 0x00, 0x00, 0x01];

/// Any settings; one in fifteen is refused.
pub fn settings(prng: &mut Prng) -> Settings {
    let mut s = valid_settings(prng);
    while prng.one_in(16) {
        refuse(prng, &mut s);
    }
    s
}

/// Makes settings such that they are refused.
pub fn refuse(prng: &mut Prng, s: &mut Settings) {
    if prng.coin() {
        s.own = prng.pick(&[BROADCAST, RESERVED_GROUP, [1, 0, 0, 0, 0, 0], group(s.own)]);
    } else {
        s.limit = prng.pick(&[0, 1500, 1517, 9619, 9622, 65_535]);
    }
}

/// Settings that no call refuses.
pub fn valid_settings(prng: &mut Prng) -> Settings {
    let own = if prng.coin() {
        Settings::PRINTED.own
    } else {
        station(prng)
    };
    Settings {
        own,
        broadcast: prng.coin(),
        promiscuous: prng.one_in(5),
        checking: !prng.one_in(4),
        limit: match prng.below(16) {
            0..=6 => 1518,
            7..=9 => 1519,
            10..=11 => 9618,
            12 => prng.between(1518, 9618) as u16,
            _ => prng.pick(&[1522, 1523, 1536, 1600, 9617]),
        },
        flow: prng.pick(&[Flow::None, Flow::Pause, Flow::Pfc]),
        pass_control: prng.coin(),
    }
}

/// A number whose highest bit alone is set.
pub const HIGHEST_BIT: u32 = 1 << 31;
/// The same of a counter.
pub const COUNTER_BIT: u64 = 1 << 63;

/// Any state: counters about to roll over, to reach their highest bit or to pass 2^32, timers of all
/// sorts.
pub fn state(prng: &mut Prng) -> State {
    let narrow = u64::from(u32::MAX);
    let counters = match prng.below(6) {
        0 => [0; 11],
        1 => [u64::MAX; 11],
        2 => [COUNTER_BIT - 1; 11],
        3 => [narrow; 11],
        _ => [(); 11].map(|()| {
            let any = prng.number();
            let high = any & !narrow;
            prng.pick(&[
                0,
                1,
                narrow,
                high | narrow,
                COUNTER_BIT,
                u64::MAX - 1,
                u64::MAX,
                any,
            ])
        }),
    };
    let timers = match prng.below(3) {
        0 => [0; 8],
        _ => [(); 8].map(|()| {
            let any = prng.number() as u32;
            prng.pick(&[0, 0, 1, 64, 65_535 * 64, HIGHEST_BIT, u32::MAX, any])
        }),
    };
    State {
        counters,
        timers,
        deficit: deficit(prng),
    }
}

/// A deficit count, on both sides of 3.
pub fn deficit(prng: &mut Prng) -> u8 {
    match prng.below(16) {
        0..=11 => prng.below(4) as u8,
        12..=14 => prng.pick(&[4, 5]),
        _ => u8::MAX,
    }
}

/// Any address without the group bit.
pub fn station(prng: &mut Prng) -> [u8; 6] {
    let mut address = [(); 6].map(|()| prng.octet());
    address[0] &= !1;
    address
}

/// The same address with the group bit.
pub fn group(mut address: [u8; 6]) -> [u8; 6] {
    address[0] |= 1;
    address
}

/// The same address but for one bit.
pub fn near(prng: &mut Prng, mut address: [u8; 6]) -> [u8; 6] {
    address[prng.below(6)] ^= prng.bit();
    address
}

/// A destination that these settings have an opinion on.
pub fn destination(prng: &mut Prng, s: &Settings) -> [u8; 6] {
    match prng.below(16) {
        0..=6 => s.own,
        7..=9 => BROADCAST,
        10..=11 => RESERVED_GROUP,
        12 => near(prng, s.own),
        13 => near(prng, BROADCAST),
        14 => group(station(prng)),
        _ => station(prng),
    }
}
