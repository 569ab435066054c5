//! Records of the C face: each value in one of the ways that stand for it, and anything in what
//! stands for nothing.
use crate::prng::Prng;
use crate::raw;
use reference::{Client, Flow, Form, Port, Settings, State, TagKind};

/// An octet that is on: anything but 0.
fn on(prng: &mut Prng) -> u8 {
    let any = prng.between(1, 255) as u8;
    prng.pick(&[1, 2, 128, 255, any])
}

fn flag(prng: &mut Prng, is_on: bool) -> u8 {
    if is_on {
        on(prng)
    } else {
        0
    }
}

fn put(record: &mut [u8], at: usize, octets: &[u8]) {
    record[at..at + octets.len()].copy_from_slice(octets);
}

/// Octets that stand for these settings.
pub fn settings_record(prng: &mut Prng, s: &Settings) -> raw::Settings {
    let mut record = raw::Settings([0; raw::SETTINGS]);
    let octets = &mut record.0;
    for at in raw::SETTINGS_SPARE {
        octets[at] = prng.octet();
    }
    put(octets, raw::OWN, &s.own);
    octets[raw::BROADCAST] = flag(prng, s.broadcast);
    octets[raw::PROMISCUOUS] = flag(prng, s.promiscuous);
    octets[raw::CHECKING] = flag(prng, s.checking);
    octets[raw::PASS_CONTROL] = flag(prng, s.pass_control);
    octets[raw::FLOW] = match s.flow {
        Flow::Pause => 1,
        Flow::Pfc => 2,
        Flow::None => {
            let any = prng.between(3, 255) as u8;
            prng.pick(&[0, 3, 255, any])
        }
    };
    put(octets, raw::LIMIT, &raw::octets(s.limit));
    record
}

/// Octets that stand for this client frame; of more than eight tags only the number is said.
pub fn client_record(prng: &mut Prng, client: &Client) -> raw::Client {
    let mut record = raw::Client([0; raw::CLIENT]);
    let octets = &mut record.0;
    // what is not written below is not looked at
    let any = prng.octets(raw::CLIENT);
    put(octets, 0, &any);
    put(octets, raw::DESTINATION, &client.dest);
    octets[raw::CLASS] = client.class;
    match client.form {
        Form::Length => octets[raw::FORM] = 0,
        Form::Type(field) => {
            octets[raw::FORM] = on(prng);
            put(octets, raw::TYPE, &raw::octets(field));
        }
    }
    octets[raw::TAG_COUNT] = u8::try_from(client.tags.len()).unwrap_or(u8::MAX);
    for (k, tag) in client.tags.iter().take(raw::MOST_TAGS).enumerate() {
        let at = raw::TAGS + raw::TAG * k;
        octets[at + raw::TAG_KIND] = flag(prng, tag.kind == TagKind::Service);
        put(octets, at + raw::TAG_CONTROL, &raw::octets(tag.control));
    }
    record
}

/// An octet that stands for this port.
pub fn port_octet(prng: &mut Prng, port: Port) -> u8 {
    flag(prng, port == Port::FourLane)
}

/// Numbers that stand for this state: high bits of timers and spare ones are anything. The greatest
/// deficit count stands for all that an octet cannot say, 0 to 3 if high bits are lost among them.
pub fn state_record(prng: &mut Prng, state: &State) -> raw::State {
    let mut high = |low: u32| {
        let any = prng.number() as u32;
        let high = prng.pick(&[0, 1, 1 << 31, u32::MAX, any]);
        u64::from(high) << 32 | u64::from(low)
    };
    let mut record = [0; raw::STATE];
    record[raw::COUNTERS..][..11].copy_from_slice(&state.counters);
    record[raw::TIMERS..][..8].copy_from_slice(&state.timers.map(&mut high));
    record[raw::DEFICIT] = match state.deficit {
        u8::MAX => {
            let low = prng.below(4) as u64;
            let any = prng.number() | 1 << 8;
            prng.pick(&[
                255,
                1 << 8 | low,
                1 << 32 | low,
                1 << 63 | low,
                u64::MAX,
                any,
            ])
        }
        count => count.into(),
    };
    for spare in &mut record[raw::STATE_SPARE..] {
        let any = prng.number();
        *spare = prng.pick(&[0, 1, u64::MAX, any]);
    }
    record
}

/// Up to four octets of a record become anything: now it stands for something else, perhaps.
pub fn spoil(prng: &mut Prng, record: &mut [u8]) {
    for _ in 0..prng.between(1, 4) {
        let at = prng.below(record.len());
        record[at] = prng.octet();
    }
}
