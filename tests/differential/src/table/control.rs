//! Control frames, timers set, status words and counters.
use super::{tags, Table};
use crate::generate::{BROADCAST, COUNTER_BIT, RESERVED_GROUP};
use crate::seen::FrameSeen;
use reference::Flow;

/// Opcodes.
const PAUSE: u16 = 0x0001;
const PFC: u16 = 0x0101;

const FLOWS: [(&str, Flow); 3] = [
    ("none", Flow::None),
    ("pause", Flow::Pause),
    ("PFC", Flow::Pfc),
];

pub fn rows(t: &mut Table) {
    to_us(t);
    to_others(t);
    behind_tags(t);
    pause_quanta(t);
    class_quanta(t);
    statuses(t);
    counters(t);
}

/// Has the frame this opcode, or one that is neither pause nor PFC?
fn has(f: &FrameSeen, opcode: Option<u16>) -> bool {
    match opcode {
        Some(opcode) => f.opcode() == opcode,
        None => f.opcode() != PAUSE && f.opcode() != PFC,
    }
}

const OPCODES: [(&str, Option<u16>); 3] = [
    ("pause", Some(PAUSE)),
    ("PFC", Some(PFC)),
    ("other control", None),
];

/// To the reserved group and to the own address, by opcode, flow mode and `pass control`.
fn to_us(t: &mut Table) {
    for (control, opcode) in OPCODES {
        for (mode, flow) in FLOWS {
            for (to, to_group) in [("the reserved group", true), ("own", false)] {
                let outcomes: &[u8] = match (opcode, flow, to_group) {
                    (Some(PAUSE), Flow::Pause, _) => &[8],
                    (Some(PFC), Flow::Pfc, true) => &[9],
                    _ => &[10, 11],
                };
                for &outcome in outcomes {
                    let name = format!("{control} to {to}, flow {mode}: {outcome}");
                    t.reading(name, move |r| {
                        let to = if to_group { RESERVED_GROUP } else { r.s.own };
                        r.s.flow == flow
                            && r.controlled(&[outcome], |f| f.to == to && has(f, opcode))
                    });
                }
            }
        }
    }
    for opcode in [0x0000, 0x0002, 0x0100, 0x0102] {
        let name = format!("opcode {opcode:#06X} to the reserved group: not taken");
        t.reading(name, move |r| {
            let near = |f: &FrameSeen| f.to == RESERVED_GROUP && f.opcode() == opcode;
            r.s.flow != Flow::None && r.controlled(&[10, 11], near)
        });
    }
}

/// To any other destination.
fn to_others(t: &mut Table) {
    for (control, opcode) in OPCODES {
        for outcome in [7, 10, 11] {
            let name = format!("{control} to another, in its flow mode: {outcome}");
            t.reading(name, move |r| {
                let its = if opcode == Some(PFC) {
                    Flow::Pfc
                } else {
                    Flow::Pause
                };
                let other = |f: &FrameSeen| r.to_others(&f.to) && has(f, opcode);
                r.s.flow == its && r.controlled(&[outcome], other)
            });
        }
    }
    t.reading("pause to a listed address, flow pause: not taken", |r| {
        let listed = |f: &FrameSeen| {
            f.opcode() == PAUSE && f.to != BROADCAST && r.to_others(&f.to) && r.listed(&f.to)
        };
        r.s.flow == Flow::Pause && r.controlled(&[10, 11], listed)
    });
    for (setting, on, outcomes) in [("on", true, &[10, 11][..]), ("off", false, &[7])] {
        let name = format!("pause to broadcast, which is {setting}: not taken");
        t.reading(name, move |r| {
            let broadcast = |f: &FrameSeen| f.opcode() == PAUSE && f.to == BROADCAST;
            r.s.flow == Flow::Pause
                && r.s.broadcast == on
                && !r.s.promiscuous
                && r.controlled(outcomes, broadcast)
        });
    }
}

/// Behind a tag 0x8808 is an ordinary type.
fn behind_tags(t: &mut Table) {
    for n in [1, 2, 8] {
        let tags = tags(n);
        for (control, opcode, flow) in [("pause", PAUSE, Flow::Pause), ("PFC", PFC, Flow::Pfc)] {
            let alike =
                move |f: &FrameSeen| f.tags == n && f.field == 0x8808 && f.opcode() == opcode;
            for outcome in [7, 11] {
                let name = format!("{control} behind {tags} to the reserved group: {outcome}");
                t.reading(name, move |r| {
                    r.s.flow == flow
                        && !r.s.pass_control
                        && r.is(outcome, |f| alike(f) && f.to == RESERVED_GROUP)
                });
            }
            let name = format!("{control} behind {tags} to own: 11, no timer set");
            t.reading(name, move |r| {
                r.s.flow == flow
                    && r.before.timers == r.after.timers
                    && r.is(11, |f| alike(f) && f.to == r.s.own)
            });
        }
    }
}

/// What pause frames set.
fn pause_quanta(t: &mut Table) {
    for (quanta, slots) in [(0, 0), (1, 64), (65_535, 4_194_240)] {
        t.reading(
            format!("pause of {quanta} quanta: {slots} slots"),
            move |r| r.is(8, |f| f.quanta() == quanta) && r.after.timers == [slots; 8],
        );
    }
    t.reading("pause of 0 quanta: running timers let go", |r| {
        r.is(8, |f| f.quanta() == 0) && r.before.timers[0] > 0
    });
    t.reading("pause of more than 64 octets: 8", |r| {
        r.is(8, |f| f.size > 64)
    });
}

/// What PFC frames set.
fn class_quanta(t: &mut Table) {
    let named = |f: &FrameSeen, class: usize| f.named() >> class & 1 == 1;
    for (quanta, slots) in [(0, 0), (1, 64), (65_535, 4_194_240)] {
        let name = format!("PFC of {quanta} quanta for a class named: {slots} slots");
        t.reading(name, move |r| {
            r.is(9, |f| {
                (0..8).any(|class| {
                    named(f, class)
                        && f.class_quanta(class) == quanta
                        && r.after.timers[class] == slots
                })
            })
        });
    }
    t.reading(
        "PFC with quanta for a class not named: its timer stays",
        move |r| {
            r.is(9, |f| {
                (0..8).any(|class| {
                    let timer = r.before.timers[class];
                    !named(f, class)
                        && f.class_quanta(class) > 0
                        && timer > 0
                        && r.after.timers[class] == timer
                })
            })
        },
    );
    for octet in [0x00, 0x01, 0x80, 0xFF] {
        t.reading(format!("PFC of class octet {octet:#04X}: 9"), move |r| {
            r.is(9, |f| f.named() == octet)
        });
    }
    t.reading("PFC whose unused octet is not 0: 9", |r| {
        r.is(9, |f| f.data[2] != 0)
    });
    t.reading("PFC of more than 64 octets: 9", |r| {
        r.is(9, |f| f.size > 64)
    });
}

/// The starred words, and each bit.
fn statuses(t: &mut Table) {
    for word in [0x2C_0040_002E, 0xA4_0040_002E, 0x40_0040_0000] {
        t.reading(format!("status {word:#012X}"), move |r| r.status == word);
    }
    for (bit, name) in [
        (39, "PFC taken"),
        (38, "unicast"),
        (37, "multicast"),
        (36, "broadcast"),
        (35, "pause taken"),
        (34, "control"),
        (33, "exactly one tag"),
        (32, "two tags or more"),
    ] {
        t.reading(format!("status bit {bit}, {name}"), move |r| {
            r.status >> bit & 1 == 1
        });
    }
}

/// Each counter's step from 2^64 - 1, into its highest bit, and past 32 bits.
fn counters(t: &mut Table) {
    for (step, from, to) in [
        ("rolls over to 0", u64::MAX, 0),
        (
            "goes on from 2^63 - 1 to 2^63",
            COUNTER_BIT - 1,
            COUNTER_BIT,
        ),
        ("goes on from 2^32 - 1 to 2^32", (1 << 32) - 1, 1 << 32),
    ] {
        for outcome in 1..=11 {
            let name = format!("counter of outcome {outcome} {step}");
            t.reading(name, move |r| {
                let i = usize::from(outcome - 1);
                r.outcome == outcome && (r.before.counters[i], r.after.counters[i]) == (from, to)
            });
        }
    }
}
