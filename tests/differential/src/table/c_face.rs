//! Records of the C face that the Rust face cannot say.
use super::jobs::NO_JOBS;
use super::Table;
use crate::generate::{BROADCAST, HIGHEST_BIT, RESERVED_GROUP};
use crate::raw;
use crate::seen::{CSeen, FrameSeen, Kind, ReadingSeen};
use core::ops::Range;
use reference::Form;

/// What may stand for 1 and does not equal it: even, of the highest bit alone, odd.
pub const ON: [u8; 3] = [2, 128, 255];

/// The calls that take a state.
pub const CALLS: [&str; 11] = [
    "read",
    "walk",
    "walk_log",
    "client",
    "pause",
    "PFC",
    "idle",
    "counted client",
    "counted pause",
    "counted PFC",
    "counted idle",
];

/// The timers among a state's numbers.
const TIMERS: Range<usize> = raw::TIMERS..raw::DEFICIT;

pub fn rows(t: &mut Table) {
    flags(t);
    flows(t);
    jobs(t);
    spare_octets(t);
    high_bits(t);
    refused_states(t);
    client_octets(t);
    tags(t);
}

/// The four flags: 0 is off, anything else on.
fn flags(t: &mut Table) {
    let broadcast = |r: &ReadingSeen, outcome: u8| {
        !r.s.promiscuous && r.addressed(outcome, |to| *to == BROADCAST)
    };
    let checked = |r: &ReadingSeen, outcome: u8| r.is(outcome, |f| f.length_broken());
    let control = |r: &ReadingSeen, outcome: u8| r.is(outcome, |f| f.control());
    let other = |r: &ReadingSeen, outcome: u8| {
        r.addressed(outcome, |to| {
            *to != BROADCAST && r.to_others(to) && !r.listed(to)
        })
    };
    type Shows = fn(&ReadingSeen, u8) -> bool;
    // where the flag stands, what shows it, and the outcomes if it is on and if it is off
    let flags: [(&str, usize, Shows, u8, u8); 4] = [
        ("broadcast", raw::BROADCAST, broadcast, 11, 7),
        ("promiscuous", raw::PROMISCUOUS, other, 11, 7),
        ("checking", raw::CHECKING, checked, 6, 11),
        ("pass control", raw::PASS_CONTROL, control, 11, 10),
    ];
    for (flag, at, shows, on, off) in flags {
        for (value, outcome) in ON.into_iter().map(|v| (v, on)).chain([(0, off)]) {
            t.c(format!("C: {flag} is {value}: {outcome}"), move |c| {
                c.settings.0[at] == value && c.read(|r| shows(r, outcome))
            });
        }
    }
}

/// The flow mode: 1 is pause, 2 is PFC, anything else none.
fn flows(t: &mut Table) {
    for value in [0, 3, 255] {
        for (call, kind) in [("pause", Kind::Pause), ("PFC", Kind::Pfc)] {
            t.c(format!("C: flow is {value}: {call}: refusal 4"), move |c| {
                c.settings.0[raw::FLOW] == value && c.sent(|w| w.kind() == kind && w.refusal() == 4)
            });
        }
        for (control, opcode) in [("pause", 0x0001), ("PFC", 0x0101)] {
            let name = format!("C: flow is {value}: {control} to the reserved group: not taken");
            t.c(name, move |c| {
                let taken = |f: &FrameSeen| f.to == RESERVED_GROUP && f.opcode() == opcode;
                c.settings.0[raw::FLOW] == value && c.read(|r| r.controlled(&[10, 11], taken))
            });
        }
    }
    for (value, call, kind) in [(1, "pause", Kind::Pause), (2, "PFC", Kind::Pfc)] {
        t.c(format!("C: flow is {value}: {call}: written"), move |c| {
            c.settings.0[raw::FLOW] == value && c.sent(|w| w.kind() == kind && w.wrote().is_some())
        });
    }
    for (outcome, value) in [(8, 1), (9, 2)] {
        t.c(format!("C: flow is {value}: {outcome}"), move |c| {
            c.settings.0[raw::FLOW] == value && c.read(|r| r.outcome == outcome)
        });
    }
}

/// Jobs, in the calls that read: refusal 14 comes right after 1.
fn jobs(t: &mut Table) {
    let calls: [(&str, &[u8]); 3] = [
        ("read", &[2, 3, 20]),
        ("walk", &[2, 20]),
        ("walk_log", &[2, 3, 20, 11]),
    ];
    for (call, later) in calls {
        for job in 0..2 {
            t.c(format!("C: {call}: job {job}: taken"), move |c| {
                let reads = c.listening().is_some_and(|(of, _)| of == job);
                c.name() == call && reads && c.refusal() == 0
            });
        }
        for job in NO_JOBS {
            t.c(format!("C: {call}: job {job}: refusal 14"), move |c| {
                let reads = c.listening().is_some_and(|(of, _)| of == job);
                c.name() == call && reads && c.refusal() == 14
            });
        }
        let pairs = later.iter().map(|&second| (14, second));
        for (first, second) in [(1, 14)].into_iter().chain(pairs) {
            let name = format!("C: {call}: {first} and {second} hold: refusal {first}");
            t.c(name, move |c| {
                c.name() == call && c.refusal() == first && c.holds(first) && c.holds(second)
            });
        }
    }
}

/// Octets that are not looked at.
fn spare_octets(t: &mut Table) {
    for at in raw::SETTINGS_SPARE {
        t.c(
            format!("C: settings, octet {at} is not 0: taken"),
            move |c| c.settings.0[at] != 0 && c.read(|r| r.outcome > 0),
        );
    }
    t.c("C: client, the spare octet is not 0: written", |c| {
        c.client(|record, _| record[raw::CLIENT_SPARE] != 0)
    });
}

/// Counters are read whole; of timers the low 32 bits are read, and the rest is written as 0; spare
/// numbers are not looked at, and written as 0.
fn high_bits(t: &mut Table) {
    let high = |number: u64| number >> 32 != 0;
    for outcome in 1..=11 {
        let i = raw::COUNTERS + usize::from(outcome - 1);
        let name = format!("C: counter of outcome {outcome} has high bits: counted with them");
        t.c(name, move |c| {
            let next = c.before[i].wrapping_add(1);
            high(c.before[i]) && c.after[i] == next && c.read(|r| r.outcome == outcome)
        });
        let name = format!("C: counter of outcome {outcome}, low bits all ones: a high one rises");
        t.c(name, move |c| {
            let most = c.before[i] as u32 == u32::MAX && c.before[i] != u64::MAX;
            most && c.after[i] == c.before[i] + 1 && c.read(|r| r.outcome == outcome)
        });
    }
    let its_timer = |c: &CSeen| {
        let record = c.client.filter(|record| record.0[raw::CLASS] < 8)?;
        Some(c.before[raw::TIMERS + usize::from(record.0[raw::CLASS])])
    };
    t.c(
        "C: client: its timer has high bits alone: written",
        move |c| its_timer(c).is_some_and(|n| high(n) && n as u32 == 0) && c.client(|_, _| true),
    );
    t.c("C: client: its timer is at 2^31: refusal 9", move |c| {
        let at = its_timer(c).is_some_and(|n| n as u32 == HIGHEST_BIT);
        at && c.sent(|w| w.refusal() == 9)
    });
    for call in ["client", "pause", "PFC", "idle"] {
        let name = format!("C: {call}: a timer at 2^31 and high bits: lowered by the symbols");
        t.c(name, move |c| {
            c.name() == call
                && c.sent(|w| {
                    let n = w.wrote().unwrap_or(0) as u64;
                    TIMERS.into_iter().any(|i| {
                        let low = u64::from(HIGHEST_BIT);
                        let at = high(c.before[i]) && c.before[i] as u32 == HIGHEST_BIT;
                        n > 1 && at && c.after[i] == low - n
                    })
                })
        });
    }
    for call in CALLS {
        t.c(
            format!("C: {call}: all high bits of timers written as 0"),
            move |c| {
                c.name() == call
                    && c.refusal() == 0
                    && c.before[TIMERS].iter().any(|&n| high(n))
                    && !c.after[TIMERS].iter().any(|&n| high(n))
            },
        );
    }
    for (end, none) in [("none", true), ("open", false)] {
        t.c(
            format!("C: read: {end}: high bits of timers written as 0"),
            move |c| {
                c.before[TIMERS].iter().any(|&n| high(n))
                    && !c.after[TIMERS].iter().any(|&n| high(n))
                    && c.read(|r| if none { r.none() } else { r.open() })
            },
        );
    }
    for i in raw::STATE_SPARE..raw::STATE {
        t.c(
            format!("C: number {i} of a state is not 0: written as 0"),
            move |c| c.refusal() == 0 && c.before[i] != 0 && c.after[i] == 0,
        );
    }
}

/// A refused call leaves the state's numbers as they were, to the bit.
fn refused_states(t: &mut Table) {
    let stays = |c: &CSeen| {
        let high = |part: &[u64]| part.iter().any(|&n| n >> 32 != 0);
        c.before == c.after
            && high(&c.before[raw::COUNTERS..raw::TIMERS])
            && high(&c.before[raw::TIMERS..raw::DEFICIT])
            && c.before[raw::STATE_SPARE..].iter().any(|&n| n != 0)
    };
    for call in CALLS {
        t.c(
            format!("C: {call}: refused: every number stays"),
            move |c| c.name() == call && c.refusal() > 0 && stays(c),
        );
    }
    for refusal in (1..=11).chain([14, 19, 20]) {
        t.c(
            format!("C: refusal {refusal}: every number stays"),
            move |c| c.refusal() == refusal && !c.counted(|_| true) && stays(c),
        );
    }
    for refusal in (1..=10).chain([19, 21, 22]) {
        t.c(
            format!("C: with totals: refusal {refusal}: every number stays"),
            move |c| c.refusal() == refusal && c.counted(|_| true) && stays(c),
        );
    }
}

/// A record's number as it goes on the line, high octet first.
fn on_line(record: &[u8], at: usize) -> [u8; 2] {
    raw::number([record[at], record[at + 1]]).to_be_bytes()
}

/// The form of a client frame: 0 is the data's length, anything else a type.
fn client_octets(t: &mut Table) {
    for value in ON {
        t.c(format!("C: form is {value}: the type sent"), move |c| {
            c.client(|record, w| {
                let field = on_line(record, raw::TYPE);
                let at = 12 + 4 * usize::from(record[raw::TAG_COUNT]);
                // no length has so high an octet
                record[raw::FORM] == value
                    && field[0] > 5
                    && field[0] != field[1]
                    && w.frame_has(at, &field)
            })
        });
    }
    t.c("C: form is 0, the type is not: the length sent", |c| {
        c.client(|record, w| {
            let kind = &record[raw::TYPE..raw::TYPE + 2];
            let at = 12 + 4 * usize::from(record[raw::TAG_COUNT]);
            record[raw::FORM] == 0
                && kind != [0, 0]
                && w.client(None, |client, data| {
                    client.form == Form::Length
                        && w.frame_has(at, &(data.len() as u16).to_be_bytes())
                })
        })
    });
}

/// Tags: the kind is 0x8100 for 0 and 0x88A8 for anything else; those beyond the count are not
/// looked at.
fn tags(t: &mut Table) {
    let kinds = ON.map(|value| (value, [0x88, 0xA8]));
    for (value, kind) in kinds.into_iter().chain([(0, [0x81, 0x00])]) {
        for k in [0, 7] {
            let name = format!(
                "C: kind of tag {k} is {value}: {:02X}{:02X} sent",
                kind[0], kind[1]
            );
            t.c(name, move |c| {
                c.client(|record, w| {
                    let tag = &record[raw::TAGS + raw::TAG * k..][..raw::TAG];
                    let control = on_line(tag, raw::TAG_CONTROL);
                    usize::from(record[raw::TAG_COUNT]) > k
                        && tag[raw::TAG_KIND] == value
                        && tag[raw::TAG_SPARE] != 0
                        && control[0] != control[1]
                        && w.frame_has(12 + 4 * k, &[kind, control].concat())
                })
            });
        }
    }
    for n in [0, 1, 7] {
        let name = format!("C: {n} tags count, octets of others are not 0: not sent");
        t.c(name, move |c| {
            c.client(|record, w| {
                let beyond = &record[raw::TAGS + raw::TAG * n..];
                usize::from(record[raw::TAG_COUNT]) == n
                    && beyond.iter().any(|&octet| octet != 0)
                    && w.wrote() == w.needed()
            })
        });
    }
    for n in [9, 255] {
        t.c(format!("C: {n} tags: refusal 10"), move |c| {
            let counted = c.client.is_some_and(|record| record.0[raw::TAG_COUNT] == n);
            counted && c.refusal() == 10
        });
    }
}
