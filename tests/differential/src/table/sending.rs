//! Sending: answers, buffers, places, room, timers; client, pause and PFC frames, Idles.
use super::{tags, with_tags, Table};
use crate::generate::{
    Sending, BEYOND_16_BITS, BEYOND_32_BITS, BEYOND_8_BITS, HIGHEST_BIT, RESERVED_GROUP, SYMBOLS,
};
use crate::seen::{Kind, SendingSeen};
use reference::{Client, Flow, Form, TagKind};

/// The sending calls and the refusals that each can give, in the order of their tests.
const KINDS: [(Kind, &str, &[u8]); 4] = [
    (Kind::Client, "client", &[1, 2, 3, 5, 6, 10, 7, 8, 9]),
    (Kind::Pause, "pause", &[1, 2, 3, 4, 8]),
    (Kind::Pfc, "PFC", &[1, 2, 3, 4, 8]),
    (Kind::Idle, "idle", &[2, 3, 8]),
];

pub fn rows(t: &mut Table) {
    answers(t);
    for (kind, call, _) in KINDS {
        buffers(t, kind, call);
        timers(t, kind, call);
    }
    for n in [0, 1, 2, 8] {
        types(t, n);
        data(t, n);
    }
    tag_kinds(t);
    too_many_tags(t);
    classes(t);
    flow_frames(t);
    sent_octets(t);
    idles(t);
}

/// Each answer of each call; refusals that hold together.
fn answers(t: &mut Table) {
    for (kind, call, refusals) in KINDS {
        t.sending(format!("{call}: written"), move |w| {
            w.kind() == kind && w.wrote().is_some()
        });
        for &refusal in refusals {
            t.sending(format!("{call}: refusal {refusal}"), move |w| {
                w.kind() == kind && w.refusal() == refusal
            });
        }
        for pair in refusals.windows(2) {
            let (first, second) = (pair[0], pair[1]);
            let name = format!("{call}: {first} and {second} hold: refusal {first}");
            t.sending(name, move |w| {
                w.kind() == kind && w.refusal() == first && w.holds(first) && w.holds(second)
            });
        }
    }
}

/// Buffers, places and room of a call.
fn buffers(t: &mut Table, kind: Kind, call: &str) {
    let mut row = |name: &str, test: fn(&SendingSeen) -> bool| {
        t.sending(format!("{call}: {name}"), move |w| {
            w.kind() == kind && test(w)
        });
    };
    row("65537 symbols: refusal 2", |w| {
        w.refusal() == 2 && w.lengths == (SYMBOLS + 1, SYMBOLS + 1)
    });
    row("one octet more than marks: refusal 2", |w| {
        w.refusal() == 2 && w.lengths.0 == w.lengths.1 + 1
    });
    row("one mark more than octets: refusal 2", |w| {
        w.refusal() == 2 && w.lengths.1 == w.lengths.0 + 1
    });
    row("place 0: written", |w| {
        w.place == 0 && w.wrote().is_some_and(|n| n > 0)
    });
    row("place the length: refusal 8", |w| {
        w.refusal() == 8 && w.place == w.lengths.0
    });
    row("place one beyond the length: refusal 3", |w| {
        w.refusal() == 3 && w.place == w.lengths.0 + 1
    });
    row("place 2^32: refusal 3", |w| {
        w.refusal() == 3 && w.place == BEYOND_32_BITS
    });
    row("place the greatest: refusal 3", |w| {
        w.refusal() == 3 && w.place == usize::MAX
    });
    row("room exactly enough: written", |w| {
        w.wrote().is_some_and(|n| n > 0 && n == w.room())
    });
    row("one symbol short: refusal 8", |w| {
        w.refusal() == 8 && w.needed() == Some(w.room() + 1)
    });
    row("up to the end of 65536 symbols: written", |w| {
        w.wrote().is_some_and(|n| n > 0 && w.place + n == SYMBOLS)
    });
}

/// Timers at the number of symbols that a call writes, and next to it.
fn timers(t: &mut Table, kind: Kind, call: &str) {
    let mut row = |name: &str, test: fn(&[u32; 8], u32) -> bool| {
        t.sending(format!("{call}: {name}: written"), move |w| {
            let written = w.wrote().filter(|&n| n > 1);
            w.kind() == kind && written.is_some_and(|n| test(&w.before.timers, n as u32))
        });
    };
    row("all timers 0", |timers, _| *timers == [0; 8]);
    row("a timer at 1", |timers, _| timers.contains(&1));
    row("a timer at one under the symbols", |timers, n| {
        timers.contains(&(n - 1))
    });
    row("a timer at the symbols", |timers, n| timers.contains(&n));
    row("a timer at one over the symbols", |timers, n| {
        timers.contains(&(n + 1))
    });
    row("a timer at 2^32 - 1", |timers, _| {
        timers.contains(&u32::MAX)
    });
    for (name, slots) in [("2^31", HIGHEST_BIT), ("2^32 - 1", u32::MAX)] {
        let name = format!("{call}: a timer at {name}: lowered by the symbols");
        t.sending(name, move |w| {
            let written = w.wrote().filter(|&n| n > 1);
            let mut timers = w.before.timers.iter().zip(&w.after.timers);
            w.kind() == kind
                && written.is_some_and(|n| {
                    timers.any(|(&before, &after)| before == slots && after == slots - n as u32)
                })
        });
    }
}

/// The types of client frames with so many tags.
fn types(t: &mut Table, n: usize) {
    let tags = with_tags(n);
    for field in [0, 1535, 0x8100, 0x8808, 0x88A8] {
        let name = format!("client: type {field:#06X}{tags}: refusal 6");
        t.sending(name, move |w| {
            w.refusal() == 6 && w.client(Some(n), |c, _| c.form == Form::Type(field))
        });
    }
    for field in [1536, 0x80FF, 0x8101, 0x8807, 0x8809, 0x88A7, 0x88A9, 0xFFFF] {
        let name = format!("client: type {field:#06X}{tags}: written");
        t.sending(name, move |w| {
            w.wrote().is_some() && w.client(Some(n), |c, _| c.form == Form::Type(field))
        });
    }
}

/// The kinds of the tags of client frames, from outside.
fn tag_kinds(t: &mut Table) {
    let kinds = [(0x8100_u16, TagKind::Customer), (0x88A8, TagKind::Service)];
    // does tag k have this kind, and does the frame that was written say so?
    let is = |w: &SendingSeen, c: &Client, k: usize, (field, kind): (u16, TagKind)| {
        c.tags[k].kind == kind && w.frame_has(12 + 4 * k, &field.to_be_bytes())
    };
    for outer in kinds {
        for n in [1, 2, 8] {
            let name = format!("client: {}, {:#06X} outermost: sent", tags(n), outer.0);
            t.sending(name, move |w| w.client(Some(n), |c, _| is(w, c, 0, outer)));
        }
        for inner in kinds {
            let name = format!(
                "client: 2 tags, {:#06X} outside {:#06X}: sent",
                outer.0, inner.0
            );
            t.sending(name, move |w| {
                w.client(Some(2), |c, _| is(w, c, 0, outer) && is(w, c, 1, inner))
            });
        }
    }
    t.sending("client: 8 tags: each control sent high octet first", |w| {
        w.client(Some(8), |c, _| {
            let mut tags = c.tags.iter().enumerate();
            tags.all(|(k, tag)| w.frame_has(14 + 4 * k, &tag.control.to_be_bytes()))
        })
    });
    for n in 3..=7 {
        t.sending(format!("client: {}: written", tags(n)), move |w| {
            w.wrote().is_some() && w.client(Some(n), |_, _| true)
        });
    }
}

/// More tags than a frame has, by themselves and with a type that is refused.
fn too_many_tags(t: &mut Table) {
    for n in [9, 255, BEYOND_8_BITS] {
        t.sending(format!("client: {}: refusal 10", tags(n)), move |w| {
            w.refusal() == 10 && w.client(Some(n), |_, _| !w.holds(7) && !w.holds(8))
        });
    }
    for field in [0x8100, 0x8808, 0x88A8] {
        let name = format!("client: type {field:#06X}, 9 tags: refusal 6");
        t.sending(name, move |w| {
            w.refusal() == 6 && w.client(Some(9), |c, _| c.form == Form::Type(field))
        });
    }
    for later in [8, 9] {
        let name = format!("client: 10 and {later} hold: refusal 10");
        t.sending(name, move |w| w.refusal() == 10 && w.holds(later));
    }
}

/// The data of client frames with so many tags, and the room that it takes.
fn data(t: &mut Table, n: usize) {
    let tag = with_tags(n);
    for (form, by_length) in [("length", true), ("type", false)] {
        let is = move |w: &SendingSeen, length: usize| {
            w.client(Some(n), |c, data| {
                (c.form == Form::Length) == by_length && data.len() == length
            })
        };
        for (length, untagged) in [
            (0, 84),
            (1, 84),
            (45, 84),
            (46, 84),
            (47, 85),
            (1499, 1537),
            (1500, 1538),
        ] {
            let symbols = untagged + 4 * n;
            let name = format!("client: {form} form{tag}, {length} octets: {symbols} symbols");
            t.sending(name, move |w| w.wrote() == Some(symbols) && is(w, length));
        }
        let name = format!("client: {form} form{tag}, {BEYOND_16_BITS} octets: refusal 7");
        t.sending(name, move |w| w.refusal() == 7 && is(w, BEYOND_16_BITS));
        if by_length {
            let name = format!("client: length form{tag}, 1501 octets: refusal 7");
            t.sending(name, move |w| w.refusal() == 7 && is(w, 1501));
        } else {
            for limit in [1518, 9618] {
                let most = usize::from(limit) - 18;
                let name = format!("client: type form{tag}, M {limit}, M - 18 octets: written");
                t.sending(name, move |w| {
                    w.s.limit == limit && w.wrote().is_some() && is(w, most)
                });
                let name = format!("client: type form{tag}, M {limit}, M - 17 octets: refusal 7");
                t.sending(name, move |w| {
                    w.s.limit == limit && w.refusal() == 7 && is(w, most + 1)
                });
            }
        }
    }
    let name = format!("client, {}: room exactly enough: written", tags(n));
    t.sending(name, move |w| {
        w.client(Some(n), |_, _| w.wrote() == Some(w.room()))
    });
    let name = format!("client, {}: one symbol short: refusal 8", tags(n));
    t.sending(name, move |w| {
        w.refusal() == 8 && w.client(Some(n), |_, _| w.needed() == Some(w.room() + 1))
    });
}

/// The classes of client frames, and their timers.
fn classes(t: &mut Table) {
    for class in 0..=7 {
        t.sending(format!("client: class {class}: written"), move |w| {
            w.wrote().is_some() && w.client(None, |c, _| c.class == class)
        });
        t.sending(format!("client: class {class}: refusal 9"), move |w| {
            w.refusal() == 9 && w.client(None, |c, _| c.class == class)
        });
    }
    for class in [8, 255] {
        t.sending(format!("client: class {class}: refusal 5"), move |w| {
            w.refusal() == 5 && w.client(None, |c, _| c.class == class)
        });
    }
    for slots in [1, 64, 4_194_240, HIGHEST_BIT, u32::MAX] {
        let name = format!("client: its timer at {slots}: refusal 9");
        t.sending(name, move |w| {
            w.refusal() == 9
                && w.client(None, |c, _| w.before.timers[usize::from(c.class)] == slots)
        });
    }
    t.sending("client: its timer 0, all others running: written", |w| {
        let running = w.before.timers.iter().filter(|&&slots| slots > 0);
        w.wrote().is_some() && running.count() == 7 && w.client(None, |_, _| true)
    });
    t.sending("client: its timer running, flow none: refusal 9", |w| {
        w.refusal() == 9 && w.s.flow == Flow::None
    });
}

/// Pause and PFC frames.
fn flow_frames(t: &mut Table) {
    for (kind, call, mode, flow) in [
        (Kind::Pause, "pause", "none", Flow::None),
        (Kind::Pause, "pause", "PFC", Flow::Pfc),
        (Kind::Pfc, "PFC", "none", Flow::None),
        (Kind::Pfc, "PFC", "pause", Flow::Pause),
    ] {
        t.sending(format!("{call}: flow {mode}: refusal 4"), move |w| {
            w.kind() == kind && w.refusal() == 4 && w.s.flow == flow
        });
    }
    for (kind, call) in [(Kind::Pause, "pause"), (Kind::Pfc, "PFC")] {
        let name = format!("{call}: every timer running: 84 symbols");
        t.sending(name, move |w| {
            w.kind() == kind && w.wrote() == Some(84) && !w.before.timers.contains(&0)
        });
    }
    for quanta in [0, 1, 65_535] {
        t.sending(format!("pause: {quanta} quanta: written"), move |w| {
            w.wrote().is_some() && matches!(w.call, Sending::Pause(q) if *q == quanta)
        });
    }
    for named in [0x00, 0x01, 0x80, 0xFF] {
        let name = format!("PFC: class octet {named:#04X}: written");
        t.sending(name, move |w| {
            w.wrote().is_some() && matches!(w.call, Sending::Pfc(n, _) if *n == named)
        });
    }
    t.sending("PFC: quanta for a class not named: written", |w| {
        let Sending::Pfc(named, quanta) = w.call else {
            return false;
        };
        let mut unnamed = (0..8).filter(|class| named >> class & 1 == 0);
        w.wrote().is_some() && unnamed.any(|class| quanta[class] > 0)
    });
}

/// What stands in frames that were written, octet by octet. The buffers had other octets before.
fn sent_octets(t: &mut Table) {
    for (kind, call, _) in KINDS.into_iter().filter(|(kind, ..)| *kind != Kind::Idle) {
        t.sending(format!("{call}: the source sent is own"), move |w| {
            let own = &w.s.own;
            w.kind() == kind && all_differ(own) && w.frame_has(6, own) && !w.frame_has(0, own)
        });
    }
    t.sending("client: the destination sent is the one asked", |w| {
        w.client(None, |c, _| all_differ(&c.dest) && w.frame_has(0, &c.dest))
    });
    for length in [0, 1, 45] {
        let name = format!("client: {length} octets: padding sent as zeros");
        t.sending(name, move |w| {
            let padding = &[0; 46][length..];
            w.client(Some(0), |_, data| {
                data.len() == length && w.frame_has(14, data) && w.frame_has(14 + length, padding)
            })
        });
    }
    let begins = |w: &SendingSeen, opcode: [u8; 2]| {
        w.frame_has(0, &RESERVED_GROUP) && w.frame_has(12, &[0x88, 0x08, opcode[0], opcode[1]])
    };
    t.sending("pause: quanta sent high octet first", move |w| {
        let Sending::Pause(quanta) = w.call else {
            return false;
        };
        let octets = quanta.to_be_bytes();
        octets[0] != octets[1] && begins(w, [0x00, 0x01]) && w.frame_has(16, &octets)
    });
    t.sending("pause: padding sent as zeros", move |w| {
        w.kind() == Kind::Pause && begins(w, [0x00, 0x01]) && w.frame_has(18, &[0; 42])
    });
    t.sending(
        "PFC: quanta of a class named sent high octet first",
        move |w| {
            pfc_class(w, |named, quanta, sent| {
                named && quanta[0] != quanta[1] && sent == quanta
            })
        },
    );
    t.sending("PFC: quanta of a class not named sent as zero", move |w| {
        pfc_class(w, |named, quanta, sent| {
            !named && quanta != [0, 0] && sent == [0, 0]
        })
    });
    t.sending("PFC: the unused octet sent as zero", move |w| {
        let Sending::Pfc(named, _) = w.call else {
            return false;
        };
        *named != 0 && begins(w, [0x01, 0x01]) && w.frame_has(16, &[0, *named])
    });
    t.sending("PFC: padding sent as zeros", move |w| {
        w.kind() == Kind::Pfc && begins(w, [0x01, 0x01]) && w.frame_has(34, &[0; 26])
    });
}

/// Six octets, none of which stands for another.
fn all_differ(address: &[u8; 6]) -> bool {
    (1..6).all(|i| !address[..i].contains(&address[i]))
}

/// Is this true of a class of a PFC frame that was written: whether it was named, its quanta high
/// octet first, and what was sent for it?
fn pfc_class(w: &SendingSeen, test: impl Fn(bool, [u8; 2], [u8; 2]) -> bool) -> bool {
    let Sending::Pfc(named, quanta) = w.call else {
        return false;
    };
    let sent = w.frame().get(18..34).unwrap_or_default();
    let mut classes = sent.chunks_exact(2).zip(quanta).enumerate();
    classes.any(|(class, (sent, quanta))| {
        test(
            named >> class & 1 == 1,
            quanta.to_be_bytes(),
            [sent[0], sent[1]],
        )
    })
}

/// Numbers of Idles.
fn idles(t: &mut Table) {
    let is = |w: &SendingSeen, n: usize| matches!(w.call, Sending::Idle(idles) if *idles == n);
    t.sending("idle: 0: written", move |w| {
        is(w, 0) && w.wrote() == Some(0)
    });
    t.sending("idle: 0 at the length: written", move |w| {
        is(w, 0) && w.wrote() == Some(0) && w.room() == 0
    });
    t.sending("idle: 65536: written", move |w| {
        is(w, SYMBOLS) && w.wrote() == Some(SYMBOLS)
    });
    for (name, n) in [
        ("2^32", BEYOND_32_BITS),
        ("the greatest number", usize::MAX),
    ] {
        t.sending(format!("idle: {name}: refusal 8"), move |w| {
            is(w, n) && w.refusal() == 8
        });
    }
    t.sending(
        "idle: place and number together over 2^64: refusal 8",
        |w| {
            let Sending::Idle(n) = w.call else {
                return false;
            };
            w.refusal() == 8 && w.place.checked_add(*n).is_none()
        },
    );
}
