//! Starts per stretch: the sending calls and Idle fill that keep the totals. Each row is hit through
//! both faces.
use super::totals::{HIGH, LENGTHS};
use super::Table;
use crate::generate::{Sending, START, SYMBOLS};
use crate::seen::{Kind, SendingSeen};
use crate::seen_totals::{TotalsSeen, BLOCK};
use reference::Port;

/// The calls, and the refusals that each can give, in the order of their tests.
const CALLS: [(Kind, &str, &[u8]); 4] = [
    (
        Kind::Client,
        "client",
        &[1, 2, 3, 19, 21, 22, 5, 6, 10, 7, 8, 9],
    ),
    (Kind::Pause, "pause", &[1, 2, 3, 19, 21, 22, 4, 8]),
    (Kind::Pfc, "PFC", &[1, 2, 3, 19, 21, 22, 4, 8]),
    (Kind::Idle, "idle", &[2, 3, 21, 22, 8]),
];

pub fn rows(t: &mut Table) {
    for (kind, call, refusals) in CALLS {
        answers(t, kind, call, refusals);
        numbers(t, kind, call);
        values(t, kind, call);
        edges(t, kind, call);
        ends(t, kind, call);
        starts(t, kind, call);
        rows_of_calls(t, kind, call);
        if kind != Kind::Idle {
            four_lanes(t, kind, call);
        }
    }
    many_blocks(t);
    data_octets(t);
    no_idles(t);
}

/// Something was written, and each total is right.
fn wrote(s: &TotalsSeen, kind: Kind) -> bool {
    s.sent(kind).is_some() && !s.blocks.is_empty() && s.right()
}

/// The same, if this is true of the sending.
fn wrote_so(s: &TotalsSeen, kind: Kind, test: impl FnOnce(&SendingSeen) -> bool) -> bool {
    wrote(s, kind) && s.sent(kind).is_some_and(test)
}

/// The place behind what was written.
fn end(w: &SendingSeen) -> usize {
    w.place + w.wrote().unwrap_or(0)
}

/// Each answer, and refusals that hold together. A class above 7 has no timer, so that 5 and 9 never
/// do.
fn answers(t: &mut Table, kind: Kind, call: &str, refusals: &'static [u8]) {
    t.totals(format!("counted {call}: true totals stay true"), move |s| {
        wrote(s, kind) && s.before.len() > 1 && s.all_true() && s.after == s.are
    });
    for (i, &first) in refusals.iter().enumerate() {
        let name = format!("counted {call}: refusal {first}: every total stays, false ones too");
        t.totals(name, move |s| {
            let is_false = |w: &SendingSeen| match (first, kind) {
                (2, _) | (3, Kind::Idle) => !s.all_true(),
                // that of the place, which could have been counted
                _ => w.room() > 0 && s.is_false(w.place / BLOCK),
            };
            s.refusal == first && s.stays() && s.sent(kind).is_some_and(is_false)
        });
        for &second in &refusals[i + 1..] {
            if (first, second) == (5, 9) {
                continue;
            }
            let name = format!("counted {call}: {first} and {second} hold: refusal {first}");
            t.totals(name, move |s| {
                s.sent(kind).is_some() && s.refusal == first && s.holds(first) && s.holds(second)
            });
        }
    }
}

/// Captures by their length, and numbers of totals that are refused.
fn numbers(t: &mut Table, kind: Kind, call: &str) {
    let long = move |s: &TotalsSeen, length: usize| {
        s.sent(kind).is_some_and(|w| w.lengths == (length, length))
    };
    for length in LENGTHS.into_iter().filter(|&n| n > 1) {
        let totals = length.div_ceil(BLOCK);
        let name = format!("counted {call}: {length} symbols: written, every total right");
        t.totals(name, move |s| {
            long(s, length) && wrote(s, kind) && s.before.len() == totals
        });
        if length == SYMBOLS {
            continue;
        }
        for (name, number) in [("fewer", totals - 1), ("more", totals + 1)] {
            let name = format!("counted {call}: {length} symbols, one total {name}: refusal 21");
            t.totals(name, move |s| {
                long(s, length) && s.before.len() == number && s.refusal == 21 && s.stays()
            });
        }
    }
    t.totals(
        format!("counted {call}: 65537 symbols: refusal 2"),
        move |s| long(s, SYMBOLS + 1) && s.refusal == 2 && s.stays(),
    );
}

/// 256 is taken and more is not, wherever it stands; false totals up to 256 are not seen.
fn values(t: &mut Table, kind: Kind, call: &str) {
    type Stands = fn(usize, usize) -> bool;
    let places: [(&str, Stands); 3] = [
        ("in front", |k, of| k < of),
        ("of the place's block", |k, of| k == of),
        ("behind", |k, of| k > of),
    ];
    for (name, stands) in places {
        for total in [256].into_iter().chain(HIGH) {
            let high = total > 256;
            let answer = if high { "refusal 22" } else { "written" };
            let name = format!("counted {call}: {total} {name}: {answer}");
            t.totals(name, move |s| {
                let Some(w) = s.sent(kind) else {
                    return false;
                };
                let mut totals = s.before.iter().enumerate();
                let is = totals.any(|(k, &of)| of == total && stands(k, w.place / BLOCK));
                let answered = if high {
                    s.refusal == 22 && s.stays()
                } else {
                    wrote(s, kind)
                };
                is && answered
            });
        }
    }
    let name = format!("counted {call}: false totals of other blocks: stay");
    t.totals(name, move |s| {
        let others = (0..s.before.len()).filter(|k| !s.blocks.contains(k));
        wrote(s, kind) && others.into_iter().any(|k| s.is_false(k) && !s.anew(k))
    });
    let name = format!("counted {call}: false totals of its blocks: counted anew");
    t.totals(name, move |s| {
        wrote(s, kind) && s.blocks.clone().all(|k| s.is_false(k) && s.anew(k))
    });
}

/// Where what is written begins and ends. All totals are false before, so that one counted too many
/// or too few shows.
fn edges(t: &mut Table, kind: Kind, call: &str) {
    let mut row = |name: &str, test: fn(&TotalsSeen, &SendingSeen) -> bool| {
        t.totals(format!("counted {call}: {name}"), move |s| {
            s.all_false() && wrote_so(s, kind, |w| test(s, w))
        });
    };
    row("inside one of several blocks: its total alone", |s, w| {
        let inside = w.place % BLOCK > 0 && !end(w).is_multiple_of(BLOCK);
        s.blocks.len() == 1 && s.before.len() > 1 && inside
    });
    row("into two blocks: their totals alone", |s, _| {
        s.blocks.len() == 2 && s.before.len() > 2
    });
    row(
        "begins at a block's edge: the total before stays",
        |_, w| w.place % BLOCK == 0 && w.place > 0,
    );
    row("begins one before an edge: that total too", |s, w| {
        w.place % BLOCK == 255 && (s.blocks.len() > 1 || w.wrote() == Some(1))
    });
    row("begins one behind an edge: that total too", |_, w| {
        w.place % BLOCK == 1
    });
    row("ends at a block's edge: the total behind stays", |_, w| {
        end(w).is_multiple_of(BLOCK) && end(w) < w.lengths.0
    });
    row("ends one before an edge: that total too", |_, w| {
        end(w) % BLOCK == 255
    });
    row("ends one behind an edge: that total too", |s, w| {
        end(w) % BLOCK == 1 && (s.blocks.len() > 1 || w.wrote() == Some(1))
    });
}

/// Up to the end of captures of whole blocks and of others.
fn ends(t: &mut Table, kind: Kind, call: &str) {
    for (name, rest) in [
        ("whole blocks", 0),
        ("a last block of 1", 1),
        ("a last block of 255", 255),
    ] {
        let name = format!("counted {call}: up to the end, {name}: the last total anew");
        t.totals(name, move |s| {
            wrote_so(s, kind, |w| {
                let ends = end(w) == w.lengths.0 && w.lengths.0 % BLOCK == rest;
                ends && s.is_false(s.before.len().saturating_sub(1))
            })
        });
    }
    let name = format!("counted {call}: into a last short block: its total anew");
    t.totals(name, move |s| {
        wrote_so(s, kind, |w| {
            let last = s.before.len().saturating_sub(1);
            w.lengths.0 % BLOCK > 1 && s.blocks.contains(&last) && s.is_false(last)
        })
    });
}

/// Starts that are written, and Starts that are written over.
fn starts(t: &mut Table, kind: Kind, call: &str) {
    let mut row = |name: &str, test: fn(u16, u16) -> bool| {
        t.totals(format!("counted {call}: {name}"), move |s| {
            s.all_true()
                && wrote_so(s, kind, |w| {
                    let total = |totals: &[u16]| totals.get(w.place / BLOCK).copied();
                    let both = total(s.before).zip(total(s.after));
                    both.is_some_and(|(before, after)| test(before, after))
                })
        });
    };
    row(
        "Starts are written over: its total falls",
        |before, after| after < before,
    );
    if kind == Kind::Idle {
        row("the last Start is written over: 0", |before, after| {
            before > 0 && after == 0
        });
    } else {
        row("the first Start of a block: 1", |before, after| {
            before == 0 && after == 1
        });
        row("another Start of a block: one more", |before, after| {
            before > 0 && after == before + 1
        });
    }
}

/// Call after call on one capture.
fn rows_of_calls(t: &mut Table, kind: Kind, call: &str) {
    for calls in [1, 5, 10] {
        let name = format!("counted {call}: {calls} calls or more before it: every total true");
        t.totals(name, move |s| {
            wrote(s, kind) && s.earlier >= calls && s.before.len() > 1 && s.after == s.are
        });
    }
}

/// Frames on the four-lane port.
fn four_lanes(t: &mut Table, kind: Kind, call: &str) {
    let is = move |s: &TotalsSeen, test: fn(&SendingSeen) -> bool| {
        s.all_false() && wrote_so(s, kind, |w| w.port == Port::FourLane && test(w))
    };
    let name = format!("counted {call}, four lanes: written, every total right");
    t.totals(name, move |s| is(s, |_| true));
    let name = format!("counted {call}, four lanes: begins at a block's edge");
    t.totals(name, move |s| {
        is(s, |w| w.place > 0 && w.place % BLOCK == 0)
    });
    let name = format!("counted {call}, four lanes: ends at a block's edge");
    t.totals(name, move |s| {
        is(s, |w| end(w).is_multiple_of(BLOCK) && end(w) < w.lengths.0)
    });
}

/// Client frames and Idles take many blocks, or just one.
fn many_blocks(t: &mut Table) {
    for (kind, call) in [(Kind::Client, "client"), (Kind::Idle, "idle")] {
        for blocks in [3, 4] {
            let name = format!("counted {call}: into {blocks} blocks: their totals alone");
            t.totals(name, move |s| {
                wrote(s, kind) && s.all_false() && s.blocks.len() == blocks
            });
        }
        for (name, blocks) in [
            ("a whole block: its total", 1),
            ("2 whole blocks: their totals", 2),
        ] {
            let name = format!("counted {call}: exactly {name} alone");
            t.totals(name, move |s| {
                let whole =
                    |w: &SendingSeen| w.place.is_multiple_of(BLOCK) && end(w).is_multiple_of(BLOCK);
                let others = s.before.len() > s.blocks.len();
                s.blocks.len() == blocks && s.all_false() && others && wrote_so(s, kind, whole)
            });
        }
    }
    t.totals("counted idle: all of 65536 symbols: every total 0", |s| {
        let all = wrote_so(s, Kind::Idle, |w| w.wrote() == Some(SYMBOLS));
        all && s.after.iter().all(|&total| total == 0)
    });
}

/// Data that look like Starts count for nothing.
fn data_octets(t: &mut Table) {
    t.totals("counted client: data of 0xFB alone: not counted", |s| {
        let starry = |w: &SendingSeen| {
            matches!(w.call, Sending::Client(_, data)
                if data.len() > BLOCK && data.iter().all(|&octet| octet == START))
        };
        // a block with none but the frame's symbols
        let only = s.blocks.clone().skip(1).any(|k| s.after.get(k) == Some(&0));
        wrote_so(s, Kind::Client, starry) && only
    });
}

/// No Idles are written into no block.
fn no_idles(t: &mut Table) {
    type Stands = fn(&SendingSeen) -> bool;
    let places: [(&str, Stands); 4] = [
        ("inside a block", |w| w.place % BLOCK > 0 && w.room() > 0),
        ("at a block's edge", |w| {
            w.place % BLOCK == 0 && w.room() > 0
        }),
        ("at the length", |w| w.place % BLOCK > 0 && w.room() == 0),
        ("at the length, whole blocks", |w| {
            w.place > 0 && w.place % BLOCK == 0 && w.room() == 0
        }),
    ];
    for (name, stands) in places {
        let name = format!("counted idle: 0 Idles {name}: every total stays, false ones too");
        t.totals(name, move |s| {
            let none = |w: &SendingSeen| w.wrote() == Some(0) && stands(w);
            s.all_false() && s.stays() && s.sent(Kind::Idle).is_some_and(none)
        });
    }
    t.totals(
        "counted idle: 0 Idles, no symbols and no totals: written",
        |s| {
            let none = |w: &SendingSeen| w.wrote() == Some(0) && w.lengths == (0, 0);
            s.before.is_empty() && s.sent(Kind::Idle).is_some_and(none)
        },
    );
}
