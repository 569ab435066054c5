//! The four-lane port: its places, its gaps by count and r, the room that they take, the count, and
//! rows of frames on both ports.
use super::c_face::{CALLS, ON};
use super::Table;
use crate::generate::{IDLE, TERMINATE};
use crate::raw;
use crate::seen::{Kind, SendingSeen, GAPS};
use reference::Port;

/// Deficit counts on both sides of 3, and the greatest.
const COUNTS: [u8; 7] = [0, 1, 2, 3, 4, 5, 255];

/// Deficit counts of C's states that are 0 if high bits are lost, and that the Rust faces cannot say
/// in an octet.
const WIDE: [(&str, u32); 3] = [("2^8", 8), ("2^32", 32), ("2^63", 63)];

/// The calls that send a frame, and the refusals that each can give on the four-lane port, in the
/// order of their tests.
const FRAMES: [(Kind, &str, &[u8]); 3] = [
    (Kind::Client, "client", &[1, 2, 3, 19, 5, 6, 10, 7, 8, 9]),
    (Kind::Pause, "pause", &[1, 2, 3, 19, 4, 8]),
    (Kind::Pfc, "PFC", &[1, 2, 3, 19, 4, 8]),
];

pub fn rows(t: &mut Table) {
    for (kind, call, refusals) in FRAMES {
        answers(t, kind, call, refusals);
        places(t, kind, call);
        counts(t, kind, call);
    }
    gaps(t);
    control_gaps(t);
    timers(t);
    others_leave_the_count(t);
    c_ports(t);
    c_counts(t);
    frames_in_a_row(t);
}

/// Each answer on the four-lane port; refusals that hold together.
fn answers(t: &mut Table, kind: Kind, call: &str, refusals: &'static [u8]) {
    let is = move |w: &SendingSeen| w.kind() == kind && w.four_lanes();
    t.sending(format!("{call}, four lanes: written"), move |w| {
        is(w) && w.wrote().is_some()
    });
    for &refusal in refusals {
        let name = format!("{call}, four lanes: refusal {refusal}");
        t.sending(name, move |w| is(w) && w.refusal() == refusal);
    }
    for pair in refusals.windows(2) {
        let (first, second) = (pair[0], pair[1]);
        let name = format!("{call}, four lanes: {first} and {second} hold: refusal {first}");
        t.sending(name, move |w| {
            is(w) && w.refusal() == first && w.holds(first) && w.holds(second)
        });
    }
    let name = format!("{call}, four lanes: 19 and 8 for any gap hold: refusal 19");
    t.sending(name, move |w| {
        is(w) && w.refusal() == 19 && w.room() < w.call.before_gap()
    });
}

/// Places by their remainder, on both ports.
fn places(t: &mut Table, kind: Kind, call: &str) {
    for past in 0..4 {
        let name = format!("{call}, plain: {past} past a multiple of four: a gap of 12");
        t.sending(name, move |w| {
            w.kind() == kind && !w.four_lanes() && w.place % 4 == past && w.gap().len() == 12
        });
        let name = match past {
            0 => format!("{call}, four lanes: a multiple of four: written up to one"),
            _ => format!("{call}, four lanes: {past} past a multiple of four: refusal 3"),
        };
        t.sending(name, move |w| {
            let answered = match w.wrote() {
                Some(n) => past == 0 && (w.place + n) % 4 == 0,
                // nothing else can be what is refused
                None => w.refusal() == 3 && w.place < w.lengths.0 && !w.holds(19),
            };
            w.kind() == kind && w.four_lanes() && w.place % 4 == past && answered
        });
    }
    let name = format!("{call}, four lanes: no multiple of four, and 19 holds: refusal 3");
    t.sending(name, move |w| {
        let inside = w.place < w.lengths.0 && w.holds(19);
        w.kind() == kind && inside && w.refusal() == 3
    });
    let name = format!("{call}, four lanes: a multiple of four beyond the length: refusal 3");
    t.sending(name, move |w| {
        let beyond = w.place > w.lengths.0 && w.place % 4 == 0;
        w.kind() == kind && w.four_lanes() && beyond && w.refusal() == 3
    });
    let name = format!("{call}, four lanes: the length, a multiple of four: refusal 8");
    t.sending(name, move |w| {
        w.kind() == kind && w.four_lanes() && w.place == w.lengths.0 && w.refusal() == 8
    });
}

/// Counts on both ports: the plain one neither tests nor changes it.
fn counts(t: &mut Table, kind: Kind, call: &str) {
    for count in COUNTS {
        let name = format!("{call}, plain: count {count}: a gap of 12, and the count stays");
        t.sending(name, move |w| {
            let given = w.kind() == kind && !w.four_lanes() && w.before.deficit == count;
            given && w.gap().len() == 12 && w.after.deficit == count
        });
        if count > 3 {
            let name =
                format!("{call}, four lanes: count {count}: refusal 19, and the count stays");
            t.sending(name, move |w| {
                let given = w.kind() == kind && w.four_lanes() && w.before.deficit == count;
                given && w.refusal() == 19 && w.after.deficit == count
            });
        }
    }
}

/// Terminate, then Idles.
fn is_gap(gap: &[u8]) -> bool {
    gap.split_first().is_some_and(|(&first, idles)| {
        first == TERMINATE && idles.iter().all(|&octet| octet == IDLE)
    })
}

/// The gaps of client frames by count and r, and the room behind the frame: one symbol less, just
/// enough, one more.
fn gaps(t: &mut Table) {
    for (count, row) in (0..).zip(GAPS) {
        for (r, (gap, behind)) in row.into_iter().enumerate() {
            let is = move |w: &SendingSeen| {
                let client =
                    w.kind() == Kind::Client && w.four_lanes() && w.place.is_multiple_of(4);
                client && w.before.deficit == count && w.r() == r
            };
            let name = format!("four lanes: count {count}, r {r}: a gap of {gap}, count {behind}");
            t.sending(name, move |w| {
                let written = w.gap().len() == gap && is_gap(w.gap());
                is(w) && written && w.after.deficit == behind
            });
            let behind_frame = |w: &SendingSeen| w.room().saturating_sub(w.call.before_gap());
            let name = format!(
                "four lanes: count {count}, r {r}, room of {}: refusal 8",
                gap - 1
            );
            t.sending(name, move |w| {
                is(w) && behind_frame(w) == gap - 1 && w.refusal() == 8
            });
            for room in [gap, gap + 1] {
                let name = format!("four lanes: count {count}, r {r}, room of {room}: written");
                t.sending(name, move |w| {
                    is(w) && behind_frame(w) == room && w.gap().len() == gap
                });
            }
        }
    }
}

/// Pause and PFC frames have 72 symbols before the gap: r is 0, and the gap 12 with any count.
fn control_gaps(t: &mut Table) {
    for (kind, call, _) in FRAMES.into_iter().skip(1) {
        for count in 0..=3 {
            let is = move |w: &SendingSeen| {
                w.kind() == kind && w.four_lanes() && w.before.deficit == count
            };
            let name =
                format!("{call}, four lanes: count {count}: a gap of 12, and the count stays");
            t.sending(name, move |w| {
                is(w) && w.gap().len() == 12 && is_gap(w.gap()) && w.after.deficit == count
            });
            for (room, answer) in [(83, "refusal 8"), (84, "written"), (85, "written")] {
                let name = format!("{call}, four lanes: count {count}, room of {room}: {answer}");
                t.sending(name, move |w| {
                    let answered = match w.wrote() {
                        Some(n) => n == 84 && room >= 84,
                        None => w.refusal() == 8 && w.place % 4 == 0,
                    };
                    is(w) && w.room() == room && answered
                });
            }
        }
    }
}

/// Timers at the number of symbols written with each gap, and next to it.
fn timers(t: &mut Table) {
    for gap in 9..=15 {
        for (name, more) in [("one under", 0), ("at", 1), ("one over", 2)] {
            let name = format!("four lanes, a gap of {gap}: a timer {name} the symbols: lowered");
            t.sending(name, move |w| {
                let n = w.wrote().unwrap_or(0) as u32;
                let mut timers = w.before.timers.iter().zip(&w.after.timers);
                let slots = (n + more).saturating_sub(1);
                w.four_lanes()
                    && w.gap().len() == gap
                    && timers
                        .any(|(&before, &after)| before == slots && after == u32::from(more == 2))
            });
        }
    }
}

/// Idle fill, readings and walks take any place and any count, and leave it.
fn others_leave_the_count(t: &mut Table) {
    for count in COUNTS {
        for (name, port) in [("plain", Port::Plain), ("four lanes", Port::FourLane)] {
            let name = format!("idle, {name}: count {count}: stays");
            t.sending(name, move |w| {
                let idles = w.kind() == Kind::Idle && w.port == port && w.wrote() > Some(0);
                idles && w.before.deficit == count && w.after.deficit == count
            });
        }
        t.reading(format!("read: count {count}: stays"), move |r| {
            r.outcome > 0 && r.before.deficit == count && r.after.deficit == count
        });
        t.walk(format!("walk: count {count}: stays"), move |w| {
            let counted = (1..=11).any(|outcome| w.risen(outcome) > 0);
            counted && w.before.deficit == count && w.after.deficit == count
        });
    }
    for past in 1..4 {
        let name = format!("idle, four lanes: {past} past a multiple of four: written");
        t.sending(name, move |w| {
            let idles = w.kind() == Kind::Idle && w.port == Port::FourLane;
            idles && w.place % 4 == past && w.wrote() > Some(0)
        });
    }
}

/// The port's octet: 0 is plain, anything else four lanes; of the calls that keep totals too.
fn c_ports(t: &mut Table) {
    for (kind, call, _) in FRAMES {
        for octet in ON.into_iter().chain([1]) {
            let refused = move |w: &SendingSeen| {
                w.kind() == kind && w.refusal() == 3 && w.place < w.lengths.0
            };
            let name = format!("C: {call}: port is {octet}: four lanes");
            t.c(name, move |c| c.port == octet && c.sent(refused));
            let name = format!("C: counted {call}: port is {octet}: four lanes");
            t.c(name, move |c| c.port == octet && c.counted(refused));
        }
        let plain = move |w: &SendingSeen| {
            w.kind() == kind && !w.place.is_multiple_of(4) && w.wrote().is_some()
        };
        t.c(format!("C: {call}: port is 0: plain"), move |c| {
            c.port == 0 && c.sent(plain)
        });
        t.c(format!("C: counted {call}: port is 0: plain"), move |c| {
            c.port == 0 && c.counted(plain)
        });
    }
    for octet in ON {
        t.c(
            format!("C: port is {octet}: a gap of 9, count 3"),
            move |c| {
                let count = c.before[raw::DEFICIT] == 0 && c.after[raw::DEFICIT] == 3;
                c.port == octet && count && c.sent(|w| w.gap().len() == 9)
            },
        );
    }
}

/// The deficit count of C's states, which is read whole.
fn c_counts(t: &mut Table) {
    for (wide, bit) in WIDE {
        let is = move |number: u64| number >> bit == 1 && number & ((1 << bit) - 1) <= 3;
        for (kind, call, _) in FRAMES {
            let name = format!("C: {call}: deficit {wide} and up to 3: refusal 19");
            let refused = move |w: &SendingSeen| w.kind() == kind && w.refusal() == 19;
            t.c(name, move |c| is(c.before[raw::DEFICIT]) && c.sent(refused));
            let name = format!("C: counted {call}: deficit {wide} and up to 3: refusal 19");
            t.c(name, move |c| {
                is(c.before[raw::DEFICIT]) && c.counted(refused)
            });
        }
        for call in CALLS {
            let name = format!("C: {call}: deficit {wide} and up to 3: stays");
            t.c(name, move |c| {
                let at = c.before[raw::DEFICIT];
                is(at) && c.name() == call && c.refusal() == 0 && c.after[raw::DEFICIT] == at
            });
        }
    }
}

/// Rows of frames from a count of 0.
fn frames_in_a_row(t: &mut Table) {
    for count in 0..=3_u8 {
        let name = format!("row: gaps of four lanes together {count} short of 12 for each");
        t.line(name, move |row| {
            let together = row.symbols + usize::from(count);
            row.gaps >= 4 && row.count == count && together == 12 * row.gaps
        });
    }
    t.line("row: ten gaps of four lanes", |row| row.gaps >= 10);
    t.line("row: frames of both ports read back", |row| {
        row.gaps >= 3 && row.plain >= 3 && row.read >= 5
    });
    t.line("row: frames of four lanes alone read back", |row| {
        row.plain == 0 && row.gaps >= 5 && row.read >= 5
    });
}
