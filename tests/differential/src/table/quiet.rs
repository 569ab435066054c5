//! Quiet means quiet: item 14 of document 02, over sequences of calls on one state.
use super::Table;
use crate::seen_quiet::{QuietCall, QuietSeen};
use crate::watch::{Ear, Meanwhile};
use reference::Port;

/// A test of what happened since a class was set.
type Since = fn(&Meanwhile) -> bool;

/// The calls that read.
const EARS: [(&str, Ear); 4] = [
    ("read", Ear::Read),
    ("walk", Ear::Walk),
    ("walk_log", Ear::WalkLog),
    ("plain", Ear::Plain),
];

pub fn rows(t: &mut Table) {
    both_sides(t);
    meanwhile(t);
    waits(t);
    again(t);
    others(t);
    nothing(t);
}

/// "none of the next 64 × q symbols": the last of them, and the one behind, by each call that reads
/// and in each way to write.
fn both_sides(t: &mut Table) {
    for (name, ear) in EARS {
        for job in [0, 1] {
            let by = move |q: &QuietSeen| q.client().is_some_and(|(set, _)| set.by == (ear, job));
            t.quiet(
                format!("quiet: set by {name}, job {job}: symbol 64 × q - 1: refusal 9"),
                move |q| by(q) && q.at_the_end(1, 9),
            );
            t.quiet(
                format!("quiet: set by {name}, job {job}: symbol 64 × q: written"),
                move |q| by(q) && q.at_the_end(0, 0),
            );
        }
    }
    for (port, on) in [("plain port", Port::Plain), ("four lanes", Port::FourLane)] {
        for (totals, counted) in [("", false), (", totals", true)] {
            t.quiet(
                format!("quiet: {port}{totals}: symbol 64 × q - 1: refusal 9"),
                move |q| q.written_so(on, counted) && q.at_the_end(1, 9),
            );
            t.quiet(
                format!("quiet: {port}{totals}: symbol 64 × q: written"),
                move |q| q.written_so(on, counted) && q.at_the_end(0, 0),
            );
        }
    }
}

/// "the next 64 × q symbols that we write": whatever they are, and whatever is set besides.
fn meanwhile(t: &mut Table) {
    let rows: [(&str, Since); 4] = [
        ("a control frame", |since| since.control),
        ("a client frame of another class", |since| since.client),
        ("Idles", |since| since.idles),
        ("a setting of other classes", |since| since.passed_over),
    ];
    for (name, test) in rows {
        let since = move |q: &QuietSeen| q.client().is_some_and(|(set, _)| test(&set.meanwhile));
        t.quiet(
            format!("quiet: {name} meanwhile: symbol 64 × q - 1: refusal 9"),
            move |q| since(q) && q.at_the_end(1, 9),
        );
        t.quiet(
            format!("quiet: {name} meanwhile: symbol 64 × q: written"),
            move |q| since(q) && q.at_the_end(0, 0),
        );
    }
}

/// How long a wait is.
fn waits(t: &mut Table) {
    t.quiet("quiet: q is 0: symbol 0: written", |q| {
        let set = q.client().map(|(set, _)| (set.quanta, set.written));
        set == Some((0, 0)) && q.refusal == 0
    });
    for quanta in [1, 2, 5, u16::MAX] {
        t.quiet(
            format!("quiet: q is {quanta}: symbol 0: refusal 9"),
            move |q| {
                let set = q.client().map(|(set, _)| (set.quanta, set.written));
                set == Some((quanta, 0)) && q.refusal == 9
            },
        );
        for (left, refusal, name) in [(1, 9, "last symbol: refusal 9"), (0, 0, "behind: written")] {
            t.quiet(format!("quiet: q is {quanta}: {name}"), move |q| {
                q.client().is_some_and(|(set, _)| set.quanta == quanta)
                    && q.at_the_end(left, refusal)
            });
        }
    }
}

/// "unless a later reading sets that class again first".
fn again(t: &mut Table) {
    t.quiet(
        "quiet: set again to less: written inside the first wait",
        |q| {
            let inside = q
                .client()
                .map(|(set, left)| left == 0 && set.written < set.before);
            inside == Some(true) && q.refusal == 0
        },
    );
    t.quiet(
        "quiet: set again to more: refusal 9 behind the first wait",
        |q| {
            let behind = q
                .client()
                .map(|(set, left)| left > 0 && set.before > 0 && set.written >= set.before);
            behind == Some(true) && q.refusal == 9
        },
    );
    for (name, ear) in EARS.into_iter().skip(1) {
        let twice = move |q: &QuietSeen, more_first: bool| {
            q.client().is_some_and(|(set, _)| {
                let first = set.same_call.unwrap_or(set.quanta);
                set.by.0 == ear && first != set.quanta && (first > set.quanta) == more_first
            })
        };
        t.quiet(
            format!("quiet: {name} sets it twice, to less then: written by the last"),
            move |q| twice(q, true) && q.at_the_end(0, 0) | at_once(q),
        );
        t.quiet(
            format!("quiet: {name} sets it twice, to more then: refusal 9 by the last"),
            move |q| twice(q, false) && q.at_the_end(1, 9),
        );
    }
}

/// Written right behind a setting to zero quanta.
fn at_once(q: &QuietSeen) -> bool {
    let set = q.client().map(|(set, _)| (set.quanta, set.written));
    set == Some((0, 0)) && q.refusal == 0
}

/// "Control frames and other classes may start."
fn others(t: &mut Table) {
    let all_wait = |q: &QuietSeen| q.before.left.iter().all(|&left| left > 0);
    for name in ["pause", "PFC", "idle"] {
        for (port, on) in [("plain port", Port::Plain), ("four lanes", Port::FourLane)] {
            for (totals, counted) in [("", false), (", totals", true)] {
                if name == "idle" && on == Port::FourLane {
                    continue;
                }
                t.quiet(
                    format!("quiet: {name}, {port}{totals}, every class waits: written"),
                    move |q| {
                        q.is(name) && q.written_so(on, counted) && all_wait(q) && q.refusal == 0
                    },
                );
            }
        }
    }
    t.quiet("quiet: client, all other classes wait: written", |q| {
        let waiting = q.before.left.iter().filter(|&&left| left > 0);
        q.is("client") && waiting.count() == 7 && q.refusal == 0
    });
    t.quiet("quiet: client, another class waits: written", |q| {
        q.is("client") && q.before.left.iter().any(|&left| left > 0) && q.refusal == 0
    });
}

/// What sets nothing, and what takes nothing off.
fn nothing(t: &mut Table) {
    for (name, ear) in EARS {
        for refusal in [2, 20] {
            // a symbol has no buffers to look at
            if (ear, refusal) == (Ear::Plain, 2) {
                continue;
            }
            t.quiet(
                format!("quiet: {name}: refusal {refusal}: every wait stays"),
                move |q| {
                    let waits = q.before.left.iter().any(|&left| left > 0);
                    q.heard(ear) && q.refusal == refusal && waits && q.before.left == q.after.left
                },
            );
        }
        t.quiet(
            format!("quiet: {name}: frames of ours in front: not touched"),
            move |q| {
                let ours = matches!(
                    q.call,
                    QuietCall::Hear {
                        own_frames: true,
                        ..
                    }
                );
                q.heard(ear) && ours && q.refusal == 0
            },
        );
        t.quiet(
            format!("quiet: {name}: nothing set, waits go on"),
            move |q| {
                let none = matches!(q.call, QuietCall::Hear { sets: 0, .. });
                let waits = q.before.left.iter().any(|&left| left > 0);
                q.heard(ear) && none && waits && q.refusal == 0
            },
        );
    }
    t.quiet(
        "quiet: walk_log, a full log: the Starts behind set nothing",
        |q| matches!(q.call, QuietCall::Hear { full: true, .. }),
    );
    for refusal in [3, 8, 9] {
        t.quiet(
            format!("quiet: a sending's refusal {refusal}: every wait stays"),
            move |q| {
                let waits = q.before.left.iter().any(|&left| left > 0);
                let sent = matches!(q.call, QuietCall::Write { .. });
                sent && q.refusal == refusal && waits && q.before.left == q.after.left
            },
        );
    }
}
