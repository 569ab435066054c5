//! Answers of readings and walks; settings, captures, places, ends and preambles.
use super::Table;
use crate::generate::{
    BEYOND_32_BITS, ERROR, IDLE, PREAMBLE, SEQUENCE, START, SYMBOLS, TABLES_FROM, TERMINATE,
};
use crate::names::OUTCOMES;
use crate::seen::{By, Fcs, ReadingSeen};
use crate::seen_jobs::PAIRS;
use reference::Walked;

pub fn rows(t: &mut Table) {
    reading_answers(t);
    walk_answers(t);
    walk_tables(t);
    settings(t);
    tables(t);
    captures(t);
    places(t);
    marks(t);
    ends(t);
    preambles(t);
}

/// Each answer of read and readings; refusals that hold together.
fn reading_answers(t: &mut Table) {
    for (by, call) in [(By::Read, "read"), (By::Readings, "readings")] {
        for (outcome, name) in (1..).zip(OUTCOMES) {
            t.reading(format!("{call}: {outcome} {name}"), move |r| {
                r.by == by && r.outcome == outcome
            });
        }
        t.reading(format!("{call}: none"), move |r| r.by == by && r.none());
        t.reading(format!("{call}: open"), move |r| r.by == by && r.open());
        for refusal in [1, 2, 3, 20] {
            t.reading(format!("{call}: refusal {refusal}"), move |r| {
                r.by == by && r.refusal == refusal
            });
        }
        for (first, second) in [(1, 2), (2, 3), (1, 20), (2, 20), (3, 20)] {
            let name = format!("{call}: {first} and {second} hold: refusal {first}");
            t.reading(name, move |r| {
                r.by == by && r.refusal == first && r.holds(first) && r.holds(second)
            });
        }
    }
}

/// Each answer of walk.
fn walk_answers(t: &mut Table) {
    for (outcome, name) in (1..).zip(OUTCOMES) {
        let name = format!("walk: {outcome} {name}");
        t.walk(name, move |w| w.risen(outcome) > 0);
    }
    t.walk("walk: none", |w| {
        matches!(w.walked, Walked::Ended { open: false, .. })
    });
    t.walk("walk: open", |w| {
        matches!(w.walked, Walked::Ended { open: true, .. })
    });
    for refusal in [1, 2, 20] {
        t.walk(format!("walk: refusal {refusal}"), move |w| {
            w.refusal() == refusal
        });
    }
    for (first, second) in [(1, 2), (1, 20), (2, 20)] {
        let name = format!("walk: {first} and {second} hold: refusal {first}");
        t.walk(name, move |w| {
            w.refusal() == first && w.holds(first) && w.holds(second)
        });
    }
    t.walk("walk: no Start", |w| {
        let none = Walked::Ended {
            starts: 0,
            open: false,
        };
        w.walked == none
    });
    t.walk("walk: 65536 Starts, the last open", |w| {
        let all = Walked::Ended {
            starts: SYMBOLS - 1,
            open: true,
        };
        w.walked == all
    });
    t.walk("walk: two counters roll over", |w| {
        let rolled = |&i: &usize| w.after.counters[i] < w.before.counters[i];
        (0..11).filter(rolled).count() > 1
    });
}

/// Each outcome and end of a walk, on both sides of the number of symbols from which on it makes
/// tables of the FCS for itself.
fn walk_tables(t: &mut Table) {
    for (symbols, lengths) in [
        (format!("under {TABLES_FROM} symbols"), 0..TABLES_FROM),
        (
            format!("{} symbols", TABLES_FROM - 1),
            TABLES_FROM - 1..TABLES_FROM,
        ),
        (
            format!("{TABLES_FROM} symbols"),
            TABLES_FROM..TABLES_FROM + 1,
        ),
        (
            format!("{TABLES_FROM} symbols or more"),
            TABLES_FROM..SYMBOLS + 1,
        ),
    ] {
        for (outcome, name) in (1..).zip(OUTCOMES) {
            let (name, lengths) = (
                format!("walk, {symbols}: {outcome} {name}"),
                lengths.clone(),
            );
            t.walk(name, move |w| {
                lengths.contains(&w.lengths.0) && w.risen(outcome) > 0
            });
        }
        for (end, at_end) in [("none", false), ("open", true)] {
            let (name, lengths) = (format!("walk, {symbols}: {end}"), lengths.clone());
            t.walk(name, move |w| {
                let ended = matches!(w.walked, Walked::Ended { open, .. } if open == at_end);
                lengths.contains(&w.lengths.0) && ended
            });
        }
    }
}

/// Both sides of refusal 1.
fn settings(t: &mut Table) {
    t.reading("settings: own address is a group: refusal 1", |r| {
        r.refusal == 1 && r.s.own[0] & 1 == 1
    });
    for (limit, refusal) in [
        (0, 1),
        (1517, 1),
        (1518, 0),
        (9618, 0),
        (9619, 1),
        (65_535, 1),
    ] {
        let name = format!("settings: M {limit}: {}", taken_or(refusal));
        t.reading(name, move |r| r.s.limit == limit && r.refusal == refusal);
    }
}

/// Both sides of refusal 20, of the job that reads and of the other.
fn tables(t: &mut Table) {
    for job in 0..2 {
        for of in 0..2 {
            for (n, refusal) in [(12, 0), (13, 20), (16, 20)] {
                let name = format!(
                    "table: job {job} reads, job {of} holds {n}: {}",
                    taken_or(refusal)
                );
                t.reading(name, move |r| {
                    r.job == job && r.table.only_holds(of, n) && r.refusal == refusal
                });
            }
            let name = format!("table: job {job} reads, job {of} has an address twice");
            t.reading(format!("{name}: refusal 20"), move |r| {
                r.job == job && r.table.only_twice(of) && r.refusal == 20
            });
            for (stand, pair) in PAIRS {
                t.reading(format!("{name}, {stand}: refusal 20"), move |r| {
                    r.job == job && r.table.only_pair(of, pair) && r.refusal == 20
                });
            }
        }
        let name = format!("table: job {job} reads, both jobs have one address: taken");
        t.reading(name, move |r| {
            let both = |k: usize| r.table.listed_at(1, &r.table.address(k)).next().is_some();
            r.job == job && r.table.of(0).any(both) && r.refusal == 0
        });
        for (what, number) in [("empty", 0), ("all 16 in use", 16)] {
            let name = format!("table: job {job} reads, {what}: taken");
            t.reading(name, move |r| {
                let in_use = 16 - r.table.free().count();
                r.job == job && in_use == number && r.refusal == 0
            });
        }
    }
}

fn taken_or(refusal: u8) -> String {
    match refusal {
        0 => "taken".to_string(),
        _ => format!("refusal {refusal}"),
    }
}

/// Lengths of captures.
fn captures(t: &mut Table) {
    t.reading("capture: 0 symbols: none", |r| {
        r.none() && r.octets.is_empty()
    });
    for (n, refusal) in [(SYMBOLS, 0), (SYMBOLS + 1, 2), (70_000, 2)] {
        let name = format!("capture: {n} symbols: {}", taken_or(refusal));
        t.reading(name, move |r| {
            r.octets.len() == n && r.marks.len() == n && r.refusal == refusal
        });
    }
    t.reading("capture: one octet more than marks: refusal 2", |r| {
        r.refusal == 2 && r.octets.len() == r.marks.len() + 1
    });
    t.reading("capture: one mark more than octets: refusal 2", |r| {
        r.refusal == 2 && r.marks.len() == r.octets.len() + 1
    });
    t.reading("Start is the last symbol: open", |r| {
        r.open() && r.reading.start + 1 == r.octets.len()
    });
    t.reading("Start at 65535: open", |r| {
        r.open() && r.reading.start == SYMBOLS - 1
    });
    t.reading("run ended by the last symbol: counted", |r| {
        r.outcome > 0 && r.reading.next + 1 == r.octets.len()
    });
    t.reading("run over all of 65536 symbols: counted", |r| {
        r.outcome > 0 && r.reading.start == 0 && r.reading.next == SYMBOLS - 1
    });
}

/// Places to read at.
fn places(t: &mut Table) {
    t.reading("place: at a Start: counted", |r| {
        r.outcome > 0 && r.place == r.reading.start
    });
    t.reading("place: one past a Start: that one is passed", |r| {
        r.refusal == 0 && r.place > 0 && control_at(r, r.place - 1, START)
    });
    t.reading("place: one before the length: taken", |r| {
        r.refusal == 0 && r.place + 1 == r.octets.len()
    });
    t.reading("place: the length: none", |r| {
        r.none() && r.place == r.octets.len()
    });
    t.reading("place: one beyond the length: refusal 3", |r| {
        r.refusal == 3 && r.place == r.octets.len() + 1
    });
    t.reading("place: 65536 of 65536: none", |r| {
        r.none() && r.place == SYMBOLS && r.octets.len() == SYMBOLS
    });
    t.reading("place: 65537 of 65536: refusal 3", |r| {
        r.refusal == 3 && r.place == SYMBOLS + 1 && r.octets.len() == SYMBOLS
    });
    for (name, place) in [("2^32", BEYOND_32_BITS), ("the greatest", usize::MAX)] {
        t.reading(format!("place: {name}: refusal 3"), move |r| {
            r.refusal == 3 && r.place == place
        });
    }
}

/// Is there this control symbol?
fn control_at(r: &ReadingSeen, at: usize, octet: u8) -> bool {
    r.octets.get(at) == Some(&octet) && r.marks.get(at).is_some_and(|&mark| mark != 0)
}

/// Only a mark makes a control symbol, and every mark but 0 does.
fn marks(t: &mut Table) {
    t.reading("data 0xFB before the Start: passed", |r| {
        let mut before = r.place..r.reading.start;
        r.outcome > 0 && before.any(|i| r.octets[i] == START && r.marks[i] == 0)
    });
    t.reading("data 0xFB inside a frame: 11", |r| {
        r.is(11, |f| f.data.contains(&START))
    });
    t.reading("data 0xFD inside a frame: 11", |r| {
        r.is(11, |f| f.data.contains(&TERMINATE))
    });
    for mark in [2, 128, 255] {
        t.reading(format!("Start of mark {mark}: counted"), move |r| {
            r.outcome > 0 && r.marks[r.reading.start] == mark
        });
        t.reading(format!("Terminate of mark {mark}: not 1"), move |r| {
            r.outcome > 1 && r.marks[r.reading.next] == mark
        });
    }
}

/// Rule 1: what ends a run.
fn ends(t: &mut Table) {
    for (name, octet) in [
        ("Start", START),
        ("Idle", IDLE),
        ("Error", ERROR),
        ("Sequence", SEQUENCE),
        ("an unknown octet", 0x55),
    ] {
        t.reading(format!("ended by {name}: 1"), move |r| {
            r.outcome == 1 && r.octets[r.reading.next] == octet
        });
    }
    t.reading("wrong end only, the frame is right: 1", |r| {
        r.is(1, |f| f.size >= 64 && f.fcs == Fcs::Right)
    });
    t.reading("wrong end and wrong preamble: 1", |r| {
        r.outcome == 1 && r.frame.is_none()
    });
    t.reading("Start, Start, Terminate: 1", |r| {
        let end = r.reading.next;
        r.outcome == 1
            && r.run.is_empty()
            && control_at(r, end, START)
            && control_at(r, end + 1, TERMINATE)
    });
    t.reading("Start, Start, Terminate: then 2", |r| {
        let start = r.reading.start;
        r.outcome == 2 && r.run.is_empty() && start > 0 && control_at(r, start - 1, START)
    });
}

/// Rule 2.
fn preambles(t: &mut Table) {
    t.reading("run of 0 octets: 2", |r| r.outcome == 2 && r.run.is_empty());
    t.reading("run of 6 octets, all right: 2", |r| {
        r.outcome == 2 && r.run == &PREAMBLE[..6]
    });
    t.reading("run of 7 octets, all right: 3", |r| {
        r.is(3, |f| f.size == 0)
    });
    t.reading("run of 7 octets, not right: 2", |r| {
        r.outcome == 2 && r.run.len() == 7
    });
    for i in 0..7 {
        let name = format!("only octet {} of 7 wrong, a frame behind: 2", i + 1);
        t.reading(name, move |r| {
            let wrong = |&j: &usize| r.run[j] != PREAMBLE[j];
            r.outcome == 2 && r.run.len() >= 71 && (0..7).filter(wrong).eq([i])
        });
    }
    t.reading("0xD5 one octet early: 2", |r| {
        r.outcome == 2 && r.run.starts_with(&PREAMBLE[1..])
    });
    t.reading("0xD5 one octet late: 2", |r| {
        r.outcome == 2 && r.run.starts_with(&[0x55; 7]) && r.run.get(7) == Some(&0xD5)
    });
}
