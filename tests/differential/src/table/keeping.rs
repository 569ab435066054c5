//! Walks that keep their readings: ends, places, refusals, what is kept, and going on.
use super::Table;
use crate::generate::{BEYOND_32_BITS, SYMBOLS, TABLES_FROM};
use crate::names::OUTCOMES;
use crate::plain_log::{is_used, place_of, slots, Slot};
use crate::seen_log::{Further, GoingOnSeen, KeepSeen, LogOf};
use crate::table::log::differ;
use reference::LogEnd;

/// Each way to end.
const ENDS: [(&str, LogEnd); 3] = [
    ("none", LogEnd::None),
    ("open", LogEnd::Open),
    ("full", LogEnd::Full),
];

pub fn rows(t: &mut Table) {
    ends(t);
    room(t);
    compaction(t);
    fullness(t);
    places(t);
    refusals(t);
    outcomes(t);
    records(t);
    going_on(t);
}

/// Each end, with records appended or none; a log with no unused record is full only if a further
/// Start would be counted.
fn ends(t: &mut Table) {
    for (name, end) in ENDS {
        t.keep(format!("walk_log: {name}, nothing appended"), move |k| {
            k.logged.end == end && k.logged.appended == 0 && k.log.octets == k.log_after.octets
        });
        t.keep(format!("walk_log: {name}, a record appended"), move |k| {
            k.logged.end == end && k.logged.appended == 1 && k.kept.len() == 1
        });
        t.keep(format!("walk_log: {name}, records appended"), move |k| {
            let n = k.logged.appended;
            k.logged.end == end && n > 1 && k.kept.len() == n
        });
        t.keep(format!("walk_log: a log of no record: {name}"), move |k| {
            k.logged.end == end && k.log.octets.is_empty()
        });
        t.keep(format!("walk_log: every record used: {name}"), move |k| {
            k.logged.end == end && k.log.full()
        });
    }
}

/// As many unused records as Starts, one fewer, one more, wherever they stand.
fn room(t: &mut Table) {
    for (name, end) in ENDS.into_iter().take(2) {
        let name_of = |records: &str| format!("walk_log: {records}: {name}");
        t.keep(name_of("as many unused records as Starts"), move |k| {
            k.logged.end == end && k.log.unused > 1 && k.log.unused == k.logged.appended
        });
        t.keep(name_of("one unused record more than Starts"), move |k| {
            k.logged.end == end && k.logged.appended > 1 && k.log.unused == k.logged.appended + 1
        });
    }
    t.keep("walk_log: one unused record fewer than Starts: full", |k| {
        let last = k.further.as_ref().is_some_and(|further| further.last);
        k.log.unused > 1 && last
    });
    t.keep(
        "walk_log: two unused records fewer than Starts, or more: full",
        |k| {
            let more = k.further.as_ref().is_some_and(|further| !further.last);
            k.log.unused > 1 && more
        },
    );
    t.keep("walk_log: unused records left: as they were", |k| {
        let left = |i: usize| k.log.unused_and_other(i) && k.log.slot(i) == k.log_after.slot(i);
        k.logged.appended > 0 && k.appended() && (0..k.log.len()).any(left)
    });
}

/// Each record goes where appending puts it: behind the last used one, and the log is compacted
/// where that is the last slot, if a further Start is counted.
fn compaction(t: &mut Table) {
    for (name, end) in ENDS.into_iter().take(2) {
        let name_of = |records: &str| format!("walk_log: {records}, {name}");
        // the first unused record shows if it is filled with zeros or written
        let left = |k: &KeepSeen| {
            let hole = (0..k.log.behind).find(|&i| !k.log.used(i));
            hole.is_some_and(|i| k.log.unused_and_other(i) && k.log.slot(i) == k.log_after.slot(i))
        };
        t.keep(
            name_of("a hole, and room behind: the hole is left"),
            move |k| {
                let room = k.log.behind + k.logged.appended < k.log.len();
                k.logged.end == end && k.logged.appended > 0 && room && left(k) && k.appended()
            },
        );
        t.keep(
            name_of("a hole, and room just enough behind: the hole is left"),
            move |k| {
                let enough = k.log.behind + k.logged.appended == k.log.len();
                k.logged.end == end && k.logged.appended > 0 && enough && left(k) && k.appended()
            },
        );
        t.keep(
            name_of("the last slot used and a hole, no Start: not compacted"),
            move |k| {
                let stays = k.log.octets == k.log_after.octets && left(k);
                k.logged.end == end && k.log.wants_compaction() && stays
            },
        );
    }
    for (name, end) in ENDS {
        let name_of = |records: &str| format!("walk_log: {records}, {name}");
        t.keep(
            name_of("the last slot used and a hole: compacted for a Start"),
            move |k| {
                let appended = k.logged.appended > 0 && k.appended();
                k.logged.end == end && k.log.wants_compaction() && appended
            },
        );
        t.keep(
            name_of("a hole, and the last slot reached: compacted for a further Start"),
            move |k| {
                let room = k.log.len() - k.log.behind;
                let reached = room > 0 && k.logged.appended > room;
                k.logged.end == end && k.log.has_hole() && reached && k.appended()
            },
        );
        t.keep(
            name_of("three records remain, in their order, in front of those appended"),
            move |k| {
                let many = k.log.in_use > 2 && k.logged.appended > 0 && differ(k.log.octets);
                k.logged.end == end && many && remain_in_front(k)
            },
        );
    }
    t.keep("walk_log: compacted, and room left: zeros behind", |k| {
        let behind = k.log_after.behind..k.log_after.len();
        let zeros = |i: usize| k.log_after.slot(i) == Some(&[0; 16]);
        let other = behind.clone().any(|i| k.log.shows(i));
        let compacted = k.log.wants_compaction() && k.logged.appended > 0;
        compacted && other && behind.clone().all(zeros)
    });
    t.keep(
        "walk_log: holes: full only when every record is used",
        |k| {
            let all = k.logged.appended == k.log.unused && k.log_after.full();
            k.further.is_some() && k.log.has_hole() && all
        },
    );
}

/// What remained before stands in front of what was appended.
fn remain_in_front(k: &KeepSeen) -> bool {
    let used = |log: LogOf| -> Vec<Slot> { slots(log.octets).copied().filter(is_used).collect() };
    used(k.log_after).starts_with(&used(k.log))
}

/// Where a full log stops: before the Start that it has no record for, which is not counted.
fn fullness(t: &mut Table) {
    t.keep(
        "walk_log: full: next is where the last run kept ended",
        |k| {
            let last = k.kept.last().map(|slot| place_of(slot));
            let run = |start: usize| (start + 1..k.logged.next).all(|i| !k.control_at(i));
            k.further.is_some() && k.control_at(k.logged.next) && last.is_some_and(run)
        },
    );
    t.keep(
        "walk_log: full at once, before the Start: next is the place",
        |k| {
            let at_once = k.further.is_some() && k.logged.appended == 0;
            at_once && !k.start_at(k.place) && k.logged.next == k.place
        },
    );
    t.keep("walk_log: full: as many counted as appended", |k| {
        let counted: u64 = (1..=11).map(|outcome| k.risen(outcome)).sum();
        k.further.is_some() && counted > 0 && counted as usize == k.logged.appended
    });
    t.keep("walk_log: full at once: the state stays", |k| {
        k.further.is_some() && k.logged.appended == 0 && k.before == k.after
    });
    for (outcome, name) in (1..).zip(OUTCOMES) {
        let name = format!("walk_log: full before {outcome} {name}: not counted");
        t.keep(name, move |k| {
            let further = k.further.as_ref().is_some_and(|f| f.outcome == outcome);
            further && k.logged.appended == 0 && k.risen(outcome) == 0
        });
    }
    for (outcome, name) in [(8, "pause"), (9, "PFC")] {
        t.keep(
            format!("walk_log: full before {name}: no timer set"),
            move |k| {
                let sets = |f: &Further| f.outcome == outcome && f.sets_timers;
                k.further.as_ref().is_some_and(sets)
                    && k.logged.appended == 0
                    && k.before.timers == k.after.timers
            },
        );
    }
}

/// Where a walk begins and where it goes on.
fn places(t: &mut Table) {
    let first = |k: &KeepSeen| k.kept.first().map(|slot| place_of(slot));
    t.keep("walk_log: place 0: kept from there", move |k| {
        k.place == 0 && k.log.in_use == 0 && first(k).is_some()
    });
    t.keep("walk_log: place at a Start: it is kept first", move |k| {
        k.place > 0 && k.start_at(k.place) && first(k) == Some(k.place)
    });
    t.keep(
        "walk_log: place one past a Start: that one is passed",
        move |k| {
            let passed = k.place > 0 && k.start_at(k.place - 1);
            passed && first(k).is_some_and(|start| start >= k.place)
        },
    );
    t.keep(
        "walk_log: place between two Starts: the next one is kept first",
        move |k| {
            let later = |start: usize| start > k.place;
            k.place > 1 && !k.start_at(k.place - 1) && first(k).is_some_and(later)
        },
    );
    t.keep("walk_log: place one before the length: taken", |k| {
        k.refusal() == 0 && k.place + 1 == k.octets.len()
    });
    t.keep("walk_log: place is the length: none", |k| {
        k.logged.end == LogEnd::None && k.place == k.octets.len()
    });
    t.keep("walk_log: none: next is the length", |k| {
        k.logged.end == LogEnd::None && k.logged.appended > 0 && k.logged.next == k.octets.len()
    });
    t.keep("walk_log: open: next is that Start", |k| {
        let open = k.logged.end == LogEnd::Open && k.logged.appended > 0;
        open && k.start_at(k.logged.next)
    });
    t.keep("walk_log: place one beyond the length: refusal 3", |k| {
        k.refusal() == 3 && k.place == k.octets.len() + 1
    });
    for (name, place) in [("2^32", BEYOND_32_BITS), ("the greatest", usize::MAX)] {
        t.keep(format!("walk_log: place {name}: refusal 3"), move |k| {
            k.refusal() == 3 && k.place == place
        });
    }
}

/// Refusals as of a reading, then 11, and their order; 12 is none of a walk.
fn refusals(t: &mut Table) {
    const ORDER: [u8; 6] = [1, 14, 2, 3, 20, 11];
    for refusal in ORDER {
        t.keep(format!("walk_log: refusal {refusal}"), move |k| {
            let alone = |other| k.holds(other) == (other == refusal);
            k.refusal() == refusal && ORDER.into_iter().all(alone)
        });
        let name = format!("walk_log: refusal {refusal}: log and place stay");
        t.keep(name, move |k| {
            let unused = k.log.unused > 0 && k.log.octets == k.log_after.octets;
            k.refusal() == refusal && unused && k.logged.next == k.place && k.place > 0
        });
    }
    for (i, first) in ORDER.into_iter().enumerate() {
        for second in ORDER.into_iter().skip(i + 1) {
            let name = format!("walk_log: {first} and {second} hold: refusal {first}");
            t.keep(name, move |k| {
                k.refusal() == first && k.holds(first) && k.holds(second)
            });
        }
    }
    for n in [0, 1, 8, 15, 16, 17, 24, 31, 32, 33, 47, 48, 49] {
        let taken = [0, 16, 32, 48].contains(&n);
        let answer = if taken { "taken" } else { "refusal 11" };
        t.keep(
            format!("walk_log: a log of {n} octets: {answer}"),
            move |k| {
                let refusal = if taken { 0 } else { 11 };
                k.log.octets.len() == n && k.refusal() == refusal
            },
        );
    }
    for (n, refusal) in [(SYMBOLS, 0), (SYMBOLS + 1, 2)] {
        let answer = if refusal == 0 { "taken" } else { "refusal 2" };
        t.keep(format!("walk_log: {n} symbols: {answer}"), move |k| {
            k.octets.len() == n && k.marks.len() == n && k.refusal() == refusal
        });
    }
}

/// Each outcome and end on both sides of the length from which on a walk makes tables of the FCS.
fn outcomes(t: &mut Table) {
    for (symbols, lengths) in [
        (format!("under {TABLES_FROM} symbols"), 0..TABLES_FROM),
        (
            format!("{} symbols", TABLES_FROM - 1),
            TABLES_FROM - 1..TABLES_FROM,
        ),
        (
            format!("{TABLES_FROM} symbols"),
            TABLES_FROM..TABLES_FROM + 1,
        ),
    ] {
        for (outcome, name) in (1..).zip(OUTCOMES) {
            let lengths = lengths.clone();
            let name = format!("walk_log, {symbols}: {outcome} {name}");
            t.keep(name, move |k| {
                let kept = k.kept.iter().filter(|slot| slot[4] == outcome).count();
                lengths.contains(&k.octets.len()) && kept > 0 && kept == k.risen(outcome) as usize
            });
        }
        for (end, at_end) in ENDS {
            let lengths = lengths.clone();
            t.keep(format!("walk_log, {symbols}: {end}"), move |k| {
                let appended = k.logged.appended > 0;
                lengths.contains(&k.octets.len()) && appended && k.logged.end == at_end
            });
        }
    }
}

/// What is kept of a Start: its place, the octets handed out and the status word.
fn records(t: &mut Table) {
    t.keep(
        "walk_log: each record has the place of a Start, in their order",
        |k| {
            let places: Vec<_> = k.kept.iter().map(|slot| place_of(slot)).collect();
            places.len() > 2
                && places.iter().all(|&place| k.start_at(place))
                && places.windows(2).all(|pair| pair[0] < pair[1])
        },
    );
    t.keep("walk_log: a place beyond 255: low octet first", |k| {
        let mut places = k.kept.iter().map(|slot| place_of(slot));
        places.any(|place| place > 255 && k.start_at(place))
    });
    t.keep(
        "walk_log: octets handed out, as the status word has them",
        |k| {
            k.kept
                .iter()
                .any(|slot| slot[4] == 11 && slot[6..8] != [0, 0] && slot[6..8] == slot[8..10])
        },
    );
    t.keep(
        "walk_log: outcomes 8 to 10: a status word, and nothing handed out",
        |k| {
            k.kept
                .iter()
                .any(|slot| (8..=10).contains(&slot[4]) && slot[6..8] == [0, 0] && slot[12] != 0)
        },
    );
    t.keep(
        "walk_log: outcomes 1 to 7: nothing handed out, no status word",
        |k| {
            k.kept
                .iter()
                .any(|slot| slot[4] < 8 && slot[6..] == [0; 10])
        },
    );
}

/// Walks that go on with other logs, or with the same one after deletions.
fn going_on(t: &mut Table) {
    for (one_log, name) in [(false, "logs"), (true, "one log, deletions")] {
        let many = move |g: &GoingOnSeen| g.one_log == one_log && g.appended.len() > 1;
        for n in [2, 3] {
            let name = format!("going on, {name}: {n} walks keep what one keeps");
            t.going_on(name, move |g| {
                let all = g.appended.iter().all(|&appended| appended > 0);
                many(g) && g.appended.len() == n && all
            });
        }
        let five = format!("going on, {name}: five walks or more keep what one keeps");
        t.going_on(five, move |g| many(g) && g.appended.len() >= 5);
        let single = format!("going on, {name}: one record at a time");
        t.going_on(single, move |g| {
            many(g) && g.appended.iter().all(|&appended| appended == 1)
        });
        let holes = format!("going on, {name}: unused records in front of used ones");
        t.going_on(holes, move |g| many(g) && g.holes);
        for (end_name, end) in ENDS.into_iter().take(2) {
            let name = format!("going on, {name}: {end_name} in the end");
            t.going_on(name, move |g| many(g) && g.end == end);
        }
    }
}
