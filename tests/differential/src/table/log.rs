//! Calls on a log: its length, which records are used, what stands in them, and what is appended.
use super::Table;
use crate::generate::BEYOND_THE_LOG;
use crate::plain_log::{is_used, slots, Slot};
use crate::raw;
use crate::seen_log::{octets_of, LogCall, LogSeen};
use reference::Record;

/// The calls on a log.
const CALLS: [&str; 8] = [
    "append",
    "append reading",
    "record",
    "next",
    "used",
    "delete",
    "delete outcome",
    "compact",
];

pub fn rows(t: &mut Table) {
    lengths(t);
    appending(t);
    full(t);
    compacting_first(t);
    appended_fields(t);
    appended_readings(t);
    numbers_of_readings(t);
    records(t);
    contents(t);
    readers(t);
    used(t);
}

/// Refusal 11, on both sides of each multiple of 16; it comes before 12 and 13.
fn lengths(t: &mut Table) {
    for call in CALLS {
        for n in [0, 1, 8, 15, 16, 17, 24, 31, 32, 33, 47, 48, 49] {
            let taken = [0, 16, 32, 48].contains(&n);
            let answer = if taken { "taken" } else { "refusal 11" };
            t.log(format!("log: {call}: {n} octets: {answer}"), move |l| {
                l.name() == call && l.before.octets.len() == n && (l.refusal != 11) == taken
            });
        }
        t.log(
            format!("log: {call}: refusal 11: no octet changes"),
            move |l| l.name() == call && l.refusal == 11 && l.stays(),
        );
    }
    for call in ["append", "append reading"] {
        let name = format!("log: {call}: 11 and 12 hold: refusal 11");
        t.log(name, move |l| {
            let counted = l.record().is_some_and(|record| record.outcome != 0);
            l.name() == call && l.refusal == 11 && counted && l.before.full()
        });
        t.log(format!("log: {call}: outcome 0: refusal 11"), move |l| {
            let uncounted = l.record().is_some_and(|record| record.outcome == 0);
            l.name() == call && l.refusal == 11 && uncounted
        });
    }
    t.log(
        "log: record: 11 and 13 hold: refusal 11",
        |l| matches!(l.call, LogCall::Record(k) if l.refusal == 11 && !l.before.used(k)),
    );
    t.log(
        "log: record: a used one, and 11 holds: refusal 11",
        |l| matches!(l.call, LogCall::Record(k) if l.refusal == 11 && l.before.used(k)),
    );
    t.log("log: next: 11 and 13 hold: refusal 11", |l| {
        let none = |at| l.before.next_used(at).is_none();
        matches!(l.call, LogCall::Next(at) if l.refusal == 11 && none(at))
    });
    t.log("log: delete: 11 and 13 hold: refusal 11", |l| {
        matches!(l.call, LogCall::Delete(k) if l.refusal == 11 && !l.before.used(k) && l.stays())
    });
    t.log("log: delete: a used one, and 11 holds: refusal 11", |l| {
        matches!(l.call, LogCall::Delete(k) if l.refusal == 11 && l.before.used(k) && l.stays())
    });
    t.log(
        "log: delete outcome: a record of it, and 11 holds: refusal 11",
        |l| {
            let has = |o| slots(l.before.octets).any(|slot| is_used(slot) && slot[4] == o);
            matches!(l.call, LogCall::DeleteOutcome(o) if l.refusal == 11 && has(o) && l.stays())
        },
    );
    for call in ["append", "append reading", "compact"] {
        let name = format!("log: {call}: room by compaction alone, and 11 holds: refusal 11");
        t.log(name, move |l| {
            let counted = l.record().is_none_or(|record| record.outcome != 0);
            l.name() == call && counted && l.refusal == 11 && l.before.has_hole() && l.stays()
        });
    }
}

/// Appending goes behind the last used record, and leaves all else while there is room there.
fn appending(t: &mut Table) {
    for (behind, of) in [(0, 1), (0, 2), (1, 2), (0, 5), (2, 5), (4, 5)] {
        let name = format!("append: {behind} of {of}, and no hole: appended behind them");
        t.log(name, move |l| {
            l.before.len() == of
                && l.before.behind == behind
                && !l.before.has_hole()
                && l.appends(|r| r.outcome != 0)
                && l.wrote_behind()
        });
    }
    for (name, hole) in [
        ("the first unused", 0),
        ("the second unused", 1),
        ("the third unused", 2),
    ] {
        let name = format!("append: {name}, used ones behind it, and room: it is left");
        t.log(name, move |l| {
            hole + 1 < l.before.behind
                && l.before.unused_and_other(hole)
                && l.appends(|r| r.outcome != 0)
                && l.wrote_behind()
        });
    }
    t.log("append: two holes, and room behind: both are left", |l| {
        l.before.behind >= l.before.in_use + 2 && l.appends(|r| r.outcome != 0) && l.wrote_behind()
    });
    t.log(
        "append: a hole, and one slot behind the last used one: taken",
        |l| {
            l.before.has_hole()
                && l.before.behind + 1 == l.before.len()
                && l.appends(|r| r.outcome != 0)
                && l.wrote_behind()
        },
    );
    t.log("append: the slot behind the next one: left", |l| {
        l.before.unused_and_other(l.before.behind + 1)
            && l.appends(|r| r.outcome != 0)
            && l.wrote_behind()
    });
    t.log("append: none used, octets not 0: in the first slot", |l| {
        l.before.in_use == 0
            && l.before.unused_and_other(0)
            && l.appends(|r| r.outcome != 0)
            && l.wrote_behind()
    });
    t.log(
        "append: other octets of the slot taken are not 0: overwritten",
        |l| {
            let slot = l.before.slot(l.before.behind);
            l.appends(|r| r.outcome != 0) && slot.is_some_and(others) && l.wrote_behind()
        },
    );
    for outcome in [1, 11, 12, 128, 255] {
        let name = format!("append: a record of zeros but for outcome {outcome}: passed");
        t.log(name, move |l| {
            let zeros = |slot: &Slot| (0..16).all(|i| slot[i] == if i == 4 { outcome } else { 0 });
            l.appends(|r| r.outcome != 0) && slots(l.before.octets).any(zeros) && l.wrote()
        });
    }
}

/// All octets but that of the outcome are other than 0.
pub(super) fn others(slot: &Slot) -> bool {
    (0..16).all(|i| (slot[i] == 0) == (i == 4))
}

/// Refusal 12 is given exactly when every record is used.
fn full(t: &mut Table) {
    for of in [0, 1, 2, 5] {
        t.log(
            format!("append: all {of} records used: refusal 12"),
            move |l| {
                l.name() == "append"
                    && l.refusal == 12
                    && l.stays()
                    && (l.before.len(), l.before.unused) == (of, 0)
            },
        );
    }
    for (name, at) in [("the first", 0), ("the second", 1), ("the third", 2)] {
        let name = format!("append: of several all but {name} used: the log is full");
        t.log(name, move |l| {
            let alone = l.before.unused == 1 && l.before.len() > 3 && !l.before.used(at);
            alone && l.appends(|r| r.outcome != 0) && l.after.full() && l.wrote()
        });
    }
    t.log("append: all but the last used: the log is full", |l| {
        let alone = l.before.unused == 1 && l.before.behind + 1 == l.before.len();
        alone && l.appends(|r| r.outcome != 0) && l.after.full() && l.wrote()
    });
    let outcome_0 = |l: &LogSeen| l.appends(|r| r.outcome == 0) && l.stays();
    t.log(
        "append: outcome 0, no record: nothing, and no refusal",
        move |l| outcome_0(l) && l.before.octets.is_empty(),
    );
    t.log(
        "append: outcome 0, a full log: nothing, and no refusal",
        move |l| outcome_0(l) && l.before.full(),
    );
    t.log("append: outcome 0, room behind: nothing", move |l| {
        outcome_0(l) && l.before.behind < l.before.len()
    });
    t.log(
        "append: outcome 0, the last slot used and a hole: not compacted",
        move |l| outcome_0(l) && l.before.wants_compaction(),
    );
}

/// Where the last slot is used and another is not, appending compacts first.
fn compacting_first(t: &mut Table) {
    let compacts =
        |l: &LogSeen| l.before.wants_compaction() && l.appends(|r| r.outcome != 0) && l.wrote();
    for (name, at) in [("the first", 0), ("the second", 1), ("the third", 2)] {
        let name = format!("append: the last slot used, {name} of several not: compacted first");
        t.log(name, move |l| {
            let alone = l.before.unused == 1 && l.before.len() > 3 && !l.before.used(at);
            alone && compacts(l)
        });
    }
    t.log(
        "append: the last slot used alone: moved to the front",
        move |l| l.before.in_use == 1 && l.before.len() > 2 && compacts(l),
    );
    t.log("append: compacted, and room left: zeros behind", move |l| {
        let mut left = l.after.behind..l.after.len();
        left.len() > 1 && left.all(|k| l.before.shows(k)) && compacts(l)
    });
    t.log(
        "append: compacted, three remain: in their order",
        move |l| l.before.in_use >= 3 && differ(l.before.octets) && compacts(l),
    );
    t.log(
        "append: a hole on both sides of a used one: compacted first",
        move |l| {
            let between = |k: usize| l.before.used(k) && !l.before.used(k + 1);
            compacts(l) && !l.before.used(0) && (1..l.before.len() - 1).any(between)
        },
    );
}

/// No two used records are alike.
pub(super) fn differ(log: &[u8]) -> bool {
    let mut used: Vec<_> = slots(log).filter(|slot| is_used(slot)).collect();
    used.sort_unstable();
    used.windows(2).all(|pair| pair[0] != pair[1])
}

/// The five fields at their widths, each written as given.
fn appended_fields(t: &mut Table) {
    for outcome in (1..=11).chain([12, 128, 255]) {
        t.log(format!("append: outcome {outcome}: written"), move |l| {
            l.appends(|r| r.outcome == outcome) && l.wrote()
        });
    }
    for place in [0, 1, 65_535, 65_536, 1 << 31, u32::MAX] {
        t.log(format!("append: place {place}: written"), move |l| {
            l.appends(|r| r.outcome != 0 && r.place == place) && l.wrote()
        });
    }
    for handed in [0, 255, 256, 65_535] {
        let name = format!("append: {handed} octets handed out: written");
        t.log(name, move |l| {
            l.appends(|r| r.outcome != 0 && r.handed == handed) && l.wrote()
        });
    }
    for status in [0, 1, 1 << 63, u64::MAX] {
        let name = format!("append: status {status:#X}: written");
        t.log(name, move |l| {
            l.appends(|r| r.outcome != 0 && r.status == status) && l.wrote()
        });
    }
    for way in [0, 1, 8, 16, 31, 128] {
        let name = format!("append: way {way}: written as given");
        t.log(name, move |l| {
            l.appends(|r| r.outcome != 0 && r.address == way) && l.wrote()
        });
    }
    t.log(
        "append: no two octets equal: each in its place, low first",
        |l| l.appends(|r| r.outcome != 0 && distinct(r)) && l.wrote(),
    );
}

/// No two octets of a record are equal.
fn distinct(record: &Record) -> bool {
    let mut octets = octets_of(record);
    octets.sort_unstable();
    octets.windows(2).all(|pair| pair[0] != pair[1])
}

/// Readings, by outcome; `none`, `open` and a refused reading append nothing.
fn appended_readings(t: &mut Table) {
    let of = |l: &LogSeen, outcome: u64, kind: u64, refusal: u64| match l.call {
        LogCall::AppendReading(numbers, _) => {
            numbers[raw::READING_OUTCOME] == outcome
                && numbers[raw::READING_KIND] == kind
                && numbers[raw::READING_REFUSAL] == refusal
        }
        _ => false,
    };
    for outcome in 1..=11 {
        t.log(
            format!("append reading: outcome {outcome}: appended"),
            move |l| of(l, outcome, raw::COUNTED, 0) && l.wrote(),
        );
    }
    for way in [0, 1, 6, 7, 8].into_iter().chain(16..=31) {
        t.log(format!("append reading: way {way}: appended"), move |l| {
            let counted = (1..=11).any(|outcome| of(l, outcome, raw::COUNTED, 0));
            counted && l.record().is_some_and(|r| r.address == way) && l.wrote()
        });
    }
    t.log(
        "append reading: a way above an octet: its low octet appended",
        |l| {
            let LogCall::AppendReading(numbers, _) = l.call else {
                return false;
            };
            let (way, slot) = (numbers[raw::READING_WAY], l.after.slot(l.taken()));
            way >> 8 != 0 && l.wrote() && slot.is_some_and(|slot| slot[5] == (way & 0xFF) as u8)
        },
    );
    t.log("append reading: octets handed out: appended", |l| {
        l.name() == "append reading" && l.record().is_some_and(|r| r.handed > 0) && l.wrote()
    });
    t.log(
        "append reading: the last slot used and a hole: compacted first",
        move |l| l.name() == "append reading" && l.before.wants_compaction() && l.wrote(),
    );
    t.log(
        "append reading: a hole, and room behind: behind the last used one",
        move |l| l.name() == "append reading" && l.before.has_hole() && l.wrote_behind(),
    );
    t.log(
        "append reading: counted, a full log: refusal 12",
        move |l| {
            let counted = (1..=11).any(|outcome| of(l, outcome, raw::COUNTED, 0));
            l.refusal == 12 && counted && l.before.full() && l.stays()
        },
    );
    for (name, kind, refusal) in [
        ("none", raw::NONE, 0),
        ("open", raw::OPEN, 0),
        ("a refused reading (1)", 0, 1),
        ("a refused reading (2)", 0, 2),
        ("a refused reading (3)", 0, 3),
    ] {
        let uncounted = move |l: &LogSeen| of(l, 0, kind, refusal) && l.refusal == 0 && l.stays();
        t.log(format!("append reading: {name}: nothing"), move |l| {
            // zeros would show
            uncounted(l) && l.before.unused_and_other(l.before.behind)
        });
        let full = format!("append reading: {name}, a full log: nothing, and no refusal");
        t.log(full, move |l| uncounted(l) && l.before.full());
        let hole = format!("append reading: {name}, the last slot used and a hole: not compacted");
        t.log(hole, move |l| uncounted(l) && l.before.wants_compaction());
    }
}

/// Numbers that no reading gives: of each its low bits count, as many as the field has.
fn numbers_of_readings(t: &mut Table) {
    let wide = |l: &LogSeen, at: usize, bits: u32| match l.call {
        LogCall::AppendReading(numbers, _) => numbers[at] >> bits != 0,
        _ => false,
    };
    for (field, at, bits) in [
        ("place", raw::READING_START, 32),
        ("octets handed out", raw::READING_DATA_LENGTH, 16),
        ("outcome", raw::READING_OUTCOME, 8),
    ] {
        let name = format!("C: append reading: {field} of more than {bits} bits: its low ones");
        t.log(name, move |l| wide(l, at, bits) && l.wrote());
    }
    t.log("C: append reading: outcome 256: nothing", move |l| {
        let is_256 =
            matches!(l.call, LogCall::AppendReading(n, _) if n[raw::READING_OUTCOME] == 256);
        is_256 && l.refusal == 0 && l.before.unused > 0 && l.stays()
    });
}

/// Refusal 13: on both sides of it.
fn records(t: &mut Table) {
    let read =
        |l: &LogSeen, test: &dyn Fn(usize) -> bool| l.name() == "record" && l.reads(|k, _| test(k));
    t.log("record: the first of several: read", move |l| {
        l.before.len() > 1 && read(l, &|k| k == 0)
    });
    t.log("record: the last of several: read", move |l| {
        l.before.len() > 1 && read(l, &|k| k + 1 == l.before.len())
    });
    t.log("record: the only one: read", move |l| {
        l.before.len() == 1 && read(l, &|_| true)
    });
    t.log("record: used, behind an unused one: read", move |l| {
        read(l, &|k| (0..k).any(|k| !l.before.used(k)))
    });
    let refused = |l: &LogSeen, test: &dyn Fn(usize) -> bool| matches!(l.call, LogCall::Record(k) if l.refusal == 13 && test(k));
    t.log("record: the first, unused: refusal 13", move |l| {
        refused(l, &|k| k == 0 && !l.before.octets.is_empty())
    });
    t.log("record: the last, unused: refusal 13", move |l| {
        refused(l, &|k| {
            k == l.before.len().wrapping_sub(1) && !l.before.octets.is_empty()
        })
    });
    t.log("record: unused, other octets not 0: refusal 13", move |l| {
        refused(l, &|k| l.before.slot(k).is_some_and(others))
    });
    t.log(
        "record: unused, a used one on either side: refusal 13",
        move |l| {
            refused(l, &|k| {
                k > 0 && l.before.used(k - 1) && l.before.used(k + 1)
            })
        },
    );
    t.log("record: 0 of none: refusal 13", move |l| {
        refused(l, &|k| k == 0 && l.before.octets.is_empty())
    });
    for beyond in [0, 1] {
        let name = format!(
            "record: {} behind the last, all used: refusal 13",
            beyond + 1
        );
        t.log(name, move |l| {
            l.before.full() && refused(l, &|k| k == l.before.len() + beyond)
        });
    }
    for (name, high) in ["2^28", "2^32", "2^60"].into_iter().zip(BEYOND_THE_LOG) {
        let name = format!("record: {name} more than a used one: refusal 13");
        t.log(name, move |l| {
            refused(l, &|k| {
                k.checked_sub(high).is_some_and(|k| l.before.used(k))
            })
        });
    }
    for (name, number) in [("2^60 - 1", usize::MAX / 16), ("the greatest", usize::MAX)] {
        t.log(format!("record: number {name}: refusal 13"), move |l| {
            l.before.full() && refused(l, &|k| k == number)
        });
    }
}

/// Records are read as they stand.
fn contents(t: &mut Table) {
    for call in ["record", "next"] {
        let mut row = |what: String, test: fn(&Record, u64) -> bool, value: u64| {
            t.log(format!("{call}: {what}: as it stands"), move |l| {
                l.name() == call && l.reads(|_, record| test(record, value))
            });
        };
        for outcome in (1..=11).chain([12, 128, 255]) {
            let test = |r: &Record, n: u64| u64::from(r.outcome) == n;
            row(format!("outcome {outcome}"), test, outcome);
        }
        row("way not 0".to_string(), |r, _| r.address != 0, 0);
        row("way above 31".to_string(), |r, _| r.address > 31, 0);
        row(
            "place of the highest bit".to_string(),
            |r, _| r.place >> 31 == 1,
            0,
        );
        row(
            "octets handed out of the highest bit".to_string(),
            |r, _| r.handed >> 15 == 1,
            0,
        );
        row(
            "status of the highest bit".to_string(),
            |r, _| r.status >> 63 == 1,
            0,
        );
        row("no two octets equal".to_string(), |r, _| distinct(r), 0);
        let zeros = |r: &Record, _| (r.place, r.address, r.handed, r.status) == (0, 0, 0, 0);
        row("zeros but for the outcome".to_string(), zeros, 0);
    }
}

/// A reader hands out the next used record and goes on behind it; it stays where it is refused.
fn readers(t: &mut Table) {
    // at this number, to this record
    let moves = |l: &LogSeen, test: &dyn Fn(usize, usize) -> bool| match l.call {
        LogCall::Next(at) => l.reads(|k, _| l.number == k + 1 && test(at, k)),
        _ => false,
    };
    t.log("next: at the first: moves on", move |l| {
        moves(l, &|at, k| (at, k) == (0, 0))
    });
    t.log("next: in the middle: moves on", move |l| {
        moves(l, &|at, k| at == k && k > 0 && k + 1 < l.before.len())
    });
    t.log("next: at the last: moves on", move |l| {
        moves(l, &|at, k| at == k && k > 0 && k + 1 == l.before.len())
    });
    t.log("next: behind an unused one: moves on", move |l| {
        moves(l, &|at, k| at == k && k > 0 && !l.before.used(k - 1))
    });
    for (skipped, name) in [(1, "one unused"), (2, "two unused"), (3, "three unused")] {
        let front = format!("next: {name} in front: skipped");
        t.log(front, move |l| moves(l, &|at, k| at == 0 && k == skipped));
        let middle = format!("next: {name} in the middle: skipped");
        t.log(middle, move |l| {
            moves(l, &|at, k| {
                at > 0 && k == at + skipped && k + 1 < l.before.len()
            })
        });
        let last = format!("next: {name} before the last: skipped");
        t.log(last, move |l| {
            moves(l, &|at, k| {
                at > 0 && k == at + skipped && k + 1 == l.before.len()
            })
        });
    }
    t.log("next: unused, other octets not 0: skipped", move |l| {
        moves(l, &|at, k| {
            k == at + 1 && l.before.slot(at).is_some_and(others)
        })
    });
    let stays = |l: &LogSeen, test: &dyn Fn(usize) -> bool| match l.call {
        LogCall::Next(k) => l.refusal == 13 && l.number == k && test(k),
        _ => false,
    };
    t.log("next: at the first, none used: stays", move |l| {
        stays(l, &|k| k == 0 && !l.before.octets.is_empty())
    });
    t.log("next: of no record: stays", move |l| {
        stays(l, &|k| k == 0 && l.before.octets.is_empty())
    });
    t.log(
        "next: behind the last used one, an unused one there: stays",
        move |l| stays(l, &|k| k > 0 && k == l.before.behind && k < l.before.len()),
    );
    t.log(
        "next: behind the last used one, unused ones in front: stays",
        move |l| {
            let hole = l.before.has_hole();
            hole && stays(l, &|k| k > l.before.behind && k < l.before.len())
        },
    );
    t.log(
        "next: unused ones only, other octets not 0: stays",
        move |l| stays(l, &|k| l.before.slot(k).is_some_and(others)),
    );
    t.log("next: behind the last, all used: stays", move |l| {
        stays(l, &|k| k == l.before.len() && l.before.full())
    });
    t.log("next: 2^60 more than a used one: stays", move |l| {
        stays(l, &|k| {
            k.checked_sub(1 << 60).is_some_and(|k| l.before.used(k))
        })
    });
    t.log("next: the greatest: stays", move |l| {
        stays(l, &|k| k == usize::MAX)
    });
    t.log(
        "next: refusal 11: stays",
        |l| matches!(l.call, LogCall::Next(k) if l.refusal == 11 && l.number == k),
    );
}

/// How many are used.
fn used(t: &mut Table) {
    for (used, of) in [(0, 0), (0, 1), (1, 1), (0, 5), (1, 5), (4, 5), (5, 5)] {
        t.log(format!("used: {used} of {of}: {used}"), move |l| {
            let in_use = (l.before.in_use, l.before.len()) == (used, of);
            l.name() == "used" && l.refusal == 0 && in_use && l.number == used
        });
    }
    t.log("used: used ones behind an unused one: counted", |l| {
        l.name() == "used" && l.refusal == 0 && l.before.has_hole() && l.number == l.before.in_use
    });
}
