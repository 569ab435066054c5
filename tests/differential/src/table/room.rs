//! Deleting records of a log, and compacting it.
use super::log::{differ, others};
use super::Table;
use crate::generate::BEYOND_THE_LOG;
use crate::plain_log::{is_used, slots};
use crate::seen_log::{LogCall, LogSeen};

pub fn rows(t: &mut Table) {
    deleted(t);
    not_used(t);
    outcomes(t);
    compactions(t);
}

/// A deleted record's outcome octet becomes 0, and no other octet changes.
fn deleted(t: &mut Table) {
    t.log("delete: the first of several: deleted", |l| {
        l.before.len() > 1 && l.deletes(|k, _| k == 0)
    });
    t.log("delete: in the middle: deleted", |l| {
        l.deletes(|k, _| k > 0 && k + 1 < l.before.len())
    });
    t.log("delete: the last of several: deleted", |l| {
        l.before.len() > 1 && l.deletes(|k, _| k + 1 == l.before.len())
    });
    t.log("delete: the only one: deleted", |l| {
        l.before.len() == 1 && l.deletes(|_, _| true)
    });
    t.log(
        "delete: the last used one, a hole before it: deleted",
        |l| l.deletes(|k, _| k + 1 == l.before.behind && k > 0 && !l.before.used(k - 1)),
    );
    t.log("delete: behind an unused one: deleted", |l| {
        l.deletes(|k, _| (0..k).any(|k| !l.before.used(k)))
    });
    t.log("delete: of a full log: deleted", |l| {
        l.before.full() && l.deletes(|_, _| true)
    });
    t.log(
        "delete: no octet of it is 0: the outcome alone becomes 0",
        |l| {
            l.deletes(|k, slot| {
                let after = l.after.slot(k).is_some_and(others);
                slot.iter().all(|&octet| octet != 0) && after
            })
        },
    );
    for outcome in (1..=11).chain([12, 128, 255]) {
        t.log(format!("delete: outcome {outcome}: deleted"), move |l| {
            l.deletes(|_, slot| slot[4] == outcome)
        });
    }
}

/// Refusal 13: on the other side of it.
fn not_used(t: &mut Table) {
    let refused = |l: &LogSeen, test: &dyn Fn(usize) -> bool| match l.call {
        LogCall::Delete(k) => l.refusal == 13 && l.stays() && test(k),
        _ => false,
    };
    t.log("delete: the first, unused: refusal 13", move |l| {
        refused(l, &|k| k == 0 && !l.before.octets.is_empty())
    });
    t.log("delete: the last, unused: refusal 13", move |l| {
        let last = l.before.len().checked_sub(1);
        refused(l, &|k| Some(k) == last)
    });
    t.log("delete: unused, other octets not 0: refusal 13", move |l| {
        refused(l, &|k| l.before.slot(k).is_some_and(others))
    });
    t.log(
        "delete: unused, a used one on either side: refusal 13",
        move |l| {
            let around = |k: usize| l.before.used(k - 1) && l.before.used(k + 1);
            refused(l, &|k| 0 < k && k < l.before.len() && around(k))
        },
    );
    t.log("delete: 0 of none: refusal 13", move |l| {
        refused(l, &|k| k == 0 && l.before.octets.is_empty())
    });
    for beyond in [0, 1] {
        let name = format!(
            "delete: {} behind the last, all used: refusal 13",
            beyond + 1
        );
        t.log(name, move |l| {
            l.before.full() && refused(l, &|k| k == l.before.len() + beyond)
        });
    }
    for (name, high) in ["2^28", "2^32", "2^60"].into_iter().zip(BEYOND_THE_LOG) {
        let name = format!("delete: {name} more than a used one: refusal 13");
        t.log(name, move |l| {
            refused(l, &|k| {
                k.checked_sub(high).is_some_and(|k| l.before.used(k))
            })
        });
    }
    for (name, number) in [("2^60 - 1", usize::MAX / 16), ("the greatest", usize::MAX)] {
        t.log(format!("delete: number {name}: refusal 13"), move |l| {
            l.before.full() && refused(l, &|k| k == number)
        });
    }
}

/// The records of an outcome, and no other.
fn outcomes(t: &mut Table) {
    // how many used records have it
    let has = |l: &LogSeen, outcome: u8| {
        let of = slots(l.before.octets).filter(|slot| is_used(slot) && slot[4] == outcome);
        of.count()
    };
    for outcome in (1..=11).chain([12, 128, 255]) {
        let name = format!("delete outcome: {outcome}: deleted");
        t.log(name, move |l| {
            let n = has(l, outcome);
            n > 0 && l.number == n && l.deletes_all(|of| of == outcome)
        });
    }
    for (many, name) in [
        (0, "no record has it"),
        (1, "one has it"),
        (2, "two have it"),
    ] {
        let name = format!("delete outcome: {name}, others do not: {many}, and these are left");
        t.log(name, move |l| {
            let others = |of| l.before.in_use > many && has(l, of) == many;
            l.number == many && l.deletes_all(|of| of != 0 && others(of))
        });
    }
    t.log(
        "delete outcome: every record has it: none remains",
        move |l| {
            let all = |of| has(l, of) == l.before.in_use;
            l.before.full() && l.before.len() > 1 && l.deletes_all(all) && l.after.in_use == 0
        },
    );
    t.log(
        "delete outcome: the first and the last have it: both",
        move |l| {
            let of = |k: usize, outcome| l.before.slot(k).is_some_and(|slot| slot[4] == outcome);
            l.before.len() > 2 && l.deletes_all(|o| o != 0 && of(0, o) && of(l.before.len() - 1, o))
        },
    );
    t.log(
        "delete outcome: the only record has it: deleted",
        move |l| l.before.len() == 1 && l.deletes_all(|of| has(l, of) == 1),
    );
    t.log(
        "delete outcome: it stands in the way of another: left",
        move |l| {
            let other = |of| {
                let mut used = slots(l.before.octets).filter(|slot| is_used(slot));
                used.any(|slot| slot[5] == of && slot[4] != of)
            };
            l.deletes_all(|of| of != 0 && other(of))
        },
    );
    t.log("delete outcome: no record: 0", |l| {
        l.before.octets.is_empty() && l.number == 0 && l.deletes_all(|of| of != 0)
    });
    let nothing = |l: &LogSeen| l.number == 0 && l.stays() && l.deletes_all(|of| of == 0);
    t.log(
        "delete outcome: 0, unused records: 0, and nothing changes",
        move |l| l.before.unused > 0 && nothing(l),
    );
    t.log(
        "delete outcome: 0, a full log: 0, and nothing changes",
        move |l| l.before.full() && nothing(l),
    );
    t.log("delete outcome: 0, no record: 0", move |l| {
        l.before.octets.is_empty() && nothing(l)
    });
}

/// The remaining ones move to the front in their order, and the rest is filled with zeros.
fn compactions(t: &mut Table) {
    for (name, at) in [("the first", 0), ("the second", 1), ("the third", 2)] {
        let name = format!("compact: {name} of several unused: those behind it moved");
        t.log(name, move |l| {
            l.before.len() > 3 && l.before.unused == 1 && !l.before.used(at) && l.compacts()
        });
    }
    t.log("compact: two unused, a used one between: moved", |l| {
        let between = |k: usize| {
            let last = k + 1 == l.before.len();
            k > 0 && !last && l.before.used(k) && !l.before.used(k - 1) && !l.before.used(k + 1)
        };
        l.before.unused == 2 && (0..l.before.len()).any(between) && l.compacts()
    });
    t.log("compact: the last used alone: moved to the front", |l| {
        l.before.in_use == 1 && l.before.len() > 2 && l.before.wants_compaction() && l.compacts()
    });
    t.log("compact: three remain: in their order", |l| {
        let holes = l.before.has_hole() && differ(l.before.octets);
        l.before.in_use >= 3 && holes && l.compacts()
    });
    t.log(
        "compact: a record of zeros but for its outcome: kept",
        |l| {
            let zeros = |slot: &[u8; 16]| (0..16).all(|i| (slot[i] == 0) == (i != 4));
            l.before.has_hole() && slots(l.before.octets).any(zeros) && l.compacts()
        },
    );
    t.log("compact: the rest: zeros", |l| {
        let mut rest = l.after.in_use..l.after.len();
        let holes = l.before.has_hole() && rest.len() > 1;
        holes && rest.all(|k| l.before.shows(k)) && l.compacts()
    });
    t.log("compact: no hole, octets behind not 0: zeros", |l| {
        let behind = l.before.behind;
        let in_front = behind > 0 && !l.before.has_hole();
        in_front && l.before.unused_and_other(behind) && l.compacts()
    });
    t.log("compact: none used, octets not 0: zeros", |l| {
        let other = l.before.octets.iter().any(|&octet| octet != 0);
        l.before.in_use == 0 && other && l.compacts() && !l.stays()
    });
    t.log("compact: a full log: nothing changes", |l| {
        l.before.full() && l.compacts() && l.stays()
    });
    t.log("compact: a log of zeros: nothing changes", |l| {
        let zeros = l.before.octets.iter().all(|&octet| octet == 0);
        l.before.len() > 0 && zeros && l.compacts() && l.stays()
    });
    t.log("compact: no record: nothing", |l| {
        l.before.octets.is_empty() && l.compacts()
    });
    t.log("compact: compacted before: nothing more", |l| {
        let compacted = !l.before.has_hole() && l.before.in_use > 0 && l.before.unused > 0;
        compacted && l.compacts() && l.stays()
    });
}
