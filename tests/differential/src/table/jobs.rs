//! Calls on the table that two jobs share: item 10 of document 02.
use super::Table;
use crate::generate::{BROADCAST, RESERVED_GROUP};
use crate::raw;
use crate::seen::only_octet;
use crate::seen_jobs::TableCall::{Add, Remove};
use crate::seen_jobs::{TableCall, TableOf, TableSeen, PAIRS};

const CALLS: [(&str, TableCall); 2] = [("add", Add), ("remove", Remove)];
/// Jobs that there are not.
pub const NO_JOBS: [u8; 4] = [2, 3, 128, 255];
/// Octets of a holder that are no job's, beside 0.
pub const NO_HOLDERS: [u8; 3] = [3, 128, 255];

pub fn rows(t: &mut Table) {
    entries(t);
    octets(t);
    free_entries(t);
    freed(t);
    numbers(t);
    twelve_and_sixteen(t);
    four(t);
    same_address(t);
    near(t);
    special(t);
    refusals(t);
    broken(t);
}

/// A table that no call refuses.
fn sound(table: TableOf) -> bool {
    !table.broken()
}

/// Each entry, taken where it is the lowest free one, and freed; no octet of another entry changes.
fn entries(t: &mut Table) {
    for (name, call) in CALLS {
        for job in 0..2 {
            for k in 0..16 {
                t.table(format!("table: {name}, job {job}: entry {k}"), move |c| {
                    let alone = c.after.only_other(c.before) == Some(k);
                    c.job == job && alone && c.done(call, |entry| entry == k)
                });
            }
        }
        t.table(format!("table: {name}: further free ones: they stay"), {
            move |c| {
                let behind = |k: usize| c.before.free().any(|free| free > k);
                c.done(call, behind) && c.after.only_other(c.before).is_some()
            }
        });
    }
    let behind = |c: &TableSeen, k: usize| (k..16).any(|other| c.before.job(other).is_some());
    t.table("table: add: entries in use behind a free one", move |c| {
        c.done(Add, |k| behind(c, k))
    });
    let name = "table: add: entries in use behind a free one, the last one free";
    t.table(name, move |c| {
        c.before.job(15).is_none() && c.done(Add, |k| behind(c, k))
    });
}

/// All eight octets of an entry are written, and only those.
fn octets(t: &mut Table) {
    for octet in NO_HOLDERS {
        let name = format!("table: add: a free entry's holder is {octet}: taken");
        t.table(name, move |c| c.done(Add, |k| c.before.holder(k) == octet));
    }
    for (name, call) in CALLS {
        let row = format!("table: {name}: the spare octet is not 0: written as 0");
        t.table(row, move |c| {
            let spare = |k: usize| c.before.entry(k)[7] != 0 && c.after.entry(k)[7] == 0;
            c.done(call, spare)
        });
        let row = format!("table: {name}: another entry's spare octet is not 0: stays");
        t.table(row, move |c| {
            c.done(call, |k| {
                (0..16).any(|i| i != k && c.before.entry(i)[7] != 0)
                    && c.after.only_other(c.before) == Some(k)
            })
        });
        let row = format!("table: {name}: another entry is free by an octet of no job: stays");
        t.table(row, move |c| {
            c.done(call, |k| {
                (0..16).any(|i| i != k && c.before.holder(i) > 2)
                    && c.after.only_other(c.before) == Some(k)
            })
        });
    }
    for job in 0..2 {
        t.table(format!("table: add, job {job}: eight octets"), move |c| {
            c.job == job
                && c.done(Add, |k| {
                    let entry = c.after.entry(k);
                    entry[0] == 1 + job && entry[1..7] == c.address && entry[7] == 0
                })
        });
    }
    t.table("table: remove: eight octets of 0", |c| {
        c.done(Remove, |k| *c.after.entry(k) == [0; 8])
    });
    t.table(
        "table: add: other octets in a free entry: overwritten",
        |c| {
            c.done(Add, |k| {
                c.before.address(k) != [0; 6] && c.before.address(k) != c.address
            })
        },
    );
}

/// What stands in a free entry is listed by nobody, whichever octet makes it free.
fn free_entries(t: &mut Table) {
    let holders = [raw::FREE].into_iter().chain(NO_HOLDERS);
    for (octet, job) in holders.flat_map(|octet| [(octet, 0), (octet, 1)]) {
        let stands = move |c: &TableSeen| {
            let here = |k| c.before.holder(k) == octet && c.before.address(k) == c.address;
            c.job == job && (0..16).any(here)
        };
        let there = format!("job {job}: it stands in an entry of holder {octet}");
        t.table(format!("table: add, {there}: added"), move |c| {
            stands(c) && c.done(Add, |_| true)
        });
        t.table(format!("table: remove, {there}: refusal 18"), move |c| {
            stands(c) && sound(c.before) && c.refusal == 18
        });
    }
}

/// "so freed ones are used again".
fn freed(t: &mut Table) {
    for by in 0..2 {
        for job in 0..2 {
            let name = format!("table: add, job {job}: an entry that job {by} freed");
            t.table(name, move |c| {
                let again = |k: usize| c.freed.contains(&(k, by));
                c.job == job && c.done(Add, again)
            });
        }
    }
    t.table(
        "table: add: two freed by earlier calls: the lower first",
        |c| {
            c.done(Add, |k| {
                let was_freed = |k: usize| c.freed.iter().any(|(freed, _)| *freed == k);
                was_freed(k) && c.before.free().any(|other| other > k && was_freed(other))
            })
        },
    );
}

/// How many a job holds before the call, and after it.
fn numbers(t: &mut Table) {
    for job in 0..2 {
        for n in 0..=11 {
            let name = format!("table: add, job {job} holds {n}: {} then", n + 1);
            t.table(name, move |c| {
                let (before, after) = (c.before.holds(job), c.after.holds(job));
                c.job == job && (before, after) == (n, n + 1) && c.done(Add, |_| true)
            });
        }
        for n in 1..=12 {
            let name = format!("table: remove, job {job} holds {n}: {} then", n - 1);
            t.table(name, move |c| {
                let (before, after) = (c.before.holds(job), c.after.holds(job));
                c.job == job && (before, after) == (n, n - 1) && c.done(Remove, |_| true)
            });
        }
    }
}

/// Both sides of refusals 15 and 16.
fn twelve_and_sixteen(t: &mut Table) {
    for job in 0..2 {
        let calls = move |c: &TableSeen| c.call == Add && c.job == job && sound(c.before);
        let in_use = |c: &TableSeen| 16 - c.before.free().count();
        t.table(
            format!("table: add, job {job} holds 12: refusal 15"),
            move |c| calls(c) && c.before.holds(job) == 12 && in_use(c) < 16 && c.refusal == 15,
        );
        let name = format!("table: add, job {job} holds 12, the other 4: refusal 15");
        t.table(name, move |c| {
            calls(c) && c.before.holds(job) == 12 && in_use(c) == 16 && c.refusal == 15
        });
        let name = format!("table: add, job {job} holds 4, the other 12: refusal 16");
        t.table(name, move |c| {
            calls(c) && c.before.holds(job) == 4 && in_use(c) == 16 && c.refusal == 16
        });
        t.table(
            format!("table: add, job {job} holds 11, the other 5: refusal 16"),
            move |c| calls(c) && c.before.holds(job) == 11 && in_use(c) == 16 && c.refusal == 16,
        );
        t.table(
            format!("table: add, job {job} holds 8, the other 8: refusal 16"),
            move |c| calls(c) && c.before.holds(job) == 8 && in_use(c) == 16 && c.refusal == 16,
        );
        let name = format!("table: add, job {job}, 15 in use: the last one");
        t.table(name, move |c| {
            c.job == job && in_use(c) == 15 && c.done(Add, |_| true)
        });
        let name = format!("table: remove, job {job}, all 16 in use: freed");
        t.table(name, move |c| {
            c.job == job && in_use(c) == 16 && c.done(Remove, |_| true)
        });
    }
}

/// "so each always gets 4 whatever the other does".
fn four(t: &mut Table) {
    for job in 0..2 {
        for n in 0..4 {
            let name = format!("table: add, job {job} holds {n}, the other 12: added");
            t.table(name, move |c| {
                let holds = (c.before.holds(job), c.before.holds(1 - job));
                c.job == job && holds == (n, 12) && c.done(Add, |_| true)
            });
        }
    }
}

/// "Both may list the same address".
fn same_address(t: &mut Table) {
    let others = |c: &TableSeen| c.before.listed_at(c.other(), &c.address).next();
    for job in 0..2 {
        let name = format!("table: add, job {job}: the other lists it: added");
        t.table(name, move |c| {
            c.job == job && others(c).is_some() && c.done(Add, |_| true)
        });
        let name = format!("table: add, job {job}: both list it: refusal 17");
        t.table(name, move |c| {
            c.job == job && others(c).is_some() && sound(c.before) && c.refusal == 17
        });
        for (where_, lower) in [("lower", true), ("higher", false)] {
            let too = format!("the other lists it too, by a {where_} entry");
            let name = format!("table: remove, job {job}: {too}: that one stays");
            t.table(name, move |c| {
                let stays = |i: usize| c.after.entry(i) == c.before.entry(i);
                let theirs = |k: usize| others(c).is_some_and(|i| (i < k) == lower && stays(i));
                c.job == job && c.done(Remove, theirs)
            });
        }
        let name = format!("table: remove, job {job}: the other alone lists it: refusal 18");
        t.table(name, move |c| {
            c.job == job && others(c).is_some() && sound(c.before) && c.refusal == 18
        });
    }
}

/// All six octets are compared.
fn near(t: &mut Table) {
    for i in 0..6 {
        let near = move |c: &TableSeen| {
            let mut listed = c.before.of(c.job).map(|k| c.before.address(k));
            listed.any(|address| only_octet(&address, &c.address) == Some(i))
        };
        let but = format!("a listed one but for octet {}", i + 1);
        t.table(format!("table: add: {but}: added"), move |c| {
            near(c) && c.done(Add, |_| true)
        });
        t.table(format!("table: remove: {but}: refusal 18"), move |c| {
            near(c) && sound(c.before) && c.refusal == 18
        });
    }
}

/// No address is refused for what it is.
fn special(t: &mut Table) {
    type Is = fn(&TableSeen) -> bool;
    let addresses: [(&str, Is); 5] = [
        ("own", |c| c.address == c.own),
        ("broadcast", |c| c.address == BROADCAST),
        ("the reserved group", |c| c.address == RESERVED_GROUP),
        ("all zeros", |c| c.address == [0; 6]),
        ("a group", |c| {
            c.address[0] & 1 == 1 && c.address != BROADCAST
        }),
    ];
    for (address, is) in addresses {
        for (name, call) in CALLS {
            t.table(format!("table: {name}: {address}"), move |c| {
                is(c) && c.done(call, |_| true)
            });
        }
    }
}

/// Refusals of both calls, and their order: 17 comes before 15 and 16.
fn refusals(t: &mut Table) {
    let pairs = [
        (14, 20),
        (14, 16),
        (20, 17),
        (20, 15),
        (20, 16),
        (17, 15),
        (17, 16),
        (15, 16),
    ];
    refusals_of(t, ("add", Add), &[14, 20, 17, 15, 16], &pairs);
    let pairs = [(14, 20), (14, 18), (20, 18)];
    refusals_of(t, ("remove", Remove), &[14, 20, 18], &pairs);
    t.table("table: add: 17, 15 and 16 hold: refusal 17", |c| {
        c.call == Add && [17, 15, 16].iter().all(|&n| c.holds(n)) && c.refusal == 17
    });
}

/// Each where it alone holds, and pairs that can hold together.
fn refusals_of(
    t: &mut Table,
    (name, call): (&str, TableCall),
    order: &'static [u8],
    pairs: &[(u8, u8)],
) {
    for &refusal in order {
        let row = format!("table: {name}: refusal {refusal}: the table stays");
        t.table(row, move |c| {
            // of a job that there is not nothing is listed, and so 18 holds too
            let beside = |other: u8| other == refusal || (refusal, other) == (14, 18);
            let alone = |&other: &u8| beside(other) || !c.holds(other);
            let given = c.call == call && c.refusal == refusal && c.holds(refusal);
            given && c.stays() && order.iter().all(alone)
        });
    }
    for &(first, second) in pairs {
        let row = format!("table: {name}: {first} and {second} hold: refusal {first}");
        t.table(row, move |c| {
            let both = c.call == call && c.holds(first) && c.holds(second);
            both && c.refusal == first && c.stays()
        });
    }
    for job in NO_JOBS {
        t.table(format!("table: {name}: job {job}: refusal 14"), move |c| {
            c.call == call && c.job == job && c.refusal == 14
        });
    }
}

/// A job holds too many, or has an address twice, be it the one that calls or the other.
fn broken(t: &mut Table) {
    for (name, call) in CALLS {
        for of in 0..2 {
            for job in 0..2 {
                let called = move |c: &TableSeen| {
                    c.call == call && c.job == job && c.refusal == 20 && c.stays()
                };
                let row = format!("table: {name}, job {job}: job {of} holds 13: refusal 20");
                t.table(row, move |c| called(c) && c.before.only_holds(of, 13));
                let row = format!("table: {name}, job {job}: job {of} has an address twice");
                t.table(format!("{row}: refusal 20"), move |c| {
                    called(c) && c.before.only_twice(of)
                });
                for (stand, pair) in PAIRS {
                    t.table(format!("{row}, {stand}: refusal 20"), move |c| {
                        called(c) && c.before.only_pair(of, pair)
                    });
                }
            }
        }
        t.table(
            format!("table: {name}: all 16 held by one job: refusal 20"),
            move |c| {
                let all = (0..2).any(|job| c.before.holds(job) == 16);
                c.call == call && all && c.refusal == 20
            },
        );
        t.table(
            format!("table: {name}: 13 held, and an address twice: refusal 20"),
            move |c| {
                let both = |job| c.before.holds(job) > 12 && c.before.has_twice(job);
                c.call == call && (0..2).any(both) && c.refusal == 20
            },
        );
        let row = format!("table: {name}: an address twice, once in a free entry: no 20");
        t.table(row, move |c| {
            let stands = |k: usize| {
                let address = c.before.address(k);
                (0..2).any(|job| c.before.listed_at(job, &address).next().is_some())
            };
            c.before.free().any(stands) && c.done(call, |_| true)
        });
        let row = format!("table: {name}: an address once for each job: no 20");
        t.table(row, move |c| {
            let both = |k: usize| c.before.listed_at(1, &c.before.address(k)).count() == 1;
            c.before.of(0).any(both) && c.done(call, |_| true)
        });
    }
}
