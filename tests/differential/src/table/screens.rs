//! The screen call: the client data of the chosen job, out of its capture and no other.
use super::jobs::NO_JOBS;
use super::Table;
use crate::generate::{BEYOND_32_BITS, BROADCAST};
use crate::names::OUTCOMES;
use crate::seen::bad_buffers;
use crate::seen_jobs::{ScreenSeen, PAIRS};

pub fn rows(t: &mut Table) {
    for job in 0..2 {
        parts(t, job);
        nothing(t, job);
        the_other_capture(t, job);
    }
    refusals(t);
}

/// The part that the chosen job's reading gives.
fn parts(t: &mut Table, job: u8) {
    let row = |what: &str| format!("screen: job {job}: {what}");
    let handed = move |c: &ScreenSeen| c.job() == job && c.handed();
    t.screen(row("handed out: the part"), handed);
    t.screen(row("handed out, the other gives another part"), move |c| {
        handed(c) && c.of_other.is_some_and(|part| part.1 > 0 && part != c.part)
    });
    t.screen(row("handed out, the other gives nothing"), move |c| {
        handed(c) && c.of_other.is_none_or(|part| part.1 == 0)
    });
    t.screen(row("the Start is behind the place: handed out"), move |c| {
        handed(c) && c.reading.reading.start > c.reading.place
    });
    t.screen(row("padding left off: so many octets"), move |c| {
        handed(c) && c.reading.frame.is_some_and(|f| f.data.len() > c.part.1)
    });
    t.screen(row("0 octets handed out: right behind the field"), {
        move |c| {
            let empty = c.reading.outcome == 11 && c.reading.handed == 0;
            c.job() == job && empty && c.refusal == 0 && c.part.0 > 0 && c.part.1 == 0
        }
    });
    t.screen(row("let in by its own entry: handed out"), move |c| {
        handed(c) && c.reading.way >= 16
    });
}

/// Outcomes 1 to 10, `none` and `open`: 0 and 0.
fn nothing(t: &mut Table, job: u8) {
    for (outcome, name) in (1..=10).zip(OUTCOMES) {
        let name = format!("screen: job {job}: {outcome} {name}: nothing");
        t.screen(name, move |c| {
            c.job() == job && c.reading.outcome == outcome && c.nothing()
        });
    }
    t.screen(format!("screen: job {job}: none: nothing"), move |c| {
        c.job() == job && c.reading.none() && c.nothing()
    });
    t.screen(format!("screen: job {job}: open: nothing"), move |c| {
        c.job() == job && c.reading.open() && c.nothing()
    });
    let name = format!("screen: job {job}: to an address of the other job: nothing");
    t.screen(name, move |c| {
        let others = c.reading.addressed(7, |to| {
            let theirs = c.reading.others_at(to).next().is_some();
            *to != BROADCAST && !c.reading.listed(to) && theirs
        });
        c.job() == job && others && c.nothing()
    });
    let name = format!("screen: job {job}: nothing, though the other's has data there");
    t.screen(name, move |c| {
        c.job() == job && c.nothing() && c.of_other.is_some_and(|part| part.1 > 0)
    });
}

/// What the other capture is, be it none that a call takes, has no say.
fn the_other_capture(t: &mut Table, job: u8) {
    let row = |what: &str| format!("screen: job {job}: the other capture {what}");
    let handed = move |c: &ScreenSeen| c.job() == job && c.handed();
    t.screen(row("has octets and marks that differ: handed out"), {
        move |c| handed(c) && c.other.0.len() != c.other.1.len()
    });
    t.screen(row("is longer than a call takes: taken"), move |c| {
        c.job() == job && c.refusal == 0 && c.other.0.len() > crate::generate::SYMBOLS
    });
    t.screen(row("ends before the place: handed out"), move |c| {
        handed(c) && c.reading.place > c.other.0.len()
    });
    t.screen(row("is empty: handed out"), move |c| {
        handed(c) && c.other.0.is_empty() && c.other.1.is_empty()
    });
    t.screen(row("has the place, the chosen has not: refusal 3"), {
        move |c| {
            let sound = !bad_buffers(c.other.0.len(), c.other.1.len());
            let there = sound && c.reading.place <= c.other.0.len();
            c.job() == job && there && c.refusal == 3
        }
    });
    t.screen(
        row("is one that a call takes, the chosen is not: refusal 2"),
        {
            move |c| {
                let sound = !bad_buffers(c.other.0.len(), c.other.1.len());
                c.job() == job && sound && c.refusal == 2
            }
        },
    );
}

/// In the order of a reading: 14 right after 1, and 20 at the end.
fn refusals(t: &mut Table) {
    const ORDER: [u8; 5] = [1, 14, 2, 3, 20];
    for refusal in ORDER {
        t.screen(format!("screen: refusal {refusal}: 0 and 0"), move |c| {
            let alone = |other: &u8| {
                // of a job that there is not no capture is looked at
                let asked = refusal != 14 || [1, 14, 20].contains(other);
                *other == refusal || !asked || !c.reading.holds(*other)
            };
            c.refusal == refusal && c.part == (0, 0) && ORDER.iter().all(alone)
        });
    }
    for (i, first) in ORDER.into_iter().enumerate() {
        for second in ORDER.into_iter().skip(i + 1) {
            let name = format!("screen: {first} and {second} hold: refusal {first}");
            t.screen(name, move |c| {
                c.refusal == first && c.reading.holds(first) && c.reading.holds(second)
            });
        }
    }
    for job in NO_JOBS {
        t.screen(format!("screen: job {job}: refusal 14"), move |c| {
            c.job() == job && c.refusal == 14
        });
    }
    for (name, place) in [("2^32", BEYOND_32_BITS), ("the greatest", usize::MAX)] {
        t.screen(format!("screen: place {name}: refusal 3"), move |c| {
            c.refusal == 3 && c.reading.place == place
        });
    }
    for of in 0..2 {
        for job in 0..2 {
            let name = format!("screen: job {job}: job {of} holds 13: refusal 20");
            t.screen(name, move |c| {
                let held = c.reading.table.only_holds(of, 13);
                c.job() == job && held && c.refusal == 20
            });
            let name = format!("screen: job {job}: job {of} has an address twice");
            t.screen(format!("{name}: refusal 20"), move |c| {
                let twice = c.reading.table.only_twice(of);
                c.job() == job && twice && c.refusal == 20
            });
            for (stand, pair) in PAIRS {
                t.screen(format!("{name}, {stand}: refusal 20"), move |c| {
                    let twice = c.reading.table.only_pair(of, pair);
                    c.job() == job && twice && c.refusal == 20
                });
            }
        }
    }
}
