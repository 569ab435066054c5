//! Which address let a frame in: items 7 and 10 of document 02, in readings and in what walks keep.
use super::jobs::NO_HOLDERS;
use super::Table;
use crate::generate::{BROADCAST, RESERVED_GROUP};
use crate::plain_log::{place_of, Slot};
use crate::raw;
use crate::seen::{FrameSeen, ReadingSeen};
use crate::seen_log::KeepSeen;
use reference::{Flow, Settings};

const PROMISCUOUS: [(&str, bool); 2] = [("", false), (", promiscuous", true)];
const LISTED: [(&str, bool); 2] = [("", false), (", listed", true)];

pub fn rows(t: &mut Table) {
    own(t);
    listed(t);
    spare_octets(t);
    of_the_other(t);
    free_entries(t);
    broadcasts(t);
    promiscuous(t);
    control_to_the_group(t);
    other_control(t);
    others_to_the_group(t);
    not_let_in(t);
    kept(t);
    kept_over(t);
}

/// A frame of which this is true was let in, and says this number.
fn by(r: &ReadingSeen, way: u8, test: impl FnOnce(&FrameSeen) -> bool) -> bool {
    r.way == way && r.framed(8, test)
}

/// The same of one that is no control frame.
fn client_by(r: &ReadingSeen, way: u8, test: impl FnOnce(&[u8; 6]) -> bool) -> bool {
    by(r, way, |f| !f.control() && test(&f.to))
}

/// The number of an entry.
fn entry(k: usize) -> u8 {
    16 + k as u8
}

/// Neither own nor broadcast: the table has a say.
fn by_table(s: &Settings, to: &[u8; 6]) -> bool {
    *to != s.own && *to != BROADCAST
}

fn own(t: &mut Table) {
    for (also, listed) in LISTED {
        for (with, promiscuous) in PROMISCUOUS {
            t.reading(format!("way: to own{also}{with}: 1"), move |r| {
                r.s.promiscuous == promiscuous
                    && client_by(r, 1, |to| *to == r.s.own && r.listed(to) == listed)
            });
        }
    }
}

/// Each entry, for the job that holds it; with promiscuous settings it says the same.
fn listed(t: &mut Table) {
    for job in 0..2 {
        for k in 0..16 {
            for (with, promiscuous) in PROMISCUOUS {
                let name = format!("way: job {job}, to entry {k}{with}: {}", entry(k));
                t.reading(name, move |r| {
                    let listed = |to: &[u8; 6]| by_table(r.s, to) && r.listed_at(to).eq([k]);
                    let given = r.job == job && r.s.promiscuous == promiscuous;
                    given && client_by(r, entry(k), listed)
                });
            }
        }
    }
}

/// An entry's last octet is not looked at.
fn spare_octets(t: &mut Table) {
    for k in 0..16 {
        let name = format!("way: to entry {k}, its spare octet is not 0: {}", entry(k));
        t.reading(name, move |r| {
            let listed = |to: &[u8; 6]| by_table(r.s, to) && r.listed_at(to).eq([k]);
            r.table.entry(k)[raw::ENTRY_SPARE] != 0 && client_by(r, entry(k), listed)
        });
    }
}

/// What the other job lists has no say, be it the same address.
fn of_the_other(t: &mut Table) {
    for job in 0..2 {
        let others = |r: &ReadingSeen, to: &[u8; 6]| {
            let by_other = !r.listed(to) && r.others_at(to).next().is_some();
            by_table(r.s, to) && by_other
        };
        for k in 0..16 {
            let name = format!("way: job {job}, to entry {k} of the other: filtered, 0");
            t.reading(name, move |r| {
                let theirs = |to: &[u8; 6]| others(r, to) && r.others_at(to).eq([k]);
                r.job == job && r.way == 0 && r.addressed(7, theirs)
            });
        }
        let name = format!("way: job {job}, to an entry of the other, promiscuous: 7");
        t.reading(name, move |r| {
            r.job == job && client_by(r, 7, |to| others(r, to))
        });
        for (where_, lower) in [("lower", true), ("higher", false)] {
            let name =
                format!("way: job {job}, both list it, the other by a {where_} entry: its own");
            t.reading(name, move |r| {
                let own = |f: &FrameSeen| r.listed_at(&f.to).next();
                let Some(k) = r.frame.as_ref().and_then(own) else {
                    return false;
                };
                let both = |to: &[u8; 6]| {
                    let mut theirs = r.others_at(to);
                    by_table(r.s, to) && theirs.any(|other| (other < k) == lower)
                };
                r.job == job && client_by(r, entry(k), both)
            });
        }
    }
}

/// What stands in a free entry has no say, whichever octet makes it free.
fn free_entries(t: &mut Table) {
    for octet in [raw::FREE].into_iter().chain(NO_HOLDERS) {
        // it stands in such an entry below this one
        let below = move |r: &ReadingSeen, to: &[u8; 6], k: usize| {
            let here = |i: usize| r.table.holder(i) == octet && r.table.address(i) == *to;
            by_table(r.s, to) && (0..k).any(here)
        };
        for job in 0..2 {
            let name = format!("way: job {job}, in an entry of holder {octet}");
            t.reading(format!("{name}: filtered, 0"), move |r| {
                r.job == job && r.way == 0 && r.addressed(7, |to| below(r, to, 16))
            });
            t.reading(format!("{name}, promiscuous: 7"), move |r| {
                r.job == job && client_by(r, 7, |to| below(r, to, 16) && !r.listed(to))
            });
        }
        let name =
            format!("way: in an entry of holder {octet}, listed by a higher entry: that one");
        t.reading(name, move |r| {
            let own = |f: &FrameSeen| r.listed_at(&f.to).next();
            let listed = r.frame.as_ref().and_then(own);
            listed.is_some_and(|k| client_by(r, entry(k), |to| below(r, to, k)))
        });
    }
}

/// By its setting, listed or not.
fn broadcasts(t: &mut Table) {
    for (also, listed) in LISTED {
        for (with, promiscuous) in PROMISCUOUS {
            let to_all = move |r: &ReadingSeen, on: bool, to: &[u8; 6]| {
                let set = r.s.promiscuous == promiscuous && r.s.broadcast == on;
                set && *to == BROADCAST && r.listed(to) == listed
            };
            t.reading(format!("way: broadcast on{also}{with}: 6"), move |r| {
                client_by(r, 6, |to| to_all(r, true, to))
            });
            let name = format!("way: broadcast off{also}{with}");
            if promiscuous {
                t.reading(format!("{name}: 7"), move |r| {
                    client_by(r, 7, |to| to_all(r, false, to))
                });
            } else {
                t.reading(format!("{name}: filtered, 0"), move |r| {
                    r.way == 0 && r.addressed(7, |to| to_all(r, false, to))
                });
            }
        }
    }
}

/// No other rule lets it in.
fn promiscuous(t: &mut Table) {
    for (name, group) in [("station", 0), ("group", 1)] {
        t.reading(format!("way: promiscuous only, a {name}: 7"), move |r| {
            r.s.promiscuous
                && client_by(r, 7, |to| {
                    to[0] & 1 == group && by_table(r.s, to) && r.nowhere(to)
                })
        });
    }
}

/// 8, whatever becomes of it.
fn control_to_the_group(t: &mut Table) {
    let reserved = |r: &ReadingSeen, listed: bool| {
        r.listed(&RESERVED_GROUP) == listed && by(r, 8, |f| f.control() && f.to == RESERVED_GROUP)
    };
    for (also, listed) in LISTED {
        let name = format!("way: control frame to the reserved group{also}");
        for (mode, flow) in [
            ("none", Flow::None),
            ("pause", Flow::Pause),
            ("PFC", Flow::Pfc),
        ] {
            for (passing, pass_control) in [("not passed", false), ("passed", true)] {
                t.reading(format!("{name}, flow {mode}, {passing}: 8"), move |r| {
                    r.s.flow == flow && r.s.pass_control == pass_control && reserved(r, listed)
                });
            }
        }
        t.reading(format!("{name}, promiscuous: 8"), move |r| {
            r.s.promiscuous && reserved(r, listed)
        });
        for outcome in 8..=11 {
            t.reading(format!("{name}, outcome {outcome}: 8"), move |r| {
                r.outcome == outcome && reserved(r, listed)
            });
        }
    }
}

/// To any other destination: as any frame.
fn other_control(t: &mut Table) {
    for (also, listed) in LISTED {
        for outcome in [8, 10, 11] {
            let name = format!("way: control frame to own{also}, outcome {outcome}: 1");
            t.reading(name, move |r| {
                let to_own = |f: &FrameSeen| f.to == r.s.own && r.listed(&f.to) == listed;
                r.outcome == outcome && by(r, 1, |f| f.control() && to_own(f))
            });
        }
    }
    for k in 0..16 {
        let name = format!("way: control frame to entry {k}: {}", entry(k));
        t.reading(name, move |r| {
            by(r, entry(k), |f| {
                let listed = by_table(r.s, &f.to) && r.listed_at(&f.to).eq([k]);
                f.control() && f.to != RESERVED_GROUP && listed
            })
        });
    }
    t.reading("way: control frame to broadcast: 6", |r| {
        r.s.broadcast && by(r, 6, |f| f.control() && f.to == BROADCAST)
    });
    let another = |r: &ReadingSeen, f: &FrameSeen| {
        f.control() && f.to != BROADCAST && r.to_others(&f.to) && !r.listed(&f.to)
    };
    t.reading("way: control frame to another, promiscuous: 7", move |r| {
        by(r, 7, |f| another(r, f))
    });
    t.reading("way: control frame to another: filtered, 0", move |r| {
        r.way == 0 && r.is(7, |f| another(r, f))
    });
}

/// What is no control frame, be it 0x8808 behind a tag, goes by the address rule.
fn others_to_the_group(t: &mut Table) {
    type Inside = fn(&FrameSeen) -> bool;
    let sorts: [(&str, Inside); 2] = [
        ("no control frame", |f| f.tags == 0 && f.field != 0x8808),
        ("0x8808 behind a tag", |f| f.tags > 0 && f.field == 0x8808),
    ];
    for (sort, inside) in sorts {
        let to_group = move |f: &FrameSeen| f.to == RESERVED_GROUP && inside(f);
        let name = format!("way: {sort} to the reserved group");
        for k in 0..16 {
            let name = format!("{name}, entry {k}: {}", entry(k));
            t.reading(name, move |r| {
                r.listed_at(&RESERVED_GROUP).eq([k]) && by(r, entry(k), to_group)
            });
        }
        t.reading(format!("{name}, promiscuous: 7"), move |r| {
            !r.listed(&RESERVED_GROUP) && by(r, 7, to_group)
        });
        t.reading(format!("{name}: filtered, 0"), move |r| {
            r.way == 0 && r.is(7, to_group)
        });
    }
}

/// Outcomes 1 to 7, though the frame is one to the own address.
fn not_let_in(t: &mut Table) {
    for outcome in [1, 3, 4, 5, 6] {
        t.reading(format!("way: outcome {outcome}, to own: 0"), move |r| {
            r.outcome == outcome && r.way == 0 && r.frame.is_some_and(|f| f.to == r.s.own)
        });
    }
    for outcome in [2, 7] {
        t.reading(format!("way: outcome {outcome}: 0"), move |r| {
            r.outcome == outcome && r.way == 0
        });
    }
}

/// A walk kept a frame that was let in with this number, and this is true of its destination and of
/// whether it is a control frame.
fn kept_by(k: &KeepSeen, way: u8, test: impl Fn(&[u8; 6], bool) -> bool) -> bool {
    k.kept.iter().any(|slot| {
        // behind Start and preamble
        let frame = k.octets.get(place_of(slot) + 8..).unwrap_or_default();
        let control = frame.get(12..14) == Some(&[0x88, 0x08]);
        let to = frame.first_chunk();
        slot[4] >= 8 && slot[5] == way && to.is_some_and(|to| test(to, control))
    })
}

/// The entries by which the job lists an address.
fn listed_at<'a>(k: &KeepSeen<'a>, to: &[u8; 6]) -> impl Iterator<Item = usize> + use<'a> {
    k.table.listed_at(k.job, to)
}

fn kept(t: &mut Table) {
    t.keep("walk_log: to own: way 1", |k| {
        kept_by(k, 1, |to, _| *to == k.s.own)
    });
    for i in 0..16 {
        let name = format!("walk_log: to entry {i}: way {}", entry(i));
        t.keep(name, move |k| {
            kept_by(k, entry(i), |to, control| {
                let reserved = control && *to == RESERVED_GROUP;
                by_table(k.s, to) && !reserved && listed_at(k, to).eq([i])
            })
        });
    }
    t.keep(
        "walk_log: to an entry of the other, promiscuous: way 7",
        |k| {
            kept_by(k, 7, |to, _| {
                let theirs = k.table.listed_at(1 - k.job, to).next().is_some();
                theirs && by_table(k.s, to) && listed_at(k, to).next().is_none()
            })
        },
    );
    t.keep("walk_log: to broadcast: way 6", |k| {
        k.s.broadcast && kept_by(k, 6, |to, _| *to == BROADCAST)
    });
    t.keep("walk_log: broadcast off, promiscuous: way 7", |k| {
        !k.s.broadcast && kept_by(k, 7, |to, _| *to == BROADCAST)
    });
    t.keep("walk_log: promiscuous only: way 7", |k| {
        kept_by(k, 7, |to, control| {
            let reserved = control && *to == RESERVED_GROUP;
            by_table(k.s, to) && !reserved && listed_at(k, to).next().is_none()
        })
    });
    for (also, listed) in LISTED {
        let name = format!("walk_log: control frame to the reserved group{also}: way 8");
        t.keep(name, move |k| {
            let reserved = |to: &[u8; 6], control: bool| control && *to == RESERVED_GROUP;
            let is_listed = listed_at(k, &RESERVED_GROUP).next().is_some();
            is_listed == listed && kept_by(k, 8, reserved)
        });
    }
    for outcome in 1..=7 {
        t.keep(format!("walk_log: outcome {outcome}: way 0"), move |k| {
            k.kept.iter().any(|slot| slot[4..6] == [outcome, 0])
        });
    }
}

/// What stood in the octet of an unused record is overwritten.
fn kept_over(t: &mut Table) {
    for (name, let_in) in [("0", false), ("another", true)] {
        t.keep(
            format!("walk_log: way {name} over one above 31"),
            move |k| {
                let over = |i: usize| {
                    let way = |slot: Option<&Slot>| slot.map_or(0, |slot| slot[5]);
                    let fresh = !k.log.used(i) && k.log_after.used(i);
                    let after = way(k.log_after.slot(i));
                    fresh && way(k.log.slot(i)) > 31 && after <= 31 && (after > 0) == let_in
                };
                // nothing was moved
                let room = k.log.behind + k.logged.appended <= k.log.len();
                room && (0..k.log.len()).any(over)
            },
        );
    }
}
