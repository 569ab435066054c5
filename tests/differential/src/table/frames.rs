//! Rules 3 to 7 and 11: size, FCS, length and address.
use super::{tags, with_tags, Table};
use crate::generate::{BROADCAST, RESERVED_GROUP};
use crate::seen::{only_octet, Fcs, ReadingSeen};

pub fn rows(t: &mut Table) {
    sizes(t);
    checks(t);
    lengths(t);
    handed_out(t);
    addresses(t);
    broadcasts(t);
}

/// Rules 3 and 4.
fn sizes(t: &mut Table) {
    t.reading("63 octets, right FCS: 3", |r| {
        r.is(3, |f| f.size == 63 && f.fcs == Fcs::Right)
    });
    t.reading("63 octets, wrong FCS: 3", |r| {
        r.is(3, |f| f.size == 63 && f.fcs != Fcs::Right)
    });
    t.reading("64 octets: not 3", |r| r.framed(4, |f| f.size == 64));
    for n in [1, 2, 8] {
        t.reading(format!("64 octets, {}: not 3", tags(n)), move |r| {
            r.framed(4, |f| f.size == 64 && f.tags == n)
        });
    }
    for limit in [1518, 1519, 9618] {
        for (more, n, over) in [
            (0, 0, false),
            (1, 0, true),
            (4, 0, true),
            (1, 1, false),
            (4, 1, false),
            (5, 1, true),
            (8, 2, false),
            (9, 2, true),
            (32, 8, false),
            (33, 8, true),
        ] {
            let answer = if over { "4" } else { "not 4" };
            let name = format!("M {limit}: M + {more}, {}: {answer}", tags(n));
            t.reading(name, move |r| {
                let size = usize::from(limit) + more;
                r.s.limit == limit
                    && (r.outcome == 4) == over
                    && r.framed(4, |f| f.size == size && f.tags == n)
            });
        }
    }
    t.reading("over the limit, right FCS: 4", |r| {
        r.is(4, |f| f.fcs == Fcs::Right)
    });
    t.reading("over the limit, wrong FCS: 4", |r| {
        r.is(4, |f| f.fcs != Fcs::Right)
    });
}

/// Rule 5.
fn checks(t: &mut Table) {
    for (name, fcs) in [
        ("one bit off", Fcs::OneBit),
        ("high octet first", Fcs::HighFirst),
        ("not complemented", Fcs::Plain),
        ("of other octets", Fcs::Wrong),
    ] {
        t.reading(format!("FCS {name}: 5"), move |r| r.is(5, |f| f.fcs == fcs));
    }
    t.reading("FCS wrong, length rule broken: 5", |r| {
        r.s.checking && r.is(5, |f| f.length_broken())
    });
    t.reading("FCS wrong, address refused: 5", |r| {
        r.is(5, |f| !f.control() && !r.accepts(&f.to))
    });
}

/// Rule 6: field, octets of data, and whether the length rule is kept.
fn lengths(t: &mut Table) {
    let both = [
        (0, 46, true),
        (0, 47, false),
        (1, 46, true),
        (45, 46, true),
        (45, 47, false),
        (46, 46, true),
        (46, 47, false),
        (47, 46, false),
        (47, 47, true),
        (47, 48, false),
        (1499, 1499, true),
        (1500, 1499, false),
        (1500, 1500, true),
        (1500, 1501, false),
        (1501, 1501, false),
        (1535, 46, false),
        (1535, 1535, false),
    ];
    for n in [0, 1, 2, 8] {
        // without a tag these are undersized; what a bridge leaves is kept, and no length beside it
        let tagged_only = [
            (0, 45, false),
            (44, 44, true),
            (45, 44, false),
            (45, 45, true),
            (46, 45, false),
            (0, 46 - 4 * n, true),
            (0, 47 - 4 * n, false),
        ];
        let of_one = [(42, 42, true), (43, 42, false), (43, 43, true)];
        let of_eight = [(14, 14, true), (15, 14, false), (15, 15, true)];
        let tagged_only = tagged_only.into_iter().filter(|_| n > 0);
        let of_one = of_one.into_iter().filter(|_| n == 1);
        let of_eight = of_eight.into_iter().filter(|_| n == 8);
        let tagged_only = tagged_only.chain(of_one).chain(of_eight);
        for (field, length, kept) in both.into_iter().chain(tagged_only) {
            let tags = with_tags(n);
            let rule = if kept { "kept" } else { "6" };
            let name = format!("length {field}, {length} octets{tags}: {rule}");
            t.reading(name, move |r| {
                r.s.checking
                    && (r.outcome == 6) != kept
                    && r.framed(6, |f| {
                        f.field == field && f.data.len() == length && f.tags == n
                    })
            });
        }
    }
    t.reading("length rule broken, address refused: 6", |r| {
        r.is(6, |f| !r.accepts(&f.to))
    });
}

/// Rule 11: how many octets.
fn handed_out(t: &mut Table) {
    t.reading("length 0: nothing handed out", |r| {
        r.handed == 0 && r.is(11, |f| f.field == 0)
    });
    t.reading("length 45, 46 octets: 45 handed out", |r| {
        r.handed == 45 && r.is(11, |f| f.field == 45 && f.data.len() == 46)
    });
    for (field, length) in [
        (0, 46),
        (45, 46),
        (45, 47),
        (46, 47),
        (1501, 46),
        (1535, 46),
    ] {
        let name = format!("not checked, {field}, {length} octets: all handed out");
        t.reading(name, move |r| {
            !r.s.checking
                && r.handed == length
                && r.is(11, |f| f.field == field && f.data.len() == length)
        });
    }
    let types = [
        1536, 0x0800, 0x80FF, 0x8101, 0x8807, 0x8809, 0x88A7, 0x88A9, 0xFFFF,
    ];
    for n in [0, 1, 2, 8] {
        let tagged_only = [0x8808].into_iter().filter(|_| n > 0);
        let ninth = [0x8100, 0x88A8].into_iter().filter(|_| n == 8);
        for field in types.into_iter().chain(tagged_only).chain(ninth) {
            let name = format!("type {field:#06X}{}: all handed out", with_tags(n));
            t.reading(name, move |r| {
                r.s.checking
                    && r.is(11, |f| {
                        f.field == field && f.tags == n && f.data.len() == r.handed
                    })
            });
        }
    }
}

/// Rule 7, for frames that are no control frames.
fn addresses(t: &mut Table) {
    let accepted = |r: &ReadingSeen, test: &dyn Fn(&[u8; 6]) -> bool| {
        !r.s.promiscuous && r.addressed(11, test)
    };
    t.reading("to own: 11", move |r| accepted(r, &|to| *to == r.s.own));
    t.reading("to own, which is listed too: 11", move |r| {
        accepted(r, &|to| *to == r.s.own && r.listed(to))
    });
    for k in 0..16 {
        t.reading(format!("to entry {k}: 11"), move |r| {
            accepted(r, &|to| *to != r.s.own && r.listed_at(to).eq([k]))
        });
    }
    t.reading("to a listed group: 11", move |r| {
        let group = |to: &[u8; 6]| to[0] & 1 == 1 && *to != BROADCAST && *to != RESERVED_GROUP;
        accepted(r, &|to| group(to) && r.listed(to))
    });
    t.reading(
        "to the reserved group, listed, no control frame: 11",
        move |r| accepted(r, &|to| *to == RESERVED_GROUP),
    );
    t.reading("to the reserved group, no control frame: 7", |r| {
        r.addressed(7, |to| *to == RESERVED_GROUP)
    });
    t.reading("to an address in a free entry: 7", |r| {
        let free = |to: &[u8; 6]| r.table.free().any(|k| r.table.address(k) == *to);
        r.addressed(7, |to| *to != BROADCAST && free(to))
    });
    t.reading("to an address that the other job lists: 7", |r| {
        r.addressed(7, |to| *to != BROADCAST && r.others_at(to).next().is_some())
    });
    for i in 0..6 {
        t.reading(format!("to own but for octet {}: 7", i + 1), move |r| {
            r.addressed(7, |to| only_octet(to, &r.s.own) == Some(i))
        });
        let name = format!("to a listed one but for octet {}: 7", i + 1);
        t.reading(name, move |r| {
            let mut listed = r.table.of(r.job).map(|k| r.table.address(k));
            r.addressed(7, |to| {
                // broadcast goes by its setting alone
                *to != BROADCAST && listed.any(|entry| only_octet(to, &entry) == Some(i))
            })
        });
    }
    t.reading("promiscuous, to another: 11", |r| {
        r.s.promiscuous && r.addressed(11, |to| r.to_others(to) && !r.listed(to))
    });
}

/// Rule 7 for broadcast.
fn broadcasts(t: &mut Table) {
    for (setting, on, outcome) in [("on", true, 11), ("off", false, 7)] {
        for (but, listed) in [("", false), (" but listed", true)] {
            t.reading(format!("broadcast {setting}{but}: {outcome}"), move |r| {
                !r.s.promiscuous
                    && r.s.broadcast == on
                    && r.addressed(outcome, |to| *to == BROADCAST && r.listed(to) == listed)
            });
        }
    }
    t.reading("broadcast off, promiscuous: 11", |r| {
        r.s.promiscuous && !r.s.broadcast && r.addressed(11, |to| *to == BROADCAST)
    });
    t.reading("broadcast on, to it but for one octet: 7", |r| {
        r.s.broadcast && r.addressed(7, |to| only_octet(to, &BROADCAST).is_some())
    });
}
