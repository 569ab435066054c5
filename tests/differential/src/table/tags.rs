//! Runs of tags in frames that are read: item 1 of document 02.
use super::{tags, Table};

pub fn rows(t: &mut Table) {
    counts(t);
    kinds(t);
    ninth(t);
    bits(t);
}

/// How many.
fn counts(t: &mut Table) {
    for n in 0..=8 {
        t.reading(format!("{} read: 11", tags(n)), move |r| {
            r.is(11, |f| f.tags == n && !f.nine_tags())
        });
    }
    t.reading("9 tags read: 11", |r| r.is(11, |f| f.nine_tags()));
}

/// Of which kinds, from outside.
fn kinds(t: &mut Table) {
    for outer in [0x8100, 0x88A8] {
        t.reading(format!("1 tag, {outer:#06X}: 11"), move |r| {
            r.is(11, |f| f.tags == 1 && f.tag_kind(0) == outer)
        });
        for inner in [0x8100, 0x88A8] {
            let name = format!("2 tags, {outer:#06X} outside {inner:#06X}: 11");
            t.reading(name, move |r| {
                r.is(11, |f| {
                    f.tags == 2 && f.tag_kind(0) == outer && f.tag_kind(1) == inner
                })
            });
        }
        t.reading(format!("8 tags, {outer:#06X} outermost: 11"), move |r| {
            r.is(11, |f| f.tags == 8 && f.tag_kind(0) == outer)
        });
    }
    t.reading("8 tags, all of one kind: 11", |r| {
        r.is(11, |f| {
            f.tags == 8 && (1..8).all(|k| f.tag_kind(k) == f.tag_kind(0))
        })
    });
}

/// A ninth is an ordinary type, and adds nothing to the limit.
fn ninth(t: &mut Table) {
    for kind in [0x8100, 0x88A8] {
        let name = format!("9 tags, the ninth {kind:#06X}: all behind it handed out");
        t.reading(name, move |r| {
            r.is(11, |f| {
                f.nine_tags() && f.field == kind && r.handed == f.size - 50
            })
        });
    }
    for limit in [1518, 1519, 9618] {
        for (more, over) in [(32, false), (33, true), (36, true)] {
            let answer = if over { "4" } else { "not 4" };
            let name = format!("M {limit}: M + {more}, 9 tags: {answer}");
            t.reading(name, move |r| {
                let size = usize::from(limit) + more;
                r.s.limit == limit
                    && (r.outcome == 4) == over
                    && r.framed(4, |f| f.size == size && f.nine_tags())
            });
        }
    }
}

/// Bit 33 is exactly one tag, bit 32 two or more.
fn bits(t: &mut Table) {
    for (n, bits) in [(0, 0b00), (1, 0b10), (2, 0b01), (3, 0b01), (8, 0b01)] {
        let name = format!("{}: status bits 33 and 32 are {bits:02b}", tags(n));
        t.reading(name, move |r| {
            r.status >> 32 & 0b11 == bits && r.is(11, |f| f.tags == n)
        });
    }
}
