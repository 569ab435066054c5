//! The size table: item 13 of document 02, by each face.
use super::Table;
use crate::generate::{SYMBOLS, TABLES_FROM};
use crate::seen_reason::Face;
use crate::seen_sizes::{CaptureSized, SizesSeen};

/// The refusals, in their order.
const REFUSALS: [u8; 4] = [1, 14, 2, 20];

/// "64, 65 to 127, 128 to 255, 256 to 511, 512 to 1023, 1024 to 1518, above": frame lengths at both
/// edges of each band, and the band.
const EDGES: [(usize, usize); 13] = [
    (64, 0),
    (65, 1),
    (127, 1),
    (128, 2),
    (255, 2),
    (256, 3),
    (511, 3),
    (512, 4),
    (1023, 4),
    (1024, 5),
    (1518, 5),
    (1519, 6),
    (1522, 6),
];

pub fn rows(t: &mut Table) {
    for (name, face) in [("sizes", Face::Rust), ("C: sizes", Face::C)] {
        let mut of = Rows { t, name, face };
        of.bands();
        of.outcomes();
        of.ends();
        of.counts();
        tables(t, name, face);
    }
    refusals(t);
    orders(t);
}

/// Rows by one face.
struct Rows<'t> {
    t: &'t mut Table,
    name: &'static str,
    face: Face,
}

impl Rows<'_> {
    fn row(&mut self, name: impl AsRef<str>, test: impl Fn(&CaptureSized) -> bool + 'static) {
        let face = self.face;
        let name = format!("{}: {}", self.name, name.as_ref());
        self.t.sizes(
            name,
            move |seen| matches!(seen, SizesSeen::Capture(c) if c.face == face && test(c)),
        );
    }

    /// "by frame length", and "the octets in each band".
    fn bands(&mut self) {
        for (length, band) in EDGES {
            self.row(
                format!("a frame of {length} octets: band {band}"),
                move |c| c.only(11) && c.starts[0].1 == length && c.rose_by(band, length),
            );
        }
        self.row("63 octets, undersized: nothing", |c| {
            c.only(3) && c.starts[0].1 == 63 && c.refusal == 0 && c.stayed()
        });
        self.row("more than M, by its tags: the last band", |c| {
            let length = c.starts.first().map_or(0, |start| start.1);
            c.only(11) && length > usize::from(c.s.limit) && c.rose_by(6, length)
        });
        self.row("64 octets, padded: all of them", |c| {
            c.only(11) && c.starts[0].1 == 64 && c.starts[0].2 < 42 && c.rose_by(0, 64)
        });
        self.row("frames of two bands", |c| {
            c.starts.len() == 2
                && c.after
                    .frames
                    .iter()
                    .zip(c.before.frames)
                    .filter(|(a, b)| *a != b)
                    .count()
                    == 2
        });
    }

    /// "frames of outcomes 8 to 11".
    fn outcomes(&mut self) {
        for outcome in 1..=7 {
            self.row(format!("outcome {outcome}: nothing"), move |c| {
                c.only(outcome) && c.refusal == 0 && c.stayed()
            });
        }
        for outcome in 8..=11 {
            self.row(format!("outcome {outcome}: added"), move |c| {
                c.only(outcome) && c.rose_by(0, 64)
            });
        }
        self.row("no Start: nothing", |c| {
            c.starts.is_empty() && !c.open && c.refusal == 0 && c.stayed()
        });
    }

    /// An open end adds what was counted.
    fn ends(&mut self) {
        self.row("open alone: nothing", |c| {
            c.open && c.starts.is_empty() && c.stayed()
        });
        self.row("open behind a frame: that frame", |c| {
            c.open && c.starts.len() == 1 && c.starts[0].0 == 11 && !c.stayed()
        });
        for (n, what) in [
            (TABLES_FROM - 1, "one short of"),
            (TABLES_FROM, "as many as"),
        ] {
            self.row(
                format!("{what} {TABLES_FROM} symbols: frames added"),
                move |c| c.symbols == n && c.refusal == 0 && !c.stayed(),
            );
        }
        self.row("65,536 symbols: not refused", |c| {
            c.symbols == SYMBOLS && c.refusal == 0
        });
        self.row("65,537 symbols: refusal 2", |c| {
            c.symbols == SYMBOLS + 1 && c.refusal == 2 && c.stayed()
        });
        for refusal in [1, 2, 20] {
            self.row(format!("refusal {refusal}: nothing"), move |c| {
                c.refusal == refusal && c.stayed()
            });
        }
    }

    /// "Counts are 64 bits and roll over".
    fn counts(&mut self) {
        self.row("a count of frames rolls over to 0", |c| {
            (0..7).any(|k| c.before.frames[k] == u64::MAX && c.after.frames[k] == 0)
        });
        self.row("a count of frames goes beyond 32 bits", |c| {
            (0..7)
                .any(|k| c.before.frames[k] == u64::from(u32::MAX) && c.after.frames[k] == 1 << 32)
        });
        self.row("a count of octets rolls over", |c| {
            (0..7).any(|k| c.before.octets[k] > c.after.octets[k])
        });
        self.row("a count of octets rolls over to 0", |c| {
            (0..7).any(|k| c.before.octets[k] != 0 && c.after.octets[k] == 0)
        });
    }
}

/// Two tables.
fn tables(t: &mut Table, name: &str, by: Face) {
    let mut row = |what: &str, test: fn(&[u64; 7], &[u64; 7], &[u64; 7]) -> bool| {
        t.sizes(format!("{name}: add a table: {what}"), move |seen| {
            let SizesSeen::Table {
                face,
                tables: [a, b, sum],
            } = seen
            else {
                return false;
            };
            *face == by
                && test(&a.frames, &b.frames, &sum.frames)
                && test(&a.octets, &b.octets, &sum.octets)
        });
    };
    row("counts of both", |a, b, sum| {
        (0..7).any(|k| a[k] > 0 && b[k] > 0 && sum[k] > a[k])
    });
    row("counts that roll over", |a, b, sum| {
        (0..7).any(|k| b[k] > 0 && sum[k] < a[k])
    });
    row("a fresh one: as before", |a, b, sum| {
        b == &[0; 7] && a == sum
    });
}

/// "refusals as a walk's": of each two that hold the first.
fn refusals(t: &mut Table) {
    let mut row = |name: String, test: Box<dyn Fn(&CaptureSized) -> bool>| {
        t.sizes(
            format!("C: sizes: {name}"),
            move |seen| matches!(seen, SizesSeen::Capture(c) if c.stayed() && test(c)),
        );
    };
    row(
        "refusal 14: nothing".to_string(),
        Box::new(|c| c.refusal == 14),
    );
    for (i, first) in REFUSALS.into_iter().enumerate() {
        for (j, second) in REFUSALS.into_iter().enumerate().skip(i + 1) {
            let name = format!("{first} and {second} hold: refusal {first}");
            let test = move |c: &CaptureSized| c.holds[i] && c.holds[j] && c.refusal == first;
            row(name, Box::new(test));
        }
    }
}

/// "adding captures in another order gives the same table", and two halves that are added up.
fn orders(t: &mut Table) {
    let mut row = |name: &str, test: fn(&[Option<usize>], usize) -> bool| {
        t.sizes(
            format!("sizes: the same table: {name}"),
            move |seen| matches!(seen, SizesSeen::Orders { added, cut } if test(added, *cut)),
        );
    };
    row("three captures that add, in another order", |added, _| {
        added.iter().filter(|n| n.is_some_and(|n| n > 0)).count() >= 3
    });
    row("a refused one among them", |added, _| {
        added.contains(&None) && added.iter().any(|n| n.is_some_and(|n| n > 0))
    });
    row("two halves that both add", |added, cut| {
        let add = |half: &[Option<usize>]| half.iter().any(|n| n.is_some_and(|n| n > 0));
        add(&added[..cut]) && add(&added[cut..])
    });
    row("an empty half", |added, cut| cut == 0 || cut == added.len());
}
