//! Why a Start has its outcome: item 8 of document 02, each evidence at both sides of its limit, by
//! each face.
use super::{with_tags, Table};
use crate::generate::{
    BROADCAST, ERROR, IDLE, PREAMBLE, RESERVED_GROUP, SEQUENCE, START, TERMINATE,
};
use crate::seen::{only_octet, Fcs};
use crate::seen_reason::{Face, ReasonSeen};
use reference::{Reason, Why};

/// Numbers of tags.
const TAGS: [usize; 4] = [0, 1, 2, 8];

pub fn rows(t: &mut Table) {
    for (name, face) in [("why", Face::Rust), ("C: why", Face::C)] {
        let mut of = Rows { t, name, face };
        of.answers();
        of.ends();
        of.preambles();
        of.sizes();
        of.checks();
        of.lengths();
        of.addresses();
        of.opcodes();
        of.handed_out();
        of.earlier_rules();
    }
}

/// Rows by one face.
struct Rows<'t> {
    t: &'t mut Table,
    name: &'static str,
    face: Face,
}

/// A place of the run. The Start's place can be the greatest where a call was refused.
fn in_run(r: &ReasonSeen, at: usize) -> usize {
    r.explained.start.saturating_add(1 + at)
}

/// A place of the frame.
fn in_frame(r: &ReasonSeen, at: usize) -> usize {
    in_run(r, 7 + at)
}

impl Rows<'_> {
    fn row(&mut self, name: impl AsRef<str>, test: impl Fn(&ReasonSeen) -> bool + 'static) {
        let face = self.face;
        let name = format!("{}: {}", self.name, name.as_ref());
        self.t.reason(name, move |r| r.face == face && test(r));
    }

    /// `none`, `open` and refusals have no reason.
    fn answers(&mut self) {
        self.row("none: both places the length", |r| {
            let n = r.reading.octets.len();
            r.explained.why == Why::None && (r.explained.start, r.explained.next) == (n, n)
        });
        self.row("open: both places the Start's", |r| {
            r.explained.why == Why::Open && r.explained.start == r.explained.next
        });
        // the Rust face has no job above 1
        let order: &[u8] = match self.face {
            Face::Rust => &[1, 2, 3, 20],
            Face::C => &[1, 14, 2, 3, 20],
        };
        for &refusal in order {
            self.row(format!("refusal {refusal}"), move |r| {
                let places = (r.explained.start, r.explained.next);
                r.refusal() == refusal && places == (r.reading.place, r.reading.place)
            });
        }
        for (i, &first) in order.iter().enumerate() {
            for &second in &order[i + 1..] {
                let name = format!("{first} and {second} hold: refusal {first}");
                self.row(name, move |r| {
                    r.refusal() == first && r.reading.holds(first) && r.reading.holds(second)
                });
            }
        }
        self.row("the Start is behind the place: found", |r| {
            r.reason().is_some() && r.explained.start > r.reading.place
        });
    }

    /// "for cut, the place and octet of the ending symbol".
    fn ends(&mut self) {
        for (name, octet) in [
            ("Start", START),
            ("Idle", IDLE),
            ("Error", ERROR),
            ("Sequence", SEQUENCE),
            ("an unknown octet", 0x55),
        ] {
            self.row(format!("ended by {name}: its place and octet"), move |r| {
                let place = r.explained.next;
                r.is(Reason::Cut { place, octet }) && r.reading.octets[place] == octet
            });
        }
        self.row("an empty run, cut", |r| {
            let cut = matches!(r.reason(), Some(Reason::Cut { .. }));
            cut && r.reading.run.is_empty()
        });
        self.row("ended by Terminate: not cut", |r| {
            r.beyond(1) && r.reading.octets[r.explained.next] == TERMINATE
        });
    }

    /// "for bad preamble, the run's length if under 7, else the first wrong place".
    fn preambles(&mut self) {
        for length in 0..7 {
            self.row(format!("a run of {length}: that length"), move |r| {
                r.is(Reason::ShortRun { length }) && r.reading.run.len() == length
            });
        }
        self.row("a run of 6 with a wrong octet: its length", |r| {
            let wrong = r.reading.run != &PREAMBLE[..6];
            r.is(Reason::ShortRun { length: 6 }) && wrong
        });
        self.row("a run of 7, all right: undersized", |r| {
            let (length, limit) = (0, 64);
            r.is(Reason::Undersized { length, limit }) && r.reading.run == PREAMBLE
        });
        self.row("a run of 7, one wrong: its place", |r| {
            let wrong = matches!(r.reason(), Some(Reason::WrongPreamble { .. }));
            wrong && r.reading.run.len() == 7
        });
        for wrong in 0..7 {
            for (more, others) in [("", false), (", and behind it", true)] {
                let name = format!("octet {} wrong{more}: its place", wrong + 1);
                // behind the last there is none
                if others && wrong == 6 {
                    continue;
                }
                self.row(name, move |r| {
                    let place = in_run(r, wrong);
                    let run = r.reading.run;
                    r.is(Reason::WrongPreamble { place })
                        && run[..wrong] == PREAMBLE[..wrong]
                        && run[wrong] != PREAMBLE[wrong]
                        && (run[wrong + 1..7] != PREAMBLE[wrong + 1..]) == others
                });
            }
        }
    }

    /// "for sizes, length and limit".
    fn sizes(&mut self) {
        for length in [0, 1, 4, 63] {
            self.row(format!("{length} octets: undersized, limit 64"), move |r| {
                let limit = 64;
                r.is(Reason::Undersized { length, limit }) && r.framed(|f| f.size == length)
            });
        }
        self.row("64 octets: not undersized", |r| {
            r.beyond(3) && r.framed(|f| f.size == 64)
        });
        for n in TAGS {
            let tags = with_tags(n);
            let grown = move |r: &ReasonSeen| usize::from(r.reading.s.limit) + 4 * n;
            self.row(format!("M + {}{tags}: not oversized", 4 * n), move |r| {
                r.beyond(4) && r.framed(|f| f.tags == n && f.size == grown(r))
            });
            for more in [1, 4] {
                let (size, limit) = (4 * n + more, 4 * n);
                let name = format!("M + {size}{tags}: oversized, limit M + {limit}");
                self.row(name, move |r| {
                    let limit = grown(r);
                    let length = limit + more;
                    r.is(Reason::Oversized { length, limit })
                        && r.framed(|f| f.tags == n && f.size == length)
                });
            }
        }
    }

    /// "for FCS, both values".
    fn checks(&mut self) {
        let both = |r: &ReasonSeen| match r.reason() {
            Some(Reason::WrongFcs { stands, computed }) => Some((stands, computed)),
            _ => None,
        };
        for octet in 0..4 {
            let name = format!("one bit of FCS octet {} off: both values", octet + 1);
            self.row(name, move |r| {
                let off = both(r).map(|(stands, computed)| stands ^ computed);
                let here = |bits: u32| bits.count_ones() == 1 && bits.ilog2() / 8 == octet;
                off.is_some_and(here) && r.framed(|f| f.fcs == Fcs::OneBit)
            });
        }
        self.row("FCS high octet first: both values", move |r| {
            let swapped = |(stands, computed): (u32, u32)| stands.swap_bytes() == computed;
            both(r).is_some_and(swapped) && r.framed(|f| f.fcs == Fcs::HighFirst)
        });
        self.row("FCS not complemented: both values", move |r| {
            both(r).is_some_and(|(stands, computed)| !stands == computed)
        });
        self.row("FCS of other octets: both values", move |r| {
            both(r).is_some() && r.framed(|f| f.fcs == Fcs::Wrong)
        });
        self.row(
            "the FCS that stands is the frame's end, low octet first",
            move |r| {
                let run = r.reading.run;
                both(r).is_some_and(|(stands, _)| run.ends_with(&stands.to_le_bytes()))
            },
        );
    }

    /// "for length, field and data length".
    fn lengths(&mut self) {
        let both = [
            (0, 46, true),
            (0, 47, false),
            (45, 46, true),
            (45, 47, false),
            (46, 46, true),
            (46, 47, false),
            (47, 46, false),
            (47, 47, true),
            (47, 48, false),
            (1500, 1499, false),
            (1500, 1500, true),
            (1500, 1501, false),
            (1501, 1501, false),
            (1535, 46, false),
            (1535, 1535, false),
        ];
        for n in TAGS {
            // without a tag these are undersized
            let least = 46 - 4 * n;
            let tagged_only = [
                (0, 45, false),
                (45, 44, false),
                (45, 45, true),
                (46, 45, false),
                (0, least, true),
                (0, least + 1, false),
                (least, least, true),
                (least + 1, least, false),
            ];
            let tagged_only = tagged_only.into_iter().filter(|_| n > 0);
            for (field, data, kept) in both.into_iter().chain(tagged_only) {
                let tags = with_tags(n);
                let rule = if kept { "kept" } else { "both" };
                let name = format!("field {field}, {data} octets{tags}: {rule}");
                let field = field as u16;
                self.row(name, move |r| {
                    let broken = Reason::WrongLength { field, data };
                    let given = if kept { r.beyond(6) } else { r.is(broken) };
                    let same = |of: u16, length: usize| of == field && length == data;
                    r.reading.s.checking
                        && given
                        && r.framed(|f| same(f.field, f.data.len()) && f.tags == n)
                });
            }
        }
    }

    /// "for filtered, the destination".
    fn addresses(&mut self) {
        let filtered = |r: &ReasonSeen, test: &dyn Fn(&[u8; 6]) -> bool| {
            let Some(Reason::Filtered { destination }) = r.reason() else {
                return false;
            };
            test(&destination) && r.framed(|f| f.to == destination)
        };
        for k in 0..6 {
            let name = format!("to own but for octet {}: the destination", k + 1);
            self.row(name, move |r| {
                filtered(r, &|to| only_octet(to, &r.reading.s.own) == Some(k))
            });
        }
        for (name, address) in [
            ("broadcast", BROADCAST),
            ("the reserved group", RESERVED_GROUP),
        ] {
            self.row(format!("to {name}, filtered: it"), move |r| {
                filtered(r, &|to| *to == address)
            });
        }
        for (name, bit) in [("station", 0), ("group", 1)] {
            self.row(format!("to another {name}: the destination"), move |r| {
                filtered(r, &|to| to[0] & 1 == bit && *to != BROADCAST)
            });
        }
        self.row(
            "to an address of the other job: the destination",
            move |r| {
                filtered(r, &|to| {
                    *to != BROADCAST && r.reading.others_at(to).next().is_some()
                })
            },
        );
        for k in 0..16 {
            self.row(format!("to entry {k}: not filtered"), move |r| {
                let alone = |to: &[u8; 6]| r.reading.listed_at(to).eq([k]);
                let by_list = |to: &[u8; 6]| *to != BROADCAST && r.reading.to_others(to);
                let sound = !r.reading.s.promiscuous && r.beyond(7);
                sound && r.framed(|f| by_list(&f.to) && alone(&f.to))
            });
        }
        self.row("a control frame to another: the destination", move |r| {
            filtered(r, &|_| true) && r.framed(|f| f.control())
        });
        self.row("to own: not filtered", |r| {
            r.beyond(7) && r.framed(|f| f.to == r.reading.s.own)
        });
    }

    /// "for 8 to 10, the opcode".
    fn opcodes(&mut self) {
        self.row("pause taken: opcode 1", |r| {
            r.is(Reason::PauseTaken { opcode: 1 }) && r.framed(|f| f.opcode() == 1)
        });
        self.row("PFC taken: opcode 0x0101", |r| {
            let opcode = 0x0101;
            r.is(Reason::PfcTaken { opcode }) && r.framed(|f| f.opcode() == opcode)
        });
        for opcode in [0x0000, 0x0001, 0x0002, 0x0100, 0x0101, 0x0102] {
            self.row(format!("dropped: opcode {opcode:#06X}"), move |r| {
                r.is(Reason::ControlDropped { opcode }) && r.framed(|f| f.opcode() == opcode)
            });
        }
        self.row("dropped: an opcode whose octets differ", |r| {
            match r.reason() {
                Some(Reason::ControlDropped { opcode }) => {
                    let [high, low] = opcode.to_be_bytes();
                    high > 1 && low > 2 && high != low && r.framed(|f| f.opcode() == opcode)
                }
                _ => false,
            }
        });
        self.row("a control frame passed: handed out", |r| {
            let handed = matches!(r.reason(), Some(Reason::HandedOut { .. }));
            handed && r.framed(|f| f.control())
        });
    }

    /// "for 11, place and length of the data".
    fn handed_out(&mut self) {
        for n in TAGS {
            let tags = with_tags(n);
            let at = move |r: &ReasonSeen| in_frame(r, 14 + 4 * n);
            self.row(
                format!("handed out, 0 octets{tags}: right behind the field"),
                {
                    move |r| {
                        let (place, length) = (at(r), 0);
                        r.is(Reason::HandedOut { place, length }) && r.framed(|f| f.tags == n)
                    }
                },
            );
            self.row(
                format!("handed out, a type{tags}: all the data"),
                move |r| {
                    r.framed(|f| {
                        let (place, length) = (at(r), f.data.len());
                        f.tags == n && f.field >= 1536 && r.is(Reason::HandedOut { place, length })
                    })
                },
            );
            let name = format!("handed out, 45 of 46 octets{tags}: place and length");
            self.row(name, move |r| {
                let (place, length) = (at(r), 45);
                let padded = r.framed(|f| f.tags == n && f.data.len() == 46);
                r.is(Reason::HandedOut { place, length }) && padded
            });
        }
        self.row("handed out, not checked: all the data", |r| {
            let place = in_frame(r, 14);
            !r.reading.s.checking
                && r.framed(|f| {
                    let length = f.data.len();
                    let fields = f.tags == 0 && f.field < 46 && length == 46;
                    fields && r.is(Reason::HandedOut { place, length })
                })
        });
    }

    /// "no earlier rule held": where two hold, the reason is the first one's.
    fn earlier_rules(&mut self) {
        let gives = |r: &ReasonSeen, outcome: u8| {
            r.reason().is_some_and(|reason| reason.outcome() == outcome)
        };
        self.row("cut, and the preamble is wrong: cut", move |r| {
            gives(r, 1) && !r.reading.run.starts_with(&PREAMBLE)
        });
        self.row("undersized, and the FCS is wrong: sizes", move |r| {
            gives(r, 3) && r.framed(|f| f.fcs != Fcs::Right)
        });
        self.row("oversized, and the FCS is wrong: sizes", move |r| {
            gives(r, 4) && r.framed(|f| f.fcs != Fcs::Right)
        });
        self.row("FCS wrong, and the length: FCS", move |r| {
            r.reading.s.checking && gives(r, 5) && r.framed(|f| f.length_broken())
        });
        self.row("FCS wrong, and the address refused: FCS", move |r| {
            gives(r, 5) && r.framed(|f| !f.control() && !r.reading.accepts(&f.to))
        });
        self.row("length broken, and the address refused: length", move |r| {
            gives(r, 6) && r.framed(|f| !r.reading.accepts(&f.to))
        });
    }
}
