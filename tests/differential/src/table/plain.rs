//! The plain reader: item 12 of document 02, by each face.
use super::{tags, with_tags, Table};
use crate::generate::{
    BROADCAST, ERROR, IDLE, PREAMBLE, RESERVED_GROUP, SEQUENCE, START, SYMBOLS, TERMINATE,
};
use crate::raw::plain as layout;
use crate::seen::{Fcs, FrameSeen};
use crate::seen_plain::{AnyPlainSeen, PlainSeen};
use crate::seen_reason::Face;

/// The refusals, in their order.
const REFUSALS: [u8; 4] = [1, 14, 20, 2];

pub fn rows(t: &mut Table) {
    for (name, face) in [("plain", Face::Rust), ("C: plain", Face::C)] {
        let mut of = Rows { t, name, face };
        of.outcomes();
        of.parts();
        of.words();
        of.timers();
        of.addresses();
        of.ends_of_runs();
        of.preambles();
        of.sizes();
        of.checks();
        of.first_octets();
        of.marks();
        of.listeners();
        of.ends();
        of.settings();
        of.tables();
        of.order();
        of.refused();
    }
    jobs(t);
    any_order(t);
    any_data(t);
    any_control(t);
}

/// Rows by one face.
struct Rows<'t> {
    t: &'t mut Table,
    name: &'static str,
    face: Face,
}

impl Rows<'_> {
    fn row(&mut self, name: impl AsRef<str>, test: impl Fn(&PlainSeen) -> bool + 'static) {
        let face = self.face;
        let name = format!("{}: {}", self.name, name.as_ref());
        self.t.plain(name, move |p| p.face == face && test(p));
    }

    /// "the same outcomes, status words, counters"; "0 and 0 for outcomes 1 to 10".
    fn outcomes(&mut self) {
        for outcome in 1..=11 {
            let name = format!("outcome {outcome}: its counter alone rises");
            self.row(name, move |p| p.outcome() == outcome && p.counted(outcome));
        }
        self.row("a counter at 2^64 - 1: 0 then", |p| {
            let (before, after) = (p.before.counters, p.after.counters);
            (0..11).any(|i| before[i] == u64::MAX && after[i] == 0)
        });
        for outcome in 1..=10 {
            let name = format!("outcome {outcome}: data at 0, length 0");
            self.row(name, move |p| {
                p.outcome() == outcome && p.told.is_some_and(|told| (told.at, told.len) == (0, 0))
            });
        }
        for outcome in 1..=7 {
            let name = format!("outcome {outcome}: status 0, address 0, timers as they were");
            self.row(name, move |p| {
                let nothing = p
                    .told
                    .is_some_and(|told| told.status == 0 && told.address == 0);
                p.outcome() == outcome && nothing && p.before.timers == p.after.timers
            });
        }
    }

    /// A frame that is handed out, and its data where document 01 has it.
    fn part(
        &mut self,
        name: impl AsRef<str>,
        test: impl Fn(&PlainSeen, &FrameSeen) -> bool + 'static,
    ) {
        self.row(name, move |p| {
            p.is(11, |f| {
                p.told.is_some_and(|told| (told.at, told.len) == p.part(f)) && test(p, f)
            })
        });
    }

    /// "It hands out the data's place and length in the capture".
    fn parts(&mut self) {
        for n in [0, 1, 2, 8] {
            let name = format!(
                "handed out, {}: data at its Start and {}",
                tags(n),
                22 + 4 * n
            );
            self.part(name, move |_, f| f.tags == n);
            for (field, length) in [(0, 46), (45, 46), (46, 46), (1500, 1500)] {
                let name = format!(
                    "length {field}, {length} octets{}: {field} handed out",
                    with_tags(n)
                );
                self.part(name, move |p, f| {
                    p.s.checking && (f.tags, f.field, f.data.len()) == (n, field, length)
                });
            }
            let name = format!("a type{}: all handed out", with_tags(n));
            self.part(name, move |p, f| {
                p.s.checking && f.tags == n && f.field >= 1536
            });
        }
        self.part("not checked, length 0, 46 octets: 46 handed out", |p, f| {
            !p.s.checking && (f.field, f.data.len()) == (0, 46)
        });
        self.part("handed out, the Start at 0", |p, _| {
            p.line.begun.is_some_and(|b| b.place == 0)
        });
        self.part("handed out, the Start beyond 100", |p, _| {
            p.line.begun.is_some_and(|b| b.place > 100)
        });
        self.part("handed out, ended by symbol 65,536", |p, _| {
            p.line.place + 1 == SYMBOLS
        });
    }

    /// "status words", each bit and both lengths.
    fn words(&mut self) {
        let mut row = |name: &str, outcome: u8, test: fn(&FrameSeen) -> bool| {
            self.row(format!("status: {name}: {outcome}"), move |p| {
                p.is(outcome, |f| {
                    test(f) && p.told.is_some_and(|told| told.status == p.word(f))
                })
            });
        };
        for outcome in [8, 10, 11] {
            row("unicast", outcome, |f| f.to[0] & 1 == 0);
        }
        for outcome in 8..=11 {
            row("multicast", outcome, |f| {
                f.to[0] & 1 == 1 && f.to != BROADCAST
            });
            row("64 octets", outcome, |f| f.size == 64);
            row("more than 64 octets", outcome, |f| f.size > 64);
        }
        row("broadcast", 10, |f| f.to == BROADCAST);
        row("broadcast", 11, |f| f.to == BROADCAST);
        row("a control frame", 11, |f| f.control());
        row("one tag", 11, |f| f.tags == 1);
        row("two tags", 11, |f| f.tags == 2);
        row("eight tags", 11, |f| f.tags == 8);
        row("eight tags and a ninth", 11, |f| f.nine_tags());
        row("1518 octets", 11, |f| f.size == 1518);
        row("9618 octets", 11, |f| f.size == 9618);
    }

    /// A frame with this outcome, and the timers as document 01 sets them.
    fn timed(
        &mut self,
        name: String,
        outcome: u8,
        test: impl Fn(&PlainSeen, &FrameSeen) -> bool + 'static,
    ) {
        self.row(name, move |p| {
            p.is(outcome, |f| p.after.timers == p.timers(f) && test(p, f))
        });
    }

    /// "timers as the walk".
    fn timers(&mut self) {
        for quanta in [0, 1, u16::MAX] {
            let name = format!("pause of {quanta} quanta: all timers set");
            self.timed(name, 8, move |p, f| {
                f.quanta() == quanta && p.before.timers != p.after.timers
            });
        }
        for class in [0, 7] {
            let named = move |f: &FrameSeen| f.named() >> class & 1 == 1;
            let other = move |p: &PlainSeen, f: &FrameSeen| {
                p.before.timers[class] != u32::from(f.class_quanta(class)) * 64
            };
            let name = format!("PFC for class {class}: its timer set");
            self.timed(name, 9, move |p, f| named(f) && other(p, f));
            let name = format!("PFC not for class {class}: its timer stays");
            self.timed(name, 9, move |p, f| !named(f) && other(p, f));
        }
        for outcome in [10, 11] {
            let name = format!("outcome {outcome}, a control frame: timers stay");
            self.timed(name, outcome, |_, f| f.control());
        }
    }

    /// Item 7's number, and item 10's of a job's own entries.
    fn addresses(&mut self) {
        let mut row = |name: &str, number: u8, test: fn(&PlainSeen, &FrameSeen) -> bool| {
            self.row(format!("{name}: address {number}"), move |p| {
                let told = p.told.is_some_and(|told| told.address == number);
                told && p.framed(8, |f| test(p, f))
            });
        };
        row("to own", 1, |p, f| f.to == p.s.own);
        row("broadcast on", 6, |p, f| f.to == BROADCAST && p.s.broadcast);
        row("broadcast off, promiscuous", 7, |p, f| {
            f.to == BROADCAST && !p.s.broadcast
        });
        row("an entry of the other job, promiscuous", 7, |p, f| {
            p.of_the_other(&f.to) && f.to != BROADCAST
        });
        row("a control frame to the reserved group", 8, |_, f| {
            f.control() && f.to == RESERVED_GROUP
        });
        for job in 0..2 {
            for k in [0, 1, 11, 15] {
                let number = 16 + k as u8;
                self.row(
                    format!("job {job}, to entry {k}: address {number}"),
                    move |p| {
                        p.job == job
                            && p.is(11, |f| p.listed_at(k, &f.to))
                            && p.told.is_some_and(|told| told.address == number)
                    },
                );
            }
            self.row(
                format!("job {job}, to an entry of the other: 7"),
                move |p| p.job == job && p.is(7, |f| p.of_the_other(&f.to) && f.to != BROADCAST),
            );
        }
    }

    /// "answers at each ending control symbol".
    fn ends_of_runs(&mut self) {
        for (octet, what) in [
            (IDLE, "Idle"),
            (START, "a Start"),
            (ERROR, "Error"),
            (SEQUENCE, "Sequence"),
            (0x55, "an unknown octet"),
        ] {
            self.row(format!("a run ended by {what}: 1"), move |p| {
                p.control(octet) && p.outcome() == 1 && p.open == (octet == START)
            });
        }
        for outcome in [1, 2, 11] {
            let name = format!("a Start that ended a run: its own is told, {outcome}");
            self.row(name, move |p| p.begun(outcome, |b| b.cuts == 1));
        }
        self.row("the third of three Starts: its own is told", |p| {
            p.told.is_some() && p.line.begun.is_some_and(|b| b.cuts == 2)
        });
        self.row("a control symbol with no run: nothing", |p| {
            p.line.begun.is_none() && p.taken() && p.told.is_none()
        });
        self.row("Terminate with no run: nothing", |p| {
            p.line.begun.is_none() && p.control(TERMINATE) && p.taken() && p.told.is_none()
        });
    }

    /// Rules 2 and 3, of short runs.
    fn preambles(&mut self) {
        self.row("a run of 0 octets: 2", |p| p.run_of(0) && p.outcome() == 2);
        self.row("a run of 6 octets, all right: 2", |p| {
            p.outcome() == 2 && p.line.run() == Some(&PREAMBLE[..6])
        });
        self.row("a run of 7 octets, all right: 3", |p| {
            p.is(3, |f| f.size == 0)
        });
        self.row("a run of 7 octets, not right: 2", |p| {
            p.run_of(7) && p.outcome() == 2
        });
        for i in 0..7 {
            let name = format!("only octet {} of 7 wrong, a frame behind: 2", i + 1);
            self.row(name, move |p| {
                let run = p.line.run().unwrap_or_default();
                let wrong = |&j: &usize| run[j] != PREAMBLE[j];
                p.outcome() == 2 && run.len() >= 71 && (0..7).filter(wrong).eq([i])
            });
        }
    }

    /// Rules 3 and 4: "M grows by 4 for each tag".
    fn sizes(&mut self) {
        for (size, what) in [(63, "3"), (64, "not 3")] {
            self.row(format!("{size} octets, right FCS: {what}"), move |p| {
                (p.outcome() == 3) == (size < 64)
                    && p.framed(3, |f| f.size == size && f.fcs == Fcs::Right)
            });
        }
        for limit in [1518, 9618] {
            for n in [0, 1, 2, 8] {
                for (more, over) in [(4 * n, false), (4 * n + 1, true)] {
                    let answer = if over { "4" } else { "not 4" };
                    let name = format!("M {limit}: M + {more}, {}: {answer}", tags(n));
                    self.row(name, move |p| {
                        let at = |f: &FrameSeen| f.size == usize::from(limit) + more && f.tags == n;
                        p.s.limit == limit && (p.outcome() == 4) == over && p.framed(4, at)
                    });
                }
            }
        }
        self.row("M + 4, untagged: 4", |p| {
            p.is(4, |f| f.tags == 0 && f.size == usize::from(p.s.limit) + 4)
        });
    }

    /// Rule 5, by the FCS of the frame's octets.
    fn checks(&mut self) {
        self.row("FCS right: not 5", |p| p.framed(6, |f| f.fcs == Fcs::Right));
        for (name, fcs) in [
            ("one bit off", Fcs::OneBit),
            ("high octet first", Fcs::HighFirst),
            ("not complemented", Fcs::Plain),
            ("of other octets", Fcs::Wrong),
        ] {
            self.row(format!("FCS {name}: 5"), move |p| p.is(5, |f| f.fcs == fcs));
        }
    }

    /// "the first octets": with eight tags the field's octets are the last that are kept.
    fn first_octets(&mut self) {
        for (field, length, kept) in [
            (14, 14, true),
            (15, 14, false),
            (15, 15, true),
            (1500, 1500, true),
            (1501, 1501, false),
            (1535, 46, false),
        ] {
            let answer = if kept { "not 6" } else { "6" };
            let name = format!("8 tags, length {field}, {length} octets: {answer}");
            self.row(name, move |p| {
                let at = |f: &FrameSeen| (f.tags, f.field, f.data.len()) == (8, field, length);
                p.s.checking && (p.outcome() == 6) != kept && p.framed(6, at)
            });
        }
        self.row("8 tags, type 1536: not 6", |p| {
            p.s.checking && p.framed(7, |f| (f.tags, f.field) == (8, 1536))
        });
    }

    /// "Mark 0 is data; any other mark is control".
    fn marks(&mut self) {
        for mark in [1, 2, 128, 255] {
            self.row(format!("a run ended with mark {mark}: told"), move |p| {
                p.told.is_some() && p.symbol.is_some_and(|symbol| symbol.1 == mark)
            });
            self.row(format!("Terminate with mark {mark}: 11"), move |p| {
                p.outcome() == 11 && p.symbol == Some((TERMINATE, mark))
            });
            self.row(format!("a Start with mark {mark}: 11"), move |p| {
                p.begun(11, |b| b.mark == mark)
            });
        }
        for (octet, name) in [(START, "0xFB"), (TERMINATE, "0xFD"), (IDLE, "0x07")] {
            self.row(format!("data {name} inside a frame: 11"), move |p| {
                p.is(11, |f| f.data.contains(&octet))
            });
        }
        self.row("data 0xFB with no run: none begins", |p| {
            p.line.data_start && p.line.begun.is_none() && p.taken() && p.told.is_none()
        });
    }

    /// A run is judged by what comes with the symbol that ends it.
    fn listeners(&mut self) {
        self.row("M smaller at the Start, the frame above it: not 4", |p| {
            let at_start = |f: &FrameSeen| {
                p.line
                    .begun
                    .is_some_and(|b| f.size > usize::from(b.s.limit) + 4 * f.tags)
            };
            p.outcome() > 4 && p.framed(5, at_start)
        });
        self.row("M larger at the Start, the frame below it: 4", |p| {
            let at_start = |f: &FrameSeen| {
                p.line
                    .begun
                    .is_some_and(|b| f.size <= usize::from(b.s.limit) + 4 * f.tags)
            };
            p.is(4, at_start)
        });
        self.row("promiscuous at the Start only: 7", |p| {
            p.begun(7, |b| b.s.promiscuous)
        });
        self.row("promiscuous at the end only, address 7: 11", |p| {
            p.told.is_some_and(|told| told.address == 7) && p.begun(11, |b| !b.s.promiscuous)
        });
        self.row("lengths checked at the Start only: not 6", |p| {
            p.line.begun.is_some_and(|b| b.s.checking)
                && !p.s.checking
                && p.framed(7, |f| f.length_broken())
        });
        self.row("lengths checked at the end only: 6", |p| {
            p.begun(6, |b| !b.s.checking)
        });
        for job in 0..2 {
            let start = 1 - job;
            let name = format!("job {start} at the Start, {job} at the end, its entry alone: 11");
            self.row(name, move |p| {
                let listed = p.told.is_some_and(|told| told.address >= 16);
                let alone = listed && p.is(11, |f| p.only_of(job, &f.to));
                p.job == job && alone && p.begun(11, |b| b.job == start)
            });
        }
    }

    /// "stop with a run in progress exactly when the walk says `open`"; 65,536 symbols.
    fn ends(&mut self) {
        let mut end = |name: &str, open: bool, test: fn(&PlainSeen) -> bool| {
            self.row(format!("the capture ends{name}"), move |p| {
                p.symbol.is_none() && p.open == open && p.line.begun.is_some() == open && test(p)
            });
        };
        end(": no run, none", false, |_| true);
        end(" before any symbol: none", false, |p| p.line.place == 0);
        end(": a run, open", true, |_| true);
        end(" with a Start: open", true, |p| p.run_of(0));
        end(" with a Start as symbol 65,536: open", true, |p| {
            p.run_of(0) && p.line.place == SYMBOLS
        });
        for (what, is) in KINDS {
            self.row(format!("symbol 65,536, {what}: taken"), move |p| {
                p.line.place + 1 == SYMBOLS && p.symbol.is_some_and(is) && p.taken() && !p.stays
            });
            self.row(format!("symbol 65,537, {what}: refusal 2"), move |p| {
                p.line.place == SYMBOLS && p.symbol.is_some_and(is) && p.refusal == 2
            });
        }
        self.row("symbol 65,536 ends a run: told", |p| {
            p.line.place + 1 == SYMBOLS && p.told.is_some()
        });
        self.row(
            "symbol 65,537 in a run: refusal 2, and the run stays",
            |p| {
                p.line.place == SYMBOLS
                    && p.refusal == 2
                    && p.stays
                    && p.line.begun.is_some()
                    && p.open
            },
        );
    }

    /// Both sides of refusal 1.
    fn settings(&mut self) {
        for (limit, refusal) in [
            (0, 1),
            (1517, 1),
            (1518, 0),
            (9618, 0),
            (9619, 1),
            (65_535, 1),
        ] {
            let name = format!("M {limit}: {}", taken_or(refusal));
            self.row(name, move |p| {
                let own = p.s.own[0] & 1 == 0;
                own && p.s.limit == limit && p.symbol.is_some() && p.refusal == refusal
            });
        }
        self.row("own address is a group: refusal 1", |p| {
            p.s.own[0] & 1 == 1 && (1518..=9618).contains(&p.s.limit) && p.refusal == 1
        });
    }

    /// Both sides of refusal 20.
    fn tables(&mut self) {
        for job in 0..2 {
            for of in 0..2 {
                for (n, refusal) in [(12, 0), (13, 20), (16, 20)] {
                    let name = format!("job {job}, job {of} holds {n}: {}", taken_or(refusal));
                    self.row(name, move |p| {
                        let symbol = p.symbol.is_some() && p.job == job;
                        symbol && p.refusal == refusal && p.table.only_holds(of, n)
                    });
                }
                let name = format!("job {job}, job {of} has an address twice: refusal 20");
                self.row(name, move |p| {
                    p.job == job && p.refusal == 20 && p.table.only_twice(of)
                });
            }
        }
    }

    /// "1, 14, 20 as in reading, then 2": of each two that hold the first.
    fn order(&mut self) {
        let rust = self.face == Face::Rust;
        let given = REFUSALS.into_iter().filter(|&n| !(rust && n == 14));
        let given: Vec<u8> = given.collect();
        for (i, &first) in given.iter().enumerate() {
            for &second in &given[i + 1..] {
                let name = format!("{first} and {second} hold: refusal {first}");
                self.row(name, move |p| {
                    p.refusal == first && p.holds(first) && p.holds(second)
                });
            }
        }
    }

    /// "with the state kept", and all else of the reader.
    fn refused(&mut self) {
        for refusal in REFUSALS {
            if refusal == 14 && self.face == Face::Rust {
                continue;
            }
            self.row(
                format!("refusal {refusal}: reader and state stay"),
                move |p| p.refusal == refusal && p.stays && p.before == p.after,
            );
            if refusal != 2 {
                let name = format!("a symbol of a run refused by {refusal}, then taken: 11");
                self.part(name, move |p, _| p.begun(11, |b| b.refused == refusal));
            }
        }
    }
}

/// Sorts of symbols.
type Kind = fn((u8, u8)) -> bool;
const KINDS: [(&str, Kind); 4] = [
    ("data", |(_, mark)| mark == 0),
    ("a Start", |(octet, mark)| octet == START && mark != 0),
    ("Terminate", |(octet, mark)| octet == TERMINATE && mark != 0),
    ("Idle", |(octet, mark)| octet == IDLE && mark != 0),
];

fn taken_or(refusal: u8) -> String {
    match refusal {
        0 => "taken".to_string(),
        _ => format!("refusal {refusal}"),
    }
}

/// Both sides of refusal 14, which the Rust face cannot give.
fn jobs(t: &mut Table) {
    for (job, refusal) in [(0, 0), (1, 0), (2, 14), (3, 14), (128, 14), (255, 14)] {
        let name = format!("C: plain: job {job}: {}", taken_or(refusal));
        t.plain(name, move |p| {
            p.face == Face::C && p.symbol.is_some() && p.job == job && p.refusal == refusal
        });
    }
}

/// A row of any record.
fn any(t: &mut Table, name: impl AsRef<str>, test: impl Fn(&AnyPlainSeen) -> bool + 'static) {
    t.any_plain(format!("C: any plain reader: {}", name.as_ref()), test);
}

/// "1, 14, 20 as in reading, then 2": of each two that hold the first; both sides of 2.
fn any_order(t: &mut Table) {
    for (i, first) in REFUSALS.into_iter().enumerate() {
        for (j, second) in REFUSALS.into_iter().enumerate().skip(i + 1) {
            let name = format!("{first} and {second} hold: refusal {first}");
            any(t, name, move |p| {
                p.holds[i] && p.holds[j] && p.refusal == first
            });
        }
        any(
            t,
            format!("{first} alone holds: refusal {first}"),
            move |p| {
                p.holds.iter().filter(|&&holds| holds).count() == 1
                    && p.holds[i]
                    && p.refusal == first
            },
        );
    }
    for (place, name) in [(65_535, "65,535"), (65_536, "65,536"), (65_537, "65,537")] {
        let refusal = if place < SYMBOLS as u64 { 0 } else { 2 };
        any(
            t,
            format!("{name} symbols taken: {}", taken_or(refusal)),
            move |p| p.before.numbers[layout::PLACE] == place && p.refusal == refusal,
        );
    }
    any(t, "2^32 symbols and more: the low bits", |p| {
        p.before.numbers[layout::PLACE] > u32::MAX.into() && p.refusal == 0
    });
    any(t, "refused: every octet and number stays", |p| {
        p.refusal > 0 && p.before == p.after
    });
}

/// The run grows: both sides of the octets that are kept and of what the FCS covers.
fn any_data(t: &mut Table) {
    let grown = |p: &AnyPlainSeen| p.mark == 0 && p.refusal == 0;
    let count = |p: &AnyPlainSeen| p.before.numbers[layout::COUNT] & 0xFFFF;
    let register = |r: &layout::Plain| r.numbers[layout::REGISTER] as u32;
    any(t, "data: the last four move on", move |p| {
        grown(p) && p.after.last[..3] == p.before.last[1..] && p.after.last[3] == p.octet
    });
    for (n, kept) in [
        (0, true),
        (6, true),
        (52, true),
        (53, false),
        (65_535, false),
    ] {
        let name = if kept { "kept" } else { "not kept" };
        any(t, format!("data, {n} octets before: {name}"), move |p| {
            let mut first = p.before.first;
            if let Some(place) = first.get_mut(n as usize).filter(|_| kept) {
                *place = p.octet;
            }
            let changes = !kept || p.before.first[n as usize] != p.octet;
            grown(p) && count(p) == n && changes && p.after.first == first
        });
    }
    for (n, covers) in [(10, false), (11, true)] {
        let name = if covers { "takes one" } else { "stays" };
        any(
            t,
            format!("data, {n} octets before: the register {name}"),
            move |p| {
                let stays = register(p.before) == register(p.after);
                grown(p) && count(p) == n && stays != covers
            },
        );
    }
    any(t, "data, 65,535 octets before: 0 then", move |p| {
        grown(p) && count(p) == 65_535 && p.after.numbers[layout::COUNT] == 0
    });
}

/// A run ends: outcomes 1 to 5, by what is kept.
fn any_control(t: &mut Table) {
    let ends = |p: &AnyPlainSeen| p.mark != 0 && p.refusal == 0;
    let runs = |p: &AnyPlainSeen| p.before.numbers[layout::RUNNING];
    any(t, "no run, control: nothing", move |p| {
        ends(p) && runs(p) == 0 && p.outcome == 0
    });
    for (number, name) in [(1, "1"), (2, "2"), (256, "2^8"), (1 << 63, "2^63")] {
        any(t, format!("running is {name}, control: told"), move |p| {
            ends(p) && runs(p) == number && p.outcome > 0
        });
    }
    for outcome in 1..=5 {
        any(t, format!("outcome {outcome}"), move |p| {
            p.outcome == outcome
        });
    }
    for (count, outcome) in [(6, 2), (7, 3), (70, 3)] {
        any(
            t,
            format!("{count} octets, a right preamble: {outcome}"),
            move |p| {
                let preamble = p.before.first[..7] == PREAMBLE;
                let octets = p.before.numbers[layout::COUNT] & 0xFFFF == count;
                preamble && octets && p.octet == TERMINATE && p.outcome == outcome
            },
        );
    }
    for n in [0, 1, 2, 8] {
        for (more, outcome) in [(0, 5), (1, 4)] {
            let name = format!("M + {}, {}: {outcome}", 4 * n + more, tags(n));
            any(t, name, move |p| {
                let most = usize::from(p.s.limit) + 4 * n + 7;
                let octets = (p.before.numbers[layout::COUNT] & 0xFFFF) as usize;
                p.tags == n && octets == most + more && p.outcome == outcome
            });
        }
    }
    any(
        t,
        "control: nothing is kept, a register of all ones",
        move |p| {
            let nothing = p.after.first == [0; layout::FIRST] && p.after.last == [0; layout::LAST];
            let register = p.after.numbers[layout::REGISTER] == u64::from(u32::MAX);
            ends(p) && nothing && register && p.after.numbers[layout::COUNT] == 0
        },
    );
    any(t, "spare numbers: written as 0", |p| {
        let spare = |r: &layout::Plain| r.numbers[layout::REGISTER + 1..] == [0; 3];
        p.refusal == 0 && !spare(p.before) && spare(p.after)
    });
}
