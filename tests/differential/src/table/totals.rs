//! Starts per stretch: the call that fills all totals, and the question how many Starts lie before a
//! place. Each row is hit through both faces.
use super::Table;
use crate::generate::{MARKS, START, SYMBOLS};
use crate::seen_totals::{Asked, TotalsSeen, BLOCK};

/// Both calls, and the refusals that each can give, in the order of their tests.
const CALLS: [(&str, &[u8]); 2] = [
    ("fill_totals", &[2, 21]),
    ("starts_before", &[2, 3, 21, 22]),
];

/// Lengths of captures on both sides of a block's edge.
pub const LENGTHS: [usize; 9] = [0, 1, 255, 256, 257, 511, 512, 513, SYMBOLS];
/// Places likewise.
const PLACES: [usize; 10] = [0, 1, 255, 256, 257, 511, 512, 513, SYMBOLS - 1, SYMBOLS];

/// Totals above 256.
pub const HIGH: [u16; 2] = [257, u16::MAX];

pub fn rows(t: &mut Table) {
    for (call, refusals) in CALLS {
        answers(t, call, refusals);
        numbers(t, call);
        symbols(t, call);
    }
    filled(t);
    one_start(t);
    asked_places(t);
    asked_by_totals(t);
    asked_next_to_a_start(t);
    asked_high(t);
}

/// Each refusal, and those that hold together.
fn answers(t: &mut Table, call: &'static str, refusals: &'static [u8]) {
    for (i, &first) in refusals.iter().enumerate() {
        let name = format!("{call}: refusal {first}: nothing is written");
        t.totals(name, move |s| {
            s.name() == call && s.refusal == first && s.stays() && !s.all_true()
        });
        for &second in &refusals[i + 1..] {
            let name = format!("{call}: {first} and {second} hold: refusal {first}");
            t.totals(name, move |s| {
                s.name() == call && s.refusal == first && s.holds(first) && s.holds(second)
            });
        }
    }
}

/// A number of symbols, for a row's name.
fn many(symbols: usize) -> String {
    match symbols {
        1 => "1 symbol".to_string(),
        _ => format!("{symbols} symbols"),
    }
}

/// Captures by their length, and one total too few or too many.
fn numbers(t: &mut Table, call: &'static str) {
    let long = move |s: &TotalsSeen, length: usize| {
        s.name() == call && (s.octets.len(), s.marks.len()) == (length, length)
    };
    for length in LENGTHS {
        let totals = length.div_ceil(BLOCK);
        t.totals(format!("{call}: {}: right", many(length)), move |s| {
            let right = match s.asked() {
                Some(asked) => s.all_true() && asked.place == length && is_count(asked),
                None => s.after == s.are && s.refusal == 0,
            };
            long(s, length) && s.after.len() == totals && right
        });
        for (name, number) in [("fewer", totals.checked_sub(1)), ("more", Some(totals + 1))] {
            let Some(number) = number else {
                continue;
            };
            let name = format!("{call}: {}, one total {name}: refusal 21", many(length));
            t.totals(name, move |s| {
                long(s, length) && s.before.len() == number && s.refusal == 21 && s.stays()
            });
        }
    }
    t.totals(format!("{call}: no totals: refusal 21"), move |s| {
        s.name() == call && s.octets.len() > BLOCK && s.before.is_empty() && s.refusal == 21
    });
    t.totals(format!("{call}: 65537 symbols: refusal 2"), move |s| {
        long(s, SYMBOLS + 1) && s.refusal == 2
    });
    for (name, octets, marks) in [
        ("octet more than marks", 1, 0),
        ("mark more than octets", 0, 1),
    ] {
        t.totals(format!("{call}: one {name}: refusal 2"), move |s| {
            let one_more = s.octets.len() + marks == s.marks.len() + octets;
            s.name() == call && one_more && s.octets.len() != s.marks.len() && s.refusal == 2
        });
    }
}

/// The answer is a count over everything before the place.
fn is_count(asked: &Asked) -> bool {
    asked.starts == Some(asked.counted)
}

/// How many symbols of the first block were looked at, and how many Starts were found: by a question
/// inside it, or by its total.
fn in_first_block(s: &TotalsSeen) -> Option<(usize, usize)> {
    if s.refusal > 0 || s.octets.len() < BLOCK {
        return None;
    }
    match s.asked() {
        Some(asked) if asked.place > 1 && asked.place < BLOCK => Some((asked.place, asked.starts?)),
        Some(_) => None,
        None => Some((BLOCK, usize::from(*s.after.first()?))),
    }
}

/// What is a Start and what is none.
fn symbols(t: &mut Table, call: &'static str) {
    let found = move |s: &TotalsSeen, all: bool| {
        let found = |(of, starts)| starts == if all { of } else { 0 };
        s.name() == call && in_first_block(s).is_some_and(found)
    };
    let first = |s: &TotalsSeen, test: &dyn Fn(u8, u8) -> bool| {
        let symbols = s.octets.iter().zip(s.marks).take(BLOCK);
        symbols.into_iter().all(|(&octet, &mark)| test(octet, mark))
    };
    for mark in MARKS {
        t.totals(
            format!("{call}: 0xFB with mark {mark}: a Start"),
            move |s| found(s, true) && first(s, &|octet, m| (octet, m) == (START, mark)),
        );
    }
    t.totals(format!("{call}: 0xFB with mark 0: none"), move |s| {
        found(s, false) && first(s, &|octet, mark| (octet, mark) == (START, 0))
    });
    t.totals(
        format!("{call}: control octets one bit off 0xFB: none"),
        move |s| {
            let one_bit = |octet: u8| (octet ^ START).is_power_of_two();
            found(s, false) && first(s, &|octet, mark| one_bit(octet) && mark != 0)
        },
    );
    t.totals(
        format!("{call}: Starts, data and other control symbols: the Starts alone"),
        move |s| {
            let both = |of: u8| {
                let symbols = || s.octets.iter().zip(s.marks).take(BLOCK);
                let marked = |is_control: bool| {
                    symbols().any(|(&octet, &m)| octet == of && (m != 0) == is_control)
                };
                marked(true) && marked(false)
            };
            let right = match s.asked() {
                Some(asked) => is_count(asked) && s.all_true(),
                None => s.right(),
            };
            s.name() == call && right && s.octets.len() >= BLOCK && both(START) && both(0x0B)
        },
    );
}

/// Whatever stood in the totals.
fn filled(t: &mut Table) {
    let is = |s: &TotalsSeen| s.name() == "fill_totals" && s.right() && s.after == s.are;
    t.totals("fill_totals: all totals true: they stay", move |s| {
        is(s) && s.before.len() > 1 && s.all_true()
    });
    t.totals("fill_totals: all totals false: filled", move |s| {
        is(s) && s.before.len() > 1 && s.all_false()
    });
    for high in [256].into_iter().chain(HIGH) {
        for (name, last) in [("first", false), ("last", true)] {
            let name = format!("fill_totals: the {name} of several is {high}: filled");
            t.totals(name, move |s| {
                let total = if last {
                    s.before.last()
                } else {
                    s.before.first()
                };
                is(s) && s.before.len() > 1 && total == Some(&high)
            });
        }
    }
    for more in [1, 255] {
        let name = format!("fill_totals: a last block of {more}, all of them Starts: {more}");
        t.totals(name, move |s| {
            is(s) && s.octets.len() % BLOCK == more && s.after.last() == Some(&(more as u16))
        });
    }
    t.totals(
        "fill_totals: a block of 256, all of them Starts: 256",
        move |s| is(s) && s.after.len() > 1 && s.after.contains(&256),
    );
}

/// One Start alone is in its own block.
fn one_start(t: &mut Table) {
    let alone = |s: &TotalsSeen, k: usize| {
        let mut totals = s.after.iter().enumerate();
        totals.all(|(i, &total)| total == u16::from(i == k))
    };
    for place in [0, 255, 256, 257, 511, 512] {
        let name = format!(
            "fill_totals: one Start, at {place}: in block {}",
            place / BLOCK
        );
        t.totals(name, move |s| {
            let is = s.name() == "fill_totals" && s.right() && s.after.len() > 1;
            is && s.octets.get(place) == Some(&START)
                && s.marks[place] != 0
                && alone(s, place / BLOCK)
        });
    }
    t.totals(
        "fill_totals: one Start, the last symbol: in the last block",
        move |s| {
            let last = s.octets.len().saturating_sub(1);
            s.name() == "fill_totals"
                && s.right()
                && s.after.len() > 1
                && s.octets[last] == START
                && s.marks[last] != 0
                && alone(s, last / BLOCK)
        },
    );
}

/// Places on both sides of a block's edge. With true totals the answer is the count.
fn asked_places(t: &mut Table) {
    for place in PLACES {
        let name = format!("starts_before: {place}, true totals: a count of everything");
        t.totals(name, move |s| {
            s.all_true()
                && s.asked().is_some_and(|a| {
                    a.place == place && is_count(a) && (a.counted > 0) == (place > 0)
                })
        });
    }
    t.totals("starts_before: beyond the length by one: refusal 3", |s| {
        let beyond = |a: &Asked| a.place == s.octets.len() + 1;
        s.refusal == 3 && s.asked().is_some_and(beyond)
    });
    for (name, place) in [("2^32", 1 << 32), ("the greatest", usize::MAX)] {
        t.totals(format!("starts_before: {name}: refusal 3"), move |s| {
            s.refusal == 3 && s.asked().is_some_and(|a| a.place == place)
        });
    }
    t.totals("starts_before: all of 65536 symbols Starts: 65536", |s| {
        s.asked()
            .is_some_and(|a| a.starts == Some(SYMBOLS) && is_count(a))
    });
    for calls in [1, 5, 10] {
        let name =
            format!("starts_before: {calls} calls or more on the line: a count of everything");
        t.totals(name, move |s| {
            let counts = |a: &Asked| is_count(a) && a.counted > 1 && a.place > BLOCK;
            s.earlier >= calls && s.all_true() && s.asked().is_some_and(counts)
        });
    }
}

/// With false totals: whole blocks by them, and a look into the last.
fn asked_by_totals(t: &mut Table) {
    for place in PLACES {
        let name = if place < BLOCK {
            format!("starts_before: {place}, false totals: not looked at")
        } else {
            format!("starts_before: {place}, false totals: whole blocks by them")
        };
        t.totals(name, move |s| {
            let by_totals = |a: &Asked| {
                let by_them = a.starts == Some(a.by_totals);
                let shows = match place < BLOCK {
                    true => a.by_totals != usize::from(s.before[0]),
                    false => a.by_totals != a.counted,
                };
                a.place == place && by_them && shows
            };
            // the first and the last of them, or that of the place
            let last = (place / BLOCK).saturating_sub(1);
            s.is_false(0) && s.is_false(last) && s.asked().is_some_and(by_totals)
        });
    }
    // in a capture, where there are so many totals
    let answered = |s: &TotalsSeen, test: &dyn Fn(&Asked, usize) -> bool| {
        s.refusal == 0 && s.asked().is_some_and(|a| test(a, a.place / BLOCK))
    };
    for (name, at_edge) in [("inside a block", false), ("at a block's edge", true)] {
        let name = format!("starts_before: {name}, totals false from it on: a count of everything");
        t.totals(name, move |s| {
            answered(s, &|a, whole| {
                let is_true = (0..whole).all(|k| !s.is_false(k));
                let there = whole > 0 && a.place.is_multiple_of(BLOCK) == at_edge;
                there && is_true && s.is_false(whole) && is_count(a)
            })
        });
    }
    for (name, first) in [("the first", true), ("another", false)] {
        let name = format!("starts_before: {name} of the whole blocks is false: by it");
        t.totals(name, move |s| {
            answered(s, &|a, whole| {
                let mut wrong = (0..whole).filter(|&k| s.is_false(k));
                let alone = wrong.next().filter(|_| wrong.next().is_none());
                let by_it = a.starts == Some(a.by_totals) && a.by_totals != a.counted;
                by_it && alone.is_some_and(|k| (k == 0) == first)
            })
        });
    }
}

/// A Start right before the place counts, one at the place does not.
fn asked_next_to_a_start(t: &mut Table) {
    for at in [0, 255, 256, 257, 511, 512] {
        for (place, starts) in [(at, 0), (at + 1, 1)] {
            let name = format!("starts_before: {place}, one Start, at {at}: {starts}");
            t.totals(name, move |s| {
                let is_start = s.octets.get(at) == Some(&START) && s.marks.get(at) != Some(&0);
                let alone = s.are.iter().map(|&total| usize::from(total)).sum::<usize>() == 1;
                let answered = |a: &Asked| a.place == place && a.starts == Some(starts);
                is_start && alone && s.all_true() && s.asked().is_some_and(answered)
            });
        }
    }
}

/// Totals above 256 are refused wherever they stand, 256 is taken.
fn asked_high(t: &mut Table) {
    type Stands = fn(usize, usize) -> bool;
    let places: [(&str, Stands); 3] = [
        ("in front", |k, of| k < of),
        ("of the place's block", |k, of| k == of),
        ("behind", |k, of| k > of),
    ];
    for (name, stands) in places {
        for total in [256].into_iter().chain(HIGH) {
            let answer = if total > 256 { "refusal 22" } else { "taken" };
            t.totals(
                format!("starts_before: {total} {name}: {answer}"),
                move |s| {
                    s.asked().is_some_and(|a| {
                        let mut totals = s.before.iter().enumerate();
                        let is = totals.any(|(k, &of)| of == total && stands(k, a.place / BLOCK));
                        is && s.refusal == if total > 256 { 22 } else { 0 }
                    })
                },
            );
        }
    }
}
