//! Cases: a few calls on the same settings, state and symbols. Each is drawn by its own number
//! alone.
use crate::compare::{Bench, Difference, Lent};
use crate::compare_jobs::LentTable;
use crate::compare_log::LentLog;
use crate::compare_totals::{Counted, LentTotals};
use crate::generate::{self, Sending, Symbols, FCS_EDGES, IDLE, START, SYMBOLS, TERMINATE};
use crate::prng::Prng;
use crate::seen_jobs::TableCall;
use crate::{raw, records};
use reference::{Client, Flow, Form, LogEnd, Port, Settings};

/// Too many Starts for a log that is walked into until no further one is left, a few at a time.
const MANY: usize = 1000;

/// Of so many cases of the plain reader one fills it.
const FILLED: usize = 64;

/// Makes the calls of one case of a seed.
pub fn run(bench: &mut Bench, seed: u64, case: u64) -> Result<(), Difference> {
    let mut prng = bench.begin(seed, case);
    match prng.below(31) {
        0..=7 => reading(bench, &mut prng),
        8..=13 => sending(bench, &mut prng),
        14 => holding(bench, &mut prng),
        15 => checking(bench, &mut prng),
        16..=18 => records(bench, &mut prng),
        19 => logging(bench, &mut prng),
        20 => keeping(bench, &mut prng),
        21 => reasons(bench, &mut prng),
        22 => lanes(bench, &mut prng),
        23 => counting(bench, &mut prng),
        24 => counted_line(bench, &mut prng),
        25 => table_calls(bench, &mut prng),
        26 => room(bench, &mut prng),
        27 => plain(bench, &mut prng),
        28 => sizes(bench, &mut prng),
        29 => quiet(bench, &mut prng),
        _ => screens(bench, &mut prng),
    }
}

/// Lends symbols next to others that mean something.
fn lend(prng: &mut Prng, symbols: &Symbols) -> Lent {
    let (octet, mark) = prng.pick(&[(TERMINATE, 1), (START, 1), (IDLE, 1), (0x55, 0)]);
    Lent::new(symbols, octet, mark)
}

/// A capture is walked, iterated over and read here and there.
fn reading(bench: &mut Bench, prng: &mut Prng) -> Result<(), Difference> {
    let s = generate::settings(prng);
    let l = generate::listener(prng, &s);
    let state = generate::state(prng);
    let symbols = generate::capture(prng, &s, &l);
    let lent = lend(prng, &symbols);
    bench.walk(&s, &l, &mut state.clone(), &lent)?;
    let place = if prng.coin() {
        0
    } else {
        generate::place(prng, &symbols)
    };
    bench.readings(&s, &l, &mut state.clone(), &lent, place)?;
    let mut going_on = state;
    for _ in 0..prng.between(1, 6) {
        let place = generate::place(prng, &symbols);
        bench.read(&s, &l, &mut going_on, &lent, place)?;
    }
    Ok(())
}

/// Short captures, each at a limit of some reason, are explained, and one like those that are read.
fn reasons(bench: &mut Bench, prng: &mut Prng) -> Result<(), Difference> {
    let drawn = generate::settings(prng);
    let mut settings = generate::settings_record(prng, &drawn);
    if prng.one_in(8) {
        generate::spoil(prng, &mut settings.0);
    }
    let s = records::settings(&settings);
    let l = generate::listener(prng, &s);
    for _ in 0..prng.between(12, 24) {
        let symbols = generate::explained_capture(prng, &s, &l);
        let lent = lend(prng, &symbols);
        let place = match prng.below(3) {
            0 => generate::place(prng, &symbols),
            _ => 0,
        };
        if prng.coin() {
            bench.explain(&s, &l, &lent, place)?;
        } else {
            let l = generate::misnumbered(prng, &l);
            bench.c_explain(&settings, &l, &lent, place)?;
        }
    }
    let symbols = generate::capture(prng, &s, &l);
    let lent = lend(prng, &symbols);
    for _ in 0..prng.between(1, 4) {
        let place = generate::place(prng, &symbols);
        bench.explain(&s, &l, &lent, place)?;
        let l = generate::misnumbered(prng, &l);
        bench.c_explain(&settings, &l, &lent, place)?;
    }
    Ok(())
}

/// Captures go through the plain reader symbol by symbol, and any records of it get one.
fn plain(bench: &mut Bench, prng: &mut Prng) -> Result<(), Difference> {
    let drawn = generate::settings(prng);
    let mut settings = generate::settings_record(prng, &drawn);
    if prng.one_in(8) {
        generate::spoil(prng, &mut settings.0);
    }
    let s = records::settings(&settings);
    let l = generate::listener(prng, &s);
    let state = generate::state(prng);
    let numbers = generate::state_record(prng, &state);
    for _ in 0..prng.between(4, 8) {
        let symbols = match prng.below(3) {
            0 => generate::capture(prng, &s, &l),
            _ => generate::explained_capture(prng, &s, &l),
        };
        plain_capture(bench, prng, (&settings, &l), (&state, &numbers), &symbols)?;
    }
    if prng.one_in(FILLED) {
        let symbols = generate::filled_capture(prng, &s, &l);
        plain_capture(bench, prng, (&settings, &l), (&state, &numbers), &symbols)?;
    }
    for _ in 0..prng.between(4, 12) {
        let reader = generate::any_reader(prng, &s);
        let octet = prng.octet();
        let octet = prng.pick(&[START, TERMINATE, TERMINATE, IDLE, octet]);
        let mark = prng.pick(&[0, 1, 1, 2, 128, 255]);
        let l = generate::misnumbered(prng, &l);
        bench.c_plain_any(&settings, &l, &numbers, &reader, (octet, mark))?;
    }
    Ok(())
}

/// A capture by both faces; every second time another listens for a stretch of it.
fn plain_capture(
    bench: &mut Bench,
    prng: &mut Prng,
    (settings, l): (&raw::Settings, &generate::Listener),
    (state, numbers): (&reference::State, &raw::State),
    symbols: &Symbols,
) -> Result<(), Difference> {
    let s = records::settings(settings);
    let lent = lend(prng, symbols);
    let turn = prng.coin().then(|| generate::turn(prng, &s, l, symbols));
    bench.plain(&s, l, turn.as_ref(), state, &lent)?;
    let l = generate::misnumbered(prng, l);
    let often = turn.as_ref().is_some_and(|turn| turn.places.end > SYMBOLS);
    let turn = turn.map(|turn| match prng.below(if often { 2 } else { 8 }) {
        // such as the Rust face has not
        0 => generate::Turn {
            s,
            l: l.of(prng.pick(&[2, 255])),
            ..turn
        },
        _ => turn,
    });
    let other = match &turn {
        Some(turn) => generate::settings_record(prng, &turn.s),
        None => *settings,
    };
    bench.c_plain([settings, &other], &l, turn.as_ref(), numbers, &lent)
}

/// Captures are added to a size table, in one order and another, and in two halves; and tables.
fn sizes(bench: &mut Bench, prng: &mut Prng) -> Result<(), Difference> {
    let drawn = generate::settings(prng);
    let mut settings = generate::settings_record(prng, &drawn);
    if prng.one_in(16) {
        generate::spoil(prng, &mut settings.0);
    }
    let s = records::settings(&settings);
    let l = generate::listener(prng, &s);
    let state = generate::state(prng);
    let before = generate::sizes(prng);
    let mut captures = Vec::new();
    for _ in 0..prng.between(1, 6) {
        let symbols = generate::sized_capture(prng, &s, &l);
        captures.push(lend(prng, &symbols));
    }
    let cut = prng.below(captures.len() + 1);
    bench.size_orders((&settings, &l), &state, &captures, (&before, cut))?;
    for lent in &captures {
        let (l, before) = (generate::misnumbered(prng, &l), generate::sizes(prng));
        bench.c_sizes(&settings, &l, lent, &before)?;
    }
    let (a, b) = (generate::sizes(prng), generate::sizes(prng));
    bench.join(&a, &b)?;
    Ok(())
}

/// All calls that take a state, one after the other on one state with fixed settings; at times the
/// longest wait.
fn quiet(bench: &mut Bench, prng: &mut Prng) -> Result<(), Difference> {
    if prng.one_in(400) {
        return bench.quiet_long(prng);
    }
    bench.quiet(prng)
}

/// Buffers are written into, one sending after the other, and read at the end.
fn sending(bench: &mut Bench, prng: &mut Prng) -> Result<(), Difference> {
    let s = generate::settings(prng);
    let mut state = generate::state(prng);
    let symbols = generate::blank_line(prng, &s);
    let mut lent = lend(prng, &symbols);
    let length = symbols.octets.len();
    let mut last = 0;
    for _ in 0..prng.between(2, 8) {
        let call = generate::sending(prng, &s, length);
        if prng.coin() {
            state = generate::timed(prng, &call);
        }
        let port = generate::port(prng);
        let place = generate::sending_place(prng, length, last, &call, port);
        let after = bench.send(&s, (&mut state, port), &mut lent, place, &call)?;
        last = after.unwrap_or(last);
    }
    let l = generate::listener(prng, &s);
    bench.walk(&s, &l, &mut state, &lent)
}

/// A pause or PFC frame is sent and read, and holds a client frame until its slots are written, and
/// no longer.
fn holding(bench: &mut Bench, prng: &mut Prng) -> Result<(), Difference> {
    let s = Settings {
        flow: prng.pick(&[Flow::Pause, Flow::Pfc]),
        ..generate::valid_settings(prng)
    };
    let quanta = prng.between(0, 6) as u16;
    let class = prng.below(8) as u8;
    let hold = match s.flow {
        Flow::Pfc => Sending::Pfc(1 << class, [quanta; 8]),
        _ => Sending::Pause(quanta),
    };
    let client = Client {
        dest: s.own,
        tags: Vec::new(),
        form: Form::Length,
        class,
    };
    let client = Sending::Client(client, prng.octets(3));

    let l = generate::sound_listener(prng, &s);
    let mut state = generate::state(prng);
    let n = prng.between(600, 700);
    let symbols = Symbols {
        octets: prng.octets(n),
        marks: prng.octets(n),
    };
    let mut lent = lend(prng, &symbols);
    bench.send(&s, (&mut state, Port::Plain), &mut lent, 0, &hold)?;
    bench.read(&s, &l, &mut state, &lent, 0)?;
    let mut place = 84;
    // all slots but one, then that one
    let slots = usize::from(quanta) * 64;
    for idles in [0, slots.saturating_sub(1), slots.min(1)] {
        let idles = (Sending::Idle(idles), idles);
        bench.send(&s, (&mut state, Port::Plain), &mut lent, place, &idles.0)?;
        place += idles.1;
        bench.send(&s, (&mut state, Port::Plain), &mut lent, place, &client)?;
    }
    bench.walk(&s, &l, &mut state, &lent)
}

/// The FCS of any octets, in one piece and in two.
fn checking(bench: &mut Bench, prng: &mut Prng) -> Result<(), Difference> {
    let n = match prng.below(64) {
        0 => prng.pick(&[1514, 9614, 65_536, 70_000]),
        1..=4 => prng.pick(&FCS_EDGES),
        5..=16 => prng.pick(&[0, 1, 15, 16, 17, 31, 32, 33, 60]),
        _ => prng.below(200),
    };
    let mut octets = prng.octets(n);
    if prng.one_in(8) {
        octets.fill(prng.pick(&[0x00, 0xFF]));
    }
    for _ in 0..3 {
        let part = &octets[prng.below(n + 1)..];
        bench.fcs(part)?;
    }
    bench.fcs(&octets)?;
    // four octets before lead to any register; four of 0xFF to zero
    let first = prng.octets(4);
    for first in [&first[..], &[], &[0xFF; 4]] {
        bench.fcs_from(first, &octets)?;
    }
    let (first, second) = octets.split_at(prng.below(n + 1));
    bench.fcs_from(first, second)
}

/// Any records through the C face: a capture is walked and read, or buffers are written into.
fn records(bench: &mut Bench, prng: &mut Prng) -> Result<(), Difference> {
    let drawn = generate::settings(prng);
    let mut settings = generate::settings_record(prng, &drawn);
    if prng.one_in(8) {
        generate::spoil(prng, &mut settings.0);
    }
    let s = records::settings(&settings);
    if prng.coin() {
        let drawn = generate::listener(prng, &s);
        let symbols = generate::capture(prng, &s, &drawn);
        let lent = lend(prng, &symbols);
        for _ in 0..prng.between(3, 6) {
            let state = generate::state(prng);
            let mut numbers = generate::state_record(prng, &state);
            let place = generate::place(prng, &symbols);
            let l = generate::misnumbered(prng, &drawn);
            bench.c_read(&settings, &l, &mut numbers, &lent, place)?;
        }
        let state = generate::state(prng);
        let mut numbers = generate::state_record(prng, &state);
        let l = generate::misnumbered(prng, &drawn);
        return bench.c_walk(&settings, &l, &mut numbers, &lent);
    }
    let symbols = generate::blank_line(prng, &s);
    let mut lent = lend(prng, &symbols);
    let length = symbols.octets.len();
    for _ in 0..prng.between(3, 6) {
        let mut call = generate::sending(prng, &s, length);
        let client = client_record(prng, &mut call, 8);
        let state = generate::timed(prng, &call);
        let mut numbers = generate::state_record(prng, &state);
        let port = generate::port(prng);
        let place = generate::sending_place(prng, length, 0, &call, port);
        let port = generate::port_octet(prng, port);
        let sending = (&call, client.as_ref());
        bench.c_send(&settings, (&mut numbers, port), &mut lent, place, sending)?;
    }
    bench.c_part(prng)
}

/// The record of a client frame, if it is one; one in so many is spoilt, and the frame is then what
/// it means.
fn client_record(prng: &mut Prng, call: &mut Sending, spoilt: usize) -> Option<raw::Client> {
    let Sending::Client(client, _) = call else {
        return None;
    };
    let mut record = generate::client_record(prng, client);
    if prng.one_in(spoilt) {
        generate::spoil(prng, &mut record.0);
    }
    *client = records::client(&record);
    Some(record)
}

/// Short frames on both ports with 8 to 16 symbols of room behind each, and a row of frames.
fn lanes(bench: &mut Bench, prng: &mut Prng) -> Result<(), Difference> {
    let drawn = generate::settings(prng);
    let settings = generate::settings_record(prng, &drawn);
    let s = records::settings(&settings);
    for _ in 0..prng.between(3, 6) {
        let mut call = generate::short_frame(prng, &s);
        let client = client_record(prng, &mut call, 64);
        let port = prng.pick(&[Port::Plain, Port::FourLane, Port::FourLane, Port::FourLane]);
        let place = 4 * prng.below(6) + if prng.one_in(8) { prng.below(4) } else { 0 };
        let n = place + call.before_gap() + prng.between(8, 16);
        let symbols = Symbols {
            octets: prng.octets(n),
            marks: prng.octets(n),
        };
        let mut lent = lend(prng, &symbols);
        let mut state = generate::timed_frame(prng, &call);
        if prng.one_in(3) {
            let mut numbers = generate::state_record(prng, &state);
            let port = generate::port_octet(prng, port);
            let sending = (&call, client.as_ref());
            bench.c_send(&settings, (&mut numbers, port), &mut lent, place, sending)?;
        } else {
            bench.send(&s, (&mut state, port), &mut lent, place, &call)?;
        }
    }
    // lengths are checked, or padding would be handed out
    let s = Settings {
        checking: true,
        ..generate::valid_settings(prng)
    };
    bench.row(prng, &s)
}

/// A log is appended to and read, here and there and from its front.
fn logging(bench: &mut Bench, prng: &mut Prng) -> Result<(), Difference> {
    let log = generate::short_log(prng);
    let mut log = LentLog::new(prng, &log);
    let records = log.octets().len() / raw::RECORD;
    for _ in 0..prng.between(2, 6) {
        match prng.below(8) {
            0..=1 => {
                let record = generate::record(prng);
                bench.append(&mut log, &record)?;
            }
            2..=3 => readings_appended(bench, prng, &mut log)?,
            4 => {
                let numbers = generate::reading_record(prng);
                bench.append_numbers(&mut log, &numbers)?;
            }
            5..=6 => {
                let number = generate::record_number(prng, records);
                bench.log_record(&log, number)?;
            }
            _ => bench.log_used(&log)?,
        }
        if prng.one_in(4) {
            delete(bench, prng, &mut log)?;
        }
    }
    let from = generate::record_number(prng, records);
    bench.log_read_on(&log, from)?;
    bench.log_read_on(&log, 0)?;
    all_appended(bench, prng)
}

/// Records of a log are deleted: one, or those of an outcome. Or it is compacted.
fn delete(bench: &mut Bench, prng: &mut Prng, log: &mut LentLog) -> Result<(), Difference> {
    match prng.below(7) {
        0..=2 => {
            let records = log.octets().len() / raw::RECORD;
            let number = generate::record_number(prng, records);
            bench.delete(log, number)
        }
        3..=4 => {
            let outcome = generate::outcome_of(prng, log.octets());
            bench.delete_outcome(log, outcome)
        }
        _ => bench.compact(log),
    }
}

/// A log is appended to, deleted from, compacted, read and walked into, call after call.
fn room(bench: &mut Bench, prng: &mut Prng) -> Result<(), Difference> {
    let drawn = generate::settings(prng);
    let settings = generate::settings_record(prng, &drawn);
    let listener = generate::sound_listener(prng, &drawn);
    let symbols = generate::capture(prng, &drawn, &listener);
    let lent = lend(prng, &symbols);
    let state = generate::state(prng);
    let mut numbers = generate::state_record(prng, &state);
    let mut place = 0;
    let log = match prng.below(3) {
        0 => generate::short_log(prng),
        _ => generate::alike_log(prng),
    };
    let mut log = LentLog::new(prng, &log);
    let records = log.octets().len() / raw::RECORD;
    for _ in 0..prng.between(10, 30) {
        match prng.below(8) {
            0..=2 => {
                let record = generate::record(prng);
                bench.append(&mut log, &record)?;
            }
            3..=5 => delete(bench, prng, &mut log)?,
            6 => {
                let number = generate::record_number(prng, records);
                bench.log_record(&log, number)?;
                bench.log_used(&log)?;
                bench.log_read_on(&log, prng.below(records + 1))?;
            }
            _ => {
                // where it was full before, it goes on
                let on = &mut numbers;
                let logged = bench.walk_log(&settings, &listener, on, &lent, place, &mut log)?;
                place = match logged.end {
                    LogEnd::Full => logged.next,
                    _ => generate::place(prng, &symbols),
                };
            }
        }
    }
    bench.log_read_on(&log, 0)
}

/// The reading of each of a few Starts is appended to a fresh log.
fn all_appended(bench: &mut Bench, prng: &mut Prng) -> Result<(), Difference> {
    let s = generate::settings(prng);
    let l = generate::sound_listener(prng, &s);
    let state = generate::state(prng);
    let symbols = generate::shown_capture(prng, &s, &l);
    let lent = lend(prng, &symbols);
    let mut log = LentLog::new(prng, &[0; 8 * raw::RECORD]);
    for place in generate::start_places(&symbols).take(6) {
        bench.append_reading(&mut log, &lent, (&s, &l, &state), place)?;
    }
    Ok(())
}

/// Readings here and there in a capture are appended to a log.
fn readings_appended(
    bench: &mut Bench,
    prng: &mut Prng,
    log: &mut LentLog,
) -> Result<(), Difference> {
    let s = generate::settings(prng);
    let l = generate::listener(prng, &s);
    let state = generate::state(prng);
    let symbols = generate::capture(prng, &s, &l);
    let lent = lend(prng, &symbols);
    for _ in 0..prng.between(1, 3) {
        let place = generate::place(prng, &symbols);
        bench.append_reading(log, &lent, (&s, &l, &state), place)?;
    }
    Ok(())
}

/// A capture is walked into logs of all sorts, and into one log after the other.
fn keeping(bench: &mut Bench, prng: &mut Prng) -> Result<(), Difference> {
    let drawn = generate::settings(prng);
    let settings = generate::settings_record(prng, &drawn);
    let listener = generate::listener(prng, &drawn);
    let symbols = match prng.below(48) {
        0 => generate::longest_capture(prng),
        1..=2 => generate::tabled_capture(prng, &drawn, &listener),
        _ => generate::capture(prng, &drawn, &listener),
    };
    let lent = lend(prng, &symbols);
    let starts = generate::starts(&symbols);
    let place = |prng: &mut Prng| match prng.below(3) {
        0 => 0,
        _ => generate::place(prng, &symbols),
    };
    for _ in 0..prng.between(2, 4) {
        let state = generate::state(prng);
        let mut numbers = generate::state_record(prng, &state);
        let place = place(prng);
        let log = if prng.coin() {
            generate::short_log(prng)
        } else {
            // a record for each Start, one fewer or one more
            let more = prng.below(3);
            generate::log(prng, (starts + more).saturating_sub(1))
        };
        let mut log = LentLog::new(prng, &log);
        let l = generate::misnumbered(prng, &listener);
        bench.walk_log(&settings, &l, &mut numbers, &lent, place, &mut log)?;
    }
    let state = generate::state(prng);
    let numbers = generate::state_record(prng, &state);
    let place = place(prng);
    // some six logs take all
    let capacity = starts.div_ceil(prng.between(1, 6));
    let on = (&settings, &listener);
    bench.going_on(prng, on, &numbers, &lent, (place, capacity))?;
    // one record may be deleted at a time
    if starts > MANY {
        return Ok(());
    }
    bench.going_on_in_one(prng, on, &numbers, &lent, (place, capacity))
}

/// Captures with totals: these are asked and filled, and a call keeps them that is often refused.
fn counting(bench: &mut Bench, prng: &mut Prng) -> Result<(), Difference> {
    for _ in 0..prng.between(4, 8) {
        let mut stage = generate::stage(prng);
        let settings = generate::settings_record(prng, &stage.s);
        let client = client_record(prng, &mut stage.call, 64);
        let mut numbers = generate::state_record(prng, &stage.state);
        let port = generate::port_octet(prng, stage.port);
        let lent = lend(prng, &stage.symbols);
        let totals = LentTotals::new(prng, &stage.totals);
        let mut counted = Counted::new(lent, totals);
        // the longest are few
        let places = if stage.symbols.octets.len() < SYMBOLS {
            1
        } else {
            5
        };
        for _ in 0..places {
            let place = generate::asked_place(prng, counted.symbols());
            bench.starts_before(&counted, place)?;
        }
        bench.fill_totals(&mut counted.clone())?;
        let on = (&mut numbers, port);
        let sending = (&stage.call, client.as_ref());
        let asked = generate::asked_place(prng, counted.symbols());
        bench.send_counted(&settings, on, &mut counted, stage.place, sending, asked)?;
    }
    Ok(())
}

/// One line with its totals is written into, call after call, and asked in between; at times another
/// hand writes, and the totals are filled again.
fn counted_line(bench: &mut Bench, prng: &mut Prng) -> Result<(), Difference> {
    let mut s = generate::valid_settings(prng);
    let n = generate::line_length(prng);
    let symbols = generate::starry(prng, n);
    let totals = generate::totals(prng, &symbols);
    let totals = LentTotals::new(prng, &totals);
    let mut counted = Counted::new(lend(prng, &symbols), totals);
    bench.fill_totals(&mut counted)?;
    let mut state = generate::state(prng);
    (state.timers, state.deficit) = ([0; 8], state.deficit.min(3));
    let mut numbers = generate::state_record(prng, &state);
    let mut last = 0;
    for _ in 0..prng.between(3, 12) {
        if prng.one_in(12) {
            let symbol = prng.pick(&[(START, 1), (START, 0), (IDLE, 255)]);
            for _ in 0..prng.between(1, 3) {
                counted.scribble(prng.below(n), symbol);
            }
            let place = generate::asked_place(prng, counted.symbols());
            bench.starts_before(&counted, place)?;
            bench.fill_totals(&mut counted)?;
        }
        let mut call = generate::allowed(prng, &mut s);
        let settings = generate::settings_record(prng, &s);
        let client = client_record(prng, &mut call, 64);
        let port = generate::port(prng);
        let roomy = generate::roomy_place(prng, n, &call);
        let mut place = prng.pick(&[last, last, roomy, roomy, roomy]);
        if port == Port::FourLane && call.is_frame() && !prng.one_in(16) {
            place -= place % 4;
        }
        let on = (&mut numbers, generate::port_octet(prng, port));
        let sending = (&call, client.as_ref());
        let asked = generate::asked_place(prng, counted.symbols());
        let after = bench.send_counted(&settings, on, &mut counted, place, sending, asked)?;
        last = after.unwrap_or(last);
        if prng.coin() {
            let place = generate::asked_place(prng, counted.symbols());
            bench.starts_before(&counted, place)?;
        }
    }
    Ok(())
}

/// Calls on one table, one after the other, by both jobs.
fn table_calls(bench: &mut Bench, prng: &mut Prng) -> Result<(), Difference> {
    let s = generate::settings(prng);
    let broken = prng.one_in(6);
    let octets = match broken {
        true => generate::broken_table(prng, &s),
        false => generate::sound_table(prng, &s),
    };
    let mut table = LentTable::new(prng, &octets, s.own);
    if prng.one_in(16) {
        bench.table_empty(&mut table)?;
    }
    // one that adds more than it removes fills up
    let removals = prng.pick(&[1, 2, 4, 7]);
    let calls = match broken {
        true => prng.between(2, 4),
        false => prng.between(4, 24),
    };
    for _ in 0..calls {
        let job = generate::table_job(prng, broken);
        let address = generate::named_address(prng, &s, table.octets());
        let call = match prng.below(8) < removals {
            true => TableCall::Remove,
            false => TableCall::Add,
        };
        bench.table_call(&mut table, call, job, address)?;
    }
    Ok(())
}

/// Both jobs' captures are shown, with one table.
fn screens(bench: &mut Bench, prng: &mut Prng) -> Result<(), Difference> {
    let drawn = generate::settings(prng);
    let settings = generate::settings_record(prng, &drawn);
    let listener = generate::listener(prng, &drawn);
    let both = [
        generate::shown_capture(prng, &drawn, &listener.of(0)),
        generate::shown_capture(prng, &drawn, &listener.of(1)),
    ];
    let lent = [lend(prng, &both[0]), lend(prng, &both[1])];
    for _ in 0..prng.between(4, 8) {
        let job = prng.below(2);
        let l = generate::misnumbered(prng, &listener.of(job as u8));
        // a place of this capture, or at times of the other
        let of = if prng.one_in(4) { 1 - job } else { job };
        let place = generate::place(prng, &both[of]);
        bench.screen_data(&settings, &l, &lent, place)?;
    }
    Ok(())
}
