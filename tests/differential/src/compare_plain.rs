//! The plain reader, through both faces, symbol by symbol beside the reference's, and its end beside
//! the library's own walk.
use crate::compare::{heard, Bench, Difference, Lent};
use crate::generate::{Listener, Turn, PREAMBLE, START, SYMBOLS, TERMINATE};
use crate::raw::plain::{self as layout, Plain};
use crate::seen_jobs::TableOf;
use crate::seen_plain::{AnyPlainSeen, Line, PlainSeen};
use crate::seen_reason::Face;
use crate::{face, raw, records};
use fenhamper::{Capture, Symbol, Way};
use reference::{Ended, PlainReader, Settings, State};

/// What a symbol gives.
type Told = Result<Option<Ended>, u8>;

/// What the Rust face tells.
fn told(answer: Result<Option<fenhamper::Told>, fenhamper::Refusal>) -> Told {
    let ended = |told: fenhamper::Told| Ended {
        outcome: told.outcome.number(),
        status: told.status.word(),
        at: told.at,
        len: told.length,
        address: told.way.map_or(0, Way::number),
    };
    answer
        .map(|told| told.map(ended))
        .map_err(|refusal| refusal.number())
}

/// What is told, as the C face's numbers.
fn numbers(told: Told) -> [u64; layout::TOLD] {
    match told {
        Err(refusal) => [refusal.into(), 0, 0, 0, 0, 0, 0, 0],
        Ok(None) => [0; layout::TOLD],
        Ok(Some(e)) => {
            let (outcome, way) = (e.outcome.into(), e.address.into());
            [0, 1, outcome, e.status, e.at as u64, e.len as u64, way, 0]
        }
    }
}

/// Which of 1, 14 and 20 hold, each by the reference's reader with nothing else wrong, and 2.
fn holds(s: &Settings, l: &Listener, taken: u64) -> [bool; 4] {
    let good = Listener::alone();
    let refused = |s: &Settings, job, table| {
        let mut reader = PlainReader::default();
        let check = reference::Check::Bitwise;
        reader.take(check, s, job, table, 0, 0).is_err()
    };
    [
        refused(s, 0, &good.table),
        refused(&Settings::PRINTED, l.job, &good.table),
        refused(&Settings::PRINTED, 0, &l.table),
        taken >= SYMBOLS as u64,
    ]
}

/// Who listens at a place, by number: the second in its turn, and where that is refused the first.
fn listening(turn: Option<&Turn>, place: usize) -> &'static [usize] {
    match turn {
        Some(turn) if turn.places.contains(&place) => &[1, 0],
        _ => &[0],
    }
}

/// Who listens in a turn, to be shown if the two sides differ.
fn shown(turn: Option<&Turn>) -> String {
    let shown = |turn: &Turn| {
        let listener = crate::show::listener(&turn.l);
        format!("\nat {:?}: {:?}, {listener}", turn.places, turn.s)
    };
    turn.map(shown).unwrap_or_default()
}

/// The symbols of a capture, and one more where that is one too many.
fn offered(lent: &Lent, more: u8) -> impl Iterator<Item = (u8, u8)> + '_ {
    let symbols = lent
        .octets()
        .iter()
        .copied()
        .zip(lent.marks().iter().copied());
    let full = symbols.len() >= SYMBOLS;
    symbols.chain([(more, 1)].into_iter().filter(move |_| full))
}

/// A symbol and what it is offered to.
struct Offer<'a> {
    face: Face,
    s: &'a Settings,
    l: &'a Listener,
    line: Line<'a>,
    symbol: (u8, u8),
}

impl Offer<'_> {
    /// What became of it, for the coverage table. Data shows nothing, but for the last symbol; nor does
    /// a control symbol right behind another, with no run.
    fn seen(&self, bench: &mut Bench, before: &PlainReader, after: &PlainReader, told: Told) {
        let (octet, mark) = self.symbol;
        let alike =
            mark == 0 || self.line.begun.is_none() && self.line.place > 0 && !self.line.data;
        if alike && told == Ok(None) && self.line.place + 1 != SYMBOLS {
            return;
        }
        bench.coverage.plain(&PlainSeen {
            face: self.face,
            s: self.s,
            job: self.l.job,
            table: TableOf(&self.l.octets),
            line: self.line,
            symbol: Some((octet, mark)),
            refusal: told.err().unwrap_or(0),
            told: told.ok().flatten(),
            before: before.state(),
            after: after.state(),
            stays: before == after,
            open: after.run().is_some(),
            frame: told.ok().and_then(|_| PlainSeen::ended(&self.line, mark)),
        });
    }
}

impl Bench {
    /// The symbols of a capture through the Rust face, one by one, and its end beside a walk.
    pub(crate) fn plain(
        &mut self,
        s: &Settings,
        l: &Listener,
        turn: Option<&Turn>,
        state: &State,
        lent: &Lent,
    ) -> Result<(), Difference> {
        self.calls += 1;
        let face = Face::Rust;
        let of = |turn: &Turn| (turn.s, turn.l);
        let both = [(*s, *l), turn.map_or((*s, *l), of)];
        let tables = [0, 1].map(|who| face::table(&both[who].1));
        let listeners = [0, 1].map(|who| face::listener(&both[who].0, &both[who].1, &tables[who]));
        let mut library = fenhamper::Plain::new(listeners[0]).with_state(face::state(state));
        let mut reader = PlainReader::new(*state);
        let mut line = Line::new(lent.octets());
        let whole = self.whole;
        let inputs = || heard(s, l, state, lent, 0, whole) + &shown(turn);
        'symbols: for symbol in offered(lent, START) {
            let (octet, mark) = symbol;
            for &who in listening(turn, line.place) {
                let (s, l) = (&both[who].0, &both[who].1);
                let before = reader;
                let expected = reader.take(self.check, s, l.job, &l.table, octet, mark);
                library.listener = listeners[who];
                let answer = library.push(Symbol { octet, mark });
                let place = line.place;
                let at = || format!("symbol {place}: {octet:#04X}, mark {mark}\n{}", inputs());
                self.same(("plain", "told"), (told(answer), expected), at)?;
                if let Ok(Some(told)) = answer {
                    let start = line.begun.map(|begun| begun.place);
                    let places = ((Some(told.start), told.next), (start, place));
                    self.same(("plain", "places of the run"), places, at)?;
                }
                let places = (library.place(), reader.taken());
                self.same(("plain", "place"), places, at)?;
                self.same(("plain", "run"), (library.run(), reader.run()), at)?;
                if mark != 0 || expected.is_err() {
                    let states = (&library.state, &face::state(reader.state()));
                    self.same(("plain", "state"), states, at)?;
                }
                let offer = Offer {
                    face,
                    s,
                    l,
                    line,
                    symbol,
                };
                offer.seen(self, &before, &reader, expected);
                match expected {
                    Err(refusal) => line.refuse(refusal),
                    Ok(_) => {
                        line.take(symbol, s, l.job);
                        continue 'symbols;
                    }
                }
            }
            break;
        }
        let states = (&library.state, &face::state(reader.state()));
        self.same(("plain", "state at the end"), states, inputs)?;
        let all = lent.octets().len() == lent.marks().len() && line.place == lent.octets().len();
        if all && turn.is_none() {
            // "the same outcomes, status words, counters and timers as the walk"
            let mut walk_state = face::state(state);
            let capture = Capture::new(lent.octets(), lent.marks());
            let walked = capture.walk(listeners[0], &mut walk_state);
            // the walk is refused only if the first symbol would be, and there is none
            let open = walked.map_or(false, |walk| walk.open);
            let opens = (
                (library.is_open(), walked.is_ok() || line.place == 0),
                (open, true),
            );
            self.same(("plain", "open, and the walk's"), opens, inputs)?;
            let states = (&library.state, &walk_state);
            self.same(("plain", "state, and the walk's"), states, inputs)?;
        }
        self.end_of_plain(face, (s, l), line, &reader);
        Ok(())
    }

    fn end_of_plain(
        &mut self,
        face: Face,
        (s, l): (&Settings, &Listener),
        line: Line,
        reader: &PlainReader,
    ) {
        self.coverage.plain(&PlainSeen {
            face,
            s,
            job: l.job,
            table: TableOf(&l.octets),
            line,
            symbol: None,
            refusal: 0,
            told: None,
            before: reader.state(),
            after: reader.state(),
            stays: true,
            open: reader.run().is_some(),
            frame: None,
        });
    }

    /// The same through the C face, with any settings and state.
    pub(crate) fn c_plain(
        &mut self,
        records: [&raw::Settings; 2],
        l: &Listener,
        turn: Option<&Turn>,
        numbers_before: &raw::State,
        lent: &Lent,
    ) -> Result<(), Difference> {
        self.calls += 1;
        let face = Face::C;
        let both = records.map(records::settings);
        let listeners = [l, turn.map_or(l, |turn| &turn.l)];
        let state = records::state(numbers_before);
        let mut library_state = *numbers_before;
        let mut library = raw::plain_fresh();
        let mut reader = PlainReader::new(state);
        let mut line = Line::new(lent.octets());
        let whole = self.whole;
        let inputs = || {
            let meant = heard(&both[0], l, &state, lent, 0, whole) + &shown(turn);
            format!("{records:?}\nstate {numbers_before:X?}\nmeant: {meant}")
        };
        'symbols: for symbol in offered(lent, TERMINATE) {
            let (octet, mark) = symbol;
            for &who in listening(turn, line.place) {
                let (s, l) = (&both[who], listeners[who]);
                let (before, state_before, reader_before) = (library, library_state, reader);
                let expected = reader.take(self.check, s, l.job, &l.table, octet, mark);
                let states = (&mut library_state, &mut library);
                let answer = raw::plain_symbol(records[who], l.raw(), states.0, states.1, symbol);
                let place = line.place;
                let at = || format!("symbol {place}: {octet:#04X}, mark {mark}\n{}", inputs());
                self.same(("plain in C", "told"), (answer, numbers(expected)), at)?;
                let open = u64::from(reader.run().is_some());
                let reached = [
                    library.numbers[layout::PLACE],
                    library.numbers[layout::RUNNING],
                ];
                let places = (reached, [reader.taken() as u64, open]);
                self.same(("plain in C", "place and run"), places, at)?;
                // "with the state kept": all of it, to the bit; by a symbol that counts no Start too
                let kept = match expected {
                    Ok(Some(_)) => records::state_written(&state_before, reader.state()),
                    _ => state_before,
                };
                self.same(("plain in C", "state"), (library_state, kept), at)?;
                if expected.is_err() {
                    self.same(("plain in C", "reader"), (library, before), at)?;
                }
                if let (Some(n), Ok(_)) = (reader.run(), &expected) {
                    let count = (library.numbers[layout::COUNT], n as u64);
                    self.same(("plain in C", "count"), count, at)?;
                }
                let offer = Offer {
                    face,
                    s,
                    l,
                    line,
                    symbol,
                };
                offer.seen(self, &reader_before, &reader, expected);
                match expected {
                    Err(refusal) => line.refuse(refusal),
                    Ok(_) => {
                        line.take(symbol, s, l.job);
                        continue 'symbols;
                    }
                }
            }
            break;
        }
        self.end_of_plain(face, (&both[0], l), line, &reader);
        Ok(())
    }

    /// One symbol of a reader that is any record. What it keeps of a run is looked at by hand, as far
    /// as the FCS: a frame with a right one comes of symbols.
    pub(crate) fn c_plain_any(
        &mut self,
        settings: &raw::Settings,
        l: &Listener,
        state: &raw::State,
        reader: &Plain,
        (octet, mark): (u8, u8),
    ) -> Result<(), Difference> {
        self.calls += 1;
        let s = records::settings(settings);
        let (mut library, mut library_state) = (*reader, *state);
        let symbol = (octet, mark);
        let answer = raw::plain_symbol(settings, l.raw(), &mut library_state, &mut library, symbol);

        let place = reader.numbers[layout::PLACE] as u32;
        let count = reader.numbers[layout::COUNT] as u16;
        let run = (reader.numbers[layout::RUNNING] != 0).then_some(usize::from(count));
        let holds = holds(&s, l, place.into());
        let refusal = holds.iter().position(|&holds| holds);
        let refusal = refusal.map(|first| [1, 14, 20, 2][first]);
        let mut after = *reader;
        let mut expected: Told = refusal.map_or(Ok(None), Err);
        let mut counted = records::state(state);
        if refusal.is_none() {
            after.numbers = [0; layout::NUMBERS];
            after.numbers[layout::PLACE] = u64::from(place) + 1;
            if mark == 0 {
                self.grown(reader, octet, &mut after);
            } else {
                after.numbers[layout::RUNNING] = u64::from(octet == START);
                after.numbers[layout::START] = place.into();
                after.numbers[layout::REGISTER] = u32::MAX.into();
                (after.first, after.last) = ([0; layout::FIRST], [0; layout::LAST]);
                if run.is_some() {
                    let Some(outcome) = self.thrown_away(&s, reader, octet) else {
                        return Ok(());
                    };
                    let which = usize::from(outcome - 1);
                    counted.counters[which] = counted.counters[which].wrapping_add(1);
                    expected = Ok(Some(Ended {
                        outcome,
                        status: 0,
                        at: 0,
                        len: 0,
                        address: 0,
                    }));
                }
            }
        }
        let inputs =
            || format!("{settings:?}\n{reader:X?}\nstate {state:X?}\n{octet:#04X}, mark {mark}");
        let call = "plain in C, any reader";
        self.same((call, "told"), (answer, numbers(expected)), inputs)?;
        self.same((call, "reader"), (library, after), inputs)?;
        let kept = match expected {
            Ok(Some(_)) => records::state_written(state, &counted),
            _ => *state,
        };
        self.same((call, "state"), (library_state, kept), inputs)?;
        self.coverage.any_plain(&AnyPlainSeen {
            s: &s,
            holds,
            before: reader,
            after: &after,
            octet,
            mark,
            refusal: refusal.unwrap_or(0),
            outcome: expected.ok().flatten().map_or(0, |told| told.outcome),
            tags: tags_of(reader),
        });
        Ok(())
    }

    /// What is kept with one octet more.
    fn grown(&self, reader: &Plain, octet: u8, after: &mut Plain) {
        let count = reader.numbers[layout::COUNT] as u16;
        let register = reader.numbers[layout::REGISTER] as u32;
        let [leaves, a, b, c] = reader.last;
        after.numbers[layout::RUNNING] = u64::from(reader.numbers[layout::RUNNING] != 0);
        after.numbers[layout::START] = u64::from(reader.numbers[layout::START] as u32);
        after.numbers[layout::COUNT] = count.wrapping_add(1).into();
        if let Some(kept) = after.first.get_mut(usize::from(count)) {
            *kept = octet;
        }
        after.last = [a, b, c, octet];
        let covered = count >= 11;
        let more = reference::fcs_update(self.check, register, &[leaves]);
        after.numbers[layout::REGISTER] = if covered { more } else { register }.into();
    }

    /// Outcomes 1 to 5 of what is kept; none where the FCS is right.
    fn thrown_away(&self, s: &Settings, reader: &Plain, by: u8) -> Option<u8> {
        let count = usize::from(reader.numbers[layout::COUNT] as u16);
        let register = reader.numbers[layout::REGISTER] as u32;
        let most = usize::from(s.limit) + 4 * tags_of(reader);
        if by != TERMINATE {
            Some(1)
        } else if count < 7 || reader.first[..7] != PREAMBLE {
            Some(2)
        } else if count - 7 < 64 {
            Some(3)
        } else if count - 7 > most {
            Some(4)
        } else {
            (reader.last != (!register).to_le_bytes()).then_some(5)
        }
    }
}

/// The tags behind the preamble that a record has kept.
fn tags_of(reader: &Plain) -> usize {
    let field = |n: usize| [reader.first[19 + 4 * n], reader.first[20 + 4 * n]];
    let is_tag = |n: &usize| [[0x81, 0], [0x88, 0xA8]].contains(&field(*n));
    (0..8).take_while(is_tag).count()
}
