//! Makes a call on both sides, on the same inputs, and compares all that comes out.
use crate::coverage::Coverage;
use crate::generate::{Listener, Sending, Symbols};
use crate::prng::Prng;
use crate::seen::{By, FcsSeen, ReadingSeen, SendingSeen, WalkSeen};
use crate::seen_jobs::TableOf;
use crate::{face, names, show};
use fenhamper::{Capture, Counted, Fcs, Refusal, Sender, Way};
use reference::{Answer, Check, Port, Reading, Sent, Settings, State};
use std::fmt;

/// Symbols that a call is not lent, on either side of those that it is; octets of a log and totals
/// likewise.
pub(crate) const AROUND: usize = 16;

/// Symbols to lend. They stand in the middle of longer buffers, so that a look or a step past the
/// end shows.
#[derive(Clone, PartialEq, Eq)]
pub struct Lent {
    octets: Vec<u8>,
    marks: Vec<u8>,
}

impl Lent {
    /// Lends these symbols, in the midst of others of this octet and mark.
    pub fn new(symbols: &Symbols, octet: u8, mark: u8) -> Lent {
        let around = |all: &[u8], other| [&[other; AROUND], all, &[other; AROUND]].concat();
        Lent {
            octets: around(&symbols.octets, octet),
            marks: around(&symbols.marks, mark),
        }
    }

    /// The octets lent.
    pub fn octets(&self) -> &[u8] {
        &self.octets[AROUND..self.octets.len() - AROUND]
    }

    /// The marks lent.
    pub fn marks(&self) -> &[u8] {
        &self.marks[AROUND..self.marks.len() - AROUND]
    }

    /// Both, to be written into.
    pub(crate) fn both(&mut self) -> (&mut [u8], &mut [u8]) {
        let (octets, marks) = (self.octets.len() - AROUND, self.marks.len() - AROUND);
        (
            &mut self.octets[AROUND..octets],
            &mut self.marks[AROUND..marks],
        )
    }
}

/// An FCS or a register, shown in hexadecimal.
#[derive(PartialEq)]
struct Hex(u32);

impl fmt::Debug for Hex {
    fn fmt(&self, f: &mut fmt::Formatter<'_>) -> fmt::Result {
        write!(f, "{:#010X}", self.0)
    }
}

/// Where two buffers differ first. A place below 0 or beyond the length was not lent.
#[derive(Debug, PartialEq)]
pub(crate) struct Other<T> {
    place: isize,
    library: T,
    reference: T,
}

/// Of buffers with so many elements before those that were lent.
pub(crate) fn first_other<T: Copy + PartialEq>(
    library: &[T],
    reference: &[T],
    before: usize,
) -> Option<Other<T>> {
    let mut pairs = library.iter().zip(reference);
    let at = pairs.position(|(library, reference)| library != reference)?;
    Some(Other {
        place: at as isize - before as isize,
        library: library[at],
        reference: reference[at],
    })
}

/// The two sides differ: all that is needed to see it again.
#[derive(Debug)]
pub struct Difference(String);

impl fmt::Display for Difference {
    fn fmt(&self, f: &mut fmt::Formatter<'_>) -> fmt::Result {
        f.write_str(&self.0)
    }
}

/// Where calls are made and counted.
pub struct Bench {
    seed: u64,
    case: u64,
    pub(crate) calls: u64,
    /// A difference shows its inputs in full.
    pub(crate) whole: bool,
    /// How the reference checks.
    pub(crate) check: Check,
    /// What was hit so far.
    pub coverage: Coverage,
}

impl Bench {
    /// A bench before any call.
    pub fn new(whole: bool) -> Bench {
        Bench {
            seed: 0,
            case: 0,
            calls: 0,
            whole,
            check: Check::Bitwise,
            coverage: Coverage::new(),
        }
    }

    /// How many calls were compared.
    pub fn calls(&self) -> u64 {
        self.calls
    }

    /// Begins a case of a seed: its numbers, and how the reference checks in it.
    pub fn begin(&mut self, seed: u64, case: u64) -> Prng {
        let mut prng = Prng::new(seed, case);
        (self.seed, self.case) = (seed, case);
        self.check = prng.pick(&[Check::Bitwise, Check::ByteTable, Check::Slicing16]);
        prng
    }

    /// Compares one thing that came out of a call; the inputs are written out only if it differs.
    pub(crate) fn same<T: PartialEq + fmt::Debug>(
        &self,
        (call, thing): (&str, &str),
        (library, reference): (T, T),
        inputs: impl FnOnce() -> String,
    ) -> Result<(), Difference> {
        if library == reference {
            return Ok(());
        }
        let Bench {
            seed, case, calls, ..
        } = self;
        Err(Difference(format!(
            "the library and the reference differ in call {calls}, {call}: seed {seed}, case {case}\n\
             {}\n\
             {thing}, library:   {library:?}\n\
             {thing}, reference: {reference:?}\n\
             to repeat: FENHAMPER_SEED={seed} FENHAMPER_CASE={case} \
             cargo test --release --offline --test calls",
            inputs()
        )))
    }

    /// Compares buffers, each whole.
    pub(crate) fn same_lent(
        &self,
        call: &str,
        (library, reference): (&Lent, &Lent),
        inputs: impl Fn() -> String,
    ) -> Result<(), Difference> {
        if library == reference {
            return Ok(());
        }
        let octets = first_other(&library.octets, &reference.octets, AROUND);
        self.same((call, "octets, first other"), (octets, None), &inputs)?;
        let marks = first_other(&library.marks, &reference.marks, AROUND);
        self.same((call, "marks, first other"), (marks, None), &inputs)
    }

    /// What a counted reading hands out, and how it is told: the data, the outcome's name and the
    /// status word's parts.
    fn counted(
        &self,
        call: &str,
        counted: &Counted,
        octets: &[u8],
        expected: Reading,
        inputs: impl Fn() -> String,
    ) -> Result<(), Difference> {
        let parts = parts(counted.data, octets, expected);
        self.same((call, "data"), parts, &inputs)?;
        let Answer::Counted {
            outcome,
            status,
            address,
            ..
        } = expected.answer
        else {
            return Ok(());
        };
        let ways = (counted.way, Way::from_number(address));
        self.same((call, "way"), ways, &inputs)?;
        let names = (counted.outcome.name(), names::outcome(outcome));
        self.same((call, "outcome's name"), names, &inputs)?;
        let statuses = (face::status(counted.status), names::status(status));
        self.same((call, "status"), statuses, &inputs)
    }

    /// How a refusal, whose number was compared, is told.
    pub(crate) fn refused(
        &self,
        call: &str,
        refusal: Refusal,
        inputs: impl FnOnce() -> String,
    ) -> Result<(), Difference> {
        let names = (refusal.name(), names::refusal(refusal.number()));
        self.same((call, "refusal's name"), names, inputs)
    }

    /// One reading; the state goes on to that after it.
    pub fn read(
        &mut self,
        s: &Settings,
        l: &Listener,
        state: &mut State,
        lent: &Lent,
        place: usize,
    ) -> Result<(), Difference> {
        self.calls += 1;
        let before = *state;
        let (octets, marks) = (lent.octets(), lent.marks());
        let expected = by_reference_read(self.check, (s, l), state, lent, place);
        let mut library_state = face::state(&before);
        let capture = Capture::new(octets, marks);
        let table = face::table(l);
        let listener = face::listener(s, l, &table);
        let answer = capture.read(listener, &mut library_state, place);

        let inputs = || heard(s, l, &before, lent, place, self.whole);
        let readings = (face::reading(place, &answer), expected);
        self.same(("read", "reading"), readings, inputs)?;
        match &answer {
            Ok(fenhamper::Reading::Counted(counted)) => {
                self.counted("read", counted, octets, expected, inputs)?;
            }
            Ok(_) => {}
            Err(refusal) => self.refused("read", *refusal, inputs)?,
        }
        let screens = (library_state.screen(), reference::screen(state));
        self.same(("read", "screen"), screens, inputs)?;
        let states = (library_state, face::state(state));
        self.same(("read", "state"), states, inputs)?;
        let (symbols, states) = ((octets, marks, place), (&before, &*state));
        let seen = ReadingSeen::new(By::Read, (s, l), symbols, states, expected);
        self.coverage.reading(&seen);
        Ok(())
    }

    /// The iterator over readings, from a place to its end; the state goes on.
    pub fn readings(
        &mut self,
        s: &Settings,
        l: &Listener,
        state: &mut State,
        lent: &Lent,
        place: usize,
    ) -> Result<(), Difference> {
        self.calls += 1;
        let (before, whole) = (*state, self.whole);
        let (octets, marks) = (lent.octets(), lent.marks());
        let inputs = || heard(s, l, &before, lent, place, whole);
        let mut library_state = face::state(&before);
        let capture = Capture::new(octets, marks);
        let table = face::table(l);
        let listener = face::listener(s, l, &table);
        let readings = capture.readings(listener, &mut library_state);
        let mut readings = readings.at(place);
        let mut at = place;
        let last = loop {
            let earlier = *state;
            let expected = by_reference_read(self.check, (s, l), state, lent, at);
            let item = readings.next();
            let handed = item.as_ref().map(|item| match item {
                Ok(counted) => face::counted(counted),
                Err(refusal) => face::reading(at, &Err(*refusal)),
            });
            let item_expected = match expected.answer {
                Answer::None | Answer::Open => None,
                Answer::Refused(_) | Answer::Counted { .. } => Some(expected),
            };
            self.same(("readings", "item"), (handed, item_expected), inputs)?;
            match &item {
                Some(Ok(counted)) => self.counted("readings", counted, octets, expected, inputs)?,
                Some(Err(refusal)) => self.refused("readings", *refusal, inputs)?,
                None => {}
            }
            let (symbols, states) = ((octets, marks, at), (&earlier, &*state));
            let seen = ReadingSeen::new(By::Readings, (s, l), symbols, states, expected);
            self.coverage.reading(&seen);
            at = expected.next;
            if !matches!(expected.answer, Answer::Counted { .. }) {
                break expected;
            }
        };
        let ended = (readings.place(), readings.ended_open());
        let ended_expected = (last.next, last.answer == Answer::Open);
        self.same(("readings", "end"), (ended, ended_expected), inputs)?;
        let after_end = (readings.next(), None);
        self.same(("readings", "item after the end"), after_end, inputs)?;
        let states = (library_state, face::state(state));
        self.same(("readings", "state"), states, inputs)
    }

    /// A walk; the state goes on to that after it.
    pub fn walk(
        &mut self,
        s: &Settings,
        l: &Listener,
        state: &mut State,
        lent: &Lent,
    ) -> Result<(), Difference> {
        self.calls += 1;
        let before = *state;
        let (octets, marks) = (lent.octets(), lent.marks());
        let expected = reference::walk(self.check, s, state, l.job, &l.table, octets, marks);
        let mut library_state = face::state(&before);
        let capture = Capture::new(octets, marks);
        let table = face::table(l);
        let listener = face::listener(s, l, &table);
        let answer = capture.walk(listener, &mut library_state);

        let inputs = || heard(s, l, &before, lent, 0, self.whole);
        let walks = (face::walked(answer), expected);
        self.same(("walk", "walk"), walks, inputs)?;
        if let Err(refusal) = answer {
            self.refused("walk", refusal, inputs)?;
        }
        let screens = (library_state.screen(), reference::screen(state));
        self.same(("walk", "screen"), screens, inputs)?;
        let states = (library_state, face::state(state));
        self.same(("walk", "state"), states, inputs)?;
        self.coverage.walk(&WalkSeen {
            s,
            job: l.job,
            table: TableOf(&l.octets),
            lengths: (octets.len(), marks.len()),
            before: &before,
            after: state,
            walked: expected,
        });
        Ok(())
    }

    /// A sending; state and symbols go on to those after it. The answer is the place after it, if
    /// it was not refused.
    pub fn send(
        &mut self,
        s: &Settings,
        (state, port): (&mut State, Port),
        lent: &mut Lent,
        place: usize,
        sending: &Sending,
    ) -> Result<Option<usize>, Difference> {
        self.calls += 1;
        let before = *state;
        let lent_before = lent.clone();
        let mut library_lent = lent.clone();
        let mut library_state = face::state(&before);

        let expected = by_reference(self.check, s, (state, port), lent, place, sending);
        let (octets, marks) = library_lent.both();
        let mut sender = Sender::new(octets, marks).at(place).on(face::port(port));
        let answer = by_library(s, &mut library_state, &mut sender, sending);
        let place_after = sender.place();

        let written = match expected {
            Sent::Wrote(after) => Some(after),
            Sent::Refused(_) => None,
        };
        let call = sending.name();
        let inputs = || {
            let sending = show::sending(sending, self.whole);
            let others = inputs(s, &before, &lent_before, place, self.whole);
            format!("{port:?}: {sending}\n{others}")
        };
        self.same((call, "answer"), (face::sent(answer), expected), inputs)?;
        if let Err(refusal) = answer {
            self.refused(call, refusal, inputs)?;
        }
        let places = (place_after, written.unwrap_or(place));
        self.same((call, "place"), places, inputs)?;
        let states = (library_state, face::state(state));
        self.same((call, "state"), states, inputs)?;
        self.same_lent(call, (&library_lent, lent), inputs)?;
        self.coverage.sending(&SendingSeen {
            call: sending,
            port,
            s,
            lengths: (lent.octets().len(), lent.marks().len()),
            place,
            before: &before,
            after: state,
            octets: lent.octets(),
            sent: expected,
        });
        Ok(written)
    }

    /// The FCS of octets in one piece.
    pub fn fcs(&mut self, octets: &[u8]) -> Result<(), Difference> {
        self.calls += 1;
        let (library, expected) = (fenhamper::fcs(octets), reference::fcs(self.check, octets));
        self.same(("fcs", "FCS"), (Hex(library), Hex(expected)), || {
            show::octets(octets, self.whole)
        })?;
        let register = u32::MAX;
        self.coverage.fcs(&FcsSeen { register, octets });
        Ok(())
    }

    /// The FCS register after more octets, from the register that the first ones leave.
    pub fn fcs_from(&mut self, first: &[u8], octets: &[u8]) -> Result<(), Difference> {
        self.calls += 1;
        let register = reference::fcs_update(self.check, u32::MAX, first);
        let expected = reference::fcs_update(self.check, register, octets);
        let library = !Fcs::new().update(first).update(octets).finish();
        let sides = (Hex(library), Hex(expected));
        self.same(("Fcs::update", "register"), sides, || {
            let (first, octets) = [first, octets].map(|o| show::octets(o, self.whole)).into();
            let register = Hex(register);
            format!("first: {first}\nthen, from register {register:?}: {octets}")
        })?;
        self.coverage.fcs(&FcsSeen { register, octets });
        Ok(())
    }
}

/// A call's inputs, to be shown if the two sides differ.
pub(crate) fn inputs(
    s: &Settings,
    state: &State,
    lent: &Lent,
    place: usize,
    whole: bool,
) -> String {
    let symbols = show::symbols(lent.octets(), lent.marks(), whole);
    format!("{s:?}\n{state:?}\nplace {place}\nsymbols: {symbols}")
}

/// The same of a call that reads.
pub(crate) fn heard(
    s: &Settings,
    l: &Listener,
    state: &State,
    lent: &Lent,
    place: usize,
    whole: bool,
) -> String {
    let others = inputs(s, state, lent, place, whole);
    format!("{}\n{others}", show::listener(l))
}

/// A reading by the reference.
pub(crate) fn by_reference_read(
    check: Check,
    (s, l): (&Settings, &Listener),
    state: &mut State,
    lent: &Lent,
    place: usize,
) -> Reading {
    let (octets, marks) = (lent.octets(), lent.marks());
    reference::read(check, s, state, l.job, &l.table, octets, marks, place)
}

/// The octets that the library handed out and those that the reference names, each as its place in
/// memory and its length: the data is a part of the capture, not a copy.
fn parts(
    handed: &[u8],
    octets: &[u8],
    expected: Reading,
) -> ((*const u8, usize), (*const u8, usize)) {
    let part = match expected.answer {
        Answer::Counted { at, len, .. } => &octets[at..at + len],
        _ => &[],
    };
    ((handed.as_ptr(), handed.len()), (part.as_ptr(), part.len()))
}

/// A sending by the reference.
pub(crate) fn by_reference(
    check: Check,
    s: &Settings,
    (state, port): (&mut State, Port),
    lent: &mut Lent,
    place: usize,
    sending: &Sending,
) -> Sent {
    let (octets, marks) = lent.both();
    match sending {
        Sending::Client(client, data) => {
            reference::send_client(check, s, state, port, octets, marks, place, client, data)
        }
        Sending::Pause(quanta) => {
            reference::send_pause(check, s, state, port, octets, marks, place, *quanta)
        }
        Sending::Pfc(named, quanta) => {
            reference::send_pfc(check, s, state, port, octets, marks, place, *named, quanta)
        }
        Sending::Idle(n) => reference::fill_idle(state, octets, marks, place, *n),
    }
}

/// A sending by the library's Rust face.
pub(crate) fn by_library(
    s: &Settings,
    state: &mut fenhamper::State,
    sender: &mut Sender,
    sending: &Sending,
) -> Result<usize, fenhamper::Refusal> {
    let s = face::settings(s);
    match sending {
        Sending::Client(client, data) => sender.client(&s, state, &face::frame(client), data),
        Sending::Pause(quanta) => sender.pause(&s, state, *quanta),
        Sending::Pfc(named, quanta) => sender.pfc(&s, state, *named, *quanta),
        Sending::Idle(n) => sender.idle(state, *n),
    }
}
