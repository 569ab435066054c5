//! Why a Start has its outcome, by both faces, compared with the reference's reason.
use crate::compare::{by_reference_read, heard, Bench, Difference, Lent};
use crate::generate::Listener;
use crate::seen::{By, ReadingSeen};
use crate::seen_reason::{Face, ReasonSeen};
use crate::{face, raw, records};
use fenhamper::{Capture, Refusal};
use reference::{Explained, Reason, Settings, State, Why};

/// A state before any call.
const FRESH: State = State {
    counters: [0; 11],
    timers: [0; 8],
    deficit: 0,
};

/// A reason of the library.
fn reason(reason: fenhamper::Reason) -> Reason {
    use fenhamper::Reason as R;
    match reason {
        R::CutAt { place, octet } => Reason::Cut { place, octet },
        R::ShortRun { length } => Reason::ShortRun { length },
        R::WrongOctet { place } => Reason::WrongPreamble { place },
        R::TooShort { length, limit } => Reason::Undersized { length, limit },
        R::TooLong { length, limit } => Reason::Oversized { length, limit },
        R::FcsDiffers { stands, computed } => Reason::WrongFcs { stands, computed },
        R::LengthBroken { field, data_length } => Reason::WrongLength {
            field,
            data: data_length,
        },
        R::NotForUs { destination } => Reason::Filtered {
            destination: destination.0,
        },
        R::TookPause { opcode } => Reason::PauseTaken { opcode },
        R::TookPfc { opcode } => Reason::PfcTaken { opcode },
        R::DroppedControl { opcode } => Reason::ControlDropped { opcode },
        R::Handed { place, length } => Reason::HandedOut { place, length },
    }
}

/// An answer of the library at a place, which a refusal gives back.
fn explained(place: usize, answer: Result<fenhamper::Explained, Refusal>) -> Explained {
    let at = |why, start, next| Explained { why, start, next };
    match answer {
        Err(refusal) => at(Why::Refused(refusal.number()), place, place),
        Ok(e @ fenhamper::Explained::Nothing { .. }) => at(Why::None, e.start(), e.next()),
        Ok(e @ fenhamper::Explained::Open { .. }) => at(Why::Open, e.start(), e.next()),
        Ok(fenhamper::Explained::Because {
            start,
            next,
            reason: of,
        }) => at(Why::Because(reason(of)), start, next),
    }
}

/// A reason in words, as the program `why` has them.
fn words(reason: Reason) -> String {
    let text = |outcome: &str, more: String| format!("{outcome}: {more}");
    match reason {
        Reason::Cut { place, octet } => {
            let name = match octet {
                0x07 => "Idle",
                0xFB => "Start",
                0xFE => "Error",
                _ => "like Error",
            };
            format!("cut at {place} by {octet:#04X} ({name})")
        }
        Reason::ShortRun { length } => text("bad preamble", format!("run length {length}")),
        Reason::WrongPreamble { place } => {
            text("bad preamble", format!("first wrong place {place}"))
        }
        Reason::Undersized { length, limit } => {
            text("undersized", format!("length {length}, limit {limit}"))
        }
        Reason::Oversized { length, limit } => {
            text("oversized", format!("length {length}, limit {limit}"))
        }
        Reason::WrongFcs { stands, computed } => {
            let both = format!("stands {stands:#010X}, should be {computed:#010X}");
            text("wrong FCS", both)
        }
        Reason::WrongLength { field, data } => {
            let both = format!("field {field:#06X}, data length {data}");
            text("wrong length", both)
        }
        Reason::Filtered { destination } => {
            let octets = destination.map(|octet| format!("{octet:02X}"));
            text("filtered", format!("to {}", octets.join("-")))
        }
        Reason::PauseTaken { opcode } => text("pause taken", format!("opcode {opcode:#06X}")),
        Reason::PfcTaken { opcode } => text("PFC taken", format!("opcode {opcode:#06X}")),
        Reason::ControlDropped { opcode } => {
            text("control dropped", format!("opcode {opcode:#06X}"))
        }
        Reason::HandedOut { place, length } => {
            text("handed out", format!("data at {place}, length {length}"))
        }
    }
}

/// A reason's number in the header, and its two numbers of evidence.
fn numbers(reason: Reason) -> [u64; 3] {
    let one = |number, first| [number, first, 0];
    let two = |number, first: usize, second: usize| [number, first as u64, second as u64];
    match reason {
        Reason::Cut { place, octet } => two(1, place, octet.into()),
        Reason::ShortRun { length } => two(2, length, 0),
        Reason::WrongPreamble { place } => two(3, place, 0),
        Reason::Undersized { length, limit } => two(4, length, limit),
        Reason::Oversized { length, limit } => two(5, length, limit),
        Reason::WrongFcs { stands, computed } => [6, stands.into(), computed.into()],
        Reason::WrongLength { field, data } => two(7, field.into(), data),
        Reason::Filtered { destination } => {
            // the first octet is the highest
            let number = destination.iter().fold(0, |n, &o| n << 8 | u64::from(o));
            one(8, number)
        }
        Reason::PauseTaken { opcode } => one(9, opcode.into()),
        Reason::PfcTaken { opcode } => one(10, opcode.into()),
        Reason::ControlDropped { opcode } => one(11, opcode.into()),
        Reason::HandedOut { place, length } => two(12, place, length),
    }
}

/// An answer's numbers.
fn record(explained: Explained) -> [u64; raw::EXPLAINED] {
    let mut record = [0; raw::EXPLAINED];
    record[raw::EXPLAINED_START] = explained.start as u64;
    record[raw::EXPLAINED_NEXT] = explained.next as u64;
    match explained.why {
        Why::Refused(number) => record[raw::EXPLAINED_REFUSAL] = u64::from(number),
        Why::None => record[raw::EXPLAINED_KIND] = raw::NONE,
        Why::Open => record[raw::EXPLAINED_KIND] = raw::OPEN,
        Why::Because(reason) => {
            record[raw::EXPLAINED_KIND] = raw::COUNTED;
            record[raw::EXPLAINED_OUTCOME] = u64::from(reason.outcome());
            record[raw::EXPLAINED_REASON..].copy_from_slice(&numbers(reason));
        }
    }
    record
}

impl Bench {
    /// The reason of the first Start at a place or later.
    pub fn explain(
        &mut self,
        s: &Settings,
        l: &Listener,
        lent: &Lent,
        place: usize,
    ) -> Result<(), Difference> {
        self.calls += 1;
        let (octets, marks) = (lent.octets(), lent.marks());
        let expected = reference::explain(self.check, s, l.job, &l.table, octets, marks, place);
        let table = face::table(l);
        let listener = face::listener(s, l, &table);
        let answer = Capture::new(octets, marks).explain(listener, place);

        let inputs = || heard(s, l, &FRESH, lent, place, self.whole);
        let sides = (explained(place, answer), expected);
        self.same(("explain", "reason"), sides, inputs)?;
        match answer {
            Ok(e) => {
                let told = e.reason().map(|reason| reason.to_string());
                let because = match expected.why {
                    Why::Because(reason) => Some(words(reason)),
                    _ => None,
                };
                self.same(("explain", "words"), (told, because), inputs)?;
            }
            Err(refusal) => self.refused("explain", refusal, inputs)?,
        }
        self.seen(Face::Rust, (s, l), lent, place, expected)
    }

    /// The same through the C face, with any settings.
    pub(crate) fn c_explain(
        &mut self,
        settings: &raw::Settings,
        l: &Listener,
        lent: &Lent,
        place: usize,
    ) -> Result<(), Difference> {
        self.calls += 1;
        let s = records::settings(settings);
        let (octets, marks) = (lent.octets(), lent.marks());
        let expected = reference::explain(self.check, &s, l.job, &l.table, octets, marks, place);
        let answer = raw::explain(settings, l.raw(), (octets, marks), place);
        let inputs = || {
            let meant = heard(&s, l, &FRESH, lent, place, self.whole);
            format!("{settings:?}\nmeant: {meant}")
        };
        let sides = (answer, record(expected));
        self.same(("explain in C", "numbers"), sides, inputs)?;
        self.seen(Face::C, (&s, l), lent, place, expected)
    }

    /// Both places and, for 11, the part are those of a reading there; then the table.
    fn seen(
        &mut self,
        by: Face,
        (s, l): (&Settings, &Listener),
        lent: &Lent,
        place: usize,
        explained: Explained,
    ) -> Result<(), Difference> {
        if l.job < 2 {
            self.as_read((s, l), lent, place, explained)?;
        }
        let mut state = FRESH;
        let reading = by_reference_read(self.check, (s, l), &mut state, lent, place);
        let symbols = (lent.octets(), lent.marks(), place);
        let reading = ReadingSeen::new(By::Read, (s, l), symbols, (&FRESH, &state), reading);
        self.coverage.reason(&ReasonSeen {
            face: by,
            reading,
            explained,
        });
        Ok(())
    }

    /// The same by a reading of the Rust face, which has no job above 1.
    fn as_read(
        &self,
        (s, l): (&Settings, &Listener),
        lent: &Lent,
        place: usize,
        explained: Explained,
    ) -> Result<(), Difference> {
        let capture = Capture::new(lent.octets(), lent.marks());
        let mut state = face::state(&FRESH);
        let table = face::table(l);
        let listener = face::listener(s, l, &table);
        let read = capture.read(listener, &mut state, place);
        let inputs = || heard(s, l, &FRESH, lent, place, self.whole);
        let by_library = face::reading(place, &read);
        let places = (by_library.start, by_library.next);
        let both = (places, (explained.start, explained.next));
        self.same(("read, explain", "places"), both, inputs)?;
        if let Ok(fenhamper::Reading::Counted(counted)) = read {
            let outcome = match explained.why {
                Why::Because(reason) => reason.outcome(),
                _ => 0,
            };
            let outcomes = (counted.outcome.number(), outcome);
            self.same(("read, explain", "outcome"), outcomes, inputs)?;
            if let Why::Because(Reason::HandedOut { place, length }) = explained.why {
                let parts = ((counted.at, counted.data.len()), (place, length));
                self.same(("read, explain", "part"), parts, inputs)?;
            }
        }
        Ok(())
    }
}
