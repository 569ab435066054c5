//! Calls on a log and walks that keep their readings, through both faces, compared with the
//! reference's.
use crate::compare::{by_reference_read, first_other, heard, Bench, Difference, Lent, AROUND};
use crate::compare_c::after;
use crate::generate::Listener;
use crate::plain_log::{self, is_used, place_of, slots, Slot};
use crate::prng::Prng;
use crate::seen::{CCall, CSeen};
use crate::seen_log::{appended, GoingOnSeen, KeepSeen, LogCall, LogOf, LogSeen};
use crate::{face, generate, raw, records, show};
use fenhamper::{Capture, Log, LogView, Refusal};
use reference::{LogEnd, LogReader, Logged, Record, Settings, State};
use std::mem::replace;

/// A log to lend. It stands in the middle of other octets, which would be used records or not, so
/// that a look or a step past the end shows; anywhere in memory, since a log may be.
#[derive(Clone, PartialEq, Eq)]
pub(crate) struct LentLog {
    octets: Vec<u8>,
    front: usize,
    length: usize,
}

impl LentLog {
    pub(crate) fn new(prng: &mut Prng, log: &[u8]) -> LentLog {
        let front = AROUND + prng.below(AROUND);
        let other = prng.pick(&[0, 1, 0xFF]);
        LentLog {
            octets: [&vec![other; front][..], log, &[other; AROUND]].concat(),
            front,
            length: log.len(),
        }
    }

    pub(crate) fn octets(&self) -> &[u8] {
        &self.octets[self.front..][..self.length]
    }

    fn lent(&mut self) -> &mut [u8] {
        &mut self.octets[self.front..][..self.length]
    }

    /// What a call on a copy gives, and the copy after it.
    fn after<T>(&self, call: impl FnOnce(&mut [u8]) -> T) -> (T, LentLog) {
        let mut copy = self.clone();
        let answer = call(copy.lent());
        (answer, copy)
    }
}

/// A number that a call gives, if it gives one.
type Number = Option<usize>;

/// A call that may change a log, by the reference and by both faces: the number that it gave, or its
/// refusal, and the log after it. C has a number in any case; where it gives none, it is left.
struct Sides {
    expected: (Result<Number, u8>, LentLog),
    in_c: ((u32, usize), LentLog),
    in_rust: Option<(Result<Number, Refusal>, LentLog)>,
}

/// The answer of a call that gives no number.
fn no_number<T, E>(answer: Result<T, E>) -> Result<Number, E> {
    answer.map(|_| None)
}

/// The same in C.
fn none_in_c(refusal: u32) -> (u32, usize) {
    (refusal, raw::LEFT_NUMBER)
}

/// The answer's refusal, or 0.
pub(crate) fn refusal<T>(answer: &Result<T, u8>) -> u8 {
    *answer.as_ref().err().unwrap_or(&0)
}

impl Bench {
    /// Compares logs, each with what stands around it.
    fn same_log(
        &self,
        call: &str,
        (library, reference): (&LentLog, &LentLog),
        inputs: impl Fn() -> String,
    ) -> Result<(), Difference> {
        if library == reference {
            return Ok(());
        }
        let other = first_other(&library.octets, &reference.octets, library.front);
        self.same((call, "log, first other"), (other, None), inputs)
    }

    /// Appends a record; the log goes on to that after it.
    pub(crate) fn append(
        &mut self,
        log: &mut LentLog,
        record: &raw::Record,
    ) -> Result<(), Difference> {
        let meant = records::record(record);
        let sides = Sides {
            expected: log.after(|log| no_number(reference::append(log, &meant))),
            in_c: log.after(|log| none_in_c(raw::log_append(log, record))),
            in_rust: Some(log.after(|octets| {
                let mut log = Log::new(octets)?;
                no_number(log.append(face::record(&meant)))
            })),
        };
        let given = || format!("{record:02X?}");
        self.changed(log, LogCall::Append(meant), sides, given)
    }

    /// Appends the record of the reading at a place, with the numbers that `c_read` holds C's to.
    pub(crate) fn append_reading(
        &mut self,
        log: &mut LentLog,
        lent: &Lent,
        (s, l, state): (&Settings, &Listener, &State),
        place: usize,
    ) -> Result<(), Difference> {
        let (octets, marks) = (lent.octets(), lent.marks());
        let reading = by_reference_read(self.check, (s, l), &mut state.clone(), lent, place);
        let numbers = records::reading(reading);
        let capture = Capture::new(octets, marks);
        let table = face::table(l);
        let listener = face::listener(s, l, &table);
        let in_rust = capture.read(listener, &mut face::state(state), place);
        let sides = Sides {
            expected: log.after(|log| no_number(reference::append_reading(log, &reading))),
            in_c: log.after(|log| none_in_c(raw::log_append_reading(log, &numbers))),
            // a refused reading is none to append
            in_rust: in_rust.ok().map(|reading| {
                log.after(|octets| {
                    let mut log = Log::new(octets)?;
                    no_number(match &reading {
                        fenhamper::Reading::Counted(counted) => log.append_counted(counted),
                        other => log.append_reading(other),
                    })
                })
            }),
        };
        let call = LogCall::AppendReading(&numbers, Record::of(&reading));
        self.changed(log, call, sides, || format!("{reading:?}"))
    }

    /// Appends the record of any numbers, which no reading need give.
    pub(crate) fn append_numbers(
        &mut self,
        log: &mut LentLog,
        numbers: &[u64; raw::READING],
    ) -> Result<(), Difference> {
        let meant = records::reading_record(numbers);
        let sides = Sides {
            expected: log.after(|log| no_number(reference::append(log, &meant))),
            in_c: log.after(|log| none_in_c(raw::log_append_reading(log, numbers))),
            in_rust: None,
        };
        let call = LogCall::AppendReading(numbers, meant);
        let given = || format!("{numbers:X?}\nmeant: {meant:?}");
        self.changed(log, call, sides, given)
    }

    /// Deletes the record of a number.
    pub(crate) fn delete(&mut self, log: &mut LentLog, number: usize) -> Result<(), Difference> {
        let sides = Sides {
            expected: log.after(|log| no_number(reference::delete_record(log, number))),
            in_c: log.after(|log| none_in_c(raw::log_delete(log, number))),
            in_rust: Some(log.after(|octets| {
                let mut log = Log::new(octets)?;
                no_number(log.delete(number))
            })),
        };
        self.changed(log, LogCall::Delete(number), sides, || {
            format!("record {number}")
        })
    }

    /// Deletes the records of an outcome.
    pub(crate) fn delete_outcome(
        &mut self,
        log: &mut LentLog,
        outcome: u8,
    ) -> Result<(), Difference> {
        let sides = Sides {
            expected: log.after(|log| reference::delete_outcome(log, outcome).map(Some)),
            in_c: log.after(|log| raw::log_delete_outcome(log, outcome)),
            in_rust: Some(log.after(|octets| {
                let mut log = Log::new(octets)?;
                Ok(Some(log.delete_outcome(outcome)))
            })),
        };
        self.changed(log, LogCall::DeleteOutcome(outcome), sides, || {
            format!("outcome {outcome}")
        })
    }

    /// Compacts a log. The reference tells how many records remain, which no other call does.
    pub(crate) fn compact(&mut self, log: &mut LentLog) -> Result<(), Difference> {
        let sides = Sides {
            expected: log.after(|log| no_number(reference::compact(log))),
            in_c: log.after(|log| none_in_c(raw::log_compact(log))),
            in_rust: Some(log.after(|octets| {
                let mut log = Log::new(octets)?;
                log.compact();
                Ok(None)
            })),
        };
        self.changed(log, LogCall::Compact, sides, String::new)
    }

    /// Compares what a call gave, and the logs after it, which are also held to a plain list; the log
    /// goes on to that after it.
    fn changed(
        &mut self,
        log: &mut LentLog,
        call: LogCall,
        sides: Sides,
        given: impl Fn() -> String,
    ) -> Result<(), Difference> {
        self.calls += 1;
        let (expected, after) = sides.expected;
        let before = replace(log, after);
        let whole = self.whole;
        let inputs = || format!("{}\nlog: {}", given(), show::log(before.octets(), whole));
        let (answer, in_c) = sides.in_c;
        let number = expected.ok().flatten();
        let left = number.unwrap_or(raw::LEFT_NUMBER);
        let refusal = refusal(&expected);
        let in_c_by = format!("{} in C", call.name());
        self.same(
            (&in_c_by, "answer"),
            (answer, (refusal.into(), left)),
            inputs,
        )?;
        self.same_log(&in_c_by, (&in_c, log), inputs)?;
        if let Some((answer, in_rust)) = sides.in_rust {
            let answers = (by_number(answer), expected);
            self.same((call.name(), "answer"), answers, inputs)?;
            self.same_log(call.name(), (&in_rust, log), inputs)?;
            if let Err(refusal) = answer {
                self.refused(call.name(), refusal, inputs)?;
            }
        }
        let (by_list, number_by_list, octets) = plain_log::answered(before.octets(), &call);
        let answers = ((refusal, number), (by_list, number_by_list));
        self.same((call.name(), "answer, by a plain list"), answers, inputs)?;
        let other = first_other(log.octets(), &octets, 0);
        let thing = "log, first other by a plain list";
        self.same((call.name(), thing), (other, None), inputs)?;
        self.coverage.log(&LogSeen {
            call,
            before: LogOf::new(before.octets()),
            after: LogOf::new(log.octets()),
            refusal,
            given: None,
            number: number.unwrap_or(0),
        });
        Ok(())
    }

    /// The record of a number.
    pub(crate) fn log_record(&mut self, log: &LentLog, number: usize) -> Result<(), Difference> {
        self.calls += 1;
        let octets = log.octets();
        let inputs = || format!("record {number}\nlog: {}", show::log(octets, self.whole));
        let expected = reference::record(octets, number);
        let written = written(&expected);
        let (answer, record) = raw::log_record(octets, number);
        let sides = ((answer, record), (refusal(&expected).into(), written));
        self.same(("record in C", "answer"), sides, inputs)?;
        let answer = LogView::new(octets).and_then(|log| log.record(number));
        let sides = (
            by_number(answer),
            expected.map(|record| face::record(&record)),
        );
        self.same(("record", "answer"), sides, inputs)?;
        if let Err(refusal) = answer {
            self.refused("record", refusal, inputs)?;
        }
        self.coverage.log(&LogSeen {
            call: LogCall::Record(number),
            before: LogOf::new(octets),
            after: LogOf::new(octets),
            refusal: refusal(&expected),
            given: expected.ok(),
            number: 0,
        });
        Ok(())
    }

    /// A reader from a record number on, to its end; each record that it hands out is a call.
    pub(crate) fn log_read_on(&mut self, log: &LentLog, from: usize) -> Result<(), Difference> {
        let octets = log.octets();
        let whole = self.whole;
        let inputs = || format!("reader at {from}\nlog: {}", show::log(octets, whole));
        let mut reader = LogReader {
            log: octets,
            place: from,
        };
        let view = LogView::new(octets);
        let mut records = view.ok().map(|view| view.records().at(from));
        loop {
            self.calls += 1;
            let at = reader.place;
            let expected = reader.next_record();
            let answer = raw::log_next(octets, at);
            let refusal = refusal(&expected);
            let sides = (answer, (refusal.into(), reader.place, written(&expected)));
            self.same(("next in C", "answer"), sides, inputs)?;
            if let Some(records) = &mut records {
                let answer = (records.next(), records.number());
                let expected = expected.ok().map(|record| face::record(&record));
                let sides = (answer, (expected, reader.place));
                self.same(("records", "item"), sides, inputs)?;
            }
            self.coverage.log(&LogSeen {
                call: LogCall::Next(at),
                before: LogOf::new(octets),
                after: LogOf::new(octets),
                refusal,
                given: expected.ok(),
                number: reader.place,
            });
            if refusal > 0 {
                // the iterator is there unless that is 11
                return self.same(
                    ("records", "are there"),
                    (records.is_some(), refusal != 11),
                    inputs,
                );
            }
        }
    }

    /// How many records are used.
    pub(crate) fn log_used(&mut self, log: &LentLog) -> Result<(), Difference> {
        self.calls += 1;
        let octets = log.octets();
        let inputs = || format!("log: {}", show::log(octets, self.whole));
        let expected = reference::used_records(octets);
        let left = expected.unwrap_or(raw::LEFT_NUMBER);
        let sides = (raw::log_used(octets), (refusal(&expected).into(), left));
        self.same(("used in C", "answer"), sides, inputs)?;
        let answer = LogView::new(octets).map(|log| log.used());
        self.same(("used", "answer"), (by_number(answer), expected), inputs)?;
        self.coverage.log(&LogSeen {
            call: LogCall::Used,
            before: LogOf::new(octets),
            after: LogOf::new(octets),
            refusal: refusal(&expected),
            given: None,
            number: expected.unwrap_or(0),
        });
        Ok(())
    }

    /// A walk that keeps its readings; state and log go on to those after it.
    pub(crate) fn walk_log(
        &mut self,
        settings: &raw::Settings,
        l: &Listener,
        numbers: &mut raw::State,
        lent: &Lent,
        place: usize,
        log: &mut LentLog,
    ) -> Result<Logged, Difference> {
        self.calls += 1;
        let (s, before) = (records::settings(settings), *numbers);
        let state_before = records::state(&before);
        let mut state = state_before;
        let log_before = log.clone();
        let (octets, marks) = (lent.octets(), lent.marks());
        let (job, table) = (l.job, &l.table);
        let expected = reference::walk_log(
            self.check,
            &s,
            &mut state,
            job,
            table,
            octets,
            marks,
            place,
            log.lent(),
        );
        let inputs = || {
            let meant = heard(&s, l, &state_before, lent, place, self.whole);
            let log = show::log(log_before.octets(), self.whole);
            format!("{settings:?}\nstate {before:X?}\nmeant: {meant}\nlog: {log}")
        };

        let mut log_in_c = log_before.clone();
        let symbols = (octets, marks);
        let answer = raw::walk_log(settings, l.raw(), numbers, symbols, place, log_in_c.lent());
        let answers = (answer, records::kept(&expected));
        self.same(("walk_log in C", "answer"), answers, inputs)?;
        let is_refused = matches!(expected.end, LogEnd::Refused(_));
        let states = (*numbers, after(is_refused, &before, &state));
        self.same(("walk_log in C", "state"), states, inputs)?;
        self.same_log("walk_log in C", (&log_in_c, log), inputs)?;

        let mut log_in_rust = log_before.clone();
        let mut state_in_rust = face::state(&state_before);
        // Rust refuses a bad length before there is a walk, and has no job above 1
        let lent_log = Log::new(log_in_rust.lent()).ok().filter(|_| l.job < 2);
        if let Some(mut lent_log) = lent_log {
            let capture = Capture::new(octets, marks);
            let table = face::table(l);
            let listener = face::listener(&s, l, &table);
            let on = &mut state_in_rust;
            let answer = capture.walk_log(listener, on, place, &mut lent_log);
            let answers = (face::kept(place, answer), expected);
            self.same(("walk_log", "answer"), answers, inputs)?;
            if let Err(refusal) = answer {
                self.refused("walk_log", refusal, inputs)?;
            }
            let states = (state_in_rust, face::state(&state));
            self.same(("walk_log", "state"), states, inputs)?;
            self.same_log("walk_log", (&log_in_rust, log), inputs)?;
        }
        let seen = KeepSeen::new(
            (&s, l),
            (octets, marks, place),
            (&state_before, &state),
            (log_before.octets(), log.octets()),
            expected,
        );
        // one whose length is refused is no list
        let by_list = (seen.appended(), seen.log.whole());
        self.same(("walk_log", "log is a plain list's"), by_list, inputs)?;
        let many = (seen.kept.len(), expected.appended);
        self.same(("walk_log", "records appended"), many, inputs)?;
        self.coverage.keep(&seen);
        self.coverage.c(&CSeen {
            settings,
            client: None,
            port: 0,
            before: &before,
            after: numbers,
            call: CCall::Keep(seen),
        });
        Ok(expected)
    }

    /// Walks that go on, each with a log of about this capacity, from where the one before was full.
    /// Together they keep what one walk keeps in one large log.
    pub(crate) fn going_on(
        &mut self,
        prng: &mut Prng,
        on: (&raw::Settings, &Listener),
        numbers: &raw::State,
        lent: &Lent,
        (place, capacity): (usize, usize),
    ) -> Result<(), Difference> {
        let (mut state, mut at) = (*numbers, place);
        let mut records: Vec<Slot> = Vec::new();
        let mut seen = GoingOnSeen {
            appended: Vec::new(),
            end: LogEnd::Full,
            holes: false,
            one_log: false,
        };
        while seen.end == LogEnd::Full {
            let before = generate::log_with_room(prng, capacity);
            let mut log = LentLog::new(prng, &before);
            let logged = self.walk_log(on.0, on.1, &mut state, lent, at, &mut log)?;
            self.took_a_start(&logged, at)?;
            let before = LogOf::new(&before);
            records.extend(appended(before, LogOf::new(log.octets())));
            seen.appended.push(logged.appended);
            seen.holes |= before.has_hole();
            (seen.end, at) = (logged.end, logged.next);
        }
        self.keep_what_one_keeps(
            prng,
            on,
            (numbers, &state),
            lent,
            (place, at),
            records,
            seen,
        )
    }

    /// The same with one log, of which records are deleted where it is full: those that were deleted
    /// and those that remain are what one walk keeps.
    pub(crate) fn going_on_in_one(
        &mut self,
        prng: &mut Prng,
        on: (&raw::Settings, &Listener),
        numbers: &raw::State,
        lent: &Lent,
        (place, capacity): (usize, usize),
    ) -> Result<(), Difference> {
        let (mut state, mut at) = (*numbers, place);
        let mut log = LentLog::new(prng, &vec![0; raw::RECORD * capacity.max(1)]);
        let mut records: Vec<Slot> = Vec::new();
        let mut seen = GoingOnSeen {
            appended: Vec::new(),
            end: LogEnd::Full,
            holes: false,
            one_log: true,
        };
        while seen.end == LogEnd::Full {
            let logged = self.walk_log(on.0, on.1, &mut state, lent, at, &mut log)?;
            self.took_a_start(&logged, at)?;
            seen.appended.push(logged.appended);
            (seen.end, at) = (logged.end, logged.next);
            // of a full log some records are deleted, and in the end all are taken
            let full = log.clone();
            if seen.end == LogEnd::Full {
                self.delete_some(prng, &mut log)?;
            } else {
                log = LentLog::new(prng, &[]);
            }
            let left = LogOf::new(log.octets());
            let taken = slots(full.octets()).enumerate();
            let taken = taken.filter(|(k, slot)| is_used(slot) && !left.used(*k));
            records.extend(taken.map(|(_, slot)| slot));
            seen.holes |= left.has_hole();
            if prng.one_in(4) {
                self.compact(&mut log)?;
            }
        }
        // they were not deleted in the order of their Starts
        records.sort_by_key(place_of);
        self.keep_what_one_keeps(
            prng,
            on,
            (numbers, &state),
            lent,
            (place, at),
            records,
            seen,
        )
    }

    /// Deletes a record of a full log, or all of its outcome, so that there is room.
    fn delete_some(&mut self, prng: &mut Prng, log: &mut LentLog) -> Result<(), Difference> {
        let number = prng.below(log.octets().len() / raw::RECORD);
        if prng.coin() {
            return self.delete(log, number);
        }
        let outcome = log.octets()[raw::RECORD * number + raw::RECORD_OUTCOME];
        self.delete_outcome(log, outcome)
    }

    /// A walk that found its log full, which had room, took a Start; or going on would not end.
    fn took_a_start(&self, logged: &Logged, at: usize) -> Result<(), Difference> {
        let on = (logged.end != LogEnd::Full || logged.next > at, true);
        let inputs = || format!("from {at}: {logged:?}");
        self.same(("walk_log, going on", "goes on"), on, inputs)
    }

    /// Walks that went on kept, in their order, the records that one walk keeps, and left the state
    /// that it leaves.
    #[allow(clippy::too_many_arguments)] // All that the walks were given and gave.
    fn keep_what_one_keeps(
        &mut self,
        prng: &mut Prng,
        (settings, l): (&raw::Settings, &Listener),
        (before, after): (&raw::State, &raw::State),
        lent: &Lent,
        (place, at): (usize, usize),
        records: Vec<Slot>,
        seen: GoingOnSeen,
    ) -> Result<(), Difference> {
        let (call, whole) = ("walk_log, going on", self.whole);
        let inputs = || {
            let (s, state) = (records::settings(settings), records::state(before));
            let meant = heard(&s, l, &state, lent, place, whole);
            format!("to logs {:?} were appended\n{meant}", seen.appended)
        };
        let many: usize = seen.appended.iter().sum();
        let mut large = LentLog::new(prng, &vec![0; raw::RECORD * (many + 1)]);
        let mut at_once = *before;
        let logged = self.walk_log(settings, l, &mut at_once, lent, place, &mut large)?;
        let answers = (
            (seen.end, at, many),
            (logged.end, logged.next, logged.appended),
        );
        self.same((call, "answers"), answers, inputs)?;
        self.same((call, "state"), (*after, at_once), inputs)?;
        let expected = &large.octets()[..raw::RECORD * logged.appended];
        let records = records.concat();
        let other = first_other(&records, expected, 0);
        self.same((call, "records, first other"), (other, None), inputs)?;
        let lengths = (records.len(), expected.len());
        self.same((call, "octets of records"), lengths, inputs)?;
        self.coverage.going_on(&seen);
        Ok(())
    }
}

/// What stands in a record after a call that hands one out: a refusal leaves it.
fn written(expected: &Result<Record, u8>) -> raw::Record {
    match expected {
        Ok(record) => records::record_written(record),
        Err(_) => raw::LEFT_RECORD,
    }
}

/// A face's answer, with the number of its refusal.
pub(crate) fn by_number<T>(answer: Result<T, Refusal>) -> Result<T, u8> {
    answer.map_err(Refusal::number)
}
