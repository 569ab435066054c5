//! Calls over the totals of a capture, through both faces, compared with the reference's and with
//! counts from nothing that are made here.
use crate::compare::{first_other, inputs, Bench, Difference, Lent, AROUND};
use crate::compare_c::after;
use crate::compare_log::{by_number, refusal};
use crate::generate::Sending;
use crate::prng::Prng;
use crate::seen::{CCall, CSeen, SendingSeen};
use crate::seen_totals::{blocks, starts_in, truth, Asked, TotalsCall, TotalsSeen, BLOCK};
use crate::{face, raw, records, show};
use fenhamper::{Capture, Line, Refusal};
use reference::{Check, Port, Sent, Settings, State};
use std::ops::Range;

/// Totals to lend. They stand in the middle of others, which would be refused or change a sum, so
/// that a look or a step past the end shows; anywhere in memory that a total may be.
#[derive(Clone, PartialEq, Eq)]
pub(crate) struct LentTotals {
    totals: Vec<u16>,
    front: usize,
    length: usize,
}

impl LentTotals {
    pub(crate) fn new(prng: &mut Prng, totals: &[u16]) -> LentTotals {
        let front = AROUND + prng.below(AROUND);
        let other = prng.pick(&[0, 1, 256, 257, u16::MAX]);
        LentTotals {
            totals: [&vec![other; front][..], totals, &[other; AROUND]].concat(),
            front,
            length: totals.len(),
        }
    }

    pub(crate) fn totals(&self) -> &[u16] {
        &self.totals[self.front..][..self.length]
    }

    fn lent(&mut self) -> &mut [u16] {
        &mut self.totals[self.front..][..self.length]
    }
}

/// Symbols and their totals, and how many calls were made on them.
#[derive(Clone)]
pub(crate) struct Counted {
    pub(crate) lent: Lent,
    pub(crate) totals: LentTotals,
    pub(crate) calls: usize,
}

impl Counted {
    pub(crate) fn new(lent: Lent, totals: LentTotals) -> Counted {
        Counted {
            lent,
            totals,
            calls: 0,
        }
    }

    pub(crate) fn symbols(&self) -> (&[u8], &[u8]) {
        (self.lent.octets(), self.lent.marks())
    }

    pub(crate) fn all(&mut self) -> (&mut [u8], &mut [u8], &mut [u16]) {
        let (octets, marks) = self.lent.both();
        (octets, marks, self.totals.lent())
    }

    /// Another hand writes these symbols, and no total follows.
    pub(crate) fn scribble(&mut self, at: usize, (octet, mark): (u8, u8)) {
        let (octets, marks) = self.lent.both();
        (octets[at], marks[at]) = (octet, mark);
    }

    /// What is true of these symbols.
    fn truth(&self) -> Vec<u16> {
        truth(self.lent.octets(), self.lent.marks())
    }

    /// The totals as item 9 has them after these places were written: of each block of them a new
    /// count, else those of before.
    fn totals_after(&self, truth: &[u16], written: &Range<usize>) -> Vec<u16> {
        let mut totals = self.totals.totals().to_vec();
        let blocks = blocks(written);
        totals[blocks.clone()].copy_from_slice(&truth[blocks]);
        totals
    }

    fn show(&self, whole: bool) -> String {
        let symbols = show::symbols(self.lent.octets(), self.lent.marks(), whole);
        let totals = show::totals(self.totals.totals(), whole);
        format!("symbols: {symbols}\n{totals}")
    }
}

impl Bench {
    /// Compares totals, each with what stands around them.
    fn same_totals(
        &self,
        call: &str,
        (library, reference): (&LentTotals, &LentTotals),
        inputs: impl Fn() -> String,
    ) -> Result<(), Difference> {
        if library == reference {
            return Ok(());
        }
        let other = first_other(&library.totals, &reference.totals, library.front);
        self.same((call, "totals, first other"), (other, None), inputs)
    }

    /// Compares every total with that of a count from nothing.
    fn same_count(
        &self,
        call: &str,
        (library, counted): (&LentTotals, &[u16]),
        inputs: impl Fn() -> String,
    ) -> Result<(), Difference> {
        let other = first_other(library.totals(), counted, 0);
        let thing = "totals, first other than a count from nothing";
        self.same((call, thing), (other, None), inputs)
    }

    /// Fills all totals; they go on to those after it.
    pub(crate) fn fill_totals(&mut self, counted: &mut Counted) -> Result<(), Difference> {
        self.calls += 1;
        let before = counted.clone();
        let (octets, marks) = before.symbols();
        let expected = reference::fill_totals(octets, marks, counted.totals.lent());
        let inputs = || before.show(self.whole);

        let mut in_c = before.totals.clone();
        let answer = raw::fill_totals((octets, marks), in_c.lent());
        let answers = (answer, refusal(&expected).into());
        self.same(("fill_totals in C", "refusal"), answers, inputs)?;
        self.same_totals("fill_totals in C", (&in_c, &counted.totals), inputs)?;

        let mut in_rust = before.totals.clone();
        let answer = Capture::new(octets, marks).fill_totals(in_rust.lent());
        let answers = (by_number(answer), expected);
        self.same(("fill_totals", "refusal"), answers, inputs)?;
        self.same_totals("fill_totals", (&in_rust, &counted.totals), inputs)?;
        if let Err(refusal) = answer {
            self.refused("fill_totals", refusal, inputs)?;
        }

        let mut line = before.clone();
        let (octets, marks, totals) = line.all();
        let answer = Line::new(octets, marks, totals).map(|_| ());
        let answers = (by_number(answer), expected);
        self.same(("Line::new", "refusal"), answers, inputs)?;
        self.same_totals("Line::new", (&line.totals, &counted.totals), inputs)?;
        self.same_lent("Line::new", (&line.lent, &counted.lent), inputs)?;

        let truth = before.truth();
        let written = match expected {
            Ok(()) => 0..before.lent.octets().len(),
            Err(_) => 0..0,
        };
        let from_nothing = before.totals_after(&truth, &written);
        self.same_count("fill_totals", (&in_c, &from_nothing), inputs)?;
        self.coverage.totals(&TotalsSeen {
            call: TotalsCall::Fill,
            octets: counted.lent.octets(),
            marks: counted.lent.marks(),
            before: before.totals.totals(),
            after: counted.totals.totals(),
            were: &truth,
            are: &truth,
            refusal: refusal(&expected),
            blocks: blocks(&written),
            earlier: before.calls,
        });
        counted.calls += 1;
        Ok(())
    }

    /// Asks how many Starts lie before a place.
    pub(crate) fn starts_before(
        &mut self,
        counted: &Counted,
        place: usize,
    ) -> Result<(), Difference> {
        self.calls += 1;
        let (octets, marks) = counted.symbols();
        let totals = counted.totals.totals();
        let expected = reference::starts_before(octets, marks, totals, place);
        let inputs = || format!("place {place}\n{}", counted.show(self.whole));

        let answer = raw::starts_before((octets, marks), totals, place);
        let left = expected.unwrap_or(raw::LEFT_NUMBER);
        let answers = (answer, (refusal(&expected).into(), left));
        self.same(("starts_before in C", "answer"), answers, inputs)?;
        let answer = Capture::new(octets, marks).starts_before(totals, place);
        let answers = (by_number(answer), expected);
        self.same(("starts_before", "answer"), answers, inputs)?;
        if let Err(refusal) = answer {
            self.refused("starts_before", refusal, inputs)?;
        }

        let truth = counted.truth();
        let (mut by_totals, mut from_nothing) = (0, 0);
        if expected.is_ok() {
            let whole = place / BLOCK;
            let sum: usize = totals[..whole]
                .iter()
                .map(|&total| usize::from(total))
                .sum();
            by_totals = sum + starts_in(octets, marks, BLOCK * whole..place);
            from_nothing = starts_in(octets, marks, 0..place);
        }
        if let Ok(starts) = answer {
            let sides = (starts, by_totals);
            self.same(("starts_before", "starts, by the totals"), sides, inputs)?;
            if totals == truth {
                let sides = (starts, from_nothing);
                self.same(("starts_before", "starts, from nothing"), sides, inputs)?;
            }
        }
        self.coverage.totals(&TotalsSeen {
            call: TotalsCall::Ask(Asked {
                place,
                starts: expected.ok(),
                by_totals,
                counted: from_nothing,
            }),
            octets,
            marks,
            before: totals,
            after: totals,
            were: &truth,
            are: &truth,
            refusal: refusal(&expected),
            blocks: 0..0,
            earlier: counted.calls,
        });
        Ok(())
    }

    /// A sending that keeps the totals, through both faces, a client frame's record beside what it
    /// means; state, symbols and totals go on to those after it. At the end it is asked how many
    /// Starts lie before another place. The answer is the place after it, if it was not refused.
    pub(crate) fn send_counted(
        &mut self,
        settings: &raw::Settings,
        (numbers, port): (&mut raw::State, u8),
        counted: &mut Counted,
        place: usize,
        (sending, client): (&Sending, Option<&raw::Client>),
        asked: usize,
    ) -> Result<Option<usize>, Difference> {
        self.calls += 1;
        let (s, numbers_before) = (records::settings(settings), *numbers);
        let state_before = records::state(&numbers_before);
        let mut state = state_before;
        let port_meant = records::port(port);
        let before = counted.clone();
        let on = (&mut state, port_meant);
        let expected = by_reference(self.check, &s, on, counted, place, sending);
        counted.calls += 1;
        let (refused, place_after) = match expected {
            Sent::Wrote(after) => (0, after),
            Sent::Refused(number) => (number, place),
        };
        let inputs = || {
            let sending = show::sending(sending, self.whole);
            let meant = inputs(&s, &state_before, &before.lent, place, self.whole);
            let totals = show::totals(before.totals.totals(), self.whole);
            let record =
                format!("{settings:?}\nstate {numbers_before:X?}\nport {port}\n{client:?}");
            format!("{record}\nmeant: {sending}\n{meant}\n{totals}")
        };

        let call = &format!("counted {} in C", sending.name());
        let mut in_c = before.clone();
        let answer = in_c_face(
            settings,
            (numbers, port),
            &mut in_c,
            place,
            (sending, client),
        );
        let answers = (answer, records::sent(expected, place));
        self.same((call, "answer"), answers, inputs)?;
        let states = (*numbers, after(refused > 0, &numbers_before, &state));
        self.same((call, "state"), states, inputs)?;
        self.same_lent(call, (&in_c.lent, &counted.lent), inputs)?;
        self.same_totals(call, (&in_c.totals, &counted.totals), inputs)?;

        let call = &format!("counted {}", sending.name());
        let mut in_rust = before.clone();
        let mut state_in_rust = face::state(&state_before);
        let (octets, marks, totals) = in_rust.all();
        let line = Line::with_totals(octets, marks, totals);
        let mut line = line.at(place).on(face::port(port_meant));
        let answer = in_rust_face(&s, &mut state_in_rust, &mut line, sending);
        let (place_in_rust, starts) = (line.place(), line.starts_before(asked));
        self.same((call, "answer"), (face::sent(answer), expected), inputs)?;
        if let Err(refusal) = answer {
            self.refused(call, refusal, inputs)?;
        }
        self.same((call, "place"), (place_in_rust, place_after), inputs)?;
        let states = (state_in_rust, face::state(&state));
        self.same((call, "state"), states, inputs)?;
        self.same_lent(call, (&in_rust.lent, &counted.lent), inputs)?;
        self.same_totals(call, (&in_rust.totals, &counted.totals), inputs)?;
        let (octets, marks) = counted.symbols();
        let totals = counted.totals.totals();
        let starts_expected = reference::starts_before(octets, marks, totals, asked);
        let sides = (by_number(starts), starts_expected);
        self.same((call, "Starts before another place"), sides, inputs)?;

        let written = match refused {
            0 => place..place_after,
            _ => 0..0,
        };
        let (were, are) = (before.truth(), counted.truth());
        let from_nothing = before.totals_after(&are, &written);
        self.same_count(call, (&in_c.totals, &from_nothing), inputs)?;
        let seen = SendingSeen {
            call: sending,
            port: port_meant,
            s: &s,
            lengths: (octets.len(), marks.len()),
            place,
            before: &state_before,
            after: &state,
            octets,
            sent: expected,
        };
        self.coverage.c(&CSeen {
            settings,
            client,
            port,
            before: &numbers_before,
            after: numbers,
            call: CCall::Count(seen),
        });
        self.coverage.totals(&TotalsSeen {
            call: TotalsCall::Send(seen),
            octets,
            marks,
            before: before.totals.totals(),
            after: totals,
            were: &were,
            are: &are,
            refusal: refused,
            blocks: blocks(&written),
            earlier: before.calls,
        });
        Ok((refused == 0).then_some(place_after))
    }
}

/// A sending that keeps the totals, by the reference.
fn by_reference(
    check: Check,
    s: &Settings,
    (state, port): (&mut State, Port),
    counted: &mut Counted,
    place: usize,
    sending: &Sending,
) -> Sent {
    let (octets, marks, totals) = counted.all();
    match sending {
        Sending::Client(client, data) => reference::send_client_counting(
            check, s, state, port, octets, marks, totals, place, client, data,
        ),
        Sending::Pause(quanta) => reference::send_pause_counting(
            check, s, state, port, octets, marks, totals, place, *quanta,
        ),
        Sending::Pfc(named, quanta) => reference::send_pfc_counting(
            check, s, state, port, octets, marks, totals, place, *named, quanta,
        ),
        Sending::Idle(n) => reference::fill_idle_counting(state, octets, marks, totals, place, *n),
    }
}

/// The same through the C face.
pub(crate) fn in_c_face(
    settings: &raw::Settings,
    (numbers, port): (&mut raw::State, u8),
    counted: &mut Counted,
    place: usize,
    (sending, client): (&Sending, Option<&raw::Client>),
) -> [u64; raw::SENT] {
    let line = counted.all();
    match (sending, client) {
        (Sending::Client(_, data), Some(client)) => {
            raw::send_client_counted(settings, numbers, port, line, place, client, data)
        }
        (Sending::Client(..), None) => panic!("a client frame has a record"),
        (Sending::Pause(quanta), _) => {
            raw::send_pause_counted(settings, numbers, port, line, place, *quanta)
        }
        (Sending::Pfc(named, quanta), _) => {
            raw::send_pfc_counted(settings, numbers, port, line, place, *named, quanta)
        }
        (Sending::Idle(n), _) => raw::fill_idle_counted(numbers, line, place, *n),
    }
}

/// The same through the Rust face.
pub(crate) fn in_rust_face(
    s: &Settings,
    state: &mut fenhamper::State,
    line: &mut Line,
    sending: &Sending,
) -> Result<usize, Refusal> {
    let s = face::settings(s);
    match sending {
        Sending::Client(client, data) => line.client(&s, state, &face::frame(client), data),
        Sending::Pause(quanta) => line.pause(&s, state, *quanta),
        Sending::Pfc(named, quanta) => line.pfc(&s, state, *named, *quanta),
        Sending::Idle(n) => line.idle(state, *n),
    }
}
