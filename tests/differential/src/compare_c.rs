//! Calls through the C face, with any records, compared with the reference's on what they mean.
use crate::compare::{by_reference, by_reference_read, heard, inputs, Bench, Difference, Lent};
use crate::generate::{Listener, Sending, BEYOND_32_BITS, SYMBOLS};
use crate::prng::Prng;
use crate::seen::{By, CCall, CSeen, ReadingSeen, SendingSeen, WalkSeen};
use crate::seen_jobs::TableOf;
use crate::{raw, records, show};
use reference::{Answer, Sent, State, Walked};

/// A state's numbers after a call: a refused one leaves them as they were, to the bit.
pub(crate) fn after(refused: bool, before: &raw::State, state: &State) -> raw::State {
    if refused {
        *before
    } else {
        records::state_written(before, state)
    }
}

/// A sending through the C face, a client frame's record beside what it means.
pub(crate) fn by_c(
    settings: &raw::Settings,
    (numbers, port): (&mut raw::State, u8),
    lent: &mut Lent,
    place: usize,
    (sending, client): (&Sending, Option<&raw::Client>),
) -> [u64; raw::SENT] {
    let line = lent.both();
    match (sending, client) {
        (Sending::Client(_, data), Some(client)) => {
            raw::send_client(settings, numbers, port, line, place, client, data)
        }
        (Sending::Client(..), None) => panic!("a client frame has a record"),
        (Sending::Pause(quanta), _) => {
            raw::send_pause(settings, numbers, port, line, place, *quanta)
        }
        (Sending::Pfc(named, quanta), _) => {
            raw::send_pfc(settings, numbers, port, line, place, *named, quanta)
        }
        (Sending::Idle(n), _) => raw::fill_idle(numbers, line, place, *n),
    }
}

impl Bench {
    /// One reading through the C face; the state goes on to that after it.
    pub(crate) fn c_read(
        &mut self,
        settings: &raw::Settings,
        l: &Listener,
        numbers: &mut raw::State,
        lent: &Lent,
        place: usize,
    ) -> Result<(), Difference> {
        self.calls += 1;
        let (s, before) = (records::settings(settings), *numbers);
        let state_before = records::state(&before);
        let mut state = state_before;
        let (octets, marks) = (lent.octets(), lent.marks());
        let expected = by_reference_read(self.check, (&s, l), &mut state, lent, place);
        let answer = raw::read(settings, l.raw(), numbers, (octets, marks), place);

        let inputs = || {
            let meant = heard(&s, l, &state_before, lent, place, self.whole);
            format!("{settings:?}\nstate {before:X?}\nmeant: {meant}")
        };
        let readings = (answer, records::reading(expected));
        self.same(("read in C", "reading"), readings, inputs)?;
        let refused = matches!(expected.answer, Answer::Refused(_));
        let states = (*numbers, after(refused, &before, &state));
        self.same(("read in C", "state"), states, inputs)?;
        let screens = (raw::screen(numbers), reference::screen(&state));
        self.same(("read in C", "screen"), screens, inputs)?;
        if expected.answer != Answer::Refused(20) {
            // "a job's readings depend on .. own entries"
            let mut other_numbers = before;
            let by_itself = l.by_itself();
            let symbols = (octets, marks);
            let other = raw::read(
                settings,
                by_itself.raw(),
                &mut other_numbers,
                symbols,
                place,
            );
            let thing = "reading and state, and those without the other job's entries";
            let sides = ((answer, *numbers), (other, other_numbers));
            self.same(("read in C", thing), sides, inputs)?;
        }
        let (symbols, states) = ((octets, marks, place), (&state_before, &state));
        let seen = ReadingSeen::new(By::Read, (&s, l), symbols, states, expected);
        self.coverage.c(&CSeen {
            settings,
            client: None,
            port: 0,
            before: &before,
            after: numbers,
            call: CCall::Read(seen),
        });
        Ok(())
    }

    /// A walk through the C face; the state goes on to that after it.
    pub(crate) fn c_walk(
        &mut self,
        settings: &raw::Settings,
        l: &Listener,
        numbers: &mut raw::State,
        lent: &Lent,
    ) -> Result<(), Difference> {
        self.calls += 1;
        let (s, before) = (records::settings(settings), *numbers);
        let state_before = records::state(&before);
        let mut state = state_before;
        let (octets, marks) = (lent.octets(), lent.marks());
        let (job, table) = (l.job, &l.table);
        let expected = reference::walk(self.check, &s, &mut state, job, table, octets, marks);
        let answer = raw::walk(settings, l.raw(), numbers, (octets, marks));

        let inputs = || {
            let meant = heard(&s, l, &state_before, lent, 0, self.whole);
            format!("{settings:?}\nstate {before:X?}\nmeant: {meant}")
        };
        let walks = (answer, records::walked(expected));
        self.same(("walk in C", "walk"), walks, inputs)?;
        let refused = matches!(expected, Walked::Refused(_));
        let states = (*numbers, after(refused, &before, &state));
        self.same(("walk in C", "state"), states, inputs)?;
        let seen = WalkSeen {
            s: &s,
            job: l.job,
            table: TableOf(&l.octets),
            lengths: (octets.len(), marks.len()),
            before: &state_before,
            after: &state,
            walked: expected,
        };
        self.coverage.c(&CSeen {
            settings,
            client: None,
            port: 0,
            before: &before,
            after: numbers,
            call: CCall::Walk(seen),
        });
        Ok(())
    }

    /// A sending through the C face, a client frame's record beside what it means; state and
    /// symbols go on to those after it.
    pub(crate) fn c_send(
        &mut self,
        settings: &raw::Settings,
        (numbers, port): (&mut raw::State, u8),
        lent: &mut Lent,
        place: usize,
        (sending, client): (&Sending, Option<&raw::Client>),
    ) -> Result<(), Difference> {
        self.calls += 1;
        let (s, before) = (records::settings(settings), *numbers);
        let state_before = records::state(&before);
        let mut state = state_before;
        let lent_before = lent.clone();
        let mut library_lent = lent.clone();
        let port_meant = records::port(port);
        let on = (&mut state, port_meant);
        let expected = by_reference(self.check, &s, on, lent, place, sending);
        let on = (&mut *numbers, port);
        let answer = by_c(settings, on, &mut library_lent, place, (sending, client));

        let call = &format!("{} in C", sending.name());
        let inputs = || {
            let sending = show::sending(sending, self.whole);
            let meant = inputs(&s, &state_before, &lent_before, place, self.whole);
            let record = format!("{settings:?}\nstate {before:X?}\nport {port}\n{client:?}");
            format!("{record}\nmeant: {sending}\n{meant}")
        };
        let answers = (answer, records::sent(expected, place));
        self.same((call, "answer"), answers, inputs)?;
        let refused = matches!(expected, Sent::Refused(_));
        let states = (*numbers, after(refused, &before, &state));
        self.same((call, "state"), states, inputs)?;
        self.same_lent(call, (&library_lent, lent), inputs)?;
        let seen = SendingSeen {
            call: sending,
            port: port_meant,
            s: &s,
            lengths: (lent.octets().len(), lent.marks().len()),
            place,
            before: &state_before,
            after: &state,
            octets: lent.octets(),
            sent: expected,
        };
        self.coverage.c(&CSeen {
            settings,
            client,
            port,
            before: &before,
            after: numbers,
            call: CCall::Send(seen),
        });
        Ok(())
    }

    /// The client data that a part stands for: "the part itself if it lies inside", else 0 and 0.
    pub(crate) fn c_part(&mut self, prng: &mut Prng) -> Result<(), Difference> {
        self.calls += 1;
        let length = prng.below(SYMBOLS + 1);
        let mut number = || {
            let any = prng.below(length + 2);
            prng.pick(&[0, 1, length, any, length + 1, BEYOND_32_BITS, usize::MAX])
        };
        let (place, octets) = (number(), number());
        let inside = place.checked_add(octets).is_some_and(|end| end <= length);
        let expected = if inside {
            [place as u64, octets as u64]
        } else {
            [0; 2]
        };
        let sides = (raw::client_data(length, place, octets), expected);
        self.same(("client_data in C", "part"), sides, || {
            format!("of {length} octets, from {place}, {octets} octets")
        })
    }
}
