//! Rows of frames on both ports, call after call on one state, and read back: what item 5 and
//! demand 3 say of all of them together.
use crate::compare::{Bench, Difference, Lent};
use crate::generate::{self, Sending, Symbols, IDLE};
use crate::prng::Prng;
use crate::seen::RowSeen;
use crate::{face, show};
use fenhamper::{Capture, Outcome};
use reference::{Form, Port, Settings};

/// The data that a client frame brings to the other end.
fn handed_out(call: &Sending) -> Option<Vec<u8>> {
    let Sending::Client(client, data) = call else {
        return None;
    };
    let mut data = data.clone();
    if client.form != Form::Length {
        data.resize(data.len().max(46), 0);
    }
    Some(data)
}

impl Bench {
    /// Sends frames one behind the other until one has no room, each on one of the ports, with Idles
    /// up to the next place that the four-lane port accepts. After each, that port's gaps together
    /// are 12 for each less the count, which is at most 3; at the end all frames are read back.
    pub(crate) fn row(&mut self, prng: &mut Prng, s: &Settings) -> Result<(), Difference> {
        let mut state = generate::state(prng);
        (state.timers, state.deficit) = ([0; 8], 0);
        let n = prng.between(200, 1_600);
        let symbols = Symbols {
            octets: vec![IDLE; n],
            marks: vec![1; n],
        };
        let mut lent = Lent::new(&symbols, IDLE, 1);
        let one_in_plain = prng.pick(&[2, 5, 1_000]);
        let (mut place, mut sent) = (0, Vec::new());
        let mut seen = RowSeen {
            plain: 0,
            gaps: 0,
            symbols: 0,
            count: 0,
            read: 0,
        };
        loop {
            let port = if prng.one_in(one_in_plain) {
                Port::Plain
            } else {
                Port::FourLane
            };
            if port == Port::FourLane && place % 4 != 0 {
                let call = Sending::Idle(4 - place % 4);
                let on = (&mut state, port);
                let Some(after) = self.send(s, on, &mut lent, place, &call)? else {
                    break;
                };
                place = after;
            }
            let call = generate::short_frame(prng, s);
            let on = (&mut state, port);
            let Some(after) = self.send(s, on, &mut lent, place, &call)? else {
                break;
            };
            match port {
                Port::Plain => seen.plain += 1,
                Port::FourLane => {
                    seen.gaps += 1;
                    seen.symbols += after - place - call.before_gap();
                }
            }
            seen.count = state.deficit;
            let count = usize::from(seen.count);
            let holds = count <= 3 && seen.symbols + count == 12 * seen.gaps;
            let inputs = || format!("{} gaps, {} symbols, {call:?}", seen.gaps, seen.symbols);
            self.same(("row", "gaps' symbols and count"), (holds, true), inputs)?;
            sent.extend(handed_out(&call));
            place = after;
        }

        let capture = Capture::new(lent.octets(), lent.marks());
        let mut library_state = face::state(&state);
        // "a job of 0 or 1 and a table that gives no 20"
        let l = generate::sound_listener(prng, s);
        let table = face::table(&l);
        let listener = face::listener(s, &l, &table);
        let readings = capture.readings(listener, &mut library_state);
        let handed = readings.filter_map(|item| {
            let counted = item.ok()?;
            let data = counted.data.to_vec();
            (counted.outcome == Outcome::HandedOut).then_some(data)
        });
        let handed: Vec<_> = handed.collect();
        seen.read = handed.len();
        let symbols = || show::symbols(lent.octets(), lent.marks(), self.whole);
        self.same(("row", "data read back"), (handed, sent), symbols)?;
        let counts = (library_state.deficit(), u64::from(seen.count));
        self.same(("row", "count after reading"), counts, symbols)?;
        self.coverage.row(&seen);
        self.walk(s, &l, &mut state, &lent)
    }
}
