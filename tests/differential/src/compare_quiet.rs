//! Sequences of all calls that take a state, on one state with fixed settings, each call made through
//! both faces, beside a count for each class that is kept here: item 14 of document 02.
use crate::compare::{by_library, Bench, Difference, Lent};
use crate::compare_c::by_c;
use crate::compare_totals::{in_c_face, in_rust_face, Counted, LentTotals};
use crate::generate::{self, Listener, Sending, Symbols, IDLE, SYMBOLS};
use crate::prng::Prng;
use crate::raw::plain as layout;
use crate::seen_quiet::{QuietCall, QuietSeen};
use crate::seen_totals::truth;
use crate::watch::{Ear, Watch};
use crate::{face, raw, records, show};
use fenhamper::{Capture, End, Line, Log, LogView, Plain, Reading, Refusal, Sender, Symbol};
use reference::{Flow, Port, Quiet, Settings};

/// A call that reads.
#[derive(Debug)]
struct Hearing {
    by: Ear,
    place: usize,
    records: usize,
}

/// What it gave: the refusal, or 0, the outcome of each Start counted and its place, and whether it
/// stopped at a full log.
#[derive(Debug, Default, PartialEq)]
struct Heard {
    refusal: u64,
    starts: Vec<(u8, usize)>,
    counted: usize,
    full: bool,
}

impl Heard {
    fn refused(refusal: u64) -> Heard {
        Heard {
            refusal,
            ..Heard::default()
        }
    }

    fn of(starts: Vec<(u8, usize)>) -> Heard {
        Heard {
            counted: starts.len(),
            starts,
            ..Heard::default()
        }
    }
}

/// A call that writes, a client frame's record beside it.
struct Writing {
    sending: Sending,
    client: Option<raw::Client>,
    port: Port,
    port_octet: u8,
    place: usize,
    counted: bool,
}

/// The Rust face, with the state and a line of its own.
struct InRust {
    s: Settings,
    state: fenhamper::State,
    line: Counted,
}

impl InRust {
    fn hear(&mut self, h: &Hearing, l: &Listener, (octets, marks): raw::Capture) -> Heard {
        let table = face::table(l);
        let listener = face::listener(&self.s, l, &table);
        let capture = Capture::new(octets, marks);
        let heard = match h.by {
            Ear::Read => capture
                .read(listener, &mut self.state, h.place)
                .map(|reading| match reading {
                    Reading::Counted(c) => Heard::of(vec![(c.outcome.number(), c.start)]),
                    _ => Heard::default(),
                }),
            Ear::Walk => {
                let mut apart = self.state.clone();
                let readings = capture.readings(listener, &mut apart).flatten();
                let starts = readings.map(|c| (c.outcome.number(), c.start)).collect();
                let walk = capture.walk(listener, &mut self.state);
                walk.map(|walk| Heard {
                    counted: walk.starts,
                    ..Heard::of(starts)
                })
            }
            Ear::WalkLog => {
                let mut octets = vec![0; raw::RECORD * h.records];
                let mut log = Log::new(&mut octets).expect("whole records");
                let kept = capture.walk_log(listener, &mut self.state, h.place, &mut log);
                let records = log.records().map(|r| (r.outcome_number, r.place as usize));
                let starts = records.collect();
                kept.map(|kept| Heard {
                    counted: kept.records,
                    full: kept.end == End::Full,
                    ..Heard::of(starts)
                })
            }
            Ear::Plain => self.take(listener, octets, marks),
        };
        heard.unwrap_or_else(|refusal| Heard::refused(refusal.number().into()))
    }

    /// Symbol after symbol, up to one that is refused.
    fn take(
        &mut self,
        listener: fenhamper::Listener<'_>,
        octets: &[u8],
        marks: &[u8],
    ) -> Result<Heard, Refusal> {
        let mut plain = Plain::new(listener).with_state(self.state.clone());
        let mut starts = Vec::new();
        for (&octet, &mark) in octets.iter().zip(marks) {
            if let Some(told) = plain.push(Symbol { octet, mark })? {
                starts.push((told.outcome.number(), told.start));
            }
        }
        self.state = plain.state;
        Ok(Heard::of(starts))
    }

    fn write(&mut self, w: &Writing) -> (u64, usize) {
        let port = face::port(w.port);
        let answer = if w.counted {
            let (octets, marks, totals) = self.line.all();
            let filled = Capture::new(octets, marks).fill_totals(totals);
            filled.expect("a line's own totals");
            let mut line = Line::with_totals(octets, marks, totals)
                .at(w.place)
                .on(port);
            in_rust_face(&self.s, &mut self.state, &mut line, &w.sending)
        } else {
            let (octets, marks) = self.line.lent.both();
            let mut sender = Sender::new(octets, marks).at(w.place).on(port);
            by_library(&self.s, &mut self.state, &mut sender, &w.sending)
        };
        match answer {
            Ok(after) => (0, after),
            Err(refusal) => (refusal.number().into(), w.place),
        }
    }
}

/// The C face, likewise.
struct InC {
    settings: raw::Settings,
    state: raw::State,
    line: Counted,
}

impl InC {
    fn hear(&mut self, h: &Hearing, l: &Listener, symbols: raw::Capture) -> Heard {
        let (settings, who) = (&self.settings, l.raw());
        match h.by {
            Ear::Read => {
                let reading = raw::read(settings, who, &mut self.state, symbols, h.place);
                match counted(&reading) {
                    Some(start) => Heard::of(vec![start]),
                    None => Heard::refused(reading[raw::READING_REFUSAL]),
                }
            }
            Ear::Walk => {
                let (mut apart, mut place, mut starts) = (self.state, 0, Vec::new());
                loop {
                    let reading = raw::read(settings, who, &mut apart, symbols, place);
                    let Some(start) = counted(&reading) else {
                        break;
                    };
                    starts.push(start);
                    place = reading[raw::READING_NEXT] as usize;
                }
                let walked = raw::walk(settings, who, &mut self.state, symbols);
                Heard {
                    refusal: walked[raw::WALKED_REFUSAL],
                    counted: walked[raw::WALKED_STARTS] as usize,
                    ..Heard::of(starts)
                }
            }
            Ear::WalkLog => {
                let mut log = vec![0; raw::RECORD * h.records];
                let state = &mut self.state;
                let kept = raw::walk_log(settings, who, state, symbols, h.place, &mut log);
                let log = LogView::new(&log).expect("whole records");
                let records = log
                    .into_iter()
                    .map(|r| (r.outcome_number, r.place as usize));
                Heard {
                    refusal: kept[raw::KEPT_REFUSAL],
                    counted: kept[raw::KEPT_RECORDS] as usize,
                    full: kept[raw::KEPT_END] == raw::END_FULL,
                    ..Heard::of(records.collect())
                }
            }
            Ear::Plain => self.take(l, symbols),
        }
    }

    fn take(&mut self, l: &Listener, (octets, marks): raw::Capture) -> Heard {
        let (mut plain, mut starts) = (raw::plain_fresh(), Vec::new());
        for (&octet, &mark) in octets.iter().zip(marks) {
            let start = plain.numbers[layout::START] as usize;
            let symbol = (octet, mark);
            let told =
                raw::plain_symbol(&self.settings, l.raw(), &mut self.state, &mut plain, symbol);
            match told[..3] {
                [0, 0, _] => {}
                [0, _, outcome] => starts.push((outcome as u8, start)),
                [refusal, ..] => return Heard::refused(refusal),
                _ => {}
            }
        }
        Heard::of(starts)
    }

    fn write(&mut self, w: &Writing) -> (u64, usize) {
        let on = (&mut self.state, w.port_octet);
        let sending = (&w.sending, w.client.as_ref());
        let sent = if w.counted {
            let (octets, marks, totals) = self.line.all();
            raw::fill_totals((octets, marks), totals);
            in_c_face(&self.settings, on, &mut self.line, w.place, sending)
        } else {
            by_c(&self.settings, on, &mut self.line.lent, w.place, sending)
        };
        (sent[raw::SENT_REFUSAL], sent[raw::SENT_PLACE] as usize)
    }
}

/// The outcome and the place of a Start that a reading counted.
fn counted(reading: &[u64; raw::READING]) -> Option<(u8, usize)> {
    let is = reading[raw::READING_REFUSAL] == 0 && reading[raw::READING_KIND] == raw::COUNTED;
    let outcome = reading[raw::READING_OUTCOME] as u8;
    is.then_some((outcome, reading[raw::READING_START] as usize))
}

/// Both faces at one sequence, and what is kept of it.
struct Sequence {
    s: Settings,
    rust: InRust,
    c: InC,
    /// The count that is kept here, and the reference's.
    watch: Watch,
    quiet: Quiet,
    /// What the timers were at the beginning, of classes that were not set since.
    given: [u64; 8],
    /// Where the next frame goes.
    place: usize,
    /// A client frame stands in the line.
    own_frames: bool,
    /// The class whose wait was looked at last.
    last: u8,
}

impl Sequence {
    fn new(prng: &mut Prng, length: usize) -> Sequence {
        let s = Settings {
            flow: prng.pick(&[Flow::Pause, Flow::Pfc]),
            ..generate::valid_settings(prng)
        };
        let mut state = generate::state(prng);
        state.deficit = state.deficit.min(3);
        state.timers = [(); 8].map(|()| prng.pick(&[0, 0, 0, 1, 84, 200]));
        let settings = generate::settings_record(prng, &s);
        let line = blank(prng, length);
        let given = state.timers.map(u64::from);
        Sequence {
            s,
            rust: InRust {
                s,
                state: face::state(&state),
                line: line.clone(),
            },
            c: InC {
                settings,
                state: records::state_written(&[0; raw::STATE], &state),
                line,
            },
            watch: Watch::new(given),
            quiet: Quiet::default(),
            given,
            place: 0,
            own_frames: false,
            last: 0,
        }
    }

    fn length(&self) -> usize {
        self.c.line.lent.octets().len()
    }

    /// How many symbols the reference's watch has each class wait; it knows of no timer that was
    /// given.
    fn by_reference(&self) -> [u64; 8] {
        std::array::from_fn(|class| {
            let given = match self.watch.set[class] {
                None => self.given[class].saturating_sub(self.quiet.written),
                Some(_) => 0,
            };
            given.max(self.quiet.left(class as u8))
        })
    }
}

/// A line to write into, with its totals.
fn blank(prng: &mut Prng, n: usize) -> Counted {
    let symbols = Symbols {
        octets: vec![IDLE; n],
        marks: vec![1; n],
    };
    let totals = LentTotals::new(prng, &truth(&symbols.octets, &symbols.marks));
    Counted::new(Lent::new(&symbols, IDLE, 1), totals)
}

impl Bench {
    /// A sequence of calls on one state: after each the timers are what is kept here, and no client
    /// frame has started that had still to wait.
    pub(crate) fn quiet(&mut self, prng: &mut Prng) -> Result<(), Difference> {
        let length = prng.between(260, 1_400);
        let mut q = Sequence::new(prng, length);
        for _ in 0..prng.between(8, 40) {
            if prng.one_in(4) {
                self.quiet_hear(prng, &mut q, None)?;
            } else {
                let left = q.watch.left;
                let sending = generate::quiet_sending(prng, &q.s, &left, &mut q.last);
                self.quiet_write(prng, &mut q, sending)?;
            }
        }
        Ok(())
    }

    /// The longest wait there is, to its end.
    pub(crate) fn quiet_long(&mut self, prng: &mut Prng) -> Result<(), Difference> {
        let mut q = Sequence::new(prng, SYMBOLS);
        let longest = generate::longest_wait(prng, &q.s);
        self.quiet_hear(prng, &mut q, Some(longest))?;
        let class = prng.below(8);
        let client =
            |prng: &mut Prng, q: &Sequence| generate::quiet_client(prng, &q.s, class as u8);
        let tried = client(prng, &q);
        self.quiet_write(prng, &mut q, tried)?;
        // 64 fills of a whole line, and some that are refused
        for _ in 0..100 {
            let idles = (q.watch.left[class] as usize).saturating_sub(1);
            if idles > 0 {
                self.quiet_write(prng, &mut q, Sending::Idle(idles.min(SYMBOLS)))?;
            }
        }
        let tried = client(prng, &q);
        self.quiet_write(prng, &mut q, tried)?;
        self.quiet_write(prng, &mut q, Sending::Idle(1))?;
        let tried = client(prng, &q);
        self.quiet_write(prng, &mut q, tried)?;
        Ok(())
    }

    /// A call that reads, of a capture that sets classes, or of the line itself.
    fn quiet_hear(
        &mut self,
        prng: &mut Prng,
        q: &mut Sequence,
        given: Option<Symbols>,
    ) -> Result<(), Difference> {
        self.calls += 1;
        let whole = given.is_some();
        let l = match whole {
            true => generate::sound_listener(prng, &q.s),
            false => generate::quiet_listener(prng, &q.s),
        };
        let own = !whole && prng.one_in(5);
        let mut symbols = match given {
            Some(symbols) => symbols,
            None if own => Symbols {
                octets: q.c.line.lent.octets().to_vec(),
                marks: q.c.line.lent.marks().to_vec(),
            },
            None => generate::quieting_capture(prng, &q.s),
        };
        if !own && !whole && prng.one_in(12) {
            symbols.marks.push(1);
        }
        let h = Hearing {
            by: prng.pick(&[Ear::Read, Ear::Walk, Ear::WalkLog, Ear::Plain]),
            place: match prng.below(4) {
                0 if !whole => generate::place(prng, &symbols),
                _ => 0,
            },
            records: if whole { 1 } else { prng.below(5) },
        };
        let lines = (q.rust.line.lent.clone(), q.c.line.lent.clone());
        let before = q.watch;
        let heard = (&symbols.octets[..], &symbols.marks[..]);
        let in_rust = q.rust.hear(&h, &l, heard);
        let in_c = q.c.hear(&h, &l, heard);
        let inputs = || {
            let shown = show::symbols(heard.0, heard.1, self.whole);
            format!(
                "{h:?}\n{}\n{:?}\n{before:?}\nsymbols: {shown}",
                show::listener(&l),
                q.s
            )
        };
        let sides = (&in_rust, &in_c);
        self.same(("quiet", "heard by Rust, and by C"), sides, inputs)?;
        let many = (in_c.counted, in_c.starts.len());
        self.same(("quiet", "Starts counted, and told"), many, inputs)?;
        // "A frame written before the reading isn't touched."
        self.same_lent("quiet", (&q.rust.line.lent, &lines.0), inputs)?;
        self.same_lent("quiet", (&q.c.line.lent, &lines.1), inputs)?;
        let octets = heard.0;
        q.watch.heard((h.by, l.job), octets, &in_c.starts);
        let mut sets = 0;
        for &start in &in_c.starts {
            for (class, quanta) in crate::watch::quanta_set(octets, start)
                .into_iter()
                .enumerate()
            {
                if let Some(quanta) = quanta {
                    q.quiet.set(class as u8, quanta);
                    sets += 1;
                }
            }
        }
        self.quiet_timers(q, inputs)?;
        self.coverage.quiet(&QuietSeen {
            call: QuietCall::Hear {
                by: h.by,
                sets,
                full: in_c.full,
                own_frames: own && q.own_frames,
            },
            refusal: in_c.refusal as u8,
            before,
            after: q.watch,
        });
        Ok(())
    }

    /// A call that writes.
    fn quiet_write(
        &mut self,
        prng: &mut Prng,
        q: &mut Sequence,
        sending: Sending,
    ) -> Result<(), Difference> {
        self.calls += 1;
        let (port, length) = (generate::port(prng), q.length());
        let sending = match sending {
            Sending::Idle(n) => Sending::Idle(n.min(length)),
            frame => frame,
        };
        let client = match &sending {
            Sending::Client(client, _) => Some(generate::client_record(prng, client)),
            _ => None,
        };
        // from the front again where there is no room behind; seldom where it is refused
        let aligned = match port {
            Port::FourLane if sending.is_frame() => q.place.next_multiple_of(4),
            _ => q.place,
        };
        let room = aligned + sending.before_gap() + 15 <= length;
        let place = match prng.below(24) {
            0 => length + 1,
            1 => length.saturating_sub(60),
            _ if room || (!sending.is_frame() && aligned + sending.before_gap() <= length) => {
                aligned
            }
            _ => 0,
        };
        let w = Writing {
            sending,
            client,
            port,
            port_octet: generate::port_octet(prng, port),
            place,
            counted: prng.one_in(3),
        };
        let before = q.watch;
        let in_rust = q.rust.write(&w);
        let in_c = q.c.write(&w);
        let inputs = || {
            let sending = show::sending(&w.sending, self.whole);
            let how = format!("{port:?}, place {place}, totals {}", w.counted);
            format!("{sending}\n{how}\n{:?}\n{before:?}", q.s)
        };
        self.same(("quiet", "sent by Rust, and by C"), (in_rust, in_c), inputs)?;
        self.same_lent("quiet", (&q.rust.line.lent, &q.c.line.lent), inputs)?;
        let (refusal, after) = in_c;
        if refusal == 0 {
            let class = match &w.sending {
                Sending::Client(client, _) => Some(client.class),
                _ => None,
            };
            let lent = &q.c.line.lent;
            let written = (&lent.octets()[place..after], &lent.marks()[place..after]);
            let loud = q.watch.wrote(class, written.0, written.1);
            self.same(
                ("quiet", "a client frame started in its wait"),
                (loud, false),
                inputs,
            )?;
            let by_reference = q.quiet.wrote(class, written.0, written.1).is_err();
            let sides = (by_reference, false);
            self.same(("quiet", "loud, by the reference's watch"), sides, inputs)?;
            q.place = after;
            q.own_frames |= class.is_some();
        }
        self.quiet_timers(q, inputs)?;
        self.coverage.quiet(&QuietSeen {
            call: QuietCall::Write {
                sending: &w.sending,
                port,
                counted: w.counted,
            },
            refusal: refusal as u8,
            before,
            after: q.watch,
        });
        Ok(())
    }

    /// Both states' timers are what is kept here, and by the reference's watch.
    fn quiet_timers(&self, q: &Sequence, inputs: impl Fn() -> String) -> Result<(), Difference> {
        let in_rust = q.rust.state.timers();
        let in_c = std::array::from_fn(|class| q.c.state[raw::TIMERS + class]);
        let kept = q.watch.left;
        self.same(
            ("quiet", "timers, and the count kept here"),
            (in_rust, kept),
            &inputs,
        )?;
        self.same(
            ("quiet", "timers in C, and the count"),
            (in_c, kept),
            &inputs,
        )?;
        let watched = (q.by_reference(), kept);
        self.same(
            ("quiet", "the reference's watch, and the count"),
            watched,
            &inputs,
        )
    }
}
