//! Calls whose general promises are checked each time: a refusal changes
//! nothing, sending changes only what it wrote and lowers every timer, and only
//! a frame on the four-lane port changes the deficit count. Every sending call
//! is made without totals and with them.

use reference::{fill_idle, read, send_client, send_pause, send_pfc, walk};
use reference::{fill_idle_counting, send_client_counting};
use reference::{send_pause_counting, send_pfc_counting};
use reference::{Answer, Check, Client, Port, Reading, Sent, Settings, State, Table, Walked};

use crate::hand::{KINDS, PLAIN, START};

#[derive(Clone, Debug, PartialEq)]
pub struct Bench {
    pub s: Settings,
    pub state: State,
    /// Who reads, with the table; no sending call takes them.
    pub job: u8,
    pub table: Table,
    /// What frames are sent on.
    pub port: Port,
    pub octets: Vec<u8>,
    pub marks: Vec<u8>,
    /// The totals of the capture, for the calls that take them.
    pub totals: Option<Vec<u16>>,
    pub place: usize,
}

impl Bench {
    /// Buffers of that length, filled with what no call writes.
    pub fn new(len: usize) -> Self {
        Bench {
            s: PLAIN,
            state: State::default(),
            job: 0,
            table: Table::EMPTY,
            port: Port::Plain,
            octets: vec![0xA7; len],
            marks: vec![0xC9; len],
            totals: None,
            place: 0,
        }
    }

    /// Makes a sending call in all three ways, checks what holds for every
    /// one and goes on to the place after it.
    fn send(&mut self, call: impl Fn(Check, &mut Bench) -> Sent) -> Sent {
        let before = self.clone();
        let sent = call(KINDS[0], self);
        for &kind in &KINDS[1..] {
            let mut other = before.clone();
            assert_eq!(call(kind, &mut other), sent);
            assert_eq!(&other, self);
        }
        self.check_counting(before.clone(), sent, call);
        match sent {
            Sent::Refused(_) => assert_eq!(*self, before),
            Sent::Wrote(after) => {
                let place = before.place;
                assert!(place <= after && after <= before.octets.len());
                assert_eq!(self.octets[..place], before.octets[..place]);
                assert_eq!(self.octets[after..], before.octets[after..]);
                assert_eq!(self.marks[..place], before.marks[..place]);
                assert_eq!(self.marks[after..], before.marks[after..]);
                assert!(self.marks[place..after].iter().all(|&mark| mark < 2));
                assert_eq!(self.state.counters, before.state.counters);
                let passed = (after - place) as u32;
                let lowered = before.state.timers.map(|t| t.saturating_sub(passed));
                assert_eq!(self.state.timers, lowered);
                self.place = after;
            }
        }
        sent
    }

    /// Checks that the same call without totals does the same but for them, and
    /// with true ones leaves true ones. In long captures counting all of it each
    /// time would take too long.
    fn check_counting(&self, before: Bench, sent: Sent, call: impl Fn(Check, &mut Bench) -> Sent) {
        let given = self.totals.is_some();
        if given && matches!(sent, Sent::Refused(21 | 22)) || before.octets.len() > 4_096 {
            return;
        }
        let other = if given {
            None
        } else {
            Some(before.true_totals())
        };
        let mut other = Bench {
            totals: other,
            ..before
        };
        assert_eq!(call(KINDS[0], &mut other), sent);
        if !given {
            assert_eq!(other.totals, Some(self.true_totals()));
        }
        other.totals = self.totals.clone();
        assert_eq!(other, *self);
    }

    /// How many Starts each block of 256 symbols has.
    pub fn true_totals(&self) -> Vec<u16> {
        let mut totals = vec![0; self.octets.len().div_ceil(256)];
        for (place, (&octet, &mark)) in self.octets.iter().zip(&self.marks).enumerate() {
            if octet == START && mark != 0 {
                totals[place / 256] += 1;
            }
        }
        totals
    }

    /// The same for a frame: on the four-lane port it begins and ends at a
    /// multiple of four, on the plain port it leaves the deficit count.
    fn send_frame(&mut self, call: impl Fn(Check, &mut Bench) -> Sent) -> Sent {
        let before = (self.place, self.state.deficit);
        let sent = self.send(call);
        if let Sent::Wrote(after) = sent {
            match self.port {
                Port::Plain => assert_eq!(self.state.deficit, before.1),
                Port::FourLane => {
                    assert_eq!((before.0 % 4, after % 4), (0, 0));
                    assert!(before.1 < 4 && self.state.deficit < 4);
                }
            }
        }
        sent
    }

    pub fn client(&mut self, client: &Client, data: &[u8]) -> Sent {
        self.send_frame(|kind, b| {
            let (state, octets, marks) = (&mut b.state, &mut b.octets, &mut b.marks);
            let (s, port, place) = (&b.s, b.port, b.place);
            match &mut b.totals {
                None => send_client(kind, s, state, port, octets, marks, place, client, data),
                Some(totals) => send_client_counting(
                    kind, s, state, port, octets, marks, totals, place, client, data,
                ),
            }
        })
    }

    pub fn pause(&mut self, quanta: u16) -> Sent {
        self.send_frame(|kind, b| {
            let (state, octets, marks) = (&mut b.state, &mut b.octets, &mut b.marks);
            let (s, port, place) = (&b.s, b.port, b.place);
            match &mut b.totals {
                None => send_pause(kind, s, state, port, octets, marks, place, quanta),
                Some(totals) => {
                    send_pause_counting(kind, s, state, port, octets, marks, totals, place, quanta)
                }
            }
        })
    }

    pub fn pfc(&mut self, named: u8, quanta: &[u16; 8]) -> Sent {
        self.send_frame(|kind, b| {
            let (state, octets, marks) = (&mut b.state, &mut b.octets, &mut b.marks);
            let (s, port, place) = (&b.s, b.port, b.place);
            match &mut b.totals {
                None => send_pfc(kind, s, state, port, octets, marks, place, named, quanta),
                Some(totals) => send_pfc_counting(
                    kind, s, state, port, octets, marks, totals, place, named, quanta,
                ),
            }
        })
    }

    pub fn idle(&mut self, n: usize) -> Sent {
        let deficit = self.state.deficit;
        let sent = self.send(|_, b| {
            let (state, octets, marks) = (&mut b.state, &mut b.octets, &mut b.marks);
            match &mut b.totals {
                None => fill_idle(state, octets, marks, b.place, n),
                Some(totals) => fill_idle_counting(state, octets, marks, totals, b.place, n),
            }
        });
        assert_eq!(self.state.deficit, deficit);
        sent
    }

    pub fn read(&mut self) -> Reading {
        let before = self.state;
        let kind = Check::ByteTable;
        let (s, job, table, place) = (&self.s, self.job, &self.table, self.place);
        let (octets, marks) = (&self.octets, &self.marks);
        let reading = read(kind, s, &mut self.state, job, table, octets, marks, place);
        assert_eq!(self.state.deficit, before.deficit);
        if let Answer::Refused(_) = reading.answer {
            assert_eq!((reading.start, reading.next), (self.place, self.place));
            assert_eq!(self.state, before);
        }
        reading
    }

    pub fn walk(&mut self) -> Walked {
        let before = self.state;
        let kind = Check::ByteTable;
        let (s, job, table) = (&self.s, self.job, &self.table);
        let (octets, marks) = (&self.octets, &self.marks);
        let walked = walk(kind, s, &mut self.state, job, table, octets, marks);
        assert_eq!(self.state.deficit, before.deficit);
        if let Walked::Refused(_) = walked {
            assert_eq!(self.state, before);
        }
        walked
    }
}
