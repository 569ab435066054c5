//! Any input: no panic, the three checks agree, the counters rise by the
//! number of Starts, and a walk takes linear time.

use reference::{print, read, walk, Answer, Check, Client, Entry, Flow, Form, Port, Settings};
use reference::{State, Table, Walked};

use crate::bench::Bench;
use crate::hand::{frame, ramp, tagged, tags, Capture, Reader, BROADCAST, KINDS, MULTICAST};
use crate::hand::{OTHER, OWN, PLAIN, RESERVED, START};

/// A small generator of numbers that look random and are the same each time.
pub struct Dice(u64);

impl Dice {
    pub fn new(seed: u64) -> Self {
        Dice(seed.wrapping_mul(0x9E37_79B9_7F4A_7C15) | 1)
    }

    pub fn roll(&mut self, sides: usize) -> usize {
        self.0 ^= self.0 << 13;
        self.0 ^= self.0 >> 7;
        self.0 ^= self.0 << 17;
        (self.0 >> 11) as usize % sides
    }

    fn pick<T: Copy>(&mut self, from: &[T]) -> T {
        from[self.roll(from.len())]
    }

    fn coin(&mut self) -> bool {
        self.roll(2) == 1
    }

    /// A symbol, mark first; the special ones are common.
    pub fn symbol(&mut self) -> (u8, u8) {
        let mark = self.pick(&[0, 0, 0, 0, 1, 1, 0x80]);
        let special = self.pick(&[0x07, 0xFB, 0xFD, 0xFE, 0x9C, 0x55, 0xD5]);
        let octet = if self.coin() {
            special
        } else {
            self.roll(256) as u8
        };
        (mark, octet)
    }

    fn address(&mut self) -> [u8; 6] {
        self.pick(&[OWN, OWN, OTHER, MULTICAST, RESERVED, RESERVED, BROADCAST])
    }

    pub fn settings(&mut self) -> Settings {
        Settings {
            own: self.pick(&[OWN, OWN, OWN, OTHER, MULTICAST]),
            broadcast: self.coin(),
            promiscuous: self.coin(),
            checking: self.coin(),
            limit: self.pick(&[1518, 1518, 1600, 9618, 1517]),
            flow: self.pick(&[Flow::None, Flow::Pause, Flow::Pfc]),
            pass_control: self.coin(),
        }
    }

    /// A table: at times empty or full, or wrong.
    pub fn table(&mut self) -> Table {
        let most = self.pick(&[0, 1, 4, 16]);
        let mut table = Table::EMPTY;
        for near in 0..most {
            let mut address = self.address();
            if self.coin() {
                address[5] = near;
            }
            // An address that is there stays alone.
            let _ = table.add(self.roll(2) as u8, address);
        }
        for _ in 0..self.roll(3) {
            let _ = table.remove(self.roll(2) as u8, self.address());
        }
        let mut entries = *table.entries();
        if self.roll(8) == 0 {
            for _ in 0..2 {
                entries[self.roll(16)] = Entry::Job1(OTHER);
            }
        }
        Table::from_entries(entries)
    }

    /// Who reads; at times one that is refused.
    pub fn reader(&mut self) -> Reader {
        Reader {
            s: self.settings(),
            job: self.pick(&[0, 0, 0, 0, 1, 1, 1, 1, 1, 2]),
            table: self.table(),
        }
    }

    /// A piece of a capture: noise, or a frame, at times damaged.
    pub fn piece(&mut self, capture: Capture) -> Capture {
        if self.roll(4) == 0 {
            let mut capture = capture;
            for _ in 0..self.roll(40) {
                let (mark, octet) = self.symbol();
                capture.octets.push(octet);
                capture.marks.push(mark);
            }
            return capture;
        }
        let field = self.pick(&[0, 45, 46, 60, 1501, 0x0800, 0x8100, 0x88A8, 0x8808, 0x8808]);
        let n = self.pick(&[0, 0, 0, 0, 0, 0, 1, 2, 8, 9]);
        let header = tagged(n, field);
        let opcode = self.pick(&[0x0001u16, 0x0101, 0x0002]).to_be_bytes();
        let mut data = opcode.to_vec();
        let len = self.pick(&[42, 45, 46, 46, 46, 60, 200]);
        data.resize_with(len, || self.roll(256) as u8);
        let mut octets = frame(self.address(), &header, &data);
        if self.roll(5) == 0 {
            let at = self.roll(octets.len());
            octets[at] ^= 1;
        }
        let ending = self.pick(&[0xFD, 0xFD, 0xFD, 0xFD, 0xFB, 0x07, 0xFE]);
        capture.open_frame(&octets).control(ending)
    }
}

/// Walks in all three ways and checks what holds for every walk.
fn check_walk(by: impl Into<Reader>, capture: &Capture, before: State) -> Option<State> {
    let Reader { s, job, table } = by.into();
    let (octets, marks) = (&capture.octets, &capture.marks);
    let mut results = KINDS.iter().map(|&kind| {
        let mut state = before;
        let walked = walk(kind, &s, &mut state, job, &table, octets, marks);
        (walked, state)
    });
    let (walked, after) = results.next().unwrap();
    assert!(results.all(|other| other == (walked, after)));
    let Walked::Ended { starts, open } = walked else {
        assert_eq!(after, before);
        return None;
    };
    let symbols = octets.iter().zip(marks);
    let seen = symbols.filter(|&(&octet, &mark)| octet == START && mark != 0);
    assert_eq!(starts, seen.count() - usize::from(open));
    let risen = after
        .counters
        .iter()
        .zip(before.counters)
        .fold(0u64, |sum, (after, before)| {
            sum.wrapping_add(after.wrapping_sub(before))
        });
    assert_eq!(risen, starts as u64);
    Some(after)
}

#[test]
fn captures_of_all_sorts() {
    let mut dice = Dice::new(1);
    let mut total = [0u64; 11];
    for _ in 0..3_000 {
        let by = dice.reader();
        let mut capture = Capture::new();
        for _ in 0..dice.roll(8) {
            capture = dice.piece(capture);
        }
        if let Some(after) = check_walk(by, &capture, State::default()) {
            for (total, counter) in total.iter_mut().zip(after.counters) {
                *total += counter;
            }
        }
        let before = State {
            counters: [u64::MAX - 1; 11],
            timers: [5; 8],
            deficit: 200,
        };
        check_walk(by, &capture, before);
        // A single reading at any place.
        let place = dice.roll(capture.octets.len() + 3);
        let mut state = State::default();
        let (octets, marks) = (&capture.octets, &capture.marks);
        let Reader { s, job, table } = &by;
        let kind = Check::Slicing16;
        let reading = read(kind, s, &mut state, *job, table, octets, marks, place);
        match reading.answer {
            Answer::Refused(number) => {
                assert!([1, 2, 3, 14, 20].contains(&number));
                assert_eq!((reading.start, reading.next), (place, place));
            }
            Answer::None => assert_eq!(reading.start, octets.len()),
            Answer::Open => assert_eq!(reading.start, reading.next),
            Answer::Counted { at, len, .. } => {
                assert!(place <= reading.start && reading.start < reading.next);
                assert!(at + len <= reading.next);
                assert_ne!(marks[reading.next], 0);
            }
        }
    }
    // Every outcome was there, but for oversized: those frames are too long
    // for this test.
    for (index, &count) in total.iter().enumerate() {
        assert!(count > 0 || index == 3, "outcome {}", index + 1);
    }
}

#[test]
fn calls_of_all_sorts() {
    let mut dice = Dice::new(2);
    let mut answers = [0; 23];
    for _ in 0..4_000 {
        let mut bench = Bench::new(dice.pick(&[0, 83, 84, 88, 200, 1_538, 1_700]));
        Reader {
            s: bench.s,
            job: bench.job,
            table: bench.table,
        } = dice.reader();
        if dice.roll(8) == 0 {
            bench.marks.push(0);
        }
        bench.place = dice.pick(&[0, 0, 0, 0, 1, 84, 200, 201, usize::MAX]);
        for timer in &mut bench.state.timers {
            *timer = dice.pick(&[0, 0, 1, 84, u32::MAX]);
        }
        bench.port = dice.pick(&[Port::Plain, Port::FourLane]);
        bench.state.deficit = dice.pick(&[0, 1, 2, 3, 3, 4, 255]);
        let mut totals = bench.true_totals();
        bench.totals = match dice.roll(8) {
            0 => Some(totals),
            1 => {
                totals.push(0);
                Some(totals)
            }
            2 => {
                totals.fill(dice.pick(&[0, 256, 257]));
                Some(totals)
            }
            _ => None,
        };
        let client = Client {
            dest: dice.address(),
            tags: tags(dice.pick(&[0, 0, 0, 1, 2, 8, 9])),
            form: dice.pick(&[
                Form::Length,
                Form::Length,
                Form::Type(0x0800),
                Form::Type(1535),
                Form::Type(0x8808),
            ]),
            class: dice.pick(&[0, 1, 7, 7, 8, 255]),
        };
        let data = ramp(dice.pick(&[0, 0, 45, 46, 47, 48, 49, 1_500, 1_501, 70_000]));
        let n = dice.pick(&[0, 1, 84, 65_536, usize::MAX]);
        let sent = [
            bench.clone().client(&client, &data),
            bench.clone().pause(0xFFFF),
            bench.clone().pfc(0x5A, &[0xFFFF; 8]),
            bench.clone().idle(n),
        ];
        for one in sent {
            match one {
                reference::Sent::Wrote(_) => answers[0] += 1,
                reference::Sent::Refused(number) => answers[usize::from(number)] += 1,
            }
        }
        bench.read();
        bench.walk();
    }
    let given = (0..=10).chain([19, 21, 22]);
    assert!(
        given.clone().all(|number| answers[number] > 0),
        "{answers:?}"
    );
    assert_eq!(given.map(|number| answers[number]).sum::<u32>(), 4 * 4_000);
}

#[test]
fn inputs_of_all_sorts_are_printed() {
    let mut dice = Dice::new(4);
    for _ in 0..500 {
        let len = dice.roll(400);
        let mut input = Vec::new();
        while input.len() < len {
            let (mark, octet) = dice.symbol();
            input.extend([mark, octet]);
        }
        let text = print(&input);
        let last = text.lines().last().unwrap();
        let lines = text.lines().count() - 1;
        assert!(last.starts_with(&format!("starts {lines} open ")));
        assert!(text.ends_with("open 0\n") || text.ends_with("open 1\n"));
        input.push(1);
        assert_eq!(print(&input), "bad input\n");
    }
}

#[test]
fn long_walks() {
    // Nothing but Starts; short runs; a Start in front of nothing but data.
    let starts = Capture {
        octets: vec![START; 65_536],
        marks: vec![1; 65_536],
    };
    let mut state = State::default();
    let ended = Walked::Ended {
        starts: 65_535,
        open: true,
    };
    assert_eq!(starts.walk(&PLAIN, &mut state), ended);
    assert_eq!(state.counters[0], 65_535);

    let mut sparse = starts.clone();
    for (at, mark) in sparse.marks.iter_mut().enumerate() {
        *mark = u8::from(at % 3 == 0);
    }
    check_walk(&PLAIN, &sparse, State::default());

    let mut data = starts;
    data.marks[1..].fill(0);
    let ended = Walked::Ended {
        starts: 0,
        open: true,
    };
    assert_eq!(data.walk(&PLAIN, &mut State::default()), ended);
}
