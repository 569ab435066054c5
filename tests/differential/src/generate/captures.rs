//! Captures: frames one behind the other, many of them damaged, and noise.
use super::frames::frame;
use super::listeners::Listener;
use super::TERMINATE;
use super::{BEYOND_32_BITS, ERROR, IDLE, PREAMBLE, SEQUENCE, START, SYMBOLS, TABLES_FROM};
use crate::prng::Prng;
use reference::Settings;

/// Symbols: octets, and beside each its mark. The two may differ in length.
#[derive(Clone, Debug, Default)]
pub struct Symbols {
    /// The octets.
    pub octets: Vec<u8>,
    /// The marks.
    pub marks: Vec<u8>,
}

impl Symbols {
    /// The same symbol, so many times.
    fn of(octet: u8, mark: u8, n: usize) -> Symbols {
        Symbols {
            octets: vec![octet; n],
            marks: vec![mark; n],
        }
    }

    fn len(&self) -> usize {
        self.octets.len()
    }

    fn push(&mut self, octet: u8, mark: u8) {
        self.octets.push(octet);
        self.marks.push(mark);
    }

    fn insert(&mut self, at: usize, octet: u8, mark: u8) {
        self.octets.insert(at, octet);
        self.marks.insert(at, mark);
    }

    fn remove(&mut self, at: usize) {
        self.octets.remove(at);
        self.marks.remove(at);
    }

    fn data(&mut self, octets: &[u8]) {
        self.octets.extend(octets);
        self.marks.resize(self.octets.len(), 0);
    }

    fn resize(&mut self, n: usize) {
        self.octets.resize(n, IDLE);
        self.marks.resize(n, 1);
    }
}

/// Draws symbols one by one.
struct Pen<'p> {
    prng: &'p mut Prng,
    /// Control symbols have any mark but 0.
    odd: bool,
}

impl Pen<'_> {
    fn mark(&mut self) -> u8 {
        if self.odd {
            self.prng.between(1, 255) as u8
        } else {
            1
        }
    }

    /// A control octet, known or not.
    fn control(&mut self) -> u8 {
        let any = self.prng.octet();
        self.prng
            .pick(&[START, START, IDLE, ERROR, SEQUENCE, TERMINATE, any])
    }

    fn noise(&mut self, n: usize) -> Symbols {
        let mut symbols = Symbols::default();
        // one symbol in so many is a control symbol
        let sparse = self.prng.pick(&[2, 2, 8, 60]);
        for _ in 0..n {
            if self.prng.one_in(sparse) {
                let (octet, mark) = (self.control(), self.mark());
                symbols.push(octet, mark);
            } else {
                let any = self.prng.octet();
                let octet = self.prng.pick(&[START, TERMINATE, 0x55, 0xD5, any]);
                symbols.push(octet, 0);
            }
        }
        symbols
    }

    /// A frame on the line, with what stands before it.
    fn frame(&mut self, symbols: &mut Symbols, s: &Settings, l: &Listener) {
        for _ in 0..self.prng.pick(&[0, 0, 0, 1, 5, 11]) {
            let mark = self.mark();
            symbols.push(IDLE, mark);
        }
        if self.prng.one_in(24) {
            let n = self.prng.below(24);
            let noise = self.noise(n);
            symbols.octets.extend(noise.octets);
            symbols.marks.extend(noise.marks);
        }
        let from = symbols.len();
        let mark = self.mark();
        symbols.push(START, mark);
        symbols.data(&PREAMBLE);
        symbols.data(&frame(self.prng, s, l));
        let mark = self.mark();
        symbols.push(TERMINATE, mark);
        if self.prng.one_in(3) {
            self.damage(symbols, from);
        }
    }

    /// Damages the frame that begins at `from` and ends with the last symbol.
    fn damage(&mut self, symbols: &mut Symbols, from: usize) {
        let last = symbols.len() - 1;
        let at = self.prng.between(from, last);
        let in_preamble = self.prng.between(from + 1, from + 7);
        // what the FCS takes, if the frame is that long
        let check = last.saturating_sub(4).max(from + 8)..last;
        match self.prng.below(14) {
            0 => symbols.octets[at] ^= self.prng.bit(),
            1 if !check.is_empty() => {
                let at = self.prng.between(check.start, check.end - 1);
                symbols.octets[at] ^= self.prng.bit();
            }
            2 => symbols.octets[check].reverse(),
            3 => symbols.octets[check]
                .iter_mut()
                .for_each(|octet| *octet = !*octet),
            4 => symbols.octets[in_preamble] ^= self.prng.bit(),
            5 => symbols.remove(in_preamble),
            6 => symbols.insert(in_preamble, 0x55, 0),
            7 => {
                // a run of at most eight octets
                let keep = self.prng.below(9);
                symbols.resize(from + 1 + keep.min(last - from - 1));
                let mark = self.mark();
                symbols.push(TERMINATE, mark);
            }
            8 => {
                symbols.marks[at] = if symbols.marks[at] == 0 {
                    self.mark()
                } else {
                    0
                }
            }
            9 => symbols.octets[last] = self.control(),
            10 => {
                // the line breaks off
                symbols.resize(at + 1);
                let (octet, mark) = (self.control(), self.mark());
                symbols.push(octet, mark);
            }
            11 => {
                let (octet, mark) = (self.control(), self.mark());
                symbols.insert(at + 1, octet, mark);
            }
            12 => symbols.insert(last, self.prng.octet(), 0),
            _ => symbols.remove(at),
        }
    }

    /// Frames until there are so many symbols or more.
    fn frames(&mut self, (s, l): (&Settings, &Listener), symbols: usize) -> Symbols {
        let mut capture = Symbols::default();
        while capture.len() < symbols {
            self.frame(&mut capture, s, l);
        }
        capture
    }

    /// As many symbols as a walk makes tables for, or one less; every second time the last run ends.
    fn tabled(&mut self, s: &Settings, l: &Listener) -> Symbols {
        let n = self.prng.pick(&[TABLES_FROM - 1, TABLES_FROM]);
        let mut symbols = self.frames((s, l), n);
        symbols.resize(n);
        if self.prng.coin() {
            let mark = self.mark();
            (symbols.octets[n - 1], symbols.marks[n - 1]) = (TERMINATE, mark);
        }
        symbols
    }

    /// About as many symbols as a call takes.
    fn large(&mut self, s: &Settings, l: &Listener) -> Symbols {
        let n = self
            .prng
            .pick(&[SYMBOLS, SYMBOLS, SYMBOLS, SYMBOLS + 1, 70_000]);
        let mark = self.mark();
        match self.prng.below(16) {
            0..=1 => Symbols::of(START, mark, n),
            2 => Symbols::of(IDLE, mark, n),
            3..=4 => self.noise(n),
            5..=8 => {
                // one run over the whole capture, at times ended by its last symbol
                let mut symbols = Symbols::of(0x55, 0, n);
                (symbols.octets[0], symbols.marks[0]) = (START, mark);
                symbols.octets[7] = 0xD5;
                symbols.octets[n - 1] = TERMINATE;
                symbols.marks[n - 1] = self.prng.pick(&[0, mark]);
                symbols
            }
            9 => {
                // nothing but a Start at the very end
                let mut symbols = Symbols::of(IDLE, mark, n);
                symbols.octets[n - 1] = START;
                symbols
            }
            _ => {
                let mut symbols = self.frames((s, l), n);
                symbols.resize(n);
                symbols
            }
        }
    }
}

/// Any capture; most have some hundred symbols.
pub fn capture(prng: &mut Prng, s: &Settings, l: &Listener) -> Symbols {
    let odd = prng.one_in(4);
    let mut pen = Pen { prng, odd };
    let mut symbols = match pen.prng.below(256) {
        0 => pen.large(s, l),
        1 => pen.tabled(s, l),
        2..=3 => Symbols::default(),
        4..=8 => Symbols {
            octets: vec![START, START, TERMINATE],
            marks: [(); 3].map(|()| pen.mark()).to_vec(),
        },
        9..=24 => {
            let n = pen.prng.below(300);
            pen.noise(n)
        }
        _ => {
            let n = pen.prng.between(1, 400);
            pen.frames((s, l), n)
        }
    };
    if prng.one_in(6) {
        // the capture ends anywhere
        let n = prng.below(symbols.len() + 1);
        symbols.resize(n);
    }
    if prng.one_in(32) {
        unequal(prng, &mut symbols);
    }
    symbols
}

/// A capture as long as a walk makes tables for, or one symbol shorter.
pub fn tabled_capture(prng: &mut Prng, s: &Settings, l: &Listener) -> Symbols {
    let odd = prng.one_in(4);
    Pen { prng, odd }.tabled(s, l)
}

/// A capture for the screen: mostly some frames, at times nothing or too much.
pub fn shown_capture(prng: &mut Prng, s: &Settings, l: &Listener) -> Symbols {
    match prng.below(64) {
        0 => return longest_capture(prng),
        1..=2 => return Symbols::default(),
        3..=8 => return capture(prng, s, l),
        _ => {}
    }
    let odd = prng.one_in(4);
    let n = prng.between(1, 400);
    let mut symbols = Pen { prng, odd }.frames((s, l), n);
    if prng.one_in(12) {
        unequal(prng, &mut symbols);
    }
    symbols
}

/// As many symbols as a call takes, or one more: Idles, and a few Starts.
pub fn longest_capture(prng: &mut Prng) -> Symbols {
    let n = prng.pick(&[SYMBOLS, SYMBOLS + 1]);
    let mut symbols = Symbols::of(IDLE, 1, n);
    for _ in 0..prng.below(6) {
        symbols.octets[prng.below(n)] = START;
    }
    symbols
}

/// The places of the Starts in a capture.
pub fn start_places(symbols: &Symbols) -> impl Iterator<Item = usize> + '_ {
    let pairs = symbols.octets.iter().zip(&symbols.marks).enumerate();
    let starts = pairs.filter(|(_, (&octet, &mark))| octet == START && mark != 0);
    starts.map(|(place, _)| place)
}

/// How many Starts stand in a capture.
pub fn starts(symbols: &Symbols) -> usize {
    start_places(symbols).count()
}

/// One of the two a little or a lot shorter or longer.
pub fn unequal(prng: &mut Prng, symbols: &mut Symbols) {
    let n = symbols.len();
    let other = match prng.below(4) {
        0 => n + 1,
        1 => n.saturating_sub(1),
        2 => 0,
        _ => prng.below(2 * n + 2),
    };
    if prng.coin() {
        symbols.octets.resize(other, START);
    } else {
        symbols.marks.resize(other, 1);
    }
}

/// A place to read at: often at a Start or next to it, or at the end or beyond.
pub fn place(prng: &mut Prng, symbols: &Symbols) -> usize {
    let n = symbols.len();
    match prng.below(20) {
        0..=1 => 0,
        2 => n,
        3 => n.saturating_sub(1),
        4 => n + 1,
        5 => prng.pick(&[usize::MAX, BEYOND_32_BITS, SYMBOLS, SYMBOLS + 1, n + 100]),
        6..=14 => {
            let is_start = |i: &usize| {
                symbols.octets[*i] == START && symbols.marks.get(*i).is_some_and(|&mark| mark != 0)
            };
            let from = prng.below(n + 1);
            let start = (from..n).chain(0..from).find(is_start);
            start.map_or(n, |start| start + prng.pick(&[0, 0, 0, 1]))
        }
        _ => prng.below(n + 1),
    }
}
