//! A file as a run of captures.
//!
//! A capture has 65,536 symbols at most. A longer file is read in stretches of so many. Where a
//! stretch ends inside a frame, that frame's Start and all behind it are carried over to the front
//! of the next one: a Start whose run has not ended counts nothing, so it is counted once, and no
//! frame at a seam is lost.
//!
//! A run that is itself longer than a capture is shortened: its front and the symbol that ends it
//! are read, and the octets between are left out. Its outcome is that of the whole run all the same.
//! Cut goes by the ending symbol, bad preamble by the first seven octets, and any frame of that
//! length is above every limit, so that it is oversized.
use crate::failure::Failure;
use crate::look::{other_format, LOOKED_AT};
use crate::progress::Progress;
use crate::source::{Source, RECORD};
use fenhamper::{Capture, Listener, State, Walk, SYMBOLS};

const START: u8 = 0xFB;

/// What a capture is, where something else is found.
const RECORDS: &str = "a capture is records of two octets, mark then octet";

/// How many symbols before a stretch are kept, to be shown.
pub const KEPT: usize = 16;

/// A part of a file that is read as one capture.
#[derive(Clone, Copy)]
pub struct Stretch<'a> {
    /// Its symbols.
    pub capture: Capture<'a>,
    /// Octets and marks of symbols right before it, [`KEPT`] at most.
    pub before: &'a [(u8, u8)],
    /// Whether the file ends with it.
    pub last: bool,
    base: u64,
    left_out: u64,
}

impl Stretch<'_> {
    /// The place in the whole file of a place in the stretch.
    #[must_use]
    pub fn place(&self, place: usize) -> u64 {
        let behind = place + 1 >= SYMBOLS;
        self.base + place as u64 + if behind { self.left_out } else { 0 }
    }

    /// How many octets of the one run in it are left out before the symbol that ends it.
    #[must_use]
    pub fn left_out(&self) -> u64 {
        self.left_out
    }

    /// Reads it all in one call.
    pub fn walk(&self, listener: Listener<'_>, state: &mut State) -> Result<Walk, Failure> {
        Ok(self.capture.walk(listener, state)?)
    }

    /// The place in the whole file of a last Start whose run has not ended inside the stretch.
    #[must_use]
    pub fn open(&self) -> Option<u64> {
        self.open_at().map(|at| self.place(at))
    }

    // That Start is the stretch's last control symbol.
    fn open_at(&self) -> Option<usize> {
        let at = last_control(self.capture.marks)?;
        (self.capture.octets[at] == START).then_some(at)
    }
}

// The octets and the marks of records. A record is taken as one number, and each half in a loop of its
// own, since the compiler then takes many of them at once: five times as fast.
fn split(records: &[u8], octets: &mut [u8], marks: &mut [u8]) {
    let number = |record: &[u8]| u16::from_le_bytes(record.try_into().unwrap_or_default());
    for (mark, record) in marks.iter_mut().zip(records.chunks_exact(RECORD)) {
        *mark = number(record) as u8;
    }
    for (octet, record) in octets.iter_mut().zip(records.chunks_exact(RECORD)) {
        *octet = (number(record) >> 8) as u8;
    }
}

// The last control symbol. Most of what is behind it is passed over in blocks.
fn last_control(marks: &[u8]) -> Option<usize> {
    const BLOCK: usize = 256;
    let mut end = marks.len();
    for block in marks.rchunks(BLOCK) {
        let begin = end - block.len();
        if block.iter().fold(0, |all, mark| all | mark) != 0 {
            let at = block.iter().rposition(|&mark| mark != 0)?;
            return Some(begin + at);
        }
        end = begin;
    }
    None
}

/// The stretches of a file, one after the other.
pub struct Stretches<'a> {
    source: Source<'a>,
    progress: Option<Progress<'a>>,
    // octets that were read and not taken yet
    raw: Vec<u8>,
    at: usize,
    end: usize,
    // the stretch: symbols, how many, and the place of the first
    octets: Vec<u8>,
    marks: Vec<u8>,
    before: Vec<(u8, u8)>,
    held: usize,
    base: u64,
    left_out: u64,
    // octets that the file has had so far
    seen: u64,
    ended: bool,
    told: bool,
}

impl<'a> Stretches<'a> {
    /// Begins to read. What is surely no capture is said here, before anything is printed of it;
    /// with `force` whatever the file looks like.
    pub fn new(source: Source<'a>, force: bool) -> Result<Stretches<'a>, Failure> {
        let mut stretches = Stretches {
            source,
            progress: None,
            raw: vec![0; SYMBOLS * RECORD],
            at: 0,
            end: 0,
            octets: vec![0; SYMBOLS],
            marks: vec![0; SYMBOLS],
            before: Vec::new(),
            held: 0,
            base: 0,
            left_out: 0,
            seen: 0,
            ended: false,
            told: false,
        };
        stretches.more()?;
        let head = &stretches.raw[..stretches.end.min(LOOKED_AT)];
        match other_format(head, RECORDS) {
            Some(looks) if !force => {
                let what = format!("is no capture, {looks}");
                return Err(Failure::input(stretches.source.name(), what));
            }
            _ => {}
        }
        stretches.even()?;
        Ok(stretches)
    }

    /// Says how far it is, if that takes long.
    #[must_use]
    pub fn telling(mut self, progress: Progress<'a>) -> Stretches<'a> {
        self.progress = Some(progress);
        self
    }

    /// Begins at this place: passes over the symbols before it, by going there where that can be.
    pub fn from(mut self, place: u64) -> Result<Stretches<'a>, Failure> {
        match self.symbols() {
            Some(symbols) if place > symbols => return Err(self.beyond(place, symbols)),
            _ => {}
        }
        let kept = place.min(KEPT as u64);
        self.base = place - kept;
        self.pass_over(self.base)?;
        self.fill_up(kept as usize)?;
        if self.held < kept as usize {
            return Err(self.beyond(place, self.read()));
        }
        self.carry_over(self.held);
        Ok(self)
    }

    // Leaves so many symbols out.
    fn pass_over(&mut self, symbols: u64) -> Result<(), Failure> {
        if symbols > 0 && self.source.go_to(symbols * RECORD as u64)? {
            (self.at, self.end, self.ended) = (0, 0, false);
            self.seen = symbols * RECORD as u64;
            return Ok(());
        }
        let mut left = symbols;
        while left > 0 && self.some()? {
            let records = left.min(((self.end - self.at) / RECORD) as u64);
            self.at += records as usize * RECORD;
            left -= records;
        }
        Ok(())
    }

    /// The file's name, to be shown.
    #[must_use]
    pub fn name(&self) -> &str {
        self.source.name()
    }

    /// How many symbols the file has, where that is known already.
    #[must_use]
    pub fn symbols(&self) -> Option<u64> {
        self.source.symbols().or_else(|| {
            let seen = self.seen / RECORD as u64;
            self.ended.then_some(seen)
        })
    }

    /// How many symbols have been read.
    #[must_use]
    pub fn read(&self) -> u64 {
        self.seen / RECORD as u64
    }

    /// Whether all symbols have been taken into a stretch.
    pub fn at_end(&mut self) -> Result<bool, Failure> {
        Ok(!self.some()?)
    }

    /// The next stretch; nothing after the last. There is always one, if of no symbols.
    pub fn next_stretch(&mut self) -> Result<Option<Stretch<'_>>, Failure> {
        if self.told {
            return Ok(None);
        }
        self.carry_over(self.stretch().open_at().unwrap_or(self.held));
        self.fill_up(SYMBOLS)?;
        let begins_open = self.stretch().open_at() == Some(0);
        if self.held == SYMBOLS && begins_open {
            self.shorten()?;
        }
        self.told = self.ended && self.at == self.end;
        Ok(Some(self.stretch()))
    }

    fn stretch(&self) -> Stretch<'_> {
        Stretch {
            capture: Capture::new(&self.octets[..self.held], &self.marks[..self.held]),
            before: &self.before,
            last: self.told,
            base: self.base,
            left_out: self.left_out,
        }
    }

    // Moves what is from here on to the front; all before it has been read.
    fn carry_over(&mut self, from: usize) {
        if from == 0 {
            return;
        }
        self.base = self.stretch().place(from);
        // what was left out stood right before the end of a shortened run
        let kept = if self.left_out > 0 { 0 } else { KEPT };
        let before = from.saturating_sub(kept)..from;
        let symbol = |at| (self.octets[at], self.marks[at]);
        self.before = before.map(symbol).collect();
        self.octets.copy_within(from..self.held, 0);
        self.marks.copy_within(from..self.held, 0);
        self.held -= from;
        self.left_out = 0;
    }

    // Takes symbols until the stretch has so many or the file ends.
    fn fill_up(&mut self, symbols: usize) -> Result<(), Failure> {
        while self.held < symbols && self.some()? {
            let records = ((self.end - self.at) / RECORD).min(symbols - self.held);
            let raw = &self.raw[self.at..][..records * RECORD];
            let held = self.held..self.held + records;
            split(raw, &mut self.octets[held.clone()], &mut self.marks[held]);
            self.at += records * RECORD;
            self.held += records;
        }
        Ok(())
    }

    // Leaves out the middle of the one run that fills the stretch; its ending symbol, if the file has
    // one, becomes the stretch's last.
    fn shorten(&mut self) -> Result<(), Failure> {
        if !self.some()? {
            return Ok(());
        }
        self.held = SYMBOLS - 1;
        self.left_out = 1;
        while self.some()? {
            let records = self.raw[self.at..self.end].chunks_exact(RECORD);
            let data = records.take_while(|record| record[0] == 0).count();
            self.left_out += data as u64;
            self.at += data * RECORD;
            if self.at < self.end {
                self.marks[self.held] = self.raw[self.at];
                self.octets[self.held] = self.raw[self.at + 1];
                self.held += 1;
                self.at += RECORD;
                break;
            }
        }
        Ok(())
    }

    // Whether there are symbols to take, which are read if need be.
    fn some(&mut self) -> Result<bool, Failure> {
        if self.at == self.end && !self.ended {
            self.more()?;
            self.even()?;
        }
        Ok(self.at < self.end)
    }

    // Reads on; all that was read before has been taken.
    fn more(&mut self) -> Result<(), Failure> {
        self.at = 0;
        self.end = self.source.fill(&mut self.raw)?;
        self.seen += self.end as u64;
        self.ended = self.end < self.raw.len();
        let (read, all) = (self.read(), self.symbols());
        if let Some(progress) = &mut self.progress {
            progress.tell(self.source.name(), read, all, "symbols");
        }
        Ok(())
    }

    // A capture is whole records: by what was read, or before that by the length that the file has.
    fn even(&self) -> Result<(), Failure> {
        let known = self.source.octets().unwrap_or_default();
        let octets = if self.ended { self.seen } else { known };
        if octets % RECORD as u64 == 0 {
            return Ok(());
        }
        let what = format!(
            "is no capture: {octets} octets are no whole number of records of two, mark then \
             octet; copy it again if it was cut short"
        );
        Err(Failure::input(self.source.name(), what))
    }

    // What is said of a place that the file does not have.
    fn beyond(&self, place: u64, symbols: u64) -> Failure {
        let what = format!("place {place} is beyond its {symbols} symbols");
        Failure::input(self.source.name(), what)
    }
}
