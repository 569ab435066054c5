//! What the plain reader was given and told, for the coverage table. What it was given is told here
//! by the symbols alone, not by either reader.
use crate::generate::{PREAMBLE, START, SYMBOLS};
use crate::raw::plain::Plain;
use crate::seen::{bad_settings, FrameSeen};
use crate::seen_jobs::TableOf;
use crate::seen_reason::Face;
use reference::{Ended, Settings, State};

/// The symbols that a reader took so far.
#[derive(Clone, Copy)]
pub struct Line<'a> {
    octets: &'a [u8],
    /// How many: the place of the next one.
    pub place: usize,
    /// The Start behind which a run is in progress.
    pub begun: Option<Begun<'a>>,
    /// Data stands behind the last control symbol, or in front of all; of it an 0xFB.
    pub data: bool,
    pub data_start: bool,
}

/// A Start, and what came with it.
#[derive(Clone, Copy)]
pub struct Begun<'a> {
    /// Its place.
    pub place: usize,
    /// Its mark.
    pub mark: u8,
    /// How many Starts in a row ended a run, this one the last; 0 if it ended none.
    pub cuts: usize,
    /// The settings and the job.
    pub s: &'a Settings,
    pub job: u8,
    /// The refusal of a symbol since, or 0.
    pub refused: u8,
}

impl<'a> Line<'a> {
    /// Before the first of these symbols.
    pub fn new(octets: &'a [u8]) -> Line<'a> {
        Line {
            octets,
            place: 0,
            begun: None,
            data: false,
            data_start: false,
        }
    }

    /// A symbol was taken, with these settings and this job.
    pub fn take(&mut self, (octet, mark): (u8, u8), s: &'a Settings, job: u8) {
        if mark != 0 {
            self.begun = (octet == START).then_some(Begun {
                place: self.place,
                mark,
                cuts: self.begun.map_or(0, |before| before.cuts + 1),
                s,
                job,
                refused: 0,
            });
        }
        self.data = mark == 0;
        self.data_start = mark == 0 && (self.data_start || octet == START);
        self.place += 1;
    }

    /// One was refused.
    pub fn refuse(&mut self, refusal: u8) {
        if let Some(begun) = &mut self.begun {
            begun.refused = refusal;
        }
    }

    /// The octets of the run in progress.
    pub fn run(&self) -> Option<&'a [u8]> {
        let begun = self.begun?;
        self.octets.get(begun.place + 1..self.place)
    }
}

/// A symbol, or the end of a capture.
pub struct PlainSeen<'a> {
    /// Through which face.
    pub face: Face,
    /// The settings.
    pub s: &'a Settings,
    /// The job and the table.
    pub job: u8,
    pub table: TableOf<'a>,
    /// The symbols before it.
    pub line: Line<'a>,
    /// The symbol; none at the end of a capture.
    pub symbol: Option<(u8, u8)>,
    /// The refusal, or 0.
    pub refusal: u8,
    /// What was told.
    pub told: Option<Ended>,
    /// The state before and after.
    pub before: &'a State,
    pub after: &'a State,
    /// The reader is what it was.
    pub stays: bool,
    /// A run is in progress behind it.
    pub open: bool,
    /// The frame of a run that ended, behind a right preamble.
    pub frame: Option<FrameSeen<'a>>,
}

impl<'a> PlainSeen<'a> {
    /// The frame that a symbol behind this line ends, if it is a control symbol.
    pub fn ended(line: &Line<'a>, mark: u8) -> Option<FrameSeen<'a>> {
        let run = line.run().filter(|_| mark != 0)?;
        // its FCS is judged whatever becomes of it
        Some(FrameSeen::new(run.strip_prefix(&PREAMBLE)?, 5))
    }

    /// The outcome that was told, or 0.
    pub fn outcome(&self) -> u8 {
        self.told.map_or(0, |told| told.outcome)
    }

    /// The symbol is this octet, with any mark but 0.
    pub fn control(&self, by: u8) -> bool {
        self.symbol
            .is_some_and(|(octet, mark)| octet == by && mark != 0)
    }

    /// Whether one of the refusals holds, by itself.
    pub fn holds(&self, refusal: u8) -> bool {
        match refusal {
            1 => bad_settings(self.s),
            14 => self.job > 1,
            20 => self.table.broken(),
            2 => self.line.place >= SYMBOLS,
            _ => false,
        }
    }

    /// The symbol was not refused.
    pub fn taken(&self) -> bool {
        self.symbol.is_some() && self.refusal == 0
    }

    /// The run in progress has so many octets.
    pub fn run_of(&self, octets: usize) -> bool {
        self.line.run().is_some_and(|run| run.len() == octets)
    }

    /// A frame of which this is true got this far or further.
    pub fn framed(&self, outcome: u8, test: impl FnOnce(&FrameSeen) -> bool) -> bool {
        self.outcome() >= outcome && self.frame.as_ref().is_some_and(test)
    }

    /// A frame of which this is true got exactly this outcome.
    pub fn is(&self, outcome: u8, test: impl FnOnce(&FrameSeen) -> bool) -> bool {
        self.outcome() == outcome && self.framed(outcome, test)
    }

    /// A Start of which this is true got this outcome.
    pub fn begun(&self, outcome: u8, test: impl FnOnce(&Begun) -> bool) -> bool {
        self.outcome() == outcome && self.line.begun.as_ref().is_some_and(test)
    }

    /// How many octets of data the status word has: all of them, or those handed out.
    fn data_length(&self, frame: &FrameSeen) -> usize {
        let field = usize::from(frame.field);
        match self.outcome() {
            11 if self.s.checking && field < 46 => field,
            _ => frame.data.len(),
        }
    }

    /// The word of document 01 for the frame of an outcome from 8 on.
    pub fn word(&self, frame: &FrameSeen) -> u64 {
        let (group, everyone) = (frame.to[0] & 1 == 1, frame.to == [0xFF; 6]);
        let bits = [
            (39, self.outcome() == 9),
            (38, !group),
            (37, group && !everyone),
            (36, everyone),
            (35, self.outcome() == 8),
            (34, frame.control()),
            (33, frame.tags == 1),
            (32, frame.tags > 1),
        ];
        let bits = bits.iter().map(|&(bit, on)| u64::from(on) << bit);
        bits.sum::<u64>() + ((frame.size as u64) << 16) + self.data_length(frame) as u64
    }

    /// What was told of a frame that is handed out: behind Start, preamble, addresses, tags and field.
    pub fn part(&self, frame: &FrameSeen) -> (usize, usize) {
        let start = self.line.begun.map_or(0, |begun| begun.place);
        (start + 22 + 4 * frame.tags, self.data_length(frame))
    }

    /// This counter rose by one, and no other changed.
    pub fn counted(&self, outcome: u8) -> bool {
        let mut counters = self.before.counters;
        let counter = &mut counters[usize::from(outcome - 1)];
        *counter = counter.wrapping_add(1);
        self.after.counters == counters
    }

    /// The timers behind a frame with this outcome.
    pub fn timers(&self, frame: &FrameSeen) -> [u32; 8] {
        let slots = |quanta: u16| u32::from(quanta) * 64;
        std::array::from_fn(|class| match self.outcome() {
            8 => slots(frame.quanta()),
            9 if frame.named() >> class & 1 == 1 => slots(frame.class_quanta(class)),
            _ => self.before.timers[class],
        })
    }

    /// The job lists an address by this entry alone.
    pub fn listed_at(&self, k: usize, address: &[u8; 6]) -> bool {
        self.table.listed_at(self.job, address).eq([k])
    }

    /// Of the two jobs this one alone lists an address.
    pub fn only_of(&self, job: u8, address: &[u8; 6]) -> bool {
        let lists = |job: u8| self.table.listed_at(job, address).next().is_some();
        lists(job) && !lists(1 - job)
    }

    /// The other job lists an address, and this one does not.
    pub fn of_the_other(&self, address: &[u8; 6]) -> bool {
        self.only_of(1 - self.job.min(1), address)
    }
}

/// A symbol that any record of a reader got.
pub struct AnyPlainSeen<'a> {
    /// The settings.
    pub s: &'a Settings,
    /// The refusals that hold, in their order: 1, 14, 20 and 2.
    pub holds: [bool; 4],
    /// The reader before and after.
    pub before: &'a Plain,
    pub after: &'a Plain,
    /// The symbol.
    pub octet: u8,
    pub mark: u8,
    /// The refusal, or 0.
    pub refusal: u8,
    /// The outcome told, or 0.
    pub outcome: u8,
    /// How many tags it has kept.
    pub tags: usize,
}
