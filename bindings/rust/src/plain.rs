//! The plain reader: one symbol at a time, with no capture.
use crate::answers::{Outcome, Refusal, Status, Way};
use crate::listener::Listener;
use crate::receive::Capture;
use crate::state::State;
use crate::sys;
use core::fmt;

/// A line symbol: an octet, and its mark, 0 for data and anything else for control.
///
/// ```
/// use fenhamper::Symbol;
///
/// assert_eq!(Symbol::control(0xFB), Symbol { octet: 0xFB, mark: 1 });
/// assert_eq!(Symbol::data(0x55), Symbol::from([0, 0x55]));
/// ```
#[derive(Clone, Copy, Debug, PartialEq, Eq, Hash)]
pub struct Symbol {
    /// The octet.
    pub octet: u8,
    /// The mark.
    pub mark: u8,
}

impl Symbol {
    /// A data symbol.
    #[must_use]
    pub const fn data(octet: u8) -> Symbol {
        Symbol { octet, mark: 0 }
    }

    /// A control symbol, with mark 1.
    #[must_use]
    pub const fn control(octet: u8) -> Symbol {
        Symbol { octet, mark: 1 }
    }
}

/// Of a record, mark then octet, as [`Capture::records`] gives them.
impl From<[u8; 2]> for Symbol {
    fn from([mark, octet]: [u8; 2]) -> Symbol {
        Symbol { octet, mark }
    }
}

/// The plain reader of a capture that need not be there: it takes one symbol at a time, and keeps
/// of the run in progress a count, the first octets, the last four and a running FCS. It answers at
/// the control symbol that ends the run, as a reading of that Start does.
///
/// ```
/// use fenhamper::{Outcome, Plain, Settings, Symbol};
///
/// let settings = Settings::default();
/// let mut plain = Plain::new(&settings);
/// // Start, one data octet, Start: the second cuts the first and is not lost
/// assert_eq!(plain.push(Symbol::control(0xFB))?, None);
/// assert_eq!(plain.push(Symbol::data(0x55))?, None);
/// let told = plain.push(Symbol::control(0xFB))?.expect("a run ends here");
/// assert_eq!((told.start, told.next, told.outcome), (0, 2, Outcome::Cut));
/// assert!(plain.is_open());
/// let told = plain.push(Symbol::control(0xFD))?.expect("a run ends here");
/// assert_eq!((told.start, told.outcome), (2, Outcome::BadPreamble));
/// assert!(!plain.is_open());
/// assert_eq!((plain.place(), plain.state.counter(Outcome::Cut)), (4, 1));
/// # Ok::<(), fenhamper::Refusal>(())
/// ```
///
/// A run is judged by the listener that stands there at its end. The data is told by its place and
/// length in the capture:
///
/// ```
/// use fenhamper::{Address, Frame, Job, Plain, Sender, Settings, State, Symbol, Table, Way};
///
/// let group = Address([0x01, 0, 0x5E, 0, 0, 1]);
/// let mut table = Table::new();
/// table.add(Job::One, group)?;
/// let (settings, mut state) = (Settings::default(), State::default());
/// let (mut octets, mut marks) = ([0; 84], [0; 84]);
/// let mut sender = Sender::new(&mut octets, &mut marks);
/// sender.client(&settings, &mut state, &Frame::to(group), b"to the group")?;
/// let capture = sender.written();
///
/// let mut plain = Plain::new(settings.listing(Job::One, &table)).with_state(state);
/// for symbol in capture.records().map(Symbol::from) {
///     if let Some(told) = plain.push(symbol)? {
///         assert_eq!((told.way, told.data(capture)), (Some(Way::Entry(0)), &b"to the group"[..]));
///     }
/// }
/// # Ok::<(), fenhamper::Refusal>(())
/// ```
#[derive(Clone, PartialEq, Eq, Hash)]
pub struct Plain<'t> {
    /// Who listens.
    pub listener: Listener<'t>,
    /// Counters and timers; the deficit count stays.
    pub state: State,
    // as the header lays it out
    record: sys::Plain,
}

impl<'t> Plain<'t> {
    /// A reader in front of a capture, with a fresh state.
    #[must_use]
    pub fn new(listener: impl Into<Listener<'t>>) -> Plain<'t> {
        Plain {
            listener: listener.into(),
            state: State::default(),
            record: sys::plain_fresh(),
        }
    }

    /// The same reader with this state.
    #[must_use]
    pub fn with_state(mut self, state: State) -> Plain<'t> {
        self.state = state;
        self
    }

    /// Takes the next symbol. Where it is a control symbol and a run is in progress, that is what
    /// became of the run: its outcome is counted, and a pause or PFC frame that is taken sets timers.
    ///
    /// # Errors
    ///
    /// The first of refusals 1, 20 and 2 that holds: bad settings, a bad table, and a symbol after
    /// [`SYMBOLS`](crate::SYMBOLS) of them. Then the reader and its state are what they were.
    pub fn push(&mut self, symbol: Symbol) -> Result<Option<Told>, Refusal> {
        let (start, next) = (self.record.start as usize, self.place());
        let told = sys::plain_symbol(
            self.listener.settings.record(),
            self.listener.job.number(),
            self.listener.table.record(),
            self.state.record(),
            &mut self.record,
            symbol.octet,
            symbol.mark,
        );
        Refusal::check(told.refusal)?;
        if told.counted == 0 {
            return Ok(None);
        }
        Ok(Some(Told {
            start,
            next,
            outcome: Outcome::of(told.outcome).ok_or(Refusal::Unknown(0))?,
            status: Status::new(told.status),
            way: Way::check(told.way)?,
            at: told.data_place as usize,
            length: told.data_length as usize,
        }))
    }

    /// How many symbols were taken: the place of the next one in the capture.
    #[must_use]
    pub const fn place(&self) -> usize {
        self.record.place as usize
    }

    /// Whether a run is in progress. A capture that ends here ends open.
    #[must_use]
    pub const fn is_open(&self) -> bool {
        self.record.running != 0
    }

    /// How many octets the run in progress has, if there is one.
    #[must_use]
    pub const fn run(&self) -> Option<usize> {
        if self.is_open() {
            Some(self.record.count as usize)
        } else {
            None
        }
    }
}

impl fmt::Debug for Plain<'_> {
    fn fmt(&self, f: &mut fmt::Formatter<'_>) -> fmt::Result {
        f.debug_struct("Plain")
            .field("listener", &self.listener)
            .field("state", &self.state)
            .field("place", &self.place())
            .field("run", &self.run())
            .finish()
    }
}

/// What the plain reader tells of a Start whose run has ended.
#[derive(Clone, Copy, Debug, PartialEq, Eq, Hash)]
#[non_exhaustive]
pub struct Told {
    /// The Start's place.
    pub start: usize,
    /// The place of the control symbol that ended the run.
    pub next: usize,
    /// The outcome.
    pub outcome: Outcome,
    /// The status word.
    pub status: Status,
    /// Which address let the frame in; none for outcomes 1 to 7.
    pub way: Option<Way>,
    /// Where the client data begins in the capture; 0 for outcomes 1 to 10.
    pub at: usize,
    /// How many octets of client data there are; 0 for outcomes 1 to 10.
    pub length: usize,
}

impl Told {
    /// The client data, where the capture is there whose symbols were pushed; empty for outcomes 1
    /// to 10, and where it does not lie inside.
    #[must_use]
    pub fn data<'a>(&self, capture: Capture<'a>) -> &'a [u8] {
        capture.part(self.at, self.length)
    }
}
