//! Reading captures.
use crate::answers::{Outcome, Refusal, Status, Way};
use crate::listener::Listener;
use crate::state::State;
use crate::sys;
use core::fmt;
use core::hash::{Hash, Hasher};
use core::iter::FusedIterator;

/// A captured stretch of line symbols: the octets, and beside each its mark, 0 for data and
/// anything else for control.
///
/// Any two slices make a capture; if they differ in length or exceed [`SYMBOLS`](crate::SYMBOLS),
/// its readings are refused (2).
#[derive(Clone, Copy, Debug, PartialEq, Eq, Hash)]
pub struct Capture<'a> {
    /// The symbols' octets.
    pub octets: &'a [u8],
    /// The symbols' marks.
    pub marks: &'a [u8],
}

impl<'a> Capture<'a> {
    /// The capture of these octets and marks.
    #[must_use]
    pub const fn new(octets: &'a [u8], marks: &'a [u8]) -> Capture<'a> {
        Capture { octets, marks }
    }

    /// Reads the first Start at `place` or later. Its outcome is counted, and a pause or PFC frame
    /// that is taken sets timers.
    ///
    /// ```
    /// use fenhamper::{Capture, Outcome, Reading, Settings, State};
    ///
    /// // Start, Idle; Start, one data octet, Terminate; Start, one data octet
    /// let capture = Capture::new(
    ///     &[0xFB, 0x07, 0xFB, 0x55, 0xFD, 0xFB, 0x55],
    ///     &[1, 1, 1, 0, 1, 1, 0],
    /// );
    /// let (settings, mut state) = (Settings::default(), State::default());
    /// let mut place = 0;
    /// let mut outcomes = Vec::new();
    /// while let Reading::Counted(r) = capture.read(&settings, &mut state, place)? {
    ///     outcomes.push((r.start, r.outcome));
    ///     place = r.next;
    /// }
    /// assert_eq!(outcomes, [(0, Outcome::Cut), (2, Outcome::BadPreamble)]);
    /// let last = capture.read(&settings, &mut state, place)?;
    /// assert_eq!(last, Reading::Open { start: 5 });
    /// # Ok::<(), fenhamper::Refusal>(())
    /// ```
    ///
    /// Settings alone list nothing. A job that lists addresses is a [`Listener`]:
    ///
    /// ```
    /// use fenhamper::{Address, Capture, Frame, Job, Reading, Sender, Settings, State, Table, Way};
    ///
    /// let group = Address([0x01, 0, 0x5E, 0, 0, 1]);
    /// let mut table = Table::new();
    /// table.add(Job::One, group)?;
    /// let (settings, mut state) = (Settings::default(), State::default());
    /// let (mut octets, mut marks) = ([0; 84], [0; 84]);
    /// let mut sender = Sender::new(&mut octets, &mut marks);
    /// sender.client(&settings, &mut state, &Frame::to(group), b"to the group")?;
    /// let capture = Capture::new(&octets, &marks);
    /// let listener = settings.listing(Job::One, &table);
    /// let Reading::Counted(r) = capture.read(listener, &mut state, 0)? else {
    ///     panic!("no frame")
    /// };
    /// assert_eq!((r.way, r.data), (Some(Way::Entry(0)), &b"to the group"[..]));
    /// # Ok::<(), fenhamper::Refusal>(())
    /// ```
    ///
    /// # Errors
    ///
    /// The first of refusals 1, 2, 3 and 20 that holds: bad settings, bad buffers, a place beyond the
    /// capture, a bad table.
    pub fn read<'t>(
        &self,
        listener: impl Into<Listener<'t>>,
        state: &mut State,
        place: usize,
    ) -> Result<Reading<'a>, Refusal> {
        let who = listener.into();
        let r = sys::read(
            who.settings.record(),
            who.job.number(),
            who.table.record(),
            state.record(),
            self.octets,
            self.marks,
            place,
        );
        Refusal::check(r.refusal)?;
        let start = r.start as usize;
        match r.kind {
            sys::COUNTED => {
                let at = r.data_place as usize;
                Ok(Reading::Counted(Counted {
                    start,
                    next: r.next as usize,
                    outcome: Outcome::of(r.outcome).ok_or(Refusal::Unknown(0))?,
                    status: Status::new(r.status),
                    way: Way::check(r.way)?,
                    at,
                    data: self.part(at, r.data_length as usize),
                    capture: self.octets,
                }))
            }
            sys::NONE => Ok(Reading::Nothing { end: start }),
            sys::OPEN => Ok(Reading::Open { start }),
            _ => Err(Refusal::Unknown(0)),
        }
    }

    // The octets of a part; none where it does not lie inside.
    pub(crate) fn part(&self, at: usize, length: usize) -> &'a [u8] {
        let part = sys::client_data(self.octets.len(), at, length);
        let from = self.octets.get(part.place as usize..);
        let inside = from.and_then(|from| from.get(..part.length as usize));
        inside.unwrap_or_default()
    }

    /// Reads Start after Start from place 0 on until there is none or the last is still open, all
    /// in one call.
    ///
    /// ```
    /// use fenhamper::{Capture, Settings, State};
    ///
    /// let capture = Capture::new(&[0xFB, 0x07, 0xFB, 0x55, 0xFD], &[1, 1, 1, 0, 1]);
    /// let walk = capture.walk(&Settings::default(), &mut State::default())?;
    /// assert_eq!((walk.starts, walk.open), (2, false));
    /// # Ok::<(), fenhamper::Refusal>(())
    /// ```
    ///
    /// # Errors
    ///
    /// Refusals 1, 2 and 20, as a reading at place 0 has them.
    pub fn walk<'t>(
        &self,
        listener: impl Into<Listener<'t>>,
        state: &mut State,
    ) -> Result<Walk, Refusal> {
        let who = listener.into();
        let w = sys::walk(
            who.settings.record(),
            who.job.number(),
            who.table.record(),
            state.record(),
            self.octets,
            self.marks,
        );
        Refusal::check(w.refusal)?;
        Ok(Walk {
            starts: w.starts as usize,
            open: w.open != 0,
        })
    }

    /// Hands out reading after reading from place 0 on, until there is none or the last is still
    /// open.
    ///
    /// ```
    /// use fenhamper::{Capture, Outcome, Settings, State};
    ///
    /// let capture = Capture::new(&[0xFB, 0x07, 0xFB, 0x55], &[1, 1, 1, 0]);
    /// let (settings, mut state) = (Settings::default(), State::default());
    /// let mut readings = capture.readings(&settings, &mut state);
    /// for reading in readings.by_ref() {
    ///     let r = reading?;
    ///     println!("{} at {}: {} octets", r.outcome, r.start, r.data.len());
    /// }
    /// assert!(readings.ended_open());
    /// assert_eq!(readings.place(), 2);
    /// assert_eq!(state.counter(Outcome::Cut), 1);
    /// # Ok::<(), fenhamper::Refusal>(())
    /// ```
    pub fn readings<'s>(
        &self,
        listener: impl Into<Listener<'s>>,
        state: &'s mut State,
    ) -> Readings<'a, 's> {
        Readings {
            capture: *self,
            listener: listener.into(),
            state,
            place: 0,
            stage: Stage::Going,
        }
    }
}

/// What a reading found.
///
/// ```
/// use fenhamper::{Capture, Reading, Settings, State};
///
/// let idle = Capture::new(&[0x07; 12], &[1; 12]);
/// match idle.read(&Settings::default(), &mut State::default(), 0)? {
///     Reading::Counted(r) => {
///         println!("{} at {}: {} octets", r.outcome, r.start, r.data.len())
///     }
///     Reading::Open { start } => println!("read again from {start} when there is more"),
///     Reading::Nothing { end } => assert_eq!(end, 12),
/// }
/// # Ok::<(), fenhamper::Refusal>(())
/// ```
#[derive(Clone, Copy, Debug, PartialEq, Eq, Hash)]
pub enum Reading<'a> {
    /// No further Start.
    Nothing {
        /// The capture's length.
        end: usize,
    },
    /// A Start whose run has not ended inside the capture. Nothing is counted; it is read again
    /// when there is more.
    Open {
        /// The Start's place.
        start: usize,
    },
    /// A Start, counted.
    Counted(Counted<'a>),
}

impl Reading<'_> {
    /// The Start's place; the capture's length if there is none.
    ///
    /// ```
    /// use fenhamper::{Capture, Settings, State};
    ///
    /// let capture = Capture::new(&[0x07, 0xFB, 0xFD], &[1, 1, 1]);
    /// let reading = capture.read(&Settings::default(), &mut State::default(), 0)?;
    /// assert_eq!((reading.start(), reading.next()), (1, 2));
    /// # Ok::<(), fenhamper::Refusal>(())
    /// ```
    #[must_use]
    pub const fn start(&self) -> usize {
        match self {
            Reading::Nothing { end } => *end,
            Reading::Open { start } => *start,
            Reading::Counted(counted) => counted.start,
        }
    }

    /// Where to read on: at the symbol that ended the run, at the Start if it is open, at the
    /// capture's length if there is none.
    #[must_use]
    pub const fn next(&self) -> usize {
        match self {
            Reading::Nothing { end } => *end,
            Reading::Open { start } => *start,
            Reading::Counted(counted) => counted.next,
        }
    }

    // As the header lays it out.
    pub(crate) fn record(&self) -> sys::Reading {
        let uncounted = |kind| sys::Reading {
            kind,
            start: self.start() as u64,
            next: self.next() as u64,
            ..sys::Reading::default()
        };
        match self {
            Reading::Nothing { .. } => uncounted(sys::NONE),
            Reading::Open { .. } => uncounted(sys::OPEN),
            Reading::Counted(counted) => counted.record(),
        }
    }
}

/// A Start that was counted.
///
/// ```
/// use fenhamper::{Address, Capture, Frame, Outcome, Reading, Sender, Settings, State, Way};
///
/// let own = Address([0x02, 0, 0, 0, 0, 1]);
/// let (settings, mut state) = (Settings::new(own), State::default());
/// let (mut octets, mut marks) = ([0; 84], [0; 84]);
/// let mut sender = Sender::new(&mut octets, &mut marks);
/// sender.client(&settings, &mut state, &Frame::to(own), b"talkback")?;
/// let capture = Capture::new(&octets, &marks);
/// let Reading::Counted(r) = capture.read(&settings, &mut state, 0)? else {
///     panic!("no frame")
/// };
/// assert_eq!((r.start, r.next, r.outcome), (0, 72, Outcome::HandedOut));
/// assert_eq!(r.status.frame_length(), 64);
/// assert_eq!(r.way, Some(Way::Own));
/// assert_eq!(r.data, b"talkback");
/// # Ok::<(), fenhamper::Refusal>(())
/// ```
#[derive(Clone, Copy)]
#[non_exhaustive]
pub struct Counted<'a> {
    /// The Start's place.
    pub start: usize,
    /// The place of the control symbol that ended the run: where to read on.
    pub next: usize,
    /// The outcome.
    pub outcome: Outcome,
    /// The status word.
    pub status: Status,
    /// Which address let the frame in; none for outcomes 1 to 7.
    pub way: Option<Way>,
    /// Where the client data stands in the capture's octets; 0 for outcomes 1 to 10.
    pub at: usize,
    /// The client data, a part of the capture's octets; empty for outcomes 1 to 10.
    pub data: &'a [u8],
    // the octets that were read
    pub(crate) capture: &'a [u8],
}

impl Counted<'_> {
    // All but the capture.
    fn answer(&self) -> (usize, usize, Outcome, Status, Option<Way>, usize, &[u8]) {
        let Counted {
            start,
            next,
            outcome,
            status,
            way,
            at,
            data,
            ..
        } = *self;
        (start, next, outcome, status, way, at, data)
    }

    // As the header lays it out.
    pub(crate) fn record(&self) -> sys::Reading {
        sys::Reading {
            kind: sys::COUNTED,
            outcome: self.outcome.number().into(),
            start: self.start as u64,
            next: self.next as u64,
            status: self.status.word(),
            data_place: self.at as u64,
            data_length: self.data.len() as u64,
            way: self.way.map_or(sys::WAY_NONE, Way::number).into(),
            ..sys::Reading::default()
        }
    }
}

/// Equal are readings with the same answer and the same run; what else the captures have makes no
/// difference.
impl PartialEq for Counted<'_> {
    fn eq(&self, other: &Counted<'_>) -> bool {
        self.answer() == other.answer() && self.run() == other.run()
    }
}

impl Eq for Counted<'_> {}

impl Hash for Counted<'_> {
    fn hash<H: Hasher>(&self, state: &mut H) {
        self.answer().hash(state);
    }
}

impl fmt::Debug for Counted<'_> {
    fn fmt(&self, f: &mut fmt::Formatter<'_>) -> fmt::Result {
        f.debug_struct("Counted")
            .field("start", &self.start)
            .field("next", &self.next)
            .field("outcome", &self.outcome)
            .field("status", &self.status)
            .field("way", &self.way)
            .field("at", &self.at)
            .field("data", &self.data)
            .finish_non_exhaustive()
    }
}

/// What a walk over a whole capture found; see [`Capture::walk`].
#[derive(Clone, Copy, Debug, PartialEq, Eq, Hash)]
pub struct Walk {
    /// How many Starts were counted.
    pub starts: usize,
    /// Whether a last Start's run has not ended inside the capture.
    pub open: bool,
}

#[derive(Clone, Copy, Debug, PartialEq, Eq)]
enum Stage {
    Going,
    Ended,
    Open,
}

/// The counted readings of a capture, in order, made by [`Capture::readings`]. A refusal is handed
/// out once, and is the last.
#[derive(Debug)]
#[must_use]
pub struct Readings<'a, 's> {
    capture: Capture<'a>,
    listener: Listener<'s>,
    state: &'s mut State,
    place: usize,
    stage: Stage,
}

impl Readings<'_, '_> {
    /// Begins at another place than 0, as where an earlier capture ended open.
    ///
    /// ```
    /// use fenhamper::{Capture, Settings, State};
    ///
    /// let capture = Capture::new(&[0xFB, 0x07, 0xFB, 0x07], &[1; 4]);
    /// let (settings, mut state) = (Settings::default(), State::default());
    /// assert_eq!(capture.readings(&settings, &mut state).at(1).count(), 1);
    /// ```
    pub fn at(mut self, place: usize) -> Self {
        self.place = place;
        self
    }

    /// Where the next reading is made; after the end, where to read on.
    #[must_use]
    pub fn place(&self) -> usize {
        self.place
    }

    /// Whether the readings ended at a Start whose run has not ended inside the capture.
    #[must_use]
    pub fn ended_open(&self) -> bool {
        self.stage == Stage::Open
    }
}

impl<'a> Iterator for Readings<'a, '_> {
    type Item = Result<Counted<'a>, Refusal>;

    fn next(&mut self) -> Option<Self::Item> {
        if self.stage != Stage::Going {
            return None;
        }
        let reading = self.capture.read(self.listener, self.state, self.place);
        match reading {
            Ok(Reading::Counted(counted)) => {
                self.place = counted.next;
                return Some(Ok(counted));
            }
            Ok(Reading::Open { start }) => {
                self.place = start;
                self.stage = Stage::Open;
            }
            Ok(Reading::Nothing { end }) => {
                self.place = end;
                self.stage = Stage::Ended;
            }
            Err(refusal) => {
                self.stage = Stage::Ended;
                return Some(Err(refusal));
            }
        }
        None
    }
}

impl FusedIterator for Readings<'_, '_> {}
