//! What a station counts and times, and what its gaps are short of.
use crate::answers::Outcome;
use crate::limits::{CLASSES, OUTCOMES};
use crate::sys;
use core::fmt;

/// What a station keeps from call to call: a counter for each outcome, a timer for each class, and
/// the four-lane port's deficit count. A fresh one is all zeros.
///
/// A state is cloned, never copied by accident: two copies that are both used on would each miss
/// what the other counted.
///
/// ```
/// use fenhamper::{Capture, Outcome, Settings, State};
///
/// let mut state = State::default();
/// // Start, Start, Terminate: the first is cut by the second, which has no preamble
/// let capture = Capture::new(&[0xFB, 0xFB, 0xFD], &[1, 1, 1]);
/// capture.walk(&Settings::default(), &mut state)?;
/// assert_eq!(state.counter(Outcome::Cut), 1);
/// assert_eq!(state.counter(Outcome::BadPreamble), 1);
/// # Ok::<(), fenhamper::Refusal>(())
/// ```
#[derive(Clone, PartialEq, Eq, Hash)]
pub struct State {
    // as the header lays it out
    record: sys::State,
}

impl State {
    /// A state with these counters, in the order of the outcomes, and these timers, in slots, in
    /// the order of the classes. Of each timer the library reads the low 32 bits.
    ///
    /// ```
    /// use fenhamper::{Outcome, State};
    ///
    /// let mut timers = [0; 8];
    /// timers[3] = 64;
    /// let state = State::with([0, 0, 0, 0, 7, 0, 0, 0, 0, 0, 0], timers);
    /// assert_eq!(state.counter(Outcome::WrongFcs), 7);
    /// assert_eq!(state.timers(), [0, 0, 0, 64, 0, 0, 0, 0]);
    /// assert_eq!(State::with([0; 11], [0; 8]), State::default());
    /// ```
    #[must_use]
    pub fn with(counters: [u64; OUTCOMES], timers: [u64; CLASSES]) -> State {
        let mut record = sys::fresh_state();
        record.counters = counters;
        record.timers = timers;
        State { record }
    }

    /// The same state with this deficit count. Any number can stand there; above 3 it has every
    /// frame on the four-lane port refused (19), and no other call looks at it.
    ///
    /// ```
    /// use fenhamper::{Flow, Port, Refusal, Sender, Settings, State};
    ///
    /// let settings = Settings::default().flow(Flow::Pause);
    /// let (mut octets, mut marks) = ([0; 84], [0; 84]);
    /// let mut sender = Sender::new(&mut octets, &mut marks).on(Port::FourLane);
    /// let mut state = State::default().with_deficit(4);
    /// assert_eq!(
    ///     sender.pause(&settings, &mut state, 1),
    ///     Err(Refusal::HighDeficit)
    /// );
    /// assert_eq!(state.deficit(), 4);
    /// let mut state = state.with_deficit(3);
    /// assert_eq!(sender.pause(&settings, &mut state, 1), Ok(84));
    /// ```
    #[must_use]
    pub fn with_deficit(mut self, deficit: u64) -> State {
        self.record.deficit = deficit;
        self
    }

    /// How many Starts had this outcome, modulo 2^64.
    #[must_use]
    pub fn counter(&self, outcome: Outcome) -> u64 {
        self.record.counters[usize::from(outcome.number() - 1)]
    }

    /// All counters, in the order of the outcomes.
    #[must_use]
    pub fn counters(&self) -> [u64; OUTCOMES] {
        Outcome::ALL.map(|outcome| self.counter(outcome))
    }

    /// The 32-bit values of the management screen, in the order of the outcomes: of each counter
    /// the low 32 bits.
    ///
    /// ```
    /// use fenhamper::State;
    ///
    /// let state = State::with([(5 << 32) + 7; 11], [0; 8]);
    /// assert_eq!(state.screen(), [7; 11]);
    /// ```
    #[must_use]
    pub fn screen(&self) -> [u32; OUTCOMES] {
        sys::screen(&self.record)
    }

    /// The timer of a class, in slots; none for a class above 7.
    ///
    /// ```
    /// use fenhamper::State;
    ///
    /// let state = State::with([0; 11], [0, 0, 0, 64, 0, 0, 0, 0]);
    /// assert_eq!((state.timer(3), state.timer(7)), (Some(64), Some(0)));
    /// assert_eq!(state.timer(8), None);
    /// ```
    #[must_use]
    pub fn timer(&self, class: u8) -> Option<u64> {
        self.record.timers.get(usize::from(class)).copied()
    }

    /// The timers of classes 0 to 7, in slots. A slot is one symbol written: a class is let go once
    /// its timer's slots are written.
    #[must_use]
    pub fn timers(&self) -> [u64; CLASSES] {
        self.record.timers
    }

    /// The deficit count: how many symbols the gaps of the four-lane port are short of 12 each.
    /// Only frames sent on that [port](crate::Port) change it, and from 0 on it stays at 3 or less.
    #[must_use]
    pub fn deficit(&self) -> u64 {
        self.record.deficit
    }

    pub(crate) fn record(&mut self) -> &mut sys::State {
        &mut self.record
    }
}

/// A fresh state: all zeros.
impl Default for State {
    fn default() -> State {
        State {
            record: sys::fresh_state(),
        }
    }
}

impl fmt::Debug for State {
    fn fmt(&self, f: &mut fmt::Formatter<'_>) -> fmt::Result {
        f.debug_struct("State")
            .field("counters", &self.counters())
            .field("timers", &self.timers())
            .field("deficit", &self.deficit())
            .finish()
    }
}
