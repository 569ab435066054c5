//! What a station is set to.
use crate::address::Address;
use crate::listener::Listener;
use crate::sys;
use crate::table::{Job, Table};
use core::fmt;

/// The flow mode: which control frames can be sent, and which are taken and set timers.
///
/// ```
/// use fenhamper::{Flow, Settings};
///
/// assert_eq!(Settings::default(), Settings::default().flow(Flow::Off));
/// ```
#[derive(Clone, Copy, Debug, Default, PartialEq, Eq, Hash)]
pub enum Flow {
    /// None.
    #[default]
    Off,
    /// Pause frames, which set the timers of all classes.
    Pause,
    /// Priority pause (PFC) frames, which set the timers of the classes that they name.
    Pfc,
}

impl Flow {
    // Of the number in the record.
    const fn of(number: u8) -> Flow {
        match number {
            sys::FLOW_PAUSE => Flow::Pause,
            sys::FLOW_PFC => Flow::Pfc,
            _ => Flow::Off,
        }
    }
}

/// What a station is set to. Any settings can be made; those that document 01 does not allow get
/// refusal 1 from each call that takes them.
///
/// ```
/// use fenhamper::{Address, Flow, Settings};
///
/// let settings = Settings::new(Address([0x02, 0, 0, 0, 0, 1]))
///     .limit(9618)
///     .flow(Flow::Pause);
/// assert_ne!(settings, settings.promiscuous(true));
/// assert!(format!("{settings:?}").ends_with("pass_control: false, flow: Pause, limit: 9618 }"));
/// ```
#[derive(Clone, Copy, PartialEq, Eq, Hash)]
#[must_use]
pub struct Settings {
    // as the header lays them out: a call lends them as they are
    record: sys::Settings,
}

impl Settings {
    /// The printing program's settings with this own address: broadcast on, promiscuous off, lengths
    /// checked, control frames not passed, flow mode none, M 1518.
    pub const fn new(own: Address) -> Settings {
        Settings {
            record: sys::Settings {
                own: own.record(),
                broadcast: 1,
                promiscuous: 0,
                checking: 1,
                pass_control: 0,
                flow: sys::FLOW_NONE,
                unused: 0,
                limit: sys::LEAST_LIMIT,
                spare: [0; 10],
            },
        }
    }

    /// Whether broadcast is accepted.
    pub const fn broadcast(mut self, on: bool) -> Settings {
        self.record.broadcast = on as u8;
        self
    }

    /// Whether every destination is accepted.
    pub const fn promiscuous(mut self, on: bool) -> Settings {
        self.record.promiscuous = on as u8;
        self
    }

    /// Whether lengths are checked, and padding is left off what is handed out.
    pub const fn checking(mut self, on: bool) -> Settings {
        self.record.checking = on as u8;
        self
    }

    /// The limit M on a frame's octets from destination to FCS, which grows by 4 for each tag of a
    /// frame; outside 1518 to 9618 the settings are refused (1).
    pub const fn limit(mut self, limit: u16) -> Settings {
        self.record.limit = limit;
        self
    }

    /// The flow mode.
    pub const fn flow(mut self, flow: Flow) -> Settings {
        self.record.flow = match flow {
            Flow::Off => sys::FLOW_NONE,
            Flow::Pause => sys::FLOW_PAUSE,
            Flow::Pfc => sys::FLOW_PFC,
        };
        self
    }

    /// Whether control frames that are not taken are handed out.
    pub const fn pass_control(mut self, on: bool) -> Settings {
        self.record.pass_control = on as u8;
        self
    }

    /// The own address.
    ///
    /// ```
    /// use fenhamper::{Address, Flow, Settings};
    ///
    /// let settings = Settings::default();
    /// assert_eq!(settings.own(), Address([0x02, 0, 0, 0, 0, 1]));
    /// assert!(settings.accepts_broadcast() && !settings.is_promiscuous());
    /// assert!(settings.checks_lengths() && !settings.passes_control());
    /// assert_eq!((settings.frame_limit(), settings.flow_mode()), (1518, Flow::Off));
    /// ```
    #[must_use]
    pub const fn own(&self) -> Address {
        Address::of(self.record.own)
    }

    /// Whether broadcast is accepted.
    #[must_use]
    pub const fn accepts_broadcast(&self) -> bool {
        self.record.broadcast != 0
    }

    /// Whether every destination is accepted.
    #[must_use]
    pub const fn is_promiscuous(&self) -> bool {
        self.record.promiscuous != 0
    }

    /// Whether lengths are checked, and padding is left off what is handed out.
    #[must_use]
    pub const fn checks_lengths(&self) -> bool {
        self.record.checking != 0
    }

    /// Whether control frames that are not taken are handed out.
    #[must_use]
    pub const fn passes_control(&self) -> bool {
        self.record.pass_control != 0
    }

    /// The flow mode.
    #[must_use]
    pub const fn flow_mode(&self) -> Flow {
        Flow::of(self.record.flow)
    }

    /// The limit M.
    #[must_use]
    pub const fn frame_limit(&self) -> u16 {
        self.record.limit
    }

    /// A job that is set to this, and lists addresses in a table: who listens, where a capture is
    /// read.
    ///
    /// ```
    /// use fenhamper::{Address, Capture, Job, Listener, Settings, State, Table};
    ///
    /// let settings = Settings::new(Address([0x02, 0, 0, 0, 0, 1]));
    /// let table = Table::new();
    /// let listener = settings.listing(Job::One, &table);
    /// assert_eq!(listener, Listener { settings, job: Job::One, table: &table });
    /// Capture::new(&[], &[]).walk(listener, &mut State::default())?;
    /// # Ok::<(), fenhamper::Refusal>(())
    /// ```
    #[must_use]
    pub const fn listing(self, job: Job, table: &Table) -> Listener<'_> {
        Listener {
            settings: self,
            job,
            table,
        }
    }

    // As the header lays them out.
    pub(crate) const fn record(&self) -> &sys::Settings {
        &self.record
    }
}

impl fmt::Debug for Settings {
    fn fmt(&self, f: &mut fmt::Formatter<'_>) -> fmt::Result {
        f.debug_struct("Settings")
            .field("own", &self.own())
            .field("broadcast", &self.accepts_broadcast())
            .field("promiscuous", &self.is_promiscuous())
            .field("checking", &self.checks_lengths())
            .field("pass_control", &self.passes_control())
            .field("flow", &self.flow_mode())
            .field("limit", &self.frame_limit())
            .finish()
    }
}

/// The printing program's settings: own address 02-00-00-00-00-01, the rest as by
/// [`Settings::new`].
impl Default for Settings {
    fn default() -> Settings {
        Settings::new(Address([0x02, 0, 0, 0, 0, 1]))
    }
}
