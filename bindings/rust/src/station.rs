//! Settings and state together.
use crate::answers::Refusal;
use crate::lent::Buffers;
use crate::limits::JOBS;
use crate::listener::Listener;
use crate::log::{Kept, Log};
use crate::reason::Explained;
use crate::receive::{Capture, Reading, Readings, Walk};
use crate::send::Frame;
use crate::settings::Settings;
use crate::state::State;
use crate::table::{Job, Table, NOTHING_LISTED};

/// A station: what it is set to, which job it is, and what it keeps from call to call. Each call goes
/// to that of [`Capture`], or of a [`Sender`](crate::Sender) or a [`Line`](crate::Line), with these.
///
/// Its readings accept the own address and what the settings say beside it. Where addresses are
/// listed in a table, [`listing`](Station::listing) lends it to them.
///
/// ```
/// use fenhamper::{Address, Frame, Outcome, Sender, Settings, Station};
///
/// let mut near = Station::new(Settings::new("02-00-00-00-00-01".parse()?));
/// let mut far = Station::new(Settings::new("02-00-00-00-00-09".parse()?));
///
/// let (mut octets, mut marks) = ([0; 168], [0; 168]);
/// let mut line = Sender::new(&mut octets, &mut marks);
/// near.send_client(&mut line, &Frame::to(far.settings.own()), b"to you")?;
/// near.send_client(&mut line, &Frame::to(Address::BROADCAST), b"to all")?;
///
/// for counted in far.readings(line.capture()) {
///     let counted = counted?;
///     println!("{} at {}: {}", counted.outcome, counted.start, counted.status);
/// }
/// assert_eq!(far.state.counter(Outcome::HandedOut), 2);
/// # Ok::<(), Box<dyn std::error::Error>>(())
/// ```
#[derive(Clone, Debug, Default, PartialEq, Eq, Hash)]
pub struct Station {
    /// What it is set to.
    pub settings: Settings,
    /// Which job it is: whose entries of a table it looks at. A tester with one job is job 0.
    pub job: Job,
    /// Its counters and timers, and its deficit count.
    pub state: State,
}

impl Station {
    /// A station that is set to this, with a fresh state, as job 0.
    #[must_use]
    pub fn new(settings: Settings) -> Station {
        Station::of(Job::Zero, settings)
    }

    /// The station of a job that is set to this, with a fresh state.
    ///
    /// ```
    /// use fenhamper::{Job, Settings, Station};
    ///
    /// let [zero, one] = Job::BOTH.map(|job| Station::of(job, Settings::default()));
    /// assert_eq!(zero, Station::default());
    /// assert_eq!(one.job, Job::One);
    /// ```
    #[must_use]
    pub fn of(job: Job, settings: Settings) -> Station {
        Station {
            settings,
            job,
            state: State::default(),
        }
    }

    /// The same station with a table: its readings also accept the addresses that the table lists for
    /// its job. The table is lent for as long as that is used, so that it can be changed from call to
    /// call and shared by two stations.
    ///
    /// ```
    /// use fenhamper::{Address, Frame, Job, Outcome, Sender, Settings, Station, Table};
    ///
    /// let [mut zero, mut one] = Job::BOTH.map(|job| Station::of(job, Settings::default()));
    /// let group = Address([0x01, 0, 0x5E, 0, 0, 1]);
    /// let mut table = Table::new();
    /// table.add(zero.job, group)?;
    ///
    /// let (mut octets, mut marks) = ([0; 84], [0; 84]);
    /// let mut line = Sender::new(&mut octets, &mut marks);
    /// zero.send_client(&mut line, &Frame::to(group), b"to the group")?;
    /// zero.listing(&table).walk(line.capture())?;
    /// one.listing(&table).walk(line.capture())?;
    /// assert_eq!(zero.state.counter(Outcome::HandedOut), 1);
    /// assert_eq!(one.state.counter(Outcome::Filtered), 1);
    ///
    /// table.add(one.job, group)?;
    /// one.listing(&table).walk(line.capture())?;
    /// assert_eq!(one.state.counter(Outcome::HandedOut), 1);
    /// # Ok::<(), fenhamper::Refusal>(())
    /// ```
    pub fn listing<'s>(&'s mut self, table: &'s Table) -> Listing<'s> {
        Listing {
            listener: self.listener(table),
            state: &mut self.state,
        }
    }

    /// Who listens, by this table: settings, job and table for a call of a [`Capture`].
    #[must_use]
    pub const fn listener<'t>(&self, table: &'t Table) -> Listener<'t> {
        Listener {
            settings: self.settings,
            job: self.job,
            table,
        }
    }

    /// [`Capture::read`]: the first Start at `place` or later.
    ///
    /// ```
    /// use fenhamper::{Capture, Reading, Station};
    ///
    /// let capture = Capture::new(&[0xFB, 0x07, 0xFB, 0x55], &[1, 1, 1, 0]);
    /// let mut station = Station::default();
    /// let next = station.read(capture, 0)?.next();
    /// assert_eq!(station.read(capture, next), Ok(Reading::Open { start: 2 }));
    /// # Ok::<(), fenhamper::Refusal>(())
    /// ```
    ///
    /// # Errors
    ///
    /// Refusals 1 to 3.
    pub fn read<'a>(&mut self, capture: Capture<'a>, place: usize) -> Result<Reading<'a>, Refusal> {
        self.listing(&NOTHING_LISTED).read(capture, place)
    }

    /// [`Capture::explain`]: why the first Start at `place` or later has its outcome.
    ///
    /// ```
    /// use fenhamper::{Capture, Outcome, Station};
    ///
    /// let capture = Capture::new(&[0xFB, 0x07, 0xFB, 0x55], &[1, 1, 1, 0]);
    /// let station = Station::default();
    /// let reason = station.explain(capture, 0)?.reason();
    /// assert_eq!(reason.map(|r| r.to_string()).as_deref(), Some("cut at 1 by 0x07 (Idle)"));
    /// assert_eq!(station.state.counter(Outcome::Cut), 0);
    /// # Ok::<(), fenhamper::Refusal>(())
    /// ```
    ///
    /// # Errors
    ///
    /// Refusals 1 to 3.
    pub fn explain(&self, capture: Capture<'_>, place: usize) -> Result<Explained, Refusal> {
        capture.explain(self.listener(&NOTHING_LISTED), place)
    }

    /// [`Capture::readings`]: reading after reading.
    ///
    /// ```
    /// use fenhamper::{Capture, Outcome, Station};
    ///
    /// let capture = Capture::new(&[0xFB, 0x07, 0xFB, 0xFD], &[1; 4]);
    /// let mut station = Station::default();
    /// let outcomes = station.readings(capture).map(|r| r.map(|r| r.outcome));
    /// assert!(outcomes.eq([Ok(Outcome::Cut), Ok(Outcome::BadPreamble)]));
    /// ```
    pub fn readings<'a>(&mut self, capture: Capture<'a>) -> Readings<'a, '_> {
        self.listing(&NOTHING_LISTED).readings(capture)
    }

    /// [`Capture::walk`]: the whole capture in one call.
    ///
    /// # Errors
    ///
    /// Refusals 1 and 2.
    pub fn walk(&mut self, capture: Capture<'_>) -> Result<Walk, Refusal> {
        self.listing(&NOTHING_LISTED).walk(capture)
    }

    /// [`Capture::walk_log`]: the capture from `place` on in one call, with a record of each counted
    /// Start appended to a log.
    ///
    /// ```
    /// use fenhamper::{Capture, End, Kept, Log, Station};
    ///
    /// let capture = Capture::new(&[0xFB, 0x07, 0xFB, 0xFD], &[1; 4]);
    /// let mut station = Station::default();
    /// let mut octets = [0; 16];
    /// let mut log = Log::new(&mut octets)?;
    /// let kept = station.walk_log(capture, 0, &mut log)?;
    /// assert_eq!(kept, Kept { end: End::Full, next: 1, records: 1 });
    ///
    /// // go on with another log
    /// let mut octets = [0; 16];
    /// let mut log = Log::new(&mut octets)?;
    /// let kept = station.walk_log(capture, kept.next, &mut log)?;
    /// assert_eq!(kept, Kept { end: End::None, next: 4, records: 1 });
    /// # Ok::<(), fenhamper::Refusal>(())
    /// ```
    ///
    /// # Errors
    ///
    /// Refusals 1 to 3.
    pub fn walk_log(
        &mut self,
        capture: Capture<'_>,
        place: usize,
        log: &mut Log<'_>,
    ) -> Result<Kept, Refusal> {
        self.listing(&NOTHING_LISTED).walk_log(capture, place, log)
    }

    /// [`Sender::client`](crate::Sender::client) or [`Line::client`](crate::Line::client): a client
    /// frame and its gap.
    ///
    /// # Errors
    ///
    /// Refusals 1 to 3, 5 to 10 and 19; of a line also 21 and 22.
    pub fn send_client(
        &mut self,
        sender: &mut impl Buffers,
        frame: &Frame,
        data: &[u8],
    ) -> Result<usize, Refusal> {
        let lent = sender.lent();
        lent.client(&self.settings, &mut self.state, frame, data)
    }

    /// [`Sender::pause`](crate::Sender::pause) or [`Line::pause`](crate::Line::pause): a pause frame
    /// and its gap.
    ///
    /// ```
    /// use fenhamper::{Flow, Sender, Settings, Station};
    ///
    /// let pausing = Settings::default().flow(Flow::Pause);
    /// let (mut near, mut far) = (Station::new(pausing), Station::new(pausing));
    /// let (mut octets, mut marks) = ([0; 84], [0; 84]);
    /// let mut line = Sender::new(&mut octets, &mut marks);
    /// near.send_pause(&mut line, 2)?;
    /// far.walk(line.capture())?;
    /// assert_eq!(far.state.timer(0), Some(128));
    /// # Ok::<(), fenhamper::Refusal>(())
    /// ```
    ///
    /// # Errors
    ///
    /// Refusals 1 to 4, 8 and 19; of a line also 21 and 22.
    pub fn send_pause(&mut self, sender: &mut impl Buffers, quanta: u16) -> Result<usize, Refusal> {
        let lent = sender.lent();
        lent.pause(&self.settings, &mut self.state, quanta)
    }

    /// [`Sender::pfc`](crate::Sender::pfc) or [`Line::pfc`](crate::Line::pfc): a PFC frame and its
    /// gap.
    ///
    /// # Errors
    ///
    /// Refusals 1 to 4, 8 and 19; of a line also 21 and 22.
    pub fn send_pfc(
        &mut self,
        sender: &mut impl Buffers,
        named: u8,
        quanta: [u16; 8],
    ) -> Result<usize, Refusal> {
        let lent = sender.lent();
        lent.pfc(&self.settings, &mut self.state, named, quanta)
    }

    /// [`Sender::idle`](crate::Sender::idle) or [`Line::idle`](crate::Line::idle): `n` Idles.
    ///
    /// # Errors
    ///
    /// Refusals 2, 3 and 8; of a line also 21 and 22.
    pub fn fill_idle(&mut self, sender: &mut impl Buffers, n: usize) -> Result<usize, Refusal> {
        sender.lent().idle(&mut self.state, n)
    }
}

/// A station with a table, made by [`Station::listing`]. Each call is that of the station, which also
/// accepts the addresses that the table lists for its job.
#[derive(Debug)]
#[must_use]
pub struct Listing<'s> {
    listener: Listener<'s>,
    state: &'s mut State,
}

impl<'s> Listing<'s> {
    /// [`Capture::read`]: the first Start at `place` or later.
    ///
    /// # Errors
    ///
    /// The first of refusals 1, 2, 3 and 20 that holds.
    pub fn read<'a>(&mut self, capture: Capture<'a>, place: usize) -> Result<Reading<'a>, Refusal> {
        capture.read(self.listener, self.state, place)
    }

    /// [`Capture::explain`]: why the first Start at `place` or later has its outcome.
    ///
    /// ```
    /// use fenhamper::{Address, Frame, Job, Sender, Station, Table};
    ///
    /// let group = Address([0x01, 0, 0x5E, 0, 0, 1]);
    /// let (mut station, mut table) = (Station::default(), Table::new());
    /// let (mut octets, mut marks) = ([0; 84], [0; 84]);
    /// let mut line = Sender::new(&mut octets, &mut marks);
    /// station.send_client(&mut line, &Frame::to(group), b"group 1")?;
    /// let mut why = |table: &Table| {
    ///     let reason = station.listing(table).explain(line.capture(), 0)?.reason();
    ///     Ok::<_, fenhamper::Refusal>(reason.map(|r| r.to_string()).unwrap_or_default())
    /// };
    /// assert_eq!(why(&table)?, "filtered: to 01-00-5E-00-00-01");
    /// table.add(Job::Zero, group)?;
    /// assert_eq!(why(&table)?, "handed out: data at 22, length 7");
    /// # Ok::<(), fenhamper::Refusal>(())
    /// ```
    ///
    /// # Errors
    ///
    /// The first of refusals 1, 2, 3 and 20 that holds.
    pub fn explain(&self, capture: Capture<'_>, place: usize) -> Result<Explained, Refusal> {
        capture.explain(self.listener, place)
    }

    /// [`Capture::readings`]: reading after reading.
    pub fn readings<'a>(self, capture: Capture<'a>) -> Readings<'a, 's> {
        capture.readings(self.listener, self.state)
    }

    /// [`Capture::walk`]: the whole capture in one call.
    ///
    /// # Errors
    ///
    /// The first of refusals 1, 2 and 20 that holds.
    pub fn walk(&mut self, capture: Capture<'_>) -> Result<Walk, Refusal> {
        capture.walk(self.listener, self.state)
    }

    /// [`Capture::walk_log`]: the capture from `place` on in one call, with a record of each counted
    /// Start appended to a log.
    ///
    /// # Errors
    ///
    /// The first of refusals 1, 2, 3 and 20 that holds.
    pub fn walk_log(
        &mut self,
        capture: Capture<'_>,
        place: usize,
        log: &mut Log<'_>,
    ) -> Result<Kept, Refusal> {
        capture.walk_log(self.listener, self.state, place, log)
    }

    /// [`Listener::screen_data`]: the client data that a reading of this job from `place` on gives, of
    /// the captures of both jobs, job 0's first.
    ///
    /// # Errors
    ///
    /// The first of refusals 1, 2, 3 and 20 that holds.
    pub fn screen_data<'a>(
        &self,
        captures: [Capture<'a>; JOBS],
        place: usize,
    ) -> Result<&'a [u8], Refusal> {
        self.listener.screen_data(captures, place)
    }
}
