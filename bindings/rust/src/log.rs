//! Keeping the readings of a run in a log.
use crate::answers::{Outcome, Refusal, Status, Way};
use crate::listener::Listener;
use crate::receive::{Capture, Counted, Reading};
use crate::state::State;
use crate::sys;
use core::iter::FusedIterator;

/// A record of a log: what is kept of a counted Start.
///
/// Any values make a record, and records are read as they stand. Those of readings have an outcome
/// of 1 to 11 and say which address let the frame in.
///
/// ```
/// use fenhamper::{Log, Outcome, Record, Status, Way};
///
/// let record = Record {
///     place: 12,
///     outcome_number: 11,
///     way_number: 1,
///     data_length: 16,
///     status: Status::new(0x4000400010),
/// };
/// assert_eq!(record.outcome(), Some(Outcome::HandedOut));
/// assert_eq!(record.way(), Some(Way::Own));
/// assert!(record.status.unicast());
///
/// let mut octets = [0; 16];
/// Log::new(&mut octets)?.append(record)?;
/// assert_eq!(octets, [12, 0, 0, 0, 11, 1, 16, 0, 0x10, 0, 0x40, 0, 0x40, 0, 0, 0]);
/// # Ok::<(), fenhamper::Refusal>(())
/// ```
#[derive(Clone, Copy, Debug, Default, PartialEq, Eq, Hash)]
pub struct Record {
    /// The Start's place.
    pub place: u32,
    /// The outcome's number, which [`outcome`](Record::outcome) names. 0 stands for a reading that
    /// counted no Start: such a record is not appended, and where it stands in a log it is unused, or
    /// deleted.
    pub outcome_number: u8,
    /// The number of the address that let the frame in, which [`way`](Record::way) names. 0 stands
    /// for a frame that was not let in, or for a log that was kept before records told it; 2 to 5
    /// stand for listed addresses in a log that was kept before there was a table.
    pub way_number: u8,
    /// How many octets were handed out.
    pub data_length: u16,
    /// The status word.
    pub status: Status,
}

impl Record {
    /// The outcome, if its number is 1 to 11.
    ///
    /// ```
    /// use fenhamper::{Outcome, Record};
    ///
    /// let numbers = [0, 1, 11, 12].map(|outcome_number| Record {
    ///     outcome_number,
    ///     ..Record::default()
    /// });
    /// let outcomes = [None, Some(Outcome::Cut), Some(Outcome::HandedOut), None];
    /// assert_eq!(numbers.map(|record| record.outcome()), outcomes);
    /// ```
    #[must_use]
    pub fn outcome(&self) -> Option<Outcome> {
        Outcome::from_number(self.outcome_number)
    }

    /// Which address let the frame in, if its number has a name here.
    ///
    /// ```
    /// use fenhamper::{Record, Way};
    ///
    /// let numbers = [0, 1, 17, 32].map(|way_number| Record {
    ///     way_number,
    ///     ..Record::default()
    /// });
    /// let ways = [None, Some(Way::Own), Some(Way::Entry(1)), None];
    /// assert_eq!(numbers.map(|record| record.way()), ways);
    /// ```
    #[must_use]
    pub const fn way(&self) -> Option<Way> {
        Way::from_number(self.way_number)
    }

    // As the header lays it out.
    const fn record(self) -> sys::Record {
        sys::Record {
            place: self.place,
            outcome: self.outcome_number,
            way: self.way_number,
            data_length: self.data_length,
            status: self.status.word(),
        }
    }

    // The record that the header lays out so, unless the number of a refusal comes with it.
    fn of((refusal, record): (u64, sys::Record)) -> Result<Record, Refusal> {
        Refusal::check(refusal)?;
        Ok(Record {
            place: record.place,
            outcome_number: record.outcome,
            way_number: record.way,
            data_length: record.data_length,
            status: Status::new(record.status),
        })
    }
}

// Whether octets are a log. No log has so great a record number: that it is not used is said only
// where the length is right.
fn check(octets: &[u8]) -> Result<(), Refusal> {
    match Record::of(sys::log_record(octets, usize::MAX)) {
        Ok(_) | Err(Refusal::NotUsed) => Ok(()),
        Err(refusal) => Err(refusal),
    }
}

/// A log that is lent to be read: records of 16 octets side by side, with no header.
///
/// A record is used if its outcome is not 0. Reading back skips the others, which were deleted or not
/// yet written.
///
/// ```
/// use fenhamper::{LogView, Outcome, Refusal};
///
/// // a cut Start at place 7, between two records that are not used
/// let mut octets = [0; 48];
/// octets[16..21].copy_from_slice(&[7, 0, 0, 0, 1]);
/// let log = LogView::new(&octets)?;
/// for record in log {
///     println!("{:?} at {}", record.outcome(), record.place);
/// }
/// assert_eq!((log.used(), log.capacity()), (1, 3));
/// assert_eq!(log.record(1)?.outcome(), Some(Outcome::Cut));
/// assert_eq!(log.record(0), Err(Refusal::NotUsed));
/// # Ok::<(), Refusal>(())
/// ```
#[derive(Clone, Copy, Debug, PartialEq, Eq, Hash)]
#[must_use]
pub struct LogView<'a> {
    // a whole number of records
    octets: &'a [u8],
}

impl<'a> LogView<'a> {
    /// The log in these octets.
    ///
    /// ```
    /// use fenhamper::{LogView, Refusal};
    ///
    /// // no octets are a log of no records; 17 are no log
    /// assert_eq!(LogView::new(&[])?.capacity(), 0);
    /// assert_eq!(LogView::new(&[0; 17]), Err(Refusal::BadLog));
    /// # Ok::<(), Refusal>(())
    /// ```
    ///
    /// # Errors
    ///
    /// Refusal 11 for a length that is no multiple of 16. So no call on a log gives it.
    pub fn new(octets: &'a [u8]) -> Result<LogView<'a>, Refusal> {
        check(octets)?;
        Ok(LogView { octets })
    }

    /// Its octets, as they are written to a file.
    #[must_use]
    pub const fn octets(&self) -> &'a [u8] {
        self.octets
    }

    /// How many records it has, used or not.
    #[must_use]
    pub const fn capacity(&self) -> usize {
        self.octets.len() / sys::RECORD_SIZE
    }

    /// How many of its records are used.
    #[must_use]
    pub fn used(&self) -> usize {
        let (_, used) = sys::log_used(self.octets);
        used
    }

    /// The record of a number, from 0 on, as it stands. Numbers are those of the slots, deleted or
    /// not.
    ///
    /// # Errors
    ///
    /// Refusal 13 for a record that is not used, or that the log does not have.
    pub fn record(&self, number: usize) -> Result<Record, Refusal> {
        Record::of(sys::log_record(self.octets, number))
    }

    /// Hands out every used record, from number 0 on: deleted ones are skipped.
    ///
    /// ```
    /// use fenhamper::LogView;
    ///
    /// // of three records only the second is unused
    /// let mut octets = [1; 48];
    /// octets[16 + 4] = 0;
    /// let log = LogView::new(&octets)?;
    /// assert_eq!(log.records().count(), 2);
    /// assert_eq!(log.records().at(1).count(), 1);
    /// # Ok::<(), fenhamper::Refusal>(())
    /// ```
    pub const fn records(&self) -> LogRecords<'a> {
        LogRecords {
            log: *self,
            number: 0,
        }
    }
}

impl<'a> IntoIterator for LogView<'a> {
    type Item = Record;
    type IntoIter = LogRecords<'a>;

    fn into_iter(self) -> LogRecords<'a> {
        self.records()
    }
}

/// A log that is lent to be written into, and read. It begins as all zeros.
///
/// Appending goes behind the last used record, and compacts first if that one is the last slot; so a
/// log is full only when every record is used. Records that have been dealt with are
/// [deleted](Log::delete_outcome). A refused call leaves every octet.
///
/// ```
/// use fenhamper::{Capture, End, Log, Outcome, Station};
///
/// // Start, Idle; Start, one data octet, Terminate
/// let capture = Capture::new(&[0xFB, 0x07, 0xFB, 0x55, 0xFD], &[1, 1, 1, 0, 1]);
/// let mut octets = [0; 10 * 16];
/// let mut log = Log::new(&mut octets)?;
/// let kept = Station::default().walk_log(capture, 0, &mut log)?;
/// assert_eq!((kept.end, kept.records), (End::None, 2));
/// for record in &log {
///     println!("{:?} at {}: {}", record.outcome(), record.place, record.status);
/// }
/// assert_eq!(log.record(1)?.outcome(), Some(Outcome::BadPreamble));
/// # Ok::<(), fenhamper::Refusal>(())
/// ```
#[derive(Debug)]
pub struct Log<'a> {
    // a whole number of records
    octets: &'a mut [u8],
}

impl<'a> Log<'a> {
    /// The log in these octets, with the records that they have.
    ///
    /// ```
    /// use fenhamper::{Log, Refusal};
    ///
    /// // no octets are a log of no records; 17 are no log
    /// assert_eq!(Log::new(&mut [])?.capacity(), 0);
    /// assert_eq!(Log::new(&mut [0; 17]).unwrap_err(), Refusal::BadLog);
    /// # Ok::<(), Refusal>(())
    /// ```
    ///
    /// # Errors
    ///
    /// Refusal 11 for a length that is no multiple of 16. So no call on a log gives it.
    pub fn new(octets: &'a mut [u8]) -> Result<Log<'a>, Refusal> {
        check(octets)?;
        Ok(Log { octets })
    }

    /// The log as it stands, to be read.
    pub fn view(&self) -> LogView<'_> {
        LogView {
            octets: self.octets,
        }
    }

    /// [`LogView::octets`]: its octets, as they are written to a file.
    #[must_use]
    pub fn octets(&self) -> &[u8] {
        self.octets
    }

    /// [`LogView::capacity`]: how many records it has, used or not.
    #[must_use]
    pub fn capacity(&self) -> usize {
        self.view().capacity()
    }

    /// [`LogView::used`]: how many of its records are used.
    #[must_use]
    pub fn used(&self) -> usize {
        self.view().used()
    }

    /// [`LogView::record`]: the record of a number, from 0 on, as it stands.
    ///
    /// # Errors
    ///
    /// Refusal 13.
    pub fn record(&self, number: usize) -> Result<Record, Refusal> {
        self.view().record(number)
    }

    /// [`LogView::records`]: every used record, deleted ones skipped.
    pub fn records(&self) -> LogRecords<'_> {
        self.view().records()
    }

    /// Appends a record behind the last used one. If that is the last slot, the log is
    /// [compacted](Log::compact) first. A record of outcome 0 is not appended, and is never refused.
    ///
    /// ```
    /// use fenhamper::{Log, Record, Refusal};
    ///
    /// let record = Record { place: 7, outcome_number: 1, ..Record::default() };
    /// let mut octets = [0; 32];
    /// let mut log = Log::new(&mut octets)?;
    /// log.append(record)?;
    /// log.append(record)?;
    /// assert!(log.records().eq([record; 2]));
    /// assert_eq!(log.append(record), Err(Refusal::LogFull));
    /// assert_eq!(log.append(Record::default()), Ok(()));
    ///
    /// // with a record deleted there is room, wherever that one stood
    /// log.delete(0)?;
    /// log.append(Record { place: 8, ..record })?;
    /// assert!(log.records().map(|record| record.place).eq([7, 8]));
    /// # Ok::<(), Refusal>(())
    /// ```
    ///
    /// # Errors
    ///
    /// Refusal 12 for a log whose every record is used.
    pub fn append(&mut self, record: Record) -> Result<(), Refusal> {
        Refusal::check(sys::log_append(self.octets, &record.record()))
    }

    /// Appends the record of a reading. One that counted no Start is not appended, and is never
    /// refused.
    ///
    /// ```
    /// use fenhamper::{Capture, Log, Reading, Station};
    ///
    /// let capture = Capture::new(&[0xFB, 0x07, 0xFB], &[1; 3]);
    /// let mut station = Station::default();
    /// let mut octets = [0; 16];
    /// let mut log = Log::new(&mut octets)?;
    /// let first = station.read(capture, 0)?;
    /// log.append_reading(&first)?;
    /// let open = station.read(capture, first.next())?;
    /// assert_eq!(open, Reading::Open { start: 2 });
    /// log.append_reading(&open)?;
    /// assert_eq!(log.used(), 1);
    /// # Ok::<(), fenhamper::Refusal>(())
    /// ```
    ///
    /// # Errors
    ///
    /// Refusal 12 for a log whose every record is used.
    pub fn append_reading(&mut self, reading: &Reading<'_>) -> Result<(), Refusal> {
        Refusal::check(sys::log_append_reading(self.octets, &reading.record()))
    }

    /// Appends the record of a counted reading.
    ///
    /// ```
    /// use fenhamper::{Capture, Log, Station};
    ///
    /// let capture = Capture::new(&[0xFB, 0x07, 0xFB, 0xFD], &[1; 4]);
    /// let mut octets = [0; 32];
    /// let mut log = Log::new(&mut octets)?;
    /// for counted in Station::default().readings(capture) {
    ///     log.append_counted(&counted?)?;
    /// }
    /// assert!(log.records().map(|record| record.place).eq([0, 2]));
    /// # Ok::<(), fenhamper::Refusal>(())
    /// ```
    ///
    /// # Errors
    ///
    /// Refusal 12 for a log whose every record is used.
    pub fn append_counted(&mut self, counted: &Counted<'_>) -> Result<(), Refusal> {
        Refusal::check(sys::log_append_reading(self.octets, &counted.record()))
    }

    /// Deletes the record of a number: its outcome becomes 0, and every other octet stays.
    ///
    /// ```
    /// use fenhamper::{Log, Record, Refusal};
    ///
    /// let mut octets = [0; 48];
    /// let mut log = Log::new(&mut octets)?;
    /// for place in 0..3 {
    ///     log.append(Record { place, outcome_number: 1, ..Record::default() })?;
    /// }
    /// log.delete(1)?;
    /// assert_eq!(log.record(1), Err(Refusal::NotUsed));
    /// assert_eq!(log.delete(1), Err(Refusal::NotUsed));
    /// // the others keep their numbers until the log is compacted
    /// assert_eq!(log.record(2)?.place, 2);
    /// assert!(log.records().map(|record| record.place).eq([0, 2]));
    /// # Ok::<(), Refusal>(())
    /// ```
    ///
    /// # Errors
    ///
    /// Refusal 13 for a record that is not used, or that the log does not have.
    pub fn delete(&mut self, number: usize) -> Result<(), Refusal> {
        Refusal::check(sys::log_delete(self.octets, number))
    }

    /// Deletes every record of an outcome, given by its number, and tells how many these were. No
    /// used record is of outcome 0, so none is deleted for that.
    ///
    /// ```
    /// use fenhamper::{Log, Outcome, Record};
    ///
    /// let mut octets = [0; 64];
    /// let mut log = Log::new(&mut octets)?;
    /// for (place, outcome) in [(0, Outcome::Cut), (9, Outcome::Filtered), (20, Outcome::Cut)] {
    ///     let outcome_number = outcome.number();
    ///     log.append(Record { place, outcome_number, ..Record::default() })?;
    /// }
    /// assert_eq!(log.delete_outcome(Outcome::Cut.number()), 2);
    /// assert_eq!(log.delete_outcome(Outcome::Cut.number()), 0);
    /// assert!(log.records().map(|record| record.place).eq([9]));
    /// # Ok::<(), fenhamper::Refusal>(())
    /// ```
    pub fn delete_outcome(&mut self, outcome_number: u8) -> usize {
        let (_, deleted) = sys::log_delete_outcome(self.octets, outcome_number);
        deleted
    }

    /// Compacts the log in place: the used records move to the front in their order, and the rest is
    /// filled with zeros. Doing it twice changes nothing more.
    ///
    /// ```
    /// use fenhamper::{Log, Record};
    ///
    /// let mut octets = [0; 48];
    /// let mut log = Log::new(&mut octets)?;
    /// for place in 0..3 {
    ///     log.append(Record { place, outcome_number: 1, ..Record::default() })?;
    /// }
    /// log.delete(0)?;
    /// log.compact();
    /// assert_eq!(log.record(0)?.place, 1);
    /// assert_eq!(log.octets()[32..], [0; 16]);
    /// # Ok::<(), fenhamper::Refusal>(())
    /// ```
    pub fn compact(&mut self) {
        sys::log_compact(self.octets);
    }
}

// `records` is its `iter`.
#[allow(clippy::into_iter_without_iter)]
impl<'l> IntoIterator for &'l Log<'_> {
    type Item = Record;
    type IntoIter = LogRecords<'l>;

    fn into_iter(self) -> LogRecords<'l> {
        self.records()
    }
}

/// The used records of a log, in order, made by [`LogView::records`].
#[derive(Clone, Debug)]
#[must_use]
pub struct LogRecords<'a> {
    log: LogView<'a>,
    number: usize,
}

impl LogRecords<'_> {
    /// Begins at another record than that of number 0.
    pub const fn at(mut self, number: usize) -> Self {
        self.number = number;
        self
    }

    /// From which number on the next used record is looked for: one more than that of the record which
    /// came last. At the end it stays.
    ///
    /// ```
    /// use fenhamper::LogView;
    ///
    /// // of four records the second and the last are unused
    /// let mut octets = [1; 64];
    /// (octets[16 + 4], octets[48 + 4]) = (0, 0);
    /// let log = LogView::new(&octets)?;
    /// let mut records = log.records();
    /// records.next();
    /// assert_eq!(records.number(), 1);
    /// records.next();
    /// assert_eq!(records.number(), 3);
    /// assert_eq!(records.next(), None);
    /// assert_eq!(records.number(), 3);
    /// # Ok::<(), fenhamper::Refusal>(())
    /// ```
    #[must_use]
    pub const fn number(&self) -> usize {
        self.number
    }
}

impl Iterator for LogRecords<'_> {
    type Item = Record;

    fn next(&mut self) -> Option<Record> {
        // refused (13) where no used one is left, which leaves the number
        Record::of(sys::log_next(self.log.octets, &mut self.number)).ok()
    }

    fn size_hint(&self) -> (usize, Option<usize>) {
        (0, Some(self.log.capacity().saturating_sub(self.number)))
    }
}

impl FusedIterator for LogRecords<'_> {}

/// How a walk that keeps its readings ended.
#[derive(Clone, Copy, Debug, PartialEq, Eq, Hash)]
pub enum End {
    /// No further Start.
    None,
    /// A Start whose run has not ended inside the capture. It is read again when there is more.
    Open,
    /// A further Start would be counted, and every record is used. It is not counted: the walk goes on
    /// with another log, or with this one after a deletion.
    Full,
}

/// What a walk that keeps its readings found; see [`Capture::walk_log`].
#[derive(Clone, Copy, Debug, PartialEq, Eq, Hash)]
#[must_use]
pub struct Kept {
    /// How it ended.
    pub end: End,
    /// Where to go on: for [`End::None`] the capture's length, for [`End::Open`] the open Start, for
    /// [`End::Full`] where the last reading that was kept ended, or the place of the call.
    pub next: usize,
    /// How many records were appended: as many as Starts were counted.
    pub records: usize,
}

impl Capture<'_> {
    /// Reads Start after Start from `place` on, and [appends](Log::append) the record of each to a
    /// log, until there is none, the last is still open or the log is full, all in one call.
    ///
    /// A Start that finds every record used is not counted, and sets no timer. So nothing is lost:
    ///
    /// ```
    /// use fenhamper::{Capture, End, Log, Settings, State};
    ///
    /// let capture = Capture::new(&[0xFB; 6], &[1; 6]);
    /// let (settings, mut state) = (Settings::default(), State::default());
    /// let (mut place, mut kept_records) = (0, Vec::new());
    /// loop {
    ///     // room for two records
    ///     let mut octets = [0; 32];
    ///     let mut log = Log::new(&mut octets)?;
    ///     let kept = capture.walk_log(&settings, &mut state, place, &mut log)?;
    ///     kept_records.extend(&log);
    ///     if kept.end != End::Full {
    ///         break;
    ///     }
    ///     place = kept.next;
    /// }
    /// assert!(kept_records.iter().map(|record| record.place).eq(0..5));
    /// # Ok::<(), fenhamper::Refusal>(())
    /// ```
    ///
    /// # Errors
    ///
    /// Refusals 1, 2, 3 and 20, as a reading at that place has them. A full log is no refusal.
    pub fn walk_log<'t>(
        &self,
        listener: impl Into<Listener<'t>>,
        state: &mut State,
        place: usize,
        log: &mut Log<'_>,
    ) -> Result<Kept, Refusal> {
        let who = listener.into();
        let k = sys::walk_log(
            who.settings.record(),
            who.job.number(),
            who.table.record(),
            state.record(),
            self.octets,
            self.marks,
            place,
            log.octets,
        );
        Refusal::check(k.refusal)?;
        Ok(Kept {
            end: match k.end {
                sys::END_NONE => End::None,
                sys::END_OPEN => End::Open,
                sys::END_FULL => End::Full,
                _ => return Err(Refusal::Unknown(0)),
            },
            next: k.next as usize,
            records: k.records as usize,
        })
    }
}
