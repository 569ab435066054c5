//! The two jobs of a tester, and the table of addresses that they share.
use crate::address::Address;
use crate::answers::Refusal;
use crate::limits::{ENTRIES, JOBS};
use crate::sys;
use core::array;
use core::fmt;

/// One of the two jobs of a tester. Each reads a capture of its own with settings and a state of its
/// own; what they share is one [`Table`] of addresses.
///
/// ```
/// use fenhamper::Job;
///
/// assert_eq!(Job::BOTH.map(Job::number), [0, 1]);
/// assert_eq!(Job::One.to_string(), "job 1");
/// ```
#[derive(Clone, Copy, Debug, Default, PartialEq, Eq, PartialOrd, Ord, Hash)]
pub enum Job {
    /// Job 0.
    #[default]
    Zero,
    /// Job 1.
    One,
}

impl Job {
    /// Both, in the order of their numbers.
    pub const BOTH: [Job; JOBS] = [Job::Zero, Job::One];

    /// Its number, 0 or 1.
    #[must_use]
    pub const fn number(self) -> u8 {
        match self {
            Job::Zero => sys::JOB_0,
            Job::One => sys::JOB_1,
        }
    }

    /// The job of a number; none above 1, where the library has refusal 14.
    ///
    /// ```
    /// use fenhamper::Job;
    ///
    /// assert_eq!([0, 1, 2].map(Job::from_number), [Some(Job::Zero), Some(Job::One), None]);
    /// ```
    #[must_use]
    pub const fn from_number(number: u8) -> Option<Job> {
        match number {
            sys::JOB_0 => Some(Job::Zero),
            sys::JOB_1 => Some(Job::One),
            _ => None,
        }
    }

    /// The other one.
    ///
    /// ```
    /// use fenhamper::Job;
    ///
    /// assert_eq!(Job::BOTH.map(Job::other), [Job::One, Job::Zero]);
    /// ```
    #[must_use]
    pub const fn other(self) -> Job {
        match self {
            Job::Zero => Job::One,
            Job::One => Job::Zero,
        }
    }

    // The job that a holder's octet names.
    const fn holding(holder: u8) -> Option<Job> {
        match holder {
            sys::HOLDER_0 => Some(Job::Zero),
            sys::HOLDER_1 => Some(Job::One),
            _ => None,
        }
    }
}

/// With its number: job 0.
impl fmt::Display for Job {
    fn fmt(&self, f: &mut fmt::Formatter<'_>) -> fmt::Result {
        f.pad(match self {
            Job::Zero => "job 0",
            Job::One => "job 1",
        })
    }
}

/// An entry of a table that a job holds.
#[derive(Clone, Copy, Debug, PartialEq, Eq, Hash)]
pub struct Entry {
    /// The job that holds it.
    pub job: Job,
    /// The address that it lists for that job.
    pub address: Address,
}

/// The addresses that two jobs list beside their own: 16 entries, of which each job can hold 12. So
/// each always gets 4, whatever the other one holds. A job looks at its own entries alone, and both
/// may list the same address.
///
/// Readings borrow the table, and it is cloned, never copied by accident: two copies that are both
/// used on would each miss what the other lists.
///
/// ```
/// use fenhamper::{Address, Capture, Frame, Job, Sender, Settings, Station, Table, Way};
///
/// let group = |n| Address([0x01, 0, 0x5E, 0, 0, n]);
/// let mut table = Table::new();
/// assert_eq!(table.add(Job::Zero, group(1)), Ok(0));
/// assert_eq!(table.add(Job::One, group(1)), Ok(1));
/// assert_eq!(table.add(Job::One, group(2)), Ok(2));
///
/// // a frame to group 2, which only job 1 lists
/// let mut zero = Station::default();
/// let mut one = Station::of(Job::One, Settings::default());
/// let (mut octets, mut marks) = ([0; 84], [0; 84]);
/// let mut sender = Sender::new(&mut octets, &mut marks);
/// zero.send_client(&mut sender, &Frame::to(group(2)), b"to group 2")?;
/// let capture = sender.written();
/// let ways = |station: &mut Station| -> Vec<_> {
///     let readings = station.listing(&table).readings(capture);
///     readings.map(|counted| counted.map(|c| c.way)).collect()
/// };
/// assert_eq!(ways(&mut zero), [Ok(None)]);
/// assert_eq!(ways(&mut one), [Ok(Some(Way::Entry(2)))]);
/// # Ok::<(), fenhamper::Refusal>(())
/// ```
#[derive(Clone, PartialEq, Eq, Hash)]
pub struct Table {
    // as the header lays it out: a call lends it as it is
    record: sys::Table,
}

// What a reading goes by where no table is named.
pub(crate) static NOTHING_LISTED: Table = Table::new();

impl Table {
    /// A table that nobody holds an entry of: all zeros.
    #[must_use]
    pub const fn new() -> Table {
        let free = sys::Entry {
            holder: sys::FREE,
            address: Address([0; 6]).record(),
            spare: 0,
        };
        Table {
            record: sys::Table {
                entries: [free; ENTRIES],
            },
        }
    }

    /// Lists an address for a job, in the lowest free entry, and gives that entry's number. What
    /// another one freed is used again.
    ///
    /// ```
    /// use fenhamper::{Address, Job, Refusal, Table};
    ///
    /// let group = |n| Address([0x01, 0, 0x5E, 0, 0, n]);
    /// let mut table = Table::new();
    /// for n in 0..12 {
    ///     assert_eq!(table.add(Job::Zero, group(n)), Ok(n.into()));
    /// }
    /// assert_eq!(table.add(Job::Zero, group(12)), Err(Refusal::HoldsTwelve));
    /// assert_eq!(table.add(Job::Zero, group(11)), Err(Refusal::AlreadyListed));
    /// for n in 0..4 {
    ///     assert_eq!(table.add(Job::One, group(n)), Ok(12 + usize::from(n)));
    /// }
    /// assert_eq!(table.add(Job::One, group(4)), Err(Refusal::AllInUse));
    /// ```
    ///
    /// # Errors
    ///
    /// The first of 20, 17, 15 and 16 that holds: a bad table, already listed by this job, the job
    /// holds 12 entries, all are in use. A refusal leaves the table.
    pub fn add(&mut self, job: Job, address: Address) -> Result<usize, Refusal> {
        let (refusal, entry) = sys::table_add(&mut self.record, job.number(), address.record());
        Refusal::check(refusal).map(|()| entry)
    }

    /// Lists an address for a job no more, and gives the number of the entry that is free then.
    ///
    /// ```
    /// use fenhamper::{Address, Job, Refusal, Table};
    ///
    /// let group = |n| Address([0x01, 0, 0x5E, 0, 0, n]);
    /// let mut table = Table::new();
    /// table.add(Job::Zero, group(1))?;
    /// table.add(Job::One, group(1))?;
    /// assert_eq!(table.remove(Job::Zero, group(1)), Ok(0));
    /// assert_eq!(table.remove(Job::Zero, group(1)), Err(Refusal::NotListed));
    /// assert_eq!(table.add(Job::One, group(2)), Ok(0));
    /// # Ok::<(), Refusal>(())
    /// ```
    ///
    /// # Errors
    ///
    /// The first of 20 and 18 that holds: a bad table, not listed by this job. A refusal leaves the
    /// table.
    pub fn remove(&mut self, job: Job, address: Address) -> Result<usize, Refusal> {
        let (refusal, entry) = sys::table_remove(&mut self.record, job.number(), address.record());
        Refusal::check(refusal).map(|()| entry)
    }

    /// Frees every entry, of both jobs.
    ///
    /// ```
    /// use fenhamper::{Address, Job, Table};
    ///
    /// let mut table = Table::new();
    /// table.add(Job::One, Address::PAUSE_GROUP)?;
    /// table.clear();
    /// assert_eq!(table, Table::new());
    /// # Ok::<(), fenhamper::Refusal>(())
    /// ```
    pub fn clear(&mut self) {
        sys::table_empty(&mut self.record);
    }

    /// The entry of a number, 0 to 15; none if it is free, or beyond.
    #[must_use]
    pub fn entry(&self, number: usize) -> Option<Entry> {
        let entry = self.record.entries.get(number)?;
        Some(Entry {
            job: Job::holding(entry.holder)?,
            address: Address::of(entry.address),
        })
    }

    /// The entries that a job holds, whichever, with their numbers and in their order.
    ///
    /// ```
    /// use fenhamper::{Address, Entry, Job, Table};
    ///
    /// let mut table = Table::new();
    /// let address = Address::PAUSE_GROUP;
    /// table.add(Job::One, address)?;
    /// table.add(Job::Zero, address)?;
    /// assert!(table.entries().eq([
    ///     (0, Entry { job: Job::One, address }),
    ///     (1, Entry { job: Job::Zero, address }),
    /// ]));
    /// assert_eq!(table.entry(1), Some(Entry { job: Job::Zero, address }));
    /// assert_eq!(table.entry(2), None);
    /// # Ok::<(), fenhamper::Refusal>(())
    /// ```
    #[must_use]
    pub fn entries(&self) -> impl DoubleEndedIterator<Item = (usize, Entry)> + Clone + '_ {
        (0..ENTRIES).filter_map(|number| Some((number, self.entry(number)?)))
    }

    /// How many entries a job holds.
    ///
    /// ```
    /// use fenhamper::{Address, Job, Table};
    ///
    /// let mut table = Table::new();
    /// table.add(Job::One, Address::PAUSE_GROUP)?;
    /// assert_eq!(Job::BOTH.map(|job| table.holds(job)), [0, 1]);
    /// # Ok::<(), fenhamper::Refusal>(())
    /// ```
    #[must_use]
    pub fn holds(&self, job: Job) -> usize {
        self.entries().filter(|(_, entry)| entry.job == job).count()
    }

    /// The table of these octets, eight for each entry: who holds it (1 job 0, 2 job 1, anything else
    /// nobody), the six of its address, and a spare one. Any octets are some table; one in which a
    /// job holds more than 12 entries, or an address twice, is refused (20) by each call that takes
    /// it. No call on a table makes such a one of another.
    ///
    /// ```
    /// use fenhamper::{Address, Capture, Job, Refusal, Settings, State, Table};
    ///
    /// let mut table = Table::new();
    /// table.add(Job::One, Address::PAUSE_GROUP)?;
    /// let mut octets = table.octets();
    /// assert_eq!(octets[..8], [2, 0x01, 0x80, 0xC2, 0, 0, 1, 0]);
    /// assert_eq!(Table::from_octets(octets), table);
    ///
    /// // the same in entry 1
    /// octets.copy_within(..8, 8);
    /// let mut bad = Table::from_octets(octets);
    /// assert_eq!(bad.remove(Job::One, Address::PAUSE_GROUP), Err(Refusal::BadTable));
    /// let listener = Settings::default().listing(Job::Zero, &bad);
    /// let walk = Capture::new(&[], &[]).walk(listener, &mut State::default());
    /// assert_eq!(walk, Err(Refusal::BadTable));
    /// # Ok::<(), Refusal>(())
    /// ```
    #[must_use]
    pub fn from_octets(octets: [u8; 128]) -> Table {
        let entries = array::from_fn(|k| {
            let at = |i: usize| octets[8 * k + i];
            sys::Entry {
                holder: at(0),
                address: Address([at(1), at(2), at(3), at(4), at(5), at(6)]).record(),
                spare: at(7),
            }
        });
        Table {
            record: sys::Table { entries },
        }
    }

    /// Its octets, as [`from_octets`](Table::from_octets) takes them.
    #[must_use]
    pub fn octets(&self) -> [u8; 128] {
        array::from_fn(|at| {
            let entry = &self.record.entries[at / 8];
            match at % 8 {
                0 => entry.holder,
                7 => entry.spare,
                octet => entry.address.octets[octet - 1],
            }
        })
    }

    // As the header lays it out.
    pub(crate) const fn record(&self) -> &sys::Table {
        &self.record
    }
}

/// One that nobody holds an entry of.
impl Default for Table {
    fn default() -> Table {
        Table::new()
    }
}

/// The entries that are held, by their numbers.
impl fmt::Debug for Table {
    fn fmt(&self, f: &mut fmt::Formatter<'_>) -> fmt::Result {
        f.debug_map().entries(self.entries()).finish()
    }
}

#[cfg(test)]
mod tests {
    use super::*;
    use crate::settings::Settings;
    use crate::state::State;

    #[test]
    fn a_new_table_is_the_archives() {
        let mut table = Table::from_octets([0xFF; 128]);
        sys::table_empty(&mut table.record);
        assert!(table == Table::new() && table == NOTHING_LISTED);
    }

    // 14, which no job of this face gives, comes right after 1, and in the calls on a table first.
    #[test]
    fn a_job_above_1_is_refused() {
        let (good, bad) = (Settings::default(), Settings::default().limit(0));
        let mut full = Table::from_octets([1; 128]);
        let (o, m) = ([0xFB; 2], [1; 3]);
        for (settings, refusal) in [(good, 14), (bad, 1)] {
            let settings = settings.record();
            for job in 2..=255 {
                let (mut state, mut log) = (State::default(), [0xFF; 17]);
                let (s, t) = (state.record(), &full.record);
                let (read, part) = sys::screen_data(settings, job, t, &o, &m, &o, &m, 9);
                assert_eq!((part.place, part.length), (0, 0));
                let refusals = [
                    read,
                    sys::read(settings, job, t, s, &o, &m, 9).refusal,
                    sys::explain(settings, job, t, &o, &m, 9).refusal,
                    sys::walk(settings, job, t, s, &o, &m).refusal,
                    sys::walk_log(settings, job, t, s, &o, &m, 9, &mut log).refusal,
                ];
                assert_eq!(refusals, [refusal; 5]);
                assert!(state == State::default() && log == [0xFF; 17]);
            }
        }
        for job in 2..=255 {
            let address = Address([1; 6]).record();
            assert_eq!(sys::table_add(&mut full.record, job, address), (14, 0));
            assert_eq!(sys::table_remove(&mut full.record, job, address), (14, 0));
        }
        assert_eq!(full.octets(), [1; 128]);
    }
}
