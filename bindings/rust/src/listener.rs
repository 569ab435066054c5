//! Who listens: settings, job and table together.
use crate::answers::Refusal;
use crate::limits::JOBS;
use crate::receive::Capture;
use crate::settings::Settings;
use crate::sys;
use crate::table::{Job, Table, NOTHING_LISTED};

/// Who listens: what a job is set to, its number, and the table that lists addresses for it. Every
/// reading takes one. Settings alone are enough where nothing is listed: they stand for job 0 with
/// an empty table.
///
/// ```
/// use fenhamper::{Address, Capture, Job, Settings, State, Table};
///
/// let (octets, marks) = ([0xFB, 0x07], [1, 1]);
/// let capture = Capture::new(&octets, &marks);
/// let (settings, mut state) = (Settings::default(), State::default());
/// let mut table = Table::new();
/// table.add(Job::One, Address([0x01, 0, 0x5E, 0, 0, 1]))?;
///
/// capture.walk(&settings, &mut state)?;
/// capture.walk(settings.listing(Job::One, &table), &mut state)?;
/// # Ok::<(), fenhamper::Refusal>(())
/// ```
#[derive(Clone, Copy, Debug, PartialEq, Eq, Hash)]
pub struct Listener<'t> {
    /// What the job is set to.
    pub settings: Settings,
    /// Its number.
    pub job: Job,
    /// The table, of which it looks at its own entries.
    pub table: &'t Table,
}

impl Listener<'_> {
    /// The screen's call: the client data that a reading of this job from `place` on gives, of the
    /// captures of both jobs, job 0's first. It is a part of this job's capture and of no other; it
    /// is empty where nothing is handed out. No state has a part in it.
    ///
    /// ```
    /// use fenhamper::{Address, Capture, Frame, Job, Sender, Settings, State, Table};
    ///
    /// let (settings, table) = (Settings::default(), Table::new());
    /// let (mut octets, mut marks) = ([0; 168], [0; 168]);
    /// let mut sender = Sender::new(&mut octets, &mut marks);
    /// let (frame, mut state) = (Frame::to(Address::BROADCAST), State::default());
    /// sender.client(&settings, &mut state, &frame, b"for job 0")?;
    /// sender.client(&settings, &mut state, &frame, b"for job 1")?;
    /// let captures = [0, 84].map(|from| Capture::new(&octets[from..], &marks[from..]));
    ///
    /// let shown = Job::BOTH.map(|job| settings.listing(job, &table).screen_data(captures, 0));
    /// assert_eq!(shown, [Ok(&b"for job 0"[..]), Ok(b"for job 1")]);
    /// # Ok::<(), fenhamper::Refusal>(())
    /// ```
    ///
    /// # Errors
    ///
    /// Those of a reading of this job: the first of 1, 2, 3 and 20. Of the other capture nothing is
    /// looked at.
    pub fn screen_data<'a>(
        &self,
        captures: [Capture<'a>; JOBS],
        place: usize,
    ) -> Result<&'a [u8], Refusal> {
        let [zero, one] = captures;
        let (refusal, part) = sys::screen_data(
            self.settings.record(),
            self.job.number(),
            self.table.record(),
            zero.octets,
            zero.marks,
            one.octets,
            one.marks,
            place,
        );
        Refusal::check(refusal)?;
        let chosen = match self.job {
            Job::Zero => zero,
            Job::One => one,
        };
        Ok(chosen.part(part.place as usize, part.length as usize))
    }
}

/// Job 0, with nothing listed.
impl From<&Settings> for Listener<'_> {
    fn from(settings: &Settings) -> Self {
        settings.listing(Job::Zero, &NOTHING_LISTED)
    }
}
