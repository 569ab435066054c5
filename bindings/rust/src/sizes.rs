//! The size table of any number of captures.
use crate::answers::Refusal;
use crate::limits::BANDS;
use crate::listener::Listener;
use crate::receive::Capture;
use crate::sys;
use core::fmt;
use core::ops::AddAssign;

/// The size table of any number of captures: frames of outcomes 8 to 11 by their octets from
/// destination to FCS, and these octets, in seven bands. Counts are of 64 bits and roll over.
///
/// ```
/// use fenhamper::{Address, Capture, Frame, Sender, Settings, Sizes, State};
///
/// let own = Address([0x02, 0, 0, 0, 0, 1]);
/// let (settings, mut state) = (Settings::new(own), State::default());
/// let (mut octets, mut marks) = ([0; 300], [0; 300]);
/// let mut sender = Sender::new(&mut octets, &mut marks);
/// sender.client(&settings, &mut state, &Frame::to(own), b"padded to 64 octets")?;
/// sender.client(&settings, &mut state, &Frame::to(own), &[7; 110])?;
///
/// let mut sizes = Sizes::new();
/// sizes.add_capture(&settings, sender.written())?;
/// assert_eq!(sizes.frames, [1, 0, 1, 0, 0, 0, 0]);
/// assert_eq!(sizes.octets, [64, 0, 128, 0, 0, 0, 0]);
/// for band in sizes.bands().filter(|band| band.frames > 0) {
///     println!("{band} octets: {} frames", band.frames);
/// }
/// # Ok::<(), fenhamper::Refusal>(())
/// ```
///
/// Captures may be added in any order, and in parts that are then added up; the table is the same:
///
/// ```
/// use fenhamper::{Address, Capture, Frame, Sender, Settings, Sizes, State};
///
/// let (settings, mut state) = (Settings::default(), State::default());
/// let (mut octets, mut marks) = ([0; 168], [0; 168]);
/// let mut sender = Sender::new(&mut octets, &mut marks);
/// let frame = Frame::to(Address::BROADCAST);
/// sender.client(&settings, &mut state, &frame, b"morning")?;
/// sender.client(&settings, &mut state, &frame, b"evening")?;
/// let captures = [0, 84].map(|from| Capture::new(&octets[from..from + 84], &marks[from..from + 84]));
///
/// let mut parts = [Sizes::new(); 2];
/// let mut whole = Sizes::new();
/// for (part, capture) in parts.iter_mut().zip(captures) {
///     part.add_capture(&settings, capture)?;
///     whole.add_capture(&settings, capture)?;
/// }
/// let [mut morning, evening] = parts;
/// morning += evening;
/// assert_eq!(morning, whole);
/// # Ok::<(), fenhamper::Refusal>(())
/// ```
#[derive(Clone, Copy, Debug, Default, PartialEq, Eq, Hash)]
pub struct Sizes {
    /// The frames of each band, the shortest first.
    pub frames: [u64; BANDS],
    /// The octets of these frames.
    pub octets: [u64; BANDS],
}

impl Sizes {
    /// A table with nothing in it.
    #[must_use]
    pub fn new() -> Sizes {
        Sizes::of(sys::sizes_fresh())
    }

    // Of the header's record, and back.
    const fn of(record: sys::Sizes) -> Sizes {
        Sizes {
            frames: record.frames,
            octets: record.octets,
        }
    }

    const fn record(&self) -> sys::Sizes {
        sys::Sizes {
            frames: self.frames,
            octets: self.octets,
        }
    }

    /// Adds a whole capture: each frame to which a [walk](Capture::walk) gives outcome 8 to 11.
    /// Those four counters rise by as much as all bands together. Of a capture that ends open, what
    /// was counted before that is added.
    ///
    /// # Errors
    ///
    /// Refusals 1, 2 and 20, as the walk has them. A refused capture adds nothing.
    pub fn add_capture<'t>(
        &mut self,
        listener: impl Into<Listener<'t>>,
        capture: Capture<'_>,
    ) -> Result<(), Refusal> {
        let who = listener.into();
        let mut record = self.record();
        let refusal = sys::sizes_add_capture(
            who.settings.record(),
            who.job.number(),
            who.table.record(),
            capture.octets,
            capture.marks,
            &mut record,
        );
        *self = Sizes::of(record);
        Refusal::check(refusal)
    }

    /// Adds another table, each count to its own, as `+=` does.
    pub fn add_table(&mut self, more: &Sizes) {
        let mut record = self.record();
        sys::sizes_add_table(&mut record, &more.record());
        *self = Sizes::of(record);
    }

    /// The seven bands, the shortest frames first.
    ///
    /// ```
    /// use fenhamper::Sizes;
    ///
    /// let names: Vec<String> = Sizes::new().bands().map(|band| band.to_string()).collect();
    /// assert_eq!(names[..2], ["64", "65 to 127"]);
    /// assert_eq!(names[5..], ["1024 to 1518", "above"]);
    /// ```
    pub fn bands(&self) -> impl ExactSizeIterator<Item = Band> + '_ {
        (0..BANDS).map(|band| Band {
            least: LEAST[band],
            most: LEAST.get(band + 1).map(|next| next - 1),
            frames: self.frames[band],
            octets: self.octets[band],
        })
    }
}

/// As [`Sizes::add_table`].
impl AddAssign for Sizes {
    fn add_assign(&mut self, more: Sizes) {
        self.add_table(&more);
    }
}

// The shortest frame of each band.
const LEAST: [usize; BANDS] = [64, 65, 128, 256, 512, 1024, 1519];

/// A band of a [size table](Sizes): frames of one length or of some lengths. It is shown as the
/// words of its lengths.
#[derive(Clone, Copy, Debug, PartialEq, Eq, Hash)]
#[non_exhaustive]
pub struct Band {
    /// Octets of its shortest frame.
    pub least: usize,
    /// Octets of its longest frame; none in the last band.
    pub most: Option<usize>,
    /// How many frames there were, modulo 2^64.
    pub frames: u64,
    /// How many octets these had, modulo 2^64.
    pub octets: u64,
}

impl fmt::Display for Band {
    fn fmt(&self, f: &mut fmt::Formatter<'_>) -> fmt::Result {
        match self.most {
            None => f.write_str("above"),
            Some(most) if most == self.least => write!(f, "{most}"),
            Some(most) => write!(f, "{} to {most}", self.least),
        }
    }
}
