//! The frame behind a Start, in the capture.
use crate::address::Address;
use crate::answers::Outcome;
use crate::limits;
use crate::receive::Counted;
use crate::tag::{Tag, TagKind};
use core::fmt;
use core::iter::FusedIterator;

// From a Start to its frame: the Start itself and seven octets of preamble.
const BEFORE_FRAME: usize = 8;
const ADDRESS: usize = 6;
const FIELD: usize = 2;
const TAG: usize = 4;
const FCS: usize = 4;

impl<'a> Counted<'a> {
    /// The run: the data octets behind the Start, up to the control symbol that ended it.
    ///
    /// ```
    /// use fenhamper::{Capture, Station};
    ///
    /// let capture = Capture::new(&[0xFB, 0x55, 0xD5, 0xFD], &[1, 0, 0, 1]);
    /// let mut station = Station::default();
    /// let counted = station.readings(capture).next().unwrap()?;
    /// assert_eq!(counted.run(), [0x55, 0xD5]);
    /// # Ok::<(), fenhamper::Refusal>(())
    /// ```
    #[must_use]
    pub fn run(&self) -> &'a [u8] {
        self.behind(1)
    }

    /// The frame, whatever its outcome: what of it the run has.
    ///
    /// ```
    /// use fenhamper::{Address, Capture, Frame, Outcome, Sender, Settings, Station, Tag};
    ///
    /// let mut station = Station::new(Settings::new(Address([0x02, 0, 0, 0, 0, 1])));
    /// let to = Address([0x02, 0, 0, 0, 0, 9]);
    /// let (mut octets, mut marks) = ([0; 88], [0; 88]);
    /// let mut sender = Sender::new(&mut octets, &mut marks);
    /// station.send_client(&mut sender, &Frame::to(to).tag(Tag::customer(5)), b"for another")?;
    ///
    /// // read by its own sender, it is filtered, and can be looked at all the same
    /// let counted = station.readings(Capture::new(&octets, &marks)).next().unwrap()?;
    /// assert_eq!(counted.outcome, Outcome::Filtered);
    /// let frame = counted.frame();
    /// assert_eq!(frame.destination(), Some(to));
    /// assert_eq!(frame.source(), Some(station.settings.own()));
    /// assert!(frame.tags().eq([Tag::customer(5)]));
    /// assert_eq!(frame.field(), Some(11));
    /// assert!(frame.data().unwrap().starts_with(b"for another"));
    /// # Ok::<(), fenhamper::Refusal>(())
    /// ```
    pub fn frame(&self) -> FrameView<'a> {
        FrameView {
            octets: self.behind(BEFORE_FRAME),
            cut: self.outcome == Outcome::Cut,
        }
    }

    // The octets from so many places behind the Start up to the run's end; none if it ends before.
    fn behind(&self, places: usize) -> &'a [u8] {
        let from = self.start.saturating_add(places);
        self.capture.get(from..self.next).unwrap_or_default()
    }
}

/// A frame as it stands in the capture, made by [`Counted::frame`].
///
/// It begins eight places behind its Start, for outcomes 1 and 2 too, where the preamble is not what
/// it should be or is missing. Addresses, tags and field are counted from its front and are there as
/// far as the run goes. The FCS is the last four octets; a frame that was cut has none, since nothing
/// says where it would have ended.
///
/// For outcomes 8 to 11 nothing is missing, and what is said here agrees with the status word.
#[derive(Clone, Copy, PartialEq, Eq, Hash)]
#[must_use]
pub struct FrameView<'a> {
    octets: &'a [u8],
    cut: bool,
}

impl<'a> FrameView<'a> {
    /// All its octets, from destination to FCS, a part of the capture's.
    #[must_use]
    pub const fn octets(&self) -> &'a [u8] {
        self.octets
    }

    /// The destination.
    #[must_use]
    pub fn destination(&self) -> Option<Address> {
        self.address(0)
    }

    /// The source.
    #[must_use]
    pub fn source(&self) -> Option<Address> {
        self.address(ADDRESS)
    }

    /// The tags, the outermost first: up to eight, of either kind. A ninth is an ordinary type.
    ///
    /// ```
    /// use fenhamper::{Address, Frame, Sender, Station, Tag};
    ///
    /// let tags = [Tag::service(100), Tag::customer(5)];
    /// let mut station = Station::default();
    /// let (mut octets, mut marks) = ([0; 92], [0; 92]);
    /// let mut sender = Sender::new(&mut octets, &mut marks);
    /// station.send_client(&mut sender, &Frame::to(Address::BROADCAST).tags(&tags), b"data")?;
    /// let counted = station.readings(sender.capture()).next().unwrap()?;
    /// assert!(counted.frame().tags().eq(tags));
    /// assert!(counted.status.stacked());
    /// # Ok::<(), fenhamper::Refusal>(())
    /// ```
    pub fn tags(&self) -> Tags<'a> {
        Tags {
            rest: self.octets.get(2 * ADDRESS..).unwrap_or_default(),
            left: limits::MOST_TAGS,
        }
    }

    /// The field behind the last tag: 1536 or more is a type, a lower one a length.
    #[must_use]
    pub fn field(&self) -> Option<u16> {
        match *self.behind_tags() {
            [high, low, ..] => Some(u16::from_be_bytes([high, low])),
            _ => None,
        }
    }

    /// Whether it is a control frame: its first field is 0x8808. Behind a tag that is an ordinary
    /// type.
    #[must_use]
    pub fn is_control(&self) -> bool {
        self.octets
            .get(2 * ADDRESS..)
            .is_some_and(|fields| fields.starts_with(&[0x88, 0x08]))
    }

    /// All of the data, with its padding, from behind the field to before the FCS; of a frame that
    /// was cut, to the end of the run. What is handed out is [`Counted::data`].
    #[must_use]
    pub fn data(&self) -> Option<&'a [u8]> {
        let data = self.behind_tags().get(FIELD..)?;
        if self.cut {
            return Some(data);
        }
        let length = data.len().checked_sub(FCS)?;
        data.get(..length)
    }

    /// The FCS, as a number whose low octet was sent first. A frame that was cut has none.
    ///
    /// ```
    /// use fenhamper::{Address, Frame, Outcome, Sender, Station};
    ///
    /// let mut station = Station::default();
    /// let (mut octets, mut marks) = ([0; 84], [0; 84]);
    /// let mut sender = Sender::new(&mut octets, &mut marks);
    /// station.send_client(&mut sender, &Frame::to(Address::BROADCAST), b"turn a bit")?;
    /// octets[30] ^= 4;
    /// let line = fenhamper::Capture::new(&octets, &marks);
    /// let counted = station.readings(line).next().unwrap()?;
    /// assert_eq!(counted.outcome, Outcome::WrongFcs);
    /// let frame = counted.frame();
    /// assert_ne!(frame.fcs(), frame.covered().map(fenhamper::fcs));
    /// # Ok::<(), fenhamper::Refusal>(())
    /// ```
    #[must_use]
    pub fn fcs(&self) -> Option<u32> {
        let at = self.covered()?.len();
        let octets = self.octets.get(at..)?.try_into().ok()?;
        Some(u32::from_le_bytes(octets))
    }

    /// What the FCS covers: destination to the end of the data.
    #[must_use]
    pub fn covered(&self) -> Option<&'a [u8]> {
        if self.cut {
            return None;
        }
        let length = self.octets.len().checked_sub(FCS)?;
        self.octets.get(..length)
    }

    fn address(&self, place: usize) -> Option<Address> {
        let octets = self.octets.get(place..)?.get(..ADDRESS)?;
        Address::try_from(octets).ok()
    }

    // The octets from the field behind the last tag on.
    fn behind_tags(&self) -> &'a [u8] {
        let mut tags = self.tags();
        while tags.next().is_some() {}
        tags.rest
    }
}

impl fmt::Debug for FrameView<'_> {
    fn fmt(&self, f: &mut fmt::Formatter<'_>) -> fmt::Result {
        f.debug_struct("FrameView")
            .field("destination", &self.destination())
            .field("source", &self.source())
            .field("tags", &self.tags())
            .field("field", &self.field())
            .field("data", &self.data())
            .field("fcs", &self.fcs())
            .finish()
    }
}

/// The tags of a frame in the capture, the outermost first, made by [`FrameView::tags`].
#[derive(Clone, PartialEq, Eq, Hash)]
#[must_use]
pub struct Tags<'a> {
    // one tag followed by a shorter run, or what stands behind the last
    rest: &'a [u8],
    left: usize,
}

impl Iterator for Tags<'_> {
    type Item = Tag;

    fn next(&mut self) -> Option<Tag> {
        let left = self.left.checked_sub(1)?;
        let (tag, rest) = self.rest.split_at_checked(TAG)?;
        let [kind_high, kind_low, high, low] = *tag else {
            return None;
        };
        let kind = TagKind::from_number(u16::from_be_bytes([kind_high, kind_low]))?;
        (self.rest, self.left) = (rest, left);
        Some(Tag {
            kind,
            control: u16::from_be_bytes([high, low]),
        })
    }

    fn size_hint(&self) -> (usize, Option<usize>) {
        (0, Some(self.left))
    }
}

impl FusedIterator for Tags<'_> {}

impl fmt::Debug for Tags<'_> {
    fn fmt(&self, f: &mut fmt::Formatter<'_>) -> fmt::Result {
        f.debug_list().entries(self.clone()).finish()
    }
}
