//! Tags of client frames.
use crate::sys;
use core::fmt;

/// The kind of a tag: the two octets on the line that say that a tag control follows. The names are
/// those of IEEE 802.1Q.
#[derive(Clone, Copy, Debug, PartialEq, Eq, PartialOrd, Ord, Hash)]
pub enum TagKind {
    /// 0x8100.
    Customer,
    /// 0x88A8, which providers put outside the others.
    Service,
}

impl TagKind {
    /// The two octets on the line, high octet first.
    ///
    /// ```
    /// use fenhamper::TagKind;
    ///
    /// assert_eq!(TagKind::Service.number(), 0x88A8);
    /// assert_eq!(TagKind::from_number(0x8100), Some(TagKind::Customer));
    /// assert_eq!(TagKind::from_number(0x0800), None);
    /// ```
    #[must_use]
    pub const fn number(self) -> u16 {
        match self {
            TagKind::Customer => 0x8100,
            TagKind::Service => 0x88A8,
        }
    }

    /// The kind of a number, if it is a tag's.
    #[must_use]
    pub const fn from_number(number: u16) -> Option<TagKind> {
        match number {
            0x8100 => Some(TagKind::Customer),
            0x88A8 => Some(TagKind::Service),
            _ => None,
        }
    }
}

/// A tag: its kind and its tag control.
///
/// ```
/// use fenhamper::{Tag, TagKind};
///
/// // priority 7, VLAN 5
/// let tag = Tag::customer(7 << 13 | 5);
/// assert_eq!((tag.kind, tag.control), (TagKind::Customer, 0xE005));
/// assert_eq!(Tag::service(100).kind, TagKind::Service);
/// ```
#[derive(Clone, Copy, Debug, PartialEq, Eq, PartialOrd, Ord, Hash)]
pub struct Tag {
    /// Its kind.
    pub kind: TagKind,
    /// Its tag control: priority, drop eligibility and VLAN, of which nothing is looked at.
    pub control: u16,
}

impl Tag {
    /// A tag of kind 0x8100 with this tag control.
    #[must_use]
    pub const fn customer(control: u16) -> Tag {
        Tag {
            kind: TagKind::Customer,
            control,
        }
    }

    /// A tag of kind 0x88A8 with this tag control.
    #[must_use]
    pub const fn service(control: u16) -> Tag {
        Tag {
            kind: TagKind::Service,
            control,
        }
    }

    // As the header lays it out.
    pub(crate) const fn record(self) -> sys::Tag {
        sys::Tag {
            kind: match self.kind {
                TagKind::Customer => sys::TAG_CUSTOMER,
                TagKind::Service => sys::TAG_SERVICE,
            },
            spare: 0,
            control: self.control,
        }
    }

    // The tag that the header lays out so.
    pub(crate) const fn of(record: sys::Tag) -> Tag {
        Tag {
            kind: match record.kind {
                sys::TAG_CUSTOMER => TagKind::Customer,
                _ => TagKind::Service,
            },
            control: record.control,
        }
    }
}

// Shows what an iterator gives as a list.
pub(crate) struct List<I>(pub I);

impl<I: Iterator<Item: fmt::Debug> + Clone> fmt::Debug for List<I> {
    fn fmt(&self, f: &mut fmt::Formatter<'_>) -> fmt::Result {
        f.debug_list().entries(self.0.clone()).finish()
    }
}
