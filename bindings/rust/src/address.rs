//! Addresses of stations and groups.
use crate::sys;
use core::array::TryFromSliceError;
use core::error::Error;
use core::fmt;
use core::str::FromStr;

/// A station's or a group's address: six octets, in the order on the line.
///
/// It is written as the documents write it, and read so or with colons, in either case.
///
/// ```
/// use fenhamper::Address;
///
/// let address: Address = "02-00-00-00-ab-01".parse()?;
/// assert_eq!(address, Address([0x02, 0, 0, 0, 0xAB, 1]));
/// assert_eq!("02:00:00:00:AB:01".parse(), Ok(address));
/// assert_eq!(address.to_string(), "02-00-00-00-AB-01");
/// assert_eq!(Address::PAUSE_GROUP.to_string(), "01-80-C2-00-00-01");
/// # Ok::<(), fenhamper::ParseAddressError>(())
/// ```
#[derive(Clone, Copy, PartialEq, Eq, PartialOrd, Ord, Hash)]
pub struct Address(pub [u8; 6]);

impl Address {
    /// All ones.
    pub const BROADCAST: Address = Address([0xFF; 6]);

    /// The reserved group that pause and PFC frames go to.
    pub const PAUSE_GROUP: Address = Address([0x01, 0x80, 0xC2, 0x00, 0x00, 0x01]);

    /// Whether it is a group's, broadcast included: the lowest bit of the first octet is set.
    ///
    /// ```
    /// use fenhamper::Address;
    ///
    /// assert!(Address::PAUSE_GROUP.is_group() && Address::BROADCAST.is_group());
    /// assert!(!Address([0x02, 0, 0, 0, 0, 1]).is_group());
    /// ```
    #[must_use]
    pub const fn is_group(self) -> bool {
        self.0[0] & 1 == 1
    }

    // As the header lays it out.
    pub(crate) const fn record(self) -> sys::Address {
        sys::Address { octets: self.0 }
    }

    // The address that the header lays out so.
    pub(crate) const fn of(record: sys::Address) -> Address {
        Address(record.octets)
    }
}

impl From<[u8; 6]> for Address {
    fn from(octets: [u8; 6]) -> Address {
        Address(octets)
    }
}

impl From<Address> for [u8; 6] {
    fn from(address: Address) -> [u8; 6] {
        address.0
    }
}

/// Six octets make an address; fewer or more do not.
///
/// ```
/// use fenhamper::Address;
///
/// let frame = [0xFF, 0xFF, 0xFF, 0xFF, 0xFF, 0xFF, 0x02, 0, 0, 0, 0, 1];
/// assert_eq!(Address::try_from(&frame[..6])?, Address::BROADCAST);
/// assert!(Address::try_from(&frame[..7]).is_err());
/// # Ok::<(), core::array::TryFromSliceError>(())
/// ```
impl TryFrom<&[u8]> for Address {
    type Error = TryFromSliceError;

    fn try_from(octets: &[u8]) -> Result<Address, TryFromSliceError> {
        octets.try_into().map(Address)
    }
}

impl AsRef<[u8]> for Address {
    fn as_ref(&self) -> &[u8] {
        &self.0
    }
}

/// As the documents write it: 02-00-00-00-00-01.
impl fmt::Display for Address {
    fn fmt(&self, f: &mut fmt::Formatter<'_>) -> fmt::Result {
        let [first, others @ ..] = self.0;
        write!(f, "{first:02X}")?;
        others
            .iter()
            .try_for_each(|octet| write!(f, "-{octet:02X}"))
    }
}

impl fmt::Debug for Address {
    fn fmt(&self, f: &mut fmt::Formatter<'_>) -> fmt::Result {
        write!(f, "Address({self})")
    }
}

// Two digits for each octet, and a separator between two octets.
const WRITTEN: usize = 17;

/// A text that is no address, and where it ceases to be one.
///
/// ```
/// use fenhamper::Address;
///
/// let error = "02-00-00:00-00-01".parse::<Address>().unwrap_err();
/// assert_eq!(error.place(), 8);
/// assert_eq!(
///     error.to_string(),
///     "no address from octet 8 of the text on: six pairs of hexadecimal digits are expected, \
///      with '-' between all of them or ':' between all of them"
/// );
/// ```
#[derive(Clone, Copy, Debug, PartialEq, Eq, Hash)]
pub struct ParseAddressError {
    place: usize,
}

impl ParseAddressError {
    /// The place of the text's first octet that an address cannot have there; the text's length if
    /// it ends too soon.
    #[must_use]
    pub const fn place(self) -> usize {
        self.place
    }
}

impl fmt::Display for ParseAddressError {
    fn fmt(&self, f: &mut fmt::Formatter<'_>) -> fmt::Result {
        write!(
            f,
            "no address from octet {} of the text on: six pairs of hexadecimal digits are \
             expected, with '-' between all of them or ':' between all of them",
            self.place
        )
    }
}

impl Error for ParseAddressError {}

// What a hexadecimal digit stands for.
const fn digit(octet: u8) -> Option<u8> {
    match octet {
        b'0'..=b'9' => Some(octet - b'0'),
        b'a'..=b'f' => Some(octet - b'a' + 10),
        b'A'..=b'F' => Some(octet - b'A' + 10),
        _ => None,
    }
}

impl FromStr for Address {
    type Err = ParseAddressError;

    fn from_str(text: &str) -> Result<Address, ParseAddressError> {
        let mut address = Address([0; 6]);
        // the first separator, which the others are equal to
        let mut separator = None;
        for (place, octet) in text.bytes().enumerate() {
            let wrong = ParseAddressError { place };
            if place >= WRITTEN {
                return Err(wrong);
            }
            if place % 3 == 2 {
                let separates = matches!(octet, b'-' | b':');
                if !separates || *separator.get_or_insert(octet) != octet {
                    return Err(wrong);
                }
            } else {
                let value = digit(octet).ok_or(wrong)?;
                let whole = &mut address.0[place / 3];
                *whole = *whole << 4 | value;
            }
        }
        if text.len() < WRITTEN {
            return Err(ParseAddressError { place: text.len() });
        }
        Ok(address)
    }
}
