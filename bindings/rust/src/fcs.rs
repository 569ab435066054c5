//! The frame check sequence.
use crate::sys;

/// The FCS of octets, as a number whose low octet is sent first.
///
/// ```
/// assert_eq!(fenhamper::fcs(b"123456789"), 0xCBF43926);
/// assert_eq!(fenhamper::fcs(b""), 0);
/// ```
#[must_use]
pub fn fcs(octets: &[u8]) -> u32 {
    sys::fcs(octets)
}

/// The FCS of octets that come piece by piece.
///
/// ```
/// use fenhamper::{fcs, Fcs};
///
/// assert_eq!(
///     Fcs::new()
///         .update(b"1234")
///         .update(b"")
///         .update(b"56789")
///         .finish(),
///     fcs(b"123456789")
/// );
/// ```
#[derive(Clone, Copy, Debug, PartialEq, Eq, Hash)]
#[must_use]
pub struct Fcs {
    register: u32,
}

impl Fcs {
    /// The register before any octet: all ones.
    pub const fn new() -> Fcs {
        Fcs {
            register: 0xFFFF_FFFF,
        }
    }

    /// The register after more octets.
    pub fn update(self, octets: &[u8]) -> Fcs {
        Fcs {
            register: sys::fcs_update(self.register, octets),
        }
    }

    /// The FCS of all octets so far: the register's complement.
    #[must_use]
    pub const fn finish(self) -> u32 {
        !self.register
    }
}

impl Default for Fcs {
    fn default() -> Fcs {
        Fcs::new()
    }
}
