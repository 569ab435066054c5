//! Captures as the printing program takes them: records of two octets, mark then octet, no header.
//!
//! ```
//! use fenhamper::{records, Station};
//!
//! // document 01's example
//! let input = [1, 0xFB, 1, 0x07, 1, 0xFB, 0, 0x55, 1, 0xFD];
//! let (mut octets, mut marks) = ([0; 8], [0; 8]);
//! let capture = records::capture(&input, &mut octets, &mut marks)?;
//! let walk = Station::default().walk(capture)?;
//! assert_eq!((walk.starts, walk.open), (2, false));
//!
//! // and back
//! let output: Vec<u8> = capture.records().flatten().collect();
//! assert_eq!(output, input);
//! # Ok::<(), Box<dyn std::error::Error>>(())
//! ```
use crate::receive::Capture;
use core::error::Error;
use core::fmt;
use core::iter::FusedIterator;

/// The most records that the printing program takes: 32,768. What is here takes more, as far as the
/// lent buffers go.
pub const MOST_RECORDS: usize = 32_768;

// A record's length.
const RECORD: usize = 2;

/// Why octets were not taken as records.
///
/// ```
/// use fenhamper::records::{split, BadRecords};
///
/// let error = split(&[1, 0xFB, 0], &mut [0; 4], &mut [0; 4]).unwrap_err();
/// assert_eq!(error, BadRecords::Odd { length: 3 });
/// assert_eq!(
///     error.to_string(),
///     "bad records: 3 octets are no whole number of records of two"
/// );
/// ```
#[derive(Clone, Copy, Debug, PartialEq, Eq, Hash)]
#[non_exhaustive]
pub enum BadRecords {
    /// The last record has no octet behind its mark.
    Odd {
        /// How many octets there are.
        length: usize,
    },
    /// More records than octets or marks can be kept of.
    NoRoom {
        /// How many records there are.
        records: usize,
        /// The length of the shorter buffer.
        room: usize,
    },
}

impl fmt::Display for BadRecords {
    fn fmt(&self, f: &mut fmt::Formatter<'_>) -> fmt::Result {
        match self {
            BadRecords::Odd { length } => write!(
                f,
                "bad records: {length} octets are no whole number of records of two"
            ),
            BadRecords::NoRoom { records, room } => {
                write!(f, "bad records: {records} of them, and room for {room}")
            }
        }
    }
}

impl Error for BadRecords {}

/// Writes the records' octets and marks to the front of two buffers, and gives how many there were.
/// What stands behind them there, stays.
///
/// ```
/// use fenhamper::records;
///
/// let (mut octets, mut marks) = ([9; 3], [9; 3]);
/// assert_eq!(records::split(&[1, 0xFB, 0, 0x55], &mut octets, &mut marks), Ok(2));
/// assert_eq!((octets, marks), ([0xFB, 0x55, 9], [1, 0, 9]));
/// ```
///
/// # Errors
///
/// [`BadRecords::Odd`] for an odd number of octets, else [`BadRecords::NoRoom`] for more records
/// than the shorter buffer can take. Then nothing is written.
pub fn split(records: &[u8], octets: &mut [u8], marks: &mut [u8]) -> Result<usize, BadRecords> {
    let count = records.len() / RECORD;
    if records.len() % RECORD != 0 {
        return Err(BadRecords::Odd {
            length: records.len(),
        });
    }
    let room = octets.len().min(marks.len());
    if count > room {
        return Err(BadRecords::NoRoom {
            records: count,
            room,
        });
    }
    let places = octets.iter_mut().zip(marks);
    for ((octet, mark), record) in places.zip(records.chunks_exact(RECORD)) {
        [*mark, *octet] = [record[0], record[1]];
    }
    Ok(count)
}

/// The records as a capture, which is kept in the lent buffers.
///
/// # Errors
///
/// As [`split`].
pub fn capture<'a>(
    records: &[u8],
    octets: &'a mut [u8],
    marks: &'a mut [u8],
) -> Result<Capture<'a>, BadRecords> {
    let count = split(records, octets, marks)?;
    Ok(Capture::new(&octets[..count], &marks[..count]))
}

impl<'a> Capture<'a> {
    /// The capture's symbols as records, mark then octet: see [`records`](crate::records). If
    /// octets and marks differ in length, as many as both have.
    ///
    /// ```
    /// use fenhamper::Capture;
    ///
    /// let capture = Capture::new(&[0xFB, 0x55], &[1, 0]);
    /// assert_eq!(capture.records().len(), 2);
    /// assert!(capture.records().eq([[1, 0xFB], [0, 0x55]]));
    /// ```
    pub fn records(&self) -> Records<'a> {
        Records {
            octets: self.octets.iter(),
            marks: self.marks.iter(),
        }
    }
}

/// The symbols of a capture as records, mark then octet, made by [`Capture::records`].
#[derive(Clone, Debug)]
#[must_use]
pub struct Records<'a> {
    octets: core::slice::Iter<'a, u8>,
    marks: core::slice::Iter<'a, u8>,
}

impl Iterator for Records<'_> {
    type Item = [u8; RECORD];

    fn next(&mut self) -> Option<[u8; RECORD]> {
        Some([*self.marks.next()?, *self.octets.next()?])
    }

    fn size_hint(&self) -> (usize, Option<usize>) {
        let length = self.octets.len().min(self.marks.len());
        (length, Some(length))
    }
}

impl ExactSizeIterator for Records<'_> {}

impl FusedIterator for Records<'_> {}
