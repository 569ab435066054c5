//! The limits of documents 01 and 02, and how much stack a call takes, by name.
//!
//! The names are the header's, without its `FENHAMPER_`, and a test holds their values to it.
//!
//! ```
//! use fenhamper::{limits, Settings};
//!
//! let jumbo = Settings::default().limit(limits::MOST_LIMIT);
//! assert_eq!(jumbo.frame_limit(), 9618);
//! ```
use crate::sys;

/// The most symbols of a capture or of line buffers: 65,536.
pub const MOST_SYMBOLS: usize = sys::MOST_SYMBOLS;

/// The least that the limit M can be: 1518 octets.
pub const LEAST_LIMIT: u16 = sys::LEAST_LIMIT;

/// The most that the limit M can be: 9618 octets.
pub const MOST_LIMIT: u16 = 9618;

/// The shortest frame, destination to FCS: 64 octets. A shorter one is undersized.
pub const LEAST_FRAME: usize = 64;

/// The shortest data of a frame that is sent: 46 octets. Shorter data is padded to them.
pub const LEAST_DATA: usize = 46;

/// The longest data in the length form: 1500 octets.
pub const MOST_LENGTH: usize = 1500;

/// The least field that is a type: 1536.
pub const LEAST_TYPE: u16 = 1536;

/// A quantum in slots: 64. A slot is one symbol written.
pub const QUANTUM: u64 = 64;

/// How many jobs share a table of addresses: 2.
pub const JOBS: usize = sys::JOBS;

/// Entries of that table: 16.
pub const ENTRIES: usize = sys::ENTRIES;

/// The most entries that a job can hold: 12.
pub const MOST_HELD: usize = 12;

/// The entries that a job always gets, whatever the other one holds: 4.
pub const LEAST_HELD: usize = 4;

/// The most tags of a frame: 8. A ninth is an ordinary type.
pub const MOST_TAGS: usize = sys::MOST_TAGS;

/// How many classes there are, 0 to 7, with a timer each: 8.
pub const CLASSES: usize = sys::CLASSES;

/// How many outcomes there are, 1 to 11, with a counter each: 11.
pub const OUTCOMES: usize = sys::OUTCOMES;

/// Octets of a record of a log: 16.
pub const RECORD_SIZE: usize = sys::RECORD_SIZE;

/// Symbols of a block, of which one total counts the Starts: 256.
pub const BLOCK: usize = sys::BLOCK;

/// The most blocks of a capture or of line buffers: 256.
pub const MOST_BLOCKS: usize = 256;

/// Octets of stack that a reading or its reason takes at most, and a call on a log or a table: 3072.
pub const STACK_READ: usize = 3072;

/// Octets of stack that the [screen's data](crate::Listener::screen_data) takes at most: 3456.
pub const STACK_SCREEN: usize = 3456;

/// Octets of stack that a sending call or an Idle fill into a [`Sender`](crate::Sender) takes at
/// most, and filling totals or asking for Starts: 2560.
pub const STACK_SEND: usize = 2560;

/// Octets of stack that a sending call or an Idle fill into a [`Line`](crate::Line) takes at most:
/// 2816.
pub const STACK_COUNTED: usize = 2816;

/// Octets of stack that a walk takes at most, one that keeps its readings too, and a capture whose
/// [sizes](crate::Sizes) are added: 20,448, of which 16,384 are for tables.
pub const STACK_WALK: usize = 20448;

/// Octets of stack that a symbol of the [plain reader](crate::Plain) takes at most: 3328.
pub const STACK_PLAIN: usize = 3328;

/// Octets of a run that the plain reader keeps from its front: 53.
pub const PLAIN_FIRST: usize = sys::PLAIN_FIRST;

/// Octets of a run that the plain reader keeps from its end, which may be its FCS: 4.
pub const PLAIN_LAST: usize = sys::PLAIN_LAST;

/// Bands of frame lengths in a [size table](crate::Sizes): 7.
pub const BANDS: usize = sys::BANDS;
