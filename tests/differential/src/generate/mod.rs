//! What the calls are given: settings, states, frames, captures, buffers and things to send.

mod captures;
mod frames;
mod listeners;
mod logs;
mod plain;
mod quiet;
mod reasons;
mod records;
mod sendings;
mod settings;
mod sizes;
mod tags;
mod totals;

pub use captures::{capture, longest_capture, shown_capture, tabled_capture};
pub use captures::{place, start_places, starts, Symbols};
pub use listeners::{broken_table, named_address, sound_table, table_job};
pub use listeners::{listener, misnumbered, sound_listener, Listener};
pub use logs::{alike_log, log, log_with_room, outcome_of, record, record_number, short_log};
pub use logs::{reading_record, BEYOND_THE_LOG};
pub(crate) use plain::any_reader;
pub use plain::{filled_capture, turn, Turn};
pub use quiet::{longest_wait, quiet_client, quiet_listener, quiet_sending, quieting_capture};
pub use reasons::explained_capture;
pub use records::{client_record, port_octet, settings_record, spoil, state_record};
pub use sendings::{blank_line, port, sending, sending_place, timed, Sending};
pub use sendings::{short_frame, timed_frame};
pub use settings::{
    settings, state, valid_settings, BROADCAST, COUNTER_BIT, HIGHEST_BIT, RESERVED_GROUP,
};
pub use sizes::{sized_capture, sizes};
pub use totals::{allowed, asked_place, line_length, roomy_place, stage, starry, totals, MARKS};

/// The most symbols that a call takes.
pub const SYMBOLS: usize = 65_536;
/// A walk over so many symbols may make tables of the FCS for itself, where its first frames are
/// short; one over fewer never does.
pub const TABLES_FROM: usize = 4_096;
/// Both sides of where the FCS of a message is made in another way: by words, with lent tables by
/// words, in a window, and with a piece of the window more.
pub const FCS_EDGES: [usize; 8] = [127, 128, 511, 512, 639, 640, 1260, 1261];
/// The most tags that a frame has.
pub const MOST_TAGS: usize = 8;

/// A number of tags that is 8 if its high bits are lost.
pub const BEYOND_8_BITS: usize = (1 << 8) + 8;
/// A number of octets that is 46 if its high bits are lost.
pub const BEYOND_16_BITS: usize = (1 << 16) + 46;
/// A place or a number that is 0 if its high bits are lost.
pub const BEYOND_32_BITS: usize = 1 << 32;

/// Stands between frames.
pub const IDLE: u8 = 0x07;
/// Begins a frame.
pub const START: u8 = 0xFB;
/// Ends a frame.
pub const TERMINATE: u8 = 0xFD;
/// Ends a run, never a frame.
pub const ERROR: u8 = 0xFE;
/// Treated like Error.
pub const SEQUENCE: u8 = 0x9C;

/// Between Start and frame.
pub const PREAMBLE: [u8; 7] = [0x55, 0x55, 0x55, 0x55, 0x55, 0x55, 0xD5];
