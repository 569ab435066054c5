#![doc = include_str!("../README.md")]
#![no_std]
#![warn(missing_docs)]
#![deny(unsafe_code)]

// The archive is made for 64-bit targets, and places pass through 64 bits: no cast loses anything.
#[cfg(not(target_pointer_width = "64"))]
compile_error!("libfenhamper.a is for 64-bit targets");

#[cfg(test)]
extern crate std;

mod address;
mod answers;
mod fcs;
mod lent;
pub mod limits;
mod line;
mod listener;
mod log;
mod plain;
mod port;
mod reason;
mod receive;
pub mod records;
mod send;
mod settings;
mod sizes;
mod state;
mod station;
mod sys;
mod table;
mod tag;
mod view;

#[cfg(test)]
mod header;

pub use address::{Address, ParseAddressError};
pub use answers::{Outcome, Refusal, Status, Way};
pub use fcs::{fcs, Fcs};
pub use lent::Buffers;
pub use line::{blocks, Line};
pub use listener::Listener;
pub use log::{End, Kept, Log, LogRecords, LogView, Record};
pub use plain::{Plain, Symbol, Told};
pub use port::Port;
pub use reason::{Explained, Reason};
pub use receive::{Capture, Counted, Reading, Readings, Walk};
pub use send::{Form, Frame, Sender};
pub use settings::{Flow, Settings};
pub use sizes::{Band, Sizes};
pub use state::State;
pub use station::{Listing, Station};
pub use table::{Entry, Job, Table};
pub use tag::{Tag, TagKind};
pub use view::{FrameView, Tags};

/// The most symbols that a call takes: longer buffers get refusal 2.
///
/// ```
/// use fenhamper::{Capture, Refusal, Settings, State, SYMBOLS};
///
/// let long = vec![0; SYMBOLS + 1];
/// let capture = Capture::new(&long, &long);
/// let walk = capture.walk(&Settings::default(), &mut State::default());
/// assert_eq!(walk, Err(Refusal::BadBuffers));
/// ```
pub const SYMBOLS: usize = limits::MOST_SYMBOLS;
