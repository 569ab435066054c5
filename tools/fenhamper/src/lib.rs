//! The crew's tool: what a capture says, by names and with reasons, for Wireshark and as a picture.
//! docs/TOOL.md shows it.
#![forbid(unsafe_code)]
#![warn(missing_docs)]

mod columns;
pub mod count;
mod draw;
mod dump;
mod evidence;
pub mod failure;
pub mod found;
mod from_pcap;
mod help;
pub mod io;
mod json;
mod list;
pub mod look;
pub mod names;
pub mod packets;
mod paint;
mod pcap;
pub mod pcapng;
pub mod progress;
mod run;
mod send;
pub mod sink;
mod sizes;
pub mod source;
pub mod stretch;
mod symbols;
pub mod who;
mod why;
pub mod words;

pub use run::run;
