//! A reference implementation of document 01, with items 1 to 14 of document 02:
//! the work of an Ethernet MAC on line symbols kept in memory.
//!
//! Written from those documents alone, to be compared with the proved program.
//! The words in quotes in the comments are the names of their sections.

#![forbid(unsafe_code)]
#![warn(missing_docs)]

mod check;
mod counting;
mod frame;
mod line;
mod log;
mod plain;
mod port;
mod print;
mod quiet;
mod reason;
mod receive;
mod refusal;
mod send;
mod settings;
mod show;
mod sizes;
mod table;
mod totals;

pub use check::{fcs, fcs_update, Check};
pub use counting::{fill_idle_counting, send_client_counting};
pub use counting::{send_pause_counting, send_pfc_counting};
pub use log::{append, append_reading, compact, delete_outcome, delete_record, first_unused};
pub use log::{record, used_in_front, used_records, walk_log};
pub use log::{LogEnd, LogReader, Logged, Record};
pub use plain::{Ended, PlainReader};
pub use port::Port;
pub use print::print;
pub use quiet::{run_quietly, Call, Hearing, Loud, Quiet, Writing};
pub use reason::{explain, Explained, Reason, Why};
pub use receive::{read, walk, Answer, Reading, Walked};
pub use send::{fill_idle, send_client, send_pause, send_pfc, Client, Form, Sent, Tag, TagKind};
pub use settings::{screen, Flow, Settings, State};
pub use show::{show, Lent, Part};
pub use sizes::SizeTable;
pub use table::{Entry, Table};
pub use totals::{fill_totals, starts_before, Total};
