//! The proved library, through its Rust face and through its C face, against the reference
//! implementation of document 01 and of items 1 to 14 of document 02, on drawn inputs.
#![deny(unsafe_code)]
#![warn(missing_docs)]

pub mod cases;
pub mod compare;
pub mod coverage;
pub mod generate;
pub mod names;
pub mod prng;
pub mod seed;
pub mod show;

mod compare_c;
mod compare_jobs;
mod compare_log;
mod compare_plain;
mod compare_quiet;
mod compare_reason;
mod compare_row;
mod compare_sizes;
mod compare_totals;
mod face;
mod plain_log;
mod raw;
mod records;
mod seen;
mod seen_jobs;
mod seen_log;
mod seen_plain;
mod seen_quiet;
mod seen_reason;
mod seen_sizes;
mod seen_totals;
mod table;
mod watch;
