//! The rules of document 01 and of items 1 to 14 of document 02, one module for
//! each part.

mod addresses;
mod bench;
mod counters;
mod fcs;
mod four_lanes;
mod hand;
mod jobs;
mod limits;
mod log;
mod plain;
mod printing;
mod quiet;
mod reading;
mod reasons;
mod refusals;
mod robust;
mod room;
mod round_trip;
mod sending;
mod sizes;
mod tags;
mod timers;
mod totals;
