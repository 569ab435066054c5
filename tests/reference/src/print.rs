//! "The printing program".

use std::fmt::Write;

use crate::check::Check;
use crate::receive::{walk_with, Answer, Walked};
use crate::settings::{Settings, State};
use crate::table::Table;

/// Most records of two octets that are read.
const MAX_RECORDS: usize = 32_768;

const BAD_INPUT: &str = "bad input\n";

/// What the printing program prints for this standard input.
///
/// Open point: every line, `bad input` included, ends with a newline.
///
/// Open point: job 0 reads, with an empty table, since "none listed".
pub fn print(input: &[u8]) -> String {
    let records = input.chunks_exact(2);
    if !records.remainder().is_empty() || records.len() > MAX_RECORDS {
        return BAD_INPUT.to_owned();
    }
    let (marks, octets): (Vec<u8>, Vec<u8>) = records.map(|record| (record[0], record[1])).unzip();

    let mut text = String::new();
    let mut state = State::default();
    let kind = Check::Slicing16;
    let walked = walk_with(
        kind,
        &Settings::PRINTED,
        &mut state,
        0,
        &Table::EMPTY,
        &octets,
        &marks,
        |reading| {
            if let Answer::Counted {
                outcome,
                status,
                len,
                ..
            } = reading.answer
            {
                // Writing to a string doesn't fail.
                let _ = writeln!(text, "{} {outcome} {status} {len}", reading.start);
            }
        },
    );
    match walked {
        // Not reached: the settings are valid and the buffers of equal length.
        Walked::Refused(_) => return BAD_INPUT.to_owned(),
        Walked::Ended { starts, open } => {
            let _ = writeln!(text, "starts {starts} open {}", u8::from(open));
        }
    }
    text
}
