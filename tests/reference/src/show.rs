//! The screen call of "Two jobs on one tester", item 10 of document 02.

use crate::check::Check;
use crate::receive::{read, Answer};
use crate::refusal;
use crate::settings::{Settings, State};
use crate::table::Table;

/// A lent capture.
#[derive(Clone, Copy, Debug, PartialEq, Eq)]
pub struct Lent<'a> {
    /// Its octets.
    pub octets: &'a [u8],
    /// Its marks.
    pub marks: &'a [u8],
}

/// A part of a capture's octets.
#[derive(Clone, Copy, Debug, PartialEq, Eq)]
pub struct Part {
    /// Where it begins.
    pub at: usize,
    /// How many octets it has.
    pub len: usize,
}

/// "the client data that a reading of the chosen job gives, a part of that job's
/// capture and of no other": job 0 has the first capture, job 1 the second. Gives
/// 1, 14, 2, 3 and 20, in that order.
///
/// Open point: it takes no state and counts nothing, as client data doesn't
/// depend on a state. It takes one job's settings, those of the chosen one.
///
/// Open point: where a reading has no data, which is so for `none` and `open` too,
/// the part is empty and begins at 0, as in the reading.
pub fn show(
    kind: Check,
    s: &Settings,
    job: u8,
    table: &Table,
    captures: [Lent; 2],
    place: usize,
) -> Result<Part, u8> {
    refusal::settings(s)?;
    refusal::job(job)?;
    let Lent { octets, marks } = captures[usize::from(job)];
    let mut state = State::default();
    let reading = read(kind, s, &mut state, job, table, octets, marks, place);
    match reading.answer {
        Answer::Refused(number) => Err(number),
        Answer::None | Answer::Open => Ok(Part { at: 0, len: 0 }),
        Answer::Counted { at, len, .. } => Ok(Part { at, len }),
    }
}
