//! "Refusals and their order". Each check gives its number as the error, so a
//! call that makes its checks in their order, with `?` between them, gives the
//! first: the order is that of the numbers, but 10 stands between 6 and 7, 14
//! right behind 1, 19, 20, 21 and 22 right behind 3, and 17 before 15. A call on
//! the table has none of the capture's, so that 20 comes right behind 14 there. So
//! it does in the plain reader, where 2 comes last.

use crate::line::{is_tag, CONTROL_FIELD, FIRST_TYPE, LAST_LENGTH, MAX_SYMBOLS, MAX_TAGS};
use crate::log::RECORD_LEN;
use crate::port::Port;
use crate::send::{Form, Tag};
use crate::settings::{Flow, Settings, State};
use crate::table::Table;
use crate::totals::{self, Total, BLOCK};

pub(crate) type Checked = Result<(), u8>;

fn refuse(number: u8, when: bool) -> Checked {
    if when {
        Err(number)
    } else {
        Ok(())
    }
}

/// Refusal 1.
pub(crate) fn settings(settings: &Settings) -> Checked {
    refuse(1, !settings.are_valid())
}

/// Refusal 2.
pub(crate) fn buffers(octets: &[u8], marks: &[u8]) -> Checked {
    let differ = octets.len() != marks.len();
    refuse(2, differ || octets.len() > MAX_SYMBOLS)
}

/// Refusal 2 of the plain reader: "for a symbol after 65,536 of them".
pub(crate) fn symbols(taken: usize) -> Checked {
    refuse(2, taken >= MAX_SYMBOLS)
}

/// Refusals 2 and 3. A place equal to the length isn't beyond it.
pub(crate) fn line(octets: &[u8], marks: &[u8], place: usize) -> Checked {
    buffers(octets, marks)?;
    refuse(3, place > octets.len())
}

/// Refusals 3 and 19 that only a frame on the four-lane port can meet.
pub(crate) fn port(port: Port, state: &State, place: usize) -> Checked {
    refuse(3, !port.accepts(place))?;
    refuse(19, !port.allows(state.deficit))
}

/// Refusal 4.
pub(crate) fn flow(settings: &Settings, asked: Flow) -> Checked {
    refuse(4, settings.flow != asked)
}

/// Refusal 5.
pub(crate) fn class(class: u8) -> Checked {
    refuse(5, class > 7)
}

/// Refusal 6.
pub(crate) fn form(form: Form) -> Checked {
    match form {
        Form::Length => Ok(()),
        Form::Type(field) => refuse(
            6,
            field < FIRST_TYPE || is_tag(field) || field == CONTROL_FIELD,
        ),
    }
}

/// Refusal 10.
pub(crate) fn tags(tags: &[Tag]) -> Checked {
    refuse(10, tags.len() > MAX_TAGS)
}

/// Refusal 7.
///
/// Open point: a tag doesn't lower the data limit of the type form, as the
/// table names none and a tag raises the frame's limit by its own four octets.
pub(crate) fn data(settings: &Settings, form: Form, data: usize) -> Checked {
    let most = match form {
        Form::Length => usize::from(LAST_LENGTH),
        Form::Type(_) => usize::from(settings.limit).saturating_sub(18),
    };
    refuse(7, data > most)
}

/// Refusal 8, for a place that isn't beyond the buffers.
pub(crate) fn room(octets: &[u8], place: usize, needed: usize) -> Checked {
    refuse(8, octets.len().saturating_sub(place) < needed)
}

/// Refusal 9.
///
/// Open point: the flow mode isn't asked, as the table doesn't name it. A
/// timer set earlier holds in every mode.
pub(crate) fn timer(state: &State, class: u8) -> Checked {
    let timer = state.timers.get(usize::from(class));
    refuse(9, timer.is_some_and(|&slots| slots > 0))
}

/// Refusal 11.
pub(crate) fn log(log: &[u8]) -> Checked {
    let rest = log.chunks_exact(RECORD_LEN).remainder();
    refuse(11, !rest.is_empty())
}

/// Refusal 12, unless there is an unused record.
pub(crate) fn unused(is_there: bool) -> Checked {
    refuse(12, !is_there)
}

/// Refusal 13, unless there is a used record of that number: gives that one.
pub(crate) fn used<T>(record: Option<T>) -> Result<T, u8> {
    record.ok_or(13)
}

/// Refusal 14.
pub(crate) fn job(job: u8) -> Checked {
    refuse(14, job > 1)
}

/// Refusal 20.
pub(crate) fn table(table: &Table) -> Checked {
    refuse(20, table.is_broken())
}

/// Refusal 17.
pub(crate) fn new_to(table: &Table, job: u8, address: &[u8; 6]) -> Checked {
    refuse(17, table.entry_of(job, address).is_some())
}

/// Refusal 15.
pub(crate) fn held(table: &Table, job: u8) -> Checked {
    refuse(15, table.holds_all(job))
}

/// Refusal 16, unless there is a free entry: gives the lowest.
pub(crate) fn free_entry(table: &Table) -> Result<usize, u8> {
    table.lowest_free().ok_or(16)
}

/// Refusal 18, unless the job has listed the address: gives its entry.
pub(crate) fn listed(table: &Table, job: u8, address: &[u8; 6]) -> Result<usize, u8> {
    table.entry_of(job, address).ok_or(18)
}

/// Refusal 21.
pub(crate) fn blocks(octets: &[u8], totals: &[Total]) -> Checked {
    refuse(21, totals.len() != totals::blocks(octets.len()))
}

/// Refusal 22.
pub(crate) fn totals(totals: &[Total]) -> Checked {
    refuse(22, totals.iter().any(|&total| usize::from(total) > BLOCK))
}
