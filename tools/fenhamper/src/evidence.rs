//! What a reason stands on: where it is in the file, and what it says there.
use crate::found::{Found, BEFORE_FRAME};
use crate::names::{control_text, not_ours, octets, opcode_name};
use fenhamper::{Address, Flow, Reason};
use std::ops::Range;

const ADDRESSES: u64 = 12;
const FIELD: u64 = 2;
const TAG: u64 = 4;
const FCS: u64 = 4;
/// The least data of a frame that is sent.
const LEAST_DATA: u64 = 46;

/// Places that a rule looked at, and in words what it found there.
pub struct Evidence {
    /// The places.
    pub places: Vec<Range<u64>>,
    /// The words.
    pub words: String,
}

/// The evidence of a Start's outcome.
#[must_use]
pub fn evidence(found: &Found<'_>) -> Evidence {
    let (start, next) = (found.start(), found.next());
    let frame = start + BEFORE_FRAME;
    let (range, words) = match found.reason() {
        Reason::CutAt { place, octet } => (one(place), cut(place, octet)),
        Reason::ShortRun { length } => (start + 1..next + 1, short_run(length)),
        Reason::WrongOctet { place } => (one(place), wrong_octet(found, place)),
        Reason::TooShort { length, limit } => (frame..next, too_short(length, limit)),
        Reason::TooLong { length, limit } => {
            let over = frame + limit as u64;
            (over..next, too_long(length, limit, over))
        }
        Reason::FcsDiffers { stands, computed } => (next - FCS..next, fcs(stands, computed)),
        Reason::LengthBroken { field, data_length } => return length(found, field, data_length),
        Reason::NotForUs { destination } => (frame..frame + 6, filtered(destination)),
        Reason::TookPause { opcode } | Reason::TookPfc { opcode } => (
            opcode_at(frame),
            control(opcode) + ", and flow mode takes it",
        ),
        Reason::DroppedControl { opcode } => (
            opcode_at(frame),
            control(opcode) + &not_taken(found.flow_mode()),
        ),
        Reason::Handed { place, length } => {
            let at = place as u64;
            (at..at + length as u64, handed(place, length))
        }
    };
    Evidence {
        places: vec![range],
        words,
    }
}

fn one(place: usize) -> Range<u64> {
    place as u64..place as u64 + 1
}

fn cut(place: usize, octet: u8) -> String {
    let name = control_text(octet);
    format!("the symbol at {place} is {name}, and only Terminate ends a frame")
}

fn short_run(length: usize) -> String {
    let found = octets(length as u64);
    format!("{found} between Start and the next control symbol, a preamble has 7")
}

fn wrong_octet(found: &Found<'_>, place: usize) -> String {
    let behind = place as u64 - found.start();
    let stands = found.counted.run().get(behind as usize - 1);
    let due = if behind == 7 { 0xD5 } else { 0x55 };
    let stands = stands.copied().unwrap_or_default();
    format!("the octet at {place} is {stands:02X}, a preamble has {due:02X} there")
}

fn too_short(length: usize, limit: usize) -> String {
    format!("{length} octets from destination to FCS, {limit} are the least")
}

fn too_long(length: usize, limit: usize, over: u64) -> String {
    format!(
        "{length} octets from destination to FCS, {limit} are the most: too many from {over} on"
    )
}

// In the order on the line, low octet first.
fn fcs(stands: u32, computed: u32) -> String {
    let text = |fcs: u32| {
        fcs.to_le_bytes()
            .map(|octet| format!("{octet:02X}"))
            .join(" ")
    };
    let (stands, computed) = (text(stands), text(computed));
    format!("the last four octets are {stands}, those before them give {computed}")
}

// Of the length rule both the field and the data are marked.
fn length(found: &Found<'_>, field: u16, data_length: usize) -> Evidence {
    let tags = found.frame().tags().count() as u64;
    let at = found.start() + BEFORE_FRAME + ADDRESSES + tags * TAG;
    let due = due(field.into(), tags);
    Evidence {
        places: vec![at..at + FIELD, at + FIELD..found.next() - FCS],
        words: format!(
            "the field at {at} is {field}: {due}; {data_length} octets of data are there"
        ),
    }
}

// The data that a field asks for, behind so many tags.
fn due(field: u64, tags: u64) -> String {
    let shorter = field.max(LEAST_DATA.saturating_sub(TAG * tags));
    match field {
        1501.. => "neither a length nor a type".to_owned(),
        LEAST_DATA.. => format!("{field} are due"),
        _ if shorter < LEAST_DATA => format!("{LEAST_DATA} are due, or {shorter} behind tags"),
        _ => format!("{LEAST_DATA} are due"),
    }
}

fn filtered(destination: Address) -> String {
    format!(
        "the destination is {destination}: {}",
        not_ours(destination)
    )
}

// Behind the first field.
fn opcode_at(frame: u64) -> Range<u64> {
    let at = frame + ADDRESSES + FIELD;
    at..at + FIELD
}

fn not_taken(flow: Flow) -> String {
    let mode = match flow {
        Flow::Off => "none",
        Flow::Pause => "pause",
        Flow::Pfc => "pfc",
    };
    format!("; flow mode {mode} does not take it")
}

fn control(opcode: u16) -> String {
    match opcode_name(opcode) {
        Some(name) => format!("the opcode is {opcode:04X}, {name}"),
        None => format!("the opcode is {opcode:04X}"),
    }
}

fn handed(place: usize, length: usize) -> String {
    match octets(length as u64) {
        _ if length == 0 => format!("no data, right behind the field at {place}"),
        found => format!("{found} of data from {place} on"),
    }
}
