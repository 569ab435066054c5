//! As a table that fits a hundred columns.
use super::Format;
use crate::found::{End, Found};
use crate::names::{control_text, not_ours, opcode_name, short_tag, short_way, summed};
use crate::paint::paint;
use fenhamper::{Address, FrameView, Reason, State, Status, Way};

/// Digits that a place takes at least.
const PLACE: usize = 6;
/// The widest tags that are written out, beside such a place.
const TAGS: usize = 7;

pub struct Table {
    colours: bool,
    // whether each file gets a heading
    headings: bool,
    first: bool,
    // the widths of two columns
    place: usize,
    tags: usize,
}

impl Table {
    pub fn new(colours: bool, headings: bool) -> Table {
        Table {
            colours,
            headings,
            first: true,
            place: PLACE,
            tags: TAGS,
        }
    }
}

impl Format for Table {
    fn open(&mut self, file: &str, symbols: Option<u64>) -> String {
        let mut text = String::new();
        if self.headings {
            let apart = if self.first { "" } else { "\n" };
            text = format!("{apart}{file}\n");
        }
        self.first = false;
        self.place = symbols.map_or(PLACE, |n| n.to_string().len().max(PLACE));
        self.tags = if self.place > PLACE { TAGS - 1 } else { TAGS };
        let (place, tags) = (self.place, self.tags);
        text + &format!(
            "{:>place$} {:15} {:37} {:tags$} {:>5} {:>4} {}\n",
            "place",
            "outcome",
            "source > destination",
            "tags",
            "frame",
            "data",
            "let in by / why not"
        )
    }

    fn found(&mut self, found: &Found<'_>) -> String {
        let (frame, status) = (found.frame(), found.counted.status);
        let (place, width) = (self.place, self.tags);
        let line = format!(
            "{:place$} {} {:37} {:width$} {:5} {:>4} {}",
            found.start(),
            paint(found.outcome(), 15, self.colours),
            addresses(&frame),
            tags(&frame, width),
            found.frame_length(),
            data(status),
            why(found.reason(), found.counted.way),
        );
        line.trim_end().to_owned() + "\n"
    }

    fn close(&mut self, end: &End, state: &State) -> String {
        let (handed, taken, thrown) = summed(&state.counters());
        let starts = match end.starts {
            1 => "1 Start".to_owned(),
            n => format!("{n} Starts"),
        };
        let taken = match taken {
            0 => String::new(),
            n => format!(", {n} taken"),
        };
        let open = end.open.map_or(String::new(), |place| {
            format!("; the Start at {place} is open")
        });
        format!("{starts}: {handed} handed out{taken}, {thrown} thrown away{open}\n")
    }
}

// Source and destination, as far as they are there.
fn addresses(frame: &FrameView<'_>) -> String {
    let text = |address: Option<Address>| address.map_or("-".to_owned(), |a| a.to_string());
    match (frame.source(), frame.destination()) {
        (None, None) => "-".to_owned(),
        (source, destination) => format!("{:17} > {}", text(source), text(destination)),
    }
}

// The tags by their VLANs, or how many where that is too wide.
fn tags(frame: &FrameView<'_>, width: usize) -> String {
    let tags: Vec<String> = frame.tags().map(short_tag).collect();
    let text = tags.join(".");
    if text.len() > width {
        return format!("{} tags", tags.len());
    }
    text
}

// How many octets of data there are; of outcomes 1 to 7 nothing is said.
fn data(status: Status) -> String {
    match status.word() {
        0 => "-".to_owned(),
        _ => status.data_length().to_string(),
    }
}

// What let a frame in, or why not, in twenty letters.
fn why(reason: Reason, way: Option<Way>) -> String {
    let way = way.map_or(String::new(), short_way);
    match reason {
        Reason::CutAt { place, octet } => format!("by {} at {place}", control_text(octet)),
        Reason::ShortRun { length } => format!("only {length} of 7 octets"),
        Reason::WrongOctet { place } => format!("wrong at {place}"),
        Reason::TooShort { length, limit } => format!("{length} under {limit}"),
        Reason::TooLong { length, limit } => format!("{length} over {limit}"),
        Reason::FcsDiffers { stands, computed } => format!("{stands:08X} != {computed:08X}"),
        Reason::LengthBroken { field, data_length } => format!("field {field}, has {data_length}"),
        Reason::NotForUs { destination } => not_ours(destination).to_owned(),
        Reason::TookPause { opcode }
        | Reason::TookPfc { opcode }
        | Reason::DroppedControl { opcode } => {
            let name = opcode_name(opcode);
            name.map_or_else(
                || format!("op {opcode:04X}, {way}"),
                |name| format!("{name}, {way}"),
            )
        }
        Reason::Handed { .. } => way,
    }
}
