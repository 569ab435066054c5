//! As one JSON document, a line for each Start.
use super::Format;
use crate::failure::Failure;
use crate::found::{End, Found};
use crate::json::{list, object, or_null, text};
use crate::names::{control_text, drop_eligible, kind_name, priority, type_name, vlan};
use fenhamper::{limits, Reason, State, Tag};

#[derive(Default)]
pub struct Json {
    files: usize,
    readings: usize,
}

impl Format for Json {
    fn begin(&mut self) -> String {
        "{\"files\":[".to_owned()
    }

    fn open(&mut self, file: &str, _symbols: Option<u64>) -> String {
        let apart = if self.files > 0 { "," } else { "" };
        self.files += 1;
        self.readings = 0;
        format!("{apart}\n{{\"file\":{},\"readings\":[", text(file))
    }

    fn found(&mut self, found: &Found<'_>) -> String {
        let apart = if self.readings > 0 { "," } else { "" };
        self.readings += 1;
        format!("{apart}\n{}", reading(found))
    }

    fn close(&mut self, end: &End, _state: &State) -> String {
        let open = or_null(end.open, |place| place.to_string());
        let (starts, symbols) = (end.starts, end.symbols);
        format!("\n],\"starts\":{starts},\"open\":{open},\"symbols\":{symbols}}}")
    }

    fn broken(&mut self, what: &Failure) -> String {
        format!("\n],\"error\":{}}}", text(&what.to_string()))
    }

    fn end(&mut self) -> String {
        "\n]}\n".to_owned()
    }
}

fn reading(found: &Found<'_>) -> String {
    let (r, frame, reason) = (&found.counted, found.frame(), found.reason());
    let field = frame.field();
    let named = field
        .filter(|&field| field >= limits::LEAST_TYPE)
        .and_then(type_name);
    let data = match reason {
        Reason::Handed { place, length } => place_and_length(place, length),
        _ => "null".to_owned(),
    };
    let tags: Vec<String> = frame.tags().map(tag).collect();
    object([
        ("place", found.start().to_string()),
        ("next", found.next().to_string()),
        ("outcome", r.outcome.number().to_string()),
        ("name", text(r.outcome.name())),
        ("status", r.status.word().to_string()),
        ("source", or_null(frame.source(), |a| text(&a.to_string()))),
        (
            "destination",
            or_null(frame.destination(), |a| text(&a.to_string())),
        ),
        ("tags", list(&tags)),
        ("field", or_null(field, |field| field.to_string())),
        ("type", or_null(named, text)),
        ("frame", found.frame_length().to_string()),
        ("data", data),
        ("way", or_null(r.way, |way| way.number().to_string())),
        ("let_in_by", or_null(r.way, |way| text(&way.to_string()))),
        ("why", text(&reason.to_string())),
        ("evidence", evidence(reason)),
    ])
}

fn tag(tag: Tag) -> String {
    object([
        ("kind", text(kind_name(tag.kind))),
        ("vlan", vlan(tag).to_string()),
        ("priority", priority(tag).to_string()),
        ("drop_eligible", drop_eligible(tag).to_string()),
    ])
}

fn place_and_length(place: usize, length: usize) -> String {
    object([("place", place.to_string()), ("length", length.to_string())])
}

// What the rule of the outcome looked at.
fn evidence(reason: Reason) -> String {
    let number = |name, value: usize| object([(name, value.to_string())]);
    match reason {
        Reason::CutAt { place, octet } => object([
            ("place", place.to_string()),
            ("octet", octet.to_string()),
            ("symbol", text(&control_text(octet))),
        ]),
        Reason::ShortRun { length } => number("length", length),
        Reason::WrongOctet { place } => number("place", place),
        Reason::TooShort { length, limit } | Reason::TooLong { length, limit } => {
            object([("length", length.to_string()), ("limit", limit.to_string())])
        }
        Reason::FcsDiffers { stands, computed } => object([
            ("stands", stands.to_string()),
            ("should_be", computed.to_string()),
        ]),
        Reason::LengthBroken { field, data_length } => object([
            ("field", field.to_string()),
            ("data_length", data_length.to_string()),
        ]),
        Reason::NotForUs { destination } => {
            object([("destination", text(&destination.to_string()))])
        }
        Reason::TookPause { opcode }
        | Reason::TookPfc { opcode }
        | Reason::DroppedControl { opcode } => number("opcode", opcode.into()),
        Reason::Handed { place, length } => place_and_length(place, length),
    }
}
