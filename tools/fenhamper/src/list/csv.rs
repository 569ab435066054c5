//! As comma-separated values.
use super::Format;
use crate::found::{End, Found};
use crate::names::whole_tag;
use fenhamper::{Address, Reason, State};

const NAMES: &str = "file,place,next,outcome,name,status,source,destination,tags,field,frame,\
                     data_place,data_length,way,let_in_by,why\n";

#[derive(Default)]
pub struct Csv {
    file: String,
}

impl Format for Csv {
    fn begin(&mut self) -> String {
        NAMES.to_owned()
    }

    fn open(&mut self, file: &str, _symbols: Option<u64>) -> String {
        self.file = quoted(file);
        String::new()
    }

    fn found(&mut self, found: &Found<'_>) -> String {
        let (r, frame, reason) = (&found.counted, found.frame(), found.reason());
        let address = |address: Option<Address>| address.map_or(String::new(), |a| a.to_string());
        let tags: Vec<String> = frame.tags().map(whole_tag).collect();
        let (data_place, data_length) = match reason {
            Reason::Handed { place, length } => (place.to_string(), length.to_string()),
            _ => Default::default(),
        };
        let cells = [
            self.file.clone(),
            found.start().to_string(),
            found.next().to_string(),
            r.outcome.number().to_string(),
            r.outcome.name().to_owned(),
            r.status.word().to_string(),
            address(frame.source()),
            address(frame.destination()),
            tags.join("."),
            frame
                .field()
                .map_or(String::new(), |field| field.to_string()),
            found.frame_length().to_string(),
            data_place,
            data_length,
            r.way.map_or(String::new(), |way| way.number().to_string()),
            r.way.map_or(String::new(), |way| way.to_string()),
            quoted(&reason.to_string()),
        ];
        cells.join(",") + "\n"
    }

    fn close(&mut self, _end: &End, _state: &State) -> String {
        String::new()
    }
}

// In quotes where a comma, a quote or a line's end needs them.
fn quoted(text: &str) -> String {
    if text.contains([',', '"', '\n', '\r']) {
        return format!("\"{}\"", text.replace('"', "\"\""));
    }
    text.to_owned()
}

#[cfg(test)]
mod tests {
    use super::quoted;

    #[test]
    fn what_needs_quotes_has_them() {
        assert_eq!(
            ["a b", "a,b", "a\"b"].map(quoted),
            ["a b", "\"a,b\"", "\"a\"\"b\""]
        );
    }
}
