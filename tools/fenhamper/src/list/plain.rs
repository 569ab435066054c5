//! As the program `readings` prints it.
use super::Format;
use crate::found::{End, Found};
use fenhamper::State;

pub struct Plain;

impl Format for Plain {
    fn open(&mut self, _file: &str, _symbols: Option<u64>) -> String {
        String::new()
    }

    fn found(&mut self, found: &Found<'_>) -> String {
        let r = &found.counted;
        let (place, outcome) = (found.start(), r.outcome.number());
        let (status, handed) = (r.status.word(), r.data.len());
        format!("{place} {outcome} {status} {handed}\n")
    }

    fn close(&mut self, end: &End, _state: &State) -> String {
        let open = u8::from(end.open.is_some());
        format!("starts {} open {open}\n", end.starts)
    }

    fn bad(&mut self) -> String {
        "bad input\n".to_owned()
    }
}
