//! Colours on a terminal. Each outcome has its name beside its colour.
use fenhamper::Outcome;

const RED: &str = "31";
const GREEN: &str = "32";
const YELLOW: &str = "33";
const CYAN: &str = "36";

// Damaged, filtered, control, handed out.
fn colour(outcome: Outcome) -> &'static str {
    match outcome {
        Outcome::Cut
        | Outcome::BadPreamble
        | Outcome::Undersized
        | Outcome::Oversized
        | Outcome::WrongFcs
        | Outcome::WrongLength => RED,
        Outcome::Filtered => YELLOW,
        Outcome::PauseTaken | Outcome::PfcTaken | Outcome::ControlDropped => CYAN,
        Outcome::HandedOut => GREEN,
    }
}

/// An outcome's name, filled up to a width.
#[must_use]
pub fn paint(outcome: Outcome, width: usize, colours: bool) -> String {
    let name = outcome.name();
    if !colours {
        return format!("{name:width$}");
    }
    let rest = width.saturating_sub(name.len());
    format!("\x1B[{}m{name}\x1B[0m{:rest$}", colour(outcome), "")
}
