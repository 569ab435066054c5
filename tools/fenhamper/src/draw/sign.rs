//! What is drawn: runs by their outcomes, and what stands between them.
use fenhamper::Outcome;

/// Something on the line that is not Idle.
#[derive(Clone, Copy, Debug, PartialEq, Eq, PartialOrd, Ord)]
pub enum Sign {
    /// A Start and its run.
    Run(Outcome),
    /// A Start whose run has not ended inside the file.
    Open,
    /// A control symbol other than Start, Terminate and Idle.
    Control,
    /// Data that no Start stands before.
    Data,
}

impl Sign {
    /// All signs, in the order of the legend.
    pub fn all() -> impl Iterator<Item = Sign> {
        let runs = Outcome::ALL.into_iter().rev().map(Sign::Run);
        runs.chain([Sign::Open, Sign::Control, Sign::Data])
    }

    /// Its name.
    pub fn name(self) -> &'static str {
        match self {
            Sign::Run(outcome) => outcome.name(),
            Sign::Open => "open",
            Sign::Control => "Error or other control symbol",
            Sign::Data => "data without a Start",
        }
    }

    /// Its name where there is little room.
    pub fn short(self) -> &'static str {
        match self {
            Sign::Run(outcome) => match outcome {
                Outcome::Cut => "cut",
                Outcome::BadPreamble => "pre",
                Outcome::Undersized => "under",
                Outcome::Oversized => "over",
                Outcome::WrongFcs => "FCS",
                Outcome::WrongLength => "len",
                Outcome::Filtered => "filt",
                Outcome::PauseTaken => "pause",
                Outcome::PfcTaken => "PFC",
                Outcome::ControlDropped => "ctrl",
                Outcome::HandedOut => "ok",
            },
            Sign::Open => "open",
            Sign::Control => "E",
            Sign::Data => "data",
        }
    }

    /// What its box is called in the style.
    pub fn class(self) -> String {
        match self {
            Sign::Run(outcome) => format!("o{}", outcome.number()),
            Sign::Open => "open".to_owned(),
            Sign::Control => "control".to_owned(),
            Sign::Data => "data".to_owned(),
        }
    }

    /// The colour of its box, and the lines on it that tell it from others without colour.
    pub fn fill(self) -> (&'static str, &'static str) {
        match self {
            Sign::Run(outcome) => match outcome {
                Outcome::Cut => ("#f0955f", "M0 8L8 0"),
                Outcome::BadPreamble => ("#f5bd68", "M0 0L8 8"),
                Outcome::Undersized => ("#f2d64b", "M4 0V8"),
                Outcome::Oversized => ("#d9a6c2", "M0 4H8"),
                Outcome::WrongFcs => ("#ee8ba2", "M0 0L8 8M0 8L8 0"),
                Outcome::WrongLength => ("#cfa5da", "M4 0V8M0 4H8"),
                Outcome::Filtered => ("#ffffff", "M1 1h1"),
                Outcome::PauseTaken => ("#a5d8f0", "M2 2h2v2h-2z"),
                Outcome::PfcTaken => ("#7cc7bd", "M1 1h2v2h-2zM5 5h2v2h-2z"),
                Outcome::ControlDropped => ("#9dbfe6", "M0 2H4M4 6H8"),
                Outcome::HandedOut => ("#8fce9b", ""),
            },
            Sign::Open => ("#ffffff", "M0 8L8 0M0 4L4 0M4 8L8 4"),
            Sign::Control => ("#b4b4b4", "M0 2H8M0 6H8"),
            Sign::Data => ("#e6e6e6", ""),
        }
    }
}
