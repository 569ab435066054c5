//! What can go wrong, each in one line with what to do.
use fenhamper::Refusal;
use std::fmt;
use std::io;

/// Why the tool stopped, or left a file out.
#[derive(Debug)]
pub enum Failure {
    /// The command line asks for what there is not.
    Usage(String),
    /// A file cannot be read, or is not what it should be.
    Input {
        /// The file's name.
        name: String,
        /// What is wrong with it.
        what: String,
    },
    /// Output cannot be written.
    Output {
        /// The file's name, or standard output.
        name: String,
        /// What the system says.
        error: io::Error,
    },
    /// Whoever read the output has gone: no more is wanted.
    Closed,
}

impl Failure {
    /// What the command line asks for is not there.
    pub fn usage(what: impl Into<String>) -> Failure {
        Failure::Usage(what.into())
    }

    /// A file is not what it should be.
    pub fn input(name: &str, what: impl Into<String>) -> Failure {
        Failure::Input {
            name: name.to_owned(),
            what: what.into(),
        }
    }

    /// The system cannot read a file.
    #[must_use]
    pub fn reading(name: &str, error: &io::Error) -> Failure {
        Failure::input(name, format!("cannot be read: {}", said(error)))
    }

    /// The system cannot write; a closed pipe is no fault.
    #[must_use]
    pub fn writing(name: &str, error: io::Error) -> Failure {
        if error.kind() == io::ErrorKind::BrokenPipe {
            return Failure::Closed;
        }
        Failure::Output {
            name: name.to_owned(),
            error,
        }
    }
}

impl From<Refusal> for Failure {
    /// What settings, job and table do not allow.
    fn from(refusal: Refusal) -> Failure {
        Failure::Usage(refusal.to_string())
    }
}

// What the system says, without its number.
fn said(error: &io::Error) -> String {
    let text = error.to_string();
    match text.split_once(" (os error") {
        Some((words, _)) => words.to_owned(),
        None => text,
    }
}

impl fmt::Display for Failure {
    fn fmt(&self, f: &mut fmt::Formatter<'_>) -> fmt::Result {
        match self {
            Failure::Usage(what) => f.write_str(what),
            Failure::Input { name, what } => write!(f, "{name}: {what}"),
            Failure::Output { name, error } => {
                write!(f, "{name}: cannot be written: {}", said(error))
            }
            Failure::Closed => f.write_str("the reader of the output has gone"),
        }
    }
}

impl std::error::Error for Failure {}
