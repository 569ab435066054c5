//! What a command reads from and writes to.
use crate::failure::Failure;
use std::io::{Read, Write};

/// Standard output, as it is named where it cannot be written.
pub const STANDARD_OUTPUT: &str = "standard output";

/// Standard input, output and error, and what is known of them.
pub struct Io<'a> {
    /// Standard input.
    pub input: &'a mut dyn Read,
    /// Standard output.
    pub output: &'a mut dyn Write,
    /// Standard error.
    pub errors: &'a mut dyn Write,
    /// Whether standard output is a terminal.
    pub shown: bool,
    /// Whether that terminal shows colours.
    pub colours: bool,
    /// Whether standard error is a terminal.
    pub terminal: bool,
}

impl Io<'_> {
    /// Says in one line what went wrong, behind what was printed before it.
    pub fn complain(&mut self, failure: &Failure) {
        let _ = self.output.flush();
        let _ = writeln!(self.errors, "fenhamper: {failure}");
    }

    /// Tells of a file that cannot be read, and goes on with the next; true since one failed. Any
    /// other failure ends it all.
    pub fn goes_on(&mut self, failure: Failure) -> Result<bool, Failure> {
        match failure {
            Failure::Input { .. } => {
                self.complain(&failure);
                Ok(true)
            }
            other => Err(other),
        }
    }

    /// Writes to standard output.
    pub fn print(&mut self, text: &str) -> Result<(), Failure> {
        print(self.output, text)
    }
}

/// Writes to standard output.
pub fn print(output: &mut dyn Write, text: &str) -> Result<(), Failure> {
    let written = output.write_all(text.as_bytes());
    written.map_err(|error| Failure::writing(STANDARD_OUTPUT, error))
}

/// What became of a command that was not given up.
#[derive(Clone, Copy, Debug, Default, PartialEq, Eq)]
pub struct Verdict {
    /// Something was thrown away, and that was asked for.
    pub thrown_away: bool,
    /// A file could not be read; it was told, and the others were read.
    pub failed: bool,
}

impl Verdict {
    /// The exit code: 0 read, 1 something was thrown away, 2 not all could be read.
    #[must_use]
    pub fn code(self) -> u8 {
        match self {
            Verdict { failed: true, .. } => 2,
            Verdict {
                thrown_away: true, ..
            } => 1,
            _ => 0,
        }
    }
}
