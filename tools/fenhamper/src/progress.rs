//! A line on standard error while a long file is read.
use std::io::Write;
use std::time::{Duration, Instant};

/// What takes less long gets no line.
const PATIENCE: Duration = Duration::from_secs(1);
/// How often the line is written anew.
const PAUSE: Duration = Duration::from_millis(200);

/// Says how far a reading is, on a terminal and from a second on. The line goes when it is dropped.
pub struct Progress<'e> {
    errors: &'e mut dyn Write,
    next: Option<Instant>,
    shown: usize,
}

impl<'e> Progress<'e> {
    /// Begins now. Nothing is ever said where standard error is no terminal.
    pub fn new(errors: &'e mut dyn Write, terminal: bool) -> Progress<'e> {
        Progress::after(errors, terminal, PATIENCE)
    }

    fn after(errors: &'e mut dyn Write, terminal: bool, patience: Duration) -> Progress<'e> {
        Progress {
            errors,
            next: terminal.then(|| Instant::now() + patience),
            shown: 0,
        }
    }

    /// Says how many symbols or octets of a file are read, and of how many, if it is time.
    pub fn tell(&mut self, name: &str, read: u64, all: Option<u64>, unit: &str) {
        let Some(next) = self.next else {
            return;
        };
        let now = Instant::now();
        if now >= next {
            self.next = Some(now + PAUSE);
            self.show(&line(name, read, all, unit));
        }
    }

    // Writes over the line that stands there. That it cannot be written is no reason to stop.
    fn show(&mut self, text: &str) {
        let _ = write!(self.errors, "\r{text:0$}", self.shown);
        let _ = self.errors.flush();
        self.shown = text.chars().count();
    }
}

impl Drop for Progress<'_> {
    fn drop(&mut self) {
        if self.shown > 0 {
            self.show("");
            let _ = write!(self.errors, "\r");
        }
    }
}

fn line(name: &str, read: u64, all: Option<u64>, unit: &str) -> String {
    match all {
        Some(all) if all > 0 => {
            let percent = u128::from(read) * 100 / u128::from(all);
            format!("{name}: {read} of {all} {unit}, {percent} %")
        }
        _ => format!("{name}: {read} {unit}"),
    }
}

#[cfg(test)]
mod tests {
    use super::*;

    // What is said of a reading that is told twice.
    fn said(terminal: bool, patience: Duration) -> String {
        let mut errors = Vec::new();
        let mut progress = Progress::after(&mut errors, terminal, patience);
        progress.tell("a.capture", 65_536, None, "symbols");
        progress.next = progress.next.map(|_| Instant::now() + patience);
        progress.tell("a.capture", 70_000, Some(140_000), "symbols");
        drop(progress);
        String::from_utf8(errors).unwrap()
    }

    #[test]
    fn a_terminal_is_told_after_a_while() {
        let (first, second) = (
            "a.capture: 65536 symbols",
            "a.capture: 70000 of 140000 symbols, 50 %",
        );
        let gone = " ".repeat(second.len());
        let lines = format!("\r{first}\r{second}\r{gone}\r");
        assert_eq!(said(true, Duration::ZERO), lines);
    }

    #[test]
    fn what_is_quick_or_no_terminal_is_told_nothing() {
        assert_eq!(said(true, PATIENCE), "");
        assert_eq!(said(false, Duration::ZERO), "");
    }
}
